//! Inodes, listed.

/// One inode of a list: its allocated blocks of 4096 bytes, whose it is, and how many names lead to it.
///
/// ```
/// use quotafs::ListedInode;
///
/// assert_eq!(ListedInode::default().project(), None);
/// ```
#[repr(C)]
#[derive(Clone, Copy, Debug, Default, PartialEq, Eq, Hash)]
pub struct ListedInode {
    /// Its number.
    pub ino: u64,
    /// How many names lead to it; of a directory 2 and its subdirectories.
    pub links: u64,
    /// Its allocated blocks.
    pub blocks: u32,
    /// Its user.
    pub uid: u32,
    /// Its group.
    pub gid: u32,
    project: u32,
    has_project: bool,
    /// Whether it is a directory.
    pub dir: bool,
}

impl ListedInode {
    /// Its project, where projects are declared.
    pub fn project(&self) -> Option<u32> {
        self.has_project.then_some(self.project)
    }
}
