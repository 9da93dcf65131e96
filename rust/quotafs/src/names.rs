//! Names, listed beside a text of their bytes.

/// Room for one name of a list: the directory that holds it, the inode that it leads to, and where its bytes stand in
/// the text beside the list.
///
/// ```
/// use quotafs::ListedName;
///
/// let room_for_names = [ListedName::default(); 100];
/// assert_eq!(room_for_names[0].ino, 0);
/// ```
#[repr(C)]
#[derive(Clone, Copy, Debug, Default, PartialEq, Eq, Hash)]
pub struct ListedName {
    /// The number of its directory.
    pub dir: u64,
    /// The number of the inode that it leads to.
    pub ino: u64,
    at: usize,
    len: usize,
}

/// One name: the directory that holds it, its bytes, and the inode that it leads to.
///
/// ```
/// use quotafs::Name;
///
/// let log_in_the_root = Name { dir: 1, text: "log", ino: 2 };
/// assert_eq!(log_in_the_root.text.len(), 3);
/// ```
#[derive(Clone, Copy, Debug, PartialEq, Eq, Hash)]
pub struct Name<'b> {
    /// The number of its directory, 1 of the root.
    pub dir: u64,
    /// Its bytes.
    pub text: &'b str,
    /// The number of the inode that it leads to.
    pub ino: u64,
}

/// All names of a session, by directory and name, as [`Session::names`](crate::Session::names) lists them.
///
/// ```
/// # const CONFIG: &str = r#"size = "1m"
/// # nr_inodes = 16
/// # block_grace = 1
/// # inode_grace = 1
/// # user = [{id = 0, name = "root"}]
/// # group = [{id = 0, name = "root"}]"#;
/// use quotafs::{Caller, ListedName, Session};
///
/// let mut session = Session::open(CONFIG, 7)?;
/// session.create(&Caller::ROOT, 0, "/log")?;
/// session.create(&Caller::ROOT, 0, "/cache")?;
/// let (mut list, mut text) = ([ListedName::default(); 4], [0; 64]);
/// let names = session.names(&mut list, &mut text)?;
/// assert!(names.iter().map(|name| name.text).eq(["cache", "log"]));
/// # Ok::<(), quotafs::Error>(())
/// ```
#[derive(Clone, Copy, Debug)]
pub struct Names<'b> {
    pub(crate) list: &'b [ListedName],
    pub(crate) text: &'b [u8],
}

impl<'b> Names<'b> {
    /// How many there are.
    pub fn len(&self) -> usize {
        self.list.len()
    }

    /// There are none.
    pub fn is_empty(&self) -> bool {
        self.list.is_empty()
    }

    /// The names, one after another.
    pub fn iter(&self) -> impl Iterator<Item = Name<'b>> + use<'b> {
        let text = self.text;
        self.list.iter().map(move |row| Name { dir: row.dir, text: told(&text[row.at..][..row.len]), ino: row.ino })
    }
}

/// The bytes of a name, which are 0x21 to 0x7E.
fn told(bytes: &[u8]) -> &str {
    core::str::from_utf8(bytes).expect("a name is ASCII")
}
