//! Replies to calls.

/// What a granted call did: its inode, and by how much the totals rose and fell, in blocks of 4096 bytes and inodes.
///
/// ```
/// use quotafs::DoneReply;
///
/// let file_made = DoneReply { ino: 2, inodes_charged: 1, ..DoneReply::default() };
/// assert_eq!(file_made.blocks_charged, 0);
/// ```
#[repr(C)]
#[derive(Clone, Copy, Debug, Default, PartialEq, Eq, Hash)]
pub struct DoneReply {
    /// The number of the inode, 0 of a call that is of none.
    pub ino: u64,
    /// How many blocks were taken.
    pub blocks_charged: u64,
    /// How many blocks were given back.
    pub blocks_released: u64,
    /// How many inodes were taken.
    pub inodes_charged: u64,
    /// How many inodes were given back.
    pub inodes_released: u64,
}

/// An inode: bytes with the holes, allocated blocks of 4096 bytes, how many names lead to it, and whose it is.
///
/// ```
/// use quotafs::StatReply;
///
/// let byte = StatReply { ino: 2, size: 1, blocks: 1, links: 1, uid: 1000, gid: 100, dir: false };
/// assert!(byte.size <= byte.blocks * 4096);
/// ```
#[repr(C)]
#[derive(Clone, Copy, Debug, Default, PartialEq, Eq, Hash)]
pub struct StatReply {
    /// Its number.
    pub ino: u64,
    /// Its bytes, with the holes.
    pub size: u64,
    /// Its allocated blocks.
    pub blocks: u64,
    /// How many names lead to it; of a directory 2 and its subdirectories.
    pub links: u64,
    /// Its user.
    pub uid: u32,
    /// Its group.
    pub gid: u32,
    /// Whether it is a directory.
    pub dir: bool,
}

/// A quota record: uses in blocks of 4096 bytes and inodes, limits as in [`NewLimits`](crate::NewLimits), and the ends
/// of graces that run.
///
/// ```
/// use quotafs::QuotaReply;
///
/// let unused = QuotaReply::default();
/// assert_eq!((unused.blocks, unused.block_end()), (0, None));
/// ```
#[repr(C)]
#[derive(Clone, Copy, Debug, Default, PartialEq, Eq, Hash)]
pub struct QuotaReply {
    /// Blocks in use.
    pub blocks: u64,
    /// Inodes in use.
    pub inodes: u64,
    /// The soft limit of blocks, in KiB.
    pub block_soft: u64,
    /// The hard limit of blocks, in KiB.
    pub block_hard: u64,
    /// The soft limit of inodes.
    pub inode_soft: u64,
    /// The hard limit of inodes.
    pub inode_hard: u64,
    block_end: u64,
    inode_end: u64,
    has_block_end: bool,
    has_inode_end: bool,
}

impl QuotaReply {
    /// The moment at which the grace of blocks ends, where one runs.
    pub fn block_end(&self) -> Option<u64> {
        self.has_block_end.then_some(self.block_end)
    }

    /// The moment at which the grace of inodes ends, where one runs.
    pub fn inode_end(&self) -> Option<u64> {
        self.has_inode_end.then_some(self.inode_end)
    }
}

/// What the journaled calls did to the totals, added up, and how many calls there were.
///
/// ```
/// use quotafs::TallyReply;
///
/// let none = TallyReply::default();
/// assert_eq!(none.blocks_charged - none.blocks_released, 0);
/// ```
#[repr(C)]
#[derive(Clone, Copy, Debug, Default, PartialEq, Eq, Hash)]
pub struct TallyReply {
    /// Blocks that were taken.
    pub blocks_charged: u64,
    /// Blocks that were given back.
    pub blocks_released: u64,
    /// Inodes that were taken.
    pub inodes_charged: u64,
    /// Inodes that were given back.
    pub inodes_released: u64,
    /// Calls that were journaled.
    pub calls: u64,
}
