//! Why the store refused a call.
use core::fmt;

/// Whose quota record.
///
/// ```
/// use quotafs::Kind;
///
/// assert_eq!(Kind::Project.to_string(), "project");
/// ```
#[derive(Clone, Copy, Debug, PartialEq, Eq, Hash)]
pub enum Kind {
    /// A user's.
    User = 0,
    /// A group's.
    Group = 1,
    /// A project's.
    Project = 2,
}

/// Which limit is in the way.
///
/// ```
/// use quotafs::Over;
///
/// assert_eq!(Over::BlockSoft.to_string(), "block-soft");
/// ```
#[derive(Clone, Copy, Debug, PartialEq, Eq, Hash)]
pub enum Over {
    /// The hard limit of inodes.
    InodeHard = 0,
    /// The soft limit of inodes, whose grace has ended.
    InodeSoft = 1,
    /// The hard limit of blocks.
    BlockHard = 2,
    /// The soft limit of blocks, whose grace has ended.
    BlockSoft = 3,
}

/// Why the store refused a call, which changed nothing.
///
/// ```
/// use quotafs::{Kind, Over, Refusal};
///
/// let refusal = Refusal::EDQUOT(Kind::User, Over::BlockHard);
/// assert_eq!((refusal.number(), refusal.to_string().as_str()), (34, "EDQUOT user block-hard"));
/// ```
#[derive(Clone, Copy, Debug, PartialEq, Eq, Hash)]
#[allow(missing_docs)]
pub enum Refusal {
    EINVAL,
    ENAMETOOLONG,
    ENOENT,
    ENOTDIR,
    EEXIST,
    /// The whole store has no block or no inode left.
    ENOSPC,
    EISDIR,
    EACCES,
    EFBIG,
    EPERM,
    EMLINK,
    ENOTEMPTY,
    EBUSY,
    ESRCH,
    /// A quota is in the way: whose, and which of its limits.
    EDQUOT(Kind, Over),
}

/// The numbers of EDQUOT begin here, four of each kind.
const FIRST_OVER: u32 = 32;

impl Kind {
    const ALL: [Kind; 3] = [Kind::User, Kind::Group, Kind::Project];

    fn name(self) -> &'static str {
        match self {
            Kind::User => "user",
            Kind::Group => "group",
            Kind::Project => "project",
        }
    }
}

impl Over {
    const ALL: [Over; 4] = [Over::InodeHard, Over::InodeSoft, Over::BlockHard, Over::BlockSoft];

    fn name(self) -> &'static str {
        match self {
            Over::InodeHard => "inode-hard",
            Over::InodeSoft => "inode-soft",
            Over::BlockHard => "block-hard",
            Over::BlockSoft => "block-soft",
        }
    }
}

impl Refusal {
    const PLAIN: [Refusal; 14] = [
        Refusal::EINVAL,
        Refusal::ENAMETOOLONG,
        Refusal::ENOENT,
        Refusal::ENOTDIR,
        Refusal::EEXIST,
        Refusal::ENOSPC,
        Refusal::EISDIR,
        Refusal::EACCES,
        Refusal::EFBIG,
        Refusal::EPERM,
        Refusal::EMLINK,
        Refusal::ENOTEMPTY,
        Refusal::EBUSY,
        Refusal::ESRCH,
    ];

    /// Its number in `quotafs.h`.
    pub fn number(self) -> u32 {
        match self {
            Refusal::EINVAL => 1,
            Refusal::ENAMETOOLONG => 2,
            Refusal::ENOENT => 3,
            Refusal::ENOTDIR => 4,
            Refusal::EEXIST => 5,
            Refusal::ENOSPC => 6,
            Refusal::EISDIR => 8,
            Refusal::EACCES => 9,
            Refusal::EFBIG => 10,
            Refusal::EPERM => 11,
            Refusal::EMLINK => 12,
            Refusal::ENOTEMPTY => 13,
            Refusal::EBUSY => 14,
            Refusal::ESRCH => 15,
            Refusal::EDQUOT(kind, over) => FIRST_OVER + 4 * kind as u32 + over as u32,
        }
    }

    /// The refusal of a number, if there is one.
    pub(crate) fn of(number: u32) -> Option<Refusal> {
        let all_over = Kind::ALL.into_iter().flat_map(|kind| Over::ALL.map(|over| Refusal::EDQUOT(kind, over)));
        Refusal::PLAIN.into_iter().chain(all_over).find(|refusal| refusal.number() == number)
    }
}

impl fmt::Display for Kind {
    fn fmt(&self, out: &mut fmt::Formatter<'_>) -> fmt::Result {
        out.write_str(self.name())
    }
}

impl fmt::Display for Over {
    fn fmt(&self, out: &mut fmt::Formatter<'_>) -> fmt::Result {
        out.write_str(self.name())
    }
}

impl fmt::Display for Refusal {
    fn fmt(&self, out: &mut fmt::Formatter<'_>) -> fmt::Result {
        match self {
            Refusal::EDQUOT(kind, over) => write!(out, "EDQUOT {kind} {over}"),
            plain => write!(out, "{plain:?}"),
        }
    }
}
