//! What a call brings beside its caller.

/// The owners that an inode is to have; one that is not named stays.
///
/// ```
/// use quotafs::NewOwners;
///
/// let to_root_and_kit = NewOwners::new().uid(0).project(7);
/// assert_ne!(to_root_and_kit, NewOwners::new());
/// ```
#[repr(C)]
#[derive(Clone, Copy, Debug, Default, PartialEq, Eq, Hash)]
pub struct NewOwners {
    uid: u32,
    gid: u32,
    project: u32,
    has_uid: bool,
    has_gid: bool,
    has_project: bool,
}

impl NewOwners {
    /// Every owner stays.
    pub const fn new() -> NewOwners {
        NewOwners { uid: 0, gid: 0, project: 0, has_uid: false, has_gid: false, has_project: false }
    }

    /// And this user is to own it.
    pub const fn uid(self, uid: u32) -> NewOwners {
        NewOwners { uid, has_uid: true, ..self }
    }

    /// And this group.
    pub const fn gid(self, gid: u32) -> NewOwners {
        NewOwners { gid, has_gid: true, ..self }
    }

    /// And this project.
    pub const fn project(self, project: u32) -> NewOwners {
        NewOwners { project, has_project: true, ..self }
    }
}

/// Limits: blocks in KiB, inodes by number; 0 is no limit.
///
/// ```
/// use quotafs::NewLimits;
///
/// let limits = NewLimits { block_soft: 64, block_hard: 128, ..NewLimits::default() };
/// assert_eq!(limits.inode_hard, 0);
/// ```
#[repr(C)]
#[derive(Clone, Copy, Debug, Default, PartialEq, Eq, Hash)]
pub struct NewLimits {
    /// Of blocks, in KiB, which may be passed for a grace.
    pub block_soft: u64,
    /// Of blocks, in KiB, which may not be passed.
    pub block_hard: u64,
    /// Of inodes, which may be passed for a grace.
    pub inode_soft: u64,
    /// Of inodes, which may not be passed.
    pub inode_hard: u64,
}
