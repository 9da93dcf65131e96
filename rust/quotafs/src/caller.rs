//! Who makes a call.

/// How many further groups a caller may have.
pub const MAX_MORE_GROUPS: usize = 16;

/// Who makes a call: a user, a group, and up to 16 further groups. User 0 is the superuser.
///
/// ```
/// use quotafs::Caller;
///
/// let builder = Caller::new(1000, 100);
/// let tester = Caller::with_groups(1001, 100, &[200, 300]).expect("at most 16");
/// assert_eq!((builder.groups().len(), tester.groups()), (0, [200, 300].as_slice()));
/// assert!(Caller::with_groups(1001, 100, &[0; 17]).is_none());
/// ```
#[repr(C)]
#[derive(Clone, Copy, Debug, PartialEq, Eq, Hash)]
pub struct Caller {
    uid: u32,
    gid: u32,
    count: u32,
    groups: [u32; MAX_MORE_GROUPS],
}

impl Caller {
    /// User 0 of group 0.
    pub const ROOT: Caller = Caller::new(0, 0);

    /// A user with no further group.
    pub const fn new(uid: u32, gid: u32) -> Caller {
        Caller { uid, gid, count: 0, groups: [0; MAX_MORE_GROUPS] }
    }

    /// A user with further groups, or None where there are more than 16.
    pub fn with_groups(uid: u32, gid: u32, groups: &[u32]) -> Option<Caller> {
        let mut caller = Caller::new(uid, gid);
        caller.groups.get_mut(..groups.len())?.copy_from_slice(groups);
        caller.count = groups.len() as u32;
        Some(caller)
    }

    /// The user.
    pub fn uid(&self) -> u32 {
        self.uid
    }

    /// The group.
    pub fn gid(&self) -> u32 {
        self.gid
    }

    /// The further groups.
    pub fn groups(&self) -> &[u32] {
        &self.groups[..self.count as usize]
    }
}
