//! What `quotafs.h` declares.
use crate::{
    Caller, DoneReply, ListedInode, ListedName, NewLimits, NewOwners, QuotaReply, Session, StatReply, TallyReply,
};

unsafe extern "C" {
    pub fn qfs_open(
        session: *mut Session,
        config: *const u8,
        config_len: usize,
        seed: u64,
        key: *mut u8,
        key_len: usize,
        len: *mut usize,
    ) -> u32;
    pub fn qfs_open_journaled(
        session: *mut Session,
        config: *const u8,
        config_len: usize,
        seed: u64,
        key: *mut u8,
        key_len: usize,
        len: *mut usize,
    ) -> u32;
    pub fn qfs_close(session: *mut Session);
    pub fn qfs_create(
        session: *mut Session,
        caller: *const Caller,
        moment: u64,
        path: *const u8,
        path_len: usize,
        done: *mut DoneReply,
    ) -> u32;
    pub fn qfs_mkdir(
        session: *mut Session,
        caller: *const Caller,
        moment: u64,
        path: *const u8,
        path_len: usize,
        done: *mut DoneReply,
    ) -> u32;
    pub fn qfs_write(
        session: *mut Session,
        caller: *const Caller,
        moment: u64,
        path: *const u8,
        path_len: usize,
        off: u64,
        bytes: *const u8,
        bytes_len: usize,
        done: *mut DoneReply,
    ) -> u32;
    pub fn qfs_fill(
        session: *mut Session,
        caller: *const Caller,
        moment: u64,
        path: *const u8,
        path_len: usize,
        off: u64,
        count: u64,
        byte: u8,
        done: *mut DoneReply,
    ) -> u32;
    pub fn qfs_truncate(
        session: *mut Session,
        caller: *const Caller,
        moment: u64,
        path: *const u8,
        path_len: usize,
        size: u64,
        done: *mut DoneReply,
    ) -> u32;
    pub fn qfs_read(
        session: *mut Session,
        caller: *const Caller,
        moment: u64,
        path: *const u8,
        path_len: usize,
        off: u64,
        buffer: *mut u8,
        buffer_len: usize,
        len: *mut usize,
    ) -> u32;
    pub fn qfs_stat(
        session: *mut Session,
        caller: *const Caller,
        moment: u64,
        path: *const u8,
        path_len: usize,
        stat: *mut StatReply,
    ) -> u32;
    pub fn qfs_link(
        session: *mut Session,
        caller: *const Caller,
        moment: u64,
        from: *const u8,
        from_len: usize,
        to: *const u8,
        to_len: usize,
        done: *mut DoneReply,
    ) -> u32;
    pub fn qfs_unlink(
        session: *mut Session,
        caller: *const Caller,
        moment: u64,
        path: *const u8,
        path_len: usize,
        done: *mut DoneReply,
    ) -> u32;
    pub fn qfs_rmdir(
        session: *mut Session,
        caller: *const Caller,
        moment: u64,
        path: *const u8,
        path_len: usize,
        done: *mut DoneReply,
    ) -> u32;
    pub fn qfs_rename(
        session: *mut Session,
        caller: *const Caller,
        moment: u64,
        from: *const u8,
        from_len: usize,
        to: *const u8,
        to_len: usize,
        done: *mut DoneReply,
    ) -> u32;
    pub fn qfs_chown(
        session: *mut Session,
        caller: *const Caller,
        moment: u64,
        path: *const u8,
        path_len: usize,
        owners: *const NewOwners,
        done: *mut DoneReply,
    ) -> u32;
    pub fn qfs_setquota(
        session: *mut Session,
        caller: *const Caller,
        moment: u64,
        kind: u32,
        id: u32,
        limits: *const NewLimits,
        done: *mut DoneReply,
    ) -> u32;
    pub fn qfs_setgrace(
        session: *mut Session,
        caller: *const Caller,
        moment: u64,
        block: u64,
        inode: u64,
        done: *mut DoneReply,
    ) -> u32;
    pub fn qfs_quota(
        session: *mut Session,
        caller: *const Caller,
        moment: u64,
        kind: u32,
        id: u32,
        quota: *mut QuotaReply,
    ) -> u32;
    pub fn qfs_line(
        session: *mut Session,
        line: *const u8,
        line_len: usize,
        buffer: *mut u8,
        buffer_len: usize,
        len: *mut usize,
    ) -> u32;
    pub fn qfs_report(session: *mut Session, moment: u64, buffer: *mut u8, buffer_len: usize, len: *mut usize) -> u32;
    pub fn qfs_audit(session: *mut Session, differences: *mut u64) -> u32;
    pub fn qfs_inodes(session: *mut Session, list: *mut ListedInode, list_len: usize, count: *mut usize) -> u32;
    pub fn qfs_names(
        session: *mut Session,
        list: *mut ListedName,
        list_len: usize,
        count: *mut usize,
        text: *mut u8,
        text_len: usize,
        len: *mut usize,
    ) -> u32;
    pub fn qfs_journal(session: *mut Session, buffer: *mut u8, buffer_len: usize, len: *mut usize) -> u32;
    pub fn qfs_tally(session: *mut Session, tally: *mut TallyReply) -> u32;
}
