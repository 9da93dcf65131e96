//! The fourteen calls, and fill.
use crate::error::{Error, granted};
use crate::raw;
use crate::{Caller, DoneReply, Kind, NewLimits, NewOwners, QuotaReply, Session, StatReply};

// SAFETY of each call: see `Session::opened`.
impl Session {
    /// Makes an empty file.
    pub fn create(&mut self, caller: &Caller, moment: u64, path: &str) -> Result<DoneReply, Error> {
        let mut done = DoneReply::default();
        granted(unsafe { raw::qfs_create(self, caller, moment, path.as_ptr(), path.len(), &mut done) })?;
        Ok(done)
    }

    /// Makes an empty directory.
    pub fn mkdir(&mut self, caller: &Caller, moment: u64, path: &str) -> Result<DoneReply, Error> {
        let mut done = DoneReply::default();
        granted(unsafe { raw::qfs_mkdir(self, caller, moment, path.as_ptr(), path.len(), &mut done) })?;
        Ok(done)
    }

    /// Writes all of the bytes at the offset, or none; at most 65,536.
    pub fn write(
        &mut self,
        caller: &Caller,
        moment: u64,
        path: &str,
        off: u64,
        bytes: &[u8],
    ) -> Result<DoneReply, Error> {
        let mut done = DoneReply::default();
        granted(unsafe {
            let (path, path_len) = (path.as_ptr(), path.len());
            raw::qfs_write(self, caller, moment, path, path_len, off, bytes.as_ptr(), bytes.len(), &mut done)
        })?;
        Ok(done)
    }

    /// Writes `count` equal bytes at the offset, or none; at most 65,536.
    pub fn fill(
        &mut self,
        caller: &Caller,
        moment: u64,
        path: &str,
        off: u64,
        count: u64,
        byte: u8,
    ) -> Result<DoneReply, Error> {
        let mut done = DoneReply::default();
        granted(unsafe {
            raw::qfs_fill(self, caller, moment, path.as_ptr(), path.len(), off, count, byte, &mut done)
        })?;
        Ok(done)
    }

    /// Sets a file's size.
    pub fn truncate(&mut self, caller: &Caller, moment: u64, path: &str, size: u64) -> Result<DoneReply, Error> {
        let mut done = DoneReply::default();
        granted(unsafe { raw::qfs_truncate(self, caller, moment, path.as_ptr(), path.len(), size, &mut done) })?;
        Ok(done)
    }

    /// Reads as many bytes as the buffer has: what was there stands at its front, and is handed out. A buffer of more
    /// than 65,536 bytes is refused, as `EINVAL`.
    pub fn read<'b>(
        &mut self,
        caller: &Caller,
        moment: u64,
        path: &str,
        off: u64,
        buffer: &'b mut [u8],
    ) -> Result<&'b [u8], Error> {
        let mut len = 0;
        let number = unsafe {
            let (path, path_len) = (path.as_ptr(), path.len());
            raw::qfs_read(self, caller, moment, path, path_len, off, buffer.as_mut_ptr(), buffer.len(), &mut len)
        };
        granted(number)?;
        Ok(&buffer[..len])
    }

    /// An inode's numbers.
    pub fn stat(&mut self, caller: &Caller, moment: u64, path: &str) -> Result<StatReply, Error> {
        let mut stat = StatReply::default();
        granted(unsafe { raw::qfs_stat(self, caller, moment, path.as_ptr(), path.len(), &mut stat) })?;
        Ok(stat)
    }

    /// Gives a file a further name.
    pub fn link(&mut self, caller: &Caller, moment: u64, from: &str, to: &str) -> Result<DoneReply, Error> {
        let mut done = DoneReply::default();
        granted(unsafe {
            raw::qfs_link(self, caller, moment, from.as_ptr(), from.len(), to.as_ptr(), to.len(), &mut done)
        })?;
        Ok(done)
    }

    /// Takes a file's name away, and with its last one the file.
    pub fn unlink(&mut self, caller: &Caller, moment: u64, path: &str) -> Result<DoneReply, Error> {
        let mut done = DoneReply::default();
        granted(unsafe { raw::qfs_unlink(self, caller, moment, path.as_ptr(), path.len(), &mut done) })?;
        Ok(done)
    }

    /// Takes an empty directory away.
    pub fn rmdir(&mut self, caller: &Caller, moment: u64, path: &str) -> Result<DoneReply, Error> {
        let mut done = DoneReply::default();
        granted(unsafe { raw::qfs_rmdir(self, caller, moment, path.as_ptr(), path.len(), &mut done) })?;
        Ok(done)
    }

    /// Gives what has one name another.
    pub fn rename(&mut self, caller: &Caller, moment: u64, from: &str, to: &str) -> Result<DoneReply, Error> {
        let mut done = DoneReply::default();
        granted(unsafe {
            raw::qfs_rename(self, caller, moment, from.as_ptr(), from.len(), to.as_ptr(), to.len(), &mut done)
        })?;
        Ok(done)
    }

    /// Gives an inode another user, group or project.
    pub fn chown(&mut self, caller: &Caller, moment: u64, path: &str, owners: &NewOwners) -> Result<DoneReply, Error> {
        let mut done = DoneReply::default();
        granted(unsafe { raw::qfs_chown(self, caller, moment, path.as_ptr(), path.len(), owners, &mut done) })?;
        Ok(done)
    }

    /// Sets the limits of a user, a group or a project.
    pub fn setquota(
        &mut self,
        caller: &Caller,
        moment: u64,
        kind: Kind,
        id: u32,
        limits: &NewLimits,
    ) -> Result<DoneReply, Error> {
        let mut done = DoneReply::default();
        granted(unsafe { raw::qfs_setquota(self, caller, moment, kind as u32, id, limits, &mut done) })?;
        Ok(done)
    }

    /// Sets the graces of blocks and of inodes.
    pub fn setgrace(&mut self, caller: &Caller, moment: u64, block: u64, inode: u64) -> Result<DoneReply, Error> {
        let mut done = DoneReply::default();
        granted(unsafe { raw::qfs_setgrace(self, caller, moment, block, inode, &mut done) })?;
        Ok(done)
    }

    /// The quota record of a user, a group or a project.
    pub fn quota(&mut self, caller: &Caller, moment: u64, kind: Kind, id: u32) -> Result<QuotaReply, Error> {
        let mut quota = QuotaReply::default();
        granted(unsafe { raw::qfs_quota(self, caller, moment, kind as u32, id, &mut quota) })?;
        Ok(quota)
    }
}
