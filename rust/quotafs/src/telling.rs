//! What a session tells in texts and lists.
use crate::error::{Error, granted, granted_or};
use crate::raw;
use crate::{Fault, ListedInode, ListedName, Names, Session, TallyReply};

/// What a call put at the front of a buffer, or how many bytes it wants.
fn front(number: u32, buffer: &[u8], len: usize) -> Result<&[u8], Error> {
    granted_or(number, Fault::Room { bytes: len, rows: 0 })?;
    Ok(&buffer[..len])
}

// SAFETY of each call: see `Session::opened`.
impl Session {
    /// Makes the call of a line of a script, `MOMENT UID:GID CALL` with a line end, and hands out its reply as a line
    /// of text at the front of the buffer; a refusal is such a reply. Where there is too little room no call was made.
    pub fn line<'b>(&mut self, line: &str, buffer: &'b mut [u8]) -> Result<&'b [u8], Error> {
        let mut len = 0;
        let number =
            unsafe { raw::qfs_line(self, line.as_ptr(), line.len(), buffer.as_mut_ptr(), buffer.len(), &mut len) };
        front(number, buffer, len)
    }

    /// The quota report as of a moment, as text at the front of the buffer.
    pub fn report<'b>(&mut self, moment: u64, buffer: &'b mut [u8]) -> Result<&'b [u8], Error> {
        let mut len = 0;
        let number = unsafe { raw::qfs_report(self, moment, buffer.as_mut_ptr(), buffer.len(), &mut len) };
        front(number, buffer, len)
    }

    /// Recounts all files, and tells how many records differ: 0.
    pub fn audit(&mut self) -> Result<u64, Error> {
        let mut differences = 0;
        granted(unsafe { raw::qfs_audit(self, &mut differences) })?;
        Ok(differences)
    }

    /// All inodes, by number, at the front of the list.
    pub fn inodes<'b>(&mut self, list: &'b mut [ListedInode]) -> Result<&'b [ListedInode], Error> {
        let mut count = 0;
        let number = unsafe { raw::qfs_inodes(self, list.as_mut_ptr(), list.len(), &mut count) };
        granted_or(number, Fault::Room { bytes: 0, rows: count })?;
        Ok(&list[..count])
    }

    /// All names, by directory and name, at the front of the list and of the text.
    pub fn names<'b>(&mut self, list: &'b mut [ListedName], text: &'b mut [u8]) -> Result<Names<'b>, Error> {
        let (mut count, mut len) = (0, 0);
        let number = unsafe {
            let (list, list_len) = (list.as_mut_ptr(), list.len());
            raw::qfs_names(self, list, list_len, &mut count, text.as_mut_ptr(), text.len(), &mut len)
        };
        granted_or(number, Fault::Room { bytes: len, rows: count })?;
        Ok(Names { list: &list[..count], text: &text[..len] })
    }

    /// The journal of a session that keeps one, as `quotafs replay` plays it again, at the front of the buffer.
    pub fn journal<'b>(&mut self, buffer: &'b mut [u8]) -> Result<&'b [u8], Error> {
        let mut len = 0;
        let number = unsafe { raw::qfs_journal(self, buffer.as_mut_ptr(), buffer.len(), &mut len) };
        front(number, buffer, len)
    }

    /// What the journaled calls did to the totals, added up.
    pub fn tally(&mut self) -> Result<TallyReply, Error> {
        let mut tally = TallyReply::default();
        granted(unsafe { raw::qfs_tally(self, &mut tally) })?;
        Ok(tally)
    }
}
