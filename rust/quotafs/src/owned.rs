//! With the feature `std`: texts and lists that own their memory, and errors of input and output.
use crate::{Error, Fault, ListedInode, ListedName, Names, Refusal, Session};
use std::io;
use std::string::String;
use std::vec::Vec;

/// What fills a buffer and a list, in ones that are made as large as it wants.
fn filled<T: Clone + Default>(
    mut fill: impl FnMut(&mut [u8], &mut [T]) -> Result<(usize, usize), Error>,
) -> Result<(String, Vec<T>), Error> {
    let (mut text, mut list) = (Vec::new(), Vec::new());
    loop {
        match fill(&mut text, &mut list) {
            Ok((len, count)) => {
                text.truncate(len);
                list.truncate(count);
                return Ok((String::from_utf8_lossy(&text).into_owned(), list));
            }
            Err(Error::Fault(Fault::Room { bytes, rows })) if bytes > text.len() || rows > list.len() => {
                text.resize(bytes, 0);
                list.resize(rows, T::default());
            }
            Err(error) => return Err(error),
        }
    }
}

/// The same, of a text alone.
fn text(mut fill: impl FnMut(&mut [u8]) -> Result<usize, Error>) -> Result<String, Error> {
    Ok(filled(|text, _: &mut [()]| Ok((fill(text)?, 0)))?.0)
}

impl Session {
    /// The reply to a line of a script, as [`line`](Session::line) gives it.
    pub fn line_text(&mut self, line: &str) -> Result<String, Error> {
        text(|buffer| self.line(line, buffer).map(<[u8]>::len))
    }

    /// The quota report, as [`report`](Session::report) gives it.
    pub fn report_text(&mut self, moment: u64) -> Result<String, Error> {
        text(|buffer| self.report(moment, buffer).map(<[u8]>::len))
    }

    /// The journal, as [`journal`](Session::journal) gives it.
    pub fn journal_text(&mut self) -> Result<String, Error> {
        text(|buffer| self.journal(buffer).map(<[u8]>::len))
    }

    /// All inodes, by number, as [`inodes`](Session::inodes) gives them.
    pub fn inode_list(&mut self) -> Result<Vec<ListedInode>, Error> {
        Ok(filled(|_, list| Ok((0, self.inodes(list)?.len())))?.1)
    }

    /// All names, by directory and name, as [`names`](Session::names) gives them, with a text of their bytes.
    pub fn name_list(&mut self) -> Result<NameList, Error> {
        let (text, list) = filled(|text, list| {
            let names = self.names(list, text)?;
            Ok((names.text.len(), names.list.len()))
        })?;
        Ok(NameList { list, text })
    }
}

/// All names of a session, as [`Session::name_list`] lists them.
///
/// ```
/// # const CONFIG: &str = r#"size = "1m"
/// # nr_inodes = 16
/// # block_grace = 1
/// # inode_grace = 1
/// # user = [{id = 0, name = "root"}]
/// # group = [{id = 0, name = "root"}]"#;
/// use quotafs::{Caller, Session};
///
/// let mut session = Session::open(CONFIG, 7)?;
/// session.create(&Caller::ROOT, 0, "/log")?;
/// assert!(session.name_list()?.names().iter().map(|name| name.text).eq(["log"]));
/// # Ok::<(), quotafs::Error>(())
/// ```
#[derive(Clone, Debug)]
pub struct NameList {
    list: Vec<ListedName>,
    text: String,
}

impl NameList {
    /// The names.
    pub fn names(&self) -> Names<'_> {
        Names { list: &self.list, text: self.text.as_bytes() }
    }
}

impl From<Error> for io::Error {
    /// Of the kind that the refusal has in the standard library, with the error inside.
    fn from(error: Error) -> io::Error {
        io::Error::new(kind_of(error), error)
    }
}

fn kind_of(error: Error) -> io::ErrorKind {
    match error {
        Error::Refused(refusal) => kind_of_refusal(refusal),
        Error::Config(_) | Error::Fault(Fault::Path | Fault::Line) => io::ErrorKind::InvalidInput,
        Error::Fault(Fault::Memory) => io::ErrorKind::OutOfMemory,
        _ => io::ErrorKind::Other,
    }
}

fn kind_of_refusal(refusal: Refusal) -> io::ErrorKind {
    match refusal {
        Refusal::EINVAL | Refusal::ENAMETOOLONG => io::ErrorKind::InvalidInput,
        Refusal::ENOENT | Refusal::ESRCH => io::ErrorKind::NotFound,
        Refusal::ENOTDIR => io::ErrorKind::NotADirectory,
        Refusal::EEXIST => io::ErrorKind::AlreadyExists,
        Refusal::ENOSPC => io::ErrorKind::StorageFull,
        Refusal::EISDIR => io::ErrorKind::IsADirectory,
        Refusal::EACCES | Refusal::EPERM => io::ErrorKind::PermissionDenied,
        Refusal::EFBIG => io::ErrorKind::FileTooLarge,
        Refusal::EMLINK => io::ErrorKind::TooManyLinks,
        Refusal::ENOTEMPTY => io::ErrorKind::DirectoryNotEmpty,
        Refusal::EBUSY => io::ErrorKind::ResourceBusy,
        Refusal::EDQUOT(..) => io::ErrorKind::QuotaExceeded,
    }
}
