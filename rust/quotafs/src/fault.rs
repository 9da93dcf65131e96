//! Why a call was not made.
use core::fmt;

/// Why a call was not made, which changed nothing.
///
/// By types a session is open, a caller has at most 16 further groups and a kind is one of three, so that `Closed`,
/// `Open`, `Caller` and `Kind` do not come.
///
/// ```
/// use quotafs::Fault;
///
/// assert_eq!((Fault::Path.number(), Fault::Path.to_string().as_str()), (66, "no path"));
/// ```
#[derive(Clone, Copy, Debug, PartialEq, Eq, Hash)]
pub enum Fault {
    /// The session is closed.
    Closed,
    /// Memory was wanted and not there.
    Memory,
    /// A path has no byte, or one outside 0x21 to 0x7E.
    Path,
    /// The caller names more than 16 further groups.
    Caller,
    /// The session is open already.
    Open,
    /// The buffer or the list has too little room: how many bytes and rows are wanted, 0 of what is not filled.
    Room {
        /// Bytes of the buffer, or of the text.
        bytes: usize,
        /// Rows of the list.
        rows: usize,
    },
    /// The text is no line of a script.
    Line,
    /// The journal has its 1,048,576 entries.
    JournalFull,
    /// A number is none of a kind.
    Kind,
    /// The session keeps no journal.
    NoJournal,
}

impl Fault {
    /// Its number in `quotafs.h`.
    pub fn number(self) -> u32 {
        match self {
            Fault::Closed => 64,
            Fault::Memory => 65,
            Fault::Path => 66,
            Fault::Caller => 67,
            Fault::Open => 68,
            Fault::Room { .. } => 69,
            Fault::Line => 70,
            Fault::JournalFull => 71,
            Fault::Kind => 72,
            Fault::NoJournal => 73,
        }
    }

    /// No bytes and no rows are wanted.
    pub(crate) const NO_ROOM: Fault = Fault::Room { bytes: 0, rows: 0 };

    /// The fault of a number, if there is one; where there is too little room it is this one.
    pub(crate) fn of(number: u32, room: Fault) -> Option<Fault> {
        let all = [
            Fault::Closed,
            Fault::Memory,
            Fault::Path,
            Fault::Caller,
            Fault::Open,
            room,
            Fault::Line,
            Fault::JournalFull,
            Fault::Kind,
            Fault::NoJournal,
        ];
        all.into_iter().find(|fault| fault.number() == number)
    }
}

impl fmt::Display for Fault {
    fn fmt(&self, out: &mut fmt::Formatter<'_>) -> fmt::Result {
        match self {
            Fault::Closed => out.write_str("the session is closed"),
            Fault::Memory => out.write_str("out of memory"),
            Fault::Path => out.write_str("no path"),
            Fault::Caller => out.write_str("more than 16 further groups"),
            Fault::Open => out.write_str("the session is open"),
            Fault::Room { bytes, rows } => write!(out, "too little room: {bytes} bytes, {rows} rows are wanted"),
            Fault::Line => out.write_str("no line of a script"),
            Fault::JournalFull => out.write_str("the journal is full"),
            Fault::Kind => out.write_str("no kind"),
            Fault::NoJournal => out.write_str("no journal is kept"),
        }
    }
}
