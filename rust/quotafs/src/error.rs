//! Why a call was not granted.
use crate::{ConfigFault, Fault, Refusal};
use core::fmt;

/// Why a call was not granted. It changed nothing.
///
/// ```
/// use quotafs::{Caller, Error, Refusal, Session};
/// # const CONFIG: &str = r#"size = "1m"
/// # nr_inodes = 16
/// # block_grace = 1
/// # inode_grace = 1
/// # user = [{id = 0, name = "root"}]
/// # group = [{id = 0, name = "root"}]"#;
///
/// let mut session = Session::open(CONFIG, 7)?;
/// let error = session.unlink(&Caller::ROOT, 0, "/a").unwrap_err();
/// assert_eq!(error, Error::Refused(Refusal::ENOENT));
/// assert_eq!((error.number(), error.to_string().as_str()), (3, "refused: ENOENT"));
/// # Ok::<(), Error>(())
/// ```
#[derive(Clone, Copy, Debug, PartialEq, Eq, Hash)]
pub enum Error {
    /// The store refused.
    Refused(Refusal),
    /// The text is no configuration.
    Config(ConfigFault),
    /// No call was made.
    Fault(Fault),
    /// A number that this crate does not know: the library is of another version.
    Unknown(u32),
}

impl Error {
    /// Its number in `quotafs.h`.
    pub fn number(self) -> u32 {
        match self {
            Error::Refused(refusal) => refusal.number(),
            Error::Config(fault) => fault.number(),
            Error::Fault(fault) => fault.number(),
            Error::Unknown(number) => number,
        }
    }

    /// The error of a number other than 0; where there is too little room it is this fault.
    pub(crate) fn of(number: u32, room: Fault) -> Error {
        let refused = Refusal::of(number).map(Error::Refused);
        let fault = Fault::of(number, room).map(Error::Fault);
        refused.or(fault).unwrap_or(Error::Unknown(number))
    }
}

/// Ok where the number says that the call was granted.
pub(crate) fn granted(number: u32) -> Result<(), Error> {
    granted_or(number, Fault::NO_ROOM)
}

/// The same, where the fault may be that there is too little room.
pub(crate) fn granted_or(number: u32, room: Fault) -> Result<(), Error> {
    match number {
        0 => Ok(()),
        number => Err(Error::of(number, room)),
    }
}

impl fmt::Display for Error {
    fn fmt(&self, out: &mut fmt::Formatter<'_>) -> fmt::Result {
        match self {
            Error::Refused(refusal) => write!(out, "refused: {refusal}"),
            Error::Config(fault) => write!(out, "no configuration: {fault}"),
            Error::Fault(fault) => write!(out, "not called: {fault}"),
            Error::Unknown(number) => write!(out, "an unknown number: {number}"),
        }
    }
}

impl core::error::Error for Error {}

#[cfg(test)]
mod tests {
    use super::Error;
    use crate::{ConfigFault, Fault, config_fault::Key};

    #[test]
    fn each_number_is_its_own_errors() {
        for number in 1..100 {
            assert_eq!(Error::of(number, Fault::NO_ROOM).number(), number);
        }
        let known = (1..100).filter(|number| !matches!(Error::of(*number, Fault::NO_ROOM), Error::Unknown(_)));
        assert_eq!(known.count(), 14 + 12 + 10);
    }

    #[test]
    fn each_number_of_a_configuration_is_its_own_faults() {
        let known = (1..100).filter_map(|number| Some((number, ConfigFault::of(number, Key::NONE)?)));
        assert!(known.clone().all(|(number, fault)| fault.number() == number));
        assert_eq!(known.count(), 5);
    }
}
