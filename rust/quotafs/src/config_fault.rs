//! Why a text is no configuration.
use core::fmt;

/// Why a text is no configuration.
///
/// ```
/// use quotafs::{ConfigFault, Error, Session};
///
/// let Err(Error::Config(ConfigFault::Field(key))) = Session::open("nr_inodes = 16", 7) else { panic!() };
/// assert_eq!(key.as_str(), Some("size"));
/// ```
#[derive(Clone, Copy, Debug, PartialEq, Eq, Hash)]
pub enum ConfigFault {
    /// It is no TOML.
    Text,
    /// A key is missing, of another kind or form, or not known: this one.
    Field(Key),
    /// A number is out of its range.
    Range,
    /// Two principals of a kind have the same id, or the same name.
    Duplicate,
    /// A kind that is declared lacks the id 0.
    NoZero,
}

/// A key of a configuration, of which 32 bytes are kept.
///
/// ```
/// use quotafs::{ConfigFault, Error, Session};
///
/// # const CONFIG: &str = r#"size = "1m"
/// # nr_inodes = 16
/// # block_grace = 1
/// # inode_grace = 1
/// # user = [{id = 0, name = "root"}]
/// # group = [{id = 0, name = "root"}]"#;
/// let config = [CONFIG, "\na_key_that_nobody_knows_and_that_is_long = 1"].concat();
/// let Err(Error::Config(ConfigFault::Field(key))) = Session::open(&config, 7) else { panic!() };
/// assert_eq!((key.as_str(), key.to_string().as_str()), (None, "a key of 40 bytes"));
/// ```
#[derive(Clone, Copy, Debug, PartialEq, Eq, Hash)]
pub struct Key {
    pub(crate) bytes: [u8; 32],
    pub(crate) len: usize,
}

impl Key {
    pub(crate) const NONE: Key = Key { bytes: [0; 32], len: 0 };

    /// The key, or None where it is longer than 32 bytes.
    pub fn as_str(&self) -> Option<&str> {
        core::str::from_utf8(self.bytes.get(..self.len)?).ok()
    }
}

impl ConfigFault {
    /// Its number in `quotafs.h`.
    pub fn number(self) -> u32 {
        match self {
            ConfigFault::Text => 51,
            ConfigFault::Field(_) => 52,
            ConfigFault::Range => 53,
            ConfigFault::Duplicate => 54,
            ConfigFault::NoZero => 55,
        }
    }

    /// The fault of a number, if there is one, with the key that was told.
    pub(crate) fn of(number: u32, key: Key) -> Option<ConfigFault> {
        let all = [
            ConfigFault::Text,
            ConfigFault::Field(key),
            ConfigFault::Range,
            ConfigFault::Duplicate,
            ConfigFault::NoZero,
        ];
        all.into_iter().find(|fault| fault.number() == number)
    }
}

impl fmt::Display for Key {
    fn fmt(&self, out: &mut fmt::Formatter<'_>) -> fmt::Result {
        match self.as_str() {
            Some(key) => write!(out, "{key}"),
            None => write!(out, "a key of {} bytes", self.len),
        }
    }
}

impl fmt::Display for ConfigFault {
    fn fmt(&self, out: &mut fmt::Formatter<'_>) -> fmt::Result {
        match self {
            ConfigFault::Text => out.write_str("no TOML"),
            ConfigFault::Field(key) => write!(out, "a missing, wrong or unknown key: {key}"),
            ConfigFault::Range => out.write_str("a number out of its range"),
            ConfigFault::Duplicate => out.write_str("an id or a name that stands twice"),
            ConfigFault::NoZero => out.write_str("no id 0"),
        }
    }
}
