//! A session: a store in process.
use crate::config_fault::{ConfigFault, Key};
use crate::error::{Error, granted};
use crate::raw;
use core::ffi::c_void;
use core::ptr;

/// A store, without or with a journal of its calls. It is closed, and all that it holds is freed, when it is dropped.
///
/// A path is one or more bytes of 0x21 to 0x7E and begins with `/`. Moments and graces are in seconds, offsets and
/// sizes in bytes. An error leaves the store as it was; a refusal is journaled where a journal is kept.
///
/// It may go to another thread:
///
/// ```
/// # const CONFIG: &str = r#"size = "1m"
/// # nr_inodes = 16
/// # block_grace = 1
/// # inode_grace = 1
/// # user = [{id = 0, name = "root"}]
/// # group = [{id = 0, name = "root"}]"#;
/// use quotafs::{Caller, Session};
///
/// let mut session = Session::open(CONFIG, 7)?;
/// let there = std::thread::spawn(move || session.create(&Caller::ROOT, 0, "/a").map(|done| done.ino));
/// assert_eq!(there.join().unwrap(), Ok(2));
/// # Ok::<(), quotafs::Error>(())
/// ```
///
/// and threads that share it bring a lock, since it is not `Sync`:
///
/// ```compile_fail,E0277
/// fn is_shared<T: Sync>() {}
/// is_shared::<quotafs::Session>();
/// ```
#[repr(C)]
#[derive(Debug)]
pub struct Session {
    is_open: bool,
    slot: *mut c_void,
}

// SAFETY: that a session may go to another thread, with all that it holds, is proved of the library
// (`Session::for_another_thread` of its crate qsession).
unsafe impl Send for Session {}

/// How a session is opened: `qfs_open` or `qfs_open_journaled`.
type Open = unsafe extern "C" fn(*mut Session, *const u8, usize, u64, *mut u8, usize, *mut usize) -> u32;

impl Session {
    /// A session with a new store of the configuration, a text in TOML. The hashes of names begin at the seed, any
    /// number.
    pub fn open(config: &str, seed: u64) -> Result<Session, Error> {
        Session::opened(raw::qfs_open, config, seed)
    }

    /// The same, of a session that keeps a journal of its calls: at most 1,048,576.
    pub fn open_journaled(config: &str, seed: u64) -> Result<Session, Error> {
        Session::opened(raw::qfs_open_journaled, config, seed)
    }

    fn opened(open: Open, config: &str, seed: u64) -> Result<Session, Error> {
        let mut session = Session { is_open: false, slot: ptr::null_mut() };
        let mut key = Key::NONE;
        // SAFETY, of this call and of all others: the session is zeroed, or it is this one's own, which the library
        // alone changes; it is borrowed `&mut`, so that this call alone uses it; and all other pointers are those of
        // live borrows, none of which overlaps one that is written to.
        let number = unsafe {
            open(
                &mut session,
                config.as_ptr(),
                config.len(),
                seed,
                key.bytes.as_mut_ptr(),
                key.bytes.len(),
                &mut key.len,
            )
        };
        match ConfigFault::of(number, key) {
            Some(fault) => Err(Error::Config(fault)),
            None => granted(number).map(|()| session),
        }
    }

    /// Closes the session and frees what it holds, as its drop does.
    pub fn close(self) {}
}

impl Drop for Session {
    fn drop(&mut self) {
        unsafe { raw::qfs_close(self) }
    }
}
