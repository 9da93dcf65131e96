//! quotafs in process: a store of files with quotas for users, groups and projects, in memory.
//!
//! Safe Rust over the static library `libquotafs.a`, under the names of its header `quotafs.h`. What the header asks
//! of its caller holds here by types: a [`Session`] owns its store, is neither copied nor cloned, and each call borrows
//! it `&mut`, so that one call at a time uses it. It may go to another thread, but is not shared by threads without a
//! lock of yours. Each call is the one of the header that has its name, and every promise of the library holds of it.
//!
//! ```
//! use quotafs::{Caller, Error, Kind, Over, Refusal, Session};
//!
//! let builder = Caller::new(1000, 100);
//! let mut session = Session::open(
//!     r#"
//!     size = "1m"
//!     nr_inodes = 64
//!     block_grace = 60
//!     inode_grace = 60
//!     user = [{id = 0, name = "root"}, {id = 1000, name = "builder", block_hard = 4}]
//!     group = [{id = 0, name = "root"}, {id = 100, name = "farm"}]
//!     "#,
//!     7,
//! )?;
//! session.create(&builder, 0, "/log")?;
//! session.write(&builder, 0, "/log", 0, b"ok\n")?;
//! let second = session.write(&builder, 60, "/log", 4096, b"ok\n");
//! assert_eq!(second, Err(Error::Refused(Refusal::EDQUOT(Kind::User, Over::BlockHard))));
//! # Ok::<(), Error>(())
//! ```
//!
//! The crate is `no_std`, takes no memory of its own and has no dependency. The feature `std` adds texts and lists that
//! own their memory, and a conversion of [`Error`] into `std::io::Error`. The build finds the archive in the folder
//! that the environment variable `QUOTAFS_LIB` names.
#![no_std]
#![warn(missing_docs)]

#[cfg(feature = "std")]
extern crate std;

mod caller;
mod calls;
mod config_fault;
mod error;
mod fault;
mod inodes;
mod names;
#[cfg(feature = "std")]
mod owned;
mod raw;
mod refusal;
mod replies;
mod requests;
mod session;
mod telling;

pub use caller::{Caller, MAX_MORE_GROUPS};
pub use config_fault::{ConfigFault, Key};
pub use error::Error;
pub use fault::Fault;
pub use inodes::ListedInode;
pub use names::{ListedName, Name, Names};
#[cfg(feature = "std")]
pub use owned::NameList;
pub use refusal::{Kind, Over, Refusal};
pub use replies::{DoneReply, QuotaReply, StatReply, TallyReply};
pub use requests::{NewLimits, NewOwners};
pub use session::Session;
