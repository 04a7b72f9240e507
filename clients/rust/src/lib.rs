//! Elephant for Rust: the core of a file system that keeps earlier versions of files by itself, in memory, and lets a policy per
//! file decide when a version may be removed.
//!
//! ```
//! use elephant::{at, version, Policy, Store};
//! use std::io::Write;
//!
//! fn main() -> Result<(), Box<dyn std::error::Error>> {
//!     let store = Store::new()?;
//!     store.set_default("/", &Policy::keep_days(7))?;
//!     store.create("/notes")?; // its version 1 is empty
//!
//!     // A session makes one version when it is closed.
//!     let mut session = store.session("/notes")?;
//!     session.write_all(b"buy milk")?;
//!     session.close()?;
//!
//!     // You move the store's clock. A save makes one version too.
//!     store.tick(60)?;
//!     assert_eq!(store.save("/notes", b"oops")?, 3);
//!     assert_eq!(store.read(at("/notes", 59))?, b"buy milk");
//!     assert_eq!(store.read(version("/notes", 2))?, b"buy milk");
//!
//!     // Undo: the file gets one more version.
//!     store.revert("/notes", 2)?;
//!     assert_eq!(store.read("/notes")?, b"buy milk");
//!     Ok(())
//! }
//! ```
//!
//! A [`Store`] wraps the C library, which is built from proved code; this crate itself is not
//! proved. It links the library statically, and depends on no other crate. `docs/EMBED.md` of the
//! repository has a table of all calls and their limits.

mod answers;
mod audit;
mod checkpoints;
mod contents;
mod error;
#[cfg(feature = "file")]
mod file;
mod names;
mod path_error;
mod questions;
mod reader;
mod retention;
mod session;
mod store;
mod story;
// It declares all that the header does, with the header's names; the header has the comments.
#[allow(dead_code, missing_docs, non_camel_case_types)]
mod sys;
mod types;

pub use audit::{Answered, Answers, Gone, History, OpenHandle, Removal};
pub use contents::LARGEST_CONTENT;
pub use error::{Error, Limit};
#[cfg(feature = "file")]
pub use file::{FileError, FileInfo, FileOptions, FileStore, FileSync};
pub use path_error::PathError;
pub use reader::Reader;
pub use session::Session;
pub use store::{Options, Store};
pub use story::{Hold, NameStory, Story, VersionSpan, VersionStory};
pub use types::{
    at, moment, version, Cause, Counts, DeletedName, Entry, Fate, Group, Limits, Mark, Node, Pass, PassEnd, PathEntry, Policy,
    Removable, Rung, Stat, Target, Usage, Usages, Version, LAST_MOMENT,
};
