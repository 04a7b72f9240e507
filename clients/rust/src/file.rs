//! A store in a file, over `elephant_file.h`.

use crate::store::limits_in_c;
use crate::{sys, Error, Limits, Store};
use std::ffi::{CStr, CString};
use std::fmt;
use std::io;
use std::mem::ManuallyDrop;
use std::ops::Deref;
use std::os::unix::ffi::OsStrExt;
use std::path::Path;
use std::ptr::{self, NonNull};
use std::time::Duration;

// The declarations of `include/elephant_file.h`, which has the comments.
#[allow(non_camel_case_types)]
mod c {
    use crate::sys;
    use std::marker::{PhantomData, PhantomPinned};
    use std::os::raw::c_char;

    #[repr(C)]
    pub struct elephant_file {
        private: [u8; 0],
        marker: PhantomData<(*mut u8, PhantomPinned)>,
    }

    pub const LOCKED: i32 = 128;
    pub const SYSTEM: i32 = 129;
    pub const DAMAGED: i32 = 130;
    pub const LOST: i32 = 131;
    pub const READ_ONLY: i32 = 132;
    pub const STUCK: i32 = 133;

    #[repr(C)]
    pub struct elephant_file_fault {
        pub system: i32,
        pub call: *const c_char,
        pub place: u64,
    }

    #[repr(C)]
    pub struct elephant_file_options {
        pub read_only: u32,
        pub history: u32,
        pub sync: u32,
        pub repair: u32,
        pub no_compaction: u32,
        pub no_renewal: u32,
        pub wait: u32,
        pub limits: *const sys::elephant_limits,
    }

    #[repr(C)]
    #[derive(Default)]
    pub struct elephant_file_info {
        pub length: u64,
        pub start: u64,
        pub cut: u64,
        pub copy: u64,
        pub compactions: u64,
        pub renewals: u64,
        pub tidied: i32,
        pub is_new: u32,
    }

    extern "C" {
        pub fn elephant_file_open(
            path: *const c_char,
            options: *const elephant_file_options,
            out: *mut *mut elephant_file,
            fault: *mut elephant_file_fault,
        ) -> i32;
        pub fn elephant_file_close(f: *mut elephant_file);
        pub fn elephant_file_store(f: *mut elephant_file) -> *mut sys::elephant;
        pub fn elephant_file_commit(f: *mut elephant_file) -> i32;
        pub fn elephant_file_rollback(f: *mut elephant_file) -> i32;
        pub fn elephant_file_sync(f: *mut elephant_file) -> i32;
        pub fn elephant_file_compact(f: *mut elephant_file) -> i32;
        pub fn elephant_file_renew(f: *mut elephant_file) -> i32;
        pub fn elephant_file_tidy(f: *mut elephant_file) -> i32;
        pub fn elephant_file_look(f: *const elephant_file, info: *mut elephant_file_info);
        pub fn elephant_file_last_fault(f: *const elephant_file, fault: *mut elephant_file_fault);
    }
}

const INVALID: i32 = 22;

/// Why a call of a store in a file failed. The file is as before then, unless the call says otherwise.
#[derive(Clone, Copy, Debug, PartialEq, Eq)]
#[non_exhaustive]
pub enum FileError {
    /// The store stopped it, or [`Error::BadJournal`]: the file is none of a store.
    Store(Error),
    /// Another opener has the file.
    Locked,
    /// The system refused a call.
    System {
        /// The name of the call.
        call: &'static str,
        /// The number of the system's error. A full disk is `ENOSPC`.
        errno: i32,
    },
    /// A change in the file is damaged.
    Damaged {
        /// How many bytes before it are whole.
        place: u64,
    },
    /// The path names another file or none, or another program changed the file's length.
    Lost,
    /// The file was opened to look only.
    ReadOnly,
    /// A sync failed, so the file takes no more changes until it is compacted or opened anew.
    Stuck,
}

impl FileError {
    fn of(code: i32, fault: &c::elephant_file_fault) -> FileError {
        match code {
            c::LOCKED => FileError::Locked,
            c::SYSTEM => {
                // SAFETY: it is a text of C that lives as long as the program.
                let call = unsafe { CStr::from_ptr(fault.call) };
                FileError::System { call: call.to_str().unwrap_or(""), errno: fault.system }
            }
            c::DAMAGED => FileError::Damaged { place: fault.place },
            c::LOST => FileError::Lost,
            c::READ_ONLY => FileError::ReadOnly,
            c::STUCK => FileError::Stuck,
            code => FileError::Store(Error::from_code(code, || None)),
        }
    }
}

impl fmt::Display for FileError {
    fn fmt(&self, f: &mut fmt::Formatter<'_>) -> fmt::Result {
        match self {
            FileError::Store(error) => error.fmt(f),
            FileError::Locked => f.write_str("another opener has the file"),
            FileError::System { call, errno } => write!(f, "{call}: {}", io::Error::from_raw_os_error(*errno)),
            FileError::Damaged { place } => write!(f, "a change in the file is damaged, after {place} bytes"),
            FileError::Lost => f.write_str("the path names another file or none, or another program changed the file's length"),
            FileError::ReadOnly => f.write_str("the file was opened to look only"),
            FileError::Stuck => {
                f.write_str("a sync failed, so the file takes no more changes until it is compacted or opened anew")
            }
        }
    }
}

impl std::error::Error for FileError {}

impl From<FileError> for io::Error {
    fn from(error: FileError) -> io::Error {
        match error {
            FileError::System { errno, .. } => io::Error::from_raw_os_error(errno),
            FileError::Store(error) => error.into(),
            other => io::Error::new(io::ErrorKind::Other, other),
        }
    }
}

/// When a commit waits for the disk.
#[derive(Clone, Copy, Debug, Default, PartialEq, Eq)]
pub enum FileSync {
    /// Each one: what it returned for is there also after a power failure.
    #[default]
    Each,
    /// Only [`FileStore::sync`] does: a kill loses nothing, a power failure what followed the last of these.
    Asked,
}

/// How to open a store in a file. The defaults are the safe choice.
///
/// ```
/// use elephant::{FileOptions, FileSync};
///
/// # fn main() -> Result<(), Box<dyn std::error::Error>> {
/// # let folder = std::env::temp_dir().join(format!("elephant-options-{}", std::process::id()));
/// # std::fs::create_dir_all(&folder)?;
/// let path = folder.join("plans.journal");
/// let store = FileOptions { history: true, sync: FileSync::Asked, ..FileOptions::default() }.open(&path)?;
/// store.save("/plan", b"walk")?;
/// store.commit()?;
/// store.sync()?;
/// # std::fs::remove_dir_all(&folder)?;
/// # Ok(())
/// # }
/// ```
#[derive(Clone, Debug, Default)]
#[must_use = "options make no store by themselves"]
#[allow(clippy::struct_excessive_bools)]
pub struct FileOptions {
    /// Look only. It takes no lock and changes no file; another program may be writing it.
    pub read_only: bool,
    /// Whether the store has a history. It begins with the checkpoint in the file.
    pub history: bool,
    /// When a commit waits for the disk.
    pub sync: FileSync,
    /// Whether a damaged end is copied to `PATH.damaged-1`, or the next free number, and cut off.
    pub repair: bool,
    /// Whether no compaction comes by itself: call [`FileStore::tidy`] when your program has time.
    pub no_compaction: bool,
    /// Whether no renewal comes by itself, either.
    pub no_renewal: bool,
    /// How long to wait for another opener.
    pub wait: Duration,
    /// Of a new store: how many of each kind it may ever make. The file has those of the store that it keeps.
    pub limits: Limits,
}

impl FileOptions {
    /// Opens the store that the file keeps. If it doesn't exist, or is empty, makes it with a fresh store.
    ///
    /// What was open at the last commit is closed, as a drop closes it: what a session wrote becomes a version. It stays open if it is
    /// opened to look only.
    ///
    /// # Errors
    /// [`FileError::Locked`], [`FileError::System`], [`FileError::Damaged`]. [`Error::BadJournal`] if the file is none, or its
    /// checkpoint is damaged; [`Error::BadLimits`]; [`Error::NoMemory`], also if what was open can't be closed.
    pub fn open(&self, path: impl AsRef<Path>) -> Result<FileStore, FileError> {
        let path = CString::new(path.as_ref().as_os_str().as_bytes());
        let path = path.map_err(|_| FileError::System { call: "open", errno: INVALID })?;
        let limits = limits_in_c(&self.limits);
        let options = c::elephant_file_options {
            read_only: self.read_only.into(),
            history: self.history.into(),
            sync: (self.sync == FileSync::Asked).into(),
            repair: self.repair.into(),
            no_compaction: self.no_compaction.into(),
            no_renewal: self.no_renewal.into(),
            wait: u32::try_from(self.wait.as_millis()).unwrap_or(u32::MAX),
            limits: &limits,
        };
        let (mut raw, mut fault) = (ptr::null_mut(), no_fault());
        // SAFETY: the path ends with a zero, and it writes a pointer to `raw` and a fault to `fault`.
        let code = unsafe { c::elephant_file_open(path.as_ptr(), &options, &mut raw, &mut fault) };
        let raw = NonNull::new(raw).ok_or_else(|| FileError::of(code, &fault))?;
        let store = FileStore::of(raw, self.history);
        if !self.read_only {
            store.close_what_is_open().map_err(FileError::Store)?;
        }
        Ok(store)
    }
}

fn no_fault() -> c::elephant_file_fault {
    c::elephant_file_fault { system: 0, call: ptr::null(), place: 0 }
}

/// What is known of an open file.
#[derive(Clone, Copy, Debug, PartialEq, Eq)]
#[non_exhaustive]
pub struct FileInfo {
    /// How many bytes of the file count.
    pub length: u64,
    /// How many of them it was made with.
    pub start: u64,
    /// How many bytes of an unfinished change the opening left out.
    pub cut: u64,
    /// The number N of `PATH.damaged-N`, if the opening made one.
    pub copy: Option<u64>,
    /// How many compactions there were since the opening.
    pub compactions: u64,
    /// How many renewals there were since the opening. After one, numbers that you keep are wrong.
    pub renewals: u64,
    /// Why the last compaction or renewal by itself failed, if it did. It has the call of the system until another call of the file.
    pub tidied: Result<(), FileError>,
    /// Whether the opening made the file.
    pub is_new: bool,
}

/// A [`Store`] that is kept in a file, which C and Python open too. The feature `file` has it; it takes a C compiler to build.
///
/// What you do with the store is in the file once [`commit`](FileStore::commit) has returned: each change wholly or not at all,
/// whatever happens. What wasn't committed is lost when it is dropped.
///
/// ```
/// use elephant::FileStore;
///
/// # fn main() -> Result<(), Box<dyn std::error::Error>> {
/// # let folder = std::env::temp_dir().join(format!("elephant-file-{}", std::process::id()));
/// # std::fs::create_dir_all(&folder)?;
/// let path = folder.join("plans.journal");
/// let store = FileStore::open(&path)?;
/// store.save("/plan", b"walk")?;
/// store.commit()?;
/// store.save("/plan", b"run")?;
/// drop(store); // this save was not committed, and is lost
///
/// let store = FileStore::open(&path)?;
/// assert_eq!(store.read("/plan")?, b"walk");
/// # drop(store);
/// # std::fs::remove_dir_all(&folder)?;
/// # Ok(())
/// # }
/// ```
pub struct FileStore {
    // From `elephant_file_open`, and it owns the handle of the store.
    raw: NonNull<c::elephant_file>,
    store: ManuallyDrop<Store>,
}

// SAFETY: as for `Store`: the calls take it from any thread, one at a time, and it isn't `Sync`.
unsafe impl Send for FileStore {}

impl Drop for FileStore {
    fn drop(&mut self) {
        // SAFETY: it is from `elephant_file_open`, and only this drop closes it, with its store.
        unsafe { c::elephant_file_close(self.raw.as_ptr()) }
    }
}

impl fmt::Debug for FileStore {
    fn fmt(&self, f: &mut fmt::Formatter<'_>) -> fmt::Result {
        f.debug_struct("FileStore").finish_non_exhaustive()
    }
}

impl Deref for FileStore {
    type Target = Store;

    fn deref(&self) -> &Store {
        &self.store
    }
}

impl FileStore {
    /// Opens the store that the file keeps with the default options, or makes the file.
    ///
    /// # Errors
    /// As [`FileOptions::open`].
    pub fn open(path: impl AsRef<Path>) -> Result<FileStore, FileError> {
        FileOptions::default().open(path)
    }

    fn of(raw: NonNull<c::elephant_file>, has_history: bool) -> FileStore {
        let store = Store::of_handle(handle_of(raw), has_history);
        FileStore { raw, store: ManuallyDrop::new(store) }
    }

    // Makes a call of the file, and reads its code. A renewal and a rollback give the store another handle.
    //
    // Each call in `made` is sound: the file is from `elephant_file_open`, and no other call on it or its store runs meanwhile, since
    // neither is `Sync`.
    fn call(&self, made: unsafe extern "C" fn(*mut c::elephant_file) -> i32) -> Result<(), FileError> {
        // SAFETY: see above.
        let code = unsafe { made(self.raw.as_ptr()) };
        self.store.put_handle(handle_of(self.raw));
        match code {
            sys::ELEPHANT_OK => Ok(()),
            code => Err(FileError::of(code, &self.fault())),
        }
    }

    fn fault(&self) -> c::elephant_file_fault {
        let mut fault = no_fault();
        // SAFETY: see `call`.
        unsafe { c::elephant_file_last_fault(self.raw.as_ptr(), &mut fault) };
        fault
    }

    /// Appends what was done since the last commit as one change, and waits for the disk if the option says so.
    ///
    /// If it fails, the file is as before and the store has what was done: commit again when there is space, or roll back. A commit
    /// also does what [`tidy`](FileStore::tidy) does, unless the options say otherwise.
    ///
    /// # Errors
    /// [`FileError::ReadOnly`], [`FileError::Stuck`], [`FileError::Lost`], [`FileError::System`], [`Error::NoMemory`].
    pub fn commit(&self) -> Result<(), FileError> {
        self.call(c::elephant_file_commit)
    }

    /// Makes the store what it was at the last commit, by reading the file. If it fails, nothing changes.
    ///
    /// What was open at the last commit is closed, as by an opening.
    ///
    /// # Errors
    /// [`FileError::System`], [`FileError::Damaged`]; [`Error::NoMemory`], also if what was open can't be closed.
    pub fn rollback(&mut self) -> Result<(), FileError> {
        self.call(c::elephant_file_rollback)?;
        self.close_what_is_open().map_err(FileError::Store)
    }

    /// Waits until all commits are on the disk. After a failure call [`compact`](FileStore::compact), which writes everything anew.
    ///
    /// # Errors
    /// [`FileError::Stuck`], [`FileError::System`].
    pub fn sync(&self) -> Result<(), FileError> {
        self.call(c::elephant_file_sync)
    }

    /// Writes the store as it is now into a new file, and puts it in the place of the old one. It commits too. It takes as long as to
    /// write all that is held.
    ///
    /// # Errors
    /// [`FileError::ReadOnly`], [`FileError::Lost`], [`FileError::System`], [`Error::NoMemory`].
    pub fn compact(&self) -> Result<(), FileError> {
        self.call(c::elephant_file_compact)
    }

    /// Does the same with fresh numbers, as [`Store::renew`] gives them.
    ///
    /// # Errors
    /// [`Error::HandlesOpen`], and those of [`compact`](FileStore::compact).
    pub fn renew(&mut self) -> Result<(), FileError> {
        self.call(c::elephant_file_renew)
    }

    /// Does what a commit does by itself, if that is worth it. Call it when your program has time, and open the file with
    /// [`no_compaction`](FileOptions::no_compaction) and [`no_renewal`](FileOptions::no_renewal): then no commit takes longer for it.
    ///
    /// It compacts a file of more than 1 MiB and twice the bytes that it was made with. It renews the numbers when a count has reached
    /// nine tenths of its limit, less than half of that limit is held, and no session or reader is open: then [`FileInfo::renewals`] is
    /// higher than before. What isn't worth it takes no time.
    ///
    /// # Errors
    /// [`Error::HandlesOpen`], [`FileError::Stuck`], and those of [`compact`](FileStore::compact). It is tried again later.
    pub fn tidy(&self) -> Result<(), FileError> {
        self.call(c::elephant_file_tidy)
    }

    /// Returns what is known of the file.
    #[must_use]
    pub fn info(&self) -> FileInfo {
        let mut info = c::elephant_file_info::default();
        // SAFETY: see `call`.
        unsafe { c::elephant_file_look(self.raw.as_ptr(), &mut info) };
        FileInfo {
            length: info.length,
            start: info.start,
            cut: info.cut,
            copy: Some(info.copy).filter(|it| *it != 0),
            compactions: info.compactions,
            renewals: info.renewals,
            tidied: if info.tidied == sys::ELEPHANT_OK { Ok(()) } else { Err(FileError::of(info.tidied, &self.fault())) },
            is_new: info.is_new != 0,
        }
    }
}

// The handle of an open file's store.
fn handle_of(raw: NonNull<c::elephant_file>) -> NonNull<sys::elephant> {
    // SAFETY: an open file always has a store, and the file lives until `FileStore` is dropped.
    unsafe { NonNull::new_unchecked(c::elephant_file_store(raw.as_ptr())) }
}
