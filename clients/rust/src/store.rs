//! A store, and its calls.

use crate::sys;
use crate::types::Tag;
use crate::{Error, Limits, Target};
use std::cell::Cell;
use std::fmt;
use std::ptr::{self, NonNull};

/// How to open a store.
///
/// ```
/// use elephant::{Limits, Options};
///
/// # fn main() -> Result<(), elephant::Error> {
/// let limits = Limits { files: 10, ..Limits::default() };
/// let store = Options::new().limits(limits).history(true).open()?;
/// store.create("/f")?;
/// assert_eq!(store.line("history")?, "ok history 0 1\n- create /f\n");
/// # Ok(())
/// # }
/// ```
#[derive(Clone, Debug, Default)]
#[must_use = "options make no store by themselves"]
pub struct Options {
    limits: Limits,
    history: bool,
}

impl Options {
    /// The options with the largest limits, and without a history.
    pub fn new() -> Options {
        Options::default()
    }

    /// Sets how many of each kind the store may ever make.
    pub fn limits(mut self, limits: Limits) -> Options {
        self.limits = limits;
        self
    }

    /// Sets whether the store keeps each event and question with its answer. Use it only for a short time, or call [`Store::trim`] now
    /// and then.
    pub fn history(mut self, is_kept: bool) -> Options {
        self.history = is_kept;
        self
    }

    /// Opens a fresh store.
    ///
    /// # Errors
    /// [`Error::BadLimits`], [`Error::NoMemory`].
    pub fn open(self) -> Result<Store, Error> {
        let store = Store::closed(self.history)?;
        let limits = limits_in_c(&self.limits);
        // SAFETY: see `Store::call`.
        store.call(|e| unsafe { sys::elephant_open(e, &limits, self.history.into()) })?;
        Ok(store)
    }
}

/// A file system that keeps earlier versions of its files, in memory.
///
/// It takes calls from one thread at a time: it is [`Send`] and not [`Sync`], so threads share it
/// in a [`Mutex`](std::sync::Mutex). Its calls take `&self`, so that other calls are possible while
/// sessions and readers are open.
///
/// ```
/// use elephant::{at, Store};
///
/// # fn main() -> Result<(), elephant::Error> {
/// let store = Store::new()?;
/// store.save("/plan", b"walk")?;
/// store.tick(60)?;
/// store.save("/plan", b"run")?;
/// assert_eq!(store.read("/plan")?, b"run");
/// assert_eq!(store.read(at("/plan", 59))?, b"walk");
/// # Ok(())
/// # }
/// ```
///
/// A store can't be shared without a lock:
///
/// ```compile_fail
/// fn is_sync<T: Sync>() {}
/// is_sync::<elephant::Store>();
/// ```
pub struct Store {
    // The open handle from `elephant_new`. A store in a file may get another one.
    raw: Cell<NonNull<sys::elephant>>,
    pub(crate) has_history: bool,
}

// SAFETY: the library keeps no state of a thread, and takes a handle's calls from any thread, one
// at a time. `Store` isn't `Sync`, and neither `Store` nor a type that borrows it is `Clone`, so no
// two threads make calls at a time.
unsafe impl Send for Store {}

impl fmt::Debug for Store {
    fn fmt(&self, f: &mut fmt::Formatter<'_>) -> fmt::Result {
        f.debug_struct("Store").finish_non_exhaustive()
    }
}

impl Drop for Store {
    fn drop(&mut self) {
        // SAFETY: the handle is from `elephant_new`, and only this drop deletes it.
        unsafe { sys::elephant_delete(self.raw.get().as_ptr()) }
    }
}

impl Store {
    /// Opens a fresh store with the largest limits and no history.
    ///
    /// # Errors
    /// [`Error::NoMemory`].
    pub fn new() -> Result<Store, Error> {
        Options::new().open()
    }

    // Makes the handle of a store, which is to be opened at once.
    pub(crate) fn closed(has_history: bool) -> Result<Store, Error> {
        let mut raw = ptr::null_mut();
        // SAFETY: it writes a pointer to `raw`.
        unsafe { sys::elephant_new(&mut raw) };
        let raw = NonNull::new(raw).ok_or(Error::NoMemory)?;
        Ok(Store::of_handle(raw, has_history))
    }

    // The store of a handle. Its drop deletes the handle.
    pub(crate) fn of_handle(raw: NonNull<sys::elephant>, has_history: bool) -> Store {
        Store { raw: Cell::new(raw), has_history }
    }

    // Puts another open handle in the place of this one, which somebody else has deleted.
    #[cfg(feature = "file")]
    pub(crate) fn put_handle(&self, raw: NonNull<sys::elephant>) {
        self.raw.set(raw);
    }

    // Makes one call of the library, and reads its code.
    //
    // Each call in `made` is sound. The handle is from `elephant_new`, and the store deletes it
    // only in its drop. No other call runs meanwhile, since the store isn't `Sync` and the library
    // has no callbacks. A pointer with a length points into a slice, and each other pointer is a
    // reference to one object. The call borrows mutably what it writes, so nothing overlaps it.
    pub(crate) fn call(&self, made: impl FnOnce(*mut sys::elephant) -> i32) -> Result<(), Error> {
        match self.code(made) {
            sys::ELEPHANT_OK => Ok(()),
            code => Err(Error::from_code(code, || self.detail())),
        }
    }

    // Makes one call of the library, and returns its code.
    pub(crate) fn code(&self, made: impl FnOnce(*mut sys::elephant) -> i32) -> i32 {
        made(self.raw.get().as_ptr())
    }

    // Makes a call that writes one number.
    pub(crate) fn number(&self, made: impl FnOnce(*mut sys::elephant, &mut u64) -> i32) -> Result<u64, Error> {
        let mut number = 0;
        self.call(|e| made(e, &mut number))?;
        Ok(number)
    }

    // Makes a call that writes a row.
    pub(crate) fn row<T: Default>(&self, made: impl FnOnce(*mut sys::elephant, &mut T) -> i32) -> Result<T, Error> {
        let mut row = T::default();
        self.call(|e| made(e, &mut row))?;
        Ok(row)
    }

    // Makes a call that writes a number or a row, or finds none.
    pub(crate) fn found<T: Default>(&self, made: impl FnOnce(*mut sys::elephant, &mut T) -> i32) -> Result<Option<T>, Error> {
        let mut found = T::default();
        match self.code(|e| made(e, &mut found)) {
            sys::ELEPHANT_OK => Ok(Some(found)),
            sys::ELEPHANT_NO_RESULT => Ok(None),
            code => Err(Error::from_code(code, || None)),
        }
    }

    fn detail(&self) -> Option<u64> {
        let mut detail = 0;
        // SAFETY: see `call`.
        let code = unsafe { sys::elephant_detail(self.raw.get().as_ptr(), &mut detail) };
        (code == sys::ELEPHANT_OK).then_some(detail)
    }
}

/// Lines of the script language.
impl Store {
    /// Runs one line, and returns the text of its answer, with its line feeds, as `elephant run` prints it. The text reports refusals
    /// too: `no 5 NoEntry`.
    ///
    /// # Errors
    /// [`Error::Untold`]: the line was run, but there was no memory for its text, which has more than 8,192 bytes.
    /// [`tell`](Store::tell) may return it later.
    /// [`Error::NoMemory`].
    pub fn line(&self, line: &str) -> Result<String, Error> {
        // SAFETY: see `call`.
        let length = self.number(|e, length| unsafe { sys::elephant_line(e, line.as_ptr(), line.len(), length) })?;
        self.answer(length)
    }

    /// Returns the text of the last call's answer, also of a call that is no line, as the program
    /// prints it: `ok file 1`. Calls that only look don't count: in a store without a history these are
    /// also [`read`](Store::read) and what a session or a reader reads.
    ///
    /// # Errors
    /// [`Error::Untold`].
    pub fn tell(&self) -> Result<String, Error> {
        // SAFETY: see `call`.
        let length = self.number(|e, length| unsafe { sys::elephant_tell(e, length) })?;
        self.answer(length)
    }

    fn answer(&self, length: u64) -> Result<String, Error> {
        let bytes = self.copied_answer(length)?;
        Ok(String::from_utf8_lossy(&bytes).into_owned())
    }

    // Copies the text that the last call made, of so many bytes.
    pub(crate) fn copied_answer(&self, length: u64) -> Result<Vec<u8>, Error> {
        // SAFETY: see `call`.
        self.copied(length, |e, into, copied| unsafe { sys::elephant_answer(e, 0, into.as_mut_ptr(), into.len(), copied) })
    }

    // Copies so many bytes out.
    pub(crate) fn copied(
        &self,
        length: u64,
        made: impl FnOnce(*mut sys::elephant, &mut [u8], &mut u64) -> i32,
    ) -> Result<Vec<u8>, Error> {
        let mut bytes = Vec::new();
        let length = size_of(length)?;
        bytes.try_reserve_exact(length).map_err(|_| Error::NoMemory)?;
        bytes.resize(length, 0);
        let copied = self.number(|e, copied| made(e, &mut bytes, copied))?;
        bytes.truncate(usize::try_from(copied).unwrap_or(length));
        Ok(bytes)
    }
}

/// The clock, which only these calls move.
impl Store {
    /// Returns the store's moment, in seconds since 1970-01-01T00:00:00Z.
    #[must_use]
    pub fn now(&self) -> u64 {
        // SAFETY: see `call`. An open store has no error here.
        self.number(|e, moment| unsafe { sys::elephant_now(e, moment) }).unwrap_or_default()
    }

    /// Moves the clock to a moment; [`moment`](crate::moment) makes one of a system time.
    ///
    /// # Errors
    /// [`Error::ClockBack`], [`Error::BadMoment`].
    pub fn clock(&self, moment: u64) -> Result<(), Error> {
        // SAFETY: see `call`.
        self.call(|e| unsafe { sys::elephant_clock(e, moment) })
    }

    /// Moves the clock forward by so many seconds.
    ///
    /// # Errors
    /// [`Error::ClockEnd`].
    pub fn tick(&self, seconds: u64) -> Result<(), Error> {
        // SAFETY: see `call`.
        self.call(|e| unsafe { sys::elephant_tick(e, seconds) })
    }
}

// The limits as C has them.
pub(crate) fn limits_in_c(limits: &Limits) -> sys::elephant_limits {
    sys::elephant_limits {
        events: limits.events,
        files: limits.files,
        directories: limits.directories,
        names: limits.names,
        versions: limits.versions,
        handles: limits.handles,
        groups: limits.groups,
        members: limits.members,
        marks: limits.marks,
    }
}

// A count of bytes as one of memory.
pub(crate) fn size_of(count: u64) -> Result<usize, Error> {
    usize::try_from(count).map_err(|_| Error::NoMemory)
}

// A path, and its tag as C has it.
pub(crate) fn parts(target: Target<'_>) -> (&str, u32, u64) {
    match target.tag {
        Tag::Now => (target.path, sys::ELEPHANT_NOW, 0),
        Tag::At(moment) => (target.path, sys::ELEPHANT_AT, moment),
        Tag::Version(number) => (target.path, sys::ELEPHANT_VERSION, number),
    }
}
