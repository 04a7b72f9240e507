//! A whole store as bytes, and fresh numbers for a store that lives on.

use crate::sys;
use crate::{Error, Store};

/// A whole store as bytes, and fresh numbers for a store that lives on.
impl Store {
    /// Returns the whole store as bytes, of which [`from_checkpoint`](Store::from_checkpoint) makes a store again.
    ///
    /// They have the moment, names, versions, policies, groups, marks, counts and limits, and what open sessions have written, but no
    /// history. Two stores have the same bytes only if they are alike in all that. Whoever has the bytes can read every version in them.
    ///
    /// ```
    /// # use elephant::{at, Error, Store};
    /// # fn main() -> Result<(), Error> {
    /// let store = Store::new()?;
    /// store.save("/plan", b"walk")?;
    /// store.tick(60)?;
    /// store.save("/plan", b"run")?;
    /// let bytes = store.checkpoint()?;
    /// let again = Store::from_checkpoint(&bytes, false)?;
    /// assert_eq!((again.now(), again.read(at("/plan", 59))?), (60, b"walk".to_vec()));
    /// assert_eq!(again.checkpoint()?, bytes);
    /// # Ok(())
    /// # }
    /// ```
    ///
    /// # Errors
    /// [`Error::NoMemory`]: it takes memory for two copies of the store.
    pub fn checkpoint(&self) -> Result<Vec<u8>, Error> {
        // SAFETY: see `call`.
        let length = self.number(|e, length| unsafe { sys::elephant_checkpoint(e, length) })?;
        self.copied_answer(length)
    }

    /// Makes a store of what [`checkpoint`](Store::checkpoint) returned, with the moment and the limits that it had.
    ///
    /// What was open when the bytes were taken is closed, as a drop would close it: what a session wrote becomes a version. With
    /// `history` a history begins there, with one folded event.
    ///
    /// # Errors
    /// [`Error::BadCheckpoint`] for other bytes; [`Error::NoMemory`], also if what was open can't be closed; [`Error::HistoryFull`] if
    /// the limits allow a history no event.
    pub fn from_checkpoint(bytes: &[u8], history: bool) -> Result<Store, Error> {
        let store = Store::closed(history)?;
        // SAFETY: see `call`.
        store.call(|e| unsafe { sys::elephant_open_checkpoint(e, bytes.as_ptr(), bytes.len(), history.into()) })?;
        store.close_what_is_open()?;
        Ok(store)
    }

    // Closes each open handle, as the drop of its session or its reader would.
    pub(crate) fn close_what_is_open(&self) -> Result<(), Error> {
        for handle in 1..=self.counts().handles {
            if self.is_open(handle)? {
                self.close_handle(handle)?;
            }
        }
        Ok(())
    }

    /// Gives directories, files and versions fresh numbers, and counts only what is held, so that a store near its limits can go on.
    ///
    /// Each path leads to the same contents as before, at each moment, with the same policies and marks. A history begins anew: what it
    /// had is dropped.
    ///
    /// ```
    /// # use elephant::{version, Error, Policy, Store};
    /// # fn main() -> Result<(), Error> {
    /// let mut store = Store::new()?;
    /// store.set_default("/", &Policy::KeepOne)?;
    /// store.save("/draft", b"walk")?;
    /// store.unlink("/draft")?;
    /// store.save("/plan", b"walk")?;
    /// store.save("/plan", b"run")?;
    /// store.tick(1)?;
    /// store.pass(u64::MAX);
    /// assert_eq!((store.file_across(2)?, store.version_across(2, 3)?), (Some(1), Some(1)));
    /// store.renew()?;
    /// assert_eq!((store.read(version("/plan", 1))?, store.counts().versions), (b"run".to_vec(), 1));
    /// # Ok(())
    /// # }
    /// ```
    ///
    /// A session or a reader borrows the store, so none lives on with a number of before:
    ///
    /// ```compile_fail,E0502
    /// let mut store = elephant::Store::new().unwrap();
    /// store.create("/plan").unwrap();
    /// let session = store.session("/plan").unwrap();
    /// store.renew().unwrap();
    /// session.close().unwrap();
    /// ```
    ///
    /// # Errors
    /// [`Error::HandlesOpen`] if a line has opened a handle, or one couldn't be closed; [`Error::NoMemory`]; [`Error::HistoryFull`] if the
    /// limits allow a history no event.
    pub fn renew(&mut self) -> Result<(), Error> {
        // SAFETY: see `call`.
        self.call(|e| unsafe { sys::elephant_renew(e) })
    }

    /// Returns the number that a directory will have after [`renew`](Store::renew). None if there is no such directory.
    ///
    /// Each of these three calls takes as long as a copy of the whole store.
    ///
    /// # Errors
    /// [`Error::NoMemory`].
    pub fn directory_across(&self, directory: u64) -> Result<Option<u64>, Error> {
        // SAFETY: see `call`.
        self.found(|e, fresh| unsafe { sys::elephant_directory_across(e, directory, fresh) })
    }

    /// Returns the number that a file will have after [`renew`](Store::renew). None if there is no such file.
    ///
    /// # Errors
    /// [`Error::NoMemory`].
    pub fn file_across(&self, file: u64) -> Result<Option<u64>, Error> {
        // SAFETY: see `call`.
        self.found(|e, fresh| unsafe { sys::elephant_file_across(e, file, fresh) })
    }

    /// Returns the number that a version of a file will have after [`renew`](Store::renew). None if it isn't held.
    ///
    /// # Errors
    /// [`Error::NoMemory`].
    pub fn version_across(&self, file: u64, version: u64) -> Result<Option<u64>, Error> {
        // SAFETY: see `call`.
        self.found(|e, fresh| unsafe { sys::elephant_version_across(e, file, version, fresh) })
    }

    // Whether a handle is open. It is no event.
    fn is_open(&self, handle: u64) -> Result<bool, Error> {
        let (mut length, mut copied) = (0, 0);
        let into: &mut [u8] = &mut [];
        // SAFETY: see `call`.
        let code = self.code(|e| unsafe {
            sys::elephant_read_handle_into(e, handle, 0, into.as_mut_ptr(), into.len(), &mut length, &mut copied)
        });
        match code {
            sys::ELEPHANT_OK => Ok(true),
            sys::ELEPHANT_NO_HANDLE => Ok(false),
            code => Err(Error::from_code(code, || None)),
        }
    }
}
