//! Sessions, which write a file.

use crate::{Error, Store};
use std::io::{self, Seek, SeekFrom, Write};

/// Writes a file. All sessions that write the same file at a time share one draft, which becomes a version when the last of them
/// is closed; a draft that wasn't changed makes none.
///
/// Dropping a session closes it, and keeps what was written. [`close`](Session::close) returns the version that it made, and
/// [`abandon`](Session::abandon) makes none.
///
/// ```
/// use elephant::Store;
/// use std::io::Write;
///
/// # fn main() -> Result<(), Box<dyn std::error::Error>> {
/// let store = Store::new()?;
/// store.create("/notes")?;
/// let mut session = store.session("/notes")?;
/// writeln!(session, "milk")?;
/// writeln!(session, "bread")?;
/// assert_eq!(session.close()?, Some(2));
/// assert_eq!(store.read("/notes")?, b"milk\nbread\n");
/// # Ok(())
/// # }
/// ```
#[derive(Debug)]
#[must_use = "dropping a session closes it"]
pub struct Session<'store> {
    store: &'store Store,
    handle: u64,
    position: u64,
}

impl<'store> Session<'store> {
    pub(crate) fn new(store: &'store Store, handle: u64) -> Session<'store> {
        Session { store, handle, position: 0 }
    }

    /// Returns its number in the store.
    #[must_use]
    pub fn handle(&self) -> u64 {
        self.handle
    }

    /// Writes bytes from an offset on, and leaves the position. Zeros fill a gap before the offset.
    ///
    /// # Errors
    /// [`Error::TooBig`] if the content would be longer than 1,048,576 bytes.
    pub fn write_at(&self, offset: u64, bytes: &[u8]) -> Result<(), Error> {
        self.store.write(self.handle, offset, bytes)
    }

    /// Sets the length of the draft: cuts a longer one, and fills a shorter one with zeros.
    ///
    /// # Errors
    /// [`Error::TooBig`] if the length is above 1,048,576.
    pub fn set_len(&self, length: u64) -> Result<(), Error> {
        self.store.truncate(self.handle, length)
    }

    /// Returns the whole draft.
    ///
    /// # Errors
    /// [`Error::NoMemory`].
    pub fn contents(&self) -> Result<Vec<u8>, Error> {
        self.store.read_handle(self.handle)
    }

    /// Closes the session, and returns the number of the version that the close made. None if it
    /// made none.
    ///
    /// # Errors
    /// [`Error::NoMemory`]; the session is then closed again when it is dropped, which may succeed.
    pub fn close(self) -> Result<Option<u64>, Error> {
        let made = self.store.close_handle(self.handle)?;
        std::mem::forget(self);
        Ok(made)
    }
}

impl Session<'_> {
    /// Ends the session without a version. If it was the file's last one, what the sessions wrote is removed.
    ///
    /// ```
    /// # use elephant::{Error, Store};
    /// # fn main() -> Result<(), Error> {
    /// let store = Store::new()?;
    /// store.save("/notes", b"milk")?;
    /// let session = store.session("/notes")?;
    /// session.write_at(0, b"a mistake")?;
    /// session.abandon()?;
    /// assert_eq!(store.read("/notes")?, b"milk");
    /// # Ok(())
    /// # }
    /// ```
    ///
    /// # Errors
    /// [`Error::NoHandle`] if a line closed it. Only a history takes memory for it ([`Error::NoMemory`]); the session is then closed as
    /// it is dropped, and keeps what was written.
    pub fn abandon(self) -> Result<(), Error> {
        self.store.abandon(self.handle)?;
        std::mem::forget(self);
        Ok(())
    }
}

impl Write for Session<'_> {
    /// Writes all the bytes at the position, or none of them.
    fn write(&mut self, bytes: &[u8]) -> io::Result<usize> {
        self.write_at(self.position, bytes)?;
        self.position += bytes.len() as u64;
        Ok(bytes.len())
    }

    fn flush(&mut self) -> io::Result<()> {
        Ok(())
    }
}

impl Seek for Session<'_> {
    fn seek(&mut self, to: SeekFrom) -> io::Result<u64> {
        let length = match to {
            SeekFrom::End(_) => self.store.length_of_handle(self.handle)?,
            _ => 0,
        };
        self.position = sought(self.position, length, to)?;
        Ok(self.position)
    }
}

/// The position after a seek, or an error before the start.
pub(crate) fn sought(position: u64, length: u64, to: SeekFrom) -> io::Result<u64> {
    let (from, by) = match to {
        SeekFrom::Start(offset) => return Ok(offset),
        SeekFrom::Current(by) => (position, by),
        SeekFrom::End(by) => (length, by),
    };
    let found = if by < 0 { from.checked_sub(by.unsigned_abs()) } else { from.checked_add(by.unsigned_abs()) };
    found.ok_or_else(|| io::Error::new(io::ErrorKind::InvalidInput, "a seek to before the start or past the last number"))
}

impl Drop for Session<'_> {
    fn drop(&mut self) {
        // A drop can't return an error.
        let _ = self.store.close_handle(self.handle);
    }
}
