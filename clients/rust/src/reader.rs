//! Readers, which hold a version while they read it.

use crate::session::sought;
use crate::{Error, Store};
use std::io::{self, BufRead, Read, Seek, SeekFrom};

/// Reads a version. While a reader is open, its version isn't removed. Dropping the reader closes
/// it.
///
/// ```
/// use elephant::{version, Policy, Store};
/// use std::io::Read;
///
/// # fn main() -> Result<(), Box<dyn std::error::Error>> {
/// let store = Store::new()?;
/// store.set_default("/", &Policy::KeepOne)?;
/// store.save("/notes", b"first")?;
/// let mut reader = store.reader("/notes")?;
/// store.save("/notes", b"second")?;
/// let _ = store.pass(u64::MAX);
/// let mut text = String::new();
/// reader.read_to_string(&mut text)?;
/// assert_eq!(text, "first");
/// drop(reader);
/// let _ = store.pass(u64::MAX);
/// assert!(store.read(version("/notes", 2)).is_err());
/// # Ok(())
/// # }
/// ```
#[derive(Debug)]
#[must_use = "dropping a reader closes it"]
pub struct Reader<'store> {
    store: &'store Store,
    handle: u64,
    // The version's bytes, read once: a version never changes.
    content: Option<Vec<u8>>,
    position: u64,
}

impl<'store> Reader<'store> {
    pub(crate) fn new(store: &'store Store, handle: u64) -> Reader<'store> {
        Reader { store, handle, content: None, position: 0 }
    }

    /// Returns its number in the store.
    #[must_use]
    pub fn handle(&self) -> u64 {
        self.handle
    }

    /// Returns the whole version, from any position.
    ///
    /// # Errors
    /// [`Error::NoMemory`].
    pub fn contents(&mut self) -> Result<&[u8], Error> {
        if self.content.is_none() {
            self.content = Some(self.store.read_handle(self.handle)?);
        }
        Ok(self.content.as_deref().unwrap_or_default())
    }

    /// Closes the reader.
    ///
    /// # Errors
    /// [`Error::NoMemory`]; the reader is then closed again when it is dropped, which may succeed.
    pub fn close(mut self) -> Result<(), Error> {
        self.store.close_handle(self.handle)?;
        self.content = None;
        std::mem::forget(self);
        Ok(())
    }
}

impl Read for Reader<'_> {
    fn read(&mut self, into: &mut [u8]) -> io::Result<usize> {
        let count = self.fill_buf()?.read(into)?;
        self.consume(count);
        Ok(count)
    }
}

impl BufRead for Reader<'_> {
    fn fill_buf(&mut self) -> io::Result<&[u8]> {
        let position = self.position;
        let content = self.contents()?;
        let start = usize::try_from(position).map_or(content.len(), |it| it.min(content.len()));
        Ok(&content[start..])
    }

    fn consume(&mut self, count: usize) {
        self.position += count as u64;
    }
}

impl Seek for Reader<'_> {
    fn seek(&mut self, to: SeekFrom) -> io::Result<u64> {
        let length = self.contents()?.len() as u64;
        self.position = sought(self.position, length, to)?;
        Ok(self.position)
    }
}

impl Drop for Reader<'_> {
    fn drop(&mut self) {
        // A drop can't return an error.
        let _ = self.store.close_handle(self.handle);
    }
}
