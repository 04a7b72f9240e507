//! Contents: what makes a version, and what reads one.

use crate::names::version_of;
use crate::store::{parts, size_of};
use crate::sys;
use crate::{Error, Reader, Session, Store, Target};
use std::mem::MaybeUninit;
use std::slice;

/// The longest content, in bytes.
pub const LARGEST_CONTENT: usize = 1 << 20;
// A content of at most so many bytes is read by one call, into a buffer that needs no memory.
const SHORT: usize = 1 << 12;

/// Contents.
impl Store {
    /// Makes the bytes the file's newest version, whole or not at all, and returns its number. Makes the file if it doesn't exist:
    /// its version 1 is empty, and the bytes are version 2.
    ///
    /// It makes a version also if the bytes are those of the version before.
    ///
    /// ```
    /// # use elephant::{Error, Store};
    /// # fn main() -> Result<(), Error> {
    /// let store = Store::new()?;
    /// assert_eq!(store.save("/plan", b"walk"), Ok(2));
    /// assert_eq!(store.save("/plan", b"walk"), Ok(3));
    /// assert_eq!(store.save("/empty", b""), Ok(2));
    /// # Ok(())
    /// # }
    /// ```
    ///
    /// # Errors
    /// [`Error::TooBig`], [`Error::NoEntry`], [`Error::IsDirectory`], [`Error::IsRoot`], [`Error::Full`]; [`Error::Drafting`] if a
    /// handle writes the file. After an error the store is as it was: a file that didn't exist isn't made.
    pub fn save(&self, path: &str, bytes: &[u8]) -> Result<u64, Error> {
        // SAFETY: see `call`.
        self.number(|e, version| unsafe {
            sys::elephant_save(e, path.as_ptr(), path.len(), bytes.as_ptr(), bytes.len(), version)
        })
    }

    /// Opens a session, which writes a file. While it is open, [`save`](Store::save) refuses the file.
    ///
    /// # Errors
    /// [`Error::NoEntry`], [`Error::IsDirectory`], [`Error::Full`].
    pub fn session(&self, path: &str) -> Result<Session<'_>, Error> {
        // SAFETY: see `call`.
        let handle = self.number(|e, handle| unsafe { sys::elephant_open_write(e, path.as_ptr(), path.len(), handle) })?;
        Ok(Session::new(self, handle))
    }

    /// Opens a reader of a version, which keeps it from being removed.
    ///
    /// # Errors
    /// Those of [`read`](Store::read), and [`Error::Full`].
    pub fn reader<'a>(&self, target: impl Into<Target<'a>>) -> Result<Reader<'_>, Error> {
        let (path, tag, number) = parts(target.into());
        // SAFETY: see `call`.
        let handle =
            self.number(|e, handle| unsafe { sys::elephant_open_read(e, path.as_ptr(), path.len(), tag, number, handle) })?;
        Ok(Reader::new(self, handle))
    }

    /// Reads a version: what the path holds now, or what [`at`](crate::at) or [`version`](crate::version) mean.
    ///
    /// # Errors
    /// [`Error::NoEntry`], [`Error::IsDirectory`], [`Error::Future`], [`Error::NoVersion`], and
    /// [`Error::Forgotten`] if the version was removed: it never returns another version in its
    /// place.
    pub fn read<'a>(&self, target: impl Into<Target<'a>>) -> Result<Vec<u8>, Error> {
        let target = target.into();
        let (path, tag, number) = parts(target);
        if self.has_history {
            // SAFETY: see `call`.
            let length =
                self.number(|e, length| unsafe { sys::elephant_read(e, path.as_ptr(), path.len(), tag, number, length) })?;
            return self.taken(length);
        }
        // SAFETY: see `straight`.
        let found = self.straight(|e, into, room, length, copied| unsafe {
            sys::elephant_read_into(e, path.as_ptr(), path.len(), tag, number, 0, into, room, length, copied)
        });
        match found {
            Err(error @ Error::Forgotten { .. }) => Err(self.stat(target).err().unwrap_or(error)),
            found => found,
        }
    }

    /// Makes a new version of a file, with the content of the version of that number. Returns the
    /// new number.
    ///
    /// # Errors
    /// [`Error::NoVersion`], [`Error::Forgotten`], [`Error::Drafting`], [`Error::Full`].
    pub fn revert(&self, path: &str, number: u64) -> Result<u64, Error> {
        // SAFETY: see `call`.
        self.number(|e, version| unsafe { sys::elephant_revert(e, path.as_ptr(), path.len(), number, version) })
    }

    /// Makes what the path held at a moment its newest version, and returns the version's number. If the path named nothing then,
    /// it is what the file at the path held under another name.
    ///
    /// If the path names nothing now, the file that had the name then has it again, with all its versions. If that file has another
    /// name, a new file gets the content.
    ///
    /// ```
    /// # use elephant::{Error, Store};
    /// # fn main() -> Result<(), Error> {
    /// let store = Store::new()?;
    /// store.save("/plan", b"walk")?;
    /// store.tick(60)?;
    /// store.save("/plan", b"run")?;
    /// assert_eq!(store.restore("/plan", 59), Ok(4));
    /// assert_eq!(store.read("/plan")?, b"walk");
    /// store.tick(60)?;
    /// store.unlink("/plan")?;
    /// assert_eq!(store.restore("/plan", 60), Ok(5));
    /// # Ok(())
    /// # }
    /// ```
    ///
    /// # Errors
    /// [`Error::NoEntry`], [`Error::IsDirectory`], [`Error::Future`], [`Error::Drafting`], [`Error::Full`]; [`Error::Forgotten`] if the
    /// version was removed: it never takes another one in its place.
    pub fn restore(&self, path: &str, moment: u64) -> Result<u64, Error> {
        // SAFETY: see `call`.
        self.number(|e, version| unsafe { sys::elephant_restore(e, path.as_ptr(), path.len(), moment, version) })
    }

    fn taken(&self, length: u64) -> Result<Vec<u8>, Error> {
        // SAFETY: see `call`.
        self.copied(length, |e, into, copied| unsafe { sys::elephant_take(e, 0, into.as_mut_ptr(), into.len(), copied) })
    }

    // Returns a content, by a call that copies it straight to `into`, as much as there is room, and says how long it is and how much
    // it copied. If it is longer than the first buffer, the call is made again. It is one that only looks, which leaves no detail.
    //
    // The call in `made` is as in `call`, and `into` points to `room` bytes that nothing else has.
    fn straight(&self, made: impl Fn(*mut sys::elephant, *mut u8, usize, &mut u64, &mut u64) -> i32) -> Result<Vec<u8>, Error> {
        let copy = |into: &mut [MaybeUninit<u8>]| {
            let (mut length, mut copied) = (0, 0);
            match self.code(|e| made(e, into.as_mut_ptr().cast(), into.len(), &mut length, &mut copied)) {
                sys::ELEPHANT_OK => Ok((size_of(length)?, size_of(copied)?)),
                code => Err(Error::from_code(code, || None)),
            }
        };
        let mut short = [MaybeUninit::uninit(); SHORT];
        let (length, copied) = copy(&mut short)?;
        let mut bytes = Vec::new();
        bytes.try_reserve_exact(length).map_err(|_| Error::NoMemory)?;
        if length > SHORT {
            let (_, copied) = copy(&mut bytes.spare_capacity_mut()[..length])?;
            // SAFETY: the call filled so many bytes of them.
            unsafe { bytes.set_len(copied) };
        } else {
            // SAFETY: the call filled so many bytes of the buffer.
            bytes.extend_from_slice(unsafe { slice::from_raw_parts(short.as_ptr().cast(), copied) });
        }
        Ok(bytes)
    }

    pub(crate) fn write(&self, handle: u64, offset: u64, bytes: &[u8]) -> Result<(), Error> {
        // SAFETY: see `call`.
        self.call(|e| unsafe { sys::elephant_write(e, handle, offset, bytes.as_ptr(), bytes.len()) })
    }

    pub(crate) fn truncate(&self, handle: u64, size: u64) -> Result<(), Error> {
        // SAFETY: see `call`.
        self.call(|e| unsafe { sys::elephant_truncate(e, handle, size) })
    }

    pub(crate) fn close_handle(&self, handle: u64) -> Result<Option<u64>, Error> {
        // SAFETY: see `call`.
        self.number(|e, version| unsafe { sys::elephant_close_handle(e, handle, version) }).map(version_of)
    }

    pub(crate) fn abandon(&self, handle: u64) -> Result<(), Error> {
        // SAFETY: see `call`.
        self.call(|e| unsafe { sys::elephant_abandon(e, handle) })
    }

    pub(crate) fn length_of_handle(&self, handle: u64) -> Result<u64, Error> {
        // SAFETY: see `call`.
        self.number(|e, length| unsafe { sys::elephant_read_handle(e, handle, length) })
    }

    pub(crate) fn read_handle(&self, handle: u64) -> Result<Vec<u8>, Error> {
        if self.has_history {
            let length = self.length_of_handle(handle)?;
            return self.taken(length);
        }
        // SAFETY: see `straight`.
        self.straight(|e, into, room, length, copied| unsafe {
            sys::elephant_read_handle_into(e, handle, 0, into, room, length, copied)
        })
    }
}
