//! Names: directories, files, and the paths that lead to them.

use crate::store::parts;
use crate::sys;
use crate::types::Tag;
use crate::{Error, Node, PathEntry, PathError, Store, Target};

// The most names of a path.
const MOST_NAMES: usize = 32;

/// Names.
///
/// Each of these calls may fail for its path: [`Error::NoEntry`], [`Error::NotDirectory`], [`Error::BadPath`], [`Error::BadName`].
impl Store {
    /// Makes a directory, and returns its number.
    ///
    /// # Errors
    /// [`Error::Exists`], [`Error::IsRoot`], [`Error::Full`].
    pub fn mkdir(&self, path: &str) -> Result<u64, Error> {
        // SAFETY: see `call`.
        self.number(|e, directory| unsafe { sys::elephant_mkdir(e, path.as_ptr(), path.len(), directory) })
    }

    /// Makes each directory above a path that is missing, from the top, and returns how many it made.
    ///
    /// ```
    /// # use elephant::{Error, Store};
    /// # fn main() -> Result<(), Error> {
    /// let store = Store::new()?;
    /// let path = "/letters/2026/weber";
    /// assert_eq!(store.save(path, b"Dear Ms Weber"), Err(Error::NoEntry));
    /// assert_eq!(store.make_parents(path), Ok(2));
    /// store.save(path, b"Dear Ms Weber")?;
    /// # Ok(())
    /// # }
    /// ```
    ///
    /// # Errors
    /// [`Error::NotDirectory`] if the path leads through a file, [`Error::Full`]. If one of several directories is refused, those that
    /// were made before it stay. For a path that is none nothing is made.
    pub fn make_parents(&self, path: &str) -> Result<u64, Error> {
        match self.code_at(path) {
            sys::ELEPHANT_OK | sys::ELEPHANT_IS_DIRECTORY => return Ok(0),
            sys::ELEPHANT_NO_ENTRY => {}
            code => return Err(Error::from_code(code, || None)),
        }
        let mut made = 0;
        for (end, _) in path.match_indices('/').skip(1) {
            let directory = &path[..end];
            if made == 0 {
                match self.code_at(directory) {
                    sys::ELEPHANT_IS_DIRECTORY => continue,
                    sys::ELEPHANT_NO_ENTRY => {}
                    code => return Err(Error::from_code(code, || None)),
                }
            }
            self.mkdir(directory)?;
            made += 1;
        }
        Ok(made)
    }

    /// Deletes the name of a directory that has no live name in it.
    ///
    /// # Errors
    /// [`Error::NotEmpty`], [`Error::IsRoot`].
    pub fn rmdir(&self, path: &str) -> Result<(), Error> {
        // SAFETY: see `call`.
        self.call(|e| unsafe { sys::elephant_rmdir(e, path.as_ptr(), path.len()) })
    }

    /// Makes a file with an empty version 1, and returns its number.
    ///
    /// # Errors
    /// [`Error::Exists`], [`Error::IsRoot`], [`Error::Full`].
    pub fn create(&self, path: &str) -> Result<u64, Error> {
        // SAFETY: see `call`.
        self.number(|e, file| unsafe { sys::elephant_create(e, path.as_ptr(), path.len(), file) })
    }

    /// Gives the file at `from` the name `to` too.
    ///
    /// # Errors
    /// [`Error::Exists`], [`Error::IsDirectory`], [`Error::IsRoot`], [`Error::Full`], with the path that the refusal is about.
    pub fn link(&self, from: &str, to: &str) -> Result<(), PathError> {
        // SAFETY: see `call`.
        let made = self.call(|e| unsafe { sys::elephant_link(e, from.as_ptr(), from.len(), to.as_ptr(), to.len()) });
        made.map_err(|error| self.path_error(error, from, to))
    }

    /// Deletes a name of a file. With its last name its current version ends.
    ///
    /// # Errors
    /// [`Error::IsDirectory`], [`Error::IsRoot`].
    pub fn unlink(&self, path: &str) -> Result<(), Error> {
        // SAFETY: see `call`.
        self.call(|e| unsafe { sys::elephant_unlink(e, path.as_ptr(), path.len()) })
    }

    /// Moves a file or a directory. It never replaces anything.
    ///
    /// ```
    /// # use elephant::{Error, Store};
    /// # fn main() -> Result<(), Error> {
    /// let store = Store::new()?;
    /// store.create("/draft")?;
    /// store.create("/final")?;
    /// let refused = store.rename("/draft", "/final").unwrap_err();
    /// assert_eq!((refused.error, refused.path.as_deref()), (Error::Exists, Some("/final")));
    /// # Ok(())
    /// # }
    /// ```
    ///
    /// # Errors
    /// [`Error::Exists`], [`Error::IntoItself`], [`Error::IsRoot`], [`Error::Full`], with the path that the refusal is about.
    pub fn rename(&self, from: &str, to: &str) -> Result<(), PathError> {
        // SAFETY: see `call`.
        let made = self.call(|e| unsafe { sys::elephant_rename(e, from.as_ptr(), from.len(), to.as_ptr(), to.len()) });
        made.map_err(|error| self.path_error(error, from, to))
    }

    // Returns an error of a link or a rename with the path that it is about. `from` is looked up before `to`.
    fn path_error(&self, error: Error, from: &str, to: &str) -> PathError {
        let path = match error {
            Error::IsDirectory => Some(from),
            Error::Exists | Error::IntoItself => Some(to),
            Error::IsRoot => Some(if from == "/" { from } else { to }),
            Error::NoEntry | Error::NotDirectory | Error::BadPath | Error::BadName => match self.code_at(from) {
                sys::ELEPHANT_NO_MEMORY => None,
                code => Some(if code == error.code() { from } else { to }),
            },
            _ => None,
        };
        PathError { error, path: path.map(str::to_owned) }
    }

    // Returns the code of a read of a path. It leaves the kept result and the last detail, and is no event.
    fn code_at(&self, path: &str) -> i32 {
        let (mut length, mut copied) = (0, 0);
        let (now, mut none) = (sys::ELEPHANT_NOW, [0; 0]);
        let read = |e: *mut sys::elephant| {
            // SAFETY: see `call`. No byte is written to `none`.
            unsafe {
                let into = none.as_mut_ptr();
                sys::elephant_read_into(e, path.as_ptr(), path.len(), now, 0, 0, into, 0, &mut length, &mut copied)
            }
        };
        self.code(read)
    }

    /// Restores a deleted name. If the file had no live name, it gets a version, and the call returns
    /// its number.
    ///
    /// # Errors
    /// [`Error::NotRestorable`], [`Error::Exists`], [`Error::Drafting`], [`Error::Full`].
    pub fn undelete(&self, path: &str) -> Result<Option<u64>, Error> {
        // SAFETY: see `call`.
        self.number(|e, version| unsafe { sys::elephant_undelete(e, path.as_ptr(), path.len(), version) }).map(version_of)
    }
}

// A version's number, with 0 for none.
pub(crate) fn version_of(number: u64) -> Option<u64> {
    Some(number).filter(|it| *it != 0)
}

/// Paths.
impl Store {
    /// Returns the paths of all files and directories below a directory, now or [`at`](crate::at) a moment.
    ///
    /// Each directory comes before what is in it, and the names of one directory are in the order of their bytes. It asks
    /// [`list`](Store::list) for each directory. A path of more than 32 names, which no call takes, is left out.
    ///
    /// ```
    /// # use elephant::{Error, Store};
    /// # fn main() -> Result<(), Error> {
    /// let store = Store::new()?;
    /// store.mkdir("/d")?;
    /// store.create("/d/f")?;
    /// store.create("/e")?;
    /// let paths: Vec<_> = store.walk("/")?.into_iter().map(|it| it.path).collect();
    /// assert_eq!(paths, ["/d", "/d/f", "/e"]);
    /// # Ok(())
    /// # }
    /// ```
    ///
    /// # Errors
    /// Those of [`list`](Store::list).
    pub fn walk<'a>(&self, target: impl Into<Target<'a>>) -> Result<Vec<PathEntry>, Error> {
        self.steps(target.into())?.collect()
    }

    /// Returns the paths that lead to the file of that number, in the order of [`walk`](Store::walk). There is none if the file has no
    /// live name.
    ///
    /// # Errors
    /// [`Error::NoMemory`].
    pub fn paths_of(&self, file: u64) -> Result<Vec<String>, Error> {
        self.steps("/".into())?.filter_map(|it| path_to(file, it)).collect()
    }

    /// Returns the first of [`paths_of`](Store::paths_of). None if no path leads to the file.
    ///
    /// ```
    /// # use elephant::{Error, Policy, Store};
    /// # fn main() -> Result<(), Error> {
    /// let store = Store::new()?;
    /// store.set_default("/", &Policy::KeepOne)?;
    /// store.save("/plan", b"walk")?;
    /// for it in store.due()? {
    ///     assert_eq!(store.path_of(it.file)?.as_deref(), Some("/plan"));
    /// }
    /// # Ok(())
    /// # }
    /// ```
    ///
    /// # Errors
    /// [`Error::NoMemory`].
    pub fn path_of(&self, file: u64) -> Result<Option<String>, Error> {
        self.steps("/".into())?.find_map(|it| path_to(file, it)).transpose()
    }

    fn steps(&self, top: Target<'_>) -> Result<Steps<'_>, Error> {
        let left = self.entries_below(top)?;
        Ok(Steps { store: self, tag: top.tag, left })
    }

    // Returns what is in a directory, the last name first.
    fn entries_below(&self, directory: Target<'_>) -> Result<Vec<PathEntry>, Error> {
        let (path, _, _) = parts(directory);
        let above = if path == "/" { "" } else { path };
        if above.matches('/').count() == MOST_NAMES {
            return Ok(Vec::new());
        }
        let found = self.list(directory)?.into_iter().rev();
        Ok(found.map(|it| PathEntry { path: format!("{above}/{}", it.name), node: it.node }).collect())
    }
}

// The path of an entry, if it leads to the file.
fn path_to(file: u64, entry: Result<PathEntry, Error>) -> Option<Result<String, Error>> {
    match entry {
        Ok(it) => (it.node == Node::File(file)).then_some(Ok(it.path)),
        Err(error) => Some(Err(error)),
    }
}

// A walk, which lists a directory after it has given its name.
struct Steps<'store> {
    store: &'store Store,
    tag: Tag,
    left: Vec<PathEntry>,
}

impl Iterator for Steps<'_> {
    type Item = Result<PathEntry, Error>;

    fn next(&mut self) -> Option<Self::Item> {
        let entry = self.left.pop()?;
        if let Node::Directory(_) = entry.node {
            match self.store.entries_below(Target { path: &entry.path, tag: self.tag }) {
                Ok(below) => self.left.extend(below),
                Err(error) => return Some(Err(error)),
            }
        }
        Some(Ok(entry))
    }
}
