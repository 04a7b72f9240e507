//! The questions of a store.

use crate::store::parts;
use crate::sys;
use crate::{
    Cause, Counts, DeletedName, Entry, Error, Fate, Hold, Mark, Node, Policy, Removable, Rung, Stat, Store, Target, Usage,
    Usages, Version,
};

// The longest name of a path or a group.
const LONGEST_NAME: usize = 64;

/// Questions.
impl Store {
    /// Returns what a path and its tag mean: when it was made, how long it is, and its policy.
    ///
    /// # Errors
    /// Those of [`read`](Store::read), but it accepts directories.
    pub fn stat<'a>(&self, target: impl Into<Target<'a>>) -> Result<Stat, Error> {
        let (path, tag, number) = parts(target.into());
        let row: sys::elephant_stat_row =
            // SAFETY: see `call`.
            self.row(|e, row| unsafe { sys::elephant_stat(e, path.as_ptr(), path.len(), tag, number, row) })?;
        let policy = self.policy_of(&row)?;
        if row.is_directory != 0 {
            return Ok(Stat::Directory { directory: row.id, policy });
        }
        Ok(Stat::File { file: row.id, version: Version::of_stat_row(&row), policy })
    }

    fn policy_of(&self, row: &sys::elephant_stat_row) -> Result<Policy, Error> {
        Ok(match row.policy {
            sys::ELEPHANT_KEEP_ONE => Policy::KeepOne,
            sys::ELEPHANT_KEEP_ALL => Policy::KeepAll,
            sys::ELEPHANT_KEEP_SAFE => Policy::KeepSafe { seconds: row.seconds, floor: row.floor },
            _ => Policy::KeepLandmarks((0..row.rungs).map(|index| self.rung(index)).collect::<Result<_, _>>()?),
        })
    }

    fn rung(&self, index: u64) -> Result<Rung, Error> {
        let mut rung = Rung { age: 0, width: 0 };
        // SAFETY: see `call`.
        self.call(|e| unsafe { sys::elephant_rung(e, index, &mut rung.age, &mut rung.width) })?;
        Ok(rung)
    }

    /// Returns the held versions of a file, by number: of the one that the path names now, or named
    /// [`at`](crate::at) a moment.
    ///
    /// # Errors
    /// [`Error::NoEntry`], [`Error::IsDirectory`], [`Error::Future`]; [`Error::Syntax`] with [`version`](crate::version).
    pub fn versions<'a>(&self, target: impl Into<Target<'a>>) -> Result<Vec<Version>, Error> {
        let (path, tag, number) = parts(target.into());
        // SAFETY: see `call`.
        let rows = self.number(|e, rows| unsafe { sys::elephant_versions(e, path.as_ptr(), path.len(), tag, number, rows) })?;
        read_rows(rows, |index| {
            // SAFETY: see `call`.
            let row: sys::elephant_version_row = self.row(|e, row| unsafe { sys::elephant_row_version(e, index, row) })?;
            Ok(Version::of_row(&row))
        })
    }

    /// Returns the names in a directory, in order: now, or [`at`](crate::at) a moment.
    ///
    /// # Errors
    /// [`Error::NoEntry`], [`Error::NotDirectory`], [`Error::Future`]; [`Error::Syntax`] with [`version`](crate::version).
    pub fn list<'a>(&self, target: impl Into<Target<'a>>) -> Result<Vec<Entry>, Error> {
        let (path, tag, number) = parts(target.into());
        // SAFETY: see `call`.
        let rows = self.number(|e, rows| unsafe { sys::elephant_list(e, path.as_ptr(), path.len(), tag, number, rows) })?;
        read_rows(rows, |index| self.name_row(index).map(|(_, name, node)| Entry { name, node }))
    }

    /// Returns the deleted names that [`undelete`](Store::undelete) can restore, by directory and
    /// name.
    ///
    /// # Errors
    /// [`Error::NoMemory`].
    pub fn restorable(&self) -> Result<Vec<DeletedName>, Error> {
        // SAFETY: see `call`.
        let rows = self.number(|e, rows| unsafe { sys::elephant_restorable(e, rows) })?;
        read_rows(rows, |index| self.name_row(index).map(|(parent, name, node)| DeletedName { parent, name, node }))
    }

    fn name_row(&self, index: u64) -> Result<(u64, String, Node), Error> {
        // SAFETY: see `call`.
        let row: sys::elephant_name_row = self.row(|e, row| unsafe { sys::elephant_row_name(e, index, row) })?;
        let node = if row.is_directory == 0 { Node::File(row.id) } else { Node::Directory(row.id) };
        Ok((row.directory, self.row_bytes(index)?, node))
    }

    pub(crate) fn row_bytes(&self, index: u64) -> Result<String, Error> {
        // SAFETY: see `call`.
        self.name(|e, into, length| unsafe { sys::elephant_row_bytes(e, index, into.as_mut_ptr(), into.len(), length) })
    }

    // Copies a name out.
    pub(crate) fn name(&self, made: impl FnOnce(*mut sys::elephant, &mut [u8], &mut u64) -> i32) -> Result<String, Error> {
        let mut bytes = [0; LONGEST_NAME];
        let length = self.number(|e, length| made(e, &mut bytes, length))?;
        let name = usize::try_from(length).ok().and_then(|it| bytes.get(..it)).unwrap_or(&bytes);
        Ok(String::from_utf8_lossy(name).into_owned())
    }

    /// Returns the versions that are due now, in order of removal.
    ///
    /// # Errors
    /// [`Error::NoMemory`].
    pub fn due(&self) -> Result<Vec<Removable>, Error> {
        // SAFETY: see `call`.
        let rows = self.number(|e, rows| unsafe { sys::elephant_due(e, rows) })?;
        read_rows(rows, |index| self.due_row(index))
    }

    /// Returns the versions that will be due at a later moment if only the clock moves.
    ///
    /// # Errors
    /// [`Error::NotAhead`], [`Error::BadMoment`].
    pub fn ahead(&self, moment: u64) -> Result<Vec<Removable>, Error> {
        // SAFETY: see `call`.
        let rows = self.number(|e, rows| unsafe { sys::elephant_ahead(e, moment, rows) })?;
        read_rows(rows, |index| self.due_row(index))
    }

    fn due_row(&self, index: u64) -> Result<Removable, Error> {
        // SAFETY: see `call`.
        self.row(|e, key| unsafe { sys::elephant_row_key(e, index, key) }).map(|key| due_of(&key))
    }

    /// Returns what the files of each kind of policy use.
    ///
    /// # Errors
    /// [`Error::NoMemory`].
    pub fn usage(&self) -> Result<Usages, Error> {
        // SAFETY: see `call`.
        self.number(|e, rows| unsafe { sys::elephant_usage(e, rows) })?;
        Ok(Usages {
            keep_one: self.usage_row(sys::ELEPHANT_KEEP_ONE)?,
            keep_all: self.usage_row(sys::ELEPHANT_KEEP_ALL)?,
            keep_safe: self.usage_row(sys::ELEPHANT_KEEP_SAFE)?,
            keep_landmarks: self.usage_row(sys::ELEPHANT_KEEP_LANDMARKS)?,
        })
    }

    fn usage_row(&self, kind: u64) -> Result<Usage, Error> {
        // SAFETY: see `call`.
        let row: sys::elephant_usage_row = self.row(|e, row| unsafe { sys::elephant_row_usage(e, kind, row) })?;
        Ok(Usage { files: row.files, versions: row.versions, bytes: row.bytes, blocks: row.blocks })
    }

    /// Returns how many of each kind were ever made. A limit of [`Limits`](crate::Limits) less its count is what the store may still
    /// make.
    #[must_use]
    pub fn counts(&self) -> Counts {
        // SAFETY: see `call`. An open store has no error here.
        let row: sys::elephant_counts_row = self.row(|e, row| unsafe { sys::elephant_counts(e, row) }).unwrap_or_default();
        Counts::of_row(&row)
    }

    /// Returns why a version is held, or since when it is due and which mark held it until then. In a store with a history it also
    /// returns when and why a version was removed, if you ask by its number: [`Fate::Removed`]. If a mark ended at the moment since
    /// which the version is due, it copies the whole store to see whether the mark held it, and takes that much time and memory.
    ///
    /// # Errors
    /// Those of [`read`](Store::read).
    pub fn why<'a>(&self, target: impl Into<Target<'a>>) -> Result<Fate, Error> {
        let (path, tag, number) = parts(target.into());
        // SAFETY: see `call`.
        let found = self.row(|e, row| unsafe { sys::elephant_why(e, path.as_ptr(), path.len(), tag, number, row) });
        match found {
            Ok(row) => self.fate_of(&row),
            Err(error @ Error::Forgotten { .. }) if tag == sys::ELEPHANT_VERSION && self.has_history => {
                self.why_removed(path, number, error)
            }
            Err(error) => Err(error),
        }
    }

    fn fate_of(&self, row: &sys::elephant_why_row) -> Result<Fate, Error> {
        Ok(match row.fate {
            sys::ELEPHANT_IS_CURRENT => Fate::Current,
            sys::ELEPHANT_IS_OPEN => Fate::Open,
            sys::ELEPHANT_IS_MARKED => {
                Fate::Marked { group: self.why_group()?, mark: Mark { at: row.moment, until: unless_never(row.until) } }
            }
            sys::ELEPHANT_IS_KEPT => Fate::Kept { until: unless_never(row.until), level: unless_never(row.level) },
            _ => Fate::Due { held: self.why_hold()?, since: row.moment, cause: cause_of(row) },
        })
    }

    // The mark that held the version of the last `why`, if one did.
    fn why_hold(&self) -> Result<Option<Hold>, Error> {
        // SAFETY: see `call`.
        let found = self.found(|e, mark| unsafe { sys::elephant_why_hold(e, mark) })?;
        found.map(|row| Ok(Hold { group: self.why_group()?, mark: Mark::of_row(&row) })).transpose()
    }

    fn why_group(&self) -> Result<String, Error> {
        // SAFETY: see `call`.
        self.name(|e, into, length| unsafe { sys::elephant_why_group(e, into.as_mut_ptr(), into.len(), length) })
    }
}

// Reads each row of the list that the last call kept.
pub(crate) fn read_rows<T>(count: u64, read: impl Fn(u64) -> Result<T, Error>) -> Result<Vec<T>, Error> {
    let mut found = Vec::new();
    found.try_reserve_exact(usize::try_from(count).map_err(|_| Error::NoMemory)?).map_err(|_| Error::NoMemory)?;
    for index in 0..count {
        found.push(read(index)?);
    }
    Ok(found)
}

pub(crate) fn unless_never(number: u64) -> Option<u64> {
    Some(number).filter(|it| *it != sys::ELEPHANT_NEVER)
}

pub(crate) fn due_of(key: &sys::elephant_key) -> Removable {
    Removable { since: key.since, file: key.file, number: key.number }
}

fn cause_of(row: &sys::elephant_why_row) -> Cause {
    match row.cause {
        sys::ELEPHANT_AT_ONCE => Cause::AtOnce,
        sys::ELEPHANT_BY_AGE => Cause::ByAge { seconds: row.seconds },
        _ => Cause::Displaced { level: row.level, by: row.by },
    }
}
