//! Policies, groups, marks and removals.

use crate::questions::{due_of, read_rows};
use crate::sys;
use crate::{Error, Group, Mark, Pass, PassEnd, Policy, Removable, Store};

/// Policies.
impl Store {
    /// Sets the policy of a file.
    ///
    /// # Errors
    /// [`Error::BadLadder`] if no policy has these numbers, [`Error::NoEntry`], [`Error::IsDirectory`].
    pub fn set_policy(&self, path: &str, policy: &Policy) -> Result<(), Error> {
        let word = policy.to_string();
        // SAFETY: see `call`.
        self.call(|e| unsafe { sys::elephant_policy(e, path.as_ptr(), path.len(), word.as_ptr(), word.len()) })
    }

    /// Sets the policy of later files in a directory.
    ///
    /// # Errors
    /// [`Error::BadLadder`] if no policy has these numbers, [`Error::NoEntry`], [`Error::NotDirectory`].
    pub fn set_default(&self, path: &str, policy: &Policy) -> Result<(), Error> {
        let word = policy.to_string();
        // SAFETY: see `call`.
        self.call(|e| unsafe { sys::elephant_default(e, path.as_ptr(), path.len(), word.as_ptr(), word.len()) })
    }
}

/// Groups and marks.
///
/// Each of these calls may fail for the group's name: [`Error::NoGroup`], [`Error::BadName`].
impl Store {
    /// Makes a group, without files and marks.
    ///
    /// # Errors
    /// [`Error::GroupExists`], [`Error::Full`].
    pub fn group_make(&self, group: &str) -> Result<(), Error> {
        // SAFETY: see `call`.
        self.call(|e| unsafe { sys::elephant_group_make(e, group.as_ptr(), group.len()) })
    }

    /// Removes a group and its marks.
    ///
    /// # Errors
    /// [`Error::NoGroup`].
    pub fn group_drop(&self, group: &str) -> Result<(), Error> {
        // SAFETY: see `call`.
        self.call(|e| unsafe { sys::elephant_group_drop(e, group.as_ptr(), group.len()) })
    }

    /// Adds a file to a group.
    ///
    /// # Errors
    /// [`Error::AlreadyMember`], [`Error::NoEntry`], [`Error::IsDirectory`], [`Error::Full`].
    pub fn group_add(&self, group: &str, path: &str) -> Result<(), Error> {
        // SAFETY: see `call`.
        self.call(|e| unsafe { sys::elephant_group_add(e, group.as_ptr(), group.len(), path.as_ptr(), path.len()) })
    }

    /// Removes a file from a group.
    ///
    /// # Errors
    /// [`Error::NotMember`], [`Error::NoEntry`], [`Error::IsDirectory`].
    pub fn group_remove(&self, group: &str, path: &str) -> Result<(), Error> {
        // SAFETY: see `call`.
        self.call(|e| unsafe { sys::elephant_group_remove(e, group.as_ptr(), group.len(), path.as_ptr(), path.len()) })
    }

    /// Marks a group: no version that was current in its files at a past moment is removed, until
    /// another moment or for good.
    ///
    /// # Errors
    /// [`Error::NotPast`], [`Error::NotAhead`], [`Error::MarkExists`], [`Error::BadMoment`], [`Error::Full`].
    pub fn mark(&self, group: &str, at: u64, until: Option<u64>) -> Result<(), Error> {
        let until = until.unwrap_or(sys::ELEPHANT_NEVER);
        // SAFETY: see `call`.
        self.call(|e| unsafe { sys::elephant_mark(e, group.as_ptr(), group.len(), at, until) })
    }

    /// Removes a mark.
    ///
    /// # Errors
    /// [`Error::NoMark`].
    pub fn unmark(&self, group: &str, at: u64) -> Result<(), Error> {
        // SAFETY: see `call`.
        self.call(|e| unsafe { sys::elephant_unmark(e, group.as_ptr(), group.len(), at) })
    }

    /// Returns the groups with their files and marks, in order of making.
    ///
    /// # Errors
    /// [`Error::NoMemory`].
    pub fn groups(&self) -> Result<Vec<Group>, Error> {
        // SAFETY: see `call`.
        let rows = self.number(|e, rows| unsafe { sys::elephant_groups(e, rows) })?;
        read_rows(rows, |index| {
            // SAFETY: see `call`.
            let row: sys::elephant_group_row = self.row(|e, row| unsafe { sys::elephant_row_group(e, index, row) })?;
            let members = read_rows(row.members, |member| {
                // SAFETY: see `call`.
                self.number(|e, file| unsafe { sys::elephant_row_member(e, index, member, file) })
            })?;
            let marks = read_rows(row.marks, |mark| self.mark_row(index, mark))?;
            Ok(Group { name: self.row_bytes(index)?, members, marks })
        })
    }

    fn mark_row(&self, group: u64, mark: u64) -> Result<Mark, Error> {
        // SAFETY: see `call`.
        self.row(|e, row| unsafe { sys::elephant_row_mark(e, group, mark, row) }).map(|row| Mark::of_row(&row))
    }
}

/// Forgetting.
impl Store {
    /// Removes the first due version, and returns it. None if no version is due.
    ///
    /// # Errors
    /// [`Error::NoMemory`].
    pub fn clean(&self) -> Result<Option<Removable>, Error> {
        // SAFETY: see `call`.
        let removed = self.row(|e, removed| unsafe { sys::elephant_clean(e, removed) })?;
        Ok(Some(due_of(&removed)).filter(|it| it.file != 0))
    }

    /// Removes due versions, until none is due or as many as the budget says are removed.
    pub fn pass(&self, budget: u64) -> Pass {
        let (mut removed, mut finished) = (0, 0);
        // SAFETY: see `call`.
        let ended = self.call(|e| unsafe { sys::elephant_pass(e, budget, &mut removed, &mut finished) });
        let end = match (ended, finished) {
            (Err(error), _) => PassEnd::Stopped(error),
            (Ok(()), 0) => PassEnd::Budget,
            (Ok(()), _) => PassEnd::Finished,
        };
        Pass { removed, end }
    }
}
