//! The history, and what an audit asks of it.

use crate::answers::{read_answers, read_gone, read_handles, read_history, read_removed, refused};
use crate::sys;
use crate::{Cause, Error, Fate, Hold, Store};

/// What was folded, and the lines of the stored events.
#[derive(Clone, Debug, PartialEq, Eq, Hash)]
pub struct History {
    /// How many events were folded.
    pub folded: u64,
    /// The line of each stored event, in order.
    pub lines: Vec<String>,
}

/// What the stored events removed.
#[derive(Clone, Debug, PartialEq, Eq, Hash)]
pub struct Gone {
    /// How many events were folded. What these removed isn't known.
    pub folded: u64,
    /// The removed versions, in order of removal.
    pub removals: Vec<Removal>,
}

/// A version that was removed.
#[derive(Clone, Debug, PartialEq, Eq, Hash)]
pub struct Removal {
    /// When it was removed.
    pub moment: u64,
    /// The file's number.
    pub file: u64,
    /// The version's number.
    pub number: u64,
    /// The path that led to its file just before. None if no live names did.
    pub path: Option<String>,
    /// The mark that held it after its policy had let it go. None if no mark did.
    pub held: Option<Hold>,
    /// Since when it was due.
    pub since: u64,
    /// For what reason.
    pub cause: Cause,
}

/// An open handle.
#[derive(Clone, Debug, PartialEq, Eq, Hash)]
pub struct OpenHandle {
    /// Its number.
    pub handle: u64,
    /// The file's number.
    pub file: u64,
    /// The version that it reads. None if it writes the draft.
    pub version: Option<u64>,
    /// When the draft was opened, or for a reader when the handle was. None if a folded event opened a reader.
    pub since: Option<u64>,
    /// The path that leads to the file now. None if no live names do.
    pub path: Option<String>,
}

/// What the stored events were answered.
#[derive(Clone, Debug, PartialEq, Eq, Hash)]
pub struct Answers {
    /// How many events were folded.
    pub folded: u64,
    /// The stored events with their answers, in order.
    pub answered: Vec<Answered>,
}

/// A stored event.
#[derive(Clone, Debug, PartialEq, Eq, Hash)]
pub struct Answered {
    /// Its line.
    pub line: String,
    /// Its answer as [`Store::line`] returns it, with a line feed at the end of each line.
    pub answer: String,
}

/// The history, and what an audit asks of it. Only for a store with a history ([`Options::history`](crate::Options::history)).
impl Store {
    /// Returns the lines of all answered events, also of questions.
    ///
    /// # Errors
    /// [`Error::NoHistory`], [`Error::Untold`].
    pub fn history(&self) -> Result<History, Error> {
        let answer = self.audited("history")?;
        read_history(&answer)
    }

    /// Folds the entries into the base, which frees their memory, and returns how many they were.
    ///
    /// # Errors
    /// [`Error::NoHistory`], [`Error::NoMemory`].
    pub fn trim(&self) -> Result<u64, Error> {
        // SAFETY: see `call`.
        self.number(|e, folded| unsafe { sys::elephant_trim(e, folded) })
    }

    /// Puts the bytes, at most 200, into the history: who makes the next changes, say, and why. It changes nothing else.
    ///
    /// # Errors
    /// [`Error::TooBig`], [`Error::NoMemory`].
    pub fn note(&self, bytes: &[u8]) -> Result<(), Error> {
        // SAFETY: see `call`.
        self.call(|e| unsafe { sys::elephant_note(e, bytes.as_ptr(), bytes.len()) })
    }

    /// Returns which versions the stored events removed, when and why.
    ///
    /// ```
    /// # use elephant::{Cause, Error, Options, Policy};
    /// # fn main() -> Result<(), Error> {
    /// let store = Options::new().history(true).open()?;
    /// store.set_default("/", &Policy::KeepOne)?;
    /// store.save("/plan", b"walk")?;
    /// store.clean()?;
    /// let gone = store.gone()?;
    /// let first = &gone.removals[0];
    /// assert_eq!((first.path.as_deref(), first.number, first.cause), (Some("/plan"), 1, Cause::AtOnce));
    /// # Ok(())
    /// # }
    /// ```
    ///
    /// # Errors
    /// [`Error::NoHistory`], [`Error::NoMemory`].
    pub fn gone(&self) -> Result<Gone, Error> {
        let answer = self.audited("gone")?;
        read_gone(&answer)
    }

    /// Returns the open handles, by number.
    ///
    /// ```
    /// # use elephant::{Error, Options};
    /// # fn main() -> Result<(), Error> {
    /// let store = Options::new().history(true).open()?;
    /// store.save("/plan", b"walk")?;
    /// let reader = store.reader("/plan")?;
    /// let open = store.handles()?;
    /// assert_eq!((open[0].handle, open[0].version), (reader.handle(), Some(2)));
    /// # Ok(())
    /// # }
    /// ```
    ///
    /// # Errors
    /// [`Error::NoHistory`], [`Error::NoMemory`].
    pub fn handles(&self) -> Result<Vec<OpenHandle>, Error> {
        let answer = self.audited("handles")?;
        read_handles(&answer)
    }

    /// Returns the lines of all answered events with their answers.
    ///
    /// ```
    /// # use elephant::{Error, Options};
    /// # fn main() -> Result<(), Error> {
    /// let store = Options::new().history(true).open()?;
    /// store.mkdir("/d")?;
    /// let first = &store.answers()?.answered[0];
    /// assert_eq!((&*first.line, &*first.answer), ("mkdir /d", "ok directory 1\n"));
    /// # Ok(())
    /// # }
    /// ```
    ///
    /// # Errors
    /// [`Error::NoHistory`], [`Error::Untold`].
    pub fn answers(&self) -> Result<Answers, Error> {
        let answer = self.audited("answers")?;
        read_answers(&answer)
    }

    // Returns when and why a version was removed, or the refusal of the typed call if no stored event removed it.
    pub(crate) fn why_removed(&self, path: &str, number: u64, forgotten: Error) -> Result<Fate, Error> {
        let answer = self.line(&format!("why {path}#{number}"))?;
        if answer.starts_with("no ") {
            return Err(forgotten);
        }
        refused(&answer)?;
        read_removed(&answer)
    }

    // Returns the answer to a line of a store with a history.
    fn audited(&self, line: &str) -> Result<String, Error> {
        if !self.has_history {
            return Err(Error::NoHistory);
        }
        let answer = self.line(line)?;
        refused(&answer)?;
        Ok(answer)
    }
}
