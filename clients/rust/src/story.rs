//! The story of a file.

use crate::answers::{read_story, refused};
use crate::{Error, Fate, Mark, Store};

/// What is known of a file.
#[derive(Clone, Debug, PartialEq, Eq, Hash)]
pub struct Story {
    /// The file's number.
    pub file: u64,
    /// Its versions, by number.
    pub versions: Vec<VersionStory>,
    /// The names that it has or had, in order of making.
    pub names: Vec<NameStory>,
}

/// What is known of a version; of a removed one what was known just before its removal.
#[derive(Clone, Debug, PartialEq, Eq, Hash)]
pub struct VersionStory {
    /// Its number.
    pub number: u64,
    /// Its moments and its length.
    pub info: Option<VersionSpan>,
    /// When it was removed. None if it is held.
    pub removed: Option<u64>,
    /// The mark that held a due version after its policy had let it go, as its fate has it. None if no mark did.
    pub held: Option<Hold>,
    /// What becomes of it, and why.
    pub fate: Option<Fate>,
}

/// When a version was current, and its length.
#[derive(Clone, Copy, Debug, PartialEq, Eq, Hash)]
pub struct VersionSpan {
    /// When it closed.
    pub closed: u64,
    /// When it ended. None if it has not ended.
    pub ended: Option<u64>,
    /// How many bytes it has.
    pub length: u64,
}

/// A mark that held a version, and the name of its group.
#[derive(Clone, Debug, PartialEq, Eq, Hash)]
pub struct Hold {
    /// The group's name.
    pub group: String,
    /// The mark.
    pub mark: Mark,
}

/// A name that a file has or had.
#[derive(Clone, Debug, PartialEq, Eq, Hash)]
pub struct NameStory {
    /// When the name began.
    pub birth: u64,
    /// When it ended. None if the file has it now.
    pub death: Option<u64>,
    /// Its path. A directory without a name has its last one in it. None if no names lead there.
    pub path: Option<String>,
}

impl Store {
    /// Returns what is known of the file that the path names, or if it names none, named last: its versions and its names. Only a store
    /// with a history ([`Options::history`](crate::Options::history)) knows the versions that were removed, and a file that was dropped.
    ///
    /// ```
    /// # use elephant::{Error, Options, Policy};
    /// # fn main() -> Result<(), Error> {
    /// let store = Options::new().history(true).open()?;
    /// store.set_default("/", &Policy::KeepOne)?;
    /// store.save("/plan", b"walk")?;
    /// store.clean()?;
    /// store.rename("/plan", "/done")?;
    /// let found = store.story("/plan")?;
    /// assert_eq!((found.versions[0].removed, found.versions[1].removed), (Some(0), None));
    /// assert_eq!(found.names[1].path.as_deref(), Some("/done"));
    /// # Ok(())
    /// # }
    /// ```
    ///
    /// # Errors
    /// [`Error::NoEntry`], [`Error::NotDirectory`] or [`Error::IsDirectory`] if the path never named a file; [`Error::NoMemory`].
    pub fn story(&self, path: &str) -> Result<Story, Error> {
        let answer = self.line(&format!("story {path}"))?;
        refused(&answer)?;
        read_story(&answer)
    }
}
