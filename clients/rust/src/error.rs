//! Why a call was refused or stopped.

use crate::sys;
use std::fmt;
use std::io;

// Printed by tools/pages/surface --write: the limits, from ele_c_values/src/codes.rt and ele_help/src/pages.rt.
/// A kind of thing that has a limit ([`Limits`](crate::Limits)).
#[derive(Clone, Copy, Debug, PartialEq, Eq, Hash)]
#[non_exhaustive]
pub enum Limit {
    /// Files ever made.
    Files,
    /// Directories ever made.
    Directories,
    /// Names ever made.
    Names,
    /// Versions made and open drafts.
    Versions,
    /// Handles ever opened.
    Handles,
    /// Groups ever made.
    Groups,
    /// Files ever added to groups.
    Members,
    /// Marks ever made.
    Marks,
}

impl Limit {
    fn from_detail(detail: u64) -> Option<Limit> {
        Some(match detail {
            sys::ELEPHANT_LIMIT_FILES => Limit::Files,
            sys::ELEPHANT_LIMIT_DIRECTORIES => Limit::Directories,
            sys::ELEPHANT_LIMIT_NAMES => Limit::Names,
            sys::ELEPHANT_LIMIT_VERSIONS => Limit::Versions,
            sys::ELEPHANT_LIMIT_HANDLES => Limit::Handles,
            sys::ELEPHANT_LIMIT_GROUPS => Limit::Groups,
            sys::ELEPHANT_LIMIT_MEMBERS => Limit::Members,
            sys::ELEPHANT_LIMIT_MARKS => Limit::Marks,
            _ => return None,
        })
    }
}

impl fmt::Display for Limit {
    fn fmt(&self, f: &mut fmt::Formatter<'_>) -> fmt::Result {
        f.write_str(match self {
            Limit::Files => "files",
            Limit::Directories => "directories",
            Limit::Names => "names",
            Limit::Versions => "versions",
            Limit::Handles => "handles",
            Limit::Groups => "groups",
            Limit::Members => "members",
            Limit::Marks => "marks",
        })
    }
}
// End of the limits.

// The errors that have only their code, each with its text.
macro_rules! errors {
    ($($name:ident = $code:ident, $text:literal;)*) => {
        /// Why a call was refused or stopped. Nothing has changed then, unless the variant or the call says
        /// otherwise; a store with a history keeps a refusal as an entry.
        ///
        /// Its text is the sentence of its number in `docs/ERRORS.md`. A function that adds to an error what it was about can look at
        /// the variant:
        ///
        /// ```
        /// # use elephant::{Error, Store};
        /// # fn main() -> Result<(), Error> {
        /// let store = Store::new()?;
        /// match store.read("/notes") {
        ///     Err(Error::NoEntry) => println!("there are no notes yet"),
        ///     other => println!("{} bytes", other?.len()),
        /// }
        /// # Ok(())
        /// # }
        /// ```
        #[derive(Clone, Copy, Debug, PartialEq, Eq, Hash)]
        #[non_exhaustive]
        pub enum Error {
            $(#[doc = concat!("`", stringify!($code), "`: ", $text, ".")] $name,)*
            /// `ELEPHANT_FORGOTTEN`: the version was removed.
            Forgotten {
                /// The greatest held number of the file's versions before it.
                last: Option<u64>,
            },
            /// `ELEPHANT_FULL`: a limit is reached, for good.
            Full(Limit),
            /// A code that no call of this crate should return.
            Unexpected(i32),
            /// The library answered in a form that this crate doesn't know: they are of different versions.
            UnknownAnswer,
        }

        impl Error {
            /// Returns its number, as in `elephant.h` and in the answers of the script language. [`Error::UnknownAnswer`] has 0.
            #[must_use]
            pub fn code(self) -> i32 {
                match self {
                    $(Error::$name => sys::$code,)*
                    Error::Forgotten { .. } => sys::ELEPHANT_FORGOTTEN,
                    Error::Full(_) => sys::ELEPHANT_FULL,
                    Error::Unexpected(code) => code,
                    Error::UnknownAnswer => 0,
                }
            }

            // It calls `detail` only after a code that has one.
            pub(crate) fn from_code(code: i32, detail: impl FnOnce() -> Option<u64>) -> Error {
                match code {
                    $(sys::$code => Error::$name,)*
                    sys::ELEPHANT_FORGOTTEN => Error::Forgotten { last: detail().filter(|it| *it != 0) },
                    sys::ELEPHANT_FULL => detail().and_then(Limit::from_detail).map_or(Error::Unexpected(code), Error::Full),
                    _ => Error::Unexpected(code),
                }
            }
        }

        impl fmt::Display for Error {
            fn fmt(&self, f: &mut fmt::Formatter<'_>) -> fmt::Result {
                match self {
                    $(Error::$name => f.write_str($text),)*
                    Error::Forgotten { last: Some(last) } => write!(f, "the version was removed; before it version {last} is held"),
                    Error::Forgotten { last: None } => f.write_str("the version was removed, and none before it is held"),
                    Error::Full(limit) => write!(f, "a limit is reached, for good: {limit}"),
                    Error::Unexpected(code) => write!(f, "the library answered the unexpected code {code}"),
                    Error::UnknownAnswer => f.write_str("the library answered in a form that this crate doesn't know"),
                }
            }
        }
    };
}

// Printed by tools/pages/surface --write: the codes, from refusal.rt of ele_model, fault.rt of ele_printer and codes.rt of ele_c_values.
errors! {
    NoMemory = ELEPHANT_NO_MEMORY, "there was no memory";
    HistoryFull = ELEPHANT_HISTORY_FULL, "the history has as many events as it may";
    ClockBack = ELEPHANT_CLOCK_BACK, "the moment is earlier than now";
    ClockEnd = ELEPHANT_CLOCK_END, "the moment would be later than the year 9999";
    NoEntry = ELEPHANT_NO_ENTRY, "the path names nothing";
    NotDirectory = ELEPHANT_NOT_DIRECTORY, "the path leads to a file, or through one";
    IsDirectory = ELEPHANT_IS_DIRECTORY, "the path leads to a directory";
    Exists = ELEPHANT_EXISTS, "the name is in use";
    NotEmpty = ELEPHANT_NOT_EMPTY, "the directory has names";
    IntoItself = ELEPHANT_INTO_ITSELF, "the directory would be moved below itself";
    IsRoot = ELEPHANT_IS_ROOT, "the root can't be made, moved or deleted";
    Future = ELEPHANT_FUTURE, "the moment is later than now";
    NoVersion = ELEPHANT_NO_VERSION, "no version has had the number yet";
    NoHandle = ELEPHANT_NO_HANDLE, "no open handle has the number";
    NotWriter = ELEPHANT_NOT_WRITER, "the handle is one that reads";
    TooBig = ELEPHANT_TOO_BIG, "the content would be longer than 1,048,576 bytes, or the note than 200";
    Drafting = ELEPHANT_DRAFTING, "a handle writes the file";
    NotRestorable = ELEPHANT_NOT_RESTORABLE, "nothing can be restored by this name";
    NoGroup = ELEPHANT_NO_GROUP, "no group has the name";
    GroupExists = ELEPHANT_GROUP_EXISTS, "a group has the name already";
    NoMark = ELEPHANT_NO_MARK, "the group has no mark for the moment";
    MarkExists = ELEPHANT_MARK_EXISTS, "the group has a mark for the moment already";
    NotPast = ELEPHANT_NOT_PAST, "the moment of a mark must be earlier than now";
    AlreadyMember = ELEPHANT_ALREADY_MEMBER, "the file is in the group already";
    NotMember = ELEPHANT_NOT_MEMBER, "the file isn't in the group";
    NotAhead = ELEPHANT_NOT_AHEAD, "the end of a mark must be later than now, the moment of 'ahead' or 'expiring' not earlier, nor the second of 'changes' than its first";
    BadName = ELEPHANT_BAD_NAME, "a name has 1 to 64 bytes without /, @ and #, and isn't . or ..";
    BadPath = ELEPHANT_BAD_PATH, "a path begins with /, has no empty name and at most 32 names, and a number after #";
    BadMoment = ELEPHANT_BAD_MOMENT, "no moment has this form, or it is too late";
    BadLadder = ELEPHANT_BAD_LADDER, "no policy has these numbers";
    Syntax = ELEPHANT_SYNTAX, "the line is no command, or a word is missing, too many or of another form";
    BadLimits = ELEPHANT_BAD_LIMITS, "a limit is above its largest";
    NoHistory = ELEPHANT_NO_HISTORY, "the store was opened without a history";
    Untold = ELEPHANT_UNTOLD, "the line was run, but there was no memory for the text of its answer";
    BadCheckpoint = ELEPHANT_BAD_CHECKPOINT, "the bytes are no checkpoint of a store";
    HandlesOpen = ELEPHANT_HANDLES_OPEN, "a handle is open";
    NoJournal = ELEPHANT_NO_JOURNAL, "the store has no journal";
    HasJournal = ELEPHANT_HAS_JOURNAL, "the store has a journal";
    BadJournal = ELEPHANT_BAD_JOURNAL, "the bytes are no file of a store";
}
// End of the codes.

impl std::error::Error for Error {}

impl From<Error> for io::Error {
    /// The kind is `NotFound` for a name or version that isn't there, `AlreadyExists` for a taken name,
    /// `OutOfMemory`, `InvalidInput` for too large a content and for what is no name, path, moment,
    /// checkpoint or file of a store, and `Other` for each other error.
    fn from(error: Error) -> io::Error {
        let kind = match error {
            Error::NoEntry | Error::NoVersion | Error::Forgotten { .. } => io::ErrorKind::NotFound,
            Error::Exists => io::ErrorKind::AlreadyExists,
            Error::NoMemory => io::ErrorKind::OutOfMemory,
            Error::TooBig | Error::BadName | Error::BadPath | Error::BadMoment | Error::BadCheckpoint | Error::BadJournal => {
                io::ErrorKind::InvalidInput
            }
            _ => io::ErrorKind::Other,
        };
        io::Error::new(kind, error)
    }
}
