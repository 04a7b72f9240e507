//! The arguments and results of calls.

use crate::questions::unless_never;
use crate::sys;
use crate::Hold;
use std::fmt;
use std::time::{SystemTime, UNIX_EPOCH};

/// The last moment that a store takes, in the year 9999.
pub const LAST_MOMENT: u64 = 253_402_300_799;

/// Returns the seconds since 1970-01-01T00:00:00Z of a system time, and 0 for an earlier one. Pass
/// it to [`Store::clock`](crate::Store::clock), since a store never reads the machine's clock.
#[must_use]
pub fn moment(time: SystemTime) -> u64 {
    time.duration_since(UNIX_EPOCH).map_or(0, |it| it.as_secs())
}

/// A path, and which version of its file is meant. A `&str` means the current one.
#[derive(Clone, Copy, Debug, PartialEq, Eq, Hash)]
pub struct Target<'a> {
    pub(crate) path: &'a str,
    pub(crate) tag: Tag,
}

#[derive(Clone, Copy, Debug, PartialEq, Eq, Hash)]
pub(crate) enum Tag {
    Now,
    At(u64),
    Version(u64),
}

impl<'a> From<&'a str> for Target<'a> {
    fn from(path: &'a str) -> Target<'a> {
        Target { path, tag: Tag::Now }
    }
}

impl<'a> From<&'a String> for Target<'a> {
    fn from(path: &'a String) -> Target<'a> {
        Target { path, tag: Tag::Now }
    }
}

/// The version that was current at a moment, not after now, in the file that the path named then.
#[must_use]
pub fn at(path: &str, moment: u64) -> Target<'_> {
    Target { path, tag: Tag::At(moment) }
}

/// The version with that number of the file that the path names now.
#[must_use]
pub fn version(path: &str, number: u64) -> Target<'_> {
    Target { path, tag: Tag::Version(number) }
}

/// How many of each kind a store may ever make. A removal lowers no count. The default is the
/// largest.
#[derive(Clone, Debug, PartialEq, Eq, Hash)]
pub struct Limits {
    /// Events answered, in a store with a history: at most 1,000,000,000.
    pub events: u64,
    /// Files: at most 100,000.
    pub files: u64,
    /// Directories without the root: at most 10,000.
    pub directories: u64,
    /// Names given, also by link, rename and undelete: at most 200,000.
    pub names: u64,
    /// Versions, with the open drafts: at most 1,000,000.
    pub versions: u64,
    /// Handles opened: at most 1,000,000.
    pub handles: u64,
    /// Groups: at most 1,000.
    pub groups: u64,
    /// Files added to groups: at most 100,000.
    pub members: u64,
    /// Marks: at most 10,000.
    pub marks: u64,
}

impl Default for Limits {
    fn default() -> Limits {
        Limits {
            events: 1_000_000_000,
            files: 100_000,
            directories: 10_000,
            names: 200_000,
            versions: 1_000_000,
            handles: 1_000_000,
            groups: 1_000,
            members: 100_000,
            marks: 10_000,
        }
    }
}

/// How many of each kind a store has ever made, as [`Limits`] counts them.
#[derive(Clone, Copy, Debug, Default, PartialEq, Eq, Hash)]
pub struct Counts {
    /// Events answered, with those that are folded; 0 in a store without a history.
    pub events: u64,
    /// Files.
    pub files: u64,
    /// Directories without the root.
    pub directories: u64,
    /// Names given, also by link, rename and undelete.
    pub names: u64,
    /// Versions, with the open drafts.
    pub versions: u64,
    /// Handles opened.
    pub handles: u64,
    /// Groups.
    pub groups: u64,
    /// Files added to groups.
    pub members: u64,
    /// Marks.
    pub marks: u64,
}

impl Counts {
    pub(crate) fn of_row(row: &sys::elephant_counts_row) -> Counts {
        Counts {
            events: row.events,
            files: row.files,
            directories: row.directories,
            names: row.names,
            versions: row.versions,
            handles: row.handles,
            groups: row.groups,
            members: row.members,
            marks: row.marks,
        }
    }
}

/// When a file's versions may be removed.
#[derive(Clone, Debug, PartialEq, Eq, Hash)]
#[non_exhaustive]
pub enum Policy {
    /// As soon as they have ended.
    KeepOne,
    /// Never.
    KeepAll,
    /// So many seconds after their end. The newest `floor` versions of a file with a name stay, however old.
    KeepSafe {
        /// From 1 to 253,402,300,799.
        seconds: u64,
        /// From 0 to 16.
        floor: u64,
    },
    /// The longer ago they ended, the fewer stay: one to eight rungs, with rising ages; each width
    /// divides the next.
    KeepLandmarks(Vec<Rung>),
}

/// From that age on, one version stays in each span of that width.
#[derive(Clone, Copy, Debug, PartialEq, Eq, Hash)]
pub struct Rung {
    /// Seconds since the end of a version.
    pub age: u64,
    /// Seconds.
    pub width: u64,
}

const DAY: u64 = 86_400;

impl Policy {
    /// Keeps versions for so many days after their end.
    #[must_use]
    pub fn keep_days(days: u64) -> Policy {
        Policy::KeepSafe { seconds: days.saturating_mul(DAY), floor: 0 }
    }

    /// Keeps all versions of a day, then one of each hour, after a week one of each day, and after
    /// 30 days one of each week.
    #[must_use]
    pub fn standard_landmarks() -> Policy {
        let rungs = [(DAY, 3_600), (7 * DAY, DAY), (30 * DAY, 7 * DAY)];
        Policy::KeepLandmarks(rungs.iter().map(|&(age, width)| Rung { age, width }).collect())
    }
}

impl fmt::Display for Policy {
    /// Writes the word of the script language.
    fn fmt(&self, f: &mut fmt::Formatter<'_>) -> fmt::Result {
        match self {
            Policy::KeepOne => f.write_str("one"),
            Policy::KeepAll => f.write_str("all"),
            Policy::KeepSafe { seconds, floor: 0 } => write!(f, "safe:{seconds}"),
            Policy::KeepSafe { seconds, floor } => write!(f, "safe:{seconds}/{floor}"),
            Policy::KeepLandmarks(rungs) => {
                f.write_str("landmarks:")?;
                for (index, rung) in rungs.iter().enumerate() {
                    let comma = if index == 0 { "" } else { "," };
                    write!(f, "{comma}{}/{}", rung.age, rung.width)?;
                }
                Ok(())
            }
        }
    }
}

/// A version of a file.
#[derive(Clone, Copy, Debug, PartialEq, Eq, Hash)]
pub struct Version {
    /// From 1 on.
    pub number: u64,
    /// The moment at which its draft was opened.
    pub opened: u64,
    /// The moment at which it became the current version.
    pub closed: u64,
    /// The moment at which the next version superseded it, or the file lost its last name. None if
    /// it has not ended.
    pub ended: Option<u64>,
    /// Its length in bytes.
    pub length: u64,
}

impl Version {
    pub(crate) fn of_row(row: &sys::elephant_version_row) -> Version {
        Version { number: row.number, opened: row.opened, closed: row.closed, ended: unless_never(row.ended), length: row.length }
    }

    pub(crate) fn of_stat_row(row: &sys::elephant_stat_row) -> Version {
        Version {
            number: row.version,
            opened: row.opened,
            closed: row.closed,
            ended: unless_never(row.ended),
            length: row.length,
        }
    }
}

/// What a path and its tag mean.
#[derive(Clone, Debug, PartialEq, Eq, Hash)]
pub enum Stat {
    /// A version of a file.
    File {
        /// The file's number.
        file: u64,
        /// The version.
        version: Version,
        /// The file's policy.
        policy: Policy,
    },
    /// A directory.
    Directory {
        /// The directory's number.
        directory: u64,
        /// The policy of the files that are made in it.
        policy: Policy,
    },
}

/// The file or directory of a name, by its number.
#[derive(Clone, Copy, Debug, PartialEq, Eq, Hash)]
pub enum Node {
    /// A file.
    File(u64),
    /// A directory.
    Directory(u64),
}

/// A name in a directory.
#[derive(Clone, Debug, PartialEq, Eq, Hash)]
pub struct Entry {
    /// The name, without slashes.
    pub name: String,
    /// Its file or directory.
    pub node: Node,
}

/// A path below a directory.
#[derive(Clone, Debug, PartialEq, Eq, Hash)]
pub struct PathEntry {
    /// The path, which begins with a slash.
    pub path: String,
    /// Its file or directory.
    pub node: Node,
}

/// A deleted name that [`Store::undelete`](crate::Store::undelete) can restore.
#[derive(Clone, Debug, PartialEq, Eq, Hash)]
pub struct DeletedName {
    /// The number of its directory; the root's is 0.
    pub parent: u64,
    /// The name, without slashes.
    pub name: String,
    /// Its last file or directory.
    pub node: Node,
}

/// A version that may be removed, or was.
#[derive(Clone, Copy, Debug, PartialEq, Eq, Hash, PartialOrd, Ord)]
pub struct Removable {
    /// The moment from which it is due.
    pub since: u64,
    /// The file's number.
    pub file: u64,
    /// The version's number.
    pub number: u64,
}

/// What the files of one kind of policy use.
#[derive(Clone, Copy, Debug, Default, PartialEq, Eq, Hash)]
pub struct Usage {
    /// Files.
    pub files: u64,
    /// Versions that are held.
    pub versions: u64,
    /// The sum of the lengths of these versions.
    pub bytes: u64,
    /// Blocks that they take, each counted once.
    pub blocks: u64,
}

/// What the files of each kind of policy use.
#[derive(Clone, Copy, Debug, Default, PartialEq, Eq, Hash)]
pub struct Usages {
    /// Files under [`Policy::KeepOne`].
    pub keep_one: Usage,
    /// Files under [`Policy::KeepAll`].
    pub keep_all: Usage,
    /// Files under [`Policy::KeepSafe`].
    pub keep_safe: Usage,
    /// Files under [`Policy::KeepLandmarks`].
    pub keep_landmarks: Usage,
}

/// A group of files.
#[derive(Clone, Debug, PartialEq, Eq, Hash)]
pub struct Group {
    /// Its name.
    pub name: String,
    /// The numbers of its files, in the order in which they were added.
    pub members: Vec<u64>,
    /// Its marks, in the order in which they were made.
    pub marks: Vec<Mark>,
}

/// A mark of a group: no version that was current in its files at the moment is removed before the
/// end.
#[derive(Clone, Copy, Debug, PartialEq, Eq, Hash)]
pub struct Mark {
    /// The marked moment.
    pub at: u64,
    /// The moment at which the mark ends. None if it has no end.
    pub until: Option<u64>,
}

impl Mark {
    pub(crate) fn of_row(row: &sys::elephant_mark_row) -> Mark {
        Mark { at: row.moment, until: unless_never(row.until) }
    }
}

/// Why a version is held, may be removed, or was.
#[derive(Clone, Debug, PartialEq, Eq, Hash)]
#[non_exhaustive]
pub enum Fate {
    /// It has not ended.
    Current,
    /// A handle reads it.
    Open,
    /// A mark of a group covers it.
    Marked {
        /// The group's name.
        group: String,
        /// The mark.
        mark: Mark,
    },
    /// Its policy keeps it.
    Kept {
        /// Until when, if only the clock moves. None for good.
        until: Option<u64>,
        /// The level of the ladder that its age has reached. None for other policies.
        level: Option<u64>,
    },
    /// A clean may remove it.
    Due {
        /// The mark that held it after its policy had let it go. None if no mark did.
        held: Option<Hold>,
        /// Since when.
        since: u64,
        /// For what reason.
        cause: Cause,
    },
    /// It was removed. Only a store with a history knows it.
    Removed {
        /// When.
        moment: u64,
        /// The mark that held it after its policy had let it go. None if no mark did.
        held: Option<Hold>,
        /// Since when it was due.
        since: u64,
        /// For what reason.
        cause: Cause,
    },
}

/// Why a policy lets a version go.
#[derive(Clone, Copy, Debug, PartialEq, Eq, Hash)]
#[non_exhaustive]
pub enum Cause {
    /// [`Policy::KeepOne`] keeps no version that has ended.
    AtOnce,
    /// It ended so many seconds ago.
    ByAge {
        /// The seconds of the policy.
        seconds: u64,
    },
    /// A newer version closed in the same span, at this level of the ladder.
    Displaced {
        /// The level, from 1 on.
        level: u64,
        /// The number of the newer version.
        by: u64,
    },
}

/// The result of a pass.
#[derive(Clone, Copy, Debug, PartialEq, Eq, Hash)]
#[must_use = "a pass may have been stopped"]
pub struct Pass {
    /// How many versions it removed, however it ended.
    pub removed: u64,
    /// How it ended.
    pub end: PassEnd,
}

/// How a pass ended.
#[derive(Clone, Copy, Debug, PartialEq, Eq, Hash)]
#[non_exhaustive]
pub enum PassEnd {
    /// No version is due any more.
    Finished,
    /// It removed as many as the budget says.
    Budget,
    /// An error stopped it.
    Stopped(crate::Error),
}
