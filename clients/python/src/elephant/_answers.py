"""The named tuples that a store returns."""

from __future__ import annotations

from enum import Enum
from typing import Any, NamedTuple, Optional, Union

from ._errors import ElephantError
from ._moments import Moment, moment_or_none
from ._policies import Policy


class Limits(NamedTuple):
    """How many of each kind a store may ever make. A removal lowers no count. The defaults are the largest."""

    events: int = 1_000_000_000
    files: int = 100_000
    directories: int = 10_000
    names: int = 200_000
    versions: int = 1_000_000
    handles: int = 1_000_000
    groups: int = 1_000
    members: int = 100_000
    marks: int = 10_000


class Counts(NamedTuple):
    """How many of each kind a store has ever made, as `Limits` counts them: open drafts are versions. Without a history `events` is 0."""

    events: int
    files: int
    directories: int
    names: int
    versions: int
    handles: int
    groups: int
    members: int
    marks: int


class Version(NamedTuple):
    """A held version: when its draft was opened, when it became current, and when it ended (None: it has not)."""

    number: int
    opened: Moment
    closed: Moment
    ended: Optional[Moment]
    length: int

    @classmethod
    def of_row(cls, row: Any) -> Version:
        """Makes it of a row of the C library."""
        return cls(row.number, Moment(row.opened), Moment(row.closed), moment_or_none(row.ended), row.length)


class FileStat(NamedTuple):
    """A file, and one version of it."""

    file: int
    version: int
    opened: Moment
    closed: Moment
    ended: Optional[Moment]
    length: int
    policy: Policy

    @classmethod
    def of_row(cls, row: Any, policy: Policy) -> FileStat:
        """Makes it of a row of the C library, and the file's policy."""
        return cls(row.id, row.version, Moment(row.opened), Moment(row.closed), moment_or_none(row.ended), row.length, policy)


class DirectoryStat(NamedTuple):
    """A directory, and the default policy of the files made in it."""

    directory: int
    default: Policy


class Entry(NamedTuple):
    """A name in a directory, and the number of its file or directory. `spelled` is how the store spells the name."""

    name: str
    is_directory: bool
    number: int
    spelled: bytes


class PathEntry(NamedTuple):
    """A path below a directory, and the number of its file or directory. `spelled` is how the store spells the path."""

    path: str
    is_directory: bool
    number: int
    spelled: bytes


class DeletedName(NamedTuple):
    """A name that `undelete` can restore. `parent` is the number of its directory; the root's is 0."""

    parent: int
    name: str
    is_directory: bool
    number: int
    spelled: bytes


# Its older name.
DeadName = DeletedName


class Removable(NamedTuple):
    """A version that may be removed since a moment: the numbers of its file and its own."""

    since: Moment
    file: int
    number: int


class Usage(NamedTuple):
    """What the files of one kind of policy use: `bytes` is the sum of the lengths, `blocks` counts shared blocks once."""

    kind: str
    files: int
    versions: int
    bytes: int
    blocks: int


class Mark(NamedTuple):
    """A mark of a group at a moment, which ends at `until` (None: never)."""

    at: Moment
    until: Optional[Moment]


class Group(NamedTuple):
    """A group with the numbers of its files, and its marks. `spelled` is how the store spells the name."""

    name: str
    members: tuple[int, ...]
    marks: tuple[Mark, ...]
    spelled: bytes


class Pass(NamedTuple):
    """How many versions a pass removed, and whether it left none that is due."""

    removed: int
    finished: bool


class TreeStep(NamedTuple):
    """A step of `Store.restore_tree`: `mkdir` or `undelete` of a directory, or `restore` of a file.

    `is_missing`: whether the path named nothing before. `version` is the one that a restore made (None: it was only asked what would be
    done, or the path is a directory's).
    """

    word: str
    path: str
    is_missing: bool
    version: Optional[int]


class RestoredTree(NamedTuple):
    """What `Store.restore_tree` did, or would do: its steps, how many files hold what they held then, what is left as it is, each path with
    the reason, and the names that weren't there then and stay."""

    moment: Moment
    steps: tuple[TreeStep, ...]
    same: int
    left: tuple[tuple[str, str], ...]
    newer: tuple[str, ...]


class Waiting(NamedTuple):
    """How many due versions a store's guard keeps for now, and the moment until which the first of them waits."""

    versions: int
    until: Optional[Moment]


class History(NamedTuple):
    """How many events are folded, and the lines of the stored ones."""

    folded: int
    lines: tuple[str, ...]


class Current(NamedTuple):
    """The version has not ended."""

    def __str__(self) -> str:
        return "current"


class Open(NamedTuple):
    """A handle reads the version."""

    def __str__(self) -> str:
        return "open"


class Marked(NamedTuple):
    """A mark of the group holds the version, until a moment (None: for good)."""

    group: str
    at: Moment
    until: Optional[Moment]

    def __str__(self) -> str:
        return f"marked {self.group} {self.at}" + ("" if self.until is None else f"/{self.until}")


class Kept(NamedTuple):
    """Its policy keeps the version until a moment (None: for good); `level` is the level of a ladder, else None."""

    until: Optional[Moment]
    level: Optional[int]

    def __str__(self) -> str:
        return "kept" + ("" if self.until is None else f" until {self.until}") + ("" if self.level is None else f" level {self.level}")


class Cause(Enum):
    """Why a policy lets a version go."""

    AT_ONCE = "at once"
    """Its policy is KeepOne, which keeps no version that has ended."""
    BY_AGE = "by age"
    """It ended `age` seconds ago."""
    DISPLACED = "displaced"
    """Version `by` closed in the same span, at `level` of the ladder."""


def _cause_words(cause: Cause, age: Optional[int], by: Optional[int], level: Optional[int]) -> str:
    """Returns a cause as the script language prints it, with a space before."""
    return {
        Cause.AT_ONCE: " at once", Cause.BY_AGE: f" by age {age}", Cause.DISPLACED: f" by {by} level {level}",
    }[cause]


def _held_words(held: Optional[Marked]) -> str:
    """Returns the mark that held a version as the script language prints it, with a space after."""
    return "" if held is None else f"held{str(held)[len('marked'):]} "


class Due(NamedTuple):
    """The version may be removed since a moment.

    By one of three causes: `age` seconds have passed since its end; version `by` closed in the same span at `level` of the ladder;
    or neither, as its policy is KeepOne. `held` is the mark that held it after its policy had let it go (None: no mark did).
    """

    since: Moment
    age: Optional[int] = None
    by: Optional[int] = None
    level: Optional[int] = None
    held: Optional[Marked] = None

    @property
    def cause(self) -> Cause:
        """Which of the three it is."""
        if self.by is not None:
            return Cause.DISPLACED
        return Cause.AT_ONCE if self.age is None else Cause.BY_AGE

    def __str__(self) -> str:
        return f"{_held_words(self.held)}due {self.since}{_cause_words(self.cause, self.age, self.by, self.level)}"


class Removed(NamedTuple):
    """The version was removed at a moment, and was due since another one, for a cause as that of `Due`.

    `held` is the mark that held it after its policy had let it go (None: no mark did). Only a store with a history knows it.
    """

    moment: Moment
    since: Moment
    cause: Cause
    age: Optional[int] = None
    by: Optional[int] = None
    level: Optional[int] = None
    held: Optional[Marked] = None

    def __str__(self) -> str:
        due = f"{_held_words(self.held)}due {self.since}{_cause_words(self.cause, self.age, self.by, self.level)}"
        return f"removed {self.moment} {due}"


Fate = Union[Current, Open, Marked, Kept, Due, Removed]


class Removal(NamedTuple):
    """A version that a stored event removed: when, the numbers of its file and its own, the path that led to the file just before (None: no
    live names did), since when it was due, the cause, and the mark that held it, as `Removed` has them."""

    moment: Moment
    file: int
    number: int
    path: Optional[str]
    since: Moment
    cause: Cause
    age: Optional[int] = None
    by: Optional[int] = None
    level: Optional[int] = None
    spelled: Optional[bytes] = None
    held: Optional[Marked] = None


class Gone(NamedTuple):
    """How many events are folded, and what the stored ones removed, in order."""

    folded: int
    removals: tuple[Removal, ...]


class OpenHandle(NamedTuple):
    """An open handle, and the numbers of its file and of the version that it reads (None: it writes the draft).

    `since` is when the draft was opened, or when the handle was that reads (None: a folded event opened it). `path` leads to the file now
    (None: no live names do), and `spelled` is how the store spells it.
    """

    handle: int
    file: int
    version: Optional[int]
    since: Optional[Moment]
    path: Optional[str]
    spelled: Optional[bytes]


class VersionStory(NamedTuple):
    """What is known of a version: when it closed and ended (None: it has not ended), its length, and what becomes of it.

    `removed` is when a stored event removed it (None: it is held); the rest is then what was known just before. `held` is the mark that
    held a due version after its policy had let it go (None: no mark did), as its `fate` has it.
    """

    number: int
    closed: Optional[Moment]
    ended: Optional[Moment]
    length: Optional[int]
    fate: Optional[Fate]
    removed: Optional[Moment] = None
    held: Optional[Marked] = None


class NameStory(NamedTuple):
    """A name that a file has or had, from its birth until its death (None: it lives), and how the store spells it. A directory without a
    name has its last one in it; `path` is None if no names lead there."""

    path: Optional[str]
    birth: Moment
    death: Optional[Moment]
    spelled: Optional[bytes]


class Story(NamedTuple):
    """The number of a file, its versions by number, and its names in order of making."""

    file: int
    versions: tuple[VersionStory, ...]
    names: tuple[NameStory, ...]


class Answered(NamedTuple):
    """A stored event: its line, and its answer as `Store.line` returns it, with a line feed at the end of each line."""

    line: str
    answer: str


class Answers(NamedTuple):
    """How many events are folded, and the stored ones with their answers, in order."""

    folded: int
    answered: tuple[Answered, ...]


class ClosedSession(NamedTuple):
    """A session that a journal, a file or a checkpoint left open, and the number of the version that its draft became (None: nothing was
    changed). `path` is "" if a file or a checkpoint has no live name of the file."""

    path: str
    version: Optional[int]


class Recovered(NamedTuple):
    """What the opening of a journal or a file repaired: how many bytes after the last whole change it cut off (a store that is read only
    left them out), which sessions it closed, and with `repair=True` the path of the file that has the bytes of a damaged end, else "". The
    opening of a checkpoint only closes sessions."""

    cut: int = 0
    closed: tuple[ClosedSession, ...] = ()
    copy: str = ""

    def __bool__(self) -> bool:
        return self != Recovered()


class FileInfo(NamedTuple):
    """The file of a `FileStore`: how many of its bytes count, how many of these it was made with, how many compactions there were since the
    opening, without renewals, and whether the opening made the file. `tidied` is why the last compaction or renewal by itself failed (None:
    it didn't)."""

    length: int
    start: int
    compactions: int
    tidied: Optional[ElephantError]
    is_new: bool
