"""Elephant: a store of files that keep their earlier versions until a policy lets them go.

    from elephant import Store

    with Store(journal="notes.journal") as store:
        with store.open("/plan", "w") as file:
            file.write("first\\n")
        print(store.read("/plan"), store.versions("/plan"))

docs/EMBED.md of the repository describes all of it.
"""

from ._answers import (
    Answered,
    Answers,
    Cause,
    ClosedSession,
    Counts,
    Current,
    DeadName,
    DeletedName,
    DirectoryStat,
    Due,
    Entry,
    Fate,
    FileInfo,
    FileStat,
    Gone,
    Group,
    History,
    Kept,
    Limits,
    Mark,
    Marked,
    NameStory,
    Open,
    OpenHandle,
    Pass,
    PathEntry,
    Recovered,
    Removable,
    Removal,
    Removed,
    RestoredTree,
    Story,
    TreeStep,
    Usage,
    Version,
    VersionStory,
    Waiting,
)
# Printed by tools/pages/surface --write: the errors, from _errors.py.
from ._errors import (
    AlreadyMember,
    BadCheckpoint,
    BadJournal,
    BadLadder,
    BadLimits,
    BadMoment,
    BadName,
    BadPath,
    BadTime,
    ClockBack,
    ClockDoubt,
    ClockEnd,
    Closed,
    Drafting,
    ElephantError,
    Exists,
    Forgotten,
    Full,
    Future,
    GroupExists,
    HandlesOpen,
    HasJournal,
    HistoryFull,
    IntoItself,
    IsDirectory,
    IsRoot,
    JournalDamaged,
    JournalError,
    JournalLocked,
    JournalLost,
    MarkExists,
    MassRemoval,
    NoEntry,
    NoGroup,
    NoHandle,
    NoHistory,
    NoJournal,
    NoMark,
    NoMemory,
    NotAhead,
    NotDirectory,
    NotEmpty,
    NotMember,
    NotPast,
    NotRestorable,
    NotWriter,
    NoVersion,
    ReadOnly,
    Refused,
    RemovalWaits,
    Stop,
    Syntax,
    TooBig,
    Untold,
)
# End of the errors.
from ._file_store import FileStore
from ._files import File, TextFile
from ._moments import LAST_MOMENT, Moment
from ._policies import KeepAll, KeepOne, KeepSafe, Landmarks, Policy
from ._reading import UnknownAnswer
from ._sessions import Reader, Session
from ._store import Store
from ._times import Time, read_time
from ._version import __version__

# Printed by tools/pages/surface --write: all names, from the imports.
__all__ = [
    "LAST_MOMENT", "__version__", "AlreadyMember", "Answered", "Answers", "BadCheckpoint", "BadJournal", "BadLadder", "BadLimits",
    "BadMoment", "BadName", "BadPath", "BadTime", "Cause", "ClockBack", "ClockDoubt", "ClockEnd", "Closed", "ClosedSession", "Counts",
    "Current", "DeadName", "DeletedName", "DirectoryStat", "Drafting", "Due", "ElephantError", "Entry", "Exists", "Fate", "File",
    "FileInfo", "FileStat", "FileStore", "Forgotten", "Full", "Future", "Gone", "Group", "GroupExists", "HandlesOpen", "HasJournal",
    "History", "HistoryFull", "IntoItself", "IsDirectory", "IsRoot", "JournalDamaged", "JournalError", "JournalLocked", "JournalLost",
    "KeepAll", "KeepOne", "KeepSafe", "Kept", "Landmarks", "Limits", "Mark", "Marked", "MarkExists", "MassRemoval", "Moment", "NameStory",
    "NoEntry", "NoGroup", "NoHandle", "NoHistory", "NoJournal", "NoMark", "NoMemory", "NotAhead", "NotDirectory", "NotEmpty", "NotMember",
    "NotPast", "NotRestorable", "NotWriter", "NoVersion", "Open", "OpenHandle", "Pass", "PathEntry", "Policy", "read_time", "Reader",
    "ReadOnly", "Recovered", "Refused", "Removable", "Removal", "RemovalWaits", "Removed", "RestoredTree", "Session", "Stop", "Store",
    "Story", "Syntax", "TextFile", "Time", "TooBig", "TreeStep", "UnknownAnswer", "Untold", "Usage", "Version", "VersionStory", "Waiting",
]
# End of all names.
