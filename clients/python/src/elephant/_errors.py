"""The refusals of a store, one class for each number, and the errors of a journal."""

from __future__ import annotations

import errno
import re
from typing import TYPE_CHECKING, Optional

if TYPE_CHECKING:
    from ._moments import Moment

# Between the sentences of a comment.
_SENTENCE_END = re.compile(r"(?<!\.)\. (?=[A-Z`])")


class ElephantError(Exception):
    """Base of all errors of this package.

    `number` and `name` are those of the store's answer, as `5` and `NoEntry`. An error of the journal has the number 0.
    After a refusal the store is as it was; with `history=True` it keeps the refusal as an entry.
    """

    number: int = 0
    name: str = ""

    def __init__(self, subject: str = "") -> None:
        super().__init__(subject)
        self.subject = subject

    @property
    def meaning(self) -> str:
        """The error as a sentence: for a number of the store that of docs/ERRORS.md."""
        told = " ".join((type(self).__doc__ or type(self).__name__).partition("\n\n")[0].split())
        first = _SENTENCE_END.split(told)[0]
        return first if first.endswith(".") else f"{first}."

    def __init_subclass__(cls, number: int = 0) -> None:
        super().__init_subclass__()
        cls.number, cls.name = number, cls.__name__
        if number:
            BY_NUMBER[number] = cls

    def __str__(self) -> str:
        words = f"{self.number} {self.name}{self._detail()}" if self.number else self.name
        return ": ".join(filter(None, (words, self.subject)))

    def _detail(self) -> str:
        return ""


BY_NUMBER: dict[int, type[ElephantError]] = {}


class Stop(ElephantError):
    """The command was not run. If it was a pass, `removed` says how many versions it removed before."""

    removed: int = 0


class Refused(ElephantError):
    """The store refused the command, and changed nothing."""


# Printed by tools/pages/surface --write: the codes, from refusal.rt of ele_model, fault.rt of ele_printer and codes.rt of ele_c_values.


class NoMemory(Stop, MemoryError, number=1):
    """There was no memory."""


class HistoryFull(Stop, number=2):
    """The history has as many events as it may."""


class ClockBack(Refused, number=3):
    """The moment is earlier than now."""


class ClockEnd(Refused, number=4):
    """The moment would be later than the year 9999."""


class NoEntry(Refused, FileNotFoundError, number=5):
    """The path names nothing."""

    errno = errno.ENOENT


class NotDirectory(Refused, NotADirectoryError, number=6):
    """The path leads to a file, or through one."""

    errno = errno.ENOTDIR


class IsDirectory(Refused, IsADirectoryError, number=7):
    """The path leads to a directory."""

    errno = errno.EISDIR


class Exists(Refused, FileExistsError, number=8):
    """The name is in use."""

    errno = errno.EEXIST


class NotEmpty(Refused, number=9):
    """The directory has names."""


class IntoItself(Refused, number=10):
    """The directory would be moved below itself."""


class IsRoot(Refused, number=11):
    """The root can't be made, moved or deleted."""


class Future(Refused, number=12):
    """The moment is later than now."""


class NoVersion(Refused, number=14):
    """No version has had the number yet."""


class NoHandle(Refused, number=15):
    """No open handle has the number."""


class NotWriter(Refused, number=16):
    """The handle is one that reads."""


class TooBig(Refused, number=17):
    """The content would be longer than 1,048,576 bytes, or the note than 200."""


class Drafting(Refused, number=18):
    """A handle writes the file."""


class NotRestorable(Refused, number=19):
    """Nothing can be restored by this name."""


class NoGroup(Refused, number=20):
    """No group has the name."""


class GroupExists(Refused, number=21):
    """A group has the name already."""


class NoMark(Refused, number=22):
    """The group has no mark for the moment."""


class MarkExists(Refused, number=23):
    """The group has a mark for the moment already."""


class NotPast(Refused, number=24):
    """The moment of a mark must be earlier than now."""


class AlreadyMember(Refused, number=25):
    """The file is in the group already."""


class NotMember(Refused, number=26):
    """The file isn't in the group."""


class NotAhead(Refused, number=41):
    """The end of a mark must be later than now, the moment of 'ahead' or 'expiring' not earlier, nor the second of 'changes' than its
    first."""


class BadName(Refused, ValueError, number=28):
    """A name has 1 to 64 bytes without /, @ and #, and isn't . or .."""


class BadPath(Refused, ValueError, number=29):
    """A path begins with /, has no empty name and at most 32 names, and a number after #."""


class BadMoment(Refused, ValueError, number=30):
    """No moment has this form, or it is too late."""


class BadLadder(Refused, ValueError, number=31):
    """No policy has these numbers."""


class Syntax(Refused, ValueError, number=32):
    """The line is no command, or a word is missing, too many or of another form."""


class Closed(ElephantError, ValueError, number=64):
    """The store, or the handle, is closed."""


class BadLimits(ElephantError, ValueError, number=66):
    """A limit is above its largest."""


class NoHistory(ElephantError, ValueError, number=67):
    """The store was opened without a history."""


class Untold(ElephantError, MemoryError, number=71):
    """The line was run, but there was no memory for the text of its answer."""


class BadCheckpoint(ElephantError, ValueError, number=72):
    """The bytes are no checkpoint of a store."""


class HandlesOpen(ElephantError, ValueError, number=73):
    """A handle is open."""


class NoJournal(ElephantError, ValueError, number=74):
    """The store has no journal."""


class HasJournal(ElephantError, ValueError, number=75):
    """The store has a journal."""


class BadJournal(ElephantError, ValueError, number=76):
    """The bytes are no file of a store."""


# End of the codes.


class Forgotten(Refused, number=13):
    """The version was removed. `last` is the greatest held number before it, or None."""

    last: Optional[int] = None

    def _detail(self) -> str:
        return f" {'-' if self.last is None else self.last}"


class Full(Refused, number=27):
    """A limit is reached, for good. `what` is its name, as `Limits` has it: `files`, `versions`, .."""

    what: str = ""

    def _detail(self) -> str:
        return f" {self.what}"


class ClockDoubt(ElephantError):
    """The time of day can't be believed, so nothing is removed. `Store.clock_fault` says why, and `Store.trust_clock` that it is right."""


class RemovalWaits(ElephantError):
    """What is due waits, so nothing is removed: `count` of the `held` versions, the first of them until the moment `until`."""

    def __init__(self, subject: str = "", count: int = 0, held: int = 0, until: Optional[Moment] = None) -> None:
        super().__init__(subject)
        self.count, self.held, self.until = count, held, until


class MassRemoval(RemovalWaits):
    """A pass would remove much at once, and wasn't confirmed: `count` of the `held` versions, which wait for a day. Nothing was removed."""


class ReadOnly(ElephantError):
    """The store was opened with `read_only=True`, and the call would change it. The core wasn't asked."""


class BadTime(ElephantError, ValueError):
    """A text means no time, or may mean two. The message says what is accepted."""


class JournalError(ElephantError):
    """The journal can't be used, or it no longer matches the store in memory. Open the store again."""


class JournalLocked(JournalError, BlockingIOError):
    """Another store has the journal."""

    errno = errno.EWOULDBLOCK


class JournalDamaged(JournalError):
    """A line of the journal is damaged, and whole changes follow it; or the file is no journal.

    `line` is its number, from 1, and `offset` the place in the file at which its change begins.
    """

    def __init__(self, subject: str = "", line: int = 0, offset: int = 0) -> None:
        super().__init__(subject)
        self.line, self.offset = line, offset


class JournalLost(JournalError):
    """The journal was cut, deleted, renamed or replaced while the store was open, so that no later change would be kept in it."""


# Printed by tools/pages/surface --write: the limits, from ele_c_values/src/codes.rt.
LIMIT_NAMES = ("", "files", "directories", "names", "versions", "handles", "groups", "members", "marks")
# End of the limits.


def error_of(number: int, subject: str = "", detail: Optional[int] = None) -> ElephantError:
    """Returns the error with that number."""
    error = BY_NUMBER.get(number, ElephantError)(subject)
    if type(error) is ElephantError:
        error.number, error.name = number, "Unexpected"
    elif isinstance(error, Forgotten):
        error.last = detail or None
    elif isinstance(error, Full):
        error.what = LIMIT_NAMES[detail or 0]
    return error
