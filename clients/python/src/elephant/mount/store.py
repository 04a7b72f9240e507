"""The store of a mount: its journal also stores attributes, a part of its limits is kept back, and what ended is remembered.

Attributes are remarks in the journal, so one checksum and one lock cover both. A change that fails midway is taken back by opposite
commands, since the core has no transactions. When which name ended is known from the store itself.
"""

from __future__ import annotations

from collections.abc import Callable, Iterable, Iterator, Mapping, Sequence
from contextlib import suppress
from functools import partial
from typing import Any, NamedTuple, Optional

from .. import Closed, Counts as Made, ElephantError, Full, Limits, NoEntry, Removable
from ..keeping import AT, NOW, Clock, Core, Event, Front, KeepingStore, Lines, Lives, NameRow, Numbers, Opposite, Path, Replay
from .chronicle import Chronicle, chronicle_of
from .counts import Counts
from .drafts import Drafts
from .earlier import LinesReplay
from .memory import KEPT, SAVING, Memory
from .records import Records, State
from .timeline import OF_TREE, Annals, Moments, Removals
from .who import Who

CLOCK_IS_RIGHT = "time is right"
READ_ONLY = "the folder was mounted with --read-only"
# Lines that end no name and restore none. A removal of the last version of a file without a name may: `forget_names` is for that.
_OF_CONTENTS = (b"# ", b"clock ", b"write ", b"truncate ", b"open ", b"close ", b"abandon ", b"save ", b"clean", b"pass ", b"note ")
_REMOVALS = (b"unlink", b"rmdir")
_ENDS = (*_REMOVALS, b"rename")
_CLEANS = (b"clean", b"pass")
Remarks = Callable[[int], Sequence[bytes]]


def _removed_in(answer: str, due: Sequence[Removable]) -> Sequence[tuple[int, int, int]]:
    """Returns what a `clean` or a `pass` has removed, from its answer and from what was due before."""
    words = answer.split()
    if words[:2] == ["ok", "removed"]:
        since, file, number = map(int, words[2:])
        return [(since, file, number)]
    return due[:int(words[-1])] if words[-1].isdigit() else []


class Departed(NamedTuple):
    """A file without a name: its last path, its policy, and its last version: the number, the length, and when it closed and ended."""

    path: bytes
    policy: str
    version: int
    length: int
    closed: int
    ended: int


class Ending(NamedTuple):
    """A name that is about to end: its directory, how it is spelled, the number of its file or directory, and the file, if it is one."""

    parent: int
    name: bytes
    number: int
    departed: Optional[Departed]


class MountStore(KeepingStore):
    """A store in a journal, with the records of a mount. What a full disk stops stays in memory until it can be written."""

    trust_hint = f"send the line '{CLOCK_IS_RIGHT}'"
    broken_hint = "Unmount the folder and mount it again"
    lost_hint = "Nothing more is kept: copy your files out of the folder before you unmount it"

    def __init__(
        self, journal: str, limits: Optional[Limits] = None, read_only: bool = False, clock: Clock = "system", at: Optional[str] = None
    ) -> None:
        self.records, self.who = Records(), Who()
        self.quota = Counts(limits or Limits(), self._made)
        self.annals = Annals(self.records)
        self.chronicle = Chronicle()
        self.memory = Memory()
        self.drafts = Drafts(self)
        self.departed: dict[int, Departed] = {}
        self.has_saved = False
        """Whether the change that is being made has closed a draft that became a version."""
        self.name_changes = 0
        """A count that goes up whenever a name may have ended, was restored, or is no longer restorable."""
        self.numbers: Optional[Numbers] = None
        """The numbers of the last renewal, until the tree has them."""
        super().__init__(journal, limits, read_only, clock, at)
        self.missed_until = self.annals.gaps.last_end
        """The end of the last day or more without a change, when the journal was opened."""
        self.quota.limits = self.limits
        if read_only:
            self.stopped = READ_ONLY

    @property
    def first_moment(self) -> int:
        """The moment of the journal's first change, or 0."""
        return self.annals.first_moment

    @property
    def moments(self) -> Moments:
        """The moments at which names or contents changed."""
        return self.annals.moments

    @property
    def removals(self) -> Removals:
        """Which versions were removed."""
        return self.annals.removals

    # The journal.

    def new_replay(self, core: Core) -> Replay:
        return LinesReplay(core, self.annals)

    def note_event(self, event: Event) -> None:
        self.annals.note_event(event)

    def note_remark(self, remark: bytes) -> None:
        self.annals.note_remark(remark)

    def note_front(self, core: Core, front: Front) -> None:
        lives = Lives(front)
        self.annals.complete(front, lives)
        self.chronicle = chronicle_of(front, lives)
        self.departed = departed_of(core, front, lives)

    def remarks(self, front: Front, numbers: Optional[Numbers] = None) -> Iterator[bytes]:
        yield from self.annals.remarks(() if numbers else {it.number for it in front.files})
        yield from self._records_of(front, numbers).remarks()

    def _records_of(self, front: Front, numbers: Optional[Numbers]) -> Records:
        """Returns the records of what the store has, by fresh numbers if there are some."""
        if numbers is not None:
            found = self.records.kept(numbers.files, numbers.directories)
            found.undone = renumbered(self.records.undone, front, numbers)
            return found
        files = {it.number: it.number for it in front.files}
        found = self.records.kept(files, {it: it for it in front.directories})
        found.announced, found.undone = self.records.announced, {it: state for it, state in self.records.undone.items() if it[0] in files}
        return found

    def adopt(self, core: Core, front: Front, numbers: Numbers) -> None:
        self.records.take(self._records_of(front, numbers))
        self.annals.removals.clear()
        self.note_front(core, front)
        self.name_changes += 1
        self.numbers = numbers

    def note_change(self, now: int, lines: Sequence[bytes]) -> None:
        self.annals.gaps.note(now)
        self.name_changes += any(not line.startswith(_OF_CONTENTS) for line in lines)
        if self.has_saved or any(line.startswith(OF_TREE) for line in lines):
            self.moments.note(now)
        self.has_saved = False

    def note_written(self, lines: Sequence[bytes]) -> None:
        for line in lines:
            if line.startswith(b"# "):
                self.records.apply(line[2:])

    def preface(self, now: int) -> Sequence[bytes]:
        if self.annals.first_moment:
            return self.who.news()
        self.annals.first_moment = now
        return (self.annals.beginning(), *self.who.news())

    def reserve(self, content: int = 0) -> None:
        """Makes sure that there is memory for a content, and space on the disk for it. Raises NoMemory, or NoSpace."""
        if content:
            self.memory.require(SAVING * (content + self.pending), content, KEPT)
        super().reserve(content)

    def forget_names(self) -> None:
        """Notes that a file without a name may have no version left."""
        self.name_changes += 1

    # Limits.

    def _made(self) -> Made:
        """Returns what the limits count. The clock stays, so it may be asked within a change."""
        with self._lock:
            if self._core is None:
                raise Closed("the store")
            return self._core.counts()

    @staticmethod
    def _require(lacking: Optional[str]) -> None:
        if lacking is not None:
            fault = Full()
            fault.what = lacking
            raise fault

    def _require_left(self, *words: bytes) -> None:
        """Raises Full unless commands leave what is kept back for `undo`."""
        self._require(self.quota.lacking_for(words))
        if len(words) == 1 and words[0] in _REMOVALS:
            self._require(self.quota.lacking_for_removal())

    # Commands.

    def run(self, *commands: Sequence[bytes], remarks: Remarks = lambda _: ()) -> int:
        """Runs commands, as one change with remarks: all of them, or none. The remarks may depend on the last command's number, which
        it returns."""
        self._require_left(*(it[0] for it in commands))
        with self.changing() as (core, lines):
            number = 0
            for it in commands:
                number = self.do(core, lines, *it)
            lines += remarks(number)
            return number

    def line(self, line: str) -> str:
        spelled = line.encode("utf-8", "surrogateescape")
        self._require(self.quota.lacking_for_line(spelled))
        is_removal = spelled.startswith((b"unlink ", b"rmdir "))
        if is_removal:
            self._require(self.quota.lacking_for_removal())
        if spelled.startswith(_CLEANS):
            return self._cleaning_line(line)
        answer = self._ending_line(line, spelled.split(b" ")) if spelled.startswith(_ENDS) else super().line(line)
        if is_removal and answer.startswith("ok "):
            self.quota.note_removal()
        return answer

    def _cleaning_line(self, line: str) -> str:
        """Runs a line that removes versions, and notes which."""
        due = self.due() if line.startswith("pass ") else []
        with self.together():
            answer = super().line(line)
            self._note_removed(_removed_in(answer, due))
        return answer

    def _ending_line(self, line: str, words: Sequence[bytes]) -> str:
        """Runs a line that ends a name, and notes that."""
        with self._lock:
            if self._core is None:
                raise Closed("the store")
            ending = None
            with suppress(ElephantError):  # then the line is refused or bad
                ending = self._ending(self._core, words[1]) if len(words) > 1 and words[1].startswith(b"/") else None
            answer = super().line(line)
            if ending is not None and answer.startswith("ok "):
                self._note_ending(ending, self._core.now(), words[0] == b"rename")
            return answer

    def clean(self) -> Optional[Removable]:
        with self.together():
            found = super().clean()
            if found is not None:
                self._note_removed([found])
        return found

    def _note_removed(self, keys: Iterable[tuple[int, int, int]]) -> None:
        """Notes that versions were removed: since when each was due, and the numbers of its file and its own."""
        remarks = self.annals.note_removed(keys, int(self.now))
        if remarks:
            self.keep(*remarks)

    def undelete(self, path: Path) -> Optional[int]:
        """Restores a deleted name. Returns the number of the version that a file without a name gets, else None."""
        version = super().undelete(path)
        self.quota.note_return()
        return version

    def do(self, core: Core, lines: Lines, word: bytes, *words: bytes) -> int:
        """Runs a command of a change, adds its line and notes its opposite. Returns its number."""
        opposite = self._opposite(core, word, words)
        lines.append(b" ".join((word, *words)))
        try:
            number = self._command(core, word, words)
        except ElephantError:
            lines.pop()
            raise
        except MemoryError:
            lines.pop()
            self.break_off("memory ran out within a command")
            raise
        if word in _REMOVALS:
            self.quota.note_removal()
        elif word == b"undelete":
            self.quota.note_return()
        self.opposites.append(Opposite(opposite))
        return number

    def _opposite(self, core: Core, word: bytes, words: Sequence[bytes]) -> Callable[[Core, Lines], None]:
        """Returns what takes a command back. Call it before the command."""
        path = words[0]
        if word == b"policy":
            return partial(self._redo, word, path, core.policy_of(core.stat(path, path)).word.encode())
        if word == b"rename":
            return partial(self._redo, word, words[1], path)
        if word in _REMOVALS:
            return partial(self._redo, b"undelete", path)
        return partial(self._remove, words[-1])

    def _redo(self, *command: Any) -> None:
        """Runs a command that takes back another, without an opposite of its own."""
        *words, core, lines = command
        self._command(core, words[0], words[1:])
        lines.append(b" ".join(words))
        if words[0] == b"undelete":
            self.quota.note_return()

    def _remove(self, path: bytes, core: Core, lines: Lines) -> None:
        self._redo(b"rmdir" if core.stat(path, path).is_directory else b"unlink", path, core, lines)

    def _command(self, core: Core, word: bytes, words: Sequence[bytes]) -> int:
        call = getattr(core.library, f"elephant_{word.decode()}")
        parts: list[Any] = [part for it in words for part in (it, len(it))]
        if word in (b"create", b"mkdir", b"undelete"):
            return core.ask(call, words[0], *parts)
        if word in _ENDS:
            self.note_end(core, words[0], word == b"rename")
        core.do(call, words[0], *parts)
        return 0

    # What ended.

    def note_end(self, core: Core, path: bytes, is_moved: bool) -> None:
        """Notes that a name is about to end, which file it had, and whether that goes on under another name."""
        ending = self._ending(core, path)
        if ending is not None:
            self._note_ending(ending, core.now(), is_moved)

    @staticmethod
    def _ending(core: Core, path: bytes) -> Optional[Ending]:
        """Returns what a name leads to, or None: then the command that would end it is refused."""
        parent, _, name = path.rpartition(b"/")
        try:
            row = core.stat(path, path)
            file, last = int(row.id), (int(row.version), int(row.length), int(row.closed))
            departed = None if row.is_directory else Departed(path, core.policy_of(row).word, *last, 0)
            return Ending(int(core.stat(parent, parent or b"/").id), name, file, departed)
        except NoEntry:
            return None

    def _note_ending(self, it: Ending, now: int, is_moved: bool) -> None:
        """Notes that a name ends now."""
        self.chronicle.end(it.parent, it.name, it.number if it.departed is None else None, now, is_moved)
        if it.departed is not None:
            self.departed[it.number] = it.departed._replace(ended=now)
            self.chronicle.end_of_file(it.number, it.parent, it.name, now)

    def note_moved(self, core: Core, path: bytes) -> None:
        """Notes that what had a name, which has ended, goes on under another one."""
        parent, _, name = path.rpartition(b"/")
        self.chronicle.note_moved(core.stat(parent, parent or b"/").id, name)


def departed_of(core: Core, front: Front, lives: Lives) -> dict[int, Departed]:
    """Returns the files of a store that have no name."""
    found = {}
    for it in front.files:
        rows = lives.files.get(it.number)
        if rows and all(row.death is not None for row in rows):
            last = max(rows, key=lambda row: row.death or 0)
            found[it.number] = _departed(core, it.policy, it.following - 1, last, lives.path_of(last) or b"/" + last.name)
    return found


def _departed(core: Core, policy: str, version: int, last: NameRow, path: bytes) -> Departed:
    """Returns a file without a name. If no moment finds it, it was made and deleted within one second."""
    ended = last.death or 0
    with suppress(ElephantError):
        row = core.stat(path, path, AT, max(ended - 1, 0))
        if row.id == last.number and not row.is_directory:
            return Departed(path, policy, row.version, row.length, row.closed, ended)
    return Departed(path, policy, version, 0, ended, ended)


def renumbered(undone: Mapping[tuple[int, int], State], front: Front, numbers: Numbers) -> dict[tuple[int, int], State]:
    """Returns which versions undos have made, by fresh numbers. Left out are those of files without a name, and those of what another file
    held."""
    lives, found = Lives(front), {}
    for file in {file for file, _ in undone}:
        fresh = numbers.files.get(file)
        row = next((it for it in lives.files.get(fresh or 0, ()) if it.death is None), None)
        path = None if row is None else lives.path_of(row)
        if fresh is None or path is None:
            continue
        held = {it.number: at for at, it in enumerate(numbers.before.versions(path, path, NOW, 0), 1)}
        for (other, version), (source, until) in undone.items():
            if other == file and version in held and source in held and not until:
                found[fresh, held[version]] = held[source], 0
    return found
