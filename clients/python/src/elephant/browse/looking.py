"""Stores to look at: they note when anything changed and when names ended, and return a part of a long list."""

from __future__ import annotations

import os
from array import array
from bisect import bisect_left, bisect_right
from collections.abc import Callable, Iterator, Sequence
from contextlib import contextmanager
from typing import NamedTuple, Optional

from .. import ElephantError, Entry, JournalDamaged, JournalError, Moment, Policy, Store, Version
from .._answers import Limits
from .._core import Core
from .._events import Event, Front
from .._forgetting import _GuardedReplay, _Memory
from .._journal import Journal
from .._library import NameRow, VersionRow
from .._lives import Lives
from .._moments import moment_or_none
from .._names import name_of
from .._replay import Replay
from .._turns import Clock, run_change

# Lines that change what a tree shows. A `close` may have made a version.
_CHANGES = frozenset(b"create link unlink rename undelete mkdir rmdir close save revert restore".split())
_ENDS = frozenset((b"unlink", b"rmdir", b"rename"))


class Ended(NamedTuple):
    """The last end of a name: when, and the path that it was then."""

    moment: int
    path: bytes


class Deleted(NamedTuple):
    """A deleted name of a directory that can be brought back."""

    name: str
    spelled: bytes
    is_directory: bool
    number: int
    ended: Optional[Ended]


class Notes:
    """The moments at which a tree changed, and when names ended."""

    def __init__(self) -> None:
        self.moments = array("Q")
        """In rising order, each once."""
        self.ends: dict[tuple[int, bytes], Ended] = {}
        """By the number of the directory and the name as it is spelled."""
        self.revision = 0
        """A count that goes up with each change of the journal."""
        self._read = 0

    def note(self, core: Core, lines: Sequence[bytes]) -> None:
        """Notes a change that the core has just made."""
        self.revision += 1
        if not any(line.partition(b" ")[0] in _CHANGES for line in lines):
            return
        self._note_moment(core.now())

    def note_end(self, core: Core, line: bytes) -> None:
        """Notes that a line has ended a name."""
        words = line.split(b" ")
        if words[0] in _ENDS and len(words) > 1:
            parent, _, name = words[1].rpartition(b"/")
            try:
                self.ends[int(core.stat("", parent or b"/").id), name] = Ended(core.now(), words[1])
            except ElephantError:
                pass  # it has no parent any more, so nobody finds the name by it

    def note_event(self, event: Event) -> None:
        """Notes an event of a file. The close of a session counts as a change, which it mostly is."""
        if event.word == b"clock":
            self._read = event.values[0]
        elif event.word in _CHANGES:
            self._note_moment(self._read)

    def note_remark(self, remark: bytes) -> None:
        """Notes a remark of a mount, which may say when changes were made before the file was made anew."""
        word, *words = remark.split(b" ")
        for it in words if word == b"moments" else ():
            if it.isdigit():
                self._note_moment(int(it))

    def _note_moment(self, moment: int) -> None:
        if not self.moments or self.moments[-1] < moment:
            self.moments.append(moment)

    def note_front(self, front: Front) -> None:
        """Notes which names of a store have ended, and the moments of the changes that its file has no events of."""
        lives = Lives(front)
        for row in lives.ended:
            path = lives.path_of(row)
            if path is not None and row.death is not None:
                self.ends[row.parent, row.name] = Ended(row.death, path)
        births = {it.birth for it in front.names}
        self.moments = array("Q", sorted({*self.moments, *births, *(it.death for it in lives.ended if it.death is not None)}))

    def index_at(self, moment: int) -> int:
        """Returns how many of the moments are not after a moment."""
        return bisect_right(self.moments, moment)

    def around(self, moment: int) -> tuple[Optional[int], Optional[int]]:
        """Returns the last moment before a moment and the first one after it."""
        before, after = bisect_left(self.moments, moment), bisect_right(self.moments, moment)
        return (self.moments[before - 1] if before else None, self.moments[after] if after < len(self.moments) else None)


class _Noting(Replay):
    """Runs a journal, and notes its changes."""

    notes: Notes

    def run(self, lines: list[bytes]) -> None:
        super().run(lines)
        self.notes.note(self.core, lines)

    def command(self, line: bytes) -> int:
        code = super().command(line)
        if not code:
            self.notes.note_end(self.core, line)
        return code


class _NotingReplay(_Noting):
    def __init__(self, core: Core, notes: Notes) -> None:
        super().__init__(core)
        self.notes = notes


class _NotingGuardedReplay(_Noting, _GuardedReplay):
    def __init__(self, core: Core, notes: Notes, memory: _Memory) -> None:
        super().__init__(core, memory)
        self.notes = notes


class LookedAt(Store):
    """A store that a page shows."""

    notes: Notes
    is_followed = False
    """Whether another program writes it."""

    def follow(self) -> None:
        """Takes in what another program has written to the journal since."""

    # Parts of lists.

    def names_page(self, path: bytes, at: Optional[int], start: int, most: int) -> tuple[list[Entry], int]:
        """Returns some names of a directory, now or at a moment, and how many it has."""
        with self._lock:
            core = self._begin()
            total = core.look(core.library.elephant_list, path.decode(), path, len(path), *self._tag(at))
            entries = []
            for index in range(min(start, total), min(start + most, total)):
                row = core.row(core.library.elephant_row_name, NameRow, "", index)
                spelled = core.row_name(index)
                entries.append(Entry(name_of(spelled), bool(row.is_directory), row.id, spelled))
            return entries, total

    def place_in(self, path: bytes, at: Optional[int], name: bytes) -> int:
        """Returns how many names of a directory come before a name."""
        with self._lock:
            core = self._begin()
            total = core.look(core.library.elephant_list, path.decode(), path, len(path), *self._tag(at))
            return _first(total, lambda index: core.row_name(index) >= name)

    def versions_page(self, path: bytes, at: Optional[int], start: int, most: int) -> tuple[list[Version], int]:
        """Returns some held versions of a file, the newest first, and how many there are."""
        with self._lock:
            core = self._begin()
            total = core.look(core.library.elephant_versions, path.decode(), path, len(path), *self._tag(at))
            return [self._version(core, total - 1 - index) for index in range(min(start, total), min(start + most, total))], total

    def version_numbered(self, path: bytes, at: Optional[int], number: int) -> Optional[Version]:
        """Returns a held version of a file, or None."""
        with self._lock:
            core = self._begin()
            total = core.look(core.library.elephant_versions, path.decode(), path, len(path), *self._tag(at))
            place = _first(total, lambda index: self._version(core, index).number >= number)
            found = self._version(core, place) if place < total else None
            return found if found is not None and found.number == number else None

    @staticmethod
    def _version(core: Core, index: int) -> Version:
        row = core.row(core.library.elephant_row_version, VersionRow, "", index)
        return Version(row.number, Moment(row.opened), Moment(row.closed), moment_or_none(row.ended), row.length)

    def deleted_page(self, directory: int, start: int, most: int) -> tuple[list[Deleted], int]:
        """Returns some deleted names of a directory that can be brought back, and how many there are."""
        with self._lock:
            core = self._begin()
            total = core.look(core.library.elephant_restorable, "")

            def directory_of(index: int) -> int:
                return int(core.row(core.library.elephant_row_name, NameRow, "", index).directory)

            first = _first(total, lambda index: directory_of(index) >= directory)
            end = _first(total, lambda index: directory_of(index) > directory)
            found = []
            for index in range(min(first + start, end), min(first + start + most, end)):
                row = core.row(core.library.elephant_row_name, NameRow, "", index)
                spelled = core.row_name(index)
                ended = self.notes.ends.get((directory, spelled))
                found.append(Deleted(name_of(spelled), spelled, bool(row.is_directory), row.id, ended))
            return found, end - first

    # What a policy would do.

    @contextmanager
    def as_if(self, path: bytes, policy: Policy) -> Iterator[None]:
        """Gives a file a policy while the body runs, for questions. The journal has nothing of it, and no other thread sees it."""
        with self._lock:
            core = self._begin()
            was_ahead = core.is_ahead
            row = core.stat(path.decode(), path)
            words = [it.word.encode("ascii") for it in (policy, core.policy_of(row))]
            core.do(core.library.elephant_policy, path.decode(), path, len(path), words[0], len(words[0]))
            try:
                yield
            finally:
                code = core.library.elephant_policy(core.handle, path, len(path), words[1], len(words[1]))
                core.is_ahead = was_ahead
                if code:
                    self._fail("a policy that was only tried could not be taken back")


class Opened(LookedAt):
    """The store of a journal that this program writes. `sync` makes sure that the disk has a change."""

    def __init__(self, journal: str, *, limits: Optional[Limits] = None, history: bool = False, clock: Clock = "system") -> None:
        self.notes = Notes()
        super().__init__(journal, limits=limits, history=history, clock=clock, fsync="sync")

    def _replay_in(self, core: Core) -> Replay:
        self.notes = Notes()
        return _NotingReplay(core, self.notes) if self._memory is None else _NotingGuardedReplay(core, self.notes, self._memory)

    def _keep(self, *lines: bytes) -> None:
        super()._keep(*lines)
        if self._core is not None:
            for line in lines:
                self.notes.note_end(self._core, line)
            self.notes.note(self._core, lines)


class Follower(LookedAt):
    """The store of a journal that another program writes: it reads on where it was, and writes nothing."""

    is_followed = True

    def __init__(self, journal: str, *, limits: Optional[Limits] = None, history: bool = False) -> None:
        self.notes = Notes()
        super().__init__(journal, limits=limits, history=history, read_only=True)

    def _replay(self, core: Core, journal: Journal) -> Core:
        self.notes = Notes()
        self._replayed = _NotingReplay(core, self.notes)
        for change in journal.changes():
            run_change(self._replayed, change, journal)
        self._now = core.now()
        return core

    def follow(self) -> None:
        """Takes in the changes that were appended since. If the journal was made anew, it begins anew."""
        with self._lock:
            journal, core = self._journal, self._core
            if journal is None or core is None:
                return
            try:
                found = os.stat(journal.path)
            except OSError:
                return  # it isn't at its place: what was there is shown
            if (found.st_ino, found.st_dev) != journal.identity or found.st_size < journal.size:
                return self._begin_anew()
            if found.st_size > journal.size:
                try:
                    self._read_on(core, journal)
                except JournalDamaged:
                    self._begin_anew()

    def _read_on(self, core: Core, journal: Journal) -> None:
        for change in journal.changes():
            run_change(self._replayed, change, journal)
            self._now = core.now()

    def _begin_anew(self) -> None:
        assert self._journal is not None and self._core is not None
        old, before, notes, replayed = self._core, self._journal, self.notes, self._replayed
        journal, core = Journal(before.path, False, 0.0, True), self._new_core()
        try:
            self._core = self._replay(core, journal)
        except (ElephantError, JournalError):
            journal.close()
            self.notes, self._replayed = notes, replayed
            raise
        self.notes.revision += notes.revision + 1
        self._journal = journal
        old.free()
        before.close()


def _first(total: int, is_there: Callable[[int], bool]) -> int:
    """Returns the first of so many indexes from which on something is true, or the count."""
    low, high = 0, total
    while low < high:
        middle = (low + high) // 2
        if is_there(middle):
            high = middle
        else:
            low = middle + 1
    return low
