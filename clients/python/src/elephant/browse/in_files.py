"""Stores in files to look at, as a mounted folder's: which moments and ends of names their pages show."""

from __future__ import annotations

import os
import time
from contextlib import suppress

from .. import ElephantError, FileStore, JournalError
from .._core import Core
from .._disk import Disk
from .._events import CHECKPOINT_AT, Event, changes_between, front_of, moment_in
from .._journal import HEADER
from .._notes import Gatherer
from .._turns import Clock
from .looking import LookedAt, Notes

# How long after a change a file may get another one without another time, in nanoseconds.
_TICK = 50_000_000


class _LookedAtFile(LookedAt, FileStore):
    """A store in a file, as that of a mount, which a page shows."""

    def _look_at(self, data: bytes, start: int, end: int) -> None:
        self.notes = Notes()
        self.notes.note_event(Event(b"clock", (moment_in(data, CHECKPOINT_AT),)))
        gatherer = Gatherer()
        for change in changes_between(data, start, end):
            for event in change:
                self.notes.note_event(event)
                self.notes.note_remark((gatherer.remark(event.values[0]) if event.word == b"note" else None) or b"")

    def _read_file(self) -> Core:
        core = super()._read_file()
        self.notes.note_front(front_of(core))
        return core


class OpenedFile(_LookedAtFile):
    """A store in a file that this program writes. It is never compacted here, since the file may have notes of a mount."""

    def __init__(self, journal: str, *, history: bool = False, clock: Clock = "system") -> None:
        self.notes = Notes()
        super().__init__(journal, history=history, clock=clock, fsync="sync", tidy=False)

    def _keep(self, *lines: bytes) -> None:
        super()._keep(*lines)
        try:
            self.commit()
        except JournalError:
            # What is refused isn't done.
            with suppress(ElephantError):
                self.rollback()
            raise
        if self._core is not None:
            for line in lines:
                self.notes.note_end(self._core, line)
            self.notes.note(self._core, lines)


class FileFollower(_LookedAtFile):
    """A store in a file that another program writes: it reads the file again if that was changed, and writes nothing."""

    is_followed = True

    def __init__(self, journal: str, *, history: bool = False) -> None:
        self.notes = Notes()
        self._seen: tuple[int, ...] = ()
        super().__init__(journal, history=history, read_only=True, tidy=False)

    def _read_file(self) -> Core:
        self._seen = _state_of(self._disk.path)
        return super()._read_file()

    def follow(self) -> None:
        """Takes in what was changed since, by an opening of the file."""
        with self._lock:
            try:
                is_changed = _state_of(self._disk.path) != self._seen
            except OSError:
                return  # it isn't at its place: what was there is shown
            if is_changed and self._core is not None:
                self._begin_anew()

    def _begin_anew(self) -> None:
        before, notes = self._disk, self.notes
        self._disk = Disk(before.path, False, 0.0, True)
        try:
            self._put(self._read_file())
        except (ElephantError, OSError):
            self._disk.leave()
            self._disk, self.notes = before, notes
            raise
        self.notes.revision = notes.revision + 1
        before.leave()


def _state_of(path: str) -> tuple[int, ...]:
    """Returns what is another value as soon as a file is another one, or has other bytes. A time that has just passed says nothing."""
    found = os.stat(path)
    return found.st_ino, found.st_dev, found.st_size, found.st_mtime_ns, time.time_ns() if time.time_ns() < found.st_mtime_ns + _TICK else 0


def is_of_lines(journal: str) -> bool:
    """Whether a journal is one of lines, or has nothing yet."""
    with open(journal, "rb") as file:
        return HEADER.startswith(file.read(len(HEADER)))
