"""A store for a program that decides itself what one change is, and goes on after a write that failed: the mounted folder.

A `FileStore` is asked to commit, and what was refused midway stays done. With a `KeepingStore`, which is one, you

- make one change of many commands, with remarks: `changing`, `together` and `keep`. What is refused midway is taken back;
- reserve space on the disk before you answer somebody: `reserve`;
- go on after a failed write: the store keeps the changes in memory, `stopped` says why, and `retry` writes them;
- keep something of your own in the file, by remarks, which are notes of it: override `remarks`, which says all of it again in each new
  file, `note_remark`, `note_event` and `note_front`, which get what an opening reads, and `adopt` for fresh numbers;
- open journals of lines too, which older versions made: override `new_replay`. The file is rewritten then;
- decide what is removed and when: a `KeepingStore` has no guard of its own. `Guard` is the one of the mount. It is tidied by `tidy` alone;
- ask for rows often: `stat_row`, `content`, `names_in` and `first_due` take spelled paths, and make no object of a row.

The store calls what is there to be overridden with its lock held. The other names are those of the package that such a program needs.
"""

from __future__ import annotations

import errno
import os
from collections.abc import Callable, Iterator, Sequence
from contextlib import contextmanager, suppress
from typing import NamedTuple, Optional

from ._answers import Limits
from ._asked_often import AskedOften
from ._clock import span
from ._core import Core
from ._disk import sync_data
from ._errors import ElephantError, JournalError, JournalLost, NoMemory
from ._events import Event, FileRow, Front, NameRow
from ._guard import DAY, MANY, Announced, Gaps, Guard, VersionName, is_much, named
from ._kept_file import Numbers
from ._library import AT, NOW, VERSION
from ._lives import Lives
from ._names import HIDDEN, MOST_NAME, MOST_NAMES, Path, is_shown, name_of, require_shown
from ._notes import is_remark, notes_of
from ._replay import Replay
from ._space import FULL, NoSpace
from ._times import told_time
from ._turns import Clock
from ._version import about

__all__ = [
    "AT", "DAY", "FULL", "HIDDEN", "MANY", "MOST_NAME", "MOST_NAMES", "NOW", "VERSION", "Announced", "Clock", "Core", "Event", "FileRow",
    "Front", "Gaps", "Guard", "KeepingStore", "Lines", "Lives", "NameRow", "NoSpace", "Numbers", "Opposite", "Path", "Replay",
    "VersionName", "about", "is_much", "is_remark", "is_shown", "name_of", "named", "require_shown", "span", "told_time",
]

# The most bytes of a change in the file, without contents.
MOST_CHANGE = 16_384
Lines = list[bytes]
"""What a change does: of each command the line of the script language, without a content, and its remarks, which begin with `# `."""


class Opposite(NamedTuple):
    """What takes a command back. `handle` and `path` are those of a draft that the command has opened or filled."""

    run: Callable[[Core, Lines], None]
    handle: int = 0
    path: bytes = b""


class KeepingStore(AskedOften):
    """A store in a file. After a failed write, reads go on, and changes when `retry` has written what was answered."""

    broken_hint = "Open the store again"
    """What `stopped` says to do if the store may have a part of a change."""
    lost_hint = "Nothing more is kept"
    """What `stopped` says if the journal was cut, or isn't at its place."""
    trust_hint = "call trust_clock()"
    """What a ClockDoubt says to do if the time of day is right."""

    def __init__(
        self, journal: str, limits: Optional[Limits] = None, read_only: bool = False, clock: Clock = "system", at: Optional[str] = None
    ) -> None:
        self.stopped = ""
        """Why the journal can't be written, if it can't."""
        self.is_lost = False
        """Whether the journal isn't at its place any more, or was cut: no change is kept in it."""
        self.pending = 0
        """How many bytes of the journal what was answered will take that isn't in it yet."""
        self.changes = 0
        """A count that goes up when a change begins: until then, a row stays as it was."""
        self.opposites: list[Opposite] = []
        """What takes back the commands of the change that is being made, in the order of the commands."""
        self.has_taken_back = False
        """Whether a change that failed was taken back, so that names may lead to other versions."""
        self._trust_hint = self.trust_hint
        self._is_sync_lost, self._is_broken = False, False
        self._unkept: list[Sequence[bytes]] = []
        self._untold: list[bytes] = []
        """The notes that the core lacks."""
        self._told: list[bytes] = []
        """The notes that the core has, and the file lacks."""
        self._unfinished: list[Opposite] = []
        """What of a failed change has to be taken back before anything is written: there was no memory for it."""
        self._gathered: Optional[Lines] = None
        self._process = os.getpid()
        super().__init__(journal, limits, read_only, clock, at)

    # What a program overrides.

    def note_change(self, now: int, lines: Sequence[bytes]) -> None:
        """Notices a change that the store has made, before the file gets it; `now` is the store's moment."""

    def preface(self, now: int) -> Sequence[bytes]:
        """Returns notes that stand before the next change; `now` is the store's moment."""
        return ()

    def note_written(self, lines: Sequence[bytes]) -> None:
        """Notices a change that the file has got at last: `retry` wrote it."""

    # Changes.

    def _begin_change(self) -> Core:
        self._refuse_changes()
        try:
            self._disk.require_ours()
        except JournalError as fault:
            self._stop(fault)
            raise
        self.changes += 1
        core = super()._begin_change()
        self._untold += self.preface(self._now)
        self._tell(core)
        return core

    def _take(self, core: Core) -> None:
        self.changes += 1
        super()._take(core)

    def _tell(self, core: Core) -> None:
        """Gives the core the notes that it lacks."""
        while self._untold:
            core.do(core.library.elephant_note, "a note", self._untold[0], len(self._untold[0]))
            self._told.append(self._untold.pop(0))
            core.is_ahead = False

    def compact(self) -> None:
        with self._lock:
            super().compact()
            self._untold[:0] = self._told
            self._told.clear()

    def keep(self, *remarks: bytes) -> None:
        """Adds remarks without a command. A remark begins with `# `."""
        with self._lock:
            self._begin_change()
            self._keep(*remarks)

    @contextmanager
    def together(self) -> Iterator[None]:
        """Makes one change of the file of all changes within: a kill leaves all of it, or nothing. So does an exception, as far as
        the store lets what was done be taken back."""
        with self._lock:
            outer, self._gathered, start = self._gathered, [], len(self.opposites)
            try:
                yield
            except Exception:
                self._take_back(self._begin(), self._gathered, start)
                # What the remarks say isn't so any more.
                self._gathered[:] = [it for it in self._gathered if not is_remark(it)]
                raise
            finally:
                lines, self._gathered = self._gathered, outer
                if outer is None:
                    self.opposites.clear()
                if lines:
                    self._keep(*lines)

    @contextmanager
    def changing(self) -> Iterator[tuple[Core, Lines]]:
        """Yields the core, and a list for the lines of what you do with it, which become one change of the file.

        Add to `opposites` what takes each command back. If a command is refused or memory runs out, what was done before is taken back.
        """
        with self._lock, self._change as core:
            lines: Lines = []
            start = len(self.opposites)
            try:
                yield core, lines
            except (ElephantError, MemoryError) as fault:
                self._take_back(core, lines, start)
                self._note_kept()
                if lines:
                    self._keep(*lines)
                if isinstance(fault, ElephantError):
                    raise
                raise NoMemory("a change") from fault
            finally:
                if self._gathered is None:
                    self.opposites.clear()
            self._keep(*lines)

    def _take_back(self, core: Core, lines: Lines, start: int) -> None:
        """Runs the opposites of what was done since, the last one first. If one is refused, nothing is written until it isn't."""
        opposites = self.opposites[start:]
        del self.opposites[start:]
        self.has_taken_back = self.has_taken_back or bool(opposites)
        self.changes += 1
        self._unfinished += opposites
        with suppress(ElephantError, MemoryError):
            self._finish(core, lines)

    def _finish(self, core: Core, lines: Lines) -> None:
        while self._unfinished:
            self._unfinished[-1].run(core, lines)
            del self._unfinished[-1]

    def _keep(self, *lines: bytes) -> None:
        self._note_kept()
        if self._gathered is not None:
            self._gathered += lines
            return
        self.note_change(self._now, lines)
        for line in lines:
            if is_remark(line):
                self._untold += notes_of(line)
        if self._unkept or self._is_broken:
            self._unkept.append(lines)
            raise JournalError(self.stopped)
        try:
            self._write_out()
        except (ElephantError, MemoryError) as fault:
            self._unkept.append(lines)
            self._stop(fault)
            raise JournalError(self.stopped) from fault

    def _write_out(self) -> None:
        """Puts all that was done into the file."""
        if self._unfinished:
            raise NoMemory("what was refused midway")
        if self._is_unsure:
            self.compact()
        self._tell(self._changeable())
        self.commit()
        self._told.clear()

    # After a failed write.

    def _stop(self, fault: Exception) -> None:
        """Notes why the file can't be written."""
        if isinstance(fault, JournalLost):
            self.is_lost = True
            self.stopped = f"{fault.subject}. {self.lost_hint}"
        elif self._disk.is_stuck:
            self._lose_sync(fault)
        elif not self.stopped:
            lacks = isinstance(fault, (NoMemory, MemoryError))
            self.stopped = f"{self.journal_path} can't be written: {os.strerror(errno.ENOMEM)}" if lacks else fault_text(fault)

    def break_off(self, reason: str) -> None:
        """Stops all changes for good, since the store may have a part of one. Reads go on."""
        self._fail(reason)

    def _fail(self, reason: str, kind: type[JournalError] = JournalError, is_ahead: bool = True) -> None:
        if self._core is None or os.getpid() != self._process:
            return super()._fail(reason, kind, is_ahead)
        self._is_broken = True
        self.stopped = self.stopped or f"{reason}: the last change may be lost. {self.broken_hint}"

    def retry(self) -> bool:
        """Writes the changes that the file lacks, if that works again. Returns whether it now lacks none."""
        with self._lock:
            if self.is_read_only or self._is_sync_lost or self._is_broken or self.is_lost:
                return False
            try:
                self._finish(self._changeable(), [])
                self._write_out()
                while self._unkept:
                    self.note_written(self._unkept.pop(0))
                self.reserve()
            except (ElephantError, NoSpace, MemoryError) as fault:
                if isinstance(fault, JournalLost) or self._disk.is_stuck:
                    self._stop(fault)
                return False
            self.stopped = ""
            return True

    def close(self) -> None:
        """Closes the store and the file. Raises JournalLost if the file isn't at its place, or was cut: then it lacks what was done."""
        with self._lock:
            if self.is_closed or self.is_read_only or self._failure is not None:
                return super().close()
            try:
                self._disk.require_ours()
            finally:
                super().close()

    # The disk.

    def reserve(self, content: int = 0) -> None:
        """Makes sure that the disk has space for what is pending, a content of so many bytes, and a change. Raises NoSpace."""
        self._disk.reserve(self.pending + content + content // 200 + MOST_CHANGE)

    def disk(self) -> os.statvfs_result:
        """Returns how full the file's disk is."""
        return os.statvfs(self.journal_path)

    @property
    def unsynced(self) -> bool:
        """Whether the file has changes that weren't synced to the disk."""
        return self._disk.has_unsynced

    def sync_journal(self) -> None:
        """Syncs the file to the disk."""
        with self._lock:
            if self._is_sync_lost or self._is_broken:
                raise JournalError(self.stopped)
            try:
                self._disk.require_ours()
                self._disk.sync()
            except JournalError as fault:
                if isinstance(fault, JournalLost) or self._disk.is_stuck:
                    self._stop(fault)
                    raise type(fault)(self.stopped) from fault
                raise

    def sync_journal_aside(self) -> None:
        """Does the same without the lock: other calls go on meanwhile."""
        with self._lock:
            file, lack = self._disk.begin_sync(), None
        try:
            sync_data(file)
        except OSError as fault:
            lack = fault
        with self._lock:
            try:
                self._disk.end_sync(file, lack)
            except JournalError as fault:
                self._lose_sync(fault)
                raise JournalError(self.stopped) from fault

    def _lose_sync(self, fault: Exception) -> None:
        """Notes that the disk has failed: it may have dropped data, and reports it once. No later sync repairs that."""
        self._is_sync_lost = True
        self.stopped = f"{fault_text(fault)}, so the last changes may not be on its disk"


def fault_text(fault: Exception) -> str:
    """Returns what an error says, without its kind."""
    return str(getattr(fault, "subject", "") or fault)
