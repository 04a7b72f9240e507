"""A store in a file with remarks of a program of its own, which opens journals of lines too: what a `KeepingStore` is over.

Remarks are notes of the file. A compaction and a renewal drop all notes, so each new file begins with all remarks: a checkpoint, and a
change that has them. The library says which bytes both are, so a second core is told the remarks, and takes the place of the first one.
"""

from __future__ import annotations

from collections.abc import Callable, Iterable
from contextlib import suppress
from functools import partial
from typing import NamedTuple, Optional

from ._answers import ClosedSession, Limits, Recovered
from ._core import Core
from ._errors import JournalError
from ._events import CHECKPOINT_AT, Event, Front, changes_between, front_in, front_of, moment_in
from ._file_store import FileStore
from ._journal import HEADER, Journal
from ._memory import give_back
from ._names import path_of
from ._notes import Gatherer, notes_of
from ._replay import Replay
from ._turns import Clock, run_change

BEFORE = "before"
"""What the name of a journal of lines gets that was rewritten, and a number."""


class Numbers(NamedTuple):
    """The fresh numbers of the directories and the files, by those of before. `before` is the store that has these."""

    directories: dict[int, int]
    files: dict[int, int]
    before: Core


class KeptFile(FileStore):
    """A store in a file with remarks. It is tidied by `tidy` alone, and synced by `sync`."""

    def __init__(
        self, journal: str, limits: Optional[Limits] = None, read_only: bool = False, clock: Clock = "system", at: Optional[str] = None
    ) -> None:
        if at is not None and not read_only:
            raise ValueError("at is for read_only=True; the clock of another store is moved by clock()")
        self.has_lines = False
        """Whether the file is a journal of lines, which was only read."""
        self.before = ""
        """The path of the journal of lines that the opening has rewritten, if there was one."""
        # What is due goes when the program says so: it may have a `Guard` of its own.
        super().__init__(journal, limits=limits, clock=clock, fsync="sync", read_only=read_only, guard=False, tidy=False)
        if at is not None and self._core is not None:
            moment = self._seconds(at)
            self._core.do(self._core.library.elephant_clock, at, moment)
            self._now = moment

    # What a program overrides.

    def new_replay(self, core: Core) -> Replay:
        """Returns the object that runs the changes of a journal of lines when the store is opened."""
        return Replay(core)

    def note_event(self, event: Event) -> None:
        """Notices an event of the file when the store is opened."""

    def note_remark(self, remark: bytes) -> None:
        """Notices a remark of the file, without `# `, when the store is opened."""

    def note_front(self, core: Core, front: Front) -> None:
        """Notices, at the end of the opening, which names and files the store has."""

    def remarks(self, front: Front, numbers: Optional[Numbers] = None) -> Iterable[bytes]:
        """Returns the remarks with which a new file of the store begins; `front` is that of the file. `numbers`: the fresh ones, if the
        store is about to get fresh numbers."""
        return ()

    def adopt(self, core: Core, front: Front, numbers: Numbers) -> None:
        """Notices that the store has got fresh numbers: a core that has them, and the front of its file."""

    # The file.

    @property
    def journal_path(self) -> str:
        """The path of the file, without symbolic links."""
        return self._disk.path

    @property
    def limits(self) -> Limits:
        """The limits of the store, which the file keeps."""
        return self._opening.limits

    @property
    def journal_size(self) -> int:
        """How many bytes of the file count."""
        return self._disk.length

    @property
    def journal_state(self) -> tuple[object, ...]:
        """What is another value as soon as the file has another change, or is another one."""
        return self._disk.identity, self._disk.length

    @property
    def has_place(self) -> bool:
        """Whether the file's path still names the file, and all of it."""
        with self._lock, suppress(JournalError):
            self._disk.require_ours()
            return True
        return False

    @property
    def is_idle(self) -> bool:
        """Whether no session and no reader is open."""
        with self._lock:
            return self._core is not None and not self._open_numbers(self._core)

    @property
    def wants_tidying(self) -> bool:
        """Whether `tidy` would do something."""
        with self._lock:
            return not self.is_closed and (self._wants_renewal() or self._wants_compaction())

    def _wants_renewal(self) -> bool:
        return super()._wants_renewal() and self.is_idle

    # Opening.

    def _read_file(self) -> Core:
        head = self._disk.head(len(HEADER))
        core = self._read_lines() if head and HEADER.startswith(head) else super()._read_file()
        try:
            self.note_front(core, front_of(core))
        except BaseException:
            core.free()
            raise
        give_back(self._resident)
        return core

    def _look_at(self, data: bytes, start: int, end: int) -> None:
        gatherer = Gatherer()
        self.note_event(Event(b"clock", (moment_in(data, CHECKPOINT_AT),)))
        for change in changes_between(data, start, end):
            for event in change:
                remark = gatherer.remark(event.values[0]) if event.word == b"note" else None
                if remark is not None:
                    self.note_remark(remark)
                else:
                    self.note_event(event)

    def _read_lines(self) -> Core:
        """Returns the store of a journal of lines, and rewrites the file, unless the store is read only."""
        core = Core(self._opening.limits, False)
        self._disk.limits, self._disk.is_new = self._opening.limits, False
        # This store has the lock already.
        journal = Journal(self._disk.path, False, 0.0, read_only=True)
        try:
            replay, closed = self.new_replay(core), list[ClosedSession]()
            for change in journal.changes():
                run_change(replay, change, journal)
            self.has_lines = self.is_read_only
            if not self.is_read_only:
                for handle in sorted({*replay.writers, *replay.readers}):
                    version = core.ask(core.library.elephant_close_handle, "", handle)
                    if handle in replay.writers:
                        closed.append(ClosedSession(path_of(replay.writers[handle]), version or None))
                self._rewrite_lines(core, not journal.next_place[0] > 2)
            self.recovered, self._now = Recovered(journal.cut, tuple(closed)), core.now()
        except BaseException:
            core.free()
            raise
        finally:
            journal.close()
        return core

    def _rewrite_lines(self, core: Core, is_empty: bool) -> None:
        """Puts a file of a store in the place of its journal of lines, which gets another name."""
        if is_empty:
            self._set_first_policy(core)
        texts, settle = self._with_remarks(core, core.text_of(core.library.elephant_journal_begin))
        self.before = self._disk.set_aside(BEFORE)
        self._disk.replace(*texts)
        settle()
        self._disk.require_sync()

    def end_sessions(self) -> None:
        """Makes versions of what open sessions have written, in memory: for a file that is read only, and that nobody writes."""
        with self._lock:
            core = self._begin()
            for handle in self._open_numbers(core):
                core.ask(core.library.elephant_close_handle, "", handle)

    # New files.

    def _with_remarks(self, core: Core, text: bytes, numbers: Optional[Numbers] = None) -> tuple[list[bytes], Callable[[], None]]:
        """Returns the bytes of a new file of a core, and those of a change that follows them and has all remarks; and what tells the core
        that the disk has that change."""
        for remark in self.remarks(front_in(text, CHECKPOINT_AT), numbers):
            for note in notes_of(remark):
                core.do(core.library.elephant_note, "a note", note, len(note))
        change = core.text_of(core.library.elephant_journal_pending)
        return ([text, change], core.settle) if change else ([text], _nothing)

    def compact(self) -> None:
        """Writes the store as it is now, and all remarks, into a new file, and puts it in the place of the old one. It commits too. If it
        fails, the old file is as before. It takes as long as to write and to read all that is held."""
        with self._lock:
            core = self._changeable()
            text = core.text_of(core.library.elephant_journal_compact)
            # The remarks are in no file yet, so they are told to a core of their own.
            self._put_new(Core(self._opening.limits, False, file=text), text)
            self._compactions += 1
            self._renewal_time.look_anew()
            give_back(self._resident)
            self._disk.require_sync()

    def _put_new(self, fresh: Core, text: bytes) -> None:
        """Puts a core and its file in the place of those before. All handles stay as they are."""
        try:
            texts, settle = self._with_remarks(fresh, text)
            self._change_file(partial(self._disk.replace, *texts), partial(self._swap, fresh, settle))
        except BaseException:
            if self._core is not fresh:
                fresh.free()
            raise

    def _swap(self, fresh: Core, settle: Callable[[], None]) -> None:
        self._put(fresh)
        settle()

    def _put_fresh(self, fresh: Core) -> None:
        old = self._changeable()
        try:
            text, before = fresh.text_of(fresh.library.elephant_journal_begin), front_of(old)
            after = front_in(text, CHECKPOINT_AT)
            numbers = Numbers(
                dict(zip(before.directories, after.directories)),
                {left.number: right.number for left, right in zip(before.files, after.files)}, old,
            )
            texts, settle = self._with_remarks(fresh, text, numbers)
            self._change_file(partial(self._disk.replace, *texts), partial(self._take_numbered, fresh, settle, after, numbers))
        except BaseException:
            if self._core is not fresh:
                fresh.free()
            raise
        give_back(self._resident)
        self._note_fresh()

    def _take_numbered(self, fresh: Core, settle: Callable[[], None], front: Front, numbers: Numbers) -> None:
        settle()
        self.adopt(fresh, front, numbers)
        self._take(fresh)


def _nothing() -> None:
    """Does nothing: there are no remarks."""
