"""What each call on a store begins and ends with: the lock, the clock, and the journal."""

from __future__ import annotations

import os
import threading
import weakref
from collections.abc import Callable, Iterator, Sequence
from types import TracebackType
from typing import Literal, NamedTuple, Optional, Union

from ._answers import ClosedSession, Limits, OpenHandle, Recovered
from ._audit import read_handles
from ._clock import Clocks, Watch, clocks_of_system
from ._core import Core, limits_in
from ._errors import ClockDoubt, Closed, ElephantError, HistoryFull, JournalDamaged, JournalError, JournalLost, ReadOnly
from ._journal import Journal
from ._memory import give_back, resident
from ._moments import MomentLike, seconds_of
from ._names import path_of
from ._policies import LADDER
from ._replay import Replay
from ._times import read_time

Clock = Union[Literal["system", "manual"], Clocks]
Fsync = Literal["always", "sync"]


class Opening(NamedTuple):
    """How a store is opened: the arguments of `Store`."""

    journal: Optional[str]
    limits: Limits
    history: bool
    clock: Clock
    fsync: Fsync
    wait: float
    read_only: bool = False
    at: Optional[MomentLike] = None
    repair: bool = False
    guard: bool = True
    checkpoint: Optional[bytes] = None
    in_file: bool = False

    def check(self) -> None:
        """Raises ValueError if the arguments don't fit together."""
        if (isinstance(self.clock, str) and self.clock not in ("system", "manual")) or self.fsync not in ("always", "sync"):
            raise ValueError(f"clock is 'system' or 'manual', and fsync 'always' or 'sync', not {self.clock!r} and {self.fsync!r}")
        if self.journal is None and not self.in_file and (self.read_only or self.repair):
            raise ValueError("read_only and repair are for a store with a journal: give its path")
        if self.at is not None and not self.read_only:
            raise ValueError("at is for read_only=True; the clock of another store is moved by clock()")

    @property
    def is_guarded(self) -> bool:
        """Whether a guard looks at what is to be removed: in a store of earlier times whose time follows the time of day."""
        is_of_before = self.journal is not None or self.checkpoint is not None or self.in_file
        return self.guard and is_of_before and not self.read_only and self.clock != "manual"

    def watch(self) -> Optional[Watch]:
        """Returns what watches the time of day, if the store's time follows it."""
        if self.read_only or self.clock == "manual":
            return None
        return Watch(clocks_of_system() if isinstance(self.clock, str) else self.clock)


class Change:
    """One change of the core, made with the lock held. If an exception ends it after a call of the core succeeded that the journal
    doesn't have, the store fails."""

    __slots__ = ("_turns",)

    def __init__(self, turns: Turns) -> None:
        self._turns = weakref.proxy(turns)

    def __enter__(self) -> Core:
        core: Core = self._turns._begin_change()
        return core

    def __exit__(self, kind: Optional[type[BaseException]], fault: Optional[BaseException], trace: Optional[TracebackType]) -> None:
        if kind is not None:
            self._turns._end_change(kind)


class Turns:
    """A core that many threads may call, one at a time, with a journal of its changes if there is one."""

    recovered: Recovered
    """What the opening of the journal repaired."""
    _trust_hint = "call trust_clock()"

    def __init__(self, opening: Opening) -> None:
        opening.check()
        self._lock = threading.RLock()
        self._change = Change(self)
        self._resident = resident()
        # A checkpoint is read once, and isn't kept.
        self._opening = opening._replace(checkpoint=None)
        self._watch, self._now, self._is_clock_kept = opening.watch(), 0, True
        self._has_history = opening.history
        self._failure: Optional[str] = None
        """Why the store can't be changed any more."""
        self._fault_kind: type[JournalError] = JournalError
        self._is_ahead = False
        """Whether the core may have a change that the journal lacks. Then the next question makes the core anew."""
        self._is_over = False
        """Whether questions fail too, as in a forked child."""
        self._granted = 0
        """How many versions `clean` may remove before it asks the guard again, if no time passes and nothing else is changed."""
        self._renewals = 0
        """How often its numbers were made anew, or its handles dropped by a rollback. A number of before means nothing."""
        self._renewed = 0
        """How often its numbers were made anew."""
        self._core: Optional[Core] = None
        self._journal: Optional[Journal] = None
        self.recovered = Recovered()
        core = self._new_core() if opening.checkpoint is None else self._put_back(opening.checkpoint)
        if opening.journal is not None:
            self._journal = Journal(opening.journal, opening.fsync == "always", opening.wait, opening.read_only, opening.repair)
            try:
                core = self._replay(core, self._journal)
            except BaseException:
                self._journal.close()
                raise
        self.last_change = self._now
        """The moment of the journal's last change when it was opened, or 0."""
        self._core = core
        _stores.add(self)

    @property
    def is_read_only(self) -> bool:
        """Whether the store was opened with `read_only=True`."""
        return self._opening.read_only

    # Opening a journal.

    def _new_core(self) -> Core:
        return Core(self._opening.limits, self._opening.history)

    def _put_back(self, checkpoint: bytes) -> Core:
        """Returns the core of a checkpoint, and closes the sessions and readers that were open in it."""
        core = Core(self._opening.limits, self._has_history, checkpoint)
        self._opening = self._opening._replace(limits=limits_in(checkpoint))
        self.recovered, self._now = Recovered(0, self._close_open(core, lambda: checkpoint)), core.now()
        return core

    def _close_open(self, core: Core, checkpoint: Callable[[], bytes]) -> tuple[ClosedSession, ...]:
        """Closes the sessions and readers that are open in a core, and returns the sessions that this ended. `checkpoint` returns the
        bytes of the core."""
        closed = []
        for it in self._open_in(core, checkpoint):
            version = core.ask(core.library.elephant_close_handle, f"handle {it.handle}", it.handle)
            if version or it.version is None:
                closed.append(ClosedSession(it.path or "", version or None))
        return tuple(closed)

    @staticmethod
    def _open_numbers(core: Core) -> list[int]:
        return [handle for handle in range(1, core.counts().handles + 1) if core.is_open(handle)]

    def _open_in(self, core: Core, checkpoint: Callable[[], bytes]) -> list[OpenHandle]:
        """Returns the handles that are open in a core."""
        if self._has_history:
            return read_handles(core.line(b"handles"))
        numbers = self._open_numbers(core)
        if not numbers:
            return []
        try:
            # Only a store with a history says which files they are of.
            told = Core(self._opening.limits, True, checkpoint())
        except HistoryFull:  # the limits of the checkpoint allow none
            return [OpenHandle(handle, 0, 0, None, None, None) for handle in numbers]
        try:
            return read_handles(told.line(b"handles"))
        finally:
            told.free()

    def _replay(self, core: Core, journal: Journal) -> Core:
        """Runs the journal's changes, and closes the sessions that they leave open. Returns the core that has them."""
        replay, is_new = self._replay_in(core), True
        try:
            for change in journal.changes():
                run_change(replay, change, journal)
                is_new = False
        except JournalDamaged:
            if not self._opening.repair:
                raise
            # A part of the change that can't be run may have been run.
            journal.end_here()
            core.free()
            core = self._new_core()
            replay = self._replay_in(core)
            for change in journal.again():
                run_change(replay, change, journal)
        closed: list[ClosedSession] = []
        if self.is_read_only:
            journal.close()
            if self._opening.at is not None:
                moment = self._seconds(self._opening.at)
                core.do(core.library.elephant_clock, self._opening.at, moment)
        else:
            if is_new:
                self._begin_journal(core, journal)
            closed = self._close_sessions(core, replay, journal)
        self.recovered, self._now = Recovered(journal.cut, tuple(closed), journal.copy), core.now()
        return core

    @staticmethod
    def _close_sessions(core: Core, replay: Replay, journal: Journal) -> list[ClosedSession]:
        closed, lines = [], []
        for handle in sorted({*replay.writers, *replay.readers}):
            version = core.ask(core.library.elephant_close_handle, "", handle)
            lines.append(b"close %d" % handle)
            if handle in replay.writers:
                closed.append(ClosedSession(path_of(replay.writers[handle]), version or None))
        if lines:
            journal.append(lines)
        return closed

    def _replay_in(self, core: Core) -> Replay:
        """Returns the object that runs the journal's changes."""
        return Replay(core)

    @staticmethod
    def _begin_journal(core: Core, journal: Journal) -> None:
        """Sets the policy with which a new journal begins. It is a line of the journal, so older ones keep their own."""
        word = LADDER.word.encode("ascii")
        core.do(core.library.elephant_default, "/", b"/", 1, word, len(word))
        journal.append([b"default / " + word])

    # Beginning and ending a call.

    @property
    def is_closed(self) -> bool:
        """Whether the store is closed."""
        return self._core is None

    def _begin(self) -> Core:
        """Returns the core, after it has updated the clock."""
        core = self._core
        if core is None:
            raise Closed("the store")
        if self._failure is not None:
            core = self._core_after_failure()
        if self._watch is not None:
            now = self._watch.moment(self._now)
            if now > self._now:
                self._is_clock_kept = False
                core.do(core.library.elephant_clock, now, now)
                self._now = now
                self._note_time()
        return core

    def _note_time(self) -> None:
        """Notices that the store's time has moved on with the time of day."""

    def _begin_change(self) -> Core:
        """Returns the core for a change. Raises the error of a store that can't be changed, before the core is asked."""
        self._refuse_changes()
        if self._journal is not None:
            try:
                self._journal.check()
            except JournalLost as fault:
                self._fail(fault.subject, JournalLost, is_ahead=False)
                raise
        core = self._begin()
        core.is_ahead = False
        self._granted = 0
        return core

    def _refuse_changes(self) -> None:
        """Raises the error of a store that can't be changed."""
        if self._core is None:
            raise Closed("the store")
        if self.is_read_only:
            raise ReadOnly("the store was opened with read_only=True")
        if self._failure is not None:
            raise self._fault_kind(f"{self._failure}; open the store again")

    def _end_change(self, kind: type[BaseException]) -> None:
        """Ends a change that an exception of a kind ended."""
        if not issubclass(kind, ElephantError):
            self._fail(f"a change was interrupted by {kind.__name__}")
        elif self._core is not None and self._core.is_ahead and self._failure is None:
            self._fail(f"a change was given up halfway, for {kind.__name__}")

    def _seconds(self, moment: MomentLike) -> int:
        """Returns a moment's seconds. A text is read as typed at the time of day, or at the store's moment if `clock` moves the store."""
        if isinstance(moment, str):
            is_moved = self._opening.clock == "manual" and not self.is_read_only
            return read_time(moment, self._now if is_moved else self._time_of_day()).moment
        return seconds_of(moment)

    # Whether the time of day can be believed.

    def _time_of_day(self) -> int:
        """Returns the time of day, or what the steady clock makes of it if it jumped ahead."""
        return self._watch.moment(self._now) if self._watch is not None else int(clocks_of_system().now())

    @property
    def clock_fault(self) -> str:
        """Why the time of day can't be believed, or an empty text. Until it can be, nothing is removed."""
        with self._lock:
            if self._watch is None:
                return ""
            self._watch.moment(self._now)
            return self._watch.fault(self._now)

    def trust_clock(self) -> None:
        """Takes the time of day for right, until it jumps again. The store's time never goes back: if it is ahead, it waits."""
        with self._lock:
            if self._watch is not None:
                self._watch.trust()

    @property
    def may_remove(self) -> bool:
        """Whether the time of day can be believed, or a user said that it is right."""
        with self._lock:
            if self._watch is None:
                return True
            self._watch.moment(self._now)
            return self._watch.may_remove(self._now)

    def _removal_end(self) -> Optional[int]:
        """Returns the moment up to which due versions may be removed, or None if it is the store's. Raises ClockDoubt."""
        if self._watch is None:
            return None
        if not self.may_remove:
            raise ClockDoubt(f"{self._watch.fault(self._now)}: nothing is removed; if it is right, {self._trust_hint}")
        now = int(self._watch.clocks.now())
        return None if now >= self._now else now

    # The journal.

    def _keep_clock(self, now: int) -> None:
        """Puts a move of the clock by the caller into the journal."""
        self._now, self._is_clock_kept = now, False
        self._keep()

    def _keep(self, *lines: bytes) -> None:
        """Appends a change to the journal, and before it the moment now."""
        if self._journal is not None:
            if not self._is_clock_kept:
                lines = (b"clock %d" % self._now, *lines)
            try:
                self._journal.append(lines)
            except JournalError as fault:
                self._fail(fault.subject, type(fault))
                raise
            self._is_clock_kept = True
        self._note_kept()

    def _note_kept(self) -> None:
        """Notes that no change is missing in the journal."""
        if self._core is not None:
            self._core.is_ahead = False

    def _sync_journal(self) -> None:
        if self._journal is not None:
            try:
                self._journal.sync()
            except JournalError as fault:
                self._fail(fault.subject, type(fault), is_ahead=False)
                raise

    # After a failure.

    def _fail(self, reason: str, kind: type[JournalError] = JournalError, is_ahead: bool = True) -> None:
        """Makes every later change fail. `is_ahead`: the core may differ from the journal."""
        if self._journal is not None:
            self._failure, self._fault_kind = reason, kind
            self._is_ahead = self._is_ahead or is_ahead

    def _core_after_failure(self) -> Core:
        """Returns a core that has what the journal has. Raises the error of the failure if there is none."""
        if self._is_over:
            raise self._fault_kind(f"{self._failure}; open the store again")
        if self._is_ahead:
            self._renew()
        assert self._core is not None
        return self._core

    def _renew(self) -> Core:
        """Makes the core anew from the journal, and from what open sessions wrote. Raises JournalError if that can't be done; the next
        question tries it again."""
        assert self._core is not None and self._journal is not None
        # Two stores may not fit in the memory. If there is none for the new one, there is none at all.
        self._core.free()
        try:
            core = self._new_core()
            replay = Replay(core)
            for change in self._journal.again():
                run_change(replay, change, self._journal)
            for lines in self._unjournaled():
                replay.run(list(lines))
            self._set_clock(core, self._now)
        except BaseException as fault:
            self._fail(self._failure or f"the store could not be made anew from its journal, for {type(fault).__name__}", self._fault_kind)
            if isinstance(fault, (ElephantError, OSError, MemoryError)):
                raise self._fault_kind(f"{self._failure}; open the store again") from fault
            raise
        self._core, self._is_ahead = core, False
        return core

    def _set_clock(self, core: Core, now: int) -> None:
        """Notes the moment of a new core, and moves it to the moment of the one before if the clock follows the time of day."""
        self._now, self._is_clock_kept = core.now(), True
        if self._watch is not None and now > self._now:
            core.do(core.library.elephant_clock, now, now)
            self._now, self._is_clock_kept = now, False

    def _unjournaled(self) -> Iterator[Sequence[bytes]]:
        """Yields the lines that were answered and aren't in the journal."""
        return iter(())

    def _leave_to_parent(self) -> None:
        """Leaves the journal to the process from which this one was forked."""
        if self._journal is not None and not self.is_read_only:
            self._fail("this process was forked from the one that has the journal")
            self._is_over = True
            self._journal.close()

    def _put(self, core: Core) -> None:
        """Puts a core in the place of the one before."""
        before, self._core = self._core, core
        if before is not None:
            before.free()

    def _release(self) -> None:
        """Frees the store and closes the journal."""
        core, self._core = self._core, None
        if core is not None:
            core.free()
            give_back(self._resident)
        if self._journal is not None:
            self._journal.close()


def run_change(replay: Replay, change: list[bytes], journal: Journal) -> None:
    """Runs a change of a journal. Raises JournalDamaged if it is none that a store makes."""
    line, _ = journal.next_place
    try:
        replay.run(change)
    except JournalDamaged as fault:
        raise journal.damage(line + fault.line, fault.subject) from None
    except (JournalError, MemoryError):
        raise
    except (ElephantError, ValueError, LookupError, TypeError, OverflowError) as fault:
        raise journal.damage(line, f"is no change of a store: {fault!r}") from fault


_stores: weakref.WeakSet[Turns] = weakref.WeakSet()


def _after_fork() -> None:
    """Makes a store with a journal fail in a forked child: else two processes would append to one journal."""
    for store in _stores:
        store._lock = threading.RLock()
        store._leave_to_parent()


os.register_at_fork(after_in_child=_after_fork)
