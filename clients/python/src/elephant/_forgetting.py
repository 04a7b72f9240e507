"""What removes versions, and the guard that stands before it in a store whose time follows the time of day."""

from __future__ import annotations

from collections.abc import Collection, Sequence
from ctypes import byref, c_uint64
from typing import NamedTuple, Optional, SupportsIndex

from ._answers import Pass, Removable, Waiting
from ._core import Core, natural
from ._errors import ElephantError, MassRemoval, RemovalWaits, Stop, error_of
from ._guard import Announced, Decision, Gaps, Guard, VersionName, named
from ._moments import LAST_MOMENT, NEVER, Moment
from ._replay import Replay
from ._saves import Saves
from ._times import told_time
from ._turns import Opening


class _Departed(NamedTuple):
    """A file one of whose names ended: its version then, and whether it is known that it has no other name."""

    version: int
    is_nameless: bool


class _Memory:
    """What a guarded store remembers: what was announced, and which files lost a name. `knows_past`: also before it was opened."""

    def __init__(self, knows_past: bool) -> None:
        self.knows_past = knows_past
        self.announced, self.found = Announced(), Announced(b"found")
        self.departed: dict[int, _Departed] = {}
        """By the number of the file. It lacks files whose last version nobody would miss."""
        self.gaps = Gaps()

    def note_end(self, core: Core, path: bytes) -> None:
        """Notes that a name is about to end. Nobody misses an empty version, one that lived for less than a second, and one of which the
        policy keeps none."""
        try:
            row = core.stat(path, path)
            if not row.is_directory and row.length and row.policy and row.closed < core.now():
                self.departed[int(row.id)] = _Departed(int(row.version), False)
        except ElephantError:
            pass  # the removal itself is refused

    def note_return(self, core: Core, path: bytes) -> None:
        """Notes that a name was restored."""
        try:
            row = core.stat(path, path)
            if not row.is_directory:
                self.departed.pop(int(row.id), None)
        except ElephantError:
            pass  # then it is seen before a removal that it has a name


class _GuardedReplay(Replay):
    """Runs a journal, and notes what the guard has to know."""

    def __init__(self, core: Core, memory: _Memory) -> None:
        super().__init__(core)
        self._memory = memory

    def remark(self, text: bytes) -> None:
        words = text.split(b" ")
        self._memory.announced.apply(words)
        self._memory.found.apply(words)

    def command(self, line: bytes) -> int:
        word, _, rest = line.partition(b" ")
        if word == b"unlink":
            self._memory.note_end(self.core, rest)
        code = super().command(line)
        if word in (b"undelete", b"restore") and not code:
            self._memory.note_return(self.core, rest.partition(b" ")[0])
        if word in (b"clock", b"tick"):
            self._memory.gaps.note(self.core.now())
        return code


class _Leave(NamedTuple):
    """How many versions may be removed now, in the order of removal, and what of the `held` ones waits."""

    most: int
    waiting: Waiting = Waiting(0, None)
    is_much: bool = False
    held: int = 0


class Forgetting(Saves):
    """A store whose versions you let go."""

    def __init__(self, opening: Opening) -> None:
        knows_past = opening.checkpoint is None and not opening.in_file
        self._memory = _Memory(knows_past) if opening.is_guarded else None
        self._guard: Optional[Guard] = None
        self.waiting = Waiting(0, None)
        """What the guard kept at the last `pass_` or `clean`."""
        super().__init__(opening)
        if self._memory is not None and self._watch is not None:
            # What somebody could see last was the journal's last change.
            it = self._memory
            self._guard = Guard(it.announced, self._now, self._watch.steady, self._now, it.gaps.last_end, it.found)
            self._guard.look(max(self._watch.moment(self._now), self._now), self._watch.steady)

    def _replay_in(self, core: Core) -> Replay:
        return super()._replay_in(core) if self._memory is None else _GuardedReplay(core, self._memory)

    def _note_end(self, core: Core, path: bytes) -> None:
        if self._memory is not None:
            self._memory.note_end(core, path)

    def _note_return(self, core: Core, path: bytes) -> None:
        if self._memory is not None:
            self._memory.note_return(core, path)

    def _note_renewal(self) -> None:
        """Forgets what has the numbers of before, so that all that is due waits anew."""
        self.waiting = Waiting(0, None)
        if self._memory is not None and self._watch is not None:
            it = self._memory = _Memory(False)
            self._guard = Guard(it.announced, self._now, self._watch.steady, self._now, self._now, it.found)

    def _note_time(self) -> None:
        self._granted = 0
        if self._guard is None or self._watch is None:
            return
        self._guard.look(self._now, self._watch.steady)
        if self._watch.was_set_right:
            self._guard.miss(self._now)
            self._watch.was_set_right = False

    def clean(self) -> Optional[Removable]:
        """Removes the first version that may be removed, and returns it. None if there is none, or if it waits. Raises ClockDoubt."""
        with self._lock:
            granted, before = self._granted, self._now
            with self._change as core:
                if not granted or self._now != before or self._removal_end() is not None:
                    granted = self._leave(core).most
                if not granted:
                    return None
                since, file, number = core.clean()
                if not file:
                    return None
                self._keep(b"clean")
                self._granted = granted - 1
                return Removable(Moment(since), file, number)

    def pass_(self, budget: Optional[SupportsIndex] = None, *, confirm: bool = False) -> Pass:
        """Removes versions until none may be removed, or as many as the budget says. A Stop has in `removed` how many it removed
        before. Raises ClockDoubt.

        A store with a journal whose clock follows the time of day has a guard: `waiting` then says how many due versions it keeps, and
        until when. It raises MassRemoval, and removes nothing, if more than 100 versions became due at once that are more than a fifth of
        all. With `confirm` all that is due goes.
        """
        most = NEVER if budget is None else natural(budget, "a budget")
        with self._lock, self._change as core:
            leave = self._leave(core, confirm)
            if leave.is_much:
                raise self._mass_removal(leave)
            if leave.waiting.versions and not leave.most:
                return Pass(0, False)
            return self._run_pass(core, min(most, leave.most))

    def _run_pass(self, core: Core, most: int) -> Pass:
        removed, finished = c_uint64(), c_uint64()
        code = core.library.elephant_pass(core.handle, most, byref(removed), byref(finished))
        if removed.value:
            core.is_ahead = True
            self._keep(b"pass %d" % removed.value)
        if code:
            fault = error_of(code, "pass")
            if isinstance(fault, Stop):
                fault.removed = removed.value
            raise fault
        return Pass(removed.value, bool(finished.value))

    @staticmethod
    def _mass_removal(leave: _Leave) -> MassRemoval:
        count, until = leave.waiting
        waits = f"{count} of {leave.held} versions would go at once, and wait until {_told(until)}"
        return MassRemoval(f"{waits}; if the date is right and you want that, call pass_(confirm=True)", count, leave.held, until)

    def _require_leave(self, core: Core, words: Sequence[bytes]) -> None:
        """Raises RemovalWaits or MassRemoval if a line would remove a version that waits."""
        if self._guard is None:
            return
        leave = self._leave(core)
        asked = 1 if words == [b"clean"] else int(words[1]) if len(words) == 2 and words[1].isdigit() else 0
        count, until = leave.waiting
        if count and asked > leave.most:
            if leave.is_much:
                raise self._mass_removal(leave)
            told = f"{count} due versions wait, the first until {_told(until)}; pass_(confirm=True) removes them"
            raise RemovalWaits(told, count, leave.held, until)

    # What may be removed.

    def _leave(self, core: Core, confirm: bool = False) -> _Leave:
        """Returns what may be removed: if the store's time is ahead of the time of day, only what both make due, and of that what the guard
        lets go. Raises ClockDoubt."""
        leave = self._asked(core, confirm)
        self.waiting = leave.waiting
        return leave

    def _asked(self, core: Core, confirm: bool) -> _Leave:
        end = self._removal_end()
        if end is None and (confirm or self._guard is None):
            return _Leave(NEVER)
        found = [Removable(Moment(since), file, number) for since, file, number in core.keys(core.look(core.library.elephant_due, ""))]
        due = [key for key in found if end is None or key.since <= end]
        if confirm or self._guard is None:
            return _Leave(len(due))
        held = sum(it.versions for it in self.usage())
        decision = self._decide(self._guard, self._now if end is None else end, due, held)
        count = next((at for at, key in enumerate(due) if named(key) in decision.waits), len(due))
        if count == len(due):
            return _Leave(NEVER if count == len(found) else count)
        until = Moment(min(decision.waits[named(due[count])], LAST_MOMENT))
        return _Leave(count, Waiting(len(due) - count, until), decision.is_much, held)

    def _decide(self, guard: Guard, now: int, due: Sequence[Removable], held: int) -> Decision:
        """Asks the guard, and puts what it announces into the journal."""
        assert self._watch is not None and self._memory is not None
        guard.look(self._now, self._watch.steady)
        decision = guard.decide(now, due, held, self._last_ones(due))
        names, remarks = {named(key) for key in due}, list[bytes]()
        for told, keys in (self._memory.announced, decision.announce), (self._memory.found, decision.found):
            remarks += told.drop(told.since.keys() - names) + told.add(now, [named(key) for key in keys])
        if remarks:
            self._keep(*remarks)
        return decision

    def _last_ones(self, due: Sequence[Removable]) -> Collection[VersionName]:
        """Returns the last versions of deleted files among these."""
        assert self._memory is not None
        departed = self._memory.departed
        if not self._memory.knows_past:
            # It isn't known which version was a deleted file's last one.
            deleted = {it.number for it in self.restorable() if not it.is_directory} - departed.keys()
            departed.update((file, _Departed(0, False)) for file in deleted)
            self._memory.knows_past = True
        lost = {key.file for key in due if key.file in departed}
        if not all(departed[file].is_nameless for file in lost):
            named_now = {it.number for it in self.walk() if not it.is_directory}
            for file in lost:
                if file in named_now:
                    del departed[file]
                else:
                    departed[file] = departed[file]._replace(is_nameless=True)
        return {named(key) for key in due if key.file in departed and key.number >= departed[key.file].version}


def _told(moment: Optional[Moment]) -> str:
    return told_time(int(moment or 0))
