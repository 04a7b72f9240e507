"""A store in a file that C and Rust open too."""

from __future__ import annotations

import logging
import operator
import os
from collections.abc import Callable
from functools import partial
from typing import Optional, Union

from ._answers import Counts, FileInfo, Limits, Recovered
from ._checkpoints import Checkpoints
from ._core import Core
from ._disk import LONG, Disk
from ._errors import ElephantError, HandlesOpen, JournalError, NoMemory
from ._policies import LADDER
from ._store import Store
from ._turns import Clock, Fsync, Opening

# In tenths of a limit: the count from which on a renewal is worth a try, and the part that the renewed store must be below.
_NEARLY_ALL, _HALF, _ALL = 9, 5, 10
# More than any count.
_NEVER = 1 << 64
_LOG = logging.getLogger("elephant")
_LOG.addHandler(logging.NullHandler())


class _RenewalTime:
    """When a renewal by itself is tried: as soon as a count has reached nine tenths of its limit.

    It copies the whole store. So if it isn't worth it, or is refused, it is tried again when half of what could still be made is used up,
    and after one commit, two, four and so on.
    """

    def __init__(self, limits: Limits) -> None:
        # A renewal would drop the history, so it isn't for the limit of its events.
        self._most = limits._replace(events=0)
        self._nearly = Counts._make(-(-limit * _NEARLY_ALL // _ALL) if limit else _NEVER for limit in self._most)
        self._from = list(self._nearly)
        self._waited, self._wait = 0, 0
        self.look_from = 0
        """The length of the file from which on a count may be near at its limit: what is done takes more bytes than it makes of a kind."""

    def has_come(self, length: int, counts: Callable[[], Counts]) -> bool:
        # Of a store with the largest limits each sixth commit comes this far or further.
        if length < self.look_from:
            return False
        made = counts()
        if any(map(operator.ge, made, self._from)):
            return True
        least = min(map(operator.sub, self._nearly, made))
        self.look_from = length + max(least, 0)
        if not self._wait or least > 0:
            return False
        self._waited += 1
        return self._waited >= self._wait

    def look_anew(self) -> None:
        """Notes that the file has another length, or lacks the bytes of what was done."""
        self.look_from = 0

    def is_worth(self, counts: Counts, renewed: Counts) -> bool:
        """Whether each count that is nearly at its limit is below half of it in the renewed store."""
        rows = zip(counts, self._nearly, renewed, self._most)
        return all(made < nearly or kept * _ALL < most * _HALF for made, nearly, kept, most in rows)

    def put_off(self, counts: Counts) -> None:
        """Notes that a try has renewed nothing."""
        for at, (made, most) in enumerate(zip(counts, self._most)):
            if made >= self._from[at]:
                self._from[at] = most - (most - made) // 2 if made < most else _NEVER
        self._waited, self._wait = 0, 2 * self._wait or 1


class FileStore(Store):
    """A store in a file that C and Rust open too, as `elephant_file.h` describes it. What you do is in the file once `commit` has returned:
    each commit is one change, which the file has wholly or not at all. What wasn't committed is lost.

    `limits`, `history`, `clock`, `wait` and `guard` are as for `Store`; the limits are those of a new store, and the file keeps them. A
    history begins with the checkpoint in the file, and the events of its changes are entries. What the guard keeps waits from the opening
    on. `fsync`: with `"always"` a commit is on the disk before it returns, with `"sync"` only after a `sync` or a `close`.

    `read_only`: it takes no lock and changes no file; another process may be writing it. `repair`: a damaged end is copied into a file
    beside it and cut off. `tidy`: a commit and an opening call the method of that name.

    A session or a reader that was open at the last commit is closed by the next opening: `recovered.closed` has its path.
    """

    def __init__(
        self,
        path: Union[str, os.PathLike[str]],
        *,
        limits: Optional[Limits] = None,
        history: bool = False,
        clock: Clock = "system",
        fsync: Fsync = "always",
        wait: float = 0.0,
        read_only: bool = False,
        repair: bool = False,
        guard: bool = True,
        tidy: bool = True,
    ) -> None:
        opening = Opening(None, limits or Limits(), history, clock, fsync, wait, read_only, repair=repair, guard=guard, in_file=True)
        opening.check()
        self._compactions, self._compact_from = 0, 0
        self._tidied: Optional[ElephantError] = None
        self._is_unsure = False
        """Whether the file may have what the core takes for unwritten, or the other way round, since an exception interrupted a call."""
        self._disk = Disk(os.fspath(path), fsync == "always", wait, read_only, repair)
        try:
            # Not that of `Store`, whose arguments are others.
            Checkpoints.__init__(self, opening)
        except BaseException:
            # As it is: what isn't read may be damaged.
            self._disk.leave()
            raise
        if self._core is not None:
            self._disk.use(self._core)
        self._renewal_time = _RenewalTime(self._disk.limits)
        self._tidies = tidy and not read_only
        if self._tidies:
            self._tidy()

    def __enter__(self) -> FileStore:
        return self

    # Opening.

    def _new_core(self) -> Core:
        """Returns the core of the file, or of a new one."""
        return self._begin_file() if self._disk.is_empty else self._read_file()

    def _read_file(self) -> Core:
        core = self._disk.read(self._has_history, self._look_at)
        self._opening, self._now = self._opening._replace(limits=self._disk.limits), core.now()
        closed = () if self.is_read_only else self._close_open(core, core.checkpoint)
        self.recovered = Recovered(self._disk.cut, closed, self._disk.copy)
        return core

    def _look_at(self, data: bytes, start: int, end: int) -> None:
        """Notices the bytes of a file that was read, and where its changes begin and end."""

    def _begin_file(self) -> Core:
        """Makes the file of a fresh store, whose first policy is that of a new journal."""
        try:
            core = super()._new_core()
            self._set_first_policy(core)
            self._disk.begin(core.text_of(core.library.elephant_journal_begin), self._opening.limits)
        except BaseException:
            self._disk.unmake()
            raise
        return core

    @staticmethod
    def _set_first_policy(core: Core) -> None:
        word = LADDER.word.encode("ascii")
        core.do(core.library.elephant_default, "/", b"/", 1, word, len(word))

    @property
    def info(self) -> FileInfo:
        """What is known of the file."""
        with self._lock:
            disk = self._disk
            return FileInfo(disk.length, disk.start, self._compactions, self._tidied, disk.is_new)

    # Changes of the file.

    def _changeable(self) -> Core:
        """Returns the core. Raises the error of a store that can't be changed."""
        self._refuse_changes()
        assert self._core is not None
        return self._core

    def _change_file(self, write: Callable[[], None], then: Callable[[], None]) -> None:
        """Changes the file, and then the core, which has to know it. If an exception interrupts that, as Ctrl-C, the next commit writes a
        new file. After an error of the file both are as before."""
        was_unsure, self._is_unsure = self._is_unsure, True
        try:
            write()
        except ElephantError:
            self._is_unsure = was_unsure
            raise
        then()
        self._is_unsure = False

    def commit(self) -> None:
        """Appends what was done since the last commit as one change, and waits for the disk if `fsync` is `"always"`. Then it calls `tidy`,
        unless the store was opened without.

        If it fails, the file is as before and the store has what was done: commit again when there is space, or roll back. Raises
        JournalError if the file can't be written, also after a failed sync until `compact`, and JournalLost if another program changed it.
        """
        with self._lock:
            core = self._changeable()
            self._disk.require_sync()
            if self._is_unsure:
                self.compact()
                return
            length = self._disk.length
            if not self._append_at_once(core):
                text = core.text_of(core.library.elephant_journal_pending)
                if text:
                    self._change_file(partial(self._disk.append, text), core.settle)
            if self._tidies and self._disk.length != length:
                self._tidy()

    def _append_at_once(self, core: Core) -> bool:
        """Does the ordinary commit by one call of C, as `_change_file` does it by several. Returns False if it is another one, or if there
        is no such call."""
        self._is_unsure = True
        try:
            code = self._disk.append_at_once(core)
        except ElephantError:
            self._is_unsure = False
            raise
        if code:
            core.refuse(code, "the file")
        self._is_unsure = False
        return code is not None

    def sync(self) -> None:
        """Waits until all commits are on the disk. After a failure call `compact`, which writes everything anew."""
        if self.is_read_only:
            return
        with self._lock:
            self._changeable()
            self._disk.sync()

    def rollback(self) -> None:
        """Makes the store what it was at the last commit, by reading the file. If it fails, nothing changes.

        Raises HandlesOpen while a session or a reader is open. One that was open at the last commit is closed, as by the next opening.
        """
        with self._lock:
            if self._open_numbers(self._changeable()):
                raise HandlesOpen("close the sessions and readers first")
            core = self._disk.read_again(self._has_history)
            try:
                self._close_open(core, core.checkpoint)
            except BaseException:
                core.free()
                raise
            self._take(core)
            self._set_clock(core, 0)
            self._is_unsure = False

    def compact(self) -> None:
        """Writes the store as it is now into a new file, and puts it in the place of the old one. It commits too. If it fails, the old file
        is as before. It takes as long as to write all that is held."""
        with self._lock:
            core = self._changeable()
            text = core.text_of(core.library.elephant_journal_compact)
            self._change_file(partial(self._disk.replace, text), core.settle)
            self._compactions += 1
            self._renewal_time.look_anew()
            self._disk.require_sync()

    def renew(self) -> None:
        """Does the same with fresh numbers, as `Store.renew` gives them. Raises HandlesOpen while a session or a reader is open."""
        with self._lock:
            self._put_fresh(self._with_fresh_numbers(self._changeable()))

    def _with_fresh_numbers(self, core: Core) -> Core:
        """Returns a second core with the same store and fresh numbers. Raises HandlesOpen."""
        fresh = Core(self._opening.limits, self._has_history, core.checkpoint())
        try:
            fresh.do(fresh.library.elephant_renew, "the store")
        except BaseException:
            fresh.free()
            raise
        return fresh

    def _put_fresh(self, fresh: Core) -> None:
        """Puts a renewed core and its file in the place of those before."""
        try:
            text = fresh.text_of(fresh.library.elephant_journal_begin)
            self._change_file(partial(self._disk.replace, text), partial(self._take, fresh))
        except BaseException:
            if self._core is not fresh:
                fresh.free()
            raise
        self._note_fresh()

    def _note_fresh(self) -> None:
        """Notes that the numbers were made anew."""
        self._renewed += 1
        self._renewal_time = _RenewalTime(self._disk.limits)
        self._disk.require_sync()

    def _take(self, core: Core) -> None:
        """Puts a core in the place of the one before, whose handles mean nothing in it."""
        self._put(core)
        self._renewals += 1
        self._note_kept()
        self._note_renewal()

    # By itself.

    def tidy(self) -> None:
        """Does what a commit does by itself, if that is worth it. Call it when your program has time, and open the store with `tidy=False`:
        then no commit takes longer for it.

        It compacts the file when that has more than 1 MiB and twice the bytes that it was made with. It renews the numbers when a count has
        reached nine tenths of its limit and less than half of that limit is held: then `renewed` is higher than before, and the logger
        `elephant` says so. What isn't worth it takes no time. Raises the error of a compaction or a renewal that failed, as HandlesOpen;
        it is tried again later.
        """
        with self._lock:
            self._changeable()
            self._disk.require_sync()
            fault = self._tidy()
            if fault is not None:
                raise fault

    def _tidy(self) -> Optional[ElephantError]:
        """Does so, and returns the first error."""
        disk, fault, is_tried = self._disk, None, False
        # Most commits come this far and no further.
        if disk.length < self._renewal_time.look_from and disk.length <= max(LONG, 2 * disk.start):
            return None
        steps = (self._wants_renewal, self._renew_if_worth), (self._wants_compaction, self._compact_long)
        for wants, do in steps:
            if wants():
                is_tried, it = True, _fault_of(do)
                fault = fault or it
        if is_tried:
            self._tidied = fault
        if fault is not None:
            _LOG.warning("%s isn't tidied, and stays as it is: %s", disk.path, fault)
        return fault

    def _wants_renewal(self) -> bool:
        return self._core is not None and self._renewal_time.has_come(self._disk.length, self._core.counts)

    def _renew_if_worth(self) -> None:
        assert self._core is not None
        made, before = self._core.counts(), self._renewed
        try:
            fresh = self._with_fresh_numbers(self._core)
            kept = fresh.counts()
            if self._renewal_time.is_worth(made, kept):
                self._put_fresh(fresh)
                _LOG.info("%s has fresh numbers, since a count was near its limit: before %s, now %s", self._disk.path, made, kept)
            else:
                fresh.free()
        finally:
            if self._renewed == before:
                self._renewal_time.put_off(made)

    def _wants_compaction(self) -> bool:
        disk = self._disk
        return disk.is_sound and disk.length > max(LONG, 2 * disk.start) and disk.length >= self._compact_from

    def _compact_long(self) -> None:
        before = self._disk.length
        self._compact_from = before + self._disk.start + LONG
        self.compact()
        self._compact_from = 0
        _LOG.info("%s is compacted: %s bytes before, %s now", self._disk.path, before, self._disk.length)

    # Ending.

    def close(self) -> None:
        """Closes the store and the file. What wasn't committed is lost. What was committed is synced first, unless a sync has failed."""
        with self._lock:
            if self.is_closed:
                return
            try:
                if self._failure is None and not self._disk.is_stuck:
                    self._disk.sync()
            finally:
                self._release()

    def _leave_to_parent(self) -> None:
        """In a forked child: the file is the parent's."""
        if not self.is_read_only:
            self._failure, self._fault_kind, self._is_over = "this process was forked from the one that has the file", JournalError, True
            self._disk.leave_to_parent()

    def _release(self) -> None:
        super()._release()
        self._disk.close()


def _fault_of(do: Callable[[], None]) -> Optional[ElephantError]:
    """Returns the error with which a call failed, without what it was doing, or None."""
    try:
        do()
    except ElephantError as fault:
        return fault.with_traceback(None)
    except MemoryError:
        return NoMemory("to write a new file")
    return None
