"""The removal of due versions in a mount: what the guard and the clock let go, a few at a time, with a line of the log for each."""

from __future__ import annotations

import threading
import time
from collections.abc import Sequence
from typing import Optional

from .. import LAST_MOMENT, Due, ElephantError, Removable
from ..keeping import AT, DAY, MANY, VERSION, Guard, VersionName, named, span
from .log import Log, local
from .names import name_in, shown
from .operations import Operations
from .past import text_of
from .store import CLOCK_IS_RIGHT, Departed

# The longest wait of other requests for removals, in seconds, and the pause of removals after it.
MOST_AT_ONCE, PAUSE = 0.003, 0.03
MOST_KEYS = 256
# How many versions that wait may be kept by handles, so that others can go before them. The store has a million handles in its life.
MOST_HELD = 500
# A list that is longer than this is made at most as often as every so many seconds.
LONG_LIST, LONG_EVERY = 10_000, 600.0
MOST_TOLD = 20
# The most bytes of a version in a remark.
REMARK_BYTES = 32


class Cleaner:
    """Removes due versions. Without a guard all of them go at once."""

    def __init__(self, operations: Operations, log: Log, is_guarded: bool) -> None:
        self.operations, self.store, self.log = operations, operations.store, log
        self.stopping = threading.Event()
        self.waits: dict[VersionName, int] = {}
        """Until when which due versions wait."""
        self.guard = self._guard() if is_guarded else None
        self._held: dict[VersionName, tuple[Removable, int]] = {}
        self._told: set[VersionName] = set()
        self._kind, self._is_told_off, self._listed_at = "", False, 0.0

    def _guard(self) -> Guard:
        now, steady = int(self.store.now), self.store.steady()
        return Guard(self.store.records.announced, now, steady, self.store.last_change or now, self.store.missed_until)

    def renumber(self) -> None:
        """Begins anew after the versions have got fresh numbers. No version may be held by a handle."""
        self.waits, self._told, self._listed_at = {}, set(), 0.0
        self.guard = None if self.guard is None else self._guard()

    # What the log says.

    def look(self) -> None:
        """Looks at the clocks, and logs what is new about them."""
        with self.operations.lock:
            (kind, fault), now = self.store.clock_state(), self.store.moment
            slept = self.guard.look(now, self.store.steady()) if self.guard else 0.0
            if self.guard and self._kind == "behind" and not kind:
                self.guard.miss(now)
            is_new, self._kind = kind != self._kind, kind
        if is_new:
            self.log.say(_of_fault(kind, fault, now) if kind else "the time of day and the steady clock agree again: removals go on")
        if slept:
            self.log.say(f"the folder's time moved on by {span(slept)} at once. {_PATIENCE}")

    def begin(self) -> None:
        """Logs how long nobody looked before this mount, and what goes within a day."""
        self.look()
        self.foretell()
        last, now = self.store.last_change, int(self.store.now)
        if self.guard and last and now - last >= DAY and not self._kind:
            off = "if this machine wasn't off so long, its date is wrong"
            self.log.say(f"the last change was {span(now - last)} ago, at {local(last)}; {off}. {_PATIENCE}")

    def foretell(self) -> None:
        """Logs what goes within a day."""
        with self.operations.lock:
            if self.store.stopped or self.store.clock_fault:
                return
            now = int(self.store.now)
            keys = [key for key in self.store.ahead(min(now + DAY, LAST_MOMENT)) if key.since > now]
            names = {named(key) for key in keys}
            fresh = [key for key in keys if named(key) not in self._told and named(key) not in self.waits]
            self._told = names
            text = self._summary(fresh)
        if fresh:
            self.log.say(f"within a day {text}; .elephant/soon lists them")

    def _summary(self, keys: Sequence[Removable]) -> str:
        """Returns how many versions these are, and of which files: first the deleted ones."""
        counts: dict[int, int] = {}
        for key in keys:
            counts[key.file] = counts.get(key.file, 0) + 1
        files = sorted(counts, key=lambda file: (file in self.operations.tree.files, file))
        told = [f"{counts[file]} of {self.name_of(file)}" for file in files[:MOST_TOLD]]
        if len(files) > MOST_TOLD:
            told.append(f"{sum(counts[it] for it in files[MOST_TOLD:])} of {len(files) - MOST_TOLD} other files")
        versions = "1 version is" if len(keys) == 1 else f"{len(keys)} versions are"
        return f"{versions} to be removed: {', '.join(told)}"

    def name_of(self, file: int) -> str:
        """Returns the path of a file, or its last one."""
        node = self.operations.tree.files.get(file)
        if node is not None:
            return shown_path(node.path)
        last = self.store.departed.get(file)
        return f"deleted {shown_path(last.path)}" if last else f"file {file}, which has no name"

    def time(self) -> str:
        """Looks at the clocks, and returns the time of day, the store's time, and whether the clocks agree."""
        self.look()
        with self.operations.lock:
            fault, now, store = self.store.clock_fault, self.store.time_of_day(), int(self.store.now)
        return f"ok {local(int(now))}, the folder's time is {local(store)}; {fault or 'the clocks agree'}\n"

    def trust_clock(self) -> str:
        """Takes the time of day for right, because a user said so."""
        with self.operations.lock:
            fault = self.store.clock_fault
            self.store.trust_clock()
        if fault:
            self.log.say(f"a user said that the time of day is right, though {fault}")
        return self.time()

    # Removing.

    def clean(self) -> int:
        """Removes what may be removed now, a few at a time. Returns how many."""
        self.look()
        with self.operations.lock:
            if self.store.stopped or not self.store.may_remove:
                return 0
            may_go = None if self.guard is None else self._decide(self.guard)
        return self._remove_all(may_go)

    def clean_all(self) -> int:
        """Removes all that is due, because a user said so. Raises ClockDoubt."""
        with self.operations.lock:
            self.store.require_clock()
            self.release_all()
            self.waits = {}
        return self._remove_all(None)

    def _remove_all(self, may_go: Optional[set[VersionName]]) -> int:
        removed, count = 0, 0 if may_go is not None and not may_go else 1
        while count and not self.stopping.is_set():
            with self.operations.lock:
                count = 0 if self.store.stopped or not self.store.may_remove else self._remove_some(may_go)
            removed += count
            time.sleep(PAUSE if count else 0)
        return removed

    def _decide(self, guard: Guard) -> set[VersionName]:
        """Asks the guard, announces what it wants announced, and returns what may go."""
        steady = self.store.steady()
        if len(self.waits) > LONG_LIST and steady < self._listed_at + LONG_EVERY:
            return set()
        self._listed_at = steady
        self.operations.readers.hold()
        now = self.store.removal_moment
        due = sorted([key for key in self.store.due() if key.since <= now] + self.held_keys)
        held = sum(it.versions for it in self.store.usage())
        found = guard.decide(now, due, held, {named(key) for key in due if self._is_last(key)})
        self._keep_announced(guard, found.announce, due, now)
        self.waits = found.waits
        self.release(found.may_go)
        self._hold_first(due, found.may_go)
        return found.may_go

    def _keep_announced(self, guard: Guard, announce: list[Removable], due: Sequence[Removable], now: int) -> None:
        """Logs what the guard announces, and puts it into the journal."""
        names = {named(key) for key in due} | {node.key[-2:] for node in self.operations.readers.nodes()}
        gone = guard.announced.since.keys() - names
        if gone or announce:
            self.store.reserve(REMARK_BYTES * (len(gone) + len(announce)))
        for remark in guard.announced.drop(gone) + guard.announced.add(now, [named(key) for key in announce]):
            self.store.keep(remark)
        if announce:
            until = local(now + DAY)
            self.log.say(f"{self._summary(announce)}; not before {until}, or at once by the line 'clean all'; .elephant/soon lists them")

    def _is_last(self, key: Removable) -> bool:
        """Whether a version is the last one of a deleted file, and not of one that was kept nowhere else for a second or empty."""
        last = self.store.departed.get(key.file)
        if last is None or key.file in self.operations.tree.files or last.version != key.number:
            return False
        return last.policy != "one" and last.length > 0 and last.closed < last.ended

    def _remove_some(self, may_go: Optional[set[VersionName]]) -> int:
        deadline, removed = time.monotonic() + MOST_AT_ONCE, 0
        self.store.who.mount()
        keys = self.store.first_due(MOST_KEYS)
        if keys and self.operations.readers.hold():
            keys = self.store.first_due(MOST_KEYS)
        for key in keys:
            if (may_go is not None and named(key) not in may_go) or key.since > self.store.removal_moment:
                break
            cause = self._cause(key)
            self.store.reserve(0)
            found = self.store.clean()
            if found is None:
                break
            if found != key:
                cause = self._cause(found)
            self.store.records.announced.since.pop(named(found), None)
            if found.file not in self.operations.tree.files:
                self.store.forget_names()
            self.log.say(f"removed {cause}")
            removed += 1
            if time.monotonic() > deadline:
                break
        return removed

    # Versions that wait, kept by handles, since the store removes in the order in which versions became due.

    def _hold_first(self, due: Sequence[Removable], may_go: set[VersionName]) -> None:
        """Opens handles for versions that wait, if many others may go that became due after them."""
        first = [key for key in due if named(key) not in may_go and named(key) not in self._held]
        if not first or len(first) + len(self._held) > MOST_HELD:
            return
        self.store.who.mount()
        if sum(named(key) in may_go for key in due if key > first[0]) > MANY:
            for key in first:
                self._hold(key)

    def _hold(self, key: Removable) -> None:
        node, last = self.operations.tree.files.get(key.file), self.store.departed.get(key.file)
        try:
            if node is not None:
                handle = self.store.drafts.open_reader(node.path, VERSION, key.number)
            elif last is None or not last.closed < last.ended:
                return
            else:
                row = self.store.stat_row(last.path, AT, last.ended - 1)
                if (row.id, row.version) != named(key):
                    return
                handle = self.store.drafts.open_reader(last.path, AT, last.ended - 1)
        except (ElephantError, OSError):
            return  # what became due later waits with it
        self._held[named(key)] = key, handle
        self.operations.readers.kept.add(handle)

    @property
    def held_keys(self) -> list[Removable]:
        """What waits and is kept by a handle, so that the store doesn't call it due."""
        return [key for key, _ in self._held.values()]

    def release_all(self) -> None:
        self.release(set(self._held))

    def release(self, names: set[VersionName]) -> None:
        """Closes the handles of versions that needn't wait any more."""
        for name in list(self._held):
            if name in names:
                _, handle = self._held.pop(name)
                self.operations.readers.kept.discard(handle)
                self.store.drafts.close(handle)

    # Causes.

    def _cause(self, key: Removable) -> str:
        """Returns which version is removed and why, for the log."""
        node = self.operations.tree.files.get(key.file)
        if node is not None:
            fate = self.store.why(node.path, version=key.number)
            return f"version {key.number} of {shown_path(node.path)}: {_told(fate, key)}"
        last = self.store.departed.get(key.file)
        if last is None:
            return f"version {key.number} of file {key.file}, which has no name: due since {text_of(key.since)}"
        which = f"version {key.number} of file {key.file}, last {shown_path(last.path)}, which has no name"
        return f"{which}: due since {text_of(key.since)}, {_why(last)}"


_PATIENCE = "Nothing is removed for ten minutes, and what became due meanwhile may need a day; 'clean all' doesn't wait"


def _of_fault(kind: str, fault: str, now: int) -> str:
    if kind == "behind":
        return f"{fault}, {local(now)}, which can't go back: nothing is removed until then; set the clock, or see 'The clock' in MOUNT.md"
    right = f"if it is right, send the line '{CLOCK_IS_RIGHT}'"
    return f"{fault}: nothing is removed, and the folder's time doesn't follow it, until the clocks agree again; {right}"


def _why(last: Departed) -> str:
    """Returns why a version of a file without a name is due."""
    if last.policy == "one":
        return "its policy keeps only the newest"
    return f"by the age that its policy {last.policy} has" if last.policy.startswith("safe") else "a newer one closed in the same span"


def shown_path(spelling: bytes) -> str:
    return "/".join(shown(name_in(it)) if it else "" for it in spelling.split(b"/"))


def _told(fate: object, key: Removable) -> str:
    if not isinstance(fate, Due):
        return f"due since {text_of(key.since)}"
    cause = "its policy keeps only the newest"
    if fate.age is not None:
        cause = f"it ended {fate.age} seconds before"
    if fate.by is not None:
        cause = f"version {fate.by} closed in the same span at level {fate.level}"
    return f"due since {text_of(key.since)}, {cause}"
