"""Makes the journal of a mount anew when that is worth it and nobody changes anything: with what is held alone, and with fresh numbers."""

from __future__ import annotations

import time
from collections.abc import Callable

from .. import ElephantError
from .log import Log
from .operations import Operations

# How many looks one after the other may find that something was changed, before it is done all the same.
MOST_LOOKS = 60


class Tidying:
    """Makes the journal anew. Requests wait meanwhile. Not `is_by_itself`: only if somebody asks for it."""

    def __init__(self, operations: Operations, log: Log, is_by_itself: bool = True) -> None:
        self.operations, self.store, self.log, self._is_by_itself = operations, operations.store, log, is_by_itself
        self.then: list[Callable[[], None]] = []
        """What else is told that the store has got fresh numbers."""
        self._seen, self._looks, self._is_stopped = -1, 0, False

    def stop(self) -> None:
        """Stops, for good."""
        self._is_stopped = True

    def begin(self) -> None:
        """Makes the journal anew after it was opened, before the folder is mounted, if that is worth it."""
        if self._is_by_itself and self._is_worth():
            self._run(False)

    def run_if_worth(self) -> None:
        """Does so at a quiet moment. Call it every few seconds."""
        with self.operations.lock:
            if self._is_stopped or not self._is_by_itself or not self._is_worth():
                self._looks = 0
                return
            self._looks += 1
            is_quiet, self._seen = self.store.changes == self._seen, self.store.changes
            if is_quiet or self._looks >= MOST_LOOKS:
                self._looks = 0
                self._run(False)

    def run_and_tell(self) -> str:
        """Makes the journal anew because somebody asked for it, so that it has nothing of what was removed. Returns a text with the old
        and the new length."""
        with self.operations.lock:
            before = self.store.journal_size
            fault = self.store.stopped or self._run(True)
        return f"elephant-mount: {fault}\n" if fault else f"ok journal {before} {self.store.journal_size}\n"

    def _is_worth(self) -> bool:
        return not self.store.is_read_only and not self.store.stopped and self.store.wants_tidying

    def _run(self, is_asked: bool) -> str:
        """Makes the journal anew, and tells the log. Returns why it couldn't, or an empty text."""
        before, counts, begun, fault = self.store.journal_size, self.store.counts(), time.monotonic(), ""
        try:
            if is_asked:
                self.store.compact()
            else:
                self.store.tidy()
        except (ElephantError, OSError, MemoryError) as lack:
            fault = str(getattr(lack, "subject", "") or lack or "there is no memory")
            self.log.say(f"the journal isn't made anew: {fault}")
        if self.store.numbers is not None:
            self._renumber()
            self.log.say(f"the store has fresh numbers, since it had made {counts.files} files and {counts.versions} versions: "
                         f"now it has {self.store.counts().files} and {self.store.counts().versions}")
        elif not fault:
            took = f"in {time.monotonic() - begun:.1f} seconds"
            self.log.say(f"the journal was made anew {took}: {before} bytes before, {self.store.journal_size} now")
        return fault

    def _renumber(self) -> None:
        """Gives all that has numbers the fresh ones."""
        numbers, self.store.numbers = self.store.numbers, None
        assert numbers is not None
        self.operations.renumber(numbers)
        for tell in self.then:
            tell()
