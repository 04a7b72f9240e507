"""The work of a mount without a request: it has due versions removed, syncs and tidies its journal, and closes long sessions."""

from __future__ import annotations

import threading
import time
import traceback
from collections.abc import Callable

from .. import ElephantError
from ..keeping import NoSpace
from .cleaning import Cleaner
from .control import Changes
from .log import Log
from .operations import Operations
from .tidying import Tidying
from .tree import File

SYNC_EVERY, RETRY_EVERY, TIDY_EVERY, LOOK_EVERY, FORETELL_EVERY = 5.0, 2.0, 5.0, 1.0, 3600.0
Task = tuple[float, Callable[[], object]]


class Keeper:
    """Two threads beside the one that answers requests. One syncs the answered changes to the disk; the work of the other may take long.

    `clean_every` is in seconds, `every` in minutes; 0 is never. `is_guarded`: much isn't removed at once.
    """

    def __init__(
        self, operations: Operations, tidying: Tidying, log: Log, changed: Callable[[Changes], None], clean_every: float, every: float,
        is_guarded: bool = False,
    ) -> None:
        self._changed = changed
        self.operations, self.store, self.log = operations, operations.store, log
        self.tidying = tidying
        self._clean_every, self._every = clean_every, every * 60
        self.cleaner = Cleaner(operations, log, is_guarded)
        self._stopping = self.cleaner.stopping
        tidying.then.append(self.cleaner.renumber)
        prompt = [(SYNC_EVERY, self.sync), (RETRY_EVERY, self.retry), (LOOK_EVERY, self.cleaner.look)]
        patient = [(self._clean_every, self.clean), (self._every, self.settle), (TIDY_EVERY, self.tidying.run_if_worth)]
        if clean_every:
            patient.append((FORETELL_EVERY, self.cleaner.foretell))
        self._threads = [threading.Thread(target=self._run, args=(it,), daemon=True) for it in (prompt, patient)]

    def start(self) -> None:
        for thread in self._threads:
            thread.start()

    def stop(self) -> None:
        self._stopping.set()
        self.tidying.stop()
        for thread in self._threads:
            if thread.ident is not None:
                thread.join(30)

    def _run(self, tasks: list[Task]) -> None:
        due = [time.monotonic() + every for every, _ in tasks]
        while not self._stopping.wait(0.25):
            for at, (every, task) in enumerate(tasks):
                if every and time.monotonic() >= due[at]:
                    self._guarded(task)
                    due[at] = time.monotonic() + every

    def _guarded(self, task: Callable[[], object]) -> None:
        try:
            task()
        except (ElephantError, NoSpace, OSError) as fault:
            self._say(fault)
        except Exception:
            # A fault of this program: it is tried again the next time.
            self.log.say(f"a fault: {traceback.format_exc()}")

    def _say(self, fault: Exception) -> None:
        with self.operations.lock:
            self.operations.errno_of(fault)
        if isinstance(fault, OSError):
            self.log.say_once(f"{fault.strerror or fault}")

    def clean(self) -> int:
        """Removes what is due and may go, a few versions at a time. Returns how many."""
        return self.cleaner.clean()

    def settle(self) -> None:
        """Makes versions of what long sessions have written so far."""
        with self.operations.lock:
            self.store.who.mount()
            faults = [] if self.store.stopped else self.operations.contents.settle_all()
        for _, fault in faults:
            self._say(fault)

    def sync(self) -> None:
        """Syncs the changes of the last seconds to the disk, and checks that the journal is still at its path."""
        if not self.store.has_place:
            self.log.say_once(f"{self.store.journal_path} was moved or deleted: copy your files out of the folder before you unmount it")
        if self.store.unsynced and not self.store.stopped:
            self.store.sync_journal_aside()

    def retry(self) -> None:
        """Tries to write the journal again, and reports to the kernel what was changed in spite of an error."""
        faults: list[tuple[File, Exception]] = []
        with self.operations.lock:
            if self.store.stopped and self.store.retry():
                self.operations.follow_store()
                self.log.say("the journal can be written again, and the folder too")
                # Files that were closed meanwhile.
                faults = self.operations.contents.settle_all(is_every=False)
            elif not self.store.stopped:
                # Files whose close was refused, since there was no memory.
                faults = self.operations.contents.settle_all(is_every=False)
            changes, self.operations.untold = self.operations.untold, []
        self._changed(changes)
        for _, fault in faults:
            self._say(fault)
