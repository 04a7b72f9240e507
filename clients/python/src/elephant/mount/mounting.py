"""A mounted folder: its parts, and how it begins and ends."""

from __future__ import annotations

import gc
import os
import threading
from contextlib import suppress
from typing import NamedTuple, Optional

import pyfuse3

from .. import ClockDoubt, ElephantError, Limits
from ..keeping import NoSpace
from .ages import Ages
from .audit import Audit
from .contents import Contents
from .control import Changes, Control, Lines
from .disk import sync_all
from .keeper import Keeper
from .log import Log
from .loop import Loop
from .names import shown
from .naming import Naming
from .operations import Operations
from .past import text_of
from .soon import Soon
from .store import CLOCK_IS_RIGHT, READ_ONLY, MountStore
from .tidying import Tidying
from .tree import Directory, Tree


class Asked(NamedTuple):
    """What a command asks for. `older` are the journals that a mount shows the past of, beside its own. `moment` is where the time of a
    mount stands that is read only, if not at the journal's last moment."""

    folder: str
    journal: str
    limits: Limits = Limits()
    clean_every: float = 60.0
    every: float = 0.0
    is_read_only: bool = False
    older: tuple[str, ...] = ()
    is_guarded: bool = True
    moment: Optional[str] = None
    has_history: bool = False
    says_who: bool = False


class Mount:
    """A folder and its journal. Making it opens the journal; `run` mounts it, and returns when it is unmounted."""

    def __init__(self, asked: Asked) -> None:
        self.folder, self.log, self.loop = asked.folder, Log(), Loop()
        self.store = MountStore(asked.journal, asked.limits, asked.is_read_only, at=asked.moment)
        self.store.who.is_asked = asked.says_who
        self._say_recovered()
        self.tree = Tree(self.store)
        self.contents = Contents(self.store, self.tree)
        self.naming = Naming(self.store, self.tree, self.contents)
        self.past = Ages(self.store, self.tree, b"", [MountStore(it, read_only=True) for it in asked.older])
        self.operations = Operations(self.store, self.tree, self.contents, self.naming, self.past, self.log)
        self.lines = Lines(self.operations, Audit(self.store, asked.limits, asked.has_history))
        # One that only reads has a socket of its own: another mount may write the journal.
        self.control = Control(self.lines, f"{asked.journal} in {asked.folder}" if asked.is_read_only else asked.journal, self._tell_kernel)
        self.past.socket = os.fsencode(self.control.path)
        self.tidying = Tidying(self.operations, self.log, not asked.has_history)
        every = asked.clean_every, asked.every
        self.keeper = Keeper(self.operations, self.tidying, self.log, self._tell_kernel, *every, asked.is_guarded)
        self.lines.more = {
            "rewrite": self.tidying.run_and_tell, "clean all": self._clean_all, "dump": self._dump, "time": self._time,
            CLOCK_IS_RIGHT: self._trust_clock, "journal": lambda: f"ok {asked.journal}\n",
        }
        self._show_removals(asked.clean_every > 0 and not asked.is_read_only)
        self.tidying.begin()
        self._is_mounted, self._is_ending = False, False

    def _show_removals(self, has_cleaning: bool) -> None:
        soon = Soon(self.keeper.cleaner, has_cleaning)
        self.past.texts.update({"soon": soon.soon, "restorable-until": soon.until})
        self.past.notes, self.lines.soon = soon.notes, soon.answer

    def _clean_all(self) -> str:
        if self.store.is_read_only:
            return f"elephant-mount: {READ_ONLY}\n"
        try:
            return f"ok removed {self.keeper.cleaner.clean_all()}\n"
        except ClockDoubt as fault:
            return f"elephant-mount: {fault.subject}\n"

    def _dump(self) -> str:
        with self.operations.lock:
            lines = list(self.store.dump())
        return f"ok dump {len(lines)}\n" + "".join(f"{it}\n" for it in lines)

    def _time(self) -> str:
        """Answers what time it is, and whether that can be believed."""
        return self.keeper.cleaner.time()

    def _trust_clock(self) -> str:
        return f"elephant-mount: {READ_ONLY}\n" if self.store.is_read_only else self.keeper.cleaner.trust_clock()

    def _say_recovered(self) -> None:
        recovered = self.store.recovered
        if recovered.cut:
            what = "are left out" if self.store.is_read_only else "were cut off"
            self.log.say(f"the journal ended in the middle of a change: {recovered.cut} bytes {what}")
        if self.store.before:
            self.log.say(f"the journal had the form of an earlier version, and has the one of now: {self.store.before} has what it was")
        for path, version in recovered.closed:
            if version is not None:
                self.log.say(f"{path} was being written: what was synced is version {version}")

    def run(self, allows_others: bool) -> int:
        """Mounts the folder and answers the kernel until it is unmounted."""
        options = {"fsname=elephant", "subtype=elephant", "default_permissions", *["allow_other"] * allows_others}
        options |= {"ro"} if self.store.is_read_only else set()
        self.loop.install()
        _collect_rarely()
        try:
            pyfuse3.init(self.operations, self.folder, options)
        except RuntimeError as fault:
            self.log.say(f"{self.folder} can't be mounted: {fault}")
            self._close()
            return 1
        self._is_mounted = True
        self.control.start()
        if not self.store.is_read_only:
            self.keeper.cleaner.begin()
            self.keeper.start()
        kind = f"read-only, as of {text_of(int(self.store.now))}" if self.store.is_read_only else "mounted"
        self.log.say(f"{self.folder} is {kind}, with {len(self.tree.files)} files; 'fusermount3 -u {self.folder}' ends it")
        self.operations.say_ends()
        try:
            self.loop.run()
        finally:
            pyfuse3.close(unmount=True)
            is_whole = self._close()
        return 0 if is_whole else 1

    def end(self) -> None:
        """Ends `run`. Any thread and any signal handler may call it. The second call doesn't wait for the kernel."""
        if self._is_ending or not self._is_mounted:
            self.loop.stop()
        self._is_ending = True
        threading.Thread(target=self._end, daemon=True).start()

    def _end(self) -> None:
        """Asks the kernel for changes that programs made in mapped files, which would be lost after the end. The loop answers
        meanwhile."""
        with suppress(OSError):
            if os.path.ismount(self.folder):
                sync_all(self.folder)
        self.loop.stop()

    def _close(self) -> bool:
        """Makes versions of the open drafts, and closes the journal. Returns whether the journal has everything."""
        self.control.stop()
        self.keeper.stop()
        self.past.close()
        self.lines.audit.close()
        if self.store.is_read_only:
            self.store.close()
            return True
        with self.operations.lock:
            if self.store.stopped:
                self.store.retry()
            faults = [f"{shown(node.path)}: {fault}" for node, fault in self.contents.settle_all()]
            for last in (self.operations.readers.close, self.keeper.cleaner.release_all, self.store.close):
                try:
                    last()
                except (ElephantError, NoSpace, OSError) as fault:
                    faults.append(str(fault))
        for text in faults:
            self.log.say(f"the journal may lack the last changes: {text}")
        return not faults and not self.store.stopped

    def _tell_kernel(self, changes: Changes) -> None:
        """Makes the kernel drop its cache of what a line changed. Call it without the lock: the kernel may send requests meanwhile."""
        for node, name in changes:
            with suppress(OSError):  # the kernel doesn't know it
                if name is None:
                    pyfuse3.invalidate_inode(node.ino)
                elif isinstance(node, Directory):
                    pyfuse3.invalidate_entry(node.ino, name)
                    pyfuse3.invalidate_inode(node.ino, attr_only=True)


def _collect_rarely() -> None:
    """Makes Python look for cycles rarely: few objects of a mount are in one, and a look at all of them doubles the time of a request."""
    gc.collect()
    gc.freeze()
    gc.set_threshold(50_000, 50, 1000)
