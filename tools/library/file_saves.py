"""Saves numbered contents into a store in a file by the Python package, as clients/c/tests/file_saves.c does it in C.

    file_saves.py run PATH COUNT COMPACT SYNC VERSIONS

file_faults.c and file_preload.c are loaded before the C library: they count the calls of the system, and write what this tells them.
"""

from __future__ import annotations

import ctypes
import sys
from collections.abc import Callable
from functools import lru_cache
from typing import Optional

from elephant import FileStore, JournalError, KeepOne, Limits, NoEntry

LENGTHS = (40, 8, 700, 3000, 100, 20_000, 450)
PATHS = ("/one", "/two")
TRIES = 4
FAULTS = ctypes.CDLL(None)


class NotSo(Exception):
    """The store has what it must not have."""


@lru_cache(maxsize=64)
def content_of(number: int, of: int) -> bytes:
    """Returns the content of a number: its bytes, and then bytes that follow from it. Every third has long runs of zeros."""
    length, state, made = LENGTHS[(number + of) % len(LENGTHS)], number * 2654435761 + of, bytearray()
    for _ in range(length if number % 3 else 0):
        state = (state * 6364136223846793005 + 1442695040888963407) % (1 << 64)
        made.append(state >> 56)
    return number.to_bytes(8, "little") + (bytes(made) if number % 3 else bytes(length))


def number_at(store: FileStore, of: int) -> int:
    try:
        content = store.read(PATHS[of])
    except NoEntry:
        return 0
    number = int.from_bytes(content[:8], "little")
    if content != content_of(number, of):
        raise NotSo(f"{PATHS[of]} has by halves {number}")
    return number


def number_in(store: FileStore) -> int:
    found = {number_at(store, of) for of in range(len(PATHS))}
    if len(found) != 1:
        raise NotSo(f"the files have the numbers {found}")
    return found.pop()


def note(what: str, number: int) -> None:
    FAULTS.note_in_log(what.encode(), ctypes.c_ulong(number))


def say(what: str, number: int) -> None:
    note(what, number)
    print(what, number, flush=True)


def complain(what: str, error: JournalError) -> None:
    print(f"{what}: {error!r}", file=sys.stderr)


class Run:
    """A run: the store, which is opened anew midway, and the number of the last change."""

    def __init__(self, path: str, sync: int, versions: int) -> None:
        self.path, self.sync = path, sync
        self.limits = Limits(1000, 100, 100, 1000, versions, 1000, 10, 10, 10)
        self.store: Optional[FileStore] = None
        self.number = 0

    def open(self) -> bool:
        """Opens the file. Says why it can't."""
        try:
            syncs = self.sync > 1
            self.store = FileStore(self.path, clock="manual", guard=False, limits=self.limits, fsync="sync" if syncs else "always")
        except JournalError as error:
            complain(self.path, error)
            self.failed = str(error)
            return False
        return True

    def reopen(self) -> bool:
        """Closes the file and opens it again, which makes all of it durable. After a failed sync it stops, since the memory here still has
        what a disk has lost."""
        if not self.close():
            return False
        if not self.open() and ("synced" in self.failed or not self.open()):
            return False
        if number_in(self.it) != self.number:
            raise NotSo(f"{number_in(self.it)} is found and not {self.number}")
        note("has", self.number)
        return True

    def close(self) -> bool:
        """Closes the file, which asks for the disk. Returns whether that succeeded."""
        try:
            self.it.close()
        except JournalError as error:
            complain("close", error)
            return False
        return True

    @property
    def it(self) -> FileStore:
        assert self.store
        return self.store

    def change(self) -> None:
        if not self.number:
            self.it.set_default("/", KeepOne())
        self.number += 1
        for of, path in enumerate(PATHS):
            self.it.save(path, content_of(self.number, of))
        self.it.pass_()
        note("try", self.number)

    def is_kept(self, call: Callable[[], None]) -> bool:
        """Makes a call, or tries again, and at last writes a new file. Returns whether all is in the file."""
        for _ in range(TRIES):
            try:
                call()
                return True
            except JournalError as error:
                complain("commit", error)
                if "compact it" in str(error):
                    call = self.it.compact
        return False

    def is_changed(self) -> bool:
        """Makes a change and commits it. If that fails, every other one is given up, and the next one made in its place."""
        self.change()
        try:
            self.it.commit()
            return True
        except JournalError as error:
            complain("commit", error)
        if self.number % 2:
            try:
                self.it.rollback()
            except JournalError as error:
                complain("rollback", error)
            else:
                if self.number == 1:
                    self.it.set_default("/", KeepOne())
                self.change()
        return self.is_kept(self.it.commit)

    def run(self, count: int, compact: int) -> int:
        if not self.open():
            return 3
        self.number = number_in(self.it)
        say("has", self.number)
        for made in range(1, count + 1):
            if not self.is_changed():
                break
            if made == count // 2 and not self.reopen():
                return 3
            if self.sync > 1 and (made % self.sync or not self.is_kept(self.it.sync)):
                if made % self.sync:
                    continue
                break
            say("ack", self.number)
            if compact and not made % compact:
                self.is_kept(self.it.compact)
        self.close()
        print(f"{FAULTS.faults_counted()} calls", file=sys.stderr)
        return 0


def main() -> int:
    path, *numbers = sys.argv[2:]
    count, compact, sync, versions = map(int, numbers)
    return Run(path, sync, versions).run(count, compact)


if __name__ == "__main__":
    sys.exit(main())
