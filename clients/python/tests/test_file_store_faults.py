"""A store in a file while calls of the system fail, the process is killed at each of them, or the disk is full: what was committed is
there, and nothing by halves.

A change saves the same number in two files. tools/library/c_file does the same to C, and takes the power away.
"""

from __future__ import annotations

import errno
import os
import resource
import signal
import subprocess
import unittest
from collections.abc import Callable
from functools import partial
from pathlib import Path
from typing import Any, Optional
from unittest import mock

from elephant import FileStore, JournalError, KeepOne, Limits, NoEntry
from test_file_store import InFolder

CALLS = ("open", "close", "pwrite", "pread", "fdatasync", "fsync", "ftruncate", "rename", "unlink", "stat", "fstat", "fchmod")
# Kinds of faults that are no numbers of errors.
HALF, KILL, KILL_WITHIN = 0, 1000, 1001
FOR_GOOD = 1_000_000
KINDS = ((1, errno.EIO), (1, errno.ENOSPC), (2, errno.EIO), (FOR_GOOD, errno.EIO), (FOR_GOOD, errno.ENOSPC), (1, HALF))
# How many changes a run makes before and after it opens the file anew, and after how many it compacts.
CHANGES, COMPACTION = (5, 4), 3
# Its last changes come near these: each makes two versions, and the first one four.
LIMITS = Limits(versions=20)
LENGTHS = (40, 8, 700, 3000, 100, 20_000)


class Calls:
    """The module `os`, in which so many calls from one on do otherwise."""

    def __init__(self, first: int = 0, many: int = 1, kind: int = errno.EIO) -> None:
        self.made: list[str] = []
        """The names of the calls that were made."""
        self._chosen, self._kind = range(first, first + many), kind

    def __getattr__(self, name: str) -> Any:
        real = getattr(os, name)
        return partial(self._call, name, real) if name in CALLS else real

    def _call(self, name: str, real: Callable[..., Any], *words: Any) -> Any:
        self.made.append(name)
        if len(self.made) not in self._chosen:
            return real(*words)
        if self._kind == KILL:
            os.kill(os.getpid(), signal.SIGKILL)
        if self._kind in (HALF, KILL_WITHIN):
            return self._half(name, real, *words)
        if name == "close":
            real(*words)  # the system closes a file even if it says that it couldn't write it
        raise OSError(self._kind, os.strerror(self._kind))

    def _half(self, name: str, real: Callable[..., Any], *words: Any) -> Any:
        if name == "pwrite":
            file, data, place = words
            words = file, data[:max(len(data) // 2, 1)], place
        if name == "pread":
            file, length, place = words
            words = file, max(length // 2, 1), place
        try:
            return real(*words)
        finally:
            if self._kind == KILL_WITHIN:
                os.kill(os.getpid(), signal.SIGKILL)


def content_of(number: int, of: int) -> bytes:
    """Returns the content of a change for one of its files: the number, and then bytes that follow from it. Every third has zeros."""
    length = LENGTHS[(number + of) % len(LENGTHS)]
    return b"%d " % number + (bytes(length) if number % 3 == 0 else bytes((number * 31 + at) % 251 for at in range(length)))


def number_in(store: FileStore) -> int:
    """Returns the number of the last change. Raises ValueError if a file has another content than one of that number."""
    found = set()
    for of, path in enumerate(("/one", "/two")):
        try:
            content = store.read(path)
        except NoEntry:
            found.add(0)
            continue
        number = int(content.partition(b" ")[0])
        if content != content_of(number, of):
            raise ValueError(f"{path} has by halves {number}")
        found.add(number)
    if len(found) != 1:
        raise ValueError(f"the files have the numbers {found}")
    return found.pop()


def change(store: FileStore, number: int) -> None:
    store.set_default("/", KeepOne())
    for of, path in enumerate(("/one", "/two")):
        store.save(path, content_of(number, of))
    store.tick(1)
    store.pass_()


class Progress:
    """What a run has tried, and which of its changes were committed."""

    def __init__(self, told: Optional[int] = None) -> None:
        self.tried = self.committed = 0
        self._told = told

    def tries(self, number: int) -> None:
        self.tried = number
        self._tell(b"try %d\n" % number)

    def has(self, number: int) -> None:
        self.committed = number
        self._tell(b"has %d\n" % number)

    def _tell(self, line: bytes) -> None:
        if self._told is not None:
            os.write(self._told, line)

    def read(self, told: bytes) -> None:
        """Reads what another process told."""
        for line in told.splitlines():
            word, number = line.split()
            if word == b"try":
                self.tried = int(number)
            else:
                self.committed = int(number)


def is_kept(store: FileStore) -> bool:
    """Commits, if need be again, and at last by a new file."""
    for call in (store.commit, store.commit, store.compact, store.compact):
        try:
            call()
            return True
        except JournalError:
            pass
    return False


def work(path: Path, progress: Progress) -> None:
    """Makes changes in a file, which is opened anew midway. Every other change that isn't committed at once is rolled back."""
    for changes in CHANGES:
        with FileStore(path, clock="manual", guard=False, limits=LIMITS) as store:
            number = number_in(store)
            progress.tries(number)
            progress.has(number)
            for number in range(number + 1, number + changes + 1):
                change(store, number)
                progress.tries(number)
                try:
                    store.commit()
                except JournalError:
                    if number % 2 and rolled_back(store, progress.committed):
                        change(store, number)
                    if not is_kept(store):
                        return
                progress.has(number)
                if number % COMPACTION == 0:
                    is_compacted(store)


def rolled_back(store: FileStore, number: int) -> bool:
    try:
        store.rollback()
    except JournalError:
        return False
    if number_in(store) != number:
        raise ValueError(f"the rollback finds {number_in(store)} and not {number}")
    return True


def is_compacted(store: FileStore) -> bool:
    try:
        store.compact()
    except JournalError:
        return is_kept(store)
    return True


class Faults(InFolder):
    is_alone = True

    def calls_of_a_run(self) -> list[str]:
        """Returns the names of the calls that a run makes if none fails."""
        with mock.patch("elephant._disk.os", Calls()) as calls:
            work(self.path, Progress())
        self.path.unlink()
        return list(calls.made)

    def want(self, progress: Progress, *about: object) -> None:
        """The file has what was committed or the change that was tried after it, goes on, and is found again."""
        with FileStore(self.path, clock="manual", guard=False) as store:
            number = number_in(store)
            self.assertTrue(progress.committed <= number <= progress.tried, (number, vars(progress), about))
            change(store, number + 1)
            store.commit()
        with FileStore(self.path, clock="manual", guard=False) as store:
            self.assertEqual(number_in(store), number + 1, about)
        for left in self.folder.iterdir():
            left.unlink()

    def test_each_call_that_fails_loses_nothing(self) -> None:
        calls = self.calls_of_a_run()
        # Each change is one write, and a new file is made at the beginning, at each compaction and at the renewal.
        self.assertEqual((calls.count("rename"), calls.count("pwrite") > sum(CHANGES)), (1 + sum(CHANGES) // COMPACTION + 1, True))
        for first in range(1, len(calls) + 1):
            for at, (many, kind) in enumerate(KINDS):
                if at and (first + at) % 4:
                    continue  # each call fails by an error, and in a part of the other ways
                progress = Progress()
                with mock.patch("elephant._disk.os", Calls(first, many, kind)):
                    try:
                        work(self.path, progress)
                    except JournalError:
                        pass  # it couldn't be opened, or closed
                if kind == HALF:
                    self.assertEqual(progress.committed, progress.tried, (first, kind))
                self.want(progress, first, many, kind)

    def test_a_kill_at_each_call_loses_nothing(self) -> None:
        for first, name in enumerate(self.calls_of_a_run(), 1):
            for kind in (KILL, KILL_WITHIN) if name == "pwrite" else (KILL,):
                progress = Progress()
                progress.read(self.killed(first, kind))
                self.want(progress, first, kind)

    def killed(self, first: int, kind: int) -> bytes:
        """Runs in a process that is killed at a call, and returns what it told."""
        told, tell = os.pipe()
        child = os.fork()
        if not child:
            try:
                with mock.patch("elephant._disk.os", Calls(first, 1, kind)):
                    work(self.path, Progress(tell))
            finally:
                os._exit(1)
        os.close(tell)
        with os.fdopen(told, "rb") as file:
            found = file.read()
        self.assertEqual(os.waitpid(child, 0)[1], signal.SIGKILL, (first, kind))
        return found

    def test_after_a_failed_sync_only_a_new_file_helps(self) -> None:
        store = self.open()
        store.save("/f", b"one")
        fails = mock.patch("os.fdatasync", side_effect=OSError(errno.EIO, "broken"))
        with fails as syncs:
            self.assertRaises(JournalError, store.commit)
            self.assertEqual(syncs.call_count, 1)
        for refused in (store.commit, store.sync, store.tidy):
            self.assertRaises(JournalError, refused)
        store.compact()
        store.save("/f", b"two")
        store.commit()
        store.close()
        self.assertEqual(self.open().read("/f"), b"two")

    def test_a_sync_when_asked_isnt_tried_again(self) -> None:
        store = self.open(fsync="sync")
        store.save("/f", b"one")
        with mock.patch("os.fdatasync") as syncs:
            store.commit()
            self.assertEqual(syncs.call_count, 1)  # of the space ahead
            store.save("/f", b"two")
            store.commit()
            self.assertEqual(syncs.call_count, 1)
            syncs.side_effect = OSError(errno.EIO, "broken")
            self.assertRaises(JournalError, store.sync)
            syncs.side_effect = None
            self.assertRaises(JournalError, store.sync)
            self.assertRaises(JournalError, store.commit)
            store.close()
            self.assertEqual(syncs.call_count, 2)
        with self.open(fsync="sync") as store, mock.patch("os.fdatasync") as syncs:
            store.save("/f", b"three")
            store.commit()
            syncs.reset_mock()
            store.close()
            self.assertEqual(syncs.call_count, 1)

    def test_a_folder_that_cant_be_synced_is_told(self) -> None:
        store = self.open()
        store.save("/f", b"one")
        with mock.patch("os.fsync", side_effect=[None, OSError(errno.EIO, "broken")]):
            self.assertRaises(JournalError, store.compact)
        self.assertEqual(store.info.compactions, 1)
        self.assertRaises(JournalError, store.commit)
        self.assertEqual(self.open(read_only=True).read("/f"), b"one")
        store.compact()
        store.save("/f", b"two")
        store.commit()
        self.assertEqual(self.open(read_only=True).read("/f"), b"two")

    def test_a_file_that_cant_be_made_is_no_file(self) -> None:
        for call in ("os.pwrite", "os.fsync", "os.rename"):
            with mock.patch(call, side_effect=OSError(errno.ENOSPC, "full")):
                self.assertRaises(JournalError, self.open)
            self.assertEqual(list(self.folder.iterdir()), [])

    def test_a_damaged_end_that_cant_be_copied_stays(self) -> None:
        ends, data = self.written(), bytearray(self.path.read_bytes())
        data[ends[1] + 20] ^= 1
        self.path.write_bytes(data)
        for call in ("os.pwrite", "os.fsync"):
            with mock.patch(call, side_effect=OSError(errno.ENOSPC, "full")):
                self.assertRaises(JournalError, self.open, repair=True)
            self.assertEqual(([it.name for it in self.folder.iterdir()], self.path.read_bytes()), (["store.journal"], data))

    def test_a_renewal_that_fails_is_told_and_tried_again(self) -> None:
        store = self.open(limits=Limits(versions=20))
        with mock.patch("os.rename", side_effect=OSError(errno.ENOSPC, "full")), self.assertLogs("elephant", "WARNING") as log:
            for number in range(17):
                self.saved(store, b"%d" % number)
        self.assertEqual((store.renewed, type(store.info.tidied), len(log.output)), (0, JournalError, 1))
        self.assertEqual(store.read("/f"), b"16")
        self.saved(store, b"17")
        self.assertEqual((store.renewed, store.info.tidied, store.counts().versions, store.read("/f")), (1, None, 1, b"17"))


class Interruptions(InFolder):
    """An exception that isn't the store's ends a call midway, as Ctrl-C."""

    is_alone = True

    def interrupted(self, where: str, call: Callable[[], object]) -> None:
        with mock.patch(where, side_effect=KeyboardInterrupt):
            self.assertRaises(KeyboardInterrupt, call)

    def test_the_next_commit_has_all_of_it(self) -> None:
        calls = ("os.pwrite", "os.fdatasync", "os.stat", "elephant._core.Core.settle", "elephant._disk.Disk.append")
        for where in calls:
            store = self.open()
            self.saved(store, b"one")
            store.save("/f", b"two")
            self.interrupted(where, store.commit)
            store.save("/f", b"three")
            store.commit()
            self.assertEqual(store.info.length, store.info.start, where)
            store.save("/f", b"four")
            store.commit()
            self.assertGreater(store.info.length, store.info.start)
            store.close()
            with self.open() as store:
                self.assertEqual((store.read("/f"), store.recovered.cut), (b"four", 0), where)
            self.path.unlink()

    def test_a_rollback_has_none_of_it_or_all(self) -> None:
        for where, wanted in (("os.pwrite", b"one"), ("os.fdatasync", b"one"), ("elephant._core.Core.settle", b"two")):
            store = self.open()
            self.saved(store, b"one")
            store.save("/f", b"two")
            self.interrupted(where, store.commit)
            store.rollback()
            self.assertEqual(store.read("/f"), wanted)
            store.save("/f", b"x")
            store.commit()
            store.close()
            with self.open() as store:
                self.assertEqual(store.read("/f"), b"x")
            self.path.unlink()

    def test_a_new_file_that_is_given_up_leaves_the_old_one(self) -> None:
        for where in ("os.pwrite", "os.fsync", "os.rename"):
            store = self.open()
            self.saved(store, b"one")
            store.save("/f", b"two")
            for call in (store.compact, store.renew):
                self.interrupted(where, call)
                self.assertEqual([it.name for it in self.folder.iterdir()], ["store.journal"])
                self.assertEqual(self.open(read_only=True).read("/f"), b"one")
            store.commit()
            self.assertEqual((self.open(read_only=True).read("/f"), store.renewed), (b"two", 0))
            store.close()
            self.path.unlink()

    def test_fresh_numbers_that_the_store_didnt_get_are_none(self) -> None:
        store = self.open()
        self.saved(store, b"one")
        self.interrupted("elephant._file_store.FileStore._take", store.renew)
        self.assertEqual(store.save("/f", b"two"), 3)
        store.commit()
        store.close()
        with self.open() as store:
            self.assertEqual((store.read("/f"), store.save("/f", b"three")), (b"two", 4))


class FullDisks(InFolder):
    def limit(self, most: int) -> None:
        resource.setrlimit(resource.RLIMIT_FSIZE, (most, resource.getrlimit(resource.RLIMIT_FSIZE)[1]))

    def test_a_full_disk_leaves_the_file_as_before(self) -> None:
        """The limit of a file's length stands for the disk: a write gets as far as it goes, and the rest fails."""
        self.addCleanup(self.limit, resource.getrlimit(resource.RLIMIT_FSIZE)[0])
        store = self.open()
        self.saved(store, b"one")
        length = store.info.length
        store.close()
        store = self.open()
        content = os.urandom(2000)
        for more in range(0, 40, 13):
            self.limit(length + more)
            store.save("/f", content)
            for call in (store.commit, store.compact):
                with self.assertRaises(JournalError) as caught:
                    call()
                assert isinstance(caught.exception.__cause__, OSError)
                self.assertEqual((caught.exception.__cause__.errno, self.path.stat().st_size), (errno.EFBIG, length))
            self.assertEqual((self.open(read_only=True).read("/f"), store.read("/f")), (b"one", content))
        # There is space for the change, and none ahead.
        self.limit(length + 20_000)
        store.commit()
        self.assertEqual((self.open(read_only=True).read("/f"), self.path.stat().st_size), (content, store.info.length))
        self.limit(resource.getrlimit(resource.RLIMIT_FSIZE)[1])
        self.saved(store, b"two")
        store.close()
        self.assertEqual(self.open().read("/f"), b"two")

    def test_a_disk_that_fills_up(self) -> None:
        """A disk of its own in memory. Only root may mount one."""
        disk = self.folder / "disk"
        disk.mkdir()
        mounted = ["mount", "-t", "tmpfs", "-o", "size=512k", "tmpfs", str(disk)]
        if os.geteuid() or subprocess.run(mounted, stderr=subprocess.DEVNULL, check=False).returncode:
            self.skipTest("no disk can be mounted here")
        self.addCleanup(lambda: subprocess.run(["umount", "-l", disk], check=True))
        self.path = disk / "store.journal"
        store = self.open(tidy=False)
        committed = 0
        with self.assertRaises(JournalError) as caught:
            for number in range(1, 1000):
                store.save("/f", b"%d " % number * 2000)
                store.commit()
                committed = number
        assert isinstance(caught.exception.__cause__, OSError)
        self.assertEqual((caught.exception.__cause__.errno, committed > 20), (errno.ENOSPC, True))
        self.assertRaises(JournalError, store.commit)
        self.assertEqual(self.open(read_only=True).read("/f"), b"%d " % committed * 2000)
        # A compaction takes space beside the old file, so there is none for it, either.
        self.assertRaises(JournalError, store.compact)
        self.assertEqual([it.name for it in disk.iterdir()], ["store.journal"])
        # Without the last change it goes on, as far as there is space.
        store.rollback()
        store.save("/f", b"short")
        store.commit()
        store.close()
        with self.open(read_only=True) as store:
            self.assertEqual((store.read("/f"), store.read("/f", version=committed + 1)), (b"short", b"%d " % committed * 2000))


class FullDisksAlone(FullDisks):
    is_alone = True


if __name__ == "__main__":
    unittest.main()
