"""What a journal syncs and in which order, which file it locks, and that stores are freed."""

from __future__ import annotations

import fcntl
import os
import unittest
from collections.abc import Callable
from pathlib import Path
from typing import Any
from unittest import mock

from elephant import JournalLocked, Store
from test_journal import QUICK
from test_journal_faults import WithJournal


class Syncs(WithJournal):
    """What is synced, and in which order: a kill shows none of it."""

    def watched(self) -> list[tuple[str, str]]:
        """Returns a list that gets the calls that write, cut and sync, each with the name of its file."""
        calls: list[tuple[str, str]] = []
        for name in ("write", "ftruncate", "fsync", "fdatasync"):
            real = getattr(os, name)

            def call(file: int, *words: Any, name: str = name, real: Callable[..., Any] = real) -> Any:
                calls.append((name, os.path.basename(os.readlink(f"/proc/self/fd/{file}"))))
                return real(file, *words)

            patch = mock.patch(f"os.{name}", call)
            patch.start()
            self.addCleanup(patch.stop)
        return calls

    def test_a_new_journal_and_its_folder(self) -> None:
        calls = self.watched()
        with self.open(fsync="always") as store:
            made = [it for it in calls]
            del calls[:]
            store.save("/f", b"one")
            self.assertEqual(calls, [("write", "journal"), ("fdatasync", "journal")])
            del calls[:]
        self.assertEqual(made[:3], [("write", "journal"), ("fsync", "journal"), ("fsync", self.folder.name)])
        self.assertEqual(calls, [("fdatasync", "journal")])
        del calls[:]
        with self.open(fsync="sync") as store:
            self.assertEqual(calls, [])
            store.save("/f", b"two")
            self.assertEqual(calls, [("write", "journal")])
            store.sync()
            self.assertEqual(calls, [("write", "journal"), ("fdatasync", "journal")])

    def test_a_torn_end_is_cut_and_synced(self) -> None:
        self.open().close()
        with open(self.path, "ab") as file:
            file.write(b"00000000 = cre")
        calls = self.watched()
        with self.open():
            self.assertEqual(calls, [("ftruncate", "journal"), ("fsync", "journal")])

    def test_a_copy_is_synced_before_the_journal_is_cut(self) -> None:
        self.open().close()
        with open(self.path, "ab") as file:
            file.write(bytes(100))
        calls = self.watched()
        with self.open(repair=True):
            copy = "journal.damaged-1"
            self.assertEqual(calls, [
                ("write", copy), ("fsync", copy), ("fsync", self.folder.name), ("ftruncate", "journal"), ("fsync", "journal"),
            ])

    def test_a_journal_that_is_replaced_before_the_lock(self) -> None:
        """Its last owner made it anew, so the file that was opened is read by nobody any more: the new one is opened and locked."""
        for name, content in (("journal", b"old"), ("new", b"new")):
            with Store(journal=self.folder / name, **QUICK) as store:
                store.save("/f", content)
        real, times = fcntl.flock, list[int]()

        def lock(file: int, kind: int) -> None:
            times.append(kind)
            if len(times) == 1:
                (self.folder / "new").rename(self.path)
            return real(file, kind)

        with mock.patch("fcntl.flock", lock), self.open() as store:
            self.assertEqual((len(times), store.read("/f")), (2, b"new"))
            self.assertRaises(JournalLocked, self.open)
            store.save("/f", b"newer")
        with self.open() as store:
            self.assertEqual(store.read("/f"), b"newer")

    def test_a_journal_that_is_deleted_before_the_lock(self) -> None:
        with self.open() as store:
            store.save("/f", b"old")
        real, times = fcntl.flock, list[int]()

        def lock(file: int, kind: int) -> None:
            times.append(kind)
            if len(times) == 1:
                self.path.unlink()
            return real(file, kind)

        with mock.patch("fcntl.flock", lock), self.open() as store:
            self.assertEqual(store.list(), [])
            store.save("/f", b"kept")
        with self.open() as store:
            self.assertEqual(store.read("/f"), b"kept")

    def test_stores_are_freed(self) -> None:
        """Ten times a store that fills 20 MB takes the memory of a few."""
        def used() -> int:
            return int(Path("/proc/self/statm").read_text().split()[1]) * os.sysconf("SC_PAGESIZE")

        def fill_one() -> None:
            with Store(clock="manual") as store:
                for at in range(20):
                    store.save(f"/{at}", os.urandom(1 << 20))

        fill_one()
        before = used()
        for _ in range(10):
            fill_one()
        self.assertLess(used() - before, 100_000_000)


if __name__ == "__main__":
    unittest.main()
