"""What a mount syncs: after an fsync of a file or of a folder its journal is on the disk. No kill of a process shows that.

tools/mount runs this, since it needs pyfuse3. It needs no library: the journal is an empty file.
"""

from __future__ import annotations

import asyncio
import os
import tempfile
import threading
import types
import unittest
from typing import Any
from unittest import mock

try:
    import pyfuse3
except ImportError:
    raise unittest.SkipTest("there is no pyfuse3 for this Python") from None

from elephant import JournalError
from elephant._disk import Disk
from elephant.mount.operations import Operations
from elephant.mount.store import MountStore
from elephant.mount.tree import File
from elephant.mount.who import Who


class Syncs(unittest.TestCase):
    """The requests of the kernel over a store whose journal is a file of this test's own."""

    def setUp(self) -> None:
        room = tempfile.TemporaryDirectory()
        self.addCleanup(room.cleanup)
        self.calls: list[str] = []
        self.store = store = MountStore.__new__(MountStore)
        self.disk = disk = Disk(os.path.join(room.name, "journal"), False, 0.0)
        self.addCleanup(disk.close)
        vars(disk).update(require_ours=lambda: self.calls.append("check"), has_unsynced=True)
        vars(store).update(_lock=threading.RLock(), _disk=disk, _is_sync_lost=False, _is_broken=False, stopped="", is_lost=False)
        vars(store).update(who=Who())
        self.operations = operations = Operations.__new__(Operations)
        save = mock.Mock(side_effect=lambda _: self.calls.append("save"))
        node = File.__new__(File)
        vars(operations).update(
            store=store, lock=threading.RLock(), log=mock.Mock(), contents=types.SimpleNamespace(save=save), by_ino={1: node},
        )

    def asked(self, request: Any, *words: Any) -> list[str]:
        """Returns what a request does, in order: it saves a file's draft, looks at the journal, syncs the journal."""
        self.calls.clear()

        def sync(file: int) -> None:
            self.assertEqual(file, self.disk.file)
            self.calls.append("sync")

        with mock.patch("os.fdatasync", sync):
            asyncio.run(request(*words))
        return list(self.calls)

    def test_a_file(self) -> None:
        for only_data in (False, True):
            self.disk.has_unsynced = True
            self.assertEqual(self.asked(self.operations.fsync, 3, only_data), ["save", "check", "sync"])
            self.assertFalse(self.store.unsynced)

    def test_a_folder(self) -> None:
        for only_data in (False, True):
            self.disk.has_unsynced = True
            self.assertEqual(self.asked(self.operations.fsyncdir, 9, only_data), ["check", "sync"])

    def test_beside_other_calls(self) -> None:
        """The sync that runs beside other calls syncs the same file by another descriptor."""
        found = []
        with mock.patch("os.fdatasync", lambda file: found.append(os.path.sameopenfile(file, self.disk.file))):
            self.store.sync_journal_aside()
        self.assertEqual(found, [True])

    def test_a_sync_that_fails_is_told(self) -> None:
        """The disk may have dropped data, and reports it once: the request fails, and each later one too."""
        for fails in (OSError(5, "a fault"), None):
            with mock.patch("os.fdatasync", side_effect=fails), self.assertRaises((pyfuse3.FUSEError, JournalError)):
                asyncio.run(self.operations.fsync(3, False))


if __name__ == "__main__":
    unittest.main()
