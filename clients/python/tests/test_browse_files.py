"""The page of `elephant-browse` over a store in a file, as the journal of a mounted folder is: what it shows, and what its acts change."""

from __future__ import annotations

import os
import tempfile
import time
import unittest
from pathlib import Path

import test_browse as lines
from alone import Patched
from elephant import FileStore, JournalError
from elephant.mount.store import MountStore

if lines.HAS_FLASK:
    from browsing import Served
    from elephant.browse.in_files import FileFollower, OpenedFile
    from elephant.browse.sources import ChangeRefused, JournalSource


class InFile(lines.Case):
    def setUp(self) -> None:
        room = tempfile.TemporaryDirectory()
        self.addCleanup(room.cleanup)
        self.journal = str(Path(room.name, "my.journal"))
        with FileStore(self.journal, clock="manual", fsync="sync") as store:
            self.fill(store)
            store.commit()
        self.page = Served(JournalSource(self.journal, is_manual=True, history=self.history))
        self.addCleanup(self.page.__exit__, None, None, None)
        self.store = self.page.source.store
        self.page.come_in()


class Views(InFile, lines.Views):
    """The same page as that of a journal of lines."""


class Changes(InFile):
    def test_an_act_is_in_the_file(self) -> None:
        self.assertIsInstance(self.store, OpenedFile)
        before = Path(self.journal).read_bytes()
        self.page.source.run("undelete", "/plan")
        with FileStore(self.journal, read_only=True) as look:
            self.assertEqual(look.read("/plan"), b"plan\n")
        self.assertNotEqual(Path(self.journal).read_bytes(), before)

    def test_what_the_disk_refuses_is_not_done(self) -> None:
        with Patched("os.pwrite", side_effect=OSError(28, os.strerror(28))), self.assertRaises(ChangeRefused):
            self.page.source.run("undelete", "/plan")
        self.assertEqual([it.name for it in self.store.list("/")], ["letter", "work"])
        self.page.source.run("undelete", "/plan")
        self.assertEqual([it.name for it in self.store.list("/")], ["letter", "plan", "work"])

    def test_another_programs_file_is_only_shown_and_followed(self) -> None:
        source = JournalSource(self.journal)
        self.addCleanup(source.close)
        self.assertEqual((type(source.store), source.fault), (FileFollower, "another program has the journal open"))
        with self.assertRaises(ChangeRefused):
            source.run("undelete", "/plan")
        moments, revision = list(source.store.notes.moments), source.store.notes.revision
        self.store.clock(lines.NOW + 1000)
        self.store.save("/new", b"of the other one")
        source.refresh()
        self.assertEqual((source.store.read("/new"), list(source.store.notes.moments)), (b"of the other one", [*moments, lines.NOW + 1000]))
        self.assertGreater(source.store.notes.revision, revision)
        time.sleep(0.1)
        source.refresh()
        core = source.store._core
        source.refresh()
        self.assertIs(source.store._core, core)
        os.rename(self.journal, self.journal + ".away")
        source.refresh()
        self.assertEqual(source.store.read("/new"), b"of the other one")

    def test_a_damaged_file_is_told(self) -> None:
        self.page.source.close()
        Path(self.journal).write_bytes(b"ELEPHANT JOURNAL\2 and nothing else")
        for read_only in (False, True):
            with self.assertRaises(Exception) as caught:
                JournalSource(self.journal, read_only=read_only)
            self.assertIn("has none of a store", str(caught.exception))


class OfMount(unittest.TestCase):
    """The journal of a mount, whose notes say what a new file has no events of."""

    def test_the_moments_and_ends_of_one_that_was_made_anew(self) -> None:
        with tempfile.TemporaryDirectory() as room:
            journal = os.path.join(room, "journal")
            store = MountStore(journal, clock="manual")
            for moment, line in ((100, "create /a"), (200, "save /a 61"), (300, "unlink /a"), (400, "mkdir /d")):
                store.clock(moment)
                self.assertRegex(store.line(line), "^ok ")
            store.compact()
            store.clock(500)
            store.line("create /d/b")
            found = FileFollower(journal)
            self.assertEqual(list(found.notes.moments), [100, 200, 300, 400, 500])
            self.assertEqual({key: tuple(it) for key, it in found.notes.ends.items()}, {(0, b"a"): (300, b"/a")})
            found.close()
            opened = self.assertRaises(JournalError, OpenedFile, journal)
            self.assertIsNone(opened)
            store.close()


if not lines.HAS_FLASK:
    del InFile, Views, Changes, OfMount

if __name__ == "__main__":
    unittest.main()
