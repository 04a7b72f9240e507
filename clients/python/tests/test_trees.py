"""`restore_tree`: a folder as of a moment. What each path holds is worked out by hand; what a failure leaves is read from the journal."""

from __future__ import annotations

import tempfile
import unittest
from collections.abc import Callable
from pathlib import Path
from typing import Any, Optional
from unittest import mock

from elephant import Drafting, Full, Future, KeepOne, Limits, NoEntry, NoMemory, ReadOnly, Store

Call = Callable[..., int]


def contents(store: Store, path: str = "/") -> dict[str, Optional[bytes]]:
    """Returns what each file below a directory holds, and None for a directory."""
    return {it.path: None if it.is_directory else store.read(it.path) for it in store.walk(path)}


def steps(found: Any) -> list[tuple[str, str]]:
    return [(it.word, it.path) for it in found.steps]


def make(store: Store) -> dict[str, Optional[bytes]]:
    """Makes a folder, and at 100 changes, deletes, moves and adds. Returns what it held at 50."""
    store.save("/d/a", b"a1", parents=True)
    store.save("/d/e/b", b"b1", parents=True)
    store.save("/d/c", b"c1")
    store.save("/d/same", b"same")
    then = contents(store)
    store.clock(100)
    store.save("/d/a", b"a2")
    store.unlink("/d/e/b")
    store.rmdir("/d/e")
    store.rename("/d/c", "/d/moved")
    store.save("/d/new", b"new")
    store.clock(200)
    return then


class Trees(unittest.TestCase):
    def test_a_folder_is_as_it_was_and_nothing_is_lost(self) -> None:
        with Store(clock="manual") as store:
            then = make(store)
            found = store.restore_tree("/d", 50)
            then["/d/moved"], then["/d/new"] = b"c1", b"new"
            self.assertEqual(contents(store), then)
            self.assertEqual(steps(found), [("restore", "/d/a"), ("restore", "/d/c"), ("undelete", "/d/e"), ("restore", "/d/e/b")])
            self.assertEqual((found.same, found.left, sorted(found.newer)), (1, (), ["/d/moved", "/d/new"]))
            # The overwritten content is the version before, and the deleted file has its past.
            self.assertEqual([store.read("/d/a", version=it.number) for it in store.versions("/d/a")], [b"", b"a1", b"a2", b"a1"])
            self.assertEqual([it.number for it in store.versions("/d/e/b")], [1, 2, 3])
            self.assertEqual([it.version for it in found.steps], [4, 2, None, 3])

    def test_a_look_changes_nothing_and_says_the_same(self) -> None:
        with Store(clock="manual") as store:
            make(store)
            before = contents(store)
            looked = store.restore_tree("/d", 50, dry_run=True)
            self.assertEqual(contents(store), before)
            self.assertEqual(steps(looked), steps(store.restore_tree("/d", 50)))
            self.assertTrue(all(it.version is None for it in looked.steps))
            self.assertEqual(store.restore_tree("/d", 50).steps, ())

    def test_deleted_folders_above_come_back_first(self) -> None:
        with Store(clock="manual") as store:
            store.save("/a/b/f", b"f", parents=True)
            store.clock(10)
            store.unlink("/a/b/f")
            store.rmdir("/a/b")
            store.rmdir("/a")
            store.clock(20)
            self.assertEqual(steps(store.restore_tree("/a/b", 5)), [("undelete", "/a"), ("undelete", "/a/b"), ("restore", "/a/b/f")])
            self.assertEqual(contents(store), {"/a": None, "/a/b": None, "/a/b/f": b"f"})

    def test_a_folder_whose_name_another_one_has_is_made_in_that(self) -> None:
        with Store(clock="manual") as store:
            store.save("/a/f", b"f", parents=True)
            store.clock(10)
            store.rename("/a", "/old")
            store.mkdir("/a")
            store.clock(20)
            self.assertEqual(steps(store.restore_tree("/a", 5)), [("restore", "/a/f")])
            self.assertEqual(contents(store), {"/a": None, "/a/f": b"f", "/old": None, "/old/f": b"f"})
            # What was deleted in a folder that is another one now can't be brought back there, so it is made.
            store.rename("/a", "/older")
            self.assertEqual(steps(store.restore_tree("/a", 5)), [("mkdir", "/a"), ("restore", "/a/f")])

    def test_what_can_not_be_brought_back_is_left_and_said(self) -> None:
        with Store(clock="manual") as store:
            store.set_default("/", KeepOne())
            store.save("/d/gone", b"1", parents=True)
            store.save("/d/file", b"1")
            store.mkdir("/d/folder")
            store.save("/d/folder/in", b"1")
            store.save("/d/open", b"1")
            store.clock(10)
            store.save("/d/gone", b"2")
            store.pass_()
            store.unlink("/d/file")
            store.mkdir("/d/file")
            store.unlink("/d/folder/in")
            store.rmdir("/d/folder")
            store.save("/d/folder", b"file")
            store.save("/d/open", b"2")
            with store.session("/d/open") as session:
                session.write(b"3")
                left = dict(store.restore_tree("/d", 5).left)
                session.abandon()
            self.assertEqual(set(left), {"/d/gone", "/d/file", "/d/folder", "/d/folder/in", "/d/open"})
            self.assertIn("removed by its policy", left["/d/gone"])
            self.assertEqual((left["/d/file"], left["/d/folder"]), ("a folder has that name now", "a file has that name now"))
            self.assertIn("session", left["/d/open"])

    def test_below_a_file_nothing_is_made(self) -> None:
        with Store(clock="manual") as store:
            store.save("/a/b/f", b"f", parents=True)
            store.clock(10)
            store.unlink("/a/b/f")
            store.rmdir("/a/b")
            store.rmdir("/a")
            store.save("/a", b"file")
            for path, left in (("/a/b", ["/a", "/a/b", "/a/b/f"]), ("/a/b/f", ["/a", "/a/b", "/a/b/f"]), ("/a", ["/a", "/a/b", "/a/b/f"])):
                found = store.restore_tree(path, 5)
                self.assertEqual((found.steps, [it for it, _ in found.left]), ((), left))
                self.assertEqual({why for _, why in found.left}, {"a file has that name now"})
            self.assertEqual(contents(store), {"/a": b"file"})

    def test_refusals(self) -> None:
        with Store(clock="manual") as store:
            self.assertRaises(Future, store.restore_tree, "/", 1)
            store.clock(5)
            self.assertRaises(NoEntry, store.restore_tree, "/none", 5)
            store.save("/f", b"1")
            store.clock(9)
            store.save("/f", b"2")
            self.assertEqual(steps(store.restore_tree("/f", 8)), [("restore", "/f")])
            self.assertEqual(store.read("/f"), b"1")
            with store.session("/f") as session:
                session.write(b"x")
                self.assertRaises(Drafting, store.restore, "/f", 8)
                self.assertEqual(store.restore_tree("/f", 8).steps, ())
                session.abandon()

    def test_the_limits_are_looked_at_first(self) -> None:
        with Store(clock="manual", limits=Limits(versions=11)) as store:
            make(store)
            before = contents(store)
            with self.assertRaises(Full) as raised:
                store.restore_tree("/d", 50)
            self.assertEqual((raised.exception.what, contents(store)), ("versions", before))

    def test_all_of_it_is_one_change_of_the_journal(self) -> None:
        with tempfile.TemporaryDirectory() as folder:
            journal = Path(folder, "journal")
            with Store(journal, clock="manual") as store:
                then = make(store)
                size = journal.stat().st_size
                store.restore_tree("/d", 50)
                after = contents(store)
            lines = journal.read_bytes()[size:].splitlines()
            self.assertEqual([it[9:11] for it in lines], [b"< ", b"- ", b"- ", b"> "])
            with Store(journal, read_only=True) as store:
                self.assertEqual(contents(store), after)
                self.assertLessEqual(then.items(), after.items())
                self.assertRaises(ReadOnly, store.restore_tree, "/d", 100)
                self.assertEqual(steps(store.restore_tree("/d", 100, dry_run=True))[0], ("restore", "/d/a"))
            # A journal that is cut within the change has nothing of it.
            for cut in (size + 30, len(journal.read_bytes()) - 1):
                copy = Path(folder, "copy")
                copy.write_bytes(journal.read_bytes()[:cut])
                with Store(copy, read_only=True) as store:
                    self.assertNotIn("/d/e", contents(store))

    def test_a_stop_midway_leaves_nothing_of_it(self) -> None:
        with tempfile.TemporaryDirectory() as folder, Store(Path(folder, "journal"), clock="manual") as store:
            make(store)
            before, size = contents(store), Path(folder, "journal").stat().st_size
            run = store._run_step
            done: list[object] = []

            def failing(*words: Any) -> None:
                if len(done) == 2:
                    raise NoMemory("the third step")
                done.append(words)
                run(*words)

            with mock.patch.object(store, "_run_step", failing):
                self.assertRaises(NoMemory, store.restore_tree, "/d", 50)
            self.assertEqual((contents(store), Path(folder, "journal").stat().st_size), (before, size))
            # The store can be changed on, and the journal has just that.
            store.restore_tree("/d", 50)
            after = contents(store)
            with Store(Path(folder, "journal"), read_only=True) as again:
                self.assertEqual(contents(again), after)

    def test_more_than_a_page_of_files(self) -> None:
        with Store(clock="manual") as store:
            store.mkdir("/d")
            for number in range(300):
                store.save(f"/d/{number}", b"1")
            store.clock(10)
            for number in range(300):
                store.save(f"/d/{number}", b"2")
            store.clock(20)
            found = store.restore_tree("/d", 5)
            self.assertEqual((len(found.steps), set(contents(store).values())), (300, {b"1", None}))


if __name__ == "__main__":
    unittest.main()
