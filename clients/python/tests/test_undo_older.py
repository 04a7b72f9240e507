"""`undo` to a moment of an older journal: a mount goes on in a new journal, and brings back what the older one has. It needs pyfuse3."""

from __future__ import annotations

import unittest
from pathlib import Path
from typing import Optional

from elephant import KeepOne
from elephant.mount.ages import Ages
from elephant.mount.moving import move
from elephant.mount.store import MountStore
from elephant.mount.tree import Directory, File
from elephant.mount.undo import Undo
from test_mount import FOLDER
from test_mount_undo import Undoing


class Older(Undoing):
    """A mount in a journal that goes on where an older one, `journal`, has ended."""

    def setUp(self) -> None:
        super().setUp()
        self.journals: list[Path] = []
        self.ages: Optional[Ages] = None
        it = self.mount()
        folder = it.naming.mkdir(it.top, b"d", FOLDER, 0, 0)
        it.save(b"f", b"one")
        it.save(b"g", b"g one", folder)
        it.save(b"lost", b"lost one", folder)
        it.naming.link(it.file(b"f"), it.top, b"hard")
        it.naming.symlink(it.top, b"link", b"target", 0, 0)
        it.save(b"gone", b"gone")
        it.naming.set_attributes(it.file(b"gone"), {"mode": 0o640})
        self.first = self.later()
        it.save(b"f", b"two")
        it.save(b"g", b"g two", folder)
        it.naming.unlink(it.top, b"gone")
        it.top.left.clear()
        self.second = self.later()
        it.save(b"f", b"three")
        self.later()
        self.go_on()

    def go_on(self) -> None:
        """Goes on in a new journal, and keeps the older ones beside it."""
        self.end_ages()
        self.unmount()
        old, new = self.journal, self.journal.with_name(f"new{len(self.journals)}")
        self.journals.append(old)
        move(str(old), str(new))
        self.journal = new
        it = self.mount()
        self.later()
        self.ages = Ages(it.store, it.tree, b"", [MountStore(str(path), read_only=True) for path in self.journals])
        self.addCleanup(self.end_ages)

    def end_ages(self) -> None:
        if self.ages is not None:
            self.ages.close()
        self.ages = None

    def undo(self, path: bytes, moment: Optional[int] = None, is_dry: bool = False) -> str:
        it = self.it
        assert self.ages is not None
        text = Undo(it.store, it.tree, it.contents, self.ages.store_at).run(path, moment, is_dry)
        with it.store.together():
            list(it.tree.refresh())
        return text

    def remove(self, path: bytes) -> None:
        parent, name = self.place(path)
        node = parent.children[name]
        (self.it.naming.rmdir if isinstance(node, Directory) else self.it.naming.unlink)(parent, name)
        parent.left.clear()

    def held(self) -> list[bytes]:
        return [it.read_bytes() for it in self.journals]


class Files(Older):
    def test_a_file_gets_what_it_held_then_as_a_new_version(self) -> None:
        before = self.held()
        self.assertEqual(self.it.versions(b"f"), [b"", b"three"])
        told = self.undo(b"/f", self.first)
        self.assertRegex(told, "^ok version 3: what f held at .*, saved .*, from the older journal journal\n$")
        self.assertEqual(self.it.versions(b"f"), [b"", b"three", b"one"])
        self.undo(b"/f", self.second)
        self.assertEqual(self.it.versions(b"f"), [b"", b"three", b"one", b"two"])
        self.assertEqual(self.held(), before)

    def test_a_dry_run_says_which_journal_and_changes_nothing(self) -> None:
        before = self.it.all(), self.journal.read_bytes()
        told = self.undo(b"/f", self.first, is_dry=True)
        self.assertRegex(told, "^ok would make a version of what f held at .*, from the older journal journal\n$")
        self.assertEqual((self.it.all(), self.journal.read_bytes()), before)

    def test_what_it_holds_already_makes_no_version(self) -> None:
        self.undo(b"/f", self.second)
        self.assertRegex(self.undo(b"/f", self.second), "^ok version 3: .*, from the older journal journal, as it does\n$")

    def test_a_file_that_was_deleted_before_is_made_again_with_its_mode(self) -> None:
        self.undo(b"/gone", self.first)
        node = self.it.file(b"gone")
        self.assertEqual((self.it.read(b"gone"), node.attributes.mode & 0o777), (b"gone", 0o640))

    def test_one_that_is_deleted_now_gets_its_own_past_back(self) -> None:
        number = self.it.file(b"g", self.folder(b"/d")).number
        self.remove(b"/d/g")
        self.later()
        self.undo(b"/d/g", self.first)
        found = self.it.file(b"g", self.folder(b"/d"))
        self.assertEqual((found.number, self.it.contents.whole(found)), (number, b"g one"))

    def test_the_other_names_of_a_file_stay_its_names(self) -> None:
        self.undo(b"/f", self.first)
        self.assertEqual(self.it.file(b"f").number, self.it.file(b"hard").number)
        self.assertEqual(self.it.read(b"hard"), b"one")

    def test_a_name_that_was_no_name_of_the_file_then_keeps_what_it_holds(self) -> None:
        self.it.naming.link(self.it.file(b"f"), self.it.top, b"later")
        self.undo(b"/f", self.first)
        self.assertEqual([self.it.read(name) for name in (b"f", b"hard", b"later")], [b"one", b"three", b"three"])

    def test_a_moment_of_the_new_journal_is_asked_in_it(self) -> None:
        self.it.save(b"f", b"four")
        moment = self.later()
        self.it.save(b"f", b"five")
        self.later()
        self.assertNotIn("older", self.undo(b"/f", moment))
        self.assertEqual(self.it.read(b"f"), b"four")

    def test_of_two_older_journals_the_one_that_has_the_moment_is_asked(self) -> None:
        self.it.save(b"f", b"four")
        middle = self.later()
        self.it.save(b"f", b"five")
        self.later()
        self.go_on()
        self.assertIn("from the older journal new0\n", self.undo(b"/f", middle))
        self.assertEqual(self.it.read(b"f"), b"four")
        self.assertIn("from the older journal journal\n", self.undo(b"/f", self.first))
        self.assertEqual(self.it.read(b"f"), b"one")


class Refusals(Older):
    def test_a_moment_before_the_first_journal(self) -> None:
        self.assertIn("this folder begins at ", self.refusal(b"/f", self.first - 10))

    def test_a_name_that_was_not_there_then(self) -> None:
        self.it.save(b"fresh", b"fresh")
        self.later()
        self.assertIn("there was no fresh at ", self.refusal(b"/fresh", self.first))

    def test_a_content_that_its_policy_has_removed(self) -> None:
        self.ages = None
        self.unmount()
        with MountStore(str(self.journals[0]), clock="manual") as old:
            old.set_policy("/f", KeepOne())
            old.pass_()
        it = self.mount()
        self.ages = Ages(it.store, it.tree, b"", [MountStore(str(self.journals[0]), read_only=True)])
        self.assertIn("was removed by its policy", self.refusal(b"/f", self.first))

    def test_without_a_moment_the_answer_says_that_a_moment_helps(self) -> None:
        for path in (b"/f", b"/gone", b"/never"):
            self.assertRegex(self.refusal(path), r"\. This journal begins at .*: to undo to a time before, give a moment$")

    def test_a_file_in_place_of_a_folder(self) -> None:
        for path in (b"/d/g", b"/d/lost", b"/d"):
            self.remove(path)
        self.it.save(b"d", b"a file")
        self.later()
        self.assertIn("d is a file now", self.refusal(b"/d", self.first))

    def test_a_file_that_a_program_writes(self) -> None:
        self.open_file(b"/f")
        with self.assertRaises(OSError):
            self.undo(b"/f", self.first)


class Folders(Older):
    def test_a_folder_is_as_it_was_and_what_is_newer_stays(self) -> None:
        self.it.save(b"newer", b"newer", self.folder(b"/d"))
        self.remove(b"/d/lost")
        self.later()
        dry = self.undo(b"/d", self.first, is_dry=True)
        self.assertIn("would make d as it was at", dry)
        self.assertIn(", from the older journal journal: 2 files\n", dry)
        for row in ("- undelete d/lost\n", "- content d/g: version 2\n", "- newer, and stays: d/newer\n"):
            self.assertIn(row, dry)
        self.assertIn("from the older journal journal: 2 files", self.undo(b"/d", self.first))
        self.assertEqual(self.files(self.folder(b"/d")), {b"/g": b"g one", b"/lost": b"lost one", b"/newer": b"newer"})

    def test_a_deleted_folder_comes_back_with_all_below_it(self) -> None:
        number = self.folder(b"/d").number
        for path in (b"/d/g", b"/d/lost", b"/d"):
            self.remove(path)
        self.later()
        self.undo(b"/d", self.first)
        self.assertEqual(self.files(self.folder(b"/d")), {b"/g": b"g one", b"/lost": b"lost one"})
        self.assertEqual(self.folder(b"/d").number, number)

    def test_the_whole_tree_comes_back(self) -> None:
        link, hard = self.it.file(b"link").number, self.it.file(b"hard").number
        self.it.rename(b"f", b"other")
        self.later()
        self.undo(b"", self.first)
        wanted = {
            b"/f": b"one", b"/hard": b"one", b"/link": b"target", b"/gone": b"gone", b"/d/g": b"g one", b"/d/lost": b"lost one",
            b"/other": b"three",
        }
        self.assertEqual(self.files(), wanted)
        self.assertEqual((self.it.file(b"link").number, self.node(b"/other").number), (link, hard))

    def test_a_link_with_another_target_is_made_again(self) -> None:
        self.remove(b"/link")
        self.it.naming.symlink(self.it.top, b"link", b"elsewhere", 0, 0)
        self.later()
        self.undo(b"", self.first)
        node = self.node(b"/link")
        self.assertTrue(isinstance(node, File) and node.attributes.is_link)
        self.assertEqual(self.it.read(b"link"), b"target")

    def test_it_is_there_when_it_is_mounted_again(self) -> None:
        self.undo(b"", self.first)
        before = self.it.all()
        self.unmount()
        self.assertEqual(self.mount().all(), before)


class Lasting(Older):
    def test_two_undos_take_each_other_back(self) -> None:
        last = self.later()
        self.undo(b"", self.first)
        self.later()
        self.undo(b"", last)
        self.assertEqual({name: self.files().get(name) for name in (b"/f", b"/d/g")}, {b"/f": b"three", b"/d/g": b"g two"})


class Unmoved(Undoing):
    def test_a_mount_without_older_journals_says_no_more_than_before(self) -> None:
        self.mount().save(b"f", b"one")
        self.later()
        self.assertNotIn("This journal", self.refusal(b"/f"))


if __name__ == "__main__":
    unittest.main()
