"""What `undo` brings back: a save, a deleted name, a folder as it was; and when it refuses to."""

from __future__ import annotations

import random
import re
import unittest
from collections.abc import Iterator
from contextlib import suppress
from typing import Optional, Union
from unittest import mock

from anew import make_anew
from elephant import Limits
from elephant._disk import Disk
from elephant.mount.naming import EXCHANGE
from elephant.mount.tree import Directory, File
from elephant.mount.undo import Undo
from elephant.mount.whereabouts import Nothing
from test_mount import FOLDER, Case, Mounted

BEGIN = 2_000_000_000
PAUSE = 100


class Undoing(Case):
    """A mount whose clock the test moves."""

    def setUp(self) -> None:
        super().setUp()
        self.clock = BEGIN
        for name in ("time.time", "time.monotonic", "elephant._clock.SystemClocks.steady"):
            patch = mock.patch(name, lambda *_: float(self.clock))
            patch.start()
            self.addCleanup(patch.stop)

    @property
    def it(self) -> Mounted:
        assert self.mounted is not None
        return self.mounted

    def later(self, seconds: int = PAUSE) -> int:
        """Moves the clock, and returns the moment before it moved."""
        self.clock += seconds
        return self.clock - seconds

    def undo(self, path: bytes, moment: Optional[int] = None, is_dry: bool = False) -> str:
        it = self.it
        text = Undo(it.store, it.tree, it.contents).run(path, moment, is_dry)
        with it.store.together():
            list(it.tree.refresh())
        return text

    def redo(self, path: bytes) -> str:
        it = self.it
        text = Undo(it.store, it.tree, it.contents).redo(path, False)
        with it.store.together():
            list(it.tree.refresh())
        return text

    def refusal(self, path: bytes, moment: Optional[int] = None) -> str:
        before = self.it.all()
        with self.assertRaises(Nothing) as caught:
            self.undo(path, moment)
        self.assertEqual(self.it.all(), before)
        return str(caught.exception)

    def files(self, folder: Optional[Directory] = None, path: bytes = b"") -> dict[bytes, bytes]:
        """Returns the contents of all files and links, by path."""
        folder = folder or self.it.top
        found: dict[bytes, bytes] = {}
        for name, node in folder.children.items():
            place = path + b"/" + name
            if isinstance(node, Directory):
                found.update(self.files(node, place))
            else:
                found[place] = self.it.contents.whole(node)
        return found

    def node(self, path: bytes) -> Union[File, Directory]:
        found = self.it.tree.find(path)
        assert found is not None
        return found

    def folder(self, path: bytes) -> Directory:
        found = self.node(path)
        assert isinstance(found, Directory)
        return found

    def place(self, path: bytes) -> tuple[Directory, bytes]:
        """Returns the folder of a path, and the last name."""
        parent, _, name = path.rpartition(b"/")
        return self.folder(parent), name

    def open_file(self, path: bytes) -> None:
        node = self.node(path)
        assert isinstance(node, File)
        self.it.open(node)

    def fill(self, contents: dict[bytes, bytes]) -> None:
        """Saves files in folders, which it makes."""
        for path, content in contents.items():
            folder, names = self.it.top, path.split(b"/")[1:]
            for name in names[:-1]:
                below = folder.children.get(name) or self.it.naming.mkdir(folder, name, FOLDER, 0, 0)
                assert isinstance(below, Directory)
                folder = below
            self.it.save(names[-1], content, folder)

    def rename(self, old: bytes, new: bytes) -> None:
        self.it.naming.rename(*self.place(old), *self.place(new), 0)

    def unlink(self, path: bytes) -> None:
        self.it.naming.unlink(*self.place(path))

    def remove_all(self, path: bytes) -> None:
        """Deletes a folder as `rm -r` does."""
        for name, node in list(self.folder(path).children.items()):
            if isinstance(node, Directory):
                self.remove_all(path + b"/" + name)
            else:
                self.unlink(path + b"/" + name)
        self.it.naming.rmdir(*self.place(path))


class Saves(Undoing):
    def test_a_save_is_undone_and_comes_back(self) -> None:
        it = self.mount()
        for text in (b"one", b"two"):
            it.save(b"f", text)
            self.later()
        self.assertRegex(self.undo(b"/f"), r"^ok version 4: what version 2 held, saved 2033-05-1[78] .*\n$")
        self.assertEqual(it.read(b"f"), b"one")
        self.assertRegex(self.redo(b"/f"), "^ok version 5: what version 3 held")
        self.assertEqual(it.read(b"f"), b"two")

    def test_a_dry_run_changes_nothing(self) -> None:
        it = self.mount()
        it.save(b"f", b"one")
        it.save(b"f", b"two")
        before = it.versions(b"f")
        self.assertRegex(self.undo(b"/f", is_dry=True), "^ok would make a version of what version 2 held")
        self.assertEqual(it.versions(b"f"), before)

    def test_a_save_that_changed_nothing_is_passed_over(self) -> None:
        it = self.mount()
        for text in (b"one", b"two", b"two"):
            it.save(b"f", text)
        self.undo(b"/f")
        self.assertEqual(it.read(b"f"), b"one")

    def test_a_file_that_was_never_changed_is_left_alone(self) -> None:
        self.mount().save(b"photo", b"a photo")
        self.assertIn("photo was never changed", self.refusal(b"/photo"))

    def test_a_file_that_was_made_and_not_written_is_left_alone(self) -> None:
        self.mount().make(b"f")
        self.assertIn("never changed", self.refusal(b"/f"))

    def test_a_link_is_no_file(self) -> None:
        it = self.mount()
        it.naming.symlink(it.top, b"link", b"f", 0, 0)
        self.assertIn("link is a symbolic link", self.refusal(b"/link"))

    def test_what_an_earlier_file_of_the_name_held(self) -> None:
        it = self.mount()
        it.save(b"f", b"zero")
        self.later()
        it.save(b"f", b"one")
        self.later()
        it.naming.unlink(it.top, b"f")
        self.later()
        it.save(b"f", b"oops")
        self.later()
        told = self.undo(b"/f")
        self.assertRegex(told, "^ok version 3: what version 3 of an earlier file of that name held, saved .*, and the name until ")
        self.assertEqual(it.read(b"f"), b"one")
        self.redo(b"/f")
        self.assertEqual(it.read(b"f"), b"oops")

    def test_what_an_earlier_file_held_before_it_held_the_same(self) -> None:
        it = self.mount()
        for text in (b"zero", b"one"):
            it.save(b"f", text)
            self.later()
        it.naming.unlink(it.top, b"f")
        self.later()
        it.save(b"f", b"one")
        self.undo(b"/f")
        self.assertEqual(it.read(b"f"), b"zero")

    def test_an_earlier_file_in_a_folder_that_was_renamed_since(self) -> None:
        self.mount()
        self.fill({b"/d/f": b"one"})
        self.later()
        self.unlink(b"/d/f")
        self.later()
        self.fill({b"/d/f": b"oops"})
        self.later()
        self.rename(b"/d", b"/e")
        self.undo(b"/e/f")
        self.assertEqual(self.files(), {b"/e/f": b"one"})

    def test_the_copy_that_a_renamed_file_begins_with_has_no_save_before(self) -> None:
        it = self.mount()
        for text in (b"plan A", b"plan B"):
            it.save(b"plan", text)
            self.later()
        it.rename(b"plan", b"plan.old")
        it.save(b"plan", b"oops")
        self.later()
        self.assertIn("plan.old was never changed", self.refusal(b"/plan.old"))
        self.undo(b"/plan")
        self.assertEqual(self.files(), {b"/plan": b"plan B", b"/plan.old": b"plan B"})

    def test_what_a_policy_removed_is_told(self) -> None:
        it = self.mount()
        it.store.line("default / one")
        it.save(b"f", b"one")
        it.save(b"f", b"two")
        while it.store.clean():
            pass
        self.assertIn("version 2 of f, which it held before, was removed by its policy: none is held", self.refusal(b"/f"))
        self.later()
        it.naming.unlink(it.top, b"f")
        while it.store.clean():
            pass
        self.later()
        it.save(b"f", b"new")
        self.assertIn("never changed", self.refusal(b"/f"))

    def test_a_file_that_is_written_is_refused(self) -> None:
        it = self.mount()
        it.save(b"f", b"one")
        it.save(b"f", b"two")
        self.open_file(b"/f")
        for moment in (None, self.clock):
            with self.assertRaises(OSError):
                self.undo(b"/f", moment)


class Moments(Undoing):
    def test_what_a_file_held_at_a_moment(self) -> None:
        it = self.mount()
        it.save(b"f", b"one")
        first = self.later()
        it.save(b"f", b"two")
        second = self.later()
        it.save(b"f", b"three")
        self.later()
        self.assertRegex(self.undo(b"/f", first + 1), r"^ok version 5: what f held at 2033-\S+ \S+ \S+, saved 2033-")
        self.assertEqual(it.read(b"f"), b"one")
        self.undo(b"/f", second)
        self.assertEqual((it.read(b"f"), it.versions(b"f")[-2:]), (b"two", [b"one", b"two"]))

    def test_moments_without_the_name(self) -> None:
        it = self.mount()
        it.save(b"g", b"one")
        self.later()
        it.save(b"f", b"one")
        self.assertIn("there was no f at ", self.refusal(b"/f", BEGIN))
        self.assertIn("this folder begins at ", self.refusal(b"/f", BEGIN - 1))
        self.assertIn("is to come", self.refusal(b"/f", self.clock + 1))

    def test_a_file_that_had_another_name(self) -> None:
        it = self.mount()
        it.save(b"draft", b"one")
        first = self.later()
        it.save(b"draft", b"two")
        self.later()
        it.rename(b"draft", b"final")
        self.assertIn("when the file had another name", self.undo(b"/final", first))
        self.assertEqual(self.files(), {b"/final": b"one"})

    def test_a_name_that_another_file_has_now(self) -> None:
        it = self.mount()
        it.save(b"f", b"one")
        first = self.later()
        it.naming.unlink(it.top, b"f")
        self.later()
        it.save(b"f", b"two")
        self.undo(b"/f", first)
        self.assertEqual(it.versions(b"f"), [b"", b"two", b"one"])

    def test_a_deleted_file(self) -> None:
        it = self.mount()
        it.save(b"f", b"one")
        first = self.later()
        it.save(b"f", b"two")
        self.later()
        it.naming.unlink(it.top, b"f")
        self.later()
        self.undo(b"/f", first)
        self.assertEqual(it.versions(b"f"), [b"", b"one", b"two", b"two", b"one"])

    def test_a_link_is_made_again(self) -> None:
        it = self.mount()
        it.naming.symlink(it.top, b"link", b"old", 0, 0)
        first = self.later()
        it.naming.unlink(it.top, b"link")
        it.naming.symlink(it.top, b"link", b"new", 0, 0)
        self.later()
        self.undo(b"/link", first)
        self.assertEqual(self.files(), {b"/link": b"old"})
        self.assertTrue(it.top.children[b"link"].attributes.is_link)


class Deleted(Undoing):
    def test_a_deleted_file_comes_back_with_its_past(self) -> None:
        it = self.mount()
        it.save(b"f", b"one")
        self.later()
        it.naming.unlink(it.top, b"f")
        self.later()
        self.assertRegex(self.undo(b"/f"), "^ok version 3: what it held when it was deleted, 2033-")
        self.assertEqual(it.versions(b"f"), [b"", b"one", b"one"])

    def test_a_name_that_never_was(self) -> None:
        self.mount()
        self.assertEqual(self.refusal(b"/d/f"), "there never was a name d")

    def test_a_renamed_file_gets_both_names(self) -> None:
        it = self.mount()
        it.save(b"f", b"one")
        self.later()
        it.rename(b"f", b"g")
        self.later()
        self.assertIn("the same file as g, which was renamed", self.undo(b"/f"))
        self.assertIs(it.top.children[b"f"], it.top.children[b"g"])

    def test_a_renamed_folder_is_named(self) -> None:
        self.mount()
        self.fill({b"/d/f": b"one"})
        self.later()
        self.rename(b"/d", b"/e")
        self.assertIn("d was renamed, and is e now", self.refusal(b"/d"))
        self.assertIn("d was renamed, and is e now", self.refusal(b"/d", self.clock - 1))

    def test_a_file_of_a_deleted_folder(self) -> None:
        self.mount()
        self.fill({b"/d/e/f": b"one", b"/d/g": b"two"})
        self.later()
        self.remove_all(b"/d")
        self.later()
        self.undo(b"/d/e/f")
        self.assertEqual(self.files(), {b"/d/e/f": b"one"})

    def test_a_deleted_folder_comes_back_with_what_was_deleted_with_it(self) -> None:
        it = self.mount()
        self.fill({b"/d/a": b"a", b"/d/old": b"x", b"/d/e/b": b"b", b"/d/e/c": b"c"})
        it.naming.symlink(self.folder(b"/d"), b"link", b"a", 0, 0)
        it.naming.set_attributes(self.node(b"/d/a"), {"mode": 0o751})
        self.later()
        self.unlink(b"/d/old")
        self.later()
        before = self.files()
        self.remove_all(b"/d")
        self.later()
        told = self.undo(b"/d", is_dry=True)
        self.assertRegex(told, r"^ok would bring back d and 5 names in it \(folders: 1\), deleted from ")
        self.assertEqual(self.files(), {})
        self.assertRegex(self.undo(b"/d"), r"^ok brought back d and 5 names in it \(folders: 1\), deleted from ")
        self.assertEqual(self.files(), before)
        self.assertEqual(self.node(b"/d/a").attributes.mode, 0o100751)
        self.assertEqual(self.node(b"/d/link").attributes.is_link, True)
        self.assertEqual([it.store.read(b"/d/a", version=number) for number in (2, 3)], [b"a", b"a"])
        after = it.all()
        self.assertEqual(self.mount().all(), after)

    def test_names_that_ended_by_a_rename_do_not_come_back(self) -> None:
        for again in (False, True):
            with self.subTest(again=again):
                self.journal.unlink(missing_ok=True)
                self.mounted = None
                self.mount()
                self.fill({b"/d/a": b"a", b"/d/b": b"b"})
                self.later()
                self.fill({b"/d/new": b"c"})
                self.rename(b"/d/new", b"/d/b")
                self.rename(b"/d/a", b"/d/c")
                self.remove_all(b"/d")
                self.later()
                if again:
                    self.mount()
                self.undo(b"/d")
                self.assertEqual(self.files(), {b"/d/c": b"a", b"/d/b": b"c"})
                self.it.close()


class Folders(Undoing):
    CONTENTS = {b"/d/a": b"a", b"/d/e/b": b"b", b"/d/e/c": b"c", b"/d/e/g/x": b"x"}

    def setUp(self) -> None:
        super().setUp()
        self.mount()
        self.fill(self.CONTENTS)
        self.first = self.later()

    def undo_all(self, words: str, is_dry: bool = False) -> str:
        answer = self.undo(b"/d", self.first, is_dry)
        self.assertRegex(answer, words)
        return answer

    def expect_first(self) -> None:
        found = self.files()
        self.assertEqual({path: found.get(path) for path in self.CONTENTS}, self.CONTENTS)

    def test_contents(self) -> None:
        for path in self.CONTENTS:
            self.fill({path: b"oops"})
        self.later()
        told = self.undo(b"/d", self.first, is_dry=True)
        self.assertEqual(len(re.findall("^- content d/", told, re.M)), 4)
        self.assertEqual(set(self.files().values()), {b"oops"})
        self.undo_all("^ok d is as it was at 2033-.*: 4 files, 4 with the content of then\n$")
        self.expect_first()
        self.assertEqual(self.it.store.read(b"/d/a", version=3), b"oops")

    def test_without_a_moment_the_last_changes_are_undone(self) -> None:
        for path in self.CONTENTS:
            self.later(1)
            self.fill({path: b"oops"})
        self.later()
        self.undo(b"/d")
        self.expect_first()
        self.later()
        self.redo(b"/d")
        self.assertEqual(set(self.files().values()), {b"oops"})

    def test_a_copy_that_a_program_renames_belongs_to_its_change(self) -> None:
        self.fill({b"/d/sedx1": b"oops"})
        self.later(2)
        self.rename(b"/d/sedx1", b"/d/a")
        self.fill({b"/d/e/.probe": b"", b"/d/e/sedx2": b"oops"})
        self.later(1)
        self.rename(b"/d/e/sedx2", b"/d/e/b")
        self.unlink(b"/d/e/.probe")
        self.later()
        self.undo(b"/d")
        self.assertEqual(self.files(), self.CONTENTS)

    def test_names_that_are_there_again_draw_nothing_in(self) -> None:
        self.fill({b"/d/new": b"new"})
        self.later(1)
        self.unlink(b"/d/new")
        self.undo(b"/d/new")
        self.later(2)
        self.fill({b"/d/a": b"oops"})
        self.later()
        self.undo(b"/d")
        self.assertEqual(self.files(), {**self.CONTENTS, b"/d/new": b"new"})

    def test_a_file_that_was_made_a_while_before_comes_back(self) -> None:
        self.fill({b"/d/a": b"newer"})
        self.later(1)
        self.fill({b"/d/new": b"new"})
        self.later(3)
        self.unlink(b"/d/new")
        self.later()
        self.undo(b"/d")
        self.assertEqual(self.files(), {**self.CONTENTS, b"/d/a": b"newer", b"/d/new": b"new"})

    def test_names_and_contents_that_a_program_changed(self) -> None:
        for path in self.CONTENTS:
            self.fill({path: b"encrypted"})
            self.later(3)
            self.rename(path, path + b".locked")
        self.fill({b"/d/READ_ME": b"pay"})
        self.later()
        answer = self.undo_all("^ok d is as it was at .*: 4 files, 4 renamed back, 4 with the content of then\n")
        self.assertIn("- newer, and stays: d/READ_ME\n", answer)
        self.expect_first()
        self.assertEqual(len(self.files()), 5)
        self.assertEqual(self.it.store.read(b"/d/a", version=3), b"encrypted")

    def test_files_that_were_copied_and_deleted(self) -> None:
        for path in self.CONTENTS:
            self.fill({path + b".locked": b"encrypted"})
            self.unlink(path)
        self.later()
        self.undo_all("^ok d is as it was at .*: 4 files, 4 brought back\n")
        self.expect_first()

    def test_folders_that_were_renamed(self) -> None:
        self.rename(b"/d/e", b"/d/new")
        self.rename(b"/d/new/g", b"/d/g")
        self.later()
        told = self.undo_all("^ok would make d as it was at .*: 4 files\n", is_dry=True)
        self.assertEqual(re.findall("^- rename.*", told, re.M), ["- rename d/new d/e", "- rename d/g d/e/g"])
        self.undo_all("^ok d is as it was at .*: 4 files, 2 renamed back\n$")
        self.assertEqual(self.files(), self.CONTENTS)

    def test_names_that_were_exchanged(self) -> None:
        self.rename(b"/d/e/b", b"/d/third")
        self.later()
        self.rename(b"/d/e/c", b"/d/e/b")
        self.later()
        self.rename(b"/d/third", b"/d/e/c")
        self.later()
        self.undo_all("^ok d is as it was at ")
        self.assertEqual(self.files(), self.CONTENTS)

    def test_a_file_that_was_moved_out_is_made_again(self) -> None:
        self.rename(b"/d/a", b"/a")
        self.fill({b"/a": b"newer"})
        self.later()
        self.undo_all("^ok d is as it was at .*: 4 files, 1 made again, 1 with the content of then\n$")
        self.assertEqual(self.files(), {**self.CONTENTS, b"/a": b"newer"})

    def test_a_deleted_folder_at_a_moment(self) -> None:
        self.remove_all(b"/d")
        self.later()
        self.undo_all("^ok d is as it was at .*: 4 files, 7 brought back\n$")
        self.assertEqual(self.files(), self.CONTENTS)

    def test_what_has_the_name_of_a_folder_is_left(self) -> None:
        self.remove_all(b"/d/e")
        self.fill({b"/d/e": b"a file", b"/d/a": b"newer"})
        self.later()
        answer = self.undo_all("^no: 5 of them are left as they are: d is as it was at ")
        self.assertIn("- left: d/e: a file has that name now\n", answer)
        self.assertEqual(self.files(), {b"/d/e": b"a file", b"/d/a": b"a"})

    def test_a_file_that_is_written_is_left(self) -> None:
        for path in self.CONTENTS:
            self.fill({path: b"oops"})
        self.open_file(b"/d/a")
        self.later()
        answer = self.undo_all("^no: 1 of them are left as they are: ")
        self.assertIn("- left: d/a: a program has it open to write it\n", answer)
        self.assertEqual(self.files(), {**self.CONTENTS, b"/d/a": b"oops"})

    def test_a_folder_that_was_never_there(self) -> None:
        self.assertIn("there was no none at ", self.refusal(b"/none", self.first))

    def test_the_top(self) -> None:
        self.fill({b"/d/a": b"oops"})
        self.unlink(b"/d/e/b")
        self.later()
        self.assertRegex(self.undo(b"/", self.first), "^ok / is as it was at ")
        self.assertEqual(self.files(), self.CONTENTS)

    def test_hard_links_are_one_file_again(self) -> None:
        it = self.it
        it.naming.link(self.node(b"/d/a"), self.folder(b"/d/e"), b"same")
        self.first = self.later()
        self.unlink(b"/d/a")
        self.unlink(b"/d/e/same")
        self.later()
        self.undo_all("^ok d is as it was at ")
        self.assertIs(self.node(b"/d/a"), self.node(b"/d/e/same"))

    def test_many_files_are_few_changes(self) -> None:
        self.fill({b"/m/%d" % number: b"one" for number in range(200)})
        first = self.later()
        self.fill({b"/m/%d" % number: b"two" for number in range(200)})
        self.later()
        with mock.patch.object(Disk, "append", autospec=True, side_effect=Disk.append) as append:
            self.undo(b"/m", first)
        self.assertLess(append.call_count, 4)


class Turning(Undoing):
    """Undos and redos of a folder, one after the other."""

    def setUp(self) -> None:
        super().setUp()
        self.mount()
        self.fill({b"/d/a": b"one", b"/d/e/b": b"one"})
        self.later()
        self.states = [self.files()]

    def change(self, contents: dict[bytes, bytes]) -> None:
        self.fill(contents)
        self.end_of_change()

    def end_of_change(self) -> None:
        self.later()
        self.states.append(self.files())

    def three_changes(self) -> None:
        self.change({b"/d/a": b"two", b"/d/e/b": b"two"})
        self.rename(b"/d/e/b", b"/d/c")
        self.end_of_change()
        self.change({b"/d/a": b"three"})

    def step(self, word: str) -> str:
        return self.undo(b"/d") if word == "undo" else self.redo(b"/d")

    def turn(self, words: str, *places: int) -> None:
        """Undoes and redoes, and looks after each which of the states the folder is in."""
        for word, place in zip(words.split(), places):
            self.assertRegex(self.step(word), "^ok d is as it was at ")
            self.assertEqual(self.files(), self.states[place], (words, place))
            self.later()

    def refused(self, word: str, words: str) -> None:
        before = self.it.all()
        with self.assertRaisesRegex(Nothing, words):
            self.step(word)
        self.assertEqual(self.it.all(), before)

    def test_undo_goes_further_back_and_redo_forward(self) -> None:
        self.three_changes()
        self.refused("redo", "d is as it was changed last: there is nothing to redo")
        self.turn("undo undo undo", 2, 1, 0)
        self.refused("undo", "this folder begins at")
        self.turn("redo redo undo redo redo", 1, 2, 1, 2, 3)
        self.refused("redo", "d is as it was changed last")
        self.turn("undo", 2)

    def test_a_save_ends_it_and_what_was_undone_is_passed_over(self) -> None:
        self.three_changes()
        self.turn("undo undo", 2, 1)
        self.change({b"/d/a": b"other"})
        self.refused("redo", "d is as it was changed last")
        self.turn("undo undo redo redo", 1, 0, 1, 4)
        self.refused("redo", "d is as it was changed last")

    def test_a_save_soon_after_an_undo_is_a_change_of_its_own(self) -> None:
        self.three_changes()
        self.change({b"/d/a": b"four", b"/d/c": b"four"})
        self.undo(b"/d")
        self.later(1)
        self.change({b"/d/a": b"other"})
        self.turn("undo undo redo redo", 3, 2, 3, 5)

    def test_a_name_that_an_undo_brought_back_and_that_is_deleted_soon_comes_back(self) -> None:
        self.three_changes()
        self.turn("undo", 2)
        self.undo(b"/d")
        self.later(1)
        self.unlink(b"/d/e/b")
        self.later()
        self.turn("undo undo", 1, 0)

    def test_what_changes_elsewhere_does_not_end_it(self) -> None:
        self.three_changes()
        self.turn("undo", 2)
        self.fill({b"/f": b"one"})
        self.states = [{**it, b"/f": b"one"} for it in self.states]
        self.turn("undo redo redo", 1, 2, 3)

    def test_an_undo_to_a_moment_ends_it(self) -> None:
        self.three_changes()
        self.turn("undo", 2)
        self.undo(b"/d", BEGIN)
        self.later()
        self.refused("redo", "d is as it was changed last")
        self.turn("undo undo", 2, 1)

    def test_a_folder_in_it_has_turns_of_its_own(self) -> None:
        self.change({b"/d/e/b": b"two"})
        self.change({b"/d/a": b"two"})
        self.assertRegex(self.undo(b"/d/e"), "^ok d/e is as it was at ")
        self.end_of_change()
        self.turn("undo undo undo redo redo redo", 2, 1, 0, 1, 2, 3)
        self.assertEqual(self.states[3], {b"/d/a": b"two", b"/d/e/b": b"one"})

    def test_it_goes_on_after_another_mount_and_in_a_journal_that_was_made_anew(self) -> None:
        self.three_changes()
        self.turn("undo undo", 2, 1)
        self.mount()
        self.turn("undo redo", 0, 1)
        self.it.close()
        new = self.journal.with_name("new")
        make_anew(self.journal, new)
        self.journal = new
        self.mount()
        self.turn("redo redo undo undo", 2, 3, 2, 1)
        self.rename(b"/d", b"/z")
        self.later()
        self.redo(b"/z")
        self.assertEqual(self.files(), {b"/z" + path[2:]: content for path, content in self.states[2].items()})

    def test_a_redo_deletes_nothing(self) -> None:
        self.unlink(b"/d/a")
        self.end_of_change()
        self.turn("undo", 0)
        self.assertRegex(self.redo(b"/d"), "^ok d is as it was at .*: 1 files\n- newer, and stays: d/a\n$")
        self.assertEqual(self.files(), self.states[0])

    def test_an_undo_in_the_second_of_the_change(self) -> None:
        """The moment before that second is the newest state that a redo finds."""
        self.change({b"/d/a": b"two"})
        self.fill({b"/d/a": b"three"})
        self.turn("undo", 1)
        self.refused("redo", "there is nothing to redo")
        self.turn("undo redo", 0, 1)
        self.refused("redo", "there is nothing to redo")

    def test_a_dry_run_is_no_turn(self) -> None:
        self.three_changes()
        told = self.undo(b"/d", is_dry=True)
        self.assertEqual((self.undo(b"/d", is_dry=True), self.files()), (told, self.states[3]))
        self.turn("undo", 2)

    def test_as_an_editor_undoes_and_redoes(self) -> None:
        """Random changes, undos and redos, beside a list of states in which they move a place."""
        for seed in range(40):
            with self.subTest(seed=seed):
                self.unmount()
                self.setUp()
                self.move(random.Random(seed))

    def move(self, drawn: random.Random) -> None:
        place = 0
        for step in range(drawn.randrange(4, 14)):
            word = drawn.choice(("undo", "undo", "redo", "change", "again"))
            if word == "again":
                self.mount()
                self.later(drawn.choice((0, 1, 2)))
            elif word == "change":
                del self.states[place + 1:]
                paths = sorted(self.states[place])
                if drawn.random() < 0.3:
                    self.rename(paths[0], b"/d/%d" % step)
                else:
                    self.fill({path: b"%d" % step for path in drawn.sample(paths, drawn.randrange(1, 3))})
                self.end_of_change()
                place += 1
            elif 0 <= place + (1 if word == "redo" else -1) < len(self.states):
                place += 1 if word == "redo" else -1
                self.turn(word, place)
            else:
                self.refused(word, "begins at" if word == "undo" else "nothing to redo")


class Limited(Undoing):
    def test_an_undo_that_a_limit_does_not_allow_changes_nothing(self) -> None:
        self.mount(Limits(names=40, versions=1000))
        self.fill({b"/d/%d" % number: b"one" for number in range(12)})
        moment = self.later()
        for number in range(12):
            self.rename(b"/d/%d" % number, b"/d/%d.locked" % number)
        self.later()
        self.fill({b"/e/%d" % number: b"x" for number in range(5)})
        self.later()
        self.assertIn("the store hasn't enough names left for 12 names", self.refusal(b"/d", moment))
        self.remove_all(b"/d")
        self.assertIn("the store hasn't enough names left for 13 names", self.refusal(b"/d"))

    def test_contents_that_are_the_same_take_nothing(self) -> None:
        self.mount(Limits(versions=45))
        self.fill({b"/d/%d" % number: b"one" for number in range(20)})
        moment = self.later()
        self.fill({b"/d/7": b"oops"})
        self.later()
        self.assertRegex(self.undo(b"/d", moment), "^ok d is as it was at .*: 20 files, 1 with the content of then")


class Changes(Undoing):
    """Random changes of names and contents, of few names, and an undo of all of them."""

    NAMES = (b"a", b"b", b"c", b"d")

    def folders(self, folder: Optional[Directory] = None) -> Iterator[Directory]:
        folder = folder or self.it.top
        yield folder
        for node in folder.children.values():
            if isinstance(node, Directory):
                yield from self.folders(node)

    def change(self, drawn: random.Random) -> None:
        """Makes a change, unless it is one that a kernel or the mount refuses."""
        folders = list(self.folders())
        folder, other, name, new = drawn.choice(folders), drawn.choice(folders), drawn.choice(self.NAMES), drawn.choice(self.NAMES)
        node, word, naming = folder.children.get(name), drawn.randrange(12), self.it.naming
        with suppress(OSError):
            if node is None and word == 0:
                naming.symlink(folder, name, b"target%d" % drawn.randrange(5), 0, 0)
            elif node is None and word == 1 and folder.depth < 3:
                naming.mkdir(folder, name, FOLDER, 0, 0)
            elif node is None or (word < 4 and isinstance(node, File) and node.is_regular):
                self.it.save(name, b"%d" % drawn.randrange(1000) * drawn.choice((1, 1000)), folder)
            elif word < 6:
                naming.rmdir(folder, name) if isinstance(node, Directory) else naming.unlink(folder, name)
            elif word < 9:
                naming.rename(folder, name, other, new, 0)
            elif word == 9:
                naming.rename(folder, name, other, new, EXCHANGE)
            else:
                naming.link(node, other, new)

    def some(self, drawn: random.Random, most: int) -> None:
        for _ in range(drawn.randrange(1, most)):
            self.change(drawn)
            self.later(drawn.choice((0, 0, 1, 3)))

    def kinds(self) -> dict[bytes, tuple[bool, bytes]]:
        """Returns the kind of each file, and its content or target."""
        rows = self.files()
        links = {path: node.attributes.is_link for path in rows if isinstance(node := self.node(path), File)}
        return {path: (links[path], content) for path, content in rows.items()}

    def check(self, drawn: random.Random) -> None:
        self.some(drawn, 40)
        moment, wanted = self.later(1), self.kinds()
        self.some(drawn, 25)
        self.later(1)
        before = self.kinds()
        self.undo(b"/", moment, is_dry=True)
        self.assertEqual(self.kinds(), before)
        answer, after = self.undo(b"/", moment), self.kinds()
        left = [b"/" + it.encode() for it in re.findall("^- left: (.*?): ", answer, re.M)]
        self.assertEqual(answer[:2], "no" if left else "ok")
        for path, row in wanted.items():
            if not any(path == it or path.startswith(it + b"/") for it in left):
                self.assertEqual(after.get(path), row, path)
        rows = self.it.all()
        self.assertEqual(self.mount().all(), rows)
        self.undo(b"/", moment)
        self.assertEqual(self.kinds(), after)

    def test_what_was_there_comes_back(self) -> None:
        for seed in range(60):
            with self.subTest(seed=seed):
                self.journal.unlink(missing_ok=True)
                self.unmount()
                self.mount()
                self.check(random.Random(seed))
                self.unmount()


if __name__ == "__main__":
    unittest.main()
