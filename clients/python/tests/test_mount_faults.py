"""What the parts of a mount do when something fails, and what an ordinary folder does that its store doesn't."""

from __future__ import annotations

import errno
import os
import random
import unittest
from typing import Any, Union
from unittest import mock

import elephant
from alone import Patched
from anew import changes_since, make_anew
from clocks import clock_at
from elephant.keeping import NoSpace
from elephant.mount.contents import MOST_BYTES, Limited
from elephant.mount.naming import EXCHANGE, MOST_EXTENDED, TooMuch
from elephant.mount.past import PastNode
from elephant.mount.tree import Directory
from test_mount import FOLDER, Case, Mounted


def fails(number: int) -> mock.Mock:
    return mock.Mock(side_effect=OSError(number, os.strerror(number)))


class Journals(Case):
    def test_only_its_owner_may_read_a_new_journal(self) -> None:
        self.mount()
        self.assertEqual(self.journal.stat().st_mode & 0o777, 0o600)

    def test_a_sync_that_fails_stops_the_changes_for_good(self) -> None:
        for name in ("sync_journal_aside", "sync_journal"):
            it = self.mount()
            it.save(b"f", b"one")
            with mock.patch("os.fdatasync", fails(errno.EIO)), self.assertRaises(elephant.JournalError):
                getattr(it.store, name)()
            self.assertIn("can't be synced", it.store.stopped)
            # The system says so once: what asks later has to hear it too.
            with self.assertRaises(elephant.JournalError):
                it.store.sync_journal()
            self.assertFalse(it.store.retry())

    def test_what_a_failed_write_left_is_cut_off_before_the_next(self) -> None:
        it = self.mount()
        it.save(b"f", b"one")
        write, cut = os.pwrite, os.ftruncate
        half = Patched("os.pwrite", lambda file, data, place: write(file, data[:9], place) if len(data) > 9 else fails(errno.EIO)())
        with half, mock.patch("os.ftruncate", fails(errno.EIO)), self.assertRaises(elephant.JournalError):
            it.make(b"g")
        with mock.patch("os.ftruncate", fails(errno.EIO)):
            self.assertFalse(it.store.retry())
        self.assertIs(os.ftruncate, cut)
        self.assertTrue(it.store.retry())
        self.assertEqual(sorted(self.mount().top.children), [b"f", b"g"])

    def test_a_full_quota_refuses_before_anything_changes(self) -> None:
        it = self.mount()
        node = it.open(it.save(b"f", b"one"))
        with mock.patch("elephant._disk.allocate", lambda *_: errno.EDQUOT), self.assertRaises(NoSpace):
            it.contents.write(node, 0, bytes(MOST_BYTES))

    def test_a_draft_that_can_not_be_saved_keeps_no_other_back(self) -> None:
        it = self.mount()
        for name in (b"a", b"b", b"c"):
            it.contents.write(it.open(it.make(name)), 0, name)
        write = it.store.drafts.write

        def refuses(path: bytes, *words: Any) -> int:
            if path == b"/b":
                raise elephant.NoMemory("/b")
            return write(path, *words)

        with mock.patch.object(it.store.drafts, "write", refuses):
            faults = it.contents.settle_all()
        self.assertEqual([node.path for node, _ in faults], [b"/b"])
        self.assertEqual([it.versions(name) for name in (b"a", b"b", b"c")], [[b"", b"a"], [b""], [b"", b"c"]])
        self.assertEqual(it.read(b"b"), b"b")
        it.contents.settle_all()
        self.assertEqual(self.mount().read(b"b"), b"b")

    def test_a_draft_whose_close_is_refused_stays(self) -> None:
        it = self.mount()
        node = it.open(it.make(b"f"))
        it.contents.write(node, 0, b"one")
        with mock.patch.object(it.store.drafts, "close", side_effect=elephant.NoMemory("")), self.assertRaises(elephant.NoMemory):
            it.contents.closed(node, True)
        self.assertEqual(it.read(b"f"), b"one")
        it.contents.settle_all(is_every=False)
        self.assertEqual(it.versions(b"f"), [b"", b"one"])

    def test_what_goes_on_with_a_past_is_one_change(self) -> None:
        it = self.mount()
        it.save(b"f", b"one").born -= 10
        it.rename(b"f", b"f~")
        size = it.store.journal_size
        it.make(b"f")
        self.assertEqual(len(changes_since(self.journal, it.store.journal_size, size)), 1)
        it.contents.settle_all()
        it.naming.unlink(it.top, b"f")
        size = it.store.journal_size
        it.make(b"f")
        self.assertEqual(len(changes_since(self.journal, it.store.journal_size, size)), 1)
        size = it.store.journal_size
        it.naming.symlink(it.top, b"link", b"to", 0, 0)
        self.assertEqual(len(changes_since(self.journal, it.store.journal_size, size)), 1)

    def test_an_undo_and_an_undelete_count_their_versions(self) -> None:
        it = self.mount()
        it.save(b"f", b"one")
        self.assertEqual(it.store.revert(b"/f", 1), 3)
        self.assertEqual(it.store.quota.used["versions"], 3)
        it.naming.unlink(it.top, b"f")
        self.assertEqual(it.naming._revive(b"/f", 1), True)
        used = dict(it.store.quota.used)
        self.assertEqual(used["versions"], 4)
        it.store.close()
        self.mounted = None
        self.assertEqual(self.mount().store.quota.used, used)

    def test_a_new_journal_has_the_past_too(self) -> None:
        it, drawn, clock = self.mount(), random.Random(7), 2_000_000_000
        it.store.line("default / safe:40")
        for _ in range(120):
            clock += 1
            with clock_at(clock):
                name = drawn.choice([b"a", b"b", b"c"])
                if drawn.random() < 0.2 and name in it.top.children:
                    it.naming.unlink(it.top, name)
                else:
                    it.save(name, drawn.randbytes(drawn.choice([0, 1, 9000])))
                it.store.pass_(drawn.randrange(3))
        new = self.journal.with_name("new")
        make_anew(self.journal, new)
        again = Mounted(new)
        self.addCleanup(again.store.close)
        places = [(b"/" + name, moment) for name in (b"a", b"b", b"c") for moment in range(2_000_000_000, clock)]
        found = [self.told(it, *place) for place in places]
        self.assertEqual([self.told(again, *place) for place in places], found)
        self.assertEqual({type(answer) for answer in found}, {bytes, type})

    @staticmethod
    def told(mounted: Mounted, path: bytes, moment: int) -> Union[bytes, type[elephant.Refused]]:
        try:
            return mounted.store.read(path, at=moment)
        except elephant.Refused as fault:
            return type(fault)


class Names(Case):
    def test_a_name_that_was_a_folders_since_goes_on_with_no_past(self) -> None:
        it = self.mount()
        it.save(b"f", b"one")
        it.naming.unlink(it.top, b"f")
        it.naming.mkdir(it.top, b"f", FOLDER, 0, 0)
        it.naming.rmdir(it.top, b"f")
        it.save(b"f", b"two")
        self.assertEqual(it.versions(b"f"), [b"", b"two"])
        self.assertEqual(list(it.tree.refresh()), [])
        it.naming.unlink(it.top, b"f")
        it.store.mkdir("/f")
        it.store.rmdir("/f")
        it.save(b"f", b"three")
        self.assertEqual((it.read(b"f"), list(it.tree.refresh())), (b"three", []))

    def test_a_file_that_an_undo_brought_back_gives_its_past_to_no_other_name(self) -> None:
        it = self.mount()
        it.save(b"f", b"one").born -= 10
        it.rename(b"f", b"g")
        it.naming.unlink(it.top, b"g")
        it.store.undelete("/f")
        list(it.tree.refresh())
        it.save(b"g", b"two")
        self.assertEqual((it.read(b"f"), it.read(b"g")), (b"one", b"two"))
        self.assertEqual((list(it.tree.refresh()), self.mount().read(b"f")), ([], b"one"))

    def test_a_file_that_comes_back_shares_no_mode_with_the_one_that_took_its_content(self) -> None:
        it = self.mount()
        it.save(b"f", b"one")
        it.save(b"g", b"two")
        it.rename(b"g", b"f")
        it.store.undelete("/g")
        list(it.tree.refresh())
        it.naming.set_attributes(it.top.children[b"g"], {"mode": 0o600})
        self.assertEqual([it.top.children[name].attributes.mode & 0o777 for name in (b"f", b"g")], [0o644, 0o600])
        before = it.all()
        self.assertEqual(self.mount().all(), before)

    def test_a_folder_that_a_line_renames_can_be_opened(self) -> None:
        it = self.mount()
        it.save(b"f", b"one", it.naming.mkdir(it.top, b"d", FOLDER, 0, 0))
        it.store.rename("/d", "/e")
        self.assertEqual({name for _, name in it.tree.refresh()}, {b"d", b"e"})
        folder = it.top.children[b"e"]
        assert isinstance(folder, Directory)
        self.assertIs(it.tree.by_ino.get(folder.ino), folder)
        self.assertEqual(it.contents.whole(it.file(b"f", folder)), b"one")


class Times(Case):
    def test_a_moved_folder_keeps_the_time_of_its_content(self) -> None:
        it = self.mount()
        for name in (b"d", b"f", b"g"):
            it.naming.mkdir(it.top, name, FOLDER, 0, 0)
        for name, new in ((b"d", b"e"), (b"f", b"g")):
            it.naming.set_attributes(it.top.children[name], {"mtime": 5})
            it.rename(name, new)
            self.assertEqual(it.top.children[new].attributes.mtime, 5)
        before = it.all()
        self.assertEqual(self.mount().all(), before)

    def test_a_file_that_gives_its_past_back_leaves_its_folder_as_it_is(self) -> None:
        it = self.mount()
        folder = it.naming.mkdir(it.top, b"d", FOLDER, 0, 0)
        node = it.save(b"f", b"one")
        node.born -= 10
        it.naming.rename(it.top, b"f", folder, b"f", 0)
        node.attributes.ctime = 5
        it.save(b"f", b"two")
        self.assertEqual((it.versions(b"f"), folder.children), ([b"", b"one", b"two"], {b"f": node}))
        before = it.all()
        self.assertEqual(self.mount().all(), before)

    def test_a_time_that_is_set_while_a_file_is_written_stays(self) -> None:
        it = self.mount()
        node = it.open(it.make(b"f"))
        it.contents.write(node, 0, b"one")
        it.naming.set_attributes(node, {"mtime": 7})
        it.contents.closed(node, True)
        self.assertNotEqual(node.attributes.ctime, 7)
        before = it.all()
        self.assertEqual(self.mount().all(), before)


class Pasts(Case):
    def past(self, it: Mounted, *names: bytes) -> PastNode:
        node = it.past.root
        for name in names:
            node = it.past.lookup(node, name)
        return node

    def test_an_inode_of_the_past_has_one_content(self) -> None:
        it = self.mount()
        node = it.save(b"f", b"one")
        it.naming.link(node, it.top, b"other")
        place = self.past(it, b"versions", b"f", b"2")
        self.assertEqual(it.past.content(place), b"one")
        it.naming.unlink(it.top, b"f")
        it.top.left.clear()
        it.save(b"f", b"two")
        newer = self.past(it, b"versions", b"f", b"2")
        self.assertNotEqual(newer.ino, place.ino)
        self.assertEqual(it.past.content(newer), b"two")
        with self.assertRaises(OSError) as caught:
            it.past.content(place)
        self.assertEqual(caught.exception.errno, errno.ESTALE)

    def test_a_name_that_was_made_and_deleted_within_a_second_has_no_other_files_content(self) -> None:
        it = self.mount()
        with clock_at(2_000_000_000):
            it.save(b"f", b"first")
        with clock_at(2_000_000_005):
            it.naming.unlink(it.top, b"f")
            it.top.left.clear()
            it.save(b"f", b"second")
            it.naming.unlink(it.top, b"f")
        with self.assertRaises((OSError, elephant.ElephantError)):
            it.past.content(self.past(it, b"restorable", b"f"))

    def test_names_that_lead_nowhere_leave_nothing(self) -> None:
        it = self.mount()
        with clock_at(2_000_000_000):
            it.save(b"f", b"one")
        with clock_at(2_000_000_009):
            then, versions = self.past(it, b"at", b"2000000001"), self.past(it, b"versions", b"f")
            count = len(it.past.by_ino)
            places = (then, b"none"), (versions, b"9"), (it.past.root, b"x"), (PastNode(1, ("at",)), b"9999999999")
            for parent, name in places:
                with self.assertRaises((OSError, elephant.ElephantError)):
                    it.past.lookup(parent, name)
            it.store.line("policy /f one")
            it.store.clean()
            with self.assertRaises(elephant.Forgotten):
                it.past.lookup(versions, b"1")
            self.assertEqual(len(it.past.by_ino), count)

    def test_a_folder_of_deleted_files_has_its_mode(self) -> None:
        it = self.mount()
        folder = it.naming.mkdir(it.top, b"d", 0o700, 0, 0)
        it.save(b"f", b"secret", folder)
        it.naming.unlink(folder, b"f")
        self.assertEqual(it.past.show(self.past(it, b"restorable", b"d")).mode & 0o777, 0o700)


class Exchanging(Case):
    def test_two_files_each_go_on(self) -> None:
        it = self.mount()
        nodes = it.save(b"f", b"one"), it.save(b"g", b"two")
        it.rename(b"f", b"g", EXCHANGE)
        self.assertEqual((it.top.children[b"g"], it.top.children[b"f"]), nodes)
        self.assertEqual((it.versions(b"f"), it.versions(b"g")), ([b"", b"one", b"two"], [b"", b"two", b"one"]))
        self.assertEqual((it.read(b"f"), it.read(b"g")), (b"two", b"one"))
        it.save(b"f", b"three")
        before = it.all()
        it = self.mount()
        self.assertEqual((it.all(), it.versions(b"f")), (before, [b"", b"one", b"two", b"three"]))

    def test_files_that_are_open_or_linked_and_folders_change_places(self) -> None:
        it = self.mount()
        node, folder = it.open(it.save(b"f", b"one"), writes=False), it.naming.mkdir(it.top, b"d", FOLDER, 0, 0)
        inner = it.naming.mkdir(folder, b"e", FOLDER, 0, 0)
        it.save(b"g", b"two", inner)
        size, used = it.store.journal_size, it.store.quota.used["names"]
        it.naming.rename(it.top, b"f", folder, b"e", EXCHANGE)
        self.assertEqual(len(changes_since(self.journal, it.store.journal_size, size)), 1)
        self.assertEqual(it.store.quota.used["names"], used + 3)
        self.assertEqual((it.top.children[b"f"], folder.children[b"e"]), (inner, node))
        self.assertEqual((it.top.subdirectories, folder.subdirectories, inner.path, node.path), (2, 0, b"/f", b"/d/e"))
        it.contents.closed(node, False)
        before = it.all()
        self.assertIn(b"/f/g", [row[0] for row in before])
        self.assertEqual(self.mount().all(), before)

    def test_exchanges_that_are_refused(self) -> None:
        it = self.mount(elephant.Limits(names=6))
        folder = it.naming.mkdir(it.top, b"d", FOLDER, 0, 0)
        inner = it.naming.mkdir(folder, b"e", FOLDER, 0, 0)
        it.save(b"f", b"one", inner)
        it.make(b"g")
        for words, number in (((it.top, b"d", inner, b"f"), errno.EINVAL), ((inner, b"f", it.top, b"d"), errno.EINVAL),
                              ((it.top, b"d", it.top, b"none"), errno.ENOENT), ((it.top, b"d", it.top, b"g"), errno.ENOSPC)):
            before = it.all()
            with self.assertRaises(OSError) as caught:
                it.naming.rename(*words, EXCHANGE)
            self.assertEqual((caught.exception.errno, it.all()), (number, before))
        self.assertIsInstance(caught.exception, Limited)


class Extended(Case):
    def test_they_are_kept_and_removed(self) -> None:
        it = self.mount()
        node, folder = it.save(b"f", b"one"), it.naming.mkdir(it.top, b"d", FOLDER, 0, 0)
        it.naming.set_extended(node, b"user.a", b"1 \x00\xff")
        it.naming.set_extended(node, b"user.b", b"")
        it.naming.set_extended(node, b"user.b", None)
        it.naming.set_extended(node, b"user.c", b"")
        it.naming.set_extended(folder, b"user.d", b"2")
        it.naming.set_attributes(node, {"mode": 0o600})
        before = it.all()
        it = self.mount()
        self.assertEqual(it.top.children[b"f"].attributes.extended, {b"user.a": b"1 \x00\xff", b"user.c": b""})
        self.assertEqual(it.top.children[b"d"].attributes.extended, {b"user.d": b"2"})
        self.assertEqual(it.all(), before)

    def test_they_go_with_the_file_that_is_renamed(self) -> None:
        it = self.mount()
        for name in (b"f", b"g", b"new"):
            it.naming.set_extended(it.save(name, name), b"user.is", name)
        plain = it.save(b"plain", b"")
        it.rename(b"new", b"f")
        it.rename(b"plain", b"g")
        it.save(b"h", b"")
        it.rename(b"h", b"f", EXCHANGE)
        self.assertIs(it.top.children[b"g"], plain)
        for mounted in (it, self.mount()):
            kept = {name: (node.attributes.extended or {}).get(b"user.is") for name, node in mounted.top.children.items()}
            self.assertEqual(kept, {b"f": None, b"g": None, b"h": b"new"})

    def test_they_are_in_a_new_journal(self) -> None:
        it = self.mount()
        it.naming.set_extended(it.save(b"f", b"one"), b"user.a", b"1")
        new = self.journal.with_name("new")
        make_anew(self.journal, new)
        again = Mounted(new)
        self.addCleanup(again.store.close)
        self.assertEqual(again.top.children[b"f"].attributes.extended, {b"user.a": b"1"})

    def test_they_have_a_limit(self) -> None:
        it = self.mount()
        node = it.save(b"f", b"one")
        it.naming.set_extended(node, b"user.a", bytes(MOST_EXTENDED - 20))
        with self.assertRaises(TooMuch) as caught:
            it.naming.set_extended(node, b"user.b", bytes(20))
        self.assertEqual(caught.exception.errno, errno.ENOSPC)
        size = it.store.journal_size
        it.save(b"g", b"two")
        self.assertTrue(changes_since(self.journal, it.store.journal_size, size))
        self.assertEqual(list(self.mount().file(b"f").attributes.extended or ()), [b"user.a"])


if __name__ == "__main__":
    unittest.main()
