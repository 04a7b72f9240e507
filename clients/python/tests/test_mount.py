"""The parts of a mount that need no kernel: names, attributes, drafts, renames, the past, limits, and journals that are made anew."""

from __future__ import annotations

import errno
import os
import random
import subprocess
import sys
import tempfile
import unittest
from pathlib import Path
from typing import Callable, Optional
from unittest import mock

import elephant
from alone import Patched
from anew import make_anew
from clocks import clock_at
from elephant import FileStore, Full, JournalLocked, Limits
from elephant.keeping import Clock, NoSpace
from elephant.mount.contents import MOST_BYTES, Contents, Limited, TooBig
from elephant.mount.drafts import BLOCK, changed_parts
from elephant.mount.names import TooLong, name_in, spelled
from elephant.mount.naming import NO_REPLACE, Naming
from elephant.mount.past import Past, moment_of
from elephant.mount.records import Attributes, Records, file_key, made, names_changed, saved, whole
from elephant.mount.store import MountStore
from elephant.mount.tree import Directory, File, Tree

SOURCE = str(Path(elephant.__file__).parent.parent)
MEMORY = "/dev/shm" if os.path.isdir("/dev/shm") else None
FILE, FOLDER = 0o100644, 0o755


class Mounted:
    """A mount without a kernel: what its requests would do."""

    def __init__(self, journal: Path, limits: Optional[Limits] = None, read_only: bool = False, clock: Clock = "system") -> None:
        self.store = MountStore(str(journal), limits, read_only, clock)
        self.tree = Tree(self.store)
        self.contents = Contents(self.store, self.tree)
        self.naming = Naming(self.store, self.tree, self.contents)
        self.past = Past(self.store, self.tree, b"")
        self.top = self.tree.root

    def make(self, name: bytes, mode: int = FILE, parent: Optional[Directory] = None) -> File:
        return self.naming.create(parent or self.top, name, mode, 1, 2)

    def file(self, name: bytes, parent: Optional[Directory] = None) -> File:
        node = (parent or self.top).children[name]
        assert isinstance(node, File)
        return node

    def open(self, node: File, writes: bool = True, is_cut: bool = False) -> File:
        self.contents.opened(node, writes, is_cut)
        return node

    def save(self, name: bytes, data: bytes, parent: Optional[Directory] = None) -> File:
        """Saves as a program does that opens, cuts off, writes and closes."""
        parent = parent or self.top
        node = self.file(name, parent) if name in parent.children else self.make(name, parent=parent)
        self.open(node, is_cut=self.contents.size(node) > 0)
        self.contents.write(node, 0, data)
        self.contents.save(node)
        self.contents.closed(node, True)
        return node

    def rename(self, old: bytes, new: bytes, flags: int = 0) -> None:
        self.naming.rename(self.top, old, self.top, new, flags)

    def read(self, name: bytes) -> bytes:
        return self.contents.whole(self.file(name))

    def versions(self, name: bytes) -> list[bytes]:
        path = self.top.path_of(name)
        return [self.store.read(path, version=it.number) for it in self.store.versions(path)]

    def close(self) -> None:
        self.contents.settle_all()
        self.store.close()

    def all(self) -> list[tuple[object, ...]]:
        """Everything that it shows of the present."""
        rows: list[tuple[object, ...]] = []

        def below(folder: Directory, path: bytes) -> None:
            it = folder.attributes
            rows.append((path, it.mode, it.owner, it.group, it.mtime))
            for name, node in sorted(folder.children.items()):
                if isinstance(node, Directory):
                    below(node, path + b"/" + name)
                    continue
                it = node.attributes
                rows.append((path + b"/" + name, it.mode, it.owner, it.group, it.atime, it.mtime, it.ctime, it.extended or {},
                             len(node.names), self.contents.whole(node)))

        below(self.top, b"")
        return rows


class Case(unittest.TestCase):
    def setUp(self) -> None:
        room = tempfile.TemporaryDirectory(dir=MEMORY)
        self.addCleanup(room.cleanup)
        self.journal = Path(room.name, "journal")
        self.mounted: Optional[Mounted] = None

    def mount(self, limits: Optional[Limits] = None) -> Mounted:
        self.unmount()
        self.mounted = Mounted(self.journal, limits)
        self.addCleanup(self.mounted.store.close)
        return self.mounted

    def unmount(self) -> None:
        if self.mounted is not None:
            self.mounted.close()
        self.mounted = None


class Names(unittest.TestCase):
    def test_every_byte_is_spelled_and_read_back(self) -> None:
        for byte in set(range(1, 256)) - {0x2F}:
            for name in (bytes([byte]), b"a" + bytes([byte, byte])):
                self.assertEqual(name_in(spelled(name)), name if name != b"." else b"%2E")
                self.assertTrue(all(0x21 <= it <= 0x7E and it not in b"/@#" for it in spelled(name)))

    def test_sixty_four_bytes_fit_and_one_more_is_refused(self) -> None:
        self.assertEqual(spelled(b"n" * 64), b"n" * 64)
        self.assertEqual(spelled("\u00e4".encode() * 10), b"%C3%A4" * 10)
        for name in (b"n" * 65, b"@" * 22, "\u00e4".encode() * 11):
            with self.assertRaises(TooLong) as caught:
                spelled(name)
            self.assertEqual(caught.exception.errno, errno.ENAMETOOLONG)

    def test_moments(self) -> None:
        self.assertEqual(moment_of(b"1970-01-02T00:00:00Z"), 86_400)
        self.assertEqual(moment_of(b"@86400"), 86_400)
        self.assertEqual(moment_of(b"1970-01-01T01:00:00+01:00"), 0)
        for word in (b"", b"x", b"-1", b"1970-13-01T00:00:00Z", b"99999999999999"):
            with self.assertRaises(FileNotFoundError):
                moment_of(word)


class Attribute(unittest.TestCase):
    def test_remarks_are_read_as_they_are_written(self) -> None:
        records, it = Records(), Attributes(0o100640, 5, 6, 7, 7, 7)
        for line in (made(file_key(3), 1, it), saved(file_key(3), 11), names_changed(13, 1, file_key(3))):
            records.apply(line[2:])
        found, top = records.of(file_key(3)), records.of(1)
        assert found is not None and top is not None
        self.assertEqual((found.mode, found.owner, found.group, found.atime, found.mtime, found.ctime), (0o100640, 5, 6, 7, 11, 13))
        self.assertEqual((top.mtime, top.ctime), (13, 13))
        records.apply(whole(file_key(3), Attributes(0o120777, 1, 2, 3, 4, 5))[2:])
        link = records.of(file_key(3))
        self.assertTrue(link is not None and link.is_link)
        for remark in (b"of another program", b"saved by me", b"names", b"made f1", b"attr f1 x 1 2 3", b"xattr f1 1 zz =zz"):
            records.apply(remark)

    def test_parts(self) -> None:
        self.assertEqual(changed_parts(b"", b""), [])
        self.assertEqual(changed_parts(b"abc", b"abc"), [(0, 1)])
        self.assertEqual(changed_parts(b"abc", b""), [])
        old = bytes(3 * BLOCK)
        self.assertEqual(changed_parts(old, old[:BLOCK] + b"x" + old[BLOCK + 1:]), [(BLOCK, 2 * BLOCK)])
        self.assertEqual(changed_parts(old, old + b"y"), [(3 * BLOCK, 3 * BLOCK + 1)])
        self.assertEqual(changed_parts(old, old[:BLOCK + 5]), [(0, 1)])  # what is cut off is no part
        self.assertEqual(changed_parts(old, b"x" + old[1:BLOCK] + b"y" + old[:BLOCK]), [(0, 2 * BLOCK)])


class Saving(Case):
    def test_a_save_over_the_file_is_a_version(self) -> None:
        it = self.mount()
        for text in (b"one", b"two", b"three"):
            it.save(b"f", text)
        self.assertEqual(it.versions(b"f"), [b"", b"one", b"two", b"three"])

    def test_a_file_renamed_over_one_is_its_next_version(self) -> None:
        it = self.mount()
        it.save(b"f", b"one")
        number = it.top.children[b"f"].number
        node = it.save(b"new", b"two")
        it.rename(b"new", b"f")
        self.assertIs(it.top.children[b"f"], node)
        self.assertEqual((node.number, it.versions(b"f")), (number, [b"", b"one", b"two"]))
        self.assertEqual(list(it.top.children), [b"f"])
        self.assertEqual(it.read(b"f"), b"two")

    def test_a_file_moved_away_and_made_anew_goes_on(self) -> None:
        it = self.mount()
        it.save(b"f", b"one").born -= 10
        it.rename(b"f", b"f~")
        it.save(b"f", b"two")
        self.assertEqual(it.versions(b"f"), [b"", b"one", b"two"])
        self.assertEqual((it.read(b"f~"), it.versions(b"f~")), (b"one", [b"", b"one"]))

    def test_a_file_moved_away_long_ago_keeps_its_past(self) -> None:
        it = self.mount()
        it.save(b"f", b"one").born -= 10
        it.rename(b"f", b"g")
        with mock.patch("time.monotonic", lambda: 1e12):
            it.save(b"f", b"two")
        self.assertEqual((it.versions(b"f"), it.versions(b"g")), ([b"", b"two"], [b"", b"one"]))

    def test_a_file_moved_over_its_last_backup_goes_on(self) -> None:
        it = self.mount()
        for text in (b"one", b"two", b"three"):
            it.save(b"f", text)
        it.save(b"f~", b"old")
        it.rename(b"f", b"f~")
        it.save(b"f", b"four")
        # Bringing it back makes a version of what it held.
        self.assertEqual(it.versions(b"f"), [b"", b"one", b"two", b"three", b"three", b"four"])
        self.assertEqual(it.versions(b"f~"), [b"", b"old", b"three"])
        while it.store.clean():
            pass
        self.assertEqual(len(it.versions(b"f")), 6)

    def test_a_file_deleted_and_made_anew_goes_on(self) -> None:
        it = self.mount()
        it.save(b"f", b"one")
        it.naming.unlink(it.top, b"f")
        it.save(b"f", b"two")
        self.assertEqual(it.versions(b"f"), [b"", b"one", b"one", b"two"])
        before = it.all()
        self.assertEqual(self.mount().all(), before)

    def test_a_new_name_does_not_take_the_past_of_a_file_that_was_saved_by_it(self) -> None:
        it = self.mount()
        it.save(b"f", b"one")
        for text in (b"two", b"three"):
            it.save(b"new", text)
            it.rename(b"new", b"f")
        self.assertEqual(it.versions(b"f"), [b"", b"one", b"two", b"three"])
        it.save(b"new", b"x")
        self.assertEqual(it.versions(b"new"), [b"", b"x"])
        it.rename(b"new", b"g")
        it.save(b"new", b"y")
        self.assertEqual((it.versions(b"new"), it.versions(b"g")), ([b"", b"y"], [b"", b"x"]))

    def test_other_names_keep_what_they_had(self) -> None:
        it = self.mount()
        node = it.save(b"f", b"one")
        it.naming.link(node, it.top, b"other")
        it.save(b"new", b"two")
        it.rename(b"new", b"f")
        self.assertEqual((it.read(b"f"), it.read(b"other")), (b"two", b"one"))

    def test_an_open_file_keeps_what_it_had(self) -> None:
        it = self.mount()
        node = it.open(it.save(b"f", b"one"), writes=False)
        it.save(b"new", b"two")
        it.rename(b"new", b"f")
        self.assertEqual((it.contents.whole(node), it.read(b"f")), (b"one", b"two"))
        it.contents.closed(node, False)
        self.assertEqual(it.contents.drafts, set())

    def test_readers_see_a_draft_and_its_version_is_made_at_the_last_close(self) -> None:
        it = self.mount()
        node = it.save(b"f", b"one")
        for _ in range(2):
            it.open(node)
        it.contents.write(node, 1, b"XYZ")
        self.assertEqual(it.contents.whole(node), b"oXYZ")
        it.contents.closed(node, True)
        self.assertEqual(it.versions(b"f"), [b"", b"one"])
        it.contents.closed(node, True)
        self.assertEqual(it.versions(b"f"), [b"", b"one", b"oXYZ"])

    def test_renames_that_are_refused(self) -> None:
        it = self.mount()
        it.save(b"f", b"one")
        it.save(b"g", b"two")
        folder = it.naming.mkdir(it.top, b"d", FOLDER, 0, 0)
        it.save(b"x", b"", folder)
        renames = (
            (b"f", b"g", NO_REPLACE, errno.EEXIST), (b"f", b"d", 0, errno.EISDIR), (b"d", b"f", 0, errno.ENOTDIR),
            (b"none", b"f", 0, errno.ENOENT), (b"f", b"g", 4, errno.EINVAL),
        )
        for old, new, flags, number in renames:
            with self.assertRaises(OSError) as caught:
                it.rename(old, new, flags)
            self.assertEqual(caught.exception.errno, number)
        with self.assertRaises(OSError) as caught:
            it.naming.rename(it.top, b"d", folder, b"itself", 0)
        self.assertEqual(caught.exception.errno, errno.EINVAL)
        with self.assertRaises(OSError):
            it.naming.rmdir(it.top, b"d")
        self.assertEqual((it.read(b"f"), it.read(b"g")), (b"one", b"two"))

    def test_a_folder_can_not_be_moved_deeper_than_a_path_may_be(self) -> None:
        it = self.mount()
        folder = it.top
        for _ in range(31):
            folder = it.naming.mkdir(folder, b"d", FOLDER, 0, 0)
        it.save(b"f", b"deep", folder)
        with self.assertRaises(TooLong):
            it.naming.mkdir(it.naming.mkdir(folder, b"d", FOLDER, 0, 0), b"e", FOLDER, 0, 0)
        other = it.naming.mkdir(it.top, b"other", FOLDER, 0, 0)
        with self.assertRaises(TooLong):
            it.naming.rename(it.top, b"d", other, b"d", 0)


class Limits_(Case):
    def test_a_content_has_at_most_a_mebibyte(self) -> None:
        it = self.mount()
        node = it.open(it.make(b"f"))
        it.contents.write(node, MOST_BYTES - 1, b"x")
        calls: list[Callable[[], object]] = [
            lambda: it.contents.write(node, MOST_BYTES, b"x"), lambda: it.contents.truncate(node, MOST_BYTES + 1),
        ]
        for call in calls:
            with self.assertRaises(TooBig) as caught:
                call()
            self.assertEqual(caught.exception.errno, errno.EFBIG)
        self.assertEqual(it.contents.size(node), MOST_BYTES)

    def test_a_limit_is_reached_before_anything_is_lost(self) -> None:
        it = self.mount(Limits(versions=5))
        it.save(b"f", b"one")
        it.save(b"f", b"two")
        it.save(b"f", b"three")
        node = it.open(it.file(b"f"))
        it.contents.write(node, 0, b"four")
        it.contents.closed(node, True)
        with self.assertRaises(Limited) as caught:
            it.contents.begin(it.open(node))
        self.assertEqual((caught.exception.limit, caught.exception.errno), ("versions", errno.ENOSPC))
        self.assertEqual(it.read(b"f"), b"foure")
        with self.assertRaises(Full):
            it.make(b"g")

    def test_counts_are_the_same_after_another_mount(self) -> None:
        it = self.mount()
        folder = it.naming.mkdir(it.top, b"d", FOLDER, 0, 0)
        it.save(b"f", b"one", folder)
        it.save(b"g", b"two")
        it.naming.link(it.top.children[b"g"], it.top, b"h")
        it.rename(b"h", b"i")
        it.store.group_make("m")
        # Each save makes a file, its empty version and one more; mkdir, two creates, a link and a rename make names.
        wanted = {"files": 2, "directories": 1, "names": 5, "versions": 4, "handles": 2, "groups": 1, "members": 0, "marks": 0}
        self.assertEqual(it.store.quota.used, wanted)
        self.assertEqual(self.mount().store.quota.used, wanted)

    def test_a_full_disk_refuses_before_it_changes_anything(self) -> None:
        it = self.mount()
        node = it.open(it.save(b"f", b"one"))
        with mock.patch("elephant._disk.allocate", lambda *_: errno.ENOSPC), self.assertRaises(NoSpace):
            it.contents.write(node, 0, bytes(MOST_BYTES))
        it.contents.closed(node, True)
        self.assertEqual(it.read(b"f"), b"one")
        self.assertEqual(self.mount().read(b"f"), b"one")

    def test_what_the_journal_lacks_is_written_when_that_works_again(self) -> None:
        it = self.mount()
        it.save(b"f", b"one")
        with Patched("os.pwrite", side_effect=OSError(errno.EIO, "a fault")), self.assertRaises(elephant.JournalError):
            it.make(b"g")
        self.assertTrue(it.store.stopped)
        self.assertEqual(it.read(b"f"), b"one")
        self.assertTrue(it.store.retry())
        self.assertEqual(sorted(self.mount().top.children), [b"f", b"g"])


class Again(Case):
    def fill(self, it: Mounted) -> None:
        folder = it.naming.mkdir(it.top, b"d \xff", 0o2750, 3, 4)
        it.save(b"f@", b"one", folder)
        it.save(b"f@", b"two", folder)
        it.naming.symlink(it.top, b"link", b"d/nowhere", 5, 6)
        it.naming.link(folder.children[b"f@"], it.top, b"hard")
        it.make(b"fifo", 0o010600)
        it.naming.set_attributes(it.top.children[b"fifo"], {"mode": 0o640, "owner": 9, "atime": 11, "mtime": 12})
        it.save(b"gone", b"x")
        it.naming.unlink(it.top, b"gone")
        it.save(b"new", b"three")
        it.rename(b"new", b"hard2")
        it.save(b"new", b"four")
        it.rename(b"new", b"hard2")
        it.rename(b"hard2", b"moved")
        it.save(b"hard2", b"five")

    def test_everything_is_there_after_another_mount(self) -> None:
        it = self.mount()
        self.fill(it)
        before = it.all()
        self.assertEqual(self.mount().all(), before)

    def test_a_plain_store_opens_the_journal(self) -> None:
        self.fill(self.mount())
        self.unmount()
        with FileStore(self.journal, clock="manual") as store:
            self.assertEqual(store.read("/d \udcff/f@"), b"two")
            self.assertEqual(store.read("/link"), b"d/nowhere")
        self.assertEqual(self.mount().read(b"hard"), b"two")

    def test_a_second_mount_of_a_journal_is_refused(self) -> None:
        self.mount()
        with self.assertRaises(JournalLocked):
            MountStore(str(self.journal))

    def test_what_was_saved_of_a_draft_survives_and_the_rest_does_not(self) -> None:
        it = self.mount()
        node = it.open(it.save(b"f", b"one"))
        it.contents.write(node, 0, b"two")
        it.contents.save(node)
        it.contents.write(node, 0, b"six")
        copy = self.journal.with_name("copy")
        copy.write_bytes(self.journal.read_bytes())
        again = Mounted(copy)
        self.assertEqual((again.read(b"f"), again.versions(b"f")), (b"two", [b"", b"one", b"two"]))
        again.close()

    def test_deleted_files_come_back(self) -> None:
        it = self.mount()
        with clock_at(2_000_000_000):
            it.save(b"f", b"one")
        with clock_at(2_000_000_005):
            it.naming.unlink(it.top, b"f")
        for again in (False, True):
            it = self.mount() if again else it
            place = it.past.lookup(it.past.lookup(it.past.root, b"restorable"), b"f")
            self.assertEqual(it.past.content(place), b"one")
        at = it.past.lookup(it.past.root, b"at")
        then = it.past.lookup(at, b"2000000001")
        self.assertEqual(it.past.content(it.past.lookup(then, b"f")), b"one")
        with self.assertRaises(FileNotFoundError):
            it.past.lookup(it.past.lookup(at, b"1999999999"), b"f")


class Anew(Case):
    def made_anew(self) -> Path:
        new = self.journal.with_name("new")
        make_anew(self.journal, new)
        return new

    def test_contents_that_nobody_needs_are_left_out(self) -> None:
        it = self.mount()
        it.store.line("default / one")
        for number in range(20):
            it.save(b"f", bytes([65 + number]) * 50_000)
        while it.store.clean():
            pass
        before, size = it.all(), it.store.journal_size
        new = self.made_anew()
        # Of 20 contents of 50,000 bytes one is left.
        self.assertGreater(size, 1_000_000)
        self.assertLess(new.stat().st_size, 60_000)
        again = Mounted(new)
        self.assertEqual((again.all(), again.store.quota.used), (before, it.store.quota.used))
        with self.assertRaises(elephant.Forgotten):
            again.store.read("/f", version=5)
        again.close()

    def test_random_saves_reverts_and_removals(self) -> None:
        for seed in range(8):
            with self.subTest(seed=seed):
                self.journal.unlink(missing_ok=True)
                self.mounted = None
                it = self.mount()
                self.random_changes(random.Random(seed), it)
                before = it.all()
                again = Mounted(self.made_anew())
                self.assertEqual(again.all(), before)
                again.close()
                self.journal.with_name("new").unlink()
                self.unmount()

    def random_changes(self, drawn: random.Random, it: Mounted) -> None:
        clock = 2_000_000_000
        it.store.line("default / safe:3/2")
        for _ in range(150):
            clock += drawn.randrange(3)
            with clock_at(clock):
                self.random_change(drawn, it, drawn.choice([b"a", b"b", b"c"]))

    def random_change(self, drawn: random.Random, it: Mounted, name: bytes) -> None:
        node, word = it.top.children.get(name), drawn.randrange(8)
        if word < 4 or node is None:
            it.save(name, drawn.randbytes(drawn.choice([0, 1, 5000, 20_000])))
        elif word == 4:
            held = it.store.versions(it.top.path_of(name))
            it.store.revert(it.top.path_of(name), drawn.choice(held).number)
            list(it.tree.refresh())
        elif word == 5:
            it.naming.unlink(it.top, name)
            if drawn.random() < 0.5:
                it.store.undelete(it.top.path_of(name))
                list(it.tree.refresh())
        elif word == 6:
            it.rename(name, drawn.choice([b"a", b"b", b"c", b"d"]))
        else:
            it.store.pass_(drawn.randrange(4))


class Command(Case):
    def run_command(self, *words: str) -> subprocess.CompletedProcess[str]:
        environment = {**os.environ, "PYTHONPATH": SOURCE}
        command = [sys.executable, "-m", "elephant.mount", *words]
        return subprocess.run(command, env=environment, capture_output=True, text=True, check=False)

    def test_words_that_are_refused(self) -> None:
        commands: list[tuple[list[str], int]] = [([], 2), (["--at", "/"], 2), (["/nowhere", "--journal", str(self.journal)], 1)]
        for words, status in commands:
            ran = self.run_command(*words)
            self.assertEqual((ran.returncode, ran.stdout), (status, ""))
            self.assertIn("elephant-mount", ran.stderr)
        self.assertFalse(self.journal.exists())

    def test_a_line_to_a_folder_that_is_no_mount(self) -> None:
        ran = self.run_command("--at", str(self.journal.parent), "due")
        self.assertEqual((ran.returncode, ran.stdout), (2, ""))
        self.assertIn("no mounted folder", ran.stderr)


if __name__ == "__main__":
    unittest.main()
