"""What a mount does beside its requests: tidying, cleaning, syncing, lines, and its end.

tools/mount runs this, since it needs pyfuse3.
"""

from __future__ import annotations

import asyncio
import errno
import os
import stat
import threading
import types
import unittest
from pathlib import Path
from typing import Any, Optional
from unittest import mock

try:
    import pyfuse3
except ImportError:
    raise unittest.SkipTest("there is no pyfuse3 for this Python") from None

from elephant import Full, JournalError, JournalLost, Limits
from elephant.mount import keeper as keepers
from elephant.mount.contents import Limited
from elephant.mount.control import Changes, Lines
from elephant.mount.keeper import Keeper
from elephant.mount.log import Log
from elephant.mount.loop import Loop
from elephant.mount.mounting import Asked, Mount
from elephant.mount.names import spelled
from elephant.mount.operations import Operations
from elephant.mount.tidying import MOST_LOOKS, Tidying
from elephant.mount.tree import Directory, File
from alone import Patched
from clocks import FalseClocks
from test_mount import FILE, FOLDER, Case, Mounted
from test_mount_names import make_raw


class Said(Log):
    """A log that keeps what is said."""

    def __init__(self) -> None:
        super().__init__()
        self.lines: list[str] = []

    def say(self, text: str) -> None:
        self.lines.append(text)

    def say_once(self, text: str) -> None:
        self.lines.append(text)


class Parts(Case):
    def mount(self, limits: Optional[Limits] = None) -> Mounted:
        it = super().mount(limits)
        self.log = Said()
        self.operations = Operations(it.store, it.tree, it.contents, it.naming, it.past, self.log)
        self.tidying = Tidying(self.operations, self.log)
        return it

    def keeper(self, kind: type[Keeper] = Keeper, clean_every: float = 0.0) -> Keeper:
        made = kind(self.operations, self.tidying, self.log, lambda _: None, clean_every, 0.0)
        self.addCleanup(made.stop)
        return made


class Attributes(Parts):
    """What `ls` and `du` print of a file and of a folder."""

    def entry(self, ino: int) -> Any:
        return asyncio.run(self.operations.getattr(ino, None))

    def test_of_files_and_folders(self) -> None:
        it = self.mount()
        for size, blocks in ((0, 0), (1, 1), (512, 1), (513, 2), (5_000, 10)):
            found = self.entry(it.save(b"f", bytes(size)).ino)
            self.assertEqual((found.st_size, found.st_blocks, found.st_blksize), (size, blocks, 4096))
            self.assertEqual((found.st_mode, found.st_nlink, found.st_uid, found.st_gid), (FILE, 1, 1, 2))
        it.naming.link(it.file(b"f"), it.top, b"g")
        self.assertEqual(self.entry(it.file(b"g").ino).st_nlink, 2)
        folder = it.naming.mkdir(it.top, b"folder", FOLDER, 3, 4)
        it.naming.mkdir(folder, b"below", FOLDER, 3, 4)
        found = self.entry(folder.ino)
        self.assertEqual((found.st_mode, found.st_nlink, found.st_uid, found.st_gid), (0o40755, 3, 3, 4))
        self.assertEqual((found.st_size, found.st_blocks), (4096, 8))

    def test_of_the_past(self) -> None:
        it = self.mount()
        it.save(b"f", bytes(5_000))
        ino = it.top.ino
        for name in (b".elephant", b"at", b"%d" % it.store.now, b"f"):
            found = asyncio.run(self.operations.lookup(ino, name, None))
            ino = found.st_ino
        self.assertEqual((found.st_mode, found.st_nlink, found.st_uid, found.st_gid), (FILE, 1, 1, 2))
        self.assertEqual((found.st_size, found.st_blocks), (5_000, 10))

    def test_only_files_pipes_and_sockets_are_made(self) -> None:
        it = self.mount()
        context = types.SimpleNamespace(uid=1, gid=2)
        for kind in (stat.S_IFREG, stat.S_IFIFO, stat.S_IFSOCK):
            made = asyncio.run(self.operations.mknod(it.top.ino, b"%d" % kind, kind | 0o600, 0, context))
            self.assertEqual((made.st_mode, made.st_nlink), (kind | 0o600, 1))
        for kind in (stat.S_IFCHR, stat.S_IFBLK):
            with self.assertRaises(pyfuse3.FUSEError) as refused:
                asyncio.run(self.operations.mknod(it.top.ino, b"%d" % kind, kind | 0o600, 1, context))
            self.assertEqual(refused.exception.errno, errno.EPERM)
        self.assertEqual(len(it.top.children), 3)


class Space(Parts):
    """What `df` prints of a mount."""

    def told(self) -> Any:
        return asyncio.run(self.operations.statfs(None))

    def test_as_many_files_can_be_saved_as_are_told(self) -> None:
        """Each takes a file, a name and two versions, and one in a hundred of each is kept back."""
        for limits, free in (
            (Limits(files=7), 7), (Limits(files=200), 198), (Limits(names=30), 30), (Limits(names=300), 297), (Limits(versions=41), 20),
        ):
            it = self.mount(limits)
            it.naming.mkdir(it.top, b"folder", FOLDER, 1, 2)
            free -= limits.names < 1000
            for made in range(free):
                told = self.told()
                self.assertEqual((told.f_files, told.f_ffree, told.f_favail), (limits.files, free - made, free - made), limits)
                it.save(b"%d" % made, b"x")
            self.assertEqual((self.told().f_ffree, self.told().f_favail), (0, 0), limits)
            self.assertRaises((Full, Limited), it.save, b"more", b"x")
            it.close()
            self.journal.unlink()

    def test_the_space_is_that_of_the_disk(self) -> None:
        """While the journal is made anew the disk has a content twice. None is free if the journal can't be written."""
        it = self.mount()
        disk, journal = it.store.disk(), os.statvfs(self.journal)
        self.assertEqual((disk.f_fsid, disk.f_frsize, disk.f_blocks), (journal.f_fsid, journal.f_frsize, journal.f_blocks))
        made_up = types.SimpleNamespace(f_frsize=8192, f_blocks=1000, f_bavail=300, f_bfree=400)
        with mock.patch.object(it.store, "disk", return_value=made_up):
            told = self.told()
            self.assertEqual((told.f_bsize, told.f_frsize, told.f_namemax), (4096, 4096, 64))
            self.assertEqual((told.f_blocks, told.f_bfree, told.f_bavail), (2000, 300, 300))
            it.store.stopped = "the disk is full"
            self.assertEqual((self.told().f_bfree, self.told().f_bavail), (0, 0))


class Tidyings(Parts):
    """The journal is made anew at quiet moments, and for who asks for it."""

    def fill(self, it: Mounted) -> None:
        it.store.line("default / one")
        for number in range(30):
            it.save(b"f", bytes([65 + number]) * 50_000)
        while it.store.clean():
            pass

    def test_it_waits_until_nothing_is_changed(self) -> None:
        it = self.mount()
        self.fill(it)
        size = it.store.journal_size
        self.tidying.run_if_worth()
        it.save(b"g", b"one")
        self.tidying.run_if_worth()
        self.assertEqual((it.store.journal_size > size, self.log.lines), (True, []))
        self.tidying.run_if_worth()
        self.assertLess(it.store.journal_size, 60_000)
        self.assertRegex(self.log.lines[0], r"^the journal was made anew in [0-9.]+ seconds: \d+ bytes before, \d+ now$")
        self.tidying.run_if_worth()
        self.assertEqual(len(self.log.lines), 1)
        it.save(b"g", b"after")
        before = it.all()
        self.assertEqual(super().mount().all(), before)

    def test_it_does_not_wait_for_ever(self) -> None:
        it = self.mount()
        self.fill(it)
        for number in range(MOST_LOOKS):
            self.assertGreater(it.store.journal_size, 60_000, number)
            it.save(b"g", b"%d" % number)
            self.tidying.run_if_worth()
        self.assertLess(it.store.journal_size, 60_000)

    def test_it_is_done_when_the_journal_is_opened(self) -> None:
        it = self.mount()
        self.fill(it)
        before = it.all()
        it = self.mount()
        self.tidying.begin()
        self.assertLess(it.store.journal_size, 60_000)
        self.assertEqual((it.all(), len(self.log.lines)), (before, 1))

    def test_with_a_history_only_who_asks_gets_it(self) -> None:
        it = self.mount()
        self.fill(it)
        size, kept = it.store.journal_size, Tidying(self.operations, self.log, False)
        for _ in range(MOST_LOOKS + 1):
            kept.run_if_worth()
        kept.begin()
        self.assertEqual(it.store.journal_size, size)
        self.assertRegex(kept.run_and_tell(), rf"^ok journal {size} \d+\n$")
        self.assertLess(it.store.journal_size, 60_000)

    def test_who_asks_for_it_gets_a_journal_without_what_was_removed(self) -> None:
        it = self.mount()
        it.save(b"f", b"secret")
        it.store.line("default / one")
        it.store.line("policy /f one")
        it.save(b"f", b"public")
        it.store.tick(1)
        while it.store.clean():
            pass
        for number in range(9):
            it.save(b"%d" % number, os.urandom(5000))
        before = it.all()
        self.assertIn(b"secret", self.journal.read_bytes())
        self.tidying.begin()  # it isn't worth it
        self.assertIn(b"secret", self.journal.read_bytes())
        self.assertRegex(self.tidying.run_and_tell(), r"ok journal \d+ \d+\n$")
        self.assertNotIn(b"secret", self.journal.read_bytes())
        self.assertEqual(it.all(), before)
        self.assertEqual(super().mount().all(), before)

    def test_owner_and_mode_stay(self) -> None:
        self.fill(self.mount())
        os.chmod(self.journal, 0o640)
        rename, modes = os.rename, list[int]()

        def look(old: str, new: str) -> None:
            modes.append(os.stat(old).st_mode & 0o777)
            rename(old, new)

        with mock.patch("os.rename", look):
            self.tidying.begin()
        self.assertEqual((modes, self.journal.stat().st_mode & 0o777), ([0o640], 0o640))

    def test_a_mount_that_ends_keeps_its_journal(self) -> None:
        self.fill(self.mount())
        before = self.journal.stat()
        self.tidying.stop()
        for _ in range(3):
            self.tidying.run_if_worth()
        self.assertTrue(os.path.samestat(self.journal.stat(), before))

    def test_a_full_disk_leaves_the_journal_as_it_is(self) -> None:
        it = self.mount()
        self.fill(it)
        before = self.journal.stat()
        with mock.patch("os.fsync", side_effect=OSError(errno.ENOSPC, os.strerror(errno.ENOSPC))):
            self.tidying.begin()
        self.assertIn(os.strerror(errno.ENOSPC), self.log.lines[0])
        self.assertTrue(os.path.samestat(self.journal.stat(), before))
        it.save(b"g", b"after")
        shown = it.all()
        self.assertEqual((it.store.stopped, super().mount().all()), ("", shown))

    def test_a_journal_that_was_moved_replaces_none(self) -> None:
        it = self.mount()
        self.fill(it)
        self.journal.rename(self.journal.with_name("moved"))
        self.journal.write_bytes(self.journal.with_name("moved").read_bytes())
        before = self.journal.stat()
        self.assertRegex(self.tidying.run_and_tell(), "^elephant-mount: .*was replaced")
        self.assertTrue(os.path.samestat(self.journal.stat(), before))
        with self.assertRaises(JournalLost):
            it.store.close()


class Renewing(Parts):
    """A store whose counts are near their limits gets fresh numbers, and the folder shows the same."""

    def test_numbers_are_made_anew(self) -> None:
        it = self.mount(Limits(versions=100))
        it.store.line("default / one")
        folder = it.naming.mkdir(it.top, b"d", 0o750, 3, 4)
        it.naming.set_extended(it.save(b"kept", b"kept", folder), b"user.a", b"1")
        it.save(b"lost", b"lost")
        it.naming.unlink(it.top, b"lost")
        for number in range(86):
            it.save(b"f", b"%d" % number)
        node = it.file(b"f")
        node.lookups += 1
        while it.store.clean():
            pass
        for text in (b"one", b"two"):
            it.store.line("policy /f all")
            it.save(b"f", text)
        before, ino, size = it.all(), node.ino, it.store.journal_size
        past = it.past.lookup(it.past.lookup(it.past.lookup(it.past.root, b"versions"), b"f"), b"%d" % node.version)
        past.lookups += 1
        self.tidying.begin()
        self.assertRegex(self.log.lines[0], "^the store has fresh numbers, since it had made .* 9[0-9] versions: now it has ")
        self.assertLess(it.store.counts().versions, 20)
        self.assertLess(it.store.journal_size, size)
        self.assertEqual((it.all(), node.ino, it.file(b"f")), (before, ino, node))
        self.assertEqual(it.versions(b"f")[-2:], [b"one", b"two"])
        with self.assertRaises(OSError) as stale:
            it.past.content(past)
        self.assertEqual(stale.exception.errno, errno.ESTALE)
        self.assertEqual(list(it.tree.refresh()), [])
        it.save(b"f", b"three")
        it.rename(b"f", b"g")
        it.save(b"new", b"four")
        it.naming.unlink(folder, b"kept")
        before = it.all()
        self.assertEqual(it.versions(b"g")[-3:], [b"one", b"two", b"three"])
        it = self.mount()
        self.assertEqual((it.all(), it.versions(b"g")[-3:]), (before, [b"one", b"two", b"three"]))
        self.assertEqual(it.store.undelete("/d/kept"), 2)

    def test_an_undo_goes_on_over_it(self) -> None:
        it = self.mount(Limits(versions=100))
        it.store.line("default / one")
        for number in range(84):
            it.save(b"other", b"%d" % number)
        lines = Lines(self.operations)
        for text in (b"one", b"two", b"three"):
            it.save(b"f", text)
            lines.answer("policy /f all")
        self.assertRegex(lines.answer("undo /f")[0], "^ok")
        while it.store.clean():
            pass
        self.assertEqual(it.read(b"f"), b"two")
        self.tidying.begin()
        self.assertIn("fresh numbers", self.log.lines[-1])
        self.assertRegex(lines.answer("undo /f")[0], "^ok")
        self.assertEqual(it.read(b"f"), b"one")
        self.assertRegex(lines.answer("redo /f")[0], "^ok")
        self.assertEqual(it.read(b"f"), b"two")

    def test_it_waits_while_a_file_is_open(self) -> None:
        it = self.mount(Limits(versions=100))
        it.store.line("default / one")
        for number in range(90):
            it.save(b"f", b"%d" % number)
        while it.store.clean():
            pass
        node = it.open(it.file(b"f"))
        it.contents.write(node, 0, b"x")
        it.contents.save(node)
        self.tidying.begin()
        self.assertGreater(it.store.counts().versions, 90)
        it.contents.closed(node, True)
        self.tidying.begin()
        self.assertLess(it.store.counts().versions, 10)
        self.assertEqual(it.read(b"f"), b"x9")


class Keepers(Parts):
    def test_a_fault_of_a_task_is_logged_and_ends_nothing(self) -> None:
        self.mount()
        keeper = self.keeper()
        keeper._guarded(lambda: 1 // 0)
        keeper._guarded(mock.Mock(side_effect=OSError(errno.EIO, "a fault")))
        self.assertEqual(len(self.log.lines), 2)

    def test_a_sync_that_fails_is_logged(self) -> None:
        it = self.mount()
        keeper = self.keeper()
        it.save(b"f", b"one")
        with mock.patch("os.fdatasync", side_effect=OSError(errno.EIO, "a fault")):
            keeper._guarded(keeper.sync)
        self.assertEqual(["can't be synced" in line for line in self.log.lines], [True])
        with self.assertRaises(OSError) as caught:
            self.operations.require_writable()
        self.assertEqual(caught.exception.errno, errno.EROFS)

    def test_syncing_goes_on_while_a_clean_up_runs(self) -> None:
        self.mount()
        cleaning, synced = threading.Event(), threading.Event()

        class Slow(Keeper):
            def clean(self) -> int:
                cleaning.set()
                synced.wait(20)
                return 0

            def sync(self) -> None:
                if cleaning.is_set():
                    synced.set()

        with mock.patch.object(keepers, "SYNC_EVERY", 0.01):
            keeper = self.keeper(Slow, 0.01)
        keeper.start()
        self.assertTrue(cleaning.wait(10) and synced.wait(10))

    def test_files_that_were_closed_meanwhile_become_versions(self) -> None:
        it = self.mount()
        node = it.open(it.make(b"f"))
        it.contents.write(node, 0, b"one")
        broken = Patched("os.pwrite", side_effect=OSError(errno.ENOSPC, os.strerror(errno.ENOSPC)))
        with broken, self.assertRaises(JournalError) as caught:
            it.contents.closed(node, True)
        self.assertEqual(self.operations.errno_of(caught.exception), errno.ENOSPC)
        keeper = self.keeper()
        keeper.retry()
        self.assertEqual((it.store.stopped, it.contents.drafts, it.versions(b"f")), ("", set(), [b"", b"one"]))


class Openings(Parts):
    """A close sends the kernel's request `flush`, and `release` only when no process has the descriptor any more."""

    def opened(self, node: File, flags: int) -> int:
        return int(asyncio.run(self.operations.open(node.ino, flags, types.SimpleNamespace(uid=1, pid=2))).fh)

    def write(self, handle: int, data: bytes) -> None:
        self.assertEqual(asyncio.run(self.operations.write(handle, 0, data)), len(data))
        asyncio.run(self.operations.flush(handle))

    def cut(self, node: File, size: int, handle: Optional[int]) -> None:
        fields = types.SimpleNamespace(**dict.fromkeys((f"update_{it}" for it in ("mode", "uid", "gid", "atime", "mtime")), False))
        fields.update_size, attributes = True, mock.Mock(st_size=size)
        asyncio.run(self.operations.setattr(node.ino, attributes, fields, handle, None))

    def release(self, *handles: int) -> None:
        for it in handles:
            asyncio.run(self.operations.release(it))

    def test_a_save_whose_release_comes_late_is_a_version(self) -> None:
        for flags in (os.O_WRONLY, os.O_RDWR, os.O_WRONLY | os.O_TRUNC):
            with self.subTest(flags=flags):
                self.unmount()
                self.journal.unlink(missing_ok=True)
                it = self.mount()
                node, handles = it.save(b"f", b"zero"), []
                for text in (b"one.", b"two.", b"three"):
                    handles.append(self.opened(node, flags))
                    self.write(handles[-1], text)
                self.assertEqual(it.versions(b"f"), [b"", b"zero", b"one.", b"two."])
                copy = self.journal.with_name("copy")
                copy.write_bytes(self.journal.read_bytes())
                killed = Mounted(copy)
                self.assertEqual(killed.versions(b"f")[-2:], [b"two.", b"three"])
                killed.close()
                self.release(*handles)
                self.assertEqual((it.versions(b"f")[3:], node.opens, node.writers), ([b"two.", b"three"], 0, 0))

    def test_closing_duplicates_of_a_descriptor_makes_no_versions(self) -> None:
        it = self.mount()
        node = it.make(b"f")
        handle = self.opened(node, os.O_WRONLY)
        for text in (b"one", b"two", b"three"):
            self.write(handle, text)
        self.release(self.opened(node, os.O_RDONLY))
        self.assertEqual(it.versions(b"f"), [b""])
        self.release(handle)
        self.assertEqual(it.versions(b"f"), [b"", b"three"])

    def test_what_another_program_cuts_off_is_a_version(self) -> None:
        it = self.mount()
        node = it.save(b"f", b"one")
        handle = self.opened(node, os.O_WRONLY)
        it.contents.write(node, 3, b"more")
        self.release(self.opened(node, os.O_WRONLY))
        self.assertEqual(it.versions(b"f"), [b"", b"one"])  # what it writes isn't complete
        self.release(self.opened(node, os.O_WRONLY | os.O_TRUNC))
        self.assertEqual((it.versions(b"f"), it.read(b"f")), ([b"", b"one", b"onemore"], b""))
        self.write(handle, b"two")
        self.cut(node, 2, handle)
        asyncio.run(self.operations.flush(handle))
        for size in (1, 0):
            self.cut(node, size, None)
        self.release(handle)
        self.assertEqual(it.versions(b"f")[3:], [b"tw", b"t", b""])

    def test_a_cut_that_is_refused_leaves_the_file_closed(self) -> None:
        it = self.mount(Limits(versions=3))
        node = it.save(b"f", b"one")
        handle = self.opened(node, os.O_WRONLY)
        self.write(handle, b"two")
        self.write(handle, b"six")
        for flags in (os.O_WRONLY | os.O_TRUNC, os.O_RDONLY | os.O_TRUNC):
            with self.assertRaises(pyfuse3.FUSEError) as refused:
                self.opened(node, flags)
            self.assertEqual((refused.exception.errno, node.opens, node.writers), (errno.ENOSPC, 1, 1))
        self.release(handle)
        self.assertEqual((it.versions(b"f"), node.writers), ([b"", b"one", b"six"], 0))

    def test_a_saved_file_that_is_deleted_goes_on_though_its_release_comes_late(self) -> None:
        it = self.mount()
        handle = self.opened(it.make(b"f"), os.O_WRONLY)
        self.write(handle, b"one")
        it.naming.unlink(it.top, b"f")
        it.save(b"f", b"two")
        self.release(handle)
        self.assertEqual(it.versions(b"f"), [b"", b"one", b"one", b"two"])


class Faults(Parts):
    def test_files_of_a_folder_whose_renaming_the_journal_lacks_can_be_read(self) -> None:
        it = self.mount()
        folder = it.naming.mkdir(it.top, b"d", FOLDER, 0, 0)
        node = it.save(b"f", b"one", folder)
        it.save(b"g", b"two", folder)
        it.contents.forget_read()
        broken = Patched("os.pwrite", side_effect=OSError(errno.EIO, os.strerror(errno.EIO)))
        with broken, self.assertRaises(pyfuse3.FUSEError) as caught:
            self.operations.rename(it.top.ino, b"d", it.top.ino, b"e", 0, None).send(None)
        self.assertEqual((caught.exception.errno, it.contents.whole(node), folder.path), (errno.EIO, b"one", b"/e"))
        self.assertIs(self.operations.by_ino[folder.ino], folder)
        with self.assertRaises(pyfuse3.FUSEError) as caught:
            self.operations.unlink(folder.ino, b"f", None).send(None)
        self.assertEqual(caught.exception.errno, errno.EROFS)
        told: list[Changes] = []
        keeper = Keeper(self.operations, self.tidying, self.log, told.append, 0.0, 0.0)
        with broken:
            keeper.retry()
        keeper.retry()
        self.assertEqual(([{name for _, name in changes} for changes in told], it.store.stopped), ([{b"d", b"e"}, set()], ""))
        again = super().mount().top.children[b"e"]
        self.assertEqual(sorted(again.children if isinstance(again, Directory) else ()), [b"f", b"g"])


class Asking(Parts):
    def test_lines(self) -> None:
        it = self.mount()
        lines = Lines(self.operations)
        node = it.open(it.save(b"f", b"one"))
        it.save(b"f", b"two")
        refused = "elephant-mount: a program has"
        for line, begin in ((b"undo /f \xff", "elephant-mount: "), (b"undo /f", refused), (b"revert /f 1", refused),
                            (b"open write /f", "elephant-mount: programs write")):
            text, changes = lines.answer(line.decode("utf-8", "surrogateescape"))
            self.assertEqual((text[:len(begin)], changes), (begin, []))
        it.contents.closed(node, True)
        text, changes = lines.answer("undo /f")
        self.assertEqual((text[:37], changes, it.read(b"f")), ("ok version 4: what version 2 held, sa", [(node, None)], b"one"))
        self.assertEqual((node.version, node.size, list(it.tree.refresh())), (4, 3, []))
        with mock.patch.object(it.tree, "refresh", side_effect=KeyError):  # a whole look at the tree takes as long as it is large
            it.naming.unlink(it.top, b"f")
            text, changes = lines.answer("undo /f")
        self.assertEqual((text[:21], changes), ("ok version 5: what it", [(it.top, b"f")]))
        self.assertEqual((it.read(b"f"), list(it.tree.refresh())), (b"one", []))
        with Patched("os.pwrite", side_effect=OSError(errno.EIO, os.strerror(errno.EIO))):
            text, changes = lines.answer("mkdir /d")
        self.assertEqual((text[:16], changes, b"d" in it.top.children), ("elephant-mount: ", [(it.top, b"d")], True))


class Saves(Parts):
    def test_lines_that_save_and_restore(self) -> None:
        it = self.mount()
        lines = Lines(self.operations)
        text, changes = lines.answer("save /new 6f6e65")
        self.assertEqual((text, changes, it.read(b"new")), ("ok version 2\n", [(it.top, b"new")], b"one"))
        used = it.store.quota.used
        self.assertEqual((used["files"], used["names"], used["versions"], used["handles"]), (1, 1, 2, 0))
        node = it.file(b"new")
        text, changes = lines.answer("save /new 74776f")
        self.assertEqual((text, changes, it.read(b"new")), ("ok version 3\n", [(node, None)], b"two"))
        self.assertEqual(lines.answer("save /%2E%2E 61")[0], "bad 28 BadName\n")
        self.assertEqual(lines.answer("abandon 1")[0], "no 15 NoHandle\n")
        it.open(node)
        for line in ("save /new 61", "restore /new 0"):
            self.assertEqual(lines.answer(line)[0][:30], "elephant-mount: a program has ")
        it.contents.write(node, 0, b"x")
        it.contents.save(node)
        self.assertEqual(lines.answer(f"abandon {node.handle}")[0], "no 15 NoHandle\n")
        it.contents.closed(node, True)
        self.assertEqual(it.versions(b"new"), [b"", b"one", b"two", b"xwo"])
        moment = int(it.store.now)
        text, changes = lines.answer(f"restore /new {moment}")
        before = it.store.quota.used
        self.assertEqual((text, it.read(b"new"), before["versions"]), ("ok version 5\n", b"xwo", 5))
        self.assertEqual(self.mount().store.quota.used, before)


class Words(Parts):
    def test_words_of_a_line(self) -> None:
        it = self.mount()
        lines = Lines(self.operations)
        it.save(b"my letter", b"one")
        self.assertEqual(lines.answer("policy '/my letter' one")[0], "ok done\n")
        self.assertIn("has a quote without its end", lines.answer("policy '/my letter one")[0])
        for line in ("create /a%2Fb", "mkdir /.elephant", "rename /my%20letter /%2E%2E"):
            text, changes = lines.answer(line)
            self.assertEqual((text[:16], changes), ("elephant-mount: ", []), line)
        for line in ("undo", "undo letter", "undo --now '/my letter'"):
            self.assertIn("undo takes a file or a folder", lines.answer(line)[0])
        self.assertIn("'soon' is no time", lines.answer("undo '/my letter' soon")[0])
        self.assertRegex(lines.answer("undo '/my letter'")[0], "^no: my letter was never changed")

    def test_names_that_are_shown_otherwise(self) -> None:
        make_raw(self.journal, b"/.elephant", b"/a%2Fb")
        it = self.mount()
        self.assertEqual(self.log.lines, ["names that a folder can't show are shown as they are spelled: /.elephant /a%2Fb"])
        for name in (b"%2Eelephant", b"a%2Fb"):
            for text in (b"one", b"two"):
                it.save(name, text)
            self.assertRegex(Lines(self.operations).answer("undo /" + spelled(name).decode())[0], "^ok version 4")
            self.assertEqual(it.read(name), b"one")

    def test_a_moment_while_the_clock_is_in_doubt(self) -> None:
        clocks = FalseClocks()
        it = self.mounted = Mounted(self.journal, clock=clocks)
        self.addCleanup(it.store.close)
        operations = Operations(it.store, it.tree, it.contents, it.naming, it.past, Said())
        it.save(b"f", b"one")
        clocks.pass_by(10)
        it.save(b"f", b"two")
        clocks.set_by(30 * 86_400)
        text = Lines(operations).answer("undo /f 5 seconds ago")[0]
        self.assertRegex(text, "^ok version 4: what f held at ")
        self.assertIn("\n- the time of day jumped ahead by 30 days: moments are of the store's time, which is ", text)
        self.assertEqual(it.read(b"f"), b"one")

    def test_a_folder_is_restored_by_its_line(self) -> None:
        clocks = FalseClocks()
        it = self.mounted = Mounted(self.journal, clock=clocks)
        self.addCleanup(it.store.close)
        lines = Lines(Operations(it.store, it.tree, it.contents, it.naming, it.past, Said()))
        folder = it.naming.mkdir(it.top, b"my d", FOLDER, 0, 0)

        def held(name: bytes) -> bytes:
            return it.contents.whole(it.file(name, folder))

        it.save(b"f", b"one", folder)
        it.save(b"g", b"one", folder)
        moment = int(it.store.now)
        clocks.pass_by(10)
        it.save(b"f", b"two", folder)
        it.naming.unlink(folder, b"g")
        clocks.pass_by(10)
        for path in ("/my%20d", "'/my d'"):
            text, changes = lines.answer(f"restore --dry-run {path} {moment}")
            self.assertRegex(text, "^ok would make my d as it was at [^\n]*: 2 files\n- undelete my d/g\n- content my d/f: version 2\n$")
            self.assertEqual((changes, held(b"f")), ([], b"two"))
        text, changes = lines.answer(f"restore /my%20d {moment}")
        self.assertRegex(text, "^ok my d is as it was at .*: 2 files, 1 brought back, 1 with the content of then\n$")
        self.assertEqual((held(b"f"), held(b"g")), (b"one", b"one"))
        self.assertTrue(changes)
        # A moment as people type it, and one of a file in seconds alone, which is the command of the script language.
        self.assertRegex(lines.answer("restore '/my d' 20 seconds ago")[0], "^ok my d is as it was at .*: 2 files\n$")
        self.assertEqual(lines.answer(f"restore /my%20d/f {moment + 10}")[0], "ok version 5\n")
        self.assertRegex(lines.answer("restore '/my d/f' 20 seconds ago")[0], "^ok version 6: what my d/f held at ")
        self.assertEqual(lines.answer(f"restore /none {moment}")[0], "no 5 NoEntry\n")
        self.assertRegex(lines.answer("restore --dry-run /none 5 seconds ago")[0], "^no: there was no none at ")


class Beginning(Case):
    def test_a_folder_that_can_not_be_mounted(self) -> None:
        folder = Path(self.journal.parent, "folder")
        folder.mkdir()
        with mock.patch("elephant.mount.mounting._collect_rarely"), mock.patch("sys.stderr"):
            mount = Mount(Asked(str(folder), str(self.journal)))
            with mock.patch.object(pyfuse3, "init", side_effect=RuntimeError("no")):
                self.assertEqual(mount.run(False), 1)
        self.assertTrue(mount.store.is_closed)
        Mounted(self.journal).close()


class Ends(unittest.TestCase):
    """How requests end, by what the kernel says in place of one."""

    @staticmethod
    def run_to(number: int) -> None:
        async def main(**_: int) -> None:
            raise OSError(number, os.strerror(number))

        with mock.patch.object(pyfuse3, "main", main):
            Loop().run()

    def test_a_connection_that_is_cut_ends_them(self) -> None:
        self.run_to(errno.ECONNABORTED)

    def test_any_other_fault_is_told(self) -> None:
        with self.assertRaisesRegex(OSError, "Input/output"):
            self.run_to(errno.EIO)


if __name__ == "__main__":
    unittest.main()
