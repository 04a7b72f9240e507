"""Journals that can't be opened, were changed under an open store, are full, crafted, or only read."""

from __future__ import annotations

import errno
import os
import random
import shutil
import subprocess
import sys
import tempfile
import time
import unittest
from collections.abc import Callable, Sequence
from contextlib import ExitStack
from pathlib import Path
from typing import IO, Any, Optional, Union
from unittest import mock
from zlib import crc32

import elephant
from elephant import (
    Closed,
    ClosedSession,
    ElephantError,
    JournalDamaged,
    JournalError,
    JournalLost,
    KeepOne,
    KeepSafe,
    Limits,
    NoEntry,
    ReadOnly,
    Recovered,
    Store,
)
from elephant._journal import Journal
from stats import file_stat
from test_journal import MEMORY, QUICK, SOURCE, fill, state

HEADER = b"886c3dd6 = # elephant journal 1\n"


def spelled(*changes: Sequence[bytes]) -> bytes:
    """Returns a journal with right checksums of any lines."""
    checksum, parts = 0, []
    for change in ((b"# elephant journal 1",), *changes):
        for at, line in enumerate(change):
            mark = b"=" if len(change) == 1 else b"<" if not at else b">" if at + 1 == len(change) else b"-"
            body = mark + b" " + line + b"\n"
            checksum = crc32(body, checksum)
            parts.append(b"%08x %b" % (checksum, body))
    return b"".join(parts)


def errno_of(fault: JournalError) -> Optional[int]:
    """Returns the number of the system's error that is behind one of a journal."""
    assert isinstance(fault.__cause__, OSError)
    return fault.__cause__.errno


def output_of(process: subprocess.Popen[bytes]) -> IO[bytes]:
    """Returns the standard output of a process that has a pipe for it."""
    assert process.stdout is not None
    return process.stdout


class WithJournal(unittest.TestCase):
    def setUp(self) -> None:
        folder = tempfile.TemporaryDirectory(dir=MEMORY)
        self.addCleanup(folder.cleanup)
        self.folder = Path(folder.name)
        self.path = self.folder / "journal"

    def open(self, **options: Any) -> Store:
        return Store(journal=self.path, **{**QUICK, **options})

    def filled(self) -> list[str]:
        with self.open() as store:
            for _ in fill(store):
                pass
            return state(store)

    def process(self, program: str, *words: str) -> subprocess.Popen[bytes]:
        environment = {**os.environ, "PYTHONPATH": SOURCE}
        process = subprocess.Popen(
            [sys.executable, "-c", program, str(self.path), *words], env=environment, stdout=subprocess.PIPE, stdin=subprocess.PIPE
        )
        assert process.stdin is not None
        self.addCleanup(process.wait)
        self.addCleanup(output_of(process).close)
        self.addCleanup(process.stdin.close)
        self.addCleanup(process.kill)
        return process


class ReadOnlyStores(WithJournal):
    def look(self, **options: Any) -> Store:
        return self.open(read_only=True, **options)

    def folder_now(self) -> dict[str, tuple[bytes, int, int]]:
        return {it.name: (it.read_bytes(), it.stat().st_mtime_ns, it.stat().st_mode) for it in self.folder.iterdir()}

    def test_it_shows_what_the_journal_has_and_writes_nothing(self) -> None:
        wanted = self.filled()
        before = self.folder_now()
        with self.look() as store:
            self.assertEqual((state(store), store.recovered, store.is_read_only), (wanted, Recovered(), True))
            store.sync()
        self.assertEqual(self.folder_now(), before)
        with self.open() as store:
            self.assertEqual((state(store), store.is_read_only), (wanted, False))

    def test_each_change_is_refused_before_the_core_is_asked(self) -> None:
        self.filled()
        before = self.path.read_bytes()
        with self.look() as store:
            wanted = state(store)
            changes: list[Callable[[], object]] = [
                lambda: store.clock(10**9), lambda: store.tick(1), lambda: store.mkdir("/new"), lambda: store.rmdir("/d"),
                lambda: store.create("/n"),
                lambda: store.link("/m", "/n"), lambda: store.unlink("/m"), lambda: store.rename("/m", "/n"), lambda: store.undelete("/x"),
                lambda: store.revert("/m", 1), lambda: store.set_policy("/m", KeepOne()), lambda: store.set_default("/", KeepOne()),
                lambda: store.group_make("g"), lambda: store.group_drop("g"), lambda: store.group_add("g", "/m"),
                lambda: store.group_remove("g", "/m"), lambda: store.mark("g", 1), lambda: store.unmark("g", 1), store.clean, store.pass_,
                lambda: store.save("/m", b"x"), lambda: store.session("/m"), lambda: store.reader("/m"), lambda: store.line("create /n"),
                lambda: store.line("tick 1"), lambda: store.line("no line at all"),
                lambda: store.open("/n", "w"), lambda: store.open("/n", "wb"), lambda: store.open("/n", "a"),
                lambda: store.open("/m", "r+b"), lambda: store.open("/n", "x"),
            ]
            with mock.patch.object(store._core, "library", mock.Mock(spec=())):  # it has no call at all
                for change in changes:
                    with self.assertRaises(ReadOnly) as told:
                        change()
                    self.assertIsInstance(told.exception, ElephantError)
            self.assertEqual(state(store), wanted)
        self.assertEqual(self.path.read_bytes(), before)
        self.assertRaises(Closed, store.read, "/m")

    def test_its_clock_stands_at_the_last_moment_or_where_it_is_asked_to(self) -> None:
        with self.open() as store:
            store.set_default("/", KeepSafe(seconds=100))
            store.save("/f", b"one")
            store.clock(50)
            store.save("/f", b"two")
        with self.look(clock="system") as store:
            self.assertEqual((store.now, store.due(), len(store.versions("/f"))), (50, [], 3))
            time.sleep(1.1)
            self.assertEqual((store.now, store.now), (50, 50))
        with self.look(at=150) as store:
            self.assertEqual((store.now, [it.number for it in store.due()], len(store.versions("/f"))), (150, [1, 2], 3))
        with self.look(at="1970-01-01T00:02:30Z") as store:
            self.assertEqual(store.now, 150)
        self.assertRaises(elephant.ClockBack, self.look, at=49)
        self.assertRaises(ValueError, self.open, at=150)
        self.assertRaises(ValueError, Store, read_only=True)

    def test_a_journal_that_nobody_may_write(self) -> None:
        wanted = self.filled()
        self.path.chmod(0o444)
        program = """
import os, sys
from elephant import JournalError, Store
Store()
os.setuid(65534)
try:
    Store(journal=sys.argv[1], clock="manual")
except JournalError as fault:
    print(type(fault.__cause__).__name__)
with Store(journal=sys.argv[1], read_only=True) as store:
    print(len(store.read("/m")), len(store.list()))
"""
        if os.geteuid() == 0:
            self.folder.chmod(0o755)
            told = self.process(program).communicate(timeout=60)[0].decode().splitlines()
            self.assertEqual(told[0], "PermissionError")
            self.assertEqual(told[1].split()[-1], str(len([it for it in wanted if it.count("/") == 1 and " Entry(" in it])))
        with self.look() as store:
            self.assertEqual(state(store), wanted)

    def test_it_reads_on_a_disk_that_is_read_only(self) -> None:
        """The calls that write a disk answer as those of a disk that is mounted read only."""
        wanted = self.filled()
        fault = OSError(errno.EROFS, "Read-only file system")
        real = os.open

        def only_reads(path: str, flags: int, *more: int, **words: Any) -> int:
            if flags & (os.O_WRONLY | os.O_RDWR | os.O_CREAT | os.O_TRUNC | os.O_APPEND):
                raise fault
            return real(path, flags, *more, **words)

        names = ("os.write", "os.ftruncate", "os.fsync", "os.fdatasync", "os.unlink", "os.rename", "fcntl.flock")
        with ExitStack() as patches:
            patches.enter_context(mock.patch("os.open", only_reads))
            for name in names:
                patches.enter_context(mock.patch(name, side_effect=fault))
            with self.look() as store:
                self.assertEqual(state(store), wanted)
            with self.assertRaises(JournalError) as told:
                self.open()
            self.assertIs(told.exception.__cause__, fault)

    def test_no_lock_keeps_anybody_out(self) -> None:
        self.filled()
        with self.open() as writer, self.look() as first, self.look() as second:
            writer.save("/more", b"x")
            self.assertEqual((first.list(), first.list()), (second.list(), [it for it in writer.list() if it.name != "more"]))
        with self.look() as reader:
            with self.open() as writer:
                writer.save("/even more", b"x")
            self.assertRaises(NoEntry, reader.read, "/even more")

    def test_it_reads_up_to_the_last_whole_change_of_a_writer(self) -> None:
        """Each opening finds a state after a whole change, while another process writes long changes as quickly as it can."""
        # With a pause after each: else the journal grows faster than it is read.
        program = """
import sys, time
from elephant import Store
store = Store(journal=sys.argv[1], fsync="sync", clock="manual")
store.save("/f", b"%6d" % 0 * 3000)
print("ready", flush=True)
for at in range(1, 100_000):
    store.save("/f", b"%6d" % at * 3000)
    time.sleep(0.005)
"""
        process = self.process(program)
        output_of(process).readline()
        found: list[int] = []
        deadline = time.monotonic() + 4
        while time.monotonic() < deadline or len(found) < 5:
            with self.look(limits=Limits(versions=1_000_000)) as store:
                content, version = store.read("/f"), file_stat(store, "/f").version
            self.assertEqual(content, b"%6d" % (version - 2) * 3000)
            found.append(version)
        process.kill()
        process.wait()
        self.assertEqual(found, sorted(found))
        with self.open() as store:
            self.assertGreaterEqual(file_stat(store, "/f").version, found[-1])

    def test_a_torn_end_is_left_out_and_stays(self) -> None:
        wanted = self.filled()
        whole = self.path.read_bytes()
        self.path.write_bytes(whole + b"00000000 < create /never")
        with self.look() as store:
            self.assertEqual((state(store), store.recovered.cut), (wanted, 24))
        self.assertEqual(self.path.read_bytes(), whole + b"00000000 < create /never")

    def test_an_open_session_stays_open(self) -> None:
        with self.open() as store:
            store.save("/f", b"old")
            session = store.session("/f")
            session.write(b"new")
            store.sync()
            with self.look() as reader:
                self.assertEqual((reader.read("/f"), reader.recovered), (b"old", Recovered()))

    def test_a_part_of_a_header_and_an_empty_file_are_empty_stores(self) -> None:
        for length in (0, 5, len(HEADER) - 1):
            self.path.write_bytes(HEADER[:length])
            with self.look() as store:
                self.assertEqual((store.list(), store.now, store.recovered.cut), ([], 0, length))
            self.assertEqual(self.path.read_bytes(), HEADER[:length])


class Places(WithJournal):
    def test_what_is_no_place_for_a_journal(self) -> None:
        fifo = self.folder / "fifo"
        os.mkfifo(fifo)
        (self.folder / "file").write_bytes(b"")
        places: list[tuple[Union[str, Path], Optional[type[BaseException]]]] = [
            (self.folder / "no" / "journal", FileNotFoundError), (self.folder, IsADirectoryError),
            (self.folder / "file" / "journal", NotADirectoryError),
            ("/dev/null", None), (fifo, None), ("a\0b", ValueError), (self.folder / ("x" * 300), OSError), ("", OSError),
        ]
        for path, cause in places:
            for read_only in (False, True):
                began = time.monotonic()
                with self.subTest(str(path), read_only=read_only), self.assertRaises(JournalError) as told:
                    Store(journal=path, clock="manual", read_only=read_only)
                self.assertLess(time.monotonic() - began, 5)
                self.assertIsInstance(told.exception, ElephantError)
                if cause and not (path in (self.folder, "") and read_only):
                    self.assertIsInstance(told.exception.__cause__, cause)
        with self.assertRaises(JournalError) as told:
            self.open(read_only=True)
        self.assertIsInstance(told.exception.__cause__, FileNotFoundError)
        self.assertFalse(self.path.exists())

    def test_a_new_journal_is_its_owners_only(self) -> None:
        before = os.umask(0)
        try:
            self.open().close()
        finally:
            os.umask(before)
        self.assertEqual(self.path.stat().st_mode & 0o777, 0o600)
        self.path.chmod(0o640)
        self.open().close()
        self.assertEqual(self.path.stat().st_mode & 0o777, 0o640)

    def test_a_disk_that_is_full_at_the_making_leaves_no_file(self) -> None:
        full, real = OSError(errno.ENOSPC, "No space left on device"), os.write

        def writes_a_part(file: int, data: bytes) -> int:
            if len(data) <= 25:
                raise full
            return real(file, data[:7])

        for name, answer in (("write", full), ("fsync", full), ("write", writes_a_part)):
            with mock.patch(f"os.{name}", side_effect=answer):
                with self.assertRaises(JournalError) as told:
                    self.open()
            self.assertIs(told.exception.__cause__, full)
            self.assertEqual(list(self.folder.iterdir()), [])
        for length in (0, 9):
            self.path.write_bytes(HEADER[:length])
            with mock.patch("os.write", side_effect=full):
                self.assertRaises(JournalError, self.open)
            self.assertEqual(self.path.read_bytes(), HEADER[:length])
        with self.open() as store:
            self.assertEqual(store.list(), [])

    def test_a_link_to_a_journal_is_the_journal(self) -> None:
        link = self.folder / "link"
        link.symlink_to("journal")
        with Store(journal=link, **QUICK) as store:
            store.save("/f", b"one")
            self.assertRaises(elephant.JournalLocked, self.open)
        with self.open() as store:
            self.assertEqual(store.read("/f"), b"one")


class Lost(WithJournal):
    """A journal that is changed by another program while a store has it."""

    def ways(self) -> dict[str, Callable[[], object]]:
        other = self.folder / "other"

        def replace() -> None:
            other.write_bytes(self.path.read_bytes())
            other.rename(self.path)

        def cut_and_fill() -> None:
            os.truncate(self.path, 40)
            os.truncate(self.path, size + 1)

        size = os.path.getsize(self.path)
        return {
            "cut": lambda: os.truncate(self.path, 60), "emptied": lambda: self.path.write_bytes(b""), "longer": lambda: self.add(b"x"),
            "deleted": self.path.unlink, "renamed": lambda: self.path.rename(other), "replaced": replace, "zeros": cut_and_fill,
            "folder": lambda: self.folder.rename(f"{self.folder}.away"),
        }

    def add(self, data: bytes) -> None:
        with open(self.path, "ab") as file:
            file.write(data)

    def test_nothing_is_promised_after_it(self) -> None:
        calls = (
            lambda store: store.save("/f", b"two"), lambda store: store.create("/g"), lambda store: store.line("create /g"),
            lambda store: store.sync(), lambda store: store.open("/f", "wb").close(), lambda store: store.close(),
        )
        for fsync in ("always", "sync"):
            for call in calls:
                for way in ("cut", "emptied", "longer", "deleted", "renamed", "replaced", "zeros", "folder"):
                    with self.subTest(way, fsync=fsync):
                        self.one(way, fsync, call)

    def one(self, way: str, fsync: str, call: Callable[[Store], object]) -> None:
        self.folder.mkdir(exist_ok=True)
        self.path.unlink(missing_ok=True)
        store = self.open(fsync=fsync)
        store.save("/f", b"one")
        self.ways()[way]()
        after = self.path.read_bytes() if self.path.exists() else None
        with self.assertRaises(JournalLost) as told:
            call(store)
        self.assertIn(str(self.path), str(told.exception))
        if store.is_closed:
            self.assertEqual(self.path.read_bytes() if self.path.exists() else None, after)
        else:
            self.assertEqual(store.read("/f"), b"one")
            self.assertRaises(JournalLost, store.save, "/f", b"three")
            self.assertEqual(store.read("/f"), b"one")
            store.close()
        self.assertEqual(self.path.read_bytes() if self.path.exists() else None, after)
        shutil.rmtree(f"{self.folder}.away", ignore_errors=True)

    def test_a_journal_that_is_lost_within_a_change(self) -> None:
        """It goes between the look at it and the write. The write isn't answered."""
        for way in ("deleted", "renamed", "replaced", "folder", "cut"):
            self.folder.mkdir(exist_ok=True)
            self.path.unlink(missing_ok=True)
            store = self.open()
            store.save("/f", b"one")
            real, ways = os.write, self.ways()

            def write(file: int, data: bytes) -> int:
                ways[way]()
                return real(file, data)

            with self.subTest(way):
                with mock.patch("os.write", write):
                    self.assertRaises(JournalLost, store.save, "/f", b"two")
                self.assertRaises(JournalLost, store.save, "/f", b"three")
                if way != "cut":
                    self.assertEqual(store.read("/f"), b"one")
                store.close()
            shutil.rmtree(f"{self.folder}.away", ignore_errors=True)


class FullDisks(WithJournal):
    PROGRAM = """
import resource, signal, sys
from elephant import JournalError, Store
signal.signal(signal.SIGXFSZ, signal.SIG_IGN)
store = Store(journal=sys.argv[1], fsync=sys.argv[2], clock="manual")
store.save("/f", b"one")
session = store.session("/g") if store.create("/g") else None
session.write(b"draft")
resource.setrlimit(resource.RLIMIT_FSIZE, (int(sys.argv[3]), resource.RLIM_INFINITY))
saved = 1
try:
    for saved in range(1, 1000):
        store.save("/f", b"%9d" % saved * 3000)
except JournalError as fault:
    print(type(fault.__cause__).__name__, fault.__cause__.errno)
print(saved, store.read("/f") == (b"%9d" % (saved - 1) * 3000 if saved > 1 else b"one"), len(store.versions("/f")), session.read())
try:
    session.close()
except JournalError as fault:
    print(session.read(), store.read("/g"), store.line("read /g").strip())
resource.setrlimit(resource.RLIMIT_FSIZE, (resource.RLIM_INFINITY, resource.RLIM_INFINITY))
try:
    store.save("/f", b"more")
except JournalError as fault:
    print("ended")
print(len(store.list()), store.why("/f"))
store.close()
"""

    def test_reads_go_on_when_a_disk_is_full(self) -> None:
        """The limit of a file's length stands for the disk: a write gets as far as it goes, and the rest fails."""
        for fsync in ("always", "sync"):
            for limit in (1000, 30_000, 200_000, 300_001):
                self.path.unlink(missing_ok=True)
                told = self.process(self.PROGRAM, fsync, str(limit)).communicate(timeout=120)[0].decode().splitlines()
                saved = int(told[1].split()[0])
                self.assertEqual(told, [
                    f"OSError {errno.EFBIG}", f"{saved} True {saved + 1} b'draft'", "b'draft' b'' ok bytes 0 -", "ended", "2 current",
                ])
                self.assertLessEqual(os.path.getsize(self.path), limit)
                with self.open() as store:
                    recovered = Recovered(closed=(ClosedSession("/g", None),))
                    self.assertEqual((file_stat(store, "/f").version, store.recovered), (saved + 1, recovered))
                    self.assertEqual(store.read("/f"), b"%9d" % (saved - 1) * 3000 if saved > 1 else b"one")

    def test_python_has_no_memory_for_the_text_of_a_change(self) -> None:
        with self.open() as store:
            store.save("/f", b"one")
            before = self.path.read_bytes()
            with mock.patch("elephant._journal._spelled", side_effect=MemoryError):
                with self.assertRaises(JournalError) as told:
                    store.save("/f", b"two")
            self.assertIsInstance(told.exception.__cause__, MemoryError)
            self.assertEqual((store.read("/f"), self.path.read_bytes()), (b"one", before))
            self.assertRaises(JournalError, store.save, "/f", b"three")
        with self.open() as store:
            self.assertEqual((store.read("/f"), len(store.versions("/f"))), (b"one", 2))

    def test_a_failed_sync_ends_the_changes(self) -> None:
        for call in ("sync", "close"):
            store = self.open()
            store.save("/f", b"one")
            with mock.patch("os.fdatasync", side_effect=OSError(errno.EIO, "lost")):
                self.assertRaises(JournalError, getattr(store, call))
            if call == "sync":
                self.assertEqual(store.read("/f"), b"one")
                self.assertRaises(JournalError, store.save, "/f", b"two")
                self.assertRaises(JournalError, store.sync)
                store.close()


class SmallDisks(WithJournal):
    """A disk of its own in memory, which fills up or is made read only. Only root may mount one."""

    def setUp(self) -> None:
        super().setUp()
        self.disk = self.folder / "disk"
        self.disk.mkdir()
        if os.geteuid() or self.mount("-t", "tmpfs", "-o", "size=256k", "tmpfs"):
            self.skipTest("no disk can be mounted here")
        self.addCleanup(lambda: subprocess.run(["umount", "-l", self.disk], check=True))
        self.path = self.disk / "journal"

    def mount(self, *words: str) -> int:
        return subprocess.run(["mount", *words, self.disk], stderr=subprocess.DEVNULL, check=False).returncode

    def fill_up(self) -> Path:
        filler = self.disk / "filler"
        with open(filler, "wb", buffering=0) as file:
            with self.assertRaises(OSError):
                while True:
                    file.write(bytes(1024))
        return filler

    def test_a_disk_that_is_full_at_the_making(self) -> None:
        filler = self.fill_up()
        with self.assertRaises(JournalError) as told:
            self.open()
        self.assertEqual((errno_of(told.exception), [it.name for it in self.disk.iterdir()]), (errno.ENOSPC, ["filler"]))
        filler.unlink()
        self.open().close()

    def test_a_disk_that_fills_up(self) -> None:
        store = self.open()
        saved = 0
        with self.assertRaises(JournalError) as told:
            while saved < 1000:
                store.save("/f", b"%9d" % (saved + 1) * 1000)
                saved += 1
        self.assertEqual(errno_of(told.exception), errno.ENOSPC)
        self.assertGreater(saved, 3)
        for _ in range(2):
            self.assertEqual((store.read("/f"), len(store.versions("/f"))), (b"%9d" % saved * 1000, saved + 1))
            self.assertRaises(JournalError, store.create, "/g")
        store.close()
        with self.open(read_only=True) as store:
            self.assertEqual((store.read("/f"), store.recovered), (b"%9d" % saved * 1000, Recovered()))
        shutil.move(self.path, self.folder / "journal")
        self.path = self.folder / "journal"
        with self.open() as store:
            self.assertEqual((store.read("/f"), store.save("/f", b"more")), (b"%9d" % saved * 1000, saved + 2))

    def test_a_disk_that_is_read_only(self) -> None:
        with self.open() as store:
            store.save("/f", b"one")
        self.assertEqual(self.mount("-o", "remount,ro"), 0)
        with self.assertRaises(JournalError) as told:
            self.open()
        self.assertEqual(errno_of(told.exception), errno.EROFS)
        with self.open(read_only=True) as store:
            self.assertEqual((store.read("/f"), store.recovered), (b"one", Recovered()))


class FailedAppends(WithJournal):
    def test_a_part_of_a_change_that_cant_be_taken_back_at_once(self) -> None:
        """It is no journal that another program changed. The next append takes it back first."""
        journal = Journal(str(self.path), False, 0.0)
        self.assertEqual(list(journal.changes()), [])
        journal.append([b"create /f"])
        whole, real, fault = self.path.read_bytes(), os.write, OSError(errno.EIO, "lost")
        calls: list[int] = []

        def write(file: int, data: bytes) -> int:
            calls.append(file)
            if len(calls) == 1:
                return real(file, data[:9])
            raise fault

        with mock.patch("os.ftruncate", side_effect=fault):
            with mock.patch("os.write", write):
                self.assertRaises(JournalError, journal.append, [b"create /g"])
            self.assertEqual(len(self.path.read_bytes()), len(whole) + 9)
            attempts: list[Callable[[], None]] = [journal.check, lambda: journal.append([b"create /h"])]
            for attempt in attempts:
                with self.assertRaises(JournalError) as told:
                    attempt()
                self.assertNotIsInstance(told.exception, JournalLost)
        journal.append([b"create /i"])
        journal.check()
        journal.close()
        self.assertEqual(self.path.read_bytes(), spelled((b"create /f",), (b"create /i",)))


class Crafted(WithJournal):
    """Journals with right checksums that no store wrote."""

    def test_a_header_of_the_page(self) -> None:
        self.assertEqual(spelled(), HEADER)

    def test_lines_that_a_store_may_have(self) -> None:
        for line in (b"write 1 0 -", b"write 1 0 61", b"open read /f", b"read /f", b"list /", b"pass 9", b"clean", b"#", b"# a remark",
                     b"abandon 1", b"save /g 61", b"save /g -", b"restore /g 0"):
            self.path.write_bytes(spelled((b"create /f", b"create /g"), (b"open write /f",), (line,)))
            self.open().close()

    def test_lines_that_no_store_writes(self) -> None:
        before = (b"create /f",), (b"open write /f",)
        for line in (
            b"write 1 0 6", b"write 1 0 xx", b"write 1 0", b"write 1", b"write", b"write 1 0 61 62", b"write x 0 61", b"write 9 0 61",
            b"write 18446744073709551617 0 61", b"write 1 99999999999999999999999999 61", b"write -1 0 61", b"close", b"close x",
            b"close 1 1",
            b"close 18446744073709551617", b"close 9", b"truncate 1", b"truncate 1 x", b"truncate 1 2 3", b"truncate 1 9999999999", b"open",
            b"open write", b"open write ", b"open write /f /f", b"open read /f@9", b"open read /f#9", b"open x /f", b"create", b"create /f",
            b"create //", b"create /\xff", b"create /g\r", b" create /g", b"x", b"clock -1", b"clock 9999999999999", b"tick", b"pass -1",
            b"save /f 61", b"save /f", b"save /g 6", b"save /g 61 62", b"save g 61", b"restore /f 0",
            b"restore /g 0", b"restore /f", b"abandon", b"abandon x", b"abandon 9", b"abandon 1 1",
            b"policy /f x", b"mark g 1", b"group", b"group x", b"history", b"rename /f", b"rename /f /f", b"#x", b"\x00", b"=", b"a" * 8000,
            b"a" * 8980,
        ):
            with self.subTest(line[:40]):
                self.path.write_bytes(spelled(*before, (line,)))
                data = self.path.read_bytes()
                with self.assertRaises(JournalDamaged) as told:
                    self.open()
                self.assertEqual((told.exception.line, told.exception.offset), (4, len(spelled(*before))))
                self.assertEqual(self.path.read_bytes(), data)

    def test_a_refused_line_is_named_with_its_cause(self) -> None:
        self.path.write_bytes(spelled((b"create /f",), (b"clock 5", b"create /g", b"create /f", b"create /h")))
        with self.assertRaisesRegex(JournalDamaged, r"line 5 of .*begins at byte \d+, b'create /f', is refused: 8 Exists$") as told:
            self.open()
        self.assertEqual((told.exception.line, told.exception.offset), (5, len(spelled((b"create /f",)))))
        self.path.write_bytes(spelled((b"create /f",), (b"create /g",)))
        with self.assertRaisesRegex(JournalError, "27 Full files; was the journal made with larger limits") as full:
            self.open(limits=Limits(files=1))
        self.assertNotIsInstance(full.exception, JournalDamaged)

    def test_a_change_that_is_refused_is_left_out_by_a_repair(self) -> None:
        """So is a part of it that was run, and what follows it."""
        whole = spelled((b"create /f",), (b"clock 3",))
        self.path.write_bytes(spelled((b"create /f",), (b"clock 3",), (b"clock 5", b"create /g", b"create /f"), (b"create /h",)))
        data = self.path.read_bytes()
        self.assertRaises(JournalDamaged, self.open)
        with self.open(read_only=True, repair=True) as store:
            self.assertEqual((store.now, [it.name for it in store.list()], store.recovered.cut), (3, ["f"], len(data) - len(whole)))
        self.assertEqual(self.path.read_bytes(), data)
        with self.open(repair=True) as store:
            copy = Path(store.recovered.copy)
            self.assertEqual((store.now, [it.name for it in store.list()]), (3, ["f"]))
            self.assertEqual((self.path.read_bytes(), copy.read_bytes()), (whole, data[len(whole):]))
            self.assertEqual(store.create("/i"), 2)
        with self.open() as store:
            self.assertEqual(([it.name for it in store.list()], store.recovered), (["f", "i"], Recovered()))

    def test_changes_that_are_no_changes(self) -> None:
        whole = spelled((b"create /f",))
        sums = crc32(b"= create /f\n", int(HEADER[:8], 16))
        long = b"= " + b"x" * 9000 + b"\n"
        bodies = (b"> create /g\n", b"- create /g\n", b"= \n", b"=\n", b"? create /g\n", b"\n", b"<create /g\n", long)
        for body in bodies:
            self.path.write_bytes(whole + b"%08x %b" % (crc32(body, sums), body))
            before = self.path.read_bytes()
            with self.subTest(body[:20]), self.assertRaises(JournalDamaged):
                self.open()
            self.assertEqual(self.path.read_bytes(), before)

    def test_random_lines(self) -> None:
        rng = random.Random(7)
        text = (
            "create open write read close abandon save restore truncate group add make mark clock pass policy undelete revert "
            "/f /g 1 0 61 g # - safe:9"
        )
        words = [*text.encode().split(), b"18446744073709551615", b"\xff", b""]
        opened = 0
        for _ in range(400):
            lines = [b" ".join(rng.choice(words) for _ in range(rng.randint(1, 5))) or b"x" for _ in range(rng.randint(1, 3))]
            self.path.write_bytes(spelled((b"create /f",), (b"open write /f",), tuple(lines)))
            try:
                self.open().close()
                opened += 1
            except JournalDamaged:
                pass
        self.assertLess(opened, 399)


class TornEnds(WithJournal):
    """What is taken for the end of a write that didn't come to its end: a part of a change, and nothing else."""

    def test_zeros_of_any_length_are_damage(self) -> None:
        self.filled()
        data = self.path.read_bytes()
        rng = random.Random(3)
        for at in sorted(rng.sample(range(len(HEADER), len(data)), 60)):
            for damaged in (data[:at] + bytes(len(data) - at), data[:at] + bytes(4096), data[:at] + bytes(1)):
                self.path.write_bytes(damaged)
                self.assertRaises(JournalDamaged, self.open)
                self.assertEqual(self.path.read_bytes(), damaged)

    def test_a_line_left_out_or_changed_in_the_last_change_is_damage(self) -> None:
        with self.open() as store:
            store.create("/f")
            last = os.path.getsize(self.path)
            store.save("/f", b"one" * 3000)
        data = self.path.read_bytes()
        lines = data[last:].splitlines(keepends=True)
        self.assertGreater(len(lines), 4)
        for at in range(len(lines)):
            wrong = [lines[at][:-5] + b"0000\n"]
            for change in (lines[:at] + lines[at + 1:], lines[:at] + wrong + lines[at + 1:], lines[:at + 1] + lines[at:]):
                self.path.write_bytes(data[:last] + b"".join(change))
                if change == lines[:-1]:  # the last one is missing, as in a torn change
                    with self.open() as store:
                        self.assertEqual(store.recovered.cut, len(b"".join(change)))
                    continue
                self.assertRaises(JournalDamaged, self.open)

    def test_a_copy_of_a_damaged_end_that_cant_be_made_leaves_the_journal(self) -> None:
        with self.open() as store:
            store.save("/f", b"one")
        damaged = self.path.read_bytes() + bytes(100)
        self.path.write_bytes(damaged)
        with mock.patch("os.write", side_effect=OSError(errno.ENOSPC, "full")):
            self.assertRaises(JournalError, self.open, repair=True)
        self.assertEqual([it.name for it in self.folder.iterdir()], ["journal"])
        self.assertEqual(self.path.read_bytes(), damaged)
        (self.folder / "journal.damaged-1").write_bytes(b"an older one")
        with self.open(repair=True) as store:
            self.assertEqual((store.read("/f"), store.recovered), (b"one", Recovered(cut=100, copy=f"{self.path}.damaged-2")))
        self.assertEqual((self.folder / "journal.damaged-1").read_bytes(), b"an older one")


class ForkedReaders(WithJournal):
    def test_a_forked_child_may_read_a_store_that_is_read_only(self) -> None:
        self.filled()
        with self.open(read_only=True) as store:
            wanted = len(store.list())
            reading, writing = os.pipe()
            child = os.fork()
            if not child:
                os.write(writing, b"%d" % len(store.list()))
                os._exit(0)
            os.waitpid(child, 0)
            self.assertEqual(os.read(reading, 10), b"%d" % wanted)
            os.close(reading)
            os.close(writing)


if __name__ == "__main__":
    unittest.main()
