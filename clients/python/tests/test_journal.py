"""A store in a journal: what is there after it is opened again, cut off, damaged, killed, or held by another process."""

from __future__ import annotations

import errno
import multiprocessing
import os
import random
import signal
import subprocess
import sys
import tempfile
import threading
import time
import unittest
from collections.abc import Iterator, Sequence
from contextlib import AbstractContextManager
from multiprocessing.synchronize import Event
from pathlib import Path
from typing import Any, Callable, Optional, Union
from unittest import mock

import elephant
from clocks import clock_at
from elephant import JournalDamaged, JournalError, JournalLocked, KeepOne, Limits, NoMemory, Recovered, Store
from elephant._policies import LADDER
from stats import file_stat

# Where no sync waits for a disk.
MEMORY = "/dev/shm" if os.path.isdir("/dev/shm") else None
SOURCE = str(Path(elephant.__file__).parent.parent)
QUICK: dict[str, Any] = {"clock": "manual", "fsync": "sync"}


def state(store: Store) -> list[str]:
    """Everything that a store tells of what it holds, as text."""
    told = [repr(store.now), store.line("restorable"), store.line("due"), store.line("usage"), store.line("groups"), store.line("stat /")]

    def below(directory: str) -> None:
        for entry in store.list(directory or "/"):
            path = f"{directory}/{entry.name}"
            told.append(f"{path} {entry} {store.stat(path)}")
            if entry.is_directory:
                below(path)
            else:
                numbers = [it.number for it in store.versions(path)]
                told.extend(f"{it} {store.read(path, version=it)!r} {store.why(path, version=it)}" for it in numbers)

    below("")
    return told


def fill(store: Store) -> Iterator[None]:
    """Makes some of every change, and yields after each."""
    store.set_default("/", KeepOne())
    yield
    store.mkdir("/d")
    yield
    store.create("/d/f")
    yield
    store.save("/d/f", b"one")
    yield
    store.clock(10)
    yield
    store.save("/a b", b"two" * 2000)
    yield
    with store.open("/a b", "r+b") as file:
        file.write(b"T")
    yield
    store.link("/a b", "/l")
    store.rename("/l", "/m")
    yield
    store.tick(5)
    yield
    store.group_make("g")
    store.group_add("g", "/m")
    yield
    store.mark("g", 12, 30)
    store.mark("g", 11)
    store.unmark("g", 11)
    yield
    with store.session("/d/f") as session:
        session.write(b"three", 2)
        session.truncate(4)
    yield
    with store.session("/d/f") as session:
        session.write(b"given up")
        session.abandon()
    yield
    reader = store.reader("/d/f", at=10)
    yield
    store.revert("/d/f", 3)
    store.restore("/d/f", 9)
    yield
    reader.close()
    yield
    store.clean()
    yield
    store.unlink("/d/f")
    yield
    store.undelete("/d/f")
    store.unlink("/d/f")
    store.restore("/d/f", 9)
    yield
    store.pass_()
    yield
    store.set_policy("/m", elephant.KeepSafe(days=1, floor=2))
    yield
    for line in ("create /x", "open write /x", f"write {reader.number + 1} 0 6162", f"close {reader.number + 1}", "unlink /x", "pass 9"):
        store.line(line)
    yield
    store.group_remove("g", "/m")
    store.group_drop("g")
    store.mkdir("/e")
    store.rmdir("/e")


class Journals(unittest.TestCase):
    def setUp(self) -> None:
        folder = tempfile.TemporaryDirectory(dir=MEMORY)
        self.addCleanup(folder.cleanup)
        self.folder = Path(folder.name)
        self.path = self.folder / "journal"

    def open(self, **options: Any) -> Store:
        return Store(journal=self.path, **{**QUICK, **options})

    def test_a_store_is_there_again(self) -> None:
        with self.open() as store:
            for _ in fill(store):
                pass
            before = state(store)
        for _ in range(2):
            with self.open() as store:
                self.assertEqual((state(store), store.recovered, bool(store.recovered)), (before, Recovered(), False))

    def test_a_note_is_there_again_by_a_call_and_by_a_line(self) -> None:
        with self.open() as store:
            self.assertEqual(store.line("note 77686f"), "ok done\n")
            store.note(b"why")
            self.assertEqual(store.line("note 7"), "bad 32 Syntax\n")
        self.assertEqual(self.path.read_bytes().count(b" = note "), 2)
        with self.open(history=True) as store:
            self.assertEqual(store.history().lines, (f"default / {LADDER.word}", "note 77686f", "note 776879"))
            self.assertEqual(store.line("note 616761696e"), "ok done\n")
        with self.open(history=True) as store:
            self.assertEqual(store.history().lines[1:], ("note 77686f", "note 776879", "note 616761696e"))

    def test_a_script_makes_the_same_store(self) -> None:
        """The lines of a journal, without what stands before them, are a script."""
        with self.open() as store:
            for _ in fill(store):
                pass
            before = state(store)
        with Store(clock="manual") as script:
            for line in self.path.read_text().splitlines()[1:]:
                self.assertRegex(line[:11], "^[0-9a-f]{8} [=<>-] $")
                self.assertRegex(script.line(line[11:]), "^ok ")
            self.assertEqual(state(script), before)

    def test_a_journal_cut_at_each_byte(self) -> None:
        """What is there is each whole change before the cut. The rest is cut off and told, and the store goes on."""
        with self.open() as store:
            ends, states = [os.path.getsize(self.path)], [state(store)]
            for _ in fill(store):
                ends.append(os.path.getsize(self.path))
                states.append(state(store))
        data = self.path.read_bytes()
        parts = [data[start:end] for start, end in zip(ends, ends[1:])]
        steps = [at for at, part in enumerate(parts, 1) if part.count(b" = ") + part.count(b" > ") == 1]
        self.assertGreater(len(steps), 12)
        checked = 0
        for step in steps:
            for cut in cuts(ends[step - 1], ends[step]):
                self.path.write_bytes(data[:cut])
                with self.open() as store:
                    self.assertEqual(store.recovered.cut, cut - ends[step - 1] if cut < ends[step] else 0)
                    self.assertEqual(self.without_handles(store, states, step, cut == ends[step]), [], (step, cut))
                    store.save("/and on", b"%d" % cut)
                with self.open() as store:
                    self.assertEqual((store.read("/and on"), store.recovered), (b"%d" % cut, Recovered()))
                checked += 1
        self.assertGreater(checked, 400)

    def without_handles(self, store: Store, states: list[list[str]], step: int, is_whole: bool) -> list[tuple[str, str]]:
        """Returns in what the store differs from that of a step. A reader that the journal left open is closed, so its version is due."""
        wanted, told = states[step if is_whole else step - 1], state(store)
        return [pair for pair in zip(wanted, told) if pair[0] != pair[1] and " open" not in pair[0] and not pair[0].startswith("ok due")]

    def test_a_header_cut_at_each_byte(self) -> None:
        with self.open():
            pass
        header = self.path.read_bytes()
        first = header.index(b"\n") + 1  # the line of the first policy follows
        for cut in range(len(header) + 1):
            self.path.write_bytes(header[:cut])
            torn = cut if cut < first else (cut - first) % (len(header) - first)
            with self.open() as store:
                self.assertEqual((store.recovered.cut, store.list()), (torn, []))
                store.create("/f")
            with self.open() as store:
                self.assertEqual(len(store.list()), 1)

    def test_a_byte_damaged_anywhere(self) -> None:
        """A damaged byte is told as damage, and the journal stays as it is. A repair keeps what is before the change, and all the bytes."""
        with self.open() as store:
            store.create("/f")
            store.save("/f", b"one")
            store.clock(7)
            last = os.path.getsize(self.path)
            store.save("/f", b"two")
        data = self.path.read_bytes()
        for at in range(len(data)):
            for damage in (data[at] ^ 1, data[at] ^ 4, 0, 10, 255):
                if damage == data[at]:
                    continue
                damaged = data[:at] + bytes([damage]) + data[at + 1:]
                self.path.write_bytes(damaged)
                with self.assertRaises(JournalDamaged) as told:
                    self.open()
                self.assertLessEqual(told.exception.offset, at)
                self.assertEqual(self.path.read_bytes(), damaged)
                if at >= last:
                    self.assertEqual(told.exception.offset, last)
                    with self.open(repair=True) as store:
                        self.assertEqual((store.read("/f"), store.recovered.cut), (b"one", len(data) - last))
                        copy = Path(store.recovered.copy)
                    self.assertEqual((copy.read_bytes(), self.path.read_bytes()), (damaged[last:], data[:last]))
                    copy.unlink()

    def test_a_tail_that_the_disk_never_got(self) -> None:
        """After a power failure the last change may be zeros, anything, or end in them. That is no end that a write leaves: the store isn't
        opened, unless for reading what is before it, or after a copy of the rest."""
        with self.open() as store:
            store.save("/f", b"one")
            last = os.path.getsize(self.path)
            store.save("/f", b"two" * 3000)
        data = self.path.read_bytes()
        for at in (last, last + 1, last + 30, len(data) - 100, len(data) - 1):
            for tail in (bytes(len(data) - at), b"\xff\n" * 9000, b"\n", b"00000000 > close 1\n", os.urandom(9000)):
                if (at, tail) == (len(data) - 1, b"\n"):
                    continue  # that is the whole journal
                self.path.write_bytes(data[:at] + tail)
                cut = at + len(tail) - last
                kinds: list[dict[str, bool]] = [{}, {"read_only": True}]
                for options in kinds:
                    with self.assertRaises(JournalDamaged) as told:
                        self.open(**options)
                    self.assertEqual(told.exception.offset, last)
                with self.open(read_only=True, repair=True) as store:
                    self.assertEqual((store.read("/f"), store.recovered), (b"one", Recovered(cut=cut)))
                self.assertEqual(self.path.read_bytes(), data[:at] + tail)
                with self.open(repair=True) as store:
                    self.assertEqual((store.read("/f"), store.recovered.cut), (b"one", cut))
                    copy = Path(store.recovered.copy)
                self.assertEqual((self.path.read_bytes(), copy.read_bytes()), (data[:last], (data[:at] + tail)[last:]))
                self.assertEqual(copy.stat().st_mode & 0o777, 0o600)
                copy.unlink()

    def test_lines_left_out_doubled_or_moved(self) -> None:
        with self.open() as store:
            for name in "abcde":
                store.create(f"/{name}")
        lines = self.path.read_bytes().splitlines(keepends=True)
        for wrong in (lines[:2] + lines[3:], lines[:3] + lines[2:], [*lines[:2], lines[3], lines[2], *lines[4:]], lines[:1] + lines[2:]):
            self.path.write_bytes(b"".join(wrong))
            self.assertRaises(JournalDamaged, self.open)

    def test_a_file_that_is_no_journal_is_left_alone(self) -> None:
        for data in (b"A letter.\n", b"\0" * 100, b"00000000 = # elephant journal 1\n"):
            self.path.write_bytes(data)
            self.assertRaises(JournalDamaged, self.open)
            self.assertEqual(self.path.read_bytes(), data)

    def test_an_open_session_becomes_a_version_if_it_was_synced(self) -> None:
        store = self.open()
        store.save("/f", b"old")
        session = store.session("/f")
        session.write(b"new")
        copy = self.path.read_bytes()
        store.sync()
        session.write(b"er", 3)
        for data, content, version in ((copy, b"old", None), (self.path.read_bytes(), b"new", 3)):
            (self.folder / "copy").write_bytes(data)
            for _ in range(2):
                with Store(journal=self.folder / "copy", **QUICK) as other:
                    self.assertEqual(other.read("/f"), content)
                    closed = ((("/f", version),),) if not _ else ((),)
                    self.assertEqual((other.recovered.closed,), closed)
        self.assertEqual(session.close(), 3)
        store.close()
        with self.open() as store:
            self.assertEqual((store.read("/f"), len(store.versions("/f")), store.recovered), (b"newer", 3, Recovered()))

    def test_a_draft_is_kept_with_its_last_session(self) -> None:
        """What the first of two sessions wrote is no version as long as the second is open, so a copy of the journal has none."""
        with self.open() as store:
            store.save("/f", b"old")
            one, two = store.session("/f"), store.session("/f")
            one.write(b"new")
            one.close()
            copies = [self.path.read_bytes()]
            two.write(b"er", 3)
            self.assertEqual(two.close(), 3)
            copies.append(self.path.read_bytes())
        for data, content, closed in ((copies[0], b"old", (("/f", None), ("/f", None))), (copies[1], b"newer", ())):
            self.path.write_bytes(data)
            with self.open() as store:
                self.assertEqual((store.read("/f"), store.recovered.closed), (content, closed))

    def test_sessions_of_lines_in_a_store_with_a_history(self) -> None:
        """Their files aren't known, so what all sessions write is kept in the order in which they wrote it."""
        with self.open(history=True) as store:
            store.save("/f", b"abc")
            store.line("open write /f")
            typed = store.session("/f")
            store.line("write 1 0 313131")
            typed.write(b"2", 1)
            store.line("write 1 2 33")
            long = b"xyz" * 3000
            for content in (b"x", long):
                self.assertRaisesRegex(elephant.Drafting, "^18 Drafting: /f$", store.save, "/f", content)
            typed.close()
            self.assertRaisesRegex(elephant.Drafting, "^18 Drafting: /f$", store.save, "/f", b"x")
            # A long content is written by a session, and then that is found out too late.
            self.assertRaisesRegex(elephant.Drafting, "the draft has the content", store.save, "/f", long)
            store.line("write 1 1 34")
            self.assertEqual((store.line("close 1"), store.read("/f")), ("ok closed version 3\n", b"x4z" + long[3:]))
            before = state(store)
        with self.open() as store:
            self.assertEqual((state(store), store.recovered), (before, Recovered()))

    def test_an_exclusive_file_is_one_change(self) -> None:
        with self.open() as store:
            for path, content in (("/f", b"one"), ("/g", bytes(5000))):
                with store.open(path, "xb") as file:
                    file.write(content)
            self.assertRaises(elephant.Exists, store.open, "/f", "xb")
        # The second one has the lines create, open, two of write, truncate and close.
        self.assertEqual([line[9:10] for line in self.path.read_text().splitlines()], list("===<---->"))

    def test_a_close_of_the_store_closes_its_sessions(self) -> None:
        with self.open() as store:
            store.create("/f")
            one, two = store.session("/f"), store.session("/f")
            one.write(b"one")
            two.write(b"two", 3)
            one.close()
            store.save("/g", b"between")
        with self.open() as store:
            self.assertEqual((store.read("/f"), store.read("/g"), store.recovered), (b"onetwo", b"between", Recovered()))

    def test_the_clock_is_kept_with_what_changes(self) -> None:
        moment = 1000.5
        with clock_at(lambda: moment), self.open(clock="system") as store:
            store.save("/f", b"one")
            moment = 2000.9
            store.read("/f")
            moment = 2001.2
            store.save("/f", b"two")
            moment = 900.0
            store.save("/f", b"three")
            before = state(store)
        with self.open() as store:
            self.assertEqual((state(store), store.now), (before, 2001))
            self.assertEqual([it.closed for it in store.versions("/f")], [1000, 1000, 2001, 2001])

    def test_one_store_at_a_time_has_a_journal(self) -> None:
        with self.open() as store:
            with self.assertRaises(JournalLocked) as told:
                self.open()
            self.assertEqual(told.exception.errno, errno.EWOULDBLOCK)
            began = time.monotonic()
            self.assertRaises(JournalLocked, self.open, wait=0.3)
            self.assertGreaterEqual(time.monotonic() - began, 0.3)
            store.create("/f")
        with self.open(wait=0.3) as store:
            self.assertEqual(len(store.list()), 1)

    def test_two_processes_on_one_journal(self) -> None:
        """The second waits until the first is done, and finds what it saved."""
        opened = "import sys; from elephant import Store; store = Store(journal=sys.argv[1], wait=30); "
        saves = "store.save('/f', b'first'); print(1, flush=True); sys.stdin.readline(); store.save('/f', b'second')"
        first = self.process(opened + saves, stdin=subprocess.PIPE)
        assert first.stdout is not None
        first.stdout.readline()
        self.assertRaises(JournalLocked, self.open)
        second = self.process(opened + "print(store.read('/f'))")
        time.sleep(0.5)
        self.assertIsNone(second.poll())
        first.communicate(b"\n", timeout=30)
        self.assertEqual(second.communicate(timeout=30)[0], b"b'second'\n")

    def process(self, program: str, *words: str, stdin: Optional[int] = None) -> subprocess.Popen[bytes]:
        environment = {**os.environ, "PYTHONPATH": SOURCE}
        command = [sys.executable, "-c", program, str(self.path), *words]
        process = subprocess.Popen(command, env=environment, stdin=stdin, stdout=subprocess.PIPE)
        assert process.stdout is not None
        self.addCleanup(process.wait)
        self.addCleanup(process.stdout.close)
        self.addCleanup(process.kill)
        return process

    def test_a_killed_process_loses_at_most_the_save_it_was_in(self) -> None:
        program = """
import sys
from elephant import Store
store = Store(journal=sys.argv[1], fsync="sync")
at = store.stat("/f").version if store.list() else 1
while True:
    at += 1
    with store.open("/f", "wb") as file:
        file.write(b"%9d" % at * int(sys.argv[2]))
    print(at, flush=True)
"""
        told = 0
        for size in (1, 500, 100_000, 100_000, 100_000):
            process = self.process(program, str(size))
            assert process.stdout is not None
            for line in process.stdout:
                told = int(line)
                if told % 7 == 5:
                    break
            time.sleep(0.003)
            process.send_signal(signal.SIGKILL)
            told = max([told, *(int(line) for line in process.stdout.read().split(b"\n")[:-1])])
            process.wait()
            with self.open() as store:
                newest = file_stat(store, "/f").version
                self.assertIn(newest, (told, told + 1))
                for version in store.versions("/f")[1:]:
                    content = store.read("/f", version=version.number)
                    self.assertEqual(content, b"%9d" % version.number * (len(content) // 9))
                    self.assertIn(len(content) // 9, (1, 500, 100_000))
            told = newest

    def test_a_process_that_runs_out_of_memory(self) -> None:
        """Whichever part runs out, the library or Python: what was saved before is there, and the last save is whole or not there."""
        program = """
import random, resource, sys
from elephant import JournalError, Store
store = Store(journal=sys.argv[1], fsync="sync") if sys.argv[2] == "kept" else Store()
content = [random.Random(at).randbytes(400_000) for at in range(60)]
store.save("/0", content[0])
store.read("/0")
used = int(open("/proc/self/statm").read().split()[0]) * resource.getpagesize()
resource.setrlimit(resource.RLIMIT_AS, (used + 6_000_000 + int(sys.argv[3]), resource.RLIM_INFINITY))
try:
    for at in range(1, 60):
        store.save(f"/{at}", content[at])
except (MemoryError, JournalError) as fault:
    print(type(fault).__name__)
resource.setrlimit(resource.RLIMIT_AS, (resource.RLIM_INFINITY, resource.RLIM_INFINITY))
print(at)
try:
    print([store.read(f"/{it}") == content[it] for it in range(at)].count(True), store.save("/0", b"more"))
except JournalError:
    print("ended")
"""
        for more in (0, 700_000, 1_400_000):
            process = self.process(program, "kept", str(more))
            kind, at, rest = process.communicate(timeout=60)[0].decode().splitlines()
            ends = ("NoMemory", f"{at} 3"), ("MemoryError", f"{at} 3"), ("MemoryError", "ended"), ("JournalError", "ended")
            self.assertIn((kind, rest), ends)
            with self.open() as store:
                for it in range(1, int(at)):
                    self.assertEqual(store.read(f"/{it}"), random.Random(it).randbytes(400_000))
                if at in {it.name for it in store.list()}:
                    self.assertIn(store.read(f"/{at}"), (b"", random.Random(int(at)).randbytes(400_000)))
            self.path.unlink()
        process = self.process(program, "not kept", "0")
        kind, at, rest = process.communicate(timeout=60)[0].decode().splitlines()
        self.assertEqual((kind, rest), ("NoMemory", f"{at} 3"))

    def test_a_journal_that_cannot_be_written(self) -> None:
        """Then nothing is changed any more. What is read, and what is there after an opening, is what was there before."""
        write = os.write

        def refuse(file: int, data: bytes) -> int:
            raise OSError(errno.ENOSPC, "no space")

        def write_half(file: int, data: bytes) -> int:
            return write(file, data[:10]) if len(data) > 10 else refuse(file, data)

        def lose(file: int) -> None:
            raise OSError(errno.EIO, "lost")

        faults: list[tuple[str, Callable[..., Any]]] = [("os.write", refuse), ("os.write", write_half), ("os.fdatasync", lose)]
        for name, fault in faults:
            self.path.unlink(missing_ok=True)
            with self.open() as store:
                store.save("/f", b"old")
                size = os.path.getsize(self.path)
            store = self.open(fsync="always")
            with mock.patch(name, fault):
                self.assertRaises(JournalError, store.save, "/f", b"new")
                self.assertEqual((store.read("/f"), len(store.versions("/f"))), (b"old", 2))
            self.assertRaises(JournalError, store.save, "/f", b"new")
            self.assertRaises(JournalError, store.open, "/f", "wb")
            self.assertEqual((store.read("/f"), len(store.versions("/f"))), (b"old", 2))
            store.close()
            self.assertEqual(os.path.getsize(self.path), size)
            with self.open() as store:
                self.assertEqual((store.read("/f"), len(store.versions("/f"))), (b"old", 2))

    def test_an_interrupted_change_ends_the_store(self) -> None:
        for at, times in (("elephant_save", 1), ("elephant_write", 2000), ("elephant_close_handle", 2000)):
            self.path.unlink(missing_ok=True)
            store = self.open()
            store.save("/f", b"old")
            with with_fault(store, at, KeyboardInterrupt):
                self.assertRaises(KeyboardInterrupt, store.save, "/f", b"new" * times)
            self.assertRaises(JournalError, store.save, "/f", b"newer")
            self.assertEqual((store.read("/f"), len(store.versions("/f"))), (b"old", 2))
            store.close()
            with self.open() as store:
                self.assertEqual((store.read("/f"), len(store.versions("/f"))), (b"old", 2))

    def test_a_save_without_memory_makes_no_version(self) -> None:
        """Each of its calls fails in turn, as if there were no memory. It is given up; the store goes on, and so does its journal."""
        of_sessions = ("elephant_open_write", "elephant_write", "elephant_truncate", "elephant_close_handle")
        for call, times in [("elephant_save", 1), *((it, 2000) for it in of_sessions)]:
            self.path.unlink(missing_ok=True)
            with self.open() as store:
                store.save("/f", b"old and long")
                with with_fault(store, call, NoMemory.number):
                    self.assertRaises(NoMemory, store.save, "/f", b"new" * times)
                contents = [store.read("/f", version=it.number) for it in store.versions("/f")]
                self.assertEqual((store.read("/f"), contents), (b"old and long", [b"", b"old and long"]))
                self.assertEqual(store.save("/f", b"newer"), 3)
                before = state(store)
            with self.open() as store:
                self.assertEqual(state(store), before)

    def test_a_save_that_cannot_be_given_up(self) -> None:
        """With a journal nothing is changed any more, and the save isn't there. In memory the file can't be saved any more."""
        old = b"old and long" * 1000
        for path in (self.path, None):
            store = Store(journal=path, **QUICK)
            store.save("/f", old)
            with with_fault(store, "elephant_truncate", NoMemory.number, "elephant_abandon"):
                file = store.open("/f", "r+b")
                file.write(b"new")
                self.assertRaises(NoMemory, file.close)
            if path is None:
                self.assertEqual((store.read("/f"), store.save("/g", b"x")), (old, 2))
                self.assertRaisesRegex(elephant.Drafting, "^18 Drafting: /f$", store.save, "/f", b"new")
                continue
            self.assertRaises(JournalError, store.save, "/f", b"new")
            self.assertEqual((store.read("/f"), len(store.versions("/f"))), (old, 2))
            store.close()
            with self.open() as store:
                self.assertEqual((store.read("/f"), len(store.versions("/f"))), (old, 2))

    def test_a_save_is_one_line(self) -> None:
        """A longer one has the lines of a session, and all of them are one change."""
        with self.open() as store:
            for content in (b"one", b"", bytes(4092)):
                size = self.path.stat().st_size
                store.save("/f", content)
                line = b"save /f " + (content.hex().encode() or b"-")
                self.assertEqual(self.lines_after(size), [line])
            size = self.path.stat().st_size
            store.save("/f", bytes(4093))
            self.assertEqual([it.split()[0] for it in self.lines_after(size)], [b"open", b"write", b"write", b"truncate", b"close"])
            before = state(store)
        with self.open() as store:
            self.assertEqual(state(store), before)

    def lines_after(self, size: int) -> list[bytes]:
        """Returns the lines that follow the first bytes of the journal."""
        return [it[11:] for it in self.path.read_bytes()[size:].splitlines()]

    def test_an_abandoned_session_leaves_its_lines_out(self) -> None:
        with self.open() as store:
            store.save("/f", b"old")
            size = self.path.stat().st_size
            session = store.session("/f")
            session.write(b"secret")
            session.abandon()
            self.assertEqual(self.lines_after(size), [b"open write /f", b"abandon 1"])
            synced, other = store.session("/f"), store.session("/f")
            synced.write(b"new")
            store.sync()
            synced.write(b"er", 3)
            other.abandon()
            synced.close()
            synced = store.session("/f")
            synced.write(b"gone")
            store.sync()
            synced.abandon()
            before = state(store)
            self.assertEqual((store.read("/f"), len(store.versions("/f"))), (b"newer", 3))
        with self.open() as store:
            self.assertEqual((state(store), store.recovered), (before, Recovered()))

    def test_sessions_that_ended_before_an_abandoned_one_are_ended(self) -> None:
        with self.open() as store:
            store.save("/f", b"old")
            closed, abandoned, last = (store.session("/f") for _ in range(3))
            size = self.path.stat().st_size
            closed.write(b"secret")
            closed.close()
            abandoned.abandon()
            last.abandon()
            self.assertEqual(self.lines_after(size), [b"close 1", b"abandon 2", b"abandon 3"])
        with self.open() as store:
            self.assertEqual(store.recovered, Recovered())
            self.assertEqual((store.save("/f", b"new"), store.read("/f")), (3, b"new"))

    def test_many_threads_share_a_journal(self) -> None:
        faults: list[BaseException] = []

        def work(thread: int) -> None:
            try:
                for at in range(100):
                    store.save(f"/{thread}", b"%d" % at)
                    with store.session(f"/{thread}") as session:
                        session.write(b"%d" % thread, at)
                    if at % 10 == thread:
                        store.sync()
            except BaseException as fault:
                faults.append(fault)

        with self.open() as store:
            workers = [threading.Thread(target=work, args=(thread,)) for thread in range(6)]
            for worker in workers:
                worker.start()
            for worker in workers:
                worker.join()
            before = state(store)
        self.assertEqual(faults, [])
        with self.open() as store:
            self.assertEqual((state(store), store.recovered), (before, Recovered()))
            self.assertEqual([file_stat(store, f"/{thread}").version for thread in range(6)], [201] * 6)

    def test_a_forked_child_has_no_store(self) -> None:
        """It can't use the store, and does not hold the journal when its parent has let go of it."""
        def work(answers: multiprocessing.Queue[Union[bytes, str]], done: Event) -> None:
            try:
                answers.put(store.read("/f"))
            except JournalError as fault:
                answers.put(str(fault))
            done.wait(30)

        context = multiprocessing.get_context("fork")
        answers: multiprocessing.Queue[Union[bytes, str]] = context.Queue()
        done = context.Event()
        with self.open() as store:
            store.save("/f", b"old")
            child = context.Process(target=work, args=(answers, done))
            child.start()
            self.assertIn("forked", answers.get(timeout=30))
            store.save("/f", b"new")
        with self.open() as store:
            self.assertEqual((store.read("/f"), child.is_alive()), (b"new", True))
        done.set()
        child.join()

    def test_a_journal_of_larger_limits(self) -> None:
        with self.open() as store:
            store.create("/f")
            store.create("/g")
        with self.assertRaises(JournalError) as told:
            self.open(limits=Limits(files=1))
        self.assertIn("create /g", str(told.exception))
        with self.open(limits=Limits(files=2)) as store:
            self.assertRaises(elephant.Full, store.create, "/h")
            self.assertEqual(len(store.list()), 2)

    def test_each_change_is_synced_or_only_a_sync(self) -> None:
        with mock.patch("os.fdatasync") as synced:
            with self.open(fsync="always") as store:
                synced.reset_mock()
                store.save("/f", b"one")
                self.assertEqual(synced.call_count, 1)
            self.path.unlink()
            synced.reset_mock()
            with self.open(fsync="sync") as store:
                store.save("/f", b"one")
                self.assertEqual(synced.call_count, 0)
                store.sync()
                self.assertEqual(synced.call_count, 1)


class Wrapped:
    """A library one call of which raises or answers a code once, after it was made if it raises; and others always."""

    def __init__(self, library: object, name: str, fault: Union[int, type[BaseException]], *always: str) -> None:
        self._library, self._name, self._fault, self._always = library, name, fault, always

    def __getattr__(self, name: str) -> Callable[..., Any]:
        call: Callable[..., Any] = getattr(self._library, name)
        if name in self._always:
            return lambda *_: self._fault
        if name != self._name:
            return call
        self._name = ""
        return self._wrapped(call)

    def _wrapped(self, call: Callable[..., Any]) -> Callable[..., Any]:
        def wrapped(*words: object) -> int:
            if isinstance(self._fault, int):
                return self._fault
            call(*words)
            raise self._fault

        return wrapped


def with_fault(store: Store, *words: Any) -> AbstractContextManager[object]:
    """Gives a store such a library."""
    core = store._core
    assert core is not None
    return mock.patch.object(core, "library", Wrapped(core.library, *words))


def cuts(start: int, end: int) -> Sequence[int]:
    """The places of a change at which a journal is cut: each, or of a long change its first and last and some between."""
    places = range(start, end + 1)
    return places if len(places) < 400 else [*places[:150], *places[150:-150:97], *places[-150:]]


if __name__ == "__main__":
    unittest.main()
