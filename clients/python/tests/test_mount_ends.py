"""How a mount's store ends: limits, memory, a lost journal, a new journal, a move to another one, and a look without a trace."""

from __future__ import annotations

import ctypes
import errno
import os
import subprocess
import sys
import unittest
from collections.abc import Callable
from contextlib import AbstractContextManager
from itertools import count
from pathlib import Path
from typing import Any, Union, cast
from unittest import mock

import elephant
from alone import Patched
from anew import make_anew
from elephant import Counts as Made, Full, JournalError, JournalLost, KeepOne, KeepSafe, Limits, Moment, NoMemory
from elephant._errors import LIMIT_NAMES
from elephant.keeping import Core
from elephant.mount import drafts, memory
from elephant.mount.ages import Ages
from elephant.mount.contents import MOST_BYTES, Limited
from elephant.mount.counts import Counts
from elephant.mount.moving import everything_of, move
from elephant.mount.naming import EXCHANGE
from elephant.mount.store import MountStore
from elephant.mount.tree import Directory, File, Tree
from elephant.mount.undo import Undo
from elephant.mount.whereabouts import Nothing
from clocks import clock_at as at
from test_mount import FOLDER, SOURCE, Case, Mounted


def no_memory() -> AbstractContextManager[Any]:
    return mock.patch.object(memory, "has_memory", lambda _: False)


# What a mount shows: for each file its path, the beginning of its content and its length, and for each folder its path.
Shown = list[Union[bytes, tuple[bytes, bytes, int]]]


class Memory(Case):
    def test_a_write_that_finds_no_memory_changes_nothing_and_reads_go_on(self) -> None:
        it = self.mount()
        node = it.open(it.save(b"f", b"one"))
        size = it.store.journal_size
        it.store.memory.left = 0
        with no_memory():
            changes: list[Callable[[], object]] = [lambda: it.contents.write(node, 0, b"two"), it.store.memory.require]
            for change in changes:
                with self.assertRaises(NoMemory):
                    change()
            self.assertEqual((it.read(b"f"), it.versions(b"f"), it.store.journal_size), (b"one", [b"", b"one"], size))
            it.store.reserve(0)  # a removal needs it
        it.contents.write(node, 0, b"two")
        it.contents.closed(node, True)
        self.assertEqual((it.versions(b"f"), it.store.stopped), ([b"", b"one", b"two"], ""))
        self.assertEqual(self.mount().versions(b"f"), [b"", b"one", b"two"])

    def test_a_look_for_memory_is_not_made_for_each_change(self) -> None:
        looks: list[int] = []
        it = self.mount()

        def look(size: int) -> bool:
            looks.append(size)
            return True

        with mock.patch.object(memory, "has_memory", look):
            it.store.memory.left = 0
            for _ in range(200):
                it.store.memory.require()
            self.assertEqual(len(looks), 1)
            it.store.reserve(MOST_BYTES)
        self.assertGreaterEqual(looks[0], memory.LEAST + memory.OF_CHANGE)

    def test_a_process_of_a_hundred_megabytes_has_no_more(self) -> None:
        program = """
import resource
from elephant.mount.memory import has_memory
with open("/proc/self/statm", "rb") as file:
    now = int(file.read().split()[0]) * resource.getpagesize()
resource.setrlimit(resource.RLIMIT_AS, (now + (100 << 20),) * 2)
print(has_memory(50 << 20), has_memory(200 << 20), has_memory(50 << 20))
"""
        environment = {**os.environ, "PYTHONPATH": SOURCE}
        ran = subprocess.run([sys.executable, "-c", program], env=environment, capture_output=True, text=True, check=False)
        self.assertEqual((ran.stdout, ran.stderr), ("True False True\n", ""))

    def test_an_append_without_memory_stops_changes_until_there_is_some(self) -> None:
        for where in ("elephant._core.Core.text_of", "os.pwrite"):
            it = self.mount()
            it.save(b"f", b"one")
            with Patched(where, side_effect=MemoryError), self.assertRaises(JournalError) as caught:
                it.make(b"g")
            self.assertEqual((bool(it.store.stopped), it.read(b"f"), it.store.is_lost), (True, b"one", False), where)
            self.assertTrue(caught.exception.__cause__)
            self.assertTrue(it.store.retry())
            list(it.tree.refresh())
            self.assertEqual((sorted(it.top.children), it.store.stopped), ([b"f", b"g"], ""))
            it.naming.unlink(it.top, b"g")
            before = it.all()
            self.assertEqual(self.mount().all(), before)

    def test_a_part_of_a_save_that_found_no_memory_is_in_no_version(self) -> None:
        it, calls = self.mount(), count()
        it.save(b"f", bytes(12_288))
        node = it.open(it.file(b"f"))
        it.contents.write(node, 0, b"x")
        it.contents.write(node, 8192, b"y")  # the block between them stays

        do = Core.do

        def some(core: Core, call: Any, subject: object, *words: object) -> None:
            if call.__name__ == "elephant_write" and next(calls):
                raise MemoryError
            do(core, call, subject, *words)

        with mock.patch.object(Core, "do", some), self.assertRaises(NoMemory):
            it.contents.save(node)
        copy = self.journal.with_name("copy")
        copy.write_bytes(self.journal.read_bytes())
        killed = Mounted(copy)
        self.addCleanup(killed.store.close)
        self.assertEqual(killed.versions(b"f"), [b"", bytes(12_288)])
        it.contents.closed(node, True)
        wanted = [b"", bytes(12_288), b"x" + bytes(8191) + b"y" + bytes(4095)]
        self.assertEqual((it.versions(b"f"), it.store.stopped, next(calls)), (wanted, "", 2))
        self.assertEqual(self.mount().versions(b"f"), wanted)


class Lost(Case):
    def lose(self, how: Callable[[], object]) -> Mounted:
        it = self.mount()
        it.save(b"f", b"one")
        how()
        return it

    def end(self) -> None:
        with self.assertRaises(JournalLost):
            self.mount_of().store.close()
        self.mounted = None

    def mount_of(self) -> Mounted:
        assert self.mounted is not None
        return self.mounted

    def check(self, it: Mounted) -> None:
        with self.assertRaises(JournalError):
            it.store.sync_journal()
        changes: list[Callable[[], object]] = [lambda: it.make(b"g"), lambda: it.store.line("create /h"), lambda: it.save(b"f", b"two")]
        for change in changes:
            with self.assertRaises(JournalError):
                change()
        self.assertTrue(it.store.is_lost)
        self.assertIn("Nothing more is kept", it.store.stopped)
        self.assertFalse(it.store.retry())
        self.assertFalse(it.store.has_place)
        self.assertEqual((it.store.read("/f"), it.versions(b"f")), (b"one", [b"", b"one"]))

    def test_a_journal_that_was_cut_is_noticed_before_a_change_is_answered(self) -> None:
        self.check(self.lose(lambda: os.truncate(self.journal, self.journal.stat().st_size - 20)))
        size = self.journal.stat().st_size
        self.end()
        self.assertEqual(self.journal.stat().st_size, size)

    def test_one_that_was_deleted_renamed_or_replaced_too(self) -> None:
        self.check(self.lose(self.journal.unlink))
        self.end()
        self.check(self.lose(lambda: self.journal.rename(self.journal.with_name("moved"))))
        self.end()

        def replace() -> None:
            copy = self.journal.with_name("copy")
            copy.write_bytes(self.journal.read_bytes())
            copy.rename(self.journal)

        self.check(self.lose(replace))
        self.end()


class Ends(Case):
    def test_the_end_is_told_at_each_step_once(self) -> None:
        made = Made(*[0] * len(Made._fields))
        counts = Counts(Limits(versions=1000, names=0), lambda: made)
        told: list[tuple[int, str, str]] = []
        for used in range(1001):
            made = made._replace(versions=used)
            told += [(used, text.split(" in 100 of the ")[0], text.split(" of the ")[1].split()[0]) for text in counts.news()]
        wanted = [(800, "80", "versions"), (900, "90", "versions"), (990, "99", "versions")]
        self.assertEqual([it for it in told if it[2] == "versions"], wanted)

    def test_a_mount_that_opens_near_its_end_is_told_the_highest_step(self) -> None:
        it = self.mount(Limits(files=10))
        for number in range(9):
            it.make(b"f%d" % number)
        self.assertEqual([text.split()[0] for text in it.store.quota.news()], ["90"])
        it = self.mount(Limits(files=10))
        self.assertEqual([text.split()[0] for text in it.store.quota.news()], ["90"])
        self.assertIn("files                9         1      90  its end is near\n", it.past.limits().decode())

    def test_the_last_of_each_limit_is_for_undo(self) -> None:
        it = self.mount(Limits(versions=400, names=300))
        for number in range(198):
            it.save(b"f", b"%d" % number)
        while it.store.quota.left("versions"):
            it.save(b"f", b"more%d" % it.store.quota.left("versions"))
        self.assertEqual(it.store.quota.used["versions"], 396)
        with self.assertRaises(Limited):
            it.save(b"f", b"too many")
        with self.assertRaises(Full) as caught:
            it.make(b"g")
        self.assertEqual((caught.exception.what, it.store.quota.used["versions"]), ("versions", 396))
        for _ in range(2):
            last = it.read(b"f")
            it.naming.unlink(it.top, b"f")
            with it.store.quota.undoing():
                self.assertTrue(it.store.undelete(b"/f"))
            list(it.tree.refresh())
            self.assertEqual(it.read(b"f"), last)
        with it.store.quota.undoing():
            it.store.revert(b"/f", 3)
        list(it.tree.refresh())
        self.assertEqual((it.read(b"f"), it.store.quota.used["versions"]), (b"1", 399))

    def test_a_removal_that_could_not_be_undone_is_refused(self) -> None:
        it = self.mount(Limits(versions=400))
        for name in (b"a", b"b", b"c", b"d", b"e", b"g"):
            it.save(name, name)
        while it.store.quota.left("versions"):
            it.save(b"f", b"%d" % it.store.quota.left("versions"))
        removed = []
        with self.assertRaises(Full):
            for name in (b"a", b"b", b"c", b"d", b"e", b"g"):
                it.naming.unlink(it.top, name)
                removed.append(name)
        self.assertEqual(removed, [b"a", b"b", b"c", b"d"])
        with it.store.quota.undoing():
            for name in removed:
                it.store.undelete(b"/" + name)
        list(it.tree.refresh())
        self.assertEqual([it.read(name) for name in removed], removed)

    def test_a_removal_in_a_store_that_is_not_full_is_not_counted(self) -> None:
        it = self.mount(Limits(versions=5000, names=5000))
        for number in range(300):
            it.save(b"f%d" % number, b"x")
            it.naming.unlink(it.top, b"f%d" % number)
        self.assertIsNone(it.store.quota.lacking_for_removal())


def undo(it: Mounted, path: bytes) -> str:
    return Undo(it.store, it.tree, it.contents).run(path, None, False)


class TakenBack(Case):
    """Each call of the library fails in turn, in each kind of request. What the folder has is then as before, or as after."""

    def prepare(self) -> tuple[Mounted, Directory]:
        it = self.mount()
        folder = it.naming.mkdir(it.top, b"d", FOLDER, 0, 0)
        it.save(b"f", b"one")
        it.save(b"f", b"two")
        it.save(b"g", b"three" * 3000)
        it.save(b"x", b"inner", folder)
        for node in (it.file(b"f"), it.file(b"g")):
            node.born -= 10
        it.save(b"gone", b"gone")
        it.naming.unlink(it.top, b"gone")
        lost = it.naming.mkdir(it.top, b"lost", FOLDER, 0, 0)
        it.save(b"inner", b"deep", lost)
        it.naming.unlink(lost, b"inner")
        it.naming.rmdir(it.top, b"lost")
        it.top.left.clear()
        return it, folder

    REQUESTS: dict[str, Callable[[Mounted, Directory], object]] = {
        "make": lambda it, d: it.make(b"new"),
        "mkdir": lambda it, d: it.naming.mkdir(it.top, b"e", FOLDER, 0, 0),
        "symlink": lambda it, d: it.naming.symlink(it.top, b"s", b"f", 0, 0),
        "link": lambda it, d: it.naming.link(it.top.children[b"f"], d, b"l"),
        "unlink": lambda it, d: it.naming.unlink(it.top, b"f"),
        "rename": lambda it, d: it.naming.rename(it.top, b"f", d, b"f", 0),
        "rename over": lambda it, d: it.rename(b"g", b"f"),
        "replace": lambda it, d: it.naming.rename(it.top, b"f", d, b"x", 0),
        "exchange": lambda it, d: it.rename(b"f", b"g", EXCHANGE),
        "exchange with a folder": lambda it, d: it.rename(b"f", b"d", EXCHANGE),
        "save": lambda it, d: it.save(b"g", b"four" * 4000),
        "save anew": lambda it, d: it.save(b"other", b"five"),
        "truncate": lambda it, d: it.contents.truncate(it.file(b"g"), 5),
        "undelete": lambda it, d: it.store.undelete(b"/none"),
        "revert": lambda it, d: it.store.revert(b"/f", 2),
        "undo": lambda it, d: undo(it, b"/f"),
        "undo of a deleted file": lambda it, d: undo(it, b"/gone"),
        "undo of a folder": lambda it, d: undo(it, b"/lost"),
    }

    @staticmethod
    def shown(it: Mounted) -> Shown:
        """Names and contents, as programs see them."""
        files = [(cast(bytes, row[0]), cast(bytes, row[-1])) for row in it.all() if len(row) > 5]
        folders = [cast(bytes, row[0]) for row in it.all() if len(row) == 5]
        return [*((path, content[:9], len(content)) for path, content in files), *folders]

    def states(self, request: str) -> tuple[Shown, Shown]:
        """What the folder has before a request, and at each of its steps that a program sees as such."""
        it, folder = self.prepare()
        before = self.shown(it)
        try:
            self.REQUESTS[request](it, folder)
        except elephant.ElephantError:
            pass
        list(it.tree.refresh())
        return before, self.shown(it)

    def tear_down(self) -> None:
        assert self.mounted is not None
        self.mounted.store.close()
        self.mounted = None
        self.journal.unlink()

    def test_each_call_finds_no_memory(self) -> None:
        self.each_call(1)

    def test_each_call_finds_a_limit_reached(self) -> None:
        self.each_call(27)

    def each_call(self, code: int) -> None:
        for request in self.REQUESTS:
            wanted = self.states(request)
            self.tear_down()
            for number in range(1, 80):
                has_failed = False
                with self.subTest(request=request, number=number):
                    has_failed = self.fail_at(request, number, code, wanted)
                self.tear_down()
                if not has_failed:
                    break
            else:
                self.fail("it never ends")

    def fail_at(self, request: str, number: int, code: int, wanted: tuple[Shown, Shown]) -> bool:
        it, folder = self.prepare()
        core = it.store._core
        assert core is not None
        failing = Failing(core.library, number, code)
        answer: object = ""
        with mock.patch.object(core, "library", failing):
            try:
                answer = self.REQUESTS[request](it, folder)
            except (elephant.ElephantError, OSError, Nothing):
                pass
        if it.store.stopped:  # the change is done, and the journal gets it as soon as there is memory for its text
            self.assertTrue(it.store.retry())
        list(it.tree.refresh())
        found = self.shown(it)
        self.assertEqual(it.store.stopped, "")
        allowed = [*wanted, *self.between(request, wanted, str(answer))]
        self.assertIn(found, allowed)
        for node in [*it.top.children.values(), *folder.children.values()]:
            if isinstance(node, File) and node.writers:
                node.opens = node.writers = 0
        it.contents.settle_all()
        settled = self.shown(it)
        self.assertIn(settled, allowed)
        for name in [name for name, node in it.top.children.items() if isinstance(node, File) and node.is_regular]:
            it.save(name, b"later " + name)
            self.assertEqual((it.read(name), it.versions(name)[-1]), (b"later " + name,) * 2)
            it.naming.unlink(it.top, name)
            it.store.undelete(b"/" + name)
            self.assertEqual(it.store.read(b"/" + name), b"later " + name)
        list(it.tree.refresh())
        before, used = self.shown(it), it.store.quota.used
        it = self.mount()
        # A draft that a failing call left open counted as a version until here.
        drafts = used["versions"] - it.store.quota.used["versions"]
        self.assertEqual((self.shown(it), {**it.store.quota.used, "versions": used["versions"]}), (before, used))
        self.assertIn(drafts, (0, 1))
        return failing.has_failed

    @staticmethod
    def between(request: str, wanted: tuple[Shown, Shown], answer: str) -> list[Shown]:
        """Returns what else is allowed. A save is many requests, so a new or a cut file may be empty. An undo of a folder that stops midway
        never says ok."""
        if request == "undo of a folder":
            return [] if answer.startswith("ok") else [[it for it in wanted[1] if it[:1] != (b"/lost/inner",)]]
        name = {"save": b"/g", "save anew": b"/other"}.get(request)
        return [[(name, b"", 0) if isinstance(it, tuple) and it[0] == name else it for it in wanted[1]]] if name else []


class Failing:
    """A library whose nth call of those that may return a code returns it, and does nothing."""

    NEVER = tuple(f"elephant_{it}" for it in ("delete", "detail", "counts", "now", "take", "answer", "row", "rung", "journal_written"))
    OF_LIMITS = tuple(f"elephant_{it}" for it in ("create", "mkdir", "link", "rename", "undelete", "open_write", "open_read", "revert"))

    def __init__(self, library: Any, number: int, code: int) -> None:
        self._library, self._left, self._code, self.has_failed = library, number, code, False

    def __getattr__(self, name: str) -> Any:
        call = getattr(self._library, name)
        if name == "elephant_detail" and self.has_failed:
            return lambda handle, out: call(handle, out) and self._detail(out)
        if name.startswith(self.NEVER) or (self._code == 27 and name not in self.OF_LIMITS):
            return call

        def made(*words: Any) -> Any:
            self._left -= 1
            if self._left == 0:
                self.has_failed = True
                return self._code
            return call(*words)

        return made

    @staticmethod
    def _detail(out: int) -> int:
        ctypes.c_uint64.from_address(out).value = LIMIT_NAMES.index("versions")
        return 0


class Anew(Case):
    """A journal that is made anew while files are open."""

    def test_open_files_are_in_it_with_what_they_have(self) -> None:
        it = self.mount()
        it.save(b"f", bytes(20_000))
        it.save(b"g", b"old")
        node, other = it.open(it.file(b"f")), it.open(it.file(b"g"))
        for number in range(30):
            it.contents.write(node, 4096 * (number % 5), bytes([number]) * 4096)
            it.contents.save(node)
        it.contents.write(other, 0, b"ne")
        it.contents.save(other)
        it.contents.truncate(other, 2)
        it.contents.save(other)
        size, new = it.store.journal_size, self.journal.with_name("new")
        make_anew(self.journal, new)
        self.assertLess(new.stat().st_size, size // 3)
        again = Mounted(new)
        self.addCleanup(again.store.close)
        self.assertEqual((again.read(b"f"), again.read(b"g")), (it.contents.whole(node), b"ne"))
        it.contents.closed(node, True)
        self.assertEqual([again.versions(name) for name in (b"f", b"g")][0], it.versions(b"f"))

    def test_the_changes_of_an_open_file_go_on_after_it(self) -> None:
        it = self.mount()
        node = it.open(it.save(b"f", b"one" * 3000))
        it.contents.write(node, 5, b"XX")
        it.contents.save(node)
        before = self.journal.stat()
        it.store.compact()
        self.assertFalse(os.path.samestat(self.journal.stat(), before))
        copy = self.journal.with_name("copy")
        copy.write_bytes(self.journal.read_bytes())
        it.contents.write(node, 7, b"YY")
        it.contents.closed(node, True)
        wanted = [b"", b"one" * 3000, b"oneonXXYY" + b"one" * 2997]
        self.assertEqual(it.versions(b"f"), wanted)
        shown = it.all()
        self.assertEqual((self.mount().versions(b"f"), self.mounted is not None and self.mounted.all()), (wanted, shown))
        killed = Mounted(copy)
        self.addCleanup(killed.store.close)
        self.assertEqual(killed.versions(b"f"), [*wanted[:2], b"oneonXXne" + b"one" * 2997])
        self.assertEqual(killed.store.recovered.closed, (elephant.ClosedSession("/f", 3),))

    def test_a_session_without_a_change_makes_no_version_in_it(self) -> None:
        it = self.mount()
        it.save(b"f", b"one")
        with it.store.changing() as (core, lines):
            core.ask(core.library.elephant_open_write, "", b"/f", 2)
            lines.append(b"open write /f")
        new = self.journal.with_name("new")
        make_anew(self.journal, new)
        again = Mounted(new)
        self.addCleanup(again.store.close)
        self.assertEqual(again.versions(b"f"), [b"", b"one"])

    def test_one_that_fails_leaves_the_old_one_and_changes_go_on(self) -> None:
        it = self.mount()
        node = it.open(it.save(b"f", b"one"))
        it.contents.write(node, 0, b"two")
        it.contents.save(node)
        before = self.journal.stat()
        for name in ("fsync", "rename", "pwrite"):
            with mock.patch(f"os.{name}", side_effect=OSError(errno.ENOSPC, os.strerror(errno.ENOSPC))):
                with self.assertRaises(JournalError):
                    it.store.compact()
        self.assertTrue(os.path.samestat(self.journal.stat(), before))
        self.assertEqual([it.name for it in self.journal.parent.iterdir()], ["journal"])
        it.contents.closed(node, True)
        it.save(b"g", b"three")
        before_all = it.all()
        self.assertEqual(self.mount().all(), before_all)


class Moves(Case):
    def fill(self) -> Mounted:
        it = self.mount()
        with at(2_000_000_000):
            it.store.set_default("/", KeepSafe(days=1))
            folder = it.naming.mkdir(it.top, b"d \xff", 0o2750, 3, 4)
            it.store.line("default /d%20%FF safe:77/2")
            it.save(b"f", b"one")
            it.save(b"f@", b"deep" * 5000, folder)
            it.naming.link(it.file(b"f@", folder), it.top, b"hard")
            it.naming.symlink(it.top, b"link", b"d/nowhere", 5, 6)
            it.naming.set_extended(it.file(b"f"), b"user.a", b"1")
            it.naming.set_attributes(it.file(b"f"), {"mode": 0o600, "owner": 9, "mtime": 12})
            it.store.set_policy("/f", KeepSafe(seconds=5))
            it.store.line("group make two")
            for path in ("/f", "/d%20%FF/f%40"):
                it.store.line(f"group add two {path}")
            it.save(b"gone", b"lost")
        with at(2_000_000_050):
            it.naming.unlink(it.top, b"gone")
            it.save(b"f", b"two")
            it.store.line("mark two 2000000010")
            it.store.line("mark two 2000000020 2000000060")
        return it

    def moved(self) -> Path:
        it = self.fill()
        with at(2_000_000_090):
            it.close()
        self.mounted = None
        new = self.journal.with_name("new")
        move(str(self.journal), str(new))
        return new

    def test_policies_groups_and_marks_are_lines(self) -> None:
        it = self.fill()
        with at(2_000_000_055):
            lines = list(it.store.dump())
        self.assertEqual(lines, [
            "default / safe:86400", "policy /f safe:5", "policy /hard safe:77/2", "policy /link safe:86400", "default /d%20%FF safe:77/2",
            "group make two", "group add two /f", "group add two /hard", "mark two 2000000010", "mark two 2000000020 2000000060",
        ])
        with at(2_000_000_070):
            self.assertEqual(list(it.store.dump())[-1], "# mark two 2000000020 2000000060 has ended")

    def test_a_new_journal_has_all_but_the_past(self) -> None:
        new = self.moved()
        data, mode = self.journal.read_bytes(), self.journal.stat().st_mode
        old, made = MountStore(str(self.journal), read_only=True), MountStore(str(new), read_only=True)
        for it in (old, made):
            self.addCleanup(it.close)
        found = list(everything_of(made))
        self.assertEqual(found, list(everything_of(old)))
        self.assertEqual([row for row in found if row[0] == b"/f"], [(
            b"/f", b"/f", "safe:5", (0o100600, 9, 2, mock.ANY, mock.ANY, mock.ANY, [(b"user.a", b"1")]), b"two")])
        marks = elephant.Mark(Moment(2_000_000_010), None), elephant.Mark(Moment(2_000_000_020), Moment(2_000_000_060))
        self.assertEqual([(it.name, len(it.members), it.marks) for it in made.groups()], [("two", 2, marks)])
        self.assertEqual((made.now, made.restorable(), new.stat().st_mode & 0o777), (old.now, [], 0o600))
        self.assertEqual((self.journal.read_bytes(), self.journal.stat().st_mode), (data, mode))

    def test_nothing_is_written_over_and_nothing_is_left_of_a_failure(self) -> None:
        new = self.moved()
        with self.assertRaises(JournalError):
            move(str(self.journal), str(new))
        with MountStore(str(self.journal)), self.assertRaises(elephant.JournalLocked):
            move(str(self.journal), str(new.with_name("other")))
        with mock.patch.object(drafts.Drafts, "write", side_effect=NoMemory("")), self.assertRaises(NoMemory):
            move(str(self.journal), str(new.with_name("other")))
        with mock.patch("elephant.mount.moving._Copy._remarks", lambda *_: []), self.assertRaises(JournalError):
            move(str(self.journal), str(new.with_name("other")))
        self.assertEqual(sorted(it.name for it in new.parent.iterdir()), ["journal", "new"])

    def test_open_sessions_are_versions_in_a_new_journal(self) -> None:
        it = self.mount()
        node = it.open(it.save(b"f", b"one"))
        it.contents.write(node, 0, b"two")
        it.contents.save(node)
        copy, new = self.journal.with_name("killed"), self.journal.with_name("new")
        copy.write_bytes(self.journal.read_bytes())
        move(str(copy), str(new))
        with MountStore(str(new), read_only=True) as made:
            self.assertEqual(made.read("/f"), b"two")

    def test_the_past_of_two_journals_is_one(self) -> None:
        new = self.moved()
        old, store = MountStore(str(self.journal), read_only=True), MountStore(str(new))
        self.addCleanup(store.close)
        past = Ages(store, Tree(store), b"", [old])
        self.addCleanup(past.close)
        with at(2_000_000_100):
            store.save("/f", b"three")

            def read(*names: bytes) -> bytes:
                node = past.root
                for name in names:
                    node = past.lookup(node, name)
                return past.content(node)

            held = {2_000_000_001: b"one", 2_000_000_049: b"one", 2_000_000_050: b"two", 2_000_000_099: b"two", 2_000_000_100: b"three"}
            for moment, wanted in held.items():
                self.assertEqual(read(b"at", b"%d" % moment, b"f"), wanted)
            self.assertEqual(read(b"at", b"2000000001", b"gone"), b"lost")
            self.assertEqual(read(b"older", b"journal", b"restorable", b"gone"), b"lost")
            self.assertEqual(read(b"older", b"journal", b"versions", b"f", b"2"), b"one")
            self.assertEqual(read(b"versions", b"f", b"2"), b"two")
            self.assertEqual(past.names(past.lookup(past.root, b"older")), [b"journal"])
            older = past.lookup(past.lookup(past.root, b"older"), b"journal")
            self.assertEqual(past.names(older), [b"at", b"limits", b"restorable", b"versions"])
            self.assertIn(b"older", past.names(past.root))
            with self.assertRaises(FileNotFoundError):
                past.lookup(past.lookup(past.root, b"at"), b"2000000101")
            for node in (past.lookup(past.root, b"older"), past.lookup(past.lookup(past.root, b"at"), b"2000000001")):
                past.forget(node)
            self.assertEqual(read(b"at", b"2000000001", b"f"), b"one")


class Looks(Case):
    def test_a_look_writes_removes_and_locks_nothing(self) -> None:
        it = self.mount()
        with at(2_000_000_000):
            it.store.set_default("/", KeepOne())
            for text in (b"one", b"two"):
                it.save(b"f", text)
            it.save(b"gone", b"x")
        with at(2_000_000_009):
            it.naming.unlink(it.top, b"gone")
            self.assertTrue(it.store.due())
        before = self.journal.read_bytes(), self.journal.stat().st_mtime_ns
        look = Mounted(self.journal, read_only=True)
        self.addCleanup(look.store.close)
        self.assertEqual((look.read(b"f"), look.versions(b"f"), int(look.store.now)), (b"two", [b"", b"one", b"two"], 2_000_000_009))
        changes: list[Callable[[], object]] = [
            lambda: look.make(b"g"), look.store.clean, lambda: look.store.line("clean"), lambda: look.store.keep(b"# x"),
            lambda: look.naming.unlink(look.top, b"f"), lambda: look.store.drafts.open_reader(b"/f", 0, 0),
        ]
        for change in changes:
            with self.assertRaises(elephant.ElephantError):
                change()
        self.assertTrue(look.store.stopped)
        self.assertFalse(look.store.retry())
        self.assertEqual((self.journal.read_bytes(), self.journal.stat().st_mtime_ns), before)
        with at(2_000_000_010):
            it.save(b"f", b"three")


if __name__ == "__main__":
    unittest.main()
