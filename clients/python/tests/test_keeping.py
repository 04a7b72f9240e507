"""A program over `elephant.keeping`, without a mount: changes of many commands, remarks, a disk that is full, and what failed."""

from __future__ import annotations

import errno
import os
import tempfile
import unittest
from collections.abc import Iterable, Sequence
from functools import partial
from pathlib import Path
from typing import Optional
from unittest import mock

from alone import Patched
from anew import changes_since
from elephant import ElephantError, Exists, FileStore, Forgotten, JournalDamaged, JournalError, JournalLocked, NoMemory, Store
from elephant._journal import HEADER, Journal
from elephant._notes import MOST_NOTE, Gatherer, notes_of
from elephant.keeping import AT, VERSION, Core, Event, Front, KeepingStore, Lines, NoSpace, Numbers, Opposite, Replay

MEMORY = "/dev/shm" if os.path.isdir("/dev/shm") else None


class Notes(Replay):
    """Notes the remarks of a journal of lines, and the files that it makes."""

    def __init__(self, core: Core, store: Noting) -> None:
        super().__init__(core)
        self._store = store

    def remark(self, text: bytes) -> None:
        self._store.note_remark(text)

    def command(self, line: bytes) -> int:
        self._store.found += [line] if line.startswith(b"create ") else []
        return super().command(line)


class Noting(KeepingStore):
    """A store with notes of its own in its journal."""

    def __init__(self, path: Path, read_only: bool = False) -> None:
        self.notes: list[bytes] = []
        self.found: list[bytes] = []
        self.fronts: list[Front] = []
        self.changed: list[tuple[int, Sequence[bytes]]] = []
        self.written: list[Sequence[bytes]] = []
        self.numbers: Optional[Numbers] = None
        super().__init__(str(path), read_only=read_only)

    def new_replay(self, core: Core) -> Replay:
        return Notes(core, self)

    def note_remark(self, remark: bytes) -> None:
        self.notes.append(remark)

    def note_event(self, event: Event) -> None:
        self.found += [b"create " + event.values[0]] if event.word == b"create" else []

    def note_front(self, core: Core, front: Front) -> None:
        self.fronts.append(front)

    def remarks(self, front: Front, numbers: Optional[Numbers] = None) -> Iterable[bytes]:
        return [b"# " + it for it in self.notes]

    def adopt(self, core: Core, front: Front, numbers: Numbers) -> None:
        self.numbers = numbers

    def note_change(self, now: int, lines: Sequence[bytes]) -> None:
        self.changed.append((now, lines))

    def note_written(self, lines: Sequence[bytes]) -> None:
        self.written.append(lines)

    def make(self, *paths: bytes, remark: bytes = b"") -> None:
        """Makes files, as one change."""
        with self.changing() as (core, lines):
            for path in paths:
                core.ask(core.library.elephant_create, path, path, len(path))
                lines.append(b"create " + path)
                self.opposites.append(Opposite(partial(self._remove, path)))
            lines += [b"# " + remark] if remark else []

    @staticmethod
    def _remove(path: bytes, core: Core, lines: Lines) -> None:
        core.do(core.library.elephant_unlink, path, path, len(path))
        lines.append(b"unlink " + path)


class Case(unittest.TestCase):
    def setUp(self) -> None:
        room = tempfile.TemporaryDirectory(dir=MEMORY)
        self.addCleanup(room.cleanup)
        self.path = Path(room.name, "journal")
        self.store = self.opened()

    def opened(self) -> Noting:
        store = Noting(self.path)
        self.addCleanup(store.close)
        return store

    def looking(self) -> Noting:
        store = Noting(self.path, read_only=True)
        self.addCleanup(store.close)
        return store

    def names(self) -> list[bytes]:
        return [name for name, _, _ in self.store.names_in(b"/")]

    def again(self) -> Noting:
        self.store.close()
        self.store = self.opened()
        return self.store


class Keeping(Case):
    def changes(self, start: int) -> list[list[bytes]]:
        """Returns the changes since, each as its lines, and its notes as texts."""
        return changes_since(self.path, self.store.journal_size, start)

    def test_many_commands_with_a_remark_are_one_change(self) -> None:
        size = self.store.journal_size
        self.store.make(b"/a", b"/b", remark=b"two of them")
        self.assertEqual(self.changes(size), [[b"create /a", b"create /b", b"note # two of them"]])
        self.store.keep(b"# later")
        again = self.again()
        self.assertEqual((again.notes, again.found), ([b"two of them", b"later"], [b"create /a", b"create /b"]))
        self.assertEqual(self.names(), [b"a", b"b"])

    def test_a_change_that_is_refused_midway_is_taken_back(self) -> None:
        self.store.make(b"/b")
        size, count = self.store.journal_size, self.store.changes
        with self.assertRaises(Exists):
            self.store.make(b"/a", b"/b", remark=b"no")
        self.assertEqual((self.names(), self.store.has_taken_back), ([b"b"], True))
        self.assertGreater(self.store.changes, count)
        self.assertEqual(self.changes(size), [[b"create /a", b"unlink /a"]])  # a number was used
        self.assertEqual((self.again().found, self.store.notes, self.names()), ([b"create /b", b"create /a"], [], [b"b"]))

    def test_changes_together_are_one_and_are_taken_back_as_one(self) -> None:
        size = self.store.journal_size
        with self.store.together():
            self.store.make(b"/a")
            self.store.mkdir("/d")
        self.assertEqual(self.changes(size), [[b"create /a", b"mkdir /d"]])
        size = self.store.journal_size
        with self.assertRaises(NoMemory), self.store.together():
            self.store.make(b"/b", remark=b"of b")
            raise NoMemory("")
        self.assertEqual((self.names(), self.changes(size)), ([b"a", b"d"], [[b"create /b", b"unlink /b"]]))

    def test_a_full_disk_is_noticed_before_a_change(self) -> None:
        with mock.patch("elephant._disk.allocate", return_value=errno.ENOSPC), self.assertRaises(NoSpace):
            self.store.reserve(1 << 20)
        with mock.patch("elephant._disk.allocate", return_value=errno.EOPNOTSUPP):  # then an append finds it out
            self.store.reserve(1 << 20)
        size = self.path.stat().st_size
        self.store.reserve(2 << 20)
        self.assertEqual(self.path.stat().st_size, size)
        self.assertGreaterEqual(self.path.stat().st_blocks * 512, 2 << 20)
        self.store = self.again()
        self.assertLess(self.path.stat().st_blocks * 512, 2 << 20)
        with mock.patch("elephant._disk.allocate", return_value=errno.ENOSPC) as asked, self.assertRaises(NoSpace):
            self.store.reserve()
        self.assertEqual(asked.call_count, 2)  # with more than is needed, and without

    def test_what_is_reserved_is_there_for_a_change(self) -> None:
        """A change that takes more than the space ahead gets along with what was reserved."""
        self.store.reserve(300_000)
        write, ends = os.pwrite, list[int]()

        def note(file: int, data: bytes, place: int) -> int:
            ends.append(place + len(data))
            return write(file, data, place)

        end = self.store.journal_size + 300_000 + (2 << 20)
        with Patched("os.pwrite", note):
            self.store.save("/a", bytes(300_000))
        self.assertLess(max(ends), end)
        with mock.patch("elephant._disk.allocate", return_value=errno.ENOSPC) as asked:
            self.store.reserve()
        self.assertEqual(asked.call_count, 0)

    def test_what_could_not_be_written_is_written_later(self) -> None:
        self.store.make(b"/a")
        full = OSError(errno.ENOSPC, os.strerror(errno.ENOSPC))
        with Patched("os.pwrite", side_effect=full):
            for path in (b"/b", b"/c"):
                with self.assertRaises(JournalError):
                    self.store.make(path, remark=b"of " + path)
            self.assertFalse(self.store.retry())
        self.assertIn(os.strerror(errno.ENOSPC), self.store.stopped)
        self.assertEqual((self.names(), self.store.written), ([b"a", b"b", b"c"], []))
        self.assertTrue(self.store.retry())
        self.assertEqual((self.store.stopped, [lines[-1] for lines in self.store.written]), ("", [b"# of /b", b"# of /c"]))
        self.assertEqual((self.again().notes, self.store.found), ([b"of /b", b"of /c"], [b"create /a", b"create /b", b"create /c"]))

    def test_a_change_that_was_broken_off_ends_all_changes(self) -> None:
        self.store.make(b"/a")
        self.store.break_off("a part is missing")
        self.assertEqual(self.store.stopped, "a part is missing: the last change may be lost. Open the store again")
        with self.assertRaises(JournalError):
            self.store.make(b"/b")
        self.assertFalse(self.store.retry())
        self.assertEqual(self.store.content(b"/a"), b"")

    def test_rows_by_path_and_moment(self) -> None:
        self.store.save("/a", b"one")
        row = self.store.stat_row(b"/a")
        self.assertEqual((row.id, row.version, row.length, row.is_directory), (1, 2, 3, 0))
        self.assertEqual(self.store.content(b"/a", VERSION, 1), b"")
        self.assertEqual(self.store.content(b"/a", AT, int(self.store.now)), b"one")
        self.store.line("policy /a one")
        self.assertEqual([(it.file, it.number) for it in self.store.first_due(5)], [(1, 1)])
        self.assertEqual(self.store.first_due(0), [])
        self.store.clean()
        with self.assertRaises(Forgotten):
            self.store.stat_row(b"/a", VERSION, 1)

    def test_remarks_are_in_each_new_file(self) -> None:
        long = bytes(range(256)) * 9
        self.store.notes += [b"one", long]
        self.store.make(b"/a", b"/b", remark=b"dropped, since the program doesn't say it again")
        self.store.line("unlink /a")
        self.store.compact()
        self.store.make(b"/c", remark=b"three")
        again = self.again()
        self.assertEqual((again.notes, again.found, self.names()), ([b"one", long, b"three"], [b"create /c"], [b"b", b"c"]))
        self.assertEqual([(it.name, it.number, it.death is None) for it in again.fronts[0].names],
                         [(b"a", 1, False), (b"b", 2, True), (b"c", 3, True)])
        again.renew()
        numbers = again.numbers
        assert numbers is not None
        self.assertEqual((numbers.files, numbers.directories), ({1: 1, 2: 2, 3: 3}, {0: 0}))
        self.assertEqual(self.again().notes, [b"one", long, b"three"])

    def test_what_was_interrupted_is_in_a_new_file_with_its_remarks(self) -> None:
        self.store.make(b"/a")
        full = OSError(errno.ENOSPC, os.strerror(errno.ENOSPC))
        with Patched("os.pwrite", side_effect=full), self.assertRaises(JournalError):
            self.store.make(b"/b", remark=b"of /b")
        before = self.path.stat()
        with Patched("os.pwrite", side_effect=MemoryError):
            self.assertFalse(self.store.retry())
        self.assertTrue(self.store.retry())
        self.assertFalse(os.path.samestat(self.path.stat(), before))
        self.store.make(b"/c", remark=b"of /c")
        self.assertEqual((self.again().notes, self.names()), ([b"of /b", b"of /c"], [b"a", b"b", b"c"]))

    def test_sessions_go_on_over_a_new_file(self) -> None:
        self.store.save("/a", b"one")
        handle = self.store.session("/a")
        handle.write(b"two", 0)
        self.store.compact()
        handle.write(b"!", 3)
        self.assertEqual((handle.close(), self.store.read("/a")), (3, b"two!"))
        self.assertEqual(self.again().read("/a"), b"two!")

    def test_others_open_the_file(self) -> None:
        self.store.make(b"/a", remark=b"a")
        with self.assertRaises(JournalLocked):
            Noting(self.path)
        look = self.looking()
        self.assertEqual((look.notes, look.found), ([b"a"], [b"create /a"]))
        with self.assertRaises(ElephantError):
            look.keep(b"# b")
        self.store.close()
        with FileStore(self.path) as store:
            store.save("/b", b"of another program")
            store.commit()
        self.store = self.opened()
        self.assertEqual((self.store.content(b"/b"), self.store.notes), (b"of another program", [b"a"]))

    def test_a_damaged_file_is_told(self) -> None:
        self.store.make(b"/a")
        size = self.store.journal_size
        self.store.make(b"/b")
        self.store.make(b"/c")
        self.store.close()
        data = bytearray(self.path.read_bytes())
        data[size + 14] ^= 1
        self.path.write_bytes(data)
        for read_only in (True, False):
            with self.assertRaises(JournalDamaged) as caught:
                Noting(self.path, read_only)
            self.assertEqual(caught.exception.offset, size)
        self.assertEqual(self.path.read_bytes(), data)


class Remarks(unittest.TestCase):
    def test_a_remark_is_kept_in_notes_and_made_of_them_again(self) -> None:
        for length in (0, 1, 197, 198, 199, 396, 397, 5000):
            text = bytes(it % 256 for it in range(length))
            gatherer, notes = Gatherer(), list(notes_of(b"# " + text))
            self.assertLessEqual(max(map(len, notes)), MOST_NOTE)
            self.assertEqual(len(notes), max(-(-length // (MOST_NOTE - 2)), 1))
            self.assertEqual([gatherer.remark(it) for it in notes], [None] * (len(notes) - 1) + [text])

    def test_a_note_of_another_program_is_none(self) -> None:
        gatherer = Gatherer()
        self.assertEqual([gatherer.remark(it) for it in (b"#+one ", b"user 1000 vim", b"", b"#", b"# two")], [None] * 4 + [b"one two"])


class OfLines(Case):
    """Journals of lines, which older versions made."""

    def lines(self, *changes: list[bytes]) -> None:
        self.store.close()
        self.path.unlink()
        journal = Journal(str(self.path), False, 0.0)
        for _ in journal.changes():
            pass
        for it in changes:
            journal.append(it)
        journal.close()

    def test_one_is_rewritten_and_the_old_one_stays(self) -> None:
        self.lines([b"clock 5", b"create /a"], [b"# one"], [b"save /a 6f6e65"], [b"open write /a"], [b"write 1 0 74"])
        old = self.path.read_bytes()
        look = self.looking()
        self.assertEqual((look.notes, look.has_lines, look.content(b"/a"), look.before), ([b"one"], True, b"one", ""))
        look.end_sessions()
        self.assertEqual(look.content(b"/a"), b"tne")
        self.assertEqual((self.path.read_bytes(), len(list(self.path.parent.iterdir()))), (old, 1))
        self.store = self.opened()
        self.assertEqual((self.store.notes, self.store.has_lines, self.store.content(b"/a")), ([b"one"], False, b"tne"))
        self.assertEqual([(it.path, it.version) for it in self.store.recovered.closed], [("/a", 3)])
        self.assertEqual((self.store.before, Path(self.store.before).read_bytes()), (f"{self.path}.before-1", old))
        self.assertTrue(self.path.read_bytes().startswith(b"ELEPHANT JOURNAL"))
        self.store.make(b"/b", remark=b"two")
        again = self.again()
        self.assertEqual((again.notes, self.names(), again.before), ([b"one", b"two"], [b"a", b"b"], ""))
        self.assertEqual(len(list(self.path.parent.iterdir())), 2)

    def test_one_that_ends_early_or_has_nothing(self) -> None:
        self.lines()
        self.store = self.opened()
        self.assertRegex(self.store.line("stat /"), "default landmarks:604800/3600")
        self.lines([b"create /a"])
        data = self.path.read_bytes()
        for cut in (len(data) - 3, len(HEADER), 10):
            self.store.close()
            self.path.write_bytes(data[:cut])
            self.store = self.opened()
            self.assertEqual(self.names(), [])

    def test_a_damaged_one_stays_as_it_is(self) -> None:
        self.lines([b"create /a"], [b"create /b"])
        data = bytearray(self.path.read_bytes())
        data[len(HEADER) + 3] ^= 1
        self.path.write_bytes(data)
        with self.assertRaises(JournalDamaged):
            Noting(self.path)
        self.assertEqual((self.path.read_bytes(), [it.name for it in self.path.parent.iterdir()]), (data, ["journal"]))

    def test_one_that_can_not_be_rewritten_stays_as_it_is(self) -> None:
        self.lines([b"create /a"])
        data = self.path.read_bytes()
        with mock.patch("os.fsync", side_effect=OSError(errno.ENOSPC, os.strerror(errno.ENOSPC))), self.assertRaises(JournalError):
            Noting(self.path)
        self.assertEqual(self.path.read_bytes(), data)
        self.store = self.opened()
        self.assertEqual(self.names(), [b"a"])

    def test_one_of_a_store_of_the_package(self) -> None:
        self.store.close()
        self.path.unlink()
        with Store(self.path) as store:
            store.save("/a", b"one")
            with self.assertRaises(JournalLocked):
                Noting(self.path)
        self.store = self.opened()
        self.assertEqual(self.store.content(b"/a"), b"one")


if __name__ == "__main__":
    unittest.main()
