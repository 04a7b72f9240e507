"""Fresh numbers: `renew`, and which number each directory, file and version has after it. The numbers are worked out by hand."""

from __future__ import annotations

import random
import tempfile
import unittest
from pathlib import Path
from typing import Optional

from clocks import DAY, START, FalseClocks
from elephant import (
    Closed,
    Current,
    Full,
    HandlesOpen,
    HasJournal,
    KeepAll,
    KeepOne,
    KeepSafe,
    Kept,
    Limits,
    Mark,
    Marked,
    Moment,
    NoVersion,
    Pass,
    ReadOnly,
    Removable,
    Store,
    Version,
)
from stats import file_stat
from test_checkpoints import asked, everything, put_back
from test_journal import MEMORY, QUICK

LONG = 5000


def aged() -> Store:
    """A store of which files 1 and 4, directory 1, and the first versions of file 2 are gone."""
    store = Store(clock="manual")
    store.set_default("/", KeepOne())
    store.save("/was", b"was")  # file 1
    store.mkdir("/left")  # directory 1, which stays as a deleted name
    store.mkdir("/d")  # directory 2
    store.save("/d/f", b"one")  # file 2, versions 1 and 2
    store.save("/k", b"kept")  # file 3, versions 1 and 2
    store.set_policy("/k", KeepAll())
    store.save("/gone", b"gone")  # file 4
    store.clock(10)
    store.unlink("/was")
    store.unlink("/gone")
    store.rmdir("/left")
    store.save("/d/f", b"two")
    store.group_make("g")
    store.group_add("g", "/k")
    store.group_add("g", "/d/f")
    store.clock(20)
    store.mark("g", 15)
    store.save("/d/f", b"three")  # version 4; version 3 is marked
    store.pass_()
    return store


class Numbers(unittest.TestCase):
    def test_each_number_is_its_place_among_what_is_held(self) -> None:
        with aged() as store:
            files = [store.file_across(it) for it in range(6)]
            self.assertEqual(files, [None, None, 1, 2, None, None])
            versions = [store.version_across(2, it) for it in range(6)]
            self.assertEqual(versions, [None, None, None, 1, 2, None])
            self.assertEqual([store.version_across(3, it) for it in range(4)], [None, 1, 2, None])
            self.assertEqual((store.version_across(1, 2), store.version_across(9, 1)), (None, None))
            self.assertEqual([store.directory_across(it) for it in range(4)], [0, 1, 2, None])
            store.renew()
            self.assertEqual([(it.path, it.number) for it in store.walk()], [("/d", 2), ("/d/f", 1), ("/k", 2)])
            self.assertEqual([it.number for it in store.versions("/d/f")], [1, 2])
            self.assertEqual([store.file_across(it) for it in range(4)], [None, 1, 2, None])

    def test_the_past_is_the_same(self) -> None:
        with aged() as store:
            before = store.counts()
            store.renew()
            self.assertEqual((store.now, store.read("/k", at=0)), (20, b"kept"))
            self.assertEqual((store.read("/d/f"), store.read("/d/f", at=15)), (b"three", b"two"))
            ten, twenty = Moment(10), Moment(20)
            self.assertEqual(store.versions("/d/f"), [Version(1, ten, ten, twenty, 3), Version(2, twenty, twenty, None, 5)])
            self.assertEqual((store.why("/d/f", version=1), store.why("/d/f")), (Marked("g", Moment(15), None), Current()))
            self.assertEqual(store.why("/k", version=1), Kept(None, None))
            self.assertEqual((store.groups()[0].members, store.groups()[0].marks), ((2, 1), (Mark(Moment(15), None),)))
            self.assertEqual([(it.name, it.number) for it in store.restorable()], [("left", 1)])
            store.undelete("/left")
            self.assertEqual([(it.path, it.number) for it in store.walk(at=5)], [("/d", 2), ("/d/f", 1), ("/k", 2), ("/left", 1)])
            # Files, directories, names, versions, handles, groups, members, marks.
            self.assertEqual((before[1:], store.counts()[1:]), ((4, 2, 6, 10, 0, 1, 2, 1), (2, 2, 5, 4, 0, 1, 2, 1)))

    def test_the_store_goes_on_from_the_fresh_numbers(self) -> None:
        with aged() as store:
            store.renew()
            self.assertEqual((store.save("/d/f", b"four"), store.save("/k", b"more"), store.create("/n")), (3, 3, 3))
            self.assertEqual((store.mkdir("/e"), store.session("/n").number), (3, 1))
            self.assertRaises(NoVersion, store.read, "/d/f", version=4)
            store.unmark("g", 15)
            self.assertEqual(store.due(), [Removable(Moment(20), 1, 1), Removable(Moment(20), 1, 2)])
            self.assertEqual(store.pass_(), Pass(2, True))

    def test_a_store_that_is_full_goes_on(self) -> None:
        with Store(clock="manual", limits=Limits(versions=20, files=3)) as store:
            store.set_default("/", KeepOne())
            number = saved = 0
            for _ in range(30):
                try:
                    while True:
                        number = store.save("/f", b"%d" % saved)
                        saved += 1
                except Full:
                    store.pass_()
                    store.renew()
            self.assertEqual((store.read("/f"), store.counts().versions), (b"%d" % (saved - 1), 1))
            # 19 saves of a new file, whose version 1 is empty, and then 19 each time.
            self.assertEqual((saved, number), (19 + 29 * 19, 20))

    def test_random_stores_are_the_same_by_the_numbers_across(self) -> None:
        for seed in range(40):
            with self.subTest(seed), Store(clock="manual") as store:
                asked(store, random.Random(seed), 80)
                for handle in range(1, store.counts().handles + 1):
                    store.line(f"close {handle}")
                self.compare(store)

    def compare(self, store: Store) -> None:
        """Renews a store, and compares what it tells then with what it told before."""
        told = Told(store)
        before, then = told.all(True), store.checkpoint()
        with put_back(then) as again:
            store.renew()
            self.assertEqual(Told(store).all(False), before)
            again.renew()
            self.assertEqual((everything(again), again.checkpoint()), (everything(store), store.checkpoint()))


class Told:
    """What a store tells, with the numbers that it has or will have."""

    def __init__(self, store: Store) -> None:
        self.store = store

    def file(self, number: int, across: bool) -> Optional[int]:
        return self.store.file_across(number) if across else number

    def version(self, file: int, number: int, across: bool) -> Optional[int]:
        return self.store.version_across(file, number) if across else number

    def all(self, across: bool) -> list[object]:
        store, found = self.store, list[object]()
        found += [store.now, store.usage(), list(store.dump())]
        for moment in range(int(store.now) + 1):
            for it in store.walk(at=moment):
                number = (store.directory_across(it.number) if across else it.number) if it.is_directory else self.file(it.number, across)
                found.append((moment, it.path, number))
        for it in store.walk():
            if not it.is_directory:
                file = file_stat(store, it.path)
                for row in store.versions(it.path):
                    text, why = store.read(it.path, version=row.number), str(store.why(it.path, version=row.number)).split(" by ")[0]
                    number = self.version(file.file, row.number, across)
                    found.append((it.path, number, row[1:], text, why, file.policy))
        for moment in (store.now, store.now + 5, store.now + 100 * DAY):
            found += [(it.since, self.file(it.file, across), self.version(it.file, it.number, across)) for it in store.ahead(moment)]
        found += [(it.name, [self.file(file, across) for file in it.members], it.marks) for it in store.groups()]
        for name in store.restorable():
            found.append((name.name, name.is_directory or self.file(name.number, across)))
        return found


class Refusals(unittest.TestCase):
    def test_what_is_open_is_refused_and_nothing_has_changed(self) -> None:
        with aged() as store:
            session = store.session("/d/f")
            self.refuse(store)
            reader = store.reader("/k", version=1)
            session.close()
            self.refuse(store)
            reader.close()
            store.renew()
            self.assertEqual(store.counts().handles, 0)

    def refuse(self, store: Store) -> None:
        before = store.checkpoint()
        with self.assertRaises(HandlesOpen) as told:
            store.renew()
        self.assertEqual((told.exception.number, store.checkpoint()), (73, before))

    def test_a_store_with_a_journal_is_refused(self) -> None:
        with tempfile.TemporaryDirectory(dir=MEMORY) as folder:
            path = Path(folder, "journal")
            with Store(journal=path, **QUICK) as store:
                store.save("/f", b"one")
                before, data = path.read_bytes(), store.checkpoint()
                with self.assertRaisesRegex(HasJournal, "couldn't be run again"):
                    store.renew()
                self.assertEqual((store.file_across(1), path.read_bytes(), store.checkpoint()), (1, before, data))
                store.save("/f", b"two")
                with Store(journal=path, read_only=True) as looking:
                    self.assertRaises(ReadOnly, looking.renew)
            with Store(journal=path, **QUICK) as store:
                self.assertEqual(store.read("/f", version=3), b"two")

    def test_a_closed_store_is_refused(self) -> None:
        store = aged()
        store.close()
        for call in (store.renew, lambda: store.file_across(1), lambda: store.directory_across(1), lambda: store.version_across(1, 1)):
            self.assertRaises(Closed, call)

    def test_numbers_that_no_call_takes(self) -> None:
        with aged() as store:
            self.assertRaises(ValueError, store.file_across, -1)
            self.assertRaises(ValueError, store.version_across, 1, 1 << 64)
            self.assertRaises(TypeError, store.directory_across, "1")
            self.assertEqual(store.file_across((1 << 64) - 1), None)


class NumbersOfBefore(unittest.TestCase):
    def test_a_session_that_a_line_closed_has_no_handle_of_after(self) -> None:
        with aged() as store:
            session, reader = store.session("/d/f"), store.reader("/k")
            self.assertEqual((store.line("close 1"), store.line("close 2")), ("ok closed\n", "ok closed\n"))
            store.renew()
            other, looking = store.session("/k"), store.reader("/d/f")
            self.assertEqual((other.number, looking.number), (session.number, reader.number))
            other.write(b"other")
            for call in (session.read, session.close, session.abandon, reader.read, reader.close):
                self.assertRaises(Closed, call)
            self.assertRaises(Closed, session.write, b"wrong")
            self.assertRaises(Closed, session.truncate, 0)
            self.assertEqual((other.close(), store.read("/k"), looking.read()), (3, b"other", b"three"))

    def test_a_file_that_was_opened_before_saves_its_whole_content(self) -> None:
        """Its number and its version's are those of another content now."""
        with Store(clock="manual") as store:
            store.set_default("/", KeepOne())
            store.save("/f", b"a" * LONG)
            file = store.open("/f", "r+b")
            file.write(b"A")
            store.save("/f", b"b" * LONG)
            store.pass_()
            store.set_policy("/f", KeepAll())
            store.save("/f", b"c" * LONG)
            store.renew()
            self.assertEqual((file_stat(store, "/f").file, file_stat(store, "/f").version), (1, 2))
            file.close()
            self.assertEqual((file.version, store.read("/f")), (3, b"A" + b"a" * (LONG - 1)))

    def test_a_history_begins_anew(self) -> None:
        with Store(clock="manual", history=True) as store:
            store.save("/f", b"one")
            store.renew()
            self.assertEqual((store.history().folded, store.history().lines), (1, ()))
            store.save("/f", b"two")
            self.assertEqual(store.history().lines, ("save /f 74776f",))

    def test_what_the_guard_keeps_waits_anew(self) -> None:
        clock = FalseClocks()
        with Store(clock="manual") as before:
            before.clock(START)
            before.set_default("/", KeepSafe(seconds=60))
            for text in (b"one", b"two"):
                before.save("/f", text)
            data = before.checkpoint()
        with put_back(data, clock=clock) as store:
            clock.pass_by(500)
            self.assertEqual((store.pass_().removed, store.waiting.versions), (0, 2))
            store.renew()
            self.assertEqual(store.waiting.versions, 0)
            clock.pass_by(100)
            self.assertEqual((store.pass_().removed, store.waiting.until), (0, Moment(START + 600 + DAY)))
            for _ in range(48):
                clock.pass_by(1800)
                removed = store.pass_().removed
            self.assertEqual((removed, store.read("/f"), len(store.versions("/f"))), (2, b"two", 1))


if __name__ == "__main__":
    unittest.main()
