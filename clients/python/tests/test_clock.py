"""No wrong time of day moves a store's time or removes a version."""

from __future__ import annotations

import os
import tempfile
import unittest
from pathlib import Path
from typing import Callable, Optional
from unittest import mock

import elephant
from clocks import DAY, START, FalseClocks
from elephant import DirectoryStat, KeepSafe, Moment, Store, Waiting
from elephant._clock import TOLERANCE, VARIABLE, ShiftedClocks, Watch, clocks_of_system, span
from elephant._policies import LADDER
from elephant._turns import Clock
from stats import file_stat

MEMORY = "/dev/shm" if os.path.isdir("/dev/shm") else None


class Watching(unittest.TestCase):
    def test_time_that_passes_is_no_jump(self) -> None:
        clock = FalseClocks()
        watch = Watch(clock)
        for seconds in (1, 60, 9 * 3600, 7 * DAY):
            clock.pass_by(seconds)
            self.assertEqual((watch.moment(0), watch.fault(0)), (int(clock.day), ""))

    def test_small_steps_are_followed(self) -> None:
        clock = FalseClocks()
        watch = Watch(clock)
        for step in (1, -1, TOLERANCE, -TOLERANCE):
            clock.set_by(step)
            self.assertEqual((watch.moment(0), watch.fault(int(clock.day))), (int(clock.day), ""))

    def test_after_a_jump_ahead_time_runs_on_by_the_steady_clock(self) -> None:
        clock = FalseClocks()
        watch = Watch(clock)
        clock.set_by(30 * DAY)
        self.assertEqual(watch.moment(START), START)
        clock.pass_by(60)
        self.assertEqual((watch.moment(START), watch.state(START)[0]), (START + 60, "ahead"))
        self.assertIn("jumped ahead by 30 days", watch.fault(START))
        self.assertFalse(watch.may_remove(START))
        clock.set_by(-30 * DAY)
        self.assertEqual((watch.moment(START), watch.state(START)[0]), (START + 60, ""))
        self.assertTrue(watch.may_remove(START))

    def test_after_a_jump_back_of_some_hours_time_waits(self) -> None:
        clock = FalseClocks()
        watch = Watch(clock)
        clock.set_by(-2 * 3600)
        clock.pass_by(60)
        self.assertEqual((watch.moment(START), watch.state(START)[0]), (START - 2 * 3600 + 60, "back"))
        self.assertFalse(watch.may_remove(START))
        clock.set_by(2 * 3600)
        self.assertEqual((watch.moment(START), watch.fault(START)), (START + 60, ""))

    def test_after_a_jump_back_of_days_time_runs_on_by_the_steady_clock(self) -> None:
        clock = FalseClocks()
        watch = Watch(clock)
        clock.set_by(-2 * DAY)
        clock.pass_by(60)
        self.assertEqual((watch.moment(START), watch.state(START)[0]), (START + 60, "back"))
        self.assertFalse(watch.may_remove(START + 60))

    def test_a_date_that_was_wrong_from_the_first_look_may_be_set_right(self) -> None:
        clock = FalseClocks(0)
        watch = Watch(clock)
        self.assertEqual((watch.moment(START), watch.state(START)[0]), (0, "behind"))
        clock.set_by(START + 3600)
        self.assertEqual((watch.moment(START), watch.fault(START)), (START + 3600, ""))

    def test_a_date_that_a_user_called_right_is_not_set_right_by_a_jump(self) -> None:
        clock = FalseClocks()
        watch = Watch(clock)
        watch.trust()
        clock.set_by(30 * DAY)
        self.assertEqual(watch.moment(START + 30 * DAY), START)
        self.assertEqual(watch.state(START + 30 * DAY)[0], "ahead")

    def test_a_time_of_day_before_the_stores_is_a_fault_from_the_first_look(self) -> None:
        watch = Watch(FalseClocks())
        watch.moment(START)
        self.assertEqual(watch.fault(START + 300), "")
        self.assertIn("30 days before the store's time", watch.fault(START + 30 * DAY))
        self.assertFalse(watch.may_remove(START + 30 * DAY))

    def test_a_user_may_say_that_the_time_is_right_and_a_later_jump_is_a_new_one(self) -> None:
        clock = FalseClocks()
        watch = Watch(clock)
        clock.set_by(3 * 3600)
        watch.moment(START)
        watch.trust()
        self.assertEqual((watch.moment(START), watch.fault(START)), (START + 3 * 3600, ""))
        clock.set_by(DAY)
        watch.moment(START)
        self.assertFalse(watch.may_remove(START))

    def test_spans(self) -> None:
        told = [span(it) for it in (0, 1, 59, 60, 3599, 3600, 86_399, DAY, 30.5 * DAY)]
        wanted = ["0 seconds", "1 second", "59 seconds", "1 minute", "59 minutes", "1 hour", "23 hours", "1 day", "30 days"]
        self.assertEqual(told, wanted)

    def test_the_environment_may_shift_the_clocks(self) -> None:
        with tempfile.TemporaryDirectory() as folder:
            shifts = Path(folder, "shifts")
            shifts.write_text("864000 -60\n")
            with mock.patch.dict(os.environ, {VARIABLE: str(shifts)}):
                shifted = clocks_of_system()
            self.assertIsInstance(shifted, ShiftedClocks)
            plain = clocks_of_system()
            self.assertAlmostEqual(shifted.now() - plain.now(), 864_000, delta=10)
            self.assertAlmostEqual(shifted.steady() - plain.steady(), -60, delta=10)


class Case(unittest.TestCase):
    def setUp(self) -> None:
        room = tempfile.TemporaryDirectory(dir=MEMORY)
        self.addCleanup(room.cleanup)
        self.journal = Path(room.name, "journal")
        self.clock = FalseClocks()

    def store(self, clock: Optional[Clock] = None) -> Store:
        store = Store(journal=self.journal, clock=clock or self.clock, fsync="sync")
        self.addCleanup(store.close)
        return store

    def filled(self) -> Store:
        """A store with three versions of /f, and a deleted /g, all of which stay for a week."""
        store = self.store()
        store.set_default("/", KeepSafe(days=7, floor=1))
        store.save("/g", b"g")
        for text in (b"one", b"two", b"three"):
            store.save("/f", text)
            self.clock.pass_by(10)
        store.unlink("/g")
        return store

    def pass_by(self, store: Store, seconds: int) -> None:
        """Time passes, and each half hour somebody calls the store."""
        while seconds > 0:
            self.clock.pass_by(min(seconds, 1800))
            seconds -= 1800
            self.assertGreater(int(store.now), 0)

    def held(self, store: Store) -> tuple[list[int], list[str]]:
        return [it.number for it in store.versions("/f")], [it.name for it in store.restorable()]


def root_default(store: Store) -> str:
    found = store.stat("/")
    assert isinstance(found, DirectoryStat)
    return found.default.word


class Stores(Case):
    ALL = [1, 2, 3, 4], ["g"]

    def test_a_clock_that_is_a_month_ahead_for_a_minute_removes_nothing(self) -> None:
        store = self.filled()
        self.clock.set_by(30 * DAY)
        self.assertIn("jumped ahead by 30 days", store.clock_fault)
        removals: list[Callable[[], object]] = [store.pass_, store.clean, lambda: store.line("pass 9"), lambda: store.line("clean")]
        for remove in removals:
            with self.assertRaisesRegex(elephant.ClockDoubt, "jumped ahead by 30 days: nothing.*trust_clock"):
                remove()
        self.clock.pass_by(60)
        store.save("/f", b"four")
        self.clock.set_by(-30 * DAY)
        self.assertEqual(store.clock_fault, "")
        self.assertEqual(store.pass_().removed, 0)
        self.assertEqual(self.held(store), ([1, 2, 3, 4, 5], ["g"]))

    def test_saves_in_a_wrong_minute_and_after_it_have_their_right_moments(self) -> None:
        store = self.filled()
        self.clock.set_by(30 * DAY)
        self.clock.pass_by(40)
        store.save("/f", b"four")
        self.clock.pass_by(20)
        self.clock.set_by(-30 * DAY)
        store.save("/f", b"five")
        self.clock.pass_by(5)
        moments = [int(it.closed) - START for it in store.versions("/f")]
        self.assertEqual(moments, [0, 0, 10, 20, 70, 90])
        self.assertEqual(store.read("/f", at=START + 75), b"four")
        self.assertEqual(int(store.now), START + 95)

    def test_a_jump_back_removes_nothing_until_the_clock_agrees_again(self) -> None:
        store = self.filled()
        self.clock.pass_by(8 * DAY)
        self.clock.set_by(-20 * DAY)
        with self.assertRaisesRegex(elephant.ClockDoubt, "jumped back by 20 days"):
            store.pass_()
        self.clock.set_by(20 * DAY)
        self.assertEqual(store.pass_(confirm=True).removed, 5)

    def test_time_that_really_passed_removes_what_is_due(self) -> None:
        store = self.filled()
        self.pass_by(store, 8 * DAY)
        self.assertEqual((store.pass_().removed, self.held(store)), (4, ([4], ["g"])))
        self.pass_by(store, DAY)
        self.assertEqual((store.pass_().removed, self.held(store)), (1, ([4], [])))

    def test_a_store_that_is_ahead_of_the_time_of_day_removes_only_what_both_make_due(self) -> None:
        store = self.filled()
        store.close()
        with Store(journal=self.journal, clock="manual") as ahead:
            ahead.clock(START + 30 * DAY)
            ahead.save("/later", b"x")
        store = self.store()
        self.assertIn("before the store's time", store.clock_fault)
        with self.assertRaises(elephant.ClockDoubt):
            store.pass_()
        store.trust_clock()
        self.assertEqual((store.pass_().removed, store.clean()), (0, None))
        self.assertEqual(self.held(store), self.ALL)
        with self.assertRaises(elephant.ClockDoubt):
            store.line("pass 9")
        self.clock.pass_by(8 * DAY)
        self.assertEqual((store.pass_(confirm=True).removed, self.held(store)), (5, ([4], [])))

    def test_a_user_who_says_that_the_time_is_right_gets_it(self) -> None:
        store = self.filled()
        self.clock.set_by(30 * DAY)
        store.trust_clock()
        self.assertEqual((store.clock_fault, int(store.now)), ("", START + 30 * DAY + 30))
        self.assertEqual((store.pass_().removed, store.waiting), (0, Waiting(5, Moment(START + 31 * DAY + 30))))
        self.pass_by(store, DAY)
        self.assertEqual(store.pass_().removed, 5)

    def test_a_manual_clock_is_never_in_doubt(self) -> None:
        store = self.store("manual")
        store.clock(START)
        store.set_default("/", KeepSafe(seconds=1))
        store.save("/f", b"one")
        store.save("/f", b"two")
        store.clock(START + 99 * DAY)
        store.trust_clock()
        self.assertEqual((store.clock_fault, store.pass_().removed), ("", 2))


class FirstPolicy(Case):
    LADDER = "landmarks:604800/3600,2592000/86400,31536000/604800"

    def test_a_new_journal_begins_with_the_ladder_and_keeps_it_as_a_line(self) -> None:
        store = self.store()
        self.assertEqual(root_default(store), self.LADDER)
        store.close()
        self.assertIn(f"default / {self.LADDER}\n", self.journal.read_text())
        self.assertEqual(root_default(self.store()), LADDER.word)

    def test_an_old_journal_stays_as_it_is(self) -> None:
        store = self.store()
        store.close()
        lines = self.journal.read_bytes().splitlines(keepends=True)
        self.journal.write_bytes(lines[0])
        from elephant._journal import Journal

        journal = Journal(str(self.journal), False, 0.0)
        self.assertEqual(list(journal.changes()), [])
        journal.append([b"create /f"])
        journal.close()
        store = self.store()
        self.assertEqual((root_default(store), file_stat(store, "/f").policy.word), ("safe:86400", "safe:86400"))

    def test_a_store_without_a_journal_has_the_policy_of_the_language(self) -> None:
        with Store(clock="manual") as store:
            self.assertEqual(root_default(store), "safe:86400")

    def test_what_was_lost_on_friday_is_there_on_monday_and_a_deleted_file_weeks_later(self) -> None:
        store = self.store()
        for text in (b"the letter", b"oops"):
            store.save("/ruined", text)
            self.clock.pass_by(30)
        for text in (b"first", b"last"):
            store.save("/deleted", text)
            self.clock.pass_by(30)
        store.unlink("/deleted")
        self.clock.pass_by(3 * DAY)
        store.pass_()
        self.assertEqual(store.read("/ruined", version=2), b"the letter")
        self.clock.pass_by(200 * DAY)
        store.pass_()
        store.undelete("/deleted")
        self.assertEqual(store.read("/deleted"), b"last")


if __name__ == "__main__":
    unittest.main()
