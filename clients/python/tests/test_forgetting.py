"""The guard of a store whose time follows the time of day: what due versions wait for, and who gets them at once."""

from __future__ import annotations

import random
import unittest
from collections.abc import Callable
from typing import Optional

import elephant
from clocks import DAY, START, FalseClocks
from elephant import KeepAll, KeepOne, KeepSafe, MassRemoval, Moment, Pass, Removable, RemovalWaits, Store, Waiting
from elephant._guard import SETTLE
from test_clock import Case as OfClocks

HOUR, WEEK = 3600, 7 * DAY
ALL = [1, 2, 3, 4], ["g"]
LEFT: tuple[list[int], list[str]] = ([4], [])


class Case(OfClocks):
    def again(self, store: Store, off: int = 0) -> Store:
        """Closes a store, and opens it when so many seconds have passed."""
        store.close()
        self.clock.pass_by(off)
        return self.store()

    def short_lived(self) -> Store:
        """A store with four versions of /f, of which three are due, and a deleted /g, which isn't."""
        store = self.store()
        store.set_default("/", KeepSafe(seconds=60))
        for text in (b"one", b"two", b"three"):
            store.save("/f", text)
            self.clock.pass_by(10)
        self.clock.pass_by(60)
        return store

    def remarks(self) -> list[str]:
        return [it[11:] for it in self.journal.read_text().splitlines()[1:] if it[11:].startswith("# ")]


class Settling(Case):
    def test_nothing_goes_within_ten_minutes_of_the_opening(self) -> None:
        store = self.short_lived()
        self.assertEqual((store.pass_(), store.waiting), (Pass(0, False), Waiting(3, Moment(START + SETTLE))))
        self.assertEqual((store.clean(), len(store.versions("/f"))), (None, 4))
        self.clock.pass_by(SETTLE - 91)
        self.assertEqual(store.pass_(), Pass(0, False))
        self.clock.pass_by(1)
        self.assertEqual((store.pass_(), store.waiting), (Pass(3, True), Waiting(0, None)))
        self.assertEqual(store.read("/f"), b"three")

    def test_what_an_opening_announced_goes_in_one_ten_minutes_later(self) -> None:
        """A program that runs for a moment now and then removes at its next run what it found at this one."""
        store = self.short_lived()
        store.pass_()
        self.assertEqual(self.remarks(), [f"# found {START + 90} 1:1-3"])
        store = self.again(store, SETTLE - 1)
        self.assertEqual(store.pass_(), Pass(0, False))
        store = self.again(store, 1)
        self.assertEqual((store.pass_(), [it.number for it in store.versions("/f")]), (Pass(3, True), [4]))

    def test_an_hour_of_sleep_begins_the_ten_minutes_again(self) -> None:
        store = self.short_lived()
        self.clock.pass_by(2 * HOUR)
        self.assertEqual((store.pass_(), store.waiting.until), (Pass(0, False), Moment(START + 90 + 2 * HOUR + SETTLE)))
        self.clock.pass_by(SETTLE)
        self.assertEqual(store.pass_(), Pass(3, True))

    def test_a_program_that_goes_on_removes_what_time_makes_due(self) -> None:
        store = self.store()
        store.set_default("/", KeepSafe(seconds=60))
        removed = 0
        for number in range(200):
            store.save("/f", b"%d" % number)
            self.clock.pass_by(60)
            removed += store.pass_().removed
        self.assertEqual((removed, len(store.versions("/f"))), (200, 1))


class Waits(Case):
    def test_what_became_due_in_a_week_off_waits_for_a_day(self) -> None:
        store = self.again(self.filled(), 8 * DAY)
        self.assertEqual((store.pass_(), store.waiting.versions), (Pass(0, False), 5))
        self.pass_by(store, DAY - 60)
        self.assertEqual((store.pass_(), self.held(store)), (Pass(0, False), ALL))
        self.pass_by(store, 60)
        self.assertEqual((store.pass_(), self.held(store)), (Pass(5, True), LEFT))

    def test_the_day_goes_on_over_openings(self) -> None:
        store = self.again(self.filled(), 8 * DAY)
        for _ in range(24):
            self.assertEqual((store.pass_(), self.held(store)), (Pass(0, False), ALL))
            store = self.again(store, HOUR)
        self.assertEqual((store.pass_(), self.held(store)), (Pass(5, True), LEFT))

    def test_an_opening_that_only_saves_after_a_week_off_ends_no_wait(self) -> None:
        store = self.again(self.filled(), 8 * DAY)
        store.save("/new", b"new")
        for _ in range(20):
            store = self.again(store, HOUR)
            self.assertEqual((store.pass_(), self.held(store)), (Pass(0, False), ALL))
        store = self.again(store, 6 * HOUR)
        self.assertEqual((store.pass_().removed, self.held(store)), (5, LEFT))

    def test_a_sleep_of_a_week_is_the_same(self) -> None:
        store = self.filled()
        self.clock.pass_by(8 * DAY)
        self.assertEqual((store.pass_(), store.waiting.versions), (Pass(0, False), 5))

    def test_a_date_that_is_ahead_at_the_opening_removes_nothing_for_a_day(self) -> None:
        self.filled().close()
        wrong = FalseClocks(START + 60 * DAY)
        for _ in range(20):
            with Store(journal=self.journal, clock=wrong, fsync="sync") as store:
                self.assertEqual((store.pass_().removed, store.clean(), self.held(store)), (0, None, ALL))
                wrong.pass_by(HOUR)
        store = self.store()  # the date is right again, and the store's time is ahead
        with self.assertRaises(elephant.ClockDoubt):
            store.pass_()
        self.assertEqual(self.held(store), ALL)

    def test_a_date_that_is_set_right_lets_nothing_go_for_a_day(self) -> None:
        self.filled().close()
        self.clock = FalseClocks(0)
        store = self.store()
        self.clock.set_by(START + 8 * DAY)
        self.assertEqual((store.clock_fault, store.pass_(), store.waiting.versions), ("", Pass(0, False), 5))
        self.pass_by(store, DAY)
        self.assertEqual(store.pass_(), Pass(5, True))

    def test_a_date_that_was_some_minutes_late_and_is_set_right_lets_nothing_go_for_a_day(self) -> None:
        store = self.short_lived()
        store.close()
        self.clock.set_by(-400)
        store = self.store()
        self.assertIn("before the store's time", store.clock_fault)
        self.clock.set_by(400 + 60)
        self.assertEqual(store.clock_fault, "")
        self.pass_by(store, SETTLE)
        self.assertEqual((store.pass_(), store.waiting.versions), (Pass(0, False), 3))

    def test_announcements_are_passed_over_by_other_openings(self) -> None:
        store = self.again(self.filled(), 8 * DAY)
        store.pass_()
        store.close()
        openings: list[Callable[[], Store]] = [
            lambda: Store(self.journal, read_only=True), lambda: Store(self.journal, clock="manual"), self.store,
        ]
        for opened in openings:
            with opened() as it:
                self.assertEqual(self.held(it), ALL)
        self.assertEqual(self.remarks(), [f"# due {START + 8 * DAY + 30} 1:1-2 2:1-3"])

    def test_what_is_not_due_any_more_begins_its_day_anew(self) -> None:
        store = self.again(self.filled(), 8 * DAY)
        store.pass_()
        store.set_policy("/f", KeepAll())
        store.pass_()
        self.assertEqual(self.remarks()[1:], ["# undue 2:1-3"])
        self.pass_by(store, DAY)
        store.set_policy("/f", KeepSafe(days=7))
        self.assertEqual((store.pass_(), self.held(store)), (Pass(1, False), ALL))
        self.pass_by(store, DAY)
        self.assertEqual((store.pass_(), self.held(store)), (Pass(4, True), LEFT))


class LastVersions(Case):
    def deleted(self, prepare: Optional[Callable[[Store], object]] = None) -> Store:
        """A store with a deleted /g, whose last version became due while somebody looked."""
        store = self.store()
        store.set_default("/", KeepSafe(seconds=60))
        store.save("/g", b"g")
        if prepare is not None:
            prepare(store)
        self.clock.pass_by(10)
        store.unlink("/g")
        self.pass_by(store, HOUR)
        return store

    def gone(self, store: Store) -> bool:
        return not store.restorable()

    def test_that_of_a_deleted_file_waits_for_a_day(self) -> None:
        store = self.deleted()
        self.assertEqual((store.pass_(), self.gone(store)), (Pass(1, False), False))
        self.pass_by(store, DAY)
        self.assertEqual((store.pass_(), self.gone(store)), (Pass(1, True), True))

    def test_it_waits_in_a_later_opening_too(self) -> None:
        store = self.again(self.deleted(), 60)
        self.clock.pass_by(SETTLE)
        self.assertEqual((store.pass_(), self.gone(store)), (Pass(1, False), False))

    def test_it_waits_if_a_line_deleted_it(self) -> None:
        store = self.store()
        store.set_default("/", KeepSafe(seconds=60))
        store.save("/g", b"g")
        self.clock.pass_by(10)
        store.line("unlink /g")
        self.pass_by(store, HOUR)
        self.assertEqual((store.pass_(), self.gone(store)), (Pass(1, False), False))

    def test_it_does_not_wait_if_the_file_has_another_name(self) -> None:
        store = self.deleted(lambda it: it.link("/g", "/other"))
        store.save("/other", b"new")
        self.pass_by(store, HOUR)
        self.assertEqual((store.pass_(), [it.number for it in store.versions("/other")]), (Pass(2, True), [3]))

    def test_it_does_not_wait_if_the_name_was_restored(self) -> None:
        store = self.deleted()
        store.undelete("/g")
        self.pass_by(store, HOUR)
        self.assertEqual((store.pass_(), store.read("/g")), (Pass(2, True), b"g"))
        store = self.again(store)
        store.save("/g", b"more")
        self.pass_by(store, HOUR)
        self.assertEqual(store.pass_(), Pass(1, True))

    def test_it_does_not_wait_if_the_name_was_restored_while_it_waited(self) -> None:
        store = self.deleted()
        self.assertEqual(store.pass_(), Pass(1, False))
        store.undelete("/g")
        store.save("/g", b"more")
        self.pass_by(store, DAY)
        self.assertEqual((store.pass_(), store.read("/g")), (Pass(2, True), b"more"))

    def test_nobody_waits_for_an_empty_one_or_for_one_that_the_policy_does_not_keep(self) -> None:
        for prepare in (lambda it: it.save("/g", b""), lambda it: it.set_policy("/g", KeepOne())):
            with self.subTest(prepare=prepare):
                self.journal.unlink(missing_ok=True)
                store = self.deleted(prepare)
                store.pass_()
                self.assertTrue(self.gone(store))
                store.close()

    def test_one_that_lived_for_less_than_a_second_does_not_wait(self) -> None:
        store = self.store()
        store.set_default("/", KeepSafe(seconds=60))
        store.save("/.swap", b"x")
        store.unlink("/.swap")
        self.pass_by(store, HOUR)
        self.assertEqual(store.pass_(), Pass(2, True))

    def test_what_a_session_saves_after_the_deletion_waits_too(self) -> None:
        store = self.store()
        store.set_default("/", KeepSafe(seconds=60))
        store.save("/g", b"g")
        session = store.session("/g")
        session.write(b"later", 0)
        self.clock.pass_by(10)
        store.unlink("/g")
        for wanted in (Pass(1, False), Pass(1, True)):
            self.pass_by(store, DAY)
            self.assertEqual(store.pass_(), wanted)
        session.close()
        self.pass_by(store, HOUR)
        self.assertEqual((store.pass_(), self.gone(store)), (Pass(0, False), False))


class Much(Case):
    """A removal of much is asked for twice."""

    def many(self, count: int, has_journal: bool = True, guard: bool = True) -> Store:
        """A store with a file that was saved so many times, all of which a change of its policy makes due but the last save."""
        store = Store(self.journal if has_journal else None, clock=self.clock, fsync="sync", guard=guard)
        self.addCleanup(store.close)
        store.set_default("/", KeepAll())
        store.create("/f")
        for number in range(count):
            store.save("/f", b"%d" % number)
        self.pass_by(store, 8 * DAY)
        store.set_policy("/f", KeepSafe(days=7))
        return store

    def test_more_than_a_hundred_and_a_fifth_wait_for_a_day(self) -> None:
        store = self.many(101)
        removals: list[Callable[[], object]] = [
            store.pass_, lambda: store.pass_(101), lambda: store.pass_(1), lambda: store.line("pass 1000"), lambda: store.line("clean"),
        ]
        for remove in removals:
            with self.assertRaisesRegex(MassRemoval, r"101 of 102 versions would go at once.* pass_\(confirm=True\)") as caught:
                remove()
            until = Moment(START + 9 * DAY)
            self.assertEqual((caught.exception.count, caught.exception.held, caught.exception.until), (101, 102, until))
        self.assertEqual((store.clean(), len(store.versions("/f"))), (None, 102))
        self.pass_by(store, DAY)
        self.assertEqual((store.pass_(), len(store.versions("/f"))), (Pass(101, True), 1))

    def test_a_user_who_confirms_gets_it_at_once(self) -> None:
        store = self.many(101)
        self.assertEqual((store.pass_(confirm=True), store.waiting), (Pass(101, True), Waiting(0, None)))
        self.assertEqual([it.number for it in store.versions("/f")], [102])

    def test_so_does_a_store_without_a_guard(self) -> None:
        self.assertEqual(self.many(150, guard=False).pass_(), Pass(150, True))

    def test_a_hundred_need_no_second_question(self) -> None:
        self.assertEqual(self.many(100).pass_(), Pass(100, True))

    def test_a_small_budget_is_no_way_round(self) -> None:
        store = self.many(300)
        with self.assertRaises(MassRemoval):
            store.pass_(100)
        self.pass_by(store, DAY)
        self.assertEqual((store.pass_(100), store.pass_(100), store.pass_()), (Pass(100, False), Pass(100, False), Pass(100, True)))

    def test_a_fifth_of_all_needs_none(self) -> None:
        for kept, is_much in ((438, False), (437, True)):
            self.journal.unlink(missing_ok=True)
            store = self.many(110)
            store.create("/kept")
            for number in range(kept):
                store.save("/kept", b"%d" % number)
            if is_much:
                break
            self.assertEqual(store.pass_().removed, 110)
            store.close()
        held = sum(it.versions for it in store.usage())
        self.assertEqual(held, 549)
        with self.assertRaises(MassRemoval):
            store.pass_()

    def test_what_waits_since_it_was_much_waits_its_day_also_if_it_is_not_much_any_more(self) -> None:
        store = self.many(110)
        with self.assertRaises(MassRemoval):
            store.pass_()
        store.create("/kept")
        for number in range(1000):
            store.save("/kept", b"%d" % number)
        self.assertEqual((store.pass_(), store.waiting.versions), (Pass(0, False), 110))
        self.pass_by(store, DAY)
        self.assertEqual(store.pass_().removed, 110)

    def test_a_store_without_a_journal_or_with_a_clock_of_its_own_is_never_asked(self) -> None:
        self.assertEqual(self.many(150, has_journal=False).pass_(), Pass(150, True))
        with Store(self.journal, clock="manual") as store:
            store.set_default("/", KeepOne())
            store.create("/f")
            for number in range(150):
                store.save("/f", b"%d" % number)
            self.assertEqual(store.pass_(), Pass(150, True))


class Calls(Case):
    def test_clean_removes_one_after_the_other_what_may_go(self) -> None:
        store = self.short_lived()
        self.pass_by(store, HOUR)
        self.assertEqual([store.clean() for _ in range(4)], [Removable(Moment(START + since), 1, number) for since, number in (
            (60, 1), (70, 2), (80, 3))] + [None])
        self.assertEqual(store.read("/f"), b"three")

    def test_clean_asks_again_after_a_change(self) -> None:
        store = self.short_lived()
        store.set_default("/", KeepAll())
        for number in range(150):
            store.save("/g", b"%d" % number)
        self.pass_by(store, HOUR)
        self.assertIsNotNone(store.clean())
        store.set_policy("/g", KeepOne())
        self.assertIsNone(store.clean())
        self.assertEqual(store.waiting.versions, 152)

    def test_clean_asks_again_after_a_sleep(self) -> None:
        betweens: list[Callable[[Store], object]] = [lambda it: None, lambda it: it.read("/f")]
        for between in betweens:
            self.journal.unlink(missing_ok=True)
            store = self.short_lived()
            self.pass_by(store, HOUR)
            self.assertIsNotNone(store.clean())
            self.clock.pass_by(3 * DAY)
            between(store)
            self.assertEqual((store.clean(), store.waiting.versions), (None, 2))
            store.close()

    def test_clean_looks_at_the_clock_each_time(self) -> None:
        store = self.short_lived()
        self.pass_by(store, HOUR)
        self.assertIsNotNone(store.clean())
        self.clock.set_by(30 * DAY)
        self.assertRaises(elephant.ClockDoubt, store.clean)

    def test_a_line_is_refused_if_it_would_remove_what_waits(self) -> None:
        store = self.short_lived()
        for line in ("clean", "pass 1", "pass 3", "pass 99"):
            with self.assertRaisesRegex(RemovalWaits, r"3 due versions wait, the first until 2026-11-29 .*confirm=True") as caught:
                store.line(line)
            self.assertNotIsInstance(caught.exception, MassRemoval)
        self.assertEqual((store.line("pass 0"), store.line("pass x")), ("ok pass budget 0\n", "bad 32 Syntax\n"))
        self.pass_by(store, HOUR)
        self.assertEqual((store.line("clean"), store.line("pass 9")), (f"ok removed {START + 60} 1 1\n", "ok pass finished 2\n"))

    def test_a_store_without_a_guard_removes_at_once_by_each_call(self) -> None:
        self.short_lived().close()
        with Store(self.journal, clock=self.clock, guard=False) as store:
            self.assertIsNotNone(store.clean())
            self.assertEqual((store.line("clean").split()[:2], store.pass_()), (["ok", "removed"], Pass(1, True)))
        self.assertEqual(self.remarks(), [])


class Weeks(Case):
    """Weeks in fast motion, drawn from a seed: what is removed has been kept for as long as its policy says, by the time that really
    passed, also if programs come and go and a date is wrong."""

    KEPT = 2 * DAY

    def test_nothing_goes_before_its_time_whatever_the_clocks_say(self) -> None:
        removed = 0
        for seed in range(40):
            with self.subTest(seed=seed):
                self.journal.unlink(missing_ok=True)
                self.clock = FalseClocks()
                removed += self.weeks(random.Random(seed))
        self.assertGreater(removed, 300)

    def weeks(self, drawn: random.Random) -> int:
        self.wrong, was_wrong = 0, False
        self.ends, removed = dict[tuple[int, int], float](), 0
        store = self.store()
        store.set_default("/", KeepSafe(seconds=self.KEPT))
        for _ in range(120):
            word = drawn.choice(("save", "save", "save", "delete", "pass", "pass", "wait", "wait", "close", "off"))
            if word == "save":
                store.save(drawn.choice(("/a", "/b", "/c")), drawn.randbytes(5))
            elif word == "delete" and store.list("/"):
                store.unlink(f"/{drawn.choice(store.list('/')).name}")
            elif word == "pass":
                removed += self.removed_by(store, drawn)
            elif word == "wait":
                self.pass_by(store, drawn.choice((60, HOUR, 9 * HOUR)))
            elif word in ("close", "off"):
                store.close()
                self.clock.pass_by(drawn.choice((60, HOUR, DAY)) if word == "close" else 4 * DAY)
                if not was_wrong and drawn.random() < 0.1:
                    was_wrong = True
                    self.set_wrong(30 * DAY)
                store = self.store()
                if self.wrong:  # found and set right within a day
                    self.pass_by(store, drawn.choice((60, 6 * HOUR)))
                    removed += self.removed_by(store, drawn)
                    self.set_wrong(0)
            self.clock.pass_by(30)
            self.note_ends(store)
        store.close()
        return removed

    def set_wrong(self, wrong: int) -> None:
        self.clock.set_by(wrong - self.wrong)
        self.wrong = wrong

    def held_ends(self, store: Store) -> set[tuple[int, int]]:
        return {(it.file, it.number) for it in [*store.ahead(START + 9999 * DAY), *store.due()]}

    def note_ends(self, store: Store) -> None:
        for name in self.held_ends(store):
            self.ends.setdefault(name, self.clock.ran)

    def removed_by(self, store: Store, drawn: random.Random) -> int:
        self.note_ends(store)
        try:
            if drawn.random() < 0.5:
                store.pass_(drawn.choice((None, 1, 5)))
            else:
                while store.clean():
                    pass
        except (elephant.ClockDoubt, MassRemoval):
            pass
        gone = [it for it in self.ends if it not in self.held_ends(store)]
        for name in gone:
            self.assertGreaterEqual(self.clock.ran - self.ends.pop(name) + 60, self.KEPT)
        return len(gone)


if __name__ == "__main__":
    unittest.main()
