"""The guard before a removal, without a mount: what may go, what is announced, and what waits."""

from __future__ import annotations

import unittest
from collections.abc import Iterable, Sequence
from typing import Optional

from elephant import Moment, Removable
from elephant._guard import DAY, MANY, MOST_REMARK, SETTLE, Announced, Decision, Gaps, Guard, VersionName, named

START, HOUR = 1_795_942_800, 3600


def due(file: int, *numbers: int, since: int = START - 10) -> list[Removable]:
    return [Removable(Moment(since), file, number) for number in numbers]


class Times:
    """A guard, and the time that passes."""

    def __init__(
        self, off: int = 60, announced: Optional[Announced] = None, now: int = START, found: Optional[Announced] = None,
        missed_until: int = 0,
    ) -> None:
        self.remarks: list[bytes] = []
        self.now, self.steady, self.found = now, 77.0, found
        self.guard = Guard(announced or Announced(), now, self.steady, now - off, missed_until, found)

    def pass_by(self, seconds: int, step: int = 1800) -> None:
        """Time passes while somebody looks, at least each half hour."""
        while seconds > 0:
            self.now, self.steady = self.now + min(step, seconds), self.steady + min(step, seconds)
            self.guard.look(self.now, self.steady)
            seconds -= step

    def decide(self, keys: Sequence[Removable], held: int = 10_000, last: Iterable[VersionName] = ()) -> Decision:
        """Decides, and keeps what is announced."""
        self.guard.look(self.now, self.steady)
        found = self.guard.decide(self.now, keys, held, set(last))
        self.remarks = self.guard.announced.add(self.now, [named(key) for key in found.announce])
        if self.found is not None:
            self.remarks += self.found.add(self.now, [named(key) for key in found.found])
        return found


class Settling(unittest.TestCase):
    def test_nothing_goes_within_ten_minutes_of_a_mount(self) -> None:
        it, keys = Times(), due(1, 1, 2)
        it.pass_by(599)
        self.assertEqual(it.decide(keys).may_go, set())
        it.pass_by(1)
        self.assertEqual(it.decide(keys)[:3], ({(1, 1), (1, 2)}, [], {}))

    def test_nothing_goes_within_ten_minutes_of_a_gap(self) -> None:
        it = Times()
        it.pass_by(SETTLE)
        self.assertEqual(it.decide(due(1, 1)).may_go, {(1, 1)})
        it.pass_by(9 * 3600, step=9 * 3600)
        keys = due(1, 1, since=it.now - 60)
        self.assertEqual((it.guard.settles_in, it.decide(keys).may_go), (SETTLE, set()))
        it.pass_by(SETTLE)
        self.assertEqual(it.decide(keys).may_go, {(1, 1)})

    def test_an_hour_without_a_look_is_no_gap(self) -> None:
        it = Times()
        it.pass_by(SETTLE)
        it.pass_by(3600, step=3600)
        self.assertEqual(it.decide(due(1, 1)).may_go, {(1, 1)})


class Brief(unittest.TestCase):
    """Openings that may be shorter than ten minutes."""

    def test_the_first_ten_minutes_announce_and_let_nothing_go(self) -> None:
        it, keys = Times(found=Announced(b"found")), due(1, 1, 2)
        it.pass_by(100)
        found = it.decide(keys)
        self.assertEqual((found.may_go, found.announce, found.found), (set(), [], keys))
        self.assertEqual((set(found.waits.values()), it.remarks), ({START + SETTLE}, [b"# found %d 1:1-2" % (START + 100)]))
        it.pass_by(499)
        self.assertEqual(it.decide(keys).may_go, set())
        it.pass_by(1)
        self.assertEqual(it.decide(keys).may_go, {(1, 1), (1, 2)})

    def test_what_an_opening_announced_ten_minutes_ago_goes_in_a_later_one(self) -> None:
        found, keys = Announced(b"found"), due(1, 1)
        Times(found=found).decide(keys)
        for seconds, may_go in ((SETTLE - 1, set()), (SETTLE, {(1, 1)})):
            self.assertEqual(Times(now=START + seconds, found=found).decide(keys + due(1, 2)).may_go, may_go)

    def test_what_became_due_in_a_week_off_waits_for_a_day_all_the_same(self) -> None:
        kept, found, keys = Announced(), Announced(b"found"), due(1, 1)
        Times(7 * DAY, kept, found=found).decide(keys)
        for seconds, may_go in ((HOUR, set()), (DAY - 1, {(2, 7)}), (DAY, {(1, 1), (2, 7)})):
            self.assertEqual(Times(HOUR, kept, START + seconds, found).decide(keys + due(2, 7)).may_go, may_go)

    def test_who_asks_rarely_is_asked_twice_whatever_made_so_much_due(self) -> None:
        for step, is_much in ((HOUR // 2, False), (2 * HOUR, True)):
            it = Times(found=Announced(b"found"))
            it.pass_by(2 * HOUR, step=HOUR // 2)
            it.decide([])
            it.pass_by(step, step=HOUR // 2)
            self.assertEqual(it.decide(due(1, *range(1, 500), since=it.now - 5), held=500).is_much, is_much)


class Much(unittest.TestCase):
    def setUp(self) -> None:
        self.it = Times()
        self.it.pass_by(SETTLE)

    def test_a_fifth_and_a_hundred_go(self) -> None:
        self.assertEqual(len(self.it.decide(due(1, *range(1, MANY + 1)), held=MANY).may_go), 100)
        self.assertEqual(len(self.it.decide(due(2, *range(1, 201)), held=1000).may_go), 200)

    def test_more_waits_until_it_was_announced_for_a_day(self) -> None:
        keys = due(1, *range(1, 202))
        found = self.it.decide(keys, held=1000)
        self.assertEqual((found.may_go, found.announce, found.is_much), (set(), keys, True))
        self.assertEqual(set(found.waits.values()), {self.it.now + DAY})
        self.it.pass_by(DAY - 1)
        self.assertEqual(self.it.decide(keys, held=1000)[:2], (set(), []))
        self.it.pass_by(1)
        self.assertEqual(len(self.it.decide(keys, held=1000).may_go), 201)

    def test_what_becomes_due_meanwhile_begins_no_new_day_for_the_rest(self) -> None:
        keys = due(1, *range(1, 202))
        self.it.decide(keys, held=1000)
        self.it.pass_by(DAY)
        found = self.it.decide(keys + due(2, 1), held=1000)
        self.assertEqual((len(found.may_go), found.announce), (202, []))

    def test_what_time_alone_makes_due_while_somebody_looks_goes(self) -> None:
        self.it.decide([])
        self.it.pass_by(60)
        keys = due(1, *range(1, 500), since=self.it.now - 5)
        self.assertEqual(len(self.it.decide(keys, held=500).may_go), 499)

    def test_a_change_of_policies_that_makes_much_due_waits(self) -> None:
        self.it.decide([])
        self.it.pass_by(60)
        keys = due(1, *range(1, 500), since=self.it.now - 120)
        self.assertEqual((self.it.decide(keys, held=500).may_go, len(self.it.decide(keys, held=500).waits)), (set(), 499))


class LongGaps(unittest.TestCase):
    def test_after_a_week_off_even_one_version_waits_for_a_day(self) -> None:
        it, keys = Times(off=7 * DAY), due(1, 1)
        it.pass_by(SETTLE)
        self.assertEqual(it.decide(keys)[:2], (set(), keys))
        it.pass_by(DAY)
        self.assertEqual(it.decide(keys).may_go, {(1, 1)})

    def test_a_short_gap_after_a_long_one_lets_nothing_go(self) -> None:
        it, keys = Times(off=7 * DAY), due(1, 1)
        it.pass_by(2 * 3600, step=2 * 3600)
        it.pass_by(SETTLE)
        self.assertEqual(it.decide(keys).may_go, set())

    def test_a_machine_that_slept_a_week_is_the_same_as_one_that_was_off(self) -> None:
        it = Times()
        it.pass_by(SETTLE)
        it.pass_by(7 * DAY, step=7 * DAY)
        it.pass_by(SETTLE)
        keys = due(1, 1, since=it.now - 3 * DAY)
        self.assertEqual(it.decide(keys).announce, keys)

    def test_a_time_of_day_that_a_user_calls_right_is_a_gap_as_long_as_it_jumped(self) -> None:
        it = Times()
        it.pass_by(SETTLE)
        it.decide([])
        it.now += 8 * DAY
        keys = due(1, 1, since=it.now - DAY)
        self.assertEqual(it.guard.look(it.now, it.steady), 8 * DAY)
        it.pass_by(SETTLE)
        self.assertEqual(it.decide(keys)[:2], (set(), keys))

    def test_what_became_due_after_the_gap_goes(self) -> None:
        it = Times(off=7 * DAY)
        it.pass_by(SETTLE)
        it.decide(due(1, 1))
        it.pass_by(600)
        self.assertEqual(it.decide(due(1, 1) + due(2, 1, since=it.now - 5)).may_go, {(2, 1)})

    def test_a_gap_before_the_last_change_counts_too(self) -> None:
        """An opening of some seconds, which saved something, ended the gap before anything was announced."""
        it, keys = Times(off=60, missed_until=START - 60), due(1, 1, since=START - DAY) + due(2, 1, since=START - 30)
        it.pass_by(SETTLE)
        self.assertEqual(it.decide(keys)[:2], ({(2, 1)}, keys[:1]))

    def test_the_gaps_of_a_journal(self) -> None:
        gaps, found = Gaps(), []
        for moment in (START, START + DAY - 1, START + 2 * DAY - 1, START + 2 * DAY, START + 9 * DAY, START + 9 * DAY + 5):
            gaps.note(moment)
            found.append(gaps.last_end - START)
        self.assertEqual(found, [0, 0, 2 * DAY - 1, 2 * DAY - 1, 9 * DAY, 9 * DAY])


class Deleted(unittest.TestCase):
    def test_the_last_version_of_a_deleted_file_waits_however_few_there_are(self) -> None:
        it = Times()
        it.pass_by(SETTLE)
        it.decide([])
        it.pass_by(60)
        keys = due(1, 1, 2, since=it.now - 5)
        found = it.decide(keys, last={(1, 2)})
        self.assertEqual(found, ({(1, 1)}, keys[1:], {(1, 2): it.now + DAY}, False, []))
        it.pass_by(DAY)
        self.assertEqual(it.decide(keys, last={(1, 2)}).may_go, {(1, 1), (1, 2)})


class Remembering(unittest.TestCase):
    def test_a_day_goes_on_over_mounts(self) -> None:
        keys = due(1, *range(1, 6), 9, since=START - 3 * DAY) + due(2, 7)
        first = Times(off=7 * DAY)
        first.decide(keys)
        self.assertEqual(first.remarks, [b"# due %d 1:1-5,9 2:7" % START])
        kept = Announced()
        for remark in first.remarks:
            kept.apply(remark[2:].split(b" "))
        second = Times(off=10 * DAY, announced=kept, now=START + DAY)
        second.pass_by(SETTLE)
        self.assertEqual(len(second.decide(keys).may_go), 7)
        self.assertEqual(kept.remarks(), [b"# due %d 1:1-5,9 2:7" % START])

    def test_a_short_opening_in_that_day_ends_no_wait(self) -> None:
        """The announcement is a change of the journal, so the opening after it sees no long gap."""
        kept, keys = Announced(), due(1, 1, 2, since=START - 3 * DAY)
        Times(off=7 * DAY, announced=kept).decide(keys)
        for hours, may_go in ((1, set()), (23, set()), (24, {(1, 1), (1, 2)})):
            it = Times(off=HOUR, announced=kept, now=START + hours * HOUR - SETTLE)
            it.pass_by(SETTLE)
            self.assertEqual(it.decide(keys).may_go, may_go)

    def test_what_is_not_due_any_more_is_dropped(self) -> None:
        kept = Announced()
        kept.add(START, [(1, 1), (1, 2)])
        self.assertEqual((kept.drop([(1, 2), (3, 3)]), kept.drop([(1, 2)])), ([b"# undue 1:2"], []))
        other = Announced()
        for remark in (b"due %d 1:1-2" % START, b"undue 1:2"):
            other.apply(remark.split(b" "))
        self.assertEqual(other.since, {(1, 1): START})

    def test_an_announcement_of_a_clock_that_was_ahead_does_not_count(self) -> None:
        kept = Announced()
        kept.add(START + 30 * DAY, [(1, 1)])
        it, keys = Times(off=7 * DAY, announced=kept), due(1, 1)
        it.pass_by(SETTLE)
        self.assertEqual(it.decide(keys)[:2], (set(), keys))
        it.pass_by(DAY)
        self.assertEqual(it.decide(keys).may_go, {(1, 1)})

    def test_many_versions_take_many_remarks_and_all_are_read_back(self) -> None:
        names = [(file, number) for file in range(1, 2000) for number in range(1, 2 + file % 7, 2)] + [(3000, n) for n in range(1, 999, 2)]
        kept = Announced()
        remarks = kept.add(START, names)
        self.assertTrue(len(remarks) > 2 and all(len(it) < MOST_REMARK + 700 for it in remarks), list(map(len, remarks)))
        other = Announced()
        for remark in remarks:
            other.apply(remark[2:].split(b" "))
        self.assertEqual(other.since, dict.fromkeys(names, START))

    def test_remarks_of_other_programs_are_passed_over(self) -> None:
        kept = Announced()
        for remark in (b"due", b"due x 1:1", b"due 5 1", b"due 5 a:b", b"undue", b"undue 9:9", b"dues 1 1:1", b"due 5 1:9-3"):
            kept.apply(remark.split(b" "))
        self.assertEqual(kept.since, {})

    def test_more_versions_than_a_store_makes_are_passed_over(self) -> None:
        kept = Announced()
        many = b" ".join(b"%d:1-900000" % it for it in range(500))
        for remark in (b"due 5 1:1-99999999999999999999", b"due 5 " + many, b"undue 1:1-9" + b"0" * 50):
            kept.apply(remark.split(b" "))
        self.assertEqual(kept.since, {})
        kept.apply(b"due 5 1:1-600000".split(b" "))
        kept.apply(b"due 5 2:1-600000".split(b" "))
        self.assertEqual(len(kept.since), 600_000)


if __name__ == "__main__":
    unittest.main()
