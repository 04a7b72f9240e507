"""What a mount removes, when, and what it says before: without a kernel, by a clock that a test moves. It needs pyfuse3."""

from __future__ import annotations

import tempfile
import unittest
from pathlib import Path
from typing import Optional

try:
    import pyfuse3  # noqa: F401
except ImportError:
    raise unittest.SkipTest("there is no pyfuse3 for this Python") from None

import elephant
from anew import make_anew
from clocks import DAY, START, FalseClocks
from elephant._guard import SETTLE
from elephant.keeping import told_time
from elephant.mount.cleaning import Cleaner
from elephant.mount.control import Lines
from elephant.mount.log import Log, local
from elephant.mount.operations import Operations
from elephant.mount.soon import Soon
from test_mount import MEMORY, Mounted

HOUR, WEEK = 3600, 7 * DAY


class Said(Log):
    """A log that keeps what is said."""

    def __init__(self) -> None:
        super().__init__()
        self.lines: list[str] = []

    def say(self, text: str) -> None:
        self.lines.append(text)

    def say_once(self, text: str) -> None:
        self.say(text)

    def has(self, *words: str) -> bool:
        return any(all(word in line for word in words) for line in self.lines)


class Case(unittest.TestCase):
    def setUp(self) -> None:
        room = tempfile.TemporaryDirectory(dir=MEMORY)
        self.addCleanup(room.cleanup)
        self.journal = Path(room.name, "journal")
        self.clocks, self.log = FalseClocks(), Said()
        self._mounted: Optional[Mounted] = None

    @property
    def it(self) -> Mounted:
        assert self._mounted is not None
        return self._mounted

    def mount(self, is_guarded: bool = True, journal: Optional[Path] = None) -> Mounted:
        if self._mounted is not None:
            self.end()
        self._mounted = it = Mounted(journal or self.journal, clock=self.clocks)
        self.addCleanup(it.store.close)
        self.operations = Operations(it.store, it.tree, it.contents, it.naming, it.past, self.log)
        self.cleaner = Cleaner(self.operations, self.log, is_guarded)
        self.texts = Soon(self.cleaner, True)
        self.cleaner.begin()
        return it

    def end(self) -> None:
        self.cleaner.release_all()
        self.it.close()
        self._mounted = None

    def pass_by(self, seconds: int) -> int:
        """Time passes, and each half hour the mount looks, foretells and cleans."""
        removed = 0
        while seconds > 0:
            self.clocks.pass_by(min(seconds, 1800))
            seconds -= 1800
            self.cleaner.look()
            self.cleaner.foretell()
            removed += self.cleaner.clean()
        return removed

    def save(self, name: bytes, *texts: bytes) -> None:
        for text in texts:
            self.it.save(name, text)
            self.clocks.pass_by(10)

    def filled(self, policy: str = "safe:604800/1") -> Mounted:
        """Versions 1 to 4 of f, and a deleted g: nothing is due for a week."""
        it = self.mount()
        it.store.line(f"default / {policy}")
        self.save(b"g", b"g")
        self.save(b"f", b"one", b"two", b"three")
        it.naming.unlink(it.top, b"g")
        it.top.left.clear()
        self.pass_by(SETTLE)
        return it

    def held(self) -> tuple[list[int], list[str]]:
        return [it.number for it in self.it.store.versions("/f")], [it.name for it in self.it.store.restorable()]

    def soon(self) -> list[str]:
        return self.texts.soon().decode().splitlines()

    ALL = [1, 2, 3, 4], ["g"]


class Clocks(Case):
    def test_a_month_ahead_for_a_minute_removes_nothing_and_is_told(self) -> None:
        self.filled()
        self.clocks.set_by(30 * DAY)
        self.cleaner.look()
        self.assertEqual((self.cleaner.clean(), self.held()), (0, self.ALL))
        self.assertTrue(self.log.has("jumped ahead by 30 days", "nothing is removed", "time is right"))
        self.assertIn("clock: the time of day jumped ahead by 30 days: nothing is removed", self.texts.notes())
        for _ in range(60):
            self.clocks.pass_by(1)
            self.cleaner.look()
        self.assertEqual((self.cleaner.clean(), sum("jumped ahead" in line for line in self.log.lines)), (0, 1))
        self.clocks.set_by(-30 * DAY)
        self.cleaner.look()
        self.assertTrue(self.log.has("agree again"))
        self.assertEqual((self.texts.notes(), self.pass_by(DAY), self.held()), ("", 0, self.ALL))

    def test_saves_after_a_wrong_minute_have_their_right_moments(self) -> None:
        it = self.filled()
        self.clocks.set_by(30 * DAY)
        self.save(b"f", b"four")
        self.clocks.set_by(-30 * DAY)
        self.save(b"f", b"five")
        moments = [int(row.closed) for row in it.store.versions("/f")][-2:]
        self.assertEqual(moments, [int(self.clocks.day) - 20, int(self.clocks.day) - 10])
        self.assertEqual(it.store.read("/f", at=moments[0] + 5), b"four")

    def test_an_undo_to_a_moment_says_what_the_moment_means_while_a_clock_is_wrong(self) -> None:
        it = self.filled()
        moment = int(it.store.versions("/f")[2].closed)
        lines = Lines(self.operations)
        self.assertEqual(lines.answer(f"undo /f @{moment}")[0].count("\n"), 1)
        self.clocks.set_by(-DAY)
        text = lines.answer(f"undo /f @{moment}")[0].splitlines()
        self.assertTrue(text[0].startswith("ok version"), text)
        self.assertIn("the time of day jumped back by 1 day: moments are of the store's time", text[1])

    def test_all_that_is_due_stays_while_a_clock_is_wrong_also_for_clean_all(self) -> None:
        self.filled()
        self.end()
        self.clocks.pass_by(9 * DAY)
        self.mount()
        self.clocks.set_by(HOUR)
        with self.assertRaisesRegex(elephant.ClockDoubt, "jumped ahead by 1 hour.*time is right"):
            self.cleaner.clean_all()
        self.assertEqual(self.held(), self.ALL)
        self.assertIn("the clocks agree", self.cleaner.trust_clock())
        self.assertTrue(self.log.has("a user said that the time of day is right"))
        self.assertEqual((self.cleaner.clean_all(), self.held()), (5, ([4], [])))

    def test_a_time_that_a_user_calls_right_removes_nothing_for_a_day(self) -> None:
        self.filled()
        self.clocks.set_by(8 * DAY)
        self.cleaner.clean()
        self.cleaner.trust_clock()
        self.assertEqual((self.pass_by(DAY - HOUR), self.held()), (0, self.ALL))
        self.assertTrue(self.log.has("moved on by 8 days at once"))
        self.assertEqual((self.pass_by(2 * HOUR), self.held()), (5, ([4], [])))

    def test_a_store_that_is_ahead_of_the_time_of_day_says_so_and_removes_nothing(self) -> None:
        self.filled()
        self.clocks.pass_by(2 * HOUR)
        self.save(b"f", b"four")
        self.end()
        self.clocks.set_by(-2 * DAY)
        self.mount()
        self.assertTrue(self.log.has("1 day before the store's time", "nothing is removed"))
        self.assertIn("1 day before the store's time", self.cleaner.time())
        self.cleaner.trust_clock()
        self.assertEqual((self.cleaner.clean_all(), len(self.held()[0])), (0, 5))
        self.assertEqual((self.pass_by(DAY), self.log.has("moved on by")), (0, False))

    def test_a_date_that_is_set_right_after_the_mount_removes_nothing_for_a_day(self) -> None:
        self.filled()
        self.end()
        ran = self.clocks.ran + 8 * DAY
        self.clocks = FalseClocks(0)
        self.mount()
        self.assertTrue(self.log.has("before the store's time", "nothing is removed"))
        self.assertEqual((self.pass_by(HOUR), self.held()), (0, self.ALL))
        self.clocks.set_by(START + ran - 5000 - HOUR)
        self.assertEqual((self.pass_by(DAY - HOUR), self.held()), (0, self.ALL))
        self.assertTrue(self.log.has("agree again"))
        self.assertEqual((self.pass_by(2 * HOUR), self.held()), (5, ([4], [])))

    def test_a_wrong_clock_at_the_mount_takes_nothing_before_it_is_set_right(self) -> None:
        self.filled()
        self.end()
        self.clocks = FalseClocks(START + 40 * DAY)  # after a start of the machine, with a wrong date
        self.mount()
        self.assertTrue(self.log.has("the last change was 39 days ago"))
        self.assertEqual((self.pass_by(HOUR), self.held()), (0, self.ALL))
        self.clocks.set_by(-39 * DAY)
        self.assertEqual((self.pass_by(HOUR), self.held()), (0, self.ALL))
        self.assertTrue(self.log.has("jumped back by 39 days"))


class Waits(Case):
    def test_after_a_week_off_everything_stays_for_a_day_and_is_announced(self) -> None:
        self.filled()
        self.end()
        self.clocks.pass_by(8 * DAY)
        self.mount()
        self.assertTrue(self.log.has("the last change was 8 days ago", "ten minutes"))
        self.assertEqual((self.cleaner.clean(), self.pass_by(SETTLE), self.held()), (0, 0, self.ALL))
        self.assertTrue(self.log.has("5 versions are to be removed: 2 of deleted /g, 3 of /f", "clean all"), self.log.lines)
        self.assertEqual((self.pass_by(DAY - 2 * HOUR), self.held()), (0, self.ALL))
        self.assertEqual((self.pass_by(3 * HOUR), self.held()), (5, ([4], [])))

    def test_the_day_goes_on_over_mounts_and_over_a_journal_that_is_made_anew(self) -> None:
        self.filled()
        self.end()
        self.clocks.pass_by(8 * DAY)
        self.mount()
        self.pass_by(HOUR)
        new = self.journal.with_name("new")
        make_anew(self.journal, new)
        self.end()
        self.clocks.pass_by(DAY)
        for journal in (self.journal, new):
            self.mount(journal=journal)
            self.assertEqual((self.pass_by(SETTLE - 60), self.pass_by(120), self.held()), (0, 5, ([4], [])))

    def test_a_mount_of_some_seconds_after_a_week_off_ends_no_wait(self) -> None:
        """It saves something before anything is announced, and the next mount sees no long gap before itself."""
        self.filled()
        self.end()
        self.clocks.pass_by(8 * DAY)
        self.mount()
        self.save(b"new", b"new")
        self.end()
        self.clocks.pass_by(60)
        self.mount()
        self.assertEqual((self.pass_by(DAY - HOUR), self.held()), (0, self.ALL))
        self.assertEqual((self.pass_by(2 * HOUR), self.held()), (5, ([4], [])))

    def test_a_mount_within_the_day_ends_no_wait(self) -> None:
        """The announcement is a change of the journal, so the next mount sees no long gap."""
        self.filled()
        self.end()
        self.clocks.pass_by(8 * DAY)
        for _ in range(10):
            self.mount()
            self.assertEqual((self.pass_by(HOUR), self.held()), (0, self.ALL))
            self.end()
            self.clocks.pass_by(HOUR)
        self.mount()
        self.assertEqual((self.pass_by(6 * HOUR), self.held()), (5, ([4], [])))

    def test_a_user_who_asks_for_it_gets_it_at_once(self) -> None:
        self.filled()
        self.end()
        self.clocks.pass_by(8 * DAY)
        self.mount()
        self.assertEqual((self.cleaner.clean_all(), self.held()), (5, ([4], [])))

    def test_without_a_guard_what_is_due_goes_at_once(self) -> None:
        self.filled()
        self.end()
        self.clocks.pass_by(8 * DAY)
        self.mount(is_guarded=False)
        self.assertEqual((self.cleaner.clean(), self.held()), (5, ([4], [])))

    def test_a_mount_that_goes_on_removes_versions_in_time_but_a_deleted_files_last_one_a_day_later(self) -> None:
        it = self.filled()
        self.assertEqual((self.pass_by(WEEK - DAY - 2 * HOUR), self.log.has("within a day")), (0, False))
        self.assertEqual((self.pass_by(4 * HOUR), self.held()), (0, self.ALL))
        self.assertTrue(self.log.has("within a day", "2 of deleted /g, 3 of /f"), self.log.lines)
        self.assertEqual((self.pass_by(DAY - 4 * HOUR), self.held()), (0, self.ALL))
        self.assertEqual((self.pass_by(4 * HOUR), self.held()), (4, ([4], ["g"])))
        self.pass_by(DAY)
        self.assertEqual(self.held(), ([4], []))
        self.assertEqual(it.store.read("/f"), b"three")

    def test_a_change_of_a_policy_that_makes_much_due_waits_for_a_day(self) -> None:
        it = self.mount()
        for number in range(150):
            it.save(b"f", b"%d" % number)
        self.clocks.pass_by(HOUR)
        self.pass_by(HOUR)
        it.store.line("policy /f safe:60")
        self.assertEqual((self.pass_by(DAY - HOUR), len(self.held()[0])), (0, 151))
        self.assertTrue(self.log.has("150 versions are to be removed: 150 of /f"), self.log.lines)
        self.assertEqual(self.pass_by(2 * HOUR), 150)

    def test_one_version_that_waits_keeps_no_stream_of_others_back(self) -> None:
        it = self.filled("safe:600")
        for number in range(200):
            it.save(b"f", b"%d" % number)
            self.clocks.pass_by(10)
            self.cleaner.look()
        self.pass_by(2 * HOUR)
        self.assertEqual(self.held(), ([204], ["g"]))
        self.assertEqual(len(self.operations.readers.kept), 1)
        self.assertTrue(any("deleted /g" in row for row in self.soon()))
        self.pass_by(DAY)
        self.assertEqual((self.held(), self.operations.readers.kept), (([204], []), set()))

    def test_the_rest_of_a_save_by_a_new_file_does_not_wait(self) -> None:
        it = self.filled()
        self.save(b"new", b"four")
        it.rename(b"new", b"f")
        self.clocks.pass_by(60)
        self.pass_by(60)
        self.assertEqual(self.cleaner.waits, {})
        self.assertEqual((it.read(b"f"), it.store.due()), (b"four", []))


class Texts(Case):
    def test_soon_lists_what_goes_with_names_dates_sizes_and_causes(self) -> None:
        it = self.filled()
        day = 7 * DAY
        begun = [int(row.ended or 0) for row in it.store.versions("/f")[:3]]
        deleted = it.store.departed[1].ended
        self.assertEqual(self.soon(), [
            f"{local(START + day)}          0 bytes  version 1 of deleted /g: 7 days after its end",
            f"{local(begun[0] + day)}          0 bytes  version 1 of /f: 7 days after its end",
            f"{local(begun[1] + day)}          3 bytes  version 2 of /f: 7 days after its end",
            f"{local(begun[2] + day)}          3 bytes  version 3 of /f: 7 days after its end",
            f"{local(deleted + day)}          1 bytes  version 2 of deleted /g: 7 days after its end",
        ])

    def test_a_line_lists_what_goes_until_a_moment(self) -> None:
        self.filled()
        lines = Lines(self.operations)
        lines.soon = self.texts.answer
        first, of_week = START + 7 * DAY, self.soon()
        self.assertEqual(lines.answer(f"soon {first}")[0], f"ok 1 version goes until {told_time(first)}\n{of_week[0]}\n")
        self.assertEqual(lines.answer(f"soon {first - 1}")[0], f"ok 0 versions go until {told_time(first - 1)}\n")
        head, *rows = lines.answer("soon")[0].splitlines()
        self.assertEqual((head, rows), (f"ok 5 versions go until {told_time(int(self.clocks.day) + 7 * DAY)}", of_week))
        self.assertRegex(lines.answer(f"soon {START}")[0], "^no: .* is past\n$")
        self.assertRegex(lines.answer("soon enough")[0], "^elephant-mount: 'enough' is no time")

    def test_soon_says_what_waits_and_until_when(self) -> None:
        self.filled()
        self.end()
        self.clocks.pass_by(8 * DAY)
        self.mount()
        self.cleaner.clean()
        self.assertTrue(self.soon()[0].startswith("removals: none for 10 minutes yet"))
        until = local(int(self.clocks.day) + DAY)
        self.assertEqual([row.startswith(until) and ", due since " in row for row in self.soon()[1:]], [True] * 5)
        tomorrow = int(self.clocks.day) + DAY
        self.assertRegex(self.texts.answer(tomorrow - 1), "^ok 0 versions go until .*\nremovals: none for 10 minutes yet\n$")
        self.assertRegex(self.texts.answer(tomorrow), "^ok 5 versions go until ")

    def test_soon_says_why_under_a_ladder(self) -> None:
        it = self.mount()
        self.assertIn("default landmarks:604800/3600", it.store.line("stat /"))
        self.save(b"f", b"one", b"two")
        self.pass_by(SETTLE)
        self.assertEqual([row.partition(": ")[2] for row in self.soon()], ["a newer one was saved in the same hour"] * 2)

    def test_nothing_is_a_line_too(self) -> None:
        self.mount()
        self.pass_by(HOUR)
        self.assertEqual(self.soon(), ["Nothing is to be removed within a week."])
        self.assertRegex(self.texts.answer(None), "^ok 0 versions go until .*\n$")

    def test_deleted_files_are_listed_with_the_moment_until_which_they_stay(self) -> None:
        it = self.filled()
        self.save(b"h", b"kept for good")
        it.store.line("policy /h landmarks:604800/3600")
        it.naming.unlink(it.top, b"h")
        ends = [it.store.departed[file].ended for file in (1, 3)]
        self.assertEqual(self.texts.until().decode().splitlines(), [
            f"{local(ends[0] + WEEK)}          1 bytes  deleted {local(ends[0])}  /g",
            f"for good                    13 bytes  deleted {local(ends[1])}  /h",
        ])

    def test_the_folder_shows_them(self) -> None:
        it = self.filled()
        it.past.texts.update({"soon": self.texts.soon, "restorable-until": self.texts.until})
        it.past.notes = self.texts.notes
        for name, wanted in ((b"soon", b"version 2 of /f"), (b"restorable-until", b"/g"), (b"limits", b"versions")):
            node = it.past.lookup(it.past.root, name)
            self.assertIn(wanted, it.past.content(node))
            self.assertEqual(it.past.show(node).size, len(it.past.content(node)))
        self.clocks.set_by(DAY)
        self.assertIn(b"jumped ahead by 1 day", it.past.content(it.past.lookup(it.past.root, b"limits")))


if __name__ == "__main__":
    unittest.main()
