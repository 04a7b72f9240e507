"""Weeks of a mount in fast motion, drawn from a seed: jumps of the clock, wrong dates, sleeps, days off, saves and deletions. What is
removed has always been kept for as long as its policy says, by the time that really passed. It needs pyfuse3."""

from __future__ import annotations

import random
import unittest

from clocks import DAY, START, FalseClocks
from test_removal import HOUR, Case

KEPT = 2 * DAY
NAMES = [b"a", b"b", b"c"]


class Weeks(Case):
    def setUp(self) -> None:
        super().setUp()
        self.real, self.wrong, self.stood = 0.0, 0, 0.0
        """How long the test has run, by how much the time of day is wrong, and how long the store's time stood while it was late."""
        self.ends: dict[tuple[int, int], float] = {}
        """When each version ended, by the time that really passed."""
        self.removed = 0

    def steps(self, drawn: random.Random, count: int) -> None:
        self.mount()
        self.it.store.line(f"default / safe:{KEPT}")
        for _ in range(count):
            word = drawn.choice(("save", "save", "save", "delete", "pass", "pass", "pass", "jump", "right", "off", "sleep"))
            getattr(self, f"do_{word}")(drawn)
            self.note_ends()
        self.do_right(drawn)
        for _ in range(6):
            self.let_pass(12 * HOUR)

    # What may happen.

    def do_save(self, drawn: random.Random) -> None:
        self.it.save(drawn.choice(NAMES), drawn.randbytes(5))
        self.let_pass(60)

    def do_delete(self, drawn: random.Random) -> None:
        name = drawn.choice(NAMES)
        if name in self.it.top.children:
            self.it.naming.unlink(self.it.top, name)
            self.it.top.left.clear()
            self.let_pass(60)

    def do_pass(self, drawn: random.Random) -> None:
        self.let_pass(drawn.choice((60, HOUR, 6 * HOUR)))

    def do_jump(self, drawn: random.Random) -> None:
        if not self.wrong:
            self.set_wrong(drawn.choice((HOUR, 2 * DAY, 30 * DAY, 400 * DAY, -HOUR, -3 * DAY, -30 * DAY)))

    def do_right(self, _: random.Random) -> None:
        self.set_wrong(0)

    def do_sleep(self, drawn: random.Random) -> None:
        self.let_pass(drawn.choice((HOUR, 9 * HOUR, 3 * DAY)), is_watched=False)

    def do_off(self, drawn: random.Random) -> None:
        """The machine is off, and begins with a right date or with a wrong one, which is set right within a day."""
        self.end()
        self.real += drawn.choice((60, 9 * HOUR, 4 * DAY))
        wrong = drawn.choice((0, 0, 30 * DAY, -3 * DAY))
        self.clocks = FalseClocks(START + self.real + wrong)
        self.wrong = wrong
        self.mount()
        if wrong:
            self.let_pass(drawn.choice((60, 6 * HOUR)))
            self.set_wrong(0)

    # What a test does with time.

    def set_wrong(self, wrong: int) -> None:
        self.clocks.set_by(wrong - self.wrong)
        self.wrong = wrong
        self.let_pass(60)

    def let_pass(self, seconds: int, is_watched: bool = True) -> None:
        """Time passes, and the mount works, each half hour or only at the end. Notes what it removes."""
        while seconds > 0:
            step = min(seconds, 1800 if is_watched else seconds)
            before = int(self.it.store.now)
            self.clocks.pass_by(step)
            self.real += step
            now = int(self.it.store.now)
            if now < START + self.real - 600:  # one that is ahead counts ages from later moments
                self.stood += max(step - (now - before), 0)
            seconds -= step
            self.cleaner.look()
            self.cleaner.foretell()
            self.note_ends()
            self.cleaner.clean()
            self.note_removed()

    def note_ends(self) -> None:
        """Notes which versions have ended since the last look."""
        for file, number in self.all_held():
            self.ends.setdefault((file, number), self.real)

    def all_held(self) -> set[tuple[int, int]]:
        """Returns the versions that are held and have ended."""
        return {(it.file, it.number) for it in self.it.store.ahead(START + 10_000 * DAY)} | set(self.cleaner._held)

    def note_removed(self) -> None:
        held = self.all_held()
        for name in [it for it in self.ends if it not in held]:
            self.removed += 1
            self.assertGreaterEqual(self.real - self.ends.pop(name) + self.stood + 600, KEPT, self.log.lines[-9:])

    def test_nothing_goes_before_its_time_whatever_the_clocks_say(self) -> None:
        removed = 0
        for seed in range(12):
            with self.subTest(seed=seed):
                if seed:
                    self.end()
                    self.journal.unlink()
                    self.setUp()
                self.steps(random.Random(seed), 60)
                removed += self.removed
        self.assertGreater(removed, 50)


if __name__ == "__main__":
    unittest.main()
