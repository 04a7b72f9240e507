"""The time of day, and whether it can be believed.

A policy removes by age, so a wrong time of day would remove what the policy keeps. `Watch` compares it with a steady clock, which nobody
sets: both have to move alike. It is CLOCK_BOOTTIME, which goes on while the machine sleeps, so that a sleep is no jump.
"""

from __future__ import annotations

import os
import time
from typing import Protocol

VARIABLE = "ELEPHANT_CLOCK"
# How many seconds the two clocks may differ: clocks that are set by a network differ by less. And for how long a store's time may stand.
TOLERANCE, LONGEST_STAND = 300.0, 86_400.0
_UNITS = ((86_400, "day"), (3600, "hour"), (60, "minute"), (1, "second"))


class Clocks(Protocol):
    """What tells a store the time. Tests give false ones."""

    def now(self) -> float:
        """Returns the time of day, in seconds since 1970."""

    def steady(self) -> float:
        """Returns how many seconds have passed since some moment, also while the machine slept."""


class SystemClocks:
    """The clocks of the machine."""

    def now(self) -> float:
        return time.time()

    def steady(self) -> float:
        return time.clock_gettime(time.CLOCK_BOOTTIME)


class ShiftedClocks:
    """The clocks of the machine, shifted for a test: a file has the seconds to add to the time of day and to the steady clock.

    The file is read with the time of day, so that a change of it shifts both at once.
    """

    def __init__(self, path: str) -> None:
        self._path = path
        self._of_day, self._of_steady = self._read()

    def _read(self) -> tuple[float, float]:
        with open(self._path, encoding="ascii") as file:
            of_day, of_steady = map(float, file.read().split())
        return of_day, of_steady

    def now(self) -> float:
        self._of_day, self._of_steady = self._read()
        return time.time() + self._of_day

    def steady(self) -> float:
        return time.clock_gettime(time.CLOCK_BOOTTIME) + self._of_steady


def clocks_of_system() -> Clocks:
    """Returns the machine's clocks, or those of the file that the environment names."""
    path = os.environ.get(VARIABLE)
    if path:
        return ShiftedClocks(path)
    return SystemClocks()


class Watch:
    """Finds the moment that a store may have, and why the time of day can't be believed, if it can't.

    After a jump the store's time runs on by the steady clock. After a jump back of at most a day it waits for the time of day instead: a
    store that was ahead by some hours is right again after these.
    """

    def __init__(self, clocks: Clocks) -> None:
        self.clocks = clocks
        self._now, self._steady = clocks.now(), clocks.steady()
        self._jump = 0.0
        self._is_trusted = False
        self.steady = self._steady
        """The steady clock's time at the last look."""
        self.was_set_right = False
        """Whether a time of day that was before the store's was set right. Who has noted it clears it."""

    def moment(self, store: int) -> int:
        """Returns the moment to which a store's time may move ahead; `store` is the store's moment.

        If the time of day was before the store's, and now isn't, somebody has set it right.
        """
        now, self.steady = self.clocks.now(), self.clocks.steady()
        steady = self.steady
        expected = self._now + steady - self._steady
        jump = now - expected
        is_set_right = expected + TOLERANCE < store <= now + TOLERANCE and not self._is_trusted
        if -TOLERANCE <= jump <= TOLERANCE or is_set_right:
            self._now, self._steady, self._jump = now, steady, 0.0
            self.was_set_right = self.was_set_right or is_set_right
            return int(now)
        if not self._jump:
            self._is_trusted = False
        self._jump = jump
        return int(now if -LONGEST_STAND <= jump < 0 else expected)

    def trust(self) -> None:
        """Takes the time of day for right, until it jumps again."""
        self._now, self._steady, self._jump = self.clocks.now(), self.clocks.steady(), 0.0
        self._is_trusted = True

    def fault(self, store: int) -> str:
        """Returns why the time of day can't be believed, or an empty text; `store` is the store's moment."""
        if self._jump:
            return f"the time of day jumped {'ahead' if self._jump > 0 else 'back'} by {span(abs(self._jump))}"
        behind = store - self.clocks.now()
        return f"the time of day is {span(behind)} before the store's time" if behind > TOLERANCE else ""

    def state(self, store: int) -> tuple[str, str]:
        """Returns which fault it is, in one word that stays the same as time goes on, and the fault."""
        fault = self.fault(store)
        if self._jump:
            return "ahead" if self._jump > 0 else "back", fault
        return "behind" if fault else "", fault

    def may_remove(self, store: int) -> bool:
        """Whether versions may be removed."""
        return not self.fault(store) or (self._is_trusted and not self._jump)


def span(seconds: float) -> str:
    """Returns a length of time in its largest unit, as `3 days`."""
    whole = max(int(seconds + 0.5), 0)
    for size, name in _UNITS:
        if whole >= size:
            return f"{whole // size} {name}{'s' * (whole // size != 1)}"
    return "0 seconds"
