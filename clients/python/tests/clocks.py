"""False clocks for tests: one that goes only when a test says so, and a moment that all clocks of the machine say."""

from __future__ import annotations

import time
from collections.abc import Iterator
from contextlib import ExitStack, contextmanager
from typing import Callable, Union
from unittest import mock

DAY, START = 86_400, 1_795_942_800
_NOW, _STEADY = time.time(), time.clock_gettime(time.CLOCK_BOOTTIME)


class FalseClocks:
    """The time of day and the steady clock, which go only when a test says so."""

    def __init__(self, now: float = START) -> None:
        self.day, self.ran = float(now), 5000.0

    def now(self) -> float:
        return self.day

    def steady(self) -> float:
        return self.ran

    def pass_by(self, seconds: float) -> None:
        """Time passes, also while the machine sleeps."""
        self.day += seconds
        self.ran += seconds

    def set_by(self, seconds: float) -> None:
        """Somebody sets the time of day."""
        self.day += seconds


@contextmanager
def clock_at(moment: Union[float, Callable[[], float]]) -> Iterator[None]:
    """Makes it a moment, or the one that a function returns: so much time has passed, by both clocks of the machine."""
    def now() -> float:
        return moment() if callable(moment) else moment

    with ExitStack() as stack:
        stack.enter_context(mock.patch("time.time", now))
        stack.enter_context(mock.patch("elephant._clock.SystemClocks.steady", lambda _: _STEADY + now() - _NOW))
        yield
