"""The gate's budget: the minutes and processor minutes of its parts, as a table, and the bound of all of it.

A part's processor minutes are those of all processes that it started and waited for. On a busy machine the same work takes up to twice as
many, since processors share their caches and cores. So the gate also times a small piece of work again and again: how much longer it
takes than on a quiet machine tells by how much the minutes are too high.
"""

from __future__ import annotations

import resource
import threading
import time
from collections.abc import Iterator
from contextlib import contextmanager
from typing import NamedTuple

# What the whole gate may take from nothing, in processor minutes of a quiet machine.
MOST = 200.0
# The processor seconds of the small piece of work on such a machine, and the seconds between two measurements.
QUIET, PAUSE = 0.043, 10.0


class Part(NamedTuple):
    """A part of the gate: its name, its minutes by the clock, and its processor minutes."""

    name: str
    wall: float
    processor: float


class Pace:
    """How much longer work takes than on a quiet machine, measured by a thread while the gate runs."""

    def __init__(self) -> None:
        self._seconds: list[float] = []
        self._is_over = threading.Event()
        threading.Thread(target=self._measure, daemon=True).start()

    def _measure(self) -> None:
        while not self._is_over.is_set():
            began = time.thread_time()
            _small_work()
            self._seconds.append(time.thread_time() - began)
            self._is_over.wait(PAUSE)

    def end(self) -> float:
        """Ends the measurements. Returns the mean slowness: 1 on a quiet machine, 2 if all takes twice as long."""
        self._is_over.set()
        measured = self._seconds[:]
        return max(1.0, sum(measured) / len(measured) / QUIET) if measured else 1.0


class Budget:
    """The parts of a run of the gate."""

    def __init__(self) -> None:
        self._began, self._used = time.monotonic(), _waited_for()
        self._parts: list[Part] = []
        self._adding = threading.Lock()
        self.pace = Pace()

    @contextmanager
    def part(self, name: str) -> Iterator[None]:
        """Measures what runs within as a part. Nothing else of the gate runs meanwhile."""
        began, used = time.monotonic(), _waited_for()
        try:
            yield
        finally:
            self.add(name, (time.monotonic() - began) / 60, (_waited_for() - used) / 60)

    def add(self, name: str, wall: float, processor: float) -> None:
        with self._adding:
            self._parts.append(Part(name, wall, processor))

    def processor(self) -> float:
        """Returns the processor minutes of all so far."""
        return (_waited_for() - self._used) / 60

    def table(self) -> str:
        """Returns the parts as lines, and last all together."""
        rows = [*self._parts, Part("all", (time.monotonic() - self._began) / 60, self.processor())]
        width = max(len(it.name) for it in rows)
        lines = [f"{'part':{width}}  minutes  processor minutes"]
        lines += [f"{it.name:{width}}  {it.wall:7.1f}  {it.processor:17.1f}" for it in rows]
        return "\n".join(lines)


def _small_work() -> int:
    """Does what QUIET is the time of: it fills a table and sorts it."""
    table = {number * 7919 % 65_536: number for number in range(60_000)}
    return sum(table[it] for it in sorted(table))


def _waited_for() -> float:
    """Returns the processor seconds of all processes that this one has waited for, with those that they waited for."""
    used = resource.getrusage(resource.RUSAGE_CHILDREN)
    return used.ru_utime + used.ru_stime
