"""What a program asks a store often that answers many requests: rows by spelled paths, without objects, and what the clocks say.

A question about now or the past doesn't move the store's clock, since the file gets each move of it.
"""

from __future__ import annotations

from typing import Any

from ._answers import Removable
from ._core import Core
from ._kept_file import KeptFile
from ._library import AT, NOW
from ._moments import Moment


class AskedOften(KeptFile):
    """A store in a file that is asked often."""

    # The clock.

    def _look(self, tag: int, number: int) -> Core:
        """Returns the core for a question about now or the past, which doesn't move the clock: the file gets each move of it."""
        if self._core is None or self._failure is not None or (tag == AT and number > self._now):
            return self._begin()
        return self._core

    @property
    def moment(self) -> int:
        """The store's moment, as `now` would return it. The clock doesn't move for it."""
        with self._lock:
            return self._now if self._watch is None else max(self._watch.moment(self._now), self._now)

    def steady(self) -> float:
        """Returns the steady clock's time."""
        return self._watch.clocks.steady() if self._watch else 0.0

    def time_of_day(self) -> float:
        """Returns the time of day, whether it can be believed or not."""
        return self._watch.clocks.now() if self._watch else float(self._now)

    def clock_state(self) -> tuple[str, str]:
        """Returns what kind of fault the time of day has, `ahead`, `back` or `behind`, and the fault; or two empty texts."""
        with self._lock:
            if self._watch is None:
                return "", ""
            self._watch.moment(self._now)
            return self._watch.state(self._now)

    def require_clock(self) -> None:
        """Raises ClockDoubt if nothing may be removed."""
        with self._lock:
            self._removal_end()

    @property
    def removal_moment(self) -> int:
        """The moment up to which due versions may be removed. Raises ClockDoubt."""
        with self._lock:
            self._begin()
            end = self._removal_end()
            return self._now if end is None else end

    # Rows.

    def stat_row(self, path: bytes, tag: int = NOW, number: int = 0) -> Any:
        """Returns the row of a path, which the next call writes over."""
        with self._lock:
            return self._look(tag, number).stat(path, path, tag, number)

    def content(self, path: bytes, tag: int = NOW, number: int = 0) -> bytes:
        """Returns the content of a version."""
        with self._lock:
            return self._look(tag, number).read(path, path, tag, number)

    def names_in(self, path: bytes, tag: int = NOW, number: int = 0) -> list[tuple[bytes, bool, int]]:
        """Returns the spelled names in a directory, each with whether it is a directory and with its number."""
        with self._lock:
            core = self._look(tag, number)
            rows = self._names(core, core.look(core.library.elephant_list, path, path, len(path), tag, number))
        return [(spelling, is_directory, target) for _, is_directory, target, spelling in rows]

    def first_due(self, most: int) -> list[Removable]:
        """Returns the first versions that are due."""
        with self._lock:
            core = self._begin()
            keys = core.keys(min(core.look(core.library.elephant_due, ""), most))
        return [Removable(Moment(since), file, number) for since, file, number in keys]
