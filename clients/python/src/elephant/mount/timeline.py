"""When something changed in a store, and when which version was removed: what a journal says of the past beside the store itself."""

from __future__ import annotations

import time
from array import array
from bisect import bisect_left
from collections.abc import Collection, Iterable, Iterator
from contextlib import suppress
from typing import NamedTuple

from ..keeping import Event, Front, Gaps, Lives
from .records import Records

# Lines that change names or contents by themselves. A session does so when its close makes a version.
OF_TREE = (
    b"create ", b"mkdir ", b"link ", b"unlink ", b"rmdir ", b"rename ", b"undelete ", b"save ", b"revert ", b"restore ",
)
_OF_TREE = frozenset(it.rstrip() for it in OF_TREE)
# How many moments are listed one by one, and of how many removals a new file of the journal says when they were.
MOST_MOMENTS, MOST_REMOVALS = 1000, 10_000
# How many moments one remark has.
_IN_REMARK = 500


class Moments:
    """The moments at which names or contents changed, the first one first."""

    def __init__(self) -> None:
        self._all = array("q")

    def note(self, moment: int) -> None:
        """Notes a change. No moment is before the last one."""
        if not self._all or self._all[-1] < moment:
            self._all.append(moment)

    def __bool__(self) -> bool:
        return bool(self._all)

    def listed(self) -> Iterator[int]:
        """Yields the first moment, the last one of each day, and then each of the last thousand moments."""
        at, first = 0, max(len(self._all) - MOST_MOMENTS, 0)
        if first:
            yield self._all[0]
        while at < first:
            at = bisect_left(self._all, _end_of_day(self._all[at]), at)
            if 1 < at <= first:
                yield self._all[at - 1]
        yield from self._all[first:]


def _end_of_day(moment: int) -> int:
    """Returns when the local day of a moment ends."""
    day = time.localtime(moment)
    return max(int(time.mktime((day.tm_year, day.tm_mon, day.tm_mday + 1, 0, 0, 0, 0, 0, -1))), moment + 1)


class NotedRemoval(NamedTuple):
    """When a version was removed, and since when it was due."""

    moment: int
    since: int


class Removals:
    """Which versions were removed, by the number of their file."""

    def __init__(self) -> None:
        self._rows: dict[int, array[int]] = {}

    def note(self, file: int, version: int, moment: int, since: int) -> None:
        self._rows.setdefault(file, array("q")).extend((version, moment, since))

    def of(self, file: int) -> dict[int, NotedRemoval]:
        """Returns the removed versions of a file."""
        rows = self._rows.get(file, array("q"))
        return {rows[at]: NotedRemoval(rows[at + 1], rows[at + 2]) for at in range(0, len(rows), 3)}

    def last(self, files: Collection[int], most: int) -> list[tuple[int, int, int, int]]:
        """Returns of the last removals of some files the moment, the file, the version and since when it was due, in this order."""
        found = [(it.moment, file, version, it.since) for file in self._rows if file in files for version, it in self.of(file).items()]
        return sorted(found)[-most:]

    def clear(self) -> None:
        """Forgets all: the versions have other numbers now."""
        self._rows.clear()


class Annals:
    """What a journal says of the past beside the store that it keeps, by its events and remarks:

        # began 1796031481                      the first change was at that moment
        # gap 1796031481 1796031999             the last day or more without a change ended then, and the last change was at the other one
        # moments 1796031481 1796031999         names or contents changed at these moments
        # removed 12 7 1796031999 1796031481    version 7 of file 12 was removed at that moment, and was due since the other one

    The other remarks are those of the records.
    """

    def __init__(self, records: Records) -> None:
        self._records = records
        self.moments, self.removals, self.gaps = Moments(), Removals(), Gaps()
        self.first_moment = self.moment = 0
        """Those of the first change and of the last event."""
        self._written: set[int] = set()

    # What an opening reads.

    def note_event(self, event: Event) -> None:
        """Notices an event. The close of a session makes a version if something was written into it."""
        word = event.word
        if word == b"clock":
            self.moment = event.values[0]
            self.gaps.note(self.moment)
        elif word == b"tick":
            self.moment += event.values[0]
        elif word in _OF_TREE:
            self.note_moment()
        elif word in (b"write", b"truncate"):
            self._written.add(event.values[0])
        elif word == b"close" and event.values[0] in self._written:
            self._written.discard(event.values[0])
            self.note_moment()

    def note_moment(self) -> None:
        """Notices that names or contents have changed now."""
        self.moments.note(self.moment)

    def note_removed(self, keys: Iterable[tuple[int, int, int]], moment: int) -> list[bytes]:
        """Notes that versions were removed: since when each was due, and the numbers of its file and its own. Returns the remarks of it."""
        rows = [(file, version, moment, since) for since, file, version in keys]
        for row in rows:
            self.removals.note(*row)
        return [b"# removed %d %d %d %d" % row for row in rows]

    def note_remark(self, text: bytes) -> None:
        """Applies a remark. It passes over those of other programs."""
        word, *words = text.split(b" ")
        with suppress(ValueError, IndexError, TypeError):
            if word == b"began":
                self.first_moment = int(words[0])
            elif word == b"gap":
                self.gaps.last_end = int(words[0])
                self.gaps.moment = int(words[1])
            elif word == b"moments":
                for it in words:
                    self.moments.note(int(it))
            elif word == b"removed":
                self.removals.note(*map(int, words))
            else:
                self._records.apply(text)

    def complete(self, front: Front, lives: Lives) -> None:
        """Notes what the names say of a file whose remarks say nothing: another program has made it."""
        if self.first_moment:
            return
        found = sorted({it.birth for it in front.names} | {it.death for it in lives.ended if it.death is not None})
        self.first_moment = found[0] if found else 0
        later, self.moments = self.moments, Moments()
        for it in sorted({*found, *later.listed()}):
            self.moments.note(it)

    # What the file says.

    def beginning(self) -> bytes:
        """Returns the remark of the first moment."""
        return b"# began %d" % self.first_moment

    def remarks(self, files: Collection[int]) -> Iterator[bytes]:
        """Yields the remarks that say all that is kept of some files."""
        if self.first_moment:
            yield self.beginning()
        yield b"# gap %d %d" % (self.gaps.last_end, self.gaps.moment)
        moments = list(self.moments.listed())
        for at in range(0, len(moments), _IN_REMARK):
            yield b"# moments " + b" ".join(b"%d" % it for it in moments[at:at + _IN_REMARK])
        for moment, file, version, since in self.removals.last(files, MOST_REMOVALS):
            yield b"# removed %d %d %d %d" % (file, version, moment, since)
