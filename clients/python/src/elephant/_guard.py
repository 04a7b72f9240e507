"""The guard before a removal: what became due while nobody could see it, or all at once, waits until it was announced for a day.

It knows no store: it gets what is due and two clocks, and says what may be removed, and what is to be announced. A remark in the journal
keeps what was announced, so that a day may have many openings, as of a laptop that runs an hour a day. The package waits as the mount
does, because a program that opens its store while the date is a month ahead sees no jump:

    # due 1796031481 12:1-5,7 13:2        at that moment versions 1 to 5 and 7 of file 12, and 2 of file 13, were announced for a day
    # found 1796031481 12:8               that version was found due by an opening of a program, and may go ten minutes later
    # undue 12:7                          that version isn't due any more
"""

from __future__ import annotations

from collections.abc import Collection, Iterable, Iterator, Sequence
from contextlib import suppress
from math import ceil
from typing import NamedTuple, Optional

from ._answers import Removable

# More versions than this, which are also more than one in so many of those that are held, are much to remove at once.
MANY, PART = 100, 5
DAY = 86_400
# How long nothing is removed after an opening and after a gap, and the least gap, in seconds.
SETTLE, GAP = 600, 3600
# The most bytes of a remark, and the most versions that a store makes.
MOST_REMARK, MOST_VERSIONS = 4000, 1_000_000
VersionName = tuple[int, int]
"""The numbers of a file and of its version."""


class Gaps:
    """The times between the changes of a journal, of which the last long one counts."""

    def __init__(self) -> None:
        self.last_end = 0
        """The end of the last one of a day or more."""
        self.moment = 0
        """Of the last change."""

    def note(self, moment: int) -> None:
        """Notes the moment of a change."""
        if moment - self.moment >= DAY:
            self.last_end = moment
        self.moment = moment


def named(key: Removable) -> VersionName:
    return key.file, key.number


def is_much(count: int, held: int) -> bool:
    """Whether a removal of so many of the held versions has to be asked for twice."""
    return count > MANY and count * PART > held


class Announced:
    """When which versions were announced, as the remarks of a journal say that begin with a word."""

    def __init__(self, word: bytes = b"due") -> None:
        self._word = word
        self.since: dict[VersionName, int] = {}

    def apply(self, words: Sequence[bytes]) -> None:
        """Applies a remark. It passes over what it can't read."""
        with suppress(ValueError, IndexError):
            if words[0] == self._word:
                moment, found = int(words[1]), _names(words[2:], MOST_VERSIONS - len(self.since))
                self.since.update((name, moment) for name in found)
            elif words[0] == b"undue":
                for name in _names(words[1:], MOST_VERSIONS):
                    self.since.pop(name, None)

    def has(self, name: VersionName, now: int) -> bool:
        return self.since.get(name, now + 1) <= now

    def add(self, moment: int, names: Iterable[VersionName]) -> list[bytes]:
        """Adds versions, and returns the remarks for it."""
        found = sorted(names)
        self.since.update((name, moment) for name in found)
        return [b"# %b %d %b" % (self._word, moment, words) for words in _words(found)]

    def drop(self, names: Iterable[VersionName]) -> list[bytes]:
        """Drops versions, and returns the remarks for it."""
        found = sorted(name for name in names if self.since.pop(name, None) is not None)
        return [b"# undue " + words for words in _words(found)]

    def remarks(self) -> list[bytes]:
        """Returns the remarks that say everything."""
        by_moment: dict[int, list[VersionName]] = {}
        for name, moment in self.since.items():
            by_moment.setdefault(moment, []).append(name)
        found = sorted(by_moment.items())
        return [b"# %b %d %b" % (self._word, moment, words) for moment, names in found for words in _words(sorted(names))]


def _names(words: Iterable[bytes], most: int) -> list[VersionName]:
    """Returns the versions that words mean. Raises ValueError if a word means none, or all of them mean more than so many."""
    found: list[tuple[int, range]] = []
    for word in words:
        file, _, ranges = word.partition(b":")
        for part in ranges.split(b","):
            first, dash, last = part.partition(b"-")
            found.append((int(file), range(int(first), int(last if dash else first) + 1)))
    if sum(max(numbers.stop - numbers.start, 0) for _, numbers in found) > most:
        raise ValueError("no store makes so many versions")
    return [(file, number) for file, numbers in found for number in numbers]


def _words(names: Sequence[VersionName]) -> Iterator[bytes]:
    """Yields the words of sorted versions, in pieces that fit into a remark."""
    piece: list[bytes] = []
    length = 0
    for word in _file_words(names):
        if piece and length + len(word) >= MOST_REMARK:
            yield b" ".join(piece)
            piece, length = [], 0
        piece.append(word)
        length += len(word) + 1
    if piece:
        yield b" ".join(piece)


def _file_words(names: Sequence[VersionName]) -> Iterator[bytes]:
    """Yields words as `12:1-5,7`, each of one file and with at most a hundred ranges."""
    ranges: list[list[int]] = []
    for at, (file, number) in enumerate(names):
        if ranges and ranges[-1][1] + 1 == number:
            ranges[-1][1] = number
        else:
            ranges.append([number, number])
        following = names[at + 1] if at + 1 < len(names) else (0, 0)
        if following[0] != file or len(ranges) == 100:
            yield b"%d:%b" % (file, b",".join(b"%d" % a if a == b else b"%d-%d" % (a, b) for a, b in ranges))
            ranges = []


class Decision(NamedTuple):
    """What may be removed, what is to be announced for a day, until when which versions wait, whether they wait since they are much, and
    what was found that waits for ten minutes."""

    may_go: set[VersionName]
    announce: list[Removable]
    waits: dict[VersionName, int]
    is_much: bool = False
    found: Sequence[Removable] = ()


class Guard:
    """Decides which due versions may be removed.

    `found` is for a program whose openings may be shorter than ten minutes, and which may ask rarely. In the first ten minutes that goes
    which was found ten minutes before, maybe by an earlier opening. Without it nothing does.
    """

    def __init__(
        self, announced: Announced, now: int, steady: float, last: int, missed_until: int = 0, found: Optional[Announced] = None
    ) -> None:
        """`last`: the last moment at which somebody could see what is due. `missed_until`: the end of the last time before that in which
        nobody could for a day or more."""
        self.announced, self._found = announced, found
        self._now, self._steady, self._since = now, steady, steady
        self._watched_from = self._decided = now
        self._missed_until = now if now - last >= DAY else missed_until
        self._flowing: set[VersionName] = set()

    def look(self, now: int, steady: float) -> float:
        """Notes that time has passed. Returns how long it was if nobody can have looked meanwhile, else 0.

        The moment may have moved further than the steady clock: a user said that a time of day is right which had jumped ahead.
        """
        passed = max(steady - self._steady, float(now - self._now))
        self._now, self._steady = now, steady
        if passed <= GAP:
            return 0.0
        self.miss(now, passed >= DAY)
        return passed

    def miss(self, now: int, is_long: bool = True) -> None:
        """Notes that nobody could see what became due until now: then nothing is removed yet, and after a long time nothing for a day."""
        self._since, self._watched_from = self._steady, now
        if is_long:
            self._missed_until = now

    @property
    def settles_in(self) -> float:
        """For how many seconds nothing is removed yet."""
        return max(self._since + SETTLE - self._steady, 0.0)

    def decide(self, now: int, due: Sequence[Removable], held: int, last: Collection[VersionName]) -> Decision:
        """Returns what may be removed of what is due, in the order of removal. Look first.

        `held` counts all versions that are held. `last` has the last versions of deleted files.
        """
        is_rare = self._found is not None and now - self._decided > GAP
        moments = {named(key): self._moment(self.announced, named(key), now) for key in due}
        fresh = [key for key in due if not self._flows(key, is_rare) and moments[named(key)] + DAY > now]
        is_all = is_much(len(fresh), held)
        careful = {named(key) for key in fresh if is_all or key.since < self._missed_until}
        # What was announced waits for its day, also if a later opening finds no reason for it.
        careful.update(name for name in moments if name in last or self.announced.has(name, now))
        waits = {name: moments[name] + DAY for name in careful if moments[name] + DAY > now}
        announce = [key for key in due if named(key) in waits and not self.announced.has(named(key), now)]
        found = self._let_settle(now, moments.keys() - waits.keys(), waits)
        self._flowing.intersection_update(moments)
        self._decided = now
        may_go = set() if self.settles_in and self._found is None else moments.keys() - waits.keys()
        return Decision(may_go, announce, waits, is_all, [key for key in due if named(key) in found])

    def _let_settle(self, now: int, names: Collection[VersionName], waits: dict[VersionName, int]) -> set[VersionName]:
        """Adds to those that wait what has to wait for ten minutes. Returns what of it wasn't found before."""
        if self._found is None or not self.settles_in:
            return set()
        settled = now + ceil(self.settles_in)
        names = {name for name in names if not self.announced.has(name, now)}
        ends = {name: min(self._moment(self._found, name, now) + SETTLE, settled) for name in names}
        waits.update((name, end) for name, end in ends.items() if end > now)
        return {name for name in names if not self._found.has(name, now)}

    @staticmethod
    def _moment(announced: Announced, name: VersionName, now: int) -> int:
        """Returns when a version was announced, or now, as it will be. A moment after now is one of a clock that was wrong."""
        return announced.since[name] if announced.has(name, now) else now

    def _flows(self, key: Removable, is_rare: bool) -> bool:
        """Whether a version became due while somebody could see it coming: as time passed, and not by a change of its policy. Who asks
        rarely can't tell these apart."""
        if key.since >= max(self._watched_from, self._decided) and not is_rare:
            self._flowing.add(named(key))
        return named(key) in self._flowing
