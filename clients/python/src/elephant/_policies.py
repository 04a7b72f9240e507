"""Policies: which ended versions of a file may be removed."""

from __future__ import annotations

from collections.abc import Iterable
from datetime import timedelta
from typing import Union

from ._errors import BadLadder, Syntax
from ._moments import LAST_MOMENT

MOST_FLOOR, MOST_RUNGS = 16, 8
Seconds = Union[int, timedelta]


def _seconds(length: Seconds) -> int:
    if isinstance(length, timedelta):
        whole, rest = divmod(length, timedelta(seconds=1))
        if rest:
            raise BadLadder(f"{length!r} is no whole number of seconds")
        return whole
    if isinstance(length, int) and not isinstance(length, bool):
        return int(length)
    raise TypeError(f"a length of time is an int or a timedelta, not {type(length).__name__}")


class Policy:
    """Base of the policies. `word` is its word in scripts, and policies with the same word are equal."""

    __slots__ = ("word",)
    word: str

    def __init__(self, word: str) -> None:
        self.word = word

    def __eq__(self, other: object) -> bool:
        return isinstance(other, Policy) and self.word == other.word

    def __hash__(self) -> int:
        return hash(self.word)

    def __str__(self) -> str:
        return self.word

    @staticmethod
    def of(word: str) -> Policy:
        """Returns the policy of a word such as `safe:604800/3`."""
        kind, _, rest = word.partition(":")
        try:
            if word in ("one", "all"):
                return KeepOne() if word == "one" else KeepAll()
            if kind == "safe":
                seconds, slash, floor = rest.partition("/")
                return KeepSafe(seconds=_number(seconds), floor=_number(floor) if slash else 0)
            if kind == "landmarks":
                pairs = [pair.split("/") for pair in rest.split(",")]
                return Landmarks([(_number(age), _number(width)) for age, width in pairs])
        except ValueError as fault:
            if isinstance(fault, BadLadder):
                raise
        raise Syntax(f"{word!r} is no policy")


def _number(word: str) -> int:
    if not (word.isascii() and word.isdigit()) or (word[0] == "0" and word != "0"):
        raise ValueError(word)
    return int(word)


class KeepOne(Policy):
    """A version may be removed once it has ended."""

    __slots__ = ()

    def __init__(self) -> None:
        super().__init__("one")

    def __repr__(self) -> str:
        return "KeepOne()"


class KeepAll(Policy):
    """No version may be removed."""

    __slots__ = ()

    def __init__(self) -> None:
        super().__init__("all")

    def __repr__(self) -> str:
        return "KeepAll()"


class KeepSafe(Policy):
    """A version may be removed once so much time has passed since its end.

    With a floor, the newest `floor` versions of a file that has a name stay, however old they are.
    """

    __slots__ = ("floor", "seconds")

    def __init__(self, *, days: int = 0, hours: int = 0, minutes: int = 0, seconds: Seconds = 0, floor: int = 0) -> None:
        whole = _seconds(seconds) + 60 * (minutes + 60 * (hours + 24 * days))
        if not 1 <= whole <= LAST_MOMENT:
            raise BadLadder(f"{whole} seconds are not from 1 to {LAST_MOMENT}")
        if not 0 <= floor <= MOST_FLOOR:
            raise BadLadder(f"a floor of {floor} is not from 0 to {MOST_FLOOR}")
        super().__init__(f"safe:{whole}/{floor}" if floor else f"safe:{whole}")
        self.seconds, self.floor = whole, floor

    def __repr__(self) -> str:
        return f"KeepSafe(seconds={self.seconds}, floor={self.floor})"


class Landmarks(Policy):
    """The longer ago a version ended, the fewer stay: from each age on, only the newest of each span of the width.

    `rungs` are one to eight pairs of an age and a width, in seconds or as timedelta. The ages rise, and each width divides the next.
    """

    __slots__ = ("rungs",)

    def __init__(self, rungs: Iterable[tuple[Seconds, Seconds]]) -> None:
        self.rungs = tuple((_seconds(age), _seconds(width)) for age, width in rungs)
        if not 1 <= len(self.rungs) <= MOST_RUNGS:
            raise BadLadder(f"a ladder has 1 to {MOST_RUNGS} pairs, not {len(self.rungs)}")
        if not all(1 <= number <= LAST_MOMENT for rung in self.rungs for number in rung):
            raise BadLadder(f"ages and widths are from 1 to {LAST_MOMENT} seconds")
        for (age, width), (next_age, next_width) in zip(self.rungs, self.rungs[1:]):
            if age >= next_age or next_width % width:
                raise BadLadder("the ages of a ladder rise, and each width divides the next")
        super().__init__("landmarks:" + ",".join(f"{age}/{width}" for age, width in self.rungs))

    @classmethod
    def standard(cls) -> Landmarks:
        """Keeps all versions for a day, then the newest of each hour, after 7 days of each day, and after 30 days of each week."""
        day = 86_400
        return cls([(day, 3_600), (7 * day, day), (30 * day, 7 * day)])

    def __repr__(self) -> str:
        return f"Landmarks({list(self.rungs)!r})"


_DAY = 86_400
LADDER = Landmarks([(7 * _DAY, 3_600), (30 * _DAY, _DAY), (365 * _DAY, 7 * _DAY)])
"""The policy with which a new journal begins: all versions for a week, then the newest of each hour, after 30 days of each day, and after
a year of each week. The last version of a deleted file stays for good. It is a week, since the last save of a Friday hour may be the
mistake. It is a line of the journal, so a journal means the same in every version of the package."""
