"""Words as people type them, in a line of the mount: moments in local time, policies with units, and the number of a version."""

from __future__ import annotations

import re
from collections.abc import Iterator, Sequence
from contextlib import suppress
from typing import Optional

from .. import BadTime, Landmarks, read_time

_UNITS = {"s": 1, "m": 60, "h": 3600, "d": 86_400, "w": 604_800, "y": 31_536_000}
_LENGTH = re.compile(r"(?<![0-9a-z])([1-9][0-9]{0,11})([smhdwy])(?![0-9a-z])")
_VERSION = re.compile(r"#(0|[1-9][0-9]{0,18})")
UNTIL = "until"


def policy_word(word: str) -> str:
    """Returns a policy's word with its lengths in seconds. What it can't read it leaves to the store, which says what is wrong."""
    if word == "standard":
        return Landmarks.standard().word
    if not word.startswith(("safe:", "landmarks:")):
        return word
    return _LENGTH.sub(lambda it: str(int(it[1]) * _UNITS[it[2]]), word)


def version_in(words: Sequence[str]) -> Optional[int]:
    """Returns the number of a version that words are, as `#3`, or None."""
    found = _VERSION.fullmatch(words[0]) if len(words) == 1 else None
    return None if found is None else int(found[1])


def moment_in(words: Sequence[str], now: int) -> int:
    """Returns the moment that words are. A number alone means seconds, however small it is. Raises BadTime."""
    text = " ".join(words)
    return read_time(f"@{text}" if text.isdigit() else text, now).moment


def moments_in(words: Sequence[str], now: int) -> list[int]:
    """Returns the one or two moments that words are: all of them as one if they can be, else as two, before and after `until` if it is
    there. Raises BadTime."""
    if UNTIL in words:
        at = words.index(UNTIL)
        return [moment_in(words[:at], now), moment_in(words[at + 1:], now)]
    try:
        return [moment_in(words, now)]
    except BadTime:
        found = list(_pairs(words, now))
        if len(found) != 1:
            raise
        return found[0]


def two_moments_in(words: Sequence[str], now: int) -> list[int]:
    """Returns the two moments that words are. Raises BadTime."""
    found = list(_pairs(words, now))
    if len(found) != 1:
        told = " ".join(words)
        raise BadTime(f"{told!r} is not two moments: write both, each in quotes if it has a space, as 'yesterday 15:00' now")
    return found[0]


def _pairs(words: Sequence[str], now: int) -> Iterator[list[int]]:
    """Yields each way to take words as two moments."""
    for at in range(1, len(words)):
        with suppress(BadTime):
            yield [moment_in(words[:at], now), moment_in(words[at:], now)]
