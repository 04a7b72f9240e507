"""Reads the lines of an answer. It is strict: a line that no store of this version prints raises UnknownAnswer. Nothing is guessed or left
out.
"""

from __future__ import annotations

import re
from collections.abc import Iterator
from typing import NoReturn, Optional

from ._answers import Cause, Marked
from ._errors import ElephantError, error_of
from ._moments import LAST_MOMENT, Moment
from ._names import name_of, path_of


class UnknownAnswer(ElephantError):
    """The library answered in a form that this package doesn't know, so they are of different versions. The answer is in the subject."""


NUMBER = "(0|[1-9][0-9]{0,19})"
PATH = r"(-|(?:/[!-\"$-.0-?A-~]{1,64})+)"
DUE = rf"due {NUMBER}( at once| by age {NUMBER}| by {NUMBER} level {NUMBER})"
MARK = rf"([!-\"$-.0-?A-~]{{1,64}}) {NUMBER}(?:/{NUMBER})?"
HELD = rf"(?:held {MARK} )?"
_REFUSED = re.compile(rf"(?:no|bad|stop) {NUMBER} [A-Z][A-Za-z]+(?: (\w+|-))?")
MOMENT_OR_DASH = f"(?:-|{NUMBER})"


def fail(line: str) -> NoReturn:
    raise UnknownAnswer(repr(line[:200]))


def lines_of(answer: bytes) -> list[str]:
    """Returns the lines of an answer. Raises the error of a refusal or a stop."""
    *lines, rest = answer.decode("ascii", "replace").split("\n")
    if rest or not lines:
        fail(answer.decode("ascii", "replace"))
    refused = _REFUSED.fullmatch(lines[0])
    if refused:
        raise error_of(int(refused[1]), lines[0], int(refused[2]) if (refused[2] or "").isdigit() else None)
    return lines


def counted(answer: bytes, form: str) -> tuple[list[int], list[str]]:
    """Returns the numbers of an answer's first line, and its other lines."""
    first, *rows = lines_of(answer)
    found = re.fullmatch(form.replace("N", NUMBER), first)
    if not found:
        fail(first)
    return [int(it) for it in found.groups()], rows


def matches(rows: list[str], count: int, form: re.Pattern[str]) -> Iterator[re.Match[str]]:
    """Yields the matches of just so many rows."""
    if len(rows) != count:
        raise UnknownAnswer(f"{len(rows)} rows in place of {count}")
    for row in rows:
        found = form.fullmatch(row)
        if not found:
            fail(row)
        yield found


def moment_in(word: str, row: str) -> Moment:
    if int(word) > LAST_MOMENT:
        fail(row)
    return Moment(int(word))


def path_in(word: str) -> tuple[Optional[str], Optional[bytes]]:
    """Returns a path and its spelling, or None for none."""
    return (None, None) if word == "-" else (path_of(word.encode("ascii")), word.encode("ascii"))


def number_or_none(word: Optional[str]) -> Optional[int]:
    return None if word is None else int(word)


def due_in(found: re.Match[str], at: int) -> tuple[Moment, Cause, Optional[int], Optional[int], Optional[int]]:
    """Returns since when a version was due, and the cause with its numbers, from a match whose groups of these begin at a place."""
    since, words, age, by, level = found.group(*range(at, at + 5))
    cause = Cause.AT_ONCE if words == " at once" else Cause.BY_AGE if by is None else Cause.DISPLACED
    return moment_in(since, found[0]), cause, number_or_none(age), number_or_none(by), number_or_none(level)


def mark_in(found: re.Match[str], at: int) -> Marked:
    """Returns a mark, from a match whose groups of it begin at a place."""
    group, moment, until = found.group(*range(at, at + 3))
    return Marked(name_of(group.encode("ascii")), moment_in(moment, found[0]), None if until is None else moment_in(until, found[0]))


def held_in(found: re.Match[str], at: int) -> Optional[Marked]:
    """Returns the mark that held a version, or None if no mark did, from a match whose groups of it begin at a place."""
    return None if found[at] is None else mark_in(found, at)
