"""The story of a file, as named tuples. Reading is as strict as that of an audit."""

from __future__ import annotations

import re
from typing import Optional

from ._answers import Current, Due, Fate, Kept, NameStory, Open, Story, VersionStory
from ._moments import Moment
from ._reading import (
    DUE, HELD, MARK, MOMENT_OR_DASH, NUMBER, PATH, counted, due_in, fail, held_in, mark_in, matches, moment_in, number_or_none, path_in,
)

_KEPT = rf"kept(?: until {NUMBER})?(?: level {NUMBER})?"
_FATE = re.compile(rf"(-)|(current)|(open)|marked {MARK}|({_KEPT})|{DUE}")
_VERSION = re.compile(
    rf"- version {NUMBER} (?:- - -|{NUMBER} {MOMENT_OR_DASH} {NUMBER})(?: removed {NUMBER})? {HELD}([a-z-].*)"
)
_NAME = re.compile(rf"- name {NUMBER} {MOMENT_OR_DASH} {PATH}")


def read_story(answer: bytes) -> Story:
    """Reads the answer to `story`."""
    (file, count), rows = counted(answer, "ok story N N")
    versions = [it for it in rows if it.startswith("- version ")]
    found = tuple(_version(it) for it in matches(versions, len(versions), _VERSION))
    names = tuple(_name(it) for it in matches(rows[len(versions):], count - len(versions), _NAME))
    return Story(file, found, names)


def _version(found: re.Match[str]) -> VersionStory:
    row, (number, closed, ended, length, removed) = found[0], found.group(*range(1, 6))
    held, fate = held_in(found, 6), _fate(found[9], row)
    if held is not None:
        if not isinstance(fate, Due):
            fail(row)
        fate = fate._replace(held=held)
    moments = _moment(closed, row), _moment(ended, row)
    return VersionStory(int(number), *moments, number_or_none(length), fate, _moment(removed, row), held)


def _fate(words: str, row: str) -> Optional[Fate]:
    found = _FATE.fullmatch(words)
    if not found:
        fail(row)
    if found[1]:
        return None
    if found[2] or found[3]:
        return Current() if found[2] else Open()
    if found[4]:
        return mark_in(found, 4)
    if found[7]:
        return Kept(_moment(found[8], row), number_or_none(found[9]))
    since, _, age, by, level = due_in(found, 10)
    return Due(since, age, by, level)


def _moment(word: Optional[str], row: str) -> Optional[Moment]:
    return None if word is None else moment_in(word, row)


def _name(found: re.Match[str]) -> NameStory:
    path, spelled = path_in(found[3])
    return NameStory(path, moment_in(found[1], found[0]), _moment(found[2], found[0]), spelled)
