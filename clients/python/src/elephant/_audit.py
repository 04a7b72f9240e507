"""The answers to an audit, and a history, as named tuples."""

from __future__ import annotations

import re
from collections.abc import Iterator

from ._answers import Answered, Answers, Gone, History, OpenHandle, Removal, Removed
from ._reading import (
    DUE, HELD, NUMBER, PATH, UnknownAnswer, counted, due_in, fail, held_in, lines_of, matches, moment_in, number_or_none, path_in,
)

_REMOVAL = re.compile(rf"- {NUMBER} {NUMBER} {NUMBER} {PATH} {HELD}{DUE}")
_REMOVED = re.compile(rf"ok why removed {NUMBER} {HELD}{DUE}")
_HANDLE = re.compile(rf"- {NUMBER} {NUMBER} (?:draft|{NUMBER}) (?:-|{NUMBER}) {PATH}")
# The answers of events that rows follow.
_WITH_ROWS = re.compile(rf"ok (?:versions|names|restorable|due|usage|groups) {NUMBER}")


def read_gone(answer: bytes) -> Gone:
    """Reads the answer to `gone`."""
    (folded, count), rows = counted(answer, "ok gone N N")
    removals = []
    for found in matches(rows, count, _REMOVAL):
        path, spelled = path_in(found[4])
        moment, file, number = moment_in(found[1], found[0]), int(found[2]), int(found[3])
        removals.append(Removal(moment, file, number, path, *due_in(found, 8), spelled, held_in(found, 5)))
    return Gone(folded, tuple(removals))


def read_why(answer: bytes) -> Removed:
    """Reads the answer to `why` of a removed version. Raises Forgotten if no stored event removed it."""
    first, *rows = lines_of(answer)
    found = _REMOVED.fullmatch(first)
    if not found or rows:
        fail(first)
    return Removed(moment_in(found[1], first), *due_in(found, 5), held_in(found, 2))


def read_handles(answer: bytes) -> list[OpenHandle]:
    """Reads the answer to `handles`."""
    (count,), rows = counted(answer, "ok handles N")
    handles = []
    for found in matches(rows, count, _HANDLE):
        since = None if found[4] is None else moment_in(found[4], found[0])
        handles.append(OpenHandle(int(found[1]), int(found[2]), number_or_none(found[3]), since, *path_in(found[5])))
    return handles


def read_history(answer: bytes) -> History:
    """Reads the answer to `history`."""
    (folded, count), rows = counted(answer, "ok history N N")
    return History(folded, tuple(found[1] for found in matches(rows, count, re.compile("- ([ -~]+)"))))


def read_answers(answer: bytes) -> Answers:
    """Reads the answer to `answers`. The rows of a stored answer begin as those of events do, so they are counted."""
    (folded, count), rows = counted(answer, "ok answers N N")
    left, answered = iter(rows), list[Answered]()
    for row in left:
        if not row.startswith("- "):
            fail(row)
        answered.append(Answered(row[2:], _stored_answer(left, row)))
    if len(answered) != count:
        raise UnknownAnswer(f"{len(answered)} answers in place of {count}")
    return Answers(folded, tuple(answered))


def _stored_answer(left: Iterator[str], asked: str) -> str:
    """Takes the answer of one event off the lines that are left, and returns it as `line` did."""
    first = next(left, None)
    if first is None or not first.startswith(("ok ", "no ")):
        fail(asked if first is None else first)
    found = _WITH_ROWS.fullmatch(first)
    rows = [first]
    for _ in range(int(found[1]) if found else 0):
        row = next(left, None)
        if row is None or not row.startswith("- "):
            fail(first if row is None else row)
        rows.append(row)
    return "".join(f"{row}\n" for row in rows)
