"""What will be forgotten and why, what was forgotten, what is used, and which moments are kept."""

from __future__ import annotations

from typing import NamedTuple, Optional

from .. import Cause, DirectoryStat, ElephantError, FileStat, Limits, Policy
from ..keeping import span
from .files import now_of
from .looking import LookedAt
from .trees import find, told
from .wording import cause_of, shown

MOST_ROWS = 200
WITHIN = {"hour": 3600, "day": 86_400, "week": 604_800, "month": 2_592_000, "year": 31_536_000}


class Place(NamedTuple):
    """Where a file is found: its path, and if it is deleted a moment at which it had it."""

    path: bytes
    at: Optional[int]


class Soon(NamedTuple):
    """A version that will be forgotten: when, which, and why."""

    moment: int
    number: int
    name: str
    path: Optional[str]
    at: Optional[int]
    length: Optional[int]
    why: str


class Past(NamedTuple):
    """A version that was forgotten: when, which, and by which rule."""

    moment: int
    number: int
    name: str
    why: str


class Used(NamedTuple):
    """A limit: how many of a kind were ever made, and how many may be."""

    name: str
    used: int
    limit: int


class Places:
    """Finds files by their numbers. It walks through all names when it is asked for the first time after a change."""

    def __init__(self) -> None:
        self._revision, self._found = -1, dict[int, Place]()

    def of(self, store: LookedAt) -> dict[int, Place]:
        """Returns where each file is found."""
        if self._revision != store.notes.revision:
            self._revision = store.notes.revision
            self._found = {}
            for row in store.restorable():
                ended = store.notes.ends.get((row.parent, row.spelled))
                if not row.is_directory and ended is not None and ended.moment:
                    self._found[row.number] = Place(ended.path, ended.moment - 1)
            self._found.update((it.number, Place(it.spelled, None)) for it in reversed(store.walk()) if not it.is_directory)
        return self._found


def soon(store: LookedAt, places: Places, within: int, start: int) -> tuple[list[Soon], int]:
    """Returns some of the versions that will be forgotten within seconds, the first ones first, and how many there are."""
    now = now_of(store)
    keys = store.ahead(max(now + within, int(store.now)))
    found = places.of(store)
    return [_soon(store, found.get(it.file), it.file, it.number, int(it.since)) for it in keys[start:start + MOST_ROWS]], len(keys)


def _soon(store: LookedAt, place: Optional[Place], file: int, number: int, since: int) -> Soon:
    if place is None:
        return Soon(since, number, f"file {file}", None, None, None, "its policy lets it go")
    policy: Optional[Policy] = None
    ended = length = None
    try:
        stat = find(store, place.path, place.at)
        if isinstance(stat, FileStat) and stat.file == file:
            version = store.version_numbered(place.path, place.at, number)
            policy, ended, length = stat.policy, version and version.ended, version and version.length
    except ElephantError:
        pass
    name = told(place.path) if place.at is None else f"deleted {told(place.path)}"
    why = cause_of(policy, since, None if ended is None else int(ended))
    return Soon(since, number, name, place.path.decode("ascii"), place.at, length, why)


def gone(store: LookedAt, start: int) -> tuple[list[Past], int]:
    """Returns some of the versions that were forgotten, the last one first, and how many there were."""
    removals = store.gone().removals[::-1]
    return [
        Past(int(it.moment), it.number, f"file {it.file}, which had no name" if it.spelled is None else told(it.spelled),
             _rule(it.cause, it.age, it.by))
        for it in removals[start:start + MOST_ROWS]
    ], len(removals)


def _rule(cause: Cause, age: Optional[int], by: Optional[int]) -> str:
    if cause is Cause.BY_AGE:
        return f"it ended {span(age or 0)} before"
    if cause is Cause.DISPLACED:
        return f"version {by} was saved in the same span of time"
    return "its policy keeps only the newest" if cause is Cause.AT_ONCE else "not known"


def used(store: LookedAt, limits: Limits) -> list[Used]:
    """Returns what is used of each limit. A store without a history has no limit of events."""
    counts = store.counts()
    return [Used(name, getattr(counts, name), getattr(limits, name)) for name in Limits._fields if name != "events"]


class KeptMoment(NamedTuple):
    """A mark: its group, how many files it is for, the moment, and its end."""

    name: str
    spelled: str
    files: int
    at: int
    until: Optional[int]


def kept_moments(store: LookedAt) -> list[KeptMoment]:
    """Returns the marks, the newest moment first."""
    rows = [
        KeptMoment(shown(group.name), group.spelled.decode("ascii"), len(group.members), int(mark.at),
                   None if mark.until is None else int(mark.until))
        for group in store.groups() for mark in group.marks
    ]
    return sorted(rows, key=lambda it: -it.at)


def files_below(store: LookedAt, path: bytes, at: Optional[int]) -> list[tuple[bytes, int]]:
    """Returns the paths and numbers of the files below a folder, or of the file itself."""
    found = find(store, path, at)
    if isinstance(found, DirectoryStat):
        return [(it.spelled, it.number) for it in store.walk(path, at=at) if not it.is_directory]
    return [] if found is None else [(path, found.file)]
