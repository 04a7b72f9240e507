"""What the page shows of one file: its versions with what becomes of each, drawn, and what a policy would make of them."""

from __future__ import annotations

import time
from collections.abc import Iterable
from typing import NamedTuple, Optional

from .. import LAST_MOMENT, ElephantError, FileStat, KeepAll, Policy, Version
from .looking import LookedAt
from .trees import find
from .wording import Outcome, outcome_of

MOST_VERSIONS = 100
# The width of a drawing, and how much of it is after now.
WIDTH, AFTER = 1000, 120


class Bar(NamedTuple):
    """A version's bar, in the units of a drawing: where it begins, how long it was the current one, how long it is kept after that, and
    whether it is kept beyond the drawing."""

    start: int
    current: int
    kept: int
    is_longer: bool


class VersionRow(NamedTuple):
    """A version of a file, what becomes of it, and its bar. `other` and `other_bar` are those under another policy."""

    number: int
    closed: int
    ended: Optional[int]
    length: int
    outcome: Outcome
    bar: Bar
    other: Optional[Outcome] = None
    other_bar: Optional[Bar] = None


class VersionPart(NamedTuple):
    """A part of a file's versions, the newest first."""

    rows: list[VersionRow]
    start: int
    total: int
    now_at: int

    @property
    def before(self) -> Optional[int]:
        return None if self.start == 0 else max(self.start - MOST_VERSIONS, 0)

    @property
    def after(self) -> Optional[int]:
        return self.start + MOST_VERSIONS if self.start + MOST_VERSIONS < self.total else None


def now_of(store: LookedAt) -> int:
    """Returns the moment now. A store that is only read has the moment of its last change, and time goes on."""
    return max(int(store.now), int(time.time())) if store.is_followed else int(store.now)


def live_file(store: LookedAt, path: bytes, at: Optional[int]) -> Optional[FileStat]:
    """Returns the newest state of the file that a path names at a moment, if the path names it now too."""
    now = find(store, path, None)
    if not isinstance(now, FileStat) or at is not None and file_number(store, path, at) != now.file:
        return None
    return now


def file_number(store: LookedAt, path: bytes, at: Optional[int]) -> int:
    """Returns the number of the file that a path names at a moment, also if what it held then was forgotten; or 0."""
    parent, _, name = path.rpartition(b"/")
    try:
        entries, _ = store.names_page(parent or b"/", at, store.place_in(parent or b"/", at, name), 1)
    except ElephantError:
        return 0
    return entries[0].number if entries and entries[0].spelled == name and not entries[0].is_directory else 0


def outcomes(store: LookedAt, path: bytes, at: Optional[int], versions: Iterable[Version]) -> dict[int, Outcome]:
    """Returns what becomes of versions of a file, by their numbers. Of a file that has no name now only the moments are known."""
    now = now_of(store)
    if live_file(store, path, at) is not None:
        return {it.number: outcome_of(store.why(path, version=it.number), now) for it in versions}
    file = file_number(store, path, at)
    ends = {it.number: int(it.since) for it in store.ahead(LAST_MOMENT) if it.file == file}
    rows = {}
    for it in versions:
        end = ends.get(it.number)
        if it.ended is None:
            rows[it.number] = Outcome("current", None, "the newest version")
        elif end is None:
            rows[it.number] = Outcome("kept", None, "kept, if only time passes")
        else:
            rows[it.number] = Outcome("until", end, "kept for a time") if end > now else Outcome("due", end, "may be removed")
    return rows


def bar_of(it: Version, outcome: Outcome, first: int, now: int) -> Bar:
    """Returns the bar of a version in a drawing that begins at the first moment, and has now at its right."""
    span = max(now - first, 1)

    def place(moment: int) -> int:
        return min(max((moment - first) * (WIDTH - AFTER) // span, 0), WIDTH)

    start = place(it.closed)
    end = place(now if it.ended is None else int(it.ended))
    last = WIDTH if outcome.moment is None else max(place(outcome.moment), end)
    return Bar(start, max(end - start, 4), max(last - end, 0) if it.ended is not None else 0, last == WIDTH and it.ended is not None)


def version_rows(store: LookedAt, path: bytes, at: Optional[int], start: int) -> VersionPart:
    """Returns a part of a file's versions."""
    versions, total = store.versions_page(path, at, start, MOST_VERSIONS)
    found = outcomes(store, path, at, versions)
    now = now_of(store)
    first = min((int(it.closed) for it in versions), default=now)
    rows = [
        VersionRow(
            it.number, int(it.closed), None if it.ended is None else int(it.ended), it.length, found[it.number],
            bar_of(it, found[it.number], first, now),
        )
        for it in versions
    ]
    return VersionPart(rows, start, total, WIDTH - AFTER)


# Under another policy.

HORIZONS = (("now", 0), ("within an hour", 3600), ("within a day", 86_400), ("within a week", 604_800), ("within 30 days", 2_592_000),
            ("within a year", 31_536_000))


class Horizon(NamedTuple):
    """How many versions may be removed within a time, under the present policy and under the other one."""

    name: str
    present: int
    other: int


class Preview(NamedTuple):
    """What another policy would forget, beside what the present one forgets."""

    files: int
    versions: int
    horizons: list[Horizon]
    part: Optional[VersionPart]

    @property
    def at_once(self) -> int:
        """How many more versions may be removed at once."""
        return self.horizons[0].other - self.horizons[0].present


def _moments(found: dict[int, Outcome], now: int) -> list[int]:
    """Returns when versions may be removed, of those that may be at all."""
    return [now if it.kind == "due" else it.moment for it in found.values() if it.kind in ("due", "until") and it.moment is not None]


def _horizons(present: list[int], other: list[int], now: int) -> list[Horizon]:
    return [Horizon(name, *(sum(it <= now + seconds for it in moments) for moments in (present, other))) for name, seconds in HORIZONS]


def preview(store: LookedAt, paths: list[bytes], policy: Policy, start: int = 0) -> Preview:
    """Returns what a policy would make of the versions of files. Of one file also a part of them, drawn under both policies."""
    now = now_of(store)
    present: list[int] = []
    other: list[int] = []
    count, part = 0, None
    for path in paths:
        versions = store.versions(path)
        count += len(versions)
        before = outcomes(store, path, None, versions)
        with store.as_if(path, policy):
            after = outcomes(store, path, None, versions)
        present += _moments(before, now)
        other += _moments(after, now)
        if len(paths) == 1:
            part = _drawn(versions[::-1], before, after, start, now)
    return Preview(len(paths), count, _horizons(present, other, now), part)


def _drawn(versions: list[Version], before: dict[int, Outcome], after: dict[int, Outcome], start: int, now: int) -> VersionPart:
    chosen = versions[start:start + MOST_VERSIONS]
    first = min((int(it.closed) for it in chosen), default=now)
    rows = [
        VersionRow(
            it.number, int(it.closed), None if it.ended is None else int(it.ended), it.length, before[it.number],
            bar_of(it, before[it.number], first, now), after[it.number], bar_of(it, after[it.number], first, now),
        )
        for it in chosen
    ]
    return VersionPart(rows, start, len(versions), WIDTH - AFTER)


def policy_of(store: LookedAt, path: bytes) -> Policy:
    """Returns the policy of a file, or the default of a folder."""
    try:
        found = store.stat(path)
    except ElephantError:
        return KeepAll()
    return found.policy if isinstance(found, FileStat) else found.default
