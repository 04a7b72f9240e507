"""What changed below a folder between two moments: what was made, saved, renamed, deleted or brought back. It answers `changes`."""

from __future__ import annotations

import json
from collections import Counter
from collections.abc import Callable, Iterator, Sequence
from typing import NamedTuple, Optional

from .. import Forgotten, Refused
from ..keeping import AT, told_time
from .log import local
from .past import text_of
from .store import MountStore
from .typed import two_moments_in
from .whereabouts import Nothing, told
from .wording import JSON, as_bytes

UNKNOWN = -1
KINDS = ("made", "saved", "renamed", "deleted", "brought back")
_Place = tuple[int, bytes]
"""A name: the number of its directory, and how it is spelled."""


class Seen(NamedTuple):
    """A file or a directory at a moment: its names with their paths, and the version of a file (0: a directory) with its closing."""

    places: dict[_Place, bytes]
    version: int
    closed: int


class Difference(NamedTuple):
    """What happened to a path, when (None: that isn't known), the path before, and the versions before and after."""

    what: str
    path: bytes
    moment: Optional[int] = None
    before: Optional[bytes] = None
    versions: Optional[tuple[int, int]] = None


class Spans:
    """Answers `changes M1 M2 [PATH]`. `store_at` returns the store that has a moment, and which moment to ask it for."""

    def __init__(self, store: MountStore, store_at: Callable[[int], tuple[MountStore, int]]) -> None:
        self._store, self._store_at = store, store_at

    def answer(self, words: Sequence[str]) -> str:
        """Returns the answer to the words after `changes`."""
        rest = [it for it in words if it != JSON]
        path = as_bytes(rest.pop()).rstrip(b"/") if rest and rest[-1].startswith("/") else b""
        if len(rest) < 2:
            raise ValueError(f"changes takes two moments, a folder or a file if you like, and {JSON}")
        first, last = sorted(two_moments_in(rest, int(self._store.now)))
        found = self._between(path, first, last)
        if JSON in words:
            return f"ok\n{json.dumps(list(map(_as_data, found)), indent=1)}\n"
        counts = Counter(it.what for it in found)
        told_counts = ", ".join(f"{counts[it]} {it}" for it in KINDS if counts[it]) or "nothing"
        head = f"ok {told(path)} from {told_time(first)} to {told_time(last)}: {told_counts}\n"
        return head + "".join(f"{_row(it)}\n" for it in found)

    def _between(self, path: bytes, first: int, last: int) -> list[Difference]:
        """Returns the differences in the order of their paths."""
        if last > self._store.now:
            raise Nothing(f"{told_time(last)} is to come")
        (store, then), (other, now) = self._store_at(first), self._store_at(last)
        if store is not other:
            raise Nothing(f"{told_time(first)} and {told_time(last)} are of two journals, whose files have other numbers")
        if not any(_was_there(store, path, it) for it in (then, now)):
            raise Nothing(f"there was no {told(path)} at {told_time(first)}, and none at {told_time(last)}")
        found = _Span(store, then, now).differences(_seen(store, then), _seen(store, now))
        here = (it for it in found if _is_below(it.path, path) or it.before is not None and _is_below(it.before, path))
        return sorted(here, key=lambda it: (it.path, it.what))


class _Span:
    """Compares what was seen at two moments."""

    def __init__(self, store: MountStore, first: int, last: int) -> None:
        self._store, self._first, self._last = store, first, last

    def differences(self, before: dict[int, Seen], after: dict[int, Seen]) -> Iterator[Difference]:
        """Yields the differences between two moments, by the keys of files and directories."""
        for key in before.keys() - after.keys():
            for place, path in before[key].places.items():
                yield Difference("deleted", path, self._end_of(place))
        for key in after.keys() - before.keys():
            yield from self._new(key, after[key])
        for key in after.keys() & before.keys():
            yield from self._changed(before[key], after[key])

    def _new(self, key: int, it: Seen) -> Iterator[Difference]:
        """Yields the names of what had none at the first moment: it was made since, or had been deleted."""
        was_there = any(end <= self._first for end in self._store.chronicle.ends_of_key(key))
        for path in it.places.values():
            rows = self._store.versions(path, at=self._last) if it.version else []
            first = next((int(row.closed) for row in rows if row.closed > self._first), None)
            yield Difference("brought back" if was_there else "made", path, first)

    def _changed(self, before: Seen, after: Seen) -> Iterator[Difference]:
        ended = [place for place in before.places if place not in after.places]
        fresh = [place for place in after.places if place not in before.places]
        for old, new in zip(ended, fresh):
            yield Difference("renamed", after.places[new], self._end_of(old), before.places[old])
        for place in ended[len(fresh):]:
            yield Difference("deleted", before.places[place], self._end_of(place))
        for place in fresh[len(ended):]:
            yield Difference("made", after.places[place])
        # A removed version isn't the current one of later, unless that was removed too.
        if before.version != after.version:
            versions = None if UNKNOWN in (before.version, after.version) else (before.version, after.version)
            yield Difference("saved", next(iter(after.places.values())), after.closed or None, versions=versions)

    def _end_of(self, place: _Place) -> Optional[int]:
        """Returns when a name ended last between the moments."""
        ends = [it for it in self._store.chronicle.ends_of(*place) if self._first < it <= self._last]
        return ends[-1] if ends else None


def _is_below(path: bytes, folder: bytes) -> bool:
    return path == folder or path.startswith(folder + b"/")


def _was_there(store: MountStore, path: bytes, moment: int) -> bool:
    try:
        store.stat_row(path or b"/", AT, moment)
    except Forgotten:
        return True
    except Refused:
        return False
    return True


def _seen(store: MountStore, moment: int) -> dict[int, Seen]:
    """Returns what there was at a moment. All of it: what was moved out of a folder has another name elsewhere."""
    found: dict[int, Seen] = {}
    folders = [(b"", 0)]
    while folders:
        folder, number = folders.pop()
        for spelling, is_directory, below in store.names_in(folder or b"/", AT, moment):
            place = folder + b"/" + spelling
            _add(found, store, (number, spelling), place, is_directory, moment, below)
            if is_directory:
                folders.append((place, below))
    return found


def _add(found: dict[int, Seen], store: MountStore, place: _Place, path: bytes, is_directory: bool, moment: int, number: int) -> None:
    """Adds a name that was there. If what the file held was removed, its version isn't known."""
    version, closed = 0, 0
    if not is_directory:
        try:
            row = store.stat_row(path, AT, moment)
            version, closed = int(row.version), int(row.closed)
        except Forgotten:
            version = UNKNOWN
    key = 2 * number + is_directory
    found.setdefault(key, Seen({}, version, closed)).places[place] = path


def _row(it: Difference) -> str:
    when = "-" if it.moment is None else local(it.moment)
    more = f", before {told(it.before)}" if it.before else ""
    if it.versions:
        more = f", version {it.versions[1]} after {it.versions[0]}"
    return f"{when:<19}  {it.what:<12}  {told(it.path)}{more}"


def _as_data(it: Difference) -> dict[str, object]:
    return {
        "what": it.what, "path": told(it.path), "moment": None if it.moment is None else text_of(it.moment),
        "before": told(it.before) if it.before else None, "versions": list(it.versions) if it.versions else None,
    }
