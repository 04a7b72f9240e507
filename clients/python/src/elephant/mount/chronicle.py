"""When the names of each directory ended, and which names a directory had before: what `undo` asks about the past of names."""

from __future__ import annotations

from collections.abc import Iterator
from typing import NamedTuple, Optional

from ..keeping import Front, Lives, NameRow


class Place(NamedTuple):
    """A name that a directory had until a moment."""

    until: int
    parent: int
    name: bytes


class Chronicle:
    """The ends of names, by the number of the directory and the name as it is spelled."""

    def __init__(self) -> None:
        self._ends: dict[int, dict[bytes, list[int]]] = {}
        self._moved: set[tuple[int, bytes]] = set()
        self._places: dict[int, list[Place]] = {}
        self._names: dict[int, list[Place]] = {}

    def end(self, parent: int, name: bytes, directory: Optional[int], now: int, is_moved: bool) -> None:
        """Notes that a name ends, which directory had it, if one had, and whether what had it goes on under another name."""
        self._ends.setdefault(parent, {}).setdefault(name, []).append(now)
        (self._moved.add if is_moved else self._moved.discard)((parent, name))
        if directory is not None:
            self._places.setdefault(directory, []).append(Place(now, parent, name))

    def end_of_file(self, file: int, parent: int, name: bytes, now: int) -> None:
        """Notes that a name of a file ends."""
        self._names.setdefault(file, []).append(Place(now, parent, name))

    def names_of(self, file: int) -> list[Place]:
        """Returns the names that a file had, in the order in which they ended."""
        return self._names.get(file, [])

    def ends_of_key(self, key: int) -> list[int]:
        """Returns when the names of a file or a directory ended, by twice its number, and one more for a directory."""
        return [it.until for it in (self._places if key & 1 else self._names).get(key >> 1, [])]

    def note_moved(self, parent: int, name: bytes) -> None:
        """Notes that what had a name, which has ended, goes on under another one."""
        self._moved.add((parent, name))

    def ends_of(self, parent: int, name: bytes) -> list[int]:
        """Returns the moments at which a name ended, the first one first."""
        return self._ends.get(parent, {}).get(name, [])

    def last_end(self, parent: int, name: bytes) -> int:
        """Returns the moment at which a name ended last, or 0."""
        return next(reversed(self.ends_of(parent, name)), 0)

    def was_moved(self, parent: int, name: bytes) -> bool:
        """Whether a name ended last since what had it got another one."""
        return (parent, name) in self._moved

    def moments_in(self, parent: int) -> Iterator[int]:
        """Yields the moments at which names of a directory ended."""
        for ends in self._ends.get(parent, {}).values():
            yield from ends

    def ended_between(self, parent: int, begin: int, end: int) -> list[bytes]:
        """Returns the names of a directory that ended at one of two moments or between them."""
        return [name for name, ends in self._ends.get(parent, {}).items() if any(begin <= it <= end for it in ends)]

    def place_at(self, directory: int, moment: int) -> Optional[Place]:
        """Returns the name that a directory had at a moment, if it has lost that name since."""
        return next((it for it in self._places.get(directory, []) if it.until > moment), None)

    def below(self, directory: int, live: dict[int, int]) -> set[int]:
        """Returns the numbers of a directory and of all that were ever below it; `live` has the parent of each directory with a name."""
        children: dict[int, set[int]] = {}
        for number, parent in live.items():
            children.setdefault(parent, set()).add(number)
        for number, places in self._places.items():
            for place in places:
                children.setdefault(place.parent, set()).add(number)
        found, open_ = {directory}, [directory]
        while open_:
            fresh = children.get(open_.pop(), set()) - found
            found |= fresh
            open_ += fresh
        return found


def chronicle_of(front: Front, lives: Lives) -> Chronicle:
    """Returns the chronicle of a store's names."""
    found, policies = Chronicle(), {it.number: it.policy for it in front.files}
    for row in lives.ended:
        assert row.death is not None
        found.end(row.parent, row.name, row.number if row.is_directory else None, row.death, _was_moved(row, lives, policies))
        if not row.is_directory:
            found.end_of_file(row.number, row.parent, row.name, row.death)
    return found


def _was_moved(row: NameRow, lives: Lives, policies: dict[int, str]) -> bool:
    """Whether what had a name goes on under another one: it was renamed, or its content became that of another file. Then the file has the
    policy that keeps nothing."""
    if any(it.birth == row.death and it is not row for it in lives.rows_of(row)):
        return True
    return not row.is_directory and policies.get(row.number) == "one"


def begin_of_last(moments: list[int], pause: int) -> int:
    """Returns the first of the moments after the last pause that is longer than so many seconds."""
    ordered = sorted(set(moments), reverse=True)
    begin = ordered[0]
    for moment in ordered[1:]:
        if begin - moment > pause:
            break
        begin = moment
    return begin
