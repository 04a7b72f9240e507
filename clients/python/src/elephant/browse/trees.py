"""What the page shows of names: the tree at a moment, and the rows of a folder."""

from __future__ import annotations

from typing import NamedTuple, Optional, Union

from .. import DirectoryStat, ElephantError, FileStat, Forgotten
from .._names import _has_form, name_of, path_of
from .looking import Deleted, LookedAt
from .wording import shown

# Rows of a page, and names of a folder in the tree beside it.
MOST_ROWS, MOST_TREE = 200, 60
Found = Union[FileStat, DirectoryStat]


class Row(NamedTuple):
    """A name of a folder. `length` and `saved` are of a file; `at` is the moment to look at it, if it is deleted."""

    name: str
    path: str
    is_directory: bool
    is_deleted: bool = False
    length: Optional[int] = None
    saved: Optional[int] = None
    ended: Optional[int] = None
    at: Optional[int] = None
    note: str = ""


class Level(NamedTuple):
    """A folder of the tree with some of its names. `open_row` is the one that the path goes through, and `below` its own names."""

    path: str
    rows: list[Row]
    total: int
    open_row: Optional[str]
    below: Optional[Level]


class Part(NamedTuple):
    """A part of a list: its rows, where it begins, and how many there are."""

    rows: list[Row]
    start: int
    total: int

    @property
    def before(self) -> Optional[int]:
        return None if self.start == 0 else max(self.start - MOST_ROWS, 0)

    @property
    def after(self) -> Optional[int]:
        return self.start + MOST_ROWS if self.start + MOST_ROWS < self.total else None


def find(store: LookedAt, path: bytes, at: Optional[int]) -> Optional[Found]:
    """Returns what a path is at a moment, or None. Raises Forgotten."""
    try:
        return store.stat(path, at=at)
    except Forgotten:
        raise
    except (ElephantError, ValueError):
        return None


def is_path(path: bytes) -> bool:
    """Whether bytes have the form of a spelled path, so that no line gets another word or another line by them."""
    return path == b"/" or _has_form(path)


def joined(folder: bytes, name: bytes) -> bytes:
    return (b"" if folder == b"/" else folder) + b"/" + name


def text(path: bytes) -> str:
    """Returns a spelled path as an address has it."""
    return path.decode("ascii", "replace")


def told(path: bytes) -> str:
    """Returns a path as people read it."""
    return shown(path_of(path))


def tree(store: LookedAt, path: bytes, at: Optional[int], wants_deleted: bool = False) -> Optional[Level]:
    """Returns the folders down to a path, each with some of its names, and with deleted ones if they are wanted."""
    names = [it for it in path.split(b"/") if it]
    level: Optional[Level] = None
    for depth in range(len(names), -1, -1):
        folder = b"/" + b"/".join(names[:depth])
        chosen = names[depth] if depth < len(names) else None
        try:
            level = _level(store, folder, at, chosen, level)
            if wants_deleted:
                level = level._replace(rows=level.rows + _deleted_in(store, folder, at, level))
        except (ElephantError, ValueError):
            level = None  # it is a file, or it wasn't there
    return level


def _level(store: LookedAt, folder: bytes, at: Optional[int], chosen: Optional[bytes], below: Optional[Level]) -> Level:
    start = 0
    if chosen is not None:
        start = max(store.place_in(folder, at, chosen) - MOST_TREE // 2, 0)
    entries, total = store.names_page(folder, at, start, MOST_TREE)
    rows = [Row(shown(it.name), text(joined(folder, it.spelled)), it.is_directory) for it in entries]
    return Level(text(folder), rows, total, None if chosen is None else text(joined(folder, chosen)), below)


def _deleted_in(store: LookedAt, folder: bytes, at: Optional[int], level: Level) -> list[Row]:
    """Returns some deleted names of a folder that aren't among those of a level."""
    found = find(store, folder, at)
    assert isinstance(found, DirectoryStat)
    deleted = [_deleted_row(folder, it) for it in store.deleted_page(found.directory, 0, MOST_TREE)[0]]
    names = {it.name for it in level.rows}
    return [it for it in deleted if it.name not in names]


def folder_rows(store: LookedAt, folder: bytes, at: Optional[int], start: int) -> Part:
    """Returns a part of the names of a folder."""
    entries, total = store.names_page(folder, at, start, MOST_ROWS)
    rows = []
    for it in entries:
        path = joined(folder, it.spelled)
        row = Row(shown(it.name), text(path), it.is_directory)
        if not it.is_directory:
            try:
                found = find(store, path, at)
            except Forgotten:
                row = row._replace(note="what it held then was forgotten")
            else:
                if isinstance(found, FileStat):
                    row = row._replace(length=found.length, saved=int(found.closed))
        rows.append(row)
    return Part(rows, start, total)


def deleted_rows(store: LookedAt, folder: bytes, directory: int, start: int) -> Part:
    """Returns a part of the deleted names of a folder."""
    found, total = store.deleted_page(directory, start, MOST_ROWS)
    return Part([_deleted_row(folder, it) for it in found], start, total)


def _deleted_row(folder: bytes, it: Deleted) -> Row:
    ended = it.ended
    path = joined(folder, it.spelled) if ended is None else ended.path
    moment = None if ended is None else ended.moment
    return Row(shown(it.name), text(path), it.is_directory, True, ended=moment, at=None if not moment else moment - 1)


def crumbs(path: bytes) -> list[tuple[str, str]]:
    """Returns the folders above a path and itself, each with its name and its address."""
    names = [it for it in path.split(b"/") if it]
    found = [("all", "/")]
    for count in range(1, len(names) + 1):
        found.append((shown(name_of(names[count - 1])), text(b"/" + b"/".join(names[:count]))))
    return found
