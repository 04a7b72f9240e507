"""The lives of all names of a store: where a directory was at a moment, and which names ended."""

from __future__ import annotations

from typing import Optional

from ._events import Front, NameRow
from ._names import MOST_NAMES


class Lives:
    """The names of the front of a checkpoint, by what they mean."""

    def __init__(self, front: Front) -> None:
        self.files: dict[int, list[NameRow]] = {}
        """By the number of a file, its names in the order in which they were made."""
        self.directories: dict[int, list[NameRow]] = {}
        """By the number of a directory, its names in that order."""
        self.ended: list[NameRow] = []
        """The names that ended, in the order in which they did."""
        for row in front.names:
            (self.directories if row.is_directory else self.files).setdefault(row.number, []).append(row)
            if row.death is not None:
                self.ended.append(row)
        self.ended.sort(key=lambda it: it.death or 0)

    def rows_of(self, row: NameRow) -> list[NameRow]:
        """Returns all names of what a name means."""
        return (self.directories if row.is_directory else self.files)[row.number]

    def path_at(self, directory: int, moment: int) -> Optional[bytes]:
        """Returns the path of a directory at a moment, without a last slash. A directory that had none then gets its last one."""
        names: list[bytes] = []
        while directory:
            rows = self.directories.get(directory)
            if rows is None or len(names) > MOST_NAMES:
                return None
            row = next((it for it in rows if it.birth <= moment and (it.death is None or moment < it.death)), rows[-1])
            names.append(b"/" + row.name)
            directory = row.parent
        return b"".join(reversed(names))

    def path_of(self, row: NameRow) -> Optional[bytes]:
        """Returns the path of a name: that of now, or, of one that has ended, the last one."""
        above = self.path_at(row.parent, max(row.death - 1, row.birth)) if row.death is not None else self.path_now(row.parent)
        return None if above is None else above + b"/" + row.name

    def path_now(self, directory: int) -> Optional[bytes]:
        """Returns the path of a directory now, without a last slash, or None if it has none."""
        names: list[bytes] = []
        while directory:
            row = next((it for it in self.directories.get(directory, ()) if it.death is None), None)
            if row is None:
                return None
            names.append(b"/" + row.name)
            directory = row.parent
        return b"".join(reversed(names))
