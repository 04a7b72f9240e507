"""Where files and directories were, are, and can be restored: what `undo` needs to find a path again."""

from __future__ import annotations

from collections.abc import Iterator
from contextlib import suppress
from typing import Optional, Union

from .. import DeletedName, FileStat, Forgotten, Refused, Version
from ..keeping import AT
from .names import name_in, shown
from .records import file_key
from .store import MountStore
from .tree import Directory, File, Tree


class Nothing(Exception):
    """There is nothing that an undo can bring back. The text says why."""


def told(path: bytes) -> str:
    """Returns a path of the store as a user reads it."""
    return "/".join(shown(name_in(it)) for it in path.split(b"/")[1:]) or "/"


class Whereabouts:
    """Finds paths at moments, and names that can be restored."""

    def __init__(self, store: MountStore, tree: Tree) -> None:
        self.store, self.tree = store, tree

    def is_link(self, number: int) -> bool:
        """Whether a file of the store is a symbolic link."""
        found = self.store.records.of(file_key(number))
        return found is not None and found.is_link

    def live_folders(self) -> dict[int, Directory]:
        """Returns the directories that have a name, by number."""
        return {it.number: it for it in (self.tree.root, *self.tree.directories())}

    def parents(self) -> dict[int, int]:
        """Returns the parent of each directory that has a name, by number."""
        return {it.number: it.parent.number for it in self.tree.directories() if it.parent is not None}

    def path_at(self, number: int, moment: int) -> Optional[bytes]:
        """Returns the path that a directory had at a moment, or None."""
        live, names = self.live_folders(), []
        while number:
            place = self.store.chronicle.place_at(number, moment)
            if place is not None:
                number, name = place.parent, place.name
            else:
                found = live.get(number)
                if found is None or found.parent is None:
                    return None
                number, name = found.parent.number, found.path.rpartition(b"/")[2]
            names.append(b"/" + name)
        return b"".join(reversed(names))

    def files_below(self, folder: Directory) -> Iterator[tuple[bytes, Union[File, Directory]]]:
        """Yields the paths of all that is below a directory, each directory before what it has."""
        for name, node in folder.children.items():
            path = folder.path_of(name)
            yield path, node
            if isinstance(node, Directory):
                yield from self.files_below(node)

    # Files by their numbers.

    def asked(self, number: int) -> Optional[tuple[bytes, Optional[int]]]:
        """Returns by which path, and as of which moment (None: now), the store is asked for a file, or None: a deleted one by its last
        name."""
        node, last = self.tree.files.get(number), self.store.departed.get(number)
        if node is not None:
            return node.path, None
        return None if last is None else (last.path, max(last.ended - 1, last.closed))

    def stat_of(self, number: int) -> Optional[FileStat]:
        """Returns what the store says of a file, or None if no path leads to it: another file may have had its name for the rest of a
        second."""
        place = self.asked(number)
        with suppress(Refused):
            found = None if place is None else self.store.stat(place[0], at=place[1])
            if isinstance(found, FileStat) and found.file == number:
                return found
        return None

    def versions_of(self, number: int) -> list[Version]:
        """Returns the held versions of a file, also of a deleted one."""
        place = self.asked(number)
        return [] if place is None or self.stat_of(number) is None else self.store.versions(place[0], at=place[1])

    # Deleted names.

    def deleted(self, path: bytes) -> list[tuple[bytes, DeletedName]]:
        """Returns a deleted path and before it the deleted folders above it, each with its row. Raises Nothing if it can't be restored."""
        rows = {(it.parent, it.spelled): it for it in self.store.restorable()}
        chain: list[tuple[bytes, DeletedName]] = []
        number, place = 0, b""
        for spelling in path.split(b"/")[1:]:
            node = self.tree.find(place + b"/" + spelling) if not chain else None
            row = rows.get((number, spelling)) if node is None else None
            place += b"/" + spelling
            if isinstance(node, File) or (row is not None and not row.is_directory and place != path):
                raise Nothing(f"{told(place)} is a file, and no folder")
            if node is None and row is None:
                raise Nothing(self._why_not(number, spelling, place))
            number = node.number if node is not None else row.number  # type: ignore[union-attr]
            if row is not None:
                chain.append((place, row))
        return chain

    def _why_not(self, parent: int, spelling: bytes, path: bytes) -> str:
        """Returns why a name can't be restored."""
        end = self.store.chronicle.last_end(parent, spelling)
        if not end:
            return f"there never was a name {told(path)}"
        folder = self.path_at(parent, end - 1)
        try:
            row = self.store.stat_row((folder or b"") + b"/" + spelling, AT, end - 1)
        except Forgotten:
            return f"what {told(path)} held was removed by its policy"
        except Refused:
            return f"what {told(path)} held can't be restored"
        found = self.live_folders().get(row.id) if row.is_directory else None
        if found is not None:
            return f"{told(path)} was renamed, and is {told(found.path)} now: rename it back by 'mv', and nothing of its past is lost"
        return f"the last version of {told(path)} was removed by its policy"
