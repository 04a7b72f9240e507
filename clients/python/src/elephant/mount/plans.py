"""What has to be done so that a file or a folder is again as it was at a moment: names first, then contents, links and modes.

A plan is made without changing anything. It moves a file back that has another name in the same folder now, restores one that was deleted,
and makes one again whose own file can't get the name. What is newer stays: contents as versions, and names as they are.
"""

from __future__ import annotations

from collections.abc import Iterator
from typing import NamedTuple, Optional

from .. import Forgotten, Refused
from ..keeping import told_time
from .then import Then
from .tree import Directory, File
from .whereabouts import Nothing, Whereabouts, told

IS_FOLDER, IS_FILE = "a folder has that name now", "a file has that name now"
REMOVED = "what it held then was removed by its policy"
IS_WRITTEN = "a program has it open to write it"


class Wanted(NamedTuple):
    """A file as it was at a moment: its path now and then, its number, and its version."""

    path: bytes
    then: bytes
    number: int
    version: int


class Step(NamedTuple):
    """A command of a plan: `undelete`, `mkdir`, `create`, `unlink` of a path, or `rename` and `link` of a path to another.

    `of` is the number of the file or directory whose attributes a new one gets.
    """

    word: str
    path: bytes
    other: bytes = b""
    of: int = 0


def parent_of(path: bytes) -> bytes:
    return path.rpartition(b"/")[0]


class Now:
    """The names below a folder, as they will be after the steps of a plan."""

    def __init__(self) -> None:
        self.files: dict[bytes, int] = {}
        self.folders: dict[bytes, int] = {b"": 0}
        self.paths: dict[int, list[bytes]] = {}
        """The paths of each file."""

    def add(self, path: bytes, number: int) -> None:
        self.files[path] = number
        self.paths.setdefault(number, []).append(path)

    def remove(self, path: bytes) -> int:
        number = self.files.pop(path)
        self.paths[number].remove(path)
        return number

    def move_folder(self, old: bytes, new: bytes) -> None:
        """Renames a folder with all below it."""

        def moved(path: bytes) -> bytes:
            return new + path[len(old):] if path == old or path.startswith(old + b"/") else path

        self.folders = {moved(path): number for path, number in self.folders.items()}
        self.files = {moved(path): number for path, number in self.files.items()}
        self.paths = {number: [moved(it) for it in paths] for number, paths in self.paths.items()}

    def has(self, path: bytes) -> bool:
        return path in self.files or path in self.folders


class Plan:
    """The steps that bring back what a path was at a moment. An older journal may have the moment."""

    def __init__(self, where: Whereabouts, path: bytes, moment: int, then: Then) -> None:
        self.where, self.store, self.tree, self.path, self.moment, self.then = where, where.store, where.tree, path, moment, then
        self.wanted: dict[bytes, Wanted] = {}
        self.folders: dict[bytes, int] = {}
        self.steps: list[Step] = []
        self.left: dict[bytes, str] = {}
        """Why a path can't be brought back."""
        self.now = Now()
        self._restorable = {(it.parent, it.spelled): it for it in self.store.restorable()}
        self._restorable_as = {it.number: it for it in self._restorable.values() if not it.is_directory}
        self._live = where.live_folders()
        node = self.tree.find(path)
        self._add_above(self._find_then(node))
        self._add_present(path, node)
        self._bring_folders()
        self._move_aside()
        for it in self.wanted.values():
            self._bring_name(it)

    @property
    def is_folder(self) -> bool:
        return self.path in self.folders or not self.path

    @property
    def newer(self) -> list[bytes]:
        """The names that weren't there at the moment, and stay."""
        names = (*self.now.files, *self.now.folders)
        return [it for it in names if it not in self.wanted and it not in self.folders and it.startswith(self.path + b"/")]

    # What is wanted.

    def _find_then(self, node: Optional[object]) -> bytes:
        """Notes what the path was at the moment. Returns the path that it had then."""
        places = [self.path]
        if isinstance(node, Directory) and self.path and self.then.is_own:
            places.append(self.where.path_at(node.number, self.moment) or self.path)
        for place in places:
            try:
                self._want(self.path, place)
                return place
            except Refused:
                continue
        raise Nothing(f"there was no {told(self.path)} at {told_time(self.moment)}")

    def _want(self, path: bytes, then: bytes) -> None:
        """Notes what a path was, with all below it."""
        try:
            row = self.then.row(then)
        except Forgotten:
            self.left[path] = REMOVED
            return
        number = self.then.number_of(row.id)
        if row.is_directory:
            self.folders[path] = number
            self._want_below(path, then)
        else:
            self.wanted[path] = Wanted(path, then, number, row.version)

    def _want_below(self, path: bytes, then: bytes) -> None:
        for spelling in self.then.names(then):
            self._want(path + b"/" + spelling, then + b"/" + spelling)

    def _add_above(self, then: bytes) -> None:
        """Notes the folders above the path, which may have been deleted with it."""
        path, above = self.path, then
        while parent_of(path):
            path, above = parent_of(path), parent_of(above)
            self.folders[path] = self.then.number_of(self.then.row(above).id) if above else -1

    def _add_present(self, path: bytes, node: Optional[object]) -> None:
        """Notes what is there."""
        while path:
            path = parent_of(path)
            above = self.tree.find(path)
            if isinstance(above, Directory):
                self.now.folders[path] = above.number
            elif isinstance(above, File):
                raise Nothing(f"{told(path)} is a file now: rename it, and undo again")
        if isinstance(node, File):
            self.now.add(self.path, node.number)
        elif isinstance(node, Directory):
            self.now.folders[self.path] = node.number
            for place, below in self.where.files_below(node):
                if isinstance(below, File):
                    self.now.add(place, below.number)
                else:
                    self.now.folders[place] = below.number
        if isinstance(node, File) and self.path in self.folders:
            raise Nothing(f"{told(self.path)} is a file now: rename it, and undo again")

    # Folders.

    def _bring_folders(self) -> None:
        had = {it.number for it in self.wanted.values()}
        for path in sorted(self.folders, key=lambda it: it.count(b"/")):
            if self.now.files.get(path) in had:  # it had another name
                self._rename(path, self._free_name(parent_of(path)))
            if self._is_blocked(path):
                self.left[path] = IS_FILE
            elif path not in self.now.folders:
                self._bring_folder(path, self.folders[path])

    def _is_blocked(self, path: bytes) -> bool:
        """Whether a file has the name of a folder, or of one above it."""
        return path in self.now.files or parent_of(path) in self.left

    def _bring_folder(self, path: bytes, number: int) -> None:
        old = next((it for it, found in self.now.folders.items() if found == number), None)
        row = self._restorable.get((self.now.folders[parent_of(path)], path.rpartition(b"/")[2]))
        elsewhere = self._live.get(number)
        if old is not None and self.folders.get(old) != number and not path.startswith(old + b"/"):
            self.steps.append(Step("rename", old, path))
            self.now.move_folder(old, path)
        elif elsewhere is not None and path == self.path and old is None:
            raise Nothing(f"{told(path)} was renamed, and is {told(elsewhere.path)} now: rename it back by 'mv', and undo again")
        elif row is not None and row.is_directory and (row.number == number or not self.then.is_own):
            self.steps.append(Step("undelete", path))
            self.now.folders[path] = number
        else:
            self.steps.append(Step("mkdir", path, of=number))
            self.now.folders[path] = -1

    # Names of files.

    def _move_aside(self) -> None:
        """Renames each file that has the name of another one, and had a name here itself: two names may have been exchanged."""
        had: dict[int, set[bytes]] = {}
        for it in self.wanted.values():
            had.setdefault(it.number, set()).add(it.path)
        for it in self.wanted.values():
            here = self.now.files.get(it.path)
            if here is not None and here != it.number and here in had and it.path not in had[here]:
                self._rename(it.path, self._free_name(parent_of(it.path)))

    def _free_name(self, folder: bytes) -> bytes:
        names = (folder + b"/.undo%d" % number for number in range(len(self.now.files) + 1))
        return next(it for it in names if not self.now.has(it))

    def _rename(self, path: bytes, other: bytes) -> None:
        self.steps.append(Step("rename", path, other))
        self.now.add(other, self.now.remove(path))

    def _bring_name(self, it: Wanted) -> None:
        """Gives a file its name again, if it is free, and notes why that can't be."""
        here = self.now.files.get(it.path)
        if self._is_hindered(it, here) or (here is not None and self._is_same_link(it, here)):
            return
        if here is not None and here != it.number and (self.where.is_link(here) or self._has_others(it, here)):
            self.steps.append(Step("unlink", it.path))
            self.now.remove(it.path)
            here = None
        if here is None:
            self._bring_file(it)

    def _has_others(self, it: Wanted, number: int) -> bool:
        """Whether a file has another name, which keeps what it holds. In an older journal both may have been names of one file too."""
        node = self.tree.files.get(number)
        others = {*self.now.paths.get(number, []), *(folder.path_of(name) for folder, name in (node.names if node else ()))} - {it.path}
        return any(self.then.is_own or self.then.file_at(other) != it.number for other in others)

    def _is_same_link(self, it: Wanted, here: int) -> bool:
        """Whether a symbolic link of an older journal is one with the same target now."""
        are_links = not self.then.is_own and self.then.is_link(it.number) and self.where.is_link(here)
        return are_links and self.store.content(it.path) == self.then.content(it.then)

    def _is_hindered(self, it: Wanted, here: Optional[int]) -> bool:
        if it.path in self.now.folders:
            self.left[it.path] = IS_FOLDER
        elif parent_of(it.path) in self.left:
            self.left[it.path] = self.left[parent_of(it.path)]
        elif here not in (None, it.number) and self.then.is_link(it.number) and not self.where.is_link(here):  # type: ignore[arg-type]
            self.left[it.path] = "it was a symbolic link, and is a file now"
        return it.path in self.left

    def _bring_file(self, it: Wanted) -> None:
        """Gives a free name to the file that had it, or to a new file."""
        places = [place for place in self.now.paths.get(it.number, []) if place.startswith(self.path + b"/")]
        unwanted = [place for place in places if place not in self.wanted or self.wanted[place].number != it.number]
        if unwanted:
            return self._rename(unwanted[0], it.path)
        if places:
            self.steps.append(Step("link", places[0], it.path))
        elif it.number not in self.tree.files and self._undelete(it):
            return
        else:
            self.steps.append(Step("create", it.path, of=it.number))
            self.now.add(it.path, -1)
            return
        self.now.add(it.path, it.number)

    def _undelete(self, it: Wanted) -> bool:
        """Restores a deleted file, by this name or by the last one that it had."""
        row = self._restorable.get((self.now.folders[parent_of(it.path)], it.path.rpartition(b"/")[2]))
        if row is not None and not row.is_directory and (row.number == it.number or self._may_stand_for(row.number, it)):
            self.steps.append(Step("undelete", it.path))
            self.now.add(it.path, it.number)
            return True
        row = self._restorable_as.get(it.number)
        folder = self._path_of(row.parent) if row is not None else None
        if row is None or folder is None:
            return False
        last = folder + b"/" + row.spelled
        if self.now.has(last):
            return False
        self.steps += (Step("undelete", last), Step("rename", last, it.path))
        self.now.add(it.path, it.number)
        return True

    def _may_stand_for(self, number: int, it: Wanted) -> bool:
        """Whether a deleted file can get the content of a file of an older journal, which had its name."""
        is_free = number not in self.tree.files and not self.where.is_link(number)
        return is_free and not self.then.is_own and not self.then.is_link(it.number)

    def _path_of(self, folder: int) -> Optional[bytes]:
        """Returns the path that a folder has after the steps, or None."""
        below = next((it for it, number in self.now.folders.items() if number == folder), None)
        found = self._live.get(folder)
        if below is not None or found is None or found.path.startswith(self.path + b"/"):
            return below
        return found.path

    def contents(self) -> Iterator[Wanted]:
        """Yields the files whose contents have to be compared. A link has its target for good, unless it is made again."""
        for it in self.wanted.values():
            if it.path not in self.left and (not self.then.is_link(it.number) or self.now.files.get(it.path) == -1):
                yield it
