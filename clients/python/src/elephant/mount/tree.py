"""The names of a mount now: the nodes that the kernel knows by inode numbers, and the store by the numbers of files.

The tree follows the store: a command runs in the store first, and then here.
"""

from __future__ import annotations

import errno
import os
import stat
from collections.abc import Iterator
from typing import Any, Optional, Union

from .. import NoEntry
from ..keeping import MOST_NAMES, Numbers
from .drafts import Base
from .names import TooLong, is_spelling_of, name_in, names_of, shown, spelled
from .records import DIRECTORY_MODE, FILE_MODE, Attributes, directory_key, file_key, saved
from .store import MountStore

ROOT = 1
# Inode numbers that no file and no directory has by its own number.
FIRST_SPARE = 1 << 40
# The number of what the store has no more, though the kernel knows it.
GONE = -1


class Node:
    """A node, known by its inode number. `entry` is the last answer to the kernel about it, if that still holds."""

    __slots__ = ("ino", "number", "attributes", "lookups", "entry")

    def __init__(self, ino: int, number: int, attributes: Attributes) -> None:
        self.ino, self.number, self.attributes = ino, number, attributes
        self.lookups = 0
        self.entry: Any = None


class File(Node):
    """A file or a symbolic link.

    While a part of it is written and in no version, `draft` is the content. `handle` is then the store's handle, if the store has some of
    the draft.
    """

    __slots__ = ("names", "size", "version", "draft", "is_unsaved", "handle", "base", "opens", "writers", "pending", "info", "born")

    def __init__(self, ino: int, number: int, attributes: Attributes, size: int = 0, version: int = 1) -> None:
        super().__init__(ino, number, attributes)
        self.names: dict[tuple[Directory, bytes], None] = {}
        self.size, self.version = size, version
        self.draft: Optional[bytearray] = None
        self.is_unsaved = False
        self.handle: Optional[int] = None
        self.base: Optional[Base] = None
        """What the file held when the draft was begun, until the store has some of the draft."""
        self.opens = self.writers = self.pending = 0
        self.born = 0.0
        """When this mount made it, by the monotonic clock, if it did."""
        self.info: Any = None
        """The kernel's answer to an open for reading."""

    @property
    def path(self) -> bytes:
        """One of its paths as the store spells it."""
        for directory, name in self.names:
            return directory.path_of(name)
        raise OSError(errno.ESTALE, "the file has no name any more")

    @property
    def is_saved(self) -> bool:
        """Whether the store has all of the draft: a program has closed or synced the file since it was changed."""
        return self.handle is not None and not self.is_unsaved

    @property
    def is_regular(self) -> bool:
        return stat.S_ISREG(self.attributes.mode)


class Directory(Node):
    """A directory with its names."""

    __slots__ = ("parent", "name", "path", "depth", "children", "subdirectories", "odd", "left", "ended")

    def __init__(self, ino: int, number: int, attributes: Attributes) -> None:
        super().__init__(ino, number, attributes)
        self.parent: Optional[Directory] = None
        self.name, self.path, self.depth = b"", b"", 0
        self.children: dict[bytes, Union[File, Directory]] = {}
        self.subdirectories = 0
        self.odd: dict[bytes, bytes] = {}
        """Names with another spelling than the mount's: a line or another program made them."""
        self.left: dict[bytes, tuple[Union[File, int], float]] = {}
        """Names that ended just now, each with the time, and the file if it has another name, or else its number."""
        self.ended = False

    def path_of(self, name: bytes) -> bytes:
        """Returns the path of a name in it as the store spells it."""
        return self.path + b"/" + (self.odd.get(name) or spelled(name))

    def name_of(self, spelling: bytes) -> bytes:
        """Returns the name that the folder shows for a spelling."""
        for name, odd in self.odd.items():
            if odd == spelling:
                return name
        return name_in(spelling)

    def child_of(self, spelling: bytes) -> Optional[Union[File, Directory]]:
        """Returns the node of a name as the store spells it, or None."""
        name = self.name_of(spelling)
        return self.children.get(name) if self.odd.get(name, spelling) == spelling else None

    def path_of_new(self, name: bytes) -> bytes:
        """Returns the path of a new name. Raises TooLong."""
        if self.depth >= MOST_NAMES:
            raise TooLong(f"the path of {shown(name)} has more than {MOST_NAMES} names")
        if self.ended:
            raise FileNotFoundError(errno.ENOENT, "the directory was removed")
        return self.path_of(name)


class Tree:
    """All files and directories that have a name or that the kernel still knows."""

    def __init__(self, store: MountStore) -> None:
        self.store, self.records = store, store.records
        self.by_ino: dict[int, Node] = {}
        self.files: dict[int, File] = {}
        """The files with a name, by the number of the store's file."""
        self._unnamed: dict[int, File] = {}
        """The files that a refresh has found without a name, by number: another name may follow."""
        self._spare = FIRST_SPARE
        self.root = self.new_directory(0)
        for _ in self.refresh():
            pass

    def find(self, path: bytes) -> Optional[Union[File, Directory]]:
        """Returns the node of a path as the store spells it, or None."""
        node: Optional[Union[File, Directory]] = self.root
        for spelling in path.split(b"/")[1:]:
            node = node.child_of(spelling) if isinstance(node, Directory) and spelling else None
        return node

    # Making.

    def _ino_of(self, key: int) -> int:
        """Returns the inode number of a new node: its own number, unless another node has it."""
        if key not in self.by_ino:
            return key
        self._spare += 1
        return self._spare

    def attributes_of(self, key: int, mode: int, now: int) -> Attributes:
        """Returns the attributes of a file or directory, and makes them if it has none."""
        found = self.records.of(key)
        if found is None:
            found = self.records.by_key[key] = Attributes(mode, os.getuid(), os.getgid(), now, now, now)
        return found

    def new_file(self, number: int, size: int = 0, version: int = 1, closed: int = 0) -> File:
        key = file_key(number)
        node = File(self._ino_of(key), number, self.attributes_of(key, FILE_MODE, closed * 10**9), size, version)
        self.by_ino[node.ino] = self.files[number] = node
        return node

    def new_directory(self, number: int) -> Directory:
        key = directory_key(number)
        node = Directory(self._ino_of(key), number, self.attributes_of(key, DIRECTORY_MODE, self.store.now * 10**9))
        self.by_ino[node.ino] = node
        return node

    # Names.

    def add(self, parent: Directory, name: bytes, node: Union[File, Directory], spelling: Optional[bytes] = None) -> None:
        """Gives a node a name, also a node that was dropped when it lost another."""
        self.by_ino[node.ino] = node
        parent.left.pop(name, None)
        parent.children[name] = node
        parent.entry = node.entry = None
        if spelling is not None and not is_spelling_of(spelling, name):
            parent.odd[name] = spelling
        if isinstance(node, File):
            node.names[parent, name] = None
            self.files[node.number] = node
            return
        parent.subdirectories += 1
        node.parent, node.name = parent, name
        self._set_path(node)

    def _set_path(self, node: Directory) -> None:
        parent = node.parent
        assert parent is not None
        node.path, node.depth = parent.path_of(node.name), parent.depth + 1
        for child in node.children.values():
            if isinstance(child, Directory):
                self._set_path(child)

    def remove(self, parent: Directory, name: bytes) -> Union[File, Directory]:
        """Removes a name. A node without names is dropped once the kernel has forgotten it."""
        node = parent.children.pop(name)
        parent.odd.pop(name, None)
        parent.entry = node.entry = None
        if isinstance(node, Directory):
            parent.subdirectories -= 1
            node.parent, node.ended = None, True
            self.let_go(node)
            return node
        del node.names[parent, name]
        if not node.names:
            if self.files.get(node.number) is node:
                del self.files[node.number]
            self.let_go(node)
        return node

    def move(self, parent: Directory, name: bytes, new_parent: Directory, new_name: bytes) -> None:
        """Moves a node to a free name."""
        node = parent.children[name]
        if isinstance(node, File):
            self.add(new_parent, new_name, node)
            self.remove(parent, name)
            return
        del parent.children[name]
        parent.odd.pop(name, None)
        parent.subdirectories -= 1
        parent.entry = None
        self.add(new_parent, new_name, node)

    def exchange(self, parent: Directory, name: bytes, new_parent: Directory, new_name: bytes) -> None:
        """Exchanges the nodes of two names."""
        places = (parent, name), (new_parent, new_name)
        nodes = parent.children[name], new_parent.children[new_name]
        for (folder, word), (new_folder, new_word), node in zip(places, reversed(places), nodes):
            new_folder.children[new_word] = node
            folder.entry = node.entry = None
            if isinstance(node, File):
                del node.names[folder, word]
                node.names[new_folder, new_word] = None
                continue
            folder.subdirectories -= 1
            new_folder.subdirectories += 1
            node.parent, node.name = new_folder, new_word
            self._set_path(node)

    def let_go(self, node: Node) -> None:
        """Drops a node that has no name, that isn't open, and that the kernel doesn't know."""
        has_name = bool(node.names) or node.opens > 0 if isinstance(node, File) else not getattr(node, "ended", False)
        if not has_name and not node.lookups:
            self.by_ino.pop(node.ino, None)

    def give_number(self, node: File, number: int) -> None:
        """Gives a node another of the store's files. That file gets the node's attributes."""
        if self.files.get(node.number) is node:
            del self.files[node.number]
        old = file_key(node.number)
        if self.records.of(old) is node.attributes:
            self.records.by_key[old] = node.attributes.copy()  # that file may be restored
        node.number = number
        self.files[number] = node
        self.records.by_key[file_key(number)] = node.attributes

    def height(self, node: Union[File, Directory]) -> int:
        """Returns the number of names in the longest path below a node, with the node's own."""
        below = node.children.values() if isinstance(node, Directory) else ()
        return 1 + max((self.height(it) for it in below), default=0)

    def renumber(self, numbers: Numbers) -> None:
        """Gives the nodes fresh numbers. They keep those by which the kernel knows them."""
        self.files = {}
        for node in self.by_ino.values():
            if isinstance(node, Directory):
                node.number = numbers.directories.get(node.number, GONE)
                node.left.clear()
            elif isinstance(node, File):
                node.number, node.base = numbers.files.get(node.number, GONE), None
                if node.names:
                    self.files[node.number] = node
                    node.version = self.store.stat_row(node.path).version

    # After commands that weren't the kernel's.

    def refresh(self) -> Iterator[tuple[Node, Optional[bytes]]]:
        """Brings the tree up to date with the store. Yields each difference: a directory and a name in it, or a file with another
        content."""
        known = {0: self.root}
        for directory in self.directories():
            known[directory.number] = directory
        self._unnamed = {}
        yield from self._refresh(self.root, known)
        self._unnamed = {}

    def directories(self, above: Optional[Directory] = None) -> Iterator[Directory]:
        """Yields all directories but the root, each after its parent."""
        for child in (above or self.root).children.values():
            if isinstance(child, Directory):
                yield child
                yield from self.directories(child)

    def refresh_file(self, directory: Directory, name: bytes) -> Iterator[tuple[Node, Optional[bytes]]]:
        """Does the same for one name of a directory, if nothing else can differ. Its time doesn't grow with the tree."""
        try:
            row = self.store.stat_row(directory.path_of(name))
            rows = {name: (directory.path_of(name).rpartition(b"/")[2], bool(row.is_directory), int(row.id))}
        except NoEntry:
            rows = {}
        yield from self._refresh_names(directory, [name] if name in directory.children else [], rows, {})

    def _refresh(self, directory: Directory, known: dict[int, Directory]) -> Iterator[tuple[Node, Optional[bytes]]]:
        rows = {it[0]: it for it in self.store.names_in(directory.path or b"/")}
        names = names_of(rows, directory is self.root)
        yield from self._refresh_names(directory, list(directory.children), {name: rows[it] for name, it in names.items()}, known)

    def _refresh_names(
        self, directory: Directory, names: list[bytes], rows: dict[bytes, tuple[bytes, bool, int]], known: dict[int, Directory]
    ) -> Iterator[tuple[Node, Optional[bytes]]]:
        """Updates names of a directory to those of the store's rows."""
        for name in names:
            node, row = directory.children[name], rows.get(name)
            spelling = directory.path_of(name).rpartition(b"/")[2]
            if row is None or (spelling, isinstance(node, Directory), node.number) != row:
                self.remove(directory, name)
                if isinstance(node, File) and not node.names:
                    self._unnamed[node.number] = node
                yield directory, name
        for name, (spelling, is_directory, number) in rows.items():
            if name not in directory.children:
                node = known.get(number) or self.new_directory(number) if is_directory else self._file(directory, spelling, number)
                if isinstance(node, Directory):
                    node.ended = False
                    if node.parent is not None and node.parent.children.get(node.name) is node:
                        self.remove(node.parent, node.name)
                        node.ended = False
                self.add(directory, name, node, spelling)
                yield directory, name
            child = directory.children[name]
            if isinstance(child, Directory):
                yield from self._refresh(child, known)
            elif self._is_changed(child, directory.path_of(name)):
                yield child, None

    def _file(self, directory: Directory, spelling: bytes, number: int) -> File:
        found = self.files.get(number) or self._unnamed.get(number)
        if found is not None:
            return found
        row = self.store.stat_row(directory.path + b"/" + spelling)
        return self.new_file(number, row.length, row.version, row.closed)

    def _is_changed(self, node: File, path: bytes) -> bool:
        """Whether a file has another content. Its other names may have ended."""
        if node.draft is not None:
            return False
        row = self.store.stat_row(path)
        if row.version == node.version:
            return False
        node.size, node.version, node.entry = row.length, row.version, None
        node.attributes.mtime = node.attributes.ctime = now = row.closed * 10**9
        if not self.store.stopped:
            self.store.keep(saved(file_key(node.number), now))
        return True
