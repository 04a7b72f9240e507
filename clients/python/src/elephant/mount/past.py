"""The folder `.elephant`: the tree at a moment, the held versions of each file, and the restorable names.

    .elephant/at/2026-11-27T08:00:00Z/PATH    what PATH held at that moment; the folder lists the moments of changes
    .elephant/versions/PATH/2                 version 2 of the file PATH
    .elephant/restorable/PATH                 what a deleted file held last
    .elephant/restorable-until                until when each deleted file can be brought back, as text
    .elephant/soon                            what is removed within a week, as text
    .elephant/limits                          how much of each limit is used and left, as text
    .elephant/socket                          a link to the socket that takes lines

All of it is read only. The listing of its parent doesn't show it, so copies and searches skip it.
"""

from __future__ import annotations

import errno
import stat
import time
from collections.abc import Callable, Iterator
from datetime import datetime, timezone
from typing import Any, NamedTuple, Optional

from .. import BadTime, ElephantError, Forgotten, NoEntry, read_time
from ..keeping import AT, NOW, VERSION, told_time
from .names import TooLong, name_in, names_of, spelled
from .records import DIRECTORY_MODE, FILE_MODE, Attributes, directory_key, file_key
from .store import MountStore
from .tree import Directory, Tree

FIRST_INO = 1 << 48
PARTS = (b"at", b"limits", b"restorable", b"restorable-until", b"socket", b"soon", b"versions")
_WORDS: dict[bytes, tuple[object, ...]] = {b"versions": (b"",), b"restorable": (0,)}
# The kinds of files: by a moment, by the number of a version, and deleted ones.
FILES = ("then", "version", "deleted")
Key = tuple[object, ...]
# The key of a node whose numbers are no more those of the store.
STALE: Key = ("stale",)


class NotBegun(FileNotFoundError):
    """A moment is before the first change of the folder."""


class PastNode:
    """The node of an inode number below `.elephant`: a kind and its words.

    The last two words of a file are the numbers of the file and of the version. The kernel caches what it has read from an inode, so an
    inode always has one content, though a path may get another. `shown` is the last answer about an open node.
    """

    __slots__ = ("ino", "key", "lookups", "opens", "shown", "row", "asked")

    def __init__(self, ino: int, key: Key) -> None:
        self.ino, self.key, self.lookups, self.opens = ino, key, 0, 0
        self.shown: Optional[Shown] = None
        self.row: Optional[Row] = None
        self.asked = 0
        """The count of the store's changes when it was asked for the row."""


class Shown(NamedTuple):
    """The attributes of a node."""

    mode: int
    size: int
    moment: int
    owner: int
    group: int


class Row(NamedTuple):
    """The store's row of a file or a directory of the past, and how a read finds it. It holds until the store is changed."""

    path: bytes
    tag: int
    number: int
    file: int
    version: int
    length: int
    closed: int
    is_directory: bool


def moment_of(name: bytes, now: Optional[int] = None) -> int:
    """Returns the moment that a name of the folder `at` spells: a time as people type it."""
    try:
        return read_time(name.decode("utf-8", "replace"), int(time.time()) if now is None else now).moment
    except BadTime as fault:
        raise FileNotFoundError(errno.ENOENT, str(fault)) from None


def is_lasting(name: bytes) -> bool:
    """Whether a name of the folder `at` means one moment, whenever it is asked for."""
    return name.lstrip(b"@").isdigit() or name[:5].endswith(b"-")


def name_of_moment(moment: int) -> bytes:
    """Returns the name by which the folder `at` lists a moment: its local time, with the zone."""
    return datetime.fromtimestamp(moment, timezone.utc).astimezone().isoformat().encode()


def text_of(moment: int) -> str:
    return datetime.fromtimestamp(moment, timezone.utc).strftime("%Y-%m-%dT%H:%M:%SZ")


class Past:
    """Answers what is below `.elephant`."""

    def __init__(self, store: MountStore, tree: Tree, socket: bytes) -> None:
        self.store, self.tree, self.socket = store, tree, socket
        self.by_ino: dict[int, PastNode] = {}
        self._by_key: dict[Key, PastNode] = {}
        self._next = FIRST_INO
        self._deleted: dict[int, dict[bytes, Key]] = {}
        self._deleted_paths: dict[int, bytes] = {}
        self._deleted_seen = -1
        self.texts: dict[str, Callable[[], bytes]] = {"limits": self.limits, "soon": bytes, "restorable-until": bytes}
        """What the files hold that are texts."""
        self.notes: Callable[[], str] = str
        """More lines of the file `limits`."""
        self.root = self.node("root")

    def node(self, *key: object) -> PastNode:
        found = self._by_key.get(key)
        if found is None:
            found = self._by_key[key] = self.by_ino[self._next] = PastNode(self._next, key)
            self._next += 1
        return found

    def forget(self, node: PastNode) -> None:
        """Drops a node that the kernel doesn't know, or doesn't know any more, and that isn't open."""
        if node is not self.root and not node.lookups and not node.opens and self.by_ino.get(node.ino) is node:
            del self.by_ino[node.ino]
            self._by_key.pop(node.key, None)

    def renumber(self) -> None:
        """Makes all nodes anew whose words have numbers, since the store has fresh ones. Those that the kernel knows answer that they are
        stale, and it looks the names up again."""
        for key, node in list(self._by_key.items()):
            if key[0] in FILES or (key[0] == "restorable" and key[1:] != (0,)):
                del self._by_key[key]
                node.key, node.row = STALE, None
                if not node.lookups and not node.opens:
                    del self.by_ino[node.ino]
            else:
                node.row = None
        self._deleted_seen = -1

    # Looking up.

    def lookup(self, node: PastNode, name: bytes) -> PastNode:
        """Returns the node of a name in a directory. Raises FileNotFoundError, or Forgotten."""
        found = self.find(node, name)
        try:
            self.show(found)
        except (ElephantError, OSError):
            self.forget(found)
            raise
        return found

    def find(self, node: PastNode, name: bytes) -> PastNode:
        """Does the same, also for a forgotten version, which can't be read."""
        kind, *words = _fresh_key(node)
        if kind == "root" and name in PARTS:
            return self.node(name.decode(), *_WORDS.get(name, ()))
        if kind == "at":
            return self._find_at(words, name)
        if kind == "versions":
            return self._find_versions(words[0], name)
        if kind == "file":
            return self._file("version", words[0], _number(name))
        key = self._deleted_names(words[0]).get(name) if kind == "restorable" else None
        if key is None:
            raise FileNotFoundError(errno.ENOENT, "")
        return self._file(*key) if key[0] == "deleted" else self.node(*key)

    def _find_at(self, words: list[object], name: bytes) -> PastNode:
        if not words:
            moment = moment_of(name, int(self.store.now))
            if moment > self.store.now:
                raise FileNotFoundError(errno.ENOENT, "the moment is to come")
            if moment < self.begin:
                raise NotBegun(errno.ENOENT, f"there was nothing at {told_time(moment)}: this folder begins at {told_time(self.begin)}")
            return self.node("at", moment, b"")
        at, path = words
        folder = _path(path)
        try:
            return self._file("then", at, folder + b"/" + spelled(name))
        except (NoEntry, TooLong):
            found = self._names_at(at, folder).get(name) if b"%" in name else None  # only then it may have another spelling
            if found is None:
                raise
            return self._file("then", at, folder + b"/" + found)

    def _names_at(self, moment: object, path: bytes) -> dict[bytes, bytes]:
        """Returns the spellings in a folder at a moment, by the names that are shown."""
        return names_of((it for it, _, _ in self.store.names_in(path or b"/", AT, _whole(moment))), not path)

    def _directory(self, path: object) -> Directory:
        directory = self.tree.root
        for spelling in _path(path).split(b"/")[1:]:
            child = directory.child_of(spelling)
            if not isinstance(child, Directory):
                raise FileNotFoundError(errno.ENOENT, "")
            directory = child
        return directory

    def _find_versions(self, path: object, name: bytes) -> PastNode:
        directory = self._directory(path)
        child = directory.children.get(name)
        if child is None:
            raise FileNotFoundError(errno.ENOENT, "")
        return self.node("versions" if isinstance(child, Directory) else "file", directory.path_of(name))

    def _file(self, kind: object, first: object, second: object, wanted: object = None) -> PastNode:
        """Returns the node of the target of a path of the past. If a file's version isn't found, the version in its key is 0."""
        try:
            row = self._ask(kind, first, second)
        except ElephantError as fault:
            if wanted is None and not isinstance(fault, Forgotten):
                raise
            return self.node(kind, first, second, wanted or 0, 0)
        if wanted not in (None, row.file):
            # It was made and deleted within one second, or its directory had another name: no moment finds it, but undelete does.
            return self.node(kind, first, second, wanted, 0)
        is_folder = row.is_directory and kind == "then"
        node = self.node("at", first, second) if is_folder else self.node(kind, first, second, row.file, row.version)
        node.row, node.asked = row, self.store.changes
        return node

    # Attributes and contents.

    def _place(self, kind: object, first: Any, second: Any = None) -> tuple[bytes, int, int]:
        """Returns how a read finds a file or a directory of the past."""
        if kind in ("then", "at"):
            return second, AT, first
        if kind == "version":
            return first, VERSION, second
        if kind == "file":
            return first, NOW, 0
        return self._deleted_path(first) + b"/" + second, AT, max(self.store.chronicle.last_end(first, second) - 1, 0)

    def _ask(self, *key: object) -> Row:
        """Asks the store for a row, by the first words of a key."""
        place = self._place(*key)
        row = self.store.stat_row(*place)
        return Row(*place, row.id, row.version, row.length, row.closed, bool(row.is_directory))

    def _row(self, node: PastNode) -> Row:
        """Returns the store's row of a node. Asks for it only if the store was changed since. Raises Forgotten, or ESTALE if it isn't that
        of the node's version."""
        if node.row is None or node.asked != self.store.changes:
            node.row, asked = None, self.store.changes
            row = self._ask(*node.key[:3])
            if node.key[0] in FILES and node.key[3:] != (row.file, row.version):
                raise OSError(errno.ESTALE, "the name is another file's")
            node.row, node.asked = row, asked
        return node.row

    def source(self, node: PastNode) -> Row:
        """Returns the source of a file's content. Raises IsADirectoryError, or Forgotten."""
        if _fresh_key(node)[0] not in FILES:
            raise IsADirectoryError(errno.EISDIR, "")
        return self._row(node)

    def content(self, node: PastNode) -> bytes:
        """Returns what a file holds."""
        if node.key[0] in self.texts:
            return self.texts[str(node.key[0])]()
        if node.key == ("socket",):
            return self.socket
        return self.store.content(*self.source(node)[:3])

    def show(self, node: PastNode) -> Shown:
        """Returns the attributes of a node. Raises Forgotten for a version that was removed."""
        kind, *words = _fresh_key(node)
        now, root = int(self.store.now), self.tree.root.attributes
        if kind in FILES:
            return self._show_file(node)
        if kind in self.texts or kind == "socket":
            content = self.content(node)
            return Shown((stat.S_IFREG | 0o444) if kind != "socket" else (stat.S_IFLNK | 0o777), len(content), now, root.owner, root.group)
        if kind == "at" and words and words[1]:
            row = self._row(node)
            return _shown(self.tree.records.of(directory_key(row.file)), True, row.length, _whole(words[0]), root)
        if kind == "at" and words:
            return _shown(root, True, 0, _whole(words[0]), root)
        if kind == "file":
            return Shown(DIRECTORY_MODE, 0, self._row(node).closed, root.owner, root.group)
        if kind == "versions":
            return _shown(self._directory(words[0]).attributes, True, 0, now, root)
        if kind == "restorable" and words[0]:
            return _shown(self.tree.records.of(directory_key(_whole(words[0]))), True, 0, now, root)
        return Shown(stat.S_IFDIR | 0o555, 0, now, root.owner, root.group)

    def _show_file(self, node: PastNode) -> Shown:
        root = self.tree.root.attributes
        try:
            row = self._row(node)
        except (ElephantError, OSError):
            if node.opens and node.shown is not None:
                return node.shown
            if node.key[0] != "deleted" or node.key[-1]:
                raise
            return Shown(FILE_MODE, 0, int(self.store.now), root.owner, root.group)
        node.shown = _shown(self.tree.records.of(file_key(row.file)), False, row.length, row.closed, root)
        return node.shown

    def is_over(self, node: PastNode) -> bool:
        """Whether a node is of a tree of an earlier moment: such a tree never changes."""
        return node.key[0] == "at" and len(node.key) > 1 and _whole(node.key[1]) < self.store.now

    def can_lose(self, node: PastNode) -> bool:
        """Whether the version of a file may be removed while it is open."""
        return True

    # Listing.

    def names(self, node: PastNode) -> list[bytes]:
        """Returns the names in a directory, which `find` accepts."""
        kind, *words = _fresh_key(node)
        if kind == "root":
            return list(PARTS)
        if kind == "at":
            return list(self._names_at(words[0], _path(words[1]))) if words else list(map(name_of_moment, self.moments()))
        if kind == "versions":
            return sorted(self._directory(words[0]).children)
        if kind == "file":
            return [b"%d" % it.number for it in self.store.versions(_path(words[0]))]
        return sorted(self._deleted_names(words[0])) if kind == "restorable" else []

    def moments(self) -> Iterator[int]:
        """Yields the moments at which something changed: the last thousand, and before them the last one of each day."""
        return self.store.moments.listed()

    @property
    def begin(self) -> int:
        """The moment of the first change, or 0."""
        return self.store.first_moment

    # Deleted names.

    def _deleted_path(self, number: object) -> bytes:
        self._refresh_deleted()
        return self._deleted_paths.get(_whole(number), b"")

    def _deleted_names(self, number: object) -> dict[bytes, Key]:
        self._refresh_deleted()
        return self._deleted.get(_whole(number), {})

    def _refresh_deleted(self) -> None:
        """Lists the deleted names again if any name has changed: those of files without another name, by directory."""
        if self._deleted_seen == self.store.name_changes:
            return
        deleted: dict[int, dict[bytes, Key]] = {}
        places: dict[int, tuple[int, bytes]] = {0: (0, b"")}
        for directory in self.tree.directories():
            assert directory.parent is not None
            places[directory.number] = directory.parent.number, directory.parent.path_of(directory.name).rpartition(b"/")[2]
        rows = self.store.restorable()
        for row in rows:
            if row.is_directory:
                places.setdefault(row.number, (row.parent, row.spelled))
        for row in rows:
            if not row.is_directory and row.number not in self.tree.files and row.parent in places:
                _add_name(deleted.setdefault(row.parent, {}), row.spelled, ("deleted", row.parent, row.spelled, row.number))
                _add_above(deleted, places, row.parent)
        self._deleted, self._deleted_seen = deleted, self.store.name_changes
        self._deleted_paths = {it: _path_in(places, it) for it in deleted}

    # Stores.

    def store_at(self, moment: int) -> tuple[MountStore, int]:
        """Returns the store that has a moment, and the moment to ask it for."""
        return self.store, moment

    # Text.

    def limits(self) -> bytes:
        """Returns the text of the file `limits`."""
        return (self.store.quota.text() + self.notes()).encode()


def _add_name(names: dict[bytes, Key], spelling: bytes, key: Key) -> bool:
    """Gives a key the name of a spelling, with signs `%` after it if another one has that name. Returns whether it had none yet."""
    name = name_in(spelling)
    while names.get(name, key) != key:
        name += b"%"
    is_new = name not in names
    names[name] = key
    return is_new


def _add_above(deleted: dict[int, dict[bytes, Key]], places: dict[int, tuple[int, bytes]], number: int) -> None:
    """Lists a directory with deleted names in its parent, and so on up."""
    while number:
        parent, spelling = places[number]
        if not _add_name(deleted.setdefault(parent, {}), spelling, ("restorable", number)):
            return
        number = parent
        if number not in places:
            return


def _path_in(places: dict[int, tuple[int, bytes]], number: int) -> bytes:
    names = []
    while number and number in places:
        number, spelling = places[number]
        names.append(b"/" + spelling)
    return b"".join(reversed(names))


# The words of a key.


def _fresh_key(node: PastNode) -> Key:
    """Returns the key of a node. Raises ESTALE if its numbers are no more those of the store."""
    if node.key is STALE:
        raise OSError(errno.ESTALE, "the store has fresh numbers")
    return node.key


def _whole(word: object) -> int:
    assert isinstance(word, int)
    return word


def _path(word: object) -> bytes:
    assert isinstance(word, bytes)
    return word


def _number(name: bytes) -> int:
    if not name.isdigit() or name[:1] == b"0":
        raise FileNotFoundError(errno.ENOENT, "")
    return min(int(name), (1 << 64) - 1)


def _shown(found: Optional[Attributes], is_directory: bool, size: int, moment: int, root: Attributes) -> Shown:
    """Returns attributes with their bits for writing, so that a copy can be written. The file system itself is read only."""
    if found is None:
        return Shown(DIRECTORY_MODE if is_directory else FILE_MODE, size, moment, root.owner, root.group)
    return Shown(found.mode, size, moment, found.owner, found.group)
