"""The mount's records of files and directories: modes, owners, times and extended attributes. They have no past.

The journal stores them, as remarks:

    # made f12 d3 100644 0 0 NS           file 12 was made in directory 3: mode (octal), owner, group, and the time
    # names NS d3 d5 f12                  names in directories 3 and 5 changed, and with them file 12
    # saved f12 NS                        the content of file 12 was written
    # attr f12 100644 0 0 NS NS NS        file 12: mode, owner, group, times of access, content and attributes
    # xattr f12 NS 757365722e61 =6f6e65   file 12 has the extended attribute user.a with the value one, both in hexadecimal
    # xattr f12 NS 757365722e61           file 12 has lost the attribute, and without a name it has none
    # undone f12 7 3 0                    version 7 of file 12 is what an undo or a redo brought back: what version 3 held, or, with a
                                          moment in place of 0, version 3 of the file that had the name until then
    # turned d3 9 5 8                     at moment 9 an undo or a redo made directory 3 as it was at moment 5; before the first of these
                                          undos it was as at moment 8

The remarks `due` and `undue` are those of the guard: see _guard.py of the package.

NS is a time in nanoseconds since 1970. A mode has the kind of the file too: a symbolic link is a file of the store whose content is
its target path.
"""

from __future__ import annotations

import os
import stat
import time
from binascii import hexlify, unhexlify
from collections.abc import Iterator, Mapping
from contextlib import suppress
from typing import NamedTuple, Optional

from ..keeping import Announced

_COARSE = 5  # CLOCK_REALTIME_COARSE
State = tuple[int, int]
"""What a name held: the number of a version, and 0, or until when another file had the name whose version it is."""
FILE_MODE, DIRECTORY_MODE = stat.S_IFREG | 0o644, stat.S_IFDIR | 0o755


class Turn(NamedTuple):
    """An undo or a redo of a directory: when it was made, the moment whose state it brought back, and that of the state before the first
    of the undos that it goes on from."""

    made: int
    state: int
    origin: int

    def remark(self, directory: int) -> bytes:
        return b"# turned %b %d %d %d" % (word_of(directory_key(directory)), *self)


class Attributes:
    """The mode, owner, group, times (in nanoseconds) and extended attributes of a file or directory."""

    __slots__ = ("mode", "owner", "group", "atime", "mtime", "ctime", "extended")

    def __init__(self, mode: int, owner: int, group: int, atime: int, mtime: int, ctime: int) -> None:
        self.mode, self.owner, self.group = mode, owner, group
        self.atime, self.mtime, self.ctime = atime, mtime, ctime
        self.extended: Optional[dict[bytes, bytes]] = None
        """By name, or None if there never was one: few files have any."""

    def copy(self) -> Attributes:
        it = Attributes(self.mode, self.owner, self.group, self.atime, self.mtime, self.ctime)
        it.extended = dict(self.extended) if self.extended else None
        return it

    @property
    def is_link(self) -> bool:
        return stat.S_ISLNK(self.mode)


def now_ns() -> int:
    """Returns the time with the resolution of a disk's file system, some milliseconds.

    A file that is made and written at once then has one time. If it had two, the kernel would drop the content that it has of it.
    """
    return time.clock_gettime_ns(_COARSE)


def word_of(key: int) -> bytes:
    """Returns the word of a key."""
    return b"%b%d" % (b"d" if key & 1 else b"f", key >> 1)


def key_of(word: bytes) -> int:
    """Returns the key of a word: twice the number of a file, or one more than twice the number of a directory."""
    return 2 * int(word[1:]) + (word[:1] == b"d")


def file_key(number: int) -> int:
    return 2 * number


def directory_key(number: int) -> int:
    return 2 * number + 1


def made(key: int, parent: int, it: Attributes) -> bytes:
    return b"# made %b %b %o %d %d %d" % (word_of(key), word_of(parent), it.mode, it.owner, it.group, it.ctime)


def names_changed(now: int, *keys: int) -> bytes:
    return b"# names %d %b" % (now, b" ".join(map(word_of, keys)))


def saved(key: int, now: int) -> bytes:
    return b"# saved %b %d" % (word_of(key), now)


def whole(key: int, it: Attributes) -> bytes:
    return b"# attr %b %o %d %d %d %d %d" % (word_of(key), it.mode, it.owner, it.group, it.atime, it.mtime, it.ctime)


def extended(key: int, now: int, name: bytes, value: Optional[bytes]) -> bytes:
    """Returns the remark of an extended attribute that was set, or removed if there is no value."""
    return b"# xattr %b %d %b" % (word_of(key), now, hexlify(name)) + (b"" if value is None else b" =" + hexlify(value))


def everything(key: int, it: Attributes) -> list[bytes]:
    """Returns the remarks that set all attributes of a key."""
    none = b"# xattr %b %d" % (word_of(key), it.ctime)
    return [whole(key, it), none, *(extended(key, it.ctime, name, value) for name, value in (it.extended or {}).items())]


def undone(file: int, version: int, source: State) -> bytes:
    """Returns the remark of a version that an undo or a redo has made."""
    return b"# undone %b %d %d %d" % (word_of(file_key(file)), version, *source)


class Records:
    """The attributes of all files and directories that ever existed, by key."""

    def __init__(self) -> None:
        self.by_key: dict[int, Attributes] = {}
        self.announced = Announced()
        self.undone: dict[tuple[int, int], State] = {}
        """By the numbers of a file and of a version that an undo or a redo has made: what it brought back."""
        self.turns: dict[int, dict[int, Turn]] = {}
        """By the number of a directory and the moment at which a turn was made."""

    def apply(self, remark: bytes) -> None:
        """Applies a remark of the journal. It passes over remarks of other programs."""
        with suppress(ValueError, IndexError):
            self._apply(remark)

    def _apply(self, remark: bytes) -> None:
        word, *rest = remark.split(b" ")
        if word == b"made":
            self._made(rest)
        elif word == b"names":
            self._names(int(rest[0]), rest[1:])
        elif word == b"saved":
            self.touch(key_of(rest[0]), int(rest[1]), content=True)
        elif word == b"attr":
            key, it = key_of(rest[0]), Attributes(int(rest[1], 8), *map(int, rest[2:]))
            it.extended = self.by_key[key].extended if key in self.by_key else None
            self.by_key[key] = it
        elif word == b"xattr":
            self._extended(key_of(rest[0]), int(rest[1]), rest[2:])
        elif word in (b"due", b"undue"):
            self.announced.apply([word, *rest])
        elif word == b"undone":
            version, source, until = map(int, rest[1:])
            self.undone[key_of(rest[0]) >> 1, version] = source, until
        elif word == b"turned":
            turn = Turn(*map(int, rest[1:]))
            self.turns.setdefault(key_of(rest[0]) >> 1, {})[turn.made] = turn

    def _made(self, rest: list[bytes]) -> None:
        now = int(rest[5])
        self.by_key[key_of(rest[0])] = Attributes(int(rest[2], 8), int(rest[3]), int(rest[4]), now, now, now)
        self.touch(key_of(rest[1]), now, content=True)

    def _extended(self, key: int, now: int, words: list[bytes]) -> None:
        self.touch(key, now, content=False)
        it = self.by_key.get(key)
        if it is None:
            return
        if not words:
            it.extended = None
        elif len(words) == 2:
            it.extended = {**(it.extended or {}), unhexlify(words[0]): unhexlify(words[1][1:])}
        elif it.extended:
            it.extended.pop(unhexlify(words[0]), None)

    def _names(self, now: int, words: list[bytes]) -> None:
        for key in map(key_of, words):
            self.touch(key, now, content=bool(key & 1))

    def touch(self, key: int, now: int, content: bool) -> None:
        """Sets the time of the attributes, and with `content` that of the content too."""
        it = self.by_key.get(key)
        if it is None and key & 1:
            it = self.by_key[key] = Attributes(DIRECTORY_MODE, os.getuid(), os.getgid(), now, now, now)
        if it is not None:
            it.ctime = now
            if content:
                it.mtime = now

    def of(self, key: int) -> Optional[Attributes]:
        return self.by_key.get(key)

    def remarks(self) -> Iterator[bytes]:
        """Yields the remarks that say everything."""
        for key, it in self.by_key.items():
            yield whole(key, it)
            for name, value in (it.extended or {}).items():
                yield extended(key, it.ctime, name, value)
        yield from self.announced.remarks()
        for (file, version), source in self.undone.items():
            yield undone(file, version, source)
        for directory, turns in self.turns.items():
            for turn in turns.values():
                yield turn.remark(directory)

    def kept(self, files: Mapping[int, int], directories: Mapping[int, int]) -> Records:
        """Returns what concerns some files and directories, by other numbers. The attributes are the same objects."""
        found = Records()
        for key, it in self.by_key.items():
            number = (directories if key & 1 else files).get(key >> 1)
            if number is not None:
                found.by_key[2 * number + (key & 1)] = it
        found.turns = {directories[it]: turns for it, turns in self.turns.items() if it in directories}
        return found

    def take(self, other: Records) -> None:
        """Takes over what others have. The announcements are the same object as before, since the guard has it."""
        self.by_key, self.undone, self.turns = other.by_key, other.undone, other.turns
        self.announced.since.clear()
        self.announced.since.update(other.announced.since)


def plain(it: Attributes) -> tuple[object, ...]:
    """Returns attributes as a value."""
    return it.mode, it.owner, it.group, it.atime, it.mtime, it.ctime, sorted((it.extended or {}).items())
