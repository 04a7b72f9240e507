"""Which events the changes of a file are, and which names a checkpoint has. What they mean is decided in the library, which is proved.

A program that keeps something of its own beside a store, as the mounted folder does, reads its notes by this, and learns which names the
store ever had. The forms are those of the crates `ele_journal` and `ele_checkpoint`.
"""

from __future__ import annotations

from collections.abc import Iterator
from typing import Any, NamedTuple, Optional

from ._core import Core
from ._errors import JournalDamaged

# The bytes of a change before its events: a length and a check. After them another check follows.
_LENGTH, _CHECK = 8, 4
# The bytes of a file before its checkpoint, and those of the head of a checkpoint.
CHECKPOINT_AT, _HEAD = 25, 9
# How much of a checkpoint is read first, and how many times as much then.
_FIRST_PART, _MORE = 1 << 20, 4
# Each event by the number of its kind: its word in the script language, and its values. p: a path, as it is spelled. n: a number.
# c: a content, of which only the length is told. s: bytes. y: a policy. t: a tag. m: a moment or none.
# Printed by tools/pages/surface --write: the kinds, from ele_journal/src/event.rt and ele_commands/src/command.rt.
KINDS = (
    (b"mkdir", "p"), (b"rmdir", "p"), (b"create", "p"), (b"unlink", "p"), (b"undelete", "p"), (b"open write", "p"), (b"link", "pp"),
    (b"rename", "pp"), (b"tick", "n"), (b"close", "n"), (b"abandon", "n"), (b"clock", "n"), (b"truncate", "nn"), (b"write", "nnc"),
    (b"save", "pc"), (b"revert", "pn"), (b"restore", "pn"), (b"policy", "py"), (b"default", "py"), (b"open read", "pt"),
    (b"group make", "s"), (b"group drop", "s"), (b"group add", "sp"), (b"group remove", "sp"), (b"mark", "snm"), (b"unmark", "sn"),
    (b"clean", ""), (b"note", "s"),
)
# End of the kinds.


class Event(NamedTuple):
    """An event: its word, and its values."""

    word: bytes
    values: tuple[Any, ...]


class NameRow(NamedTuple):
    """The life of a name: the number of its directory, the name as it is spelled, what it means, since when and until when."""

    parent: int
    name: bytes
    is_directory: bool
    number: int
    birth: int
    death: Optional[int]


class FileRow(NamedTuple):
    """A file that the store has: its number, the word of its policy, and the number of its next version."""

    number: int
    policy: str
    following: int


class Front(NamedTuple):
    """What a checkpoint has before the versions: the moment, the numbers of the directories, the files, and the names in the order in
    which they were made."""

    now: int
    directories: list[int]
    files: list[FileRow]
    names: list[NameRow]


class _Short(Exception):
    """The bytes end too early."""


class _Bytes:
    """Bytes that are read from a place on."""

    def __init__(self, data: bytes, at: int, end: int) -> None:
        self._data, self.at, self._end = data, at, end

    @property
    def is_over(self) -> bool:
        return self.at >= self._end

    def number(self) -> int:
        data, at = self._data, self.at
        try:
            found = data[at]
            if found >= 128:
                found, shift = found & 127, 7
                at += 1
                while data[at] >= 128:
                    found |= (data[at] & 127) << shift
                    at, shift = at + 1, shift + 7
                found |= data[at] << shift
        except IndexError:
            raise _Short from None
        self.at = at + 1
        return found

    def skip(self, count: int) -> int:
        self.at += count
        if self.at > self._end:
            raise _Short
        return count

    def string(self) -> bytes:
        count = self.number()
        self.skip(count)
        return self._data[self.at - count:self.at]

    def path(self) -> bytes:
        return b"".join(b"/" + self.string() for _ in range(self.number())) or b"/"

    def maybe(self) -> Optional[int]:
        return self.number() if self.number() else None

    def policy(self) -> str:
        """Returns the word of a policy."""
        kind = self.number()
        if kind < 2:
            return "all" if kind else "one"
        if kind == 2:
            seconds, floor = self.number(), self.number()
            return f"safe:{seconds}/{floor}" if floor else f"safe:{seconds}"
        return "landmarks:" + ",".join([f"{self.number()}/{self.number()}" for _ in range(self.number())])

    def tag(self) -> tuple[int, int]:
        kind = self.number()
        return kind, self.number() if kind else 0

    def value(self, form: str) -> object:
        return _VALUES[form](self)


_VALUES = {
    "p": _Bytes.path, "n": _Bytes.number, "c": lambda it: it.skip(it.number()), "s": _Bytes.string, "y": _Bytes.policy, "t": _Bytes.tag,
    "m": _Bytes.maybe,
}


def changes_between(data: bytes, start: int, end: int) -> Iterator[list[Event]]:
    """Yields the changes between two places of a file, each as its events. The library has read them, so they are whole."""
    try:
        while start < end:
            first = start + _LENGTH + _CHECK
            length = int.from_bytes(data[start:start + _LENGTH], "big")
            it = _Bytes(data, first, first + length)
            yield [_event(it) for _ in range(it.number())]
            start = first + length + _CHECK
    except (_Short, IndexError):
        raise JournalDamaged(f"the change that begins at byte {start} has other events than this package knows", offset=start) from None


def _event(it: _Bytes) -> Event:
    word, forms = KINDS[it.number()]
    return Event(word, tuple([it.value(form) for form in forms]))


def moment_in(data: bytes, at: int = 0) -> int:
    """Returns the moment of a checkpoint that begins at a place."""
    return _Bytes(data, at + _HEAD, len(data)).number()


def front_in(data: bytes, at: int = 0) -> Front:
    """Returns the front of a checkpoint that begins at a place."""
    it = _Bytes(data, at + _HEAD, len(data))
    now = it.number()
    directories = [(it.number(), it.policy())[0] for _ in range(it.number())]
    files = [FileRow(it.number(), it.policy(), it.number()) for _ in range(it.number())]
    names = []
    for _ in range(it.number()):
        parent, name, is_directory = it.number(), it.string(), bool(it.number())
        names.append(NameRow(parent, name, is_directory, it.number(), it.number(), it.maybe()))
    return Front(now, directories, files, names)


def front_of(core: Core) -> Front:
    """Returns the front of a store's checkpoint, without a copy of all of it."""
    length, size = core.look(core.library.elephant_checkpoint, "text"), _FIRST_PART
    while True:
        part = core.kept_bytes(core.library.elephant_answer, min(size, length))
        try:
            return front_in(part)
        except _Short:
            if size >= length:
                raise
            size *= _MORE
