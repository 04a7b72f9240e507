"""A store's handle in the shared library: calls on spelled paths and numbers, which raise refusals."""

from __future__ import annotations

import ctypes
import io
import operator
import weakref
from collections.abc import Callable, Iterator
from ctypes import byref, c_size_t, c_ssize_t, c_uint32, c_uint64, c_void_p
from typing import TYPE_CHECKING, Any, Optional, SupportsIndex

from ._answers import Counts, Limits, Version
from ._errors import (
    BadLimits,
    BadName,
    BadPath,
    ElephantError,
    Exists,
    Forgotten,
    Full,
    IntoItself,
    IsDirectory,
    IsRoot,
    NoEntry,
    NoHandle,
    NoMemory,
    NotDirectory,
    Untold,
    error_of,
)
from ._library import AT, FILE_NAME, NO_RESULT, NOW, VERSION, CountsRow, KeyRow, LimitsRow, StatRow, VersionRow, library
from ._names import MOST_NAME
from ._policies import KeepAll, KeepOne, KeepSafe, Landmarks, Policy

if TYPE_CHECKING:
    from _typeshed import ReadableBuffer

Call = Callable[..., int]
_TOLD_MORE = (Forgotten.number, Full.number)
# Of `link` and `rename`: refusals of the path that is first found to be wrong, and those of a path that only one of the two may be.
_OF_EITHER = (NoEntry.number, NotDirectory.number, BadPath.number, BadName.number)
_OF_FIRST, _OF_SECOND = (IsDirectory.number,), (Exists.number, IntoItself.number)
_LEAST_ROOM, _COPIED_AT_ONCE = 1 << 12, 1 << 20
SHORT = 1 << 12
"""A content of at most so many bytes is read by one call, which keeps Python's lock meanwhile."""
# Arguments in the form in which ctypes passes them on. To convert all of them at each call takes longer than a short read.
_TAGS = tuple(c_uint32.from_param(tag) for tag in (NOW, AT, VERSION))
_SIZES = tuple(map(c_size_t.from_param, range(256)))
_ZERO = c_uint64.from_param(0)
# Makes bytes that nobody has yet, for a call of the library to fill.
_unfilled = ctypes.PYFUNCTYPE(ctypes.py_object, c_void_p, c_ssize_t)(("PyBytes_FromStringAndSize", ctypes.pythonapi))
_counts_in = operator.attrgetter(*Counts._fields)
# The bytes of the length and the sum of a checkpoint.
_AFTER_LIMITS = 12


def natural(value: SupportsIndex, what: str) -> int:
    """Returns a number as an argument of the library. Raises ValueError if it is negative or too large."""
    number = operator.index(value)
    if not 0 <= number < 1 << 64:
        raise ValueError(f"{what} is from 0 to {(1 << 64) - 1}, not {number}")
    return number


def as_bytes(data: ReadableBuffer) -> bytes:
    """Returns the bytes of anything that has some."""
    return data if type(data) is bytes else bytes(memoryview(data))


def limits_in(checkpoint: bytes) -> Limits:
    """Returns the limits of a store, of a checkpoint that the library took. They are the last numbers before the length and the sum, with
    seven bits in each byte, the lowest first, and 128 added to all bytes but the last one of a number."""
    found: list[int] = []
    at = len(checkpoint) - _AFTER_LIMITS
    while len(found) < len(Limits._fields):
        at -= 1
        number = checkpoint[at]
        while checkpoint[at - 1] >= 128:
            at -= 1
            number = (number << 7) | (checkpoint[at] & 127)
        found.append(number)
    return Limits(*reversed(found))


class Core:
    """An open store of the library. One call at a time.

    `is_ahead` is set by `do`, `ask`, `clean` and `line`, the calls that may change something. Who has stored the change clears it.
    """

    def __init__(self, limits: Limits, history: bool, checkpoint: Optional[bytes] = None, file: Optional[bytes] = None) -> None:
        """Opens a fresh store with the limits, or the one of a checkpoint or of a file, which has its own."""
        self.library = library()
        handle = c_void_p()
        self.library.elephant_new(byref(handle))
        if not handle:
            raise NoMemory(FILE_NAME)
        self.handle: int = handle.value or 0
        self.free = weakref.finalize(self, self.library.elephant_delete, handle)
        self.is_ahead = False
        self._number = c_uint64()
        # A number is passed on more quickly than a reference.
        self.number_at = ctypes.addressof(self._number)
        self._second = c_uint64()
        self._room = ctypes.create_string_buffer(_LEAST_ROOM)
        self._stat_row: Any = StatRow()
        self._stat_row_at = ctypes.addressof(self._stat_row)
        self.name_room = ctypes.create_string_buffer(MOST_NAME)
        # A history has each read as an event.
        self._keeps_reads = history
        self._short: Any = ctypes.create_string_buffer(SHORT)
        self.as_argument = c_void_p.from_param(self.handle)
        """The handle in the form in which ctypes passes it on."""
        into = c_void_p.from_param(self._short), c_size_t.from_param(SHORT)
        self._into_short = (_ZERO, *into, byref(self._number), byref(self._second))
        self._text_into_short = self.as_argument, _ZERO, *into, byref(self._number)
        self.whole, self.rest = 0, 0
        """Of a file: how many bytes of it keep the store, and what follows them, as `elephant_journal_open` says."""
        if file is not None:
            self._open_file(file, history)
        elif checkpoint is None:
            self._open(limits, history)
        else:
            code = self.library.elephant_open_checkpoint(self.handle, checkpoint, len(checkpoint), int(history))
            if code:
                self.refuse(code)

    def _open_file(self, file: bytes, history: bool) -> None:
        rest = c_uint32()
        code = self.library.elephant_journal_open(self.handle, file, len(file), int(history), self.number_at, byref(rest))
        if code:
            self.refuse(code)
        self.whole, self.rest = self._number.value, rest.value

    def _open(self, limits: Limits, history: bool) -> None:
        row = LimitsRow(*(natural(number, name) for name, number in zip(limits._fields, limits)))
        code = self.library.elephant_open(self.handle, byref(row), int(history))
        if code == BadLimits.number:
            raise BadLimits(f"{limits} has one above its largest")
        if code:
            self.refuse(code)

    def error(self, code: int, subject: object = "") -> ElephantError:
        """Returns the error of the code that the last call returned."""
        detail = None
        if code in _TOLD_MORE and self.library.elephant_detail(self.handle, self.number_at) == 0:
            detail = self._number.value
        return error_of(code, subject if isinstance(subject, str) else repr(subject), detail)

    def refuse(self, code: int, subject: object = "") -> None:
        """Raises the error of the code that the last call returned."""
        raise self.error(code, subject)

    def do(self, call: Call, subject: object, *words: object) -> None:
        """Makes a call that may change something."""
        code = call(self.handle, *words)
        if code:
            self.refuse(code, subject)
        self.is_ahead = True

    def do_between(self, call: Call, paths: tuple[object, object], first: bytes, second: bytes) -> None:
        """Makes the call of a link or a rename. The subject of its refusal is the path that it is about, or both if it is about neither."""
        code = call(self.handle, first, len(first), second, len(second))
        if code:
            at = self._path_at_fault(code, first)
            self.refuse(code, paths if at is None else paths[at])
        self.is_ahead = True

    def _path_at_fault(self, code: int, first: bytes) -> Optional[int]:
        """Returns 0 or 1 for the path that a refusal of a link or a rename is about. The first path is looked up before the second one."""
        if code in _OF_EITHER:
            of_first = self.code_at(first)
            return None if of_first == NoMemory.number else int(of_first != code)
        if code == IsRoot.number:
            return int(first != b"/")
        return 0 if code in _OF_FIRST else 1 if code in _OF_SECOND else None

    def code_at(self, name: bytes) -> int:
        """Returns the code of a read of a path. It leaves the kept result and the last detail, and is no event."""
        code: int = self.library.elephant_read_into(
            self.handle, name, len(name), NOW, 0, 0, self._room, 0, self.number_at, byref(self._second)
        )
        return code

    def is_open(self, handle: int) -> bool:
        """Whether a handle is open. It leaves the kept result and the last detail, and is no event."""
        code: int = self.library.elephant_read_handle_into(self.handle, handle, 0, self._room, 0, self.number_at, byref(self._second))
        if code not in (0, NoHandle.number):
            self.refuse(code, f"handle {handle}")
        return not code

    def ask(self, call: Call, subject: object, *words: object) -> int:
        """Makes a call that may change something and returns one number, and returns it."""
        number = self.look(call, subject, *words)
        self.is_ahead = True
        return number

    def look(self, call: Call, subject: object, *words: object) -> int:
        """Makes a call that changes nothing and returns one number, and returns it."""
        code = call(self.handle, *words, self.number_at)
        if code:
            self.refuse(code, subject)
        return self._number.value

    def found(self, call: Call, subject: object, *words: object) -> Optional[int]:
        """Makes a call that changes nothing and returns one number, and returns it, or None if there is none."""
        code = call(self.handle, *words, self.number_at)
        if code == NO_RESULT:
            return None
        if code:
            self.refuse(code, subject)
        return self._number.value

    def row(self, call: Call, kind: type[ctypes.Structure], subject: object, *words: object) -> Any:
        """Makes a call that returns a row, and returns it."""
        row = kind()
        code = call(self.handle, *words, byref(row))
        if code:
            self.refuse(code, subject)
        return row

    def row_found(self, call: Call, kind: type[ctypes.Structure]) -> Any:
        """Makes a call that returns a row of what the handle keeps, and returns it, or None if there is none."""
        row = kind()
        code = call(self.handle, byref(row))
        if code == NO_RESULT:
            return None
        if code:
            self.refuse(code)
        return row

    def rows(self, call: Call, kind: type[ctypes.Structure], count: int) -> Iterator[Any]:
        """Yields the rows of the kept list, each in the same object."""
        row = kind()
        at = byref(row)
        for index in range(count):
            code = call(self.handle, index, at)
            if code:
                self.refuse(code)
            yield row

    def kept_bytes(self, call: Call, length: int) -> bytes:
        """Returns the bytes that the handle keeps: `take` reads a content, `answer` a text."""
        if length > len(self._room):
            self._room = ctypes.create_string_buffer(1 << (length - 1).bit_length())
        code = call(self.handle, 0, self._room, length, self.number_at)
        if code:
            self.refuse(code)
        return ctypes.string_at(self._room, self._number.value)

    def checkpoint(self) -> bytes:
        """Returns the store as bytes."""
        return self.text_of(self.library.elephant_checkpoint)

    def text_of(self, call: Call) -> bytes:
        """Makes a call that makes a text and returns its length, and returns the text."""
        length = self.look(call, "text")
        if length <= SHORT:
            return self._short_text(length) if length else b""
        room, copied = ctypes.create_string_buffer(min(length, _COPIED_AT_ONCE)), io.BytesIO()
        for offset in range(0, length, _COPIED_AT_ONCE):
            count = self.look(self.library.elephant_answer, "text", offset, room, len(room))
            copied.write(memoryview(room)[:count])
        return copied.getvalue()

    def _short_text(self, length: int) -> bytes:
        """Returns the text that the handle keeps, which has so many bytes."""
        code = self.library.elephant_answer_short(*self._text_into_short)
        if code:
            self.refuse(code, "text")
        text: bytes = self._short[:length]
        return text

    def settle(self) -> None:
        """Says that the bytes of a file that were given last are on the disk."""
        code = self.library.elephant_journal_written_short(self.as_argument)
        if code:
            self.refuse(code, "the file")

    def row_name(self, index: int) -> bytes:
        """Returns the name in a row of the kept list."""
        length = self.look(self.library.elephant_row_bytes, "", index, self.name_room, MOST_NAME)
        return self.name_room.raw[:length]

    def read(self, subject: object, name: bytes, tag: int, number: int) -> bytes:
        """Returns the content of a version."""
        if self._keeps_reads:
            length = self.look(self.library.elephant_read, subject, name, len(name), tag, number)
            return self.kept_bytes(self.library.elephant_take, length)
        size = _SIZES[len(name)] if len(name) < len(_SIZES) else c_size_t.from_param(len(name))
        which = self.as_argument, name, size, _TAGS[tag], c_uint64.from_param(number) if number else _ZERO
        code = self.library.elephant_read_short(*(which + self._into_short))
        if code == Forgotten.number:
            # A call that only looks leaves no detail.
            code = self.library.elephant_stat(self.handle, name, len(name), tag, number, self._stat_row_at) or code
        if code:
            self.refuse(code, subject)
        length = self._number.value
        if length > SHORT:
            return self._long_content(self.library.elephant_read_into, length, subject, name, len(name), tag, number)
        content: bytes = self._short[:length]
        return content

    def read_handle(self, subject: object, handle: int) -> bytes:
        """Returns what a handle reads."""
        if self._keeps_reads:
            return self.kept_bytes(self.library.elephant_take, self.look(self.library.elephant_read_handle, subject, handle))
        code = self.library.elephant_read_handle_short(self.as_argument, c_uint64.from_param(handle), *self._into_short)
        if code:
            self.refuse(code, subject)
        length = self._number.value
        if length > SHORT:
            return self._long_content(self.library.elephant_read_handle_into, length, subject, handle)
        content: bytes = self._short[:length]
        return content

    def _long_content(self, call: Call, length: int, subject: object, *which: object) -> bytes:
        """Returns the content of that length, copied straight into the bytes."""
        content: bytes = _unfilled(None, length)
        code = call(self.handle, *which, 0, content, length, self.number_at, byref(self._second))
        if code:
            self.refuse(code, subject)
        return content

    def stat(self, subject: object, name: bytes, tag: int = 0, number: int = 0) -> Any:
        """Returns the row of a path, which the next call of `stat` writes over."""
        code = self.library.elephant_stat(self.handle, name, len(name), tag, number, self._stat_row_at)
        if code:
            self.refuse(code, subject)
        return self._stat_row

    def policy_of(self, row: Any) -> Policy:
        """Returns the policy of the row that the last call of `stat` returned."""
        if row.policy < 2:
            return KeepAll() if row.policy else KeepOne()
        if row.policy == 2:
            return KeepSafe(seconds=row.seconds, floor=row.floor)
        return Landmarks([self._rung(index) for index in range(row.rungs)])

    def _rung(self, index: int) -> tuple[int, int]:
        code = self.library.elephant_rung(self.handle, index, self.number_at, byref(self._second))
        if code:
            self.refuse(code)
        return self._number.value, self._second.value

    def versions(self, subject: object, name: bytes, tag: int, number: int) -> list[Version]:
        """Returns the held versions of a file."""
        count = self.look(self.library.elephant_versions, subject, name, len(name), tag, number)
        return [Version.of_row(row) for row in self.rows(self.library.elephant_row_version, VersionRow, count)]

    def keys(self, count: int) -> list[tuple[int, int, int]]:
        """Returns the rows of the kept list of versions that may be removed."""
        return [(row.since, row.file, row.number) for row in self.rows(self.library.elephant_row_key, KeyRow, count)]

    def clean(self) -> tuple[int, int, int]:
        """Removes the first version that may be removed. Returns its row as `keys` does; if there is none, the file is 0."""
        row = self.row(self.library.elephant_clean, KeyRow, "")
        self.is_ahead = self.is_ahead or bool(row.file)
        return row.since, row.file, row.number

    def line(self, line: bytes) -> bytes:
        """Runs a line of the script language, and returns its answer."""
        code = self.library.elephant_line(self.handle, line, len(line), self.number_at)
        if code in (0, Untold.number):
            self.is_ahead = True
        if code == Untold.number:
            code = self.library.elephant_tell(self.handle, self.number_at)
        if code:
            self.refuse(code, repr(line))
        return self.kept_bytes(self.library.elephant_answer, self._number.value)

    @property
    def number(self) -> int:
        """The number that the last call returned."""
        return self._number.value

    def now(self) -> int:
        """Returns the store's moment."""
        return self.look(self.library.elephant_now, "")

    def counts(self) -> Counts:
        """Returns what the limits count."""
        row = self.row(self.library.elephant_counts, CountsRow, "")
        return Counts._make(_counts_in(row))
