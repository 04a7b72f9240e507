"""Files of a store as Python's file objects. They hold what you write, and make a version of it when you close them."""

from __future__ import annotations

import functools
import io
import warnings
from collections.abc import Callable
from types import TracebackType
from typing import TYPE_CHECKING, BinaryIO, Optional, Union, cast

from ._errors import TooBig

if TYPE_CHECKING:
    from _typeshed import ReadableBuffer, WriteableBuffer

MOST_BYTES = 1_048_576
Commit = Callable[[bytes], int]


class Mode:
    """What a mode such as `r+b` allows."""

    def __init__(self, mode: str) -> None:
        kinds = [kind for kind in mode if kind in "rwax"]
        if len(kinds) != 1 or set(mode) - set("rwax+bt") or len(set(mode)) != len(mode) or {"b", "t"} <= set(mode):
            raise ValueError(f"invalid mode: {mode!r}")
        self.word, self.kind, self.is_text = mode, kinds[0], "b" not in mode
        self.reads, self.writes = self.kind == "r" or "+" in mode, self.kind != "r" or "+" in mode


@functools.lru_cache(maxsize=64)
def mode_of(mode: str) -> Mode:
    """Returns what a mode allows. Raises ValueError if it is no mode."""
    return Mode(mode)


class File(io.BufferedIOBase):
    """The content of one version as a binary file.

    The close of a file that was written makes one version of it. It makes none if its `with` block ends by an exception, if you call
    `discard`, or if you drop the file without a close.
    """

    # So that a file whose `__init__` fails is dropped without an error.
    _is_done = True

    def __init__(self, path: str, mode: Mode, content: bytes, commit: Optional[Commit] = None, is_new: bool = False) -> None:
        self.name, self.mode = path, mode.word
        self.version: Optional[int] = None
        """After a close, the number of the version that it made, or None if it made none."""
        self._mode, self._commit, self._is_done = mode, commit, False
        # Opening a file that is new or that the mode cuts to length 0 is a change in itself.
        self._is_changed = is_new or mode.kind == "w"
        self._bytes = io.BytesIO(content)

    def readable(self) -> bool:
        return self._mode.reads

    def writable(self) -> bool:
        return self._mode.writes

    def seekable(self) -> bool:
        return True

    def _read_from(self) -> io.BytesIO:
        if not self._mode.reads:
            raise io.UnsupportedOperation("not readable")
        return self._bytes

    def read(self, size: Optional[int] = -1) -> bytes:
        return self._read_from().read(size)

    def read1(self, size: int = -1) -> bytes:
        return self._read_from().read(size)

    def readinto(self, buffer: WriteableBuffer) -> int:
        return self._read_from().readinto(buffer)

    def readline(self, size: Optional[int] = -1) -> bytes:
        return self._read_from().readline(size)

    def write(self, data: ReadableBuffer) -> int:
        mode, file = self._mode, self._bytes
        if not mode.writes:
            raise io.UnsupportedOperation("not writable")
        if mode.kind == "a":
            file.seek(0, io.SEEK_END)
        size = len(data) if isinstance(data, bytes) else memoryview(data).nbytes
        if file.tell() + size > MOST_BYTES:
            raise TooBig(f"{self.name}: a content has at most {MOST_BYTES} bytes")
        if size:
            self._is_changed = True
        return file.write(data)

    def truncate(self, size: Optional[int] = None) -> int:
        file = self._bytes
        if not self._mode.writes:
            raise io.UnsupportedOperation("not writable")
        wanted = file.tell() if size is None else size
        if wanted > MOST_BYTES:
            raise TooBig(f"{self.name}: a content has at most {MOST_BYTES} bytes")
        place, length = file.tell(), file.seek(0, io.SEEK_END)
        file.write(bytes(max(wanted - length, 0)))
        file.seek(place)
        self._is_changed = self._is_changed or wanted != length
        return file.truncate(wanted)

    def seek(self, offset: int, whence: int = io.SEEK_SET) -> int:
        return self._bytes.seek(offset, whence)

    def tell(self) -> int:
        return self._bytes.tell()

    def give_up(self) -> None:
        """Makes the close make no version."""
        self._commit = None

    def discard(self) -> None:
        """Closes the file without making a version."""
        self.give_up()
        self.close()

    def close(self) -> None:
        """Closes the file, and makes a version of what was written."""
        if self._is_done:
            return
        self._is_done = True
        try:
            if self._commit is not None and self._is_changed:
                self.version = self._commit(self._bytes.getvalue())
        finally:
            self._commit = None
            self._bytes.close()
            super().close()

    def __exit__(self, kind: Optional[type[BaseException]], fault: Optional[BaseException], trace: Optional[TracebackType]) -> None:
        if kind is not None:
            self.give_up()
        self.close()

    def __del__(self) -> None:
        if not self._is_done:
            _drop(self)


class TextFile(io.TextIOWrapper):
    """The content of one version as a text file. It becomes a version as a `File` does."""

    def __init__(self, file: File, encoding: str, errors: Optional[str], newline: Optional[str]) -> None:
        super().__init__(cast(BinaryIO, file), encoding, errors, newline)
        self.file = file

    def discard(self) -> None:
        """Closes the file without making a version."""
        self.file.give_up()
        self.close()

    @property
    def version(self) -> Optional[int]:
        """After a close, the number of the version that it made."""
        return self.file.version

    def __exit__(self, kind: Optional[type[BaseException]], fault: Optional[BaseException], trace: Optional[TracebackType]) -> None:
        if kind is not None:
            self.file.give_up()
        self.close()

    def __del__(self) -> None:
        _drop(self)


def _drop(file: Union[File, TextFile]) -> None:
    """Drops a file without a close. A file that was written then makes no version, as its writer may have failed."""
    try:
        is_done = file.closed
    except (AttributeError, ValueError):  # it was never made, or it was detached
        return
    if is_done:
        return
    if file.writable():
        warnings.warn(f"{file.name} was written and never closed: it made no version", ResourceWarning, stacklevel=2, source=file)
    file.discard()
