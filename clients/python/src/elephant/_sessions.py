"""Handles of a store: a session, which writes a draft that it may share, and a reader, which keeps a version from being removed."""

from __future__ import annotations

from collections.abc import Iterator
from contextlib import contextmanager
from types import TracebackType
from typing import TYPE_CHECKING, Optional

from ._errors import Closed

if TYPE_CHECKING:
    from ._drafts import Drafts


class Handle:
    """An open handle. It is closed by `close` or at the end of a `with` block."""

    def __init__(self, store: Drafts, path: str, number: int) -> None:
        self._store, self.path, self.number = store, path, number
        self._renewals = store._renewals
        self.is_closed = False

    @contextmanager
    def _checked(self) -> Iterator[Drafts]:
        """Gives the store, with its lock held. Raises Closed also if the numbers were made anew since: another handle may have this one.
        """
        with self._store._lock:
            if self.is_closed or self._renewals != self._store._renewals:
                raise Closed(f"handle {self.number} of {self.path}")
            yield self._store

    def read(self) -> bytes:
        """Returns what the handle reads; a session reads its draft."""
        with self._checked() as store:
            return store._read_handle(self.number)

    def _close(self) -> Optional[int]:
        with self._checked() as store:
            version = store._close_handle(self.number)
            self.is_closed = True
            return version

    def __exit__(self, kind: Optional[type[BaseException]], fault: Optional[BaseException], trace: Optional[TracebackType]) -> None:
        if not self.is_closed and not self._store.is_closed:
            self._close()


class Reader(Handle):
    """Reads one version, which is not removed as long as the reader is open."""

    def close(self) -> None:
        """Closes the handle."""
        self._close()

    def __enter__(self) -> Reader:
        return self


class Session(Handle):
    """Writes the draft of a file, which all its sessions share. The draft becomes a version when the last of them closes, also if a `with`
    block ends by an exception. `abandon` ends a session without a version.
    """

    version: Optional[int] = None
    """After a close, the number of the version that it made. None if nothing was written, or another session has the draft."""

    def write(self, data: bytes, offset: int = 0) -> None:
        """Writes the bytes into the draft from the offset on. Zeros fill a gap before them."""
        with self._checked() as store:
            store._write_handle(self.number, offset, data)

    def truncate(self, size: int) -> None:
        """Sets the length of the draft: cuts it, or adds zeros."""
        with self._checked() as store:
            store._truncate_handle(self.number, size)

    def abandon(self) -> None:
        """Ends the session. If it was the file's last one, what the sessions wrote is removed, and makes no version."""
        with self._checked() as store:
            store._abandon_handle(self.number)
            self.is_closed = True

    def close(self) -> Optional[int]:
        """Closes the handle, and returns the number of the version that the close made. None if it made none."""
        self.version = self._close()
        return self.version

    def __exit__(self, kind: Optional[type[BaseException]], fault: Optional[BaseException], trace: Optional[TracebackType]) -> None:
        if not self.is_closed and not self._store.is_closed:
            self.close()

    def __enter__(self) -> Session:
        return self
