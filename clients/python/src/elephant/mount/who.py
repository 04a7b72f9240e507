"""Who makes the changes of a folder: notes in its journal say that, if the mount is asked for them.

A note stands before the first change of another user or program than the one before. The kernel says who asks for a request by the number
of the user and of the process. It doesn't for a save that follows from a close, so that one is by whoever opened the file last to write.
"""

from __future__ import annotations

from collections.abc import Sequence
from typing import Any

# The mount itself, as it removes what is due, and saves what stays open for long.
MOUNT = b"elephant-mount"
# Bytes of a note, of which a name of a program has at most 15 on Linux.
_MOST = 200


def _program(process: int) -> bytes:
    """Returns the name of a process's program, or an empty text if the process is gone or belongs to another container."""
    try:
        with open(f"/proc/{process}/comm", "rb") as file:
            return file.read().rstrip(b"\n")
    except OSError:
        return b""


def text_of(user: int, process: int) -> bytes:
    """Returns what a note says of a user's program."""
    return b" ".join(it for it in (b"user %d" % user, _program(process)) if it)[:_MOST]


class Who:
    """Who makes the next change."""

    def __init__(self, is_asked: bool = False) -> None:
        self.is_asked = is_asked
        self._now, self._noted = MOUNT, b""
        self._of_handle: dict[int, bytes] = {}

    def asks(self, context: Any) -> None:
        """Notices who asks for a request, from the kernel's context."""
        self.caller(context.uid, context.pid)

    def caller(self, user: int, process: int) -> None:
        """Notices a user's process."""
        if self.is_asked:
            self._now = text_of(user, process)

    def mount(self) -> None:
        """Notices that the mount makes changes of its own."""
        self._now = MOUNT

    def opened(self, handle: int) -> None:
        """Notices that whoever asks has opened a handle."""
        if self.is_asked:
            self._of_handle[handle] = self._now

    def goes_on(self, handle: int) -> None:
        """Notices that a request is by whoever opened the handle last."""
        if self.is_asked:
            self._now = self._of_handle.get(handle, MOUNT)

    def forget(self, handle: int) -> None:
        """Forgets a handle that is closed."""
        self._of_handle.pop(handle, None)

    def news(self) -> Sequence[bytes]:
        """Returns a note, if the next change is by another one than the one before."""
        if not self.is_asked or self._now == self._noted:
            return ()
        self._noted = self._now
        return (self._now,)
