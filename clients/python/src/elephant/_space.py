"""Space that a disk reserves for a file beyond its end."""

from __future__ import annotations

import ctypes
import errno

# The errors of a full disk, a full quota and a limit on the lengths of files.
FULL = (errno.ENOSPC, errno.EDQUOT, errno.EFBIG)
_KEEP_SIZE = 1
_libc = ctypes.CDLL(None, use_errno=True)
_libc.fallocate.argtypes = [ctypes.c_int, ctypes.c_int, ctypes.c_int64, ctypes.c_int64]


class NoSpace(Exception):
    """The disk of the journal has no space for a change. Nothing has changed."""


def allocate(file: int, offset: int, length: int) -> int:
    """Makes the disk reserve space for a file beyond its end. Returns 0, or the error number."""
    while _libc.fallocate(file, _KEEP_SIZE, offset, length):
        if ctypes.get_errno() != errno.EINTR:
            return ctypes.get_errno()
    return 0
