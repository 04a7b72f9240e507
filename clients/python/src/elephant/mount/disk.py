"""What a mount needs of its disk beside reads and writes."""

from __future__ import annotations

import ctypes
import os

_libc = ctypes.CDLL(None)


def sync_all(folder: str) -> None:
    """Makes the kernel write its cache of the files of a folder's file system."""
    file = os.open(folder, os.O_RDONLY | os.O_DIRECTORY | os.O_CLOEXEC)
    try:
        _libc.syncfs(file)
    finally:
        os.close(file)
