"""Memory that a closed store leaves in the process: the GNU C library keeps most of what was freed, and `malloc_trim` returns it."""

from __future__ import annotations

import ctypes
import os

MUCH = 32 << 20
"""So many bytes are worth a `malloc_trim`, which looks at all that is free in the process."""
_PAGE = os.sysconf("SC_PAGESIZE")
_trim = getattr(ctypes.CDLL(None), "malloc_trim", None)


def resident() -> int:
    """Returns how many bytes of memory the process takes, or 0 if the system doesn't say."""
    try:
        with open("/proc/self/statm", "rb", buffering=0) as file:
            return int(file.read(100).split()[1]) * _PAGE
    except OSError:
        return 0


def give_back(before: int) -> None:
    """Returns free memory to the system, if the process takes much more than before and its C library can."""
    if _trim is not None and resident() >= before + MUCH:
        _trim(0)
