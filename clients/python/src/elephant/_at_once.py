"""The ordinary commit of a store in a file as one call of C, if `libelephant_file.so` is found beside the library of the store.

clients/c/src/elephant_file_append.h describes the call. It leaves to its caller whatever is more than to write a change into the space
ahead. Without it `Disk` does all of that by itself.
"""

from __future__ import annotations

import ctypes
import functools
import os
from ctypes import Structure, byref, c_char, c_char_p, c_int32, c_size_t, c_uint32, c_uint64, c_void_p, sizeof
from typing import Any, Optional

from ._core import Core
from ._library import Library

FILE_NAME = "libelephant_file.so"
NOTHING, NOT_ORDINARY, WRITE, SYNC, DONE = range(5)
"""How far a call came, as enum elephant_append_step says."""
_OTHER = -1


class _Row(Structure):
    """An open file, as struct elephant_append."""

    _fields_ = [
        ("pending", c_void_p), ("answer", c_void_p), ("written", c_void_p), ("path", c_char_p), ("inode", c_uint64), ("device", c_uint64),
        ("length", c_uint64), ("size", c_uint64), ("file", c_int32), ("syncs", c_uint32), ("step", c_uint32), ("error", c_int32),
        ("piece", c_char * (1 << 14)),
    ]


@functools.lru_cache(maxsize=None)
def _call_beside(library: Library) -> Any:
    """Returns the call of the library beside this one, or None. Other threads run during the call."""
    try:
        call = ctypes.CDLL(os.path.join(os.path.dirname(library._name), FILE_NAME)).elephant_file_append
    except (OSError, AttributeError):
        return None
    # It has no signature: its arguments are converted already.
    call.restype = c_int32
    return call


class AtOnce:
    """The call for a file that stays open, and the row that it reads and changes."""

    def __init__(self, library: Library, call: Any, syncs: bool) -> None:
        self.library = library
        """Whose calls it makes."""
        self.row: Any = _Row(syncs=syncs)
        for name in ("pending", "answer", "written"):
            of_library = "elephant_answer" if name == "answer" else f"elephant_journal_{name}"
            setattr(self.row, name, ctypes.cast(library[of_library], c_void_p).value)
        self._call, self._words = call, (byref(self.row), c_size_t.from_param(sizeof(_Row)))
        self._identity: Optional[tuple[int, int]] = None

    def append(self, core: Core, path: str, identity: tuple[int, int]) -> int:
        """Makes the call for a file, which the path has to name, and returns its code. The row has how far it came. `identity` is the same
        object as long as both are the same."""
        row = self.row
        if identity is not self._identity:
            row.path, (row.inode, row.device), self._identity = os.fsencode(path), identity, identity
        code: int = self._call(core.as_argument, *self._words)
        if code == _OTHER:
            row.step = NOT_ORDINARY
        return code


def at_once(core: Core, syncs: bool) -> Optional[AtOnce]:
    """Returns the call for an open file of a store, or None if there is none."""
    library = core.library
    call = _call_beside(library) if isinstance(library, Library) else None
    return None if call is None else AtOnce(library, call, syncs)
