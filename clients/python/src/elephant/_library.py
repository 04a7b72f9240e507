"""The shared library: how it is found, and the signature of each call (include/elephant.h describes them)."""

from __future__ import annotations

import ctypes
import functools
import os
from collections.abc import Iterator
from ctypes import POINTER, Structure, c_char_p, c_int32, c_size_t, c_uint32, c_uint64, c_void_p
from pathlib import Path
from typing import Any

from ._errors import ElephantError

FILE_NAME = "libelephant.so"
VARIABLE = "ELEPHANT_LIBRARY"
# Printed by tools/pages/surface --write: the numbers, from include/elephant.h.
NOW, AT, VERSION = 0, 1, 2
NO_ENTRY = 5
NO_RESULT = 68
# End of the numbers.


def _struct(name: str, fields: str) -> type[Structure]:
    return type(name, (Structure,), {"_fields_": [(field, c_uint64) for field in fields.split()]})


# Printed by tools/pages/surface --write: the rows, from include/elephant.h.
LimitsRow = _struct("LimitsRow", "events files directories names versions handles groups members marks")
CountsRow = _struct("CountsRow", "events files directories names versions handles groups members marks")
StatRow = _struct("StatRow", "is_directory id version opened closed ended length policy seconds floor rungs")
VersionRow = _struct("VersionRow", "number opened closed ended length")
NameRow = _struct("NameRow", "directory is_directory id name_length")
KeyRow = _struct("KeyRow", "since file number")
UsageRow = _struct("UsageRow", "files versions bytes blocks")
GroupRow = _struct("GroupRow", "name_length members marks")
MarkRow = _struct("MarkRow", "moment until")
WhyRow = _struct("WhyRow", "fate moment until level cause seconds by")
# End of the rows.

# `text` is a pointer to bytes and their count; `into` is a buffer and its size; `out` is a pointer to a number or a row.
_PARTS: dict[str, list[type]] = {
    "handle": [c_void_p], "text": [c_char_p, c_size_t], "into": [c_void_p, c_size_t], "out": [c_void_p],
    "number": [c_uint64], "word": [c_uint32],
}
# Printed by tools/pages/surface --write: the calls, from include/elephant.h.
_CALLS = {
    "open": "out word", "open_largest": "word", "detail": "out", "counts": "out", "line": "text out", "tell": "out",
    "answer": "number into out", "now": "out", "clock": "number", "tick": "number", "mkdir": "text out", "rmdir": "text",
    "create": "text out", "link": "text text", "unlink": "text", "rename": "text text", "undelete": "text out", "open_write": "text out",
    "write": "number number text", "truncate": "number number", "close_handle": "number out", "abandon": "number", "save": "text text out",
    "revert": "text number out", "restore": "text number out", "open_read": "text word number out", "read": "text word number out",
    "read_handle": "number out", "take": "number into out", "read_into": "text word number number into out out",
    "read_handle_into": "number number into out out", "stat": "text word number out", "rung": "number out out",
    "versions": "text word number out", "row_version": "number out", "list": "text word number out", "restorable": "out",
    "row_name": "number out", "row_bytes": "number into out", "due": "out", "ahead": "number out", "row_key": "number out", "usage": "out",
    "row_usage": "number out", "policy": "text text", "default": "text text", "group_make": "text", "group_drop": "text",
    "group_add": "text text", "group_remove": "text text", "mark": "text number number", "unmark": "text number", "groups": "out",
    "row_group": "number out", "row_member": "number number out", "row_mark": "number number out", "why": "text word number out",
    "why_hold": "out", "why_group": "into out", "clean": "out", "pass": "number out out", "history": "out out", "note": "text",
    "trim": "out", "checkpoint": "out", "open_checkpoint": "text word", "renew": "", "directory_across": "number out",
    "file_across": "number out", "version_across": "number number out", "journal_begin": "out", "journal_open": "text word out out",
    "journal_pending": "out", "journal_written": "", "journal_compact": "out",
}
# End of the calls.


def _places() -> Iterator[str]:
    """Yields the places to look for the library: only ELEPHANT_LIBRARY if it is set. Else beside this package (the place of an
    installation), in the repository of this file, and in the places of the system's loader."""
    named = os.environ.get(VARIABLE)
    if named:
        yield named
        return
    here = Path(__file__).resolve()
    found = [here.parent / FILE_NAME, *(folder / "out" / FILE_NAME for folder in here.parents if (folder / "crates.txt").is_file())]
    yield from (str(place) for place in found if place.is_file())
    yield FILE_NAME


class Library(ctypes.CDLL):
    """The loaded library. Other threads run during a call, except for those of short reads and texts: these keep Python's lock, since to
    give it up and get it back takes longer than they do."""

    def __init__(self, place: str) -> None:
        super().__init__(place)
        keeps_lock = ctypes.PyDLL(place, handle=self._handle)
        # They have no signature: `Core` gives them arguments that are converted already.
        self.elephant_read_short: Any = keeps_lock["elephant_read_into"]
        self.elephant_read_handle_short: Any = keeps_lock["elephant_read_handle_into"]
        self.elephant_answer_short: Any = keeps_lock["elephant_answer"]
        self.elephant_journal_written_short: Any = keeps_lock["elephant_journal_written"]
        for call in (
            self.elephant_read_short, self.elephant_read_handle_short, self.elephant_answer_short, self.elephant_journal_written_short
        ):
            call.restype = c_int32


@functools.lru_cache(maxsize=None)
def library() -> Library:
    """Loads the library, once, and gives each call its signature. Raises ElephantError if it isn't found."""
    faults = []
    for place in _places():
        try:
            loaded = Library(place)
            break
        except OSError as fault:
            faults.append(str(fault))
    else:
        raise ElephantError(f"no {FILE_NAME}: {'; '.join(faults)}. Set {VARIABLE} to its path, or build it by './elephant library'")
    for name, parts in _CALLS.items():
        call = getattr(loaded, f"elephant_{name}")
        call.argtypes = [c_void_p, *(kind for part in parts.split() for kind in _PARTS[part])]
        call.restype = c_int32
    loaded.elephant_code_text.argtypes, loaded.elephant_code_text.restype = [c_int32], c_char_p
    loaded.elephant_library_version.argtypes, loaded.elephant_library_version.restype = [], c_char_p
    loaded.elephant_library_version_number.argtypes, loaded.elephant_library_version_number.restype = [], c_uint32
    loaded.elephant_new.argtypes, loaded.elephant_new.restype = [POINTER(c_void_p)], None
    loaded.elephant_delete.argtypes, loaded.elephant_delete.restype = [c_void_p], None
    loaded.elephant_close.argtypes, loaded.elephant_close.restype = [c_void_p], None
    return loaded
