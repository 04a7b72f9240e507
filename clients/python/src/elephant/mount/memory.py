"""The memory of changes. The mount looks for it before a change begins: so none is cut in two, and reads and removals go on."""

from __future__ import annotations

import ctypes

from .. import NoMemory

# Memory that changes leave for reads and removals, and for changes without contents; how much more a look for memory asks for, so that
# the next changes need no look; and the memory of a change without its content. In bytes.
KEPT, LEAST, STEP, OF_CHANGE = 16 << 20, 4 << 20, 32 << 20, 1 << 16
# How many times its length a content takes while it is saved (the old and the new one, their parts, events and text), and then.
SAVING, SAVED = 14, 3
# A little more than the longest text of a content in a journal.
PIECE = 9 << 18
_libc = ctypes.CDLL(None)
_libc.malloc.argtypes, _libc.malloc.restype = [ctypes.c_size_t], ctypes.c_void_p
_libc.free.argtypes, _libc.free.restype = [ctypes.c_void_p], None


class Memory:
    """What the last look has found, less what changes have taken since."""

    def __init__(self) -> None:
        self.left = 0

    def require(self, needed: int = OF_CHANGE, taken: int = OF_CHANGE, kept: int = LEAST) -> None:
        """Raises NoMemory unless the process can get so much memory beside what it keeps for reads. Of that the change keeps `taken`."""
        if self.left < needed + kept:
            self.left = next((it for it in (needed + kept + STEP, needed + kept) if has_memory(it)), 0)
            if not self.left:
                raise NoMemory("a change")
        self.left -= taken

    def require_for(self, content: int) -> None:
        """Does the same for the save of a content of so many bytes."""
        self.require(SAVING * content, SAVED * content)


def has_memory(size: int) -> bool:
    """Whether the process can get so much more memory, in pieces. It gives all of it back, and writes none of it."""
    pieces: list[int] = []
    try:
        for _ in range(-(-size // PIECE)):
            piece = _libc.malloc(PIECE)
            if not piece:
                return False
            pieces.append(piece)
        return True
    finally:
        for it in pieces:
            _libc.free(it)
