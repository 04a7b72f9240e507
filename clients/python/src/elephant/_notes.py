"""What a program keeps beside a store, as notes in its file: remarks of any length, in pieces that fit into a note."""

from __future__ import annotations

from collections.abc import Iterator
from typing import Optional

# The most bytes of a note, and what a note of a remark begins with: one that ends there, and one that goes on in the next note.
MOST_NOTE = 200
REMARK, MORE = b"# ", b"#+"
_PIECE = MOST_NOTE - len(REMARK)


def is_remark(text: bytes) -> bool:
    """Whether a note is one of a remark, or a line is a remark."""
    return text.startswith((REMARK, MORE))


def notes_of(remark: bytes) -> Iterator[bytes]:
    """Yields the notes that keep a remark, which begins with `# `."""
    body = remark[len(REMARK):]
    while len(body) > _PIECE:
        yield MORE + body[:_PIECE]
        body = body[_PIECE:]
    yield REMARK + body


class Gatherer:
    """Makes remarks of notes again."""

    def __init__(self) -> None:
        self._begun = b""

    def remark(self, note: bytes) -> Optional[bytes]:
        """Returns the remark, without `# `, that ends with a note. None if it goes on, or if the note is of another program."""
        if note.startswith(MORE):
            self._begun += note[len(MORE):]
            return None
        if not note.startswith(REMARK):
            return None
        found, self._begun = self._begun + note[len(REMARK):], b""
        return found
