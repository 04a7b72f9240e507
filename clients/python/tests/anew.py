"""Journals that are made anew, and what the changes of a journal do."""

from __future__ import annotations

import shutil
from pathlib import Path

from elephant._events import changes_between
from elephant.mount.store import MountStore


def make_anew(journal: Path, new: Path) -> None:
    """Makes a journal of what another one has, as the mount makes its own anew."""
    shutil.copyfile(journal, new)
    store = MountStore(str(new))
    try:
        store.compact()
    finally:
        store.close()


def changes_since(journal: Path, end: int, start: int) -> list[list[bytes]]:
    """Returns the changes between two places of a journal, each as its lines without their contents. Moves of the clock are left out."""
    found = []
    for change in changes_between(journal.read_bytes(), start, end):
        lines = [b" ".join([it.word, *(_word(value) for value in it.values)]) for it in change if it.word != b"clock"]
        found.append(lines)
    return [it for it in found if it]


def _word(value: object) -> bytes:
    return value if isinstance(value, bytes) else str(value).encode()
