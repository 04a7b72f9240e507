"""A walk over all names below a directory."""

from __future__ import annotations

from collections.abc import Callable, Iterator

from ._answers import Entry, PathEntry
from ._names import MOST_NAMES, path_of

# Lists a directory by its spelled path.
Lists = Callable[[bytes], list[Entry]]


def walk(lists: Lists, top: bytes) -> Iterator[PathEntry]:
    """Yields the names below a directory, each directory before what is in it, and the names of one directory in the order of their bytes.

    No call takes a path of more than 32 names. What a rename has moved so deep is left out.
    """
    left = _entries(lists, top)
    while left:
        entry = left.pop()
        yield entry
        if entry.is_directory:
            left += _entries(lists, entry.spelled)


def _entries(lists: Lists, directory: bytes) -> list[PathEntry]:
    """Returns what is in a directory, the last name first."""
    above = b"" if directory == b"/" else directory
    if above.count(b"/") == MOST_NAMES:
        return []
    found = ((above + b"/" + it.spelled, it) for it in reversed(lists(directory)))
    return [PathEntry(path_of(spelled), it.is_directory, it.number, spelled) for spelled, it in found]
