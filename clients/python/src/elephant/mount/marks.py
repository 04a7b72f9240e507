"""What a mark of a group holds."""

from __future__ import annotations

from typing import Optional

from ..keeping import told_time
from .store import MountStore
from .tree import Tree
from .whereabouts import Whereabouts


class Marks:
    """Counts the versions that marks hold."""

    def __init__(self, store: MountStore, tree: Tree) -> None:
        self._store, self._where = store, Whereabouts(store, tree)

    def held(self, group: bytes, moment: int, until: Optional[int] = None) -> str:
        """Returns how many versions, of how many files of a group, a mark at a moment holds, and for how long."""
        members = next(it.members for it in self._store.groups() if it.spelled == group)
        count = sum(self._holds_one(number, moment) for number in members)
        if not members:
            held = "it holds nothing: the group has no files"
        elif not count:
            held = f"it holds nothing: no file of the group, which has {len(members)}, has a version of then"
        else:
            held = f"it holds {_count(count, 'version')} of {count} of the group's {_count(len(members), 'file')}"
        end = "for good" if until is None else f"until {told_time(until)}"
        return f"{held}, as of {told_time(moment)}, {end}"

    def _holds_one(self, number: int, moment: int) -> bool:
        """Whether the version that a file had at a moment is held."""
        return any(it.closed <= moment and (it.ended is None or moment < it.ended) for it in self._where.versions_of(number))


def _count(number: int, word: str) -> str:
    return f"{number} {word}{'s' * (number != 1)}"
