"""How far the undos of a folder have gone back: to which moment the next undo or redo goes.

A turn is an undo or a redo of a folder without a moment: it makes the folder as it was at one. The next undo goes on from there, so it
passes over what turns have changed. A change below the folder in a later second ends that.
"""

from __future__ import annotations

from bisect import bisect_right
from collections.abc import Iterator
from functools import cache
from typing import NamedTuple, Optional

from .. import Forgotten, Refused
from ..keeping import AT
from .chronicle import begin_of_last
from .records import Turn
from .store import MountStore
from .tree import Directory, File, Tree
from .whereabouts import Nothing, Whereabouts, told

# Contents that changed with no longer pauses than this, in seconds, were changed by one command.
CHANGE_PAUSE = 2


class _Changes(NamedTuple):
    """When something changed below a folder: the numbers of the folders that were ever there, when names in them ended, and of each file
    that is there now when its versions closed, or, if the folder never had a turn, when the current one did."""

    folders: set[int]
    ends: list[int]
    closings: list[list[int]]

    def until(self, moment: int) -> list[int]:
        """Returns the moments of the changes until a moment: of each file the last one."""
        found = [it for it in self.ends if it <= moment]
        places = ((it, bisect_right(it, moment)) for it in self.closings)
        return found + [closings[at - 1] for closings, at in places if at]


class Turns:
    """Finds the moments to which undos and redos of folders go."""

    def __init__(self, store: MountStore, tree: Tree, where: Whereabouts) -> None:
        self._store, self._tree, self._where = store, tree, where

    def back(self, folder: Directory) -> Turn:
        """Returns the turn of an undo. Raises Nothing if nothing was changed before."""
        changes, now = self._changes(folder), int(self._store.now)
        last = self._last(folder, changes, now)
        position = now if last is None else self._resolved(folder, changes, last.state)
        state = self._before_last(folder, changes, position)
        if state is None:
            hint = "was ever changed" if last is None else "was changed before that: redo goes forward again"
            raise Nothing(f"nothing below {told(folder.path)} {hint}")
        return Turn(now, state, min(now - 1, max(changes.until(now))) if last is None else last.origin)

    def forward(self, folder: Directory) -> Turn:
        """Returns the turn of a redo. Raises Nothing if there is none to take back."""
        changes, now = self._changes(folder), int(self._store.now)
        last = self._last(folder, changes, now)
        if last is None or last.state >= last.origin:
            raise Nothing(f"{told(folder.path)} is as it was changed last: there is nothing to redo")
        found = last.origin
        while True:
            before = self._before_last(folder, changes, self._resolved(folder, changes, found))
            if before is None or before <= last.state:
                return Turn(now, found, last.origin)
            found = before

    def note(self, folder: Directory, turn: Turn) -> None:
        """Notes that a turn is done."""
        made = turn._replace(made=int(self._store.now))
        with self._store.together():
            remark = made.remark(folder.number)
            self._store.keep(remark)
            self._store.records.apply(remark[2:])

    def _last(self, folder: Directory, changes: _Changes, moment: int) -> Optional[Turn]:
        """Returns the turn after which nothing has changed until a moment, or None."""
        made = self._made(folder, moment)
        is_last = made > 0 and max(changes.until(moment), default=0) <= made
        return self._store.records.turns[folder.number][made] if is_last else None

    def _made(self, folder: Directory, moment: int) -> int:
        """Returns when the last turn until a moment was made, or 0."""
        return max((it for it in self._store.records.turns.get(folder.number, ()) if it <= moment), default=0)

    def _resolved(self, folder: Directory, changes: _Changes, moment: int) -> int:
        """Returns the moment at which the folder was first as it was at a moment, if a turn had made it so."""
        turn = self._last(folder, changes, moment)
        while turn is not None:
            moment = turn.state
            turn = self._last(folder, changes, moment)
        return moment

    def _changes(self, folder: Directory) -> _Changes:
        chronicle = self._store.chronicle
        folders = chronicle.below(folder.number, self._where.parents())
        return _Changes(folders, [it for number in folders for it in chronicle.moments_in(number)], list(self._closings(folder)))

    def _closings(self, folder: Directory) -> Iterator[list[int]]:
        """Yields the moments of the saves of each file below a folder. Version 1 is no save."""
        seen, has_turns = set(), folder.number in self._store.records.turns
        for _, node in self._where.files_below(folder):
            if isinstance(node, File) and node.draft is None and node.version > 1 and node.number not in seen:
                seen.add(node.number)
                rows = self._store.versions(node.path) if has_turns else ()
                yield [int(it.closed) for it in rows if it.number > 1] or [int(self._store.stat_row(node.path).closed)]

    def _before_last(self, folder: Directory, changes: _Changes, moment: int) -> Optional[int]:
        """Returns the last moment before the last changes until a moment, but none before the last turn. None if there were none."""
        moments = changes.until(moment)
        if not moments:
            return None
        begin = self._making_of(changes.folders, begin_of_last(moments, CHANGE_PAUSE), moment)
        return max(begin - 1, self._made(folder, moment))

    def _making_of(self, folders: set[int], begin: int, end: int) -> int:
        """Returns when the first of the names was made that have ended since `begin` and weren't there at `end`, if that was shortly
        before, and else `begin`: the copy that `sed -i` writes, for example, belongs to the change that renames it."""
        path_at, found = cache(self._where.path_at), begin
        for number in folders:
            for name in self._store.chronicle.ended_between(number, begin, end):
                if self._was_there(path_at(number, end), name, end):
                    continue
                moments = range(begin - 1, begin - CHANGE_PAUSE - 2, -1)
                absent = next((it for it in moments if not self._was_there(path_at(number, it), name, it)), begin)
                found = min(found, absent + 1)
        return found

    def _was_there(self, folder: Optional[bytes], name: bytes, moment: int) -> bool:
        """Whether a folder had a name at a moment. `folder` is its path of then, or None."""
        if folder is None or moment < 0:
            return False
        try:
            self._store.stat_row(folder + b"/" + name, AT, moment)
        except Forgotten:
            return True
        except Refused:
            return False
        return True
