"""The past of a mount that goes on in a new journal: that of its own journal and of older ones, which are read only.

    .elephant/at/MOMENT/PATH                       asks the journal whose time has the moment
    .elephant/older/letters.journal/versions/..    what the older journal letters.journal has: at, versions, restorable and limits

An older journal's time ends where the next one's begins. Between its last change and that, its tree stays as it was last.
"""

from __future__ import annotations

import errno
import os
import stat
from bisect import bisect_right
from collections.abc import Iterator
from itertools import chain
from typing import Optional

from .. import LAST_MOMENT
from .past import FIRST_INO, Past, PastNode, Row, Shown
from .store import MountStore
from .tree import Tree

OLDER = b"older"
OF_OLDER = (b"at", b"limits", b"restorable", b"versions")
# The inode numbers of each journal's past begin so far after those of the one before.
INOS_OF_ONE = 1 << 40


class Ages(Past):
    """Answers what is below `.elephant`, also from older journals."""

    def __init__(self, store: MountStore, tree: Tree, socket: bytes, older: list[MountStore]) -> None:
        super().__init__(store, tree, socket)
        stores = sorted(older, key=lambda it: (it.first_moment, int(it.now)))
        self._pasts = [self._past_of(at, it) for at, it in enumerate(stores, 1)]
        self._names = dict(zip(_names(stores), self._pasts))
        self._top = self.node("older") if self._pasts else None

    def _past_of(self, at: int, store: MountStore) -> Past:
        past = Past(store, Tree(store), b"")
        past._next = FIRST_INO + at * INOS_OF_ONE
        past.by_ino = self.by_ino
        past.root = past.node("older", at)
        return past

    def close(self) -> None:
        for it in self._pasts:
            it.store.close()

    # Which journal.

    def _owner(self, node: PastNode) -> Optional[Past]:
        """Returns the past of the older journal that a node is of, or None."""
        at = (node.ino - FIRST_INO) // INOS_OF_ONE
        return self._pasts[at - 1] if at else None

    def past_at(self, moment: int) -> Past:
        """Returns the past of the journal whose time has a moment."""
        if not self._pasts or moment >= (self.store.first_moment or LAST_MOMENT + 1):
            return self
        begins = [it.store.first_moment for it in self._pasts[1:]]
        return self._pasts[bisect_right(begins, moment)]

    def store_at(self, moment: int) -> tuple[MountStore, int]:
        """Returns the store that has a moment, and the moment to ask it for."""
        store = self.past_at(moment).store
        return store, moment if store is self.store else min(moment, int(store.now))

    def moments(self) -> Iterator[int]:
        return chain(*(it.moments() for it in self._pasts), super().moments())

    @property
    def begin(self) -> int:
        return self._pasts[0].begin if self._pasts else super().begin

    # What is asked of each.

    def find(self, node: PastNode, name: bytes) -> PastNode:
        owner = self._owner(node)
        if owner is not None:
            if node is owner.root and name not in OF_OLDER:
                raise FileNotFoundError(errno.ENOENT, "")
            return owner.find(node if node is not owner.root else _as_root(owner), name)
        if node is self._top:
            if name not in self._names:
                raise FileNotFoundError(errno.ENOENT, "")
            return self._names[name].root
        if node is self.root and name == OLDER and self._top is not None:
            return self._top
        found = super().find(node, name)
        if found.key[0] == "at" and len(found.key) == 3 and found.key[2] == b"":
            return self._at(found)
        return found

    def _at(self, node: PastNode) -> PastNode:
        """Returns the node of a moment in the journal that has it."""
        moment = node.key[1]
        assert isinstance(moment, int)
        past = self.past_at(moment)
        if past is self:
            return node
        self.forget(node)
        return past.node("at", min(moment, int(past.store.now)), b"")

    def show(self, node: PastNode) -> Shown:
        owner = self._owner(node)
        if node is self._top or (owner is not None and node is owner.root):
            root = (owner or self).tree.root.attributes
            return Shown(stat.S_IFDIR | 0o555, 0, int((owner or self).store.now), root.owner, root.group)
        return super().show(node) if owner is None else owner.show(node)

    def source(self, node: PastNode) -> Row:
        owner = self._owner(node)
        return super().source(node) if owner is None else owner.source(node)

    def content(self, node: PastNode) -> bytes:
        owner = self._owner(node)
        return super().content(node) if owner is None else owner.content(node)

    def is_over(self, node: PastNode) -> bool:
        owner = self._owner(node)
        return super().is_over(node) if owner is None else True

    def can_lose(self, node: PastNode) -> bool:
        """An older journal is read only."""
        return self._owner(node) is None

    def names(self, node: PastNode) -> list[bytes]:
        owner = self._owner(node)
        if owner is not None:
            return list(OF_OLDER) if node is owner.root else owner.names(node)
        if node is self._top:
            return sorted(self._names)
        found = super().names(node)
        return sorted([*found, OLDER]) if node is self.root and self._top is not None else found

    def forget(self, node: PastNode) -> None:
        owner = self._owner(node)
        if owner is not None:
            owner.forget(node)
        elif node is not self._top:
            super().forget(node)


def _as_root(past: Past) -> PastNode:
    """Returns a node that stands for the root of a past, which has another key as the folder of an older journal."""
    return PastNode(past.root.ino, ("root",))


def _names(stores: list[MountStore]) -> list[bytes]:
    """Returns a name for each older journal: that of its file, with a number if two have the same."""
    names: list[bytes] = []
    for it in stores:
        name = os.fsencode(os.path.basename(it.journal_path))
        while name in names:
            name += b"~"
        names.append(name)
    return names
