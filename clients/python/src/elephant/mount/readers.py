"""The open files of the past, and the store's handles that keep versions from being removed."""

from __future__ import annotations

import errno
from typing import Optional

from .. import ElephantError, Forgotten
from ..keeping import VERSION
from .past import Past, PastNode, Row
from .store import MountStore
from .tree import Tree


class Opened:
    """An open file of the past: its content, and the store's handle that holds the version, if there is one already."""

    __slots__ = ("node", "source", "content", "reader")

    def __init__(self, node: PastNode, source: Optional[Row], content: bytes) -> None:
        self.node, self.source, self.content = node, source, content
        self.reader: Optional[int] = None


class Readers:
    """What programs and the mount itself read of the past."""

    def __init__(self, store: MountStore, tree: Tree, past: Past) -> None:
        self.store, self.tree, self.past = store, tree, past
        self.opened: dict[int, Opened] = {}
        """The open files, by the kernel's handle."""
        self.kept: set[int] = set()
        """The store's handles for versions that wait for their removal."""

    def open(self, handle: int, node: PastNode) -> bool:
        """Opens a file. Returns whether its content stays as it is. Raises Forgotten, or OSError."""
        try:
            source = None if node.key[0] in self.past.texts else self.past.source(node)
            content = self.past.content(node)
        except (ElephantError, OSError) as fault:
            if node.key[0] == "deleted" and not node.key[-1] and not isinstance(fault, Forgotten):
                raise OSError(errno.ENODATA, "") from fault
            raise
        self.opened[handle] = Opened(node, source if self.past.can_lose(node) else None, content)
        node.opens += 1
        return source is not None

    def release(self, handle: int) -> None:
        """Closes a file."""
        opened = self.opened.pop(handle)
        opened.node.opens -= 1
        self.past.forget(opened.node)
        if opened.reader is not None:
            self.store.drafts.close(opened.reader)

    def nodes(self) -> list[PastNode]:
        """Returns the nodes that programs have open."""
        return [opened.node for opened in self.opened.values()]

    def handles(self) -> set[int]:
        """Returns the store's handles."""
        return self.kept | {it.reader for it in self.opened.values() if it.reader is not None}

    def hold(self) -> bool:
        """Opens handles of the store for the versions that open files read. Returns whether it opened another one.

        Call it before a removal.
        """
        is_another = False
        for opened in self.opened.values():
            source = opened.source
            if opened.reader is None and source is not None:
                try:
                    opened.reader = self.store.drafts.open_reader(self._path_now(source), source.tag, source.number)
                    is_another = True
                except (ElephantError, OSError):
                    opened.source = None  # it stays readable, from the copy in memory
        return is_another

    def _path_now(self, source: Row) -> bytes:
        """Returns the path that finds a version: a version's number means the file that has the name now."""
        node = self.tree.files.get(source.file) if source.tag == VERSION else None
        return source.path if node is None else node.path

    def close(self) -> None:
        """Closes the store's handles for open files."""
        for opened in self.opened.values():
            if opened.reader is not None:
                self.store.drafts.close(opened.reader)
