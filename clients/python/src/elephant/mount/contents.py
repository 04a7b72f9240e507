"""The contents of files: drafts in memory, and how they become versions.

What a program writes stays in the draft of its file, in memory. When a descriptor of the file is closed or synced, the journal gets the
part of the draft that it lacks. When the last descriptor that writes is closed, the draft becomes a version. So a write costs a slice,
and a kill during a save leaves the old content.

A save becomes a version before the next one begins, because a child that was forked during the save may keep the descriptor, and the
draft of an answered `close` must not be overwritten. A version at each `flush` would be one for each command of `{ a; b; } > f`, and one
at each `release` might have what another program has written half.
"""

from __future__ import annotations

import errno
from typing import Optional

from .. import ElephantError
from . import records
from .drafts import Base, NotKept
from .records import file_key, now_ns, saved
from .store import MountStore
from .tree import File, Tree

MOST_BYTES = 1_048_576
_NONE = Base(0, 0, b"")


class Limited(OSError):
    """The store has reached one of its limits."""

    def __init__(self, limit: str, count: int) -> None:
        super().__init__(errno.ENOSPC, f"the store has made all {count} {limit} that it ever makes")
        self.limit = limit


class Contents:
    """Reads and writes files."""

    def __init__(self, store: MountStore, tree: Tree) -> None:
        self.store, self.tree = store, tree
        self.drafts: set[File] = set()
        """The files that have a draft."""
        self._last = _NONE
        """The version that was read last."""

    # Reading.

    def size(self, node: File) -> int:
        return node.size if node.draft is None else len(node.draft)

    def read(self, node: File, offset: int, size: int) -> bytes:
        """Returns bytes of a file, with those that are written and in no version yet."""
        if node.draft is not None:
            return bytes(memoryview(node.draft)[offset:offset + size])
        return self.whole(node)[offset:offset + size]

    def whole(self, node: File) -> bytes:
        """Returns the whole content of a file."""
        if node.draft is not None:
            return bytes(node.draft)
        return (self._read_last(node) or self._read(node)).content

    def _read_last(self, node: File) -> Optional[Base]:
        """Returns a file's version, if it was read last."""
        return self._last if self._last[:2] == (node.number, node.version) else None

    def _read(self, node: File) -> Base:
        self._last = Base(node.number, node.version, self.store.content(node.path))
        return self._last

    def forget_read(self) -> None:
        """Drops the content that was read last. Call it if a node is about to get another file."""
        self._last = _NONE

    # Writing.

    def begin(self, node: File, is_cut: bool = False) -> bytearray:
        """Returns a file's draft, and makes it if there is none. Raises Limited if the store can't make another version."""
        if node.draft is None:
            if node.names:
                self.require_limits(versions=1, handles=1)
            base = self._read_last(node) or (None if is_cut else self._read(node))
            self._set_draft(node, bytearray() if is_cut or base is None else bytearray(base.content))
            node.base = base
        assert node.draft is not None
        return node.draft

    def _set_draft(self, node: File, draft: Optional[bytearray]) -> None:
        node.draft, node.base = draft, None
        if draft is None:
            self.drafts.discard(node)
            self._set_pending(node, 0)
        else:
            self.drafts.add(node)

    def require_limits(self, **wanted: int) -> None:
        """Raises Limited unless the store can make so much more, beside what the drafts will need."""
        unopened = sum(it.handle is None for it in self.drafts)
        for name in ("versions", "handles"):
            if name in wanted:
                wanted[name] += unopened
        lacking = self.store.quota.lacking(**wanted)
        if lacking is not None:
            raise Limited(lacking, getattr(self.store.quota.limits, lacking))

    def _set_pending(self, node: File, content: int) -> None:
        wanted = content + content // 200 + 512 if content else 0
        self.store.pending += wanted - node.pending
        node.pending = wanted

    def _reserve(self, node: File, size: int) -> None:
        """Makes sure that the journal's disk has space for a draft of that size."""
        self.store.reserve(max(size - node.pending, 0))
        self._set_pending(node, max(size, 1))

    def write(self, node: File, offset: int, data: bytes) -> int:
        """Writes bytes into a file's draft. Zeros fill a gap between its end and them."""
        end = offset + len(data)
        if end > MOST_BYTES:
            raise TooBig(node, end)
        draft = self.begin(node)
        if node.names:
            self._reserve(node, max(end, len(draft)))
        if end > len(draft):
            draft.extend(bytes(end - len(draft)))
        memoryview(draft)[offset:end] = data  # needs no memory, so a write is done whole or not at all
        self._written(node)
        return len(data)

    def truncate(self, node: File, size: int) -> None:
        """Sets the length of a file. If no program writes it, that makes a version."""
        if size > MOST_BYTES:
            raise TooBig(node, size)
        if node.draft is None and size == node.size:
            self._touch(node)
            return
        draft = self.begin(node, size == 0)
        if node.names:
            self._reserve(node, size)
        if size < len(draft):
            del draft[size:]
        else:
            draft.extend(bytes(size - len(draft)))
        self._written(node)
        if not node.writers:
            self.settle(node)

    def _touch(self, node: File) -> None:
        node.attributes.mtime = node.attributes.ctime = now = now_ns()
        node.entry = None
        self.store.keep(saved(file_key(node.number), now))

    def _written(self, node: File) -> None:
        node.is_unsaved = True
        node.attributes.mtime = node.attributes.ctime = now_ns()
        node.entry = None

    # Saving.

    def save(self, node: File) -> None:
        """Writes the part of a file's draft that the journal lacks."""
        if not node.is_unsaved or not node.names:
            return
        draft = node.draft
        assert draft is not None
        it = node.attributes
        # A program may have set the time of the content since.
        remark = saved(file_key(node.number), it.mtime) if it.mtime == it.ctime else records.whole(file_key(node.number), it)
        try:
            node.handle = self.store.drafts.write(node.path, node.handle, bytes(draft), (remark,), node.base)
        except NotKept as fault:
            self._saved(node, fault.number)
            raise
        self._saved(node, node.handle)

    @staticmethod
    def _saved(node: File, handle: int) -> None:
        """Notes that the store has a file's draft, and so knows what to compare the next one with."""
        node.handle, node.is_unsaved, node.base = handle, False, None

    def settle(self, node: File) -> None:
        """Makes a file's draft a version, and keeps the draft if that fails. The draft of a file without a name is dropped."""
        if node.draft is None:
            return
        self.save(node)
        if node.handle is None:
            return self._settled(node, node.size, 0)
        try:
            self._settled(node, len(node.draft), self.store.drafts.close(node.handle))
        except NotKept as fault:
            self._settled(node, len(node.draft), fault.number)
            raise

    def _settled(self, node: File, size: int, version: int) -> None:
        node.handle, node.is_unsaved, node.entry = None, False, None
        self._set_draft(node, None)
        self.forget_read()
        node.size, node.version = size, version or node.version

    def settle_saved(self, node: File, is_cut: bool = False) -> None:
        """Makes a version of what programs have saved in a file that some program still has open to write it. Call it before another save
        begins: a child of the program that saved may have the file, and so its release comes late. What a save cuts off becomes a version
        even if it wasn't saved."""
        if node.names and (node.is_saved or (is_cut and node.draft)):
            self.settle(node)

    def opened(self, node: File, writes: bool, is_cut: bool = False) -> None:
        """Notes that a descriptor is opened, and cuts the file off if the program wants that."""
        if writes or is_cut:
            self.settle_saved(node, is_cut)
        if is_cut:
            node.writers += 1  # so that the cut is no version
            try:
                self.truncate(node, 0)
            finally:
                node.writers -= 1
        node.opens += 1
        node.writers += writes

    def closed(self, node: File, writes: bool) -> None:
        """Notes that a descriptor is closed."""
        node.opens -= 1
        if writes:
            node.writers -= 1
            if not node.writers and node.names:
                self.settle(node)
        if not node.opens and not node.names:
            self._drop(node)

    def _drop(self, node: File) -> None:
        """Drops a file that has neither a name nor a descriptor."""
        if node.draft is not None:
            self.settle(node)
        self.tree.let_go(node)

    def hold(self, node: File) -> None:
        """Keeps the content of an open file in memory, before the file loses its last name."""
        if node.opens and node.draft is None:
            self._set_draft(node, bytearray(self.whole(node)))

    def drop_draft(self, node: File) -> None:
        """Forgets what is written into a file and in no version."""
        assert node.handle is None
        node.is_unsaved = False
        self._set_draft(node, None)

    def go_on_writing(self, node: File, handle: int, content: bytes) -> None:
        """Gives a file, which programs write, a draft that the store has already."""
        node.handle, node.is_unsaved = handle, False
        self._set_draft(node, bytearray(content))

    def settle_all(self, is_every: bool = True) -> list[tuple[File, Exception]]:
        """Makes versions of all drafts, or of those that no program writes any more. Returns the failures, each with its reason."""
        faults: list[tuple[File, Exception]] = []
        for node in list(self.drafts):
            if node.names and (is_every or not node.writers):
                try:
                    self.settle(node)
                except (ElephantError, OSError) as fault:
                    faults.append((node, fault))
        return faults


class TooBig(OSError):
    """A content would be longer than a file of the store may be."""

    def __init__(self, node: File, size: int) -> None:
        super().__init__(errno.EFBIG, f"{size} bytes for a file that has at most {MOST_BYTES}")
        self.node = node
