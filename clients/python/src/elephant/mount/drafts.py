"""How a content becomes the draft of a file in the store, and then its next version. The journal gets the parts that differ."""

from __future__ import annotations

from collections.abc import Iterable
from functools import partial
from typing import TYPE_CHECKING, NamedTuple, Optional

from .. import JournalError
from ..keeping import Core, Lines, Opposite

if TYPE_CHECKING:
    from .store import MountStore

BLOCK = 4096
# A content of at most so many bytes is saved whole: so it shares no block with the version before.
MOST_WHOLE = 4000


class NotKept(JournalError):
    """The journal can't be written. The store has made the change, and returned `number`: a handle or a version."""

    def __init__(self, subject: str, number: int) -> None:
        super().__init__(subject)
        self.number = number


class Base(NamedTuple):
    """What a file held when a program began to write it: the numbers of the file and of the version, and the content."""

    file: int
    version: int
    content: bytes


class Drafts:
    """The open handles of a store that write, each with a draft of its file."""

    def __init__(self, store: MountStore) -> None:
        self._store = store
        self._files: dict[int, int] = {}
        """By the handle, the number of its file."""
        self._held: dict[int, bytes] = {}
        """By the number of a file, what the store has as its draft, if that is known."""

    # Drafts.

    def write(self, path: bytes, handle: Optional[int], content: bytes, remarks: Iterable[bytes] = (), base: Optional[Base] = None) -> int:
        """Makes a content a file's draft, which then counts as changed, and opens a handle if there is none. Returns the handle. The
        journal then has the content.

        `base`: what the file held before, if the caller knows it. If that is still what the file holds, it isn't read again.
        """
        self._store.memory.require_for(len(content))
        is_done = False
        try:
            with self._store.changing() as (core, lines):
                if handle is None:
                    handle = self._open(core, lines, path, base)
                self._fill(core, lines, path, handle, content)
                lines += remarks
                is_done = True
                return handle
        except JournalError as fault:
            if handle is None or not is_done:
                raise
            raise NotKept(str(fault), handle) from fault

    def close(self, handle: int) -> int:
        """Closes a handle. Returns the number of the version that the close made, or 0."""
        version = -1
        try:
            with self._store.changing() as (core, lines):
                version = self._close(core, lines, handle)
                return version
        except JournalError as fault:
            if version < 0:
                raise
            raise NotKept(str(fault), version) from fault

    def save(self, path: bytes, content: bytes, remarks: Iterable[bytes] = ()) -> int:
        """Makes a content the next version of a file. Returns the version's number, or 0 if the file was empty and stays so.

        It is one event, if the content is short and no handle writes the file.
        """
        if not 0 < len(content) <= MOST_WHOLE or self._is_written(path):
            return self.close(self.write(path, None, content, remarks))
        version = 0
        self._store.memory.require_for(len(content))
        try:
            with self._store.changing() as (core, lines):
                old = int(core.stat(path, path).version)
                version = core.ask(core.library.elephant_save, path, path, len(path), content, len(content))
                lines += (b"save " + path, *remarks)
                self._store.opposites.append(Opposite(partial(self._go_back, path, old)))
                return version
        except JournalError as fault:
            if not version:
                raise
            raise NotKept(str(fault), version) from fault

    def _is_written(self, path: bytes) -> bool:
        """Whether a handle writes the file at a path."""
        return int(self._store.stat_row(path).id) in self._files.values()

    def replace(
        self, path: bytes, source: bytes, content: bytes, is_fresh: bool, remarks: Iterable[bytes], keeps_open: bool = False
    ) -> tuple[int, int]:
        """Makes a content the next version of a file, and removes the name of the file that it is from. Returns 0 and the version's number,
        or, if the content is still written, the open handle and 0.

        If the other file is fresh, its versions are due at once, since this file now has its content.
        """
        version = 0
        self._store.memory.require_for(len(content))
        with self._store.changing() as (core, lines):
            handle = self._open(core, lines, path)
            self._fill(core, lines, path, handle, content)
            if not keeps_open:
                version = self._close(core, lines, handle)
            if is_fresh:
                self._store.do(core, lines, b"policy", source, b"one")
            self._store.do(core, lines, b"unlink", source)
            self._store.note_moved(core, source)
            lines += remarks
            return handle if keeps_open else 0, version

    def open_reader(self, path: bytes, tag: int, number: int) -> int:
        """Opens a handle that protects a version from removal."""
        with self._store.changing() as (core, lines):
            handle = core.ask(core.library.elephant_open_read, path, path, len(path), tag, number)
            lines.append(b"open read " + path + (b"", b"@%d", b"#%d")[tag] % ((number,) if tag else ()))
            return handle

    # The steps of a change, and what takes each back.

    def _open(self, core: Core, lines: Lines, path: bytes, base: Optional[Base] = None) -> int:
        """Opens a handle that writes a file."""
        row = core.stat(path, path)
        file, version, length = int(row.id), int(row.version), int(row.length)
        handle = core.ask(core.library.elephant_open_write, path, path, len(path))
        lines.append(b"open write " + path)
        if file not in self._files.values():  # else there is a draft already, which may differ from the version
            self._note_held(file, version, length, base)
        self._files[handle] = file
        self._store.opposites.append(Opposite(partial(self._end, handle), handle, path))
        return handle

    def _note_held(self, file: int, version: int, length: int, base: Optional[Base]) -> None:
        """Notes what a new draft has, if that is known without a read."""
        if not length:
            self._held[file] = b""
        elif base is not None and (base.file, base.version) == (file, version):
            self._held[file] = base.content

    def _forget(self, handle: int) -> None:
        """Forgets a handle that was closed, which may be a reader."""
        self._held.pop(self._files.pop(handle, 0), None)

    def _end(self, handle: int, core: Core, lines: Lines) -> None:
        """Gives up a handle that a failed change has opened. What the change has written is dropped, unless another handle writes the
        file."""
        core.do(core.library.elephant_abandon, "", handle)
        lines.append(b"abandon %d" % handle)
        self._forget(handle)

    def _fill(self, core: Core, lines: Lines, path: bytes, handle: int, content: bytes) -> None:
        """Makes a content that of a draft."""
        file, done = self._files[handle], list[tuple[int, int]]()
        old = self._held.pop(file, None)
        if old is None:
            old = core.read_handle(path, handle)
        if not self._is_only_of_change(file, handle):
            self._store.opposites.append(Opposite(partial(self._empty, path, handle, old, done), handle))
        for start, end in changed_parts(old, content):
            data = content[start:end]
            core.do(core.library.elephant_write, path, handle, start, data, len(data))
            done.append((start, end))
            lines.append(b"write %d" % handle)
        if len(content) < len(old):
            core.do(core.library.elephant_truncate, path, handle, len(content))
            done.append((len(content), len(old)))
            lines.append(b"truncate %d" % handle)
        self._held[file] = content

    def _is_only_of_change(self, file: int, handle: int) -> bool:
        """Whether a handle was opened by the change that is being made, and no other writes the file."""
        is_opened = any(it.handle == handle and it.path for it in self._store.opposites)
        return is_opened and list(self._files.values()).count(file) == 1

    def _empty(self, path: bytes, handle: int, old: bytes, done: list[tuple[int, int]], core: Core, lines: Lines) -> None:
        """Gives a draft back what it had before a failed change, in the parts that were written."""
        while done:
            start, end = done[-1]
            data = old[start:end]
            if data:
                core.do(core.library.elephant_write, path, handle, start, data, len(data))
            core.do(core.library.elephant_truncate, path, handle, len(old))
            lines.append(b"truncate %d" % handle)
            del done[-1]
        self._held[self._files[handle]] = old

    def _close(self, core: Core, lines: Lines, handle: int) -> int:
        """Closes a handle. Returns the number of the version that this made, or 0."""
        opposites = self._store.opposites
        path = next((it.path for it in opposites if it.handle == handle and it.path), None)
        old = None if path is None else int(core.stat(path, path).version)
        version = core.ask(core.library.elephant_close_handle, path or "", handle)
        lines.append(b"close %d" % handle)
        self._forget(handle)
        opposites[:] = [it for it in opposites if it.handle != handle]
        self._store.has_saved = self._store.has_saved or version > 0
        if version and path is not None:
            opposites.append(Opposite(partial(self._go_back, path, old)))
        return version

    def _go_back(self, path: bytes, old: int, core: Core, lines: Lines) -> None:
        """Makes what a file held before a change its next version."""
        core.ask(core.library.elephant_revert, path, path, len(path), old)
        lines.append(b"revert %b %d" % (path, old))


def changed_parts(old: bytes, new: bytes) -> list[tuple[int, int]]:
    """Returns the parts of the new content that differ from the old one, in whole blocks. If none differs, it returns the first byte, so
    that the content counts as changed."""
    parts: list[tuple[int, int]] = []
    for start in range(0, len(new), BLOCK):
        end = min(start + BLOCK, len(new))
        if old[start:end] == new[start:end] and end <= len(old):
            continue
        if parts and parts[-1][1] == start:
            parts[-1] = parts[-1][0], end
        else:
            parts.append((start, end))
    return parts or ([(0, 1)] if new else [])
