"""Sessions and readers of a store, and how their drafts get into the journal."""

from __future__ import annotations

from collections.abc import Iterator, Sequence
from dataclasses import dataclass, field
from typing import Optional, SupportsIndex

from ._core import as_bytes, natural
from ._errors import JournalError
from ._moments import MomentLike
from ._names import Path, path_of, spell
from ._questions import Questions
from ._replay import write_lines
from ._sessions import Reader, Session
from ._turns import Opening

# In place of the number of an unknown file.
UNKNOWN = 0


@dataclass
class Draft:
    """What the sessions of a file write: their open handles, and the lines that the journal doesn't have yet."""

    file: int
    handles: set[int] = field(default_factory=set)
    lines: list[bytes] = field(default_factory=list)


class Drafts(Questions):
    """A store whose files are written by sessions, which share a draft."""

    def __init__(self, opening: Opening) -> None:
        self._writers: dict[int, Draft] = {}
        """The draft of each open handle that writes."""
        self._drafts: dict[int, Draft] = {}
        """The draft of each file that has one."""
        self._joint: list[bytes] = []
        """In a store with a history, the lines of all drafts: two of them may be of one file, if the file of one is unknown."""
        super().__init__(opening)

    def session(self, path: Path) -> Session:
        """Opens a session, which writes the file's draft. All sessions of the file share the draft, and only they read it."""
        name = spell(path)
        with self._lock, self._change as core:
            # First what may be refused: an open handle that the journal doesn't have would end the store.
            file = core.stat(path, name).id
            number = core.ask(core.library.elephant_open_write, path, name, len(name))
            self._keep(b"open write " + name)
            self._add_writer(file, number)
            return Session(self, path_of(name), number)

    def _add_writer(self, file: int, handle: int) -> None:
        if file not in self._drafts:
            self._drafts[file] = Draft(file, set(), self._joint if self._has_history else [])
        draft = self._drafts[file]
        draft.handles.add(handle)
        self._writers[handle] = draft

    def reader(self, path: Path, *, at: Optional[MomentLike] = None, version: Optional[SupportsIndex] = None) -> Reader:
        """Opens a handle that reads a version, which is not removed as long as the handle is open."""
        name, (tag, number) = spell(path), self._tag(at, version)
        with self._lock, self._change as core:
            handle = core.ask(core.library.elephant_open_read, path, name, len(name), tag, number)
            self._keep(b"open read " + name + (b"", b"@%d", b"#%d")[tag] % ((number,) if tag else ()))
            return Reader(self, path_of(name), handle)

    def _read_handle(self, handle: int) -> bytes:
        with self._lock:
            core = self._begin()
            return core.read_handle(f"handle {handle}", handle)

    def _write_handle(self, handle: int, offset: int, data: bytes) -> None:
        place, content = natural(offset, "an offset"), as_bytes(data)
        lines = write_lines(handle, place, content) if self._journal is not None else []
        with self._lock, self._change as core:
            core.do(core.library.elephant_write, f"handle {handle}", handle, place, content, len(content))
            self._defer(handle, *lines)

    def _truncate_handle(self, handle: int, size: int) -> None:
        number = natural(size, "a size")
        with self._lock, self._change as core:
            core.do(core.library.elephant_truncate, f"handle {handle}", handle, number)
            self._defer(handle, b"truncate %d %d" % (handle, number))

    def _defer(self, handle: int, *lines: bytes) -> None:
        """Stores the lines of a session until its draft becomes a version, or until a sync."""
        if self._journal is not None:
            self._writers[handle].lines.extend(lines)
        self._note_kept()

    def _unjournaled(self) -> Iterator[Sequence[bytes]]:
        return (list(lines) for lines in {id(draft.lines): draft.lines for draft in self._drafts.values()}.values())

    def _close_handle(self, handle: int) -> Optional[int]:
        with self._lock, self._change as core:
            version = core.ask(core.library.elephant_close_handle, f"handle {handle}", handle)
            self._keep_close(handle, bool(version))
            return version or None

    def _abandon_handle(self, handle: int) -> None:
        with self._lock, self._change as core:
            core.do(core.library.elephant_abandon, f"handle {handle}", handle)
            self._keep_abandon(handle)

    def _keep_abandon(self, handle: int) -> None:
        """Puts the end of a session that was given up into the journal. With the last session of a file, what they wrote is dropped."""
        line, draft = b"abandon %d" % handle, self._writers.get(handle)
        if draft is None:
            self._keep(line)
            return
        try:
            if draft.handles == {handle}:
                # With a history the lines are those of all drafts.
                self._flush(draft, line, drops=not self._has_history)
            else:
                self._defer(handle, line)
        finally:
            if self._failure is None:  # else what the session wrote is still read
                self._forget_writer(handle, draft)

    def _keep_close(self, handle: int, makes_version: bool) -> None:
        """Puts the close of a handle into the journal. The close of the last handle makes the version, and stores what the sessions
        wrote."""
        line, draft = b"close %d" % handle, self._writers.get(handle)
        if draft is None:
            self._keep(line)
            return
        try:
            if makes_version or draft.handles == {handle}:
                self._flush(draft, line)
            else:
                self._defer(handle, line)
        finally:
            if self._failure is None:  # else what the session wrote is still read
                self._forget_writer(handle, draft)

    def _forget_writer(self, handle: int, draft: Draft) -> None:
        del self._writers[handle]
        draft.handles.discard(handle)
        if not draft.handles:
            del self._drafts[draft.file]

    def _flush(self, draft: Draft, *more: bytes, drops: bool = False) -> None:
        """Puts the lines of a draft into the journal that it doesn't have yet, and more lines in the same change. `drops`: only those that
        ended its other handles, since nothing needs what was written."""
        lines = draft.lines[:]
        draft.lines.clear()
        if not lines and not more:
            return
        try:
            kept = [line for line in lines if line.startswith((b"close ", b"abandon "))] if drops else lines
            self._keep(*kept, *more)
        except JournalError:
            if self._failure is not None:
                draft.lines[:] = lines
            raise
