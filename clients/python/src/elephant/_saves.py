"""How a content becomes a version: by one call, or by a file object."""

from __future__ import annotations

import os
from functools import partial
from typing import TYPE_CHECKING, Literal, NamedTuple, Optional, SupportsIndex, Union, overload

from ._core import Core, as_bytes
from ._drafts import UNKNOWN
from ._errors import Drafting, ElephantError, Exists, IsDirectory, NoEntry, TooBig
from ._files import MOST_BYTES, File, Mode, TextFile, mode_of
from ._library import NO_ENTRY, NOW
from ._moments import MomentLike
from ._names import Path, is_path_shown, path_of, require_shown, spell
from ._parents import Parents
from ._replay import MOST_PIECE, save_line, write_lines

if TYPE_CHECKING:
    from _typeshed import ReadableBuffer

SLOT = 512
BinaryMode = Literal["rb", "wb", "ab", "xb", "r+b", "w+b", "a+b", "x+b", "rb+", "wb+", "ab+", "xb+"]
TextMode = Literal["r", "w", "a", "x", "r+", "w+", "a+", "x+", "rt", "wt", "at", "xt"]


class _Base(NamedTuple):
    """A file when it was opened: its number, its version's number, the content, and how often numbers were made anew before."""

    file: int
    version: int
    content: bytes
    renewals: int


# The base of a file that is written anew.
_CUT_OFF = _Base(0, 0, b"", 0)


class Saves(Parents):
    """A store whose files you write and read as Python's."""

    @overload
    def open(
        self, path: Path, mode: TextMode = "r", *, at: Optional[MomentLike] = None, version: Optional[SupportsIndex] = None,
        encoding: str = "utf-8", errors: Optional[str] = None, newline: Optional[str] = None,
    ) -> TextFile: ...

    @overload
    def open(
        self, path: Path, mode: BinaryMode, *, at: Optional[MomentLike] = None, version: Optional[SupportsIndex] = None,
        encoding: str = "utf-8", errors: Optional[str] = None, newline: Optional[str] = None,
    ) -> File: ...

    @overload
    def open(
        self, path: Path, mode: str, *, at: Optional[MomentLike] = None, version: Optional[SupportsIndex] = None,
        encoding: str = "utf-8", errors: Optional[str] = None, newline: Optional[str] = None,
    ) -> Union[File, TextFile]: ...

    def open(
        self, path: Path, mode: str = "r", *, at: Optional[MomentLike] = None, version: Optional[SupportsIndex] = None,
        encoding: str = "utf-8", errors: Optional[str] = None, newline: Optional[str] = None,
    ) -> Union[File, TextFile]:
        """Opens a version for reading, or a file for writing, with the modes of Python's `open`.

        It copies the content. The file object holds what you write. Its close makes one version of all of it, and an exception in its
        `with` block makes none. Only `r` and `rb` take `at` or `version`.
        """
        wanted = mode_of(mode)
        name = spell(path)
        if not wanted.writes:
            file = File(path_of(name), wanted, self.read(path, at=at, version=version))
        else:
            if at is not None or version is not None:
                raise ValueError("only the current version can be written")
            base = self._base(path, name, wanted)
            content = b"" if base is None or wanted.kind in "wx" else base.content
            file = File(path_of(name), wanted, content, partial(self._commit, path, name, wanted.kind, base), base is None)
            if wanted.kind == "a":
                file.seek(0, os.SEEK_END)
        return TextFile(file, encoding, errors, newline) if wanted.is_text else file

    def _base(self, path: Path, name: bytes, mode: Mode) -> Optional[_Base]:
        """Returns the content of the file, or None if the file is to be made. Raises the refusal of the mode or the path."""
        with self._lock:
            self._refuse_changes()
            core = self._begin()
            try:
                row = core.stat(path, name)
            except NoEntry:
                if mode.kind == "r" or not core.stat(path, name.rpartition(b"/")[0] or b"/").is_directory:
                    raise
                return None
            if row.is_directory:
                raise IsDirectory(path_of(name))
            if mode.kind == "x":
                raise Exists(path_of(name))
            if mode.kind == "w":
                return _CUT_OFF
            file, version = row.id, row.version
            return _Base(file, version, core.read(path, name, NOW, 0), self._renewals)

    def save(self, path: Path, content: ReadableBuffer, *, parents: bool = False) -> int:
        """Makes the content the file's newest version, whole or not at all, and returns its number. Makes the file if it doesn't exist,
        with an empty version 1 before this one, and with `parents` the directories above it that are missing.

        It makes a version also if the content is that of the version before.
        """
        name, data = spell(path), as_bytes(content)
        _refuse_size(name, len(data))
        with self._lock:
            if parents:
                self.make_parents(path)
            with self._change as core:
                return self._save(core, path, name, data)

    def _commit(self, path: Path, name: bytes, kind: str, base: Optional[_Base], content: bytes) -> int:
        """Makes a version of a file object's content. Of a long one it writes only the difference, if the file has not changed since it was
        opened."""
        with self._lock, self._change as core:
            if base is not None and kind != "w":
                row = core.stat(path, name)
                is_same = (row.id, row.version, self._renewals) == (base.file, base.version, base.renewals)
                if len(content) > MOST_PIECE and is_same:
                    start, end = _changed(base.content, content)
                    return self._write(core, path, name, content[start:end], start, len(content))
            if kind == "x" and self._is_there(core, path, name):
                raise Exists(path_of(name))
            if base is None and not content and not self._is_there(core, path, name):
                return self._make_empty(core, path, name)
            return self._save(core, path, name, content)

    def _make_empty(self, core: Core, path: Path, name: bytes) -> int:
        """Makes a file, whose empty version 1 is the content."""
        require_shown(name)
        core.ask(core.library.elephant_create, path, name, len(name))
        self._keep(b"create " + name)
        return 1

    @staticmethod
    def _is_there(core: Core, path: Path, name: bytes) -> bool:
        """Whether a path names something. Raises what else refuses it."""
        code = core.code_at(name)
        if code not in (0, IsDirectory.number, NO_ENTRY):
            core.refuse(code, path)
        return code != NO_ENTRY

    def _save(self, core: Core, path: Path, name: bytes, data: bytes) -> int:
        """Saves a whole content, by one line of the journal. A content that is too long for a line is written by a session."""
        if self._makes_hidden(core, name):
            require_shown(name)
        line = b"save " + name if self._journal is None else save_line(name, data)
        if line is None:
            return self._write(core, path, name, data, 0, len(data))
        version = core.ask(core.library.elephant_save, path, name, len(name), data, len(data))
        self._keep(line)
        return version

    @staticmethod
    def _makes_hidden(core: Core, name: bytes) -> bool:
        """Whether a save would make a file of a name that no folder can show."""
        return not is_path_shown(name) and core.code_at(name) == NO_ENTRY

    def _write(self, core: Core, path: Path, name: bytes, data: bytes, offset: int, size: int) -> int:
        """Writes data into the draft of a file, sets its length, and closes it. All of it is one change of the journal."""
        if self._drafts:
            self._refuse_draft(core, path, name)
        lines: list[bytes] = []
        try:
            version = self._fill(core, path, self._opened(core, path, name, lines), data, offset, size, lines)
        except ElephantError:
            if lines and self._failure is None:
                self._keep(*lines)
            raise
        self._keep(*lines)
        return version

    def _refuse_draft(self, core: Core, path: Path, name: bytes) -> None:
        if UNKNOWN in self._drafts:
            self._flush(self._drafts[UNKNOWN])
        try:
            row = core.stat(path, name)
        except NoEntry:
            return
        if not row.is_directory and row.id in self._drafts:
            raise Drafting(path_of(name))

    @staticmethod
    def _opened(core: Core, path: Path, name: bytes, lines: list[bytes]) -> int:
        """Returns a handle that writes the file, which it makes if there is none."""
        code = core.library.elephant_open_write(core.handle, name, len(name), core.number_at)
        if code == NO_ENTRY:
            core.ask(core.library.elephant_create, path, name, len(name))
            lines.append(b"create " + name)
            code = core.library.elephant_open_write(core.handle, name, len(name), core.number_at)
        if code:
            core.refuse(code, path)
        core.is_ahead = True
        lines.append(b"open write " + name)
        return core.number

    def _fill(self, core: Core, path: Path, handle: int, data: bytes, offset: int, size: int, lines: list[bytes]) -> int:
        """Fills a draft and closes it. If that fails, it gives the draft up, so that no version has a part of the data."""
        library, opened = core.library, len(lines)
        try:
            if data:
                core.do(library.elephant_write, path, handle, offset, data, len(data))
                if self._journal is not None:
                    lines.extend(write_lines(handle, offset, data))
            core.do(library.elephant_truncate, path, handle, size)
            lines.append(b"truncate %d %d" % (handle, size))
            version = core.ask(library.elephant_close_handle, path, handle)
        except ElephantError:
            del lines[opened:]
            self._give_up(core, path, handle, lines)
            raise
        lines.append(b"close %d" % handle)
        if not version:  # the draft has a session that a line of a store with a history opened
            raise Drafting(f"{path_of(spell(path))}, and the draft has the content")
        return version

    def _give_up(self, core: Core, path: Path, handle: int, lines: list[bytes]) -> None:
        """Abandons the draft of a failed save."""
        try:
            core.do(core.library.elephant_abandon, path, handle)
            lines.append(b"abandon %d" % handle)
        except ElephantError:
            # A history has no memory for it. The draft stays open, so that it becomes no version.
            self._fail("there was no memory to give up a save")
            self._add_writer(_file_of(core, path, spell(path)), handle)
            raise


def _refuse_size(name: bytes, size: int) -> None:
    if size > MOST_BYTES:
        raise TooBig(f"{path_of(name)}: a content has at most {MOST_BYTES} bytes")


def _file_of(core: Core, path: Path, name: bytes) -> int:
    """Returns the number of a file, or UNKNOWN if there is no memory for the answer."""
    try:
        return int(core.stat(path, name).id)
    except ElephantError:
        return UNKNOWN


def _changed(old: bytes, new: bytes) -> tuple[int, int]:
    """Returns the part of the new content that differs, in whole slots; if both are equal, the first byte."""
    shorter = min(len(old), len(new))
    start = 0
    while start < shorter and old[start:start + SLOT] == new[start:start + SLOT]:
        start += SLOT
    start = min(start, shorter)
    if start == len(new):
        return (0, min(1, len(new))) if len(old) == len(new) else (start, start)
    end = len(new)
    while len(old) == len(new) and end - SLOT > start and old[end - SLOT:end] == new[end - SLOT:end]:
        end -= SLOT
    return start, end
