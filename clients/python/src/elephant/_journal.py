"""A journal: the file that stores a store. docs/EMBED.md describes its form.

Each line is a checksum, a mark and a line of the script language. The marks group lines into changes, and each change is stored whole
or not at all: `=` is a change of one line, `<`, `-` and `>` are the first, a middle and the last line of a longer one. A checksum covers
all lines up to its own, so it detects a line that was changed, left out, doubled or moved. Only a part of a change is a torn end;
anything else is damage, because to cut it off in silence could lose whole journals.

Reads after a failure are answered from the journal, since a change that the journal lacks can't be taken out of the core.
"""

from __future__ import annotations

import errno
import fcntl
import os
import re
import stat
import time
from collections.abc import Generator, Iterator, Sequence
from contextlib import suppress
from itertools import count
from typing import BinaryIO, Optional
from zlib import crc32

from ._errors import ElephantError, JournalDamaged, JournalError, JournalLocked, JournalLost, ReadOnly
from ._space import FULL, NoSpace, allocate

FORM = b"# elephant journal 1"
PREFIX = len("00000000 = ")
ONE, FIRST, MIDDLE, LAST = b"= ", b"< ", b"- ", b"> "
# The most bytes of a line, with its line feed.
MOST_LINE = 9000
# What a line that was cut off begins with: after a whole change, and within one.
_CUT_LINE = {
    is_within: re.compile(rb"[0-9a-f]{1,8}|[0-9a-f]{8} (?:[%b](?: [ -~]*)?)?" % marks)
    for is_within, marks in ((False, b"=<"), (True, b">-"))
}
# How often a journal that another process writes is read again, if a line seems damaged: its writer may have taken back a failed change
# and written another one meanwhile.
_TRIES, _PAUSE = 5, 0.02
_COPIED_AT_ONCE, _RESERVED_AT_ONCE = 1 << 20, 1 << 20

_HEADER_SUM = crc32(b"%b%b\n" % (ONE, FORM))
HEADER = b"%08x %b%b\n" % (_HEADER_SUM, ONE, FORM)
Whole = Generator[list[bytes], None, Optional[int]]


class Journal:
    """An open journal, which only this process writes. First read `changes` to its end, then `append` adds to it.

    `read_only`: nothing is locked or written, and another process may write it meanwhile. `repair`: from a damaged line on, the rest is
    copied beside the journal and cut off; a journal that is read only is left as it is.
    """

    def __init__(self, path: str, syncs_each: bool, wait: float, read_only: bool = False, repair: bool = False) -> None:
        self.path, self._syncs_each = path, syncs_each
        self.file = -1
        """The number of the open file, or -1."""
        self.size = 0
        """The length up to the end of the last whole change, in bytes."""
        self.read_only, self._repairs = read_only, repair
        self.cut, self.copy = 0, ""
        """How many bytes after the last whole change were cut off or left out, and the path of their copy."""
        self._lines = 1
        """The lines up to the end of the last whole change."""
        self._is_torn = False
        """Whether a part of a change that failed follows it."""
        self._reserved = 0
        """Up to which byte the disk has space for it."""
        try:
            self.path = os.path.realpath(path)
            is_new = self._open(time.monotonic() + wait)
            self._begin(is_new)
        except (OSError, ValueError) as fault:
            self.close()
            if isinstance(fault, ElephantError):
                raise
            raise JournalError(f"{self.path!r} can't be opened: {getattr(fault, 'strerror', None) or fault}") from fault
        except BaseException:
            self.close()
            raise

    # Opening.

    def _open(self, deadline: float) -> bool:
        """Opens the file and locks it. Returns whether it made it. The last owner may have replaced the file before the lock; then this
        opens the new one."""
        while True:
            is_new = self._open_file()
            found = os.fstat(self.file)
            self.identity = found.st_ino, found.st_dev
            if not stat.S_ISREG(found.st_mode):
                raise JournalError(f"{self.path} is no regular file")
            if self.read_only:
                return False
            self._lock(deadline)
            with suppress(FileNotFoundError):
                if os.path.samestat(found, os.stat(self.path)):
                    return is_new
            self.close()

    def _open_file(self) -> bool:
        """Opens the file, or makes it for its owner only. Returns whether it made it."""
        # Without a wait for the other end of a pipe.
        flags = os.O_CLOEXEC | os.O_NONBLOCK | (os.O_RDONLY if self.read_only else os.O_RDWR | os.O_APPEND)
        while True:
            try:
                self.file = os.open(self.path, flags)
                return False
            except FileNotFoundError:
                if self.read_only:
                    raise
            with suppress(FileExistsError):
                self.file = os.open(self.path, flags | os.O_CREAT | os.O_EXCL, 0o600)
                return True

    def _lock(self, deadline: float) -> None:
        while True:
            try:
                return fcntl.flock(self.file, fcntl.LOCK_EX | fcntl.LOCK_NB)
            except BlockingIOError:
                if time.monotonic() >= deadline:
                    raise JournalLocked(f"another store has {self.path}") from None
            time.sleep(0.02)

    def _begin(self, is_new: bool) -> None:
        """Reads the header, or writes what a new journal or one with a part of a header lacks of it."""
        found = os.pread(self.file, len(HEADER), 0)
        self._checksum, self.size = _HEADER_SUM, len(HEADER)
        if found == HEADER:
            return
        if not HEADER.startswith(found):
            raise JournalDamaged(f"{self.path} does not begin as a journal", line=1)
        self.cut = len(found)
        if self.read_only:
            self.size = len(found)
            return
        try:
            self._write(HEADER[len(found):])
            os.fsync(self.file)
            self.sync_folder()
        except OSError:
            with suppress(OSError):
                os.ftruncate(self.file, len(found))
                if is_new:
                    os.unlink(self.path)
            raise

    def sync_folder(self) -> None:
        folder = os.open(os.path.dirname(self.path), os.O_RDONLY)
        try:
            os.fsync(folder)
        finally:
            os.close(folder)

    # Reading.

    @property
    def next_place(self) -> tuple[int, int]:
        """The line and the byte at which the next change begins. Within a loop over `changes`, those of the change of this turn."""
        return self._lines + 1, self.size

    def changes(self) -> Iterator[list[bytes]]:
        """Yields each whole change as its lines. Cuts off a change that was not written to its end. Raises JournalDamaged if what follows
        the last whole change is anything else."""
        damaged = yield from self._whole_changes()
        for _ in range(_TRIES if self.read_only else 0):
            if damaged is None:
                break
            time.sleep(_PAUSE)
            damaged = yield from self._whole_changes()
        if damaged is None:
            self._cut_off()
        elif self._repairs:
            self.end_here()
        else:
            raise self.damage(damaged)

    def end_here(self) -> None:
        """Ends the journal before the change that was read last: copies the rest into a file beside it, and cuts it off."""
        if not self.read_only:
            self._copy_rest()
        self._cut_off()

    def _whole_changes(self) -> Whole:
        """Yields the whole changes that follow. Returns None if nothing follows the last of them, or a part of a change; else the number
        of the line that is damaged."""
        number, sum_now, size = self._lines, self._checksum, self.size
        change: list[bytes] = []
        with os.fdopen(os.dup(self.file), "rb", buffering=1 << 20) as file:
            file.seek(size)
            while True:
                raw = file.readline(MOST_LINE + 1)
                if not raw:
                    return None
                number += 1
                body = raw[PREFIX - 2:]
                checksum = crc32(body, sum_now)
                if raw[:PREFIX - 2] != b"%08x " % checksum or raw[-1:] != b"\n":
                    return None if _is_cut(raw, sum_now, bool(change)) else number
                sum_now, size = checksum, size + len(raw)
                mark = body[:2]
                if mark not in ((LAST, MIDDLE) if change else (ONE, FIRST)) or len(body) < 4:
                    return number
                change.append(body[2:-1])
                if mark in (ONE, LAST):
                    yield change
                    change = []
                    self._checksum, self.size, self._lines = sum_now, size, number

    def again(self) -> Iterator[list[bytes]]:
        """Yields all changes once more, up to the one that was appended last. Raises JournalLost if they are no longer there."""
        end = self._lines, self._checksum, self.size
        self._lines, self._checksum, self.size = 1, _HEADER_SUM, len(HEADER)
        try:
            for change in self._whole_changes():
                if self.size >= end[2]:
                    break
                yield change
            if (self._lines, self._checksum, self.size) != end:
                raise JournalLost(f"{self.path} no longer has what was written to it")
        finally:
            self._lines, self._checksum, self.size = end

    def damage(self, line: int, reason: str = "is damaged") -> JournalDamaged:
        """Returns the error of a damaged line of the change that follows the last whole one."""
        place = f"line {line} of {self.path}, in the change that begins at byte {self.size}"
        return JournalDamaged(f"{place}, {reason}", line, self.size)

    def _copy_rest(self) -> None:
        """Copies what follows the last whole change into a new file beside the journal."""
        for number in count(1):
            copy = f"{self.path}.damaged-{number}"
            with suppress(FileExistsError):
                file = os.open(copy, os.O_WRONLY | os.O_CREAT | os.O_EXCL | os.O_CLOEXEC, 0o600)
                break
        try:
            place = self.size
            while piece := os.pread(self.file, _COPIED_AT_ONCE, place):
                _write_all(file, piece)
                place += len(piece)
            os.fsync(file)
            self.sync_folder()
        except OSError as fault:
            os.unlink(copy)
            raise JournalError(f"what follows byte {self.size} of {self.path} can't be copied, so it stays there: {fault}") from fault
        finally:
            os.close(file)
        self.copy = copy

    def _cut_off(self) -> None:
        """Cuts off what follows the last whole change."""
        end = os.fstat(self.file).st_size
        if end <= self.size:
            return
        self.cut += end - self.size
        if not self.read_only:
            try:
                os.ftruncate(self.file, self.size)
                os.fsync(self.file)
            except OSError as fault:
                raise JournalError(f"{self.path} can't be cut after its last whole change: {fault}") from fault

    # Writing.

    def check(self) -> None:
        """Raises JournalLost if the file is not as the last change left it, or if its path names another file or none. Raises JournalError
        if it still has a part of a change that failed."""
        if self._is_torn:
            raise JournalError(f"{self.path} still has a part of a change that failed")
        if not self.read_only:
            self._check_length(self.size)

    def _check_length(self, size: int) -> None:
        """Does so with one question for the path, as each change asks it."""
        try:
            named = os.stat(self.path)
        except OSError as fault:
            reason = "was deleted or renamed" if fault.errno == errno.ENOENT else f"can't be found: {fault.strerror}"
            raise JournalLost(f"{self.path} {reason}, so what is written to it would be lost") from fault
        if (named.st_ino, named.st_dev) != self.identity:
            raise JournalLost(f"{self.path} was replaced by another file, so what is written to it would be lost")
        if named.st_size != size:
            raise JournalLost(f"{self.path} has {named.st_size} bytes, and not the {size} that were written: another program changed it")

    def append(self, lines: Sequence[bytes]) -> None:
        """Adds a change. If it can't be written, removes all of it again and raises JournalError."""
        if self.read_only:
            raise ReadOnly(self.path)
        try:
            text, checksum = _spelled(lines, self._checksum)
            if self._is_torn:
                self.take_back()
            self._write(text)
            if self._syncs_each:
                os.fdatasync(self.file)
            self._check_length(self.size + len(text))
        except JournalLost:
            self._take_back_from_lost(len(text))
            raise
        except (OSError, MemoryError) as fault:
            self._take_back_quietly()
            raise JournalError(f"{self.path} can't be written: {fault if str(fault) else 'there is no memory'}") from fault
        except BaseException:
            self._take_back_quietly()
            raise
        self._checksum, self.size, self._lines = checksum, self.size + len(text), self._lines + len(lines)

    def _write(self, text: bytes) -> None:
        _write_all(self.file, text)

    def take_back(self) -> None:
        """Cuts off what a failed append left. Raises JournalLost if the file is shorter than what was written, and OSError."""
        self._reserved = 0
        if os.fstat(self.file).st_size > self.size:
            os.ftruncate(self.file, self.size)
        self._is_torn = False
        self.check()

    def _take_back_quietly(self) -> None:
        """Does so if it can: else the next append does it, or the next opening cuts it off, as the change isn't whole."""
        self._is_torn = True
        with suppress(OSError, JournalError):
            self.take_back()

    def _take_back_from_lost(self, length: int) -> None:
        """Takes a change out of a file that has another name now, if nothing else was changed in it."""
        with suppress(OSError):
            if os.fstat(self.file).st_size == self.size + length:
                os.ftruncate(self.file, self.size)

    def sync(self) -> None:
        """Writes all changes to the disk."""
        if self.read_only:
            return
        self.check()
        try:
            os.fdatasync(self.file)
        except OSError as fault:
            raise JournalError(f"{self.path} can't be synced: {fault}") from fault

    def reserve(self, length: int) -> None:
        """Makes sure that the disk has space for so many bytes after the last change, if it can reserve space. Raises NoSpace."""
        wanted = self.size + length
        if wanted <= self._reserved:
            return
        for end in (wanted + _RESERVED_AT_ONCE, wanted):
            # Some file systems can't reserve: there, only an append finds out that the disk is full.
            if allocate(self.file, self.size, end - self.size) not in FULL:
                self._reserved = end
                return
        raise NoSpace

    def release(self) -> None:
        """Gives back the reserved space that isn't used."""
        os.ftruncate(self.file, self.size)
        self._reserved = 0

    def close(self) -> None:
        """Closes the file, and frees the lock."""
        if self.file >= 0:
            os.close(self.file)
            self.file = -1

    def __del__(self) -> None:
        self.close()


def changes_in(path: str, end: int, start: int = len(HEADER)) -> Iterator[list[bytes]]:
    """Yields the whole changes between two places of a journal, each the end of a change. Raises JournalError for a line that is damaged.

    It takes no lock, so the journal's owner may append to it meanwhile.
    """
    change: list[bytes] = []
    with open(path, "rb", buffering=1 << 20) as file:
        checksum = _checksum_before(file, start)
        file.seek(start)
        while start < end:
            raw = file.readline()
            body, start = raw[PREFIX - 2:], start + len(raw)
            checksum = crc32(body, checksum)
            if raw[:PREFIX - 2] != b"%08x " % checksum or raw[-1:] != b"\n" or (body[:2] in (ONE, FIRST)) == bool(change):
                raise JournalError(f"{path} is damaged before byte {start}")
            change.append(body[2:-1])
            if body[:2] in (ONE, LAST):
                yield change
                change = []
    if change or start != end:
        raise JournalError(f"{path} has no end of a change at byte {end}")


def _checksum_before(file: BinaryIO, end: int) -> int:
    """Returns the checksum of a journal's lines up to a place."""
    if end == len(HEADER):
        return _HEADER_SUM
    file.seek(max(end - MOST_LINE, 0))
    last = file.read(end - file.tell()).rstrip(b"\n").rpartition(b"\n")[2]
    return int(last[:8], 16)


def _write_all(file: int, text: bytes) -> None:
    written = os.write(file, text)
    while written < len(text):
        written += os.write(file, text[written:])


def _spelled(lines: Sequence[bytes], checksum: int) -> tuple[bytes, int]:
    """Returns the text of a change that follows a checksum, and its own checksum."""
    last, parts = len(lines) - 1, []
    mark = FIRST if last else ONE
    for at, line in enumerate(lines):
        body = b"%b%b\n" % (mark, line)
        checksum = crc32(body, checksum)
        parts.append(b"%08x %b" % (checksum, body))
        mark = MIDDLE if at + 1 < last else LAST
    return b"".join(parts), checksum


def _is_cut(raw: bytes, sum_before: int, is_within: bool) -> bool:
    """Whether the last bytes of a journal are a part of a line: not longer than one, of its form, and no whole one whose line feed was
    changed."""
    if len(raw) > MOST_LINE or not _CUT_LINE[is_within].fullmatch(raw):
        return False
    body = raw[PREFIX - 2:-1] + b"\n"
    return raw[:PREFIX - 2] != b"%08x " % crc32(body, sum_before)
