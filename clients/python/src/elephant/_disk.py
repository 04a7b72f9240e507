"""The file of a store that C and Rust open too: how the bytes of its journal get to the disk and back, as include/elephant_file.h says.

What bytes mean is decided in the library, which is proved; here they are only carried. While the file is open it is longer than its
changes: the space ahead has a text, again and again, so that each place has the byte at its offset modulo 16.
"""

from __future__ import annotations

import errno
import fcntl
import os
import stat
import time
from collections.abc import Callable
from contextlib import suppress
from itertools import count
from typing import Optional

from ._answers import Limits
from ._at_once import DONE, NOT_ORDINARY, NOTHING, SYNC, AtOnce, at_once
from ._core import Core, limits_in
from ._errors import BadJournal, ElephantError, JournalDamaged, JournalError, JournalLocked, JournalLost
from ._space import FULL, NoSpace, allocate

# In bytes: what a disk writes wholly or not at all, what a file system gives at once, and the space ahead.
BLOCK, PAGE, LEAST_AHEAD, MOST_AHEAD = 512, 4096, 1 << 16, 1 << 20
LONG = 1 << 20
"""The length from which on a file is compacted by itself."""
FILLING = b"not written yet "
_FILLED = FILLING * (MOST_AHEAD // len(FILLING) + PAGE)
# Where a file has the length of its checkpoint, in eight bytes, the highest first, and where the checkpoint begins.
_LENGTH_AT, _CHECKPOINT_AT = 17, 25
# The limits are in so many of the last bytes of a checkpoint.
_LIMITS_WITHIN = 128
# What follows the whole changes.
_NOTHING, _CUT, _DAMAGE = range(3)
# How often a file that another process writes is read again, if it seems damaged.
_TRIES, _PAUSE = 4, 0.01
# How much more space is reserved than is asked for.
_RESERVED_AT_ONCE = 1 << 20
Look = Callable[[bytes, int, int], None]
"""Gets the bytes of a file that was read, and where its changes begin and end."""


def filling(start: int, end: int) -> bytes:
    """Returns what the space ahead has between two places."""
    at = start % len(FILLING)
    return _FILLED[at:at + end - start]


def filled_from(data: bytes, start: int, end: int) -> int:
    """Returns where the filling begins that goes on to the end."""
    while end > start and data[end - 1] == FILLING[(end - 1) % len(FILLING)]:
        end -= 1
    return end


def is_blank(data: bytes, start: int, end: int) -> bool:
    """Whether nothing was written between two places of a block. A block that a crash kept from being filled may have zeros."""
    piece = data[start:end]
    return piece == filling(start, end) or not any(piece)


def written_end(data: bytes, start: int, end: int) -> int:
    """Returns where what was written ends: all blocks after it are blank."""
    while end > start:
        block = max((end - 1) // BLOCK * BLOCK, start)
        if not is_blank(data, block, end):
            return filled_from(data, block, end)
        end = block
    return start


def first_gap(data: bytes, start: int, end: int) -> int:
    """Returns the first place from which on what was to be written isn't there: a part of a block that still has the filling, all of it, or
    the place after which nothing was written. That a block ends with bytes of the filling says nothing, since a change may have them."""
    written = written_end(data, start, end)
    while start < end:
        following = min(start // BLOCK * BLOCK + BLOCK, end)
        gap = filled_from(data, start, following)
        if gap == start or written <= gap < following:
            return gap
        start = following
    return end


def open_bytes(data: bytes, history: bool) -> Core:
    """Opens the store that the bytes of a file keep. Damage is a cut change if the bytes before the first gap end within the change."""
    core = Core(Limits(), history, file=data)
    whole, end = core.whole, len(data)
    if core.rest != _DAMAGE:
        return core
    if data[whole] == FILLING[whole % len(FILLING)] and written_end(data, whole, end) == whole:
        core.rest = _NOTHING
        return core
    gap = first_gap(data, whole, end)
    if gap == whole:
        core.rest = _CUT
    if gap in (whole, end):
        return core
    core.free()
    return Core(Limits(), history, file=data[:gap])


def start_of(data: bytes) -> int:
    """Returns how many bytes a file was made with."""
    return _CHECKPOINT_AT + int.from_bytes(data[_LENGTH_AT:_CHECKPOINT_AT], "big")


def sync_data(file: int) -> None:
    """Makes that last what a file has. Raises OSError."""
    try:
        os.fdatasync(file)
    except OSError:
        # The system may go on showing what it couldn't write. The next opening is to read what the disk has.
        with suppress(OSError):
            os.posix_fadvise(file, 0, 0, os.POSIX_FADV_DONTNEED)
        raise


class Disk:
    """An open file of a store, which only this process writes. One call at a time."""

    def __init__(self, path: str, syncs_each: bool, wait: float, read_only: bool = False, repair: bool = False) -> None:
        self.path, self._given, self._syncs_each, self.read_only, self._repairs = path, path, syncs_each, read_only, repair
        self.file = -1
        self.length, self.start, self._size = 0, 0, 0
        """How many bytes count, how many of them the file was made with, and its length with the space ahead."""
        self.limits = Limits()
        """Of the store in the file."""
        self.cut, self.copy, self.is_new = 0, "", False
        """How many bytes of an unfinished change were left out, the path of the copy of a damaged end, and whether the file was made."""
        self._is_torn = False
        """Whether an append or a longer space ahead was given up, so that there may be bytes after the changes."""
        self._stuck = ""
        """Why no sync can succeed any more: what the system couldn't write once, it may have dropped."""
        self.identity = (0, 0)
        """The numbers of the open file and of its device."""
        self.has_unsynced = False
        """Whether there are changes that no sync has followed."""
        self._reserved = 0
        """Up to which byte the disk has space for the file, if that is more than its length."""
        self._at_once: Optional[AtOnce] = None
        self._deadline = time.monotonic() + wait
        try:
            self._find()
        except (OSError, ValueError) as fault:
            self.leave()
            if isinstance(fault, ElephantError):
                raise
            raise JournalError(f"{path!r} can't be opened: {getattr(fault, 'strerror', None) or fault}") from fault
        except BaseException:
            self.leave()
            raise

    # Opening.

    def _find(self) -> None:
        """Opens the file that the path names, and locks it. The last owner may have replaced it before the lock: then this opens the new
        one."""
        while True:
            self._open_or_make()
            found = os.fstat(self.file)
            if not stat.S_ISREG(found.st_mode):
                raise BadJournal(f"{self.path} is no regular file")
            if not self.read_only:
                self._lock(self.file)
            self.identity = found.st_ino, found.st_dev
            self.path = os.path.realpath(self._given)
            with suppress(FileNotFoundError):
                named = os.stat(self.path)
                if os.path.samestat(found, named):
                    self._size = named.st_size
                    return
            self.leave()

    def _open_or_make(self) -> None:
        # Without a wait for the other end of a pipe.
        flags = os.O_CLOEXEC | os.O_NOCTTY | os.O_NONBLOCK | (os.O_RDONLY if self.read_only else os.O_RDWR)
        while True:
            self.is_new = False
            try:
                self.file = os.open(self._given, flags)
                return
            except FileNotFoundError:
                if self.read_only:
                    raise
            with suppress(FileExistsError):
                self.file = os.open(self._given, flags | os.O_CREAT | os.O_EXCL, 0o600)
                self.is_new = True
                return

    def _lock(self, file: int) -> None:
        while True:
            try:
                return fcntl.flock(file, fcntl.LOCK_EX | fcntl.LOCK_NB)
            except BlockingIOError:
                if time.monotonic() >= self._deadline:
                    raise JournalLocked(f"another store has {self.path}") from None
            time.sleep(_PAUSE)

    @property
    def is_empty(self) -> bool:
        """Whether the file that was found has nothing yet."""
        return not self.read_only and not self._size

    def begin(self, text: bytes, limits: Limits) -> None:
        """Makes the file of a fresh store."""
        self.replace(text)
        self.is_new, self.limits = True, limits
        self.require_sync()

    def unmake(self) -> None:
        """Removes the file if this made it and it has no store."""
        if self.is_new and not self.start:
            # Nobody else has opened it: that takes the lock.
            with suppress(OSError):
                os.unlink(self.path)

    # Reading.

    def head(self, length: int) -> bytes:
        """Returns the first bytes of the file."""
        return self._load(length)

    def read(self, history: bool, look: Optional[Look] = None) -> Core:
        """Returns the store that the file keeps, and ends the file after its last whole change."""
        self.is_new = False
        if not self.read_only:
            self._make_durable()
            core = self._read_once(history, look)
            # A kill may have come before a new file took this one's place.
            with suppress(OSError):
                os.unlink(self._spare)
            return core
        for _ in range(_TRIES - 1):
            with suppress(JournalDamaged):
                return self._read_once(history, look)
            time.sleep(_PAUSE)
        return self._read_once(history, look)

    def _make_durable(self) -> None:
        """Makes that last what is read: the last owner may have been killed before it synced its changes, or the rename of the file."""
        try:
            sync_data(self.file)
            self._sync_folder()
        except OSError as fault:
            raise JournalError(f"{self.path} can't be synced: {fault}") from fault

    def _read_once(self, history: bool, look: Optional[Look]) -> Core:
        data = self._load(None)
        try:
            core = open_bytes(data, history)
        except BadJournal:
            raise BadJournal(f"{self.path} has none of a store, or its checkpoint is damaged") from None
        try:
            self._take_in(core, data)
            if look is not None:
                look(data, self.start, core.whole)
        except BaseException:
            core.free()
            raise
        return core

    def _load(self, most: Optional[int]) -> bytes:
        pieces, place = [], 0
        try:
            end = os.fstat(self.file).st_size if most is None else most
            while place < end and (piece := os.pread(self.file, end - place, place)):
                pieces.append(piece)
                place += len(piece)
        except OSError as fault:
            raise JournalError(f"{self.path} can't be read: {fault}") from fault
        return b"".join(pieces)

    def _take_in(self, core: Core, data: bytes) -> None:
        self._size, self.length, self.start = len(data), core.whole, start_of(data)
        self.limits = limits_in(data[max(self.start - _LIMITS_WITHIN, 0):self.start])
        self.cut = written_end(data, core.whole, len(data)) - core.whole
        if core.rest == _DAMAGE:
            if not self._repairs:
                raise JournalDamaged(f"{self.path} is damaged in the change that begins at byte {core.whole}", offset=core.whole)
            if not self.read_only:
                self._copy_rest(data[core.whole:])
        if not self.read_only and len(data) > core.whole:
            self._cut_off()

    def read_again(self, history: bool) -> Core:
        """Returns the store of the last append. Raises JournalDamaged if the file doesn't have it any more."""
        lost = f"{self.path} no longer has what was written to it"
        try:
            core = Core(Limits(), history, file=self._load(self.length))
        except BadJournal:
            raise JournalDamaged(lost) from None
        if core.whole != self.length:
            core.free()
            raise JournalDamaged(lost, offset=core.whole)
        return core

    def _copy_rest(self, rest: bytes) -> None:
        """Copies what is damaged into a new file beside this one."""
        copy, file = "", -1
        try:
            copy, file = self._make_copy()
            _write_all(file, rest, 0)
            os.fsync(file)
            self._sync_folder()
        except OSError as fault:
            with suppress(OSError):
                os.unlink(copy)
            raise JournalError(f"the damaged end of {self.path} can't be copied, so it stays there: {fault}") from fault
        finally:
            if file >= 0:
                os.close(file)
        self.copy = copy

    def _make_copy(self, what: str = "damaged") -> tuple[str, int]:
        """Makes a file with the smallest number that is free. Returns its path and its number when open."""
        for number in count(1):
            copy = f"{self.path}.{what}-{number}"
            with suppress(FileExistsError):
                return copy, os.open(copy, os.O_WRONLY | os.O_CREAT | os.O_EXCL | os.O_CLOEXEC, 0o600)
        raise AssertionError("numbers have no end")

    def set_aside(self, what: str) -> str:
        """Gives the file another name beside it, which says what it is, and returns that. A file system without links gets a copy."""
        for number in count(1):
            aside = f"{self.path}.{what}-{number}"
            with suppress(FileExistsError):
                try:
                    os.link(self.path, aside)
                except FileExistsError:
                    raise
                except OSError:
                    return self._copy_whole(what)
                return aside
        raise AssertionError("numbers have no end")

    def _copy_whole(self, what: str) -> str:
        copy, file = "", -1
        try:
            copy, file = self._make_copy(what)
            _write_all(file, self._load(None), 0)
            os.fsync(file)
        except OSError as fault:
            if copy:
                os.unlink(copy)
            raise JournalError(f"{self.path} can't be copied, so it stays as it is: {fault}") from fault
        finally:
            if file >= 0:
                os.close(file)
        return copy

    # Writing.

    @property
    def is_stuck(self) -> bool:
        """Whether a sync failed: the file takes no more changes until it is replaced."""
        return bool(self._stuck)

    @property
    def is_sound(self) -> bool:
        """Whether nothing that failed has to be mended before the next append."""
        return not (self._is_torn or self._stuck)

    def require_sync(self) -> None:
        """Raises JournalError if a sync failed."""
        if self._stuck:
            raise JournalError(f"{self._stuck}; compact it, or open it again")

    def require_ours(self) -> None:
        """Raises JournalLost if the path names another file or none, or if somebody else changed the length."""
        if self.read_only:
            return
        try:
            named = os.stat(self.path)
        except OSError as fault:
            if fault.errno not in (errno.ENOENT, errno.ENOTDIR):
                raise JournalError(f"{self.path} can't be found: {fault}") from fault
            raise JournalLost(f"{self.path} was deleted or renamed, so what is written to it would be lost") from fault
        if (named.st_ino, named.st_dev) != self.identity or (self.is_sound and named.st_size != self._size):
            raise JournalLost(f"{self.path} was replaced or changed by another program, so what is written to it would be lost")

    def use(self, core: Core) -> None:
        """Prepares the appends of changes of a store of this library by one call."""
        self._at_once = at_once(core, self._syncs_each)

    def append_at_once(self, core: Core) -> Optional[int]:
        """Adds the change that is under way in a store by one call of C, and says so to the store. Returns the code of that, or None if
        there is more to do than to write it, or no such call: then nothing is done. If it fails, the file is as before."""
        call = self._at_once
        if call is None or self._is_torn or core.library is not call.library:
            return None
        row = call.row
        row.file, row.length, row.size = self.file, self.length, self._size
        code = call.append(core, self.path, self.identity)
        step = row.step
        if step == DONE:
            self.length, self.has_unsynced = row.length, not self._syncs_each
            return code
        if step == NOT_ORDINARY:
            return None
        if step != NOTHING:
            self._give_up(step == SYNC, row.error)
        if code:
            core.refuse(code, "text")
        return 0

    def _give_up(self, is_sync: bool, number: int) -> None:
        """Cuts off what an append left that failed. Raises JournalError if the system refused it, with that number."""
        fault = OSError(number, os.strerror(number)) if number else None
        if is_sync:
            self.has_unsynced = True
            self._stuck = f"{self.path} can't be synced: {fault}"
        self._take_back()
        if fault is not None:
            raise JournalError(self._stuck if is_sync else f"{self.path} can't be written: {fault}") from fault

    def append(self, text: bytes) -> None:
        """Adds a change. If it fails, the file is as before."""
        self.require_sync()
        self.require_ours()
        if self._is_torn:
            self._cut_off()
        self._take_ahead(len(text))
        # Until all of it is there, also if an exception interrupts this.
        self._is_torn = True
        try:
            _write_all(self.file, text, self.length)
            self.has_unsynced = True
            if self._syncs_each:
                self._sync_file()
        except OSError as fault:
            self._take_back()
            raise JournalError(f"{self.path} can't be written: {fault}") from fault
        except BaseException:
            self._take_back()
            raise
        self.length += len(text)
        self._size = max(self._size, self.length)
        self._is_torn = False

    def sync(self) -> None:
        """Waits until all changes are on the disk. After a failure it isn't tried again."""
        if self.read_only:
            return
        self.require_sync()
        if self.has_unsynced:
            self._sync_file()

    def _sync_file(self) -> None:
        try:
            sync_data(self.file)
        except OSError as fault:
            self._stuck = f"{self.path} can't be synced: {fault}"
            raise JournalError(self._stuck) from fault
        self.has_unsynced = False

    def _take_ahead(self, length: int) -> None:
        """Takes space for so many bytes, and more. If the disk has none to take ahead, the append makes the file longer."""
        end, had = self.length + length, self._size
        if end <= had:
            return
        least = end
        end += min(max(end // 4, LEAST_AHEAD), MOST_AHEAD) + PAGE - 1
        end -= end % PAGE
        if least <= self._reserved < end:
            end = self._reserved
        self._is_torn = True
        try:
            for place in range(had, end, MOST_AHEAD):
                _write_all(self.file, filling(place, min(place + MOST_AHEAD, end)), place)
        except OSError:
            self._cut_to(had)
            self._is_torn = False
            return
        self._size = end
        self._is_torn = False
        self._sync_file()

    def _cut_to(self, length: int) -> None:
        try:
            os.ftruncate(self.file, length)
        except OSError as fault:
            self._is_torn = True
            raise JournalError(f"{self.path} can't be cut after its last whole change: {fault}") from fault
        # That also gives back what was reserved.
        self._size, self._reserved = length, 0

    def _cut_off(self) -> None:
        """Makes the file end where its changes do. It must be on the disk before anything is written there: else a crash could leave
        both."""
        self._cut_to(self.length)
        self._is_torn = False
        self._sync_file()

    def _take_back(self) -> None:
        """Cuts off what a failed append left, if it can."""
        self._is_torn = True
        with suppress(OSError, JournalError):
            if self._stuck:
                self._cut_to(self.length)
            else:
                self._cut_off()

    def reserve(self, length: int) -> None:
        """Makes sure that the disk has space for so many more bytes after the changes, if it can reserve space. Raises NoSpace."""
        wanted = self.length + length
        if wanted <= max(self._size, self._reserved):
            return
        for end in (wanted + _RESERVED_AT_ONCE, wanted + PAGE):
            # Some file systems can't reserve: there, only an append finds out that the disk is full.
            end -= end % PAGE
            if allocate(self.file, self._size, end - self._size) not in FULL:
                self._reserved = end
                return
        raise NoSpace

    def begin_sync(self) -> int:
        """Returns another number of the open file, to sync it while changes go on: see `end_sync`."""
        self.require_sync()
        file = os.dup(self.file)
        self.has_unsynced = False
        return file

    def end_sync(self, file: int, fault: Optional[OSError]) -> None:
        """Closes that number. `fault` says why the sync failed, if it did: that is so for good, if the file is still the same."""
        try:
            if fault is not None and self.file >= 0 and os.path.samestat(os.fstat(file), os.fstat(self.file)):
                self._stuck = f"{self.path} can't be synced: {fault}"
                raise JournalError(self._stuck) from fault
        finally:
            os.close(file)

    # Another file in place of this one.

    @property
    def _spare(self) -> str:
        """The path of the file that takes this one's place."""
        return f"{self.path}.elephant-new"

    def replace(self, *texts: bytes) -> None:
        """Writes the bytes of a new file beside this one, and puts it in this one's place. If it fails, this one is as before. If only the
        last step does, the sync of the folder, the new one is there, and `require_sync` says so."""
        spare, file, length = self._spare, -1, 0
        try:
            # Its maker has this one's lock, so a file of that name is what a killed process left.
            with suppress(FileNotFoundError):
                os.unlink(spare)
            file = os.open(spare, os.O_RDWR | os.O_CREAT | os.O_EXCL | os.O_CLOEXEC, 0o600)
            identity = self._dress(file)
            for text in texts:
                _write_all(file, text, length)
                length += len(text)
            os.fsync(file)
            self.require_ours()
            os.rename(spare, self.path)
        except OSError as fault:
            self._drop(file, spare)
            if isinstance(fault, ElephantError):
                raise
            raise JournalError(f"{self.path} can't be written anew: {fault}") from fault
        except BaseException:
            self._drop(file, spare)
            raise
        self._put_in_place(file, identity, length)

    def _dress(self, file: int) -> tuple[int, int]:
        """Gives a file the mode and the owner of this one, and a lock, so that no other opener gets in between. Returns its identity."""
        had, has = os.fstat(self.file), os.fstat(file)
        if (had.st_uid, had.st_gid) != (has.st_uid, has.st_gid):
            os.fchown(file, had.st_uid, had.st_gid)
        os.fchmod(file, stat.S_IMODE(had.st_mode))
        self._lock(file)
        return has.st_ino, has.st_dev

    @staticmethod
    def _drop(file: int, spare: str) -> None:
        if file >= 0:
            with suppress(OSError):
                os.close(file)
            with suppress(OSError):
                os.unlink(spare)

    def _put_in_place(self, file: int, identity: tuple[int, int], length: int) -> None:
        self.leave()
        self.file, self.identity = file, identity
        self._size = self.length = self.start = length
        self._is_torn, self._stuck, self.has_unsynced, self._reserved = False, "", False, 0
        try:
            self._sync_folder()
        except OSError as fault:
            self._stuck = f"the folder of {self.path} can't be synced: {fault}"

    def _sync_folder(self) -> None:
        folder = os.open(os.path.dirname(self.path), os.O_RDONLY | os.O_DIRECTORY | os.O_CLOEXEC)
        try:
            os.fsync(folder)
        finally:
            os.close(folder)

    # Closing.

    def close(self) -> None:
        """Closes the file, without its space ahead, and frees the lock."""
        if self.file >= 0 and not self.read_only and self.is_sound and max(self._size, self._reserved) > self.length:
            with suppress(OSError):
                # What another program has cut off isn't made longer.
                if os.fstat(self.file).st_size == self._size:
                    os.ftruncate(self.file, self.length)
        self.leave()

    def leave(self) -> None:
        """Closes the file as it is, and frees the lock."""
        if self.file >= 0:
            # To close the file doesn't free the lock while a child of another thread that is about to run a program has it too.
            with suppress(OSError):
                fcntl.flock(self.file, fcntl.LOCK_UN)
        self.leave_to_parent()

    def leave_to_parent(self) -> None:
        """Closes the file in a forked child, whose parent keeps the lock."""
        file, self.file = self.file, -1
        if file >= 0:
            # What was to be written was synced, or nobody was told that it is there.
            with suppress(OSError):
                os.close(file)

    def __del__(self) -> None:
        self.leave_to_parent()


def _write_all(file: int, text: bytes, place: int) -> None:
    written = os.pwrite(file, text, place)
    while written < len(text):
        written += os.pwrite(file, memoryview(text)[written:], place + written)
