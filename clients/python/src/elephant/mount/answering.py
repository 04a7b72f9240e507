"""How a request of the kernel is answered: under one lock, and with an error number for what it raises."""

from __future__ import annotations

import errno
import functools
import os
import threading
import traceback
from typing import Any, Callable

import pyfuse3

from .. import ElephantError, Full, JournalError, ReadOnly
from ..keeping import FULL, NoSpace
from .contents import Limited, TooBig
from .log import Log
from .names import TooLong, shown
from .naming import TooMuch
from .past import NotBegun
from .store import MountStore

_ERRNOS = {
    5: errno.ENOENT, 6: errno.ENOTDIR, 7: errno.EISDIR, 8: errno.EEXIST, 9: errno.ENOTEMPTY, 10: errno.EINVAL, 11: errno.EBUSY,
    12: errno.ENOENT, 13: errno.ENODATA, 14: errno.ENOENT, 15: errno.EBADF, 17: errno.EFBIG, 18: errno.EBUSY, 19: errno.ENOENT,
    27: errno.ENOSPC, 28: errno.ENAMETOOLONG, 29: errno.ENAMETOOLONG, 1: errno.ENOMEM,
}


class Answering(pyfuse3.Operations):
    """What all requests need: the store, the log and the lock."""

    def __init__(self, store: MountStore, log: Log) -> None:
        super().__init__()
        self.store, self.log = store, log
        self.lock = threading.RLock()
        self._is_behind = False

    def errno_of(self, fault: Exception) -> int:
        """Returns the error number of an exception of a request, and logs what the number doesn't show."""
        if isinstance(fault, NoSpace):
            if not self.store.stopped:
                self.store.stopped = "the disk of the journal is full"
                self.log.say(f"{self.store.stopped}: the folder is read-only until there is space again")
            return errno.ENOSPC
        if isinstance(fault, ReadOnly):
            return errno.EROFS
        if isinstance(fault, JournalError):
            self.log.say_once(f"the folder is read-only: {self.store.stopped or fault}")
            return next((number for number in (*FULL, errno.ENOMEM) if os.strerror(number) in str(fault)), errno.EIO)
        if isinstance(fault, Full):
            limit = fault.what
            return self.errno_of(Limited(limit, getattr(self.store.quota.limits, limit)))
        if isinstance(fault, MemoryError):
            self.log.say_once("refused: there is no memory")
            return errno.ENOMEM
        if isinstance(fault, (Limited, TooBig, TooLong, TooMuch)):
            where = f"{shown(fault.node.path)}: " if isinstance(fault, TooBig) and fault.node.names else ""
            self.log.say_once(f"refused: {where}{fault.strerror}")
        if isinstance(fault, ElephantError):
            return _ERRNOS.get(fault.number, errno.EIO)
        if isinstance(fault, NotBegun):
            self.log.say_once(fault.strerror)
        assert isinstance(fault, OSError)
        return fault.errno or errno.EIO

    def follow_store(self) -> None:
        """Brings the names up to date with the store, if it has done more than the journal could take. All files stay readable
        meanwhile."""

    def require_writable(self) -> None:
        """Raises why nothing can be changed, before anything is: a stopped journal, a full disk, or no memory."""
        if self.store.stopped:
            raise OSError(errno.EIO if self.store.is_lost else errno.EROFS, self.store.stopped)
        if self._is_behind:
            self.catch_up()
        self.store.memory.require()
        self.store.reserve(0)
        self.say_ends()

    def catch_up(self) -> None:
        """Brings the names up to date after a change that failed midway."""
        self._is_behind, self.store.has_taken_back = True, False
        self.follow_store()
        self._is_behind = False

    def say_ends(self) -> None:
        """Logs which limits of the store come near."""
        for text in self.store.quota.news():
            self.log.say(text)


def answered(method: Callable[..., Any]) -> Callable[..., Any]:
    """Makes a method answer a request of the kernel: under the lock, and with an error number for each exception."""

    @functools.wraps(method)
    async def call(self: Answering, *words: Any) -> Any:
        try:
            with self.lock:
                return method(self, *words)
        except (OSError, ElephantError, NoSpace, MemoryError) as fault:
            raise pyfuse3.FUSEError(self.errno_of(fault)) from None
        except Exception:
            # A fault of this program: this request fails, and the others go on.
            self.log.say(f"a fault in {method.__name__}: {traceback.format_exc()}")
            raise pyfuse3.FUSEError(errno.EIO) from None

    return call


def changing(method: Callable[..., Any]) -> Callable[..., Any]:
    """Does the same for a request that changes something, which a read-only mount refuses."""

    def checked(self: Answering, *words: Any) -> Any:
        self.require_writable()
        if isinstance(words[-1], pyfuse3.RequestContext):
            self.store.who.asks(words[-1])
        try:
            return method(self, *words)
        except Exception as fault:
            if self.store.has_taken_back or isinstance(fault, (JournalError, MemoryError)):
                self.catch_up()
            raise

    return answered(functools.wraps(method)(checked))
