"""A loop for pyfuse3 that handles one request after the other.

pyfuse3 runs on trio. No handler here ever waits, so trio would only cost time: three times that of a request. pyfuse3 lets its loop be
replaced (`pyfuse3_asyncio` does so for asyncio). This loop waits for a request by `poll`, in the thread that called it.
"""

from __future__ import annotations

import errno
import os
import select
import time
from collections.abc import Coroutine
from typing import Any, Callable, Optional

import pyfuse3

# How long a loop that is to end still answers the kernel, in seconds.
LONGEST_END = 2.0


class _Lock:
    async def __aenter__(self) -> None:
        pass

    async def __aexit__(self, *_: object) -> None:
        pass


class _Task:
    name = "mount"


class _Nursery:
    def __init__(self) -> None:
        self._tasks: list[Coroutine[Any, Any, None]] = []

    async def __aenter__(self) -> _Nursery:
        return self

    def start_soon(self, task: Callable[..., Coroutine[Any, Any, None]], *words: object, name: Optional[str] = None) -> None:
        self._tasks.append(task(*words))

    async def __aexit__(self, *_: object) -> None:
        while self._tasks:
            await self._tasks.pop()


class Loop:
    """The part of trio that pyfuse3 uses, and `stop`, which any thread and any signal handler may call."""

    Lock = _Lock

    class ClosedResourceError(Exception):
        """The loop was stopped while it waited."""

    def __init__(self) -> None:
        self.lowlevel = self.from_thread = self
        self._woken, self._waker = os.pipe2(os.O_CLOEXEC | os.O_NONBLOCK)
        self._poll = select.poll()
        self._poll.register(self._woken, select.POLLIN)
        self._is_registered, self._end = False, 0.0

    def install(self) -> None:
        """Makes pyfuse3 use this loop. Call it before `pyfuse3.init`."""
        pyfuse3.trio = self

    def run(self) -> None:
        """Handles requests until the folder is unmounted or `stop` is called."""
        try:
            pyfuse3.main(min_tasks=1, max_tasks=1).send(None)
        except StopIteration:
            pass
        except OSError as fault:
            # The last file of a lazy unmount may be closed while a request waits: then the kernel says so in place of "no device".
            if fault.errno != errno.ECONNABORTED:
                raise

    def stop(self) -> None:
        """Ends `run` as soon as the kernel sends no more requests, at the latest after some seconds."""
        self._end = self._end or time.monotonic() + LONGEST_END
        os.write(self._waker, b".")

    async def wait_readable(self, file: int) -> None:
        if not self._is_registered:
            self._poll.register(file, select.POLLIN)
            self._is_registered = True
        asked = any(ready == file for ready, _ in self._poll.poll())
        if self._end and (not asked or time.monotonic() > self._end):
            raise self.ClosedResourceError

    def notify_closing(self, file: int) -> None:
        self.stop()

    @staticmethod
    def current_trio_token() -> str:
        return "mount"

    @staticmethod
    def current_task() -> type[_Task]:
        return _Task

    @staticmethod
    def open_nursery() -> _Nursery:
        return _Nursery()
