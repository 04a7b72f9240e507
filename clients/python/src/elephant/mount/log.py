"""The log of a mount: lines on standard error."""

from __future__ import annotations

import sys
import time
from contextlib import suppress


def local(moment: int) -> str:
    """Returns a moment as local date and time."""
    return time.strftime("%Y-%m-%d %H:%M:%S", time.localtime(moment))


class Log:
    """Writes lines with the time before each."""

    def __init__(self) -> None:
        self._said: dict[str, float] = {}

    def say(self, text: str) -> None:
        now = time.strftime("%Y-%m-%dT%H:%M:%S%z")
        with suppress(OSError):  # nobody reads it
            print(f"elephant-mount {now}: {text}", file=sys.stderr, flush=True)

    def say_once(self, text: str) -> None:
        """Writes a text unless it was written within the last minute."""
        now = time.monotonic()
        if now - self._said.get(text, -61.0) > 60:
            if len(self._said) > 1000:
                self._said.clear()
            self._said[text] = now
            self.say(text)
