"""A terminal that is a program's standard error, or another of its streams."""

from __future__ import annotations

import os
import pty
import threading


class Terminal:
    """Collects what programs write to a terminal. Within a `with`, pass them `end`, and type by `type`. `written` is known after it."""

    def __init__(self) -> None:
        self.ours, self.end = pty.openpty()
        self.pieces: list[bytes] = []
        self.reading = threading.Thread(target=self.collect)
        self.written = ""

    def collect(self) -> None:
        """Reads until nobody has the terminal open any more, which the system reports by an error."""
        try:
            while piece := os.read(self.ours, 4096):
                self.pieces.append(piece)
        except OSError:
            pass

    def type(self, keys: bytes) -> None:
        os.write(self.ours, keys)

    def __enter__(self) -> Terminal:
        self.reading.start()
        return self

    def __exit__(self, *failure: object) -> None:
        os.close(self.end)
        self.reading.join()
        os.close(self.ours)
        # The terminal puts a carriage return before each line feed.
        self.written = b"".join(self.pieces).replace(b"\r\n", b"\n").decode("ascii", "replace")
