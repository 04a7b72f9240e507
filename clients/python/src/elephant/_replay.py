"""The lines of a journal: how to write a change as lines, and how to run them again."""

from __future__ import annotations

from binascii import hexlify, unhexlify
from typing import Optional

from ._core import Core
from ._errors import Full, HistoryFull, JournalDamaged, JournalError, NoMemory

MOST_PIECE = 4000
# The most bytes of a line of a script.
MOST_LINE = 8192
# Of a number below 2^64.
MOST_DIGITS = 19
# Lines that change nothing, and that no journal has.
# Printed by tools/pages/surface --write: the questions, from ele_commands/src/command.rt and ele_model/specs/NothingChanges.antt.
QUESTIONS = frozenset((
    b"due", b"groups", b"list", b"read", b"restorable", b"stat", b"usage", b"versions", b"history", b"trim", b"ahead", b"answers",
    b"changes", b"expiring", b"gone", b"handles", b"removals", b"story", b"why",
))
# End of the questions.


def write_lines(handle: int, offset: int, data: bytes) -> list[bytes]:
    """Returns the lines that write bytes, each short enough for a script."""
    return [
        b"write %d %d %b" % (handle, offset + at, hexlify(data[at:at + MOST_PIECE])) for at in range(0, len(data), MOST_PIECE)
    ]


def save_line(path: bytes, data: bytes) -> Optional[bytes]:
    """Returns the line that saves a content, or None if it would be too long for a script."""
    if len(b"save  ") + len(path) + 2 * len(data) > MOST_LINE:
        return None
    return b"save %b %b" % (path, hexlify(data) or b"-")


class Replay:
    """Runs the changes of a journal in a fresh store, and notes which handles they leave open.

    A program that notes more overrides `remark`, and `open_write`, `write`, `truncate`, `close`, `abandon` and `command`, which return the
    code of the library.
    """

    def __init__(self, core: Core) -> None:
        self.core, self.library, self._e = core, core.library, core.handle
        self.writers: dict[int, bytes] = {}
        """The handles that write, each with the path at which it was opened."""
        self.readers: set[int] = set()

    def run(self, lines: list[bytes]) -> None:
        """Runs the lines of one change. Raises JournalDamaged if one is refused, and JournalError if it is refused for a limit; `line` is
        its place in the change, from 0."""
        for at, line in enumerate(lines):
            word, _, rest = line.partition(b" ")
            words = rest.split(b" ")
            if word == b"write" and len(words) == 3 and _are_numbers(words[:2]):
                code = self._write(*words)
            elif word == b"#":
                self.remark(rest)
                continue
            elif word == b"open" and words[0] == b"write" and len(words) == 2:
                code = self.open_write(words[1])
            elif word == b"close" and _are_numbers(words) and len(words) == 1:
                code = self.close(int(rest))
            elif word == b"abandon" and _are_numbers(words) and len(words) == 1:
                code = self.abandon(int(rest))
            elif word == b"truncate" and _are_numbers(words) and len(words) == 2:
                code = self.truncate(int(words[0]), int(words[1]))
            else:
                code = self.command(line)
            if code:
                self._refuse(code, line, at)

    def remark(self, text: bytes) -> None:
        """Passes over a remark, which is no command. A program may write remarks into its journal; the store doesn't."""

    def _write(self, handle: bytes, offset: bytes, digits: bytes) -> int:
        try:
            data = unhexlify(digits)
        except ValueError:
            return self.command(b"write %b %b %b" % (handle, offset, digits))
        return self.write(int(handle), int(offset), data)

    def write(self, handle: int, offset: int, data: bytes) -> int:
        """Writes bytes into the draft of a handle. There is at least one."""
        code: int = self.library.elephant_write(self._e, handle, offset, data, len(data))
        return code

    def truncate(self, handle: int, size: int) -> int:
        """Sets the length of a draft."""
        code: int = self.library.elephant_truncate(self._e, handle, size)
        return code

    def open_write(self, path: bytes) -> int:
        """Opens a handle that writes."""
        code: int = self.library.elephant_open_write(self._e, path, len(path), self.core.number_at)
        if not code:
            self.writers[self.core.number] = path
        return code

    def close(self, handle: int) -> int:
        """Closes a handle."""
        if self.writers.pop(handle, None) is None:
            self.readers.discard(handle)
        code: int = self.library.elephant_close_handle(self._e, handle, self.core.number_at)
        return code

    def abandon(self, handle: int) -> int:
        """Gives up a handle that writes."""
        code: int = self.library.elephant_abandon(self._e, handle)
        if not code:
            self.writers.pop(handle, None)
        return code

    def command(self, line: bytes) -> int:
        """Runs any other line."""
        answer = self.core.line(line)
        if not answer.startswith(b"ok "):
            return int(answer.split()[1])
        if line.startswith(b"open read "):
            self.readers.add(int(answer.split()[2]))
        return 0

    def _refuse(self, code: int, line: bytes, at: int) -> None:
        if code == NoMemory.number:
            raise NoMemory("the journal's store")
        reason = f"{line[:80]!r}, is refused: {self.core.error(code)}"
        if code in (Full.number, HistoryFull.number):
            raise JournalError(f"a line, {reason}; was the journal made with larger limits?")
        raise JournalDamaged(reason, at)


def _are_numbers(words: list[bytes]) -> bool:
    """Whether these are numbers that the library takes."""
    return all(word.isdigit() and len(word) <= MOST_DIGITS for word in words)
