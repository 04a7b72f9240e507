"""Reads a journal of lines, as earlier versions made them: the store that it makes, the remarks, and what was changed when."""

from __future__ import annotations

from ..keeping import Core, Event, Replay
from .timeline import OF_TREE, Annals

_CLEANS = (b"clean", b"pass")


class LinesReplay(Replay):
    """Runs a journal of lines."""

    def __init__(self, core: Core, annals: Annals) -> None:
        super().__init__(core)
        self._annals = annals

    def remark(self, text: bytes) -> None:
        self._annals.note_remark(text)

    def command(self, line: bytes) -> int:
        word = line.partition(b" ")[0]
        if word in _CLEANS:
            return self._clean(line)
        code = super().command(line)
        if word in (b"clock", b"tick"):
            self._annals.note_event(Event(b"clock", (self.core.now(),)))
            self._annals.first_moment = self._annals.first_moment or self._annals.moment
        elif line.startswith(OF_TREE):
            self._annals.note_event(Event(word, ()))
        return code

    def close(self, handle: int) -> int:
        is_written = handle in self.writers
        code = super().close(handle)
        if is_written and not code and self.core.number:
            self._annals.note_moment()
        return code

    def _clean(self, line: bytes) -> int:
        """Removes what a line removes, and notes what that is: a pass removes the first versions that are due."""
        if line == b"clean":
            key = self.core.clean()
            self._annals.note_removed([key] if key[1] else [], self._annals.moment)
            return 0
        keys, count = self.core.keys(self.core.look(self.core.library.elephant_due, "")), line.partition(b" ")[2]
        code = super().command(line)
        self._annals.note_removed(keys[:int(count) if count.isdigit() else 0], self._annals.moment)
        return code
