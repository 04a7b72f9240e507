"""The history of a mount, for an audit: what its journal says, run again in a store that keeps a history.

The mount's own store keeps none: it would grow by each question that a request asks. The journal has each change since it was made anew, so
the history begins there too, also if the folder is mounted with `--history` for the first time. It lacks what was only asked or refused.
"""

from __future__ import annotations

import re
from typing import Optional

from .. import ElephantError, FileStore, Limits, Refused, Removal, Store, VersionStory
from .store import MountStore

# Lines of a store with a history.
LINES = frozenset(("answers", "gone", "handles", "history", "removals", "trim"))
NO_HISTORY = "this mount keeps no history: mount the folder with --history, and it has all since the journal was made anew"

_NOTE = re.compile(r"^- note ([0-9a-f]+)$", re.M)


def _with_text(note: re.Match[str]) -> str:
    text = bytes.fromhex(note[1]).decode("utf-8", "replace")
    return f"{note[0]}  {text}" if text.isprintable() else note[0]


class Audit:
    """Answers the lines of an audit, if the mount is asked to."""

    def __init__(self, store: MountStore, limits: Limits = Limits(), is_kept: bool = False) -> None:
        self._store, self._limits, self.is_kept = store, limits, is_kept
        self._found: Optional[Store] = None
        self._seen: tuple[object, ...] = ()

    def answers(self, word: str) -> bool:
        """Whether the store with the history answers a line. Without one the mount's own tells a story, of what is held."""
        return word in LINES or (word == "story" and self.is_kept)

    def prepare(self) -> None:
        """Runs the journal again, if a question needs that. Call it without the lock of the requests, which go on meanwhile."""
        if self.is_kept:
            self._asked()

    def line(self, line: str) -> str:
        """Returns the answer of the store with the history. Behind a note of `answers` stands its text."""
        if not self.is_kept:
            return f"elephant-mount: {NO_HISTORY}\n"
        answer = self._asked().line(line)
        return _NOTE.sub(_with_text, answer) if line == "answers" else answer

    def removals(self, file: int) -> dict[int, Removal]:
        """Returns the removed versions of a file, with the causes. Without a history it returns none."""
        rows = self._asked().gone().removals if self.is_kept else ()
        return {it.number: it for it in rows if it.file == file}

    def story(self, path: bytes, file: int) -> dict[int, VersionStory]:
        """Returns what the history tells of a file that has the path, or had it last: its versions by number. Without a history, or if
        the path leads to another file, it returns none."""
        if not self.is_kept:
            return {}
        try:
            found = self._asked().story(path)
        except Refused:
            return {}
        return {it.number: it for it in found.versions} if found.file == file else {}

    def close(self) -> None:
        """Frees the memory."""
        if self._found is not None:
            self._found.close()
        self._found, self._seen = None, ()

    def _read(self) -> Store:
        path = self._store.journal_path
        if self._store.has_lines:
            return Store(path, limits=self._limits, history=True, read_only=True)
        return FileStore(path, history=True, read_only=True)

    def _asked(self) -> Store:
        """Returns a store that has what the journal has. It is made anew if the journal was changed."""
        seen = self._store.journal_state
        if self._found is None or seen != self._seen:
            self.close()
            try:
                self._found = self._read()
            except (ElephantError, OSError, MemoryError) as fault:
                raise ValueError(f"the journal can't be run again: {fault or 'there is no memory'}") from fault
            self._seen = seen
        return self._found
