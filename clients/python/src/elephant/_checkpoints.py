"""A whole store as bytes, and fresh numbers for a store that lives on."""

from __future__ import annotations

from typing import Optional, SupportsIndex

from ._core import natural
from ._errors import HasJournal
from ._trees import Trees


class Checkpoints(Trees):
    """A store that can be taken out as bytes, and given fresh numbers."""

    def checkpoint(self) -> bytes:
        """Returns the whole store as bytes, of which `from_checkpoint` makes a store again.

        They have the moment, names, versions, policies, groups, marks, counts and limits, and what open sessions have written. They have no
        history, no journal, and nothing of what a guard has announced. Two stores have the same bytes only if they are alike in all that.
        Whoever has the bytes can read every version in them.
        """
        with self._lock:
            return self._begin().checkpoint()

    def renew(self) -> None:
        """Gives directories, files and versions fresh numbers, and counts only what is held, so that a store near its limits can go on.

        Each path leads to the same contents as before, at each moment, with the same policies and marks. `directory_across`, `file_across`
        and `version_across` say before it which number each will have. A history begins anew: what it had is dropped. What the guard keeps
        waits anew. A written file that is open saves its whole content when it is closed.

        Raises HandlesOpen while a session or a reader is open. Raises HasJournal in a store with a journal, whose lines name the numbers:
        they couldn't be run again.
        """
        with self._lock:
            self._refuse_changes()
            if self._journal is not None:
                raise HasJournal("its lines have the numbers that files and handles had, so they couldn't be run again after a renewal")
            with self._change as core:
                core.do(core.library.elephant_renew, "")
                self._renewals += 1
                self._renewed += 1
                self._note_kept()
                self._note_renewal()

    @property
    def renewed(self) -> int:
        """How often it got fresh numbers since it was opened, by `renew` or by itself. A number of before means nothing."""
        return self._renewed

    def directory_across(self, number: SupportsIndex) -> Optional[int]:
        """Returns the number that a directory will have after `renew`. None if there is no such directory. Each of these three calls takes
        as long as a copy of the whole store."""
        return self._across("directory", natural(number, "the number of a directory"))

    def file_across(self, number: SupportsIndex) -> Optional[int]:
        """Returns the number that a file will have after `renew`. None if there is no such file."""
        return self._across("file", natural(number, "the number of a file"))

    def version_across(self, file: SupportsIndex, number: SupportsIndex) -> Optional[int]:
        """Returns the number that a version of a file will have after `renew`. None if it isn't held."""
        return self._across("version", natural(file, "the number of a file"), natural(number, "the number of a version"))

    def _across(self, kind: str, *numbers: int) -> Optional[int]:
        with self._lock:
            core = self._begin()
            return core.found(getattr(core.library, f"elephant_{kind}_across"), f"{kind} {numbers[-1]}", *numbers)
