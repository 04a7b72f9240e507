"""A store as it was at a moment: the mount's own, or that of an older journal, whose files and folders have other numbers."""

from __future__ import annotations

import os
from typing import Any, Optional

from .. import Refused
from ..keeping import AT
from .names import shown
from .records import Attributes, directory_key, file_key
from .store import MountStore

# What has no number yet has -1. Those of an older journal come below it, so that they are no numbers of the mount's own store.
FIRST_OLDER = -2


class Then:
    """Answers what a path was at a moment."""

    def __init__(self, store: MountStore, moment: int, own: MountStore) -> None:
        self.store, self.moment, self.is_own = store, moment, store is own

    @property
    def source(self) -> str:
        """Returns words for an answer: which older journal it is, or nothing."""
        return "" if self.is_own else f", from the older journal {shown(os.fsencode(os.path.basename(self.store.journal_path)))}"

    def number_of(self, number: int) -> int:
        """Returns the number that a file or a directory of the store has in a plan; and of such a number, that of the store."""
        return int(number) if self.is_own else FIRST_OLDER - int(number)

    def row(self, path: bytes) -> Any:
        """Returns the row of a path, which the next call writes over."""
        return self.store.stat_row(path or b"/", AT, self.moment)

    def file_at(self, path: bytes) -> Optional[int]:
        """Returns the number of the file that had a path, or None."""
        try:
            row = self.row(path)
        except Refused:
            return None
        return None if row.is_directory else self.number_of(row.id)

    def names(self, path: bytes) -> list[bytes]:
        """Returns the spelled names that were in a folder."""
        return [spelling for spelling, _, _ in self.store.names_in(path or b"/", AT, self.moment)]

    def content(self, path: bytes) -> bytes:
        return self.store.content(path, AT, self.moment)

    def is_link(self, number: int) -> bool:
        """Whether a file was a symbolic link."""
        found = self.file_attributes(number)
        return found is not None and found.is_link

    def file_attributes(self, number: int) -> Optional[Attributes]:
        return self.store.records.of(file_key(self.number_of(number)))

    def directory_attributes(self, number: int) -> Optional[Attributes]:
        return self.store.records.of(directory_key(self.number_of(number)))
