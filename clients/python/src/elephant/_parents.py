"""The directories above a path."""

from __future__ import annotations

from ._core import Core
from ._drafts import Drafts
from ._errors import IsDirectory, NoEntry
from ._names import Path, path_of, require_shown, spell


class Parents(Drafts):
    """A store that makes the directories above a path."""

    def make_parents(self, path: Path) -> int:
        """Makes each directory above a path that is missing, from the top, and returns how many it made.

        If one of them is refused, those that were made before it stay, each as a change of its own.
        """
        name = spell(path)
        with self._lock:
            self._refuse_changes()
            missing = self._missing(self._begin(), path, name)
            for shown in (*missing, name) if missing else ():
                require_shown(shown)
            for directory in missing:
                self._make_directory(path_of(directory), directory)
            return len(missing)

    @staticmethod
    def _missing(core: Core, path: Path, name: bytes) -> list[bytes]:
        """Returns the directories above a path that are missing. Raises the refusal of a path that can't be one."""
        code = core.code_at(name)
        if code in (0, IsDirectory.number):
            return []
        if code != NoEntry.number:
            core.refuse(code, path)
        names = name.split(b"/")
        above = [b"/".join(names[:count]) for count in range(2, len(names))]
        for at, directory in enumerate(above):
            code = core.code_at(directory)
            if code == NoEntry.number:
                return above[at:]
            if code != IsDirectory.number:
                core.refuse(code, path)
        return []

    def _make_directory(self, path: Path, name: bytes) -> int:
        with self._lock, self._change as core:
            number = core.ask(core.library.elephant_mkdir, path, name, len(name))
            self._keep(b"mkdir " + name)
            return number
