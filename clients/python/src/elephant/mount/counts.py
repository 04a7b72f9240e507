"""How much of each limit a store has used, what is kept back for `undo`, and how near its end is."""

from __future__ import annotations

from collections.abc import Callable, Iterator, Sequence
from contextlib import contextmanager
from typing import Optional

from .. import Counts as Made, Limits

# The counts that each command raises by one.
# Printed by tools/pages/surface --write: the counts, from ele_model/specs/Step.antt and ele_model/specs/Change.antt.
TAKES = {
    b"create": ("files", "names", "versions"), b"group make": ("groups",), b"group add": ("members",), b"link": ("names",),
    b"mark": ("marks",), b"mkdir": ("directories", "names"), b"open": ("handles",), b"rename": ("names",), b"revert": ("versions",),
    b"restore": ("versions",), b"save": ("versions",), b"undelete": ("names",),
}
# End of the counts.
# One in so many of each limit is kept back for `undo`.
KEPT_BACK = 100
# In how many in 100 of a limit the log says that its end comes near.
STEPS = (80, 90, 99)
# What the undo of a removal takes.
_OF_REMOVALS = ("names", "versions")


class Counts:
    """How much of each limit the store has used, which the store itself counts, and how much is left."""

    def __init__(self, limits: Limits, made: Callable[[], Made]) -> None:
        self.limits, self._made = limits, made
        self._said = dict.fromkeys(limits._fields[1:], 0)
        self._is_undoing, self._owed = False, 0

    @property
    def used(self) -> dict[str, int]:
        """How much of each limit is used. Open drafts count as versions."""
        made = self._made()
        return {name: int(getattr(made, name)) for name in self.limits._fields[1:]}

    def kept_back(self, name: str) -> int:
        """Returns how much of a limit only `undo` may use."""
        return int(getattr(self.limits, name)) // KEPT_BACK

    def left(self, name: str) -> int:
        """Returns how much of a limit is left for what runs now."""
        return self._left_after(name, self.used)

    def _left_after(self, name: str, used: dict[str, int]) -> int:
        kept = 0 if self._is_undoing else self.kept_back(name)
        return max(int(getattr(self.limits, name)) - kept - used[name], 0)

    def lacking(self, **wanted: int) -> Optional[str]:
        """Returns a limit with less than that left, or None."""
        used = self.used
        return next((name for name, count in wanted.items() if self._left_after(name, used) < count), None)

    def lacking_for(self, commands: Sequence[bytes]) -> Optional[str]:
        """Does the same for commands, each by its words before the first path."""
        wanted: dict[str, int] = {}
        for it in commands:
            for name in TAKES.get(it, ()):
                wanted[name] = wanted.get(name, 0) + 1
        return self.lacking(**wanted)

    def lacking_for_line(self, line: bytes) -> Optional[str]:
        """Does the same for a line."""
        return self.lacking_for((_command_of(line),))

    @contextmanager
    def undoing(self, is_undo: bool = True) -> Iterator[None]:
        """Lets what is kept back be used."""
        outer, self._is_undoing = self._is_undoing, is_undo or self._is_undoing
        try:
            yield
        finally:
            self._is_undoing = outer

    def lacking_for_removal(self) -> Optional[str]:
        """Returns a limit of which too little is kept back to undo another removal, or None.

        In a store that isn't full each removal may go on. In a full one, as many as `undo` can take back.
        """
        if all(self.left(name) for name in _OF_REMOVALS):
            self._owed = 0
            return None
        with self.undoing():
            return self.lacking(**dict.fromkeys(_OF_REMOVALS, self._owed + 1))

    def note_removal(self) -> None:
        """Notes that a name was deleted. In a full store its undo is owed."""
        self._owed += not all(self.left(name) for name in _OF_REMOVALS)

    def note_return(self) -> None:
        """Notes that a deleted name came back, so that one undo less is owed."""
        self._owed -= bool(self._owed)

    # How near the end is.

    def percent(self, name: str, used: int) -> int:
        limit = int(getattr(self.limits, name))
        return used * 100 // limit if limit else 100

    def news(self) -> list[str]:
        """Returns a sentence for each limit that has reached another of the steps since the last call."""
        found = []
        for name, used in self.used.items():
            reached = max((it for it in STEPS if it <= self.percent(name, used)), default=0)
            if reached > self._said[name]:
                self._said[name] = reached
                found.append(self._sentence(name, reached))
        return found

    def _sentence(self, name: str, reached: int) -> str:
        end = "a few are kept back for undo" if self.kept_back(name) else "none is kept back for undo"
        return (
            f"{reached} in 100 of the {name} that the store makes with these numbers are made, and {self.left(name)} are left ({end}): it "
            "gets fresh numbers by itself if less than half is held, and else go on in a new journal by 'elephant-mount move'"
        )

    def text(self) -> str:
        """Returns the text of the file `limits`."""
        rows = ["limit             used      left  in 100\n"]
        for name, used in self.used.items():
            reached = self.percent(name, used)
            near = "  its end is near" if reached >= STEPS[0] and getattr(self.limits, name) else ""
            rows.append(f"{name:<12}{used:>10}{self.left(name):>10}{reached:>8}{near}\n")
        return "".join(rows)


def _command_of(line: bytes) -> bytes:
    """Returns the words of a line by which TAKES has its command."""
    words = line.split(b" ", 2)
    return b" ".join(words[:2]) if words[0] == b"group" else words[0]
