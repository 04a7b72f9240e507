"""What a script has saved in a folder, and what of it a policy must hold: reckoned from the script's own acts, and never from a mount's
answers.

`Disk` has the names as POSIX has them. `Ledger` has for each name the contents that it got, each with the moments from which and until
which it held them. `Safe` and `Ladder` say of such a content whether it must still be there.
"""

from __future__ import annotations

from collections.abc import Sequence
from dataclasses import dataclass, field
from typing import NamedTuple, Optional, Protocol

from mount.mounts import Fault

MINUTE, HOUR, DAY = 60, 3600, 86_400
# The moments of a save are known to within some seconds. No age comes nearer than this to the one at which a policy lets go.
MARGIN = 5 * MINUTE


class Unclear(Fault):
    """A save is so old that some seconds decide whether it must be held: the script has to save at another moment."""


class Disk:
    """The names of a folder and what each file holds, which calls change as in an ordinary folder."""

    def __init__(self) -> None:
        self._files: dict[str, list[str]] = {}

    def tree(self) -> dict[str, str]:
        """Returns what each name holds."""
        return {name: file[0] for name, file in self._files.items()}

    def count(self) -> int:
        """Returns how many files have a name."""
        return len({id(file) for file in self._files.values()})

    def call(self, word: str, *words: str) -> None:
        """Makes a call of ways.py."""
        getattr(self, f"do_{word}")(*words)

    def do_write(self, name: str, text: str) -> None:
        self._files.setdefault(name, [""])[0] = text

    do_over = do_begin = do_write

    def do_move(self, name: str, other: str) -> None:
        self._files[other] = self._files.pop(name)

    def do_link(self, name: str, other: str) -> None:
        self._files[other] = self._files[name]

    def do_unlink(self, name: str) -> None:
        del self._files[name]

    def do_exchange(self, name: str, other: str) -> None:
        self._files[name], self._files[other] = self._files[other], self._files[name]

    def do_nothing(self, *_: str) -> None:
        """Opening, reading, closing and waiting change no name and no content."""

    do_read = do_hold = do_share = do_close = do_folder = do_pause = do_nothing


@dataclass
class Save:
    """A content that a name got: from when and until when it held it, and the first and the last moment at which it can be looked up."""

    content: str
    begun: int
    ended: Optional[int] = None
    seen: list[int] = field(default_factory=list)

    def see(self, moment: int) -> None:
        self.seen[1:] = [moment]


class Policy(Protocol):
    """A rule of removal."""

    def must_hold(self, save: Save, newer: Sequence[Save], is_deleted: bool, now: int) -> bool:
        """Whether a content that has ended must still be there; `newer` are the later ones of its name."""


def _has_reached(save: Save, age: int, now: int) -> bool:
    assert save.ended is not None
    over = now - save.ended - age
    if abs(over) < MARGIN:
        raise Unclear(f"{save} at {now} is {over} seconds over the age {age}")
    return over > 0


class Safe(NamedTuple):
    """Holds everything for so many seconds after its end, and the newest ones of a name that is in use."""

    seconds: int
    floor: int = 0

    def must_hold(self, save: Save, newer: Sequence[Save], is_deleted: bool, now: int) -> bool:
        return not _has_reached(save, self.seconds, now) or (not is_deleted and len(newer) < self.floor)


class Ladder(NamedTuple):
    """Holds everything for a week, and then the newest of each hour. The script's weeks end before the next step, which is 30 days."""

    age: int = 7 * DAY
    width: int = HOUR

    def must_hold(self, save: Save, newer: Sequence[Save], is_deleted: bool, now: int) -> bool:
        return not _has_reached(save, self.age, now) or all(it.begun // self.width != save.begun // self.width for it in newer)


class Snapshot(NamedTuple):
    """What all names held at a moment at which nothing changed."""

    moment: int
    tree: dict[str, str]


class Ledger:
    """The saves of a folder. `policies` has for the beginning of a path the policy of the files there; the longest one counts."""

    def __init__(self, policies: dict[str, Policy]) -> None:
        self._policies = sorted(policies.items(), key=lambda row: -len(row[0]))
        self.saves: dict[str, list[Save]] = {}
        self.snapshots: list[Snapshot] = []
        self._tree: dict[str, str] = {}

    def note(self, moment: int, tree: dict[str, str]) -> list[str]:
        """Notes what changed up to a moment. Returns the names whose content changed and that are in use."""
        changed = [name for name, content in tree.items() if self._tree.get(name) != content]
        for name in [*changed, *(self._tree.keys() - tree.keys())]:
            if name in self._tree:
                self.saves[name][-1].ended = moment
        for name in changed:
            self.saves.setdefault(name, []).append(Save(tree[name], moment))
        self._tree = dict(tree)
        return changed

    def note_passed(self, moment: int, name: str, content: str) -> None:
        """Notes a content that a name held for less than a second, or while the folder's time stood: no moment finds it."""
        rows = self.saves.setdefault(name, [])
        at = len(rows) - (bool(rows) and rows[-1].ended is None)
        rows.insert(at, Save(content, moment, moment))

    def see(self, moment: int) -> None:
        """Notes that nothing changes at a moment."""
        for name in self._tree:
            self.saves[name][-1].see(moment)
        self.snapshots.append(Snapshot(moment, self._tree))

    def must_hold(self, name: str, at: int, now: int) -> bool:
        """Whether the content number `at` of a name must be there at a moment."""
        rows = self.saves[name]
        save = rows[at]
        if save.ended is None:
            return True
        policy = next(policy for path, policy in self._policies if name.startswith(path))
        return policy.must_hold(save, rows[at + 1:], name not in self._tree, now)

    def must_show(self, name: str, moment: int, now: int) -> bool:
        """Whether a name must be listed at a moment at which it had a file: only a file that has lost all its versions leaves no name."""
        at = next(at for at, save in enumerate(self.saves[name]) if save.seen and save.seen[0] <= moment <= save.seen[-1])
        return self.must_hold(name, at, now)
