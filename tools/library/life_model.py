"""What `file_life` holds a store in a file against: the second description of `tools/program/twin`, which can also be renewed, and lines
of a life of hours."""

from __future__ import annotations

import random
from collections.abc import Callable, Iterator
from typing import NamedTuple, Optional

from program.twin_rows import Block, File, Name, Place, Target
from program.twin_scripts import Writer
from program.twin_world import Twin

MINUTE, HOUR, DAY = 60, 3600, 86_400
# The writer of a block that a renewal met: no later version has such a number.
_BEFORE = 10**9
POLICIES = (
    "one", "safe:600", "safe:600", "safe:3600", "safe:3600/2", "safe:7200/3", "safe:60/1", "landmarks:1800/600,7200/3600",
    "landmarks:300/60,3600/900,21600/7200",
)
LENGTHS = (0, 1, 3, 100, 100, 100, 511, 512, 513, 700, 3000, 3000, 20_000, 100_000)
PATHS = ("/f", "/g", "/h", "/i", "/j", "/d/f", "/d/g", "/d/h", "/d/e/f", "/d/e/g", "/e/f", "/e/g", "/k/f")
DIRECTORIES = ("/d", "/d/e", "/e", "/k")
# Of directories all names stay, so that there must not be many.
MOST_DIRECTORIES, MOST_MOVES = 12, 20


def is_newest_removed(file: File) -> bool:
    return bool(file.versions) and file.versions[-1].number < file.next - 1


class Life(Twin):
    """A store without a history, whose numbers can be made anew."""

    def __init__(self) -> None:
        super().__init__()
        self.renewals = 0

    def removal_of(self, tagged: str) -> Optional[str]:
        return None

    def forget_lines(self) -> None:
        """Forgets what only a history has."""
        self.entries, self.printed, self.removals, self.taken, self.told, self.since = [], [], [], [], [], {}

    def close_all(self) -> None:
        """Does what an opening does with handles that were left open."""
        for handle in sorted(self.handles, key=int):
            self.do_close(handle)

    def renew(self) -> None:
        """Gives directories, files and versions fresh numbers, in their order."""
        self.renewals += 1
        directories = {old: new for new, old in enumerate(sorted(self.directories))}
        files = {old: new for new, old in enumerate(sorted(self.files), 1)}
        fresh = {"directory": directories, "file": files}
        self.directories = {directories[old]: it for old, it in self.directories.items()}
        self.names = [
            Name(Place(directories[it.place.directory], it.place.name), Target(it.target.kind, fresh[it.target.kind][it.target.number]),
                 it.birth, it.death)
            for it in self.names
        ]
        self.files = {files[old]: it for old, it in self.files.items()}
        for file in self.files.values():
            # Nothing may be taken for the newest version once that was removed, so it keeps its number.
            removed = int(is_newest_removed(file))
            for number, version in enumerate(file.versions, 1):
                version.number = number
                version.slots = [(data, by if by < 0 else -(self.renewals * _BEFORE + by)) for data, by in version.slots]
            file.next = len(file.versions) + 1 + removed
        for group in self.groups:
            group.members = [files[it] for it in group.members]
        self.last_file, self.last_handle = len(files), 0

    def held(self) -> dict[str, int]:
        """Returns how many of each kind a renewed store counts."""
        return {
            "files": len(self.files), "directories": len(self.directories) - 1, "names": len(self.names),
            "versions": sum(len(it.versions) + int(is_newest_removed(it)) for it in self.files.values()), "handles": 0,
            "groups": len(self.groups),
            "members": sum(len(it.members) for it in self.groups), "marks": sum(len(it.marks) for it in self.groups),
        }

    def paths(self, directory: int = 0, above: str = "/") -> Iterator[tuple[str, Target]]:
        """Yields each path that is in use, and what it means."""
        for it in self.names:
            if it.place.directory == directory and it.death is None:
                yield above + it.place.name, it.target
                if it.target.kind == "directory":
                    yield from self.paths(it.target.number, f"{above}{it.place.name}/")

    def questions(self, chance: random.Random) -> list[str]:
        """Returns lines that ask for everything: each file's policy, versions, contents and why they are held, and the names; and the
        contents and names at moments of before."""
        lines = ["usage", "groups", "due", "restorable", f"ahead {self.now + 2 * HOUR}", "list /"]
        moments = [chance.randint(max(self.now - DAY, 0), self.now) for _ in range(3)]
        lines += [f"list /@{it}" for it in moments]
        for path, target in self.paths():
            if target.kind == "directory":
                lines += [f"list {path}", f"stat {path}"]
                continue
            lines += [f"stat {path}", f"versions {path}", *(f"read {path}@{it}" for it in moments)]
            for it in self.files[target.number].versions:
                lines += [f"read {path}#{it.number}", f"why {path}#{it.number}"]
        return lines


def answers_to(model: Life, lines: list[str]) -> list[Block]:
    """Returns the model's answers to lines."""
    found = [model.answer(it) for it in lines]
    model.forget_lines()
    return found


class Kind(NamedTuple):
    """How often a line of a kind is written, and how."""

    weight: int
    make: Callable[[], str]


class LifeWriter(Writer):
    """Writes lines that change a store, mostly saves, with policies of minutes and hours."""

    def __init__(self, rng: random.Random, model: Life) -> None:
        super().__init__(rng, model)
        self.moves = 0
        self.saves = 0

    def path(self) -> str:
        files = self.files()
        return self.rng.choice(files) if files and self.rng.random() < 0.95 else self.rng.choice(PATHS)

    def files(self) -> list[str]:
        return [path for path, target in self._model.paths() if target.kind == "file"]

    @property
    def _model(self) -> Life:
        assert isinstance(self.twin, Life)
        return self.twin

    def new_path(self) -> str:
        return self.rng.choice(PATHS)

    def moment(self) -> int:
        return max(0, self.twin.now - self.rng.choice((0, 1, 7, MINUTE, 10 * MINUTE, HOUR, 5 * HOUR)))

    def data(self) -> str:
        return self.rng.randbytes(self.rng.choice(LENGTHS)).hex() or "-"

    def policy(self) -> str:
        return self.rng.choice(POLICIES)

    def group(self) -> str:
        return self.rng.choice("kl")

    def save(self) -> str:
        self.saves += 1
        return f"save {self.path() if self.rng.random() < 0.8 else self.new_path()} {self.data()}"

    def directory(self) -> str:
        """A line about a directory, while there may be more of them."""
        if len(self.twin.directories) < MOST_DIRECTORIES and self.rng.random() < 0.7:
            return f"mkdir {self.rng.choice(DIRECTORIES)}"
        if self.moves < MOST_MOVES:
            self.moves += 1
            return self.rng.choice((f"rmdir {self.rng.choice(DIRECTORIES)}", f"undelete {self.rng.choice(DIRECTORIES)}",
                                    f"rename {self.rng.choice(DIRECTORIES)} {self.rng.choice(DIRECTORIES)}"))
        return self.save()

    def on_handle(self, line: Callable[[], str]) -> str:
        return line() if self.twin.handles else f"open write {self.path()}"

    def marked(self) -> str:
        return f"mark {self.group()} {self.moment()} {self.twin.now + self.rng.choice((MINUTE, HOUR, 3 * HOUR))}"

    def held_number(self) -> int:
        """The number of a version, usually of one that is held."""
        return self.rng.randint(1, 9)

    def line(self) -> str:
        path = self.path
        kinds = (
            Kind(60, self.save),
            Kind(3, lambda: f"unlink {path()}"),
            Kind(3, lambda: f"undelete {self.new_path()}"),
            Kind(3, lambda: f"rename {path()} {self.new_path()}"),
            Kind(1, lambda: f"link {path()} {self.new_path()}"),
            Kind(2, lambda: f"create {self.new_path()}"),
            Kind(1, self.directory),
            Kind(3, lambda: f"revert {path()} {self.held_number()}"),
            Kind(3, lambda: f"restore {path() if self.rng.random() < 0.6 else self.new_path()} {self.moment()}"),
            Kind(2, lambda: f"policy {path()} {self.policy()}"),
            Kind(1, lambda: f"default {self.rng.choice(('/', '/d', '/e'))} {self.policy()}"),
            Kind(1, lambda: f"group {self.rng.choice(('make', 'make', 'drop'))} {self.group()}"),
            Kind(1, lambda: f"group {self.rng.choice(('add', 'add', 'remove'))} {self.group()} {path()}"),
            Kind(1, self.marked),
            Kind(1, lambda: f"unmark {self.group()} {self.moment()}"),
            Kind(4, lambda: f"open write {path()}"),
            Kind(1, lambda: f"open read {self.held()}"),
            Kind(6, lambda: self.on_handle(lambda: f"write {self.known_handle()} {self.rng.choice((0, 1, 511, 512, 5000))} {self.data()}")),
            Kind(1, lambda: self.on_handle(lambda: f"truncate {self.known_handle()} {self.rng.choice((0, 1, 512, 5000))}")),
            Kind(6, lambda: self.on_handle(lambda: f"close {self.known_handle()}")),
            Kind(1, lambda: self.on_handle(lambda: f"abandon {self.known_handle()}")),
            Kind(1, lambda: f"note {self.rng.randbytes(9).hex()}"),
            Kind(4, lambda: f"pass {self.rng.choice((1, 5, 1_000_000))}"),
            Kind(1, lambda: "clean"),
            Kind(2, lambda: f"read {self.held()}"),
            Kind(1, lambda: f"why {self.held()}"),
        )
        return self.rng.choices([it.make for it in kinds], [it.weight for it in kinds])[0]()

    def relief(self, most: dict[str, int]) -> list[str]:
        """Returns lines that make room below limits: what is open is closed, and if more than a third of a limit is held, marks and much of
        what is held go."""
        lines = [f"close {it}" for it in self.twin.handles]
        held = self._model.held()
        if all(3 * held[name] < limit for name, limit in most.items()):
            return lines
        lines += [f"group drop {it.name}" for it in self.twin.groups]
        files = self.files()
        lines += [f"unlink {it}" for it in self.rng.sample(files, len(files) // 2)]
        return [*lines, *(f"policy {it} one" for it in files), f"tick {3 * HOUR}", "pass 1000000"]
