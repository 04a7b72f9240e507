"""Random scripts for `tools/program/twin`, and how their answers are compared.

The lines have few names, and moments that are close together, so that most commands find something to do.
"""

import random
import subprocess
from collections.abc import Callable
from typing import NamedTuple

from program.twin_rows import LAST_MOMENT, LONGEST, Block, No
from program.twin_world import Twin

POLICIES = (
    "one", "all", "safe:1", "safe:3", "safe:10", "landmarks:1/2,4/4,9/12", "landmarks:2/3", "landmarks:1/1,2/2,3/4,5/8,8/16",
    "landmarks:3/2,10/10",
)
FLOORS = ("safe:1/0", "safe:1/1", "safe:1/2", "safe:3/2", "safe:3/3", "safe:5/1", "safe:5/2", "safe:10/2", "safe:2/16")
BAD_POLICIES = (
    "safe:3/17", "safe:0/2", "safe:0/17", f"safe:{LAST_MOMENT + 1}/1", "safe:3/x", "safe:0/x", "safe:3/", "safe:/2", "safe:3/02",
    "safe:03/2", "safe:3/+1", "safe:3/2/1", f"safe:3/{1 << 64}", f"safe:3/{(1 << 64) - 1}",
)
PATHS = ("/f", "/g", "/h", "/d", "/d/f", "/d/g", "/d/e", "/d/e/f", "/e", "/e/f", "/")
# What each script begins with, so that there is something to forget.
BEGINNING = (
    "create /f", "mkdir /d", "create /d/g", "link /f /d/f", "group make k", "group make l", "group add k /f", "group add l /d/g",
    "default / safe:3/2", "default /d landmarks:1/2,4/4,9/12",
)


class Writer:
    """Writes lines, with few names, and moments about now."""

    def __init__(self, rng: random.Random, twin: Twin) -> None:
        self.rng, self.twin = rng, twin

    def path(self) -> str:
        """A path that usually leads somewhere, and more often to the file of the first name than elsewhere."""
        chance = self.rng.random()
        if chance < 0.35:
            return "/f"
        return self.rng.choice(self.live_paths() if chance < 0.92 else PATHS)

    def live_paths(self, directory: int = 0, above: str = "/") -> list[str]:
        rows = [it for it in self.twin.names if it.place.directory == directory and it.death is None]
        below = [self.live_paths(it.target.number, f"{above}{it.place.name}/") for it in rows if it.target.kind == "directory"]
        return [above + it.place.name for it in rows] + [it for paths in below for it in paths] or ["/f"]

    def new_path(self) -> str:
        """A path that usually leads nowhere."""
        live = self.live_paths()
        free = [it for it in PATHS if it not in live]
        return self.rng.choice(free if free and self.rng.random() < 0.8 else PATHS)

    def moment(self) -> int:
        return max(0, self.twin.now + self.rng.choice([1, 0, 0, -1, -1, -2, -3, -5, -8, -13]))

    def later(self) -> int:
        """A moment that is mostly later than now."""
        return max(0, self.twin.now + self.rng.choice([-1, 0, 1, 2, 4, 9, 20]))

    def tagged(self, numbered: bool = True) -> str:
        kind = self.rng.randrange(3 if numbered else 2)
        return self.path() + ("", f"@{self.moment()}", f"#{self.rng.randint(0, 9)}")[kind]

    def held(self) -> str:
        """A path and usually the number of a held version."""
        path = self.rng.choice(self.live_paths())
        try:
            rows = self.twin.files[self.twin.file_at(path)].versions
        except No:
            return self.tagged()
        return f"{path}#{self.rng.choice(rows).number}" if rows and self.rng.random() < 0.8 else self.tagged()

    def known_handle(self) -> str:
        live = list(self.twin.handles)
        return self.rng.choice(live) if live and self.rng.random() < 0.95 else str(self.rng.randint(0, self.twin.last_handle + 1))

    def handle_line(self, line: Callable[[], str]) -> str:
        """A line for a handle; without a handle, mostly one that opens one."""
        return line() if self.twin.handles or self.rng.random() < 0.1 else f"open write {self.path()}"

    def data(self) -> str:
        count = self.rng.choice([0, 1, 1, 2, 3, 511, 512, 513, 700])
        return bytes(self.rng.choice(b"abcd") for _ in range(count)).hex() or "-"

    def offset(self) -> int:
        return self.rng.choice([0, 0, 1, 2, 5, 511, 512, 600, 1024, LONGEST - 1, LONGEST])

    def mark(self) -> str:
        end = "" if self.rng.random() < 0.4 else f" {max(0, self.twin.now + self.rng.choice([0, 1, 2, 4, 7, 12, 20]))}"
        return f"mark {self.group()} {self.moment()}{end}"

    def changes(self) -> str:
        moments = [max(0, self.twin.now - self.rng.choice([0, 0, 1, 2, 3, 5, 9, 15, 25])) for _ in range(2)]
        if self.rng.random() < 0.9:
            moments.sort()
        within = "" if self.rng.random() < 0.6 else f" {self.path() if self.rng.random() < 0.7 else self.rng.choice(PATHS)}"
        return f"changes {moments[0]} {moments[1] + (self.rng.random() < 0.1)}{within}"

    def group(self) -> str:
        return self.rng.choice("kkkklllln")

    def policy(self) -> str:
        return self.rng.choice(self.rng.choices((POLICIES, FLOORS, BAD_POLICIES), (9, 10, 1))[0])

    def line(self) -> str:
        rng, path, tagged = self.rng, self.path, self.tagged
        lines: tuple[tuple[int, Callable[[], str]], ...] = (
            (8, lambda: f"tick {rng.choice([0, 1, 1, 1, 2, 3, 5, 9])}"),
            (1, lambda: f"clock {self.moment()}"),
            (2, lambda: f"mkdir {self.new_path()}"),
            (1, lambda: f"rmdir {path()}"),
            (5, lambda: f"create {self.new_path()}"),
            (2, lambda: f"link {path()} {self.new_path()}"),
            (4, lambda: f"unlink {path()}"),
            (3, lambda: f"rename {path()} {self.new_path()}"),
            (4, lambda: f"undelete {self.new_path()}"),
            (8, lambda: f"open write {path()}"),
            (3, lambda: f"open read {self.held()}"),
            (10, lambda: self.handle_line(lambda: f"write {self.known_handle()} {self.offset()} {self.data()}")),
            (3, lambda: self.handle_line(lambda: f"truncate {self.known_handle()} {self.offset()}")),
            (9, lambda: self.handle_line(lambda: f"close {self.known_handle()}")),
            (2, lambda: self.handle_line(lambda: f"abandon {self.known_handle()}")),
            (1, lambda: f"note {self.data() if rng.random() < 0.7 else rng.choice([200, 201]) * '7a'}"),
            (5, lambda: f"save {path() if rng.random() < 0.7 else self.new_path()} {self.data()}"),
            (3, lambda: f"revert {path()} {rng.randint(0, 8)}"),
            (4, lambda: f"restore {path() if rng.random() < 0.6 else self.new_path()} {self.moment()}"),
            (4, lambda: f"policy {path()} {self.policy()}"),
            (2, lambda: f"default {path()} {self.policy()}"),
            (2, lambda: f"group make {self.group()}"),
            (1, lambda: f"group drop {self.group()}"),
            (3, lambda: f"group add {self.group()} {path()}"),
            (2, lambda: f"group remove {self.group()} {path()}"),
            (4, self.mark),
            (1, lambda: f"unmark {self.group()} {self.moment()}"),
            (3, lambda: "clean"),
            (2, lambda: f"pass {rng.choice([0, 1, 2, 5, 99])}"),
            (2, lambda: f"read {tagged()}"),
            (2, lambda: f"read {self.held()}"),
            (1, lambda: f"read {self.known_handle()}"),
            (3, lambda: f"stat {tagged()}"),
            (3, lambda: f"versions {tagged(False)}"),
            (2, lambda: f"list {tagged(False)}"),
            (2, lambda: "restorable"),
            (7, lambda: "due"),
            (8, lambda: f"why {self.held()}"),
            (2, lambda: f"ahead {self.later()}"),
            (3, lambda: f"expiring {self.later()}"),
            (2, lambda: rng.choice(["handles", "gone", "removals", "answers"])),
            (3, lambda: f"story {path() if rng.random() < 0.5 else self.new_path()}"),
            (4, self.changes),
            (3, lambda: "usage"),
            (1, lambda: "groups"),
            (1, lambda: rng.choice(["history", "trim"]) if rng.random() < 0.2 else "due"),
        )
        return rng.choices([make for _, make in lines], [weight for weight, _ in lines])[0]()


def written(rng: random.Random, count: int) -> tuple[list[str], list[Block]]:
    """Writes a script, and returns its lines with the twin's answers."""
    twin = Twin()
    writer = Writer(rng, twin)
    lines: list[str] = []
    blocks: list[Block] = []
    for at in range(count):
        lines.append(BEGINNING[at] if at < len(BEGINNING) else writer.line())
        blocks.append(twin.answer(lines[-1]))
    return lines, blocks


class Difference(NamedTuple):
    """The first line of a script that is answered otherwise, by its place; what it should print, and what the program printed."""

    at: int
    wanted: Block
    answered: Block


def answers_to(lines: list[str]) -> list[Block]:
    """Returns the twin's answers to a script."""
    twin = Twin()
    return [twin.answer(it) for it in lines]


def difference(program: str, lines: list[str], blocks: list[Block] | None = None) -> Difference | None:
    """Returns how the program answers a script otherwise than the twin, whose answers may be given."""
    wanted = answers_to(lines) if blocks is None else blocks
    words = [program, "run", "--explain"]
    ran = subprocess.run(words, input="".join(f"{it}\n" for it in lines), capture_output=True, text=True, timeout=120, check=False)
    printed, at = ran.stdout.splitlines(), 0
    for number, block in enumerate(wanted):
        if printed[at:at + len(block)] != block:
            return Difference(number, block, printed[at:at + len(block) + 2])
        at += len(block)
    return None if at == len(printed) and ran.returncode == 0 else Difference(len(wanted), [], printed[at:])
