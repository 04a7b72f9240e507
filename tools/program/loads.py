"""The loads of `tools/program/instructions`: scripts whose lines are the same on every machine, each with a kind of work of its own."""

import random
import subprocess
from collections.abc import Callable, Iterator

from gate.building import ROOT

ALL = (1 << 64) - 1
LADDER = "landmarks:86400/3600,604800/86400,2592000/604800"
# As many lines as bench/README.md counts the instructions of.
LINES = 20_000


def start() -> Iterator[str]:
    """No line: what the program takes to start and to end."""
    return iter(())


def clock_due() -> Iterator[str]:
    """`clock` and `due` in turn, over an empty world."""
    for moment in range(1, LINES // 2 + 1):
        yield f"clock {moment}"
        yield "due"


def all_commands() -> Iterator[str]:
    """The first lines of bench/all_commands: sessions, clocks, questions and cleans."""
    made = subprocess.run([ROOT / "bench" / "all_commands"], stdout=subprocess.PIPE, encoding="utf-8", check=True)
    yield from made.stdout.splitlines()[:LINES]


def tiny() -> Iterator[str]:
    """`clock` and `due` in turn, over a world with one file."""
    yield "create /f"
    yield from clock_due()


def versions() -> Iterator[str]:
    """Many versions of many files by reverts, and a pass that removes all but one of each."""
    yield "default / one"
    yield from (f"create /f{file}" for file in range(100))
    for _ in range(100):
        yield from (f"revert /f{file} 1" for file in range(100))
    yield f"pass {ALL}"


def writes() -> Iterator[str]:
    """Small writes into large files, each a version that is kept for a while."""
    rng, sizes = random.Random("writes"), (1, 2, 4, 8, 16, 64)
    yield "default / safe:60"
    for file in range(8):
        yield f"create /f{file}"
        yield f"open write /f{file}"
        yield f"truncate {file + 1} 262144"
        yield f"close {file + 1}"
    for handle in range(9, 3_009):
        size = rng.choice(sizes)
        yield f"open write /f{rng.randrange(8)}"
        yield f"write {handle} {rng.randrange(262_144 - size)} {rng.randbytes(size).hex()}"
        yield f"close {handle}"
        if handle % 50 == 0:
            yield "tick 2"
        if handle % 1000 == 0:
            yield f"pass {ALL}"
            yield "usage"


def landmarks() -> Iterator[str]:
    """Sessions over two years under a ladder, with passes between them."""
    rng, moment, handle = random.Random("landmarks"), 0, 0
    yield f"default / {LADDER}"
    yield from (f"create /f{file}" for file in range(20))
    for step in range(150):
        moment += rng.randrange(200_000, 600_000)
        yield f"clock {moment}"
        for file in range(20):
            handle += 1
            yield f"open write /f{file}"
            yield f"write {handle} {rng.randrange(2_000)} {step % 256:02x}"
            yield f"close {handle}"
        if step % 25 == 24:
            yield f"pass {ALL}"
    yield "due"
    yield "usage"
    yield from (f"versions /f{file}" for file in range(20))


def thinning() -> Iterator[str]:
    """Reverts over two years under a ladder, with few passes, so that many keys wait."""
    rng, moment = random.Random("thinning"), 0
    yield f"default / {LADDER}"
    yield from (f"create /f{file}" for file in range(40))
    for step in range(300):
        moment += rng.randrange(60, 400_000)
        yield f"clock {moment}"
        yield from (f"revert /f{file} {max(1, step)}" for file in range(40))
        if step % 150 == 149:
            yield f"pass {ALL}"
    yield from (f"versions /f{file}" for file in range(0, 40, 10))


def reads() -> Iterator[str]:
    """Reads by moment and by number, over files with many versions."""
    rng, moment, handle = random.Random("reads"), 0, 0
    paths = [f"/deep/er/file{file}" for file in range(8)]
    yield from ("default / all", "mkdir /deep", "mkdir /deep/er", *(f"create {path}" for path in paths))
    for _ in range(300):
        moment += rng.randrange(1, 100)
        yield f"clock {moment}"
        for path in paths:
            handle += 1
            yield f"open write {path}"
            yield f"write {handle} {rng.randrange(200)} {rng.randbytes(4).hex()}"
            yield f"close {handle}"
    for _ in range(3_000):
        path, at, number = rng.choice(paths), rng.randrange(moment + 1), rng.randrange(1, 301)
        yield from (f"read {path}@{at}", f"stat {path}@{at}", f"read {path}#{number}", f"stat {path}#{number}")


def names() -> Iterator[str]:
    """Names that are renamed, unlinked and brought back, and paths at earlier moments."""
    rng = random.Random("names")
    paths = [f"/d{file % 20}/file{file}" for file in range(400)]
    yield "default / safe:5000"
    yield from (f"mkdir /d{directory}" for directory in range(20))
    yield from (f"create {path}" for path in paths)
    for turn in range(2_000):
        if turn % 4 == 0:
            yield f"clock {turn}"
        place = rng.randrange(len(paths))
        path, new = paths[place], f"/d{rng.randrange(20)}/new{turn}"
        yield f"rename {path} {new}"
        paths[place] = new
        yield from (f"unlink {new}", f"undelete {new}", f"stat {path}@{rng.randrange(turn // 4 * 4 + 1)}")
        if turn % 200 == 199:
            yield from (f"list /d{rng.randrange(20)}", "restorable", "pass 100")
    yield "usage"


def groups() -> Iterator[str]:
    """Groups with many members and marks, which are then removed."""
    rng = random.Random("groups")
    yield from (f"create /f{file}" for file in range(100))
    yield from (f"policy /f{file} {('one', 'safe:500', LADDER)[file % 3]}" for file in range(100))
    for step in range(30):
        yield f"clock {step * 20 + 20}"
        yield from (f"revert /f{file} {max(1, step)}" for file in range(100))
    yield from (f"group make g{group}" for group in range(50))
    yield from (f"group add g{group} /f{file}" for group in range(50) for file in range(group % 5, 100, 5))
    marks = [(group, moment) for group in range(50) for moment in rng.sample(range(600), 10)]
    yield from (f"mark g{group} {moment}" for group, moment in marks)
    yield "pass 2000"
    yield from (f"group remove g{group} /f{group % 5}" for group in range(50))
    rng.shuffle(marks)
    yield from (f"unmark g{group} {moment}" for group, moment in marks[::2])
    yield from (f"group drop g{group}" for group in range(0, 50, 3))
    yield from ("groups", "clock 100000", f"pass {ALL}", "usage")


# The lines of `parse`, each with something to read and little to do. Some are bad, and some are refused.
SMALL = (
    "tick 0", "close 9", "read 1", "read 2", "stat /", "due", "clean", "stat /f", "read /f", "usage", "hello", "write 1 0 61", "clock 0",
    "mkdir /", "list /", "versions /f", "", "read /f#1", "read /f@0", "stat /f@1970-01-01T00:00:00Z", "groups", "mark g 0", "unmark g 5",
    "revert /f 1", "rmdir /f", "unlink /", "truncate 1 1", "write 1 0 6", "rename / /x", "link /f /f", "undelete /f", "open read /g",
    "policy /f all", "pass 0",
)


def parse() -> Iterator[str]:
    """Small lines of all kinds in random order, over a tiny world."""
    rng = random.Random("parse")
    yield from ("create /f", "open write /f", "write 1 0 61", "open read /f", "group make g")
    yield from (rng.choice(SMALL) for _ in range(LINES))


LOADS: tuple[Callable[[], Iterator[str]], ...] = (
    start, clock_due, all_commands, tiny, versions, writes, landmarks, thinning, reads, names, groups, parse,
)
