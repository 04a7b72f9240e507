"""Programs that save numbered contents into a store in a file, and how they are killed and made to fail: what `c_file` and `file_kills`
share.

Each saves as clients/c/tests/file_saves.c does, and has its calls of the system counted and changed by file_faults.c. That program of C
says what a file has afterwards.
"""

from __future__ import annotations

import errno
import os
import random
import signal
import subprocess
import tempfile
import time
from collections.abc import Callable, Iterable, Iterator, Mapping
from concurrent.futures import ThreadPoolExecutor
from pathlib import Path
from typing import Any, NamedTuple

from gate import libraries
from gate.building import ROOT
from library import crashes

TESTS = ROOT / "clients" / "c" / "tests"
SOURCE = libraries.FILE_SOURCE
STRICT = ["-std=c11", "-O2", "-g", "-Wall", "-Wextra", "-Wpedantic", "-Werror"]
SANITIZED = ["-fsanitize=address,undefined", "-fno-sanitize-recover=all", "-fno-omit-frame-pointer"]
# The calls of the C library between which and elephant_file.c file_faults.c stands.
WRAPPED = [
    "open", "close", "pwrite", "pread", "fdatasync", "fsync", "ftruncate", "rename", "unlink", "flock", "fchmod", "fchown", "stat", "fstat",
]
# Kinds of faults of file_faults.c that are no numbers of errors.
HALF, KILL, KILL_WITHIN, HALF_FIRST = 0, 1000, 1001, 1002
FOR_GOOD = 1_000_000
WORKERS = 2
SECONDS = 600
NAME = "saves.journal"
# In memory, where a sync takes no time; what a disk forgets is crashes.py's to say.
MEMORY = "/dev/shm" if os.access("/dev/shm", os.W_OK) else None


class Wrong(Exception):
    """What is not as it should be."""


class Work(NamedTuple):
    """What `file_saves run` does: how many changes, after how many it compacts and asks for the disk, and how many versions it may make."""

    changes: int
    compact: int
    sync: int
    versions: int

    def words(self, path: Path) -> list[str]:
        return ["run", str(path), *map(str, self)]


# With compactions and renewals, syncing each commit, or when asked.
EACH, ASKED = Work(14, 4, 1, 24), Work(14, 4, 3, 24)


class Ran(NamedTuple):
    """What came of a run of `file_saves`: its status, the change it found, the last it committed, how many calls it made, its errors."""

    status: int
    found: int | None
    acknowledged: int
    calls: int
    errors: str


def read_run(status: int, output: str, errors: str) -> Ran:
    """Reads what a run printed. A last line without a line feed doesn't count."""
    found, acknowledged, calls = None, 0, 0
    for line in output.split("\n")[:-1]:
        word, number = line.split()
        found = int(number) if word == "has" else found
        acknowledged = int(number)
    for line in errors.splitlines():
        if line.endswith(" calls"):
            calls = int(line.split()[0])
    return Ran(status, found, acknowledged, calls, errors)


class Suite:
    """The programs that are built from the tests, and the results of the checks. `saver` is the program that saves, if it isn't that of
    C."""

    def __init__(self, folder: str, library: Path, saver: Path | None = None) -> None:
        self.folder, self.library = Path(folder), library
        self.saver = saver or self.folder / "file_saves"
        self.checks, self.wrong = 0, 0

    def check(self, what: str, do: Callable[..., str], *given: Any) -> None:
        """Does one check, counts it, and prints its result."""
        began = time.monotonic()
        self.checks += 1
        try:
            result = do(self, *given)
        except (Wrong, OSError, subprocess.SubprocessError) as it:
            self.wrong += 1
            print(f"{what}: WRONG: {it}", flush=True)
            return
        print(f"{what}: {result}, {time.monotonic() - began:.1f} seconds", flush=True)

    def build(self, name: str, sources: Iterable[Path], words: Iterable[str] = ()) -> None:
        """Builds a program of the folder from a test, the file's part and the library."""
        headers, below = f"-I{libraries.HEADER.parent}", self.library / libraries.STATIC.name
        made = ["gcc", *STRICT, *words, headers, *sources, SOURCE, below, "-o", self.folder / name]
        ran = subprocess.run(list(map(str, made)), capture_output=True, encoding="utf-8", errors="replace", check=False)
        if ran.returncode:
            raise Wrong(ran.stderr[-2000:])

    def run_saves(self, words: list[str], environment: Mapping[str, str] = {}, given: str = "") -> Ran:
        """Runs the program that saves, and returns what came of it."""
        ran = subprocess.run(
            [str(self.saver), *words], env={**os.environ, **environment}, input=given, capture_output=True,
            encoding="utf-8", errors="replace", timeout=SECONDS, check=False,
        )
        return read_run(ran.returncode, ran.stdout, ran.stderr)

    def found(self, what: object, paths: list[Path], versions: int) -> list[int]:
        """Opens each of these files and goes on with it, within so many versions. Returns the change that each had."""
        ran = subprocess.run(
            [str(self.folder / "file_saves"), "check", str(versions)], input="".join(f"{it}\n" for it in paths), capture_output=True,
            encoding="utf-8", errors="replace", timeout=SECONDS, check=False,
        )
        lines = ran.stdout.splitlines()
        if ran.returncode or len(lines) != len(paths):
            path = next((it for it, line in zip(paths, lines) if not line.startswith("has ")), paths[len(lines) % len(paths)])
            raise Wrong(f"{what}: {path.parent.name}/{path.name} isn't read, or is by halves: {ran.stderr[-500:]}")
        return [int(it.split()[1]) for it in lines]


def build_saves(suite: Suite) -> None:
    """Builds the program of C that saves, and says what a file has."""
    suite.build("file_saves", [TESTS / "file_saves.c", TESTS / "file_faults.c"], [f"-Wl,--wrap={it}" for it in WRAPPED])


# ---- Calls that fail


class Fault(NamedTuple):
    """Calls that do otherwise: from which on, how many, and how."""

    first: int
    many: int
    kind: int

    def __str__(self) -> str:
        return " ".join(map(str, self))


KINDS = [
    (1, errno.EIO), (1, errno.ENOSPC), (1, errno.EINTR), (1, HALF), (2, errno.EIO), (3, errno.ENOSPC), (FOR_GOOD, errno.EIO),
    (FOR_GOOD, errno.ENOSPC), (1, KILL), (1, KILL_WITHIN), (2, HALF_FIRST), (3, HALF_FIRST),
]


def faults(calls: int, every: int, main: int) -> Iterator[Fault]:
    """Yields the faults of a run: an error and a kill at every so many calls, and the other kinds at every so many."""
    for first in range(1, calls + 1):
        for at, (many, kind) in enumerate(KINDS):
            is_main = (many, kind) == (1, errno.EIO) or kind == KILL
            if (first + at) % (main if is_main else every) == 0:
                yield Fault(first, many, kind)


def want_within(what: object, has: int, least: int, most: int) -> None:
    if not least <= has <= most:
        raise Wrong(f"{what}: change {has} is found, and not {least} to {most}")


def want_files_within(suite: Suite, what: object, folder: Path, lefts: list[crashes.Left], versions: int) -> None:
    """Lays the files that a power failure leaves, and checks what they have."""
    paths = []
    for at, left in enumerate(lefts):
        (folder / str(at)).mkdir()
        for name, data in left.files.items():
            (folder / str(at) / name).write_bytes(data)
        paths.append(folder / str(at) / NAME)
    for left, has in zip(lefts, suite.found(what, paths, versions)):
        want_within(what, has, left.least, left.most)


def read_log(path: Path) -> str:
    return path.read_text(encoding="ascii") if path.exists() else ""


def try_fault(suite: Suite, work: Work, fault: Fault) -> None:
    """Runs with a fault. What is left, and what a power failure after it leaves, must have all that was committed. After a fault that
    passes, the run must have gone on to its end. After a kill another run goes on, and the power fails during that."""
    with tempfile.TemporaryDirectory(dir=MEMORY) as name:
        folder = Path(name)
        (folder / "run").mkdir()
        path, log, more = folder / "run" / NAME, folder / "log", folder / "more"
        ran = suite.run_saves(work.words(path), {"FILE_FAULT": str(fault), "FILE_LOG": str(log)})
        if ran.status not in (0, 3, -signal.SIGKILL):
            raise Wrong(f"fault {fault}: status {ran.status}: {ran.errors[-500:]}")
        passes = fault.kind in (errno.EIO, errno.ENOSPC) and fault.many == 1 and ran.status == 0
        if passes and ran.found is not None and ran.acknowledged < work.changes - 2:
            raise Wrong(f"fault {fault}: it ends with change {ran.acknowledged}: {ran.errors[-500:]}")
        if fault.kind in (errno.EINTR, HALF) and ran.errors.count("\n") != 1:
            raise Wrong(f"fault {fault}: {ran.errors[-500:]}")
        done = read_log(log)
        after, throws = done.count("\n"), 2
        # What a failed sync has dropped may be missed only later, and later changes may cover what a failed append left.
        if "unsynced" in done:
            after, throws = done[: done.index("unsynced")].count("\n"), 0
        elif fault.kind == HALF_FIRST:
            after = throws = 0
        if ran.status == -signal.SIGKILL:
            ran = suite.run_saves(work._replace(changes=3).words(path), {"FILE_LOG": str(more)})
        lefts = crashes.all_left(done + read_log(more), path.parent, throws, after)
        has = suite.found(f"fault {fault}", [path], work.versions)[0]
        want_within(f"fault {fault}", has, ran.acknowledged, max(it.most for it in lefts))
        want_files_within(suite, f"fault {fault}, and no power", folder, lefts, work.versions)


def keeps_all_if_calls_fail(suite: Suite, work: Work, every: int, main: int = 1) -> str:
    with tempfile.TemporaryDirectory(dir=MEMORY) as folder:
        ran = suite.run_saves(work.words(Path(folder) / NAME))
    if ran.status or ran.acknowledged < work.changes - 2 or not ran.calls:
        raise Wrong(f"without a fault: status {ran.status}: {ran.errors[-500:]}")
    chosen = list(faults(ran.calls, every, main))
    with ThreadPoolExecutor(WORKERS) as workers:
        list(workers.map(lambda it: try_fault(suite, work, it), chosen))
    return f"{len(chosen)} faults in {ran.calls} calls"


# ---- Power failures and kills


def keeps_all_without_power(suite: Suite, work: Work, throws: int) -> str:
    with tempfile.TemporaryDirectory(dir=MEMORY) as name:
        folder = Path(name)
        (folder / "run").mkdir()
        ran = suite.run_saves(work.words(folder / "run" / NAME), {"FILE_LOG": str(folder / "log")})
        if ran.status:
            raise Wrong(f"status {ran.status}: {ran.errors[-500:]}")
        lefts = crashes.all_left((folder / "log").read_text(encoding="ascii"), folder / "run", throws)
        want_files_within(suite, "no power", folder, lefts, work.versions)
    return f"{len(lefts)} power failures"


def kill_once(suite: Suite, work: Work, path: Path, waits: bool, seconds: float) -> Ran:
    """Kills a run after so many seconds, from its start or from when it has opened the file. Returns what it said until then."""
    with tempfile.TemporaryFile("w+", encoding="utf-8", errors="replace") as errors:
        words = [str(suite.saver), *work.words(path)]
        with subprocess.Popen(words, stdout=subprocess.PIPE, stderr=errors, encoding="utf-8", errors="replace") as ran:
            assert ran.stdout
            output = ran.stdout.readline() if waits else ""
            time.sleep(seconds)
            ran.kill()
            output += ran.stdout.read()
        errors.seek(0)
        return read_run(ran.returncode, output, errors.read())


def keeps_all_if_killed(suite: Suite, kills: int) -> str:
    """Kills a run at random moments. Each goes on with the file that the one before left."""
    dice, least, most = random.Random(kills), 0, 0
    with tempfile.TemporaryDirectory() as folder:
        for kill in range(kills):
            work = Work(FOR_GOOD, 7, dice.choice((1, 5)), 60)
            ran = kill_once(suite, work, Path(folder) / NAME, dice.random() < 0.8, dice.uniform(0, 0.1))
            if ran.status != -signal.SIGKILL:
                raise Wrong(f"kill {kill}: status {ran.status}: {ran.errors[-500:]}")
            if ran.found is not None:
                want_within(f"kill {kill}", ran.found, least, most)
                least = ran.acknowledged
            # What was under way may be there, too.
            most = max(least, most if ran.found is None else 0) + work.sync
        last = suite.found("the last kill", [Path(folder) / NAME], 60)[0]
        want_within("the last kill", last, least, most)
    return f"{kills} kills, the last at change {last}"


# Runs on a disk of 1 MiB, with a file that is removed before the second program looks. Then it tells how often the disk was full.
FULL = """mount -t tmpfs -o size=1m none "$1" && head -c "$4" /dev/zero > "$1/other" || exit 77
"$2" run "$1/$3" 400 "$5" "$6" 1000000 2> "$8"
rm "$1/other" && echo "full $(grep -c 'No space left' "$8")" && echo "$1/$3" | "$7" check 1000000
"""


class Full(NamedTuple):
    """How much of the disk another file takes, and after how many changes the run compacts and asks for the disk."""

    other: int
    compact: int
    sync: int


def keeps_all_on_a_full_disk(suite: Suite, full: Full) -> str:
    """Runs on a small disk until it is full. Only root may make one: for others there is only the limit of lengths in `files`."""
    with tempfile.TemporaryDirectory() as folder, tempfile.NamedTemporaryFile() as errors:
        programs = str(suite.saver), str(suite.folder / "file_saves")
        words = ["unshare", "--mount", "sh", "-c", FULL, "sh", folder, programs[0], NAME, *map(str, full), programs[1], errors.name]
        ran = subprocess.run(words, capture_output=True, encoding="utf-8", errors="replace", timeout=SECONDS, check=False)
    if not ran.stdout and (os.geteuid() or ran.returncode in (1, 77)):
        return "passed over, since there is no small disk"
    *run, refused, has = ran.stdout.splitlines(keepends=True) or ["", ""]
    acknowledged, times = read_run(0, "".join(run), "").acknowledged, int(refused.partition(" ")[2] or 0)
    # With compactions it may go on for ever.
    ends = full.compact < FOR_GOOD or acknowledged < 399
    if ran.returncode or acknowledged <= 3 or not times or not ends:
        raise Wrong(f"status {ran.returncode} after change {acknowledged}: {ran.stdout[-200:]}{ran.stderr[-300:]}")
    want_within("a full disk", int(has.split()[1]), acknowledged, acknowledged + full.sync)
    return f"{times} times full until change {acknowledged}"
