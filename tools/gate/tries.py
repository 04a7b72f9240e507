"""How `rt try --test` runs the tests of a crate without a proof, and what is wrong with what it says of them."""

from __future__ import annotations

import os
import re
import signal
import subprocess
import threading
from collections.abc import Collection, Iterator
from pathlib import Path
from typing import NamedTuple

from gate import building

COUNT = re.compile(r"tests: (\d+)")
RESULT = re.compile(r"test ([\w:]+) \.\.\. (\w+)")
CLOSING = re.compile(r"test result: ok\. (\d+) passed; 0 failed; 0 ignored; 0 filtered out")
LAST = re.compile(r"run=ended status=0 runners=1 \S+ proved=no")
# A word of the check that rt runs beside the tests, and of no other.
HINT = b"\0no function\0"
# Between two looks for it, in seconds.
PAUSE = 0.2


class Tried(NamedTuple):
    """What came of `rt try --test`: its status, what it printed of the tests, and what it said of the run."""

    status: int
    printed: str
    said: str

    def text(self) -> str:
        return f"{self.printed}{self.said}"


def try_tests(folder: Path, longest: int) -> Tried:
    """Builds the tests of the crate in a folder with checks in place of proofs, and runs each in a process of its own, for so many seconds
    at most."""
    words = ["rt", "try", "--test", "--seconds", str(longest)]
    with subprocess.Popen(
        words, cwd=folder, preexec_fn=building.end_with_parent, stdin=subprocess.DEVNULL, stdout=subprocess.PIPE, stderr=subprocess.PIPE,
        encoding="utf-8", errors="replace",
    ) as ran:
        ended = threading.Event()
        stopper = threading.Thread(target=stop_hint, args=(ran.pid, ended))
        stopper.start()
        try:
            printed, said = ran.communicate()
        finally:
            ended.set()
            stopper.join()
    return Tried(ran.returncode, printed, said)


def stop_hint(rt: int, ended: threading.Event) -> None:
    """Stops the check that `rt try` runs beside the tests. It takes as long as they do, and only warns of names that a proof refuses."""
    while not ended.wait(PAUSE):
        for child in children_of(rt):
            if HINT in words_of(child):
                os.kill(child, signal.SIGKILL)
                return


def children_of(process: int) -> list[int]:
    """Returns the processes that a process has started and not yet waited for."""
    try:
        return [int(it) for it in Path(f"/proc/{process}/task/{process}/children").read_text(encoding="ascii").split()]
    except OSError:
        return []


def words_of(process: int) -> bytes:
    """Returns the words of a process, each between zero bytes."""
    try:
        return b"\0" + Path(f"/proc/{process}/cmdline").read_bytes()
    except OSError:
        return b""


def faults(tried: Tried, tests: Collection[str]) -> Iterator[str]:
    """Yields what is wrong with a run of these tests, each of which has to pass."""
    lines, last = tried.printed.splitlines(), tried.said.splitlines()[-1:]
    found = [it[1] for it in map(COUNT.fullmatch, lines) if it]
    closing = [it[1] for it in map(CLOSING.fullmatch, lines) if it]
    results = [(it[1], it[2]) for it in map(RESULT.fullmatch, lines) if it]
    if not tests:
        yield "it has no tests"
    if tried.status:
        yield f"rt ended with status {tried.status}"
    if not (last and LAST.fullmatch(last[0])):
        yield f"rt's last line is {last}"
    if [found, closing] != [[str(len(tests))]] * 2:
        yield f"rt found {found} tests, and {closing} passed, but the sources have {len(tests)}"
    yield from (f"{name} {how}" for name, how in results if how != "ok")
    ran = [name for name, _ in results]
    missing = sorted(set(tests).difference(ran))
    if not ran:
        yield "no test ran"
    elif missing:
        yield f"the sources have tests that didn't run: {', '.join(missing)}"
    yield from (f"{name} ran, and isn't in the sources" for name in ran if name not in tests)
    if len(ran) != len(set(ran)):
        yield "a test ran twice"
