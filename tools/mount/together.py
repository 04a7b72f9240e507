"""Programs that write, a program that reads the past, lines, removals and rewritten journals, all at once; and then a kill."""

import argparse
import errno
import os
import random
import threading
import time
from collections.abc import Callable
from pathlib import Path

from mount.mounts import Counts, Mounted
from mount.past import Faults

WRITERS = 4
# What a reader of the past may get for a version that was removed meanwhile.
MEANWHILE = (errno.ENODATA, errno.ENOENT, errno.ESTALE)
LINES: list[tuple[str, ...]] = [
    ("due",), ("clean all",), ("usage",), ("rewrite",), ("policy", "/d0/f0", "all"), ("policy", "/d0/f0", "safe:2/2"), ("restorable",),
]
# What a thread repeats, by its number and what it draws.
Deed = Callable[[int, random.Random], None]


class Run:
    """The actions in a folder until a moment, with the last saved contents and the faults."""

    def __init__(self, mounted: Mounted, seconds: float) -> None:
        self.mounted, self.end = mounted, time.monotonic() + seconds
        self.saved: dict[Path, bytes] = {}
        self.wrong: list[str] = []
        # How often each thread did what it repeats.
        self.counts = [0] * (WRITERS + 2)

    def repeat(self, number: int, deed: Deed) -> None:
        drawn = random.Random(number)
        while time.monotonic() < self.end:
            try:
                deed(number, drawn)
                self.counts[number] += 1
            except OSError as fault:
                self.wrong.append(str(fault))

    def save(self, number: int, drawn: random.Random) -> None:
        folder = self.mounted.folder / f"d{number}"
        folder.mkdir(exist_ok=True)
        path = folder / f"f{drawn.randrange(5)}"
        data, way = drawn.randbytes(drawn.choice([10, 5000, 60_000])), drawn.randrange(4)
        if way == 1:
            (folder / "new").write_bytes(data)
            (folder / "new").rename(path)
        elif way == 3:
            with open(path, "wb", buffering=0) as file:
                file.write(data)
                os.fsync(file.fileno())
        else:
            if way == 2 and path.exists():
                path.rename(f"{path}~")
            path.write_bytes(data)
        if path.read_bytes() != data:
            self.wrong.append(f"{path} has another content after a save of the kind {way}")
        self.saved[path] = data

    def read(self, number: int, drawn: random.Random) -> None:
        then = self.mounted.folder / ".elephant" / "at" / str(int(time.time()) - 1)
        for place, _, names in os.walk(then):
            for name in names:
                try:
                    with open(os.path.join(place, name), "rb") as file:
                        file.read()
                except OSError as fault:
                    if fault.errno not in MEANWHILE:
                        raise

    def ask(self, number: int, drawn: random.Random) -> None:
        for line in LINES:
            answer = self.mounted.ask(*line)
            if not answer.startswith(("ok ", "no 5 ")) and line != ("rewrite",):
                self.wrong.append(f"{line} is answered {answer!r}")


def together(room: str, asked: argparse.Namespace) -> Counts:
    """Runs them, and checks the last saved contents, then and after a kill."""
    seen = Faults("together")
    with Mounted(room, "--clean-every", "0.5", "--every", "0.02", "--no-guard") as mounted:
        mounted.ask("default", "/", "safe:2/2")
        run = Run(mounted, 45 if asked.long else 8)
        deeds = [*[run.save] * WRITERS, run.read, run.ask]
        threads = [threading.Thread(target=run.repeat, args=row, daemon=True) for row in enumerate(deeds)]
        for thread in threads:
            thread.start()
        for thread in threads:
            thread.join(120)
        seen.expect("threads that wait", [number for number, it in enumerate(threads) if it.is_alive()], [])
        seen.expect("threads that did nothing", [number for number, count in enumerate(run.counts) if not count], [])
        seen.expect("what was wrong", run.wrong[:5], [])
        mounted.kill()
        mounted.start()
        differing = [str(path) for path, data in run.saved.items() if path.read_bytes() != data]
        seen.expect("what differs after a kill", differing, [])
        anew = mounted.log().count("the journal was made anew")
        saves = sum(run.counts[:WRITERS])
        print(f"mount: {saves} saves of {WRITERS} programs at once, {run.counts[WRITERS]} readings, {anew} new journals")
    return seen.counts()


CHECKS = [together]
