"""How long the checks of a run of `rt ci` take, by crate: looked up in /proc every second."""

from __future__ import annotations

import contextlib
import os
import threading
import time
from collections.abc import Iterator, Mapping
from pathlib import Path
from typing import NamedTuple

TICKS = os.sysconf("SC_CLK_TCK")
PROOFS, WRONG_BODIES = "proofs", "wrong bodies"


class Check(NamedTuple):
    """A process that checks a crate: what for, which process, and the processor seconds that it took."""

    crate: str
    kind: str
    process: int
    seconds: float


class Times:
    """When each crate's check ran, in seconds since the start, and the processor time of the checks."""

    def __init__(self) -> None:
        self.began = time.monotonic()
        self.rows: dict[str, tuple[float, float]] = {}
        """When each crate's proof began and ended."""
        self._of_process: dict[tuple[str, str, int], float] = {}

    def so_far(self) -> float:
        return time.monotonic() - self.began

    @contextlib.contextmanager
    def watched(self, session: int) -> Iterator[None]:
        """Watches the checks of a session."""
        ended = threading.Event()
        watcher = threading.Thread(target=self._watch, args=(session, ended), daemon=True)
        watcher.start()
        try:
            yield
        finally:
            ended.set()
            watcher.join()

    def _watch(self, session: int, ended: threading.Event) -> None:
        while not ended.wait(1):
            for it in checks_in(session):
                self._of_process[it.crate, it.kind, it.process] = it.seconds
                if it.kind == PROOFS:
                    now = self.so_far()
                    began, _ = self.rows.get(it.crate, (now, now))
                    self.rows[it.crate] = began, now

    def minutes_of(self, kind: str) -> float:
        """Returns the processor minutes of all checks of a kind."""
        return sum(seconds for (_, of, _), seconds in self._of_process.items() if of == kind) / 60

    def processor(self, crate: str, kind: str = PROOFS) -> float:
        """Returns the processor minutes of a crate's checks of a kind."""
        return sum(seconds for (name, of, _), seconds in self._of_process.items() if (name, of) == (crate, kind)) / 60

    def table(self) -> str:
        """Returns a line for each crate that was proved in this run, in the order in which the checks began."""
        lines = ["crate  began  ended  processor (minutes)"]
        for crate, (began, ended) in sorted(self.rows.items(), key=lambda it: it[1]):
            lines.append(f"{crate}  {began / 60:.1f}  {ended / 60:.1f}  {self.processor(crate):.1f}")
        return "".join(f"{line}\n" for line in lines)

    def chain(self, uses: Mapping[str, set[str]]) -> list[str]:
        """Returns the crates that the end waited for, lowest first: each began when the one before it had ended. Another program of the
        session may have proved crates that the tree hasn't; these are left out."""
        found: list[str] = []
        crate = max((it for it in self.rows if it in uses), key=lambda it: self.rows[it][1], default="")
        while crate:
            found.append(crate)
            crate = max((it for it in uses[crate] if it in self.rows), key=lambda it: self.rows[it][1], default="")
        return found[::-1]

    def _minutes(self, crate: str) -> float:
        began, ended = self.rows[crate]
        return (ended - began) / 60

    def summary(self, uses: Mapping[str, set[str]]) -> Iterator[str]:
        """Yields lines: the processor minutes by crate, and the chain of crates that took the longest."""
        rows = sorted(self.rows, key=lambda it: -self.processor(it))
        of_each = ", ".join(f"{it} {self.processor(it):.1f}" for it in rows)
        yield f"processor minutes: {self.minutes_of(PROOFS):.0f} ({of_each})"
        yield f"the longest chain, in minutes: {', '.join(f'{it} {self._minutes(it):.1f}' for it in self.chain(uses))}"


def checks_in(session: int) -> Iterator[Check]:
    """Yields the checks that run in a session."""
    for folder in Path("/proc").iterdir():
        if not folder.name.isdigit():
            continue
        # A process may end at any time.
        with contextlib.suppress(OSError, ValueError):
            # The name, in brackets, may have spaces.
            fields = (folder / "stat").read_text(encoding="utf-8", errors="replace").rpartition(")")[2].split()
            if int(fields[3]) != session:
                continue
            words = (folder / "cmdline").read_bytes().decode(errors="replace").split("\0")
            if words[0].endswith("rattle") and "--crate-name" in words:
                # `rt ci` tries a wrong body in a folder of that name.
                kind = WRONG_BODIES if "/rt-edit-" in os.readlink(folder / "cwd") else PROOFS
                crate = words[words.index("--crate-name") + 1]
                yield Check(crate, kind, int(folder.name), (int(fields[11]) + int(fields[12])) / TICKS)
