"""saves WORD PATH COUNT: what saves.c measures, from Python: a save of 100 bytes over 100 files, in microseconds of the clock.

memory, asked, each: a `Store`, and a `FileStore` with `fsync="sync"` and with `"always"`. alone: as asked, without libelephant_file.so.
sqlite: Python's sqlite3 as in saves.c. open: how long a `FileStore` takes to open the file at the path, in seconds, and the most memory of
this process, in MiB.
"""

from __future__ import annotations

import resource
import sqlite3
import sys
import time
from collections.abc import Callable
from pathlib import Path
from typing import Any
from unittest import mock

from elephant import FileStore, Store

FILES, FIRST, LENGTH = 100, 200, 100
# bench/beside_sqlite/schema.h has the tables as pieces of a text in C.
SCHEMA = (Path(__file__).resolve().parent.parent / "beside_sqlite" / "schema.h").read_text(encoding="ascii")


def content_of(number: int) -> bytes:
    return b"%0*d" % (LENGTH, number)


def timed(save: Callable[[int], object], end: Callable[[], object], count: int) -> float:
    for number in range(FIRST):
        save(number)
    began = time.perf_counter()
    for number in range(FIRST, FIRST + count):
        save(number)
    end()
    return (time.perf_counter() - began) / count * 1e6


def in_memory(count: int) -> float:
    with Store(clock="manual") as store:
        return timed(lambda number: store.save(f"/f{number % FILES}", content_of(number)), lambda: None, count)


def in_file(path: str, count: int, **how: Any) -> float:
    with FileStore(path, clock="manual", **how) as store:

        def save(number: int) -> None:
            store.save(f"/f{number % FILES}", content_of(number))
            store.commit()

        return timed(save, store.sync, count)


def alone_in_file(path: str, count: int) -> float:
    with mock.patch("elephant._disk.at_once", return_value=None):
        return in_file(path, count, fsync="sync")


def in_sqlite(path: str, count: int) -> float:
    pieces = [it.strip().strip(";").strip('"') for it in SCHEMA.partition("=")[2].splitlines()]
    base = sqlite3.connect(path, isolation_level=None)
    base.execute("PRAGMA journal_mode=WAL")
    base.execute("PRAGMA synchronous=FULL")
    base.executescript("".join(pieces))
    base.executemany("INSERT INTO files VALUES (?, ?, 1, 0, 0, x'')", [(at + 1, f"/f{at}") for at in range(FILES)])
    update = "UPDATE files SET number = number + 1, opened = ?1, closed = ?1, content = ?2 WHERE name = ?3"
    took = timed(lambda number: base.execute(update, (number, content_of(number), f"/f{number % FILES}")), lambda: None, count)
    base.close()
    return took


def opened(path: str) -> str:
    began = time.perf_counter()
    with FileStore(path, clock="manual"):
        took = time.perf_counter() - began
        peak = resource.getrusage(resource.RUSAGE_SELF).ru_maxrss / 1024
    return f"py_open_seconds {took:.3f}\npy_peak_mib {peak:.1f}"


def main() -> int:
    word, path, count = sys.argv[1], sys.argv[2], int(sys.argv[3])
    ways: dict[str, Callable[[], float]] = {
        "memory": lambda: in_memory(count),
        "asked": lambda: in_file(path, count, fsync="sync"),
        "alone": lambda: alone_in_file(path, count),
        "each": lambda: in_file(path, count),
        "sqlite": lambda: in_sqlite(path, count),
    }
    print(opened(path) if word == "open" else f"py_{word} {ways[word]():.3f}")
    return 0


if __name__ == "__main__":
    sys.exit(main())
