"""A store in a file that `file_life` drives, kills and opens again.

    life_worker.py PATH FSYNC LIMITS

Each line of standard input is in JSON: lines of the script language, and what to do after them. Its answer, a line too, has the answers of
these lines, the error of what was done, if it had one, and how the store is. At the end of its input it closes the store. A line may be
longer than those of the language: then a save is made by its method, and a write by several lines.
"""

from __future__ import annotations

import json
import os
import sys
from typing import Any

from elephant import ElephantError, FileStore, Limits
from elephant._turns import Fsync

# In bytes, of a line of the language, and of the contents of the lines of a long one.
MOST_LINE, PIECE = 8192, 3584


def tell(what: dict[str, Any]) -> None:
    data = json.dumps(what).encode() + b"\n"
    while data:
        data = data[os.write(1, data):]


def state(store: FileStore) -> dict[str, Any]:
    return {"renewed": store.renewed, "compactions": store.info.compactions, "counts": store.counts()._asdict()}


def answer(store: FileStore, line: str) -> str:
    """Returns the answer to a line of any length."""
    if len(line) <= MOST_LINE:
        return store.line(line)
    word, subject, *words = line.split()
    data = bytes.fromhex(words[-1])
    if word == "save":
        return saved(store, subject, data)
    told = ""
    for at in range(0, len(data), PIECE):
        told = store.line(f"{word} {subject} {int(words[0]) + at} {data[at:at + PIECE].hex()}")
        if not told.startswith("ok "):
            break
    return told


def saved(store: FileStore, path: str, data: bytes) -> str:
    try:
        return f"ok version {store.save(path, data)}\n"
    except ElephantError:
        # What is refused for its path is so with any content.
        return store.line(f"save {path} 61")


def done(store: FileStore, what: str) -> str:
    """Calls a method of the store, if there is one to call, and returns the name of the error that it raised."""
    if what:
        try:
            getattr(store, what)()
        except ElephantError as error:
            return type(error).__name__
    return ""


def main() -> int:
    path, fsync, given = sys.argv[1:]
    syncs: Fsync = "always" if fsync == "always" else "sync"
    limits = Limits(**json.loads(given))
    with FileStore(path, clock="manual", guard=False, fsync=syncs, limits=limits) as store:
        tell(state(store))
        for line in sys.stdin:
            asked = json.loads(line)
            answers = [answer(store, it) for it in asked["lines"]]
            before = store.counts()._asdict()
            error = done(store, asked["then"])
            tell({"answers": answers, "error": error, "before": before, **state(store)})
    return 0


if __name__ == "__main__":
    sys.exit(main())
