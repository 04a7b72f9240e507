"""Saves files in a mounted folder until it is unmounted: `worker.py FOLDER ROUND`. It prints when a save begins and ends."""

import os
import random
import sys
from pathlib import Path

sys.path.insert(0, str(Path(__file__).resolve().parents[1]))

from mount.kills import content


def note(word: str, name: str, number: int | str) -> None:
    os.write(1, f"{word} {name} {number}\n".encode())


def save(folder: Path, name: str, number: int, way: str) -> None:
    path, data = folder / name, content(name, number)
    note("begin", name, number)
    if way == "over":
        path.write_bytes(data)
    elif way == "renamed":
        new = folder / f"{name}.new"
        new.write_bytes(data)
        new.rename(path)
    elif way == "moved":
        if path.exists():
            note("begin", name, "gone")
            path.rename(folder / f"{name}~")
        path.write_bytes(data)
    else:
        file = os.open(path, os.O_WRONLY | os.O_CREAT | os.O_TRUNC)
        os.write(file, data)
        os.fsync(file)
        note("end", name, number)
        os.write(file, b"")
        os.close(file)
        return
    note("end", name, number)


def main() -> None:
    # Within the mount no name ever leads to the folder below it.
    os.chdir(sys.argv[1])
    folder, turn = Path("."), int(sys.argv[2])
    if not (folder / ".elephant").exists():
        return  # it was killed already
    drawn, number = random.Random(turn), turn * 100_000
    try:
        while True:
            number += 1
            name = f"f{drawn.randrange(12)}"
            if drawn.random() < 0.1 and (folder / name).exists():
                note("begin", name, "gone")
                (folder / name).unlink()
                note("end", name, "gone")
            else:
                save(folder, name, number, drawn.choice(["over", "renamed", "moved", "synced"]))
    except OSError:
        pass  # the mount was killed


if __name__ == "__main__":
    sys.dont_write_bytecode = True
    main()
