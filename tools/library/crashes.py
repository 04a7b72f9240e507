"""What a power failure may leave of a folder, by a log of the calls that changed it (clients/c/tests/file_faults.c writes it).

A block of 512 bytes is written wholly or not at all. What was synced is there. Of the rest any part may be: of each block as many of its
writes as it likes, in their order. A file is longer than it was only where its new blocks are written, as the usual file systems order it,
and names change in their order. What a failed sync was to write never reaches the disk, even if a later sync succeeds.
"""

import random
from collections.abc import Iterator
from pathlib import Path
from typing import NamedTuple

BLOCK = 512


class Write(NamedTuple):
    """Bytes that were written at a place of a file."""

    place: int
    data: bytes

    def blocks(self) -> Iterator[tuple[int, "Write"]]:
        """Yields each block's part, with the block's number."""
        at = 0
        while at < len(self.data):
            place = self.place + at
            length = BLOCK - place % BLOCK
            yield place // BLOCK, Write(place, self.data[at : at + length])
            at += length


class Cut(NamedTuple):
    """A length that a file was given."""

    length: int


class File:
    """A file: what is on the disk, and what isn't synced yet."""

    def __init__(self) -> None:
        self.durable = b""
        self.pending: list[Write | Cut] = []

    def synced(self) -> None:
        self.durable, self.pending = self.left(None), []

    def dropped(self) -> None:
        self.pending = []

    def left(self, dice: random.Random | None) -> bytes:
        """Returns what is left of it, by the dice; without them all that was written."""
        image = bytearray(self.durable)
        lengths = len(self.pending) if dice is None else dice.randint(0, len(self.pending))
        written = self._written(dice)
        for at, change in enumerate(self.pending):
            if isinstance(change, Cut):
                if at < lengths:
                    del image[change.length :]
                    image.extend(bytes(change.length - len(image)))
                continue
            for block, part in change.blocks():
                if at not in written.get(block, ()):
                    continue
                end = part.place + len(part.data)
                if end > len(image) and (at >= lengths or part.place > len(image)):
                    continue
                image[part.place : end] = part.data
        return bytes(image)

    def _written(self, dice: random.Random | None) -> dict[int, list[int]]:
        """Returns for each block which of the pending changes reached it."""
        of_block: dict[int, list[int]] = {}
        for at, change in enumerate(self.pending):
            if isinstance(change, Write):
                for block, _ in change.blocks():
                    of_block.setdefault(block, []).append(at)
        if dice is None:
            return of_block
        return {block: them[: dice.randint(0, len(them))] for block, them in of_block.items()}


class Disk:
    """A folder, which begins empty, as the calls of a log change it."""

    def __init__(self, folder: Path) -> None:
        self.folder = str(folder)
        self.names: dict[str, File] = {}
        self.durable: dict[str, File] = {}
        self.renamed: list[dict[str, File]] = []
        self.opened: dict[str, File] = {}
        self.acknowledged = self.tried = 0

    def take(self, line: str) -> None:
        """Does what a line of the log says."""
        word, *words = line.split()
        getattr(self, f"_{word}")(*words)

    def image(self, dice: random.Random | None) -> dict[str, bytes]:
        """Returns the files that a power failure leaves, by the dice; without them all that was done."""
        steps = [self.durable, *self.renamed]
        names = steps[-1 if dice is None else dice.randint(0, len(steps) - 1)]
        return {name: file.left(dice) for name, file in names.items()}

    def least_image(self) -> dict[str, bytes]:
        """Returns the files if nothing reached the disk but what was synced."""
        return {name: file.durable for name, file in self.durable.items()}

    # What the log has.

    def _open(self, number: str, makes: str, path: str) -> None:
        self.opened.pop(number, None)
        name = Path(path).name
        if makes == "1":
            self._rename_names({**self.names, name: File()})
        if name in self.names:
            self.opened[number] = self.names[name]

    def _close(self, number: str) -> None:
        self.opened.pop(number, None)

    def _pwrite(self, number: str, place: str, data: str) -> None:
        self.opened[number].pending.append(Write(int(place), bytes.fromhex(data)))

    def _ftruncate(self, number: str, length: str) -> None:
        self.opened[number].pending.append(Cut(int(length)))

    def _synced(self, number: str) -> None:
        if number in self.opened:
            self.opened[number].synced()
            return
        self.durable, self.renamed = self.names, []

    def _unsynced(self, number: str) -> None:
        if number in self.opened:
            self.opened[number].dropped()

    def _rename(self, old: str, new: str) -> None:
        names = dict(self.names)
        names[Path(new).name] = names.pop(Path(old).name)
        self._rename_names(names)

    def _unlink(self, path: str) -> None:
        names = dict(self.names)
        names.pop(Path(path).name, None)
        self._rename_names(names)

    def _rename_names(self, names: dict[str, File]) -> None:
        self.names = names
        self.renamed.append(names)

    def _has(self, number: str) -> None:
        self.acknowledged = self.tried = int(number)

    def _try(self, number: str) -> None:
        self.tried = int(number)

    def _ack(self, number: str) -> None:
        self.acknowledged = int(number)


class Left(NamedTuple):
    """What a power failure leaves, and which change it must have at least and may have at most."""

    files: dict[str, bytes]
    least: int
    most: int


def all_left(log: str, folder: Path, throws: int, after: int = 0) -> list[Left]:
    """Returns what a power failure may leave once so many lines of a log are done, and after each later one: all, only what was synced,
    and what so many throws of the dice choose. The same is returned once."""
    disk, dice = Disk(folder), random.Random(len(log))
    found: dict[object, Left] = {}
    for done, line in enumerate(["", *log.splitlines()]):
        if line:
            disk.take(line)
        if done < after:
            continue
        for files in (disk.image(None), disk.least_image(), *(disk.image(dice) for _ in range(throws))):
            left = Left(files, disk.acknowledged, disk.tried)
            found.setdefault((tuple(sorted(files.items())), left.least, left.most), left)
    return list(found.values())
