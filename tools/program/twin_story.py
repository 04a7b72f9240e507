"""The story of a file, as the second description of `tools/program/twin` tells it.

A file whose last version is removed loses its names, so the names of each moment before a removal are kept, beside what was known of the
removed version.
"""

from collections.abc import Sequence
from dataclasses import replace
from typing import NamedTuple

from program.twin_rows import ROOT, Block, Name, No, Place, Target, Version, content, or_dash, refusal

NO_NAMES = "-"


class Taken(NamedTuple):
    """A version that a clean removed: its file, its row without the first words, and the names just before."""

    file: int
    number: int
    row: str
    names: list[Name]


def copied(names: Sequence[Name]) -> list[Name]:
    """Returns names that later changes leave alone."""
    return [replace(it) for it in names]


def known(version: Version) -> str:
    """Returns when a version closed and ended, and its length."""
    return f"{version.closed} {or_dash(version.ended)} {len(content(version.slots))}"


def live_target(names: Sequence[Name], place: Place) -> Target | None:
    return next((it.target for it in names if it.place == place and it.death is None), None)


def last_target(names: Sequence[Name], place: Place) -> Target | None:
    """What a name means, or meant last."""
    return next((it.target for it in reversed(names) if it.place == place), None)


def file_told(names: Sequence[Name], path: str) -> int:
    """Returns the file that a path names, or if it names none, that it named last; or raises why it never named one."""
    for meant in (live_target, last_target):
        try:
            return file_by(names, path, meant is live_target)
        except No as no:
            fault = no
    raise fault


def file_by(names: Sequence[Name], path: str, is_live: bool) -> int:
    target = ROOT
    for name in path.split("/")[1:] if path != "/" else []:
        if target.kind == "file":
            raise No("NotDirectory")
        place = Place(target.number, name)
        found = live_target(names, place) if is_live else last_target(names, place)
        if found is None:
            raise No("NoEntry")
        target = found
    if target.kind == "directory":
        raise No("IsDirectory")
    return target.number


def path_above(names: Sequence[Name], directory: int) -> str | None:
    """Returns the path of a directory without the last slash: by its first live name, or by its last name if none lives."""
    target, words = Target("directory", directory), list[str]()
    while target != ROOT:
        rows = [it for it in names if it.target == target]
        if not rows or len(words) > len(names):
            return None
        found = next((it for it in rows if it.death is None), rows[-1])
        words.insert(0, f"/{found.place.name}")
        target = Target("directory", found.place.directory)
    return "".join(words)


def name_row(names: Sequence[Name], name: Name) -> str:
    above = path_above(names, name.place.directory)
    path = NO_NAMES if above is None else f"{above}/{name.place.name}"
    return f"- name {name.birth} {or_dash(name.death)} {path}"


def last_name(names: Sequence[Name], file: int) -> str:
    """Returns the path of the name of a file that lived longest, and until when it did."""
    own = [it for it in names if it.target == Target("file", file)]
    longest = max(own, key=lambda it: float("inf") if it.death is None else it.death)
    return f"{name_row(names, longest).split()[-1]} {or_dash(longest.death)}"


def story(names: Sequence[Name], taken: Sequence[Taken], held: dict[int, list[tuple[int, str]]], path: str) -> Block:
    """Returns the answer to `story`. `held` has the number and the row of each held version, by file."""
    seen = names
    try:
        file = file_told(names, path)
    except No as no:
        for it in reversed(taken):
            try:
                file, seen = file_told(it.names, path), it.names
                break
            except No:
                continue
        else:
            return [refusal(no)]
    versions = [(it.number, it.row) for it in taken if it.file == file] + held.get(file, [])
    rows = [f"- version {number} {row}" for number, row in sorted(versions, key=lambda it: it[0])]
    rows += [name_row(seen, it) for it in seen if it.target == Target("file", file)]
    return [f"ok story {file} {len(rows)}", *rows]
