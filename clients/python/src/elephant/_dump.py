"""What a store has beside names and contents, as lines of the script language: policies, defaults, groups and marks."""

from __future__ import annotations

from collections.abc import Iterator
from typing import TYPE_CHECKING, Optional

from ._answers import DirectoryStat, Mark

if TYPE_CHECKING:
    from ._store import Store


def dump(store: Store) -> Iterator[str]:
    """Yields the lines. In a store that has the same names they set the same policies, defaults and groups.

    A member of a group that has no name now, and a mark that has ended, are remarks, which begin with `#`.
    """
    paths: dict[int, str] = {}
    yield from _policies(store, paths)
    yield from _groups(store, paths)


def _policies(store: Store, paths: dict[int, str]) -> Iterator[str]:
    """Yields the lines of policies and defaults, each folder's before those of what is in it. Notes the first path of each file."""
    folders = [""]
    while folders:
        folder = folders.pop()
        found = store.stat(folder.encode() or b"/")
        assert isinstance(found, DirectoryStat)
        yield f"default {folder or '/'} {found.default.word}"
        below = []
        for entry in store.list(folder.encode() or b"/"):
            path = f"{folder}/{entry.spelled.decode('ascii')}"
            if entry.is_directory:
                below.append(path)
            elif entry.number not in paths:
                paths[entry.number] = path
                file = store.stat(path.encode())
                assert not isinstance(file, DirectoryStat)
                yield f"policy {path} {file.policy.word}"
        folders += reversed(below)


def _groups(store: Store, paths: dict[int, str]) -> Iterator[str]:
    now = store.now
    for group in store.groups():
        name = group.spelled.decode("ascii")
        yield f"group make {name}"
        for file in group.members:
            yield f"group add {name} {paths[file]}" if file in paths else f"# file {file} of group {name} has no name"
        for mark in group.marks:
            yield _mark(name, mark, now)


def _mark(name: str, mark: Mark, now: int) -> str:
    end: Optional[int] = mark.until
    line = f"mark {name} {int(mark.at)}" + ("" if end is None else f" {int(end)}")
    return line if end is None or end > now else f"# {line} has ended"
