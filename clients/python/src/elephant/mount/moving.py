"""Goes on in a new journal: `elephant-mount move OLD NEW`.

NEW gets what OLD has now: folders, files with their contents, modes, owners, times, links and extended attributes, policies, defaults,
groups and marks. It begins at OLD's last moment, so that a mount of NEW with `--past OLD` has each moment in one of the two. It has no
past of its own. OLD stays as it is.
"""

from __future__ import annotations

import fcntl
import os
from collections.abc import Iterator
from contextlib import contextmanager, suppress
from itertools import zip_longest
from typing import Any

from .. import JournalError, JournalLocked
from .records import directory_key, everything, file_key, plain
from .store import MountStore

SUFFIX = ".move"


def move(old: str, new: str) -> str:
    """Makes the new journal. Returns a sentence about it. Raises JournalError or OSError; then there is no new journal."""
    if os.path.lexists(new):
        raise JournalError(f"{new} exists already: give the path of a journal that is to be made")
    unfinished = new + SUFFIX
    with suppress(FileNotFoundError):
        os.unlink(unfinished)
    try:
        with _held(old):
            source = MountStore(old, read_only=True)
            try:
                source.end_sessions()
                files = _make(source, unfinished)
            finally:
                source.close()
        os.rename(unfinished, new)
    except BaseException:
        with suppress(FileNotFoundError):
            os.unlink(unfinished)
        raise
    _sync_folder(new)
    mounts = f"'elephant-mount FOLDER --journal {new} --past {old}' mounts both"
    return f"{new} has the {files} files of {old}, and their policies and groups; {mounts}"


@contextmanager
def _held(path: str) -> Iterator[None]:
    """Keeps others from writing a journal meanwhile. Raises JournalLocked if one has it."""
    file = os.open(path, os.O_RDONLY | os.O_CLOEXEC)
    try:
        fcntl.flock(file, fcntl.LOCK_SH | fcntl.LOCK_NB)
        yield
    except BlockingIOError:
        raise JournalLocked(f"{path} is mounted, or another program has it: unmount it first") from None
    finally:
        os.close(file)


def _make(source: MountStore, path: str) -> int:
    """Writes the new journal, and compares its store, opened again, with the old one. Returns how many files it has."""
    made = MountStore(path, clock="manual")
    try:
        copy = _Copy(source, made)
        copy.run()
        made.sync_journal()
    finally:
        made.close()
    again = MountStore(path, read_only=True)
    try:
        for left, right in zip_longest(everything_of(source), everything_of(again)):
            if left != right:
                raise JournalError(f"the new journal has {right!r:.200}, and not {left!r:.200}")
    finally:
        again.close()
    return len(copy.files)


class _Copy:
    """Copies what a store has now into a fresh one."""

    def __init__(self, old: MountStore, new: MountStore) -> None:
        self.old, self.new = old, new
        self.files: dict[int, bytes] = {}
        """By the number of an old file, its first path."""

    def run(self) -> None:
        self.new.clock(int(self.old.now))
        self._default(b"/")
        self._attributes_of_root()
        self._folder(b"")
        for line in self.old.dump():
            if line.startswith(("group ", "mark ")):
                answer = self.new.line(line)
                if not answer.startswith("ok "):
                    raise JournalError(f"{line!r} is answered {answer!r}")

    def _attributes_of_root(self) -> None:
        it = self.old.records.of(directory_key(0))
        if it is not None:
            self.new.keep(*everything(directory_key(0), it))

    def _default(self, path: bytes) -> None:
        wanted, found = (_policy(it, path) for it in (self.old, self.new))
        if wanted != found:
            self.new.line(f"default {path.decode('ascii')} {wanted}")

    def _folder(self, folder: bytes) -> None:
        """Copies what is in a folder, and below it."""
        folders = [folder]
        while folders:
            folder = folders.pop()
            for spelling, is_directory, number in self.old.names_in(folder or b"/"):
                path = folder + b"/" + spelling
                if is_directory:
                    self._directory(path, number)
                    folders.append(path)
                elif number in self.files:
                    self.new.run((b"link", self.files[number], path))
                else:
                    self.files[number] = path
                    self._file(path, number)

    def _directory(self, path: bytes, number: int) -> None:
        self.new.run((b"mkdir", path), remarks=lambda made: self._remarks(directory_key(number), directory_key(made)))
        self._default(path)

    def _file(self, path: bytes, number: int) -> None:
        content = self.old.content(path)
        with self.new.together():
            made = self.new.run((b"create", path))
            wanted = _policy(self.old, path)
            if wanted != _policy(self.new, path):
                self.new.run((b"policy", path, wanted.encode()))
            if content:
                self.new.drafts.save(path, content)
            self.new.keep(*self._remarks(file_key(number), file_key(made)))

    def _remarks(self, old: int, new: int) -> list[bytes]:
        it = self.old.records.of(old)
        return [] if it is None else everything(new, it)


def _policy(store: MountStore, path: bytes) -> str:
    """Returns the policy of a file, or the default of a folder."""
    found: Any = store.stat(path)
    policy = found.default if hasattr(found, "default") else found.policy
    return str(policy.word)


def everything_of(store: MountStore) -> Iterator[tuple[object, ...]]:
    """Yields all that a store has now, without numbers. Two stores that yield the same show the same folder."""
    paths: dict[int, bytes] = {}
    folders = [b""]
    while folders:
        folder = folders.pop()
        it = store.records.of(directory_key(store.stat_row(folder or b"/").id))
        yield folder, _policy(store, folder or b"/"), it and plain(it)
        for spelling, is_directory, number in sorted(store.names_in(folder or b"/")):
            path = folder + b"/" + spelling
            if is_directory:
                folders.append(path)
                continue
            first = paths.setdefault(number, path)
            it = store.records.of(file_key(number))
            yield path, first, _policy(store, path), it and plain(it), store.content(path) if first == path else b""
    now = store.now
    for group in store.groups():
        members = tuple(paths[it] for it in group.members if it in paths)
        yield group.spelled, members, tuple(it for it in group.marks if it.until is None or it.until > now)
    yield (int(now),)


def _sync_folder(path: str) -> None:
    file = os.open(os.path.dirname(os.path.abspath(path)), os.O_RDONLY | os.O_DIRECTORY | os.O_CLOEXEC)
    try:
        os.fsync(file)
    finally:
        os.close(file)
