"""Random calls to two folders; one is a mount. Both have to return the same results, errors and bytes.

If they don't, Debian's python3-hypothesis shrinks the calls to those that matter: `calls_shrinking.py`.
"""

import ctypes
import errno
import os
import random
import stat
from collections.abc import Callable, Sequence
from pathlib import Path
from typing import Any, NamedTuple

NAMES = ["a", "b", "c", "d e", "\u00e4", "f%", "g@h", "x#y", "~z", "\udcff\x01"]
ATTRIBUTES = ["user.a", "user.b", "user.\u00e4", "trusted", "nobody.a"]
MOST_OPEN = 12
MOST_BYTES = 1_048_576
NO_REPLACE, EXCHANGE = 1, 2
_libc = ctypes.CDLL(None, use_errno=True)
FLAGS = [
    os.O_RDONLY, os.O_WRONLY, os.O_RDWR, os.O_RDWR | os.O_CREAT, os.O_WRONLY | os.O_CREAT | os.O_TRUNC, os.O_RDWR | os.O_CREAT | os.O_EXCL,
    os.O_WRONLY | os.O_APPEND | os.O_CREAT, os.O_RDWR | os.O_TRUNC, os.O_RDONLY | os.O_DIRECTORY, os.O_WRONLY | os.O_CREAT | os.O_NOFOLLOW,
]


OF_FILES = ["read", "pread", "write", "pwrite", "seek", "ftruncate", "fsync", "fstat", "fchmod", "close", "duplicate"]
# How a call's words are drawn.
Draws = dict[str, Callable[[], list[Any]]]


def rename_how(old: str | Path, new: str | Path, flags: int) -> None:
    if _libc.renameat2(-100, os.fsencode(old), -100, os.fsencode(new), flags):
        raise OSError(ctypes.get_errno(), "")


class Shown(NamedTuple):
    """The attributes of a file that both folders have to agree on."""

    mode: str
    links: int
    size: int
    user: int
    group: int


class Folder:
    """One of the two folders, with what is open in it."""

    def __init__(self, top: str | Path) -> None:
        self.top = str(top)
        self.files: list[int] = []

    def path(self, words: Sequence[str]) -> str:
        return os.path.join(self.top, *words)

    def call(self, name: str, words: Sequence[Any]) -> object:
        """Makes a call, and returns its result: a value, or an error's name."""
        try:
            return getattr(self, name)(*words)
        except OSError as fault:
            return errno.errorcode.get(fault.errno, fault.errno)
        except IndexError:
            # The call that opened the file was dropped.
            return "no such file"

    def open(self, path: Sequence[str], flags: int, mode: int) -> str:
        file = os.open(self.path(path), flags, mode)
        if len(self.files) >= MOST_OPEN:
            os.close(self.files.pop(0))
        self.files.append(file)
        return "opened"

    def close(self, at: int) -> None:
        os.close(self.files.pop(at))

    def duplicate(self, at: int) -> None:
        self.files.append(os.dup(self.files[at]))

    def read(self, at: int, size: int) -> bytes:
        return os.read(self.files[at], size)

    def pread(self, at: int, size: int, offset: int) -> bytes:
        return os.pread(self.files[at], size, offset)

    def write(self, at: int, data: bytes) -> int:
        return os.write(self.files[at], data)

    def pwrite(self, at: int, data: bytes, offset: int) -> int:
        return os.pwrite(self.files[at], data, offset)

    def seek(self, at: int, offset: int, whence: int) -> int | str:
        if stat.S_ISDIR(os.fstat(self.files[at]).st_mode):
            return "a directory's places are its file system's own"
        return os.lseek(self.files[at], offset, whence)

    def ftruncate(self, at: int, size: int) -> None:
        return os.ftruncate(self.files[at], size)

    def fsync(self, at: int) -> None:
        return os.fsync(self.files[at])

    def fstat(self, at: int) -> Shown:
        return self.shown(os.fstat(self.files[at]))

    def fchmod(self, at: int, mode: int) -> None:
        return os.fchmod(self.files[at], mode)

    def truncate(self, path: Sequence[str], size: int) -> None:
        return os.truncate(self.path(path), size)

    def stat(self, path: Sequence[str]) -> Shown:
        return self.shown(os.stat(self.path(path)))

    def lstat(self, path: Sequence[str]) -> Shown:
        return self.shown(os.lstat(self.path(path)))

    @staticmethod
    def shown(found: os.stat_result) -> Shown:
        """Returns what is compared of a file. A directory's size is its file system's own."""
        size = 0 if stat.S_ISDIR(found.st_mode) else found.st_size
        return Shown(oct(found.st_mode), found.st_nlink, size, found.st_uid, found.st_gid)

    def unlink(self, path: Sequence[str]) -> None:
        return os.unlink(self.path(path))

    def mkdir(self, path: Sequence[str], mode: int) -> None:
        return os.mkdir(self.path(path), mode)

    def rmdir(self, path: Sequence[str]) -> None:
        return os.rmdir(self.path(path))

    def rename(self, path: Sequence[str], new: Sequence[str]) -> None:
        return os.rename(self.path(path), self.path(new))

    def rename_new(self, path: Sequence[str], new: Sequence[str]) -> None:
        return rename_how(self.path(path), self.path(new), NO_REPLACE)

    def exchange(self, path: Sequence[str], new: Sequence[str]) -> None:
        return rename_how(self.path(path), self.path(new), EXCHANGE)

    def set_attribute(self, path: Sequence[str], name: str, value: bytes, flags: int) -> None:
        return os.setxattr(self.path(path), name, value, flags, follow_symlinks=False)

    def get_attribute(self, path: Sequence[str], name: str) -> bytes:
        return os.getxattr(self.path(path), name, follow_symlinks=False)

    def remove_attribute(self, path: Sequence[str], name: str) -> None:
        return os.removexattr(self.path(path), name, follow_symlinks=False)

    def attributes(self, path: Sequence[str]) -> dict[str, bytes]:
        return {it: os.getxattr(self.path(path), it) for it in sorted(os.listxattr(self.path(path))) if it.startswith("user.")}

    def link(self, path: Sequence[str], new: Sequence[str]) -> None:
        return os.link(self.path(path), self.path(new))

    def symlink(self, target: str, path: Sequence[str]) -> None:
        return os.symlink(target, self.path(path))

    def readlink(self, path: Sequence[str]) -> str:
        return os.readlink(self.path(path))

    def chmod(self, path: Sequence[str], mode: int) -> None:
        return os.chmod(self.path(path), mode)

    def utime(self, path: Sequence[str], times: tuple[int, int]) -> tuple[int, int]:
        os.utime(self.path(path), ns=times)
        found = os.stat(self.path(path))
        return found.st_atime_ns, found.st_mtime_ns

    def names(self, path: Sequence[str]) -> list[str]:
        return sorted(os.listdir(self.path(path)))

    def whole(self, path: Sequence[str]) -> bytes:
        with open(self.path(path), "rb") as file:
            return file.read()

    def replace(self, path: Sequence[str], data: bytes, mode: int) -> None:
        """Saves as an editor that writes a new file and renames it over the old one."""
        new = [*path[:-1], ".new"]
        with open(self.path(new), "wb") as file:
            file.write(data)
        os.chmod(self.path(new), mode)
        os.rename(self.path(new), self.path(path))

    def move_away(self, path: Sequence[str], data: bytes) -> None:
        """Saves as an editor that renames the old file first."""
        old = [*path[:-1], path[-1] + "~"]
        os.rename(self.path(path), self.path(old))
        with open(self.path(path), "wb") as file:
            file.write(data)
        if len(data) % 2:
            os.unlink(self.path(old))

    def tree(self, path: Sequence[str] = ()) -> list[object]:
        """Everything in the folder."""
        rows: list[object] = []
        for name in self.names(path):
            here = [*path, name]
            found = self.lstat(here)
            is_link = found.mode.startswith("0o12")
            rows.append((here, found, is_link or self.attributes(here)))
            if found.mode.startswith("0o4"):
                rows += self.tree(here)
            elif is_link:
                rows.append(self.readlink(here))
            else:
                rows.append(self.whole(here))
        return rows

    def end(self) -> None:
        while self.files:
            os.close(self.files.pop())


class Calls:
    """Draws calls."""

    def __init__(self, seed: int) -> None:
        self.random = random.Random(seed)

    def path(self) -> list[str]:
        return self.random.choices(NAMES[:5] if self.random.random() < 0.7 else NAMES, k=self.random.choice([1, 1, 1, 2, 2, 3]))

    def data(self) -> bytes:
        size = self.random.choice([0, 1, 3, 10, 100, 511, 512, 513, 4096, 5000, 20_000, 70_000, self.random.randrange(200_000)])
        return self.random.randbytes(size)

    def offset(self) -> int:
        return self.random.choice([0, 0, 1, 100, 4095, 4096, 10_000, self.random.randrange(300_000), MOST_BYTES - 10, MOST_BYTES])

    def draw(self, open_files: int) -> tuple[str, list[Any]]:
        """Returns the name and the words of a call."""
        it = self.random
        if open_files and it.random() < 0.5:
            return self.draw_of_file(it.choice(OF_FILES), it.randrange(open_files))
        name = it.choice([
            "open", "open", "open", "open", "truncate", "stat", "lstat", "unlink", "mkdir", "rmdir", "rename", "rename", "rename_new",
            "link", "symlink", "readlink", "chmod", "utime", "names", "whole", "replace", "replace", "move_away", "exchange",
            "set_attribute", "set_attribute", "get_attribute", "remove_attribute", "attributes",
        ])
        mode = it.choice([0o600, 0o644, 0o664, 0o755, 0o400, 0o4755, 0o000])
        words: Draws = {
            "open": lambda: [self.path(), it.choice(FLAGS), mode], "truncate": lambda: [self.path(), self.offset()],
            "mkdir": lambda: [self.path(), mode | 0o700], "rename": lambda: [self.path(), self.path()],
            "rename_new": lambda: [self.path(), self.path()], "link": lambda: [self.path(), self.path()],
            "symlink": lambda: ["/".join(self.path()), self.path()], "chmod": lambda: [self.path(), mode],
            "utime": lambda: [self.path(), (it.randrange(2**60), it.randrange(2**60))],
            "names": lambda: [self.path() if it.random() < 0.5 else []], "replace": lambda: [self.path(), self.data(), mode],
            "move_away": lambda: [self.path(), self.data()], "exchange": lambda: [self.path(), self.path()],
            "set_attribute": lambda: [
                self.path(), it.choice(ATTRIBUTES), it.randbytes(it.choice([0, 1, 300])),
                it.choice([0, 0, 0, os.XATTR_CREATE, os.XATTR_REPLACE]),
            ],
            "get_attribute": lambda: [self.path(), it.choice(ATTRIBUTES)], "remove_attribute": lambda: [self.path(), it.choice(ATTRIBUTES)],
        }
        return name, words.get(name, lambda: [self.path()])()

    def draw_of_file(self, name: str, at: int) -> tuple[str, list[Any]]:
        it = self.random
        words: Draws = {
            "read": lambda: [it.choice([1, 100, 5000, 300_000])], "pread": lambda: [it.choice([1, 100, 5000, 300_000]), self.offset()],
            "write": lambda: [self.data()], "pwrite": lambda: [self.data(), self.offset()],
            "seek": lambda: [it.choice([0, 5, 5000, -3]), it.choice([0, 1, 2])], "ftruncate": lambda: [self.offset()],
            "fchmod": lambda: [it.choice([0o600, 0o644, 0o444])],
        }
        return name, [at, *words.get(name, list)()]


# The name and the words of a call.
Call = tuple[str, list[Any]]


def differs(mounted: str | Path, ordinary: str | Path, script: Sequence[Call]) -> bool:
    """Makes calls in both folders, and returns whether a result or the trees differ."""
    left, right = Folder(mounted), Folder(ordinary)
    try:
        if any(left.call(*it) != right.call(*it) for it in script):
            return True
    finally:
        left.end()
        right.end()
    return left.tree() != right.tree()


def compare(
    mounted: str | Path, ordinary: str | Path, seed: int, count: int, say: Callable[[str], object] = print, made: list[Call] | None = None,
) -> int:
    """Makes calls in both folders, adds them to `made`, and returns how many results differed."""
    left, right, calls, differing = Folder(mounted), Folder(ordinary), Calls(seed), 0
    made = [] if made is None else made
    for number in range(count):
        name, words = calls.draw(len(left.files))
        made.append((name, words))
        answers = [it.call(name, words) for it in (left, right)]
        if answers[0] != answers[1] or len(left.files) != len(right.files):
            differing += 1
            both = f"the mount {_short(answers[0])}, the folder {_short(answers[1])}"
            say(f"call {number} of seed {seed}: {name} {str(words)[:200]}: {both}")
            if len(left.files) != len(right.files) or differing > 20:
                break
        if number % 500 == 499 and left.tree() != right.tree():
            differing += 1
            say(f"after call {number} of seed {seed} the trees differ: {_difference(left.tree(), right.tree())}")
            break
    left.end()
    right.end()
    if left.tree() != right.tree():
        differing += 1
        say(f"at the end of seed {seed} the trees differ: {_difference(left.tree(), right.tree())}")
    return differing


def _short(answer: object) -> str:
    return repr(answer)[:160]


def _difference(left: Sequence[object], right: Sequence[object]) -> str:
    return next((f"{_short(a)} and {_short(b)}" for a, b in zip(left, right) if a != b), f"{len(left)} and {len(right)} rows")
