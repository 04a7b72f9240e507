"""What other users may do in a mounted folder: as much as in an ordinary one. Also the program that tries it, as another user."""

import errno
import os
import subprocess
import sys
from collections.abc import Callable
from pathlib import Path

NOBODY = 65534
# A call in a folder.
Call = Callable[[Path], object]


def lay_out(top: Path) -> None:
    """Makes files and folders of root's and of the other user's, of several modes."""
    for name, mode, owner in (
        ("open", 0o755, 0), ("closed", 0o700, 0), ("sticky", 0o1777, 0), ("shared", 0o2777, 0), ("own", 0o755, NOBODY),
        ("through", 0o711, 0),
    ):
        (top / name).mkdir()
        for file, file_mode, file_owner in (("secret", 0o600, 0), ("read", 0o644, 0), ("write", 0o666, 0), ("mine", 0o600, NOBODY)):
            (top / name / file).write_text(file)
            os.chown(top / name / file, file_owner, 12)
            os.chmod(top / name / file, file_mode)
        os.chown(top / name, owner, 12)
        os.chmod(top / name, mode)


def _write(path: Path) -> None:
    file = os.open(path, os.O_WRONLY)
    os.write(file, b"x")
    os.close(file)


def _reading(name: str) -> Call:
    return lambda top: (top / name).read_text()


def _writing(name: str) -> Call:
    return lambda top: _write(top / name)


CALLS: dict[str, Call] = {
    "list": lambda top: sorted(os.listdir(top)),
    **{f"read {name}": _reading(name) for name in ("secret", "read", "mine")},
    **{f"write {name}": _writing(name) for name in ("secret", "read", "write", "mine")},
    "cut": lambda top: os.truncate(top / "read", 0), "chmod": lambda top: os.chmod(top / "write", 0o777),
    "chmod of its own": lambda top: os.chmod(top / "mine", 0o640), "chown": lambda top: os.chown(top / "write", NOBODY, NOBODY),
    "give away": lambda top: os.chown(top / "mine", 0, 0), "times": lambda top: os.utime(top / "write", (1, 1)),
    "the time now": lambda top: os.utime(top / "write"), "the time of what it may read": lambda top: os.utime(top / "read"),
    "an attribute": lambda top: os.setxattr(top / "read", "user.a", b"1"),
    "an attribute of its own": lambda top: os.setxattr(top / "mine", "user.a", b"1"),
    "what it may": lambda top: [os.access(top / name, how) for name in ("secret", "read", "write") for how in (os.R_OK, os.W_OK, os.X_OK)],
    "make": lambda top: (top / "new").write_text("new"), "make a folder": lambda top: (top / "folder").mkdir(),
    "what was made": lambda top: [(oct(it.st_mode), it.st_uid, it.st_gid) for it in map(os.stat, (top / "new", top / "folder"))],
    "rename": lambda top: os.rename(top / "read", top / "renamed"), "rename its own": lambda top: os.rename(top / "mine", top / "write"),
    "remove": lambda top: (top / "secret").unlink(), "remove a folder": lambda top: (top / "folder").rmdir(),
    "change the folder": lambda top: os.chmod(top, 0o777),
}


def result_of(call: Call, top: Path) -> object:
    """Returns the result of a call: a value, or an error's name."""
    try:
        return call(top)
    except OSError as fault:
        return errno.errorcode[fault.errno]


def answers_of(python: str, top: Path) -> list[str]:
    """Returns the results of another user's calls in a folder, as lines, and what is there then."""
    ran = subprocess.run(
        [python, "-c", Path(__file__).read_text(encoding="utf-8"), top], user=NOBODY, group=NOBODY, extra_groups=[], cwd="/",
        env={**os.environ, "PYTHONDONTWRITEBYTECODE": "1"}, capture_output=True, text=True, check=False,
    )
    if ran.returncode:
        return [ran.stderr]
    rows = [(str(it.relative_to(top)), os.lstat(it)) for it in sorted(top.rglob("*"))]
    return [*ran.stdout.splitlines(), *(str((name, oct(it.st_mode), it.st_uid, it.st_gid)) for name, it in rows)]


def main() -> None:
    top = Path(sys.argv[1])
    os.umask(0o022)
    for folder in ("open", "closed", "sticky", "shared", "own", "through"):
        for name, call in CALLS.items():
            print(f"{folder}: {name}: {result_of(call, top / folder)}")


if __name__ == "__main__":
    main()
