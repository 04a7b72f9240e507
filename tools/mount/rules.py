"""The rules of POSIX and Linux, compared with an ordinary folder; and open files, and the end of a mount."""

import argparse
import contextlib
import ctypes
import errno
import mmap
import os
import signal
import socket
import stat
import subprocess
import sys
import time
from collections.abc import Callable
from pathlib import Path

from gate.building import ROOT
from mount import mounts
from mount.calls import rename_how
from mount.mounts import Counts, Mounted
from mount.past import Faults, refusal
from mount.programs import in_turn, next_second
from mount.users import NOBODY, answers_of, lay_out

NOW, OMIT = (1 << 30) - 1, (1 << 30) - 2
EXCHANGE = 2
Deed = Callable[[Path], object]
_libc = ctypes.CDLL(None, use_errno=True)


class _Time(ctypes.Structure):
    _fields_ = [("seconds", ctypes.c_long), ("nanoseconds", ctypes.c_long)]


def set_times(path: Path, atime: int, mtime: int) -> None:
    """Calls `utimensat` with two numbers of nanoseconds, which may be NOW and OMIT."""
    times = (_Time * 2)(_Time(5, atime), _Time(5, mtime))
    if _libc.utimensat(-100, os.fsencode(path), times, 0):
        raise OSError(ctypes.get_errno(), "")


def _opened(path: Path, flags: int, call: Callable[[int], object] | None = None) -> None:
    file = os.open(path, flags)
    try:
        if call:
            call(file)
    finally:
        os.close(file)


# What each deed does in a folder.
DEEDS: dict[str, Deed] = {
    "write": lambda top: _opened(top / "f", os.O_WRONLY, lambda file: os.write(file, b"x")),
    "append": lambda top: _opened(top / "f", os.O_WRONLY | os.O_APPEND, lambda file: os.write(file, b"x")),
    "open to write": lambda top: _opened(top / "f", os.O_RDWR),
    "cut": lambda top: os.truncate(top / "f", 1),
    "cut to the same": lambda top: os.truncate(top / "f", 3),
    "cut by a file": lambda top: _opened(top / "f", os.O_WRONLY, lambda file: os.ftruncate(file, 3)),
    "cut at an opening": lambda top: _opened(top / "f", os.O_WRONLY | os.O_TRUNC),
    "cut an empty file at an opening": lambda top: _opened(top / "empty", os.O_WRONLY | os.O_TRUNC),
    "cut an empty file that is read": lambda top: _opened(top / "empty", os.O_RDONLY | os.O_TRUNC),
    "make": lambda top: _opened(top / "d" / "new", os.O_WRONLY | os.O_CREAT | os.O_EXCL),
    "make a folder": lambda top: os.mkdir(top / "d" / "new"),
    "make a link": lambda top: os.symlink("f", top / "d" / "new"),
    "make a fifo": lambda top: os.mkfifo(top / "d" / "new"),
    "link": lambda top: os.link(top / "f", top / "d" / "new"),
    "unlink": lambda top: os.unlink(top / "f"),
    "unlink one of two": lambda top: os.unlink(top / "two"),
    "remove a folder": lambda top: os.rmdir(top / "d" / "inner"),
    "rename": lambda top: os.rename(top / "f", top / "d" / "new"),
    "rename over": lambda top: os.rename(top / "f", top / "d" / "g"),
    "rename over one of two": lambda top: os.rename(top / "f", top / "two"),
    "rename to itself": lambda top: os.rename(top / "two", top / "d" / "one"),
    "move a folder": lambda top: os.rename(top / "d" / "inner", top / "new"),
    "move a folder over one": lambda top: os.rename(top / "d" / "inner", top / "bare"),
    "exchange": lambda top: rename_how(top / "f", top / "d" / "g", EXCHANGE),
    "exchange with a folder": lambda top: rename_how(top / "f", top / "d" / "inner", EXCHANGE),
    "chmod": lambda top: os.chmod(top / "f", 0o600),
    "chmod a folder": lambda top: os.chmod(top / "d", 0o700),
    "chown": lambda top: os.chown(top / "f", os.getuid(), os.getgid()),
    "chown of what may set its user": lambda top: in_turn(
        lambda: os.chmod(top / "f", 0o4755), lambda: os.chown(top / "f", os.getuid(), -1),
    ),
    "write to what may set its user": lambda top: in_turn(lambda: os.chmod(top / "f", 0o4755), lambda: DEEDS["write"](top)),
    "both times now": lambda top: set_times(top / "f", NOW, NOW),
    "one time now": lambda top: set_times(top / "f", OMIT, NOW),
    "one time": lambda top: set_times(top / "f", 9, OMIT),
    "no time": lambda top: set_times(top / "f", OMIT, OMIT),
    "times while it is written": lambda top: _opened(
        top / "f", os.O_WRONLY, lambda file: in_turn(lambda: os.write(file, b"x"), lambda: os.utime(file, (5, 5))),
    ),
    "an attribute": lambda top: os.setxattr(top / "f", "user.a", b"1"),
    "no attribute": lambda top: os.removexattr(top / "f", "user.old"),
    "fallocate": lambda top: _opened(top / "f", os.O_RDWR, lambda file: os.posix_fallocate(file, 0, 10_000)),
}


def _lay_out(top: Path) -> None:
    for folder in ("d", "d/inner", "bare"):
        (top / folder).mkdir()
    for name, text in (("f", "abc"), ("empty", ""), ("two", "two"), ("d/g", "g")):
        (top / name).write_text(text)
    os.link(top / "two", top / "d" / "one")
    os.setxattr(top / "f", "user.old", b"")


def _stats(top: Path) -> dict[str, os.stat_result]:
    return {name: os.lstat(top / name) for name in (".", *sorted(str(it.relative_to(top)) for it in top.rglob("*")))}


def changes_of(top: Path, deed: Deed) -> tuple[object, dict[str, object]]:
    """Returns the result of a deed and its changes: the mode, the links and the size of each name, and which times differ from before."""
    top.mkdir()
    _lay_out(top)
    for name in _stats(top):
        os.utime(top / name, (1, 1), follow_symlinks=False)
    before = {it.st_ino: it for it in _stats(top).values()}
    time.sleep(0.012)  # a disk's file system counts time in steps of some milliseconds
    answer = refusal(lambda: deed(top) and None)
    changes: dict[str, object] = {}
    for name, it in _stats(top).items():
        old = before.get(it.st_ino)
        times: list[int | str | None] = [int(at) if at < 9 else "new" for at in (it.st_atime, it.st_mtime)]
        if stat.S_ISDIR(it.st_mode):  # its size is each file system's own, and this read changes its time of access
            times[0] = None
        is_changed = old is None or old.st_ctime_ns != it.st_ctime_ns
        changes[name] = oct(it.st_mode), it.st_nlink, times[0] and it.st_size, times, is_changed
    return answer, changes


def times(room: str, asked: argparse.Namespace) -> Counts:
    """Each deed changes the same times, modes and link counts as in an ordinary folder, and they stay when it is mounted again."""
    seen, ordinary = Faults("times"), Path(room, "ordinary")
    ordinary.mkdir()
    with Mounted(room) as mounted:
        for number, (name, deed) in enumerate(DEEDS.items()):
            answer, wanted = changes_of(ordinary / str(number), deed)
            found_answer, found = changes_of(mounted.folder / str(number), deed)
            seen.expect(name, (found_answer, found.keys()), (answer, wanted.keys()))
            for path in wanted:
                seen.expect(f"{name}: {path}", found.get(path), wanted[path])
        before = _kept(mounted.folder)
        mounted.stop()
        mounted.start()
        after = _kept(mounted.folder)
        for name, kept in before.items():
            seen.expect(f"{name} when it is mounted again", after.get(name), kept)
    return seen.counts()


def _kept(top: Path) -> dict[str, object]:
    """Returns what a mount stores about each name."""
    return {
        name: (it.st_mode, it.st_nlink, it.st_uid, it.st_gid, it.st_size, it.st_atime_ns, it.st_mtime_ns, it.st_ctime_ns)
        for name, it in _stats(top).items() if name != "."
    }


def listing(room: str, asked: argparse.Namespace) -> Counts:
    """A folder that is read while its names are removed and made gives each name that stays once; a second reading begins anew."""
    seen, count = Faults("listing"), 3000
    with Mounted(room) as mounted:
        top = mounted.folder
        names = {f"n{number}" for number in range(count)}
        for name in names:
            (top / name).touch()
        found = []
        with os.scandir(top) as rows:
            for number, row in enumerate(rows):
                found.append(row.name)
                if row.name.startswith("n"):
                    os.unlink(top / row.name)
                    (top / f"m{number}").touch()
        removed = {it for it in found if it[0] == "n"}
        seen.expect("names that were removed as they were read", (removed, len(found) - len(set(found))), (names, 0))
        seen.expect("the other names", sorted(os.listdir(top)), sorted(f"m{number}" for number in range(count)))
        seen.expect("rm -r", (subprocess.run(["rm", "-r", *top.iterdir()], check=False).returncode, os.listdir(top)), (0, []))
    return seen.counts()


def open_files(room: str, asked: argparse.Namespace) -> Counts:
    """Open files keep their content, and nothing is written to another file than the program's."""
    seen = Faults("open files")
    with Mounted(room) as mounted:
        top, versions = mounted.folder, mounted.folder / ".elephant" / "versions"
        (top / "f").write_text("the older content")
        with open(versions / "f" / "2", encoding="ascii") as reader:
            for text in ("its own past", "another file"):
                (top / "new").write_text(text)
            # A file with two names and versions of its own takes a name with its own past.
            os.link(top / "new", top / "other")
            (top / "new").rename(top / "f")
            seen.expect("a version of the file that has the name now", (versions / "f" / "2").read_text(), "its own past")
            seen.expect("a version that was open before", (reader.read(), os.fstat(reader.fileno()).st_size), ("the older content", 17))
        (top / "log").write_text("short")
        (top / "log").write_text("a longer text")
        with open(top / "log", "ab", buffering=0) as file:
            seen.expect("undo of a file that is open to be written", mounted.ask("undo", "log")[:30], "elephant-mount: a program has ")
            file.write(b"+")
        seen.expect("what was appended", (top / "log").read_bytes(), b"a longer text+")
        seen.expect("undo after it is closed", mounted.ask("undo", "log")[:14], "ok version 5: ")
        seen.expect("what it has then", (top / "log").read_bytes(), b"a longer text")
        seen.expect("a line that opens a file", mounted.ask("open", "write", "/log")[:25], "elephant-mount: programs ")
        for line in (b"undo /log \xff", b"\xff", b"usage"):
            answer = _send_raw(mounted, line)
        seen.expect("a line after others that mean nothing", answer[:9], b"ok usage ")
        with open(top / "log", "rb") as one, open(top / "f", "rb") as other:
            rename_how(top / "log", top / "f", EXCHANGE)
            seen.expect("files that are exchanged while they are open", (one.read(), other.read()), (b"a longer text", b"another file"))
        seen.expect("what has their names", (top / "log").read_bytes(), b"another file")
        with open(top / "f", "r+b") as file:
            seen.expect("fallocate", _libc.fallocate(file.fileno(), 0, 0, ctypes.c_long(10)) and ctypes.get_errno(), errno.EOPNOTSUPP)
    return seen.counts()


def _send_raw(mounted: Mounted, line: bytes) -> bytes:
    with socket.socket(socket.AF_UNIX) as caller:
        caller.settimeout(30)
        caller.connect(os.readlink(mounted.folder / ".elephant" / "socket"))
        caller.sendall(line + b"\n")
        return b"".join(iter(lambda: caller.recv(65536), b""))


def ending(room: str, asked: argparse.Namespace) -> Counts:
    """Whatever ends a mount, what programs wrote is there: also through mappings, and after a lazy unmount."""
    seen = Faults("ending")
    mounted = Mounted(room)
    for way in (signal.SIGTERM, signal.SIGINT, signal.SIGHUP, None):
        name = way.name if way else "a lazy unmount"
        mounted.start()
        (mounted.folder / "f").write_bytes(bytes(8192))
        file = os.open(mounted.folder / "f", os.O_RDWR)
        draft = os.open(mounted.folder / name, os.O_WRONLY | os.O_CREAT)
        os.write(draft, b"written")
        with mmap.mmap(file, 8192) as pages:
            pages[:7] = b"changed"
            if way is None:
                subprocess.run(["fusermount3", "-u", "-z", mounted.folder], check=True)
                os.pwrite(draft, b"after", 7)
            else:
                mounted.process.send_signal(way)
                seen.expect(f"the status after {name}", _status_of(mounted), 0)
        for it in (file, draft):
            with contextlib.suppress(OSError):
                os.close(it)
        seen.expect(f"the end after {name}", _status_of(mounted), 0)
        mounted.kill()
        mounted.start()
        seen.expect(f"what was mapped before {name}", (mounted.folder / "f").read_bytes()[:7], b"changed")
        written = b"written" if way else b"writtenafter"
        seen.expect(f"what was written before {name}", (mounted.folder / name).read_bytes(), written)
        mounted.stop()
    mounted.start()
    mounted.process.kill()
    mounted.process.wait()
    words = mounted.words(mounted.folder, "--journal", mounted.journal)
    ran = subprocess.run(words, env=mounted.environment(), capture_output=True, text=True, check=False)
    seen.expect("a folder whose mount was killed", (ran.returncode, "takes its rest away" in ran.stderr), (1, True))
    mounted.kill()
    return seen.counts()


def _status_of(mounted: Mounted) -> object:
    """Returns the status of a mount that should end, with its last lines if it isn't 0, or where its threads wait in the kernel."""
    try:
        status = mounted.process.wait(60)
        return status and (status, mounted.log()[-1500:])
    except subprocess.TimeoutExpired:
        tasks = Path("/proc", str(mounted.process.pid), "task")
        return [(it / "wchan").read_text(encoding="ascii") + (it / "stat").read_text(encoding="ascii")[:60] for it in tasks.iterdir()]


def users(room: str, asked: argparse.Namespace) -> Counts:
    """Another user may do as much as in an ordinary folder, may not read hidden files by the past, and sends no lines."""
    seen, ordinary = Faults("users"), Path(room, "ordinary")
    if os.geteuid():
        print("mount: only root can be another user, so no one else tried the folder")
        return 1, 0
    os.chmod(room, 0o755)
    with Mounted(room, "--allow-other") as mounted:
        for top in (ordinary, mounted.folder / "top"):
            top.mkdir()
            lay_out(top)
        python = mounts.python() or sys.executable
        wanted, found = (answers_of(python, top) for top in (ordinary, mounted.folder / "top"))
        seen.expect("the calls", len(found), len(wanted))
        for answer, other in zip(found, wanted):
            seen.expect("a call", answer, other)
        past = [Path(".elephant", "versions", "top", "open", "secret", "2"), Path(".elephant", "restorable", "top", "closed", "read")]
        next_second()
        (mounted.folder / "top" / "closed" / "read").unlink()
        seen.expect("a deleted file", (mounted.folder / past[1]).read_text(), "read")
        for path in [*past, Path(".elephant", "versions", "top", "closed", "read", "2")]:
            seen.expect(f"{path} as another user", _as_nobody("cat", mounted.folder / path)[0] != 0, True)
        program = "import os, socket, sys; socket.socket(socket.AF_UNIX).connect(os.readlink(sys.argv[1]))"
        status, said = _as_nobody(python, "-c", program, mounted.folder / ".elephant" / "socket")
        seen.expect("a line of another user", ("PermissionError" in said, status), (True, 1))
        place = Path(os.readlink(mounted.folder / ".elephant" / "socket"))
        modes = [oct(it.stat().st_mode & 0o777) for it in (place.parent, place)]
        seen.expect("the socket's folder", modes, ["0o700", "0o600"])
        seen.expect("the journal", oct(mounted.journal.stat().st_mode & 0o777), "0o600")
    return seen.counts()


def _as_nobody(*words: str | Path) -> tuple[int, str]:
    """Runs a program as another user, and returns its status and output."""
    ran = subprocess.run(
        words, user=NOBODY, group=NOBODY, extra_groups=[], env=Mounted.environment(), cwd="/", capture_output=True, text=True, check=False,
    )
    return ran.returncode, ran.stdout + ran.stderr


def threads(room: str, asked: argparse.Namespace) -> Counts:
    """The client's tests of what a mount does beside its requests, by the Python that has pyfuse3."""
    return run_tests("threads", ["test_mount_threads", "test_mount_syncs"])


def run_tests(name: str, modules: list[str]) -> Counts:
    """Runs tests of the client, and returns one check."""
    words = [mounts.python() or sys.executable, "-m", "unittest", *modules]
    place = ROOT / "clients" / "python" / "tests"
    environment = {**Mounted.environment(), "PYTHONPATH": f"{mounts.SOURCE}:{place}"}
    ran = subprocess.run(words, cwd=place, env=environment, capture_output=True, text=True, check=False)
    is_good = ran.returncode == 0 and "\nOK\n" in ran.stderr and "Ran 0 " not in ran.stderr
    if not is_good:
        print(f"mount: {name}: {ran.stderr[-2000:]}")
    return 1, int(not is_good)


CHECKS = [times, listing, open_files, ending, users, threads]
