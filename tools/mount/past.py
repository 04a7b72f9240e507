"""What a mounted folder shows of the past, what its policies remove, and what its limits refuse."""

import argparse
import errno
import os
import time
from collections.abc import Callable
from typing import TypeVar

from mount.mounts import Counts, Mounted
from mount.programs import next_second


Result = TypeVar("Result")


class Faults:
    """Counts the checks, and prints the failed ones."""

    def __init__(self, name: str) -> None:
        self.name, self.made, self.wrong = name, 0, 0

    def expect(self, what: str, found: object, wanted: object) -> None:
        self.made += 1
        if found != wanted:
            self.wrong += 1
            print(f"mount: {self.name}: {what}: {str(found)[:300]!r}, and not {str(wanted)[:300]!r}")

    def counts(self) -> Counts:
        return self.made, self.wrong


def refusal(call: Callable[[], Result]) -> Result | str | int:
    """Returns the error's name of a call, or its result."""
    try:
        return call()
    except OSError as fault:
        return errno.errorcode.get(fault.errno, fault.errno)


def past(room: str, asked: argparse.Namespace) -> Counts:
    """The past reads as it was, is read only and isn't listed; a forgotten version is refused."""
    seen = Faults("past")
    with Mounted(room, "--clean-every", "0") as mounted:
        top, hidden = mounted.folder, mounted.folder / ".elephant"
        before = next_second()
        (top / "d").mkdir()
        (top / "d" / "f").write_text("one")
        first = next_second()
        (top / "d" / "f").write_text("two")
        (top / "d" / "f").rename(top / "d" / "g")
        os.symlink("d/g", top / "link")
        second = next_second()
        (top / "d" / "g").unlink()
        third = next_second()
        then = {it: hidden / "at" / str(it) for it in (before, first, second, third)}
        iso = time.strftime("%Y-%m-%dT%H:%M:%SZ", time.gmtime(first))
        seen.expect("before the folder begins", refusal(lambda: os.listdir(then[before])), "ENOENT")
        seen.expect("after it", (then[first] / "d" / "f").read_text(), "one")
        seen.expect("by a date", (hidden / "at" / iso / "d" / "f").read_text(), "one")
        seen.expect("after a rename", {it.name: it.read_text() for it in (then[second] / "d").iterdir()}, {"g": "two"})
        seen.expect("a link", os.readlink(then[second] / "link"), "d/g")
        seen.expect("after an unlink", os.listdir(then[third] / "d"), [])
        seen.expect("a moment to come", refusal(lambda: os.listdir(hidden / "at" / "9999999999")), "ENOENT")
        seen.expect("no moment", refusal(lambda: os.listdir(hidden / "at" / "yesterday")), "ENOENT")
        seen.expect("the folder's list", sorted(os.listdir(top)), ["d", "link"])
        calls: dict[str, Callable[[], object]] = {
            "a write": lambda: (then[first] / "d" / "f").write_text("x"), "an unlink": lambda: (then[first] / "d" / "f").unlink(),
            "a new file": lambda: (hidden / "x").write_text("x"), "a rename": lambda: (top / "link").rename(hidden / "versions" / "x"),
            "chmod": lambda: (then[first] / "d" / "f").chmod(0o600), "mkdir": lambda: (hidden / "at" / "1").mkdir(),
        }
        for what, call in calls.items():
            seen.expect(f"{what} in the past", refusal(call) in ("EROFS", "EEXIST"), True)
        _forget(seen, mounted)
    return seen.counts()


def _forget(seen: Faults, mounted: Mounted) -> None:
    top, hidden = mounted.folder, mounted.folder / ".elephant"
    (top / "p").write_text("one")
    first = next_second()
    (top / "p").write_text("two")
    next_second()
    (top / "p").write_text("three")
    with open(hidden / "versions" / "p" / "2", encoding="ascii") as reader:
        seen.expect("a policy", mounted.ask("policy", "/p", "one"), "ok done\n")
        mounted.ask("clean all")
        seen.expect("a reader in the past", (reader.read(), mounted.ask("why /p 2")), ("one", "ok why open\n"))
    time.sleep(0.2)
    mounted.ask("clean all")
    seen.expect("a forgotten moment", refusal(lambda: (hidden / "at" / str(first) / "p").read_text()), "ENODATA")
    seen.expect("its list", "p" in os.listdir(hidden / "at" / str(first)), True)
    seen.expect("a forgotten version", refusal(lambda: (hidden / "versions" / "p" / "2").stat()), "ENODATA")
    seen.expect("a version that never was", refusal(lambda: (hidden / "versions" / "p" / "9").stat()), "ENOENT")
    seen.expect("what is held", os.listdir(hidden / "versions" / "p"), ["4"])
    seen.expect("the log", mounted.log().count("of /p: due since"), 3)


def keeping(room: str, asked: argparse.Namespace) -> Counts:
    """The mount cleans by itself, and makes versions of files that stay open."""
    seen = Faults("keeping")
    with Mounted(room, "--clean-every", "1", "--every", "0.02", "--no-guard") as mounted:
        mounted.ask("default", "/", "safe:1")
        with open(mounted.folder / "f", "w", encoding="ascii") as file:
            for number in range(3):
                file.write(f"{number}\n")
                file.flush()
                time.sleep(1.6)
            seen.expect("a reader beside the session", (mounted.folder / "f").read_text(), "0\n1\n2\n")
        time.sleep(3)
        last = max(int(it) for it in os.listdir(mounted.folder / ".elephant" / "versions" / "f"))
        seen.expect("versions of a session of five seconds", last >= 4, True)
        seen.expect("those that are held", len(os.listdir(mounted.folder / ".elephant" / "versions" / "f")), 1)
    return seen.counts()


def limits(room: str, asked: argparse.Namespace) -> Counts:
    """What doesn't fit is refused with its error, and the log says which limit it was."""
    seen = Faults("limits")
    with Mounted(room, "--limit", "files=3", "--limit", "versions=9", "--limit", "names=6") as mounted:
        top = mounted.folder
        for number in range(3):
            (top / f"f{number}").write_text("x")
        seen.expect("a fourth file", refusal(lambda: (top / "f3").write_text("x")), "ENOSPC")
        seen.expect("its log", "3 files that it ever makes" in mounted.log(), True)
        for text in "abc":
            (top / "f0").write_text(text)
        seen.expect("a tenth version", refusal(lambda: (top / "f0").write_text("d")), "ENOSPC")
        seen.expect("what is there", (top / "f0").read_text(), "c")
        seen.expect("its log", "9 versions that it ever makes" in mounted.log(), True)
        for old, new in (("f0", "g0"), ("g0", "f0"), ("f1", "g1")):
            (top / old).rename(top / new)
        seen.expect("a seventh name", refusal(lambda: (top / "f2").rename(top / "g2")), "ENOSPC")
        seen.expect("1 MiB and a byte", refusal(lambda: (top / "f2").open("r+b").truncate((1 << 20) + 1)), "EFBIG")
        seen.expect("its log", "1048577 bytes" in mounted.log(), True)
        seen.expect("a name of 65 bytes", refusal(lambda: (top / ("n" * 65)).mkdir()), "ENAMETOOLONG")
        seen.expect("a name of 22 spaces", refusal(lambda: (top / (" " * 22)).mkdir()), "ENAMETOOLONG")
        seen.expect("its log", "takes 66 bytes" in mounted.log(), True)
        found = os.statvfs(top)
        seen.expect("statvfs", (found.f_files, found.f_ffree, found.f_namemax), (3, 0, 64))
        # While the journal is made anew the disk has a content twice. Others may write to the disk meanwhile.
        disk = os.statvfs(room)
        free, wanted = found.f_bavail * found.f_frsize, disk.f_bavail * disk.f_frsize // 2
        seen.expect("free space", abs(free - wanted) < wanted // 20, True)
    return seen.counts()


CHECKS = [past, keeping, limits]
