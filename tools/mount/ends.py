"""How a store ends, in mounted folders: what each way of working costs, a full store, a move to a new journal, a look without a trace,
little memory, files that stay open, and a journal that another program takes away."""

from __future__ import annotations

import argparse
import os
import re
import resource
import shutil
import sqlite3
import subprocess
import time
from collections.abc import Callable, Generator
from contextlib import closing, suppress
from functools import partial
from itertools import islice
from pathlib import Path

from gate.building import ROOT
from mount.mounts import Counts, Mounted
from mount.past import Faults, refusal
from mount.programs import next_second

PAGE = ROOT / "docs" / "MOUNT.md"
Turns = Generator[None, None, None]
Act = Callable[[Path], Turns]
Calls = dict[str, Callable[[], object]]


def used(mounted: Mounted) -> dict[str, int]:
    """Returns how much of each limit is used."""
    rows = (mounted.folder / ".elephant" / "limits").read_text(encoding="ascii").splitlines()[1:]
    return {row.split()[0]: int(row.split()[1]) for row in rows if len(row.split()) > 3 and row.split()[1].isdigit()}


def trace(path: Path) -> tuple[bytes, int, int]:
    """What a look must leave as it is."""
    return path.read_bytes(), path.stat().st_mtime_ns, path.stat().st_mode


# A look.


def reads_only(room: str, asked: argparse.Namespace) -> Counts:
    """A mount with --read-only changes neither the journal nor what it holds, and refuses each change."""
    seen = Faults("reads_only")
    with Mounted(room, "--no-guard") as mounted:
        mounted.ask("default", "/", "safe:1")
        for text in ("one", "two", "three"):
            (mounted.folder / "f").write_text(text)
        (mounted.folder / "d").mkdir()
        (mounted.folder / "gone").write_text("gone")
        moment = next_second()
        (mounted.folder / "gone").unlink()
        next_second()
        (mounted.folder / "last").write_text("last")
    mounted.journal.chmod(0o444)
    before = trace(mounted.journal)
    _look(seen, room, mounted.journal, moment)
    seen.expect("the journal's bytes, time and mode", trace(mounted.journal) == before, True)
    _look_on_a_disk_that_is_read_only(seen, room, mounted.journal)
    mounted.journal.chmod(0o600)
    _look_while_it_is_written(seen, room, mounted)
    return seen.counts()


def _look(seen: Faults, room: str, journal: Path, moment: int) -> None:
    """An archive whose versions are all due: nothing is removed by a long look."""
    time.sleep(2)
    look = Mounted(room, "--read-only", "--clean-every", "0.2", "--no-guard", journal=journal)
    with look:
        top, hidden = look.folder, look.folder / ".elephant"
        first = sorted(os.listdir(hidden / "versions" / "f"))
        time.sleep(3)
        seen.expect("the versions", (first, sorted(os.listdir(hidden / "versions" / "f"))), (["1", "2", "3", "4"],) * 2)
        seen.expect("one of them", (hidden / "versions" / "f" / "2").read_text(), "one")
        seen.expect("what was deleted", (hidden / "restorable" / "gone").read_text(), "gone")
        seen.expect("a moment", sorted(os.listdir(hidden / "at" / str(moment))), ["d", "f", "gone"])
        seen.expect("now", (top / "f").read_text(), "three")
        changes: Calls = {
            "a write": lambda: (top / "f").write_text("x"), "a new file": lambda: (top / "g").write_text("x"),
            "mkdir": lambda: (top / "e").mkdir(), "rm": lambda: (top / "f").unlink(), "rmdir": lambda: (top / "d").rmdir(),
            "mv": lambda: (top / "f").rename(top / "g"), "chmod": lambda: (top / "f").chmod(0o600), "utime": lambda: os.utime(top / "f"),
            "a link": lambda: os.link(top / "f", top / "g"), "a symbolic link": lambda: os.symlink("f", top / "s"),
            "truncate": lambda: os.truncate(top / "f", 0), "an attribute": lambda: os.setxattr(top / "f", "user.a", b"1"),
        }
        for what, call in changes.items():
            seen.expect(what, refusal(call), "EROFS")
        for line in ("undo f", "clean", "clean all", "pass", "policy /f all", "rewrite", "create /g", "time is right"):
            seen.expect(f"the line {line}", "read-only" in look.ask(line).lower(), True)
        seen.expect("a question", look.ask("stat", "/f").split()[:4], ["ok", "file", "1", "version"])
        seen.expect("its status", look.stop(), 0)


def _look_on_a_disk_that_is_read_only(seen: Faults, room: str, journal: Path) -> None:
    disk = Path(room, "disk")
    disk.mkdir()
    if os.geteuid() or subprocess.run(["mount", "-t", "tmpfs", "-o", "size=6m", "tmpfs", disk], check=False).returncode:
        print("mount: only root can mount a disk that is read only, so none was tried")
        return
    try:
        shutil.copy(journal, disk / "journal")
        subprocess.run(["mount", "-o", "remount,ro", disk], check=True)
        with Mounted(room, "--read-only", journal=disk / "journal") as look:
            seen.expect("on a disk that is read only", (look.folder / "f").read_text(), "three")
    finally:
        subprocess.run(["umount", "-l", disk], check=False)


def _look_while_it_is_written(seen: Faults, room: str, mounted: Mounted) -> None:
    other = Path(room, "other")
    other.mkdir()
    with mounted:
        (mounted.folder / "f").write_text("four")
        look = Mounted(other, "--read-only", journal=mounted.journal)
        with look:
            (mounted.folder / "f").write_text("five")
            seen.expect("a look at a mounted journal", (look.folder / "f").read_text(), "four")
            seen.expect("the sockets", (mounted.ask("stat", "/f").split()[:2], look.ask("stat", "/f").split()[:2]), (["ok", "file"],) * 2)
        seen.expect("its lines after the look", mounted.ask("undo", "f")[:3], "ok ")


# What things cost.


def _transactions(folder: Path) -> Turns:
    with closing(sqlite3.connect(folder / "db", isolation_level=None)) as database:
        database.execute("create table t (x)")
        while True:
            yield
            database.execute("insert into t values (1)")


def _git(folder: Path, *words: str) -> None:
    people = {f"GIT_{who}_{what}": "a@a" for who in ("AUTHOR", "COMMITTER") for what in ("NAME", "EMAIL")}
    environment = {**os.environ, **people}
    settings = ["-c", "gc.auto=0", "-c", "maintenance.auto=0"]
    subprocess.run(["git", *settings, *words], cwd=folder, env=environment, capture_output=True, check=True)


def _commits(folder: Path) -> Turns:
    repository = folder / "repository"
    repository.mkdir()
    _git(repository, "init", "-q")
    for number in range(256):  # git makes each of these folders once
        (repository / ".git" / "objects" / f"{number:02x}").mkdir()
    number = 0
    while True:
        (repository / "f").write_text(f"{number}\n")
        _git(repository, "add", "f")
        _git(repository, "commit", "-qm", str(number))
        number += 1
        yield


def _program(*words: str) -> Act:
    """Returns an act that runs a program on the file f."""

    def acts(folder: Path) -> Turns:
        (folder / "f").write_text("one\n")
        time.sleep(2.3)
        while True:
            yield
            subprocess.run([*words, folder / "f"], stdin=subprocess.DEVNULL, capture_output=True, check=True)

    return acts


def _write_over(folder: Path) -> Turns:
    (folder / "f").write_text("one\n")
    while True:
        yield
        with open(folder / "f", "a", encoding="ascii") as file:
            file.write("more\n")


VIM = ("vim", "-u", "NONE", "-i", "NONE", "--not-a-term", "-c")
# By the words of the page's table, how a program acts, again and again.
ACTS = {
    "a program writes over a file (`echo >>`)": _write_over,
    "`sed -i`": _program("sed", "-i", "s/$/x/"),
    "`vim`, change and `:wq`": _program(*VIM, "set swapfile | normal ax", "-c", "wq"),
    "`vim`, only looking (`:q`)": _program(*VIM, "set swapfile", "-c", "q"),
    "`sqlite3`, a transaction": _transactions,
    "`git add` and `git commit` of one file, without folders": _commits,
}
NEEDED = {"vim": "vim", "git": "git", "sqlite3": "sqlite3"}


def measured(mounted: Mounted, acts: Act, rounds: int = 4) -> dict[str, int]:
    """Returns how much of each limit an act takes, after it was done once: the least of some rounds, since others look too."""
    found = []
    with closing(acts(mounted.folder)) as turns:
        for _ in islice(turns, rounds + 2):
            time.sleep(2.3)  # a name that comes back within two seconds goes on with its past
            found.append(used(mounted))
    pairs = zip(found[1:], found[2:])
    steps = [{name: after[name] - before[name] for name in after if after[name] > before[name]} for before, after in pairs]
    return min(steps, key=_total)


def _total(counts: dict[str, int]) -> int:
    return sum(counts.values())


def stated(text: str) -> dict[str, int]:
    """Returns what a row of the page's table says an act takes."""
    return {f"{word}s": int(number) for number, word in re.findall(r"(\d+) (file|name|version|handle)s?\b", text)}


def rows() -> dict[str, tuple[dict[str, int], int]]:
    """Returns the page's table of costs: for each act what it takes, and after how many the store is full."""
    found = re.findall(r"^\| (.*?) \| ((?:\d+ \w+(?:, )?)+) \| ([\d,]+) \|", PAGE.read_text(encoding="utf-8"), re.M)
    return {act: (stated(takes), int(full.replace(",", ""))) for act, takes, full in found}


def costs(room: str, asked: argparse.Namespace) -> Counts:
    """Each way of working takes of the limits what the page says, and a store is full after as many as it says."""
    seen, table = Faults("costs"), rows()
    seen.expect("the page's rows", sorted(table), sorted(ACTS))
    most = {"files": 99_000, "directories": 9_900, "names": 198_000, "versions": 990_000, "handles": 990_000}
    for act, acts in ACTS.items():
        takes, full = table.get(act, ({}, 0))
        seen.expect(f"{act}: full after", full, min((most[name] // count for name, count in takes.items()), default=0))
        program = next((it for it in NEEDED if f"`{it}" in act), None)
        if program and not shutil.which(program):
            print(f"mount: there is no {program}, so its costs weren't counted")
            continue
        place = Path(room, f"costs{len(act)}{act.count('a')}")
        place.mkdir()
        with Mounted(place, "--clean-every", "0") as mounted:
            seen.expect(act, measured(mounted, acts), takes)
    return seen.counts()


# A full store.


def full_store(room: str, asked: argparse.Namespace) -> Counts:
    """The log and `limits` say that the end comes near. In a full store what is there can be read, a removal can be undone, and one that
    couldn't is refused."""
    seen = Faults("full_store")
    with Mounted(room, "--clean-every", "0", "--limit", "versions=300") as mounted:
        top, count = mounted.folder, 0
        for name in ("a", "b", "c", "d"):
            (top / name).write_text(name)
        while refusal(lambda: (top / "f").write_text(str(count))) == len(str(count)):
            count += 1
        log = mounted.log()
        seen.expect("the steps in the log", [f"{it} in 100 of the versions" in log for it in (80, 90, 99)], [True] * 3)
        row = next(it for it in (top / ".elephant" / "limits").read_text().splitlines() if it.startswith("versions"))
        seen.expect("the row in limits", row.split()[1:4], ["297", "0", "99"])
        seen.expect("a save", refusal(lambda: (top / "f").write_text("more")), "ENOSPC")
        for name in ("a", "b", "c"):
            (top / name).unlink()
        seen.expect("a removal that couldn't be undone", refusal((top / "d").unlink), "ENOSPC")
        seen.expect("undo of the others", [mounted.ask("undo", name)[:3] for name in "abc"], ["ok "] * 3)
        seen.expect("they", [(top / name).read_text() for name in "abcd"], ["a", "b", "c", "d"])
        seen.expect("the whole end", mounted.ask("undo", "f").startswith("no 27 Full"), True)
    return seen.counts()


def fresh_numbers(room: str, asked: argparse.Namespace) -> Counts:
    """A store that has used nine tenths of a limit and holds little gets fresh numbers, and the folder goes on as it was, also for programs
    that have it open."""
    seen = Faults("fresh_numbers")
    with Mounted(room, "--clean-every", "0.5", "--no-guard", "--limit", "versions=200") as mounted:
        top, hidden = mounted.folder, mounted.folder / ".elephant"
        mounted.ask("default", "/", "one")
        (top / "d").mkdir(mode=0o750)
        (top / "d" / "kept").write_text("kept")
        os.symlink("d/kept", top / "link")
        os.setxattr(top / "d" / "kept", "user.a", b"1")
        before = _tree(top)
        inodes = {name: (top / name).stat().st_ino for name in ("d", "d/kept")}
        for number in range(185):
            (top / "f").write_text(str(number))
        when = next_second()
        seen.expect("the moment before", (hidden / "at" / str(when) / "f").read_text(), "184")
        deadline = time.monotonic() + 60
        while "the store has fresh numbers" not in mounted.log() and time.monotonic() < deadline:
            time.sleep(0.5)
        seen.expect("the log", "the store has fresh numbers, since it had made" in mounted.log(), True)
        row = next(it for it in (hidden / "limits").read_text().splitlines() if it.startswith("versions"))
        seen.expect("the row in limits", int(row.split()[1]) < 10, True)
        seen.expect("the folder", {name: it for name, it in _tree(top).items() if name != "f"}, before)
        seen.expect("inode numbers", {name: (top / name).stat().st_ino for name in inodes}, inodes)
        seen.expect("the moment after it", (hidden / "at" / str(when) / "f").read_text(), "184")
        seen.expect("the versions", [(hidden / "versions" / "f" / it).read_text() for it in os.listdir(hidden / "versions" / "f")], ["184"])
        (top / "f").write_text("later")
        (top / "f").rename(top / "g")
        (top / "d" / "kept").write_text("again")
        seen.expect("an undo", mounted.ask("undo", "d/kept")[:3], "no:")  # the policy keeps only the newest
        mounted.kill()
        mounted.start()
        seen.expect("after a kill", [(top / it).read_text() for it in ("g", "d/kept", "link")], ["later", "again", "again"])
        seen.expect("its attributes", (os.getxattr(top / "link", "user.a"), (top / "d").stat().st_mode & 0o777), (b"1", 0o750))
    return seen.counts()


# A move.


def _tree(top: Path) -> dict[str, tuple[object, ...]]:
    """All that a folder shows now, but for inode numbers."""
    found: dict[str, tuple[object, ...]] = {}
    for path in sorted(top.rglob("*")):
        it = path.lstat()
        content = os.readlink(path) if path.is_symlink() else path.read_bytes() if path.is_file() else None
        extended = {} if path.is_symlink() else {name: os.getxattr(path, name) for name in os.listxattr(path)}
        found[str(path.relative_to(top))] = it.st_mode, it.st_uid, it.st_gid, it.st_nlink, it.st_mtime_ns, it.st_ctime_ns, content, extended
    return found


def _move(mounted: Mounted, new: Path) -> subprocess.CompletedProcess[str]:
    words = mounted.words("move", mounted.journal, new)
    return subprocess.run(words, env=mounted.environment(), capture_output=True, text=True, check=False)


def moves(room: str, asked: argparse.Namespace) -> Counts:
    """`move` makes a journal with all of now, and a mount with `--past` shows both pasts."""
    seen, new = Faults("moves"), Path(room, "new.journal")
    with Mounted(room, "--clean-every", "0") as mounted:
        top = mounted.folder
        (top / "d").mkdir(mode=0o750)
        for number in range(40):
            (top / "d" / f"f {number}").write_bytes(os.urandom(number * 1000))
        (top / "f").write_text("one")
        os.link(top / "f", top / "hard")
        os.symlink("d", top / "link")
        os.setxattr(top / "f", "user.a", b"1")
        (top / "f").chmod(0o640)
        os.utime(top / "f", ns=(5, 7))
        for line in (["default", "/d", "safe:77/2"], ["policy", "/f", "all"], ["group", "make", "g"], ["group", "add", "g", "/f"]):
            seen.expect(f"the line {line}", mounted.ask(*line), "ok done\n")
        (top / "gone").write_text("gone")
        first = next_second()
        (top / "f").write_text("two")
        (top / "gone").unlink()
        next_second()
        marked = mounted.ask("mark", "g", str(first)).partition(",")[0]
        seen.expect("a mark", marked, "ok done: it holds 1 version of 1 of the group's 1 file")
        before, lines = _tree(top), mounted.ask("dump")
        refused = _move(mounted, new)
        found = refused.returncode, "unmount it first" in refused.stderr, new.exists()
        seen.expect("a move of a mounted journal", found, (1, True, False))
    old = trace(mounted.journal)
    ran = _move(mounted, new)
    seen.expect("a move", (ran.returncode, ran.stderr, ran.stdout[:3]), (0, "", "ok "))
    with Mounted(room, "--clean-every", "0", "--past", str(mounted.journal), journal=new) as again:
        hidden = again.folder / ".elephant"
        seen.expect("the folder", _tree(again.folder), before)
        seen.expect("the policies, groups and marks", again.ask("dump"), lines)
        (again.folder / "f").write_text("three")
        then = hidden / "at" / str(first)
        seen.expect("a moment of the old journal", [(then / name).read_text() for name in ("f", "gone")], ["one", "gone"])
        seen.expect("its versions", (hidden / "older" / "journal" / "versions" / "f" / "2").read_text(), "one")
        seen.expect("its deleted files", os.listdir(hidden / "older" / "journal" / "restorable"), ["gone"])
        seen.expect("the own ones", ((hidden / "versions" / "f" / "2").read_text(), os.listdir(hidden / "restorable")), ("two", []))
        _undo_in_old(seen, again, first)
    seen.expect("the old journal", trace(mounted.journal) == old, True)
    return seen.counts()


def _undo_in_old(seen: Faults, mounted: Mounted, moment: int) -> None:
    """Undoes files and the whole folder to a moment of the older journal."""
    top, when = mounted.folder, f"@{moment}"
    told = mounted.ask("undo", "--dry-run", "f", when)
    seen.expect("what an undo would do", (told[:26], "from the older journal journal" in told), ("ok would make a version of", True))
    seen.expect("an undo to the older journal", mounted.ask("undo", "f", when)[:14], "ok version 4: ")
    seen.expect("what it brought back", [(top / name).read_text() for name in ("f", "hard")], ["one", "one"])
    seen.expect("an undo of a file that the new journal never had", mounted.ask("undo", "gone", when)[:14], "ok version 2: ")
    seen.expect("what it has", (top / "gone").read_text(), "gone")
    (top / "f").write_text("four")
    (top / "d" / "f 7").unlink()
    told = mounted.ask("undo", str(top), when)
    seen.expect("an undo of all", ("ok / is as it was" in told, "from the older journal journal" in told), (True, True))
    seen.expect("what that brought back", ((top / "f").read_text(), (top / "d" / "f 7").stat().st_size), ("one", 7000))
    seen.expect("without a moment", "give a moment" in mounted.ask("undo", "d/f 7"), True)


# Little memory.


def little_memory(room: str, asked: argparse.Namespace) -> Counts:
    """At a limit of memory saves are refused with ENOMEM, all that was saved can be read, and saves work again when there is memory."""
    seen, kept = Faults("little_memory"), {}
    with Mounted(room, "--clean-every", "0") as mounted:
        top, process = mounted.folder, mounted.process.pid
        mounted.ask("default", "/", "all")
        (top / "first").write_bytes(b"first")
        with open(f"/proc/{process}/statm", encoding="ascii") as file:
            now = int(file.read().split()[0]) * resource.getpagesize()
        resource.prlimit(process, resource.RLIMIT_AS, (now + (120 << 20), resource.RLIM_INFINITY))
        fault = None
        for number in range(300):
            data = os.urandom(1 << 20)
            fault = refusal(lambda: (top / f"f{number}").write_bytes(data))
            if fault != len(data):
                break
            kept[f"f{number}"] = data
        seen.expect("the last save", fault, "ENOMEM")
        seen.expect("there were some", len(kept) > 3, True)
        seen.expect("reads", all((top / name).read_bytes() == data for name, data in kept.items()), True)
        seen.expect("a listing", sorted(set(os.listdir(top)) - {f"f{len(kept)}"}), sorted([*kept, "first"]))
        seen.expect("its log", "no memory" in mounted.log(), True)
        some = list(kept)[:len(kept) - 2]
        for name in some:
            seen.expect("a line", mounted.ask("policy", f"/{name}", "one"), "ok done\n")
            seen.expect("rm", refusal((top / name).unlink), None)
            del kept[name]
        seen.expect("a removal", mounted.ask("clean all").split()[:2], ["ok", "removed"])
        seen.expect("a save then", refusal(lambda: (top / "later").write_bytes(b"later")), 5)
        kept["later"] = b"later"
        resource.prlimit(process, resource.RLIMIT_AS, (resource.RLIM_INFINITY, resource.RLIM_INFINITY))
        seen.expect("a large save", refusal(lambda: (top / "large").write_bytes(bytes(1 << 20))), 1 << 20)
        kept["large"] = bytes(1 << 20)
        mounted.kill()
        mounted.start()
        seen.expect("after a kill", {name: (top / name).read_bytes() for name in kept} == kept, True)
    return seen.counts()


# A lost journal.


def lost_journal(room: str, asked: argparse.Namespace) -> Counts:
    """A journal that was cut, deleted, renamed or replaced is noticed before the next change is answered."""
    seen = Faults("lost_journal")

    def replace(path: Path) -> None:
        shutil.copy(path, path.with_name("copy"))
        path.with_name("copy").rename(path)

    ways: dict[str, Callable[[Path], object]] = {
        "cut": lambda it: os.truncate(it, it.stat().st_size - 30), "deleted": Path.unlink, "replaced": replace,
        "renamed": lambda it: it.rename(it.with_name("away")),
    }
    for what, take in ways.items():
        place = Path(room, what)
        place.mkdir()
        mounted = Mounted(place)
        mounted.start()
        (mounted.folder / "f").write_text("one")
        take(mounted.journal)
        with open(mounted.folder / "f", encoding="ascii") as reader:
            seen.expect(f"{what}: fsync", refusal(partial(os.fsync, reader.fileno())), "EIO")
        seen.expect(f"{what}: a change", [refusal(lambda: (mounted.folder / "g").write_text("x")) for _ in range(2)], ["EIO"] * 2)
        seen.expect(f"{what}: rm", refusal((mounted.folder / "f").unlink), "EIO")
        seen.expect(f"{what}: a read", (mounted.folder / "f").read_text(), "one")
        seen.expect(f"{what}: the log", "Nothing more is kept: copy your files out" in mounted.log(), True)
        seen.expect(f"{what}: the status", mounted.stop(), 1)
    return seen.counts()


# Open files.


def anew_while_open(room: str, asked: argparse.Namespace) -> Counts:
    """The journal is made anew while a file is written and synced, and the file goes on."""
    seen = Faults("anew_while_open")
    with Mounted(room, "--clean-every", "0") as mounted:
        with open(mounted.folder / "db", "w+b", buffering=0) as file:
            for number in range(200):
                os.pwrite(file.fileno(), os.urandom(4096), number % 50 * 4096)
                os.fsync(file.fileno())
            before = mounted.journal.stat().st_size
            told = mounted.ask("rewrite").split()
            seen.expect("a rewrite", (told[:2], int(told[3]) * 3 < int(told[2])), (["ok", "journal"], True))
            seen.expect("its lengths", (before >= int(told[2]), mounted.journal.stat().st_size), (True, int(told[3])))
            os.pwrite(file.fileno(), b"later", 10)
            os.fsync(file.fileno())
            content = os.pread(file.fileno(), 1 << 20, 0)
        seen.expect("the versions", os.listdir(mounted.folder / ".elephant" / "versions" / "db"), ["1", "2"])
        mounted.kill()
        mounted.start()
        seen.expect("after a kill", (mounted.folder / "db").read_bytes() == content, True)
        opened = os.open(mounted.folder / "db", os.O_RDWR)
        os.pwrite(opened, b"again", 0)
        os.fsync(opened)
        seen.expect("another rewrite", mounted.ask("rewrite").split()[:2], ["ok", "journal"])
        mounted.kill()
        with suppress(OSError):
            os.close(opened)
        mounted.start()
        seen.expect("what was synced before the kill", (mounted.folder / "db").read_bytes()[:5], b"again")
    return seen.counts()


CHECKS = [reads_only, full_store, fresh_numbers, moves, little_memory, lost_journal, anew_while_open, costs]
