"""The content of a folder after a kill of its mount, after a cut or a full disk of its journal, and after a rewrite."""

import argparse
import os
import random
import subprocess
import sys
import time
from pathlib import Path

from mount.mounts import Counts, Mounted
from mount.programs import next_second

WORKER = Path(__file__).resolve().parent / "worker.py"
# The bytes of a journal's head, of a length, and of a change beside its events: a length and two checks. And what the space ahead has.
HEAD, LENGTH, FRAME, FILLING = 17, 8, 16, b"not written yet "


def _is_begun(folder: Path, name: str) -> bytes | None:
    return (folder / name).read_bytes() if (folder / name).exists() else None


def faults_after(folder: Path, notes: Path) -> list[str]:
    """Returns the files that have neither the content of their last finished save nor that of a save that had begun."""
    wanted: dict[str, list[str | None]] = {}
    deleted: dict[str, list[str | None]] = {}
    for line in notes.read_text(encoding="ascii").splitlines():
        word, name, number = line.split()
        allowed = wanted.setdefault(name, [None])
        if word == "begin":
            # A file made soon after the deletion of its name continues the past: until its save ends, its content is that before the
            # deletion.
            allowed += [number, *deleted.get(name, [])]
        else:
            deleted[name] = [it for it in allowed if it not in (None, "gone")] if number == "gone" else []
            allowed[:] = [number]
    faults = []
    for name, allowed in wanted.items():
        found = _is_begun(folder, name)
        texts = [None if it is None or it == "gone" else content(name, int(it)) for it in allowed]
        # A save that had begun may have cut the file to length 0, or written a prefix of it.
        is_prefix = len(allowed) > 1 and found is not None and any(it is not None and it.startswith(found) for it in texts)
        if found not in texts and not is_prefix:
            faults.append(f"{name} has {found if found is None else found[:60]!r}, and not save {allowed}")
    return faults


def content(name: str, number: int) -> bytes:
    """The content of save `number` of a file."""
    return f"{name} {number} ".encode() * (1 + number * 7919 % 3000)


def kills(room: str, asked: argparse.Namespace) -> Counts:
    """Kills the mount at random moments while a program saves, and checks everything that was saved before."""
    drawn, wrong, rounds = random.Random(asked.seed), 0, 50 if asked.long else 6
    mounted, notes = Mounted(room), Path(room, "notes")
    for number in range(rounds):
        mounted.start()
        with open(notes, "ab") as file:
            worker = subprocess.Popen([sys.executable, WORKER, mounted.folder, str(number)], stdout=file, stderr=subprocess.DEVNULL)
        size, deadline = notes.stat().st_size, time.monotonic() + 30
        while notes.stat().st_size == size and time.monotonic() < deadline:
            time.sleep(0.02)
        time.sleep(drawn.uniform(0.0, 2.0))
        mounted.kill()
        worker.wait(60)
        if drawn.random() < 0.3:
            _tear(mounted.journal)
        mounted.start()
        for fault in faults_after(mounted.folder, notes):
            wrong += 1
            print(f"mount: kill {number}: {fault}")
        mounted.stop()
    print(f"mount: {rounds} kills, {len(notes.read_text().splitlines())} notes of saves")
    return rounds, wrong


def _tear(journal: Path) -> None:
    """Writes the beginning of a change where a journal's changes end, as a machine that stops within a write leaves it. The kill may have
    torn it already."""
    data = journal.read_bytes()
    end = HEAD + LENGTH + int.from_bytes(data[HEAD:HEAD + LENGTH], "big")
    while end + FRAME <= len(data):
        following = end + FRAME + int.from_bytes(data[end:end + LENGTH], "big")
        if following > len(data):
            break
        if data[following - 1] == FILLING[(following - 1) % len(FILLING)]:
            return
        end = following
    with open(journal, "r+b") as file:
        file.seek(end)
        file.write(bytes(LENGTH - 1) + b"\x20\x01")


def locked(room: str, asked: argparse.Namespace) -> Counts:
    """A second mount of a journal is refused, and so are other folders that can't be mounted."""
    wrong: list[str] = []
    with Mounted(room) as mounted:
        (mounted.folder / "f").write_text("one\n")
        other = Path(room, "other")
        other.mkdir()
        for folder, journal, wanted in (
            (other, mounted.journal, "is mounted already"), (mounted.folder, Path(room, "j2"), "is mounted already"),
            (WORKER.parent, Path(room, "j3"), "isn't empty"), (other, other / "j", "lies in the folder itself"),
            (other, WORKER, "has none of a store"),
        ):
            words = mounted.words(folder, "--journal", journal)
            ran = subprocess.run(words, env=mounted.environment(), capture_output=True, text=True, timeout=60, check=False)
            if ran.returncode != 1 or wanted not in ran.stderr:
                wrong.append(f"{words} ends with {ran.returncode} and says {ran.stderr!r}")
        if (mounted.folder / "f").read_text() != "one\n":
            wrong.append("the folder has another content then")
    for fault in wrong:
        print(f"mount: {fault}")
    return 6, len(wrong)


def full_disk(room: str, asked: argparse.Namespace) -> Counts:
    """On a small disk: what doesn't fit is refused with ENOSPC, the folder is then read-only, and what was saved is there."""
    wrong: list[str] = []
    disk = Path(room, "disk")
    disk.mkdir()
    if os.geteuid() or subprocess.run(["mount", "-t", "tmpfs", "-o", "size=6m", "tmpfs", disk], check=False).returncode:
        print("mount: only root can mount a small disk, so none was filled up")
        return 1, 0
    try:
        ballast = disk / "ballast"
        ballast.write_bytes(bytes(2 << 20))
        mounted = Mounted(room, "--clean-every", "0", journal=disk / "journal")
        mounted.start()
        saved = _fill(mounted.folder, wrong)
        if "read-only until there is space" not in mounted.log():
            wrong.append(f"the log says {mounted.log()!r}")
        _expect(wrong, saved, mounted.folder)
        ballast.unlink()
        time.sleep(4)
        (mounted.folder / "again").write_bytes(b"again")
        saved["again"] = b"again"
        mounted.kill()
        mounted.start()
        _expect(wrong, saved, mounted.folder)
        mounted.stop()
    finally:
        subprocess.run(["umount", "-l", disk], check=False)
    for fault in wrong:
        print(f"mount: full disk: {fault}")
    return 5, len(wrong)


def _fill(folder: Path, wrong: list[str]) -> dict[str, bytes]:
    """Saves files until one is refused. Returns what was saved."""
    saved: dict[str, bytes] = {}
    for number in range(100):
        data = os.urandom(100_000)
        try:
            (folder / str(number)).write_bytes(data)
        except OSError as fault:
            if fault.errno != 28:
                wrong.append(f"a save that doesn't fit is refused with {fault}")
            break
        saved[str(number)] = data
    else:
        wrong.append("20 MB fit on a disk of 6")
    try:
        (folder / "more").mkdir()
        wrong.append("a full folder takes a directory")
    except OSError as fault:
        if fault.errno not in (28, 30):
            wrong.append(f"a directory is refused with {fault}")
    return saved


def _expect(wrong: list[str], saved: dict[str, bytes], folder: Path) -> None:
    for name, data in saved.items():
        if (folder / name).read_bytes() != data:
            wrong.append(f"{name} has another content")


def journal_made_anew(room: str, asked: argparse.Namespace) -> Counts:
    """A rewritten journal is shorter, and its folder is the same, now and in the past."""
    wrong: list[str] = []
    count = 400 if asked.long else 60
    with Mounted(room) as mounted:
        mounted.ask("default", "/", "one")
        for number in range(count):
            (mounted.folder / f"f{number % 5}").write_bytes(os.urandom(20_000))
            (mounted.folder / "kept").write_bytes(os.urandom(3_000))
            if number == 3:
                mounted.ask("policy", "/kept", "all")
        _save_parts(mounted)
        mounted.ask("clean all")
        before, usage = _everything(mounted.folder), _usage(mounted)
        answer = mounted.ask("rewrite").split()
        if answer[:2] != ["ok", "journal"] or int(answer[3]) * 2 > int(answer[2]):
            wrong.append(f"rewrite says {answer}")
        (mounted.folder / "after").write_bytes(b"after")
        before[".elephant/versions/after/2"] = before["after"] = b"after"
        before[".elephant/versions/after/1"] = b""
        if _everything(mounted.folder) != before:
            wrong.append("the folder differs then")
        mounted.stop()
        mounted.start()
        if {**_everything(mounted.folder), ".elephant/versions/after/1": b""} != before:
            wrong.append("the folder differs when it is mounted again")
        (mounted.folder / "after").unlink()
        mounted.ask("clean all")
        now = _usage(mounted)
        if now[0] != usage[0] or now[1] > usage[1]:
            wrong.append(f"usage is {now} then, and was {usage}")
    for fault in wrong:
        print(f"mount: journal: {fault}")
    return 4, len(wrong)


def _usage(mounted: Mounted) -> tuple[list[list[str]], int]:
    """Returns what each kind of policy has, and how many blocks all of them have. A new journal may share more."""
    rows = [row.split() for row in mounted.ask("usage").splitlines()[1:]]
    return [row[:-1] for row in rows], sum(int(row[-1]) for row in rows)


def _save_parts(mounted: Mounted) -> None:
    """Saves parts of a file, so that its first version, which is marked, and its last one share the rest."""
    file = mounted.folder / "shared"
    file.write_bytes(os.urandom(40_000))
    mounted.ask("group", "make", "g")
    mounted.ask("group", "add", "g", "/shared")
    moment = next_second()
    for place in (0, 12_000, 39_000):
        with open(file, "r+b") as part:
            part.seek(place)
            part.write(b"new")
    next_second()
    mounted.ask("mark", "g", str(moment))


def _everything(folder: Path) -> dict[str, bytes]:
    """Returns all contents, of now and of all held versions, by path."""
    found = {it.name: it.read_bytes() for it in folder.iterdir()}
    for path in (folder / ".elephant" / "versions").glob("*/*"):
        found[str(path.relative_to(folder))] = path.read_bytes()
    return found


CHECKS = [kills, locked, full_disk, journal_made_anew]
