"""Lines that people type to a mounted folder: one file's story, changes, marks, policies, undo and redo; the moments that a folder lists;
an audit; and why a line is bad."""

from __future__ import annotations

import argparse
import json
import os
import random
import re
import subprocess
import sys
import time
from collections.abc import Mapping
from pathlib import Path

from mount.mounts import SOURCE, Counts, Mounted
from mount.past import Faults, refusal
from mount.programs import next_second
from mount.rules import run_tests

DATE = re.compile(r"\d{4}-\d\d-\d\d \d\d:\d\d:\d\d")
SPAN = re.compile(r"\d{4}-\d\d-\d\d \d\d:\d\d:\d\d [+-]\d\d:\d\d")
# Words of which lines are made up: most of them are wrong somewhere.
FIRST = [
    "clock", "tick", "mkdir", "create", "link", "write", "truncate", "save", "revert", "restore", "policy", "default", "group make",
    "group add", "group", "mark", "unmark", "read", "stat", "versions", "list", "due", "pass", "why", "ahead", "expiring", "gone", "open",
    "open read", "open write", "ls", "cat", "rm", "mv", "Create", "close",
]
OTHERS = [
    "/", "/f", "/d/f", "f", "/f@5", "/f#2", "/f#", "/f@", "/f#02", "/f@x", "/a//b", "/..", "/" + "n" * 65, "/n" * 33, "g", "g/h", "g@h",
    "..", "0", "7", "007", "7d", "7-1", "2026-03-02", "2026-03-02T00:00:00Z", "2026-02-30T00:00:00Z", "253402300799", "253402300800",
    "18446744073709551615", "18446744073709551616", "-", "00", "0", "0g", "abcd", "one", "all", "safe:60", "safe:0", "safe:60/16",
    "safe:60/17", "safe:60/", "safe:x", "landmarks:60/60", "landmarks:60/60,60/60", "landmarks:60/60,120/90", "landmarks:",
    "landmarks:60", "landmarks:0/1", "x", "", "landmarks:1/1,2/1,3/1,4/1,5/1,6/1,7/1,8/1,9/1",
]
MOST_WORDS = 4
# What is changed in a folder with a longer pause, in seconds, is undone by itself.
APART = 3.1


def dated(text: str) -> str:
    return DATE.sub("DATE", text)


def lines(room: str, asked: argparse.Namespace) -> Counts:
    """What people ask of the past of files, and undo and redo."""
    seen = Faults("lines")
    with Mounted(room, "--clean-every", "0") as mounted:
        top, hidden = mounted.folder, mounted.folder / ".elephant"
        before = next_second()
        (top / "d").mkdir()
        (top / "d" / "my plan").write_text("one")
        first = next_second()
        (top / "d" / "my plan").write_text("two!!")
        second = next_second()
        _tell(seen, mounted, first)
        _undo(seen, mounted, top / "d" / "my plan")
        listed = os.listdir(hidden / "at")
        seen.expect("the moments", (len(listed) >= 3, sorted(listed) == listed), (True, True))
        seen.expect("the first of them", sorted(os.listdir(hidden / "at" / listed[0])), ["d"])
        seen.expect("before it", refusal(lambda: os.listdir(hidden / "at" / str(before - 1))), "ENOENT")
        seen.expect("its log", "this folder begins at" in mounted.log(), True)
        answer = mounted.ask("undo", "d/my plan", f"@{before - 1}")
        seen.expect("an undo to it", (answer[:3], "this folder begins at" in answer), ("no:", True))
        _changes(seen, mounted, second)
        _folder(seen, mounted, top / "w")
        seen.expect("no history", "mount the folder with --history" in mounted.ask("gone"), True)
        _paths(seen, mounted, top / "w")
    return seen.counts()


def _tell(seen: Faults, mounted: Mounted, first: int) -> None:
    """A policy with units, a mark by local time, and the story of the file."""
    name = "d/my plan"
    seen.expect("a policy", mounted.ask("policy", name, "safe:1h"), "ok done\n")
    seen.expect("a bad one", mounted.ask("policy", name, "safe:60/17"), "bad 31 BadLadder\n- word 3: a floor is at most 16 versions\n")
    for words in (("group", "make", "g"), ("group", "add", "g", name)):
        seen.expect(" ".join(words), mounted.ask(*words), "ok done\n")
    local = DATE.search(mounted.ask("undo", "--dry-run", name, f"@{first}"))
    answer = mounted.ask("mark", "g", local[0] if local else "")
    held = "ok done: it holds 1 version of 1 of the group's 1 file, as of MOMENT, for good\n"
    seen.expect("a mark", SPAN.sub("MOMENT", answer), held)
    rows = [dated(it) for it in mounted.ask("history", name).splitlines()]
    seen.expect("the story", rows, [
        f"ok {name}: 3 versions, 3 of them held; policy safe:3600",
        "version  saved                ended                    bytes",
        "      1  DATE  DATE          0  kept until DATE: 1 hour after its end",
        "      2  DATE  DATE          3  kept for good by the mark g of DATE",
        "      3  DATE  -                            5  current",
    ])
    data = json.loads(mounted.ask("history", name, "--json"))
    seen.expect("for programs", [(it["number"], it["length"], it["fate"]["is"]) for it in data["versions"]],
                [(1, 0, "kept"), (2, 3, "marked"), (3, 5, "current")])


def _undo(seen: Faults, mounted: Mounted, place: Path) -> None:
    place.write_text("three")
    found = []
    for line in ("undo d/my plan", "undo d/my plan", "redo d/my plan", "redo d/my plan", "undo d/my plan #2"):
        answer = mounted.ask(line)
        found.append((answer.partition(" held,")[0], place.read_text()))
    seen.expect("undo and redo", found, [
        ("ok version 5: what version 3", "two!!"), ("ok version 6: what version 2", "one"), ("ok version 7: what version 3", "two!!"),
        ("ok version 8: what version 4", "three"), ("ok version 9: what version 2", "one"),
    ])
    mounted.stop()
    mounted.start()
    seen.expect("an undo after another mount", (mounted.ask("undo", "d/my plan")[:12], place.read_text()), ("ok version 1", "three"))


def _folder(seen: Faults, mounted: Mounted, folder: Path) -> None:
    """Undo and redo of a folder in which a file was saved and then renamed."""
    folder.mkdir()
    for text in ("one", "two"):
        (folder / "f").write_text(text)
        time.sleep(APART)
    (folder / "f").rename(folder / "g")
    next_second()
    found = []
    for word in ("undo", "undo", "redo", "redo"):
        answer = mounted.ask(word, "w")
        found.append((answer.partition(" as it was at ")[0], [(it.name, it.read_text()) for it in folder.iterdir()]))
    seen.expect("a folder", found, [("ok w is", [it]) for it in (("f", "two"), ("f", "one"), ("f", "two"), ("g", "two"))])
    seen.expect("its end", mounted.ask("redo", "w"), "no: w is as it was changed last: there is nothing to redo\n")


def _changes(seen: Faults, mounted: Mounted, second: int) -> None:
    """What a script did between two moments."""
    top = mounted.folder
    (top / "kept").write_text("x")
    begin = next_second()
    (top / "d" / "my plan").rename(top / "plan")
    (top / "fresh").write_text("x")
    (top / "kept").write_text("y")
    next_second()
    rows = [dated(it) for it in mounted.ask("changes", f"@{begin}", "now").splitlines()]
    seen.expect("changes", rows[1:], [
        "DATE  made          fresh", "DATE  saved         kept, version 3 after 2", "DATE  renamed       plan, before d/my plan",
    ])
    seen.expect("their count", rows[0].endswith(": 1 made, 1 saved, 1 renamed"), True)
    data = json.loads(mounted.ask("changes", str(second), "now", "plan", "--json"))
    seen.expect("of one path", [(it["what"], it["before"]) for it in data], [("renamed", "d/my plan"), ("saved", None)])


def _paths(seen: Faults, mounted: Mounted, folder: Path) -> None:
    """Paths in a line of the script language, the help on a line, and what goes until a moment."""
    listed = [mounted.ask("list", it).partition(" file ")[0] for it in ("w", str(folder), "/w", "w@now")]
    seen.expect("paths", listed, ["ok names 1\n- g"] * 4)
    first, second, *soon = mounted.ask("soon", "2040-01-01").splitlines()
    seen.expect("soon", (first.partition(" until ")[0], second), (f"ok {len(soon)} versions go", "This mount removes nothing by itself."))
    seen.expect("its rows", [it for it in soon if " version 1 of /" in it and ": 1 hour after its end" in it] != [], True)
    seen.expect("help", mounted.ask("help", "redo").splitlines()[:2], ["Line:   redo FILE", "        redo FOLDER"])


def audits(room: str, asked: argparse.Namespace) -> Counts:
    """A mount with `--history` answers an audit, also about what was before that option."""
    seen = Faults("audits")
    with Mounted(room, "--clean-every", "0") as mounted:
        mounted.ask("default", "/", "one")
        for text in ("one", "two", "three"):
            (mounted.folder / "f").write_text(text)
        seen.expect("removals", mounted.ask("clean all"), "ok removed 3\n")
        seen.expect("why one is gone", dated(mounted.ask("why", "f", "2")).splitlines(), [
            "no 13 Forgotten -", "- removed DATE, due since DATE", "- a mount with --history says why",
        ])
    with Mounted(room, "--clean-every", "0", "--history") as mounted:
        gone = mounted.ask("gone").splitlines()
        seen.expect("gone", [it.split()[2:5] for it in gone[1:]], [["1", str(it), "/f"] for it in (1, 2, 3)])
        seen.expect("why", mounted.ask("why", "f", "2").split()[:3], ["ok", "why", "removed"])
        seen.expect("the story", "its policy keeps only the newest" in mounted.ask("history", "f").splitlines()[3], True)
        with open(mounted.folder / "f", "a", encoding="ascii") as file:
            file.write("four")
            file.flush()
            os.fsync(file.fileno())
            seen.expect("handles", [it.split()[3:] for it in mounted.ask("handles").splitlines()[1:]][0][0::2], ["draft", "/f"])
        history = mounted.ask("history").splitlines()
        seen.expect("history", [it for it in ("- create /f", "- clean") if it not in history], [])
        seen.expect("answers", "- clean" in mounted.ask("answers").splitlines(), True)
        seen.expect("a rewrite", mounted.ask("rewrite").startswith("ok journal "), True)
        seen.expect("gone afterwards", mounted.ask("gone").splitlines(), ["ok gone 1 0"])
    return seen.counts()


def whose(room: str, asked: argparse.Namespace) -> Counts:
    """A mount with `--who` notes whose the changes are: once for each time that another program makes them, and its own removals too."""
    seen = Faults("whose")
    with Mounted(room, "--clean-every", "0", "--history", "--who") as mounted:
        own = f"user {os.getuid()} {Path('/proc/self/comm').read_text(encoding='ascii').strip()}"
        copier = f"user {os.getuid()} cp"
        for text in ("one", "two"):
            (mounted.folder / "f").write_text(text, encoding="ascii")
        subprocess.run(["cp", str(mounted.folder / "f"), str(mounted.folder / "g")], check=True)
        (mounted.folder / "f").write_text("three", encoding="ascii")
        seen.expect("notes", _notes(mounted), [own, copier, own])
        seen.expect("a line of a user", mounted.ask("default", "/", "one").splitlines(), ["ok done"])
        seen.expect("its note", _notes(mounted)[-1].startswith(f"user {os.getuid()} "), True)
        (mounted.folder / "h").write_text("four", encoding="ascii")
        (mounted.folder / "h").write_text("five", encoding="ascii")
        seen.expect("removals", mounted.ask("clean all").startswith("ok removed "), True)
        seen.expect("whose they are", _notes(mounted)[-1], "elephant-mount")
        seen.expect("the content", (mounted.folder / "g").read_text(encoding="ascii"), "two")
    with Mounted(room, "--clean-every", "0", "--history") as mounted:
        before = _notes(mounted)
        (mounted.folder / "f").write_text("six", encoding="ascii")
        seen.expect("no notes unless asked", _notes(mounted), before)
    return seen.counts()


def _notes(mounted: Mounted) -> list[str]:
    """Returns the texts of the notes in the history of a mount, without those of the mount's own remarks."""
    rows = (it.split("  ", 1) for it in mounted.ask("answers").splitlines() if it.startswith("- note "))
    return [it[1] for it in rows if not it[1].startswith("#")]


def _made(chance: random.Random, takes: Mapping[str, str]) -> str:
    """Returns a line: mostly with as many words as its command takes."""
    first = chance.choice(FIRST)
    count = len(takes[first].split()) if first in takes and chance.random() < 0.8 else chance.randrange(MOST_WORDS)
    return " ".join([first, *chance.choices(OTHERS, k=count)])


def reasons(room: str, asked: argparse.Namespace) -> Counts:
    """The mount says why a line is bad as the program does with `--explain`."""
    sys.path.insert(0, str(SOURCE))
    from elephant.mount.reasons import NO_SUCH, TAKES, reason

    if not Path(asked.program).is_file():
        print(f"mount: reasons: there is no {asked.program}: './elephant prove' builds it")
        return 1, 1
    seen, chance = Faults("reasons"), random.Random(asked.seed)
    count = 20_000 if asked.long else 4_000
    made = [_made(chance, TAKES) for _ in range(count)]
    words = [asked.program, "run", "--numbers", "--explain"]
    ran = subprocess.run(words, input="\n".join(made) + "\n", capture_output=True, text=True, check=False)
    told = {int(number): why for number, why in re.findall(r"(?m)^elephant: line (\d+), (.*)$", ran.stderr)}
    for number, line in enumerate(made, 1):
        wanted = told.get(number, "").replace("there is no such command: elephant help script lists all", NO_SUCH)
        seen.expect(f"{line!r}", reason(line.split(" ")), wanted)
    seen.expect("lines of both kinds", 100 < len(told) < len(made) - 100, True)
    return seen.counts()


def typed(room: str, asked: argparse.Namespace) -> Counts:
    """The client's tests of these lines, by the Python that has pyfuse3."""
    return run_tests("typed", ["test_mount_lines", "test_mount_language", "test_mount_typed"])


CHECKS = [lines, audits, whose, reasons, typed]
