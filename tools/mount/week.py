"""A machine's week in fast motion, and the week after it, with two mounted folders and a false clock.

Programs save in each way of clients/python/tests/ways.py, and `undo` takes each save back. The time of day jumps ahead and back, and is
wrong at a mount. The machine sleeps, is off for a night and for eight days. The mounts are killed in the middle of saves. Each night
somebody looks into both journals with `--read-only`. At the end all contents that the policies hold are there, by their moments and as
versions. The log and `.elephant/limits` have said what had to be said, and nothing else.
"""

from __future__ import annotations

import argparse
import os
import random
import re
import sys
import threading
import time
from collections.abc import Iterator
from contextlib import contextmanager
from itertools import chain
from pathlib import Path
from typing import Optional

from gate.building import ROOT
from mount.ends import trace
from mount.ledger import DAY, HOUR, MINUTE, Disk, Ladder, Ledger, Policy, Safe
from mount.mounts import SOURCE, Counts, Fault, Mounted
from mount.past import Faults, refusal
from mount.removal import Shifted
from mount.saves import REST, Caller

sys.path[:0] = [str(ROOT / "clients" / "python" / "tests"), str(SOURCE)]

from elephant.mount.client import ask
from ways import WAYS, Way, calls_of, without_repetitions

# A Monday, ten minutes past eight: no step of the script comes near the end of an hour.
START = 1_796_026_200
# What is checked is checked so long after a whole number of hours, as all saves are such numbers apart.
OFFSET = 15 * MINUTE
# How long a version may take until it is there, and a removal until it is done, in seconds.
PATIENCE = 30.0
REMOVED = re.compile(r"removed version \d+ of ")
# What the log may say at any time: what is removed, and before that what will be.
ALWAYS = (
    REMOVED, re.compile(r"within a day \d+ versions? (is|are) to be removed: .*; \.elephant/soon lists them$"),
    re.compile(r"the journal was made anew in [0-9.]+ seconds: \d+ bytes before, \d+ now$"),
    re.compile(r"\d+ versions? (is|are) to be removed: .*; not before .*, or at once by the line 'clean all'; \.elephant/soon lists them$"),
)
MOUNTED = re.compile(r".* is mounted, with \d+ files; 'fusermount3 -u .*' ends it$")
PREFIX = re.compile(r"elephant-mount \d{4}-\d\d-\d\dT\d\d:\d\d:\d\d[+-]\d{4}: ")
LIMITS = re.compile(r"limit +used +left +in 100|\w+ +\d+ +\d+ +\d+|removals: none for \d+ (second|minute)s? yet")


class Clock(Shifted):
    """The clocks of the machine: the time that passes, and by how much the time of day is wrong."""

    def __init__(self, room: str) -> None:
        super().__init__(room)
        self._base = START - int(time.time())
        self._passed, self.wrong = 0, 0

    def __enter__(self) -> Clock:
        super().__enter__()
        self.set_by(self._base)
        return self

    def now(self) -> int:
        """Returns the moment that it really is."""
        return int(time.time()) + self._base + self._passed

    def pass_by(self, seconds: int) -> None:
        self._passed += seconds
        super().pass_by(seconds)

    def set_wrong(self, seconds: int) -> None:
        """Sets the time of day to another one."""
        self.set_by(seconds - self.wrong)
        self.wrong = seconds


class Folder:
    """A mounted folder, what a script has saved in it, and what its log has to say."""

    def __init__(self, room: Path, policies: dict[str, Policy], ways: list[Way]) -> None:
        room.mkdir()
        self.mounted, self.caller = Mounted(room, "--clean-every", "0.2"), Caller(room / "mounted")
        self.disk, self.ledger, self.ways = Disk(), Ledger(policies), ways
        self.expected: list[re.Pattern[str]] = []
        """The lines that the log has to have, in any order."""
        self.allowed: list[re.Pattern[str]] = []
        """Lines that it may have, since a kill may come before or after a sync."""

    @property
    def top(self) -> Path:
        return self.mounted.folder

    @property
    def hidden(self) -> Path:
        return self.top / ".elephant"

    def call(self, word: str, *words: str) -> None:
        """Makes a call in the folder, and notes it."""
        self.caller.call(word, *words)
        self.disk.call(word, *words)

    def ask(self, line: str) -> str:
        return ask(str(self.top), line)

    def versions(self, name: str) -> list[str]:
        """Returns what the held versions of a name's file are. One may be removed meanwhile."""
        folder = self.hidden / "versions" / name
        found = [refusal((folder / it).read_text) for it in sorted(os.listdir(folder), key=int)]
        return [str(it) for it in found if it != "ENODATA"]

    def await_versions(self, names: list[str]) -> None:
        """Waits until the last saves of names have become versions: the kernel tells a close after it."""
        deadline = time.monotonic() + PATIENCE
        tree = self.disk.tree()
        for name in names:
            while self.versions(name)[-1:] != [tree[name]]:
                if time.monotonic() > deadline:
                    raise Fault(f"{name} has {self.versions(name)}, and its last version isn't {tree[name]!r}")
                time.sleep(0.01)

    def said(self) -> list[str]:
        return [PREFIX.sub("", it) for it in self.mounted.log().splitlines()]

    def removed(self) -> int:
        """Returns how many versions the log says were removed."""
        return sum(bool(REMOVED.match(it)) for it in self.said())


def tree_of(top: Path) -> dict[str, str]:
    """Returns what the files below a folder hold."""
    return {str(it.relative_to(top)): it.read_text() for it in top.rglob("*") if it.is_file()}


def start_all(mounts: list[Mounted]) -> None:
    """Mounts folders, which takes no longer than one of them."""
    for it in mounts:
        it.launch()
    for it in mounts:
        it.await_mount()


class Saver(threading.Thread):
    """Saves files over and over, until the mount is killed. A process that the script starts meanwhile has the file that is being saved,
    until it runs its own program: so the kernel may release that file after the next save has begun."""

    NAMES = [f"busy/b{number}" for number in range(4)]

    def __init__(self, top: Path, turn: int) -> None:
        super().__init__(daemon=True)
        self.top, self.turn = top, turn
        self.begun: tuple[str, str] = ("", "")
        self.done: list[tuple[str, str]] = []

    def run(self) -> None:
        number = 0
        try:
            while True:
                number += 1
                name, text = self.NAMES[number * 7 % 4], f"{self.turn} {number} " * (1 + number * 31 % 200)
                self.begun = name, text
                if number % 3:
                    (self.top / name).write_text(text)
                else:
                    (self.top / "busy" / "new").write_text(text)
                    (self.top / "busy" / "new").rename(self.top / name)
                self.done.append(self.begun)
        except OSError:
            pass  # the mount was killed

    def may_have(self, name: str, before: str) -> list[str]:
        """Returns what a name may hold after the kill: the last save that ended, or the one that had begun."""
        last = [text for it, text in self.done if it == name][-1:] or [before]
        return last + [text for it, text in [self.begun] if it == name]


class Week:
    """The script: what happens, and what is checked meanwhile."""

    def __init__(self, room: str, clock: Clock, seed: int) -> None:
        self.room, self.clock, self.seen = Path(room), clock, Faults(f"week of seed {seed}")
        self.drawn = random.Random(seed)
        ways = list(WAYS)
        self.drawn.shuffle(ways)
        ways.sort(key=lambda way: "pause" in way.calls)  # so that the script waits for all of these at once
        self.letters = Folder(self.room / "letters", {"": Ladder()}, ways)
        # Two names of one file have one past, which a short policy shortens by its own end: only the ladder's folder has such ways.
        short = [way for way in ways if ["link"] not in [words[:1] for words in calls_of(way)]]
        self.notes = Folder(self.room / "notes", {"": Safe(2 * DAY), "kept/": Safe(DAY, 3)}, short)
        self.both = [self.letters, self.notes]
        self._stood: Optional[int] = None
        """The moment at which the folders' time stands, if it does."""
        self._number = 0
        self.did = {"ways": 0, "undone": 0, "kills": 0, "looks": 0, "saves in a kill": 0, "jumps": 0, "contents that must be there": 0}

    # Time.

    def moment(self) -> int:
        """Returns the moment that a save gets."""
        return self.clock.now() if self._stood is None else self._stood

    def sync(self) -> None:
        """Makes the mounts look at their clocks."""
        for it in self.both:
            if it.mounted.is_running:
                it.ask("time")

    def let_pass(self, seconds: int) -> None:
        """Time passes while the machine is awake."""
        while seconds > 0:
            self.clock.pass_by(min(seconds, 30 * MINUTE))
            self.sync()
            seconds -= 30 * MINUTE

    def sleep(self, seconds: int) -> None:
        """The machine sleeps: time passes, and no program runs. The clock that waits in programs go by stands."""
        self.clock.pass_by(seconds)
        self.sync()
        self.expect(rf"the folder's time moved on by {seconds // HOUR} hours at once\. Nothing is removed for ten minutes, .*$")

    def expect(self, line: str) -> None:
        for it in self.both:
            it.expected.append(re.compile(line))

    # Saves.

    def close_step(self, is_seen: bool = True) -> None:
        """Notes what was done, at the moment that it is, and a moment after it at which nothing changes."""
        for it in self.both:
            it.await_versions(it.ledger.note(self.moment(), it.disk.tree()))
        if self._stood is None and is_seen:
            self.clock.pass_by(2)
            for it in self.both:
                it.ledger.see(self.clock.now())
        self.clock.pass_by(2)
        self.sync()

    def write(self, *names: str, is_seen: bool = True) -> None:
        """Saves new contents in both folders."""
        for it in self.both:
            for name in names:
                self._number += 1
                it.call("write", name, f"{name} {self._number} {self.drawn.randrange(10**9)}")
        self.close_step(is_seen)

    def set_up(self) -> None:
        """Mounts both folders, and saves what the ways need."""
        self.start()
        self.seen.expect("the default of notes", self.notes.ask("default / safe:172800"), "ok done\n")
        for it in self.both:
            for name in ("busy", "kept", "daily", *map(name_of, it.ways)):
                (it.top / name).mkdir()
        self.seen.expect("of a folder in it", self.notes.ask("default /kept safe:86400/3"), "ok done\n")
        self.write("diary", "kept/list", *Saver.NAMES, *(f"daily/{day}" for day in range(9)))
        for text in ("zero", "one"):
            for it in self.both:
                for way in it.ways:
                    it.call("write", f"{name_of(way)}/f", text_of(way, text))
            self.close_step()
            self.let_pass(HOUR)
        time.sleep(REST)

    def use_ways(self, count: int) -> None:
        """Saves in the next ways of each folder, and an hour later undoes each."""
        pairs = [(it, it.ways.pop()) for it in self.both for _ in range(min(count, len(it.ways)))]
        for part in range(max((len(parts_of(way)) for _, way in pairs), default=0)):
            if part:
                self.close_step()
                time.sleep(REST)
            for it, way in pairs:
                self.run_part(it, way, part)
        self.close_step()
        for it, way in pairs:
            self.check_way(it, way)
        if self._stood is None:
            self.let_pass(HOUR)
        for it, way in pairs:
            self.undo(it, f"{name_of(way)}/f", text_of(way, way.undone))
        self.close_step()

    @staticmethod
    def run_part(it: Folder, way: Way, part: int) -> None:
        """Makes the calls of a part of a way in its folder, if there is one."""
        for word, *words in chain.from_iterable(parts_of(way)[part:part + 1]):
            texts = [text_of(way, words.pop())] if word in ("write", "over", "begin") else []
            it.call(word, *(f"{name_of(way)}/{name}" for name in words), *texts)

    def check_way(self, it: Folder, way: Way) -> None:
        name = f"{name_of(way)}/f"
        wanted = tuple(text_of(way, text) for text in way.versions)
        self.seen.expect(f"the versions after: {way.name}", without_repetitions(it.versions(name)), wanted)
        if "mid" in way.versions:
            it.ledger.note_passed(self.moment(), name, text_of(way, "mid"))
        self.did["ways"] += 1

    def undo(self, it: Folder, name: str, wanted: str) -> None:
        """Undoes the last save of a file."""
        self.seen.expect(f"undo of {name}", it.ask(f"undo /{name}")[:11], "ok version ")
        it.disk.do_write(name, wanted)
        self.seen.expect(f"what undo of {name} brought back", (it.top / name).read_text(), wanted)
        self.did["undone"] += 1

    def delete(self, name: str) -> None:
        for it in self.both:
            it.call("unlink", name)
        self.close_step()

    # What happens to the machine.

    def kill(self) -> None:
        """Kills both mounts in the middle of saves, and mounts them again."""
        self.did["kills"] += 1
        savers = [Saver(it.top, self.did["kills"]) for it in self.both]
        for saver in savers:
            saver.start()
        count, deadline = self.drawn.randrange(20, 60), time.monotonic() + PATIENCE
        while min(len(saver.done) for saver in savers) < count and time.monotonic() < deadline:
            time.sleep(0.001)
        for it in self.both:
            it.mounted.kill()
        for saver in savers:
            saver.join(PATIENCE)
        self.start()
        for it, saver in zip(self.both, savers):
            it.allowed += map(re.compile, (r"/busy/\w+ was being written: .*$", r"the journal ended in the middle of a change: .*$"))
            self.adopt(it, saver)
        self.close_step()

    def adopt(self, it: Folder, saver: Saver) -> None:
        """Checks what is there after a kill, and goes on from that."""
        before = it.disk.tree()
        for name in saver.NAMES:
            found, wanted = (it.top / name).read_text(), saver.may_have(name, before[name])
            self.seen.expect(f"{name} after a kill", found in wanted, True)
            it.disk.do_write(name, found)
            it.ledger.note(self.moment(), it.disk.tree())
            for text in [text for done, text in saver.done if done == name and text != found]:
                it.ledger.note_passed(self.moment(), name, text)
            saved = {text for done, text in saver.done if done == name}
            self.seen.expect(f"the saves of {name} before a kill", saved - set(it.versions(name)), set())
        self.did["saves in a kill"] += len(saver.done)
        (it.top / "busy" / "new").unlink(missing_ok=True)

    def shut_down(self, seconds: int) -> None:
        """The machine is off. Both folders are looked at before the next start."""
        for it in self.both:
            self.seen.expect("the status of a mount", it.mounted.stop(), 0)
        self.look()
        self.clock.pass_by(seconds)

    def start(self) -> None:
        """Mounts both folders."""
        start_all([it.mounted for it in self.both])
        for it in self.both:
            it.expected.append(MOUNTED)

    @contextmanager
    def wrong_date(self, seconds: int, said: str, stands: bool = False) -> Iterator[None]:
        """The time of day is wrong for a while, and then right again."""
        self.did["jumps"] += 1
        self._stood = self.clock.now() if stands else None
        self.clock.set_wrong(seconds)
        self.sync()
        removed = [it.removed() for it in self.both]
        self.expect(rf"{said}: nothing is removed, and the folder's time doesn't follow it, .* 'time is right'$")
        yield
        for it, count in zip(self.both, removed):
            self.seen.expect(f"limits while {said}", f"clock: {said}: nothing is removed\n" in (it.hidden / "limits").read_text(), True)
            self.seen.expect(f"removals while {said}", it.removed() - count, 0)
        self.set_right()

    def set_right(self) -> None:
        self.clock.set_wrong(0)
        self._stood = None
        self.sync()
        self.expect(r"the time of day and the steady clock agree again: removals go on$")
        self.let_pass(MINUTE)
        self.close_step()

    def start_with_wrong_date(self) -> None:
        """The machine starts with a date of some days ago, somebody saves, and then it is set right. The folders' time goes on meanwhile
        where it was at the last change before."""
        self.write("diary", is_seen=False)
        self.shut_down(9 * HOUR)
        self._stood = self.both[0].ledger.saves["diary"][-1].begun
        self.clock.set_wrong(-5 * DAY)
        removed = [it.removed() for it in self.both]
        self.start()
        self.sync()
        self.expect(r"the time of day is \d days before the store's time, .*, which can't go back: nothing is removed until then; .*$")
        self.write("diary")
        self.write("diary", "kept/list")
        for it, count in zip(self.both, removed):
            self.seen.expect("removals after a start with a wrong date", it.removed() - count, 0)
            self.seen.expect("limits after it", " before the store's time: nothing is removed" in (it.hidden / "limits").read_text(), True)
        self.expect(r"the folder's time moved on by \d+ hours at once\. .*$")
        self.set_right()
        self.did["jumps"] += 1

    def look(self) -> None:
        """Looks into both journals with `--read-only`: that shows all of now and leaves no trace."""
        before = [trace(it.mounted.journal) for it in self.both]
        self.did["looks"] += len(self.both)
        glances = []
        for it in self.both:
            room = self.room / f"{it.top.parent.name} seen {self.did['looks']}"
            room.mkdir()
            glances.append(Mounted(room, "--read-only", "--clean-every", "0.2", journal=it.mounted.journal))
        try:
            start_all(glances)
            for it, glance in zip(self.both, glances):
                self.check_look(it, glance)
        finally:
            for glance in glances:
                glance.stop()
        self.seen.expect("the journals after a look", [trace(it.mounted.journal) for it in self.both] == before, True)

    def check_look(self, it: Folder, glance: Mounted) -> None:
        self.seen.expect("a look", tree_of(glance.folder), it.disk.tree())
        lacking = {name for name in it.disk.tree() if not os.listdir(glance.folder / ".elephant" / "versions" / name)}
        self.seen.expect("files without versions at a look", lacking, set())
        told = ask(str(glance.folder), "clean all"), refusal(lambda: (glance.folder / "new").write_text("new"))
        self.seen.expect("changes at a look", ("--read-only" in told[0], told[1]), (True, "EROFS"))
        said = [PREFIX.sub("", line) for line in glance.log().splitlines()]
        self.seen.expect("what a look says", [" is read-only, as of " in line for line in said], [True])

    def look_beside(self) -> None:
        """Does the same while both mounts have their journals, and do nothing."""
        times: list[int] = []
        while not times or times != [it.mounted.journal.stat().st_mtime_ns for it in self.both]:
            times = [it.mounted.journal.stat().st_mtime_ns for it in self.both]
            time.sleep(0.5)
        self.look()

    # What must be there.

    def check(self, it: Folder, now: int) -> int:
        """Checks all that was ever saved in a folder: what the policies hold at a moment is there, and nothing is there in place of
        another content. Returns how many contents aren't there."""
        gone = 0
        for name, saves in it.ledger.saves.items():
            held = set(it.versions(name)) if name in it.disk.tree() else set()
            for at, save in enumerate(saves):
                must = it.ledger.must_hold(name, at, now)
                self.did["contents that must be there"] += must
                if must and name in it.disk.tree() and self.is_of_one_file(name):
                    self.seen.expect(f"{name}: save {at} of {len(saves)} among the versions", save.content in held, True)
                for moment in dict.fromkeys(save.seen[::len(save.seen) - 1 or 1]):
                    gone += self.check_at(it, name, save.content, moment, must)
        return gone

    @staticmethod
    def is_of_one_file(name: str) -> bool:
        """Whether all saves of a name are versions of one file: not if the way to save ends its past."""
        return name.startswith(("busy/", "diary", "kept/"))

    def check_at(self, it: Folder, name: str, content: str, moment: int, must: bool) -> bool:
        """Checks what a name held at a moment. Returns whether it isn't there, as it may be."""
        found = refusal(lambda: (it.hidden / "at" / str(moment) / name).read_text())
        if not must and found in ("ENODATA", "ENOENT"):
            self.seen.made += 1
            return True
        self.seen.expect(f"{it.top.parent.name}: {name} at {moment}", found, content)
        return False

    def check_names(self, it: Folder, now: int) -> None:
        """Checks which names there were at some moments. A deleted file all of whose versions were removed leaves no name."""
        rows = it.ledger.snapshots
        for then in self.drawn.sample(rows, min(12, len(rows))):
            found = {str(path.relative_to(it.hidden / "at" / str(then.moment))) for path in self.files_at(it, then.moment)}
            lacking = {name for name in then.tree.keys() - found if it.ledger.must_show(name, then.moment, now)}
            self.seen.expect(f"names at {then.moment}", (found - then.tree.keys(), lacking), (set(), set()))

    @staticmethod
    def files_at(it: Folder, moment: int) -> Iterator[Path]:
        for place, _, names in os.walk(it.hidden / "at" / str(moment)):
            yield from (Path(place, name) for name in names)

    def check_log(self, it: Folder) -> None:
        """Checks that the log has said what it had to say, and nothing else."""
        lines, expected = it.said(), list(it.expected)
        for line in lines:
            found = next((form for form in expected if form.match(line)), None)
            if found is not None:
                expected.remove(found)
            else:
                self.seen.expect("the log", line if not any(form.match(line) for form in (*ALWAYS, *it.allowed)) else "", "")
        self.seen.expect("what the log lacks", [form.pattern for form in expected], [])
        odd = [line for line in (it.hidden / "limits").read_text().splitlines() if not LIMITS.fullmatch(line)]
        self.seen.expect("limits", odd, [])


def name_of(way: Way) -> str:
    """Returns the folder of a way."""
    return f"way{WAYS.index(way)}"


def text_of(way: Way, text: str) -> str:
    """Returns the content of a way that a text of the table stands for: no other content is the same, and all are as long."""
    return f"{text:<5} {WAYS.index(way):>2}"


def parts_of(way: Way) -> list[list[list[str]]]:
    """Returns the calls of a way, split where it pauses."""
    parts: list[list[list[str]]] = [[]]
    for words in calls_of(way):
        if words == ["pause"]:
            parts.append([])
        else:
            parts[-1].append(words)
    return parts


def run_days(it: Week) -> None:
    """The days of the week, from Monday morning to the second Monday."""
    for day in range(7):
        it.write("diary", "kept/list")
        it.delete(f"daily/{day}")
        it.use_ways(6)
        DAYS[day](it)
        it.write("diary", "kept/list")
        if day in (1, 4):  # off for the night
            it.shut_down(9 * HOUR)
            it.start()
        elif day == 5:
            it.start_with_wrong_date()
        elif day < 6:
            it.look_beside()
            it.sleep(9 * HOUR)
        it.let_pass(HOUR)


def _monday(it: Week) -> None:
    it.kill()
    it.let_pass(3 * HOUR)


def _tuesday(it: Week) -> None:
    with it.wrong_date(30 * DAY + HOUR, "the time of day jumped ahead by 30 days"):
        it.write("diary")
        it.use_ways(2)
        it.write("diary")
    it.let_pass(2 * HOUR)


def _wednesday(it: Week) -> None:
    with it.wrong_date(-2 * HOUR, "the time of day jumped back by 2 hours", stands=True):
        it.write("diary")
        it.use_ways(2)
        it.write("diary")
    it.let_pass(2 * HOUR)


def _thursday(it: Week) -> None:
    with it.wrong_date(-3 * DAY - HOUR, "the time of day jumped back by 3 days"):
        it.write("diary")
        it.let_pass(HOUR)
        it.write("diary")
    it.kill()
    it.let_pass(2 * HOUR)


def _other_day(it: Week) -> None:
    it.kill()
    it.write("diary")
    it.let_pass(3 * HOUR)


DAYS = (_monday, _tuesday, _wednesday, _thursday, _other_day, _other_day, _other_day)


def run_week_off(it: Week) -> None:
    """The machine is off for eight days. Nothing goes by the next mount, and in the day after it."""
    it.let_pass(OFFSET)
    last = it.clock.now()
    it.shut_down(8 * DAY)
    it.start()
    it.expect(r"the last change was 8 days ago, at .*; if this machine wasn't off so long, its date is wrong\. .*$")
    it.let_pass(20 * HOUR)
    time.sleep(1)
    for folder in it.both:
        it.check(folder, last)
    it.let_pass(6 * HOUR)
    it.use_ways(len(WAYS))
    it.write("diary", "kept/list")
    it.let_pass(2 * DAY + OFFSET)


def week(room: str, asked: argparse.Namespace) -> Counts:
    """A week, in which nothing is lost that the policies hold, and nothing is said that isn't so."""
    made, wrong = 0, 0
    for seed in range(asked.seed, asked.seed + (5 if asked.long else 1)):
        folder = Path(room, str(seed))
        folder.mkdir()
        seen = run(str(folder), seed)
        made, wrong = made + seen[0], wrong + seen[1]
    return made, wrong


def run(room: str, seed: int) -> Counts:
    """Plays the script of a seed."""
    with Clock(room) as clock:
        it = Week(room, clock, seed)
        try:
            it.set_up()
            run_days(it)
            run_week_off(it)
            check_end(it)
        finally:
            for folder in it.both:
                folder.mounted.stop()
    return it.seen.counts()


def check_end(it: Week) -> None:
    """Checks what must be there at the end, what was said, and that the script did as much as it should."""
    gone = await_removal(it)
    for folder in it.both:
        it.check_names(folder, it.clock.now())
        it.check_log(folder)
    removed = sum(folder.removed() for folder in it.both)
    told = ", ".join(f"{count} {what}" for what, count in it.did.items())
    print(f"mount: {it.seen.name}: {told}, {removed} versions removed, {gone} contents gone")
    least = {"ways": 70, "undone": 70, "kills": 5, "looks": 14, "saves in a kill": 200, "jumps": 4}
    least["contents that must be there"] = 500
    it.seen.expect("too little", {what: it.did[what] for what in least if it.did[what] < least[what]}, {})
    it.seen.expect("removed and gone", (removed > 50, gone > 50), (True, True))


def await_removal(it: Week) -> int:
    """Waits until the mounts have removed what is due, and checks what must be there. Returns how many contents are gone."""
    deadline, before = time.monotonic() + PATIENCE, -1
    while time.monotonic() < deadline:
        removed = sum(folder.removed() for folder in it.both)
        if removed == before:
            break
        before = removed
        time.sleep(1)
    return sum(it.check(folder, it.clock.now()) for folder in it.both)


CHECKS = [week]
