"""What a mounted folder removes by itself: nothing by a look into an old journal, by a wrong clock, or at once after a week off."""

from __future__ import annotations

import argparse
import os
import time
from pathlib import Path

from mount.mounts import Counts, Mounted
from mount.past import Faults
from mount.programs import next_second

DAY, VARIABLE = 86_400, "ELEPHANT_CLOCK"
# How long a mount that cleans each second gets to remove something, in seconds.
LONG_ENOUGH = 4
ALL = ["1", "2", "3", "4"]


class Shifted:
    """The clocks of the mounts within a `with` block, which a check shifts."""

    def __init__(self, room: str) -> None:
        self._file = Path(room, "shifts")
        self._day = self._steady = 0

    def __enter__(self) -> Shifted:
        self.pass_by(0)
        os.environ[VARIABLE] = str(self._file)
        return self

    def __exit__(self, *_: object) -> None:
        del os.environ[VARIABLE]

    def pass_by(self, seconds: int) -> None:
        """Time passes, also while the machine is off."""
        self._steady += seconds
        self.set_by(seconds)

    def set_by(self, seconds: int) -> None:
        """Somebody sets the time of day."""
        self._day += seconds
        new = self._file.with_suffix(".new")
        new.write_text(f"{self._day} {self._steady}\n")
        new.rename(self._file)


def fill(mounted: Mounted) -> int:
    """Saves a diary of three versions, and deletes a letter. Both stay for a week."""
    mounted.ask("default", "/", "safe:604800/1")
    (mounted.folder / "letter").write_text("Dear Ms Weber")
    for text in ("one", "two", "three"):
        (mounted.folder / "diary").write_text(text)
        next_second()
    (mounted.folder / "letter").unlink()
    return next_second()


def held(mounted: Mounted) -> tuple[list[str], list[str]]:
    """Returns the numbers of the versions of the diary, and the deleted files."""
    hidden = mounted.folder / ".elephant"
    return sorted(os.listdir(hidden / "versions" / "diary"), key=int), os.listdir(hidden / "restorable")


def looking(room: str, asked: argparse.Namespace) -> Counts:
    """A look into a journal weeks later, or after a week off, removes nothing."""
    seen = Faults("looking")
    with Shifted(room) as clocks:
        with Mounted(room, "--clean-every", "1") as mounted:
            fill(mounted)
        for weeks in (2, 3):
            clocks.pass_by(7 * DAY * weeks)
            with Mounted(room, "--clean-every", "1") as mounted:
                time.sleep(LONG_ENOUGH)
                seen.expect(f"a look {weeks} weeks later", held(mounted), (ALL, ["letter"]))
                seen.expect("its log", "the last change was" in mounted.log() and "clean all" in mounted.log(), True)
                seen.expect("undo of the deleted file", mounted.ask("undo", "letter")[:12], f"ok version {weeks + 1}")
                (mounted.folder / "letter").unlink()
                rewritten = mounted.ask("rewrite")
                seen.expect("a rewrite", rewritten[:11], "ok journal ")
        clocks.pass_by(8 * DAY)
        with Mounted(room, "--clean-every", "1", "--no-guard") as mounted:
            time.sleep(LONG_ENOUGH)
            seen.expect("what goes without a guard", held(mounted), (["4"], []))
    return seen.counts()


def clocks(room: str, asked: argparse.Namespace) -> Counts:
    """A clock that is a month ahead for some seconds, back, or wrong at the mount removes nothing, and moves no moment."""
    seen = Faults("clocks")
    with Shifted(room) as false, Mounted(room, "--clean-every", "1", "--no-guard") as mounted:
        moment, diary = fill(mounted), mounted.folder / "diary"
        for days in (30, -30, 1, -1):
            false.set_by(days * DAY)
            time.sleep(LONG_ENOUGH)
            seen.expect(f"{days} days ahead", held(mounted), (ALL, ["letter"]))
            way, span = "ahead" if days > 0 else "back", "1 day" if abs(days) == 1 else "30 days"
            seen.expect("the log", f"jumped {way} by {span}: nothing is removed" in mounted.log(), True)
            seen.expect("limits", f"jumped {way}" in (mounted.folder / ".elephant" / "limits").read_text(), True)
            seen.expect("clean all", "time is right" in mounted.ask("clean all"), True)
            false.set_by(-days * DAY)
            time.sleep(2)
        seen.expect("limits afterwards", "clock" in (mounted.folder / ".elephant" / "limits").read_text(), False)
        diary.write_text("four")
        saved = next_second()
        versions = mounted.folder / ".elephant" / "versions" / "diary"
        seen.expect("a save afterwards", abs((versions / "5").stat().st_mtime - saved) < 5, True)
        seen.expect("at its moment", (mounted.folder / ".elephant" / "at" / str(saved) / "diary").read_text(), "four")
        seen.expect("undo to a moment", mounted.ask("undo", "diary", f"@{moment - 1}")[:12], "ok version 6")
        seen.expect("what it holds", diary.read_text(), "three")
        seen.expect("undo to the save afterwards", mounted.ask("undo", "diary", f"@{saved}")[:12], "ok version 7")
        seen.expect("what it holds", diary.read_text(), "four")
        false.set_by(8 * DAY)
        seen.expect("a user who says so", "the clocks agree" in mounted.ask("time is right"), True)
        time.sleep(LONG_ENOUGH)
        seen.expect("what is due then", held(mounted), (["7"], []))
        seen.expect("the log", "a user said that the time of day is right" in mounted.log(), True)
    return seen.counts()


def announcing(room: str, asked: argparse.Namespace) -> Counts:
    """What goes within a week is listed, and so is until when deleted files stay."""
    seen = Faults("announcing")
    with Shifted(room) as false, Mounted(room, "--clean-every", "1") as mounted:
        fill(mounted)
        hidden = mounted.folder / ".elephant"
        listed = (hidden / "soon").read_text()
        seen.expect("what goes soon", [it in listed for it in ("version 3 of /diary: 7 days", "deleted /letter")], [True] * 2)
        seen.expect("until when", "/letter\n" in (hidden / "restorable-until").read_text(), True)
        false.pass_by(8 * DAY)
        time.sleep(LONG_ENOUGH)
        seen.expect("what waits", (held(mounted), ", due since " in (hidden / "soon").read_text()), ((ALL, ["letter"]), True))
        log = mounted.log()
        seen.expect("the log", "moved on by 8 days at once" in log and "2 of deleted /letter, 3 of /diary" in log, True)
        seen.expect("what a user removes", (mounted.ask("clean all"), held(mounted)), ("ok removed 5\n", (["4"], [])))
    return seen.counts()


CHECKS = [looking, clocks, announcing]
