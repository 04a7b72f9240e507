"""The lines of a mount that people type: marks, policies, undo and redo, the story of a file, changes, the moments, and an audit. Without a
kernel, by a clock that a test moves. It needs pyfuse3."""

from __future__ import annotations

import contextlib
import errno
import io
import json
import tempfile
import unittest
from collections.abc import Iterator
from pathlib import Path
from typing import Any, Optional
from unittest import mock

try:
    import pyfuse3  # noqa: F401
except ImportError:
    raise unittest.SkipTest("there is no pyfuse3 for this Python") from None

from anew import make_anew
from clocks import DAY, START, FalseClocks
from elephant import Limits
from elephant.mount import client, main
from elephant.mount.ages import Ages
from elephant.mount.audit import NO_HISTORY, Audit
from elephant.mount.control import Lines
from elephant.mount.operations import Operations
from elephant.mount.past import NotBegun, PastNode
from elephant.mount.reasons import UNITS
from elephant.mount.store import MountStore
from test_mount import FOLDER, MEMORY, Mounted
from test_mount_typed import Berlin
from test_removal import Said

HOUR = 3600


def told(moment: int) -> str:
    """Returns how the log tells a moment of 2026-11-29 and the days after it in Berlin, which is an hour ahead of UTC then."""
    seconds = moment - (START - 9 * HOUR) + HOUR
    day, rest = divmod(seconds, DAY)
    return f"2026-{'11-%02d' % (29 + day) if day < 2 else '12-%02d' % (day - 1)} {rest // HOUR:02}:{rest % HOUR // 60:02}:{rest % 60:02}"


class Case(Berlin):
    has_history = False

    def setUp(self) -> None:
        super().setUp()
        room = tempfile.TemporaryDirectory(dir=MEMORY)
        self.addCleanup(room.cleanup)
        self.journal = Path(room.name, "journal")
        self.clocks, self.log = FalseClocks(), Said()
        self._mounted: Optional[Mounted] = None
        self.mount()

    @property
    def it(self) -> Mounted:
        assert self._mounted is not None
        return self._mounted

    def mount(self, journal: Optional[Path] = None) -> None:
        if self._mounted is not None:
            self._mounted.close()
        self._mounted = it = Mounted(journal or self.journal, clock=self.clocks)
        self.addCleanup(it.store.close)
        self.operations = Operations(it.store, it.tree, it.contents, it.naming, it.past, self.log)
        self.lines = Lines(self.operations, Audit(it.store, Limits(), self.has_history))
        self.addCleanup(self.lines.audit.close)

    def ask(self, line: str) -> str:
        return self.lines.answer(line)[0]

    def save(self, name: bytes, *texts: bytes, seconds: int = 10) -> int:
        """Saves contents, each followed by a pause. Returns the moment of the last save."""
        for text in texts:
            self.it.save(name, text)
            self.clocks.pass_by(seconds)
        return int(self.clocks.day) - seconds

    def again(self) -> None:
        """Mounts the journal again, and then one that was made anew of it."""
        self.mount()
        self.it.close()
        new = self.journal.with_name("new")
        make_anew(self.journal, new)
        self.mount(new)


class Marking(Case):
    def test_a_mark_takes_local_times_and_says_what_it_holds(self) -> None:
        first = self.save(b"f", b"one", b"two") - 10
        self.save(b"g", b"one")
        self.assertEqual(first, START)
        for line in ("group make legal", "group add legal /f", "group add legal /g"):
            self.assertEqual(self.ask(line), "ok done\n")
        self.clocks.pass_by(HOUR)
        self.assertEqual(
            self.ask("mark legal 2026-11-29 10:00:05"),
            "ok done: it holds 1 version of 1 of the group's 2 files, as of 2026-11-29 10:00:05 +01:00, for good\n",
        )
        self.assertEqual(
            self.ask("mark legal '2026-11-29 10:00:25' until 2026-12-24"),
            "ok done: it holds 2 versions of 2 of the group's 2 files, as of 2026-11-29 10:00:25 +01:00, "
            "until 2026-12-24 00:00:00 +01:00\n",
        )
        marks = [(int(it.at), it.until) for it in self.it.store.groups()[0].marks]
        self.assertEqual(marks, [(START + 5, None), (START + 25, START - 10 * HOUR + 25 * DAY)])
        self.assertEqual(self.ask("unmark legal 2026-11-29 10:00:05"), "ok done\n")
        self.assertEqual(len(self.it.store.groups()[0].marks), 1)
        self.assertEqual(self.ask("unmark legal 2026-11-29 10:00:05"), "no 22 NoMark\n")

    def test_a_mark_that_holds_nothing_says_so(self) -> None:
        self.save(b"f", b"one")
        self.ask("group make g")
        self.assertIn("ok done: it holds nothing: the group has no files, as of", self.ask("mark g 2026-11-29 10:00"))
        self.ask("group add g /f")
        # Five hours too early, as of the zone: there was no file.
        answer = self.ask("mark g 2026-11-29T05:00:00Z")
        self.assertIn("ok done: it holds nothing: no file of the group, which has 1, has a version of then", answer)
        self.assertIn("'soon' is no time", self.ask("mark g soon"))
        self.assertEqual(self.ask("mark h 2026-11-29 10:00"), "no 20 NoGroup\n")

    def test_a_deleted_file_and_a_removed_version(self) -> None:
        self.save(b"f", b"one", b"two")
        for line in ("group make g", "group add g /f", "policy /f one"):
            self.ask(line)
        self.it.naming.unlink(self.it.top, b"f")
        self.it.top.left.clear()
        self.assertIn("it holds 1 version of 1 of the group's 1 file", self.ask(f"mark g {START + 15}"))
        while self.it.store.clean():
            pass
        self.assertIn("it holds nothing", self.ask(f"mark g {START + 5}"))


class Policies(Case):
    def policy(self, path: str = "/f") -> str:
        found: Any = self.it.store.stat(path)
        return str(found.policy if hasattr(found, "policy") else found.default)

    def test_units(self) -> None:
        self.save(b"f", b"one")
        for word, wanted in (("safe:30d/3", "safe:2592000/3"), ("landmarks:7d/1h,30d/1d", "landmarks:604800/3600,2592000/86400"),
                             ("standard", "landmarks:86400/3600,604800/86400,2592000/604800"), ("safe:60", "safe:60")):
            self.assertEqual((self.ask(f"policy /f {word}"), self.policy()), ("ok done\n", wanted))
        self.assertEqual((self.ask("default / safe:1h"), self.policy("/")), ("ok done\n", "safe:3600"))

    def test_why_a_line_is_bad(self) -> None:
        self.save(b"f", b"one")
        for line, wanted in (
            ("policy /f safe:07d",
             "bad 32 Syntax\n- word 3: a policy is one, all, safe:SECONDS, safe:SECONDS/FLOOR or landmarks:AGE/WIDTH,..\n"
             f"- {UNITS}\n"),
            ("policy /f landmarks:7d/1d,30d/30d,365d/365d",
             "bad 31 BadLadder\n- word 3: each width of a ladder divides the next, as 60 divides 3600\n"),
            ("policy f one", "bad 29 BadPath\n- word 2: a path begins with a slash\n"),
            ("ls /", "bad 32 Syntax\n- word 1: the command for this is list\n"),
            ("policy /f one two",
             "bad 32 Syntax\n- number of words: the command takes a path and a policy, and a name has no space: write %20\n"),
            ("create /x@y", "bad 28 BadName\n- word 2: a name has no @ and no #\n"),
        ):
            self.assertEqual(self.ask(line), wanted, line)

    def test_ahead_takes_a_time(self) -> None:
        self.save(b"f", b"one")
        self.save(b"f", b"two")
        self.ask("policy /f safe:1h")
        self.assertEqual(self.ask("ahead 2026-11-29 10:30"), "ok ahead 0\n")
        self.assertEqual(self.ask("ahead 2026-12-01").splitlines()[0], "ok ahead 2")

    def test_expiring_takes_a_time_and_has_the_path(self) -> None:
        self.save(b"f", b"one")
        self.save(b"f", b"two")
        self.ask("policy /f safe:1h")
        self.assertEqual(self.ask("expiring 2026-11-29 10:30"), "ok expiring 0\n")
        rows = self.ask("expiring 2026-12-01").splitlines()
        self.assertEqual([rows[0], *(it.split()[2:] for it in rows[1:])], ["ok expiring 2", ["1", "1", "/f", "-"], ["1", "2", "/f", "-"]])


class Undoing(Case):
    def held(self) -> bytes:
        return self.it.read(b"f")

    def walk(self, *words: str) -> Iterator[tuple[str, bytes]]:
        """Yields the first words of each answer, and what the file then holds."""
        for word in words:
            answer = self.ask(f"{word} /f")
            self.clocks.pass_by(10)
            yield answer.partition(", saved")[0].strip(), self.held()

    def test_undo_goes_further_back_and_redo_forward(self) -> None:
        self.save(b"f", b"one", b"two", b"three")
        self.assertEqual(list(self.walk("undo", "undo", "redo", "undo", "redo", "redo")), [
            ("ok version 5: what version 3 held", b"two"), ("ok version 6: what version 2 held", b"one"),
            ("ok version 7: what version 3 held", b"two"), ("ok version 8: what version 2 held", b"one"),
            ("ok version 9: what version 3 held", b"two"), ("ok version 10: what version 4 held", b"three"),
        ])
        self.assertRegex(self.ask("redo /f"), "^no: f is as it was saved last: there is nothing to redo")

    def test_the_ends_of_undo_and_redo_say_so_and_change_nothing(self) -> None:
        self.save(b"f", b"one", b"two")
        self.assertRegex(self.ask("redo /f"), "^no: f is as it was saved last: there is nothing to redo")
        self.assertEqual([it for _, it in self.walk("undo")], [b"one"])
        self.assertRegex(self.ask("undo /f"), "^no: f held nothing else before: redo goes forward again")
        self.assertEqual(len(self.it.versions(b"f")), 4)
        self.assertRegex(self.ask("redo /g"), "^no: redo is for a file or a folder, and there is no g now")
        self.assertIn("redo takes a file", self.ask("redo /f 10:00"))

    def test_saves_that_changed_nothing_are_passed_over_in_both_directions(self) -> None:
        self.save(b"f", b"one", b"two", b"two", b"three")
        self.assertEqual([it for _, it in self.walk("undo", "undo", "redo", "redo")], [b"two", b"one", b"two", b"three"])

    def test_a_save_after_an_undo_is_undone_first_and_what_was_undone_is_passed_over(self) -> None:
        self.save(b"f", b"one", b"two", b"three")
        self.assertEqual([it for _, it in self.walk("undo", "undo")], [b"two", b"one"])
        self.save(b"f", b"four")
        self.assertRegex(self.ask("redo /f"), "^no: f is as it was saved last")
        self.assertEqual([it for _, it in self.walk("undo")], [b"one"])
        self.assertRegex(self.ask("undo /f"), "^no: f held nothing else before")
        self.assertEqual([it for _, it in self.walk("redo")], [b"four"])

    def test_undo_goes_on_in_earlier_files_and_redo_comes_back(self) -> None:
        self.save(b"f", b"old", b"older")
        self.it.naming.unlink(self.it.top, b"f")
        self.it.top.left.clear()
        self.clocks.pass_by(10)
        self.save(b"f", b"new", b"newer")
        self.assertEqual([it for _, it in self.walk("undo", "undo", "undo", "redo", "redo", "redo")],
                         [b"new", b"older", b"old", b"older", b"new", b"newer"])

    def test_it_goes_on_after_another_mount_and_in_a_journal_that_was_made_anew(self) -> None:
        self.save(b"f", b"one", b"two", b"three")
        self.assertEqual([it for _, it in self.walk("undo")], [b"two"])
        self.again()
        self.assertEqual([it for _, it in self.walk("undo", "redo", "redo")], [b"one", b"two", b"three"])

    def test_an_undo_to_a_moment_or_a_version_is_taken_back_by_undo(self) -> None:
        self.save(b"f", b"one", b"two", b"three")
        self.assertRegex(self.ask("undo /f #2"), r"^ok version 5: what version 2 held, saved 2026-11-29 10:00:00 \+01:00\n$")
        self.assertEqual(self.held(), b"one")
        self.clocks.pass_by(10)
        self.assertEqual([it for _, it in self.walk("undo", "undo", "redo", "redo")], [b"three", b"two", b"three", b"one"])
        self.ask("undo /f 2026-11-29 10:00:15")
        self.assertEqual((self.held(), [it for _, it in self.walk("undo")]), (b"two", [b"one"]))

    def test_versions_by_their_number(self) -> None:
        self.save(b"f", b"one", b"two")
        self.assertRegex(self.ask("undo --dry-run /f #2"), "^ok would make a version of what version 2 held, saved ")
        self.assertEqual(len(self.it.versions(b"f")), 3)
        self.assertRegex(self.ask("undo /f #1"), "^ok version 4: what version 1 held")
        self.assertEqual(self.held(), b"")
        self.assertEqual(self.ask("undo /f #9"), "no: f has no version 9: its newest is 4\n")
        self.assertEqual(self.ask("undo /f #0"), "no: f has no version 0: its newest is 4\n")
        self.assertEqual(self.ask("undo /g #2"), "no: g is no file now, and #2 is a version of a file\n")
        self.ask("policy /f one")
        while self.it.store.clean():
            pass
        self.assertRegex(self.ask("undo /f #2"), "^no: version 2 of f, which it held before, was removed by its policy: none is held")
        node = self.it.open(self.it.file(b"f"))
        for line in ("undo /f #4", "redo /f"):
            self.assertRegex(self.ask(line), "^elephant-mount: a program has the file open")
        self.it.contents.closed(node, True)

    def test_undo_and_redo_of_a_folder_and_of_the_top(self) -> None:
        for path, name in (("/", b"f"), ("/d", b"g")):
            folder = self.it.naming.mkdir(self.it.top, b"d", FOLDER, 0, 0) if path == "/d" else self.it.top
            for text in (b"one", b"two", b"three"):
                self.it.save(name, text, folder)
                self.clocks.pass_by(10)
            self.it.naming.rename(folder, name, folder, b"new", 0)
            self.clocks.pass_by(10)
            found = []
            for word in ("undo", "undo --dry-run", "undo", "undo", "redo", "redo", "redo"):
                answer = self.ask(f"{word} {path}")
                self.clocks.pass_by(10)
                self.assertEqual(answer[:3], "ok ", answer)
                found += [(it, self.it.contents.whole(self.it.file(it, folder))) for it in folder.children if it in (name, b"new")]
            self.assertEqual(found, [
                (name, b"three"), (name, b"three"), (name, b"two"), (name, b"one"), (name, b"two"), (name, b"three"), (b"new", b"three"),
            ])
            self.assertRegex(self.ask(f"redo {path}"), "^no: .* is as it was changed last: there is nothing to redo")
            self.it.naming.unlink(folder, b"new")
            folder.left.clear()
            self.clocks.pass_by(10)

    def test_a_moment_before_the_folder_begins(self) -> None:
        self.save(b"f", b"one")
        begins = r"this folder begins at 2026-11-29 10:00:00 \+01:00"
        self.assertRegex(self.ask("undo /f 2026-11-29 09:59"), f"^no: there was nothing at 2026-11-29 09:59:00 .*: {begins}\n$")
        self.assertRegex(self.ask("undo /f 1"), f"{begins}; version 1 of a file is '#1'\n$")


class Telling(Case):
    def rows(self, path: str) -> list[dict[str, Any]]:
        answer = self.ask(f"history {path} --json")
        self.assertEqual(answer[:3], "ok\n")
        found: dict[str, Any] = json.loads(answer[3:])
        rows: list[dict[str, Any]] = found["versions"]
        return rows

    def test_a_file_with_each_fate(self) -> None:
        self.save(b"f", b"one", b"two" * 500, b"three", b"four")
        for line in ("policy /f safe:1h", "group make legal", "group add legal /f", "mark legal 2026-11-29 10:00:15 until 2026-12-01",
                     f"mark legal {START + 25}"):
            self.assertRegex(self.ask(line), "^ok")
        with self.assertRaises(AssertionError):
            self.assertRegex(self.ask("history /f"), "due since")
        self.clocks.pass_by(2 * HOUR)
        self.save(b"f", b"five")
        self.assertEqual(self.it.store.clean(), (START + HOUR, 1, 1))
        day = "2026-11-29"
        self.assertEqual(self.ask("history /f").splitlines(), [
            "ok f: 6 versions, 5 of them held; policy safe:3600",
            "version  saved                ended                    bytes",
            f"      1  -                    -                            -  removed {day} 12:00:50, due since {day} 11:00:00",
            f"      2  {day} 10:00:00  {day} 10:00:10          3  due since {day} 11:00:10: 1 hour after its end",
            f"      3  {day} 10:00:10  {day} 10:00:20      1,500  kept until 2026-12-01 00:00:00 by the mark legal of {day} 10:00:15",
            f"      4  {day} 10:00:20  {day} 10:00:30          5  kept for good by the mark legal of {day} 10:00:25",
            f"      5  {day} 10:00:30  {day} 12:00:40          4  kept until {day} 13:00:40: 1 hour after its end",
            f"      6  {day} 12:00:40  -                            4  current",
        ])
        self.again()
        fates = [it["fate"] for it in self.rows("/f")]
        self.assertEqual(fates, [
            {"is": "removed", "moment": "2026-11-29T11:00:50Z", "since": "2026-11-29T10:00:00Z", "cause": None},
            {"is": "due", "since": "2026-11-29T10:00:10Z", "cause": "1 hour after its end"},
            {"is": "marked", "group": "legal", "at": "2026-11-29T09:00:15Z", "until": "2026-11-30T23:00:00Z"},
            {"is": "marked", "group": "legal", "at": "2026-11-29T09:00:25Z", "until": None},
            {"is": "kept", "until": "2026-11-29T12:00:40Z", "policy": "safe:3600"},
            {"is": "current"},
        ])

    def test_a_reader_a_floor_a_ladder_and_all(self) -> None:
        self.save(b"f", b"one", b"two", b"three")
        for policy, wanted in (("safe:1h/3", "kept for good: one of the newest 3"), ("all", "kept for good: its policy keeps all")):
            self.ask(f"policy /f {policy}")
            self.assertIn(wanted, self.ask("history /f").splitlines()[4])
        self.ask("policy /f landmarks:1h/1h")
        self.assertRegex(self.ask("history /f").splitlines()[4], "kept until .*: a newer one was saved in the same hour$")
        self.ask("policy /f one")
        handle = self.it.store.drafts.open_reader(b"/f", 2, 2)
        self.assertIn("kept while a program reads it", self.ask("history /f").splitlines()[3])
        self.assertIn(": its policy keeps only the newest", self.ask("history /f").splitlines()[4])
        self.it.store.drafts.close(handle)

    def test_names_and_a_deleted_file(self) -> None:
        self.save(b"f", b"one")
        folder = self.it.naming.mkdir(self.it.top, b"my d", FOLDER, 0, 0)
        self.assertNotIn("\nname ", self.ask("history /f"))
        self.it.naming.rename(self.it.top, b"f", folder, b"g", 0)
        self.clocks.pass_by(10)
        self.it.naming.rename(self.it.top, b"my d", self.it.top, b"e", 0)
        self.clocks.pass_by(10)
        names = f"\nname f until {told(START + 10)}\nname e/g now\n"
        self.assertTrue(self.ask("history /e/g").endswith(names), self.ask("history /e/g"))
        self.it.naming.unlink(folder, b"g")
        folder.left.clear()
        self.ask("policy /e/g all")
        answer = self.ask("history /e/g").splitlines()
        self.assertRegex(answer[0], "^ok deleted e/g: 2 versions, 2 of them held; policy landmarks:")
        self.assertRegex(answer[3], rf"^      2  {told(START)}  {told(START + 30)}          3  kept for good: the newest of its week$")
        self.assertEqual(answer[4:], [f"name f until {told(START + 10)}", f"name e/g until {told(START + 30)}"])
        self.assertEqual([it["fate"]["is"] for it in self.rows("/e/g")], ["kept", "kept"])

    def test_names_that_lines_end(self) -> None:
        self.save(b"f", b"one")
        self.ask("unlink /f")
        self.clocks.pass_by(10)
        self.assertRegex(self.ask("history /f"), "^ok deleted f: 2 versions")
        self.assertRegex(self.ask("undo /f"), r"^ok version 3: what it held when it was deleted, 2026-11-29 10:00:10 \+01:00\n$")
        for line in ("rename /f /g", "rename /f /h", "unlink /f", "rmdir f", "unlink", "unlink /g/x", "unlink /a//b"):
            self.assertEqual(self.ask(line) == "ok done\n", line == "rename /f /g", line)
        names = f"\nname f until {told(START + 10)}\nname f until {told(START + 20)}\nname g now\n"
        self.assertTrue(self.ask("history /g").endswith(names))
        self.again()
        self.assertTrue(self.ask("history /g").endswith(names))

    def test_what_has_no_story(self) -> None:
        self.it.naming.mkdir(self.it.top, b"d", FOLDER, 0, 0)
        self.assertRegex(self.ask("history /d"), "^no: d is a folder")
        self.assertEqual(self.ask("history /f"), "no: there is no file f, and none was deleted\n")
        for line in ("history f", "history --json", "history /f --all", "history /f /g"):
            self.assertIn("history takes a file, and --json", self.ask(line))

    def test_removals_are_told_of_each_kind_of_line_and_after_another_mount(self) -> None:
        self.save(b"f", b"one", b"two", b"three", b"four")
        self.ask("policy /f safe:1h")
        self.clocks.pass_by(DAY)
        now = int(self.clocks.day)
        self.assertEqual(self.ask("clean"), f"ok removed {START + HOUR} 1 1\n")
        self.assertEqual(self.ask("pass 2"), "ok pass budget 2\n")
        self.assertEqual(self.ask("pass 9"), "ok pass finished 1\n")
        self.assertEqual(self.ask("clean"), "ok nothing\n")
        wanted = {1: (now, START + HOUR), 2: (now, START + 10 + HOUR), 3: (now, START + 20 + HOUR), 4: (now, START + 30 + HOUR)}
        self.assertEqual(self.it.store.removals.of(1), wanted)
        self.again()
        self.assertEqual(self.it.store.removals.of(1), wanted)
        hint = "- a mount with --history says why\n"
        removed = f"no 13 Forgotten -\n- removed {told(now)}, due since {told(START + 20 + HOUR)}\n{hint}"
        for line in ("why /f 3", "why /f #3", "why /f#3"):
            self.assertEqual(self.ask(line), removed, line)
        self.assertEqual(self.ask(f"why /f@{START + 15}"), f"no 13 Forgotten -\n{hint}")


class Listing(Case):
    def at(self) -> PastNode:
        return self.it.past.find(self.it.past.root, b"at")

    def names(self) -> list[bytes]:
        return self.it.past.names(self.at())

    def test_the_moments_at_which_something_changed(self) -> None:
        """A reader, a policy, a mark and a removal change no name and no content."""
        self.save(b"f", b"one", b"two")
        self.it.naming.mkdir(self.it.top, b"d", FOLDER, 0, 0)
        self.clocks.pass_by(10)
        self.it.store.drafts.close(self.it.store.drafts.open_reader(b"/f", 2, 2))
        self.ask("policy /f one")
        self.clocks.pass_by(10)
        self.it.store.clean()
        self.clocks.pass_by(10)
        self.it.naming.rename(self.it.top, b"f", self.it.top, b"g", 0)
        self.clocks.pass_by(10)
        self.it.naming.unlink(self.it.top, b"g")
        self.clocks.pass_by(10)
        wanted = [b"2026-11-29T10:00:%02d+01:00" % it for it in (0, 10, 20, 50)] + [b"2026-11-29T10:01:00+01:00"]
        self.assertEqual(self.names(), wanted)
        for name, held in zip(wanted, ([b"f"], [b"f"], [b"d", b"f"], [b"d", b"g"], [b"d"])):
            self.assertEqual(sorted(self.it.past.names(self.it.past.lookup(self.at(), name))), held)
        self.again()
        self.assertEqual(self.names(), wanted)

    def test_a_draft_that_was_synced_is_no_change_before_it_is_a_version(self) -> None:
        node = self.it.make(b"f")
        self.clocks.pass_by(10)
        self.it.open(node)
        self.it.contents.write(node, 0, b"one")
        self.it.contents.save(node)
        self.clocks.pass_by(10)
        self.assertEqual(self.names(), [b"2026-11-29T10:00:00+01:00"])
        self.it.contents.closed(node, True)
        wanted = [b"2026-11-29T10:00:00+01:00", b"2026-11-29T10:00:20+01:00"]
        self.assertEqual(self.names(), wanted)
        self.mount()
        self.assertEqual(self.names(), wanted)

    def test_a_moment_before_the_folder_begins_is_refused_and_told(self) -> None:
        self.assertEqual(self.it.past.names(self.it.past.lookup(self.at(), b"1999-01-01")), [])  # nothing begins yet
        self.save(b"f", b"one")
        with self.assertRaises(NotBegun) as caught:
            self.it.past.lookup(self.at(), b"2026-11-29 09:59:59")
        self.assertEqual(self.operations.errno_of(caught.exception), errno.ENOENT)
        self.assertTrue(self.log.has("there was nothing at 2026-11-29 09:59:59 +01:00: this folder begins at 2026-11-29 10:00:00 +01:00"))
        self.assertEqual(self.it.past.names(self.it.past.lookup(self.at(), b"2026-11-29 10:00")), [b"f"])

    def test_an_older_journal_has_its_moments_too(self) -> None:
        self.save(b"f", b"one")
        self.it.close()
        old, self.journal = self.journal, self.journal.with_name("newer")
        self.clocks.pass_by(DAY)
        self._mounted = None
        self.mount()
        self.save(b"g", b"one")
        older = MountStore(str(old), read_only=True)
        self.addCleanup(older.close)
        self.it.past = Ages(self.it.store, self.it.tree, b"", [older])
        self.assertEqual(self.names(), [b"2026-11-29T10:00:00+01:00", b"2026-11-30T10:00:10+01:00"])
        self.assertEqual(self.it.past.begin, START)


class Changing(Case):
    def test_each_kind_of_change(self) -> None:
        it = self.it
        d = it.naming.mkdir(it.top, b"d", FOLDER, 0, 0)
        for name in (b"saved", b"moved", b"lost", b"same"):
            it.save(name, b"one", d)
        it.save(b"back", b"one", d)
        it.naming.unlink(d, b"back")
        d.left.clear()
        self.clocks.pass_by(60)
        first = int(self.clocks.day) - 1
        it.save(b"saved", b"two", d)
        self.clocks.pass_by(10)
        it.save(b"saved", b"three", d)
        it.naming.rename(d, b"moved", it.top, b"here", 0)
        self.clocks.pass_by(10)
        it.naming.unlink(d, b"lost")
        d.left.clear()
        self.assertRegex(self.ask("undo /d/back"), "^ok")
        it.save(b"fresh", b"one", d)
        self.clocks.pass_by(10)
        begin = first + 1
        rows = [
            f"{told(begin + 20)}  brought back  d/back", f"{told(begin + 20)}  made          d/fresh",
            f"{told(begin + 20)}  deleted       d/lost", f"{told(begin + 10)}  saved         d/saved, version 4 after 2",
            f"{told(begin + 10)}  renamed       here, before d/moved",
        ]
        head = "from 2026-11-29 10:00:59 +01:00 to 2026-11-29 10:01:30 +01:00: 1 made, 1 saved, 1 renamed, 1 deleted, 1 brought back"
        self.assertEqual(self.ask(f"changes {first} now"), "\n".join([f"ok / {head}", *rows, ""]))
        self.assertEqual(self.ask("changes now 2026-11-29 10:00:59 /d").splitlines()[1:], rows)
        self.assertEqual(self.ask(f"changes {first} now /d/saved").splitlines()[1:], rows[3:4])
        self.assertEqual(self.ask(f"changes {begin + 20} now").splitlines(), [
            "ok / from 2026-11-29 10:01:20 +01:00 to 2026-11-29 10:01:30 +01:00: nothing"])
        data = json.loads(self.ask(f"changes {first} now /here --json")[3:])
        self.assertEqual(data, [
            {"what": "renamed", "path": "here", "moment": "2026-11-29T09:01:10Z", "before": "d/moved", "versions": None}])

    def test_a_folder_that_was_renamed_is_one_change(self) -> None:
        it = self.it
        d = it.naming.mkdir(it.top, b"d", FOLDER, 0, 0)
        it.save(b"f", b"one", d)
        self.clocks.pass_by(10)
        it.naming.rename(it.top, b"d", it.top, b"e", 0)
        self.clocks.pass_by(10)
        answer = self.ask(f"changes {START} now").splitlines()
        self.assertEqual(answer[1:], [f"{told(START + 10)}  renamed       e, before d"])

    def test_a_removed_version(self) -> None:
        self.save(b"f", b"one", b"two")
        self.ask("policy /f one")
        while self.it.store.clean():
            pass
        self.assertEqual(self.ask(f"changes {START} now").splitlines()[1:], [f"{told(START + 10)}  saved         f"])

    def test_what_has_no_answer(self) -> None:
        self.save(b"f", b"one")
        self.assertIn("is not two moments", self.ask("changes now soon"))
        self.assertIn("changes takes two moments", self.ask("changes now"))
        self.assertRegex(self.ask(f"changes {START} now /g"), "^no: there was no g at ")
        self.assertRegex(self.ask(f"changes {START} 2027-01-01"), "^no: .* is to come")


class NoHistory(Case):
    def test_lines_of_an_audit_say_what_is_lacking(self) -> None:
        for line in ("gone", "removals", "answers", "handles", "history", "trim"):
            self.assertEqual(self.ask(line), f"elephant-mount: {NO_HISTORY}\n")


class Auditing(Case):
    has_history = True

    def test_the_story_of_removed_versions(self) -> None:
        self.save(b"f", b"one", b"two" * 500)
        for line in ("policy /f safe:1h", "group make legal", "group add legal /f", f"mark legal {START + 5} until {START + 2 * HOUR}"):
            self.assertRegex(self.ask(line), "^ok")
        self.clocks.pass_by(3 * HOUR)
        now = int(self.clocks.day)
        for number in (1, 2):
            self.assertRegex(self.ask("clean"), f"^ok removed .* {number}$")
        cause = "1 hour after its end"
        self.assertEqual(self.ask("history /f").splitlines(), [
            "ok f: 3 versions, 1 of them held; policy safe:3600",
            "version  saved                ended                    bytes",
            f"      1  {told(START)}  {told(START)}          0  removed {told(now)}, due since {told(START + HOUR)}: {cause}",
            f"      2  {told(START)}  {told(START + 10)}          3  removed {told(now)}, due since {told(START + 2 * HOUR)}: {cause};"
            f" the mark legal of {told(START + 5)} held it until then",
            f"      3  {told(START + 10)}  -                        1,500  current",
        ])
        rows = json.loads(self.ask("history /f --json")[3:])["versions"]
        self.assertEqual([(it["held"], it["opened"] is None, it["length"]) for it in rows],
                         [(False, True, 0), (False, True, 3), (True, False, 1500)])
        self.assertEqual([it["fate"].get("mark") for it in rows], [
            None, {"group": "legal", "at": "2026-11-29T09:00:05Z", "until": "2026-11-29T11:00:00Z"}, None,
        ])

    def test_a_note_is_in_the_history_after_another_mount(self) -> None:
        self.save(b"f", b"one")
        self.assertEqual(self.ask("note 77686f"), "ok done\n")
        self.assertEqual(self.ask("history").splitlines().count("- note 77686f"), 1)
        self.mount()
        self.assertEqual(self.ask("history").splitlines().count("- note 77686f"), 1)

    def test_a_note_of_the_mount_is_no_line(self) -> None:
        self.save(b"f", b"one")
        for text in (b"# attr f1 100777 0 0 1 1 1", b"#+attr", b"# "):
            self.assertRegex(self.ask(f"note {text.hex()}"), "^elephant-mount: .* one of the mount's own\n$")
        self.assertEqual(self.ask("note 23"), "ok done\n")

    def test_the_lines_of_an_audit(self) -> None:
        self.save(b"f", b"one", b"two")
        self.ask("policy /f safe:1h")
        self.clocks.pass_by(2 * HOUR)
        now = int(self.clocks.day)
        self.ask("clean")
        row = f"- {now} 1 1 /f due {START + HOUR} by age 3600"
        self.assertEqual(self.ask("gone").splitlines()[1:], [row])
        self.assertEqual(self.ask("removals").splitlines()[1:], [row.replace("/f due", "/f - due")])
        self.assertEqual(self.ask("why /f 1"), f"ok why removed {now} due {START + HOUR} by age 3600\n")
        self.assertEqual(self.ask("why /f#1"), f"ok why removed {now} due {START + HOUR} by age 3600\n")
        self.assertEqual(self.ask("why /f #1"), f"ok why removed {now} due {START + HOUR} by age 3600\n")
        self.assertEqual(self.ask(f"why /f@{START - 1}").partition(" ")[0], "no")
        self.assertIn(f"removed {told(now)}, due since {told(START + HOUR)}: 1 hour after its end", self.ask("history /f"))
        self.assertIn(f" removed {now} due {START + HOUR} by age 3600\n", self.ask("story /f"))
        history = self.ask("history").splitlines()
        self.assertEqual([it for it in history if it in ("- create /f", "- policy /f safe:3600", "- clean")],
                         ["- create /f", "- policy /f safe:3600", "- clean"])
        answers = self.ask("answers").splitlines()
        self.assertEqual(answers[answers.index("- clean") + 1], f"ok removed {START + HOUR} 1 1")
        self.assertEqual(self.ask("handles"), "ok handles 0\n")
        node = self.it.open(self.it.file(b"f"))
        self.it.contents.write(node, 0, b"x")
        self.it.contents.save(node)
        self.assertEqual(self.ask("handles").splitlines(), ["ok handles 1", f"- {node.handle} 1 draft {now} /f"])
        self.it.contents.closed(node, True)
        self.clocks.pass_by(DAY)
        self.ask("clean")
        self.assertEqual(len(self.ask("gone").splitlines()), 3)
        self.assertEqual(self.ask("gone now"), "bad 32 Syntax\n- number of words: the command takes no words\n")

    def test_it_has_what_was_before_it_since_the_journal_was_made_anew(self) -> None:
        self.save(b"f", b"one", b"two", b"three")
        self.ask("policy /f one")
        while self.it.store.clean():
            self.clocks.pass_by(10)
        before = self.ask("gone")
        self.assertEqual(len(before.splitlines()), 4)
        self.mount()
        self.assertEqual(self.ask("gone"), before)
        self.again()
        self.assertEqual(self.ask("gone"), "ok gone 1 0\n")
        self.save(b"f", b"four")
        self.ask("clean")
        self.assertEqual(len(self.ask("gone").splitlines()), 2)

    def test_trim_forgets_until_the_next_change(self) -> None:
        self.save(b"f", b"one")
        self.assertRegex(self.ask("trim"), "^ok trimmed [1-9]")
        self.assertRegex(self.ask("history"), "^ok history [1-9][0-9]* 0\n$")


class Typing(unittest.TestCase):
    """What the command sends."""

    def setUp(self) -> None:
        room = tempfile.TemporaryDirectory()
        self.addCleanup(room.cleanup)
        self.top = str(Path(room.name).resolve())
        Path(self.top, "d").mkdir()
        Path(self.top, "d", "my plan").touch()
        Path(self.top, "d", "a#1.txt").touch()
        for name, stand_in in (("mount_of", lambda _: self.top),):
            patch = mock.patch.object(client, name, stand_in)
            patch.start()
            self.addCleanup(patch.stop)

    def send(self, *words: str, answer: str = "ok done\n", folder: str = "") -> tuple[str, int, str]:
        """Returns the line that is sent, the status, and what is printed."""
        printed, sent = io.StringIO(), list[str]()

        def ask(_: str, line: str) -> str:
            sent.append(line)
            return answer

        with mock.patch.object(main, "ask", ask), contextlib.redirect_stdout(printed):
            status = main.main(["--at", folder or self.top, *words])
        return sent[0], status, printed.getvalue()

    def test_paths_are_those_of_the_folder(self) -> None:
        for words, wanted in (
            (("policy", "d/my plan", "safe:7d"), "policy /d/my%20plan safe:7d"),
            (("policy", "/d/my%20plan", "one"), "policy /d/my%20plan one"),
            (("policy", f"{self.top}/d/my plan", "one"), "policy /d/my%20plan one"),
            (("why", "d/my plan", "2"), "why /d/my%20plan 2"),
            (("list", "."), "list /"), (("list", "/"), "list /"), (("stat", "d/my plan#2"), "stat /d/my%20plan#2"),
            (("read", "d/my plan@1795942800"), "read /d/my%20plan@1795942800"), (("read", "/f@1970-01-01T01:00+00:00"), "read /f@3600"),
            (("stat 'd/my plan@1970-01-01 01:00+00:00'",), "stat /d/my%20plan@3600"), (("stat", "/f@soon"), "stat /f@soon"),
            (("read", "7"), "read 7"), (("read", "./7"), "read /7"),
            (("rename", "d/my plan", "d/b"), "rename /d/my%20plan /d/b"), (("save", "d/new", "6869"), "save /d/new 6869"),
            (("open", "read", "d/my plan"), "open read /d/my%20plan"), (("undelete", "d/x"), "undelete /d/x"),
            (("stat", "d/a#1.txt"), "stat /d/a%231.txt"), (("stat", "d/a#1.txt#2"), "stat /d/a%231.txt#2"), (("list", ""), "list "),
            (("why", "/d/a%231.txt#2"), "why /d/a%231.txt#2"), (("create", "d/a@b"), "create /d/a%40b"),
            (("group", "add", "g", "d/x"), "group add g /d/x"),
            (("group", "make", "g"), "group make g"),
            (("default", ".", "one"), "default / one"),
            (("redo", "d/my plan"), "redo /d/my%20plan"),
            (("undo d/my plan #2",), "undo /d/my%20plan '#2'"),
            (("undo", "d/my plan", "#2"), "undo /d/my%20plan '#2'"),
            (("undo a deleted one #2",), "undo /a%20deleted%20one '#2'"),
            (("history d/my plan --json",), "history --json /d/my%20plan"),
            (("history",), "history"),
            (("changes", "2 hours ago", "now", "d"), "changes '2 hours ago' now /d"),
            (("changes 2 hours ago now",), "changes 2 hours ago now"),
            (("changes", "--json", "2 hours ago", "now", "d"), "changes '2 hours ago' now /d --json"),
            (("changes", "2 hours ago", "now", "d", "--json"), "changes '2 hours ago' now /d --json"),
            (("mark", "g", "2026-11-29 10:00"), "mark g '2026-11-29 10:00'"),
            (("restore", "/f", "1795942800"), "restore /f 1795942800"),
        ):
            sent, status, _ = self.send(*words)
            self.assertEqual((sent.replace("'#2'", "#2"), status), (wanted.replace("'#2'", "#2"), 0), words)

    def test_json_is_printed_alone(self) -> None:
        self.assertEqual(self.send("history", "--json", "d", answer='ok\n{"a": 1}\n')[1:], (0, '{"a": 1}\n'))
        self.assertEqual(self.send("history", "--json", "d", answer="no: d is a folder\n")[1:], (1, "no: d is a folder\n"))

    def test_a_name_that_is_too_long_is_told(self) -> None:
        said = io.StringIO()
        with contextlib.redirect_stderr(said):
            self.assertEqual(main.main(["--at", self.top, "policy", "n" * 65, "one"]), 2)
        self.assertRegex(said.getvalue(), "^elephant-mount: the name n* takes 65 bytes")

    def test_the_help_has_the_lines_in_80_columns(self) -> None:
        printed = io.StringIO()
        with contextlib.redirect_stdout(printed), self.assertRaises(SystemExit):
            main.main(["--help"])
        text = printed.getvalue()
        self.assertLessEqual(max(map(len, text.splitlines())), 80)
        for word in ("undo FILE '#3'", "redo FILE", "history FILE", "changes MOMENT MOMENT", "policy FILE safe:30d/3", "rewrite"):
            self.assertIn(word, text)


if __name__ == "__main__":
    unittest.main()
