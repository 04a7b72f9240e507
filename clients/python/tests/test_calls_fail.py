"""Each call of the library that a method of the package makes fails in turn, with each code that it may have, or is interrupted.

After that the journal has a store that made the answered calls and no other: what it holds is compared with that of stores in which no
call failed. The rows below have each public method, and a method without a row fails `test_each_method_has_a_row`.
"""

from __future__ import annotations

import os
import tempfile
import unittest
from collections.abc import Callable, Iterator
from pathlib import Path
from typing import Any, Optional, Union
from unittest import mock

from elephant import ElephantError, File, Full, JournalError, KeepAll, KeepOne, NoMemory, Reader, Session, Store, TextFile, Untold, _errors
from elephant._core import Core
from elephant._library import library
from header import HEADER, codes_of, numbers_of
from stats import file_stat
from test_journal import MEMORY, QUICK, state

LASTING = 10_000
STOPS = (1, 2)
# The contents of versions, by file and number; a state as text with the next handle; both.
Held = dict[int, dict[int, bytes]]
State = tuple[list[str], int]
Kept = tuple[State, Held]
Fault = Union[int, BaseException]


class Scene:
    """An open store with some of everything: sessions and a reader are open, one session was synced and has written more since."""

    def __init__(self, path: Path, **options: Any) -> None:
        self.store = Store(journal=path, **{**QUICK, **options})
        store = self.store
        store.set_default("/", KeepOne())
        store.mkdir("/d")
        store.mkdir("/empty")
        store.save("/d/f", b"one")
        store.save("/was", b"was")
        store.clock(10)
        store.unlink("/was")
        store.save("/d/f", b"two" * 700)
        store.save("/g", b"gone")
        store.unlink("/g")
        store.save("/s", b"old")
        store.save("/t", b"older")
        store.link("/t", "/l")
        store.group_make("k")
        store.group_add("k", "/t")
        store.mark("k", 5)
        self.synced, self.session = store.session("/s"), store.session("/t")
        self.synced.write(b"new")
        store.sync()
        self.synced.write(b"er", 3)
        self.session.write(b"draft")
        self.reader = store.reader("/d/f")
        store.clock(20)


Call = Callable[[Scene], object]


def opened(mode: str, path: str = "/d/f", text: bytes = b"new") -> Call:
    """Returns what writes a file that was opened in a mode."""
    def call(scene: Scene) -> None:
        with scene.store.open(path, mode) as file:
            if isinstance(file, TextFile):
                file.write(text.decode())
            elif isinstance(file, File) and mode != "rb":
                file.write(text)

    return call


def truncated(scene: Scene) -> None:
    scene.session.truncate(2)
    scene.session.close()


def written(scene: Scene) -> None:
    scene.session.write(b"X", 1)
    scene.session.close()


def core_of(scene: Scene) -> Core:
    core = scene.store._core
    assert core is not None
    return core


def asks(line: str) -> Call:
    """Returns what runs a line."""
    return lambda scene: scene.store.line(line)


# The handles: the sessions are 1 and 2, the reader is 3.
LINES = (
    "tick 5", "clock 30", "mkdir /n", "create /n", "open write /d/f", "open read /d/f", "write 1 0 6162", "truncate 1 1",
    "close 1", "close 3", "abandon 1", "abandon 2", "abandon 3", "save /d/f 6162", "save /n -", "save /s 61", "restore /d/f 5",
    "restore /was 5", "revert /d/f 1", "unlink /d/f", "undelete /g", "rename /l /m", "policy /d/f all", "group make m", "mark k 4",
    "clean", "pass 1", "pass 9",
    "create /d", "unlink /none", "none", "read /d/f", "restorable",
)
ROWS: dict[type, dict[str, list[Call]]] = {
    Store: {
        "ahead": [lambda it: it.store.ahead(LASTING)], "answers": [], "checkpoint": [lambda it: it.store.checkpoint()],
        "clean": [lambda it: it.store.clean()], "clock": [lambda it: it.store.clock(30)],
        "close": [lambda it: it.store.close()], "counts": [lambda it: it.store.counts()],
        "create": [lambda it: it.store.create("/n")], "directory_across": [lambda it: it.store.directory_across(1)],
        "due": [lambda it: it.store.due()], "dump": [lambda it: it.store.dump()],
        "file_across": [lambda it: it.store.file_across(2)], "from_checkpoint": [], "gone": [],
        "group_add": [lambda it: it.store.group_add("k", "/d/f")], "group_drop": [lambda it: it.store.group_drop("k")],
        "group_make": [lambda it: it.store.group_make("m")], "group_remove": [lambda it: it.store.group_remove("k", "/t")],
        "groups": [lambda it: it.store.groups()], "handles": [], "history": [], "line": [asks(line) for line in LINES],
        "link": [lambda it: it.store.link("/d/f", "/n")], "list": [lambda it: it.store.list("/d")],
        "make_parents": [lambda it: it.store.make_parents("/d/m/f"), lambda it: it.store.make_parents("/d/f")],
        "mark": [lambda it: it.store.mark("k", 6, 90)],
        "mkdir": [lambda it: it.store.mkdir("/n")], "note": [lambda it: it.store.note(b"why")],
        "open": [
            opened("wb"), opened("w"), opened("r+b"), opened("ab"), opened("rb"), opened("xb", "/n"), opened("wb", "/n"),
            opened("wb", "/n", b""),
        ],
        "pass_": [lambda it: it.store.pass_(), lambda it: it.store.pass_(1)],
        "path_of": [lambda it: it.store.path_of(2)], "paths_of": [lambda it: it.store.paths_of(1)],
        "read": [lambda it: it.store.read("/d/f", version=2)],
        "reader": [lambda it: it.store.reader("/d/f", at=10)], "rename": [lambda it: it.store.rename("/d", "/e")],
        "renew": [lambda it: it.store.renew()],
        "restorable": [lambda it: it.store.restorable()],
        "restore": [
            lambda it: it.store.restore("/d/f", 5), lambda it: it.store.restore("/was", 5), lambda it: it.store.restore("/s", 10),
        ],
        "restore_tree": [lambda it: it.store.restore_tree("/", 5), lambda it: it.store.restore_tree("/d", 5, dry_run=True)],
        "revert": [lambda it: it.store.revert("/d/f", 2)],
        "rmdir": [lambda it: it.store.rmdir("/empty")],
        "save": [
            lambda it: it.store.save("/d/m/f", b"new", parents=True), lambda it: it.store.save("/d/f", b"three"),
            lambda it: it.store.save("/n", b"new"), lambda it: it.store.save("/n", b""),
            lambda it: it.store.save("/d/f", b""), lambda it: it.store.save("/s", b"taken"),
            lambda it: it.store.save("/d/f", b"longer than before" * 500),
        ],
        "session": [lambda it: it.store.session("/d/f"), lambda it: it.store.session("/s")],
        "set_default": [lambda it: it.store.set_default("/d", KeepAll())],
        "set_policy": [lambda it: it.store.set_policy("/d/f", KeepAll())],
        "stat": [lambda it: it.store.stat("/d/f")], "story": [lambda it: it.store.story("/d/f")],
        "sync": [lambda it: it.store.sync()], "tick": [lambda it: it.store.tick(5)], "trim": [],
        "trust_clock": [lambda it: it.store.trust_clock()],
        "undelete": [lambda it: it.store.undelete("/g")], "unlink": [lambda it: it.store.unlink("/d/f")],
        "unmark": [lambda it: it.store.unmark("k", 5)], "usage": [lambda it: it.store.usage()],
        "version_across": [lambda it: it.store.version_across(1, 2)],
        "versions": [lambda it: it.store.versions("/d/f")], "walk": [lambda it: it.store.walk()],
        "why": [lambda it: it.store.why("/d/f", version=2)],
    },
    Session: {
        "abandon": [lambda it: it.session.abandon(), lambda it: it.synced.abandon()],
        "close": [lambda it: it.session.close(), lambda it: it.synced.close()], "read": [lambda it: it.session.read()],
        "truncate": [truncated],
        "write": [written],
    },
    Reader: {"close": [lambda it: it.reader.close()], "read": [lambda it: it.reader.read()]},
}
# Attributes, and questions that need a history.
NO_CALLS: dict[type, set[str]] = {
    Store: {"clock_fault", "is_closed", "is_read_only", "may_remove", "now", "renewed"}, Session: {"version"}, Reader: set(),
}
# These may leave a part that docs/EMBED.md names: an empty new file, one more version with the content before, or directories that
# `parents=True` made.
MAY_LEAVE_MORE = {"save", "open"}


def codes_of_calls() -> dict[str, list[int]]:
    """Returns for each call of the header the codes that its comment and that of its section name, without those of a wrong use."""
    text = HEADER.read_text(encoding="utf-8")
    numbers, may_come = numbers_of(text), {NoMemory.number, Untold.number, *range(3, 60)}
    named = {name: {numbers[it] for it in call.own | call.section} for name, call in codes_of(text).items()}
    codes = {name: sorted(found & may_come | {NoMemory.number}) for name, found in named.items()}
    # The package's names of these calls for what is short.
    return {**codes, "read_short": codes["read_into"], "read_handle_short": codes["read_handle_into"]}


class Faulty:
    """A library whose call number `at` answers `fault` or raises it, without being run, or after it (`after`)."""

    def __init__(self, library: Any, at: Optional[int] = None, fault: Fault = 0, after: bool = False) -> None:
        self._library, self._at, self._fault, self._after = library, at, fault, after
        self.names: list[str] = []

    def __getattr__(self, name: str) -> Any:
        call = getattr(self._library, name)
        return call if name == "elephant_delete" else lambda *words: self._made(name, call, words)

    def _made(self, name: str, call: Callable[..., int], words: tuple[Any, ...]) -> int:
        self.names.append(name[9:])
        if len(self.names) - 1 != self._at:
            return call(*words)
        if self._after:
            call(*words)
        if isinstance(self._fault, int):
            return self._fault
        raise self._fault


def contents(store: Store) -> Held:
    """Returns the contents of the versions of all files that have a name, by the file's number and their own."""
    found: Held = {}

    def below(directory: str) -> None:
        for entry in store.list(directory or "/"):
            path = f"{directory}/{entry.name}"
            if entry.is_directory:
                below(path)
            else:
                found[entry.number] = {it.number: store.read(path, version=it.number) for it in store.versions(path)}

    below("")
    return found


def all_of(held: Held) -> set[bytes]:
    """Returns all contents of such a result."""
    return {content for versions in held.values() for content in versions.values()}


class CallsFail(unittest.TestCase):
    def setUp(self) -> None:
        folder = tempfile.TemporaryDirectory(dir=MEMORY)
        self.addCleanup(folder.cleanup)
        self.folder = Path(folder.name)
        self.path = self.folder / "journal"
        self.told: dict[bytes, Kept] = {}
        self.counts = {"cases": 0, "answered": 0, "went on": 0, "ended": 0}

    def scene(self, **options: Any) -> Scene:
        self.path.unlink(missing_ok=True)
        return Scene(self.path, **options)

    def kept(self) -> Kept:
        """Returns what the journal has now, as a killed process would leave it: the state, the contents and the next handle."""
        data = self.path.read_bytes()
        if data not in self.told:
            copy = self.folder / "copy"
            copy.write_bytes(data)
            with Store(journal=copy, **QUICK) as store:
                texts, held = state(store), contents(store)
                for path, version in store.recovered.closed:  # made by this opening
                    held[file_stat(store, path).file].pop(version or 0, None)
                store.create("/next")
                self.told[data] = (texts, store.session("/next").number), held
        return self.told[data]

    def after(self, call: Optional[Call], goes_on: bool) -> Kept:
        """Returns what the journal has after calls in which nothing fails."""
        scene = self.scene()
        if call is not None:
            try:
                call(scene)
            except ElephantError:
                pass
        if goes_on and not scene.store.is_closed:
            scene.store.save("/after", b"x")
        return self.kept()

    def references(self, call: Call) -> dict[tuple[str, bool], Kept]:
        """Returns what the journal has without a call and after it, if a save follows and if none does."""
        return {(what, goes_on): self.after(it, goes_on) for what, it in (("before", None), ("after", call)) for goes_on in (False, True)}

    def calls_of(self, call: Call) -> list[str]:
        scene = self.scene()
        library = Faulty(core_of(scene).library)
        with mock.patch.object(core_of(scene), "library", library):
            try:
                call(scene)
            except ElephantError:
                pass
        return library.names

    def rows(self) -> Iterator[tuple[str, str, Call]]:
        for kind, rows in ROWS.items():
            for name, calls in rows.items():
                for at, call in enumerate(calls):
                    yield f"{kind.__name__}.{name} {at}", name, call

    def test_each_method_has_a_row(self) -> None:
        for kind, rows in ROWS.items():
            public = {name for name in dir(kind) if not name.startswith("_")}
            self.assertEqual(public - set(rows), NO_CALLS[kind], kind)
            self.assertEqual(set(rows) - public, set(), kind)

    def test_codes_of_the_header(self) -> None:
        codes = codes_of_calls()
        self.assertGreater(len(codes), 50)
        self.assertEqual(codes["create"], [1, 5, 6, 8, 11, 27, 28, 29])
        self.assertEqual(codes["group_make"], [1, 20, 21, 27, 28])
        self.assertEqual(codes["close_handle"], [1, 15])

    def test_each_call_refused_with_each_code(self) -> None:
        codes = codes_of_calls()
        for title, name, call in self.rows():
            names = self.calls_of(call)
            wanted = self.references(call)
            for at, made in enumerate(names):
                for code in {*codes.get(made, [1]), 1}:
                    with self.subTest(title, call=f"{at} {made}", code=code):
                        self.one(name, call, wanted, at, code, made == "line" and code == Untold.number)
        self.assertGreater(self.counts["cases"], 400)
        for kind in ("answered", "went on", "ended"):
            self.assertGreater(self.counts[kind], 0, kind)

    def test_each_call_interrupted(self) -> None:
        for title, name, call in self.rows():
            names = self.calls_of(call)
            wanted = self.references(call)
            for at, made in enumerate(names):
                for after in (False, True):
                    for fault in (KeyboardInterrupt(), MemoryError()):
                        with self.subTest(title, call=f"{at} {made}", after=after, fault=repr(fault)):
                            self.one(name, call, wanted, at, fault, after)

    def one(self, name: str, call: Call, wanted: dict[tuple[str, bool], Kept], at: int, fault: Fault, after: bool) -> None:
        """Lets one call of a method fail, and compares what the journal has then with what it may have."""
        scene = self.scene()
        store, outcome = scene.store, "answered"
        core = core_of(scene)
        with mock.patch.object(core, "library", Faulty(core.library, at, fault, after)):
            try:
                call(scene)
            except (ElephantError, KeyboardInterrupt, MemoryError) as raised:
                outcome = "raised"
                self.assertTrue(isinstance(raised, ElephantError) or raised is fault, raised)
        goes_on = not store.is_closed
        if goes_on:
            try:
                store.save("/after", b"x")
            except JournalError:
                goes_on = False
        self.counts["cases"] += 1
        self.counts["answered" if outcome == "answered" else "went on" if goes_on or store.is_closed else "ended"] += 1
        self.compare(name, store, wanted, outcome, goes_on, fault)

    def compare(
        self, name: str, store: Store, wanted: dict[tuple[str, bool], Kept], outcome: str, goes_on: bool, fault: Fault
    ) -> None:
        kept, held = self.kept()
        before, after = (wanted[what, goes_on][0] for what in ("before", "after"))
        if not store.is_closed:
            self.assertTrue(contents(store) == held, "what is read isn't what is kept")
        is_stop = not isinstance(fault, int) or fault in (*STOPS, Full.number)
        if outcome == "answered" and is_stop:
            self.assertTrue(goes_on or store.is_closed)
            self.among(kept, after)
        elif store.is_closed:  # of its sessions it may have closed the first
            self.among(kept, before, after, self.after(lambda it: it.synced.close(), False)[0])
        elif is_stop and name not in MAY_LEAVE_MORE:
            self.among(kept, before, after)
        elif is_stop:  # no version has a part of a content
            whole = all_of(wanted["before", True][1]) | all_of(wanted["after", True][1])
            self.assertLessEqual(all_of(held), {*whole, b"x"})
        for file, versions in wanted["before", False][1].items():
            left = wanted["after", False][1].get(file)
            if left is not None:  # nothing that the call leaves is lost
                lasting = {number: content for number, content in versions.items() if number in left}
                self.assertLessEqual(lasting.items(), held.get(file, {}).items(), file)

    def among(self, kept: State, *wanted: State) -> None:
        """Fails unless what was kept is one of these states, and prints only what differs."""
        if kept not in wanted:
            differ = [[(it, other) for it, other in zip(kept[0], one[0]) if it != other] for one in wanted]
            self.fail("; or ".join(f"{rows!r:.400} {kept[1]} {one[1]}" for rows, one in zip(differ, wanted)))

    def test_a_pass_that_is_stopped_within(self) -> None:
        scene = self.scene()
        scene.store.pass_(1)
        wanted = self.kept()
        scene = self.scene()
        library = core_of(scene).library

        class Stops(Faulty):
            def _made(self, name: str, call: Callable[..., int], words: tuple[Any, ...]) -> int:
                if name != "elephant_pass":
                    return call(*words)
                self.names.append(name)
                call(words[0], 1, *words[2:])
                return NoMemory.number

        with mock.patch.object(core_of(scene), "library", Stops(library)):
            with self.assertRaises(NoMemory) as told:
                scene.store.pass_()
        self.assertEqual(told.exception.removed, 1)
        self.among(self.kept()[0], wanted[0])
        scene.store.create("/n")

    def test_a_line_whose_answer_cant_be_told_was_run_and_is_kept(self) -> None:
        class Silent(Faulty):
            def _made(self, name: str, call: Callable[..., int], words: tuple[Any, ...]) -> int:
                if name == "elephant_line":
                    call(*words)
                    return Untold.number
                return Untold.number if name == "elephant_tell" else call(*words)

        for line in LINES:
            wanted_answer = self.scene().store.line(line)
            wanted = self.after(asks(line), True)
            scene = self.scene()
            with self.subTest(line), mock.patch.object(core_of(scene), "library", Silent(core_of(scene).library)):
                if line.split()[0] in ("read", "restorable"):
                    self.assertRaises(Untold, scene.store.line, line)
                else:
                    self.assertEqual(scene.store.line(line), wanted_answer)
                scene.store.save("/after", b"x")
                self.among(self.kept()[0], wanted[0])

    def test_a_line_whose_answer_is_told_at_the_second_time(self) -> None:
        """Also in a store without a journal, which has nothing from which it could run the line again."""
        for journal in (None, self.path):
            with Store(journal=journal, **QUICK) as store:
                core = store._core
                assert core is not None
                for line, answer in (("create /n", "ok file 1\n"), ("list /", "ok names 1\n- n file 1\n"), ("none", "bad 32 Syntax\n")):
                    library = Faulty(core.library, 0, Untold.number, True)
                    with self.subTest(line, journal=journal), mock.patch.object(core, "library", library):
                        self.assertEqual(store.line(line), answer)
                        self.assertEqual(library.names, ["line", "tell", "answer"])

    def test_a_line_that_cant_be_run_again_ends_the_store(self) -> None:
        wanted = self.after(None, False)
        scene = self.scene()
        core = core_of(scene)
        with mock.patch.object(core, "library", Faulty(core.library, 0, Untold.number, True)):
            untold = mock.patch.object(core, "line", side_effect=Untold("line"))
            with mock.patch("elephant._turns.Core", side_effect=NoMemory("core")), untold:
                self.assertRaises(JournalError, scene.store.line, "create /n")
                self.assertRaises(JournalError, scene.store.read, "/s")
        self.assertRaises(JournalError, scene.store.save, "/n", b"x")
        self.assertEqual((scene.store.read("/s"), scene.synced.read(), scene.session.read()), (b"old", b"newer", b"draft"))
        scene.store.close()
        self.among(self.kept()[0], wanted[0])

    def test_each_call_of_an_opening_fails(self) -> None:
        """The journal is as it was, and the next opening finds all of it."""
        self.scene()
        data = self.path.read_bytes()
        wanted = self.kept()
        names = Faulty(library())
        copy = self.folder / "opened"
        copy.write_bytes(data)
        with mock.patch("elephant._core.library", return_value=names):
            Store(journal=copy, **QUICK).close()
        self.assertGreater(len(names.names), 40)
        for at, made in enumerate(names.names):
            if made in ("new", "delete"):
                continue
            copy.write_bytes(data)
            faulty = Faulty(library(), at, NoMemory.number)
            with self.subTest(f"{at} {made}"), mock.patch("elephant._core.library", return_value=faulty):
                with self.assertRaises(ElephantError):
                    Store(journal=copy, **QUICK).close()
            self.path.write_bytes(copy.read_bytes())
            self.among(self.kept()[0], wanted[0])
            self.assertEqual(copy.read_bytes()[:len(data)], data)

    def test_the_errors_have_the_codes_of_the_header(self) -> None:
        self.assertLessEqual({code for found in codes_of_calls().values() for code in found}, set(_errors.BY_NUMBER))
        self.assertTrue(os.path.isabs(self.folder))


if __name__ == "__main__":
    unittest.main()
