"""The story of a file, as typed rows. Expected rows are worked out from docs/SCRIPT.md."""

from __future__ import annotations

import unittest
from pathlib import Path
from typing import Optional

import elephant
from elephant import (
    Cause,
    Current,
    Due,
    KeepAll,
    KeepOne,
    Kept,
    Marked,
    Moment,
    NameStory,
    Open,
    Store,
    Story,
    UnknownAnswer,
    VersionStory,
)
from elephant._story import read_story

DATA = Path(__file__).resolve().parents[3] / "crates" / "worked_rows" / "data"
WHOLE = """\
ok story 7 13
- version 1 - - - removed 20 -
- version 2 5 9 2 removed 40 held g 2/30 due 30 by age 3
- version 3 9 12 0 marked g 9
- version 4 12 13 1 open
- version 5 13 14 1 kept until 60 level 1
- version 6 14 15 1 kept until 60
- version 7 15 16 1 kept level 2
- version 8 16 17 1 kept
- version 9 17 18 1 due 18 by 10 level 1
- version 10 18 - 1 current
- name 0 20 /a
- name 20 - /d/b%20c
- name 20 30 -
"""
OTHER_ROWS = (
    "- version 1 5 9 2", "- version 1 5 9 due 5 at once", "- version 1 5 9 2 due", "- version 1 5 9 2 due 5", "- version 1 5 9 2 later",
    "- version 1 - 9 2 current", "- version 1 5 9 2 removed due 5 at once", "- version 1 5 9 2 held g 5 current",
    "- version 1 5 9 2 held g/h 5 due 5 at once", "- version 1 5 9 2 marked g x", "- version 1 5 9 2 kept until",
    "- version 1 5 9 2 kept until 4 level", "- version 1 5 9 2  current", "- version 1 5 253402300800 2 current", "- name 5 9",
    "- name - 9 /f", "- name 5 9 f", "- name 5 9 /f -", "- names 5 9 /f", "name 5 9 /f",
)
OTHERS = (
    "ok story 1 1\n", "ok story 1\n", "ok story 1 0 0\n", "ok story 1 1\n- name 0 - /f\n- version 1 0 - 0 current\n",
    "ok story 1 2\n- name 0 - /f\n- version 1 0 - 0 current\n",
)


def at(second: int) -> Moment:
    return Moment(second)


def audited() -> Store:
    return Store(clock="manual", history=True)


def word_of(value: Optional[int]) -> str:
    return "-" if value is None else str(value)


def version_row(it: VersionStory) -> str:
    known = "- - -" if it.closed is None else f"{it.closed} {word_of(it.ended)} {it.length}"
    removed = "" if it.removed is None else f"removed {it.removed} "
    return f"- version {it.number} {known} {removed}{'-' if it.fate is None else it.fate}"


def printed(found: Story) -> str:
    """Returns typed rows as the language prints them."""
    rows = [version_row(it) for it in found.versions]
    rows += [f"- name {it.birth} {word_of(it.death)} {'-' if it.spelled is None else it.spelled.decode()}" for it in found.names]
    return "".join(f"{row}\n" for row in [f"ok story {found.file} {len(rows)}", *rows])


class Rows(unittest.TestCase):
    def test_each_fate(self) -> None:
        held = Marked("g", at(2), at(30))
        versions = (
            VersionStory(1, None, None, None, None, at(20)),
            VersionStory(2, at(5), at(9), 2, Due(at(30), age=3, held=held), at(40), held),
            VersionStory(3, at(9), at(12), 0, Marked("g", at(9), None)),
            VersionStory(4, at(12), at(13), 1, Open()),
            VersionStory(5, at(13), at(14), 1, Kept(at(60), 1)),
            VersionStory(6, at(14), at(15), 1, Kept(at(60), None)),
            VersionStory(7, at(15), at(16), 1, Kept(None, 2)),
            VersionStory(8, at(16), at(17), 1, Kept(None, None)),
            VersionStory(9, at(17), at(18), 1, Due(at(18), by=10, level=1)),
            VersionStory(10, at(18), None, 1, Current()),
        )
        names = (
            NameStory("/a", at(0), at(20), b"/a"), NameStory("/d/b c", at(20), None, b"/d/b%20c"), NameStory(None, at(20), at(30), None),
        )
        found = read_story(WHOLE.encode())
        self.assertEqual(found, Story(7, versions, names))
        self.assertEqual(printed(found), WHOLE)
        self.assertEqual([type(it.fate) for it in found.versions], [type(it.fate) for it in versions])

    def test_a_row_of_another_form_is_an_error(self) -> None:
        for answer in (*OTHERS, *(f"ok story 1 1\n{row}\n" for row in OTHER_ROWS)):
            with self.subTest(answer), self.assertRaises(UnknownAnswer):
                read_story(answer.encode())

    def test_a_refusal_or_a_stop_is_its_error(self) -> None:
        for answer, kind in (("stop 1 NoMemory\n", elephant.NoMemory), ("no 5 NoEntry\n", elephant.NoEntry)):
            self.assertRaises(kind, read_story, answer.encode())


class Stories(unittest.TestCase):
    def test_a_mark_that_held_a_version_and_old_names(self) -> None:
        with audited() as store:
            store.set_default("/", KeepOne())
            store.save("/ä", b"one")
            store.clock(5)
            store.save("/ä", b"two")
            store.group_make("g")
            store.group_add("g", "/ä")
            store.mark("g", 2, 30)
            store.clean()
            store.clock(40)
            store.clean()
            store.rename("/ä", "/b")
            # Version 2 was current at 2, and version 1 only at 0.
            held = Marked("g", at(2), at(30))
            self.assertEqual(store.story("/ä"), Story(1, (
                VersionStory(1, at(0), at(0), 0, Due(at(0)), at(5)),
                VersionStory(2, at(0), at(5), 3, Due(at(30), held=held), at(40), held),
                VersionStory(3, at(5), None, 3, Current()),
            ), (NameStory("/ä", at(0), at(40), b"/%C3%A4"), NameStory("/b", at(40), None, b"/b"))))
            self.assertEqual(store.story("/ä").versions[1].fate.cause, Cause.AT_ONCE)  # type: ignore[union-attr]
            self.assertRaises(elephant.IsDirectory, store.story, "/")
            self.assertRaises(elephant.NotDirectory, store.story, "/b/c")
            self.assertRaises(elephant.NoEntry, store.story, "/none")
            store.trim()
            self.assertEqual([it.number for it in store.story("/b").versions], [3])

    def test_a_file_that_was_dropped(self) -> None:
        with audited() as store:
            store.set_default("/", KeepOne())
            store.create("/f")
            store.unlink("/f")
            store.clock(9)
            store.clean()
            self.assertEqual(store.story("/f"), Story(1, (VersionStory(1, at(0), at(0), 0, Due(at(0)), at(9)),), (
                NameStory("/f", at(0), at(0), b"/f"),
            )))

    def test_without_a_history(self) -> None:
        with Store(clock="manual") as store:
            store.set_default("/", KeepOne())
            store.save("/f", b"one")
            store.clean()
            store.set_policy("/f", KeepAll())
            self.assertEqual(store.story("/f").versions, (VersionStory(2, at(0), None, 3, Current()),))


@unittest.skipUnless(DATA.is_dir(), "there are no worked scripts")
class WorkedScripts(unittest.TestCase):
    def test_nothing_of_an_answer_is_lost(self) -> None:
        """After each worked script the typed rows of each file, printed again, are the answer."""
        rows = 0
        for script in sorted(DATA.glob("*.script")):
            lines = script.read_bytes().decode("latin-1").split("\n")[:-1]
            if len(lines) > 400:
                continue
            with self.subTest(script.name), audited() as store:
                for line in lines:
                    store.line(line.encode("latin-1").decode("utf-8", "surrogateescape"))
                for entry in store.walk():
                    if entry.is_directory:
                        continue
                    answer = store.line(f"story {entry.spelled.decode()}")
                    self.assertEqual(printed(store.story(entry.path)), answer)
                    rows += answer.count("\n")
        self.assertGreater(rows, 300)


if __name__ == "__main__":
    unittest.main()
