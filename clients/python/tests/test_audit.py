"""What an audit asks of a store with a history, as typed rows. Expected rows are those of docs/SCRIPT.md, or worked out from it."""

from __future__ import annotations

import unittest
from collections.abc import Callable
from pathlib import Path
from typing import Any, Union

import elephant
from elephant import (
    Answered,
    Answers,
    Cause,
    Due,
    ElephantError,
    Forgotten,
    Gone,
    History,
    KeepAll,
    KeepOne,
    KeepSafe,
    Landmarks,
    Marked,
    Moment,
    NoHistory,
    OpenHandle,
    Removal,
    Removed,
    Store,
    UnknownAnswer,
)
from elephant._audit import read_answers, read_gone, read_handles, read_history, read_why

DATA = Path(__file__).resolve().parents[3] / "crates" / "worked_rows" / "data"
Reads = Callable[[bytes], object]
ROWS_OF_GONE = (
    "", "-", "- 5 1 1 /f", "- 5 1 1 /f due", "- 5 1 1 /f due 5", "- 5 1 1 /f due 5 at  once", "- 5 1 1 /f due 5 at once ",
    "- 5 1 1 /f due 5 by age", "- 5 1 1 /f held g due 5 at once", "- 5 1 1 /f held due 5 at once", "- 5 1 1 /f held g/h 2 due 5 at once",
    "- 5 1 1 /f held g 2 kept",
    "- 5 1 1 /f due 5 by age -", "- 5 1 1 /f due 5 by 3 level", "- 5 1 1 /f due 5 later", "- 5 1 1 /f kept", "- 5 1 1 f due 5 at once",
    "- 5 1 1 / due 5 at once", "- 5 1 1 /f/ due 5 at once",
    "- 5 1 1 /a@b due 5 at once", "- 5 1 1  due 5 at once", "- 05 1 1 /f due 5 at once", "- 5 -1 1 /f due 5 at once",
    "- 5 +1 1 /f due 5 at once", "- 5 1 x /f due 5 at once", "- 253402300800 1 1 /f due 5 at once", "- 5 1 1 /f due 253402300800 at once",
    "5 1 1 /f due 5 at once",
    " - 5 1 1 /f due 5 at once", "- - 1 1 /f due 5 at once", "- 5 1 1 /f due 5 at once\r", "- 5 1 1 /é due 5 at once",
)
WRONG: tuple[tuple[Reads, tuple[str, ...]], ...] = (
    (read_gone, (
        "", "\n", "ok gone 0 0", "ok gone 0 0\n-", "ok gone 0 1\n", "ok gone 0\n", "ok gone 0 0 0\n", "ok gone 0 0\n\n", "ok gone x 0\n",
        *(f"ok gone 0 1\n{row}\n" for row in ROWS_OF_GONE),
    )),
    (read_why, (
        "ok why removed 30\n", "ok why removed 30 due 18\n", "ok why removed - due 18 at once\n", "ok why removed 30 due 18 at once\n- 1\n",
        "ok why current\n",
        "ok why removed 30 kept\n",
    )),
    (read_handles, (
        "ok handles 0 0\n", "ok handles\n", "ok handles 1\n", "ok handle 0\n", "ok handles 1\n- 1 4 drafts 0 /f\n",
        "ok handles 1\n- 1 4 - 0 /f\n", "ok handles 1\n- 1 4 1 draft /f\n", "ok handles 1\n- 1 4 1 0\n", "ok handles 1\n- 1 4 1 0 /f -\n",
        "ok handles 1\n- - 4 1 0 /f\n", "ok handles 2\n- 1 4 1 0 /f\n",
    )),
    (read_answers, (
        "ok answers 0 1\n- list /\nok names 2\n- f file 1\n", "ok answers 0 1\n- list /\nok names x\n- f file 1\n",
        "ok answers 0 1\n- list /\n", "ok answers 0 1\n- list /\nok names 1\nf file 1\n",
        "ok answers 0 1\n- list /\nok names 0\n- create /f\n", "ok answers 0 2\n- list /\nok names 0\n",
        "ok answers 0 1\ncreate /f\nok file 1\n", "ok answers 0 1\n- create /f\nfile 1\n", "ok answers 0 0\n- create /f\nok file 1\n",
    )),
    (read_history, ("ok history 3 1\n- create /f\n- read /g\n", "ok history 3 1\ncreate /f\n", "ok history 3\n", "ok history 3 1\n- \n")),
)


def audited(**options: Any) -> Store:
    return Store(clock="manual", history=True, **options)


def at(second: int) -> Moment:
    return Moment(second)


class Rows(unittest.TestCase):
    def test_each_cause_of_a_removal(self) -> None:
        answer = (
            b"ok gone 7 5\n- 5 1 1 /f due 5 at once\n- 9 1 2 - due 5 by age 3\n"
            b"- 30 2 2 /d/a%20b due 28 by 3 level 1\n- 31 9 1 - due 4 at once\n"
            b"- 40 2 4 /h held g 6/35 due 35 at once\n"
        )
        wanted = (
            Removal(at(5), 1, 1, "/f", at(5), Cause.AT_ONCE, spelled=b"/f"),
            Removal(at(9), 1, 2, None, at(5), Cause.BY_AGE, age=3),
            Removal(at(30), 2, 2, "/d/a b", at(28), Cause.DISPLACED, by=3, level=1, spelled=b"/d/a%20b"),
            Removal(at(31), 9, 1, None, at(4), Cause.AT_ONCE),
            Removal(at(40), 2, 4, "/h", at(35), Cause.AT_ONCE, spelled=b"/h", held=Marked("g", at(6), at(35))),
        )
        self.assertEqual(read_gone(answer), Gone(7, wanted))
        self.assertIsInstance(read_gone(answer).removals[0].moment, Moment)

    def test_fates_as_the_language_prints_them(self) -> None:
        for fate, word, cause in (
            (Due(at(5)), "due 5 at once", Cause.AT_ONCE), (Due(at(5), age=7), "due 5 by age 7", Cause.BY_AGE),
            (Due(at(5), by=8, level=1), "due 5 by 8 level 1", Cause.DISPLACED),
            (Due(at(18), held=Marked("g", at(2), at(18))), "held g 2/18 due 18 at once", Cause.AT_ONCE),
        ):
            self.assertEqual((str(fate), fate.cause), (word, cause))
        for words in ("due 18 at once", "due 18 by age 7", "due 18 by 8 level 1", "held g 2/18 due 18 at once"):
            self.assertEqual(str(read_why(f"ok why removed 30 {words}\n".encode())), f"removed 30 {words}")

    def test_handles(self) -> None:
        answer = b"ok handles 3\n- 1 4 draft 0 /f\n- 2 4 11 262 -\n- 3 4 1 - /d/%C3%A4\n"
        self.assertEqual(read_handles(answer), [
            OpenHandle(1, 4, None, at(0), "/f", b"/f"), OpenHandle(2, 4, 11, at(262), None, None),
            OpenHandle(3, 4, 1, None, "/d/ä", b"/d/%C3%A4"),
        ])

    def test_the_rows_of_a_stored_answer_are_counted(self) -> None:
        stored = (
            Answered("create /g", "ok file 2\n"), Answered("list /", "ok names 2\n- f file 1\n- g file 2\n"),
            Answered("read /h", "no 5 NoEntry\n"), Answered("due", "ok due 0\n"), Answered("due", "ok due 1\n- 5 1 1\n"),
            Answered("versions /f", "ok versions 1\n- 1 0 0 - 0\n"), Answered("restorable", "ok restorable 1\n- 0 d directory 1\n"),
            Answered("usage", "ok usage 4\n- one 0 0 0 0\n- all 0 0 0 0\n- safe 0 0 0 0\n- landmarks 0 0 0 0\n"),
            Answered("groups", "ok groups 1\n- g members - marks -\n"), Answered("undelete /f", "ok version 2\n"),
        )
        answer = f"ok answers 10 {len(stored)}\n" + "".join(f"- {it.line}\n{it.answer}" for it in stored)
        self.assertEqual(read_answers(answer.encode()), Answers(10, stored))

    def test_a_row_of_another_form_is_an_error(self) -> None:
        for read, answers in WRONG:
            for answer in answers:
                with self.subTest(answer), self.assertRaises(UnknownAnswer):
                    read(answer.encode())

    def test_a_refusal_or_a_stop_is_its_error(self) -> None:
        for answer, kind in (("stop 1 NoMemory\n", elephant.NoMemory), ("bad 32 Syntax\n", elephant.Syntax)):
            for read, _ in WRONG:
                self.assertRaises(kind, read, answer.encode())
        with self.assertRaises(Forgotten) as told:
            read_why(b"no 13 Forgotten 4\n")
        self.assertEqual(told.exception.last, 4)


class Audits(unittest.TestCase):
    def test_removals_of_a_file_that_loses_its_name(self) -> None:
        with audited() as store:
            store.set_default("/", KeepOne())
            store.create("/f")
            session = store.session("/f")
            store.clock(5)
            self.assertEqual(store.handles(), [OpenHandle(1, 1, None, at(0), "/f", b"/f")])
            session.write(b"a")
            session.close()
            store.clean()
            store.unlink("/f")
            store.clock(9)
            store.clean()
            wanted = (
                Removal(at(5), 1, 1, "/f", at(5), Cause.AT_ONCE, spelled=b"/f"), Removal(at(9), 1, 2, None, at(5), Cause.AT_ONCE),
            )
            self.assertEqual(store.gone(), Gone(0, wanted))
            folded = store.trim()
            self.assertEqual(store.create("/g"), 2)
            self.assertEqual((store.gone(), store.answers()), (Gone(folded, ()), Answers(folded, (Answered("create /g", "ok file 2\n"),))))

    def test_each_cause(self) -> None:
        with audited() as store:
            for path, policy in (("/ä b", KeepSafe(seconds=7)), ("/l", Landmarks([(10, 10), (40, 50)]))):
                store.create(path)
                store.set_policy(path, policy)
            for moment, content in ((12, b"a"), (18, b"b")):
                store.clock(moment)
                store.save("/ä b", content)
                store.save("/l", content)
            store.clock(30)
            store.pass_()
            # Of the first file version 1 ended at 12, and version 2 at 18. Of /l version 2 closed at 12 and ended at 18.
            spelled = b"/%C3%A4%20b"
            self.assertEqual(store.gone().removals, (
                Removal(at(30), 1, 1, "/ä b", at(19), Cause.BY_AGE, age=7, spelled=spelled),
                Removal(at(30), 1, 2, "/ä b", at(25), Cause.BY_AGE, age=7, spelled=spelled),
                Removal(at(30), 2, 2, "/l", at(28), Cause.DISPLACED, by=3, level=1, spelled=b"/l"),
            ))
            self.assertEqual(store.why("/ä b", version=2), Removed(at(30), at(25), Cause.BY_AGE, age=7))
            self.assertEqual(store.why("/l", version=2), Removed(at(30), at(28), Cause.DISPLACED, by=3, level=1))
            self.assertRaises(elephant.NoVersion, store.why, "/l", version=4)
            # After a trim no stored event removed them. What is removed later has its path and cause.
            store.trim()
            with self.assertRaises(Forgotten) as told:
                store.why("/l", version=2)
            self.assertEqual((told.exception.last, told.exception.subject), (1, "/l"))
            store.set_policy("/l", KeepOne())
            store.clean()
            self.assertEqual(store.gone().removals, (Removal(at(30), 2, 1, "/l", at(12), Cause.AT_ONCE, spelled=b"/l"),))
            self.assertEqual(store.why("/l", version=1), Removed(at(30), at(12), Cause.AT_ONCE))

    def test_a_removed_version_is_explained_only_by_its_number(self) -> None:
        with audited() as store:
            store.set_default("/", KeepOne())
            store.save("/f", b"one")
            store.clock(5)
            store.save("/f", b"two")
            store.pass_()
            self.assertEqual(store.why("/f", version=1), Removed(at(5), at(0), Cause.AT_ONCE))
            # At 1 it is version 2, which was removed too.
            self.assertRaises(Forgotten, store.why, "/f", at=1)

    def test_what_open_handles_read(self) -> None:
        with audited() as store:
            store.set_default("/", KeepAll())
            store.mkdir("/d")
            store.save("/d/f", b"one")
            store.clock(3)
            store.reader("/d/f")
            store.trim()
            store.clock(7)
            store.reader("/d/f", version=1)
            store.session("/d/f")
            store.rename("/d/f", "/g")
            # The event that opened the first reader is folded.
            rows = [(1, 2, None), (2, 1, at(7)), (3, None, at(7))]
            self.assertEqual(store.handles(), [OpenHandle(handle, 1, version, since, "/g", b"/g") for handle, version, since in rows])
            store.unlink("/g")
            self.assertEqual(store.handles()[2], OpenHandle(3, 1, None, at(7), None, None))

    def test_only_with_a_history(self) -> None:
        with Store(clock="manual") as store:
            store.set_default("/", KeepOne())
            store.save("/f", b"one")
            store.clean()
            for call in (store.gone, store.handles, store.answers, store.history):
                self.assertRaises(NoHistory, call)
            self.assertRaises(Forgotten, store.why, "/f", version=1)


def word_of(value: object) -> str:
    return "-" if value is None else value.decode("ascii") if isinstance(value, bytes) else str(value)


def printed(found: Union[Gone, Answers, History, list[OpenHandle]]) -> str:
    """Returns typed rows as the language prints them."""
    if isinstance(found, Gone):
        rows = [
            f"- {it.moment} {it.file} {it.number} {word_of(it.spelled)} "
            + str(Removed(at(0), it.since, it.cause, it.age, it.by, it.level, it.held)).removeprefix("removed 0 ")
            for it in found.removals
        ]
        head = f"ok gone {found.folded}"
    elif isinstance(found, Answers):
        rows, head = [f"- {it.line}\n{it.answer[:-1]}" for it in found.answered], f"ok answers {found.folded}"
    elif isinstance(found, History):
        rows, head = [f"- {it}" for it in found.lines], f"ok history {found.folded}"
    else:
        rows = [
            f"- {it.handle} {it.file} {'draft' if it.version is None else it.version} {word_of(it.since)} {word_of(it.spelled)}"
            for it in found
        ]
        head = "ok handles"
    return "".join(f"{row}\n" for row in [f"{head} {len(rows)}", *rows])


@unittest.skipUnless(DATA.is_dir(), "there are no worked scripts")
class WorkedScripts(unittest.TestCase):
    def test_nothing_of_an_answer_is_lost(self) -> None:
        """After each worked script the typed rows, printed again, are the answers."""
        asked = {"gone": 0, "handles": 0, "answers": 0, "history": 0}
        for script in sorted(DATA.glob("*.script")):
            lines = script.read_bytes().decode("latin-1").split("\n")[:-1]
            if len(lines) > 400:
                continue
            with self.subTest(script.name), audited() as store:
                for line in lines:
                    store.line(line.encode("latin-1").decode("utf-8", "surrogateescape"))
                for name in asked:
                    answer = store.line(name)
                    self.assertEqual(printed(getattr(store, name)()), answer)
                    asked[name] += answer.count("\n")
        self.assertGreater(min(asked.values()), 100)

    def test_a_version_of_each_removal_is_explained(self) -> None:
        found = 0
        for script in sorted(DATA.glob("*.script")):
            lines = script.read_bytes().decode("latin-1").split("\n")[:-1]
            if len(lines) > 400:
                continue
            with self.subTest(script.name), audited() as store:
                for line in lines:
                    store.line(line.encode("latin-1").decode("utf-8", "surrogateescape"))
                for it in store.gone().removals:
                    path = store.path_of(it.file)
                    if path is None:
                        continue
                    fate = Removed(it.moment, it.since, it.cause, it.age, it.by, it.level, it.held)
                    try:
                        self.assertEqual(store.why(path, version=it.number), fate)
                    except ElephantError as fault:
                        self.fail(f"{it}: {fault}")
                    found += 1
        self.assertGreater(found, 20)


if __name__ == "__main__":
    unittest.main()
