"""What the package makes of the numbers of include/elephant.h. tools/pages/surface prints and compares the numbers, rows and calls."""

import errno
import re
import types
import unittest
from pathlib import Path
from typing import Optional
from unittest import mock

from elephant import Current, Due, KeepAll, KeepOne, KeepSafe, Kept, Moment, Open, _errors, _moments, _questions
from elephant._core import Core

TOP = Path(__file__).resolve().parents[3]
HEADER, PAGE = TOP / "include" / "elephant.h", TOP / "docs" / "ERRORS.md"


@unittest.skipUnless(HEADER.is_file(), "there is no include/elephant.h")
class Header(unittest.TestCase):
    text: str

    @classmethod
    def setUpClass(cls) -> None:
        cls.text = re.sub(r"/\*.*?\*/", "", HEADER.read_text(encoding="utf-8"), flags=re.S)

    def number(self, name: str) -> int:
        found = re.search(rf"\bELEPHANT_{name} = (\d+)", self.text)
        assert found is not None, name
        return int(found[1])

    def test_policies(self) -> None:
        kinds = {self.number(f"KEEP_{it.upper()}"): it for it in _questions._KINDS}
        self.assertEqual(kinds, dict(enumerate(_questions._KINDS)))
        for name, policy in (("ONE", KeepOne()), ("ALL", KeepAll()), ("SAFE", KeepSafe(seconds=9, floor=2))):
            row = types.SimpleNamespace(policy=self.number(f"KEEP_{name}"), seconds=9, floor=2, rungs=0)
            self.assertEqual(Core.policy_of(mock.Mock(spec=Core), row), policy)

    def test_fates_and_causes(self) -> None:
        def fate(name: str, cause: int = 0) -> object:
            row = types.SimpleNamespace(moment=5, until=_moments.NEVER, level=1, cause=cause, seconds=7, by=8)
            core = mock.Mock(spec=Core, library=mock.Mock())
            core.row_found.return_value = None
            return _questions._FATES[self.number(name)](core, row)

        self.assertEqual((fate("IS_CURRENT"), fate("IS_OPEN"), fate("IS_KEPT")), (Current(), Open(), Kept(None, 1)))
        self.assertIs(_questions._FATES[self.number("IS_MARKED")], _questions._marked)
        causes = {"AT_ONCE": Due(Moment(5)), "BY_AGE": Due(Moment(5), age=7), "DISPLACED": Due(Moment(5), by=8, level=1)}
        for name, due in causes.items():
            self.assertEqual(fate("IS_DUE", self.number(name)), due)
        self.assertEqual(len(_questions._FATES), len(re.findall(r"ELEPHANT_IS_(?:CURRENT|OPEN|MARKED|KEPT|DUE) = ", self.text)))

    @unittest.skipUnless(PAGE.is_file(), "there is no docs/ERRORS.md")
    def test_each_error_means_what_the_page_says(self) -> None:
        rows = re.findall(r"^\| (\d+) \| \w+ \| ([^|]*) \|$", PAGE.read_text(encoding="utf-8"), re.M)
        meanings = {int(number): text for number, text in rows}
        tested = 0
        for number, kind in _errors.BY_NUMBER.items():
            meaning = kind("/f").meaning
            self.assertTrue(meaning[0].isupper() and meaning[-1] == ".", meaning)
            if number in meanings:
                sentence = meaning[0].lower() + meaning[1:]
                self.assertTrue(f"{meanings[number]}.".startswith(sentence), f"{meaning} {meanings[number]}")
                tested += 1
        self.assertEqual(tested, 33)
        self.assertEqual(_errors.JournalLocked().meaning, "Another store has the journal.")

    def test_bases(self) -> None:
        # As docs/EMBED.md says, with the numbers of the system.
        system: dict[type[Exception], tuple[type[Exception], Optional[int]]] = {
            _errors.NoEntry: (FileNotFoundError, errno.ENOENT), _errors.NotDirectory: (NotADirectoryError, errno.ENOTDIR),
            _errors.IsDirectory: (IsADirectoryError, errno.EISDIR), _errors.Exists: (FileExistsError, errno.EEXIST),
            _errors.JournalLocked: (BlockingIOError, errno.EWOULDBLOCK),
        }
        for error in (*_errors.BY_NUMBER.values(), _errors.JournalLocked):
            base, wanted = system.get(error, (OSError, None))
            fault = error("/f")
            self.assertEqual((isinstance(fault, base), getattr(fault, "errno", None)), (error in system, wanted), error)
        of_lines, of_stores = "BadName BadPath BadMoment BadLadder Syntax", "Closed BadLimits NoHistory BadCheckpoint HandlesOpen"
        of_journals = "NoJournal HasJournal BadJournal"
        values = {*of_lines.split(), *of_stores.split(), *of_journals.split()}
        self.assertEqual({it.__name__ for it in _errors.BY_NUMBER.values() if issubclass(it, ValueError)}, values)
        memory = {it.__name__ for it in _errors.BY_NUMBER.values() if issubclass(it, MemoryError)}
        self.assertEqual(memory, {"NoMemory", "Untold"})


if __name__ == "__main__":
    unittest.main()
