"""The codes of each call in the comments of include/elephant.h. No compiler looks at them. tools/pages/surface compares the rest."""

import re
import unittest
from pathlib import Path

from elephant import _moments
from header import HEADER, codes_of, numbers_of

TOP = Path(__file__).resolve().parents[3]
CRATES, SCRIPT = TOP / "crates", TOP / "docs" / "SCRIPT.md"
# The calls that are named otherwise than their commands.
CALLS = {"close H": "close_handle", "read H": "read_handle"}
# The codes that an argument may have, by the name of the parameter.
OF_ARGUMENTS = {
    "path": {"BAD_PATH", "BAD_NAME"}, "from": {"BAD_PATH", "BAD_NAME"}, "to": {"BAD_PATH", "BAD_NAME"}, "tag": {"BAD_MOMENT", "SYNTAX"},
    "moment": {"BAD_MOMENT"}, "until": {"BAD_MOMENT"}, "policy": {"BAD_LADDER", "SYNTAX"}, "group": {"BAD_NAME"},
}
# Any call may be stopped.
STOPS = {"NO_MEMORY", "HISTORY_FULL"}


def refusals_of_script(codes: dict[str, str]) -> dict[str, set[str]]:
    """Returns the codes of the refusals of each command of docs/SCRIPT.md, by its line. `codes` has a code by the name of its refusal."""
    rows = re.findall(r"^\| (`[a-z][^|]*) \| [^|]* \| ([^|]*) \|$", SCRIPT.read_text(encoding="utf-8"), re.M)
    texts = {line: refusals for lines, refusals in rows for line in re.findall("`([^`]+)`", lines)}

    def of(text: str) -> set[str]:
        found = {codes[it] for it in re.findall(r"\w+", text) if it in codes}
        found |= {"NO_ENTRY", "NOT_DIRECTORY"} if "walk" in text else set()
        also = re.search("those of `([^`]+)`", text)
        return found | of(texts[also[1]]) if also else found

    return {line: of(text) for line, text in texts.items()}


@unittest.skipUnless(HEADER.is_file() and CRATES.is_dir(), "there are no sources")
class HeaderWords(unittest.TestCase):
    text: str

    @classmethod
    def setUpClass(cls) -> None:
        cls.text = HEADER.read_text(encoding="utf-8")

    def test_never(self) -> None:
        self.assertEqual(_moments.NEVER, (1 << 64) - 1)

    def test_codes_in_comments(self) -> None:
        """Codes that a comment names are codes, and those with a detail are told by their numbers."""
        codes = {name: int(value) for name, value in re.findall(r"ELEPHANT_(\w+) = (\d+)", self.text)}
        comments = " ".join(re.findall(r"/\*(.*?)\*/", self.text, re.S))
        of_calls = " ".join(re.findall(r"/\*(.*?)\*/", self.text.partition("/* ---- The handle ---- */")[2], re.S))
        listed = re.findall(r"(?<![\w'.])(?:ELEPHANT_)?([A-Z]{2,}(?:_[A-Z]+)*)(?=[,;.])", of_calls)
        self.assertGreater(len(listed), 50)
        known = {"NEVER", *codes, *(it.removeprefix("IS_") for it in codes)}
        self.assertEqual(set(listed) - known, set())
        detailed = re.search(r"elephant_detail returns the detail of (\d+) and (\d+)", comments)
        assert detailed is not None
        self.assertEqual([int(it) for it in detailed.groups()], [codes["FORGOTTEN"], codes["FULL"]])

    def test_codes_of_each_call(self) -> None:
        """A call has the refusals of its command in docs/SCRIPT.md, and the codes of its arguments."""
        refusals = refusals_of_script({"".join(word.title() for word in it.split("_")): it for it in numbers_of(self.text)})
        calls, tried = codes_of(self.text), set()
        for line, refused in refusals.items():
            name = CALLS.get(line) or "_".join(re.findall(r"(?<!\S)[a-z]+", line))
            if name not in calls:
                continue
            tried.add(name)
            call = calls[name]
            arguments = {code for it in call.parameters for code in OF_ARGUMENTS.get(it, ())}
            with self.subTest(line):
                self.assertEqual((refused | arguments) - call.own - call.section, set(), "left out")
                self.assertEqual(call.own - refused - arguments - STOPS, set(), "no refusal of the command")
        self.assertGreater(len(tried), 35)


if __name__ == "__main__":
    unittest.main()
