"""docs/EMBED.md has each call of the package, and each field of its rows."""

import re
import unittest
from pathlib import Path

import elephant
from elephant import Store

TOP = Path(__file__).resolve().parents[3]
PAGE = TOP / "docs" / "EMBED.md"
CODE = re.compile(r"`([^`]*)`")
# Calls and attributes that are about the store itself, which the page describes elsewhere.
OF_STORE = {"clock_fault", "is_closed", "is_read_only", "last_change", "may_remove", "recovered", "trust_clock"}


def cells(line: str) -> list[str]:
    """Returns the cells of a row, also blank ones."""
    return [it.strip() for it in line.strip().removeprefix("|").removesuffix("|").split("|")]


def rows_of(heading: str) -> list[list[str]]:
    section = PAGE.read_text(encoding="utf-8").partition(f"\n## {heading}\n")[2].partition("\n## ")[0]
    first = re.search(r"(?:^\|.*\n)+", section, re.M)
    assert first is not None
    return [cells(line) for line in first[0].splitlines()[2:]]


def fields() -> dict[str, set[str]]:
    """Returns the fields of each row of the package."""
    return {CODE.findall(row)[0]: set(CODE.findall(listed)) for row, listed, _ in rows_of("All fields")}


@unittest.skipUnless(PAGE.is_file(), "there is no docs/EMBED.md")
class Page(unittest.TestCase):
    def test_fields_of_python(self) -> None:
        table = fields()
        kinds = {name: kind._fields for name, kind in vars(elephant).items() if isinstance(kind, type) and hasattr(kind, "_fields")}
        kinds = {name: found for name, found in kinds.items() if found and name not in ("DeadName", "Time")}
        self.assertGreater(len(kinds), 18)
        for name, listed in kinds.items():
            self.assertEqual(set(listed), table.get(name), name)

    def test_calls(self) -> None:
        listed = {CODE.findall(form)[0].partition("(")[0] for form, _ in rows_of("All calls")}
        self.assertEqual({name for name in dir(Store) if not name.startswith("_")} - OF_STORE - listed, set())


if __name__ == "__main__":
    unittest.main()
