"""The commands of scripts from docs/SCRIPT.md, and the numbers of errors from docs/ERRORS.md."""

import re

from gate.building import ROOT, match_in

TABLE = re.compile(r"^\| Line \| Answer \|.*\n\|[-|]+\|\n((?:\|.*\n)+)", re.M)
LIST = re.compile(r"^\| `[^|]*\| `ok (\w+)((?: [A-Z])*) (?:K|4)`, then [^|]*\|", re.M)
NUMBER = re.compile(r"^\| (\d+) \| (\w+) \|", re.M)
LINE = re.compile(r"`([a-z]+(?: [a-z]+)?)((?: [A-Z]+)*)`")


def read_commands() -> dict[str, list[list[str]]]:
    """Returns each command with the letters of its words, once for each form: `mark` has G M, and G M U."""
    found: dict[str, list[list[str]]] = {}
    text = (ROOT / "docs" / "SCRIPT.md").read_text(encoding="utf-8")
    for row in match_in(TABLE, text)[1].splitlines():
        for name, words in LINE.findall(row.split("|")[1]):
            found.setdefault(name, []).append(words.split())
    return found


def list_form() -> str:
    """Returns the form of the first line of each answer with rows, with their count as its only group. Rows of `answers` have answers of
    their own below them, so its form isn't among these."""
    text = (ROOT / "docs" / "SCRIPT.md").read_text(encoding="utf-8")
    words = [name + r" \d+" * len(letters.split()) for name, letters in LIST.findall(text) if name != "answers"]
    return rf"ok (?:{'|'.join(words)}) (\d+)$"


def read_numbers(heading: str) -> dict[str, int]:
    """Returns the number of each name in the table below a heading of docs/ERRORS.md."""
    text = (ROOT / "docs" / "ERRORS.md").read_text(encoding="utf-8").partition(f"\n## {heading}\n")[2]
    return {name: int(digits) for digits, name in NUMBER.findall(text.partition("\n## ")[0])}
