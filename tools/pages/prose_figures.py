"""Figures on pages that the tree itself has: how many of a thing there are. A page that says another number is out of date."""

import re
from collections.abc import Callable, Collection
from typing import NamedTuple

from pages.prose_names import Tree

NUMBER = r"(?<![\d.,-])(\d{1,3}(?:,\d{3})+|\d+)(?![\d.]*\d)"


class Figure(NamedTuple):
    """A thing, the form in which pages say how many there are, and the numbers that the tree gives."""

    name: str
    form: re.Pattern[str]
    numbers: Callable[[Tree], Collection[int]]


def wrong_bodies(tree: Tree) -> set[int]:
    """Returns how many wrong bodies the gate tries, how many more `./check --long` tries, and how many there are."""
    edits = [it.split("/") for it in tree.files if it.endswith(".edit")]
    tried, others = (sum(folder in parts for parts in edits) for folder in ("must-fail", "must-fail-long"))
    return {tried, others, tried + others}


def tests(tree: Tree) -> set[int]:
    """Returns how many tests the crates of tests/ have, each and together."""
    each = [len(re.findall(r"^\s*#\[test\]", text, re.M)) for text in texts_of_tests(tree)]
    return {*each, sum(each)}


def texts_of_tests(tree: Tree) -> list[str]:
    """Returns the sources of each crate of tests/, as one text."""
    texts: dict[str, str] = {}
    for name in sorted(tree.files):
        if re.match(r"tests/\w+/src/", name):
            texts[name.split("/")[1]] = texts.get(name.split("/")[1], "") + tree.read(name)
    return list(texts.values())


def minutes(tree: Tree) -> set[int]:
    """Returns how many minutes the core takes to read, as docs/TRUST.md says, which tools/pages/trust_lines reckons."""
    found = re.search(r"\| all of the core \| \d+ \| (\d+) \|", tree.read("docs/TRUST.md")) if "docs/TRUST.md" in tree.files else None
    return {int(found[1])} if found else set()


def questions(tree: Tree) -> set[int]:
    """Returns how many questions tools/pages/stranger asks."""
    name = "tools/pages/questions.txt"
    return {sum(1 for line in tree.read(name).splitlines() if "|" in line)} if name in tree.files else set()


FIGURES = [
    Figure("wrong bodies", re.compile(rf"{NUMBER} wrong bod(?:y|ies)"), wrong_bodies),
    Figure("tests of tests/", re.compile(rf"{NUMBER} tests, \d+ minutes on"), tests),
    Figure("minutes to read the core", re.compile(rf"core takes? {NUMBER} minutes"), minutes),
    Figure("minutes to read the core", re.compile(rf"of the core take {NUMBER} minutes"), minutes),
    Figure("questions of a user", re.compile(rf"^{NUMBER} questions"), questions),
]


class Counted:
    """The numbers of a tree, each counted once."""

    def __init__(self, tree: Tree) -> None:
        self.tree, self.numbers = tree, dict[str, Collection[int]]()

    def of(self, figure: Figure) -> Collection[int]:
        """Returns the numbers that a figure may have."""
        if figure.name not in self.numbers:
            self.numbers[figure.name] = figure.numbers(self.tree)
        return self.numbers[figure.name]
