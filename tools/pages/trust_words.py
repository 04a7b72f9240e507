"""The tables of docs/TRUST.md with the words that definitions take from libraries, and how they differ from what the listed files use."""

import re
from collections.abc import Iterator, Sequence
from typing import NamedTuple

from pages.definitions import Chain, Imports, Item, Repository, operators_in
from pages.trust_page import CORE, HEADLINE, Listed, cells_of, files_in

# The first line of each of the two tables: that of the headline and the core, and that of the other parts.
FIRST_LINE = "| Words | Of | Meaning |"
TYPES = ("struct", "enum", "type", "trait")
# Parts of a path that only say what kind of item it leads to.
KINDS_IN_PATH = ("declared", "contracts", "TheVariants")

# The places of libraries from which a word is imported, by word.
Places = dict[str, set[str]]


class Row(NamedTuple):
    """A row of such a table: its words, the places that it names and its meaning."""

    words: list[str]
    places: str
    meaning: str

    def line(self) -> str:
        """Returns the row as the page has it."""
        return f"| {', '.join(f'`{it}`' for it in self.words)} | {self.places} | {self.meaning} |".replace("|  |", "| |")


def row_of(line: str) -> Row:
    """Returns the row of a line. A vertical bar in a word is written `\\|`."""
    words, places, meaning = (it.strip() for it in re.split(r"(?<!\\)\|", line.strip())[1:-1])
    return Row(re.findall(r"`([^`]+)`", words), places, meaning)


def place_of(path: Chain) -> tuple[str, str]:
    """Returns the word to which a path leads, and its place: the library and the module."""
    library, _, *parts = (it for it in path[1:] if it not in KINDS_IN_PATH)
    return parts[-1].replace("|", "\\|"), "/".join([library, *parts[:-1]])


def used_in(item: Item, imports: Imports) -> Imports:
    """Returns those of the imports that an item's clauses use."""
    signs = {name for name, in operators_in(item.clauses, imports)}
    plain = {it for it in imports if "◌" not in it and re.search(rf"(?<![\w.]){re.escape(it)}(?!\w)", item.clauses)}
    return {name: it for name, it in imports.items() if name in signs | plain}


def imports_of(repository: Repository, listed: Listed) -> Iterator[Chain]:
    """Yields the paths of all that a listed file imports for what is to be read of it."""
    crate, _, file = listed.name.split("/", 2)
    if listed.kind == "specs":
        yield from (it.path for it in repository.modules[crate, file].imports.values())
        return
    for _, _, item in (it for it in repository.clauses_of({crate}) if it[1] == file):
        is_type = item.kind in TYPES or item.name == "Value"
        if is_type or item.kind != "ghost" and listed.kind != "types":
            imports = {**repository.sources[crate, file].imports, **item.imports}
            yield from (it.path for it in used_in(item, imports).values())


def words_of(repository: Repository, lines: Sequence[str]) -> tuple[Places, Places]:
    """Returns the words of libraries that the files of the headline and the core use, and the further ones of the other parts."""
    core: Places = {}
    rest: Places = {}
    title = ""
    for line in lines:
        title = line[3:] if line.startswith("## ") else title
        cells = cells_of(line)
        for listed in files_in(cells[0]) if len(cells) > 3 else []:
            for path in imports_of(repository, listed):
                if len(path) > 3 and path[0] == "Rattle" and path[1] not in repository.crates:
                    word, place = place_of(path)
                    (core if title in (HEADLINE, CORE) else rest).setdefault(word, set()).add(place)
    return core, {word: places for word, places in rest.items() if word not in core}


class Words:
    """The two tables of a page."""

    def __init__(self, lines: Sequence[str], repository: Repository) -> None:
        self.lines = list(lines)
        self.starts = [place + 2 for place, line in enumerate(lines) if line == FIRST_LINE]
        self.wanted = words_of(repository, lines)

    def end_of(self, start: int) -> int:
        """Returns the place of the line after a table."""
        return next((place for place in range(start, len(self.lines)) if not self.lines[place].startswith("|")), len(self.lines))

    def rows_of(self, start: int) -> list[Row]:
        return [row_of(line) for line in self.lines[start:self.end_of(start)]]

    def put_right(self) -> list[str]:
        """Returns the lines of the page, with each table's words and places as they should be. A word that it lacked has no meaning yet."""
        lines = list(self.lines)
        for start, wanted in reversed(list(zip(self.starts, self.wanted))):
            rows = []
            for row in self.rows_of(start):
                words = [it for it in row.words if it in wanted]
                places = sorted(set().union(*(wanted[it] for it in words)))
                rows += [Row(words, ", ".join(f"`{it}`" for it in places), row.meaning)] if words else []
            there = {it for row in rows for it in row.words}
            rows += [Row([word], ", ".join(f"`{it}`" for it in sorted(wanted[word])), "") for word in sorted(set(wanted) - there)]
            lines[start:self.end_of(start)] = [row.line() for row in rows]
        return lines

    def holes(self) -> Iterator[str]:
        """Yields a line for each word that a table leaves out, has twice, has in vain or doesn't explain."""
        if len(self.starts) != len(self.wanted):
            yield f"the page has {len(self.starts)} tables of words of libraries, and should have {len(self.wanted)}"
            return
        for start, wanted in zip(self.starts, self.wanted):
            rows = self.rows_of(start)
            words = [it for row in rows for it in row.words]
            yield from (f"the page leaves out the word {it} of {', '.join(sorted(wanted[it]))}" for it in sorted(set(wanted) - set(words)))
            yield from (f"the page explains {it}, which none of these files uses" for it in sorted(set(words) - set(wanted)))
            yield from (f"the page explains {it} twice" for it in sorted(set(words)) if words.count(it) > 1)
            yield from (f"the page doesn't say what {it} means" for row in rows for it in row.words if not row.meaning)
