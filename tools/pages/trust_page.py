"""The lists and counts of docs/TRUST.md, and how they differ from what the public clauses reach."""

import re
from collections.abc import Callable, Collection, Iterable, Iterator, Sequence
from dataclasses import dataclass
from pathlib import Path
from typing import NamedTuple

from pages.definitions import Repository

TYPE = re.compile(r"\s*pub(\(crate\))? (struct|enum|type) ")
FUNCTION = re.compile(r'\s*pub (unsafe )?(extern "C" )?fn ')
METHOD = re.compile(r"    (fn|ghost) (?!use )")
SEEN = re.compile(r"\s*ghost (Value|view|invariant) ")
SKIPPED = re.compile(r"\s*(//|--|#\[|(pub )?use |ghost use |$)")
KINDS = ("types", "contracts", "whole")
NO_CLAUSE = "No public clause cites this module"
# The parts of the page for those who call the core.
HEADLINE, CORE = "The headline", "The core"
NO_READER = "No public clause that a reader of the core needs cites this module"
LEFT_OUT = "- The clauses of "
UNUSED = "The contracts of the last row use none of these words"


class Listed(NamedTuple):
    """A file that the page lists, and which part of it (`specs`, one of KINDS, or `any`)."""

    kind: str
    name: str


def counted(lines: Iterable[str]) -> int:
    """Returns how many of the lines count."""
    return sum(1 for line in lines if not SKIPPED.match(line))


def types_in(lines: Iterable[str]) -> list[str]:
    """Returns the lines of the public types."""
    found, inside = [], False
    for line in lines:
        inside = inside or bool(TYPE.match(line))
        if inside:
            found.append(line)
        inside = inside and not line.startswith("}") and not line.rstrip().endswith((";", "{}"))
    return found


def contracts_in(lines: Iterable[str]) -> list[str]:
    """Returns the signatures and clauses of the public functions and traits, and what a contract sees of a type."""
    found, inside, in_trait = [], False, False
    for line in lines:
        in_trait = line.startswith("pub trait ") or in_trait and not line.startswith("}")
        inside = inside or bool((METHOD if in_trait else FUNCTION).match(line))
        if inside and line.strip() in ("{", "{}"):
            inside = False
        if inside or SEEN.match(line):
            found.append(line)
        inside = inside and not line.rstrip().endswith(("{", ";") if in_trait else "{")
    return found


def cells_of(line: str) -> list[str]:
    return [cell.strip() for cell in re.split(r"(?<!\\)\|", line.strip("|"))] if line.startswith("|") else []


def files_in(cell: str) -> list[Listed]:
    """Returns the files that a cell names, each with its kind, which follows in brackets. A name without a folder is in the folder of the
    one before it."""
    found: list[Listed] = []
    waiting: list[str] = []
    folder = ""
    for name, kind in re.findall(rf"`([\w/]+)`|\(({'|'.join(KINDS)})", cell):
        if kind:
            found += [Listed(kind, it) for it in waiting]
            waiting = []
            continue
        folder = name.rsplit("/", 1)[0] if "/" in name else folder
        whole = f"{folder}/{name.rsplit('/', 1)[-1]}"
        if "/src/" in whole:
            waiting.append(whole)
        else:
            found.append(Listed("specs", whole))
    return found + [Listed("any", it) for it in waiting]


# What is to be read of a file that is listed for one part of it.
PARTS_TO_READ: dict[str, Callable[[list[str]], list[str]]] = {"contracts": contracts_in, "types": types_in}


@dataclass
class Table:
    """The sums of the tables of a part of the page so far."""

    title: str
    lines: int = 0
    minutes: int = 0


class Page:
    """The lines of the page over a repository. A table whose rows have figures is for readers; a table of two columns says which files
    not to read, and why."""

    def __init__(self, lines: Sequence[str], repository: Repository) -> None:
        self.lines, self.repository = lines, repository
        rows = [cells_of(line) for line in lines]
        self.read = {it for cells in rows if len(cells) > 3 for it in files_in(cells[0])}
        self.elsewhere = {name for cells in rows if len(cells) == 2 for _, name in files_in(cells[0])}
        start = [line.partition(":")[0] for line in lines if line.startswith(LEFT_OUT)]
        self.left_out = {name for line in start for name in re.findall(r"`(\w+)`", line)}

    def path_of(self, name: str) -> Path:
        """Returns the path of a file that the page names."""
        return self.repository.folder / f"{name}{'.rt' if '/src/' in name else '.antt'}"

    def lines_of(self, kind: str, name: str) -> int:
        """Returns how many lines are to be read of a file: all of a specs file, and of a Rust file those of the kind."""
        if not self.path_of(name).is_file():
            return 0
        lines = self.path_of(name).read_text(encoding="utf-8").splitlines()
        return counted(PARTS_TO_READ.get(kind, list)(lines))

    def count(self, line: str, table: Table) -> str:
        """Counts a row, and returns it with its figures corrected. Other lines stay."""
        cells = cells_of(line)
        if len(cells) < 4 or not cells[1].isdecimal():
            return line
        if cells[0].startswith("all"):
            return re.sub(r"^(\|[^|]*\|)[^|]*\|[^|]*\|", rf"\1 {table.lines} | {table.minutes} |", line)
        found = sum(self.lines_of(*it) for it in files_in(cells[0]))
        table.lines, table.minutes = table.lines + found, table.minutes + int(cells[2])
        return re.sub(r"^(\|[^|]*\|)[^|]*\|", rf"\1 {found} |", line)

    def put_right(self) -> tuple[list[str], list[Table]]:
        """Returns the lines with their figures and the unused words corrected, and the counts of each part."""
        tables, lines = [Table("")], []
        for line in self.lines:
            if line.startswith("## "):
                tables.append(Table(line[3:]))
            lines.append(self.with_unused(line) if line.startswith(UNUSED) else self.count(line, tables[-1]))
        tables = [it for it in tables if it.lines]
        core = next((it for it in tables if it.title == CORE), Table(CORE))
        return [re.sub(r"(?<=\*\*The core takes )\d+", str(core.minutes), line) for line in lines], tables

    def with_unused(self, line: str) -> str:
        """Returns the line that says which words of the core's files the contracts of its last row don't use, as it should be."""
        end = self.lines.index(line)
        begin = max(i for i, it in enumerate(self.lines[:end]) if it.startswith("## "))
        rows = [files_in(cells_of(it)[0]) for it in self.lines[begin:end] if len(cells_of(it)) > 3]
        listed = dict.fromkeys(name for row in rows for kind, name in row if kind == "specs")
        last = {name for kind, name in next(row for row in reversed(rows) if row) if kind == "contracts"}
        clauses = (it for it in self.repository.clauses_of(self.repository.crates) if f"{it[0]}/src/{it[1]}" in last)
        used = self.repository.closure(clauses)
        names: dict[str, set[str]] = {it: set() for it in [*(node.place() for node in used), *listed]}
        for node in used:
            names[node.place()].add(node.name)
        unused = [it for name in listed for it in self.repository.words_of(name) if it not in names[name]]
        return f"{line.partition(':')[0]}: {', '.join(f'`{it}`' for it in unused)}."

    def sizes(self) -> list[int]:
        """Returns how many lines all crates have of code, of definitions and of proofs, without comments and blank ones."""
        texts = {part: self.repository.folder.glob(f"*/{part}/**/*.*t") for part in ("src", "specs", "proofs")}
        lines = {part: (line for path in paths for line in path.read_text(encoding="utf-8").splitlines()) for part, paths in texts.items()}
        return [sum(1 for line in of_part if not re.match(r"\s*(//|--|$)", line)) for of_part in lines.values()]

    def needed_of(self, crates: Collection[str]) -> dict[Listed, set[str]]:
        """Returns the files that the public clauses of these crates reach, each with its kind and the names that they use of it."""
        needed: dict[Listed, set[str]] = {}
        repository = self.repository
        for node in repository.closure(repository.clauses_of(crates)):
            kind = repository.kind_to_read(node)
            if kind:
                needed.setdefault(Listed(kind, node.place()), set()).add(node.name)
        for crate, file, item in repository.clauses_of(crates):
            if item.kind in ("fn", "export") and re.search(r"\b(ensures|requires)\b", item.clauses):
                needed.setdefault(Listed("contracts", f"{crate}/src/{file}"), set()).add(item.name)
        return needed

    def holes(self) -> Iterator[str]:
        """Yields a line for each file that the page leaves out, or lists though no public clause reaches it, and for each file of
        definitions whose first words on that are wrong."""
        needed = self.needed_of(self.repository.crates - self.left_out)
        for (kind, name), names in sorted(needed.items()):
            is_there = (kind, name) in self.read or kind == "either" and {("types", name), ("contracts", name)} & self.read
            if not is_there and name not in self.elsewhere:
                what = "" if kind == "specs" else f" ({kind.replace('either', 'contracts')})"
                yield f"the page leaves out {name}{what}, of which public clauses use {', '.join(sorted(names))}"
        yield from self.surplus({name for _, name in needed})
        yield from self.first_lines({name for kind, name in needed if kind == "specs"})

    def surplus(self, reached: Collection[str]) -> Iterator[str]:
        """Yields a line for each file that the page shouldn't list so."""
        for kind, name in sorted(self.read | {Listed("any", it) for it in self.elsewhere}):
            is_read = Listed(kind, name) in self.read
            if not self.path_of(name).is_file():
                yield f"the page lists {name}, which isn't there"
            elif is_read and kind != "whole" and name not in reached:
                yield f"the page lists {name}, which no public clause reaches"
            elif is_read and kind == "any":
                yield f"the page lists {name} without saying whether for its types or its contracts"

    def first_lines(self, of_readers: set[str]) -> Iterator[str]:
        """Yields a line for each file of definitions whose first words are wrong about the public clauses that reach it."""
        of_all = {name for kind, name in self.needed_of(self.repository.crates) if kind == "specs"}
        for (crate, module), text in sorted(self.repository.modules.items()):
            name = f"{crate}/specs/{module}"
            says = NO_CLAUSE if NO_CLAUSE in text.head else NO_READER if NO_READER in text.head else ""
            if says == NO_CLAUSE and name in of_all or says == NO_READER and name in of_readers:
                yield f"{name} says \"{says}\", and one does"
            elif says != NO_CLAUSE and name not in of_all:
                yield f"{name} doesn't say \"{NO_CLAUSE}\", and none does"
            elif not says and name not in of_readers | self.elsewhere and crate not in self.left_out:
                yield f"{name} doesn't say \"{NO_READER}\", and the page doesn't list it"
