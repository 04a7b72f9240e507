"""What tools/pages/surface does with a tree: it prints each file, and compares what it doesn't print."""

from collections.abc import Iterator
from typing import NamedTuple

from gate.building import ROOT
from pages import (
    surface_calls, surface_crates, surface_docs, surface_header, surface_numbers, surface_python, surface_rows, surface_rust,
    surface_version,
)
from pages.surface_facts import EXPORTS, SOURCES, facts_of
from pages.surface_header import HEADER
from pages.surface_regions import Tree

PARTS = (surface_calls, surface_python, surface_rust, surface_docs, surface_crates, surface_rows)
PRINTED = [
    HEADER, surface_calls.SOURCE, *surface_python.PRINTED, *surface_rust.PRINTED, surface_docs.SCRIPT, surface_docs.ERRORS,
    surface_docs.LIBRARY, *surface_docs.OF_EVENTS, surface_crates.PAGE, surface_rows.PAGE, *surface_version.PRINTED,
]


class Outcome(NamedTuple):
    """What a tree should be: each file that is printed, what else differs from the sources, and how much was compared."""

    printed: dict[str, str]
    complaints: list[str]
    counted: str

    def stale(self, tree: Tree) -> list[str]:
        """Returns the files of a tree that are printed otherwise."""
        return [path for path, text in self.printed.items() if text != tree[path]]


def read_tree() -> dict[str, str]:
    """Returns the files of this repository that have a part in the surface."""
    exports = sorted(str(it.relative_to(ROOT)) for it in (ROOT / EXPORTS).glob("*.rt"))
    others = [*surface_version.SOURCES, surface_version.CHANGES, *surface_numbers.COMPARED, *surface_crates.READMES, *surface_rows.SOURCES]
    return {path: (ROOT / path).read_text(encoding="utf-8") for path in [*SOURCES, *exports, *PRINTED, *others]}


def outcome_of(tree: Tree) -> Outcome:
    """Prints a tree. The clients are printed from the header as it is printed."""
    facts = facts_of(tree)
    printed = surface_version.made(tree)
    printed[HEADER] = surface_header.made({**tree, **printed}, facts)
    with_header = {**tree, **printed}
    for part in PARTS:
        printed.update(part.made(with_header, facts))
    whole = {**tree, **printed}
    compared = (surface_header, surface_calls, surface_python, surface_docs, surface_crates, surface_numbers)
    complaints = [it for part in compared for it in part.complaints(whole, facts)]
    complaints += surface_version.complaints(whole)
    columns = sum(len(it) for it in facts.rows.values())
    counted = (
        f"{len(facts.commands)} commands, {len(facts.codes)} numbers of errors, {len(facts.limits)} limits, {columns} columns, "
        f"{len(surface_header.declared(whole[HEADER]).calls)} calls"
    )
    return Outcome(printed, complaints, counted)


def findings(tree: Tree) -> Iterator[str]:
    """Yields each file that is to be printed anew, and each complaint. What can't be read is one too."""
    try:
        found = outcome_of(tree)
    except (LookupError, ValueError) as fault:
        yield f"{type(fault).__name__}: {fault}"
        return
    yield from found.stale(tree)
    yield from found.complaints
