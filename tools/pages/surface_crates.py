"""What tools/pages/surface prints in docs/DECISIONS.md: what each crate has, by the first sentence of its README."""

import re
from collections.abc import Iterator

from gate.building import ROOT
from pages.prose_pages import END, LINK
from pages.surface_docs import table_of
from pages.surface_facts import Facts
from pages.surface_regions import Tree, region_in, with_region

PAGE = "docs/DECISIONS.md"
READMES = sorted(str(it.relative_to(ROOT)) for it in (ROOT / "crates").glob("*/README.md"))
# The tables of the page.
TABLES = (
    "the crates of words", "the crates of definitions", "the crates of the core half", "the crates of the text half",
    "the crates of both halves", "the programs", "the proved tests",
)
ROW = re.compile(r"^\| \[(\w+)\]\(\.\./crates/", re.M)


def sentence_of(readme: str) -> str:
    """Returns the first sentence below the heading of a README, with the texts of its links and without its stop."""
    text = LINK.sub(r"\1", readme.split("\n\n")[1].replace("\n", " ")) + " "
    end = END.search(text)
    return text[:end.start()] if end else text.strip()


def made(tree: Tree, facts: Facts) -> dict[str, str]:
    """Returns the page with its tables. Their rows stay in the order that they have."""
    text = tree[PAGE]
    for name in TABLES:
        crates = ROW.findall(region_in(PAGE, text, name))
        rows = [[f"[{it}](../crates/{it}/README.md)", sentence_of(tree[f"crates/{it}/README.md"])] for it in crates]
        text = with_region(PAGE, text, name, "the READMEs", table_of(["Crate", "What it has"], rows))
    return {PAGE: text}


def complaints(tree: Tree, facts: Facts) -> Iterator[str]:
    """Yields the crates that no table has."""
    there = [crate for name in TABLES for crate in ROW.findall(region_in(PAGE, tree[PAGE], name))]
    for readme in READMES:
        crate = readme.split("/")[1]
        if there.count(crate) != 1:
            yield f"{PAGE}: its tables have {crate} {there.count(crate)} times"
