"""What tools/pages/surface prints in docs/EMBED.md: the calls of the Python package's store, and the rows that it returns."""

import ast
from collections.abc import Iterator

from gate.building import ROOT
from pages.surface_docs import table_of
from pages.surface_facts import Facts
from pages.surface_python import ANSWERS, PACKAGE
from pages.surface_regions import Tree, with_region

PAGE = "docs/EMBED.md"
SOURCES = sorted(str(it.relative_to(ROOT)) for it in (ROOT / PACKAGE).glob("_*.py"))
KINDS = ("NamedTuple", "Enum")


def about(item: ast.ClassDef | ast.FunctionDef) -> str:
    """Returns a docstring as one line."""
    return " ".join((ast.get_docstring(item) or "").split())


def bases_of(item: ast.ClassDef) -> list[str]:
    return [it.id for it in item.bases if isinstance(it, ast.Name)]


def rows_of(source: str) -> Iterator[tuple[str, list[str], str]]:
    """Yields the name of each row that a source of Python declares, its fields, and what its docstring says of it."""
    for item in ast.parse(source).body:
        if isinstance(item, ast.ClassDef) and any(it in KINDS for it in bases_of(item)):
            set_in = [it for it in item.body if isinstance(it, (ast.Assign, ast.AnnAssign))]
            targets = [it.target if isinstance(it, ast.AnnAssign) else it.targets[0] for it in set_in]
            yield item.name, [it.id for it in targets if isinstance(it, ast.Name)], about(item)


def form_of(call: ast.FunctionDef) -> str:
    """Returns a call with its parameters, of which those that may be left out have `=` after them, or a property."""
    if any(isinstance(it, ast.Name) and it.id == "property" for it in call.decorator_list):
        return call.name
    plain = [it.arg for it in call.args.args[1:]]
    optional = len(call.args.defaults)
    words = [*plain[:len(plain) - optional], *(f"{it}=" for it in plain[len(plain) - optional:])]
    words += [it.arg if default is None else f"{it.arg}=" for it, default in zip(call.args.kwonlyargs, call.args.kw_defaults)]
    return f"{call.name}({', '.join(words)})"


def calls_of(sources: list[str]) -> Iterator[tuple[str, str]]:
    """Yields each call of the store with the first sentence of its docstring: its own, then those of the class below it."""
    classes = {it.name: it for source in sources for it in ast.parse(source).body if isinstance(it, ast.ClassDef)}
    item = classes.get("Store")
    while item is not None:
        for call in item.body:
            if isinstance(call, ast.FunctionDef) and not call.name.startswith("_") and about(call):
                yield form_of(call), f"{about(call)} ".partition(". ")[0].rstrip(". ")
        item = next((classes[it] for it in bases_of(item) if it in classes), None)


def made(tree: Tree, facts: Facts) -> dict[str, str]:
    """Returns the page with its tables."""
    calls = [[f"`{form}`", what] for form, what in calls_of([tree[it] for it in SOURCES])]
    text = with_region(PAGE, tree[PAGE], "the calls", PACKAGE, table_of(["Call", "What it does"], calls))
    rows = [[f"`{name}`", ", ".join(f"`{it}`" for it in fields), what] for name, fields, what in rows_of(tree[ANSWERS])]
    return {PAGE: with_region(PAGE, text, "the rows", ANSWERS, table_of(["Row", "Fields", "What it is"], rows))}
