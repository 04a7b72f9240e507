"""How tools/pages/library_page writes the reference of docs/LIBRARY.md: a head for each crate and type, and a row for each call."""

import re
from collections.abc import Iterable, Sequence

from pages.library_items import Crate, Item, fault_names

BEGIN, END = "<!-- begin: tools/pages/library_page --write -->", "<!-- end -->"
COLUMNS = ("Call", "What it does", "Errors", "Cost")
HEAD = """## All calls

Each public call of the library, by the crate that declares it. The tables leave out laws and lemmas, which only a proof calls, and \
what types do by traits, as `Display` and `Clone`. A call that returns `Halt` may also return `Halt::NoMemory`."""


def row_of(call: Item, names: set[str]) -> list[str]:
    """Returns the cells of a call."""
    in_time, in_memory = call.costs()
    cells = call.does(), call.faults(names), [*in_time, *in_memory]
    return [f"`{call.shown()}`", *(". ".join(it).replace("|", "\\|") for it in cells)]


def table_of(calls: Iterable[Item], names: set[str]) -> list[str]:
    """Returns the lines of a table of calls. It has no column that would be empty."""
    rows = [row_of(it, names) for it in calls]
    kept = [at for at in range(len(COLUMNS)) if at < 2 or any(row[at] for row in rows)]
    lines = ["|".join(["", *(f" {row[at]} " if row[at] else " " for at in kept), ""]) for row in (list(COLUMNS), *rows)]
    return [lines[0], f"|{'---|' * len(kept)}", *lines[1:]]


def givers_of(name: str, crate: Crate, crates: Iterable[Crate]) -> str:
    """Returns the crates that export a type that this one declares."""
    return ", ".join(f"`{it.name}`" for it in crates if it is crate or name in it.others)


def lines_of(crate: Crate, crates: Sequence[Crate], names: set[str]) -> list[str]:
    """Returns the lines on a crate: types that are other names, then each type with its calls, and the calls of no type."""
    lines = ["", f"### `{crate.name}`"]
    aliases = [it for it in crate.given.values() if it.kind == "type"]
    lines += ["", *(f"- `{it.signature}`: {it.sentences()[0]}." for it in aliases)] if aliases else []
    for name, item in crate.given.items():
        calls = [it for it in crate.calls if it.owner == name]
        if calls:
            head = f"{item.sentences()[0]}. From {givers_of(name, crate, crates)}."
            lines += ["", f"#### `{name}`", "", head, "", *table_of(calls, names)]
    free = [it for it in crate.calls if not it.owner]
    return [*lines, *(["", f"#### Functions of `{crate.name}`", "", *table_of(free, names)] if free else [])]


def made_part(crates: Sequence[Crate]) -> str:
    """Returns the reference, with the comments around it."""
    names = fault_names(crates)
    return "\n".join([BEGIN, "", HEAD, *(line for it in crates for line in lines_of(it, crates, names)), "", END])


def with_part(page: str, part: str) -> str:
    """Returns the page with this reference in the place of the old one, or at its end if it has none."""
    old = re.search(rf"{re.escape(BEGIN)}.*?{re.escape(END)}", page, re.S)
    return page.replace(old[0], part) if old else f"{page.rstrip()}\n\n{part}\n"
