"""The header: its enums of codes and of limits and the columns of its rows are printed from the facts. What else it declares is compared.

A column keeps the comment that it has, which people write. Only the most of a limit is printed in it."""

import re
from collections.abc import Iterator, Mapping
from typing import NamedTuple

from gate.building import match_in
from pages import surface_words as words
from pages.surface_facts import Call, Facts, Parameter
from pages.surface_regions import Tree, joined, with_region

HEADER = "include/elephant.h"
# The numbers of a row of codes, and the comment above them.
GROUPS = {
    "stop": "The command was not run. Without a history elephant_clock, _tick, _abandon, _clean and _pass never stop.",
    "refusal": "The store refused the command. elephant_detail returns the detail of {detailed}.",
    "line": "An argument is not valid. If several are not, the code is that of the first one.",
    "handle": "The handle itself.",
}
CODES_FROM = "refusal.rt of ele_model, fault.rt of ele_printer and codes.rt of ele_c_values"
LIMITS_FROM = "ele_c_values/src/codes.rt"


class Declared(NamedTuple):
    """What the header declares: the number of each name by its enum, the columns of each row, and the calls."""

    enums: dict[str, dict[str, int]]
    rows: dict[str, list[str]]
    calls: dict[str, Call]


def declared(text: str) -> Declared:
    """Returns what a header declares."""
    bare = re.sub(r"\s+", " ", re.sub(r"/\*.*?\*/", " ", text, flags=re.S))
    enums = {
        name: {it: int(digits) for it, digits in re.findall(r"ELEPHANT_(\w+) = (\d+)", body)}
        for name, body in re.findall(r"enum elephant_(\w+) \{([^}]*)\};", bare)
    }
    rows = {
        name: re.findall(r"(\w+) ?[,;]", body.replace("uint64_t", " "))
        for body, name in re.findall(r"typedef struct elephant_\w+ \{ ([^}]*)\} (elephant_\w+);", bare)
    }
    found = re.findall(r"\b(int32_t|uint32_t|void|const char \*) ?(elephant_\w+)\(([^)]*)\);", bare)
    return Declared(enums, rows, {name: Call(result, list(parameters_in(listed))) for result, name, listed in found})


def parameters_in(listed: str) -> Iterator[Parameter]:
    return (parameter_in(it) for it in listed.split(",") if listed != "void")


def parameter_in(text: str) -> Parameter:
    kind, name = re.findall(r"^ ?(.*?)(\w+) ?$", text)[0]
    return Parameter(kind.strip(), name)


def lines_of_codes(facts: Facts) -> list[str]:
    """Returns the lines of the enum of codes: a comment for each kind, and a line for each code."""
    rows: list[tuple[str, str]] = [("ELEPHANT_OK = 0,", "")]
    detailed = joined(str(facts.code(it).number) for it in facts.detailed)
    for kind, text in GROUPS.items():
        rows += [("", ""), (f"/* {text.format(detailed=detailed)} */", "")]
        listed = [it for it in facts.of(kind) if it.name not in words.NEVER_IN_C]
        rows += [(f"ELEPHANT_{it.in_c()} = {it.number},", words.in_c(it.name, it.sentence())) for it in listed]
    last, comment = rows[-1]
    rows[-1] = last.removesuffix(","), comment
    width = max(len(it) for it, comment in rows if comment) + 2
    return [f"    {it:<{width}}/* {comment} */" if comment else f"    {it}".rstrip() for it, comment in rows]


class Columns(NamedTuple):
    """A line of a row: some of its columns, and the comment after them."""

    names: list[str]
    comment: str

    def line(self, width: int) -> str:
        declared = f"    uint64_t {', '.join(self.names)};"
        return f"{declared:<{width}}{self.comment}".rstrip() + "\n"


def columns_in(body: str) -> list[Columns]:
    """Returns the lines of a row."""
    return [Columns(names.split(", "), comment) for names, comment in re.findall(r"^    uint64_t ([\w, ]+); *(/\*.*\*/)?$", body, re.M)]


def regrouped(lines: list[Columns], wanted: list[str]) -> list[Columns]:
    """Returns lines of these columns in their order. Those that were on one line stay there, and so does the comment of the first."""
    at_first = {name: at for at, line in enumerate(lines) for name in line.names}
    found: list[tuple[int | None, Columns]] = []
    for name in wanted:
        at = at_first.get(name)
        if found and at is not None and found[-1][0] == at:
            found[-1][1].names.append(name)
        else:
            is_new = at is None or at in (it for it, _ in found)
            found.append((at, Columns([name], "" if is_new else lines[at or 0].comment)))
    return [it for _, it in found]


def with_columns(text: str, name: str, facts: Facts) -> str:
    """Returns the header in which a row has its columns."""
    body = match_in(rf"(?s)typedef struct {name} \{{\n(.*?)\}} {name};", text)[1]
    # One space or more precedes the longest line's comment.
    width = max((len(it.partition("/*")[0]) for it in body.splitlines() if "/*" in it), default=0)
    lines = regrouped(columns_in(body), facts.rows[name])
    if name == "elephant_limits":
        most = {it: f"{number:,}" for it, number in facts.most().items()}
        told = [re.sub(r"at most [\d,]+\d", f"at most {most[it.names[0]]}", it.comment) for it in lines]
        lines = [it._replace(comment=comment or f"/* at most {most[it.names[0]]} */") for it, comment in zip(lines, told)]
    return text.replace(body, "".join(it.line(width) for it in lines))


def made(tree: Tree, facts: Facts) -> str:
    """Returns the header with its printed enums and columns."""
    codes = "".join(f"{it}\n" for it in lines_of_codes(facts))
    text = with_region(HEADER, tree[HEADER], "the codes", CODES_FROM, f"enum elephant_code {{\n{codes}}};\n")
    limits = ",\n".join(f"    ELEPHANT_LIMIT_{it.word.upper()} = {it.number}" for it in facts.limits)
    text = with_region(HEADER, text, "the limits", LIMITS_FROM, f"enum elephant_limit {{\n{limits}\n}};\n")
    for name in facts.rows:
        text = with_columns(text, name, facts)
    return text


def complaints(tree: Tree, facts: Facts) -> Iterator[str]:
    """Yields what the header declares in another way than the sources."""
    found = declared(tree[HEADER])
    numbers = {name: number for kind, names in found.enums.items() if kind not in ("code", "limit") for name, number in names.items()}
    yield from differing("the number of ELEPHANT_", numbers, facts.enums)
    yield from differing("the columns of ", found.rows, facts.rows)
    # The calls that aren't exports are printed.
    exports = {name: it for name, it in facts.exports.items() if name.startswith("elephant_")}
    calls = {name: Call(it.result, list(as_exported(it.parameters))) for name, it in found.calls.items() if name in exports}
    yield from differing("", calls, exports)
    if re.findall(r"#define ELEPHANT_NEVER (.*)", tree[HEADER]) != ["UINT64_MAX"]:
        yield f"{HEADER}: ELEPHANT_NEVER isn't UINT64_MAX"
    struct = tree[HEADER].partition("typedef struct elephant_limits {")[2].partition("}")[0]
    most = {name: int(digits.replace(",", "")) for name, digits in re.findall(r"uint64_t (\w+); +/\*.*?at most ([\d,]+)", struct)}
    yield from differing("the most of ", most, facts.most())


def as_exported(parameters: list[Parameter]) -> Iterator[Parameter]:
    """Yields parameters as an export has them: the length of a text, which follows it, has no name, and no handle is const."""
    for it in parameters:
        if it.kind == "size_t" and re.fullmatch(r"(\w+_)?len|room", it.name):
            yield it._replace(name="")
        else:
            yield it._replace(kind="elephant *") if it.kind == "const elephant *" else it


def differing(what: str, has: Mapping[str, object], wanted: Mapping[str, object]) -> Iterator[str]:
    """Yields a line for each name that has something else in the header than in the sources."""
    for name in sorted({*has, *wanted}):
        if has.get(name) != wanted.get(name):
            yield f"{HEADER}: {what}{name}: it has {has.get(name)}, and the sources have {wanted.get(name)}"
