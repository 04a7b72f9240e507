"""The calls of the header: what each asks of the exports of `ele_c`, and the C that asks it, which tools/pages/surface prints.

A call of the header is an export itself (`DIRECT`), or a thin function of clients/c/src/elephant.c over the exports that the header
doesn't have. `inner_event` runs the event of a `Call` of `ele_c_values`, `inner_numbers` copies a `Kind` of what is kept, and `inner_bytes`
and `inner_read` copy bytes. The words of a row below are those of the parameters: a `text` with its length, the `tag`, a `number`, an
`into` with its room, and an `out`.
"""

import re
from collections.abc import Iterator
from typing import NamedTuple

from gate.building import match_in
from pages import surface_words as words
from pages.surface_facts import Call, Facts, Parameter
from pages.surface_header import HEADER, Declared, declared
from pages.surface_regions import HEAD, Tree

SOURCE = "clients/c/src/elephant.c"
# Calls of the header that `ele_c` exports.
DIRECT = (
    "new", "delete", "open", "close", "line", "tell", "ahead", "trim", "checkpoint", "open_checkpoint", "renew", "directory_across",
    "file_across", "version_across", "journal_begin", "journal_open", "journal_pending", "journal_written", "journal_compact",
)
# The calls that only look at the handle.
LOOKS = re.compile(r"now|detail|counts|answer|take|read_into|read_handle_into|rung|row_\w+|why_\w+|history|\w+_across")


class Asked(NamedTuple):
    """What a call asks: the words of its parameters after the handle, the `Call` that it runs, and the `Kind` that it then copies."""

    parts: str
    event: str = ""
    kind: str = ""


EVENTS = {
    "clock": Asked("number", "Clock"), "tick": Asked("number", "Tick"), "mkdir": Asked("text out", "MakeDir"),
    "rmdir": Asked("text", "RemoveDir"), "create": Asked("text out", "Create"), "link": Asked("text text", "Link"),
    "unlink": Asked("text", "Unlink"), "rename": Asked("text text", "Rename"), "undelete": Asked("text out", "Undelete"),
    "open_write": Asked("text out", "OpenWrite"), "write": Asked("number number text", "Write"),
    "truncate": Asked("number number", "Truncate"), "close_handle": Asked("number out", "Close"),
    "abandon": Asked("number", "Abandon"), "save": Asked("text text out", "Save"), "revert": Asked("text number out", "Revert"),
    "restore": Asked("text number out", "Restore"), "open_read": Asked("text tag number out", "OpenRead"),
    "read": Asked("text tag number out", "Read"), "read_handle": Asked("number out", "ReadHandle"),
    "stat": Asked("text tag number out", "Stat", "Stat"), "versions": Asked("text tag number out", "Versions"),
    "list": Asked("text tag number out", "ListNames"), "restorable": Asked("out", "Restorable"), "due": Asked("out", "Due"),
    "usage": Asked("out", "UsageAll"), "policy": Asked("text text", "SetPolicy"), "default": Asked("text text", "SetDefault"),
    "group_make": Asked("text", "GroupMake"), "group_drop": Asked("text", "GroupDrop"), "group_add": Asked("text text", "GroupAdd"),
    "group_remove": Asked("text text", "GroupRemove"), "mark": Asked("text number number", "Mark"),
    "unmark": Asked("text number", "Unmark"), "groups": Asked("out", "GroupsAll"), "clean": Asked("out", "CleanOne", "Removed"),
    "note": Asked("text", "Note"),
}
# Calls that copy what is kept, by the index of a row and in it that of a member or a mark.
KEPT = {
    "now": Asked("out", kind="Now"), "detail": Asked("out", kind="Detail"), "counts": Asked("out", kind="Counts"),
    "history": Asked("out out", kind="History"),
    "rung": Asked("number out out", kind="Rung"), "row_version": Asked("number out", kind="Version"),
    "row_name": Asked("number out", kind="Name"), "row_key": Asked("number out", kind="Key"),
    "row_usage": Asked("number out", kind="Usage"), "row_group": Asked("number out", kind="Group"),
    "row_member": Asked("number number out", kind="Member"), "row_mark": Asked("number number out", kind="Mark"),
    "why_hold": Asked("out", kind="Hold"),
}
# Calls that ask or do something else first: the C of that.
FIRST = {
    "why": (Asked("text tag number out", kind="Why"), "inner_why(e, path, len, tag, number)"),
    "pass": (Asked("number out out", kind="Pass"), "inner_pass(e, budget)"),
}
# Calls that copy bytes: what `bytes_at` of `ele_c_values` calls them, the index of a row, whether they are wanted whole, and the offset.
BYTES = {
    "take": (Asked("number into out"), "BYTES_CONTENT, 0, 0, offset"), "answer": (Asked("number into out"), "BYTES_TEXT, 0, 0, offset"),
    "row_bytes": (Asked("number into out"), "BYTES_NAME, index, 1, 0"), "why_group": (Asked("into out"), "BYTES_GROUP, 0, 1, 0"),
}
# In the order of the numbers of `bytes_at`.
KINDS_OF_BYTES = ("Content", "Text", "Name", "Group")
READS = {
    "read_into": (Asked("text tag number number into out out"), "0, path, len, tag, number"),
    "read_handle_into": (Asked("number number into out out"), '1, "", 0, 0, handle'),
}
# Calls without a handle.
OF_LIBRARY = ("code_text", "library_version", "library_version_number")
WIDTH = 132
PARTS = {"uint64_t": "number", "uint32_t": "tag", "const void *": "text", "void *": "into"}
INTRODUCTION = f"""\
/* {HEAD}, from {HEADER} and the exports of ele_c.
 *
 * The calls of {HEADER} over the exports of the crate ele_c. They hand their arguments on, and copy numbers out. Nothing
 * here is proved. The contracts of the exports say what each of them does. */

#include "elephant.h"

/* An answer in numbers: those of a row are in the order of its columns. */
typedef struct inner_row {{
    uint64_t at[{{columns}}];
}} inner_row;

/* The numbers of calls that run an event, of what is kept in numbers, and of what is kept as bytes. */
{{enums}}
"""


def parts_of(parameters: list[Parameter]) -> str:
    """Returns the words of the parameters after the handle. The length of a text or a room has none."""
    found = [PARTS.get(it.kind, "out" if it.kind.endswith("*") else it.kind) for it in parameters if not it.kind.endswith("elephant *")]
    return " ".join(it for it in found if it != "size_t")


def table() -> dict[str, str]:
    """Returns the words of each call that is printed, by its name."""
    rows = {**EVENTS, **KEPT, **{name: it for kind in (FIRST, BYTES, READS) for name, (it, _) in kind.items()}}
    return {**{name: it.parts for name, it in rows.items()}, "open_largest": "tag"}


# The C.


def laid(begin: str, items: list[str], end: str) -> str:
    """Returns a list with what is around it, as many items on a line as it has columns for."""
    lines = [begin]
    for at, item in enumerate(items):
        last = at + 1 == len(items)
        if len(lines[-1]) + len(item) + (len(end) if last else 1) > WIDTH:
            lines[-1] = lines[-1].rstrip()
            lines.append(" " * min(len(begin), 12))
        lines[-1] += f"{item}{'' if last else ', '}"
    return "\n".join(lines) + end


def declaration(name: str, call: Call) -> str:
    """Returns a declaration of an export. A call that only looks takes a const handle."""
    kinds = {"elephant *": "const elephant *"} if name in ("inner_numbers", "inner_bytes", "inner_read") else {}
    listed, texts = [], 0
    for it in call.parameters:
        texts += it.kind == "size_t"
        kind = kinds.get(it.kind, it.kind)
        listed.append(f"{kind}{'' if kind.endswith('*') else ' '}{it.name or f'length_{texts}'}")
    return laid(f"{call.result} {name}(", listed, ");")


def of_kind(call: Call, kind: str) -> list[str]:
    """Returns the names of the parameters that are of a kind, a text and a buffer each with its size."""
    found = []
    for it, after in zip(call.parameters, [*call.parameters[1:], None]):
        if PARTS.get(it.kind) == kind:
            found.append(f"{it.name}, {after.name}" if after and after.kind == "size_t" else it.name)
    return found


def copied_out(call: Call, rows: dict[str, list[str]]) -> Iterator[str]:
    """Yields what copies an answer in numbers to the pointers of a call."""
    outs = [it for it in call.parameters if it.kind.endswith("*") and it.kind != "const void *" and not it.kind.endswith("elephant *")]
    for at, out in enumerate(outs):
        columns = rows.get(out.kind.removesuffix(" *"))
        if columns:
            values = [f"kept.at[{it}]" for it in range(len(columns))]
            yield laid(f"        *{out.name} = ({out.kind.removesuffix(' *')}){{", values, "};")
        else:
            yield f"        *{out.name} = kept.at[{at}];"


def constant(kind: str, name: str) -> str:
    """Returns the constant of C for a number that `ele_c_values` knows by this name."""
    return f"{kind}_" + re.sub(r"(?<!^)([A-Z])", r"_\1", name).upper()


def enums_of(facts: Facts) -> str:
    """Returns the numbers of calls and kinds, from 0 on."""
    return "\n".join(
        laid("enum { ", [constant(kind, it) for it in listed], " };")
        for kind, listed in (("CALL", facts.calls), ("KIND", facts.kinds), ("BYTES", KINDS_OF_BYTES))
    )


def event_of(call: Call, asked: Asked, value: str) -> str:
    """Returns the call of `inner_event`."""
    texts, numbers = of_kind(call, "text"), of_kind(call, "number")
    tag = of_kind(call, "tag") or ["0"]
    given = [*texts, *['"", 0'] * (2 - len(texts)), *tag, *numbers, *["0"] * (2 - len(numbers))]
    return f"inner_event(e, {constant('CALL', asked.event)}, {', '.join(given)}, {value})"


def body_of(name: str, call: Call, facts: Facts, rows: dict[str, list[str]]) -> Iterator[str]:
    """Yields the lines of a call."""
    if name in EVENTS and not EVENTS[name].kind:
        outs = [it.name for it in call.parameters if it.kind == "uint64_t *"]
        yield from () if outs else ("    uint64_t value;",)
        yield f"    return {event_of(call, EVENTS[name], outs[0] if outs else '&value')};"
    elif name in EVENTS or name in FIRST:
        asked = EVENTS.get(name) or FIRST[name][0]
        yield from ("    uint64_t value;",) if asked.event else ()
        yield "    inner_row kept;"
        yield f"    int32_t code = {event_of(call, asked, '&value') if asked.event else FIRST[name][1]};"
        # A pass that is stopped has removed versions.
        yield f"    if ({'' if name == 'pass' else '!code && '}!inner_numbers(e, {constant('KIND', asked.kind)}, 0, 0, &kept)) {{"
        yield from (*copied_out(call, rows), "    }", "    return code;")
    elif name in KEPT:
        index = [*of_kind(call, "number"), "0", "0"][:2]
        yield "    inner_row kept;"
        yield f"    int32_t code = inner_numbers(e, {constant('KIND', KEPT[name].kind)}, {', '.join(index)}, &kept);"
        yield from ("    if (!code) {", *copied_out(call, rows), "    }", "    return code;")
    elif name in BYTES:
        yield f"    return inner_bytes(e, {BYTES[name][1]}, {of_kind(call, 'into')[0]}, {call.parameters[-1].name});"
    elif name in READS:
        yield f"    return inner_read(e, {READS[name][1]}, offset, {of_kind(call, 'into')[0]}, length, copied);"
    elif name == "open_largest":
        yield f"    static const elephant_limits largest = {{{', '.join(map(str, facts.most().values()))}}};"
        yield "    return elephant_open(e, &largest, history);"
    elif name == "code_text":
        yield "    switch (code) {"
        yield from (f'    case {number}: return "{text}";' for number, text in texts_of(facts))
        yield from ('    default: return "no code has this number";', "    }")
    elif name == "library_version":
        yield "    return ELEPHANT_LIBRARY_VERSION;"
    else:
        yield "    return ELEPHANT_LIBRARY_VERSION_NUMBER;"


def texts_of(facts: Facts) -> Iterator[tuple[int, str]]:
    """Yields each code and its text: its name, and its sentence."""
    yield 0, "Ok: the call succeeded"
    for it in facts.codes:
        if it.kind in ("stop", "refusal", "line", "handle") and it.name not in words.NEVER_IN_C:
            yield it.number, f"{it.name}: {it.sentence()}"


def prototype(name: str, call: Call) -> str:
    listed = [f"{it.kind}{'' if it.kind.endswith('*') else ' '}{it.name}" for it in call.parameters] or ["void"]
    return laid(f"{call.result}{'' if call.result.endswith('*') else ' '}elephant_{name}(", listed, ") {")


def source(facts: Facts, of_c: Declared) -> str:
    """Returns the C of all calls but the exports, in the order of the header."""
    columns = max(len(it) for it in facts.rows.values())
    head = INTRODUCTION.replace("{columns}", str(columns)).replace("{enums}", enums_of(facts))
    head += "\n" + "".join(f"{declaration(name, it)}\n" for name, it in facts.exports.items() if not name.startswith("elephant_"))
    functions = []
    for whole, call in of_c.calls.items():
        name = whole.removeprefix("elephant_")
        if name in table() or name in OF_LIBRARY:
            body = "".join(f"{it}\n" for it in body_of(name, call, facts, of_c.rows))
            functions.append(f"\n{prototype(name, call)}\n{body}}}\n")
    return head + "".join(functions)


def made(tree: Tree, facts: Facts) -> dict[str, str]:
    of_c = declared(tree[HEADER])
    # What can't be printed is said by `complaints`.
    return {SOURCE: tree[SOURCE]} if list(complaints(tree, facts)) else {SOURCE: source(facts, of_c)}


def complaints(tree: Tree, facts: Facts) -> Iterator[str]:
    """Yields the calls of the header that have other parameters than what they ask for takes, and those of one side alone."""
    calls = {name.removeprefix("elephant_"): it for name, it in declared(tree[HEADER]).calls.items()}
    wanted = table()
    for name in sorted({*wanted, *calls} - {*DIRECT, *OF_LIBRARY}):
        has = parts_of(calls[name].parameters) if name in calls else None
        if has != wanted.get(name):
            yield f"{HEADER}: elephant_{name}: it has {has}, and tools/pages/surface_calls.py {wanted.get(name)}"
    for name, call in calls.items():
        if call.parameters and call.parameters[0].kind in ("elephant *", "const elephant *"):
            is_const = call.parameters[0].kind.startswith("const")
            if is_const != bool(LOOKS.fullmatch(name)):
                yield f"{HEADER}: elephant_{name}: its handle {'is' if is_const else 'is not'} const, and it should be otherwise"
    yield from (f"{HEADER} lacks elephant_{name}" for name in (*DIRECT, *OF_LIBRARY) if name not in calls)
    for what, listed, used in (
        ("Call", facts.calls, {it.event for it in EVENTS.values()}),
        ("Kind", facts.kinds, {it.kind for it in (*EVENTS.values(), *KEPT.values(), *(it for it, _ in FIRST.values()))} - {""}),
    ):
        if set(listed) != used:
            yield f"ele_c_values has each {what} of {', '.join(sorted(set(listed) ^ used))} alone, or tools/pages/surface_calls.py has"
    number = match_in(r"#define ELEPHANT_LIBRARY_VERSION_NUMBER (\d+)", tree[HEADER])[1]
    parts = [int(it) for it in match_in(r'#define ELEPHANT_LIBRARY_VERSION "([\d.]+)"', tree[HEADER])[1].split(".")]
    if int(number) != (parts[0] * 1000 + parts[1]) * 1000 + parts[2]:
        yield f"{HEADER}: ELEPHANT_LIBRARY_VERSION_NUMBER is {number}, and the version {parts}"
