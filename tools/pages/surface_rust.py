"""What tools/pages/surface prints in the Rust crate: its declarations of the library, and its table of errors, its limits, and
which errors its test tries."""

import re
from collections.abc import Iterator

from gate.building import match_in
from pages import surface_words as words
from pages.surface_facts import Call, Code, Facts, Limit
from pages.surface_header import CODES_FROM, HEADER, Declared, declared
from pages.surface_regions import HEAD, Tree, place_of, with_region

CRATE = "clients/rust"
SYS, ERRORS = (f"{CRATE}/src/{it}.rs" for it in ("sys", "error"))
VALUES, STORE = (place_of(f"{CRATE}/src", it) for it in ("pub struct Limits {", "sys::elephant_limits {"))
TESTED = place_of(f"{CRATE}/tests", "const BARE: [(Error, i32, ErrorKind)")
# The width of clients/rust/rustfmt.toml.
WIDTH = 130
TYPES = {
    "elephant *": "*mut elephant", "elephant **": "*mut *mut elephant", "const void *": "*const u8", "void *": "*mut u8", "uint64_t": "u64",
    "uint32_t": "u32", "size_t": "usize", "uint64_t *": "*mut u64", "uint32_t *": "*mut u32", "int32_t": "i32",
    "const char *": "*const c_char",
}
# The types of the numbers of an enum; of others it is that of a column.
ENUM_TYPES = {"code": "i32", "tag": "u32"}
HANDLE = """
use std::marker::{PhantomData, PhantomPinned};
use std::os::raw::c_char;

/// The type of a handle.
#[repr(C)]
pub struct elephant {
    private: [u8; 0],
    // Neither `Send` nor `Sync` nor `Unpin`, since its content is unknown here.
    marker: PhantomData<(*mut u8, PhantomPinned)>,
}
"""


def type_in_rust(kind: str) -> str:
    """Returns a type of C in the words of Rust."""
    if kind in TYPES:
        return TYPES[kind]
    const, _, name = f" {kind}".removesuffix(" *").rpartition(" ")
    return f"*{'const' if const.strip() == 'const' else 'mut'} {name}"


def lines_of_call(name: str, call: Call) -> Iterator[str]:
    """Yields the lines of a call, as rustfmt lays them out."""
    listed = [f"{it.name}: {type_in_rust(it.kind)}" for it in call.parameters]
    result = "" if call.result == "void" else f" -> {type_in_rust(call.result)}"
    line = f"    pub fn {name}({', '.join(listed)}){result};"
    if len(line) <= WIDTH:
        yield line
    else:
        yield from (f"    pub fn {name}(", *(f"        {it}," for it in listed), f"    ){result};")


def lines_of_sys(of_c: Declared, left_out: set[str]) -> Iterator[str]:
    """Yields the lines of the declarations: numbers but these, rows and calls."""
    for name, numbers in of_c.enums.items():
        kind = ENUM_TYPES.get(name, "u64")
        yield from (f"pub const ELEPHANT_{it}: {kind} = {number};" for it, number in numbers.items() if it not in left_out)
        yield ""
    yield "pub const ELEPHANT_NEVER: u64 = u64::MAX;"
    for name, columns in of_c.rows.items():
        # A program makes the limits, and the library the other rows.
        yield from ("", "#[repr(C)]", *["#[derive(Default)]"] * (name != "elephant_limits"), f"pub struct {name} {{")
        yield from (*(f"    pub {it}: u64," for it in columns), "}")
    yield from ("", 'extern "C" {')
    for name, call in of_c.calls.items():
        if name not in words.UNUSED_IN_RUST:
            yield from lines_of_call(name, call)
    yield "}"


def sys_of(tree: Tree, facts: Facts) -> str:
    head = f"//! The declarations of `{HEADER}`.\n// {HEAD}, from {HEADER}.\n"
    left_out = {facts.code(it).in_c() for it in words.NEVER_IN_RUST - words.NAMED_IN_RUST}
    return head + HANDLE + "\n" + "".join(f"{it}\n" for it in lines_of_sys(declared(tree[HEADER]), left_out))


def errors(tree: Tree, facts: Facts) -> str:
    listed = [it for it in codes(facts) if it.name not in words.BY_HAND]
    rows = [f'    {it.name} = ELEPHANT_{it.in_c()}, "{it.sentence()}";\n' for it in listed]
    text = with_region(ERRORS, tree[ERRORS], "the codes", CODES_FROM, f"errors! {{\n{''.join(rows)}}}\n")
    return with_region(ERRORS, text, "the limits", "ele_c_values/src/codes.rt and ele_help/src/pages.rt", limits(facts.limits))


def limits(listed: list[Limit]) -> str:
    """Returns the type of limits, with what makes one of a number, and its words."""
    variants = "".join(f"    /// {words.upper(it.phrase)}.\n    {it.name},\n" for it in listed)
    numbers = "".join(f"            sys::ELEPHANT_LIMIT_{it.word.upper()} => Limit::{it.name},\n" for it in listed)
    texts = "".join(f'            Limit::{it.name} => "{it.word}",\n' for it in listed)
    return f"""/// A kind of thing that has a limit ([`Limits`](crate::Limits)).
#[derive(Clone, Copy, Debug, PartialEq, Eq, Hash)]
#[non_exhaustive]
pub enum Limit {{
{variants}}}

impl Limit {{
    fn from_detail(detail: u64) -> Option<Limit> {{
        Some(match detail {{
{numbers}            _ => return None,
        }})
    }}
}}

impl fmt::Display for Limit {{
    fn fmt(&self, f: &mut fmt::Formatter<'_>) -> fmt::Result {{
        f.write_str(match self {{
{texts}        }})
    }}
}}
"""


# The limits, and the test of all errors. They keep what people write of a limit, and the kind of each error.


def values(tree: Tree, facts: Facts) -> str:
    """Returns the file with the limits as a row of Rust and as its default."""
    text = tree[VALUES]
    struct = match_in(r"(?s)pub struct Limits \{\n(.*?)\}\n", text)[1]
    default = match_in(r"(?s)fn default\(\) -> Limits \{\n        Limits \{\n(.*?)        \}\n", text)[1]
    said = {it.word: words.upper(it.phrase) for it in facts.limits}
    said.update({name: it for it, name in re.findall(r"    /// (.*): at most .*\n    pub (\w+):", struct)})
    fields = "".join(f"    /// {said[name]}: at most {most:,}.\n    pub {name}: u64,\n" for name, most in facts.most().items())
    numbers = "".join(f"            {name}: {most:_},\n" for name, most in facts.most().items())
    text = text.replace(struct, fields).replace(default, numbers)
    counts = match_in(r"(?s)pub struct Counts \{\n(.*?)\}\n", text)[1]
    given = match_in(r"(?s)elephant_counts_row\) -> Counts \{\n        Counts \{\n(.*?)        \}\n", text)[1]
    said.update({name: it for it, name in re.findall(r"    /// (.*)\.\n    pub (\w+):", counts)})
    fields = "".join(f"    /// {said[name]}.\n    pub {name}: u64,\n" for name in facts.most())
    return text.replace(counts, fields).replace(given, "".join(f"            {name}: row.{name},\n" for name in facts.most()))


def store(tree: Tree, facts: Facts) -> str:
    """Returns the file with the limits that a store is opened with."""
    given = match_in(r"(?s)\n    sys::elephant_limits \{\n(.*?)    \}\n", tree[STORE])[1]
    return tree[STORE].replace(given, "".join(f"        {name}: limits.{name},\n" for name in facts.most()))


def tested(tree: Tree, facts: Facts) -> str:
    """Returns the test of all errors, with a row for each in the order that it has. A new error is of no kind of its own."""
    text = tree[TESTED]
    kinds = {name: kind for name, kind in re.findall(r"\(Error::(\w+), \d+, (ErrorKind::\w+)\)", text)}
    bare = {it.name: it.number for it in codes(facts) if it.name not in words.BY_HAND}
    order = [*(it for it in kinds if it in bare), *(it for it in bare if it not in kinds)]
    rows = [f"(Error::{it}, {bare[it]}, {kinds.get(it, 'ErrorKind::Other')})" for it in order]
    text = with_rows(text, "BARE: [(Error, i32, ErrorKind)", rows)
    return with_rows(text, "LIMITS: [(Limit, &str)", [f'(Limit::{it.name}, "{it.word}")' for it in facts.limits])


def with_rows(text: str, begin: str, rows: list[str]) -> str:
    """Returns a text in which a constant has these rows, and their count."""
    old = match_in(rf"(?s)const {re.escape(begin)}; \d+\] = \[\n.*?\];\n", text)[0]
    return text.replace(old, f"const {begin}; {len(rows)}] = [\n{''.join(f'    {it},{chr(10)}' for it in rows)}];\n")


def codes(facts: Facts) -> list[Code]:
    """Returns the codes that have a variant."""
    left_out = words.NEVER_IN_RUST | words.NEVER_IN_C
    return [it for it in facts.codes if it.kind in ("stop", "refusal", "line", "handle") and it.name not in left_out]


PRINTED = {SYS: sys_of, ERRORS: errors, VALUES: values, STORE: store, TESTED: tested}


def made(tree: Tree, facts: Facts) -> dict[str, str]:
    """Returns each file of the crate with what is printed in it."""
    return {path: printed(tree, facts) for path, printed in PRINTED.items()}
