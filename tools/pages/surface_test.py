"""Tries tools/pages/surface on copies of the tree in which something is wrong: a number, a missing refusal, a limit too many."""

from typing import NamedTuple

from pages import (
    surface_calls as calls, surface_crates as crates, surface_docs as docs, surface_facts as facts, surface_python as python,
    surface_rust as rust, surface_version as version,
)
from pages.surface_checks import findings
from pages.surface_header import HEADER
from pages.surface_regions import Tree

COUNTED = "made = record w.made { names = w.made.names + 1 };"


class Planted(NamedTuple):
    """A fault: the file, what stands there once, what takes its place, and what the tool must name, files or words of a complaint."""

    path: str
    old: str
    new: str
    wanted: tuple[str, ...]


# A fault of a file that is printed or compared.
OF_FILES = [
    Planted(HEADER, "    ELEPHANT_NO_ENTRY = 5,", "    ELEPHANT_NO_ENTRY = 6,", (HEADER,)),
    Planted(HEADER, "    ELEPHANT_IS_ROOT = 11,         /* the root can't be made, moved or deleted */\n", "", (HEADER,)),
    Planted(HEADER, "    ELEPHANT_LIMIT_MARKS = 8\n", "    ELEPHANT_LIMIT_MARKS = 8,\n    ELEPHANT_LIMIT_PINS = 9\n", (HEADER,)),
    Planted(HEADER, "at most 200,000", "at most 200,001", (HEADER,)),
    Planted(HEADER, "ELEPHANT_KEEP_ALL = 1", "ELEPHANT_KEEP_ALL = 2", ("ELEPHANT_KEEP_ALL",)),
    Planted(HEADER, "ELEPHANT_IS_KEPT = 3", "ELEPHANT_IS_KEPT = 5", ("ELEPHANT_IS_KEPT",)),
    Planted(HEADER, "ELEPHANT_DISPLACED = 2", "ELEPHANT_DISPLACED = 3", ("ELEPHANT_DISPLACED",)),
    Planted(HEADER, "ELEPHANT_AT = 1", "ELEPHANT_AT = 4", ("ELEPHANT_AT",)),
    Planted(HEADER, "uint64_t file, number;", "uint64_t number, file;", (HEADER,)),
    Planted(HEADER, "uint64_t members, marks;", "uint64_t members;", (HEADER,)),
    Planted(HEADER, "typedef struct elephant_key {", "typedef struct elephant_keys {", ("elephant_key",)),
    Planted(HEADER, "elephant_clock(elephant *e, uint64_t moment)", "elephant_clock(elephant *e, uint32_t moment)", ("elephant_clock",)),
    Planted(HEADER, "elephant_tick(elephant *e, uint64_t seconds)", "elephant_tick(elephant *e, uint64_t moment)", (calls.SOURCE,)),
    Planted(HEADER, "elephant_ahead(elephant *e, uint64_t moment,", "elephant_ahead(elephant *e, uint64_t until,", ("elephant_ahead",)),
    Planted(HEADER, "elephant_now(const elephant *e,", "elephant_now(elephant *e,", ("elephant_now", "const")),
    Planted(HEADER, "elephant_tell(elephant *e,", "elephant_tell(const elephant *e,", ("elephant_tell",)),
    Planted(HEADER, "const char *elephant_code_text(int32_t code);", "", ("elephant_code_text",)),
    Planted(calls.SOURCE, "return inner_event(e, CALL_TICK, ", "return inner_event(e, CALL_CLOCK, ", (calls.SOURCE,)),
    Planted(calls.SOURCE, 'return "IsRoot: ', 'return "Root: ', (calls.SOURCE,)),
    Planted(HEADER, "void elephant_close(elephant *e)", "int32_t elephant_close(elephant *e)", ("elephant_close",)),
    Planted(HEADER, "int32_t elephant_groups(elephant *e, uint64_t *rows);", "", ("elephant_groups",)),
    Planted(HEADER, "#define ELEPHANT_NEVER UINT64_MAX", "#define ELEPHANT_NEVER 0", ("ELEPHANT_NEVER",)),
    Planted(rust.SYS, "pub const ELEPHANT_NO_ENTRY: i32 = 5;", "pub const ELEPHANT_NO_ENTRY: i32 = 6;", (rust.SYS,)),
    Planted(rust.SYS, "pub fn elephant_tick(e: *mut elephant, seconds: u64)", "pub fn elephant_tick(e: *mut elephant)", (rust.SYS,)),
    Planted(rust.ERRORS, "    IsRoot = ELEPHANT_IS_ROOT, \"the root can't be made, moved or deleted\";\n", "", (rust.ERRORS,)),
    Planted(rust.ERRORS, "    /// Marks ever made.\n", "    /// Pins ever made.\n    Pins,\n    /// Marks ever made.\n", (rust.ERRORS,)),
    Planted(python.LIBRARY, '"KeyRow", "since file number"', '"KeyRow", "file since number"', (python.LIBRARY,)),
    Planted(python.LIBRARY, '"tick": "number",', '"tick": "out",', (python.LIBRARY,)),
    Planted(python.LIBRARY, "NO_ENTRY = 5", "NO_ENTRY = 6", (python.LIBRARY,)),
    Planted(python.ERRORS, "class IsRoot(Refused, number=11):", "class IsRoot(Refused, number=12):", (python.ERRORS,)),
    Planted(python.ERRORS, "class Full(Refused, number=27):", "class Full(Refused, number=28):", ("Full has the number 28",)),
    Planted(python.ERRORS, '"members", "marks")', '"members", "marks", "pins")', (python.ERRORS,)),
    Planted(python.NAMES, "    IsRoot,\n", "", (python.NAMES,)),
    Planted(python.NAMES, '"IsDirectory", "IsRoot",', '"IsDirectory",', (python.NAMES,)),
    Planted(python.REPLAY, 'b"due", b"groups"', 'b"due"', (python.REPLAY,)),
    Planted(python.CONTROL, '"clean", "default",', '"default",', (python.CONTROL,)),
    Planted(python.LANGUAGE, '"Removes the mark of a group', '"Removes a mark of a group', (python.LANGUAGE,)),
    Planted(python.LANGUAGE, '"rename P Q", "ok done"', '"rename P P", "ok done"', (python.LANGUAGE,)),
    Planted(python.COUNTS, 'b"rename": ("names",)', 'b"rename": ("files",)', (python.COUNTS,)),
    Planted(python.COUNTS, 'words[0] == b"group"', 'words[0] == b"open"', ("_command_of",)),
    Planted(docs.SCRIPT, "| `rmdir P` | `ok done` |", "| `rmdir P` | `ok gone` |", (docs.SCRIPT,)),
    Planted(docs.SCRIPT, "NoGroup; NotPast; NotAhead; MarkExists", "NoGroup; NotAhead; NotPast; MarkExists", ("`mark`",)),
    Planted(docs.SCRIPT, "| `unmark G M` | `ok done` | NoGroup; NoMark |\n", "", (docs.SCRIPT, "`unmark`")),
    Planted(docs.ERRORS, "| marks ever made | 10,000 |", "| marks ever made | 10,001 |", (docs.ERRORS,)),
    Planted(docs.SCRIPT, "`ok usage K`, `ok groups K`", "`ok usage K`", (docs.SCRIPT,)),
    Planted(docs.ERRORS, "| 11 | IsRoot |", "| 12 | IsRoot |", (docs.ERRORS,)),
    Planted(docs.ERRORS, "End of the stops.", "End.", ("no region of the stops",)),
    Planted(crates.PAGE, "| [ele_lists](../crates/ele_lists/README.md) |", "| ele_lists |", ("its tables have ele_lists 0 times",)),
    Planted(python.ANSWERS, "class Waiting(NamedTuple):", "class Kept_Back(NamedTuple):", ("docs/EMBED.md",)),
    Planted("crates/ele_path/README.md", "Paths, paths with a tag (a moment", "Trails, with a tag (a moment", (crates.PAGE,)),
    Planted(python.ANSWERS, "    marks: int = 10_000", "    marks: int = 10_001", (python.ANSWERS,)),
    Planted(python.ANSWERS, "    members: int = 100_000\n    marks: int = 10_000", "    marks: int = 10_000", (python.ANSWERS,)),
    Planted(rust.VALUES, "    /// Marks: at most 10,000.", "    /// Marks: at most 10,001.", (rust.VALUES,)),
    Planted(rust.VALUES, "            marks: 10_000,", "            marks: 10_001,", (rust.VALUES,)),
    Planted(rust.STORE, "        marks: limits.marks,\n", "", (rust.STORE,)),
    Planted(rust.TESTED, "(Error::IsRoot, 11, ", "(Error::IsRoot, 12, ", (rust.TESTED,)),
    Planted(rust.TESTED, "    (Error::IsRoot, 11, ErrorKind::Other),\n", "", (rust.TESTED,)),
    Planted(rust.TESTED, '    (Limit::Marks, "marks"),\n', "", (rust.TESTED,)),
    Planted(docs.LIBRARY, "200,000 names, 1,000,000 versions", "200,001 names, 1,000,000 versions", (docs.LIBRARY,)),
    Planted("README.md", "at most 1,000,000 versions", "at most 100,000 versions", ("README.md",)),
    Planted("docs/MOUNT.md", "| a path | 32 names |", "| a path | 31 names |", ("docs/MOUNT.md",)),
    Planted("docs/MOUNT.md", "| 1,000,000 each |", "| 1,000,001 each |", ("docs/MOUNT.md",)),
    Planted("docs/FAQ.md", "1,048,576 bytes (1 MiB)", "1,048,577 bytes (1 MiB)", ("sources 1048576",)),
    Planted(HEADER, "content has at most 1,048,576 bytes", "content has few bytes", ("it says nothing, and the sources 1048576",)),
    Planted(HEADER, "; past 253402300799 */", "; past 253402300798 */", (HEADER,)),
    Planted(facts.ERRORS, "the line has more than 8,192 bytes", "the line has more than 8,193 bytes", ("sources 8192",)),
    Planted(HEADER, '#define ELEPHANT_LIBRARY_VERSION "', '#define ELEPHANT_LIBRARY_VERSION "1', (HEADER,)),
    Planted(HEADER, "LIBRARY_VERSION_NUMBER ", "LIBRARY_VERSION_NUMBER 1", (HEADER,)),
    Planted(HEADER, "/* SPDX-License-Identifier: ", "/* SPDX-License-Identifier: X", (HEADER,)),
    Planted(version.PROGRAM, 'const VERSION: &str = "', 'const VERSION: &str = "1', (version.PROGRAM,)),
    Planted(version.PROJECT, '\nversion = "', '\nversion = "1', (version.PROJECT,)),
    Planted(version.PACKAGE, '__version__ = "', '__version__ = "1', (version.PACKAGE,)),
    Planted(version.CRATE, '\nversion = "', '\nversion = "1', (version.CRATE,)),
    Planted(version.CRATE, "\nlicense-file = ", "\nlicense = ", (version.CRATE,)),
    Planted(docs.OF_EVENTS[0], "Each of the 36 events", "Each of the 34 events", (docs.OF_EVENTS[0],)),
    Planted(docs.OF_EVENTS[1], "each of the 36 events", "each of the 35 events", (docs.OF_EVENTS[1],)),
]
ALL_OF_A_REFUSAL = (HEADER, python.ERRORS, python.NAMES, rust.SYS, rust.ERRORS, docs.ERRORS)
# A fault, or something new, of a source.
OF_SOURCES = [
    Planted(version.VERSION, "\n", "1\n", (*version.OF_VERSION, version.CHANGES)),
    Planted(
        version.LICENSE, "SPDX-License-Identifier: ", "SPDX-License-Identifier: MIT-",
        (HEADER, version.CRATE, *version.COPIES, "README.md"),
    ),
    Planted(facts.REFUSAL, "Refusal::IsRoot => 11,", "Refusal::IsRoot => 42,", (HEADER, python.ERRORS, rust.SYS, rust.TESTED, docs.ERRORS)),
    Planted(facts.REFUSAL, 'Refusal::IsRoot => "IsRoot"', 'Refusal::IsRoot => "Root"', ALL_OF_A_REFUSAL),
    Planted(facts.ERRORS, "the root can't be made,", "the root can't be lost,", (HEADER, python.ERRORS, rust.ERRORS, docs.ERRORS)),
    Planted(facts.ERRORS, "the root can't be made, moved", "the root can't be moved", (docs.ERRORS,)),
    Planted(facts.ERRORS, "Refusal::IsRoot =>", "Refusal::Root =>", ("doesn't say what 11 IsRoot means",)),
    Planted(facts.LINE_FAULT, "LineFault::BadPath => 29", "LineFault::BadPath => 43", (HEADER, docs.ERRORS, facts.HELP_PAGES)),
    Planted(facts.SHELL_FAULT, "ShellFault::ReadFault => 34", "ShellFault::ReadFault => 44", (docs.ERRORS,)),
    Planted(facts.STORM_FAULT, "AuditFault::TurnHeld => 38", "AuditFault::TurnHeld => 45", (docs.ERRORS,)),
    Planted(facts.CODES, "pub const NO_ROOM: i32 = 70;", "pub const NO_ROOM: i32 = 72;", (HEADER,)),
    Planted(facts.CODES, "Which::Marks => 8,", "Which::Marks => 9,", (HEADER, rust.SYS)),
    Planted(facts.CODES, "Refusal::Full(which) => Some", "Refusal::TooBig(which) => Some", (HEADER,)),
    Planted(facts.LIMITS, "        marks: 10_000,", "        marks: 20_000,", (docs.ERRORS, HEADER, python.ANSWERS, rust.VALUES, "help")),
    Planted(facts.HELP_PAGES, "1,048,576      no 17 TooBig", "1,048,577      no 17 TooBig", (facts.HELP_PAGES,)),
    Planted(facts.STATS, "length, policy, seconds,", "length, size, policy, seconds,", (HEADER, rust.SYS, python.LIBRARY, calls.SOURCE)),
    Planted(facts.KEPT, "`elephant_key`: since, file,", "`elephant_key`: file, since,", (HEADER, rust.SYS)),
    Planted(facts.NUMBER_RULES, "kind_number policy.All = 1", "kind_number policy.All = 4", ("ELEPHANT_KEEP_ALL",)),
    Planted(facts.NUMBER_RULES, "fate_numbers fate.Open = single 1", "fate_numbers fate.Open = single 5", ("ELEPHANT_IS_OPEN",)),
    Planted(facts.NUMBER_RULES, "fifth = 1; sixth", "fifth = 3; sixth", ("ELEPHANT_BY_AGE",)),
    Planted(facts.CALLS, "    Call::Link,\n    Call::Unlink,", "    Call::Unlink,\n    Call::Link,", ("LATE hasn't the variants",)),
    Planted(facts.CALLS, "    Tick,\n", "    Tick,\n    Tock,\n", ("LATE hasn't the variants",)),
    Planted(facts.KINDS, "    Kind::Rung,\n", "    Kind::Rung,\n    Kind::Ring,\n", ("KINDS hasn't the variants",)),
    Planted(facts.TAGS, "1 => moment(number).map(Tag::At)", "3 => moment(number).map(Tag::At)", ("ELEPHANT_AT",)),
    Planted(
        facts.COMMAND, '(Command::Unlink, "unlink", "", &[Path], Always)', '(Command::Unlink, "remove", "", &[Path], Always)',
        (docs.SCRIPT, "`remove`"),
    ),
    Planted(facts.COMMAND, '(Topic::History, "ok trimmed K")', '(Topic::Cleaning, "ok trimmed K")', (python.REPLAY, python.CONTROL)),
    Planted(facts.COMMAND, '"ok trimmed K"', '"ok folded K, then K lines - N"', (docs.SCRIPT,)),
    Planted(facts.HELP_SCRIPT, 'WordKind::Name => "G"', 'WordKind::Name => "W"', (docs.SCRIPT,)),
    Planted(facts.PARAGRAPHS, "Makes an empty group.", "Makes a group.", (docs.SCRIPT,)),
    Planted(facts.ASKS, "asks (Stat tagged) = true\n", "", (python.REPLAY, python.CONTROL)),
    Planted(facts.ASKS, "asks (Stat tagged) = true\n", "asks (Unlink path) = true\n", ("that `unlink` only asks", "that `stat` changes")),
    Planted(facts.STEP, "(Unless (nat_le w.limits.marks w.made.marks) (Full which.Marks)", "(id", ("`mark` makes marks",)),
    Planted(facts.CHANGE, COUNTED, "", (python.COUNTS, docs.ERRORS)),
    Planted(facts.STEP, "Unless (list_any (is_live_in directory) w.names) NotEmpty", "Unless false Exists", ("`rmdir`",)),
    Planted(facts.STEP, "(Unless (nat_le w.limits.files w.made.files) (Full which.Files)", "(id", ("`create`",)),
    Planted(f"{facts.EXPORTS}/answers.rt", "    kind: u32,\n    index: u64,\n    inner", "    index: u64,\n    inner", (calls.SOURCE,)),
    Planted(f"{facts.EXPORTS}/events.rt", "rows: &mut u64,", "rows: &mut [u8],", ("elephant_ahead",)),
]
PLANTED = [*OF_FILES, *OF_SOURCES]


def run(tree: Tree) -> list[str]:
    """Returns a line for each fault that isn't found in a copy of a tree, which has none itself."""
    wrong = [f"a tree without a fault has one: {it}" for it in findings(tree)]
    for planted in PLANTED:
        text = tree[planted.path]
        if text.count(planted.old) != 1:
            wrong.append(f"{planted.path} has {planted.old!r} {text.count(planted.old)} times, and a fault is planted where it stands once")
            continue
        found = "\n".join(findings({**tree, planted.path: text.replace(planted.old, planted.new)}))
        wrong += [f"{planted.path}: {it!r} isn't named if {planted.new!r} is in place of {planted.old!r}"
                  for it in planted.wanted if it not in found]
    return wrong
