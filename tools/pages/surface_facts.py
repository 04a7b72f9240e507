"""The facts of the surface, as the sources of the crates have them: commands, numbers of errors, limits, columns of rows, and exports.

Which command only asks, and which counts it raises, follows from the definitions: `asks`, `plan` and `after_change` of `ele_model`.
"""

import re
from collections.abc import Iterator
from typing import NamedTuple

from gate.building import match_in
from pages import surface_words as words
from pages.surface_regions import Tree

COMMAND, PARTS = "crates/ele_commands/src/command.rt", "crates/ele_commands/specs/Parts.antt"
STEP, CHANGE, ASKS = (f"crates/ele_model/specs/{it}.antt" for it in ("Step", "Change", "NothingChanges"))
REFUSAL, LIMITS = "crates/ele_model/src/refusal.rt", "crates/ele_model/src/limits.rt"
ERRORS, HELP_PAGES, HELP_SCRIPT = (f"crates/ele_help/src/{it}.rt" for it in ("errors", "pages", "script"))
PARAGRAPHS = "crates/ele_help/src/paragraphs.rt"
JOURNALED = "crates/ele_journal/src/event.rt"
LINE_FAULT, SHELL_FAULT = "crates/ele_printer/src/fault.rt", "crates/ele_run_options/src/fault.rt"
STORM_FAULT = "crates/ele_storm_plan/src/fault.rt"
CODES, TAGS, CALLS, KINDS, OF_LIMITS = (f"crates/ele_c_values/src/{it}.rt" for it in ("codes", "asks", "call", "kind", "limits"))
# Where answers become numbers: a comment has the columns of each row.
KEPT, NAMES, GROUPS, STATS, FATES, COUNTS = (
    f"crates/ele_c_values/src/{it}.rt" for it in ("kept", "names", "groups", "stats", "fates", "limits")
)
NUMBER_RULES = "crates/ele_c_values/specs/Numbers.antt"
# What has a number: its source, and the type that has it. Another type may have the numbers of memory and of a full history too.
NUMBERED = [
    ("stop", REFUSAL, "Stop"), ("refusal", REFUSAL, "Refusal"), ("line", LINE_FAULT, "LineFault"), ("run", SHELL_FAULT, "ShellFault"),
    ("storm", STORM_FAULT, "AuditFault"), ("storm", STORM_FAULT, "StormFault"),
]
# Numbers that limits of no store have: where each stands, and its name there.
CONSTANTS = {
    "most events": (LIMITS, r"(?m)^        events: ([\d_]+),"),
    "events": ("crates/ele_invocation/src/run.rt", r'"events", EVENTS, "(\d+)"'),
    "lines": ("crates/ele_runs/src/script.rt", r"const MOST_LINES: u64 = ([\d_]+);"),
    "bytes": ("crates/ele_runs/src/script.rt", r"const MOST_BYTES: u64 = ([\d_]+);"),
    "line": ("crates/ele_script/src/reading.rt", r"const LONGEST_LINE: usize = ([\d_]+);"),
    "names": ("crates/ele_path/src/path.rt", r"const MOST_NAMES: usize = ([\d_]+);"),
    "name": ("crates/ele_moment/src/name.rt", r"const MOST_BYTES: usize = ([\d_]+);"),
    "moment": ("crates/ele_moment/src/moment.rt", r"const LAST: u64 = (\d+);"),
    "content": ("crates/ele_content/src/longest.rt", r"const LONGEST_CONTENT: u64 = ([\d_]+);"),
    "note": ("crates/ele_events/src/noting.rt", r"const LONGEST_NOTE: usize = ([\d_]+);"),
}
SOURCES = [
    COMMAND, PARTS, STEP, CHANGE, ASKS, REFUSAL, LIMITS, ERRORS, HELP_PAGES, HELP_SCRIPT, LINE_FAULT, SHELL_FAULT, STORM_FAULT, CODES,
    TAGS, CALLS, KINDS, OF_LIMITS, KEPT, NAMES, GROUPS, STATS, FATES, COUNTS, NUMBER_RULES, PARAGRAPHS, JOURNALED,
    *sorted({path for path, _ in CONSTANTS.values()} - {LIMITS}),
]
EXPORTS = "crates/ele_c/src"
TYPES = {
    "&mut Elephant": "elephant *", "*mut Elephant": "elephant *", "&mut *mut Elephant": "elephant **", "u64": "uint64_t", "u32": "uint32_t",
    "&mut u64": "uint64_t *", "&[u8]": "const void *", "&mut [u8]": "void *", "&mut Numbers": "inner_row *",
    "&LimitFields": "const elephant_limits *", "&mut u32": "uint32_t *",
}


# What a journal has of an event, by the function that adds it.
LETTERS = {
    "on_path": "p", "path": "p", "numbered": "n", "number": "n", "moment": "n", "maybe": "m", "named": "s", "string": "b", "policy": "y",
    "tag": "t",
}


class Command(NamedTuple):
    """A command: its words, the kinds of the words after it, whether only a run that explains has it, its topic and its answer; whether it
    only asks, the counts that it always raises by one, and the refusals that its own line of the plan names, in their order. What is no
    event has no such line. `changes` says whether the line makes a change."""

    words: str
    kinds: list[str]
    explains: bool
    topic: str
    answer: str
    asks: bool
    takes: tuple[str, ...]
    refusals: list[str] | None
    changes: bool

    def first(self) -> str:
        return self.words.split()[0]


class Code(NamedTuple):
    """A number with its name: what has it (`stop`, `refusal`, `line`, `run`, `storm` or `handle`), what its source says of it, and what the
    help says."""

    kind: str
    number: int
    name: str
    says: str
    meaning: str

    def sentence(self) -> str:
        """Returns the first sentence of what the help says, or what its source says, without a full stop."""
        if not self.meaning:
            return words.OF_HANDLES.get(self.name) or self.says[:1].lower() + self.says[1:]
        return re.split(r"(?<=\.\.) (?=[A-Z])|(?<!\.)\. (?=[A-Z'])", self.meaning)[0]

    def in_c(self) -> str:
        """Returns its name in C, without ELEPHANT_."""
        return re.sub(r"(?<!^)([A-Z])", r"_\1", self.name).upper()


class Limit(NamedTuple):
    """A kind of thing that has a limit: its name, its word, its number, its largest limit, and what the help calls it."""

    name: str
    word: str
    number: int
    most: int
    phrase: str


class Parameter(NamedTuple):
    """A parameter of a call of C. The length of a text has no name in Rattle, where a slice has it."""

    kind: str
    name: str


class Call(NamedTuple):
    """A call of C: the type of its result, and its parameters."""

    result: str
    parameters: list[Parameter]


class Facts(NamedTuple):
    """All that the sources have. A row has its columns by its name in C. `calls` and `kinds` are in the order of their numbers."""

    commands: list[Command]
    codes: list[Code]
    limits: list[Limit]
    rows: dict[str, list[str]]
    exports: dict[str, Call]
    calls: list[str]
    kinds: list[str]
    enums: dict[str, int]
    constants: dict[str, int]
    events: int
    detailed: list[str]
    letters: dict[str, str]

    def most(self) -> dict[str, int]:
        """Returns the largest limits, in the order of the row that a program gives."""
        return {"events": self.constants["most events"], **{it.word: it.most for it in self.limits}}

    def of(self, kind: str) -> list[Code]:
        return [it for it in self.codes if it.kind == kind]

    def code(self, name: str) -> Code:
        return next(it for it in self.codes if it.name == name)


def number(word: str) -> int:
    return int(re.sub("[_,]", "", word))


def block(text: str, begin: str) -> str:
    """Returns the lines from one that begins so to the next brace or bracket at the margin."""
    return match_in(rf"(?ms)^{re.escape(begin)}.*?^[}}\]]", text)[0]


# Commands.


def equations(text: str, name: str) -> Iterator[tuple[str, str]]:
    """Yields each variant that a function has an equation for, and that equation."""
    for found in re.finditer(rf"^{name} (?:w )?\(?(\w+\.)?(\w+)((?:.|\n(?!{name} |--|abbrev|\n))*)", text, re.M):
        yield found[2], found[3]


def raised_by(tree: Tree) -> dict[str, set[str]]:
    """Returns the counts that each change raises, itself or by what it calls."""
    text = tree[CHANGE]
    called = dict(re.findall(r"^abbrev pub (\w+) : .*\n((?:\1 .*\n(?:[ }].*\n)*)+)", text, re.M))

    def counts(body: str, seen: frozenset[str]) -> set[str]:
        own = set(re.findall(r"made = record w\.made \{ (\w+) = ", body))
        inner = (counts(called[it], seen | {it}) for it in set(re.findall(r"\w+", body)) - seen if it in called)
        return own.union(*inner)

    return {change: counts(body, frozenset(["after_change", "after_changes"])) for change, body in equations(text, "after_change")}


def term_at(text: str, place: int) -> str:
    """Returns the term that begins at a place: a word, or all in brackets."""
    depth = 0
    for at in range(place, len(text)):
        depth += (text[at] == "(") - (text[at] == ")")
        if depth <= 0 and (at + 1 == len(text) or text[at] == ")" or text[at + 1] in " )\n"):
            return text[place:at + 1]
    raise LookupError(f"no bracket ends {text[place:place + 60]!r}")


def whole_plans(text: str) -> dict[str, str]:
    """Returns the lines of the plan of each event, with those of the plans that they name."""
    named = dict(re.findall(r"^abbrev pub (\w+) : .*→ Plan\n((?:\1 .*\n(?:    .*\n)*)+)", text, re.M))
    named.pop("plan", None)

    def whole(body: str) -> str:
        return re.sub(r"\w+", lambda it: whole(named[it[0]].partition("=\n")[2]) if it[0] in named else it[0], body)

    found: dict[str, str] = {}
    for variant, lines in equations(text, "plan"):
        variant = variant.replace("ListNames", "List")
        found[variant] = found.get(variant, "") + whole(lines)
    return found


def makes_in(equation: str) -> Iterator[str]:
    """Yields the changes of each outcome of an equation of the plan, as they are spelled there. A reply precedes them."""
    for found in re.finditer(r"\bMake ", equation):
        reply = term_at(equation, found.end())
        yield term_at(equation, found.end() + len(reply) + 1)


def takes_of(equation: str, raised: dict[str, set[str]], order: list[str]) -> tuple[str, ...]:
    """Returns the counts that each outcome which changes something raises."""
    outcomes = [set().union(*(raised[it] for it in re.findall(r"\w+", made) if it in raised)) for made in makes_in(equation)]
    always = set.intersection(*outcomes) if outcomes else set()
    return tuple(it for it in order if it in always)


def refusals_of(equation: str, names: list[str]) -> list[str]:
    """Returns the refusals that an equation names, each where it is named last."""
    found = re.findall(rf"\b(?:Full which\.(\w+)|({'|'.join(names)})\b)", equation)
    listed = [f"Full {which.lower()}" if which else name for which, name in found]
    return [it for at, it in enumerate(listed) if it not in listed[at + 1:]]


def commands_of(tree: Tree, limits: list[Limit], refusals: list[str]) -> list[Command]:
    """Returns the commands, in the order of their rows."""
    row = r'\(\s*Command::(\w+),\s*"(\w*)",\s*"(\w*)",\s*&\[([^\]]*)\],\s*(\w+),?\s*\)'
    rows = re.findall(row, block(tree[COMMAND], "pub static ROWS"))
    told = re.findall(r'\(\s*Topic::(\w+),\s*"([^"]*)",?\s*\)', block(tree[COMMAND], "pub static HELP"))
    if not rows or len(rows) != len(told):
        raise LookupError(f"{COMMAND}: {len(rows)} rows and {len(told)} of help")
    events = {command: event for event, command in re.findall(r"^parts_of \(?event\.(\w+).* = \(command\.(\w+),", tree[PARTS], re.M)}
    asking = {event for event, value in equations(tree[ASKS], "asks") if value.rstrip().endswith("= true")}
    plan = whole_plans(tree[STEP])
    raised, order = raised_by(tree), [it.word for it in limits]
    found = []
    for (name, first, second, kinds, when), (topic, answer) in zip(rows, told):
        event = events.get(name)
        asks = event in asking if event else when == "Explaining" or topic == "History"
        equation = plan[event] if event else ""
        words, listed, takes = f"{first} {second}".strip(), re.findall(r"\w+", kinds), takes_of(equation, raised, order)
        own = refusals_of(equation, refusals) if event else None
        found.append(Command(words, listed, when == "Explaining", topic, answer, asks, takes, own, bool(list(makes_in(equation)))))
    return found


def paragraphs_in(commands: str, paragraphs: str) -> list[tuple[str, str]]:
    """Returns the words of each command, and what the help says of it with its example, from the sources of both."""
    rows = re.findall(r'Command::\w+,\s*"(\w*)",\s*"(\w*)"', block(commands, "pub static ROWS"))
    told = re.findall(r'\(\s*"((?:[^"\\]|\\.)*)",\s*"((?:[^"\\]|\\.)*)",?\s*\)', paragraphs.partition("PARAGRAPHS")[2])
    if len(rows) != len(told):
        raise LookupError(f"{len(rows)} commands and {len(told)} paragraphs of help")
    texts = [f"{what}\n{example}".replace("\\n", "\n").replace('\\"', '"') for what, example in told]
    return [(f"{first} {second}".strip(), text) for (first, second), text in zip(rows, texts)]


def journaled(tree: Tree) -> list[tuple[str, str]]:
    """Returns the words of each event that a journal has, by the number of its kind, and a letter for each of its values: a path, a number,
    a moment or none, a policy, a tag, bytes, and the content of a file, which are bytes after others."""
    rows = re.findall(r'Command::(\w+),\s*"(\w*)",\s*"(\w*)"', block(tree[COMMAND], "pub static ROWS"))
    spelled = {name: f"{first} {second}".strip() for name, first, second in rows}
    commands = dict(re.findall(r"^parts_of \(?event\.(\w+).* = \(command\.(\w+),", tree[PARTS], re.M))
    arms = match_in(r"(?ms)^    fn put\(&self.*?^        match self \{\n(.*?)^            _ =>", tree[JOURNALED])[1]
    found = {}
    for event, arm in re.findall(r"(?ms)^            Event::(\w+)(?:\([^)]*\))? => (.*?)(?=^            Event::|\Z)", arms):
        letters = "".join(LETTERS[it] for it in re.findall(r"\bput_(\w+)", arm))
        number = int(match_in(r"(?:out, |push\()(\d+)", arm)[1])
        found[number] = spelled[commands[event]], re.sub("(?<=.)b$", "c", letters).replace("b", "s")
    if sorted(found) != list(range(len(found))):
        raise LookupError(f"{JOURNALED} has the kinds {sorted(found)}")
    return [found[number] for number in range(len(found))]


# Numbers of errors.


def said_of(text: str, kind: str) -> dict[str, str]:
    """Returns the first sentence of the comment of each variant."""
    rows = re.findall(r"^((?:    /// .*\n)+)(?:    #.*\n)*    (\w+)", block(text, f"pub enum {kind} "), re.M)
    comments = {name: " ".join(it.strip().removeprefix("/// ") for it in lines.splitlines()) for lines, name in rows}
    return {name: re.split(r"(?<=[^.])\.(?: |$)", it)[0].partition(": ")[0] for name, it in comments.items()}


def meanings_of(tree: Tree) -> dict[str, str]:
    """Returns what the help says of each refusal and fault."""
    text = tree[ERRORS]
    refused = re.findall(r'Refusal::(\w+)(?:\(_\))? =>\s*\{?\s*"([^"]*)"', block(text, "fn meaning_of"))
    others = re.findall(r'\b(?:\w+)::(\w+)\)?,\s*"([^"]*)"', text.partition("// The column")[0])
    return dict([*refused, *others])


def codes_of(tree: Tree) -> list[Code]:
    """Returns what has a number, by its kind and number."""
    meanings, found = meanings_of(tree), []
    for kind, source, name in NUMBERED:
        text, said = tree[source], said_of(tree[source], name)
        names = dict(re.findall(rf'\b{name}::(\w+)(?:\(_\))?\)? => "(\w+)",', text))
        for variant, digits in re.findall(rf"\b{name}::(\w+)(?:\(_\))?\)? => (\d+),", text):
            if kind == "stop" or variant not in ("NoMemory", "HistoryFull"):
                found.append(Code(kind, int(digits), names[variant], said.get(variant, ""), meanings.get(variant, "")))
    for says, name, digits in re.findall(r"^/// (.*)\.\npub const (\w+): i32 = (\d+);", tree[CODES], re.M):
        if int(digits) > 1:
            found.append(Code("handle", int(digits), "".join(it.title() for it in name.split("_")), says, ""))
    order = [it for it, _, _ in NUMBERED] + ["handle"]
    return sorted(found, key=lambda it: (order.index(it.kind), it.number))


# Limits, rows, enums and exports.


def limits_of(tree: Tree) -> list[Limit]:
    words = dict(re.findall(r'Which::(\w+) => "(\w+)"', tree[REFUSAL]))
    most = {name: number(digits) for name, digits in re.findall(r"^        (\w+): ([\d_]+),", tree[LIMITS], re.M)}
    phrases = {word: phrase for phrase, word in re.findall(r"^  (\S.*?)  +[\d,]+  +no \d+ Full (\w+)$", tree[HELP_PAGES], re.M)}
    numbers = re.findall(r"Which::(\w+) => (\d+),", tree[CODES])
    return [Limit(name, words[name], int(digits), most[words[name]], phrases.get(words[name], "")) for name, digits in numbers]


def rows_of(tree: Tree) -> dict[str, list[str]]:
    """Returns the columns of each row, by its name in C."""
    of_limits = match_in(r"(?m)^pub struct LimitFields \{\n((?: .*\n)*)\}", tree[OF_LIMITS])[1]
    found = {"elephant_limits": re.findall(r"pub (\w+): u64,", of_limits)}
    for path in (STATS, KEPT, NAMES, GROUPS, FATES, COUNTS):
        for name, columns in re.findall(r"^// `(elephant_\w+)`: ((?:.|\n//)*?)\.\n", tree[path], re.M):
            found[name] = re.findall(r"\w+", columns)
    return found


def numbered(text: str, name: str, kind: str) -> list[str]:
    """Returns the variants of a type in the order of their numbers, which is that of the type. Tables of these names have them."""
    tables = "".join(re.findall(rf"(?s)static (?:{name}): \[{kind}; \d+\] = \[(.*?)\];", text))
    listed = re.findall(rf"{kind}::(\w+),", tables)
    if listed != re.findall(r"^    (\w+),$", block(text, f"pub enum {kind} "), re.M):
        raise LookupError(f"{name} hasn't the variants of {kind} in their order")
    return listed


def enums_of(tree: Tree) -> dict[str, int]:
    """Returns the numbers of tags, kinds of policies, fates and causes, by their names in C."""
    rules, found = tree[NUMBER_RULES], {}
    for digits, name in re.findall(r"^        (\d) => (?:Ok\(|moment\(number\)\.map\()Tag::(\w+)", tree[TAGS], re.M):
        found[{"Number": "VERSION"}.get(name, name.upper())] = int(digits)
    for name, digits in re.findall(r"^kind_number \(?policy\.(\w+).* = (\d+)$", rules, re.M):
        found[f"KEEP_{name.upper()}"] = int(digits)
    for kind, form, before, column in (
        ("fate", "fate_numbers", "IS_", r"(?:single|triple|first =)"), ("cause", "due_numbers since", "", "fifth ="),
    ):
        for name, body in re.findall(rf"^{form} \(?{kind}\.(\w+)(.*)$", rules, re.M):
            digits = re.findall(rf"\b{column} (\d+)", body)
            names = {"AtOnce": "AT_ONCE", "Age": "BY_AGE"}
            found[before + names.get(name, name.upper())] = int(digits[0]) if digits else 0
    # Its cause is told beside it.
    found["IS_DUE"] = int(match_in(r"(?m)^due_numbers .*\bfirst = (\d+)", rules)[1])
    return found


def exports_of(tree: Tree) -> dict[str, Call]:
    """Returns each export, in the words of C. An allocator is no parameter."""
    found = {}
    for path in sorted(it for it in tree if it.startswith(EXPORTS)):
        for name, listed, result in re.findall(r'pub (?:unsafe )?extern "C" fn (\w+)\(([^)]*)\)( -> i32)?', tree[path]):
            found[name] = Call("int32_t" if result else "void", list(parameters_of(listed)))
    return found


def parameters_of(listed: str) -> Iterator[Parameter]:
    for name, _, kind in (it.strip().partition(": ") for it in listed.split(",") if it.strip()):
        if kind == "Global":
            continue
        yield Parameter(TYPES[kind], "e" if name == "elephant" else name)
        if "[u8]" in kind:
            yield Parameter("size_t", "")


def facts_of(tree: Tree) -> Facts:
    limits, codes = limits_of(tree), codes_of(tree)
    commands = commands_of(tree, limits, [it.name for it in codes if it.kind == "refusal" and it.name != "Full"])
    detail = tree[CODES].partition("fn detail_in(")[2].partition("\n}")[0]
    letters = re.findall(r'WordKind::(\w+)( if after_\w+)? => "(\S+)"', tree[HELP_SCRIPT])
    return Facts(
        commands, codes, limits, rows_of(tree), exports_of(tree), numbered(tree[CALLS], "EARLY|MIDDLE|LATE", "Call"),
        numbered(tree[KINDS], "KINDS", "Kind"), enums_of(tree),
        constants={name: number(match_in(form, tree[path])[1]) for name, (path, form) in CONSTANTS.items()},
        events=len(re.findall(r"^parts_of ", tree[PARTS], re.M)),
        detailed=re.findall(r"Refusal::(\w+)\(\w+\) => Some", detail),
        letters={f"{name}{after}": letter for name, after, letter in letters},
    )
