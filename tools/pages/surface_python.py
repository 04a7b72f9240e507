"""What tools/pages/surface prints in the Python package: rows and calls of the library, exceptions with their names, lists of commands."""

import re
import textwrap
from collections.abc import Iterator

from gate.building import match_in
from pages import surface_words as words
from pages.surface_docs import letters_of
from pages.surface_facts import COMMAND, PARAGRAPHS, Call, Code, Command, Facts, journaled, paragraphs_in
from pages.surface_header import CODES_FROM, HEADER, Declared, declared
from pages.surface_regions import HEAD, Tree, place_of, with_region, wrapped

PACKAGE = "clients/python/src/elephant"
LIBRARY, ERRORS, NAMES, EVENTS = (f"{PACKAGE}/{it}.py" for it in ("_library", "_errors", "__init__", "_events"))
REPLAY, CONTROL, COUNTS = (place_of(PACKAGE, f"{HEAD}: {it}, from ") for it in ("the questions", "the lines", "the counts"))
LANGUAGE = place_of(PACKAGE, f"{HEAD}: the commands, from ")
ANSWERS = place_of(PACKAGE, "class Limits(NamedTuple):")
FROM_COMMANDS = "ele_commands/src/command.rt and ele_model/specs/NothingChanges.antt"
FROM_JOURNAL = "ele_journal/src/event.rt and ele_commands/src/command.rt"
FROM_HELP = "ele_commands/src/command.rt and ele_help/src/paragraphs.rt"
# What an exception is by the kind of its number.
BASES = {"stop": ["Stop"], "refusal": ["Refused"], "line": ["Refused", "ValueError"], "handle": ["ElephantError", "ValueError"]}
# The words of _library._PARTS for a type of C; a size belongs to the pointer before it.
PARTS = {"uint64_t": "number", "uint32_t": "word", "const void *": "text", "void *": "into"}
# The most characters of a line, and of a text on it.
MOST_LINE, MOST_TEXT = 140, 128
# What the tree of a mount doesn't show.
SHORT_TOPICS = ("Policies", "Groups", "Cleaning")


def quoted(text: str) -> str:
    return f'"{text}"'


# The library.


def row_name(name: str) -> str:
    """Returns the class of a row: elephant_stat_row is StatRow."""
    return name.removeprefix("elephant_").removesuffix("_row").title() + "Row"


def parts_of(call: Call) -> str:
    """Returns the words of _library._PARTS for the parameters of a call, but for the handle."""
    found = [PARTS.get(it.kind, "out" if it.kind.endswith("*") else it.kind) for it in call.parameters[1:]]
    return " ".join(it for it in found if it != "size_t")


def has_handle(call: Call) -> bool:
    """Whether a call returns a code and takes a handle. The others are by hand."""
    return call.result == "int32_t"


def library(tree: Tree, facts: Facts, of_c: Declared) -> str:
    tags = of_c.enums["tag"]
    numbers = f"{', '.join(tags)} = {', '.join(map(str, tags.values()))}\n"
    numbers += "".join(f"{facts.code(it).in_c()} = {facts.code(it).number}\n" for it in words.NAMED_IN_PYTHON)
    rows = "".join(f'{row_name(name)} = _struct("{row_name(name)}", "{" ".join(columns)}")\n' for name, columns in of_c.rows.items())
    listed = [(name.removeprefix("elephant_"), parts_of(call)) for name, call in of_c.calls.items() if has_handle(call)]
    calls = f"_CALLS = {{\n{wrapped(f'{quoted(name)}: {quoted(parts)}' for name, parts in listed)}}}\n"
    text = with_region(LIBRARY, tree[LIBRARY], "the numbers", HEADER, numbers)
    text = with_region(LIBRARY, text, "the rows", HEADER, rows)
    return with_region(LIBRARY, text, "the calls", HEADER, calls)


# Exceptions.


def in_python(facts: Facts) -> Iterator[Code]:
    """Yields the codes that have an exception."""
    for code in facts.codes:
        if code.kind in BASES and code.name not in words.NEVER_IN_PYTHON | words.NEVER_IN_C:
            yield code


def told(text: str) -> list[str]:
    """Returns the lines of a class's documentation."""
    lines = textwrap.wrap(f'"""{text}"""', MOST_LINE - 4)
    return [f"    {it}" for it in lines]


def exception(code: Code) -> str:
    """Returns the class of a code."""
    own = words.OWN_BASES.get(code.name)
    bases = [*BASES[code.kind][:1], own] if own else BASES[code.kind]
    lines = [f"class {code.name}({', '.join(bases)}, number={code.number}):", *told(words.full_stop(code.sentence()))]
    lines += ["", f"    errno = errno.{words.SYSTEM[code.name]}"] if code.name in words.SYSTEM else []
    return "".join(f"{it}\n" for it in lines)


def errors(tree: Tree, facts: Facts, _: Declared) -> str:
    listed = [exception(it) for it in in_python(facts) if it.name not in words.BY_HAND]
    # Two empty lines before and after each class, as everywhere.
    text = with_region(ERRORS, tree[ERRORS], "the codes", CODES_FROM, "\n\n" + "\n\n".join(listed) + "\n\n")
    limits = ", ".join(quoted(it) for it in ("", *(it.word for it in facts.limits)))
    return with_region(ERRORS, text, "the limits", "ele_c_values/src/codes.rt", f"LIMIT_NAMES = ({limits})\n")


def names(tree: Tree, facts: Facts, of_c: Declared) -> str:
    """Returns the package's imports and names: each exception, and what else it imports."""
    listed = sorted(re.findall(r"^class (\w+)", errors(tree, facts, of_c), re.M), key=str.casefold)
    imported = "".join(f"    {it},\n" for it in listed)
    text = with_region(NAMES, tree[NAMES], "the errors", "_errors.py", f"from ._errors import (\n{imported})\n")
    imports = re.findall(r"^from \.\w+ import (?:\(([^)]*)\)|(.*))$", text, re.M)
    given = sorted({it for pair in imports for it in re.findall(r"\w+", " ".join(pair))}, key=lambda it: (not it.isupper(), it.casefold()))
    return with_region(NAMES, text, "all names", "the imports", f"__all__ = [\n{wrapped(map(quoted, given))}]\n")


def numbers_by_hand(tree: Tree, facts: Facts) -> Iterator[str]:
    """Yields the exceptions that have another number than their code."""
    found = dict(re.findall(r"^class (\w+)\(.*\bnumber=(\d+)\)", tree[ERRORS], re.M))
    wanted = {it.name: str(it.number) for it in in_python(facts)}
    for name in sorted({*found, *wanted}):
        if found.get(name) != wanted.get(name):
            yield f"{ERRORS}: {name} has the number {found.get(name)}, and the sources have {wanted.get(name)}"


# The events of a journal.


def events(tree: Tree, _: Facts, __: Declared) -> str:
    listed = wrapped(f"(b{quoted(word)}, {quoted(letters)})" for word, letters in journaled(tree))
    return with_region(EVENTS, tree[EVENTS], "the kinds", FROM_JOURNAL, f"KINDS = (\n{listed})\n")


# Lists of commands.


def questions(facts: Facts) -> list[str]:
    """Returns the first words of the lines that only ask: commands, those of histories, and those of runs that explain. A note changes no
    row either, but a journal keeps it."""
    asking = [it for it in facts.commands if it.asks and it.first() != "note"]
    asking.sort(key=lambda it: (it.explains, it.topic == "History"))
    found = list(dict.fromkeys(it.first() for it in asking))
    mixed = [it.words for it in facts.commands if not it.asks and it.first() in found]
    if mixed:
        raise LookupError(f"{', '.join(mixed)} changes something, and another command with its first word only asks")
    return found


def takers(facts: Facts) -> dict[str, tuple[str, ...]]:
    """Returns the counts that each command raises, by its first word, or by both if those with this first word raise others."""
    found: dict[str, tuple[str, ...]] = {}
    for command in facts.commands:
        alike: set[tuple[str, ...]] = {it.takes for it in facts.commands if it.first() == command.first()}
        found[command.first() if len(alike) == 1 else command.words] = command.takes
    return {words: takes for words, takes in found.items() if takes}


def replay(tree: Tree, facts: Facts, _: Declared) -> str:
    body = f"QUESTIONS = frozenset((\n{wrapped(f'b{quoted(it)}' for it in questions(facts))}))\n"
    return with_region(REPLAY, tree[REPLAY], "the questions", FROM_COMMANDS, body)


def control(tree: Tree, facts: Facts, _: Declared) -> str:
    short = list(dict.fromkeys(it.first() for it in facts.commands if is_short(it)))
    body = f"_ASK = frozenset((\n{wrapped(map(quoted, questions(facts)))}))\n"
    body += f"_SHORT = frozenset(({', '.join(map(quoted, short))}))\n"
    return with_region(CONTROL, tree[CONTROL], "the lines", FROM_COMMANDS, body)


def language(tree: Tree, facts: Facts, _: Declared) -> str:
    """Returns the file with the line, the answer and the help of each command."""
    told = dict(paragraphs_in(tree[COMMAND], tree[PARAGRAPHS]))
    items = []
    for it in facts.commands:
        what = " ".join(told[it.words].partition("\nExample:")[0].split())
        usage = " ".join([it.words, *letters_of(it, facts)])
        lines = textwrap.wrap(what, MOST_TEXT, break_long_words=False, break_on_hyphens=False, drop_whitespace=False)
        texts = "\n".join(f"        {quoted(line)}" for line in lines)
        items.append(f"    {quoted(it.words)}: (\n        {quoted(usage)}, {quoted(it.answer)},\n{texts},\n    ),\n")
    body = f"COMMANDS: dict[str, tuple[str, str, str]] = {{\n{''.join(items)}}}\n"
    return with_region(LANGUAGE, tree[LANGUAGE], "the commands", FROM_HELP, body)


def is_short(command: Command) -> bool:
    """Whether a command leaves names and contents."""
    return command.topic in SHORT_TOPICS


def counts(tree: Tree, facts: Facts, _: Declared) -> str:
    def spelled(takes: tuple[str, ...]) -> str:
        return f"({', '.join(map(quoted, takes))}{',' * (len(takes) == 1)})"

    items = [f"b{quoted(name)}: {spelled(takes)}" for name, takes in takers(facts).items()]
    sources = "ele_model/specs/Step.antt and ele_model/specs/Change.antt"
    return with_region(COUNTS, tree[COUNTS], "the counts", sources, f"TAKES = {{\n{wrapped(items)}}}\n")


def pairs_by_hand(tree: Tree, facts: Facts) -> Iterator[str]:
    """Yields a line if the mount reads two words of other commands than the table has."""
    first = {name.split()[0] for name in takers(facts) if " " in name}
    if first != set(re.findall(r'words\[0\] == b"(\w+)" else', tree[COUNTS])):
        yield f"{COUNTS}: _command_of reads two words, and TAKES has two of {', '.join(sorted(first))}"


def answers(tree: Tree, facts: Facts, _: Declared) -> str:
    """Returns the file with the limits of a store, and with what they count."""
    limits, counts = (_fields_of(name, tree[ANSWERS]) for name in ("Limits", "Counts"))
    text = tree[ANSWERS].replace(limits, "\n".join(f"    {name}: int = {most:_}" for name, most in facts.most().items()))
    return text.replace(counts, "\n".join(f"    {name}: int" for name in facts.most()))


def _fields_of(name: str, text: str) -> str:
    return match_in(rf"(?s)class {name}\(NamedTuple\):\n    \"\"\".*?\"\"\"\n\n(.*?)\n\n", text)[1]


PRINTED = {
    LIBRARY: library, ERRORS: errors, NAMES: names, REPLAY: replay, CONTROL: control, COUNTS: counts, ANSWERS: answers,
    LANGUAGE: language, EVENTS: events,
}


def made(tree: Tree, facts: Facts) -> dict[str, str]:
    """Returns each file of the package with its printed regions."""
    of_c = declared(tree[HEADER])
    return {path: printed(tree, facts, of_c) for path, printed in PRINTED.items()}


def complaints(tree: Tree, facts: Facts) -> Iterator[str]:
    yield from numbers_by_hand(tree, facts)
    yield from pairs_by_hand(tree, facts)
