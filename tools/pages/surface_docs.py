"""What tools/pages/surface prints in the documents: tables of commands, limits and errors."""

import re
from collections.abc import Iterator

from gate.building import match_in
from pages import surface_words as words
from pages.surface_facts import ASKS, COMMAND, ERRORS as HELP_ERRORS, HELP_PAGES, PARAGRAPHS, STEP, Command, Facts, paragraphs_in
from pages.surface_regions import Tree, joined, region_in, with_region

SCRIPT, ERRORS, LIBRARY = (f"docs/{it}.md" for it in ("SCRIPT", "ERRORS", "LIBRARY"))
FROM_COMMANDS = "ROWS and HELP of ele_commands/src/command.rt; the last column is kept by hand"
FROM_LIMITS = "ele_model/src/limits.rt and the limits of lines, runs, names and contents"
FROM_ERRORS = "ele_help/src/errors.rt"
FROM_PARAGRAPHS = "ele_help/src/paragraphs.rt"
# Pages that say how many events there are.
OF_EVENTS = ("crates/ele_core/README.md", "docs/PROMISES.md")
# The tables of docs/ERRORS.md, each with the kind of its numbers.
TABLES = {
    "refusal": "the refusals", "line": "the bad lines", "stop": "the stops", "run": "the ends of a run", "storm": "the ends of a storm",
}
# What the program prints in an answer, and the words for the kinds of policies.
PRINTED = re.compile(r"(?:ok|stop|-) .*?(?=,? (?:then|or|and|in order|by)\b|, (?=ok|stop)|$)")
KINDS = re.compile(r"(?<=the same for ).*")
ROWS_FOLLOW = re.compile(r"After ((?:`ok [^`]*`(?:, | and )?)+), K rows follow")
LISTS = re.compile(r"ok (\w+)((?: F)?) (?:K|4), then ")
# Refusals of looking something up: a path, a version, a handle. They don't stand in a command's own line of the plan.
OF_LOOK_UPS = {"IsRoot", "NoEntry", "NotDirectory", "IsDirectory", "Future", "NoVersion", "Forgotten", "NoHandle", "NotWriter"}


# Commands.


def letters_of(command: Command, facts: Facts) -> list[str]:
    """Returns the letters that stand for the words after a command."""
    letters, before = [], ""
    for kind in command.kinds:
        letters.append(facts.letters.get(f"{kind} if after_{before.lower()}", facts.letters[kind]))
        before = kind
    return letters


def forms_of(command: Command, facts: Facts) -> list[str]:
    """Returns the cells of a command: of one that takes either of two words two, and of one that may have a last word one with both."""
    letters = letters_of(command, facts)
    last = letters[-1] if letters else ""
    usage = " ".join([command.words, *letters])
    if "|" in last:
        return [f"`{usage.replace(last, it)}`" for it in last.split("|")]
    return [f"`{usage.replace(f' {last}', '')}`, `{usage.replace(last, last[1:-1])}`"] if last.startswith("[") else [f"`{usage}`"]


def answer_of(command: Command) -> str:
    """Returns the cell of an answer, with what the program prints as code."""
    text = PRINTED.sub(r"`\g<0>`", command.answer)
    return KINDS.sub(lambda it: re.sub(r"\b(?!and\b)\w+", r"`\g<0>`", it[0]), text)


def rows_in(table: str) -> dict[str, str]:
    """Returns the last cell of each row of a table of commands, by the first."""
    rows = [[it.strip() for it in line.split("|")[1:-1]] for line in table.splitlines() if line.startswith("| `")]
    return {row[0]: row[-1] for row in rows}


def commands(facts: Facts, table: str, explains: bool) -> str:
    """Returns a table of commands, in the order that it has. What is new is at its end, and what the refusals are stays as it is."""
    answers = {form: answer_of(it) for it in facts.commands if it.explains == explains for form in forms_of(it, facts)}
    refusals = rows_in(table)
    order = [*(it for it in refusals if it in answers), *(it for it in answers if it not in refusals)]
    cells = [[it, answers[it], refusals.get(it, "")] for it in order]
    return table_of(["Line", "Answer", "Refusals, in this order"], cells)


def paragraphs(tree: Tree, table: str) -> str:
    """Returns what the help says of each command of a table, as a list in the table's order."""
    told = {name: what_of(text) for name, text in paragraphs_in(tree[COMMAND], tree[PARAGRAPHS])}
    names = dict.fromkeys(match_in(r"[a-z]+(?: [a-z]+)?", form)[0] for form in rows_in(table))
    return "".join(f"- **`{name}`**: {told[name]}\n" for name in names)


def what_of(text: str) -> str:
    """Returns a paragraph of the help without its example, with words in quotation marks and options as code."""
    plain = " ".join(text.partition("\nExample:")[0].split())
    return re.sub(r"(?<!\w)'([^']+)'(?!\w)|(?<!\S)(--\w+)", lambda it: f"`{it[1] or it[2]}`", plain)


def table_of(head: list[str], rows: list[list[str]]) -> str:
    lines = [head, *rows]
    text = [f"|{'|'.join(f' {it} ' if it else ' ' for it in line)}|\n" for line in lines]
    return "".join([text[0], f"|{'---|' * len(head)}\n", *text[1:]])


# Limits.


def limits(facts: Facts) -> str:
    """Returns the table of limits."""
    makers = {it.word: joined(f"`{command.first()}`" for command in facts.commands if it.word in command.takes) for it in facts.limits}
    full, most = facts.code("Full"), {name: f"{it:,}" for name, it in facts.constants.items()}

    def told(word: str, phrase: str) -> str:
        return words.LIMITS_OF_SCRIPT.get(word, phrase).format(makers=makers[word])

    def code(before: str, name: str) -> str:
        return f"`{before}{facts.code(name).number} {name}`"

    rows = [[told(it.word, it.phrase), f"{it.most:,}", f"`no {full.number} {full.name} {it.word}`"] for it in facts.limits]
    rows += [
        ["events of a history, folded ones too", f"{most['events']}, or N of `--events N`, from 1 to {most['most events']}",
         code("stop ", "HistoryFull")],
        ["lines of a run, and its bytes", f"{most['lines']}, and {most['bytes']}", f"status 1, {code('', 'TooManyLines')}"],
        ["bytes of a line", most["line"], code("bad ", "LineTooLong")],
        ["names of a path, and bytes of a name", f"{most['names']}, and {most['name']}",
         f"{code('bad ', 'BadPath')}, {code('bad ', 'BadName')}"],
        ["bytes of a content, and of a note", f"{most['content']}, and {most['note']}", code("no ", "TooBig")],
    ]
    return table_of(["What", "Most", "Answer above it"], rows)


def script(tree: Tree, facts: Facts) -> str:
    text = tree[SCRIPT]
    for name, explains in (("the commands", False), ("the questions", True)):
        table = commands(facts, region_in(SCRIPT, text, name), explains)
        text = with_region(SCRIPT, text, name, FROM_COMMANDS, table)
        text = with_region(SCRIPT, text, f"what {name} do", FROM_PARAGRAPHS, paragraphs(tree, table))
    sentence = match_in(ROWS_FOLLOW, text)
    return text.replace(sentence[0], f"After {followed(facts, sentence[1])}, K rows follow")


def followed(facts: Facts, told: str) -> str:
    """Returns the answers with rows, in the order in which a sentence has told them. New ones are at its end."""
    found = re.findall("`[^`]*`", told)
    wanted = [f"`ok {word} {letters}`" for word, letters in lists_of(facts) if word != "answers"]
    return joined([*(it for it in found if it in wanted), *(it for it in wanted if it not in found)])


# Errors and limits.


def errors(tree: Tree, facts: Facts) -> str:
    text = tree[ERRORS]
    for kind, name in TABLES.items():
        rows = [[str(it.number), it.name, it.meaning] for it in facts.of(kind)]
        text = with_region(ERRORS, text, name, FROM_ERRORS, table_of(["Number", "Name", "What it means, and what to do"], rows))
    return with_region(ERRORS, text, "the limits", FROM_LIMITS, limits(facts))


def lists_of(facts: Facts) -> list[tuple[str, str]]:
    """Returns the words and letters of each answer with rows after it, `history` and `F K`."""
    found = [LISTS.match(it.answer) for it in facts.commands]
    return [(it[1], f"{it[2]} K".strip()) for it in found if it]


def made(tree: Tree, facts: Facts) -> dict[str, str]:
    """Returns each page with its printed regions."""
    counted = {it: re.sub(r"\b([Ee]ach of the) \d+ events", rf"\1 {facts.events} events", tree[it]) for it in OF_EVENTS}
    most = joined(f"{it.most:,} {it.word}" for it in facts.limits)
    counted[LIBRARY] = re.sub(r"(?<=\. The largest are )\d[^.]*", most, tree[LIBRARY])
    return {SCRIPT: script(tree, facts), ERRORS: errors(tree, facts), **counted}


# What is compared.


def complaints(tree: Tree, facts: Facts) -> Iterator[str]:
    yield from refusals_by_hand(tree, facts)
    yield from limits_of_help(tree, facts)
    yield from plans_apart(facts)
    for code in facts.codes:
        if code.kind in TABLES and not code.meaning:
            yield f"{HELP_ERRORS}: the help doesn't say what {code.number} {code.name} means"


def refusals_by_hand(tree: Tree, facts: Facts) -> Iterator[str]:
    """Yields the rows of commands whose refusals aren't those of their line of the plan, in its order."""
    listed = rows_in(region_in(SCRIPT, tree[SCRIPT], "the commands"))
    checked = {it.name for it in facts.of("refusal")} - OF_LOOK_UPS | {f"Full {it.word}" for it in facts.limits}
    for command in facts.commands:
        if command.refusals is None:
            continue
        told = [listed.get(form, "") for form in forms_of(command, facts)]
        found = [it for cell in told for it in re.findall(r"\bFull \w+|\b[A-Z]\w+", cell) if it in checked]
        # Another row's refusals come before the own ones.
        if found != command.refusals and found != [it for it in command.refusals if it not in of_another(told, listed, checked)]:
            yield f"{SCRIPT}: the refusals of `{command.words}` are {found}, and the plan has {command.refusals}"
        if not all(told):
            yield f"{SCRIPT}: the refusals of `{command.words}` are missing"


def plans_apart(facts: Facts) -> Iterator[str]:
    """Yields the commands of which `asks` says something else than their line of the plan, or that raise a count without a limit there."""
    for command in facts.commands:
        if command.refusals is None:
            continue
        if command.asks == command.changes:
            yield f"{ASKS}: it says that `{command.words}` {'only asks' if command.asks else 'changes something'}, and the plan doesn't"
        unlimited = [it for it in command.takes if f"Full {it}" not in command.refusals]
        if unlimited:
            yield f"{STEP}: `{command.words}` makes {', '.join(unlimited)}, and its line has no limit of these"


def of_another(told: list[str], listed: dict[str, str], checked: set[str]) -> set[str]:
    """Returns the refusals of the rows that a cell names."""
    named = [listed.get(it, "") for cell in told for it in re.findall(r"those of (`[^`]+`)", cell)]
    return {it for cell in named for it in re.findall(r"\bFull \w+|\b[A-Z]\w+", cell) if it in checked}


def limits_of_help(tree: Tree, facts: Facts) -> Iterator[str]:
    """Yields the limits that the help has otherwise than the sources."""
    most = facts.constants
    wanted = [(f"no {facts.code('Full').number} Full {it.word}", it.most) for it in facts.limits]
    wanted += [(f"stop {facts.code('HistoryFull').number} HistoryFull; see --events", most["events"])]
    lines = f"{facts.code('TooManyLines').number} TooManyLines, status 1"
    wanted += [(lines, most["lines"]), (lines, most["bytes"]), (f"bad {facts.code('LineTooLong').number} LineTooLong", most["line"])]
    wanted += [(f"bad {facts.code(name).number} {name}", most[of]) for name, of in (("BadPath", "names"), ("BadName", "name"))]
    wanted += [(f"no {facts.code('TooBig').number} TooBig", most[of]) for of in ("content", "note")]
    found = re.findall(r"^  \S.*?  +([\d,]+)  +(\S.*)$", tree[HELP_PAGES], re.M)
    have = [(answer, int(digits.replace(",", ""))) for digits, answer in found]
    for it in [*(it for it in have if it not in wanted), *(it for it in wanted if it not in have)]:
        yield f"{HELP_PAGES}: {it[0]} at {it[1]:,} is only in the {'help' if it in have else 'sources'}"
