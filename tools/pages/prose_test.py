"""Tries tools/pages/prose on made-up pages: for each kind of finding, what it must find and what it must not."""

import tempfile
from collections.abc import Callable, Iterable, Iterator
from pathlib import Path

from pages.prose_checks import (
    KINDS, Finding, Size, broken_links, counts_of, false_figures, findings, long_sentences, lost_names, size_of, total, unlisted_pages,
    warned_words,
)
from pages.prose_figures import Counted
from pages.prose_names import Tree
from pages.prose_pages import Page, cells_of, slug

FILES = {
    "README.md": "# Top\n\n[A page](docs/PAGE.md), [another](docs/TRUST.md), and [a crate](crates/ele_low).\n",
    "docs/PAGE.md": "# A page\n\n## What isn't `so`\n",
    "crates/ele_low/README.md": "# ele_low\n",
    "crates/ele_high/README.md": "# ele_high\n\n[Itself](README.md), [another tree](https://example.org/crates/ele_high/README.md).\n",
    "crates/ele_low/src/lib.rt": "// lost_call\npub fn some_call() {}\n\npub enum Kind {\n    NONE,\n}\n\npub type Kin = Kind;\n",
    "crates/ele_low/src/made.rt": "impl<T: Drop> Kind<T> {\n    pub fn make() {}\n}\n",
    "crates/ele_low/specs/Deep.antt": "pub deep-word : ℕ\n",
    "crates/ele_low/src/other.rt": "struct Other {\n    size: u64, // SIZE\n}\n\nimpl Shown for Other {\n    const SIZE: u64 = 1;\n}\n",
    "crates/ele_low/src/words.rt": 'const WORDS: [&str; 2] = ["run", "strict"];\n',
    "examples/note.c": "int main(void);\n",
    "tools/look": "words.add_argument('--aside')\n",
    "crates/ele_low/must-fail/a.edit": "", "crates/ele_low/must-fail-long/b.edit": "", "crates/ele_low/must-fail-long/c.edit": "",
    "tests/low_calls/src/a.rt.txt": "#[test]\nfn a() {}\n\n#[test]\nfn b() {}\n",
    "docs/TRUST.md": "# Trust\n\n| all of the core | 1461 | 98 | | |\n",
    "tools/pages/questions.txt": "# What\nWhat is it? | README.md | Top | a page\nWhy? | README.md | Top | a crate\n",
}
THIRTY = " ".join(["word"] * 30)
LONG = f"31 words: {THIRTY[:59]}.."
PAGE = "docs/NEW.md"
# How a page is checked, and what a case finds in a text.
Check = Callable[[Page, Tree], Iterable[Finding]]
Look = Callable[[Tree, str], object]


def of_page(check: Check, name: str = PAGE) -> Look:
    """Returns a function that gives what a check finds in a text as a page, as lines and texts."""
    return lambda tree, text: [(it.line, it.text) for it in check(Page(name, text), tree)]


def links(page: Page, tree: Tree) -> Iterator[Finding]:
    pages = {name: Page(name, tree.read(name)) for name in FILES if name.endswith(".md")}
    return broken_links(page, pages, tree)


def unlisted(tree: Tree, _: str) -> list[str]:
    pages = {name: Page(name, tree.read(name)) for name in FILES if name.endswith(".md")}
    return [it.page for it in unlisted_pages(pages)]


def kinds(tree: Tree, text: str) -> list[str]:
    """Returns the kinds of all that is found in a page that no other page links to."""
    return [it.kind for it in findings({PAGE: Page(PAGE, text)}, tree)]


def lines_of(check: Check, name: str) -> Look:
    """Returns a function that gives the lines of what a check finds in the comments of a source."""
    return lambda tree, text: [it.line for it in check(Page(name, text), tree)]


long = of_page(lambda page, tree: long_sentences(page))
words = of_page(lambda page, tree: warned_words(page))
names = of_page(lost_names)
in_high = of_page(lost_names, "crates/ele_high/README.md")
linked = of_page(links)
figures = of_page(lambda page, tree: false_figures(page, Counted(tree)))


def size(_: Tree, text: str) -> Size:
    """Returns the size of a page of that text."""
    return size_of(Page(PAGE, text))


# What each case shows, how it looks at which text, and what it has to find.
CASES: list[tuple[str, Look, str, object]] = [
    ("a sentence of 31 words", long, f"Short.\n\nTwo\nlines. {THIRTY} word.", [(4, LONG)]),
    ("one of 30", long, f"{THIRTY}. {THIRTY}! {THIRTY}?\n", []),
    ("code is one word, signs are none", long, f"{THIRTY[5:]} `a b c` - = +.", []),
    ("a link counts by its text", long, f"{THIRTY[5:]} [word](docs/page.md#a-word).", []),
    ("items are sentences of their own", long, f"- {THIRTY}\n  - {THIRTY}\n1. {THIRTY}\n", []),
    ("so are cells", long, f"| {THIRTY} | {THIRTY} |\n|---|---|\n| {THIRTY} | a |\n", []),
    ("an item that goes on", long, f"- {THIRTY}\n  word\n", [(1, LONG)]),
    ("blocks of code have no sentences", long, f"    {THIRTY} word\n    - {THIRTY} word\n\n```\n{THIRTY} word\n```\n", []),
    ("nor have comments", long, f"<!--\n{THIRTY} word\n-->\n", []),
    ("dots that end no sentence", long, f"{THIRTY[:70]}, e.g. {THIRTY[75:]} .. word.", [(1, LONG)]),
    ("words", words, "It tells what stands\nbehind it, where a thing has come.", [
        (1, "tells: print, report, return, say"), (1, "stands: is, are, has"), (2, "behind: after"), (2, "where: if"),
        (2, "come: follow, become, happen")]),
    ("turns", words, "| What is told of it | such a front of which it hands on |", [
        (1, "What is told of it: name the thing again"), (1, "such: name the thing again"), (1, "front: before; a prefix"),
        (1, "of which: a sentence of its own"), (1, "hands on: pass")]),
    ("no such words", words, "Understand the outcome, such as `tell`, and say where it is: it becomes standard in the bedroom.", []),
    ("names", names, "`lost_call`, `Kind::Other`, `ele_none`\n`Nothing`, `some_call(x)`", [
        (1, "the tree has no lost_call"), (1, "the tree has no Kind::Other"), (1, "the tree has no ele_none"),
        (2, "the tree has no Nothing")]),
    ("a member of another type", names, "`Kind::size`, `Kin::SIZE`, `Other::size`", [
        (1, "the tree has no Kind::size"), (1, "the tree has no Kin::SIZE")]),
    ("members", names, "`Kind::NONE`, `Kind::make`, `Kin::make`, `Other::size`, `words::Other`", []),
    ("names that are there", names, "`some_call`, `Kind::NONE`, `&mut Kind`, `Kind<T>`, `ele_low`, `some_`", []),
    ("names of others", names, "`std::fmt`, `POL`, `NAME_of`, `a = b`, `13 Forgotten 2`", []),
    ("a name of the page's own code", names, "`my_name`\n\n    my_name = 1\n", []),
    ("paths", names, "`docs/GONE.md`, `src/gone.rt`, `gone.py`, `ele_low/src/gone`", [
        (1, "the tree has no docs/GONE.md"), (1, "the tree has no src/gone.rt"), (1, "the tree has no gone.py"),
        (1, "the tree has no ele_low/src/gone")]),
    ("paths that are there", names, "`docs/PAGE.md`, `specs/Deep`, `ele_low/src/lib`, `note.c`, `src/`, `specs/*.antt`", []),
    ("a path in a crate that hasn't it", names, "`specs/Deep` of `ele_high`, `src/lib.rt` (here) of `crates/ele_high`", [
        (1, "the tree has no specs/Deep"), (1, "the tree has no src/lib.rt")]),
    ("in one that has it", names, "`specs/Deep` of `ele_low`, `src/lib.rt` (here) of `crates/ele_low`, `src/lib.rt`", []),
    ("a name of another crate", names, "`some_call` of `ele_high`", [(1, "the tree has no some_call of ele_high")]),
    ("a name of its crate", names, "`Kind::NONE` (here) of `ele_low`", []),
    ("a path that the page's crate hasn't", in_high, "`specs/Deep`", [(1, "the tree has no specs/Deep")]),
    ("and that another crate has, which is named", in_high, "`ele_low` (`specs/Deep`)", []),
    ("paths of others", names, "`/notes/a.md`, `out/a.so`, `a/b`, `safe:3/2`, `~/a.py`", []),
    ("commands", names, "`./elephant walk`, `elephant run --lax`, `tools/look --twice`, `--twice`", [
        (1, "the tree has no ./elephant walk"), (1, "the tree has no --lax"), (1, "the tree has no --twice"),
        (1, "the tree has no --twice")]),
    ("commands that are there", names, "`elephant run --strict < FILE`, `tools/look --aside`, `--aside N`", []),
    ("commands of others", names, "`git log --format=%ct`, `open write /f`, `rt try`", []),
    ("links", linked, "[a](GONE.md) [b](../crates/ele_low/gone)\n[c](PAGE.md#so) [d](PAGE.md#here) [e](PAGE.md), \"So\"", [
        (1, "there is no docs/GONE.md"), (1, "there is no crates/ele_low/gone"), (2, "docs/PAGE.md has no heading #so"),
        (2, "docs/PAGE.md has no heading #here"), (2, 'docs/PAGE.md has no heading "So"')]),
    ("links that lead somewhere", linked, "[a](PAGE.md#what-isnt-so) [b](../crates/ele_low)\n[d](PAGE.md), \"What isn't so\"", []),
    ("links to others, and code", linked, "[c](https://a.b/c) `[e](f)`", []),
    ("pages that no page links to", unlisted, "", ["crates/ele_high/README.md"]),
    ("all kinds at once", kinds, f"{THIRTY} `lost_call` told [a](b) 9 wrong bodies", [*KINDS]),
    ("figures", figures, "4 wrong bodies, 12 wrong bodies.\nThe core takes 97 minutes.\n\n- 3 questions", [
        (1, "4 wrong bodies: 1 or 2 or 3 wrong bodies are there"), (1, "12 wrong bodies: 1 or 2 or 3 wrong bodies are there"),
        (2, "core takes 97 minutes: 98 minutes to read the core are there"), (4, "3 questions: 2 questions of a user are there")]),
    ("figures that are right", figures, "1 wrong body, 2 wrong bodies, all 3 wrong bodies. The core takes 98 minutes.\n\n2 questions", []),
    ("figures of tests", figures, "3 tests, 2 minutes on a machine, 2 tests, 2 minutes on it", [
        (1, "3 tests, 2 minutes on: 2 tests of tests/ are there")]),
    ("words and sentences", size, "# A page\n\nTwo words. `a b` - (so):\n\n- An item\n\n    no word\n", Size(8, 2, 4, 0)),
    ("printed words", size, "One.\n<!-- Printed by x: y. -->\n\n| a b. | c |\n|---|---|\n\n<!-- End of y. -->\nTwo\n", Size(2, 1, 1, 3)),
    ("sums of sizes", lambda _, __: total([Size(7, 4, 6, 0), Size(1, 1, 1, 3)]), "", Size(8, 5, 7, 3)),
    ("comments of C", lines_of(lambda page, tree: warned_words(page), "a.h"), "/* It\n * tells. */\nint told;  // comes\n", [2, 3]),
    ("comments of Python", lines_of(lambda page, tree: warned_words(page), "a.py"),
     'told = """It\ncame."""\n\ndef tell():\n    """It\n\n    stands."""\n    # gone\n', [7, 8]),
    ("comments of Rattle", lines_of(lambda page, tree: warned_words(page), "a.rt.txt"), "//! It tells.\nlet told = 1; // such\n", [1, 2]),
    ("cells", lambda _, text: cells_of(text), r"| a | `b|c` | d \| e |", ["a", "`b|c`", r"d \| e"]),
    ("anchors", lambda _, text: slug(text), "What isn't `so`, [or](a.md) is", "what-isnt-so-or-is"),
    ("counts", lambda _, __: counts_of([Finding("names", PAGE, 1, "")])["docs"], "", (0, 1, 0, 0, 0, 0)),
]


def run() -> int:
    """Tries each case, prints those that are wrong, and returns how many they are."""
    wrong = 0
    with tempfile.TemporaryDirectory() as folder:
        for name, text in FILES.items():
            (Path(folder) / name).parent.mkdir(parents=True, exist_ok=True)
            (Path(folder) / name).write_text(text, encoding="utf-8")
        tree = Tree(folder, FILES)
        for name, found, text, expected in CASES:
            if found(tree, text) != expected:
                wrong += 1
                print(f"{name}: {found(tree, text)} in place of {expected}")
    return wrong
