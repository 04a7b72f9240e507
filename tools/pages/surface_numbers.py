"""Numbers of the sources that pages, the header and programs say again in sentences of their own. None is printed; each is compared."""

import functools
import re
from collections.abc import Iterator

from pages.surface_facts import ERRORS, REFUSAL, Facts
from pages.surface_header import HEADER
from pages.surface_regions import Tree, place_of

PYTHON, RUST = "clients/python/src/elephant", "clients/rust/src"
# The places of each number: a file, and the form in which it says the number. White space and the margins of comments are one space there.
NUMBERS = {
    "content": [
        (HEADER, r"content has at most ([\d,]+) bytes"), (HEADER, r"longer than ([\d,]+) bytes"), (REFUSAL, r"longer than ([\d,]+) bytes"),
        (ERRORS, r"longer than ([\d,]+) bytes"), ("docs/FAQ.md", r"([\d,]+) bytes \(1 MiB\)"),
        ("docs/EMBED.md", r"content has at most ([\d,]+) bytes"),
        ("docs/MOUNT.md", r"\| a file \| ([\d,]+) bytes"), (place_of(RUST, "LARGEST_CONTENT: usize"), r"LARGEST_CONTENT: usize = ([^;]+);"),
        ("tools/program/twin_rows.py", r"LONGEST = (\d+ << \d+)"),
    ],
    "note": [
        (HEADER, r"TOO_BIG for more than ([\d,]+) bytes"), (ERRORS, r"or the note than ([\d,]+)"),
        ("docs/UNDO.md", r"`note X` before it: up to ([\d,]+) bytes"), ("tools/program/twin_rows.py", r"LONGEST_NOTE = (\d+)"),
    ],
    "name": [
        (HEADER, r"name has 1 to (\d+) bytes"), (ERRORS, r"a name has 1 to (\d+) bytes"), ("README.md", r"a name (\d+) bytes"),
        ("docs/SCRIPT.md", r"A name has 1 to (\d+) bytes"), ("docs/EMBED.md", r"a name (\d+) bytes"),
        ("docs/MOUNT.md", r"\| a name \| (\d+) bytes"), (place_of(PYTHON, "\nMOST_NAME ="), r"MOST_NAME = (\d+)"),
    ],
    "names": [
        (HEADER, r"at most (\d+) names"), (ERRORS, r"at most (\d+) names"), ("docs/SCRIPT.md", r"at most (\d+) names"),
        ("docs/MOUNT.md", r"\| a path \| (\d+) names"), (place_of(PYTHON, "\nMOST_NAMES ="), r"MOST_NAMES = (\d+)"),
    ],
    "line": [(ERRORS, r"line has more than ([\d,]+) bytes"), ("docs/SCRIPT.md", r"has at most ([\d,]+) bytes from space")],
    "lines": [
        (ERRORS, r"more than ([\d,]+) lines"),
        ("docs/SCRIPT.md", r"a byte follows ([\d,]+) lines"), ("tools/program/large_scripts", r"MOST_LINES, MOST_BYTES = (\S+),"),
    ],
    "bytes": [
        (ERRORS, r"lines or ([\d,]+) bytes"), ("docs/SCRIPT.md", r"lines or ([\d,]+) bytes"),
        ("tools/program/large_scripts", r"MOST_LINES, MOST_BYTES = \S+, ([\d_]+)"),
    ],
    "moment": [
        (HEADER, r"from 0 to (\d+)"), (HEADER, r"past (\d+)"), ("docs/SCRIPT.md", r"seconds since 1970, at most (\d+)"),
        ("docs/MODEL.md", r"seconds since 1970-01-01T00:00:00Z, at most (\d+)"), ("tools/program/twin_rows.py", r"LAST_MOMENT = (\d+)"),
        ("tools/program/fuzz_lines", r"LAST_MOMENT = (\d+)"), (place_of(PYTHON, "\nLAST_MOMENT ="), r"LAST_MOMENT = (\d+)"),
    ],
    "files": [
        ("README.md", r"versions and ([\d,]+) files"), ("docs/FAQ.md", r"versions and ([\d,]+) files"),
        ("docs/MOUNT.md", r"\| files ever made \| ([\d,]+)"),
    ],
    "directories": [("docs/MOUNT.md", r"\| directories ever made \| ([\d,]+)")],
    "made names": [("docs/MOUNT.md", r"\| names ever given[^|]* \| ([\d,]+)")],
    "versions": [
        ("README.md", r"at most ([\d,]+) versions"), ("docs/FAQ.md", r"at most ([\d,]+) versions"),
        ("docs/MOUNT.md", r"\| versions ever made[^|]* \| ([\d,]+) each"),
    ],
    "handles": [("docs/MOUNT.md", r"times that a file was opened to be changed \| ([\d,]+) each")],
}
COMPARED = sorted({path for places in NUMBERS.values() for path, _ in places})


@functools.lru_cache(maxsize=100)
def spaced(text: str) -> str:
    """Returns a text with one space for white space and the margins of comments."""
    return re.sub(r"\s+(?:\*|///?)? *", " ", text)


def number_of(text: str) -> int:
    """Returns the number that a text spells, as `1,000`, `1_000` or `1 << 20`."""
    base, _, shift = re.sub("[,_]", "", text).partition("<<")
    return int(base) << int(shift or "0")


def wanted_of(facts: Facts) -> dict[str, int]:
    """Returns each number that NUMBERS has places of. A path's names and a store's have one word, so the latter are made names."""
    limits = {it.word: it.most for it in facts.limits}
    return {**limits, **facts.constants, "made names": limits["names"]}


def complaints(tree: Tree, facts: Facts) -> Iterator[str]:
    """Yields each place that says another number, or none."""
    wanted = wanted_of(facts)
    for name, places in NUMBERS.items():
        for path, form in places:
            found = {number_of(it) for it in re.findall(form, spaced(tree[path]))}
            if found != {wanted[name]}:
                yield f"{path}: as {form!r} it says {sorted(found) or 'nothing'}, and the sources {wanted[name]}"
