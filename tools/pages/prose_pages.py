"""How tools/pages/prose reads a page: its pieces of prose with the lines where they begin, its headings, links and words of code.

A **piece** is a paragraph, a list item, a heading or a cell of a table. Blocks of code, fenced or indented, and comments of HTML are not
read. A source that users read is a page of its comments. In a piece's `prose` a span of code is a run of MARKs, which is one word, and a
link is its text. Both keep their places, so that a place in the prose is the same place in the text.
"""

import re
from collections.abc import Iterator, Sequence
from typing import NamedTuple

MARK = "\x01"
CODE = re.compile(r"(?<!`)(`+)(?!`)(.+?)(?<!`)\1(?!`)", re.S)
LINK = re.compile(r"!?\[([^\]]*)\]\(([^()\s]*(?:\([^()\s]*\))?)\)")
# A link, and the heading that the text names after it, as in [SCRIPT.md](docs/SCRIPT.md), "Options".
NAMED = re.compile(r'\]\(([^()\s]+)\), "([^"]+)"')
ITEM = re.compile(r"(\s*)(?:[-*+]|\d+\.) (.*)")
HEADING = re.compile(r"#{1,6} (.*)")
RULER = re.compile(r"[|:\s-]+$")
# The comments around what a tool prints.
BEGINS, ENDS = re.compile(r"<!-- (?:Printed by |begin: )"), re.compile(r"<!-- (?:End of |end -->)")
# What ends a sentence: no abbreviation does, and no dots in a row.
END = re.compile(r"(?<![.?!])[.?!][\"')*\]]*(?=\s)")
ABBREVIATION = re.compile(r"(?:\b(?:e\.g|i\.e|etc|vs|cf|resp))\.$")


class Piece(NamedTuple):
    """A paragraph, a list item, a heading or a cell, as it is and as prose."""

    line: int
    text: str
    prose: str

    def line_of(self, place: int) -> int:
        """Returns the line of a place in the text."""
        return self.line + self.text[:place].count("\n")

    def sentences(self) -> Iterator[tuple[int, str]]:
        """Yields each sentence with the place where it begins."""
        begin = 0
        for found in END.finditer(self.prose):
            if not ABBREVIATION.search(self.prose[:found.start() + 1]):
                yield begin, self.prose[begin:found.end()]
                begin = found.end()
        yield begin, self.prose[begin:]

    def codes(self) -> Iterator[tuple[int, str]]:
        """Yields each span of code with its place."""
        for found in CODE.finditer(self.text):
            yield found.start(), found[2].strip()


def masked(text: str) -> str:
    """Returns the text with MARKs in place of code."""
    return CODE.sub(lambda it: MARK * len(it[0]), text)


def prose_of(text: str) -> str:
    """Returns the prose of a text: code as MARKs, and only the text of a link, at the same places."""
    def shown(found: re.Match[str]) -> str:
        before = found.start(1) - found.start()
        return f"{'':{before}}{found[1]:<{len(found[0]) - before}}"

    return LINK.sub(shown, masked(text))


def cells_of(row: str) -> list[str]:
    """Returns the cells of a table's row; a `|` in code or after a backslash separates none."""
    ends = [it.start() for it in re.finditer(r"(?<!\\)\|", masked(row))] + [len(row)]
    cells = [row[begin + 1:end].strip() for begin, end in zip(ends, ends[1:])]
    return cells if cells and cells[-1] else cells[:-1]


def printed_lines(lines: Sequence[str]) -> set[int]:
    """Returns the numbers of the lines that a tool prints."""
    found, is_printed = set(), False
    for number, line in enumerate(lines, start=1):
        is_printed = (is_printed or bool(BEGINS.match(line))) and not ENDS.match(line)
        found.update([number] if is_printed else [])
    return found


def slug(heading: str) -> str:
    """Returns the anchor of a heading."""
    plain = re.sub(r"[^\w\- ]", "", LINK.sub(r"\1", heading).replace("`", "").lower())
    return plain.strip().replace(" ", "-")


class Reader:
    """Reads the pieces of a page line by line."""

    def __init__(self) -> None:
        self.pieces: list[Piece] = []
        self.titles: list[str] = []
        self.codes: list[str] = []
        # The fence that ends a block, the lines of the current piece, and its first line.
        self.fence, self.began = "", 0
        self.lines: list[str] = []
        self.in_code, self.in_list = False, False

    def close(self) -> None:
        """Ends the current piece."""
        self.add(self.began, "\n".join(self.lines))
        self.lines = []

    def add(self, line: int, text: str) -> None:
        if text.strip():
            self.pieces.append(Piece(line, text, prose_of(text)))

    def in_block(self, line: str) -> bool:
        """Whether the line is one of a block of code or of a comment of HTML."""
        found = re.match(r"\s*(```+|~~~+|<!--)", line)
        mark = self.fence or (found[1] if found else "")
        if mark:
            self.close()
            ends = "-->" in line if mark == "<!--" else bool(self.fence) and line.strip().startswith(self.fence)
            self.fence = "" if ends else mark
            return True
        is_indented = line.startswith("    ") and not self.lines
        self.in_code = is_indented and (self.in_code or not (self.in_list and bool(ITEM.match(line))))
        return self.in_code

    def read(self, number: int, line: str) -> None:
        """Takes the next line."""
        if not line.strip():
            self.close()
        elif self.in_block(line):
            self.codes.append(line)
        elif line.lstrip().startswith("|"):
            self.close()
            for cell in [] if RULER.match(line) else cells_of(line.strip()):
                self.add(number, cell)
        elif heading := HEADING.match(line):
            self.close()
            self.add(number, heading[1])
            self.titles.append(re.sub(r"[`*]", "", heading[1]))
        else:
            item = ITEM.match(line)
            if item:
                self.close()
            self.in_list = bool(item) or self.in_list and bool(self.lines)
            self.began = self.began if self.lines else number
            self.lines.append(item[2] if item else line.lstrip("> "))


def comments_of(name: str, text: str) -> list[str]:
    """Returns the comments of a source as lines of a page, each at its own line. A comment after code is an item of its own."""
    if name.endswith(".py"):
        text = re.sub(r'(?m)^( *)"""(.*?)"""', lambda it: docstring(it[1], it[2]), text, flags=re.S)
        mark = re.compile(r"(.*?)(?:^|\s)#(?!!) ?(.*)")
    elif ".antt" in name:
        mark = re.compile(r"(.*?)(?:^|\s)-- ?(.*)")
    else:
        text = re.sub(r"/\*(.*?)\*/", lambda it: re.sub(r"(?m)^ *\*? ?", "// ", it[1]), text, flags=re.S)
        mark = re.compile(r"(.*?)//[/!]? ?(.*)")
    found = [mark.match(line) for line in text.splitlines()]
    return [f"- {it[2]}" if it and it[1].strip() else it[2] if it else "" for it in found]


def docstring(margin: str, text: str) -> str:
    """Returns a docstring as comments."""
    return "\n".join(f"# {line.removeprefix(margin)}" for line in text.split("\n"))


class Page:
    """A page: its name in the tree, its pieces, its headings' anchors and titles."""

    def __init__(self, name: str, text: str) -> None:
        self.name = name
        self.is_markdown = name.endswith(".md")
        lines = text.splitlines() if self.is_markdown else comments_of(name, text)
        reader = Reader()
        for number, line in enumerate([*lines, ""], start=1):
            reader.read(number, line)
        self.pieces, self.titles = reader.pieces, reader.titles
        # The text of its blocks of code.
        self.code = "\n".join(reader.codes)
        self.anchors = {slug(it) for it in self.titles}
        self.printed = printed_lines(lines)

    def links(self) -> Iterator[tuple[int, str, str]]:
        """Yields the line and the target of each link, and the heading that the text names after it, if there is one."""
        for piece in self.pieces:
            named = {it.start() + 2: it[2] for it in NAMED.finditer(piece.text)}
            for found in LINK.finditer(masked(piece.text)):
                yield piece.line_of(found.start()), piece.text[found.start(2):found.end(2)], named.get(found.start(2), "")
