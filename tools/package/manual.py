"""The manual pages that tools/pages/man_page doesn't make: of the mount and the page, from docs/MOUNT.md and docs/BROWSE.md, and of the
library, from its header."""

import re
from collections.abc import Iterator
from pathlib import Path

from gate import building, libraries
from gate.building import ROOT
from package import completions

PAGE, BROWSE = ROOT / "docs" / "MOUNT.md", ROOT / "docs" / "BROWSE.md"
# Fenced blocks, indented blocks, tables, list items, headings and paragraphs.
PIECES = re.compile(
    r"^```[^\n]*\n(.*?)^```$|((?:^    [^\n]*\n|^\n(?=    ))+)|((?:^\|[^\n]*\n)+)|^- ([^\n]*)\n|^(#+) ([^\n]*)\n"
    r"|^([^\n#|`-][^\n]*(?:\n[^\n#|-][^\n]*)*)", re.M | re.S,
)
CODE = re.compile(r"`([^`]+)`|\*\*([^*]+)\*\*|\*([^*]+)\*|\[([^\]]*)\]\([^)]*\)")


def escaped(text: str) -> str:
    """Returns a line as the manual's language spells it."""
    for sign, name in (("\\", "\\e"), ("-", "\\-"), ("'", "\\(aq"), ("~", "\\(ti"), ("^", "\\(ha"), ("`", "\\(ga")):
        text = text.replace(sign, name)
    return f"\\&{text}" if text[:1] == "." else text


def inline(text: str) -> str:
    """Returns a paragraph of Markdown: code and what is bold in bold letters, and only the text of a link."""
    def styled(found: re.Match[str]) -> str:
        code, bold, slanted, link = found.groups()
        return link if link is not None else f"\x01{code or bold}\x02" if slanted is None else f"\x03{slanted}\x02"

    while CODE.search(text):
        text = CODE.sub(styled, text)
    return escaped(text.replace("\\|", "|")).replace("\x01", "\\fB").replace("\x02", "\\fR").replace("\x03", "\\fI")


def block(lines: list[str], indent: int = 4) -> Iterator[str]:
    """Yields lines as they are."""
    yield f".RS {indent}\n.nf\n"
    yield from (f"{escaped(it)}\n" for it in lines)
    yield ".fi\n.RE\n"


def table(rows: list[str]) -> Iterator[str]:
    """Yields the rows of a table but for its head: the first cell in bold letters, and the others below it."""
    for row in rows[2:]:
        first, *others = [it.strip() for it in re.split(r"(?<!\\)\|", row.strip().strip("|"))]
        yield f".TP\n.B {inline(first)}\n{inline('; '.join(it for it in others if it))}\n"


def from_markdown(text: str) -> Iterator[str]:
    """Yields the pieces of a page in the manual's language."""
    for fenced, indented, rows, item, marks, heading, paragraph in PIECES.findall(text):
        if fenced or indented.strip():
            lines = fenced.splitlines() or [it[4:] for it in indented.splitlines()]
            yield from block(lines)
        elif rows:
            yield from table(rows.splitlines())
        elif item:
            yield f".IP \\(bu 2\n{inline(item)}\n"
        elif marks:
            yield f".SH {escaped(heading.upper())}\n" if len(marks) < 3 else f".SS {escaped(heading)}\n"
        elif paragraph:
            yield f".PP\n{inline(paragraph)}\n"


def head(name: str, section: int, what: str) -> str:
    return f".TH {name.upper()} {section} \"\" \"Elephant {building.version()}\"\n.SH NAME\n{name} \\- {what}\n"


def of_mount() -> str:
    """Returns the page of `elephant-mount`."""
    left_out = "## Five minutes", "## Options", "## What is proved", "## What it costs"
    return "".join([
        head("elephant-mount", 1, "a folder in which every save of a file is kept as a version"),
        ".SH SYNOPSIS\n.nf\n.B elephant\\-mount FOLDER \\-\\-journal FILE [OPTIONS]\n.B elephant\\-mount \\-\\-at FOLDER LINE\n",
        ".B elephant\\-mount help LINE\n.B elephant\\-mount move OLD NEW\n.fi\n", *described(completions.of_mount(), PAGE, left_out),
        ".SH SEE ALSO\n.BR elephant (1),\n.BR elephant\\-browse (1),\n.BR elephant (3)\n",
    ])


def of_browse() -> str:
    """Returns the page of `elephant-browse`."""
    return "".join([
        head("elephant-browse", 1, "the past of files in a browser"),
        ".SH SYNOPSIS\n.nf\n.B elephant\\-browse JOURNAL [OPTIONS]\n.B elephant\\-browse \\-\\-at FOLDER [OPTIONS]\n.fi\n",
        *described(completions.of_browse(), BROWSE, ("## Options", "## What it costs")),
        ".SH SEE ALSO\n.BR elephant (1),\n.BR elephant\\-mount (1)\n",
    ])


def described(words: completions.Words, page: Path, left_out: tuple[str, ...]) -> Iterator[str]:
    """Yields the options of a command, and the sections of its page but for some."""
    yield ".SH OPTIONS\n"
    for it in words.options:
        yield f".TP\n.B {escaped(', '.join(it.words))}{' VALUE' if it.takes_value else ''}\n{escaped(it.about)}.\n"
    # A manual page has no pictures.
    text = re.sub(r"(?m)^!\[[^\n]*\n\n\*[^\n]*\n\n", "", page.read_text(encoding="utf-8"))
    _, *sections = re.split(r"(?m)^(?=## )", text)
    for section in sections:
        if not section.startswith(left_out):
            yield from from_markdown(section)


def of_library() -> str:
    """Returns the page of the library: its header, whose comments describe each call."""
    text = libraries.HEADER.read_text(encoding="utf-8")
    first, declared = text.partition("#ifndef ELEPHANT_H")[::2]
    about = [re.sub(r"^(/\* | \*/| \* ?)", "", it) for it in first.splitlines()]
    return "".join([
        head("elephant", 3, "a file system's core that keeps earlier versions, as a C library"),
        ".SH SYNOPSIS\n.nf\n.B #include <elephant.h>\n.PP\ncc notes.c $(pkg\\-config \\-\\-cflags \\-\\-libs elephant)\n.fi\n",
        ".SH DESCRIPTION\n", *block(about, 0), ".SH CALLS\n", *block(f"#ifndef ELEPHANT_H{declared}".splitlines(), 0),
        ".SH SEE ALSO\n.BR elephant (1)\n",
    ])
