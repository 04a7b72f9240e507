"""What tools/pages/prose finds on a page: links and names that lead nowhere, pages that no other page links to, figures that the tree
hasn't, long sentences, and words that hide a plainer one. And how many words and sentences a page has."""

import re
from collections import Counter
from collections.abc import Iterable, Iterator, Mapping
from pathlib import PurePosixPath
from typing import NamedTuple

from pages.prose_figures import FIGURES, Counted
from pages.prose_names import WORD, Tree
from pages.prose_pages import MARK, Page, Piece

# A sentence with more words is long. A span of code is one word, a sign is none.
LONGEST = 30
COUNTED = re.compile(rf"[\w{MARK}]")
# The end of a sentence that is one: a stop, or the colon before an example.
WHOLE = re.compile(r"[.?!:][\"')*\]]*\s*$")
# After these words `where` asks for a place.
PLACES = "".join(f"(?<!{it} )" for it in ("know", "knows", "say", "says", "see", "show", "shows", "place", "places", "from"))
# A word or phrase, and a plainer one.
WARNED = [
    (r"tells?|told|telling", "print, report, return, say"),
    (r"stands?|stood|standing", "is, are, has"),
    (r"behind", "after"),
    (r"in front of|fronts?", "before; a prefix"),
    (r"rooms?", "space, memory; a crate"),
    (r"gone", "removed"),
    (r"comes?|came|coming", "follow, become, happen"),
    (r"hand(?:s|ed|ing)? (?:it |them )?on", "pass"),
    (rf"{PLACES}where", "if"),
    (r"up to but (?:without|not)", "until, before"),
    (r"such(?! as)", "name the thing again"),
    (r"of (?:which|whom)", "a sentence of its own"),
    (r"(?:that|those|what is \w+) of (?:it|them)", "name the thing again"),
    (r"what is left", "the rest"),
    (r"uses? no|gives? nothing back", "say first what it does"),
]
TURNS = re.compile("|".join(rf"(?P<w{number}>\b(?:{pattern})\b)" for number, (pattern, _) in enumerate(WARNED)), re.I)
# The words that name a crate after a path in it.
OF_CRATE = re.compile(r"(?: \([^)]*\))? of `(?:crates/)?(\w+)`")
# The kinds that are faults, and those that are only counted, since a good sentence may have either.
FAULTS, COUNTS = ("links", "names", "unlisted", "figures"), ("long", "words")
KINDS = (*FAULTS, *COUNTS)
TOP_PAGE, CHANGES = "README.md", "CHANGELOG.md"
# The paths of the pages of each group.
GROUPS = {
    "top": r"[^/]+\.md",
    "docs": r"docs/.+\.md",
    "crates": r"crates/.+\.md",
    "clients": r"clients/.+\.md",
    "bench": r"bench/.+\.md",
    "tests": r"tests/.+\.md",
    "tools": r"tools/.+\.md",
    "examples": r"(examples|include)/.+",
}


class Finding(NamedTuple):
    """A place of a page, the kind of its fault, and what is wrong there."""

    kind: str
    page: str
    line: int
    text: str

    def __str__(self) -> str:
        return f"{self.page}:{self.line}: {self.kind}: {self.text}"


def words_in(sentence: str) -> int:
    """Returns how many words a sentence has."""
    return sum(1 for it in sentence.split() if COUNTED.search(it))


def long_sentences(page: Page) -> Iterator[Finding]:
    """Yields each long sentence."""
    for piece in page.pieces:
        for place, sentence in piece.sentences():
            count = words_in(sentence)
            if count > LONGEST:
                begin = place + len(sentence) - len(sentence.lstrip())
                head = " ".join(piece.text[begin:begin + 60].split())
                yield Finding("long", page.name, piece.line_of(begin), f"{count} words: {head}..")


def warned_words(page: Page) -> Iterator[Finding]:
    """Yields each word or turn that has a plainer one."""
    for piece in page.pieces:
        for found in TURNS.finditer(piece.prose):
            plainer = WARNED[int((found.lastgroup or "")[1:])][1]
            yield Finding("words", page.name, piece.line_of(found.start()), f"{' '.join(found[0].split())}: {plainer}")


def path_of(page: Page, target: str) -> tuple[str, str]:
    """Returns the path of a link's target from the top, and its anchor."""
    path, _, anchor = target.partition("#")
    parts: list[str] = []
    for part in PurePosixPath(page.name).parent.joinpath(path).parts if path else PurePosixPath(page.name).parts:
        if part == ".." and parts:
            parts.pop()
        else:
            parts.append(part)
    return "/".join(parts) or ".", anchor


def is_outside(target: str) -> bool:
    """Whether a link is to a page outside of the tree."""
    return bool(re.match(r"[a-z]+:", target))


def broken_links(page: Page, pages: Mapping[str, Page], tree: Tree) -> Iterator[Finding]:
    """Yields each link to a file or a heading that isn't there, and each heading that the text names after a link and that isn't."""
    for line, target, title in page.links():
        if is_outside(target):
            continue
        path, anchor = path_of(page, target)
        if path not in tree.files and path not in tree.folders:
            yield Finding("links", page.name, line, f"there is no {path}")
        elif anchor and (path not in pages or anchor not in pages[path].anchors):
            yield Finding("links", page.name, line, f"{path} has no heading #{anchor}")
        elif title and path in pages and title not in pages[path].titles:
            yield Finding("links", page.name, line, f'{path} has no heading "{title}"')


def crate_after(piece: Piece, place: int, code: str, tree: Tree) -> str | None:
    """Returns the crate that the text names after a span of code, as in `a` of `ele_b`, or none."""
    found = OF_CRATE.match(piece.text, place + len(code) + 2)
    return found[1] if found and found[1] in tree.crates else None


def crates_meant(page: Page, piece: Piece, tree: Tree) -> set[str]:
    """Returns the crates whose paths a crate's page may shorten: its own, and those that the piece names. On another page they may be
    of any crate, and none is returned."""
    if not page.name.startswith("crates/"):
        return set()
    named = {word for _, code in piece.codes() for word in WORD.findall(code)}
    return {page.name.split("/")[1], *named} & tree.crates


def lost_names(page: Page, tree: Tree) -> Iterator[Finding]:
    """Yields each name in a span of code that the tree hasn't."""
    own, folder = set(WORD.findall(page.code)), str(PurePosixPath(page.name).parent)
    for piece in page.pieces:
        crates = crates_meant(page, piece, tree)
        for place, code in piece.codes():
            crate = crate_after(piece, place, code, tree)
            lost = [*tree.lacks(code, folder, own, {crate} if crate else crates)]
            for name in lost or (tree.lacks_of(crate, code) if crate else ()):
                yield Finding("names", page.name, piece.line_of(place), f"the tree has no {name}")


def unlisted_pages(pages: Mapping[str, Page]) -> Iterator[Finding]:
    """Yields each page in Markdown that no other page links to, by itself or by its folder."""
    linked = {path_of(page, target)[0] for page in pages.values() for _, target, _ in page.links() if path_of(page, target)[0] != page.name}
    for name, page in pages.items():
        is_named = name == TOP_PAGE or {name, str(PurePosixPath(name).parent)} & linked
        if page.is_markdown and not is_named:
            yield Finding("unlisted", name, 1, "no other page links to it")


def false_figures(page: Page, counted: Counted) -> Iterator[Finding]:
    """Yields each figure that isn't what the tree has."""
    for piece in page.pieces:
        for figure in FIGURES:
            for found in figure.form.finditer(piece.text):
                said, wanted = int(found[1].replace(",", "")), counted.of(figure)
                if said not in wanted:
                    has = " or ".join(f"{it:,}" for it in sorted(wanted))
                    yield Finding("figures", page.name, piece.line_of(found.start()), f"{found[0]}: {has} {figure.name} are there")


def findings(pages: Mapping[str, Page], tree: Tree) -> list[Finding]:
    """Returns all that is found on the pages, by page and line."""
    found, counted = list(unlisted_pages(pages)), Counted(tree)
    for page in pages.values():
        found += [*long_sentences(page), *warned_words(page), *lost_names(page, tree)]
        if page.is_markdown:
            found += broken_links(page, pages, tree)
        if is_now(page.name):
            found += false_figures(page, counted)
    return sorted(found, key=lambda it: (it.page, it.line, KINDS.index(it.kind)))


def is_now(name: str) -> bool:
    """Whether a page is about the tree as it is, and not as it was."""
    return name != CHANGES


def group_of(name: str) -> str | None:
    """Returns the group of a page, or none of another file."""
    return next((group for group, form in GROUPS.items() if re.fullmatch(form, name)), None)


class Size(NamedTuple):
    """How much text there is: words by hand, which no tool prints, sentences by hand that end as one, with their words, and words that a
    tool prints."""

    words: int
    sentences: int
    of_sentences: int
    printed: int

    def mean(self) -> float:
        """Returns how many words a sentence has."""
        return self.of_sentences / max(self.sentences, 1)


def size_of(page: Page) -> Size:
    """Returns how much text a page has. A heading or a cell without a stop is no sentence."""
    total_size = [0, 0, 0, 0]
    for piece in page.pieces:
        for _, sentence in piece.sentences():
            words, ends = words_in(sentence), bool(WHOLE.search(sentence))
            is_printed = piece.line in page.printed
            for at, count in enumerate((0, 0, 0, words) if is_printed else (words, ends, words * ends, 0)):
                total_size[at] += count
    return Size(*total_size)


def total(sizes: Iterable[Size]) -> Size:
    """Returns the sum of sizes."""
    listed = list(sizes)
    return Size(*(sum(it[at] for it in listed) for at in range(len(Size._fields))))


def counts_of(found: Iterable[Finding]) -> dict[str, tuple[int, ...]]:
    """Returns how many findings of each kind, in the order of KINDS, each group has."""
    counted = Counter((group_of(it.page), it.kind) for it in found)
    return {group: tuple(counted[group, kind] for kind in KINDS) for group in GROUPS}
