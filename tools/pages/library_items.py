"""How tools/pages/library_page reads the sources of the library: the types and calls that a crate exports, with their comments.

A **call** is a public function or constant that a crate exports, of a type or of none. Functions of traits, and laws and lemmas, which
only a proof calls, are no calls here.
"""

import re
from collections.abc import Iterator, Sequence
from pathlib import Path
from typing import NamedTuple

from pages.definitions import imports_in
from pages.prose_pages import Piece, prose_of

DECLARED = re.compile(r"( *)pub (?:const (?=fn))?(?:unsafe )?(fn|const|struct|enum|type) (\w+)")
IMPL = re.compile(r"impl(?:<.*?>)? (\w+)(?:<.*>)? \{")
CLAUSE = re.compile(r"(requires|ensures|where)\b|\{")
VARIANT = re.compile(r"    (\w+)(?:[,(]| \{)")
# The names of files and functions that only a proof calls.
OF_PROOFS = re.compile(r"laws$|lemma_")
# Sentences on cost in time; sentences on memory, and what the page says instead.
OF_TIME = re.compile(r"^Cost:|\btime of\b|\bconstant time\b|\bgrows? with\b|\blooks at (?:all|each|every)\b")
OF_MEMORY = {re.compile(r"\b(?:it|this|a seat) takes no memory\b", re.I): "no memory", re.compile(r"\bwithout a copy\b"): "no copy"}


class Item(NamedTuple):
    """A type or a call: its kind (`fn`, `struct`, ..), its name, the type that it belongs to, how it is declared, and its comment."""

    kind: str
    name: str
    owner: str
    signature: str
    comment: str

    def sentences(self) -> list[str]:
        """Returns the sentences of the comment, without their last dots."""
        paragraphs = [" ".join(it.split()) for it in self.comment.split("\n\n")]
        found = [it[place:place + len(text)] for it in paragraphs for place, text in Piece(1, it, prose_of(it)).sentences()]
        return [it.strip().removesuffix(".") for it in found if it.strip()]

    def is_call(self) -> bool:
        return self.kind in ("fn", "const") and not OF_PROOFS.match(self.name)

    def shown(self) -> str:
        """Returns the call as a user writes it."""
        is_method = re.search(r"\((&(mut )?)?(mut )?self\b", self.signature)
        return f"{self.owner}::{self.signature}" if self.owner and not is_method else self.signature

    def answers(self) -> str:
        """Returns the type of the call's result."""
        return self.signature.rpartition(") -> ")[2] if ") -> " in self.signature else ""

    def does(self) -> list[str]:
        """Returns what the call does, and what its caller ensures."""
        return [text for at, text in enumerate(self.sentences()) if at == 0 or text.startswith("The caller")]

    def faults(self, names: set[str]) -> list[str]:
        """Returns the sentences after the first that say why the call fails: those that name one of these faults, and those on None."""
        found = []
        for text in self.sentences()[1:]:
            is_fault = self.answers().startswith("Result") and names.intersection(re.findall(r"`(?:\w+::)?(\w+)`", text))
            if text.startswith("Refused:") or is_fault or self.answers().startswith("Option") and re.match(r"None\b", text):
                found.append(text.removeprefix("Refused:").strip())
        return found

    def costs(self) -> tuple[list[str], list[str]]:
        """Returns what the comment says of cost in time, and in memory."""
        in_time = [it.removeprefix("Cost:").strip() for it in self.sentences() if OF_TIME.search(it)]
        others = [it for it in self.sentences() if not OF_TIME.search(it)]
        in_memory = [short for form, short in OF_MEMORY.items() if any(form.search(it) for it in others)]
        return in_time, in_memory


def signature_at(lines: Sequence[str], at: int) -> str:
    """Returns how the item of a line is declared, without clauses, body and value."""
    parts: list[str] = []
    for line in lines[at:]:
        text = line.strip()
        if parts and CLAUSE.match(text):
            break
        parts.append(text.removesuffix("{").removesuffix(";").strip())
        if text.endswith(("{", ";", "}")):
            break
    whole = re.sub(r"^pub (?:(?:const )?(?:unsafe )?fn |const |type )?", "", " ".join(parts).replace("( ", "(").replace(", )", ")"))
    return whole if lines[at].lstrip().startswith("pub type") else re.sub(r" =( .*)?$", "", whole)


def items_of(text: str) -> Iterator[Item]:
    """Yields the public items of a source."""
    lines, owner = text.splitlines(), ""
    comment: list[str] = []
    for at, line in enumerate(lines):
        found = DECLARED.match(line)
        if line.strip().startswith("///"):
            comment.append(line.strip()[3:].strip())
            continue
        if line.startswith("impl"):
            of = IMPL.match(line)
            owner = of[1] if of else "-"
        elif line.startswith("}"):
            owner = ""
        elif found and (not found[1] or owner not in ("", "-")):
            yield Item(found[2], found[3], owner if found[1] else "", signature_at(lines, at), "\n".join(comment))
        if not line.strip().startswith("#["):
            comment = []


def variants_of(text: str, name: str) -> set[str]:
    """Returns the names of an enum's variants."""
    body = re.search(rf"^pub enum {name}\b.*?^\}}", text, re.M | re.S)
    return {it[1] for it in map(VARIANT.match, body[0].splitlines()) if it} if body else set()


class Crate:
    """What a crate exports: its types, its calls in the order of its files, and the names of other crates' items."""

    def __init__(self, folder: Path) -> None:
        self.name = folder.name
        lib = (folder / "src" / "lib.rt").read_text(encoding="utf-8")
        given = {name: it.path[0] for name, it in imports_in(lib).items() if it.is_shared}
        self.others = {name: first for name, first in given.items() if first.startswith("ele_")}
        modules = [it for it in re.findall(r"^(?:pub )?mod (\w+);", lib, re.M) if not OF_PROOFS.match(it)]
        self.texts = [lib, *((folder / "src" / f"{it}.rt").read_text(encoding="utf-8") for it in modules)]
        items = [(index, item) for index, text in enumerate(self.texts) for item in items_of(text)]
        own = given.keys() - self.others.keys()
        self.given = {it.name: it for index, it in items if not it.owner and (index == 0 or it.name in own)}
        self.calls = [it for _, it in items if it.is_call() and (it.owner or it.name) in self.given]


def fault_names(crates: Sequence[Crate]) -> set[str]:
    """Returns the names of all faults that calls return: their types and their variants."""
    answers = [call.answers() for crate in crates for call in crate.calls]
    found = {name for it in answers if it.startswith("Result<") for name in re.findall(r"\w+", it.rpartition(", ")[2])}
    return found.union(*(variants_of(text, name) for crate in crates for text in crate.texts for name in found))
