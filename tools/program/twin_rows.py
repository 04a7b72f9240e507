"""What the second description of `tools/program/twin` is made of: refusals, words, policies and rows."""

import re
from collections.abc import Callable, Iterable
from dataclasses import dataclass, field
from typing import NamedTuple, TypeVar

from program.script_commands import read_numbers

LAST_MOMENT = 253402300799
LONGEST = 1 << 20
LONGEST_NOTE = 200
SLOT = 512
HIGHEST_FLOOR = 16
NUMBERS = read_numbers("Refusals")
KINDS = ("one", "all", "safe", "landmarks")
Something = TypeVar("Something")
# The bytes of each slot, and the number of the version that wrote it.
Slots = list[tuple[bytes, int]]
# What a line prints, line by line.
Block = list[str]


class No(Exception):
    """A refusal: its name, and the words after it."""


class Bad(Exception):
    """The fault of a line that is no command: its number and name."""


def check(holds: object, name: str, *more: object) -> None:
    """Raises that refusal if the test holds."""
    if holds:
        raise No(name, *more)


def some(found: Something | None, name: str, *more: object) -> Something:
    """Returns what was found, or raises that refusal."""
    if found is None:
        raise No(name, *more)
    return found


def refusal(no: No) -> str:
    """The line of a refusal."""
    name, *more = no.args
    return " ".join([f"no {NUMBERS[name]} {name}", *("-" if it is None else str(it) for it in more)])


def number_of(word: str) -> int:
    """Returns the number that a word spells."""
    if not re.fullmatch("0|[1-9][0-9]*", word) or int(word) >= 1 << 64:
        raise Bad("32 Syntax")
    return int(word)


def safe_numbers(policy: str) -> tuple[int, int]:
    """Returns how many seconds Keep Safe keeps an ended version, and its floor; both are numbers before either is too large."""
    seconds, slash, floor = policy.partition(":")[2].partition("/")
    return number_of(seconds), number_of(floor) if slash else 0


def ladder(policy: str) -> list[tuple[int, int]]:
    """Returns the ages of Keep Landmarks, each with its width."""
    pairs = [it.split("/") for it in policy.partition(":")[2].split(",")]
    return [(int(age), int(width)) for age, width in pairs]


def printed_policy(word: str) -> str:
    """Returns a policy's word as the answers print it; it raises only the faults of Keep Safe."""
    if not word.startswith("safe:"):
        return word
    seconds, floor = safe_numbers(word)
    if not 1 <= seconds <= LAST_MOMENT or floor > HIGHEST_FLOOR:
        raise Bad("31 BadLadder")
    return f"safe:{seconds}/{floor}" if floor else f"safe:{seconds}"


def printed_line(line: str) -> str:
    """The line as the history prints it."""
    first, _, last = line.rpartition(" ")
    return f"{first} {printed_policy(last)}" if line.startswith(("policy ", "default ")) else line


def level_of(policy: str, age: int) -> int:
    """How many ages of a ladder an age has reached."""
    return sum(reached <= age for reached, _ in ladder(policy))


class Target(NamedTuple):
    """What a name leads to: a file or a directory, and its number."""

    kind: str
    number: int


ROOT = Target("directory", 0)


class Place(NamedTuple):
    """A name in a directory."""

    directory: int
    name: str


class Handle(NamedTuple):
    """What a handle opened: a version of a file, or the file's draft."""

    file: int
    version: int | None = None


class Mark(NamedTuple):
    """A mark at a moment, until another one, or forever."""

    at: int
    until: int | None

    def __str__(self) -> str:
        return str(self.at) if self.until is None else f"{self.at}/{self.until}"


class Tagged(NamedTuple):
    """What a path with a tag leads to; the tag's sign, and the word after it."""

    target: Target
    sign: str
    word: str


class Removal(NamedTuple):
    """A version that a clean removed: when, which, the path of its file then, and why it was due."""

    at: int
    file: int
    version: int
    path: str
    fate: str


@dataclass
class Name:
    """A name's life in a directory."""

    place: Place
    target: Target
    birth: int
    death: int | None = None

    def covers(self, moment: int | None) -> bool:
        """A name covers the moments from its birth until its death; without a moment, a live one covers now."""
        if moment is None:
            return self.death is None
        return self.birth <= moment and (self.death is None or moment < self.death)


@dataclass
class Version:
    """A version of a file."""

    number: int
    opened: int
    closed: int
    slots: Slots
    ended: int | None = None

    def lived(self, moment: int) -> bool:
        return self.closed <= moment and (self.ended is None or moment < self.ended)

    def is_over(self, mark: Mark) -> bool:
        """Whether a mark was made while this version was current."""
        return self.lived(mark.at)


@dataclass
class Draft:
    """What the writers of a file share."""

    opened: int
    slots: Slots
    changed: bool = False


@dataclass
class File:
    """A file with its held versions, by number."""

    policy: str
    next: int = 1
    versions: list[Version] = field(default_factory=list)
    draft: Draft | None = None

    def held(self, number: int) -> Version | None:
        return next((it for it in self.versions if it.number == number), None)

    def newest(self) -> Version | None:
        """The version that was made last, if it is held."""
        return self.held(self.next - 1)


@dataclass
class Group:
    """A group of files with its marks."""

    name: str
    members: list[int] = field(default_factory=list)
    marks: list[Mark] = field(default_factory=list)


def content(slots: Slots) -> bytes:
    return b"".join(data for data, _ in slots)


def rewritten(slots: Slots, data: bytes, is_touched: Callable[[int], bool], writer: int) -> Slots:
    """Returns slots with that content. A slot that is touched, or that has another length, is the writer's."""
    made: Slots = []
    for at in range(0, len(data), SLOT):
        part, slot = data[at:at + SLOT], at // SLOT
        is_kept = slot < len(slots) and not is_touched(slot) and len(slots[slot][0]) == len(part)
        made.append(slots[slot] if is_kept else (part, writer))
    return made


def due_under(policy: str, closing: int, ended: int, newer: list[int], live: bool, now: int) -> bool:
    """Whether a policy lets a version go that has ended, by its closing, its end, the closings of newer held versions and whether
    the file has a name."""
    kind = policy.partition(":")[0]
    if kind == "one":
        return True
    if kind == "all":
        return False
    if kind == "safe":
        seconds, floor = safe_numbers(policy)
        return now - ended >= seconds and (not live or len(newer) >= floor)
    widths = [width for age, width in ladder(policy) if now - ended >= age]
    return bool(widths) and any(it // widths[-1] == closing // widths[-1] for it in newer)


def moments_of(policy: str, ended: int) -> list[int]:
    """The moments at which a policy may begin to let go a version that ended then."""
    kind = policy.partition(":")[0]
    if kind == "landmarks":
        return [ended + age for age, _ in ladder(policy)]
    return [ended + (safe_numbers(policy)[0] if kind == "safe" else 0)]


def listed(word: str, rows: Iterable[Iterable[object]]) -> Block:
    """Returns the answer of a list: the count of its rows, and a line for each."""
    lines = ["- " + " ".join(map(str, it)) for it in rows]
    return [f"ok {word} {len(lines)}", *lines]


def or_dash(number: int | None) -> str:
    return "-" if number is None else str(number)
