"""The codes that include/elephant.h has, and those that it says of each call."""

from __future__ import annotations

import re
from pathlib import Path
from typing import NamedTuple

HEADER = Path(__file__).resolve().parents[3] / "include" / "elephant.h"
# A comment of the header, or a call with its parameters and the comment after it.
PARTS = re.compile(r"/\*(.*?)\*/|int32_t elephant_(\w+)\(([^)]*)\);([^\n]*)", re.S)


class Codes(NamedTuple):
    """The codes that the comments of a call name, its own and its section's, and the names of its parameters."""

    own: set[str]
    section: set[str]
    parameters: list[str]


def numbers_of(text: str) -> dict[str, int]:
    """Returns the number of each code, by its name."""
    listed = text.partition("enum elephant_code {")[2].partition("}")[0]
    return {name: int(number) for name, number in re.findall(r"ELEPHANT_(\w+) = (\d+)", listed)}


def codes_of(text: str) -> dict[str, Codes]:
    """Returns the codes of each call of the header."""
    listed = numbers_of(text)
    found: dict[str, Codes] = {}
    section: set[str] = set()
    own: set[str] = set()
    for comment, call, parameters, trailing in PARTS.findall(text.partition("/* ---- The handle")[2]):
        if call:
            names = [re.findall(r"\w+", it)[-1] for it in parameters.split(",")]
            found[call] = Codes(own | {it for it in re.findall(r"[A-Z_]+", trailing) if it in listed}, section, names)
            own = set()
            continue
        named = {it for it in re.findall(r"[A-Z_]{3,}", comment) if it in listed}
        section, own = (named, set()) if "----" in comment else (section, named)
    return found
