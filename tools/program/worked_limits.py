"""Under which limits the stored scripts of crates/worked_rows run."""

from __future__ import annotations

import re

from gate.building import ROOT, match_in

LISTED = ROOT / "crates" / "worked_rows" / "src" / "main.rt"
LARGEST = ROOT / "crates" / "ele_model" / "src" / "limits.rt"


def limits_of_scripts() -> dict[str, dict[str, int]]:
    """Returns the limits of each script that has some of its own: all of them, by name, in the order in which C takes them."""
    largest = _numbers(match_in(r"(?s)const LARGEST: LimitNumbers = LimitNumbers \{(.*?)\}", LARGEST.read_text(encoding="utf-8"))[1])
    table = match_in(r"(?ms)^const LIMITED: \[.*?; (\d+)\] = \[$(.*?)^\];", LISTED.read_text(encoding="utf-8"))
    rows = re.findall(r'(?s)"(\w+)",\s*LimitNumbers(?:::LARGEST|\s*\{(.*?)\})', table[2])
    if len(rows) != int(table[1]):
        raise ValueError(f"{LISTED} has {table[1]} scripts with limits, and {len(rows)} were read")
    return {name: {**largest, **_numbers(own)} for name, own in rows}


def _numbers(fields: str) -> dict[str, int]:
    return {name: int(number) for name, number in re.findall(r"(\w+): ([\d_]+)", fields)}
