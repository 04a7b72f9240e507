"""Why a line is no command: the place of its first fault, and what is wrong there, as `elephant run --explain` says it.

The library answers such a line with a number and a name alone.
"""

from __future__ import annotations

import re
from collections.abc import Sequence
from datetime import datetime
from typing import Optional

from .. import LAST_MOMENT

# What follows each command, by the words of docs/SCRIPT.md: a number, a handle, a version, a moment and perhaps an end, paths, a path with
# a tag or at a moment, a group, bytes, and a policy. `TH` is a path with a tag, or a handle.
TAKES = {
    "clock": "M", "tick": "N", "mkdir": "P", "rmdir": "P", "create": "P", "link": "P Q", "unlink": "P", "rename": "P Q", "undelete": "P",
    "open write": "P", "open read": "T", "write": "H N X", "truncate": "H N", "close": "H", "abandon": "H", "save": "P X", "revert": "P V",
    "restore": "P M", "note": "X", "policy": "P POL", "default": "P POL", "group make": "G", "group drop": "G", "group add": "G P",
    "group remove": "G P", "mark": "G M U", "unmark": "G M", "clean": "", "read": "TH", "stat": "T", "versions": "A", "list": "A",
    "restorable": "", "due": "", "usage": "", "groups": "", "pass": "N", "history": "", "trim": "",
    "why": "T", "ahead": "M", "expiring": "M", "handles": "", "gone": "", "removals": "", "answers": "", "story": "P",
}
_KINDS = {
    "N": "a number", "H": "a handle", "V": "a version", "M": "a moment", "U": "an end", "G": "a group", "P": "a path", "Q": "a path",
    "T": "a path with a tag", "A": "a path at a moment", "TH": "a path with a tag, or a handle", "X": "bytes", "POL": "a policy",
}
_SECOND = {"group": "make, drop, add or remove follows group", "open": "write or read follows open"}
_INSTEAD = {"ls": "list", "cat": "read", "rm": "unlink", "mv": "rename"}
NO_SUCH = "there is no such line: elephant-mount --help lists them"
NO_SPACE = ", and a name has no space: write %20"
NO_SLASH = "a path begins with a slash"
BAD_PATH = "a path has no empty name and at most 32 names"
BAD_NAME = "a name has at most 64 bytes, and is neither . nor .."
BAD_MOMENT = "a moment is seconds since 1970, or a time as 2026-03-02T00:00:00Z"
BAD_POLICY = "a policy is one, all, safe:SECONDS, safe:SECONDS/FLOOR or landmarks:AGE/WIDTH,.."
UNITS = "SECONDS, AGE and WIDTH may have a unit here, s, m, h, d, w or y, as in safe:30d/3; standard is a policy too"
_LARGEST, MOST_NAME, MOST_NAMES, MOST_FLOOR, MOST_RUNGS = (1 << 64) - 1, 64, 32, 16, 8
_DATE = re.compile(r"\d{4}-\d\d-\d\dT\d\d:\d\d:\d\dZ")
_NUMBER = "(0|[1-9][0-9]{0,18})"
_SAFE = re.compile(f"safe:{_NUMBER}(?:/{_NUMBER})?")
_LADDER = re.compile(f"landmarks:{_NUMBER}/{_NUMBER}(?:,{_NUMBER}/{_NUMBER})*")


def _name_of(words: Sequence[str]) -> str:
    """Returns the name of the command that words are, or an empty text."""
    return next((it for it in (" ".join(words[:2]), words[0]) if it in TAKES), "")


def kinds_of(words: Sequence[str]) -> list[str]:
    """Returns the kind of each word of a line, as `TAKES` names it. A word of the command's name, or one too many, has none."""
    name = _name_of(words)
    kinds = [*([""] * len(name.split())), *TAKES.get(name, "").split()]
    return [*kinds, *([""] * len(words))][:len(words)]


def reasons(words: Sequence[str]) -> list[str]:
    """Returns why these words are no line of the mount, which takes more than the program does, or nothing."""
    told = reason(words)
    hint = UNITS if told.endswith(BAD_POLICY) else ""
    return [it for it in (told, hint) if it]


def reason(words: Sequence[str]) -> str:
    """Returns why these words are no line, or an empty text."""
    for number, word in enumerate(words, 1):
        fault = _unfit(word)
        if fault:
            return f"word {number}: {fault}"
    name = _name_of(words)
    if not name:
        is_begun = words[0] in _SECOND
        return f"word {1 + is_begun}: {_SECOND[words[0]] if is_begun else _hint(words[0])}"
    kinds, given = TAKES[name].split(), words[name.count(" ") + 1:]
    if len(given) != len(kinds) and not (kinds[-1:] == ["U"] and len(given) == len(kinds) - 1):
        is_of_path = len(given) > len(kinds) and kinds[:1] and kinds[0] in ("P", "T", "A", "TH")
        return f"number of words: the command takes {_takes(kinds)}{NO_SPACE if is_of_path else ''}"
    for number, (kind, word) in enumerate(zip(kinds, given), len(words) - len(given) + 1):
        fault = _fault(kind, word)
        if fault:
            return f"word {number}: {fault}"
    return ""


def _unfit(word: str) -> str:
    """Returns why no line may have a word, or an empty text."""
    if not word:
        return "one space too many stands here"
    if "\t" in word:
        return "it has a tab: put one space between two words"
    return "it has a carriage return: end a line with a line feed alone" if "\r" in word else ""


def _hint(word: str) -> str:
    """Returns what a word that begins no command probably means."""
    if word in _INSTEAD:
        return f"the command for this is {_INSTEAD[word]}"
    return "commands are in lower case, as create" if "A" <= word[0] <= "Z" else NO_SUCH


def _takes(kinds: Sequence[str]) -> str:
    """Returns the list of what a command takes."""
    if not kinds:
        return "no words"
    if kinds == ["P", "Q"]:
        return "two paths"
    if kinds[-2:] == ["M", "U"]:
        return ", ".join(_KINDS[it] for it in kinds[:-2]) + " and one moment or two"
    told = [_KINDS[it] for it in kinds]
    return " and ".join(filter(None, (", ".join(told[:-1]), told[-1])))


def _fault(kind: str, word: str) -> str:
    """Returns what is wrong with a word of a kind, or an empty text."""
    if kind in "NHV":
        return _number_fault(word, "a number has only digits")
    if kind in "MU":
        return _moment_fault(word)
    if kind in "PQ":
        return _path_fault(word)
    if kind == "G":
        return "the name of a group has no /, @ or #" if set(word) & set("/@#") else _name_fault(word)
    if kind == "X":
        return "" if word == "-" or re.fullmatch(r"(?:[0-9a-fA-F]{2})+", word) else (
            "bytes are an even number of hexadecimal digits, or - for none")
    if kind == "POL":
        return _policy_fault(word)
    if kind == "TH" and not word.startswith("/"):
        return _number_fault(word, "a path begins with a slash, and a handle has only digits")
    return _tagged_fault(kind, word)


def _number_fault(word: str, other: str) -> str:
    if not re.fullmatch(r"\d+", word, re.ASCII):
        is_united = re.fullmatch(r"\d[0-9a-z]*", word, re.ASCII)
        return "a number has only digits, and a time is in seconds: a day has 86400" if is_united else other
    if word[0] == "0" and word != "0":
        return "a number has no leading zero"
    return f"a number is at most {_LARGEST}" if int(word) > _LARGEST else ""


def _moment_fault(word: str) -> str:
    if _DATE.fullmatch(word):
        return "" if _is_date(word) else BAD_MOMENT
    if not re.fullmatch(r"\d+", word, re.ASCII):
        return "a date wants its time, for example 2026-03-02T00:00:00Z" if re.fullmatch(r"\d[0-9-]*", word, re.ASCII) else BAD_MOMENT
    if word[0] == "0" and word != "0":
        return "a moment has no leading zero"
    return f"a moment is at most {LAST_MOMENT}" if int(word) > LAST_MOMENT else ""


def _is_date(word: str) -> bool:
    """Whether the calendar and the day have such a moment, from 1970 on."""
    try:
        return datetime.strptime(word, "%Y-%m-%dT%H:%M:%SZ").year >= 1970 and word[17:19] < "60"
    except ValueError:
        return False


def _path_fault(word: str, of_path: str = BAD_PATH) -> str:
    if not word.startswith("/"):
        return NO_SLASH
    names = word[1:].split("/") if word != "/" else []
    if "" in names or len(names) > MOST_NAMES:
        return of_path
    if set(word) & set("@#"):
        return "a name has no @ and no #"
    return next(filter(None, map(_name_fault, names)), "")


def _name_fault(name: str) -> str:
    return "" if len(name) <= MOST_NAME and name not in (".", "..") else BAD_NAME


def _tagged_fault(kind: str, word: str) -> str:
    """Returns what is wrong with a path that a moment or the number of a version may follow."""
    path = re.split("[@#]", word, maxsplit=1)[0]
    tag, rest = word[len(path):len(path) + 1], word[len(path) + 1:]
    of_path = BAD_PATH if kind == "A" else f"{BAD_PATH}, and a number after #"
    fault = _path_fault(path, of_path)
    if fault or not tag:
        return fault
    if tag == "@":
        return BAD_MOMENT if _moment_fault(rest) else ""
    if kind == "A":
        return "only @ and a moment may follow the path"
    return of_path if _number_fault(rest, "-") else ""


def _policy_fault(word: str) -> str:
    safe = _SAFE.fullmatch(word)
    if safe:
        return "a policy has from 1 to 253402300799 seconds" if not _is_length(safe[1]) else _floor_fault(safe[2])
    if not _LADDER.fullmatch(word):
        is_empty = word == "landmarks:"
        return "" if word in ("one", "all") else _PAIRS if is_empty else BAD_POLICY
    pairs = [(int(age), int(width)) for age, width in (it.split("/") for it in word.partition(":")[2].split(","))]
    return _PAIRS if len(pairs) > MOST_RUNGS else _rungs_fault(pairs)


_PAIRS = "a ladder has one to eight pairs, as in landmarks:3600/60,86400/3600"


def _is_length(word: str) -> bool:
    return 0 < int(word) <= LAST_MOMENT


def _floor_fault(floor: Optional[str]) -> str:
    return f"a floor is at most {MOST_FLOOR} versions" if floor and int(floor) > MOST_FLOOR else ""


def _rungs_fault(pairs: Sequence[tuple[int, int]]) -> str:
    """Returns what is wrong with the first pair of a ladder that can't follow the one before it."""
    low_age, low_width = 0, 1
    for age, width in pairs:
        if not (0 < age <= LAST_MOMENT and 0 < width <= LAST_MOMENT):
            return "a policy has from 1 to 253402300799 seconds"
        if age <= low_age:
            return "each age of a ladder is greater than the one before it"
        if width % low_width:
            return "each width of a ladder divides the next, as 60 divides 3600"
        low_age, low_width = age, width
    return ""
