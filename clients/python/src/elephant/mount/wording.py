"""The words of a line: split at spaces, with quotes as in a shell, and with the paths spelled."""

from __future__ import annotations

import re
import shlex

# A word in quotes, or a space that a backslash keeps. No spelled path and no number begins with a quote.
_QUOTED = re.compile(r"""(^| )['"]|\\ """)
# The option of lines whose answer programs read.
JSON = "--json"
_UNSPELLED = re.compile(rb"[^!-~]")


def words_of(line: str) -> list[str]:
    """Returns the words of a line. Raises ValueError if a quote has no end."""
    if not _QUOTED.search(line):
        return line.split(" ")
    try:
        return shlex.split(line)
    except ValueError:
        raise ValueError(f"{line!r} has a quote without its end") from None


def line_of(words: list[str]) -> str:
    """Returns the line of words, which `words_of` splits into the same."""
    plain = " ".join(words)
    return plain if words_of_or_none(plain) == words else " ".join(map(shlex.quote, words))


def words_of_or_none(line: str) -> list[str]:
    try:
        return words_of(line)
    except ValueError:
        return []


def as_bytes(text: str) -> bytes:
    return text.encode("utf-8", "surrogateescape")


def spelled_path(word: str) -> str:
    """Returns a word whose bytes that no path has are spelled, if it is a path."""
    if not word.startswith("/"):
        return word
    return _UNSPELLED.sub(lambda it: b"%%%02X" % it[0][0], as_bytes(word)).decode("ascii")
