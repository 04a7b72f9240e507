"""How the names of a folder, any bytes, are spelled in the store."""

from __future__ import annotations

import errno
import functools
import re
from collections.abc import Iterable

from ..keeping import HIDDEN, MOST_NAME, is_shown, name_of

NAME = HIDDEN.encode()
"""The name of the folder of the past, at the top."""
_OWN = re.compile(rb"[^!-~]|[/@#%]")


class TooLong(OSError):
    """A name or a path that is too long for the store; `reason` says how long it is."""

    def __init__(self, reason: str) -> None:
        super().__init__(errno.ENAMETOOLONG, reason)
        self.reason = reason


@functools.lru_cache(maxsize=16384)
def spelled(name: bytes) -> bytes:
    """Returns the spelling of a name. Raises TooLong if it has more than 64 bytes."""
    found = b"%2E" * len(name) if name in (b".", b"..") else _OWN.sub(lambda it: b"%%%02X" % it[0][0], name)
    if len(found) > MOST_NAME:
        raise TooLong(f"the name {shown(name)} takes {len(found)} bytes as it is spelled, and a name has at most {MOST_NAME}")
    return found


@functools.lru_cache(maxsize=16384)
def name_in(spelling: bytes) -> bytes:
    """Returns the name of a spelling. A spelling that `spelled` never makes, or whose name no folder can show, is returned as it is."""
    name = name_of(spelling)
    if is_shown(name):
        return name.encode("utf-8", "surrogateescape")
    return spelling.replace(b".", b"%2E") if spelling in (b".", b"..") else spelling


def is_spelling_of(spelling: bytes, name: bytes) -> bool:
    """Whether the mount spells a name like this."""
    try:
        return spelled(name) == spelling
    except TooLong:
        return False


def names_of(spellings: Iterable[bytes], is_top: bool = False) -> dict[bytes, bytes]:
    """Returns the spellings in a folder by the names that it shows, of which no two are the same.

    A spelling that isn't the mount's own is shown as it is, with signs `%` after it if a file has that name. The name `.elephant` at the
    top belongs to the past, so a file of the journal that has it is shown as `%2Eelephant`.
    """
    found: dict[bytes, bytes] = {}
    others = []
    for spelling in spellings:
        name = name_in(spelling)
        if is_spelling_of(spelling, name) and not (is_top and name == NAME):
            found[name] = spelling
        else:
            others.append((b"%2E" + name[1:] if is_top and name == NAME else name, spelling))
    for name, spelling in others:
        while name in found:
            name += b"%"
        found[name] = spelling
    return found


def shown(name: bytes) -> str:
    """Returns a name or a path for the log."""
    text = name.decode("utf-8", "backslashreplace")
    return text if text.isprintable() else repr(text)[1:-1]
