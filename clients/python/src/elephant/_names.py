"""How paths are spelled in the bytes of the store.

A name of the store has 1 to 64 bytes from `!` to `~` without `/`, `@` and `#`. Other characters, and `%` itself, are spelled as UTF-8
with a percent sign and two hexadecimal digits for each byte, as in a URL: `my file` is `my%20file`. A path given as `bytes` is taken
as it is.
"""

from __future__ import annotations

import functools
import os
import re
from typing import Union

from ._errors import BadName, BadPath

Path = Union[str, bytes, "os.PathLike[str]", "os.PathLike[bytes]"]

MOST_NAME = 64
# The most names of a path.
MOST_NAMES = 32
HIDDEN = ".elephant"
"""The name that a mounted folder keeps for itself at its top."""
_OWN = re.compile(rb"[^!-~]|[/@#%]")
# A path below the root whose names are spelled as they are.
_PLAIN = re.compile(r"(?:/(?!\.\.?(?:/|\Z))[!-\"$&-.0-?A-~]{1,64})+")
# The bytes of a spelled name.
_FORM = re.compile(rb"[!-\"$-.0-?A-~]{1,64}")
_SHOWN = re.compile(rb"[!-~]*")
_SPELLED = re.compile(rb"%([0-9A-F]{2})")


def spell_name(name: str) -> bytes:
    """Returns the spelling of a name. Raises BadName if the spelling is empty or too long."""
    if name in (".", ".."):
        return b"%2E" * len(name)
    spelled = _OWN.sub(lambda found: b"%%%02X" % found[0][0], name.encode("utf-8", "surrogateescape"))
    if not 1 <= len(spelled) <= MOST_NAME:
        raise BadName(f"{name!r} takes {len(spelled)} bytes as it is spelled, and a name has 1 to {MOST_NAME}")
    return spelled


@functools.lru_cache(maxsize=4096)
def _spell_text(path: str) -> bytes:
    if _PLAIN.fullmatch(path):
        return path.encode("ascii")
    if not path.startswith("/"):
        raise BadPath(f"{path!r} does not begin with a slash")
    if path == "/":
        return b"/"
    names = path[1:].split("/")
    if "" in names:
        raise BadPath(f"{path!r} has an empty name")
    return b"/" + b"/".join(map(spell_name, names))


def spell(path: Path) -> bytes:
    """Returns the spelling of a path."""
    if type(path) is str:
        return _spell_text(path)
    found = os.fspath(path)
    if isinstance(found, str):
        return _spell_text(found)
    if not _SHOWN.fullmatch(found):
        raise BadPath(f"{found!r} has a byte that no path has")
    return bytes(found)


@functools.lru_cache(maxsize=4096)
def name_of(spelled: bytes) -> str:
    """Returns the name of a spelling. A spelling that `spell_name` never makes is returned as it is."""
    raw = _SPELLED.sub(lambda found: bytes((int(found[1], 16),)), spelled)
    name = raw.decode("utf-8", "surrogateescape")
    try:
        return name if "/" not in spelled.decode("ascii") and name and spell_name(name) == spelled else spelled.decode("ascii")
    except BadName:
        return spelled.decode("ascii")


def is_shown(name: str) -> bool:
    """Whether a folder can have a file of that name."""
    return name not in (".", "..") and "/" not in name and "\0" not in name


def require_shown(*paths: bytes) -> None:
    """Raises BadName if the last of a command's paths, as they are spelled, would have a name that no mounted folder can show.

    Call it where a name is made. A journal may have such a name all the same, and then it can be read, renamed and removed. If one of the
    paths has no path's form, the core refuses the command, and says why.
    """
    if not all(map(_has_form, paths)):
        return
    path = paths[-1]
    if path == b"/" + HIDDEN.encode():
        raise BadName(f"{path.decode()} is the name of a mounted folder's past")
    spelled = path.rpartition(b"/")[2]
    if not is_shown(name_of(spelled)):
        raise BadName(f"no folder can show a file of the name {name_of(spelled)!r}, spelled {spelled.decode('ascii', 'replace')}")


def is_path_shown(*paths: bytes) -> bool:
    """Whether a mounted folder can show the last name of the last of a command's paths."""
    try:
        require_shown(*paths)
    except BadName:
        return False
    return True


def _has_form(path: bytes) -> bool:
    """Whether bytes have a path's form: a slash before each of at most 32 names."""
    first, *names = path.split(b"/")
    return not first and 0 < len(names) <= MOST_NAMES and all(map(_FORM.fullmatch, names))


@functools.lru_cache(maxsize=4096)
def path_of(spelled: bytes) -> str:
    """Returns the path of a spelling."""
    return "/".join(name_of(name) if name else "" for name in spelled.split(b"/"))
