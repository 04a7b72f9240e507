"""Sends lines to a mounted folder. It needs no pyfuse3."""

from __future__ import annotations

import os
import socket
import time
from contextlib import suppress

from .. import BadTime, read_time
from .names import spelled
from .reasons import kinds_of
from .typed import moment_in, version_in

# Lines of the mount's own that take one file or folder.
_OF_FILES = ("undo", "redo", "history")
# The kinds of words that are paths, and those that a moment or the number of a version may follow.
_PATHS, _TAGGED = ("P", "Q"), ("T", "A", "TH")


def ask(folder: str, line: str) -> str:
    """Sends a line to the mount that a folder is in, and returns the answer."""
    with socket.socket(socket.AF_UNIX, socket.SOCK_STREAM) as caller:
        caller.connect(os.readlink(os.path.join(mount_of(folder), ".elephant", "socket")))
        caller.sendall(line.encode("utf-8", "surrogateescape") + b"\n")
        parts = list(iter(lambda: caller.recv(1 << 20), b""))
    return b"".join(parts).decode("utf-8", "surrogateescape")


def typed_line(folder: str, text: str, words: list[str]) -> list[str]:
    """Returns the words of a line with its paths as the store spells them. In a line of the script language a path that begins with a
    slash and isn't below the mount is the store's own. `text` is the line as typed, if it was one word."""
    word, rest = words[0], [it for it in words if it]
    if word in _OF_FILES and len(rest) > 1 or word == "restore" and not (len(words) == 3 and words[1][:1] == "/" and words[2].isdigit()):
        return _undo_line(folder, text, rest)
    if word == "changes":
        options, rest = [it for it in rest if it.startswith("--")], [it for it in rest if not it.startswith("--")]
        path = [_spelled(folder, rest.pop())] if len(rest) > 3 and _is_path(folder, rest[-1]) else []
        return [*rest, *path, *options]
    return [_path_word(folder, kind, it) for kind, it in zip(kinds_of(words), words)]


def _is_path(folder: str, word: str) -> bool:
    """Whether the last word of a line is a path, and no time."""
    if word.startswith(("/", "./")):
        return True
    with suppress(BadTime):
        read_time(word, int(time.time()))
        return False
    return os.path.lexists(word) or os.path.lexists(os.path.join(folder, word))


def _path_word(folder: str, kind: str, word: str) -> str:
    """Returns a word of a line of the script language, spelled if it is a path."""
    if not word or kind not in (*_PATHS, *_TAGGED) or kind == "TH" and word.isdigit():
        return word
    path, tag = _without_tag(folder, word) if kind in _TAGGED else (word, "")
    is_spelled = path.startswith("/") and not _is_below(os.path.abspath(path), mount_of(folder))
    return (path if is_spelled else _spelled(folder, path)) + _moment_tag(tag)


def _without_tag(folder: str, word: str) -> tuple[str, str]:
    """Splits a path and the tag after it, `@` or `#` with what follows. A name that is there may have these signs itself."""
    at = max(word.rfind("@"), word.rfind("#"))
    if at < 0 or os.path.lexists(word) or os.path.lexists(os.path.join(folder, word.lstrip("/"))):
        return word, ""
    return word[:at], word[at:]


def _moment_tag(tag: str) -> str:
    """Returns a tag with its moment in seconds. One that is no moment stays: the answer says what is wrong with it."""
    with suppress(BadTime):
        return f"@{moment_in([tag[1:]], int(time.time()))}" if tag.startswith("@") else tag
    return tag


def _is_below(path: str, top: str) -> bool:
    return path == top or path.startswith(f"{top}/")


def _undo_line(folder: str, text: str, words: list[str]) -> list[str]:
    """Does so for a line of one file or folder, whose name may have spaces without quotes if the line was typed as one word."""
    options = [it for it in words[1:] if it.startswith("--")]
    rest = [it for it in words[1:] if it not in options]
    if not rest:
        return words
    file, moment = rest[0], rest[1:]
    if text and not set(text) & set("'\"\\"):
        file, moment = _file_and_moment(folder, rest)
    return [words[0], *options, _spelled(folder, file), *moment]


def _file_and_moment(folder: str, words: list[str]) -> tuple[str, list[str]]:
    """Splits words into those of a file's name and those of a moment: the longest name that is there, else the longest moment."""
    for count in range(len(words), 0, -1):
        file = " ".join(words[:count])
        if os.path.lexists(file) or os.path.lexists(os.path.join(folder, file.lstrip("/"))):
            return file, words[count:]
    if version_in(words[-1:]) is not None:
        return " ".join(words[:-1]), words[-1:]
    for count in range(1, len(words)):
        with suppress(BadTime):
            read_time(" ".join(words[count:]), int(time.time()))
            return " ".join(words[:count]), words[count:]
    return " ".join(words), []


def _spelled(folder: str, file: str) -> str:
    """Returns the store's path of a file, which is relative to the working directory or to FOLDER."""
    top = mount_of(folder)
    for place in (os.path.abspath(file), os.path.abspath(os.path.join(folder, file.lstrip("/")))):
        path = os.path.join(os.path.realpath(os.path.dirname(place)), os.path.basename(place))
        if path == top:
            return "/"
        if path.startswith(top + "/"):
            return "/" + "/".join(spelled(it).decode() for it in os.fsencode(os.path.relpath(path, top)).split(b"/"))
    return file


def mount_of(folder: str) -> str:
    """Returns the top of the mount that a folder is in."""
    path = os.path.realpath(folder)
    while not os.path.ismount(path):
        path = os.path.dirname(path)
    return path
