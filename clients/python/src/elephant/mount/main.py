"""The command `elephant-mount`."""

from __future__ import annotations

import argparse
import errno
import importlib
import os
import signal
import subprocess
import sys
from typing import Optional

from .. import ElephantError, JournalLocked, Limits
from ..keeping import about
from .client import ask, typed_line
from .helping import COLUMNS, LINES, help_on
from .names import TooLong
from .wording import JSON, line_of, words_of

_DESCRIPTION = "Mounts a folder that keeps each save of each file as a version,\nand sends lines to a mounted one."
_MISSING = "elephant-mount: {}: on Debian, 'apt-get install python3-pyfuse3 fuse3' installs it, for /usr/bin/python3"


class _Help(argparse.RawDescriptionHelpFormatter):
    """Prints the lines as they are, in 80 columns everywhere."""

    def __init__(self, prog: str) -> None:
        super().__init__(prog, width=COLUMNS)


def _parser() -> argparse.ArgumentParser:
    words = argparse.ArgumentParser(prog="elephant-mount", description=_DESCRIPTION, epilog=LINES, formatter_class=_Help)
    words.add_argument("folder", metavar="FOLDER", nargs="?", help="an empty folder, where the files appear")
    words.add_argument("--journal", metavar="FILE", help="the file that keeps all of it; it is made if it doesn't exist")
    words.add_argument("--every", type=float, default=0, metavar="MINUTES", help="make versions of files that stay open, as often as this")
    words.add_argument("--clean-every", type=float, default=60, metavar="SECONDS", help="remove what is due, as often as this; 0: never")
    words.add_argument("--no-guard", action="store_true", help="remove what is due at once, also after a mount, and however much it is")
    words.add_argument("--history", action="store_true", help="answer gone, answers, handles and history, for an audit")
    words.add_argument("--who", action="store_true", help="write notes into the journal of who makes the changes: user and program")
    words.add_argument("--allow-other", action="store_true", help="let other users in, as far as the modes let them")
    words.add_argument("--read-only", action="store_true", help="only look: nothing is written or removed, and the clock is stopped")
    words.add_argument("--moment", metavar="TIME", help="with --read-only: the moment of the stopped clock, if not the journal's last one")
    words.add_argument("--past", action="append", default=[], metavar="FILE", help="an older journal whose past is shown too, read only")
    words.add_argument("--limit", action="append", default=[], metavar="NAME=NUMBER", help="a smaller limit, as files=1000")
    words.add_argument("--version", action="store_true", help="print the version, and of which proof the library is")
    words.add_argument("--at", nargs=argparse.REMAINDER, metavar="FOLDER LINE", help="send a line to the mount, and print its answer")
    return words


def _limits(words: list[str]) -> Limits:
    asked = {}
    for word in words:
        name, _, number = word.partition("=")
        if name not in Limits._fields or not number.isdigit():
            raise SystemExit(f"elephant-mount: {word} is no limit: {', '.join(Limits._fields[1:])}")
        asked[name] = int(number)
    return Limits(**asked)


def main(argv: Optional[list[str]] = None) -> int:
    """Runs the command, and returns its status."""
    words = list(sys.argv[1:] if argv is None else argv)
    if words[:1] == ["--at"]:
        if len(words) < 3:
            print("elephant-mount: --at takes a FOLDER and a LINE", file=sys.stderr)
            return 2
        return send(words[1], words[2:])
    if words[:1] == ["help"] and not any(it.startswith("-") for it in words):
        return _help(words[1:])
    if words[:1] == ["move"]:
        return _move(words[1:])
    parser = _parser()
    asked = parser.parse_args(words)
    if asked.version:
        print(f"elephant-mount {about()}", end="")
        return 0
    if asked.at is not None:
        parser.error("--at stands alone, with FOLDER and LINE after it")
    if not asked.folder or not asked.journal:
        parser.error("give a FOLDER and --journal FILE, or --at FOLDER LINE")
    if asked.moment is not None and not asked.read_only:
        parser.error("--moment is for a mount with --read-only; else time is the time of day")
    return run(asked)


# Lines.


def send(folder: str, words: list[str]) -> int:
    """Sends a line and prints its answer. The status is 0 if it was answered `ok`, else 1."""
    typed = words[0] if len(words) == 1 else ""
    try:
        words = words_of(typed) if typed else list(words)
        if words[0] == "help":
            return _help(words[1:])
        words = typed_line(folder, typed, words)
        answer = ask(folder, line_of(words))
    except (ValueError, TooLong) as fault:
        print(f"elephant-mount: {getattr(fault, 'reason', fault)}", file=sys.stderr)
        return 2
    except OSError as fault:
        print(f"elephant-mount: {folder} is no mounted folder of elephant-mount: {fault.strerror or fault}", file=sys.stderr)
        return 2
    is_done = answer.startswith("ok")
    print(answer.partition("\n")[2] if is_done and JSON in words else answer, end="")
    return 0 if is_done else 1


def _help(words: list[str]) -> int:
    """Prints the help on a line, or the list of all lines, and returns the status."""
    text = help_on(words)
    if not text:
        print(f"elephant-mount: there is no line {' '.join(words)!r}: 'elephant-mount help' lists them", file=sys.stderr)
        return 2
    print(text, end="")
    return 0


def _move(words: list[str]) -> int:
    """Goes on in a new journal, and returns the status."""
    from .moving import move

    if len(words) != 2:
        print("elephant-mount: move takes an OLD journal and the path of a NEW one", file=sys.stderr)
        return 2
    try:
        print(f"ok {move(*words)}")
    except (ElephantError, OSError) as fault:
        return _refuse(getattr(fault, "subject", "") or str(fault))
    return 0


# Mounting.


def _refuse(text: str) -> int:
    print(f"elephant-mount: {text}", file=sys.stderr)
    return 1


def run(asked: argparse.Namespace) -> int:
    """Mounts a folder, and returns when it is unmounted."""
    try:
        importlib.import_module("pyfuse3")
    except ImportError as lack:
        return _refuse(_MISSING.format(lack).partition(": ")[2])
    if not os.path.exists("/dev/fuse"):
        return _refuse("there is no /dev/fuse on this machine: FUSE is not in its kernel, or not let into this container")
    folder, journal = os.path.realpath(asked.folder), os.path.realpath(asked.journal)
    older = tuple(os.path.realpath(it) for it in asked.past)
    fault = _place_fault(folder, journal)
    if journal in older:
        fault = f"{journal} is the folder's own journal, and no older one"
    if fault:
        return _refuse(fault)
    from .mounting import Asked, Mount

    try:
        times = asked.clean_every, asked.every
        mount = Mount(Asked(
            folder, journal, _limits(asked.limit), *times, asked.read_only, older, not asked.no_guard, asked.moment, asked.history,
            asked.who,
        ))
    except JournalLocked:
        return _refuse(f"{journal} is mounted already, or another program has it open")
    except (ElephantError, OSError) as lack:
        return _refuse(getattr(lack, "subject", "") or str(lack))
    for number in (signal.SIGINT, signal.SIGTERM, signal.SIGHUP):
        if signal.getsignal(number) is not signal.SIG_IGN:  # as nohup has it
            signal.signal(number, lambda *_: mount.end())
    return mount.run(asked.allow_other)


def _place_fault(folder: str, journal: str) -> str:
    """Returns why a folder can't be mounted with a journal, or an empty text."""
    try:
        names = os.listdir(folder)
    except OSError as fault:
        hint = f": a mount of it was killed, and 'fusermount3 -u {folder}' takes its rest away" if fault.errno == errno.ENOTCONN else ""
        return f"{folder}: {fault.strerror}{hint}"
    if os.path.ismount(folder) and subprocess.run(["findmnt", "-n", "-t", "fuse.elephant", folder], stdout=-3, check=False).returncode == 0:
        return f"{folder} is mounted already"
    if names:
        return f"{folder} isn't empty: mount an empty folder, and copy your files into it"
    if (journal + "/").startswith(folder + "/"):
        return f"{journal} lies in the folder itself: keep the journal elsewhere"
    if not os.path.isdir(os.path.dirname(journal)):
        return f"{os.path.dirname(journal)} is no folder"
    return ""


if __name__ == "__main__":
    sys.exit(main())
