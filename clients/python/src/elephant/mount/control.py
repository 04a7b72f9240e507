"""The socket of a mount, and what its lines do: those of the script language, and `undo`.

A caller sends a line and gets its answer, as the program prints it, before the connection is closed.
"""

from __future__ import annotations

import os
import shutil
import socket
import stat
import struct
import tempfile
import threading
import traceback
from collections.abc import Callable, Iterator
from contextlib import suppress
from typing import Optional
from zlib import crc32

from .. import BadName, BadTime, ClockDoubt, ElephantError, Refused
from ..keeping import AT, NoSpace, is_remark, require_shown, told_time
from .audit import Audit
from .log import local
from .marks import Marks
from .names import name_in
from .operations import Operations
from .reasons import reasons
from .spans import Spans
from .story import Stories
from .tree import Directory, File, Node
from .typed import moment_in, moments_in, policy_word, version_in
from .undo import Undo
from .whereabouts import Nothing
from .wording import as_bytes, spelled_path, words_of

MOST_LINE = 1 << 20
# The path of a socket has at most 107 bytes.
MOST_FOLDER = 100
# Lines after which the tree may differ, and lines that change nothing.
# Printed by tools/pages/surface --write: the lines, from ele_commands/src/command.rt and ele_model/specs/NothingChanges.antt.
_ASK = frozenset((
    "due", "groups", "list", "read", "restorable", "stat", "usage", "versions", "history", "trim", "ahead", "answers", "changes",
    "expiring", "gone", "handles", "removals", "story", "why",
))
_SHORT = frozenset(("clean", "default", "group", "mark", "pass", "policy", "unmark"))
# End of the lines.
# Lines that may use what is kept back of the limits.
_UNDOING = frozenset(("undo", "redo", "undelete", "revert", "restore"))
_OF_FILES = frozenset(("undo", "redo"))
_TAKEN = {"undo": "a file or a folder, a moment or the number of a version, as '#3', if you like", "redo": "a file or a folder"}
# Lines of the mount's own that change nothing.
_LOOKS = frozenset(("changes", "soon"))
# The place of the moment in lines that end with one.
_OF_MOMENTS = {"unmark": 2, "ahead": 1, "expiring": 1}
_MAKE = frozenset(("mkdir", "create", "link", "rename"))
_OF_HANDLES = frozenset(("write", "truncate", "close", "abandon", "read"))
# Lines that make a version of what a path names, and that may make the name. They are in no table of counts.
_SAVE = frozenset(("save", "restore"))
Changes = list[tuple[Node, Optional[bytes]]]


class Lines:
    """Runs lines of the script language, and `undo`, in a mounted store."""

    def __init__(self, operations: Operations, audit: Optional[Audit] = None) -> None:
        self.operations = operations
        self.store, self.tree, self.contents = operations.store, operations.tree, operations.contents
        self.undo = Undo(self.store, self.tree, self.contents, operations.past.store_at)
        self.audit = audit or Audit(self.store)
        self.marks, self.stories = Marks(self.store, self.tree), Stories(self.store, self.tree, self.audit)
        self.spans = Spans(self.store, operations.past.store_at)
        self._is_of_one = False
        """Whether the last undo changed one name of a folder, and what is below it."""
        self.soon: Optional[Callable[[Optional[int]], str]] = None
        """Answers what goes until a moment, or within a week."""
        self.more: dict[str, Callable[[], str]] = {}
        """Lines of the mount's own, without words, that are answered without the lock."""

    def answer(self, line: str, caller: Optional[tuple[int, int]] = None) -> tuple[str, Changes]:
        """Returns the answer to a line, with line feeds, and what it changed in the tree. `caller`: its user and its process."""
        if line in self.more:
            return self.more[line](), []
        try:
            words = [spelled_path(it) for it in words_of(line)]
            if self.audit.answers(words[0]):
                self.audit.prepare()
        except ValueError as fault:
            return self._refusal(fault), []
        with self.operations.lock:
            if caller:
                self.store.who.caller(*caller)
            changes: Changes = []
            try:
                try:
                    if self._restores_folder(words):
                        words[0] = "undo"
                    with self.store.quota.undoing(words[0] in _UNDOING):
                        text = self._answer(words)
                finally:  # the store may have done what the journal couldn't take
                    changes = [] if words[0] in _ASK | _SHORT | _LOOKS else list(self._refreshed(words))
            except (ElephantError, Nothing, NoSpace, OSError, ValueError) as fault:
                text = self._refusal(fault)
        return text, changes

    def _refreshed(self, words: list[str]) -> Iterator[tuple[Node, Optional[bytes]]]:
        """Brings the tree up to date with what a line has done, as one change of the journal."""
        with self.store.together():
            yield from self._one_refreshed(words[1]) if words[0] in _OF_FILES and self._is_of_one else self.tree.refresh()

    def _one_refreshed(self, path: str) -> Iterator[tuple[Node, Optional[bytes]]]:
        parent, _, spelling = as_bytes(path).rpartition(b"/")
        directory = self.tree.find(parent)
        assert isinstance(directory, Directory)
        return self.tree.refresh_file(directory, directory.name_of(spelling))

    def _refusal(self, fault: Exception) -> str:
        if isinstance(fault, Nothing):
            return f"no: {fault}\n"
        if isinstance(fault, Refused):
            return f"no {str(fault).split(':')[0]}\n"
        if isinstance(fault, (BadTime, ClockDoubt)):
            return f"elephant-mount: {fault.subject}\n"
        if not isinstance(fault, ValueError):
            self.operations.errno_of(fault)
        return f"elephant-mount: {getattr(fault, 'strerror', None) or fault or type(fault).__name__}\n"

    def _answer(self, words: list[str]) -> str:
        """Returns the answer to a line of the mount's own or of the script language, as it is typed."""
        word = words[0]
        if word in _OF_FILES:
            return self._undo(words)
        if word == "history" and len(words) > 1:
            return self.stories.answer(words[1:])
        if word == "changes":
            return self.spans.answer(words[1:])
        if word == "soon" and self.soon is not None:
            return self.soon(moment_in(words[1:], int(self.store.now)) if words[1:] else None)
        if word == "mark" and len(words) > 2:
            return self._mark(words[1], moments_in(words[2:], int(self.store.now)))
        if word in _OF_MOMENTS and len(words) > _OF_MOMENTS[word]:
            words[_OF_MOMENTS[word]:] = [str(moment_in(words[_OF_MOMENTS[word]:], int(self.store.now)))]
        if word in ("policy", "default") and len(words) == 3:
            words[2] = policy_word(words[2])
        number = version_in([f"#{words[2].removeprefix('#')}"]) if word == "why" and len(words) == 3 else None
        if number is not None:
            words = [word, f"{words[1]}#{number}"]
        answer = self.audit.line(" ".join(words)) if self.audit.answers(word) else self._line(words)
        if word == "why" and answer.startswith("no 13 "):
            return self._why_removed(words[1], answer)
        return answer + "".join(f"- {it}\n" for it in reasons(words)) if answer.startswith("bad ") else answer

    def _why_removed(self, target: str, answer: str) -> str:
        """Returns why a version was removed, if the mount keeps a history, and else when."""
        if self.audit.is_kept:
            return self.audit.line(f"why {target}")
        path, _, number = target.partition("#")
        found = None
        with suppress(Nothing):
            file = self.stories.file_of(as_bytes(path))
            found = self.store.removals.of(file).get(int(number)) if number.isdigit() else None
        when = "" if found is None else f"- removed {local(found.moment)}, due since {local(found.since)}\n"
        return f"{answer}{when}- a mount with --history says why\n"

    def _mark(self, group: str, moments: list[int]) -> str:
        """Makes a mark, and says what it holds."""
        answer = self._line(["mark", group, *map(str, moments)])
        if not answer.startswith("ok "):
            return answer
        return f"{answer.rstrip()}: {self.marks.held(group.encode(), *moments)}\n"

    def _line(self, words: list[str]) -> str:
        word = words[0]
        if word == "clock" or (word == "tick" and words[1:] != ["0"]):
            return "elephant-mount: the clock of a mount is the time of day\n"
        if words[:2] == ["open", "write"]:
            return "elephant-mount: programs write the files of a mount, and lines don't\n"
        if word == "note" and len(words) == 2 and is_remark(_bytes_in(words[1])):
            return "elephant-mount: a note that begins with '# ' or '#+' is one of the mount's own\n"
        if word in _OF_HANDLES and len(words) > 1 and words[1] in self._own_handles():
            return "no 15 NoHandle\n"
        if word not in _ASK:
            self.operations.require_writable()
            self._prepare(words)
        if word in ("clean", "pass", "due", "why"):
            self.operations.readers.hold()
        makes_name = word in _SAVE and len(words) == 3 and self.tree.find(as_bytes(words[1])) is None
        answer = self.store.line(" ".join(words))
        if word in ("clean", "pass") or makes_name:
            self.store.forget_names()
        if answer.startswith("ok ") and (word == "undelete" or word == "restore" and makes_name):
            self.store.quota.note_return()
        return answer

    def _own_handles(self) -> set[str]:
        drafts = {it.handle for it in self.contents.drafts if it.handle is not None}
        return set(map(str, self.operations.readers.handles() | drafts))

    def _prepare(self, words: list[str]) -> None:
        """Prepares for a line that ends a name: keeps the contents of open files for their programs, and makes versions of drafts
        first."""
        if words[0] in _MAKE:
            try:
                require_shown(as_bytes(words[-1]))
            except BadName as fault:
                raise ValueError(fault.subject) from None
        node = self.tree.find(as_bytes(words[1])) if len(words) > 1 and words[1].startswith("/") else None
        if not isinstance(node, File):
            return
        if words[0] in ("unlink", "rename") and len(node.names) == 1:
            self.contents.hold(node)
        elif words[0] in ("revert", *_SAVE):
            self.undo.require_no_writer(node)

    # Undo.

    def _restores_folder(self, words: list[str]) -> bool:
        """Whether a line is a `restore` that an undo does: of a folder, or to a moment that isn't seconds alone."""
        if words[0] != "restore" or len(words) < 3:
            return False
        if words[1] == "--dry-run" or len(words) > 3 or not words[2].isdigit():
            return True
        path = as_bytes(words[1])
        try:
            return isinstance(self.tree.find(path), Directory) or bool(self.store.stat_row(path, AT, int(words[2])).is_directory)
        except ElephantError:
            return False

    def _undo(self, words: list[str]) -> str:
        """Brings back what a file or a folder was before its last change, or at a moment, or what an undo has taken back."""
        self._is_of_one = False
        options = [it for it in words[1:] if it.startswith("--")]
        path, *moment = [it for it in words[1:] if it not in options] or [""]
        if not path.startswith("/") or options not in ([], ["--dry-run"]):
            raise ValueError(f"{words[0]} takes {_TAKEN[words[0]]}, and --dry-run")
        self.operations.require_writable()
        place = self._as_shown(as_bytes(path)).rstrip(b"/")
        words[1:] = [place.decode("ascii"), *moment]
        has_parent = isinstance(self.tree.find(place.rpartition(b"/")[0]), Directory)
        number = version_in(moment)
        self._is_of_one = (not moment or number is not None) and has_parent and not isinstance(self.tree.find(place), Directory)
        if words[0] == "redo":
            if moment:
                raise ValueError(f"redo takes {_TAKEN['redo']}, and --dry-run")
            return self.undo.redo(place, bool(options))
        if number is not None:
            return self.undo.to_version(place, number, bool(options))
        asked = moment_in(moment, int(self.store.now)) if moment else None
        return self.undo.run(place, asked, bool(options)) + (self._clock_note() if moment else "")

    def _as_shown(self, path: bytes) -> bytes:
        """Returns the store's path of one whose names are spelled as the folder shows them."""
        node: Optional[Node] = self.tree.root
        place = b""
        for spelling in path.split(b"/")[1:]:
            name = name_in(spelling)
            place = node.path_of(name) if isinstance(node, Directory) and name in node.children else place + b"/" + spelling
            node = node.children.get(name) if isinstance(node, Directory) else None
        return place

    def _clock_note(self) -> str:
        """Returns what a moment means while the clock is in doubt, or an empty text."""
        fault = self.store.clock_fault
        return f"- {fault}: moments are of the store's time, which is {told_time(int(self.store.now))}\n" if fault else ""


class Control:
    """Listens at the socket, in a thread of its own."""

    def __init__(self, lines: Lines, journal: str, changed: Callable[[Changes], None]) -> None:
        self._lines, self._changed = lines, changed
        self._folder = _private_folder(journal)
        self.path = os.path.join(self._folder, "socket")
        self._socket = socket.socket(socket.AF_UNIX, socket.SOCK_STREAM)
        self._socket.bind(self.path)
        os.chmod(self.path, 0o600)
        self._socket.listen(8)
        self._thread = threading.Thread(target=self._serve, daemon=True)

    def start(self) -> None:
        self._thread.start()

    def stop(self) -> None:
        self._socket.close()
        shutil.rmtree(self._folder, ignore_errors=True)

    def _serve(self) -> None:
        while True:
            try:
                caller, _ = self._socket.accept()
            except OSError:
                return
            with caller:
                caller.settimeout(30)
                try:
                    self._serve_one(caller)
                except OSError:
                    pass  # the caller went away
                except Exception:
                    # A fault of this program: this line has no answer, and the next one has.
                    self._lines.operations.log.say(f"a fault in a line: {traceback.format_exc()}")

    def _serve_one(self, caller: socket.socket) -> None:
        received = b""
        while b"\n" not in received and len(received) < MOST_LINE:
            piece = caller.recv(65536)
            if not piece:
                return
            received += piece
        line = received.partition(b"\n")[0].decode("utf-8", "surrogateescape")
        process, user, _ = struct.unpack("3i", caller.getsockopt(socket.SOL_SOCKET, socket.SO_PEERCRED, 12))
        answer, changes = self._lines.answer(line, (user, process))
        self._changed(changes)
        caller.sendall(answer.encode("utf-8", "surrogateescape"))


def _bytes_in(word: str) -> bytes:
    """Returns the bytes that a word spells, or none."""
    try:
        return bytes.fromhex(word)
    except ValueError:
        return b""


def _private_folder(journal: str) -> str:
    """Returns a folder that only this user can enter. Each journal has one, so a killed mount leaves at most one."""
    parent = os.environ.get("XDG_RUNTIME_DIR") or tempfile.gettempdir()
    folder = os.path.join(parent, f"elephant-mount-{os.getuid()}-{crc32(os.fsencode(journal)):08x}")
    if len(os.fsencode(folder)) > MOST_FOLDER:
        return tempfile.mkdtemp(prefix="elephant-mount-", dir="/tmp")
    try:
        os.mkdir(folder, 0o700)
    except OSError:
        found = os.lstat(folder) if os.path.lexists(folder) else None
        if found is None or not stat.S_ISDIR(found.st_mode) or found.st_uid != os.getuid() or found.st_mode & 0o077:
            return tempfile.mkdtemp(prefix="elephant-mount-")
        with suppress(FileNotFoundError):
            os.unlink(os.path.join(folder, "socket"))
    return folder
