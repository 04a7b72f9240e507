"""A whole folder as it was at a moment, made the newest state: `restore_tree`. Nothing is taken away."""

from __future__ import annotations

from typing import Literal, NamedTuple, Optional

from ._answers import Entry, RestoredTree, TreeStep
from ._core import Core
from ._errors import ElephantError, Forgotten, Full, NoEntry, NotDirectory
from ._forgetting import Forgetting
from ._library import AT, NOW
from ._moments import Moment, MomentLike
from ._names import Path, path_of, spell
from ._walk import walk

_REMOVED = "what it held then was removed by its policy"
_IS_FILE, _IS_FOLDER = "a file has that name now", "a folder has that name now"
_IS_WRITTEN = "a session writes it"


class _Row(NamedTuple):
    """What a path names: a directory or a file, its number, and of a file the version and its length."""

    is_directory: bool
    number: int
    version: int
    length: int


class _Step(NamedTuple):
    """A command of a plan, with the spelled path."""

    word: Literal["mkdir", "undelete", "restore"]
    path: bytes
    is_missing: bool = True
    """Of a file: whether its path names nothing now."""


class _Plan:
    """What has to be done so that all below a path is as it was at a moment. Making it changes nothing."""

    def __init__(self, trees: Trees, core: Core, top: bytes, moment: int) -> None:
        self._trees, self._core, self._moment = trees, core, moment
        self.steps: list[_Step] = []
        self.left: dict[bytes, str] = {}
        self.newer: list[bytes] = []
        self.same = 0
        # The directory that each path will be, or None if it will be a new one.
        self._numbers: dict[bytes, Optional[int]] = {b"": 0}
        self._deleted = {(it.parent, it.spelled): it.number for it in trees.restorable() if it.is_directory}
        self._add(top)

    def _row(self, path: bytes, tag: int) -> Optional[_Row]:
        """Returns what a path names now or then, or None."""
        try:
            row = self._core.stat(path, path or b"/", tag, self._moment if tag == AT else 0)
        except (NoEntry, NotDirectory):
            return None
        return _Row(bool(row.is_directory), int(row.id), int(row.version), int(row.length))

    def _below(self, top: bytes, tag: int) -> list[tuple[bytes, bool, int]]:
        """Returns the paths below a directory, each directory before what is in it."""
        number = self._moment if tag == AT else 0

        def listed(path: bytes) -> list[Entry]:
            return self._trees._list(self._core, path, path, tag, number)

        return [(it.spelled, it.is_directory, it.number) for it in walk(listed, top or b"/")]

    def _add(self, top: bytes) -> None:
        names = top.split(b"/")
        for count in range(2, len(names)):
            self._add_directory(b"/".join(names[:count]))
        try:
            found = self._row(top, AT)
        except Forgotten:
            self.left[top] = _REMOVED
            return
        if found is None:
            raise NoEntry(f"{path_of(top)} at {self._moment}")
        if not found.is_directory:
            return self._add_file(top)
        self._add_directory(top)
        then = self._below(top, AT)
        for path, is_directory, _ in then:
            if is_directory:
                self._add_directory(path)
            else:
                self._add_file(path)
        if top not in self.left and self._row(top, NOW) is not None:
            were = {path for path, _, _ in then}
            self.newer += [path for path, _, _ in self._below(top, NOW) if path not in were]

    def _is_blocked(self, path: bytes) -> bool:
        """Whether a directory above a path can't be brought back. Then neither can the path."""
        above = path.rpartition(b"/")[0]
        if above in self.left:
            self.left[path] = self.left[above]
        return above in self.left

    def _add_directory(self, path: bytes) -> None:
        if not path or self._is_blocked(path):
            return
        parent, _, name = path.rpartition(b"/")
        above = self._numbers.get(parent)
        now = self._row(path, NOW) if above is not None else None
        if now is not None:
            if now.is_directory:
                self._numbers[path] = now.number
            else:
                self.left[path] = _IS_FILE
            return
        then = self._row(path, AT)
        if above is not None and then is not None and self._deleted.get((above, name)) == then.number:
            self.steps.append(_Step("undelete", path))
            self._numbers[path] = then.number
        else:
            self.steps.append(_Step("mkdir", path))
            self._numbers[path] = None

    def _add_file(self, path: bytes) -> None:
        if self._is_blocked(path):
            return
        try:
            then = self._row(path, AT)
        except Forgotten:
            self.left[path] = _REMOVED
            return
        now = self._row(path, NOW)
        if now is None:
            self.steps.append(_Step("restore", path))
        elif now.is_directory:
            self.left[path] = _IS_FOLDER
        elif then is None or self._is_same(path, now, then):
            self.same += 1
        elif self._trees._is_drafted(now.number):
            self.left[path] = _IS_WRITTEN
        else:
            self.steps.append(_Step("restore", path, False))

    def _is_same(self, path: bytes, now: _Row, then: _Row) -> bool:
        if (now.number, now.version) == (then.number, then.version):
            return True
        if now.length != then.length:
            return False
        return self._core.read(path, path, NOW, 0) == self._core.read(path, path, AT, self._moment)

    def needs(self) -> dict[str, int]:
        """Returns how many of each limit the steps take at most."""
        words = [it.word for it in self.steps]
        made = sum(it.word == "restore" and it.is_missing for it in self.steps)
        return {
            "files": made, "directories": words.count("mkdir"), "names": words.count("mkdir") + words.count("undelete") + made,
            "versions": words.count("restore") + made,
        }


class Trees(Forgetting):
    """A store whose folders can be made again as they were."""

    def restore_tree(self, path: Path, moment: MomentLike, *, dry_run: bool = False) -> RestoredTree:
        """Makes all below a directory what it was at a moment, and says what it did: contents become the newest versions of their files,
        deleted names come back, and missing directories are made.

        Nothing is taken away. Names that weren't there then stay (`newer`), and what can't be brought back is left as it is (`left`).
        All of it is one change of the journal. If it is refused midway, a store with a journal is as it was before; without a journal
        what was done stays. With `dry_run` it only says what it would do. Raises NoEntry if nothing had the path, and Full before
        anything is done if the limits don't allow all of it.
        """
        name, seconds = spell(path), self._seconds(moment)
        top = b"" if name == b"/" else name
        with self._lock:
            plan = _Plan(self, self._begin(), top, seconds)
            made: dict[bytes, int] = {}
            if not dry_run:
                self._require_limits(plan)
                made = self._run_steps(plan.steps, seconds)
        steps = tuple(TreeStep(it.word, path_of(it.path), it.is_missing, made.get(it.path)) for it in plan.steps)
        left = tuple((path_of(it), why) for it, why in plan.left.items())
        return RestoredTree(Moment(seconds), steps, plan.same, left, tuple(map(path_of, plan.newer)))

    def _is_drafted(self, file: int) -> bool:
        """Whether a session writes a file."""
        return file in self._drafts

    def _require_limits(self, plan: _Plan) -> None:
        """Raises Full if the limits don't allow a plan."""
        counts = self.counts()
        for what, needed in plan.needs().items():
            if getattr(counts, what) + needed > getattr(self._opening.limits, what):
                fault = Full(f"{needed} {what} of a folder")
                fault.what = what
                raise fault

    def _run_steps(self, steps: list[_Step], moment: int) -> dict[bytes, int]:
        """Runs the steps as one change, and returns the versions that they made."""
        made: dict[bytes, int] = {}
        lines: list[bytes] = []
        with self._change as core:
            try:
                for step in steps:
                    self._run_step(core, step, moment, made, lines)
            except ElephantError:
                if core.is_ahead and self._journal is not None:
                    # The core anew from the journal, which has nothing of it.
                    self._renew()
                    self._note_kept()
                raise
            if lines:
                self._keep(*lines)
        return made

    def _run_step(self, core: Core, step: _Step, moment: int, made: dict[bytes, int], lines: list[bytes]) -> None:
        name, shown = step.path, path_of(step.path)
        if step.word == "mkdir":
            core.ask(core.library.elephant_mkdir, shown, name, len(name))
            lines.append(b"mkdir " + name)
        elif step.word == "undelete":
            core.ask(core.library.elephant_undelete, shown, name, len(name))
            lines.append(b"undelete " + name)
        else:
            made[name] = core.ask(core.library.elephant_restore, shown, name, len(name), moment)
            lines.append(b"restore %b %d" % (name, moment))
            self._note_return(core, name)
