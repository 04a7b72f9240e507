"""Runs the steps of an undo in the store: many commands in a few changes of the journal."""

from __future__ import annotations

from collections.abc import Iterable, Iterator
from contextlib import suppress
from typing import Callable, Optional, TypeVar

from .. import NoEntry, Refused
from . import records
from .plans import IS_WRITTEN, Plan, Step, Wanted, parent_of
from .records import DIRECTORY_MODE, FILE_MODE, Attributes, directory_key, file_key
from .store import MountStore
from .then import Then
from .tree import Tree

# The most steps, and the most bytes of new contents, of one change of the journal.
MOST_STEPS = 1000
MOST_CONTENT = 1 << 20
Item = TypeVar("Item")


class Steps:
    """Runs plans. `then` is what they bring back."""

    def __init__(self, store: MountStore, tree: Tree, then: Optional[Then] = None) -> None:
        self.store, self.tree = store, tree
        self.then = then or Then(store, int(store.now), store)
        self.left: dict[bytes, str] = {}
        """The paths that were refused, each with the reason."""
        self.restored: dict[int, int] = {}
        """The files that were restored, each with the version that it had last."""
        self.changed: list[bytes] = []
        """The paths whose contents were changed back."""
        self._written = 0

    def _in_changes(self, items: Iterable[Item], run: Callable[[Item], None], path_of: Callable[[Item], bytes]) -> None:
        """Runs items as a few changes of the journal. What the store refuses is noted, and the others go on."""
        rest = iter(items)
        while True:
            with self.store.together():
                if not self._run_some(rest, run, path_of):
                    return

    def _run_some(self, rest: Iterator[Item], run: Callable[[Item], None], path_of: Callable[[Item], bytes]) -> bool:
        """Runs as many items as one change takes. Returns whether there may be more."""
        self._written = 0
        for _ in range(MOST_STEPS):
            item = next(rest, None)
            if item is None:
                return False
            try:
                run(item)
            except Refused as fault:
                self.left[path_of(item)] = str(fault)
            if self._written > MOST_CONTENT:
                break
        return True

    def run(self, steps: list[Step]) -> None:
        """Runs the steps that change names."""
        self._in_changes(steps, self._step, lambda it: it.path)

    def _step(self, step: Step) -> None:
        word, now = step.word, records.now_ns()
        if word == "undelete":
            self._undelete(step.path)
        elif word == "mkdir":
            made = self._attributes(self.then.directory_attributes(step.of), DIRECTORY_MODE, now)
            number = self.store.run((b"mkdir", step.path), remarks=lambda it: records.everything(directory_key(it), made))
            self.store.records.by_key[directory_key(number)] = made
        elif word == "create":
            made = self._attributes(self.then.file_attributes(step.of), FILE_MODE, now)
            number = self.store.run((b"create", step.path), remarks=lambda it: records.everything(file_key(it), made))
            self.store.records.by_key[file_key(number)] = made
        else:
            self.store.run((word.encode(), step.path, *([step.other] if step.other else [])))
        self._touch(now, *(it for it in (step.path, step.other) if it))

    def _undelete(self, path: bytes) -> None:
        version = self.store.undelete(path)
        if version:
            self.restored[int(self.store.stat_row(path).id)] = version - 1

    def _touch(self, now: int, *paths: bytes) -> None:
        """Sets the times of what has the paths, and of the folders that they are in."""
        keys: list[int] = []
        for path in paths:
            keys.append(directory_key(int(self.store.stat_row(parent_of(path) or b"/").id)))
            with suppress(NoEntry):  # the step has ended this name
                row = self.store.stat_row(path)
                keys.append(directory_key(row.id) if row.is_directory else file_key(row.id))
        remark = records.names_changed(now, *keys)
        self.store.keep(remark)
        self.store.records.apply(remark[2:])

    def _attributes(self, found: Optional[Attributes], mode: int, now: int) -> Attributes:
        """Returns the attributes of a new file or directory: those of the one that it stands for."""
        if found is None:
            root = self.tree.root.attributes
            return Attributes(mode, root.owner, root.group, now, now, now)
        made = found.copy()
        made.ctime = now
        return made

    # Contents.

    def run_contents(self, plan: Plan) -> None:
        """Makes the contents of a plan the next versions of the files that have the names."""
        self._in_changes(plan.contents(), self._bring_content, lambda it: it.path)

    def _bring_content(self, it: Wanted) -> None:
        if not self.differs(it):
            return
        node = self.tree.files.get(int(self.store.stat_row(it.path).id))
        if node is not None and (node.draft is not None or node.writers):
            self.left[it.path] = IS_WRITTEN
            return
        number = self.store.stat_row(it.path).id
        if number == it.number:
            self.store.revert(it.path, it.version)
        else:
            content = self.then.content(it.then)
            self._written += len(content)
            self.store.reserve(len(content))
            self.store.drafts.save(it.path, content)
        self.changed.append(it.path)

    def differs(self, it: Wanted, path: Optional[bytes] = None) -> bool:
        """Whether a file holds something else now than it held then."""
        row = self.store.stat_row(path or it.path)
        if row.is_directory or row.id == it.number and it.version in (row.version, self.restored.get(it.number)):
            return False
        length = row.length
        content = self.then.content(it.then)
        return length != len(content) or self.store.content(path or it.path) != content
