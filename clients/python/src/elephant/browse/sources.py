"""Where the past is read from, and what changes it: a journal of this program's own, one that another writes, or a mounted folder."""

from __future__ import annotations

import errno
import os
from abc import ABC, abstractmethod
from collections.abc import Sequence
from typing import Literal

from .. import ElephantError, JournalError, JournalLocked
from ..mount.client import ask, mount_of
from ..mount.wording import line_of
from .in_files import FileFollower, OpenedFile, is_of_lines
from .looking import Follower, LookedAt, Opened


class ChangeRefused(Exception):
    """A change was not made; the text says why."""


class Source(ABC):
    """A store to look at, and a way to change it."""

    store: LookedAt
    name: str
    """What the page is headed with."""
    fault = ""
    """Why nothing can be changed, or an empty text."""

    def refresh(self) -> None:
        """Takes in what other programs have changed."""
        self.store.follow()

    @abstractmethod
    def _answer(self, words: Sequence[str]) -> str:
        """Runs a line and returns its answer."""

    def run(self, *words: str) -> str:
        """Runs a line of the script language, and returns its answer. Raises ChangeRefused unless it begins with `ok`."""
        if self.fault:
            raise ChangeRefused(self.fault)
        try:
            answer = self._answer(words)
        except (ElephantError, OSError, ValueError) as fault:
            raise ChangeRefused(str(getattr(fault, "strerror", None) or fault)) from fault
        finally:
            self.refresh()
        if not answer.startswith("ok"):
            raise ChangeRefused(f"{words[0]}: {answer.strip()}")
        return answer

    @abstractmethod
    def plan_tree(self, path: bytes, moment: int) -> list[str]:
        """Returns what a restore of a folder would do, as lines. Raises ChangeRefused."""

    @abstractmethod
    def restore_tree(self, path: bytes, moment: int) -> str:
        """Makes a folder what it was at a moment, and returns what was done. Raises ChangeRefused."""

    def sync(self) -> None:
        """Makes sure that the disk has what was changed."""

    def close(self) -> None:
        self.store.close()


def _follower(journal: str, history: bool) -> LookedAt:
    """Returns the store of a journal that another program writes."""
    return Follower(journal, history=history) if is_of_lines(journal) else FileFollower(journal, history=history)


def _opened(journal: str, history: bool, clock: Literal["manual", "system"]) -> LookedAt:
    """Returns the store of a journal that this program writes."""
    if is_of_lines(journal):
        return Opened(journal, history=history, clock=clock)
    return OpenedFile(journal, history=history, clock=clock)


class JournalSource(Source):
    """A journal. If another program writes it, or it may only be read, it is only shown."""

    def __init__(self, journal: str, *, read_only: bool = False, history: bool = False, is_manual: bool = False) -> None:
        self.name = os.path.basename(journal)
        if not read_only:
            try:
                self.store = _opened(journal, history, "manual" if is_manual else "system")
                return
            except JournalLocked:
                self.fault = "another program has the journal open"
            except JournalError as fault:
                if getattr(fault.__cause__, "errno", 0) not in (errno.EACCES, errno.EPERM, errno.EROFS):
                    raise
                self.fault = "the journal can't be written"
        self.fault = self.fault or "the page was opened to look"
        self.store = _follower(journal, history)

    def _answer(self, words: Sequence[str]) -> str:
        return self.store.line(" ".join(words))

    def sync(self) -> None:
        self.store.sync()

    def plan_tree(self, path: bytes, moment: int) -> list[str]:
        try:
            found = self.store.restore_tree(path, moment, dry_run=True)
        except (ElephantError, ValueError) as fault:
            raise ChangeRefused(str(fault)) from fault
        told = {"mkdir": "make the folder {} again", "undelete": "bring the folder {} back"}
        words = [
            told.get(it.word, "bring {} back" if it.is_missing else "{} gets what it held then").format(it.path) for it in found.steps
        ]
        words += [f"{path} is left as it is: {why}" for path, why in found.left]
        return words + [f"{path} is newer, and stays" for path in found.newer]

    def restore_tree(self, path: bytes, moment: int) -> str:
        try:
            found = self.store.restore_tree(path, moment)
        except (ElephantError, ValueError) as fault:
            raise ChangeRefused(str(fault)) from fault
        files = sum(it.word == "restore" for it in found.steps)
        left = f", and {len(found.left)} were left as they are" if found.left else ""
        return f"{files} files were brought back, {found.same} held the same{left}"


class MountSource(Source):
    """A mounted folder. Its mount is the only one that writes its journal: this program reads it, and sends lines to the mount."""

    def __init__(self, folder: str, *, read_only: bool = False, history: bool = False) -> None:
        self.fault = "the page was opened to look" if read_only else ""
        self._folder = mount_of(folder)
        self.name = os.path.basename(self._folder)
        self.store = _follower(self._journal(), history)

    def _journal(self) -> str:
        answer = ask(self._folder, "journal")
        if not answer.startswith("ok "):
            raise ChangeRefused(f"the mount of {self._folder} is of an earlier version: {answer.strip()}")
        return answer[3:].rstrip("\n")

    def _answer(self, words: Sequence[str]) -> str:
        return ask(self._folder, line_of(list(words)))

    def plan_tree(self, path: bytes, moment: int) -> list[str]:
        answer = self._answer(["restore", "--dry-run", path.decode("ascii"), str(moment)])
        if not answer.startswith(("ok", "no: ")):
            raise ChangeRefused(answer.strip())
        first, *rows = answer.splitlines()
        if first.startswith("no: ") and not rows:
            raise ChangeRefused(first[4:])
        return [it.removeprefix("- ") for it in rows]

    def restore_tree(self, path: bytes, moment: int) -> str:
        try:
            answer = self._answer(["restore", path.decode("ascii"), str(moment)])
        except (OSError, ValueError) as fault:
            raise ChangeRefused(str(getattr(fault, "strerror", None) or fault)) from fault
        finally:
            self.refresh()
        if not answer.startswith(("ok", "no: ")) or answer.startswith("no: ") and "\n- " not in answer:
            raise ChangeRefused(answer.strip())
        return answer.partition("\n")[0].removeprefix("ok ").removeprefix("no: ")
