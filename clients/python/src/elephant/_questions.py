"""The questions of a store. No question changes it."""

from __future__ import annotations

from collections.abc import Callable, Iterator
from typing import Any, Optional, SupportsIndex, Union

from ._answers import (
    Answers,
    Counts,
    Current,
    DeletedName,
    DirectoryStat,
    Due,
    Entry,
    Fate,
    FileStat,
    Gone,
    Group,
    History,
    Kept,
    Mark,
    Marked,
    Open,
    OpenHandle,
    PathEntry,
    Removable,
    Story,
    Usage,
    Version,
)
from ._audit import read_answers, read_gone, read_handles, read_history, read_why
from ._core import Core, natural
from ._errors import Forgotten, NoHistory
from ._library import AT, NOW, VERSION, GroupRow, MarkRow, NameRow, UsageRow, WhyRow
from ._moments import NEVER, Moment, MomentLike, moment_or_none
from ._names import Path, name_of, spell
from ._story import read_story
from ._turns import Turns
from ._walk import walk

_KINDS = ("one", "all", "safe", "landmarks")

# In the class `list` is a method.
Entries = list[Entry]
DeletedNames = list[DeletedName]
PathEntries = list[PathEntry]
Paths = list[str]
OpenHandles = list[OpenHandle]
Versions = list[Version]
Removables = list[Removable]
Usages = list[Usage]
Groups = list[Group]
NameRows = list[tuple[int, bool, int, bytes]]


class Questions(Turns):
    """The questions of a store.

    Each question about a path takes a moment in the past (`at`: an int, an aware datetime, or a text such as `yesterday 15:00`), and some
    take the number of a version (`version`). Without either the question is about now.
    """

    @property
    def now(self) -> Moment:
        """The store's moment."""
        with self._lock:
            self._begin()
            return Moment(self._now)

    def _tag(self, at: Optional[MomentLike], version: Optional[SupportsIndex] = None) -> tuple[int, int]:
        """Returns the tag and the number by which the library finds a version."""
        if version is not None:
            if at is not None:
                raise TypeError("give a moment or the number of a version, not both")
            return VERSION, natural(version, "the number of a version")
        return (NOW, 0) if at is None else (AT, self._seconds(at))

    def read(self, path: Path, *, at: Optional[MomentLike] = None, version: Optional[SupportsIndex] = None) -> bytes:
        """Returns the content of a version. Raises Forgotten if it was removed; it never returns another version in its place."""
        name = spell(path)
        tag, number = (NOW, 0) if at is None and version is None else self._tag(at, version)
        with self._lock:
            return self._begin().read(path, name, tag, number)

    def stat(
        self, path: Path, *, at: Optional[MomentLike] = None, version: Optional[SupportsIndex] = None
    ) -> Union[FileStat, DirectoryStat]:
        """Describes a version of a file, with the file's policy, or a directory."""
        name, (tag, number) = spell(path), self._tag(at, version)
        with self._lock:
            core = self._begin()
            row = core.stat(path, name, tag, number)
            policy = core.policy_of(row)
            if row.is_directory:
                return DirectoryStat(row.id, policy)
            return FileStat.of_row(row, policy)

    def versions(self, path: Path, *, at: Optional[MomentLike] = None) -> Versions:
        """Returns the held versions of the file that the path names, or named at a moment."""
        name, (tag, number) = spell(path), self._tag(at)
        with self._lock:
            core = self._begin()
            return core.versions(path, name, tag, number)

    def list(self, path: Path = "/", *, at: Optional[MomentLike] = None) -> Entries:
        """Returns the names in a directory, now or at a moment, in the order of their bytes."""
        name, (tag, number) = spell(path), self._tag(at)
        with self._lock:
            return self._list(self._begin(), path, name, tag, number)

    def _list(self, core: Core, path: Path, name: bytes, tag: int, number: int) -> Entries:
        rows = self._names(core, core.look(core.library.elephant_list, path, name, len(name), tag, number))
        return [Entry(name_of(spelled), is_directory, target, spelled) for _, is_directory, target, spelled in rows]

    def walk(self, path: Path = "/", *, at: Optional[MomentLike] = None) -> PathEntries:
        """Returns the paths of all files and directories below a directory, now or at a moment.

        Each directory comes before what is in it, and the names of one directory are in the order of their bytes. It asks `list` for each
        directory, and no other thread changes the store meanwhile. A path of more than 32 names, which no call takes, is left out.
        """
        name, (tag, number) = spell(path), self._tag(at)
        with self._lock:
            return list(self._walk(path, name, tag, number))

    def _walk(self, path: Path, name: bytes, tag: int = NOW, number: int = 0) -> Iterator[PathEntry]:
        core = self._begin()
        return walk(lambda below: self._list(core, path if below == name else below, below, tag, number), name)

    def paths_of(self, number: SupportsIndex) -> Paths:
        """Returns the paths that lead to the file of that number, in the order of `walk`. None is a file without a live name."""
        file = natural(number, "the number of a file")
        with self._lock:
            return [it.path for it in self._walk("/", b"/") if not it.is_directory and it.number == file]

    def path_of(self, number: SupportsIndex) -> Optional[str]:
        """Returns the first of `paths_of`, or None if no path leads to the file."""
        file = natural(number, "the number of a file")
        with self._lock:
            return next((it.path for it in self._walk("/", b"/") if not it.is_directory and it.number == file), None)

    def restorable(self) -> DeletedNames:
        """Returns the names that `undelete` can restore, by directory and name."""
        with self._lock:
            core = self._begin()
            rows = self._names(core, core.look(core.library.elephant_restorable, ""))
        return [DeletedName(parent, name_of(spelled), is_directory, target, spelled) for parent, is_directory, target, spelled in rows]

    @staticmethod
    def _names(core: Core, count: int) -> NameRows:
        rows = core.rows(core.library.elephant_row_name, NameRow, count)
        return [(row.directory, bool(row.is_directory), row.id, core.row_name(index)) for index, row in enumerate(rows)]

    def due(self) -> Removables:
        """Returns the versions that may be removed now, in order of removal."""
        with self._lock:
            core = self._begin()
            keys = core.keys(core.look(core.library.elephant_due, ""))
        return [Removable(Moment(since), file, number) for since, file, number in keys]

    def ahead(self, moment: MomentLike) -> Removables:
        """Returns what `due` will return at a moment if only the clock moves."""
        seconds = self._seconds(moment)
        with self._lock:
            core = self._begin()
            keys = core.keys(core.look(core.library.elephant_ahead, moment, seconds))
        return [Removable(Moment(since), file, number) for since, file, number in keys]

    def why(self, path: Path, *, at: Optional[MomentLike] = None, version: Optional[SupportsIndex] = None) -> Fate:
        """Returns why a version stays, or since when it may be removed and which mark held it until then.

        In a store with a history also when and why `version` was removed."""
        name, (tag, number) = spell(path), self._tag(at, version)
        with self._lock:
            core = self._begin()
            try:
                row = core.row(core.library.elephant_why, WhyRow, path, name, len(name), tag, number)
            except Forgotten:
                answer = core.line(b"why %b#%d" % (name, number)) if tag == VERSION and self._has_history else b"no "
                if answer.startswith(b"no "):
                    raise
                return read_why(answer)
            fate: Fate = _FATES[row.fate](core, row)
            return fate

    def usage(self) -> Usages:
        """Returns what the files of each kind of policy use: KeepOne, KeepAll, KeepSafe, Landmarks."""
        with self._lock:
            core = self._begin()
            rows = core.rows(core.library.elephant_row_usage, UsageRow, core.look(core.library.elephant_usage, ""))
            return [Usage(kind, row.files, row.versions, row.bytes, row.blocks) for kind, row in zip(_KINDS, rows)]

    def counts(self) -> Counts:
        """Returns how many of each kind were ever made. A limit of `Limits` less its count is what the store may still make."""
        with self._lock:
            return self._begin().counts()

    def groups(self) -> Groups:
        """Returns the groups with their files and marks, in order of making."""
        with self._lock:
            core = self._begin()
            count = core.look(core.library.elephant_groups, "")
            rows = enumerate(core.rows(core.library.elephant_row_group, GroupRow, count))
            return [self._group(core, index, row.members, row.marks) for index, row in rows]

    @staticmethod
    def _group(core: Core, index: int, members: int, marks: int) -> Group:
        spelled = core.row_name(index)
        files = tuple(core.look(core.library.elephant_row_member, "", index, member) for member in range(members))
        rows = [core.row(core.library.elephant_row_mark, MarkRow, "", index, mark) for mark in range(marks)]
        return Group(name_of(spelled), files, tuple(Mark(Moment(row.moment), moment_or_none(row.until)) for row in rows), spelled)

    def history(self) -> History:
        """Returns the lines of all answered events, also of questions. The store needs `history=True`."""
        return read_history(self._audited(b"history"))

    def answers(self) -> Answers:
        """Returns the lines of all answered events with their answers. The store needs `history=True`."""
        return read_answers(self._audited(b"answers"))

    def gone(self) -> Gone:
        """Returns which versions the stored events removed, when and why. The store needs `history=True`."""
        return read_gone(self._audited(b"gone"))

    def handles(self) -> OpenHandles:
        """Returns the open handles, by number. The store needs `history=True`."""
        return read_handles(self._audited(b"handles"))

    def story(self, path: Path) -> Story:
        """Returns what is known of the file that the path names, or if it names none, named last: its versions and its names. Only a store
        with `history=True` knows the versions that were removed, and a file that was dropped."""
        line = b"story " + spell(path)
        with self._lock:
            return read_story(self._begin().line(line))

    def _audited(self, line: bytes) -> bytes:
        """Returns the answer to a line of a store with a history."""
        with self._lock:
            core = self._begin()
            if not self._has_history:
                raise NoHistory(line.decode("ascii"))
            return core.line(line)


def _marked(core: Core, row: Any) -> Marked:
    """Returns a mark of the last answer to why, with the name of its group."""
    length = core.look(core.library.elephant_why_group, "", core.name_room, len(core.name_room))
    return Marked(name_of(core.name_room.raw[:length]), Moment(row.moment), moment_or_none(row.until))


def _held(core: Core) -> Optional[Marked]:
    """Returns the mark that held the version that is due, or None if no mark did."""
    row = core.row_found(core.library.elephant_why_hold, MarkRow)
    return None if row is None else _marked(core, row)


def _kept(_: Core, row: Any) -> Fate:
    return Kept(moment_or_none(row.until), None if row.level == NEVER else row.level)


def _due(core: Core, row: Any) -> Fate:
    since, held = Moment(row.moment), _held(core)
    if row.cause == 0:
        return Due(since, held=held)
    return Due(since, age=row.seconds, held=held) if row.cause == 1 else Due(since, by=row.by, level=row.level, held=held)


_FATES: tuple[Callable[[Core, Any], Fate], ...] = (lambda *_: Current(), lambda *_: Open(), _marked, _kept, _due)
