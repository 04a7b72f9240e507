"""The story of one file: a row for each version, with what became of it. It answers `history FILE`."""

from __future__ import annotations

import json
from collections.abc import Iterator, Mapping, Sequence
from typing import Any, NamedTuple, Optional, Union

from .. import LAST_MOMENT, Cause, Current, Due, Fate, KeepSafe, Kept, Landmarks, Marked, Policy, Removal, Removed, Version, VersionStory
from ..keeping import span
from .audit import Audit
from .log import local
from .past import text_of
from .soon import SPANS, cause
from .store import MountStore
from .timeline import NotedRemoval
from .tree import Directory, File, Tree
from .whereabouts import Nothing, Whereabouts, told
from .wording import JSON, as_bytes

_HEAD = "version  saved                ended                    bytes"


class Chapter(NamedTuple):
    """A version: its row if it is held, what became of it, and what a history tells of it."""

    number: int
    row: Optional[Version]
    fate: Union[Fate, Removal, NotedRemoval, None]
    told: Optional[VersionStory] = None

    @property
    def known(self) -> Union[Version, VersionStory, None]:
        """Its moments and its length, which without a history only a held version has."""
        return self.told if self.row is None else self.row

    @property
    def held(self) -> Optional[Marked]:
        """The mark that held it after its policy had let it go."""
        return None if self.told is None else self.told.held


class Stories:
    """Answers `history FILE`."""

    def __init__(self, store: MountStore, tree: Tree, audit: Audit) -> None:
        self._store, self._tree, self._audit, self._where = store, tree, audit, Whereabouts(store, tree)

    def answer(self, words: Sequence[str]) -> str:
        """Returns the answer to the words after `history`."""
        paths = [it for it in words if not it.startswith("--")]
        if len(paths) != 1 or not paths[0].startswith("/") or set(words) - {*paths, JSON}:
            raise ValueError(f"history takes a file, and {JSON}")
        file = self.file_of(as_bytes(paths[0]))
        found = self._where.stat_of(file)
        policy = None if found is None else found.policy
        chapters = list(self._chapters(file, policy))
        names = list(self._names(file))
        if JSON in words:
            rows = [_as_data(it, policy, file in self._tree.files) for it in chapters]
            data = {"file": file, "policy": policy and policy.word, "names": names, "versions": rows}
            return f"ok\n{json.dumps(data, indent=1)}\n"
        return self._table(as_bytes(paths[0]), file, policy, chapters, names)

    def _table(
        self, path: bytes, file: int, policy: Optional[Policy], chapters: Sequence[Chapter], names: Sequence[Mapping[str, Optional[str]]]
    ) -> str:
        node = self._tree.files.get(file)
        held = sum(it.row is not None for it in chapters)
        what = f"{'deleted ' * (node is None)}{told(path)}: {len(chapters)} versions, {held} of them held"
        lines = [f"ok {what}{'' if policy is None else f'; policy {policy}'}", _HEAD]
        lines += [_row(it, policy, node is None) for it in chapters]
        if node is not None and node.draft is not None:
            lines.append("a program is writing the next version")
        if len(names) > 1:
            lines += [f"name {it['name']} {'now' if it['until'] is None else 'until ' + it['until']}" for it in names]
        return "".join(f"{it.rstrip()}\n" for it in lines)

    def file_of(self, path: bytes) -> int:
        """Returns the number of the file that has a path, or had it last. Raises Nothing."""
        node = self._tree.find(path)
        if isinstance(node, File):
            return node.number
        if isinstance(node, Directory):
            raise Nothing(f"{told(path)} is a folder: history is of one file, and changes of a folder")
        named = self._tree.files
        lost = [(last.ended, number) for number, last in self._store.departed.items() if last.path == path and number not in named]
        if not lost:
            raise Nothing(f"there is no file {told(path)}, and none was deleted")
        return max(lost)[1]

    def _chapters(self, file: int, policy: Optional[Policy]) -> Iterator[Chapter]:
        """Yields the versions of a file, from the first one."""
        held = {it.number: it for it in self._where.versions_of(file)}
        noted, removed, last = self._store.removals.of(file), self._audit.removals(file), self._store.departed.get(file)
        node = self._tree.files.get(file)
        newest = node.version if node is not None else max([*held, *noted, last.version if last else 0])
        path = node.path if node is not None else last.path if last else None
        story = {} if path is None else self._audit.story(path, file)
        ends = {} if node is not None else {it.number: it.since for it in self._store.ahead(LAST_MOMENT) if it.file == file}
        for number in range(1, newest + 1):
            row = held.get(number)
            if row is None:
                yield Chapter(number, None, removed.get(number) or noted.get(number), story.get(number))
            elif node is not None:
                yield Chapter(number, row, self._store.why(node.path, version=number), story.get(number))
            else:
                end = ends.get(number)
                is_due = end is not None and end <= self._store.now
                yield Chapter(number, row, Due(end) if is_due and end is not None else Kept(end, None), story.get(number))

    def _names(self, file: int) -> Iterator[dict[str, Optional[str]]]:
        """Yields the names that a file had, each with its end, and then those that it has."""
        for it in self._store.chronicle.names_of(file):
            above = self._where.path_at(it.parent, max(it.until - 1, 0))
            # A folder that was made and deleted within a second had no path.
            yield {"name": told((b"/-" if above is None else above) + b"/" + it.name), "until": local(it.until)}
        node = self._tree.files.get(file)
        for folder, name in (node.names if node is not None else ()):
            yield {"name": told(folder.path_of(name)), "until": None}


def _row(it: Chapter, policy: Optional[Policy], is_deleted: bool) -> str:
    """Returns a row of the table."""
    fate = _of_removed(it.fate) if it.row is None else _of_held(it.fate, it.row, policy, is_deleted)
    if it.held is not None:
        fate += f"; the mark {it.held.group} of {local(int(it.held.at))} held it until then"
    closed, ended = (_moment(getattr(it.known, name, None)) for name in ("closed", "ended"))
    length = getattr(it.known, "length", None)
    return f"{it.number:>7}  {closed:<19}  {ended:<19}  {'-' if length is None else f'{length:,}':>9}  {fate}"


def _moment(moment: Optional[int]) -> str:
    return "-" if moment is None else local(int(moment))


def _of_removed(fate: Union[Fate, Removal, NotedRemoval, None]) -> str:
    if not isinstance(fate, (Removed, Removal, NotedRemoval)):
        return "removed"
    why = "" if isinstance(fate, NotedRemoval) else _because(fate)
    return f"removed {local(int(fate.moment))}, due since {local(int(fate.since))}{why and ': ' + why}"


def _of_held(fate: Union[Fate, Removal, NotedRemoval, None], row: Version, policy: Optional[Policy], is_deleted: bool) -> str:
    """Returns what keeps a version, and until when."""
    ended = int(row.ended or 0)
    if isinstance(fate, Current):
        return "current"
    if isinstance(fate, Due):
        because = cause(policy, int(fate.since), ended, True) if is_deleted else _because(fate)
        return f"due since {local(int(fate.since))}: {because}"
    if isinstance(fate, Marked):
        end = "for good" if fate.until is None else f"until {local(int(fate.until))}"
        return f"kept {end} by the mark {fate.group} of {local(int(fate.at))}"
    if not isinstance(fate, Kept):
        return "kept while a program reads it"
    if fate.until is None:
        return f"kept for good: {_for_good(policy)}"
    return f"kept until {local(int(fate.until))}: {cause(policy, int(fate.until), ended, is_deleted)}"


def _for_good(policy: Optional[Policy]) -> str:
    """Returns why a policy never lets a version go."""
    if isinstance(policy, KeepSafe):
        return f"one of the newest {policy.floor}"
    if isinstance(policy, Landmarks):
        width = policy.rungs[-1][1]
        return f"the newest of its {SPANS.get(width, span(width))}"
    return "its policy keeps all"


def _because(it: Union[Due, Removed, Removal]) -> str:
    """Returns the cause of a version that is due or was removed."""
    if it.cause is Cause.BY_AGE:
        return f"{span(it.age or 0)} after its end"
    if it.cause is Cause.DISPLACED:
        return f"version {it.by} was saved in the same span"
    return "its policy keeps only the newest"


# For programs.


def _as_data(it: Chapter, policy: Optional[Policy], has_name: bool) -> dict[str, Any]:
    """Returns a version as JSON has it: moments in UTC, and None for what isn't known or doesn't end."""
    row, fate = it.row, it.fate
    data: dict[str, Any] = {"number": it.number, "held": row is not None, "opened": None, "closed": None, "ended": None, "length": None}
    if it.known is not None:
        data.update(closed=_utc(it.known.closed), ended=_utc(it.known.ended), length=it.known.length)
    if row is not None:
        data["opened"] = _utc(row.opened)
    if isinstance(fate, (Removed, Removal, NotedRemoval)):
        data["fate"] = {"is": "removed", "moment": _utc(fate.moment), "since": _utc(fate.since)}
        data["fate"]["cause"] = None if isinstance(fate, NotedRemoval) else _because(fate)
    elif row is None:
        data["fate"] = {"is": "removed", "moment": None, "since": None, "cause": None}
    elif isinstance(fate, Due):
        data["fate"] = {"is": "due", "since": _utc(fate.since), "cause": _because(fate) if has_name else None}
    elif isinstance(fate, Marked):
        data["fate"] = {"is": "marked", "group": fate.group, "at": _utc(fate.at), "until": _utc(fate.until)}
    elif isinstance(fate, Kept):
        data["fate"] = {"is": "kept", "until": _utc(fate.until), "policy": policy and policy.word}
    else:
        data["fate"] = {"is": str(fate)}
    if it.held is not None:
        data["fate"]["mark"] = {"group": it.held.group, "at": _utc(it.held.at), "until": _utc(it.held.until)}
    return data


def _utc(moment: Optional[int]) -> Optional[str]:
    return None if moment is None else text_of(int(moment))
