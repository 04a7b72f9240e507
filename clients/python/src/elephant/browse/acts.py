"""What the page does: each act first says what it will change, then does it, and can be undone."""

from __future__ import annotations

import threading
from collections.abc import Callable, Iterable, Mapping
from functools import partial
from hashlib import sha256
from typing import NamedTuple, Optional

from .. import DirectoryStat, ElephantError, FileStat, Policy
from .._names import spell_name
from ..keeping import told_time
from .files import live_file, now_of, policy_of, preview
from .forgetting import Places, files_below
from .sources import ChangeRefused, Source
from .trees import find, is_path, told
from .wording import shown, told_policy

# The most lines of a question, files of an act, and acts that can be undone.
MOST_TOLD, MOST_FILES, MOST_UNDO = 30, 20_000, 50
FIELDS = frozenset(("path", "at", "version", "label", "days", "group", "policy", "scope", "files"))
"""What a form may say of an act. `files` are paths with spaces between them, which no spelled path has."""
Words = tuple[str, ...]
Asked = Mapping[str, str]


class Undoable(NamedTuple):
    """What was done, the lines that take it back, and the newest versions that files must still have for that, by their paths."""

    what: str
    lines: list[Words]
    versions: dict[bytes, int]


class Question(NamedTuple):
    """An act before it is done: its title, what it will change, what it depends on, and how it is done. `back` is the page to show then."""

    title: str
    tells: list[str]
    state: str
    run: Callable[[], str]
    back: dict[str, str]
    is_grave: bool = False


class Changed(Exception):
    """What an act depends on is other than when its question was asked."""


class Acts:
    """Asks and does. One act runs at a time."""

    def __init__(self, source: Source) -> None:
        self.source, self.store = source, source.store
        self.done: list[Undoable] = []
        """What can be undone, the last thing last."""
        self.places = Places()
        self._lock = threading.RLock()
        self._kinds: dict[str, Callable[[Asked], Question]] = {
            "restore": self._restore, "undelete": self._undelete, "folder": self._folder, "keep": self._keep, "release": self._release,
            "policy": self._policy, "undo": self._undo,
        }

    def question(self, kind: str, asked: Asked) -> Question:
        """Returns the question of an act. Raises ChangeRefused if there is nothing to do, or KeyError if there is no such act."""
        try:
            return self._kinds[kind](asked)
        except (ElephantError, ValueError) as fault:
            raise ChangeRefused(str(fault)) from fault

    def do(self, kind: str, asked: Asked, state: str) -> tuple[str, Question]:
        """Does an act whose question was asked, and returns what to say and the question. Raises Changed, or ChangeRefused."""
        with self._lock:
            self.source.refresh()
            question = self.question(kind, asked)
            if state != digest(question.state):
                raise Changed
            told_then = question.run()
            self.source.sync()
            return told_then, question

    # A version of a file, and a deleted name.

    def _restore(self, asked: Asked) -> Question:
        path, at, number = _path(asked), _at(asked), _number(asked, "version")
        now = live_file(self.store, path, at)
        name = told(path)
        if now is not None:
            if number == now.version:
                raise ChangeRefused(f"version {number} is what {name} holds now")
            row = self.store.stat(path, version=number)
            assert isinstance(row, FileStat)
            tells = [
                f"{name} gets a new version {now.version + 1}, with what version {number} holds ({row.length:,} bytes).",
                f"What it holds now stays as version {now.version}.",
            ]
            return Question(
                f"Restore version {number} of {name}?", tells, f"{now.file} {now.version}",
                partial(self._revert, path, number, now.version), {"path": path.decode()},
            )
        return self._restore_name(path, at, number)

    def _revert(self, path: bytes, number: int, before: int) -> str:
        made = _version_in(self.source.run("revert", path.decode(), str(number)))
        self._note(f"the restore of version {number} of {told(path)}", [("revert", path.decode(), str(before))], {path: made})
        return f"{told(path)} holds what version {number} held. It is version {made} now."

    def _restore_name(self, path: bytes, at: Optional[int], number: int) -> Question:
        """Restores a version of a file that hasn't the path now, by a moment at which the path meant that version."""
        row = self.store.version_numbered(path, at, number)
        if row is None:
            raise ChangeRefused(f"version {number} of {told(path)} isn't held any more")
        moment = int(row.closed) if row.ended is None else max(int(row.ended) - 1, int(row.closed))
        then, now = find(self.store, path, moment), find(self.store, path, None)
        if not isinstance(then, FileStat) or then.version != number:
            raise ChangeRefused(f"no moment finds version {number}: bring {told(path)} back first, and then restore the version")
        if isinstance(now, DirectoryStat):
            raise ChangeRefused(f"{told(path)} is a folder now")
        if now is None:
            tells = [f"{told(path)} comes back, with what version {number} held ({row.length:,} bytes), and with its past."]
        else:
            tells = [
                f"Another file has the name {told(path)} now. It gets a new version {now.version + 1} with {row.length:,} bytes.",
                f"What it holds now stays as its version {now.version}.",
            ]
        state = "none" if now is None else f"{now.file} {now.version}"
        return Question(
            f"Restore version {number} of {told(path)}?", tells, state, partial(self._restore_at, path, moment, now),
            {"path": path.decode()},
        )

    def _restore_at(self, path: bytes, moment: int, now: Optional[FileStat]) -> str:
        made = _version_in(self.source.run("restore", path.decode(), str(moment)))
        lines: list[Words] = [("unlink", path.decode())] if now is None else [("revert", path.decode(), str(now.version))]
        self._note(f"the restore of {told(path)}", lines, {path: made})
        return f"{told(path)} holds what it held at {told_time(moment)}. It is version {made} now."

    def _undelete(self, asked: Asked) -> Question:
        path = _path(asked)
        if find(self.store, path, None) is not None:
            raise ChangeRefused(f"{told(path)} is there: nothing has to be brought back")
        tells = [f"The name {told(path)} comes back, with what it led to and with all of its past."]
        return Question(f"Bring {told(path)} back?", tells, "none", partial(self._bring_back, path), {"path": path.decode()})

    def _bring_back(self, path: bytes) -> str:
        self.source.run("undelete", path.decode())
        found = find(self.store, path, None)
        if isinstance(found, FileStat):
            self._note(f"the return of {told(path)}", [("unlink", path.decode())], {path: found.version})
        else:
            self._note(f"the return of {told(path)}", [("rmdir", path.decode())], {})
        return f"{told(path)} is back."

    # A folder.

    def _folder(self, asked: Asked) -> Question:
        path, at = _path(asked), _at(asked)
        if at is None:
            raise ChangeRefused("choose a moment first")
        tells = [shown(it) for it in self.source.plan_tree(path, at)]
        if not tells:
            raise ChangeRefused(f"{told(path)} is as it was at {told_time(at)}")
        state = " ".join(tells)
        head = f"All below {told(path)} becomes what it was at {told_time(at)}. What is there now stays as versions."
        return Question(
            f"Restore the folder {told(path)}?", [head, *shortened(tells)], state, partial(self._restore_folder, path, at),
            {"path": path.decode()},
        )

    def _restore_folder(self, path: bytes, at: int) -> str:
        before = self._snapshot(path)
        answer = self.source.restore_tree(path, at)
        lines, versions = _opposite(before, self._snapshot(path))
        self._note(f"the restore of the folder {told(path)}", lines, versions)
        return f"{told(path)} is as it was at {told_time(at)}: {answer}."

    def _snapshot(self, path: bytes) -> dict[bytes, Optional[tuple[int, int]]]:
        """Returns the names below a folder, and above it: of a file its number and version, of a folder none."""
        rows: dict[bytes, Optional[tuple[int, int]]] = {}
        names = path.split(b"/")[1:]
        for count in range(1, len(names) + 1):
            above = b"/" + b"/".join(names[:count])
            if above != b"/" and isinstance(find(self.store, above, None), DirectoryStat):
                rows[above] = None
        if isinstance(find(self.store, path, None), DirectoryStat):
            for it in self.store.walk(path):
                rows[it.spelled] = None if it.is_directory else (it.number, self._newest(it.spelled))
        return rows

    def _newest(self, path: bytes) -> int:
        found = find(self.store, path, None)
        return found.version if isinstance(found, FileStat) else 0

    # Marks.

    def _keep(self, asked: Asked) -> Question:
        path, at = _path(asked), _at(asked)
        moment = self._past_moment(at)
        until = _until(asked, now_of(self.store))
        chosen = [_path({"path": it}) for it in asked.get("files", "").split(" ") if it]
        files = [it for below in chosen or [path] for it in files_below(self.store, below, at)]
        places = self.places.of(self.store)
        here = sorted({number: places[number].path for _, number in files if number in places and places[number].at is None}.values())
        lost = len({number for _, number in files}) - len(here)
        if not here or len(here) > MOST_FILES:
            raise ChangeRefused(f"{len(here)} files of then have a name now; a mark is for 1 to {MOST_FILES:,}")
        group = self._free_group(asked.get("label", "").strip() or f"{told_time(moment)[:16]} {path.rpartition(b'/')[2].decode()}".strip())
        end = "for good" if until is None else f"until {told_time(until)}"
        tells = [f"What {len(here)} files held at {told_time(moment)} is kept {end}, whatever their policies say."]
        if lost:
            tells.append(f"{lost} files of then have no name now, and aren't kept by it: bring them back first.")
        return Question(
            f"Keep {f'{len(chosen)} of ' if chosen else ''}{told(path)} as it was at {told_time(moment)}?", tells, f"{len(here)} {lost}",
            partial(self._mark, group, here, moment, until), {"path": path.decode(), **({} if at is None else {"at": str(at)})},
        )

    def _past_moment(self, at: Optional[int]) -> int:
        now = int(self.store.now)
        if at is not None:
            return min(at, now - 1) if at == now else at
        moments = self.store.notes.moments
        last = moments[-1] if moments else 0
        if last >= now:
            raise ChangeRefused("something was changed within this second: ask again in a second")
        return int(last)

    def _free_group(self, label: str) -> str:
        """Returns the spelling of a group's name that is free."""
        names = {it.spelled for it in self.store.groups()}
        spelled = spell_name(label[:60])
        if spelled not in names:
            return spelled.decode()
        return next(it for it in (f"{spelled.decode()[:58]}-{number}" for number in range(2, 2000)) if it.encode() not in names)

    def _mark(self, group: str, files: Iterable[bytes], moment: int, until: Optional[int]) -> str:
        self.source.run("group", "make", group)
        try:
            for path in files:
                self.source.run("group", "add", group, path.decode())
            self.source.run("mark", group, str(moment), *([] if until is None else [str(until)]))
        except ChangeRefused:
            self.source.run("group", "drop", group)
            raise
        self._note("the mark", [("group", "drop", group)], {})
        return f"{told_time(moment)} is kept."

    def _release(self, asked: Asked) -> Question:
        group, at = asked.get("group", ""), _number(asked, "at")
        spelled = group.encode("ascii", "replace")
        found = next((it for it in self.store.groups() if it.spelled == spelled), None)
        mark = next((it for it in found.marks if it.at == at), None) if found else None
        if found is None or mark is None:
            raise ChangeRefused("there is no such mark")
        tells = [f"What {len(found.members)} files held at {told_time(at)} is kept by their policies alone from then on."]
        end = [] if mark.until is None else [str(int(mark.until))]

        def run() -> str:
            self.source.run("unmark", group, str(at))
            self._note("the end of the mark", [("mark", group, str(at), *end)], {})
            return f"The mark of {told_time(at)} has ended."

        return Question(f"End the mark of {told_time(at)}?", tells, "there", run, {"view": "kept"}, True)

    # Policies.

    def policy_paths(self, path: bytes, is_all: bool) -> list[bytes]:
        """Returns the files whose policy an act would change."""
        found = find(self.store, path, None)
        if isinstance(found, FileStat):
            return [path]
        if found is None:
            raise ChangeRefused(f"there is no {told(path)} now")
        paths = list(dict((number, it) for it, number in files_below(self.store, path, None)).values()) if is_all else []
        if len(paths) > MOST_FILES:
            raise ChangeRefused(f"there are {len(paths):,} files below {told(path)}: choose a smaller folder")
        return paths

    def _policy(self, asked: Asked) -> Question:
        path, policy = _path(asked), Policy.of(asked.get("policy", ""))
        is_all = asked.get("scope") == "all"
        paths = self.policy_paths(path, is_all)
        is_folder = isinstance(find(self.store, path, None), DirectoryStat)
        before = [policy_of(self.store, it) for it in ([path] if is_folder else []) + paths]
        tells = [f"From then on it keeps {told_policy(policy)}."]
        if is_folder:
            others = "" if is_all else ", and those of now stay as they are"
            tells.insert(0, f"Files that are made in {told(path)} later get the policy{others}.")
        found = preview(self.store, paths, policy)
        if paths:
            tells.append(
                f"Of {found.versions:,} versions {found.horizons[0].other:,} could be forgotten at once, and {found.horizons[0].present:,} "
                f"by the present policy; within a week {found.horizons[3].other:,}, and {found.horizons[3].present:,}."
            )
        state = " ".join([*(it.word for it in before), str(found.versions)])
        return Question(
            f"Change the policy of {told(path)}?", tells, state, partial(self._set_policy, path, paths, policy, is_folder),
            {"path": path.decode()}, found.at_once > 0,
        )

    def _set_policy(self, path: bytes, paths: list[bytes], policy: Policy, is_folder: bool) -> str:
        lines: list[Words] = []
        try:
            for word, it in ([("default", path)] if is_folder else []) + [("policy", it) for it in paths]:
                old = policy_of(self.store, it)
                if old != policy:
                    self.source.run(word, it.decode(), policy.word)
                    lines.append((word, it.decode(), old.word))
        finally:
            if lines:
                self._note(f"the change of the policy of {told(path)}", lines, {})
        return f"{told(path)} keeps {told_policy(policy)}."

    # Undo.

    def _note(self, what: str, lines: list[Words], versions: dict[bytes, int]) -> None:
        self.done.append(Undoable(what, lines, versions))
        del self.done[:-MOST_UNDO]

    def _undo(self, _: Asked) -> Question:
        if not self.done:
            raise ChangeRefused("nothing was done here that could be undone")
        last = self.done[-1]
        tells = [f"It takes back {last.what}, in {len(last.lines)} step{'s' * (len(last.lines) != 1)}. No version is lost by it."]
        return Question("Undo the last thing done?", tells, f"{len(self.done)} {last.what}", partial(self._run_undo, last), {})

    def _run_undo(self, last: Undoable) -> str:
        later = [path for path, version in last.versions.items() if self._newest(path) != version]
        if later:
            raise ChangeRefused(f"{told(later[0])} was changed since, so {last.what} stays: restore the version that you want")
        left = []
        for words in last.lines:
            try:
                self.source.run(*words)
            except ChangeRefused as fault:
                left.append(f"{' '.join(words[:2])}: {fault}")
        self.done.remove(last)
        rest = f" {len(left)} steps were refused: {'; '.join(left[:3])}." if left else ""
        return f"Undone: {last.what}.{rest}"


def digest(state: str) -> str:
    """Returns what a form says of the state that its question was asked in."""
    return sha256(state.encode("utf-8", "surrogatepass")).hexdigest()


def shortened(lines: list[str]) -> list[str]:
    """Returns the first of many lines, and how many more there are."""
    return lines if len(lines) <= MOST_TOLD else [*lines[:MOST_TOLD], f"and {len(lines) - MOST_TOLD} more"]


def _opposite(
    before: dict[bytes, Optional[tuple[int, int]]], after: dict[bytes, Optional[tuple[int, int]]]
) -> tuple[list[Words], dict[bytes, int]]:
    """Returns the lines that make names and contents what they were before, and the versions that they are for."""
    lines: list[Words] = []
    versions: dict[bytes, int] = {}
    were = {row[0]: path for path, row in before.items() if row is not None}
    for path, row in after.items():
        old = before.get(path)
        if row is None or row == old:
            continue
        versions[path] = row[1]
        if old is not None and old[0] == row[0]:
            lines.append(("revert", path.decode(), str(old[1])))
        elif row[0] in were and were[row[0]] not in after:
            lines.append(("rename", path.decode(), were[row[0]].decode()))
        elif path not in before:
            lines.append(("unlink", path.decode()))
    made = [path for path, row in after.items() if row is None and path not in before]
    lines += [("rmdir", path.decode()) for path in sorted(made, key=lambda it: -it.count(b"/"))]
    return lines, versions


# What is asked.


def _path(asked: Asked) -> bytes:
    path = asked.get("path", "/").encode("utf-8", "replace")
    if not is_path(path):
        raise ChangeRefused("the path isn't one of the store")
    return path


def _number(asked: Asked, name: str) -> int:
    word = asked.get(name, "")
    if not (word.isascii() and word.isdigit() and len(word) < 19):
        raise ChangeRefused(f"{name} is no number")
    return int(word)


def _at(asked: Asked) -> Optional[int]:
    return _number(asked, "at") if asked.get("at") else None


def _until(asked: Asked, now: int) -> Optional[int]:
    """Returns the end of a mark: a number of days from now, or none for good."""
    word = asked.get("days", "").strip()
    return None if not word else now + 86_400 * max(_number({"days": word}, "days"), 1)


def _version_in(answer: str) -> int:
    return int(answer.split()[2])
