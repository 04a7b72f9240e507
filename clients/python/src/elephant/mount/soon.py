"""The texts `.elephant/soon`, which lists what goes within a week, and `.elephant/restorable-until`, until when deleted files stay. It also
answers `soon MOMENT`, which lists what goes until then."""

from __future__ import annotations

from typing import NamedTuple, Optional

from .. import LAST_MOMENT, ElephantError, KeepSafe, Landmarks, Policy, Removable
from ..keeping import AT, DAY, NOW, named, span, told_time
from .cleaning import Cleaner, shown_path
from .log import local
from .whereabouts import Nothing

AHEAD = 7 * DAY
# The most rows of a list: the folder waits while it is made.
MOST_ROWS = 1000
SPANS = {3600: "hour", DAY: "day", 7 * DAY: "week"}


class Past(NamedTuple):
    """A file of the list: its path, whether it is deleted, its policy, and by version its length and end."""

    path: str
    is_deleted: bool
    policy: Optional[Policy]
    versions: dict[int, tuple[int, int]]


class Soon:
    """Makes the two texts."""

    def __init__(self, cleaner: Cleaner, has_cleaning: bool) -> None:
        self._cleaner, self._store, self._tree = cleaner, cleaner.store, cleaner.operations.tree
        self._has_cleaning = has_cleaning
        self._seen: tuple[int, ...] = ()
        self._soon = b""

    def notes(self) -> str:
        """Returns what `.elephant/limits` says about removals."""
        fault = self._store.clock_fault
        if fault:
            return f"clock: {fault}: nothing is removed\n"
        settles = self._cleaner.guard.settles_in if self._cleaner.guard else 0
        return f"removals: none for {span(settles)} yet\n" if settles and self._has_cleaning else ""

    def soon(self) -> bytes:
        """Returns the list of what goes within a week, first what goes first."""
        seen = int(self._store.now), self._store.journal_size, len(self._cleaner.waits), len(self._cleaner.held_keys)
        if seen != self._seen:  # the kernel asks for the length first
            self._seen, self._soon = seen, self._made(seen[0])
        return self._soon

    def answer(self, moment: Optional[int]) -> str:
        """Returns the answer to `soon`: what goes until a moment, or within a week. Raises Nothing if the moment is past."""
        now = int(self._store.now)
        until = min(now + AHEAD, LAST_MOMENT) if moment is None else moment
        if until < now:
            raise Nothing(f"{told_time(until)} is past")
        count, rows = self._rows(now, until)
        which = "1 version goes" if count == 1 else f"{count} versions go"
        return f"ok {which} until {told_time(until)}\n" + _text([*self._head(), *rows]).decode()

    def _made(self, now: int) -> bytes:
        _, rows = self._rows(now, min(now + AHEAD, LAST_MOMENT))
        return _text([*self._head(), *(rows or ["Nothing is to be removed within a week."])])

    def _head(self) -> list[str]:
        """Returns why nothing is removed now, if there are reasons."""
        head = [] if self._has_cleaning else ["This mount removes nothing by itself."]
        return [*head, *filter(None, [self.notes().rstrip("\n")])]

    def _rows(self, now: int, until: int) -> tuple[int, list[str]]:
        """Returns how many versions go until a moment, and a row for each, first what goes first."""
        files: dict[int, Past] = {}
        found = sorted(self._store.ahead(until) + self._cleaner.held_keys)
        keys = [it for it in found if self._when(it) <= until]
        rows = [self._row(key, files, now) for key in keys[:MOST_ROWS]]
        if len(keys) > MOST_ROWS:
            rows.append(f"and {len(keys) - MOST_ROWS} more")
        return len(keys), rows

    def _when(self, key: Removable) -> int:
        """Returns when a version goes: when it becomes due, or has waited."""
        return max(self._cleaner.waits.get(named(key)) or 0, int(key.since))

    def _row(self, key: Removable, files: dict[int, Past], now: int) -> str:
        file = files.get(key.file)
        if file is None:
            file = files[key.file] = self._file(key.file)
        length, ended = file.versions.get(key.number, (-1, 0))
        waits = self._cleaner.waits.get(named(key))
        when = local(self._when(key))
        size = f"{length:,}" if length >= 0 else "-"
        which = f"version {key.number} of {'deleted ' * file.is_deleted}{file.path}"
        because = cause(file.policy, int(key.since), ended, file.is_deleted)
        waiting = f", due since {local(int(key.since))}" if key.since < (waits or now) else ""
        return f"{when}  {size:>9} bytes  {which}: {because}{waiting}"

    def _file(self, number: int) -> Past:
        node, last = self._tree.files.get(number), self._store.departed.get(number)
        try:
            if node is not None:
                path, tag, moment, is_deleted = node.path, NOW, 0, False
            elif last is not None:
                path, tag, moment, is_deleted = last.path, AT, max(last.ended - 1, last.closed), True
            else:
                return Past(f"file {number}", True, None, {})
            return self._asked(number, path, tag, moment, is_deleted)
        except (ElephantError, OSError):
            policy = Policy.of(last.policy) if last else None
            found = {last.version: (last.length, last.ended)} if last else {}
            return Past(shown_path(last.path) if last else f"file {number}", node is None, policy, found)

    def _asked(self, number: int, path: bytes, tag: int, moment: int, is_deleted: bool) -> Past:
        at = moment if tag == AT else None
        found = self._store.stat(path, at=at)
        if getattr(found, "file", 0) != number:
            raise ElephantError("the name was another file's")
        rows = {it.number: (it.length, int(it.ended or 0)) for it in self._store.versions(path, at=at)}
        return Past(shown_path(path), is_deleted, getattr(found, "policy", None), rows)

    def until(self) -> bytes:
        """Returns the list of the deleted files, each with the moment until which it can be brought back."""
        ends = {named(key): int(key.since) for key in self._store.ahead(LAST_MOMENT)}
        rows = []
        for row in self._store.restorable():
            last = self._store.departed.get(row.number)
            if row.is_directory or last is None or row.number in self._tree.files:
                continue
            name = row.number, last.version
            end = ends.get(name)
            until = "for good" if end is None else local(max(end, self._cleaner.waits.get(name, 0)))
            rows.append((shown_path(last.path), f"{until:<19}  {last.length:>9,} bytes  deleted {local(last.ended)}  "))
        found = [told + path for path, told in sorted(set(rows))]
        return _text(found[:MOST_ROWS] + ([f"and {len(found) - MOST_ROWS} more"] if len(found) > MOST_ROWS else []))


def cause(policy: Optional[Policy], since: int, ended: int, is_deleted: bool) -> str:
    """Returns why a version goes then."""
    if isinstance(policy, KeepSafe):
        if since > ended + policy.seconds:
            return "the mark that held it ends"
        floor = f", and {policy.floor} newer ones are there" if policy.floor > 1 and not is_deleted else ""
        return f"{span(policy.seconds)} after its end{floor}"
    if isinstance(policy, Landmarks):
        width = next((width for age, width in reversed(policy.rungs) if ended + age <= since), 0)
        return f"a newer one was saved in the same {SPANS.get(width, span(width))}" if width else "the mark that held it ends"
    return "its policy keeps only the newest" if policy is not None and policy.word == "one" else "its policy"


def _text(rows: list[str]) -> bytes:
    return "".join(f"{row}\n" for row in rows).encode("utf-8", "backslashreplace")
