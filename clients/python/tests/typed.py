"""Answers lines of the script language by the store's typed calls, so that both can be compared. Lines that no typed call can be asked,
as those at fault, are left to `line`."""

from __future__ import annotations

import re
from collections.abc import Iterable, Sequence
from datetime import datetime, timezone
from typing import Any, Optional, Union

from elephant import DirectoryStat, ElephantError, Mark, Moment, Policy, Session, Store
from elephant._names import path_of, spell

LINE = re.compile("[ -~]{1,8192}")
NUMBER = re.compile(r"0|[1-9]\d{0,19}")
MOMENT = re.compile(r"\d{4}-\d\d-\d\dT\d\d:\d\d:\d\dZ")
KIND = {False: "file", True: "directory"}


class Untyped(Exception):
    """No typed call can be asked this."""


def number(word: str) -> int:
    if not NUMBER.fullmatch(word) or int(word) >= 1 << 64:
        raise Untyped(word)
    return int(word)


def moment(word: str) -> Union[int, datetime]:
    """Returns a moment, as a number or as a datetime, whichever the word spells."""
    if NUMBER.fullmatch(word):
        return number(word)
    if not MOMENT.fullmatch(word) or word[:4] < "1970":
        raise Untyped(word)
    try:
        return datetime.strptime(word, "%Y-%m-%dT%H:%M:%SZ").replace(tzinfo=timezone.utc)
    except ValueError:
        raise Untyped(word) from None


def path(word: str) -> Union[str, bytes]:
    """Returns a path as it is written in Python, if that is spelled as this word; else as bytes."""
    if not word.startswith("/"):
        raise Untyped(word)
    spelled = word.encode()
    told = path_of(spelled)
    try:
        return told if spell(told) == spelled else spelled
    except ElephantError:
        return spelled


def tagged(word: str, may_be_numbered: bool = True) -> tuple[Union[str, bytes], dict[str, Any]]:
    """Returns a path and the words of its tag."""
    place = re.search("[@#]", word)
    if place is None:
        return path(word), {}
    front, tag = word[:place.start()], word[place.end():]
    if place[0] == "@":
        return path(front), {"at": moment(tag)}
    if not may_be_numbered:
        raise Untyped(word)
    return path(front), {"version": number(tag)}


def content(word: str) -> bytes:
    if word == "-":
        return b""
    if not re.fullmatch("([0-9a-fA-F]{2})+", word):
        raise Untyped(word)
    return bytes.fromhex(word)


def policy(word: str) -> Policy:
    try:
        return Policy.of(word)
    except ElephantError:
        raise Untyped(word) from None


def group(word: str) -> str:
    """Returns a group's name; a name that Python spells otherwise can't be asked for."""
    told = path_of(b"/" + word.encode())[1:]
    if not word or "/" in word or spell(f"/{told}") != b"/" + word.encode():
        raise Untyped(word)
    return told


def shown(value: object) -> str:
    return "-" if value is None else str(value)


def listed(word: str, rows: Sequence[Iterable[object]]) -> str:
    return "".join(f"{line}\n" for line in [f"ok {word} {len(rows)}", *("- " + " ".join(map(shown, row)) for row in rows)])


def now(told: Moment) -> str:
    return f"ok now {told} {told.datetime:%Y-%m-%dT%H:%M:%SZ}\n"


def made(version: Optional[int]) -> str:
    return f"ok version {version}\n" if version else "ok done\n"


def read_bytes(data: bytes) -> str:
    return f"ok bytes {len(data)} {data.hex() or '-'}\n"


class Typed:
    """A store that is asked by typed calls."""

    def __init__(self, store: Store) -> None:
        self.store, self.typed, self.untyped = store, 0, 0

    def answer(self, line: str) -> str:
        """Returns the answer to a line."""
        words = line.split(" ")
        command = "_".join(words[:2]) if words[0] in ("open", "group") else words[0]
        rest = words[2:] if words[0] in ("open", "group") else words[1:]
        call = getattr(self, f"do_{command}", None)
        try:
            if call is None or not LINE.fullmatch(line):
                raise Untyped(line)
            told = call(*rest) or "ok done\n"
        except (Untyped, TypeError) as fault:
            if isinstance(fault, TypeError) and "positional argument" not in str(fault):
                raise
            self.untyped += 1
            return self.store.line(line)
        except ElephantError as fault:
            fault.subject = ""
            told = f"{'bad' if 28 <= fault.number <= 33 else 'stop' if fault.number < 3 else 'no'} {fault}\n"
        self.typed += 1
        return told

    def do_clock(self, at: str) -> str:
        return now(self.store.clock(moment(at)))

    def do_tick(self, seconds: str) -> str:
        return now(self.store.tick(number(seconds)))

    def do_mkdir(self, name: str) -> str:
        return f"ok directory {self.store.mkdir(path(name))}\n"

    def do_rmdir(self, name: str) -> None:
        self.store.rmdir(path(name))

    def do_create(self, name: str) -> str:
        return f"ok file {self.store.create(path(name))}\n"

    def do_link(self, name: str, new: str) -> None:
        self.store.link(path(name), path(new))

    def do_unlink(self, name: str) -> None:
        self.store.unlink(path(name))

    def do_rename(self, name: str, new: str) -> None:
        self.store.rename(path(name), path(new))

    def do_undelete(self, name: str) -> str:
        return made(self.store.undelete(path(name)))

    def do_open_write(self, name: str) -> str:
        return f"ok handle {self.store.session(path(name)).number}\n"

    def do_open_read(self, name: str) -> str:
        place, tag = tagged(name)
        return f"ok handle {self.store.reader(place, **tag).number}\n"

    def do_write(self, handle: str, offset: str, data: str) -> None:
        Session(self.store, "", number(handle)).write(content(data), number(offset))

    def do_truncate(self, handle: str, size: str) -> None:
        Session(self.store, "", number(handle)).truncate(number(size))

    def do_close(self, handle: str) -> str:
        version = Session(self.store, "", number(handle)).close()
        return f"ok closed version {version}\n" if version else "ok closed\n"

    def do_abandon(self, handle: str) -> None:
        Session(self.store, "", number(handle)).abandon()

    def do_save(self, name: str, data: str) -> str:
        return made(self.store.save(path(name), content(data)))

    def do_restore(self, name: str, at: str) -> str:
        return made(self.store.restore(path(name), moment(at)))

    def do_revert(self, name: str, version: str) -> str:
        return made(self.store.revert(path(name), number(version)))

    def do_policy(self, name: str, word: str) -> None:
        self.store.set_policy(path(name), policy(word))

    def do_default(self, name: str, word: str) -> None:
        self.store.set_default(path(name), policy(word))

    def do_note(self, data: str) -> None:
        self.store.note(content(data))

    def do_group_make(self, name: str) -> None:
        self.store.group_make(group(name))

    def do_group_drop(self, name: str) -> None:
        self.store.group_drop(group(name))

    def do_group_add(self, name: str, member: str) -> None:
        self.store.group_add(group(name), path(member))

    def do_group_remove(self, name: str, member: str) -> None:
        self.store.group_remove(group(name), path(member))

    def do_mark(self, name: str, at: str, until: Optional[str] = None) -> None:
        self.store.mark(group(name), moment(at), None if until is None else moment(until))

    def do_unmark(self, name: str, at: str) -> None:
        self.store.unmark(group(name), moment(at))

    def do_clean(self) -> str:
        key = self.store.clean()
        return "ok nothing\n" if key is None else f"ok removed {' '.join(map(str, key))}\n"

    def do_pass(self, budget: str) -> str:
        removed, finished = self.store.pass_(number(budget))
        return f"ok pass {'finished' if finished else 'budget'} {removed}\n"

    def do_read(self, source: str) -> str:
        if not source.startswith("/"):
            return read_bytes(Session(self.store, "", number(source)).read())
        place, tag = tagged(source)
        data = self.store.read(place, **tag)
        if len(data) % 2:  # also as a file
            with self.store.open(place, "rb", **tag) as file:
                data = file.read()
        return read_bytes(data)

    def do_stat(self, source: str) -> str:
        place, tag = tagged(source)
        row = self.store.stat(place, **tag)
        if isinstance(row, DirectoryStat):
            return f"ok directory {row.directory} default {row.default}\n"
        return f"ok {' '.join(f'{name} {shown(value)}' for name, value in row._asdict().items())}\n"

    def do_versions(self, source: str) -> str:
        place, tag = tagged(source, may_be_numbered=False)
        return listed("versions", self.store.versions(place, **tag))

    def do_list(self, source: str) -> str:
        place, tag = tagged(source, may_be_numbered=False)
        return listed("names", [(it.spelled.decode(), KIND[it.is_directory], it.number) for it in self.store.list(place, **tag)])

    def do_restorable(self) -> str:
        return listed("restorable", [(it.parent, it.spelled.decode(), KIND[it.is_directory], it.number) for it in self.store.restorable()])

    def do_due(self) -> str:
        return listed("due", self.store.due())

    def do_ahead(self, at: str) -> str:
        return listed("ahead", self.store.ahead(moment(at)))

    def do_why(self, source: str) -> str:
        place, tag = tagged(source)
        return f"ok why {self.store.why(place, **tag)}\n"

    def do_usage(self) -> str:
        return listed("usage", self.store.usage())

    def do_groups(self) -> str:
        def words(rows: Iterable[str]) -> str:
            return ",".join(rows) or "-"

        rows = [
            (it.spelled.decode(), "members", words(map(str, it.members)), "marks", words(self.mark_word(mark) for mark in it.marks))
            for it in self.store.groups()
        ]
        return listed("groups", rows)

    @staticmethod
    def mark_word(mark: Mark) -> str:
        return str(mark.at) if mark.until is None else f"{mark.at}/{mark.until}"
