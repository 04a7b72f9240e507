"""A store: files that keep their earlier versions, in memory or in a journal."""

from __future__ import annotations

import os
from collections.abc import Iterator, Sequence
from types import TracebackType
from typing import TYPE_CHECKING, Optional, SupportsIndex, Union

from ._answers import Limits
from ._checkpoints import Checkpoints
from ._core import Core, as_bytes, natural
from ._drafts import UNKNOWN
from ._dump import dump
from ._errors import BadName, ClockDoubt, ElephantError, Refused, Untold
from ._moments import NEVER, Moment, MomentLike
from ._names import Path, is_path_shown, require_shown, spell, spell_name
from ._policies import Policy
from ._replay import QUESTIONS
from ._turns import Clock, Fsync, Opening

if TYPE_CHECKING:
    from _typeshed import ReadableBuffer


class Store(Checkpoints):
    """A store of files that keep their earlier versions.

    `journal`: the path of the file that stores it; without one the store ends with this object. `limits`: how many of each kind it may
    ever make. `history`: it also keeps all events, which `history` returns. `clock`: with `"system"` each call first moves the store's
    clock to the time of day, never back; with `"manual"` it begins at 0, and only `clock` and `tick` move it; an object with `now` and
    `steady` stands for the machine's clocks. `fsync`: with `"always"` a change is on the disk before the call returns, with `"sync"` only
    after a `sync`. `wait`: how many seconds to wait for a journal that another store has.

    `read_only`: the store shows what the journal has now, and writes nothing anywhere, so another process may have it meanwhile. Its
    clock stands at the journal's last moment, or at `at`. `repair`: if the journal is damaged, everything from the damaged change on is
    copied into a file beside it and cut off; with `read_only` it is only left out.

    `guard`: in a journal's store whose time follows the time of day, much isn't removed at once, and nothing within ten minutes; without
    it what is due goes at once.

    `from_checkpoint` makes a store of the bytes of another one.

    Many threads may call a store. Paths begin with a slash. A moment is an int, of seconds since 1970, an aware datetime, or a text such
    as `2026-11-29 15:00` or `2 hours ago`, in local time.
    """

    def __init__(
        self,
        journal: Optional[Union[str, os.PathLike[str]]] = None,
        *,
        limits: Optional[Limits] = None,
        history: bool = False,
        clock: Clock = "system",
        fsync: Fsync = "always",
        wait: float = 0.0,
        read_only: bool = False,
        at: Optional[MomentLike] = None,
        repair: bool = False,
        guard: bool = True,
    ) -> None:
        path = None if journal is None else os.fspath(journal)
        super().__init__(Opening(path, limits or Limits(), history, clock, fsync, wait, read_only, at, repair, guard))

    @classmethod
    def from_checkpoint(cls, data: ReadableBuffer, *, history: bool = False, clock: Clock = "system", guard: bool = True) -> Store:
        """Makes a store in memory of what `checkpoint` returned, with the limits that it had. Raises BadCheckpoint for other bytes.

        Its moment is that of the checkpoint, and `clock` is as for `Store`: with `"system"` the first call moves it to the time of day. A
        session that was open when the bytes were taken is closed, so what it wrote becomes a version: `recovered.closed` has its path. With
        `history` a history begins there, with one folded event. `guard`: if the clock follows the time of day, what is due waits as in a
        journal's store, from this opening on.
        """
        # Not of `cls`: a subclass may need more of its opening than the bytes have.
        store = Store.__new__(Store)
        Checkpoints.__init__(store, Opening(None, Limits(), history, clock, "always", 0.0, guard=guard, checkpoint=as_bytes(data)))
        return store

    def __enter__(self) -> Store:
        return self

    def __exit__(self, kind: Optional[type[BaseException]], fault: Optional[BaseException], trace: Optional[TracebackType]) -> None:
        self.close()

    def close(self) -> None:
        """Closes the store. With a journal, it first closes the open sessions, as the next opening would, and syncs all."""
        with self._lock:
            if self.is_closed:
                return
            try:
                if self._journal is not None and self._failure is None and not self.is_read_only:
                    self._close_sessions_kept()
                    self._sync_journal()
            finally:
                self._release()

    def _close_sessions_kept(self) -> None:
        """Closes the open sessions. If one can't be closed, the journal gets what it wrote, of which the next opening makes a version."""
        try:
            for handle in sorted(self._writers):
                self._close_handle(handle)
        except ElephantError:
            if self._failure is None:
                self.sync()
            raise

    def sync(self) -> None:
        """Writes all changes to the disk, also what open sessions wrote. If the program ends then, the next opening makes versions of
        these."""
        if self.is_read_only:
            return
        with self._lock, self._change:
            for draft in self._drafts.values():
                self._flush(draft)
            self._sync_journal()

    # The clock.

    def clock(self, moment: MomentLike) -> Moment:
        """Moves the clock to a moment, and returns the moment now. Raises ClockBack if it is before now."""
        seconds = self._seconds(moment)
        with self._lock, self._change as core:
            core.do(core.library.elephant_clock, moment, seconds)
            self._keep_clock(seconds)
            return Moment(seconds)

    def tick(self, seconds: SupportsIndex) -> Moment:
        """Moves the clock forward by seconds, and returns the moment now."""
        number = natural(seconds, "a number of seconds")
        with self._lock, self._change as core:
            core.do(core.library.elephant_tick, number, number)
            self._keep_clock(core.now())
            return Moment(self._now)

    # Names.

    def mkdir(self, path: Path, *, parents: bool = False) -> int:
        """Makes a directory, and returns its number. With `parents` it first makes the directories above it that are missing."""
        name = spell(path)
        require_shown(name)
        with self._lock:
            if parents:
                self.make_parents(path)
            return self._make_directory(path, name)

    def rmdir(self, path: Path) -> None:
        """Deletes the name of a directory that has no names."""
        name = spell(path)
        with self._lock, self._change as core:
            core.do(core.library.elephant_rmdir, path, name, len(name))
            self._keep(b"rmdir " + name)

    def create(self, path: Path, *, parents: bool = False) -> int:
        """Makes a file, whose version 1 is empty, and returns its number. With `parents` it first makes the directories above it that are
        missing."""
        name = spell(path)
        require_shown(name)
        with self._lock:
            if parents:
                self.make_parents(path)
            return self._make_file(path, name)

    def _make_file(self, path: Path, name: bytes) -> int:
        with self._change as core:
            number = core.ask(core.library.elephant_create, path, name, len(name))
            self._keep(b"create " + name)
            return number

    def link(self, path: Path, new: Path) -> None:
        """Gives a file another name. The subject of a refusal is the path that it is about: an Exists is about `new`."""
        name, other = spell(path), spell(new)
        require_shown(name, other)
        with self._lock, self._change as core:
            core.do_between(core.library.elephant_link, (path, new), name, other)
            self._keep(b"link %b %b" % (name, other))

    def unlink(self, path: Path) -> None:
        """Deletes a name of a file. With its last name its current version ends."""
        name = spell(path)
        with self._lock, self._change as core:
            self._note_end(core, name)
            core.do(core.library.elephant_unlink, path, name, len(name))
            self._keep(b"unlink " + name)

    def rename(self, path: Path, new: Path) -> None:
        """Moves a file or a directory to a new path. It never replaces anything. The subject of a refusal is the path that it is about: an
        Exists is about `new`."""
        name, other = spell(path), spell(new)
        require_shown(name, other)
        with self._lock, self._change as core:
            core.do_between(core.library.elephant_rename, (path, new), name, other)
            self._keep(b"rename %b %b" % (name, other))

    def undelete(self, path: Path) -> Optional[int]:
        """Restores a deleted name. Returns the number of the version that a file without a name gets, else None."""
        name = spell(path)
        with self._lock, self._change as core:
            version = core.ask(core.library.elephant_undelete, path, name, len(name))
            self._keep(b"undelete " + name)
            self._note_return(core, name)
            return version or None

    # Older contents.

    def revert(self, path: Path, version: SupportsIndex) -> int:
        """Makes an older content the newest version, and returns its number."""
        name, number = spell(path), natural(version, "the number of a version")
        with self._lock, self._change as core:
            made = core.ask(core.library.elephant_revert, path, name, len(name), number)
            self._keep(b"revert %b %d" % (name, number))
            return made

    def restore(self, path: Path, moment: MomentLike) -> int:
        """Makes what the path held at a moment its newest version, and returns the version's number. If the path named nothing then, it is
        what the file at the path held under another name.

        If the path names nothing now, the file that had the name then has it again, with all its versions. If that file has another
        name, a new file gets the content. Raises Forgotten if the version was removed.
        """
        name, seconds = spell(path), self._seconds(moment)
        with self._lock, self._change as core:
            made = core.ask(core.library.elephant_restore, path, name, len(name), seconds)
            self._keep(b"restore %b %d" % (name, seconds))
            self._note_return(core, name)
            return made

    # Policies, groups and marks.

    def set_policy(self, path: Path, policy: Policy) -> None:
        """Sets the policy of a file, which decides about all its versions at once."""
        self._policy("policy", path, policy)

    def set_default(self, path: Path, policy: Policy) -> None:
        """Sets the policy of later files and directories in a directory."""
        self._policy("default", path, policy)

    def _policy(self, word: str, path: Path, policy: Policy) -> None:
        if not isinstance(policy, Policy):
            wanted = "KeepOne(), KeepAll(), KeepSafe(days=7) or Landmarks.standard()"
            raise TypeError(f"a policy is an object such as {wanted}, not {policy!r}; Policy.of('safe:604800') makes one of its word")
        name, spelled = spell(path), policy.word.encode("ascii")
        with self._lock, self._change as core:
            call = getattr(core.library, f"elephant_{word}")
            core.do(call, path, name, len(name), spelled, len(spelled))
            self._keep(b"%b %b %b" % (word.encode(), name, spelled))

    def group_make(self, group: str) -> None:
        """Makes a group of files."""
        self._group_itself("make", group)

    def group_drop(self, group: str) -> None:
        """Removes a group and its marks."""
        self._group_itself("drop", group)

    def _group_itself(self, word: str, group: str) -> None:
        name = spell_name(group)
        with self._lock, self._change as core:
            core.do(getattr(core.library, f"elephant_group_{word}"), group, name, len(name))
            self._keep(b"group %b %b" % (word.encode(), name))

    def group_add(self, group: str, path: Path) -> None:
        """Adds a file to a group."""
        self._group_member("add", group, path)

    def group_remove(self, group: str, path: Path) -> None:
        """Removes a file from a group."""
        self._group_member("remove", group, path)

    def _group_member(self, word: str, group: str, path: Path) -> None:
        name, member = spell_name(group), spell(path)
        with self._lock, self._change as core:
            call = getattr(core.library, f"elephant_group_{word}")
            core.do(call, (group, path), name, len(name), member, len(member))
            self._keep(b"group %b %b %b" % (word.encode(), name, member))

    def mark(self, group: str, at: MomentLike, until: Optional[MomentLike] = None) -> None:
        """Holds what was current of a group's files at a past moment, for good or until another moment."""
        name, moment, end = spell_name(group), self._seconds(at), NEVER if until is None else self._seconds(until)
        with self._lock, self._change as core:
            core.do(core.library.elephant_mark, group, name, len(name), moment, end)
            self._keep(b"mark %b %d" % (name, moment) + (b"" if until is None else b" %d" % end))

    def unmark(self, group: str, at: MomentLike) -> None:
        """Removes a mark."""
        name, moment = spell_name(group), self._seconds(at)
        with self._lock, self._change as core:
            core.do(core.library.elephant_unmark, group, name, len(name), moment)
            self._keep(b"unmark %b %d" % (name, moment))

    # The history, and what the store has beside names and contents.

    def trim(self) -> int:
        """Folds the history into the store as it is, and returns how many events these were. The store needs `history=True`."""
        with self._lock:
            core = self._begin()
            return core.look(core.library.elephant_trim, "trim")

    def note(self, text: str | bytes) -> None:
        """Puts a text of at most 200 bytes into the history: who makes the next changes, say, and why. It changes nothing else. A string is
        written as UTF-8. Raises TooBig."""
        data = text.encode() if isinstance(text, str) else bytes(text)
        with self._lock, self._change as core:
            core.do(core.library.elephant_note, text, data, len(data))
            self._keep(b"note " + (data.hex().encode() or b"-"))

    def dump(self) -> Iterator[str]:
        """Yields the policies, defaults, groups and marks as lines of the script language. What a line can't say is a remark, which
        begins with `#`."""
        with self._lock:
            return iter(list(dump(self)))

    # Lines of the script language.

    def line(self, line: str) -> str:
        """Runs a line of the script language, and returns its answer, whose lines end with line feeds. It returns refusals, and doesn't
        raise them."""
        if "\n" in line:
            raise ValueError(f"{line!r} has a line feed")
        spelled = line.encode("utf-8", "surrogateescape")
        words = spelled.split(b" ")
        if not _is_shown_by(words):
            return _BAD_NAME
        with self._lock:
            if words[0] in QUESTIONS:
                return self._begin().line(spelled).decode("ascii")
            with self._change as core:
                if words[0] in (b"clean", b"pass"):
                    if self._removal_end() is not None:
                        raise ClockDoubt("the store's time is ahead of the time of day; pass_() removes what both make due")
                    self._require_leave(core, words)
                # A question for the file would be an event of the history. Without the file's number, the draft is shared with all
                # sessions of unknown files.
                opens = words[:2] == [b"open", b"write"] and len(words) == 3 and not self._has_history
                file = self._file_at(core, words[2]) if opens else UNKNOWN
                if words[0] == b"unlink":
                    self._note_end(core, words[-1])
                if words[0] == b"save" and len(words) == 3 and self._makes_hidden(core, words[1]):
                    return _BAD_NAME
                answer = self._changing_line(core, spelled)
                self._keep_line(words, spelled, answer, file)
                if words[0] in (b"undelete", b"restore"):
                    self._note_return(core, b"".join(words[1:2]))
            return answer.decode("ascii")

    @staticmethod
    def _file_at(core: Core, path: bytes) -> int:
        """Returns the number of the file at a path, or UNKNOWN if the path means none."""
        try:
            return int(core.stat(path, path).id)
        except Refused:
            return UNKNOWN

    def _changing_line(self, core: Core, line: bytes) -> bytes:
        """Runs a line that may change something, and returns its answer. If there was no memory for the text of the answer, it runs the
        line again, in a store that is made anew from the journal."""
        try:
            answer = core.line(line)
        except Untold:
            if self._journal is None:
                raise
            core = self._renew()
            answer = core.line(line)
        core.is_ahead = answer.startswith(b"ok ")
        return answer

    def _keep_line(self, words: Sequence[bytes], line: bytes, answer: bytes, file: int) -> None:
        """Puts a line into the journal as the call of the same name does."""
        word, told = words[0], answer.split()
        if word == b"pass" and told[-1].isdigit() and told[-1] != b"0":
            self._keep(b"pass " + told[-1])  # as many as it removed
        elif not answer.startswith(b"ok ") or word == b"pass" or answer == b"ok nothing\n":
            self._note_kept()
        elif word in (b"clock", b"tick"):
            self._keep_clock(int(told[2]))
        elif word in (b"write", b"truncate"):
            self._defer(int(words[1]), line)
        elif word == b"close":
            self._keep_close(int(words[1]), len(told) > 2)
        elif word == b"abandon":
            self._keep_abandon(int(words[1]))
        else:
            self._keep(line)
            if words[:2] == [b"open", b"write"]:
                self._add_writer(file, int(told[2]))


_BAD_NAME = f"bad {BadName.number} {BadName.__name__}\n"
# The lines that make a name, each with the place of its path and the number of its words.
_MAKES = {b"mkdir": (1, 2), b"create": (1, 2), b"link": (2, 3), b"rename": (2, 3)}


def _is_shown_by(words: list[bytes]) -> bool:
    """Whether a folder can show the name that a line makes, if it makes one. A line that the core takes for no command is left to it."""
    place, count = _MAKES.get(words[0], (0, 0))
    return len(words) != count or is_path_shown(*words[1:place + 1])
