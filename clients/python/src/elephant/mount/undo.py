"""`undo`: what a file, a link or a folder was before, made its newest state. Nothing is made up, and nothing is taken away: what is newer
stays as versions."""

from __future__ import annotations

import errno
from collections.abc import Callable, Iterable, Iterator
from contextlib import suppress
from typing import NamedTuple, Optional, Union

from .. import DeletedName, Forgotten, Refused
from ..keeping import AT, VERSION, told_time
from .chronicle import begin_of_last
from .contents import Contents
from .plans import Plan, Step
from .records import State, Turn, undone
from .steps import Steps
from .store import MountStore
from .then import Then
from .tree import Directory, File, Tree
from .turns import Turns
from .whereabouts import Nothing, Whereabouts, told

# Names that end with no longer pauses than this, in seconds, were deleted by one command.
PAUSE = 10
MOST_TOLD = 20
# A smaller number in place of a moment was meant as that of a version.
MOST_VERSIONS = 1_000_000


StoreAt = Callable[[int], tuple[MountStore, int]]


class Held(NamedTuple):
    """What a name held: a version of a file, its content, when it was saved, and until when an earlier file held it (0: the same file)."""

    version: int
    content: bytes
    closed: int
    until: int = 0

    @property
    def state(self) -> State:
        return self.version, self.until


class Undo:
    """Brings back files, links and folders. `store_at` returns the store that has a moment, and which moment to ask it for."""

    def __init__(self, store: MountStore, tree: Tree, contents: Contents, store_at: Optional[StoreAt] = None) -> None:
        self.store, self.tree, self.contents = store, tree, contents
        self._store_at: StoreAt = store_at or (lambda moment: (store, moment))
        self._where = Whereabouts(store, tree)
        self._turns = Turns(store, tree, self._where)

    def run(self, path: bytes, moment: Optional[int], is_dry: bool) -> str:
        """Brings a path back, and returns what it did, or would do. Raises Nothing if there is nothing to bring back."""
        path = path.rstrip(b"/")
        node = self.tree.find(path)
        if moment is not None:
            return self._undo_to(path, node, moment, is_dry)
        try:
            return self._undo_last(path, node, is_dry)
        except Nothing as fault:
            if self._store_at(0)[0] is self.store:
                raise
            begin = told_time(self.store.first_moment or int(self.store.now))
            raise Nothing(f"{fault}. This journal begins at {begin}: to undo to a time before, give a moment") from None

    def _undo_last(self, path: bytes, node: Optional[Union[File, Directory]], is_dry: bool) -> str:
        """Brings back what a path was before its last change."""
        if isinstance(node, File):
            return self._undo_save(path, node, is_dry)
        if isinstance(node, Directory):
            return self._turn(path, node, self._turns.back(node), is_dry)
        return self._undelete(path, is_dry)

    # The last save of a file.

    @staticmethod
    def require_no_writer(node: File) -> None:
        """Refuses to change the content of a file that a program may write: that program would go on at its old position."""
        if node.draft is not None or node.writers:
            raise OSError(errno.EBUSY, "a program has the file open to write it: close it first")

    def _undo_save(self, path: bytes, node: File, is_dry: bool) -> str:
        if not node.is_regular:
            kind = "a symbolic link" if node.attributes.is_link else "no regular file"
            raise Nothing(f"{told(path)} is {kind}, and has no saves: with a moment, undo makes it again as it was then")
        self.require_no_writer(node)
        return self._bring(path, node, self._different(path, node), is_dry)

    def redo(self, path: bytes, is_dry: bool) -> str:
        """Brings back what the last undo of a file or a folder has taken back. Raises Nothing if there is nothing."""
        path = path.rstrip(b"/")
        node = self.tree.find(path)
        if node is None:
            raise Nothing(f"redo is for a file or a folder, and there is no {told(path)} now")
        if isinstance(node, Directory):
            return self._turn(path, node, self._turns.forward(node), is_dry)
        self.require_no_writer(node)
        return self._redo_save(path, node, is_dry)

    def _redo_save(self, path: bytes, node: File, is_dry: bool) -> str:
        last, position = self._last_save(node), self._position(node)
        if position == last:
            raise Nothing(f"{told(path)} is as it was saved last: there is nothing to redo")
        passed = [last]
        for state in self._states_before(path, node, last):
            if self._source_of(node, state) == position:
                break
            passed.append(state)
        content = self.contents.whole(node)
        for state in reversed(passed):
            found = self._held(path, node, state)
            if found.content != content:
                return self._bring(path, node, found, is_dry)
        raise Nothing(f"{told(path)} holds what it held when it was saved last: there is nothing to redo")

    def to_version(self, path: bytes, number: int, is_dry: bool) -> str:
        """Makes what a version of a file held its next version."""
        node = self.tree.find(path)
        if not isinstance(node, File):
            raise Nothing(f"{told(path)} is {'a folder' if node is not None else 'no file now'}, and #{number} is a version of a file")
        self.require_no_writer(node)
        if not 1 <= number <= node.version:
            raise Nothing(f"{told(path)} has no version {number}: its newest is {node.version}")
        text = f"what version {number} held, saved {told_time(self._own(path, number).closed)}"
        if is_dry:
            return f"ok would make a version of {text}\n"
        return f"ok version {self.store.revert(path, number)}: {text}\n"

    def _bring(self, path: bytes, node: File, found: Held, is_dry: bool) -> str:
        """Makes what a name held the file's next version, and notes which state this is: the next undo goes on from there."""
        what = f"what version {found.version} of an earlier file of that name held" if found.until else f"what version {found.version} held"
        until = f", and the name until {told_time(found.until)}" if found.until else ""
        text = f"{what}, saved {told_time(found.closed)}{until}"
        if is_dry:
            return f"ok would make a version of {text}\n"
        with self.store.together():
            if found.until:
                version = self.store.drafts.save(path, found.content)
            else:
                version = self.store.revert(path, found.version)
            remark = undone(node.number, version, found.state)
            self.store.keep(remark)
            self.store.records.apply(remark[2:])
        return f"ok version {version}: {text}\n"

    def _last_save(self, node: File) -> State:
        """Returns the newest version of a file that no undo has made."""
        number = node.version
        while (node.number, number) in self.store.records.undone:
            number -= 1
        return number, 0

    def _position(self, node: File) -> State:
        """Returns the state that a file is in now: what the last undo brought back, or its newest version."""
        return self._source_of(node, (node.version, 0))

    def _source_of(self, node: File, state: State) -> State:
        """Returns the state that undos brought back as a state."""
        while not state[1] and (node.number, state[0]) in self.store.records.undone:
            state = self.store.records.undone[node.number, state[0]]
        return state

    def _states_before(self, path: bytes, node: File, position: State) -> Iterator[State]:
        """Yields the states of a name before one, the newest first: of its file, without what was undone before a later save, and then of
        earlier files. Version 1 is no save: it is how a file begins."""
        number, until = position
        while not until and number > 2:
            yield number - 1, 0
            number, until = self._source_of(node, (number - 1, 0))
        earlier = (it.state for it in self._earlier(path, node))
        if until:
            next((it for it in earlier if it == (number, until)), None)
        yield from earlier

    def _held(self, path: bytes, node: File, state: State) -> Held:
        """Returns what a name held. Raises Nothing if it was removed."""
        number, until = state
        return self._own(path, number) if not until else next(it for it in self._earlier(path, node) if it.state == state)

    def _different(self, path: bytes, node: File) -> Held:
        """Returns what a name held before its state of now that differs from it. Raises Nothing if that was removed, or if it held nothing
        else."""
        content, position = self.contents.whole(node), self._position(node)
        for state in self._states_before(path, node, position):
            found = self._held(path, node, state)
            if found.content != content:
                return found
        if position != self._last_save(node):
            raise Nothing(f"{told(path)} held nothing else before: redo goes forward again")
        raise Nothing(f"{told(path)} was never changed since it was made, and no file had this name before that held something else")

    def _own(self, path: bytes, number: int) -> Held:
        """Returns what a version of the file of a path held. Raises Nothing if it was removed."""
        try:
            closed = self.store.stat_row(path, VERSION, number).closed
        except Forgotten as fault:
            last = f"the newest before it that is held is version {fault.last}" if fault.last and fault.last > 1 else "none is held"
            raise Nothing(f"version {number} of {told(path)}, which it held before, was removed by its policy: {last}") from None
        return Held(number, self.store.content(path, VERSION, number), closed)

    def _earlier(self, path: bytes, node: File) -> Iterator[Held]:
        """Yields what earlier files held that had the name, the newest first."""
        parent, _, spelling = path.rpartition(b"/")
        folder = self.tree.find(parent)
        assert isinstance(folder, Directory)
        for end in reversed(self.store.chronicle.ends_of(folder.number, spelling)):
            then = self._where.path_at(folder.number, end - 1)
            if end > 0 and then is not None:
                yield from self._of_earlier(then + b"/" + spelling, end, node.number)

    def _of_earlier(self, path: bytes, end: int, file: int) -> Iterator[Held]:
        try:
            row = self.store.stat_row(path, AT, end - 1)
        except Forgotten:
            raise Nothing(f"what {told(path)} held before, until {told_time(end)}, was removed by its policy") from None
        except Refused:
            return  # it had the name for less than a second
        number, newest, closed = row.id, row.version, row.closed
        if row.is_directory or number == file or self._where.is_link(number):
            return
        if newest > 1:
            yield Held(newest, self.store.content(path, AT, end - 1), closed, end)
        for it in reversed(self.store.versions(path, at=end - 1)):
            if 1 < it.number < newest and it.ended is not None:
                at = max(int(it.ended) - 1, int(it.closed))
                with suppress(Refused):  # the file had another name then
                    row = self.store.stat_row(path, AT, at)
                    if (row.id, row.version) == (number, it.number):
                        yield Held(it.number, self.store.content(path, AT, at), it.closed, end)

    # What was deleted.

    def _undelete(self, path: bytes, is_dry: bool) -> str:
        """Restores a deleted name, with the deleted folders above it, and with all that was deleted with a folder."""
        chain = self._where.deleted(path)
        row = chain[-1][1]
        steps = [Step("undelete", above) for above, _ in chain]
        end = self.store.chronicle.last_end(row.parent, row.spelled)
        if row.is_directory:
            return self._undelete_folder(path, row.number, end, steps, is_dry)
        others = self.tree.files.get(row.number)
        text = f"what it held when it was deleted, {told_time(end)}"
        if others is not None:
            text = f"it is the same file as {told(others.path)}, which was renamed {told_time(end)}: both are its names"
        if is_dry:
            return f"ok would bring {told(path)} back: {text}\n"
        done = Steps(self.store, self.tree)
        done.run(steps)
        if done.left:
            return _answer(text, done.left, [])
        return f"ok version {self.store.stat_row(path).version}: {text}\n" if done.restored else f"ok done: {text}\n"

    def _undelete_folder(self, path: bytes, number: int, end: int, steps: list[Step], is_dry: bool) -> str:
        chronicle = self.store.chronicle
        folders = chronicle.below(number, self._where.parents())
        moments = [it for folder in folders for it in chronicle.moments_in(folder) if it <= end]
        begin = begin_of_last([end, *moments], PAUSE)
        rows = [it for it in self.store.restorable() if it.parent in folders and not chronicle.was_moved(it.parent, it.spelled)]
        rows = [it for it in rows if chronicle.last_end(it.parent, it.spelled) >= begin]
        inside = self._steps_inside({number: path}, rows)
        count = sum(it.of for it in inside)
        times = f"from {told_time(begin)} to {told_time(end)}"
        what = f"{told(path)} and {len(inside)} names in it (folders: {count}), deleted {times}"
        if is_dry:
            return f"ok would bring back {what}\n" + _rows(f"undelete {told(it.path)}" for it in inside)
        self._require_left(steps + inside, 0)
        done = Steps(self.store, self.tree)
        done.run(steps + inside)
        return _answer(f"brought back {what}", done.left, [])

    def _steps_inside(self, paths: dict[int, bytes], rows: list[DeletedName]) -> list[Step]:
        """Returns the steps that restore the deleted names in a folder and below it, each folder before what it has."""
        steps, folders = [], [it for it in rows if it.is_directory]
        while folders:
            placed = [it for it in folders if it.parent in paths]
            for it in placed:
                paths[it.number] = paths[it.parent] + b"/" + it.spelled
                steps.append(Step("undelete", paths[it.number], of=1))
            folders = [it for it in folders if it.parent not in paths] if placed else []
        files = (it for it in rows if not it.is_directory and it.parent in paths and it.number not in self.tree.files)
        return steps + [Step("undelete", paths[it.parent] + b"/" + it.spelled) for it in files]

    # A moment.

    def _turn(self, path: bytes, node: Directory, turn: Turn, is_dry: bool) -> str:
        """Makes a folder as it was before the last changes, or after them again."""
        answer = self._undo_to(path, node, turn.state, is_dry)
        if not is_dry:
            self._turns.note(node, turn)
        return answer

    def _undo_to(self, path: bytes, node: Optional[Union[File, Directory]], moment: int, is_dry: bool) -> str:
        if moment > self.store.now:
            raise Nothing(f"{told_time(moment)} is to come")
        if isinstance(node, File):
            self.require_no_writer(node)
        self._require_begun(moment)
        then = Then(*self._store_at(moment), self.store)
        try:
            plan = Plan(self._where, path, moment, then)
        except Nothing:
            if not isinstance(node, File) or not then.is_own:
                raise
            return self._undo_to_own(path, node, moment, is_dry)
        if not plan.is_folder:
            return self._undo_file_to(plan, is_dry)
        return self._dry(plan) if is_dry else self._do(plan)

    def _require_begun(self, moment: int) -> None:
        """Raises Nothing if a moment is before the first change of the folder."""
        begin = self._store_at(moment)[0].first_moment
        if moment < begin:
            hint = f"; version {moment} of a file is '#{moment}'" if moment < MOST_VERSIONS else ""
            raise Nothing(f"there was nothing at {told_time(moment)}: this folder begins at {told_time(begin)}{hint}")

    def _undo_to_own(self, path: bytes, node: File, moment: int, is_dry: bool) -> str:
        """Brings back what a file held at a moment at which it had another name."""
        found = [it for it in self.store.versions(path) if it.closed <= moment and it.number > 1]
        if not found:
            raise Nothing(f"there was no {told(path)} at {told_time(moment)}")
        it = found[-1]
        if it.ended is not None and it.ended <= moment:
            raise Nothing(f"what {told(path)} held at {told_time(moment)} was removed by its policy")
        text = f"what version {it.number} held, saved {told_time(it.closed)}, when the file had another name"
        if is_dry:
            return f"ok would make a version of {text}\n"
        return f"ok version {self.store.revert(path, it.number)}: {text}\n"

    def _undo_file_to(self, plan: Plan, is_dry: bool) -> str:
        path, moment = plan.path, plan.moment
        if path in plan.left:
            raise Nothing(f"{told(path)} at {told_time(moment)}: {plan.left[path]}")
        closed = plan.then.row(plan.wanted[path].then).closed
        text = f"what {told(path)} held at {told_time(moment)}, saved {told_time(closed)}{plan.then.source}"
        if is_dry:
            return f"ok would make a version of {text}\n"
        done = self._run(plan)
        if done.left:
            return _answer(text, done.left, [])
        version = self.store.stat_row(path).version
        return f"ok version {version}: {text}{'' if done.changed or plan.steps else ', as it does'}\n"

    def _run(self, plan: Plan) -> Steps:
        """Runs a plan, if the limits allow all of it."""
        files = [(it, self.tree.files.get(it.number)) for it in plan.contents()]
        self._require_left(plan.steps, sum(node is None or node.version != it.version for it, node in files))
        done = Steps(self.store, self.tree, plan.then)
        done.run(plan.steps)
        done.run_contents(plan)
        return done

    def _require_left(self, steps: list[Step], contents: int) -> None:
        """Raises Nothing unless the limits allow all steps and so many new contents."""
        words = [it.word for it in steps]
        made = words.count("create")
        lacking = self.store.quota.lacking(
            files=made, directories=words.count("mkdir"), names=len(words) - words.count("unlink"),
            versions=made + words.count("undelete") + contents, handles=made,
        )
        if lacking:
            raise Nothing(f"the store hasn't enough {lacking} left for {len(words)} names and {contents} contents: see .elephant/limits")

    def _do(self, plan: Plan) -> str:
        done = self._run(plan)
        words = [it.word for it in plan.steps]
        what = f"{told(plan.path)} is as it was at {told_time(plan.moment)}{plan.then.source}: {len(plan.wanted)} files"
        counts = {
            "brought back": words.count("undelete"), "renamed back": words.count("rename"), "made again": words.count("create"),
            "folders made again": words.count("mkdir"), "with the content of then": len(done.changed),
        }
        parts = [f"{count} {word}" for word, count in counts.items() if count]
        return _answer(", ".join([what, *parts]), {**plan.left, **done.left}, plan.newer)

    def _dry(self, plan: Plan) -> str:
        """Returns what a plan would do."""
        lines = [" ".join([it.word, told(it.path), *([told(it.other)] if it.other else [])]) for it in plan.steps]
        steps, came = Steps(self.store, self.tree, plan.then), {it.other: it.path for it in plan.steps if it.word == "rename"}
        for it in plan.contents():
            node = self.tree.files.get(plan.now.files.get(it.path, -1))
            if node is not None and (it.path in came or it.path == node.path) and steps.differs(it, node.path):
                lines.append(f"content {told(it.path)}: version {it.version}")
        what = f"would make {told(plan.path)} as it was at {told_time(plan.moment)}{plan.then.source}: {len(plan.wanted)} files"
        return _answer(what, plan.left, plan.newer, is_dry=True) + _rows(lines)


def _rows(lines: Iterable[str]) -> str:
    return "".join(f"- {line}\n" for line in lines)


def _answer(what: str, left: dict[bytes, str], newer: list[bytes], is_dry: bool = False) -> str:
    """Returns the answer of an undo of many names: `no` if some of them are left as they are."""
    first = f"no: {len(left)} of them are left as they are: {what}" if left else f"ok {what}"
    stay = [f"newer, and stays: {told(it)}" for it in newer[:len(newer) if is_dry else MOST_TOLD]]
    if len(newer) > len(stay):
        stay.append(f"and {len(newer) - len(stay)} more newer names")
    return f"{first}\n" + _rows([*(f"left: {told(path)}: {why}" for path, why in left.items()), *stay])
