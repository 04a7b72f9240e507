"""The second description of `tools/program/twin`: plain lists and loops, without an index, a queue or a stored sum.

It was written from docs/SCRIPT.md and docs/POLICIES.md. `Twin.answer` answers a line as `elephant run --explain` does. It looks for due
versions anew at each question, among all versions.
"""

from collections.abc import Callable, Iterable, Iterator
from datetime import datetime, timedelta

from program.twin_changes import changes
from program.twin_rows import (
    KINDS, LAST_MOMENT, LONGEST, LONGEST_NOTE, ROOT, SLOT, Bad, Block, Draft, File, Group, Handle, Mark, Name, No, Place, Removal, Slots,
    Tagged, Target, Version, check, content, due_under, ladder, level_of, listed, moments_of, or_dash, printed_line, refusal, rewritten,
    safe_numbers, some,
)
from program.twin_story import Taken, copied, known, last_name, story


class Twin:
    """A store, and the history of its lines."""

    def __init__(self) -> None:
        self.now = 0
        self.names: list[Name] = []
        self.files: dict[int, File] = {}
        self.groups: list[Group] = []
        # The default policy of each directory.
        self.directories = {0: "safe:86400"}
        self.handles: dict[str, Handle] = {}
        self.last_handle, self.last_file = 0, 0
        # The lines of the history, what each printed, how many were trimmed, the removals, and since when each handle is open.
        self.entries: list[str] = []
        self.printed: list[Block] = []
        self.folded = 0
        self.removals: list[Removal] = []
        self.taken: list[Taken] = []
        self.told: list[str] = []
        self.since: dict[str, int] = {}

    # Where paths lead.

    def find(self, place: Place, moment: int | None = None) -> Name | None:
        return next((it for it in self.names if it.place == place and it.covers(moment)), None)

    def live(self, place: Place) -> Name:
        """The live name of a place that has one."""
        return some(self.find(place), "NoEntry")

    def walk(self, path: str, moment: int | None = None) -> Target:
        target = ROOT
        for name in path.split("/")[1:] if path != "/" else []:
            check(target.kind == "file", "NotDirectory")
            target = some(self.find(Place(target.number, name), moment), "NoEntry").target
        return target

    def place_of(self, path: str) -> Place:
        """The directory of a path's last name, and that name."""
        check(path == "/", "IsRoot")
        before, _, name = path.rpartition("/")
        return Place(self.directory_at(before or "/"), name)

    def directory_at(self, path: str, moment: int | None = None) -> int:
        kind, number = self.walk(path, moment)
        check(kind == "file", "NotDirectory")
        return number

    def file_at(self, path: str, moment: int | None = None) -> int:
        kind, number = self.walk(path, moment)
        check(kind == "directory", "IsDirectory")
        return number

    def is_live(self, target: Target) -> bool:
        return any(it.target == target and it.death is None for it in self.names)

    def path_of(self, target: Target) -> str:
        """Returns the path of the first live names that lead to the target."""
        words: list[str] = []
        while target != ROOT:
            found = next((it for it in self.names if it.target == target and it.death is None), None)
            if found is None:
                return "-"
            words.insert(0, found.place.name)
            target = Target("directory", found.place.directory)
        return "/" + "/".join(words)

    # Versions.

    def by_number(self, file: int, number: int) -> Version:
        row = self.files[file]
        check(not 1 <= number < row.next, "NoVersion")
        return some(row.held(number), "Forgotten", self.last(it for it in row.versions if it.number < number))

    def by_moment(self, file: int, moment: int) -> Version:
        rows = self.files[file].versions
        found = [it for it in rows if it.lived(moment)]
        check(not found, "Forgotten", self.last(it for it in rows if it.closed <= moment))
        return found[-1]

    @staticmethod
    def last(versions: Iterable[Version]) -> int | None:
        return max((it.number for it in versions), default=None)

    def target_of(self, tagged: str) -> Tagged:
        path, sign, word = tagged.partition("@") if "@" in tagged else tagged.partition("#")
        moment = int(word) if sign == "@" else None
        check(moment is not None and moment > self.now, "Future")
        return Tagged(self.walk(path, moment), sign, word)

    def version_of(self, tagged: str) -> tuple[int, Version]:
        """Returns the file and the version that a path with a tag means."""
        (kind, number), sign, word = self.target_of(tagged)
        check(kind == "directory", "IsDirectory")
        return number, self.meant(number, sign, word)

    def meant(self, file: int, sign: str, word: str) -> Version:
        if sign == "@":
            return self.by_moment(file, int(word))
        return self.by_number(file, int(word) if sign == "#" else self.files[file].next - 1)

    def append(self, file: int, opened: int, slots: Slots) -> int:
        """Makes a version that is current from now on, and returns its number."""
        row = self.files[file]
        newest = row.newest()
        if newest and newest.ended is None:
            newest.ended = self.now
        made = Version(row.next, opened, self.now, slots)
        row.versions.append(made)
        row.next += 1
        if not self.is_live(Target("file", file)):
            made.ended = self.now
        return made.number

    def drop_idle(self, file: int) -> None:
        """Forgets a file that has neither versions nor a draft nor a name."""
        row, target = self.files[file], Target("file", file)
        if not row.versions and row.draft is None and not self.is_live(target):
            del self.files[file]
            self.names = [it for it in self.names if it.target != target]
            for it in self.groups:
                it.members = [member for member in it.members if member != file]

    # What is due.

    def marks_over(self, file: int, version: Version) -> Iterator[tuple[Group, Mark]]:
        for it in self.groups:
            for mark in it.marks:
                if file in it.members and version.is_over(mark):
                    yield it, mark

    def is_due(self, file: int, version: Version, moment: int) -> bool:
        row = self.files[file]
        if version.ended is None or moment < version.ended or Handle(file, version.number) in self.handles.values():
            return False
        if any(it.until is None or moment < it.until for _, it in self.marks_over(file, version)):
            return False
        newer = [it.closed for it in row.versions if it.number > version.number]
        return due_under(row.policy, version.closed, version.ended, newer, self.is_live(Target("file", file)), moment)

    def ripe(self, file: int, version: Version) -> int | None:
        """The first moment at which the version is due."""
        if version.ended is None:
            return None
        ends = [it.until for _, it in self.marks_over(file, version) if it.until is not None]
        hopes = moments_of(self.files[file].policy, version.ended) + ends
        return min((it for it in hopes if it <= LAST_MOMENT and self.is_due(file, version, it)), default=None)

    def keys(self, moment: int) -> list[tuple[int, int, int]]:
        """The versions that are due at a moment: since when, the file and the number, in the order in which they are removed."""
        rows = [(file, it) for file, row in self.files.items() for it in row.versions if self.is_due(file, it, moment)]
        ripe = [(self.ripe(file, it), file, it.number) for file, it in rows]
        return sorted((since, file, number) for since, file, number in ripe if since is not None)

    # Restorable names.

    def newest(self, place: Place) -> Name | None:
        rows = [it for it in self.names if it.place == place]
        return rows[-1] if rows else None

    def may_return(self, target: Target) -> bool:
        return not self.is_live(target) if target.kind == "directory" else self.files[target.number].newest() is not None

    # Why a version is held or due.

    def fate(self, file: int, version: Version) -> str:
        row = self.files[file]
        if version.ended is None:
            return "current"
        if Handle(file, version.number) in self.handles.values():
            return "open"
        for group, mark in self.marks_over(file, version):
            if mark.until is None or self.now < mark.until:
                return f"marked {group.name} {mark}"
        ripe, kind = self.ripe(file, version), row.policy.partition(":")[0]
        if ripe is None or not self.is_due(file, version, self.now):
            level = f" level {level_of(row.policy, self.now - version.ended)}" if kind == "landmarks" else ""
            return "kept" + ("" if ripe is None else f" until {ripe}") + level
        return f"due {ripe} {self.cause(row, version, ripe - version.ended)}"

    @staticmethod
    def cause(row: File, version: Version, age: int) -> str:
        """Why a version became due at that age."""
        kind = row.policy.partition(":")[0]
        if kind != "landmarks":
            return "at once" if kind == "one" else f"by age {safe_numbers(row.policy)[0]}"
        level = level_of(row.policy, age)
        width = ladder(row.policy)[level - 1][1]
        by = min(it.number for it in row.versions if it.number > version.number and it.closed // width == version.closed // width)
        return f"by {by} level {level}"

    def policy_moment(self, file: int, version: Version) -> int | None:
        """The first moment at which the policy alone lets a version go."""
        row, is_live = self.files[file], self.is_live(Target("file", file))
        if version.ended is None:
            return None
        newer = [it.closed for it in row.versions if it.number > version.number]
        hopes = [it for it in moments_of(row.policy, version.ended) if it <= LAST_MOMENT]
        return min((it for it in hopes if due_under(row.policy, version.closed, version.ended, newer, is_live, it)), default=None)

    def held_fate(self, file: int, version: Version) -> str:
        """The fate of a version, and before it the mark that held a due version after its policy had let it go."""
        fate, own = self.fate(file, version), self.policy_moment(file, version)
        since = int(fate.split()[1]) if fate.startswith("due ") else None
        if since is not None and own is not None and own < since:
            for group, mark in self.marks_over(file, version):
                if mark.until == since:
                    return f"held {group.name} {mark} {fate}"
        return fate

    # Questions, which the history doesn't have.

    def ask_why(self, tagged: str) -> Block:
        try:
            return [f"ok why {self.held_fate(*self.version_of(tagged))}"]
        except No as no:
            removed = self.removal_of(tagged) if no.args[0] == "Forgotten" else None
            return [removed or refusal(no)]

    def removal_of(self, tagged: str) -> str | None:
        """The stored removal of the version of a path and a number, if there is one."""
        (_, file), sign, word = self.target_of(tagged)
        for it in self.removals:
            if sign == "#" and (file, word) == (it.file, str(it.version)):
                return f"ok why removed {it.at} {it.fate}"
        return None

    def ask_ahead(self, moment: str) -> Block:
        if int(moment) < self.now:
            return [refusal(No("NotAhead"))]
        return listed("ahead", self.keys(int(moment)))

    def ask_expiring(self, moment: str) -> Block:
        if int(moment) < self.now:
            return [refusal(No("NotAhead"))]
        return listed("expiring", [(*it, last_name(self.names, it[1])) for it in self.keys(int(moment))])

    def ask_handles(self) -> Block:
        rows = []
        for handle, (file, version) in self.handles.items():
            draft = self.files[file].draft
            since = draft.opened if version is None and draft else self.since.get(handle)
            rows.append((handle, file, "draft" if version is None else version, or_dash(since), self.path_of(Target("file", file))))
        return listed("handles", rows)

    def ask_gone(self) -> Block:
        rows = [f"- {it.at} {it.file} {it.version} {it.path} {it.fate}" for it in self.removals]
        return [f"ok gone {self.folded} {len(rows)}", *rows]

    def ask_removals(self) -> Block:
        return [f"ok removals {self.folded} {len(self.told)}", *self.told]

    def ask_answers(self) -> Block:
        rows = [row for line, block in zip(self.entries, self.printed) for row in (f"- {line}", *block)]
        return [f"ok answers {self.folded} {len(self.entries)}", *rows]

    def ask_story(self, path: str) -> Block:
        held = {file: [(it.number, f"{known(it)} {self.held_fate(file, it)}") for it in row.versions] for file, row in self.files.items()}
        return story(self.names, self.taken, held, path)

    def ask_changes(self, first: str, second: str, within: str | None = None) -> Block:
        if int(second) > self.now:
            return [refusal(No("Future"))]
        if int(second) < int(first):
            return [refusal(No("NotAhead"))]
        return changes(self.names, self.number_at, int(first), int(second), within)

    def number_at(self, target: Target, moment: int) -> int | None:
        """The number of the held version that a file had at a moment."""
        versions = self.files[target.number].versions if target.kind == "file" else []
        return next((it.number for it in versions if it.lived(moment)), None)

    def ask_history(self) -> Block:
        return [f"ok history {self.folded} {len(self.entries)}", *(f"- {it}" for it in self.entries)]

    def ask_trim(self) -> Block:
        count = len(self.entries)
        self.entries, self.printed, self.removals, self.taken, self.told, self.since = [], [], [], [], [], {}
        self.folded += count
        return [f"ok trimmed {count}"]

    def ask_pass(self, budget: str) -> Block:
        for removed in range(int(budget)):
            if self.record("clean") == ["ok nothing"]:
                return [f"ok pass finished {removed}"]
        return [f"ok pass budget {budget}"]

    # Lines. Each answers its block.

    def answer(self, line: str) -> Block:
        first, *words = line.split()
        question: Callable[..., Block] | None = getattr(self, f"ask_{first}", None)
        if question:
            return question(*words)
        try:
            return self.record(printed_line(line))
        except Bad as bad:
            return [f"bad {bad}"]

    def record(self, line: str) -> Block:
        """Answers a line of the history."""
        words = line.split()
        count = 2 if words[0] in ("group", "open") else 1
        command: Callable[..., str | Block] = getattr(self, "do_" + "_".join(words[:count]))
        try:
            answer = command(*words[count:])
        except No as no:
            answer = refusal(no)
        block = answer if isinstance(answer, list) else [answer]
        self.entries.append(line)
        self.printed.append(block)
        return block

    # The clock.

    def do_clock(self, moment: str) -> str:
        check(int(moment) < self.now, "ClockBack")
        self.now = int(moment)
        return self.printed_now()

    def do_tick(self, seconds: str) -> str:
        check(self.now + int(seconds) > LAST_MOMENT, "ClockEnd")
        self.now += int(seconds)
        return self.printed_now()

    def printed_now(self) -> str:
        return f"ok now {self.now} {(datetime(1970, 1, 1) + timedelta(seconds=self.now)).strftime('%Y-%m-%dT%H:%M:%SZ')}"

    # Names.

    def free_place(self, path: str) -> Place:
        """The place of a path that no live name has."""
        place = self.place_of(path)
        check(self.find(place), "Exists")
        return place

    def do_mkdir(self, path: str) -> str:
        place = self.free_place(path)
        made = max(self.directories) + 1
        self.directories[made] = self.directories[place.directory]
        self.names.append(Name(place, Target("directory", made), self.now))
        return f"ok directory {made}"

    def do_rmdir(self, path: str) -> str:
        place = self.place_of(path)
        number = self.directory_at(path)
        check(any(it.place.directory == number and it.death is None for it in self.names), "NotEmpty")
        self.live(place).death = self.now
        return "ok done"

    def do_create(self, path: str) -> str:
        return f"ok file {self.file_made(self.free_place(path))}"

    def file_made(self, place: Place) -> int:
        """Makes a file with an empty version, and returns its number."""
        self.last_file += 1
        self.files[self.last_file] = File(self.directories[place.directory])
        self.names.append(Name(place, Target("file", self.last_file), self.now))
        self.append(self.last_file, self.now, [])
        return self.last_file

    def do_link(self, path: str, to: str) -> str:
        file = self.file_at(path)
        self.names.append(Name(self.free_place(to), Target("file", file), self.now))
        return "ok done"

    def do_unlink(self, path: str) -> str:
        place, file = self.place_of(path), self.file_at(path)
        self.live(place).death = self.now
        if not self.is_live(Target("file", file)):
            for it in self.files[file].versions:
                it.ended = self.now if it.ended is None else it.ended
        return "ok done"

    def do_rename(self, path: str, to: str) -> str:
        old, moved, new = self.place_of(path), self.walk(path), self.place_of(to)
        pieces = to.split("/")[1:-1]
        above = [self.walk("/" + "/".join(pieces[:count])) for count in range(len(pieces) + 1)]
        check(moved in above, "IntoItself")
        check(self.find(new), "Exists")
        self.live(old).death = self.now
        self.names.append(Name(new, moved, self.now))
        return "ok done"

    def do_undelete(self, path: str) -> str:
        place = self.free_place(path)
        target = some(self.newest(place), "NoEntry").target
        check(not self.may_return(target), "NotRestorable")
        is_revived = target.kind == "file" and not self.is_live(target)
        check(is_revived and self.files[target.number].draft, "Drafting")
        self.names.append(Name(place, target, self.now))
        if not is_revived:
            return "ok done"
        newest = some(self.files[target.number].newest(), "NotRestorable")
        return f"ok version {self.append(target.number, self.now, newest.slots)}"

    # Sessions.

    def opened(self, what: Handle) -> str:
        self.last_handle += 1
        self.handles[str(self.last_handle)] = what
        self.since[str(self.last_handle)] = self.now
        return f"ok handle {self.last_handle}"

    def handle(self, word: str) -> Handle:
        return some(self.handles.get(word), "NoHandle")

    def do_open_write(self, path: str) -> str:
        file = self.file_at(path)
        row = self.files[file]
        if row.draft is None:
            row.draft = Draft(self.now, some(row.newest(), "Forgotten").slots)
        return self.opened(Handle(file))

    def do_open_read(self, tagged: str) -> str:
        file, version = self.version_of(tagged)
        return self.opened(Handle(file, version.number))

    def written_by(self, word: str) -> tuple[File, Draft]:
        """The file and the draft that a handle writes."""
        file, version = self.handle(word)
        check(version is not None, "NotWriter")
        row = self.files[file]
        return row, some(row.draft, "NotWriter")

    def do_write(self, handle: str, offset: str, word: str) -> str:
        row, draft = self.written_by(handle)
        data, start = b"" if word == "-" else bytes.fromhex(word), int(offset)
        if not data:
            return "ok done"
        end = start + len(data)
        check(end > LONGEST, "TooBig")
        old = content(draft.slots)
        made = old[:start].ljust(start, b"\0") + data + old[end:]
        first = min(start, len(old)) // SLOT
        draft.slots = rewritten(draft.slots, made, lambda slot: first <= slot and slot * SLOT < end, row.next)
        draft.changed = True
        return "ok done"

    def do_truncate(self, handle: str, word: str) -> str:
        row, draft = self.written_by(handle)
        size = int(word)
        check(size > LONGEST, "TooBig")
        old = content(draft.slots)
        if size != len(old):
            draft.slots = rewritten(draft.slots, old[:size].ljust(size, b"\0"), lambda slot: False, row.next)
            draft.changed = True
        return "ok done"

    def do_close(self, word: str) -> str:
        what = self.handle(word)
        del self.handles[word]
        if what.version is not None or what in self.handles.values():
            return "ok closed"
        row = self.files[what.file]
        draft, row.draft = row.draft, None
        if draft and draft.changed:
            return f"ok closed version {self.append(what.file, draft.opened, draft.slots)}"
        self.drop_idle(what.file)
        return "ok closed"

    def do_abandon(self, word: str) -> str:
        row, _ = self.written_by(word)
        what = self.handles.pop(word)
        if what not in self.handles.values():
            row.draft = None
            self.drop_idle(what.file)
        return "ok done"

    def do_note(self, word: str) -> str:
        check(word != "-" and len(bytes.fromhex(word)) > LONGEST_NOTE, "TooBig")
        return "ok done"

    # Versions without a session.

    def standing(self, place: Place) -> int | None:
        """The number of the file at a place, if something is there."""
        found = self.find(place)
        check(found and found.target.kind == "directory", "IsDirectory")
        return found.target.number if found else None

    def do_save(self, path: str, word: str) -> str:
        place = self.place_of(path)
        file, data = self.standing(place), b"" if word == "-" else bytes.fromhex(word)
        check(len(data) > LONGEST, "TooBig")
        return self.saved(self.file_made(place) if file is None else file, data)

    def saved(self, file: int, data: bytes) -> str:
        """Makes bytes a file's next version, which shares nothing."""
        return self.continued(file, rewritten([], data, lambda slot: True, self.files[file].next))

    def continued(self, file: int, slots: Slots) -> str:
        check(self.files[file].draft, "Drafting")
        return f"ok version {self.append(file, self.now, slots)}"

    def do_restore(self, path: str, word: str) -> str:
        check(int(word) > self.now, "Future")
        file, version = self.held_then(path, int(word))
        place = self.place_of(path)
        own, target = self.standing(place), Target("file", file)
        if own is None and not self.is_live(target):
            check(self.files[file].draft, "Drafting")
            self.names.append(Name(place, target, self.now))
            own = file
        if own == file:
            return self.continued(file, version.slots)
        return self.saved(self.file_made(place) if own is None else own, content(version.slots))

    def held_then(self, path: str, moment: int) -> tuple[int, Version]:
        """What a path held at a moment; if it named nothing then, what the file that it names now held."""
        try:
            file = self.file_at(path, moment)
        except No as no:
            try:
                file = self.file_at(path)
            except No:
                raise no from None
            lived = [it for it in self.files[file].versions if it.lived(moment)]
            if no.args[0] == "IsDirectory" or not lived:
                raise
            return file, lived[-1]
        return file, self.by_moment(file, moment)

    def do_revert(self, path: str, number: str) -> str:
        file = self.file_at(path)
        version = self.by_number(file, int(number))
        check(self.files[file].draft, "Drafting")
        return f"ok version {self.append(file, self.now, version.slots)}"

    # Policies and groups.

    def do_policy(self, path: str, policy: str) -> str:
        self.files[self.file_at(path)].policy = policy
        return "ok done"

    def do_default(self, path: str, policy: str) -> str:
        self.directories[self.directory_at(path)] = policy
        return "ok done"

    def group(self, name: str) -> Group:
        return some(next((it for it in self.groups if it.name == name), None), "NoGroup")

    def do_group_make(self, name: str) -> str:
        check(any(it.name == name for it in self.groups), "GroupExists")
        self.groups.append(Group(name))
        return "ok done"

    def do_group_drop(self, name: str) -> str:
        self.groups.remove(self.group(name))
        return "ok done"

    def do_group_add(self, name: str, path: str) -> str:
        group, file = self.group(name), self.file_at(path)
        check(file in group.members, "AlreadyMember")
        group.members.append(file)
        return "ok done"

    def do_group_remove(self, name: str, path: str) -> str:
        group, file = self.group(name), self.file_at(path)
        check(file not in group.members, "NotMember")
        group.members.remove(file)
        return "ok done"

    def do_mark(self, name: str, word: str, end: str | None = None) -> str:
        group, at, until = self.group(name), int(word), None if end is None else int(end)
        check(at >= self.now, "NotPast")
        check(until is not None and until <= self.now, "NotAhead")
        check(any(it.at == at for it in group.marks), "MarkExists")
        group.marks.append(Mark(at, until))
        return "ok done"

    def do_unmark(self, name: str, at: str) -> str:
        group = self.group(name)
        check(all(it.at != int(at) for it in group.marks), "NoMark")
        group.marks = [it for it in group.marks if it.at != int(at)]
        return "ok done"

    def do_clean(self) -> str:
        keys = self.keys(self.now)
        if not keys:
            return "ok nothing"
        ripe, file, number = keys[0]
        row = self.files[file]
        version = some(row.held(number), "Forgotten")
        fate = self.held_fate(file, version)
        self.removals.append(Removal(self.now, file, number, self.path_of(Target("file", file)), fate))
        self.told.append(f"- {self.now} {file} {number} {last_name(self.names, file)} {fate}")
        self.taken.append(Taken(file, number, f"{known(version)} removed {self.now} {fate}", copied(self.names)))
        row.versions = [it for it in row.versions if it.number != number]
        self.drop_idle(file)
        return f"ok removed {ripe} {file} {number}"

    # Lists and reads.

    def do_read(self, source: str) -> str:
        data = content(self.version_of(source)[1].slots if source.startswith("/") else self.slots_of(source))
        return f"ok bytes {len(data)} {data.hex() or '-'}"

    def slots_of(self, word: str) -> Slots:
        """What a handle reads."""
        file, version = self.handle(word)
        row = self.files[file]
        if version is None:
            return some(row.draft, "NoHandle").slots
        return some(row.held(version), "Forgotten").slots

    def do_stat(self, tagged: str) -> str:
        (kind, number), sign, word = self.target_of(tagged)
        if kind == "directory":
            check(sign == "#", "IsDirectory")
            return f"ok directory {number} default {self.directories[number]}"
        it = self.meant(number, sign, word)
        times = f"opened {it.opened} closed {it.closed} ended {or_dash(it.ended)}"
        return f"ok file {number} version {it.number} {times} length {len(content(it.slots))} policy {self.files[number].policy}"

    def do_versions(self, at: str) -> Block:
        kind, number = self.target_of(at).target
        check(kind == "directory", "IsDirectory")
        rows = self.files[number].versions
        return listed("versions", [(it.number, it.opened, it.closed, or_dash(it.ended), len(content(it.slots))) for it in rows])

    def do_list(self, at: str) -> Block:
        path, _, word = at.partition("@")
        moment = int(word) if word else None
        check(moment is not None and moment > self.now, "Future")
        number = self.directory_at(path, moment)
        rows = [it for it in self.names if it.place.directory == number and it.covers(moment)]
        return listed("names", sorted((it.place.name, *it.target) for it in rows))

    def do_restorable(self) -> Block:
        newest = [self.newest(it) for it in {it.place for it in self.names}]
        rows = [(*it.place, *it.target) for it in newest if it and it.death is not None and self.may_return(it.target)]
        return listed("restorable", sorted(rows))

    def do_due(self) -> Block:
        return listed("due", self.keys(self.now))

    def do_usage(self) -> Block:
        return listed("usage", [(kind, *self.used(kind)) for kind in KINDS])

    def used(self, kind: str) -> tuple[int, int, int, int]:
        """Returns how many files a kind of policy has, their versions, the bytes of these, and the blocks of all."""
        files = [(number, it) for number, it in self.files.items() if it.policy.partition(":")[0] == kind]
        versions = [(number, it.slots) for number, file in files for it in file.versions]
        drafts = [(number, file.draft.slots) for number, file in files if file.draft]
        blocks = {(number, at, writer) for number, slots in versions + drafts for at, (_, writer) in enumerate(slots)}
        return len(files), len(versions), sum(len(content(slots)) for _, slots in versions), len(blocks)

    def do_groups(self) -> Block:
        def words(rows: Iterable[object]) -> str:
            return ",".join(map(str, rows)) or "-"

        return listed("groups", [(it.name, "members", words(it.members), "marks", words(it.marks)) for it in self.groups])
