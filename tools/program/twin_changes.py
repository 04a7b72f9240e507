"""What changed between two moments, as the second description of `tools/program/twin` tells it.

It takes the names of each moment as a set of pairs of a place and a target, and what is in one of the sets alone.
"""

from collections.abc import Callable, Sequence

from program.twin_rows import ROOT, Block, Name, Place, Target, or_dash

# The number of the held version that a target had at a moment.
Numbers = Callable[[Target, int], int | None]


class Moment:
    """The names that were there at a moment."""

    def __init__(self, names: Sequence[Name], moment: int) -> None:
        self.moment = moment
        self.names = {it.place: it.target for it in names if it.covers(moment)}

    def has(self, name: Name) -> bool:
        return self.names.get(name.place) == name.target

    def is_named(self, target: Target) -> bool:
        return target in self.names.values()

    def path_of(self, place: Place) -> str:
        """Returns the path of a name that was there."""
        above = "" if place.directory == ROOT.number else self.path_of(self.place_of(Target("directory", place.directory)))
        return f"{above}/{place.name}"

    def place_of(self, target: Target) -> Place:
        return next(place for place, found in self.names.items() if found == target)


def is_within(path: str | None, within: str | None) -> bool:
    """Whether a path is at another one, or below it."""
    return path is not None and (within in (None, "/") or path == within or path.startswith(f"{within}/"))


def kind_of_new(names: Sequence[Name], first: Moment, target: Target) -> str:
    if first.is_named(target):
        return "linked"
    return "back" if any(it.target == target and it.birth <= first.moment for it in names) else "made"


def changes(names: Sequence[Name], numbers: Numbers, first: int, second: int, within: str | None) -> Block:
    """Returns the answer to `changes`, of moments that aren't refused."""
    was, now = Moment(names, first), Moment(names, second)
    lost = [it for it in names if it.covers(first) and not now.has(it)]
    new = [it for it in names if it.covers(second) and not was.has(it)]
    # The first name that a target has lost, by the first one that it has got.
    moved = {}
    for target in {it.target for it in lost}:
        came = next((at for at, it in enumerate(new) if it.target == target), None)
        if came is not None:
            moved[came] = next(it for it in lost if it.target == target)
    rows = []
    for name in names:
        target, before, after = name.target, None, None
        numbered = numbers(target, first), numbers(target, second)
        if any(name is it for it in lost):
            if any(name is it for it in moved.values()):
                continue
            kind, before = "unlinked" if now.is_named(target) else "deleted", was.path_of(name.place)
        elif any(name is it for it in new):
            old = moved.get(next(at for at, it in enumerate(new) if it is name))
            kind, after = "renamed" if old else kind_of_new(names, was, target), now.path_of(name.place)
            before = was.path_of(old.place) if old else None
        elif name.covers(first) and target.kind == "file" and (numbered[0] != numbered[1] or numbered[0] is None):
            kind = "forgotten" if numbered == (None, None) else "saved"
            before, after = was.path_of(name.place), now.path_of(name.place)
        else:
            continue
        if is_within(before, within) or is_within(after, within):
            words = (kind, target.kind, target.number, or_dash(numbered[0]), or_dash(numbered[1]), before or "-", after or "-")
            rows.append(f"- {' '.join(map(str, words))}")
    return [f"ok changes {len(rows)}", *rows]
