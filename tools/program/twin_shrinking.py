"""Shrinks a script that the program answers otherwise than the twin, by hypothesis: `twin_shrinking.py PROGRAM < SCRIPT`.

Shrinking drops lines, and leads to the simplest word. A line that uses a handle gets the number that its handle has once other lines are
dropped.
"""

import re
import sys
from collections.abc import Callable, Sequence
from pathlib import Path
from random import Random
from typing import NamedTuple

from hypothesis import find
from hypothesis import strategies as st

sys.path.insert(0, str(Path(__file__).resolve().parents[1]))

from gate.shrinking import HOW, nearly_always, with_fewer
from program.twin_rows import Block
from program.twin_scripts import difference
from program.twin_world import Twin

NUMBER = re.compile(r"\d+")
PATH = re.compile(r"([^@#]*)(.*)")
OPENED = "ok handle "


class Step(NamedTuple):
    """A line: its place in the script that is shrunken, its words, and the place of the line that opened its handle."""

    place: int
    words: tuple[str, ...]
    opener: int | None


Steps = list[Step]


def steps_of(lines: Sequence[str]) -> Steps:
    """Returns the lines of a script with the handles that they use."""
    twin, openers, steps = Twin(), dict[str, int](), []
    for place, line in enumerate(lines):
        words = tuple(line.split())
        uses_handle = words[0] in ("write", "truncate", "close", "read") and words[1] in openers
        steps.append(Step(place, words, openers[words[1]] if uses_handle else None))
        answer = twin.answer(line)[0]
        if answer.startswith(OPENED):
            openers[answer.removeprefix(OPENED)] = place
    return steps


def answered(steps: Steps) -> tuple[list[str], list[Block]]:
    """Returns the lines, with the numbers that their handles have now, and the twin's answers."""
    twin, handles = Twin(), dict[int, str]()
    lines: list[str] = []
    blocks: list[Block] = []
    for place, words, opener in steps:
        if opener is not None:
            words = (words[0], handles.get(opener, "0"), *words[2:])
        lines.append(" ".join(words))
        blocks.append(twin.answer(lines[-1]))
        if blocks[-1][0].startswith(OPENED):
            handles[place] = blocks[-1][0].removeprefix(OPENED)
    return lines, blocks


def smaller_numbers(word: str) -> list[str]:
    """Returns the word with a smaller number in the place of one of its numbers."""
    found = []
    for at in NUMBER.finditer(word):
        number = int(at[0])
        found += [f"{word[:at.start()]}{it}{word[at.end():]}" for it in sorted({0, 1, number // 2, number - 1}) if 0 <= it < number]
    return found


def simpler_policies(word: str) -> list[str]:
    """Returns simpler policies. A ladder stays one without some of its steps."""
    kind, _, steps = word.partition(":")
    if kind != "landmarks":
        return ["one", "all", *smaller_numbers(word)]
    parts = steps.split(",")
    rest = [",".join([*parts[:at], *parts[at + 1:]]) for at in range(len(parts)) if len(parts) > 1]
    return ["one", "all", "safe:1", *(f"landmarks:{it}" for it in [*parts, *rest])]


def simpler(step: Step, at: int) -> list[str]:
    """Returns simpler words for a word of a line, the simplest first."""
    command, word = step.words[0], step.words[at]
    found = smaller_numbers(word)
    if at == 0 or at == 1 and step.opener is not None:
        found = []
    elif (command, at) == ("write", 3):
        found = ["61", word[:2], word[:len(word) // 4 * 2]]
    elif command in ("policy", "default") and at == 2:
        found = simpler_policies(word)
    elif word.startswith("/"):
        path, tag = PATH.findall(word)[0]
        found = [f"/f{tag}", f"/{path.rpartition('/')[2]}{tag}", path, *(f"{path}{it}" for it in smaller_numbers(tag))]
    return [it for it in dict.fromkeys(found) if it not in ("", word)]


def with_simpler_words(steps: Steps) -> st.SearchStrategy[Steps]:
    """Draws the lines with some simpler words."""
    words = [st.tuples(*(nearly_always(word, simpler(step, at)) for at, word in enumerate(step.words))) for step in steps]
    return st.tuples(*words).map(lambda drawn: [step._replace(words=it) for step, it in zip(steps, drawn)])


def shrink(lines: Sequence[str], is_wrong: Callable[[list[str], list[Block]], bool]) -> list[str]:
    """Shrinks a script that is wrong by lines and by words in turn, until no line can be dropped. `is_wrong` takes lines and the
    twin's answers to them."""

    def fails(steps: Steps) -> bool:
        return is_wrong(*answered(steps))

    steps, count = steps_of(lines), len(lines) + 1
    while len(steps) < count:
        count = len(steps)
        steps = find(with_fewer(steps), fails, settings=HOW, random=Random(1))
        if len(steps) < count:
            steps = find(with_simpler_words(steps), fails, settings=HOW, random=Random(1))
    return answered(steps)[0]


def main() -> int:
    program, lines = sys.argv[1], sys.stdin.read().splitlines()
    print("\n".join(shrink(lines, lambda *script: difference(program, *script) is not None)))
    return 0


if __name__ == "__main__":
    sys.dont_write_bytecode = True
    sys.exit(main())
