"""Contents of versions: what kind they are, and how two of them differ. All of it is bounded."""

from __future__ import annotations

from collections import Counter
from collections.abc import Iterator, Sequence
from difflib import SequenceMatcher
from typing import NamedTuple, Optional

# How much of a text is shown, in signs and lines; of two texts to compare, in lines of each; and how much of other contents, in bytes.
MOST_SIGNS, MOST_LINES, MOST_COMPARED, MOST_HEX = 200_000, 4_000, 4_000, 4_096
# The most pairs of equal lines: a comparison takes a time that grows with them.
MOST_PAIRS = 200_000
CONTEXT = 3
LINE = 400
_IMAGES = (
    (b"\x89PNG\r\n\x1a\n", "image/png"), (b"\xff\xd8\xff", "image/jpeg"), (b"GIF87a", "image/gif"), (b"GIF89a", "image/gif"),
)


class Difference(NamedTuple):
    """A line of a comparison: `kind` is `same`, `less`, `more` or `gap`, with its numbers in both texts."""

    kind: str
    old: Optional[int]
    new: Optional[int]
    text: str


def image_type(content: bytes) -> Optional[str]:
    """Returns the type of an image by its first bytes, or None. A drawing with scripts is none."""
    if content[:4] == b"RIFF" and content[8:12] == b"WEBP":
        return "image/webp"
    return next((it for begin, it in _IMAGES if content.startswith(begin)), None)


def text_of(content: bytes) -> Optional[str]:
    """Returns the text of a content, or None if it is none."""
    if b"\0" in content:
        return None
    try:
        return content.decode("utf-8")
    except UnicodeDecodeError:
        return None


def shortened(text: str) -> tuple[str, bool]:
    """Returns the beginning of a text that may be shown, and whether that is all of it."""
    lines = text[:MOST_SIGNS].split("\n")
    part = "\n".join(lines[:MOST_LINES])
    return part, len(part) == len(text)


def hex_lines(content: bytes) -> Iterator[str]:
    """Yields lines of the first bytes: the offset, the bytes, and their ASCII signs."""
    for at in range(0, min(len(content), MOST_HEX), 16):
        row = content[at:at + 16]
        signs = "".join(chr(it) if 32 <= it < 127 else "." for it in row)
        yield f"{at:06x}  {row.hex(' '):<47}  {signs}"


def compared(old: str, new: str) -> Optional[list[Difference]]:
    """Returns the lines in which two texts differ, with some around them; None if that would take too long."""
    before, after = old.splitlines(), new.splitlines()
    if max(len(before), len(after)) > MOST_COMPARED:
        return None
    counts = Counter(before)
    if sum(counts[line] for line in after) > MOST_PAIRS:
        return None
    rows: list[Difference] = []
    last = 0
    for group in SequenceMatcher(None, before, after).get_grouped_opcodes(CONTEXT):
        if group[0][1] > last:
            rows.append(Difference("gap", None, None, ""))
        for word, a, b, c, d in group:
            rows += _rows(word, before, after, (a, b, c, d))
            last = b
    if rows and last < len(before):
        rows.append(Difference("gap", None, None, ""))
    return rows


def _rows(word: str, before: Sequence[str], after: Sequence[str], places: tuple[int, int, int, int]) -> Iterator[Difference]:
    a, b, c, d = places
    if word == "equal":
        yield from (Difference("same", a + at + 1, c + at + 1, before[a + at][:LINE]) for at in range(b - a))
        return
    yield from (Difference("less", at + 1, None, before[at][:LINE]) for at in range(a, b))
    yield from (Difference("more", None, at + 1, after[at][:LINE]) for at in range(c, d))


def first_difference(old: bytes, new: bytes) -> Optional[int]:
    """Returns the offset of the first byte in which two contents differ, or None if they are equal."""
    if old == new:
        return None
    shorter = min(len(old), len(new))
    return next((at for at in range(shorter) if old[at] != new[at]), shorter)


def hex_around(old: bytes, new: bytes, offset: Optional[int]) -> Iterator[tuple[str, str]]:
    """Yields lines of both contents around an offset, each as offset and bytes."""
    start = max((offset or 0) // 16 * 16 - 32, 0)
    for at in range(start, min(start + 256, max(len(old), len(new))), 16):
        yield f"{at:06x}  {old[at:at + 16].hex(' '):<47}", f"{at:06x}  {new[at:at + 16].hex(' '):<47}"
