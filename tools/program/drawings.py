"""Draws forecasts as docs/POLICIES.md describes them, apart from the program, so that a tool can compare whole drawings.

A drawing is an SVG document. Its moments stand from 150 to 896 pixels from the left, and its rows and strips from above to below.
"""

import datetime
from collections import Counter
from collections.abc import Callable, Iterator, Sequence
from typing import NamedTuple

LAST = 253402300799
WORDS = {"day": 86_400, "hour": 3600, "minute": 60, "second": 1}
COLUMNS = 187
# A curve shows at most so many bytes.
MOST_BYTES = 2**64 - 1
TOO_LATE = "not before the year 10000"
# A span of so many seconds has ticks that are so many seconds apart, or else on Mondays, or so many months apart.
SECONDS = [
    (6, 1), (30, 5), (60, 10), (180, 30), (360, 60), (1800, 300), (3600, 600), (10_800, 1800), (21_600, 3600), (64_800, 10_800),
    (129_600, 21_600), (259_200, 43_200), (604_800, 86_400), (1_209_600, 172_800),
]
MONDAYS = 5_443_200
MONTHS = [
    (18_748_800, 1), (55_900_800, 3), (110_678_400, 6), (220_924_800, 12), (441_849_600, 24), (1_104_537_600, 60), (2_209_075_200, 120),
    (11_045_376_000, 600), (22_090_752_000, 1200), (110_453_760_000, 6000), (LAST, 12_000),
]
GRID, THIN = "#bbb' stroke-width='0.5", "#000' stroke-width='0.6"
DOTTED, DASHED = f"{THIN}' stroke-dasharray='1.5 2.5", "#000' stroke-width='1.2' stroke-dasharray='6 3"
BAR = "#3f7fbf' stroke-width='3"
CURVES = [
    "#14375a' stroke-width='1.8", "#d35400' stroke-width='1.8' stroke-dasharray='9 3", "#3f7fbf' stroke-width='1.8' stroke-dasharray='4 2",
    "#7d3c98' stroke-width='1.8' stroke-dasharray='1.5 2",
]
PAPER, CURRENT, KEPT, DUE, STAYS, HATCHED = "#fff", "#14375a", "#3f7fbf", "#f5b041", "#000", "url(#hatch)"
REFERENCES = {"&": "&amp;", "<": "&lt;", ">": "&gt;", "'": "&#39;", '"': "&quot;", "\ufffe": "\ufffd", "\uffff": "\ufffd"}
HEAD = """<?xml version='1.0' encoding='UTF-8'?>
<!DOCTYPE svg PUBLIC '-//W3C//DTD SVG 1.1//EN' 'http://www.w3.org/Graphics/SVG/1.1/DTD/svg11.dtd'>
<svg xmlns='http://www.w3.org/2000/svg' version='1.1' font-family='sans-serif' width='960' height='{height}'>
<title>{title}</title>
<style>text{{paint-order:stroke;stroke:#fff;stroke-width:5px;stroke-linejoin:round}}
@media (prefers-color-scheme:dark){{text{{fill:#e6e6e6;stroke:#1b1e23}}[fill='#fff']{{fill:#1b1e23}}[fill='#000']{{fill:#fff}}\
[fill='#14375a']{{fill:#8fc1f0}}
[stroke='#000']{{stroke:#ccc}}[stroke='#bbb']{{stroke:#4a4f57}}[stroke='#555']{{stroke:#999}}[stroke='#14375a']{{stroke:#8fc1f0}}\
[stroke='#7d3c98']{{stroke:#c39bd3}}[stroke='#d35400']{{stroke:#f0955a}}}}</style>
<defs><pattern id='hatch' width='6' height='6' patternUnits='userSpaceOnUse'>\
<path d='M0,6 6,0' stroke='#555' stroke-width='0.8'/></pattern></defs>
<rect width='960' height='{height}' fill='#fff'/>
<text x='20' y='20' font-size='15'>{title}</text>
"""
LEGEND = [
    (20, 47, 8, 8, PAPER, 33, "closed"), (90, 48, 20, 6, CURRENT, 115, "current"), (180, 48, 20, 6, KEPT, 205, "kept by the policy"),
    (320, 49, 20, 3, DUE, 345, "due: may be removed"), (475, 47, 8, 8, STAYS, 488, "stays at the moment of a broken line"),
]


def stamp(moment: int) -> str:
    """Returns a moment as a date and a time of day."""
    day = datetime.datetime(1970, 1, 1) + datetime.timedelta(seconds=moment)
    return day.strftime("%Y-%m-%dT%H:%M:%SZ")


def counted(seconds: int) -> tuple[str, str]:
    """Returns a length as a number and a word: `1 day`, `90 minutes`."""
    word, worth = next((word, worth) for word, worth in WORDS.items() if seconds % worth == 0)
    return str(seconds // worth), word if seconds == worth else f"{word}s"


def length(seconds: int) -> str:
    return " ".join(counted(seconds))


class Version(NamedTuple):
    """A version under a policy. A version that another displaces has the level at which it does."""

    number: int
    closed: int
    ended: int | None
    due: int | None
    why: str
    level: int | None

    def row(self) -> str:
        """Returns the version's row of the table."""
        moments = (stamp(self.closed), *("-" if it is None else stamp(it) for it in (self.ended, self.due)))
        return " ".join([str(self.number), *moments, self.why])

    def end(self) -> str:
        """Returns what stands where the bar of the version ends."""
        if self.due is None:
            return "current" if self.why == "current" else "kept"
        return "due" if self.level is None else f"due by v{self.number + 1}"

    def passes(self, level: int) -> bool:
        return self.due is None or self.level is None or level < self.level


class Plan(NamedTuple):
    """The versions of a file under a policy, and how it is told which of them stay at a moment."""

    policy: str
    versions: list[Version]
    stay: Callable[[int], list[int]]

    def rungs(self) -> list[tuple[int, int]]:
        """Returns the age and the width of each level of a ladder."""
        kind, _, numbers = self.policy.partition(":")
        pairs = (it.split("/") for it in numbers.split(",")) if kind == "landmarks" else []
        return [(int(age), int(width)) for age, width in pairs]

    def name(self) -> str:
        """Returns the policy's name with its numbers."""
        kind, _, numbers = self.policy.partition(":")
        seconds, _, floor = numbers.partition("/")
        if kind == "landmarks":
            return "Keep Landmarks (age / span)" + "".join(f", {length(age)} / {length(width)}" for age, width in self.rungs())
        if kind == "safe":
            return f"Keep Safe for {length(int(seconds))}" + (f" with a floor of {floor}" if int(floor or 0) else "")
        return f"Keep {kind.capitalize()}"


class Page(NamedTuple):
    """The first and the last moment of a drawing, where its rows begin and end, how high a row is, and how many rows its labels have."""

    first: int
    last: int
    top: int
    foot: int
    row: int
    labels: int

    def x(self, moment: int | None) -> int:
        """Returns where a moment stands; none is behind the right edge."""
        if moment is None:
            return 910
        span = self.last - self.first
        return 150 + min(max(moment - self.first, 0), span) * 746 // (span + 1)

    def y(self, number: int) -> int:
        return self.top + self.row * min(number, 2000)

    def told(self, moment: int, date: str) -> str:
        """Returns a moment in seconds in the first ten days of 1970, and else as a date."""
        return str(moment) if self.last < 864_000 else date


def rect(x: int, y: int, width: int, height: int, fill: str) -> str:
    return f"<rect x='{x}' y='{y}' width='{width}' height='{height}' fill='{fill}' stroke='#000' stroke-width='0.6'/>\n"


def line(start: tuple[int, int], end: tuple[int, int], stroke: str) -> str:
    return f"<line x1='{start[0]}' y1='{start[1]}' x2='{end[0]}' y2='{end[1]}' stroke='{stroke}'/>\n"


def words(x: int, y: int, size: int, anchor: str, said: str) -> str:
    return f"<text x='{x}' y='{y}' font-size='{size}' text-anchor='{anchor}'>{said}</text>\n"


def xml(text: str) -> str:
    """Returns a text as XML has it."""
    return "".join(REFERENCES.get(it, " " if it < " " or it == "\x7f" else it) for it in text)


def head(page: Page, title: str) -> str:
    """Returns what stands above every drawing."""
    said = xml(title) or "Retention forecast"
    return HEAD.format(height=page.foot + 24 + 12 * page.labels, title=said)


def months(page: Page, step: int) -> Iterator[tuple[int, str]]:
    """Yields the first of each month that is a multiple of the step, counted from the year 0."""
    for month in range(12 * 1970 // step * step, 12 * 10_000, step):
        if month >= 12 * 1970:
            day = datetime.date(month // 12, month % 12 + 1, 1)
            yield (day - datetime.date(1970, 1, 1)).days * 86_400, day.isoformat()[: 7 if step < 12 else 4]


def ticks(page: Page) -> Iterator[tuple[int, str]]:
    """Yields the moments that have ticks, and their dates."""
    span = page.last - page.first
    if span > MONDAYS:
        every = months(page, next(step for most, step in MONTHS if span <= most))
        yield from (it for it in every if page.first < it[0] <= page.last)
        return
    week = 604_800
    step = next((step for most, step in SECONDS if span <= most), week)
    start = 4 * 86_400 if step == week else 0
    for moment in range(start + (page.first - start) // step * step, page.last + 1, step):
        if moment > page.first:
            yield moment, stamp(moment) if step < 86_400 else stamp(moment)[:10]


def foot(page: Page) -> str:
    """Returns the ticks with their moments."""
    return "".join(
        line((page.x(it), page.top), (page.x(it), page.foot), GRID) + words(page.x(it), page.foot + 12, 9, "middle", page.told(it, date))
        for it, date in ticks(page)
    )


def asked_lines(page: Page, asked: Sequence[int]) -> str:
    return "".join(line((page.x(it), page.top), (page.x(it), page.foot), DASHED) for it in asked)


def labels(page: Page, asked: Sequence[int]) -> str:
    """Returns the labels of the moments that are asked about, each on the first of three rows on which it touches no other."""
    width = 48 if page.last < 864_000 else 124
    rows: list[list[int]] = [[], [], []]
    found = []
    for moment in asked:
        x = page.x(moment)
        free = (row for row, taken in enumerate(rows) if not taken or x - max(taken) >= width or min(taken) - x >= width)
        row = next(free, None)
        if row is not None:
            rows[row].append(x)
            found.append(words(x, page.foot + 26 + 12 * row, 10, "middle", page.told(moment, stamp(moment))))
    return "".join(found)


def note(x: int, y: int, said: str) -> str:
    """Returns a text beside a line: left of it, if there is no room on its right."""
    return words(x + 4, y, 9, "start", said) if x < 800 else words(x - 4, y, 9, "end", said)


def kept_notes(page: Page, place: int, plan: Plan, asked: Sequence[int]) -> str:
    """Returns how many versions stay under a policy, beside the moments that are asked about."""
    return "".join(note(page.x(at), page.top + 10 + 11 * place, f"{len(plan.stay(at))} stay") for at in asked)


def newest(page: Page, versions: Sequence[Version]) -> str:
    """Returns where the last version closed, unless the drawing ends there."""
    if not versions or versions[-1].closed >= page.last:
        return ""
    x = page.x(versions[-1].closed)
    return line((x, page.top), (x, page.top + 240), DOTTED) + note(x, page.top + 232, "no newer version")


def frame(top: int, said: str) -> str:
    """Returns what a band or a strip has at its left, and its frame."""
    return words(140, top + 11, 8, "end", said) + rect(150, top, 746, 16, PAPER)


def level_words(rung: tuple[int, int]) -> str:
    return f"age {length(rung[0])}, span {length(rung[1])}"


def bands(page: Page, rungs: Sequence[tuple[int, int]]) -> str:
    """Returns a band for each level of a ladder, with the borders of its spans, or hatches if these are too narrow."""
    found = []
    for level, rung in enumerate(rungs, 1):
        top, width = 40 + 22 * level, rung[1]
        found.append(frame(top, level_words(rung)))
        if (page.last - page.first) // 248 < width:
            borders = range((page.first // width + 1) * width, page.last + 1, width)
            found += [line((page.x(it), top), (page.x(it), top + 16), THIN) for it in borders]
        else:
            found += [rect(150, top, 746, 16, HATCHED), words(523, top + 11, 9, "middle", "spans too narrow to draw")]
    return "".join(found)


def square(page: Page, x: int, y: int, fill: str) -> str:
    return rect(x - page.row // 4, y - page.row // 4, page.row // 2, page.row // 2, fill)


def version(page: Page, it: Version) -> str:
    """Returns the row of a version."""
    x, y, end, thin = page.x(it.closed), page.y(it.number), page.x(it.due), page.row // 6
    size = page.row // 2 + 2
    return (
        f"<g><title>version {it.row()}\n</title>\n"
        + rect(end, y - page.row // 12, max(896 - end, 0), thin, DUE)
        + rect(x, y - thin, max(end - x, 1), page.row // 3, KEPT)
        + rect(x, y - thin, max(page.x(it.ended) - x, 1), page.row // 3, CURRENT)
        + square(page, x, y, PAPER)
        + words(140, y + thin, size, "end", f"v{it.number}")
        + words(end + 4, y + thin, size, "start", it.end())
        + "</g>\n"
    )


def ties(page: Page, versions: Sequence[Version]) -> str:
    """Returns the lines from the versions that others displace to these."""
    found = []
    for it, other in zip(versions, versions[1:]):
        if it.due is not None and it.level is not None:
            x, y = page.x(it.due), page.y(other.number)
            found += [line((x, page.y(it.number)), (x, y), DOTTED), line((page.x(other.closed), y), (x, y), DOTTED)]
    return "".join(found)


def reach(plan: Plan, asked: Sequence[int]) -> int:
    """Returns the last moment that a plan draws."""
    return max([0, *asked, *(it.closed if it.due is None else it.due for it in plan.versions)])


def rows(title: str, plan: Plan, asked: Sequence[int]) -> str:
    """Returns a drawing with a row for each version."""
    count, row = len(plan.versions), 18 if len(plan.versions) <= 60 else 10
    top = 66 + 22 * len(plan.rungs())
    page = Page(plan.versions[0].closed if count else 0, reach(plan, asked), top, top + row * (count + 1), row, min(len(asked), 3))
    legend = "".join(
        f"{rect(*box[:5])[:-1]}<text x='{box[5]}' y='55'>{box[6]}</text>\n" for box in LEGEND
    )
    stay = "".join(square(page, page.x(at), page.y(number), STAYS) for at in asked for number in plan.stay(at))
    heading = f"<text x='20' y='37' font-size='11'>{count} versions under {plan.name()}</text>\n<g font-size='10'>\n{legend}</g>\n"
    drawn = ties(page, plan.versions) + asked_lines(page, asked) + "".join(version(page, it) for it in plan.versions) + stay
    drawn += kept_notes(page, 0, plan, asked)
    return head(page, title) + heading + foot(page) + bands(page, plan.rungs()) + drawn + labels(page, asked) + "</svg>\n"


def strip(page: Page, level: int, said: str, versions: Sequence[Version]) -> str:
    """Returns the strip of a level: a bar for each column in which versions closed that pass it, as high as they are many."""
    top = page.top + 254 + 22 * level
    counts = Counter((page.x(it.closed) - 150) // 4 for it in versions if it.passes(level))
    most = max(counts.values(), default=1)
    bars = ((152 + 4 * column, 1 + counts[column] * 15 // most) for column in sorted(counts))
    return frame(top, said) + "".join(line((x, top + 16), (x, top + 16 - height), BAR) for x, height in bars)


def in_bytes(amount: int) -> str:
    """Returns bytes in the largest unit of which they are a multiple."""
    units = [(10**12, "TB"), (10**9, "GB"), (10**6, "MB"), (1000, "kB")] if amount else []
    size, name = next((it for it in units if amount % it[0] == 0), (1, "B"))
    return f"{amount // size} {name}"


def axis(page: Page, highest: int, sized: bool) -> str:
    """Returns the axis: what it counts, what the bars of strips mean, and a line at each multiple of 1, 2 or 5 times a power of ten."""
    scale = next(it for it in (10**power for power in range(20)) if highest // it <= 25)
    tenth = highest // scale
    step = scale * (1 if tenth <= 5 else 2 if tenth <= 10 else 5)
    found = [
        words(150, page.top - 4, 9, "start", "bytes that stay" if sized else "versions that stay"),
        words(150, page.top + 250, 8, "start", "bars: how many versions closed then that a level lets stay"),
    ]
    for amount in range(0, min(highest // step, 9) * step + 1, step):
        y = page.top + 240 - amount * 240 // highest
        found += [line((150, y), (896, y), GRID), words(144, y + 3, 9, "end", in_bytes(amount) if sized else str(amount))]
    return "".join(found)


def summary(title: str, plans: Sequence[Plan], asked: Sequence[int], sizes: Sequence[int] | None) -> str:
    """Returns a drawing of curves and strips. The curves are of bytes, if versions have sizes."""
    versions, rungs = plans[0].versions, plans[0].rungs() if len(plans) == 1 else []
    top = 66 + 16 * len(plans)
    first, last = versions[0].closed if versions else 0, max(reach(it, asked) for it in plans)
    page = Page(first, last, top, top + 254 + 22 * (len(rungs) + 1), 0, min(len(asked), 3))
    moments = [first + (last - first) * column // (COLUMNS - 1) for column in range(COLUMNS)]
    kept = [[it.stay(moment) for moment in moments] for it in plans]
    amounts = [[len(them) if sizes is None else min(MOST_BYTES, sum(sizes[it - 1] for it in them)) for them in of] for of in kept]
    highest = max(1, *(amount for of in amounts for amount in of))
    found = [head(page, title), f"<text x='20' y='37' font-size='11'>{len(versions)} versions, and what stays over time</text>\n"]
    for place, plan in enumerate(plans):
        y = 50 + 16 * place
        found += [line((20, y), (54, y), CURVES[place % 4]), f"<text x='58' y='{y + 4}' font-size='11'> {plan.name()}</text>\n"]
    found += [foot(page), axis(page, highest, sizes is not None), strip(page, 0, "all versions, by closing", versions)]
    found += [strip(page, level, level_words(rung), versions) for level, rung in enumerate(rungs, 1)]
    found.append(asked_lines(page, asked))
    for place, of in enumerate(amounts):
        points = "".join(f"{page.x(moment)},{top + 240 - amount * 240 // highest} " for moment, amount in zip(moments, of))
        found.append(f"<polyline fill='none' stroke='{CURVES[place % 4]}' points='{points}'/>\n")
    found.append(newest(page, versions))
    found += [kept_notes(page, place, plan, asked) for place, plan in enumerate(plans)]
    return "".join([*found, labels(page, asked), "</svg>\n"])


def drawing(title: str, plans: Sequence[Plan], asked: Sequence[int], sizes: Sequence[int] | None = None) -> str:
    """Returns the drawing of some policies."""
    is_single = len(plans) == 1 and len(plans[0].versions) <= 200 and sizes is None
    return rows(title, plans[0], asked) if is_single else summary(title, plans, asked, sizes)


class Group(NamedTuple):
    """Versions that are kept by both, only here or only there: who keeps them, their numbers and, if versions have sizes, their bytes."""

    keeper: str
    numbers: Sequence[int]
    size: int | None

    def said(self) -> str:
        amount = "" if self.size is None else f" with {self.size} bytes"
        return f"kept {self.keeper}: {len(self.numbers)}{amount}"


def comparison(title: str, word: str, closings: Sequence[int], at: int, groups: Sequence[Group], unknown: int) -> str:
    """Returns the drawing of who keeps which versions: a strip of all, and one of each group."""
    page = Page(closings[0] if closings else 0, max([at, *closings[-1:]]), 66, 202, 0, 1)
    columns = [(page.x(it) - 150) // 4 for it in closings]

    def bars(top: int, counts: Counter[int], stroke: str) -> str:
        most = max(counts.values(), default=1)
        heights = ((152 + 4 * column, 1 + counts[column] * 15 // most) for column in sorted(counts))
        return "".join(line((x, top + 16), (x, top + 16 - height), stroke) for x, height in heights)

    by, what = xml(word), "bars: how many versions closed then; labels there that no version has:"
    found = [
        head(page, title),
        f"<text x='20' y='37' font-size='11'>{len(closings)} versions, kept here by {by}, and there by another tool</text>\n",
        f"<text x='20' y='53' font-size='10'>{what} {unknown}</text>\n",
        foot(page), frame(66, "all versions, by closing"), bars(66, Counter(columns), BAR),
    ]
    for top, stroke, group in zip((90, 126, 162), (CURVES[0], CURVES[2], CURVES[1]), groups):
        found += [
            line((104, top + 24), (140, top + 24), stroke), rect(150, top + 16, 746, 16, PAPER),
            f"<text x='150' y='{top + 10}' font-size='10'>{group.said()}</text>\n",
            bars(top + 16, Counter(columns[it - 1] for it in group.numbers), stroke),
        ]
    return "".join([*found, asked_lines(page, [at]), labels(page, [at]), "</svg>\n"])
