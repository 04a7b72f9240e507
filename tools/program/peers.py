"""The rules of restic, borg, btrbk, snapper and sanoid, as ele_peer_rules and ele_btrbk_rules say them, and random lists and rules."""

import random
import re
from collections.abc import Sequence
from datetime import datetime, timedelta, timezone
from typing import NamedTuple
from zoneinfo import ZoneInfo

ZONES = ["Asia/Kolkata", "America/New_York", "Europe/Berlin"]
# Both ends of summer time in New York and in Berlin, the days around them, an end of year and a 31st of May.
# All lie in the past, since restic takes the newest snapshot that isn't later than now.
CENTRES = ["2019-03-10T07:00", "2019-03-31T01:00", "2019-10-27T01:00", "2019-11-03T06:00", "2019-12-31T23:00", "2019-05-31T12:00"]
STEPS = [0, 1, 59, 60, 600, 1800, 3600, 5400, 7200, 21600, 43200, 82800, 86400, 90000, 259200, 604800, 1814400, 2678400, 8000000]
SPANS = ["last", "secondly", "minutely", "hourly", "daily", "weekly", "monthly", "yearly"]
RESTIC = ["last", "hourly", "daily", "weekly", "monthly", "yearly"]
BORG = SPANS[1:]
SNAPPER = ["hourly", "daily", "weekly", "monthly", "yearly"]
# sanoid's kinds, and the seconds of their periods. `frequently` is each quarter of an hour.
PERIODS = {"minutely": 900, "hourly": 3600, "daily": 86400, "weekly": 604800, "monthly": 2678400, "yearly": 31557600}
# btrbk's letters, and its days of the week.
UNITS = {"h": "hourly", "d": "daily", "w": "weekly", "m": "monthly", "y": "yearly"}
WEEKDAYS = ["sunday", "monday", "tuesday", "wednesday", "thursday", "friday", "saturday"]
EPOCH = datetime(1970, 1, 1, tzinfo=timezone.utc)
BORG_UNITS = {"H": 3600, "d": 86400, "w": 604800, "m": 2678400, "y": 31536000}


class Row(NamedTuple):
    moment: int
    offset: int
    label: str = ""

    @property
    def clock(self) -> datetime:
        return datetime.fromtimestamp(self.moment, timezone(timedelta(seconds=self.offset)))


class Part(NamedTuple):
    """Keeps a row of each span: so many (-1 for all), or those within a length of time. A name is that of the tool's own option."""

    span: str
    number: int | None
    months: int = 0
    seconds: int = 0
    text: str = ""
    name: str = ""

    @property
    def rank(self) -> int:
        place = SPANS.index(self.span)
        return 1 + place if self.number is not None else (8 + place if place else 0)

    @property
    def option(self) -> str:
        if self.name:
            return self.name
        if self.number is not None:
            return f"keep-{self.span}"
        return "keep-within" if self.span == "last" else f"keep-within-{self.span}"

    @property
    def value(self) -> str:
        return self.text or str(self.number)


class Reason(NamedTuple):
    span: str
    by: str
    number: int


def span_of(span: str, clock: datetime) -> object:
    """Returns what tells one span of its kind from another."""
    forms = {"secondly": "%F %T", "minutely": "%F %H:%M", "hourly": "%F %H", "daily": "%F", "weekly": "%G-%V", "monthly": "%Y-%m"}
    return clock.strftime(forms.get(span, "%Y"))


def back(newest: Row, part: Part) -> float:
    """Returns the moment that lies a length of time before a row, by its clock: a day that a month hasn't is one of the next."""
    clock = newest.clock
    months = 12 * clock.year + clock.month - 1 - part.months
    if months < 12 * 1970:
        return float("-inf")
    first = datetime(months // 12, months % 12 + 1, 1, clock.hour, clock.minute, clock.second, tzinfo=clock.tzinfo)
    return (first + timedelta(days=clock.day - 1)).timestamp() - part.seconds


def snapper_kept(parts: Sequence[Part], now: int, rows: Sequence[Row]) -> list[Reason | None]:
    """Returns what keeps each row in a timeline of snapper: its age, or a limit that counts the first rows of spans from the newest on."""
    young = next((it.seconds for it in parts if it.number is None), 0)
    marks: list[Reason | None] = [None] * len(rows)
    for at, row in enumerate(rows):
        if row.moment > now - young:
            marks[at] = Reason("last", "within", len(rows) - at)
    for part in sorted((it for it in parts if it.number is not None), key=lambda it: SPANS.index(it.span)):
        firsts = {span_of(part.span, row.clock): at for at, row in reversed(list(enumerate(rows)))}
        for number, at in enumerate(sorted(firsts.values(), reverse=True)[: part.number], 1):
            marks[at] = marks[at] or Reason(part.span, "count", number)
    return marks


class Schedule(NamedTuple):
    """A rule of btrbk: until how many spans ago it keeps the first row of each (-1 for all), and when days and weeks begin."""

    counts: dict[str, int]
    least: str = ""
    weekday: int = 0
    hour: int = 0

    @property
    def words(self) -> str:
        items = [f"{'*' if number < 0 else number}{letter}" for letter, number in self.counts.items()]
        words = [f"snapshot_preserve={items[0]}", *items[1:]] if items else []
        words += [f"snapshot_preserve_min={self.least}"] * bool(self.least)
        words += [f"preserve_day_of_week={WEEKDAYS[self.weekday]}"] * bool(self.weekday)
        return ",".join([*words, *[f"preserve_hour_of_day={self.hour}"] * bool(self.hour)])

    def spans(self, row: Row) -> dict[str, int]:
        """Returns the number of each span in which a row lies: a day begins at the hour, and a month at its first day of the week."""
        clock = row.clock
        hour = int((clock.replace(tzinfo=timezone.utc) - EPOCH).total_seconds()) // 3600
        day = (hour + 24 - self.hour) // 24
        into = (day + 10 - self.weekday) % 7
        month = 12 * (clock.year - 1970) + clock.month - 1 - (clock.day <= into)
        return {"h": hour, "d": day, "w": (day + 10 - self.weekday) // 7, "m": month, "y": month // 12}

    def ago(self, now: Row, row: Row) -> dict[str, int]:
        """Returns how many spans ago a row lies in each. Months and years are counted from those of the calendar."""
        clock = now.clock
        month = 12 * (clock.year - 1970) + clock.month - 1
        there = {**self.spans(now), "m": month, "y": month // 12}
        return {letter: there[letter] - number for letter, number in self.spans(row).items()}


def btrbk_kept(rule: Schedule, now: int, rows: Sequence[Row]) -> list[Reason | None]:
    """Returns what keeps each row in btrbk, at a moment that the clock of the newest row shows."""
    at = rows[-1]._replace(moment=now)
    begun: dict[str, int] = {}
    marks: list[Reason | None] = []
    for place, row in enumerate(rows):
        spans, ago = rule.spans(row), rule.ago(at, row)
        mark = least_of(rule.least, ago, place + 1 == len(rows))
        for letter, span in UNITS.items():
            if begun.get(letter) == spans[letter]:
                break
            begun[letter] = spans[letter]
            if rule.counts.get(letter, 0) < 0 or 0 < rule.counts.get(letter, 0) >= ago[letter]:
                mark = Reason(span, "count", ago[letter])
        marks.append(mark)
    return marks


def least_of(least: str, ago: dict[str, int], newest: bool) -> Reason | None:
    """Returns why `snapshot_preserve_min` keeps a row, if it does."""
    if least == "all":
        return Reason("last", "within", ago["h"])
    if least == "latest" and newest:
        return Reason("last", "count", 1)
    if least in ("", "latest") or ago[least[-1]] > int(least[:-1]):
        return None
    return Reason(UNITS[least[-1]], "within", ago[least[-1]])


def btrbk_rule(chance: random.Random) -> Schedule:
    letters = chance.sample(list(UNITS), chance.randrange(0, 5))
    counts = {it: chance.choice([-1, 0, 1, 2, 3, 5, 14]) for it in letters}
    least = chance.choice(["", "all", "latest", *[f"{chance.randrange(1, 9)}{chance.choice(list(UNITS))}"] * 4])
    return Schedule(counts, least or ("" if counts else "latest"), chance.choice([0, 0, 1, 3, 6]), chance.choice([0, 0, 1, 5, 23]))


def sanoid_kind(label: str) -> str | None:
    """Returns the span of the kind that sanoid reads in a snapshot's name."""
    found = re.fullmatch(r"(?:.*@)?autosnap.*_(\w*ly)", label)
    kind = {"frequently": "minutely"}.get(found[1], found[1]) if found else None
    return kind if kind in PERIODS else None


def sanoid_kept(parts: Sequence[Part], now: int, rows: Sequence[Row]) -> list[Reason | None]:
    """Returns what keeps each row in sanoid, which goes through the snapshots of a kind from the oldest on."""
    wanted = {it.span: it.number or 0 for it in parts}
    others = [at for at, row in enumerate(rows) if sanoid_kind(row.label) is None]
    marks: list[Reason | None] = [None] * len(rows)
    for number, at in enumerate(reversed(others), 1):
        marks[at] = Reason("last", "other", number)
    for kind, most in wanted.items():
        places = [at for at, row in enumerate(rows) if sanoid_kind(row.label) == kind]
        for number, at in zip(range(len(places), 0, -1), places):
            if number <= most:
                marks[at] = Reason(kind, "count", number)
            elif rows[at].moment >= now - most * PERIODS[kind]:
                marks[at] = Reason(kind, "within", number)
    return marks


def kept(tool: str, parts: Sequence[Part], now: int, rows: Sequence[Row]) -> list[Reason | None]:
    """Returns what keeps each row, as `specs/` say. Rows are in order of time."""
    if tool == "snapper":
        return snapper_kept(parts, now, rows)
    if tool == "sanoid":
        return sanoid_kept(parts, now, rows)
    marks: list[Reason | None] = [None] * len(rows)
    for part in sorted(parts, key=lambda it: it.rank):
        before = list(marks)
        count = 0
        for at in range(len(rows) - 1, -1, -1):
            ends = part.span == "last" or at + 1 == len(rows)
            newest = ends or span_of(part.span, rows[at].clock) != span_of(part.span, rows[at + 1].clock)
            if part.number is None:
                since = now - part.seconds if tool == "borg" else back(rows[-1], part)
                allowed = rows[at].moment > since
            else:
                allowed = part.number < 0 or count < part.number
            oldest = at == 0 and (tool == "restic" or tool == "borg" and part.number is not None and part.number > 0)
            if (newest or oldest) and allowed and before[at] is None:
                by = "oldest" if not newest else "within" if part.number is None else "count"
                marks[at] = Reason(part.span, by, count + 1)
            if newest and (tool != "borg" or before[at] is None):
                count += 1
    return marks


def rows_of(chance: random.Random, zone: ZoneInfo, most: int) -> list[Row]:
    """Returns a list about one of the centres, or over some years."""
    moment = int(datetime.fromisoformat(chance.choice(CENTRES)).replace(tzinfo=timezone.utc).timestamp()) + chance.randrange(-90000, 90000)
    steps = chance.sample(STEPS, chance.randrange(1, 6))
    moments = [moment]
    for _ in range(chance.randrange(most)):
        moments.append(moments[-1] + max(1, chance.choice(steps) + chance.choice([0, 0, 0, 1, -1])))
    return [Row(it, int((datetime.fromtimestamp(it, zone).utcoffset() or timedelta()).total_seconds())) for it in moments]


def borg_rule(chance: random.Random) -> list[Part]:
    parts = [Part(it, chance.choice([1, 1, 2, 3, 4, 7, 12, -1])) for it in chance.sample(BORG, chance.randrange(0, 5))]
    if not parts or chance.random() < 0.4:
        unit = chance.choice(list(BORG_UNITS))
        number = chance.randrange(1, 9)
        parts.append(Part("last", None, 0, number * BORG_UNITS[unit], f"{number}{unit}"))
    chance.shuffle(parts)
    return parts


def restic_length(chance: random.Random) -> tuple[int, int, str]:
    years, months, days, hours = (chance.choice([0, 0, 1, 2, bound]) for bound in (1, 13, 30, 36))
    if not years + months + days + hours:
        days = 1
    pieces = [(years, "y"), (months, "m"), (days, "d"), (hours, "h")]
    return 12 * years + months, 86400 * days + 3600 * hours, "".join(f"{n}{unit}" for n, unit in pieces if n)


def restic_rule(chance: random.Random) -> list[Part]:
    parts = [Part(it, chance.choice([1, 2, 3, 4, 7, 12])) for it in chance.sample(RESTIC, chance.randrange(0, 5))]
    for span in chance.sample(RESTIC, chance.choice([0, 0, 1, 2]) if parts else 1):
        months, seconds, text = restic_length(chance)
        parts.append(Part(span, None, months, seconds, text))
    return parts


def snapper_rule(chance: random.Random) -> list[Part]:
    counts = [0, 1, 2, 3, 5, 10]
    parts = [Part(it, chance.choice(counts), name=f"TIMELINE_LIMIT_{it.upper()}") for it in chance.sample(SNAPPER, chance.randrange(1, 5))]
    if chance.random() < 0.5:
        seconds = chance.choice([0, 1, 60, 1800, 3600, 86400, 2678400])
        parts.append(Part("last", None, 0, seconds, str(seconds), "TIMELINE_MIN_AGE"))
    chance.shuffle(parts)
    return parts


def sanoid_rule(chance: random.Random) -> list[Part]:
    names = {"minutely": "frequently"}
    spans = chance.sample(list(PERIODS), chance.randrange(1, 6))
    return [Part(it, chance.choice([0, 1, 2, 3, 7, 30]), name=names.get(it, it)) for it in spans]


def with_names(chance: random.Random, rows: Sequence[Row]) -> list[Row]:
    """Returns the rows with names as sanoid gives them, and some of others."""
    kinds = chance.sample(["frequently", "hourly", "daily", "weekly", "monthly", "yearly"], chance.randrange(1, 4))
    named = []
    for row in rows:
        name = f"autosnap_{row.clock:%Y-%m-%d_%H:%M:%S}_{chance.choice(kinds)}"
        named.append(row._replace(label=chance.choice([name] * 8 + [f"pool/data@{name}", "before-upgrade", "manual_daily", f"{name}x"])))
    return named
