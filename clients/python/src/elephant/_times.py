"""Times as people type them: `read_time` understands a text in one way, or refuses it and says why.

A text without a zone is of the local zone. What people or programs understand in two ways is refused: `01/02/2026`, `yesterday` alone,
a local time that the end of summer time doubles, and one that its beginning leaves out.

This is a parser of its own, because those that there are guess. dateparser 1.1.6 and parsedatetime 2.6 were given sixteen texts that are
traps: one took `01/02/2026` for 2 January, the other `2026-11-29 25:00` for 10:00. `read_time` has eight forms, and refuses the rest.
"""

from __future__ import annotations

import re
from collections.abc import Callable
from datetime import date, datetime, time, timedelta, timezone
from typing import NamedTuple

from ._errors import BadTime
from ._moments import LAST_MOMENT

ACCEPTED = (
    "write 2026-11-29 15:00, 2026-11-29T15:00:00+01:00, 2026-11-29 for the beginning of that day, 15:00, today 15:00, "
    "yesterday 15:00, 2 hours ago, 3 days ago, now, or seconds since 1970"
)
_EPOCH = datetime(1970, 1, 1, tzinfo=timezone.utc)
_CLOCK = r"(\d\d?):(\d\d)(?::(\d\d)(?:\.\d+)?)?"
_DAY_AND_CLOCK = rf"(today|yesterday) {_CLOCK}"
_DATE = rf"(\d{{4}})-(\d\d)-(\d\d)(?:[T ]{_CLOCK} ?(Z|UTC|[+-]\d\d:?\d\d)?)?"
_AGO = r"(\d{1,12}) ?(seconds?|secs?|minutes?|mins?|hours?|days?|weeks?) ago"
_SECONDS = {"s": 1, "m": 60, "h": 3600, "d": 86_400, "w": 604_800}
_NUMBER = r"@?\d{1,20}"
# The digits of seconds since 1970, from 1973 to 5138. Other numbers may be an hour, a year, or a date: 15, 2026, 20261129, 202611290921.
_SECONDS_DIGITS = (9, 10, 11)
_SWAPPED = r"\d{1,4}[/.]\d{1,2}[/.]\d{1,4}(?: .*)?|\d\d?-\d\d?-\d{4}(?: .*)?"
_WHOLE_DAY = r"today|yesterday|tomorrow|(?:last )?(?:mon|tues|wednes|thurs|fri|satur|sun)day(?: .*)?"


class Time(NamedTuple):
    """A moment in seconds since 1970, and how its text was understood: the local date and time with the zone's offset."""

    moment: int
    understood: str


def read_time(text: str, now: int) -> Time:
    """Returns the moment that a text means; `now` is the moment at which it was typed. Raises BadTime if the text may mean another one.

    A part of a second is cut off. `15:00` is the last such time that is not after now. A date alone is the beginning of that day.
    """
    words = " ".join(text.split())
    for form, read in _FORMS:
        found = form.fullmatch(words)
        if found:
            moment = read(found, now)
            if not 0 <= moment <= LAST_MOMENT:
                raise BadTime(f"{text!r} is not from 1970 to 9999")
            return Time(moment, told_time(moment))
    raise BadTime(f"{text!r} is no time: {ACCEPTED}")


def told_time(moment: int) -> str:
    """Returns a moment as local date and time with the zone's offset, which `read_time` reads as the same moment."""
    try:
        local = _local(moment)
    except (OverflowError, ValueError):
        local = _EPOCH + timedelta(seconds=moment)
    offset = local.strftime("%z")
    return f"{local:%Y-%m-%d %H:%M:%S} {offset[:3]}:{offset[3:5]}"


def _local(moment: int) -> datetime:
    return datetime.fromtimestamp(moment, timezone.utc).astimezone()


def _seconds(when: datetime) -> int:
    return (when - _EPOCH) // timedelta(seconds=1)


def _of_local(day: date, clock: time, text: str) -> int:
    """Returns the moment of a local date and time. Raises BadTime if there are two such moments, or none."""
    naive = datetime.combine(day, clock)
    try:
        first, second = (naive.replace(fold=fold).astimezone() for fold in (0, 1))
        if first.utcoffset() == second.utcoffset():
            return _seconds(first)
    except (OverflowError, ValueError):
        raise BadTime(f"{text!r} is not from 1970 to 9999") from None
    less, more = sorted((first.strftime("%z"), second.strftime("%z")), key=lambda zone: int(zone[:5]))
    if _local(_seconds(first)).replace(tzinfo=None, fold=0) == naive:
        raise BadTime(f"{text!r} comes twice, as the clocks are set back then: add {more} for the first time, or {less} for the second")
    raise BadTime(f"{text!r} never comes, as the clocks are set forward over it: they go from {less} to {more}")


def _clock_of(hour: str, minute: str, second: str | None, text: str) -> time:
    try:
        return time(int(hour), int(minute), int(second or 0))
    except ValueError:
        raise BadTime(f"{text!r} has no such hour, minute or second: an hour is from 0 to 23, the others from 0 to 59") from None


def _read_now(_: re.Match[str], now: int) -> int:
    return now


def _read_number(found: re.Match[str], _: int) -> int:
    digits = found[0].lstrip("@")
    if found[0] == digits and len(digits) not in _SECONDS_DIGITS:
        raise BadTime(f"{digits!r} may be a part of a date, or seconds since 1970: write a date as 2026-11-29, or the seconds as @{digits}")
    return int(digits)


def _read_date(found: re.Match[str], _: int) -> int:
    year, month, day, hour, minute, second, zone = found.groups()
    try:
        when = date(int(year), int(month), int(day))
    except ValueError:
        raise BadTime(f"{found[0]!r} has no such day") from None
    clock = _clock_of(hour, minute, second, found[0]) if hour else time()
    if not zone:
        return _of_local(when, clock, found[0])
    return _seconds(datetime.combine(when, clock, timezone.utc)) - _offset(zone, found[0])


def _offset(zone: str, text: str) -> int:
    """Returns the seconds by which a zone is ahead of UTC."""
    if zone[0] not in "+-":
        return 0
    hours, minutes = int(zone[1:3]), int(zone[-2:])
    if hours > 23 or minutes > 59:
        raise BadTime(f"{text!r} has no such zone: {zone} is more than a day, or its minutes are more than 59")
    return (hours * 3600 + minutes * 60) * (1 if zone[0] == "+" else -1)


def _read_clock(found: re.Match[str], now: int) -> int:
    clock, today = _clock_of(found[1], found[2], found[3], found[0]), _local(now).date()
    moment = _of_local(today, clock, found[0])
    return moment if moment <= now else _of_local(today - timedelta(days=1), clock, found[0])


def _read_day(found: re.Match[str], now: int) -> int:
    day = _local(now).date() - timedelta(days=found[1].lower() == "yesterday")
    return _of_local(day, _clock_of(found[2], found[3], found[4], found[0]), found[0])


def _read_ago(found: re.Match[str], now: int) -> int:
    """Counts back. Days are of 24 hours, or of the same time of day: where they differ, the text means two moments."""
    count, unit = int(found[1]), found[2][0].lower()
    moment = now - count * _SECONDS[unit]
    if unit in "dw" and 0 <= moment:
        here, there = _local(now).utcoffset(), _local(moment).utcoffset()
        if here != there:
            raise BadTime(
                f"{found[0]!r} is {told_time(moment)} by days of 24 hours, and an hour or so beside it by the time of day, as the clocks "
                f"were changed since: write the date and the time"
            )
    return moment


def _refuse_swapped(found: re.Match[str], _: int) -> int:
    raise BadTime(f"{found[0]!r} may have the day or the month first: write the year, the month and the day as 2026-11-29")


def _refuse_day(found: re.Match[str], _: int) -> int:
    raise BadTime(f"{found[0]!r} is a whole day, which programs understand in different ways: write a date, today 15:00 or yesterday 15:00")


_FORMS: tuple[tuple[re.Pattern[str], Callable[[re.Match[str], int], int]], ...] = tuple(
    (re.compile(form, re.ASCII | re.IGNORECASE), read)
    for form, read in (
        ("now", _read_now), (_NUMBER, _read_number), (_DATE, _read_date), (_CLOCK, _read_clock), (_DAY_AND_CLOCK, _read_day),
        (_AGO, _read_ago), (_SWAPPED, _refuse_swapped), (_WHOLE_DAY, _refuse_day),
    )
)
