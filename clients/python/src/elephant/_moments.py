"""Moments: whole seconds since 1970-01-01T00:00:00Z, or a datetime that knows its time zone."""

from __future__ import annotations

from datetime import datetime, timedelta, timezone
from typing import Optional, Union

from ._errors import BadMoment

LAST_MOMENT = 253402300799
NEVER = (1 << 64) - 1
_EPOCH = datetime(1970, 1, 1, tzinfo=timezone.utc)


class Moment(int):
    """A number of seconds since 1970-01-01T00:00:00Z, which is also a datetime."""

    __slots__ = ()

    @property
    def datetime(self) -> datetime:
        """The moment as a datetime in UTC."""
        return _EPOCH + timedelta(seconds=int(self))


# A text is a time as people type it: see _times.py.
MomentLike = Union[int, datetime, str]


def seconds_of(moment: Union[int, datetime]) -> int:
    """Returns a moment's number of seconds. It drops the part of a second, so a moment within a second means that second."""
    if isinstance(moment, datetime):
        if moment.utcoffset() is None:
            raise ValueError(f"{moment!r} has no time zone; use an aware datetime, as datetime.now(timezone.utc)")
        seconds = (moment - _EPOCH) // timedelta(seconds=1)
    elif isinstance(moment, int) and not isinstance(moment, bool):
        seconds = int(moment)
    else:
        raise TypeError(f"a moment is an int, an aware datetime or a text such as 'yesterday 15:00', not {type(moment).__name__}")
    if not 0 <= seconds <= LAST_MOMENT:
        raise BadMoment(f"{moment!r} is not from 0 to {LAST_MOMENT}")
    return seconds


def moment_or_none(number: int) -> Optional[Moment]:
    """Returns a moment from the library, or None for never."""
    return None if number == NEVER else Moment(number)
