"""Words of the page: names that show each sign, moments, lengths, policies and fates."""

from __future__ import annotations

from datetime import datetime, timezone
from typing import NamedTuple, Optional

from markupsafe import Markup

from .. import LAST_MOMENT, Current, Due, Fate, KeepAll, KeepOne, KeepSafe, Kept, Landmarks, Marked, Open, Policy
from ..keeping import span, told_time

_SPANS = {60: "minute", 3600: "hour", 86_400: "day", 604_800: "week"}


def shown(text: str) -> str:
    """Returns a text with each sign that isn't printed, or that turns the writing around, as its number."""
    return "".join(it if it.isprintable() else f"\\u{{{ord(it):x}}}" for it in text)


def shown_lines(text: str) -> str:
    """Does the same for a text of lines, which keeps its line feeds and tabs."""
    return "".join(it if it.isprintable() or it in "\n\t" else f"\\u{{{ord(it):x}}}" for it in text)


def when(moment: Optional[int]) -> Markup:
    """Returns a moment as an element whose text a script makes one of the viewer's zone."""
    if moment is None:
        return Markup("-")
    seconds = min(int(moment), LAST_MOMENT)
    utc = datetime.fromtimestamp(seconds, timezone.utc).strftime("%Y-%m-%dT%H:%M:%SZ")
    return Markup('<time datetime="{}" data-seconds="{}">{}</time>').format(utc, seconds, told_time(seconds))


def size(count: int) -> str:
    """Returns a number of bytes as people read it."""
    if count < 10_000:
        return f"{count:,} byte{'s' * (count != 1)}"
    return f"{count / 1024:,.0f} KiB" if count < 10 << 20 else f"{count / (1 << 20):,.0f} MiB"


def told_policy(policy: Policy) -> str:
    """Returns what a policy keeps."""
    if isinstance(policy, KeepAll):
        return "all versions, for good"
    if isinstance(policy, KeepOne):
        return "only the newest version"
    if isinstance(policy, KeepSafe):
        floor = f", and the newest {policy.floor} for as long as the file has a name" if policy.floor else ""
        return f"each version for {span(policy.seconds)} after its end{floor}"
    assert isinstance(policy, Landmarks)
    first = policy.rungs[0][0]
    rungs = [f"after {span(age)} the newest of each {_SPANS.get(width, span(width))}" for age, width in policy.rungs]
    return f"all versions for {span(first)}; {'; '.join(rungs)}"


class Outcome(NamedTuple):
    """What becomes of a version: `kind` is `current`, `open`, `marked`, `kept`, `until` or `due`; since or until when; that in words; and
    why it may be removed, if that is known."""

    kind: str
    moment: Optional[int]
    words: str
    why: str = ""


def outcome_of(fate: Fate, now: int) -> Outcome:
    """Returns what becomes of a version, as seen at a moment."""
    if isinstance(fate, Current):
        return Outcome("current", None, "the newest version")
    if isinstance(fate, Open):
        return Outcome("open", None, "a program reads it")
    if isinstance(fate, Marked):
        return Outcome("marked", fate.until, "kept by a mark")
    if isinstance(fate, Kept):
        if fate.until is None:
            return Outcome("kept", None, "kept, if only time passes")
        kind, words = ("until", "kept for a time") if fate.until > now else ("due", "may be removed")
        return Outcome(kind, int(fate.until), words)
    assert isinstance(fate, Due)
    return Outcome("due", int(fate.since), "may be removed", _cause(fate))


def _cause(fate: Due) -> str:
    if fate.age is not None:
        return f"it ended {span(fate.age)} before"
    if fate.by is not None:
        return f"version {fate.by} was saved in the same span of time"
    return "its policy keeps only the newest"


def cause_of(policy: Optional[Policy], since: int, ended: Optional[int]) -> str:
    """Returns why a policy lets a version go at a moment."""
    if isinstance(policy, KeepSafe):
        if ended is not None and since > ended + policy.seconds:
            return "a mark or newer versions held it until then"
        return f"{span(policy.seconds)} after its end"
    if isinstance(policy, Landmarks) and ended is not None:
        width = next((width for age, width in reversed(policy.rungs) if ended + age <= since), 0)
        return f"a newer one was saved in the same {_SPANS.get(width, span(width))}" if width else "the mark that held it ends"
    return "its policy keeps only the newest" if isinstance(policy, KeepOne) else "its policy lets it go"
