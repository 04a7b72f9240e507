"""What standard error has at the end of a plain run, of which not each line was answered by `ok`."""

import re
from collections.abc import Sequence

SUMMARY = re.compile(
    rb"elephant: (\d+) bad, (\d+) refused and (\d+) stopped of (\d+) lines; "
    rb"the first (bad one )?is line (\d+)(, [ -~]+)?; --numbers shows each\n"
)
WORDS = (b"bad", b"no", b"stop")


def without_summaries(errors: bytes) -> bytes:
    """Returns what standard error has beside summaries."""
    return SUMMARY.sub(b"", errors)


def is_summary(errors: bytes, answers: Sequence[bytes]) -> bool:
    """Whether this ends a plain run whose lines had these answers, one each. A line without an answer has an empty one."""
    words = [next((it for it in WORDS if answer.startswith(it + b" ")), None) for answer in answers]
    if not any(words):
        return errors == b""
    is_bad = WORDS[0] in words
    first = 1 + (words.index(WORDS[0]) if is_bad else next(at for at, it in enumerate(words) if it))
    found = SUMMARY.fullmatch(errors)
    wanted = [*(words.count(it) for it in WORDS), len(words), first]
    if found is None:
        return False
    return wanted == [int(found[it]) for it in (1, 2, 3, 4, 6)] and is_bad == bool(found[5]) == bool(found[7])
