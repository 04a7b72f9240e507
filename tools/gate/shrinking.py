"""Shrinks a list that a check refuses to the items that matter, by hypothesis.

Hypothesis searches for what it then shrinks, so the strategies here draw the list as it is nearly always, and now and then without an
item. Shrinking leads to the first of what a strategy samples, which is no item.
"""

from __future__ import annotations

from collections.abc import Callable, Sequence
from random import Random
from typing import TypeVar

from hypothesis import HealthCheck, find, settings
from hypothesis import strategies as st

Something = TypeVar("Something")
# One draw in so many is another one than the usual one.
DRAWS = 1024
HOW = settings(max_examples=1000, deadline=None, database=None, suppress_health_check=list(HealthCheck))


def nearly_always(usual: Something, others: Sequence[Something]) -> st.SearchStrategy[Something]:
    """Draws the usual thing nearly always, and shrinks to the first of the others that will do."""
    return st.sampled_from([*others, *[usual] * (DRAWS - len(others))])


def with_fewer(items: Sequence[Something]) -> st.SearchStrategy[list[Something]]:
    """Draws some of the items."""
    is_kept = nearly_always(True, [False])
    return st.tuples(*[is_kept] * len(items)).map(lambda flags: [item for item, flag in zip(items, flags) if flag])


def fewest(items: Sequence[Something], fails: Callable[[list[Something]], bool]) -> list[Something]:
    """Drops items until none can be dropped."""
    kept, count = list(items), len(items) + 1
    while len(kept) < count:
        count = len(kept)
        kept = find(with_fewer(kept), fails, settings=HOW, random=Random(1))
    return kept
