"""Calls of the system that do otherwise, in a package that makes all of them itself: `libelephant_file.so` makes some of them else."""

from __future__ import annotations

from typing import Any
from unittest import mock


class Patched:
    """What `mock.patch` is of a call of the module `os`."""

    def __init__(self, name: str, *words: Any, **how: Any) -> None:
        self._patches = mock.patch("elephant._disk.Disk.append_at_once", return_value=None), mock.patch(name, *words, **how)

    def __enter__(self) -> Any:
        self._patches[0].start()
        return self._patches[1].start()

    def __exit__(self, *_: object) -> None:
        for it in reversed(self._patches):
            it.stop()
