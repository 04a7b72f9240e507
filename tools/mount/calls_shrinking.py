"""Shrinks calls that a mount and an ordinary folder answer otherwise: `calls_shrinking.py MOUNTED ORDINARY < CALLS`.

The calls are a Python list of names and words. Each attempt has a new folder in both.
"""

from __future__ import annotations

import ast
import shutil
import sys
import tempfile
from collections.abc import Sequence
from pathlib import Path

sys.path.insert(0, str(Path(__file__).resolve().parents[1]))

from gate.shrinking import fewest
from mount.calls import Call, differs


def differs_in(tops: Sequence[str], script: list[Call]) -> bool:
    """Whether the calls are answered otherwise in new folders."""
    folders = [tempfile.mkdtemp(dir=it) for it in tops]
    for folder in folders:
        Path(folder).chmod(0o755)
    try:
        return differs(folders[0], folders[1], script)
    finally:
        for folder in folders:
            shutil.rmtree(folder)


def main() -> int:
    tops = sys.argv[1:]
    for name, words in fewest(ast.literal_eval(sys.stdin.read()), lambda script: differs_in(tops, script)):
        print(name, *(repr(it)[:60] for it in words))
    return 0


if __name__ == "__main__":
    sys.dont_write_bytecode = True
    sys.exit(main())
