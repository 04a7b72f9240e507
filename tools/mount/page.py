"""Runs the commands in the blocks of `console` of docs/MOUNT.md and then of docs/FAQ.md, and compares their output with the pages, where
each time is another."""

import argparse
import os
import re
import subprocess
from pathlib import Path

from gate.building import ROOT
from mount import mounts

PAGES = [ROOT / "docs" / it for it in ("MOUNT.md", "FAQ.md")]
MARK = "== command"
TIME = re.compile(r"\d{4}-\d\d-\d\d \d\d:\d\d:\d\d(?: [+-]\d\d:\d\d)?")


def commands_in(page: str) -> list[tuple[str, str]]:
    """Returns the commands of a page, each with what it prints."""
    found: list[tuple[str, str]] = []
    for block in re.findall(r"^```console\n(.*?)^```$", page, re.M | re.S):
        for command, output in re.findall(r"^\$ (.*)\n((?:(?!\$ ).*\n)*)", block, re.M):
            found.append((command, output))
    return found


def page(room: str, asked: argparse.Namespace) -> mounts.Counts:
    """Runs the commands of both pages. Returns how many there are, and how many outputs differ."""
    words = [it for path in PAGES for it in commands_in(path.read_text(encoding="utf-8"))]
    command = Path(room, "bin", "elephant-mount")
    command.parent.mkdir()
    command.write_text(f'#!/bin/sh\nexec {mounts.python()} -m elephant.mount "$@"\n')
    command.chmod(0o755)
    environment = {**mounts.Mounted.environment(), "PATH": f"{command.parent}:{os.environ['PATH']}"}
    script = "".join(f"{typed}\necho '{MARK} {number}'\n" for number, (typed, _) in enumerate(words))
    try:
        ran = subprocess.run(["bash"], input=script, cwd=room, env=environment, capture_output=True, text=True, timeout=300, check=False)
    finally:
        subprocess.run(["fusermount3", "-u", "-z", Path(room, "letters")], capture_output=True, check=False)
    printed = re.split(rf"^{MARK} \d+\n", ran.stdout, flags=re.M)[:-1]
    wrong = abs(len(printed) - len(words))
    for (typed, wanted), output in zip(words, printed):
        if TIME.sub("TIME", output) != TIME.sub("TIME", wanted):
            wrong += 1
            print(f"mount: the pages: {typed!r} prints {output!r}, and not {wanted!r}")
    if wrong:
        print(f"mount: the pages: {ran.stderr[-500:]}")
    return len(words), wrong
