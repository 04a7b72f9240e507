"""Checks the wheel: in empty environments of several Pythons it works with nothing else, and its mount works where pyfuse3 is."""

import os
import re
import shutil
import sys
import time
from collections.abc import Iterator
from pathlib import Path

from gate import building, libraries
from gate.building import ROOT
from package import contents
from package.trying import Lacking, Wrong, clean_environment, expect, outcome, run

OLDEST = (3, 9)
# Saves twice in a journal, opens it again and reads what a file held before.
PROGRAM = """
import elephant, sys
from elephant import Store
with Store(journal=sys.argv[1], clock="manual") as store:
    store.save("/notes", b"one")
    store.clock(60)
    store.save("/notes", b"two")
with Store(journal=sys.argv[1], clock="manual") as store:
    print(elephant.__version__, store.read("/notes"), store.read("/notes", at=59))
from elephant._library import library
print(library()._name)
"""


def version_of(python: Path | str) -> tuple[int, ...]:
    """Returns the version of a Python that can make environments, or ()."""
    asked = "import sys, venv, ensurepip; print(*sys.version_info[:2])"
    status, output, _ = outcome([python, "-c", asked])
    return tuple(int(it) for it in output.split()) if status == 0 else ()


def pythons() -> dict[tuple[int, ...], str]:
    """Returns a Python of each version that is here and that the package takes, the oldest first."""
    root = os.environ.get("PYENV_ROOT") or str(Path.home() / ".pyenv")
    listed = ["/usr/bin/python3", sys.executable, *map(str, Path(root, "versions").glob("3.*/bin/python"))]
    found: dict[tuple[int, ...], str] = {}
    for python in listed:
        version = version_of(python) if shutil.which(python) else ()
        if version >= OLDEST:
            found.setdefault(version, python)
    return dict(sorted(found.items()))


def environment_of(python: str, folder: Path, *options: str) -> Path:
    """Makes an environment with pip, and returns its folder of programs."""
    run([python, "-m", "venv", *options, folder])
    return folder / "bin"


def install(bin_folder: Path, wheel: Path) -> None:
    run([bin_folder / "pip", "install", "--quiet", "--no-index", "--no-cache-dir", wheel], environment=clean_environment(PIP_NO_INPUT="1"))


def works_in(python: str, wheel: Path, folder: Path) -> None:
    """Installs the wheel in an empty environment, and saves and reads by it."""
    bin_folder = environment_of(python, folder)
    install(bin_folder, wheel)
    printed = run([bin_folder / "python", "-c", PROGRAM, folder / "notes.journal"]).splitlines()
    expect(printed[:1], [f"{building.version()} b'two' b'one'"], f"what a program under {python} prints")
    if not printed[1].startswith(str(folder)):
        raise Wrong(f"under {python} the library is {printed[1]}, and not that of the wheel")
    for command in ("elephant-mount", "elephant-browse"):
        wanted = contents.said_version(command, libraries.BUILT_LIBRARY)
        expect(run([bin_folder / command, "--version"]), wanted, f"{command} --version")
    # What a page has beside its modules is in the wheel.
    program = "import importlib.resources as r; it = r.files('elephant.browse'); print(*(len(list((it / f).iterdir())) for f in FOLDERS))"
    files = [len(list((ROOT / "clients/python/src/elephant/browse" / it).iterdir())) for it in ("static", "templates")]
    counted = run([bin_folder / "python", "-c", f"FOLDERS = 'static', 'templates'; {program}"])
    expect(counted, " ".join(map(str, files)) + "\n", "how many scripts, styles and templates are installed")
    expect(run([bin_folder / "pip", "check"]), "No broken requirements found.\n", "pip check")
    run([bin_folder / "pip", "uninstall", "--quiet", "--yes", "elephant-store"])
    left = [str(it) for it in folder.rglob("*elephant*")]
    expect(left, [], "what an uninstallation leaves")


def mounts(wheel: Path, folder: Path) -> str:
    """Mounts a folder by the wheel's program, saves twice and undoes."""
    python = building.python_with("pyfuse3")
    if python is None or not Path("/dev/fuse").exists() or not shutil.which("fusermount3"):
        raise Lacking("there is no pyfuse3, fusermount3 or /dev/fuse, so nothing was mounted by the wheel")
    bin_folder = environment_of(python, folder, "--system-site-packages")
    install(bin_folder, wheel)
    printed = run(["sh", "-c", MOUNTING, "sh", bin_folder / "elephant-mount"], folder=folder)
    expect(mounted(printed), MOUNTED, "what a mounted folder holds")
    return "a folder was mounted, and undone"


# The first word is the mount's program. It prints what the folder holds after an undo, and in its past.
MOUNTING = """
set -e
mkdir letters
"$1" letters --journal letters.journal 2>log & mount=$!
for _ in $(seq 200); do [ -e letters/.elephant ] && break; sleep 0.05; done
[ -e letters/.elephant ] || { cat log >&2; exit 1; }
echo first >letters/weber
echo second >letters/weber
cat letters/.elephant/versions/weber/2
"$1" --at letters undo weber
cat letters/weber
fusermount3 -u letters
wait $mount
"""
MOUNTED = ["first", "ok version 4: what version 2 held", "first"]


def mounted(printed: str) -> list[str]:
    """Returns the lines that `MOUNTING` prints, without a time."""
    return [re.sub(r", saved .*", "", it) for it in printed.splitlines()]


def check(wheel: Path, folder: Path, is_long: bool) -> Iterator[str]:
    """Checks the wheel with the oldest and the newest Python that is here, or with all. Yields a line for each."""
    found = pythons()
    if not found:
        raise Lacking("there is no Python of version 3.9 or later that can make an environment")
    chosen = list(found.items()) if is_long else list(dict([*list(found.items())[:1], *list(found.items())[-1:]]).items())
    for version, python in chosen:
        name = ".".join(map(str, version))
        began = time.monotonic()
        works_in(python, wheel, folder / name)
        yield f"Python {name}: the wheel works in an empty environment, {time.monotonic() - began:.1f} seconds"
    yield mounts(wheel, folder / "mount")
