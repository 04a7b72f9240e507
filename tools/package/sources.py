"""What the packages are made of: the commit, its time, and copies of the sources that a builder may write beside."""

import functools
import os
import shutil
import subprocess
from collections.abc import Iterable
from pathlib import Path

from gate import building
from gate.building import ROOT, Unavailable

# Where a Python finds setuptools and what else builds the wheel. Since setuptools 64 there is a module editable_wheel; 61 suffices.
BUILDER = "setuptools.command.editable_wheel, wheel, pip"


def git(*words: str) -> str:
    """Returns what git prints in this repository."""
    ran = subprocess.run(["git", *words], cwd=ROOT, capture_output=True, encoding="utf-8", check=False)
    if ran.returncode:
        raise Unavailable(f"packages are made of a commit, and git {words[0]} fails here: {ran.stderr.strip()[:200]}")
    return ran.stdout


@functools.cache
def epoch() -> int:
    """Returns the time of the commit, in seconds since 1970. It is that of all files in the packages."""
    return int(git("log", "-1", "--format=%ct"))


def files() -> list[str]:
    """Returns the paths of all files of the tree, but for those that git ignores."""
    listed = git("ls-files", "-coz", "--exclude-standard").split("\0")
    return sorted({it for it in listed if it and (ROOT / it).is_file()})


def uncommitted() -> list[str]:
    """Returns the paths that aren't as the commit has them."""
    return sorted({it[3:] for it in git("status", "--porcelain", "--no-renames", "-z").split("\0") if it})


def copy(folder: str, into: Path, but: Iterable[str] = ()) -> Path:
    """Copies the files of a folder of the tree, with the target of a link in its place, and returns the path of the copy."""
    left_out = tuple(f"{folder}/{it}/" for it in but)
    for path in files():
        if path.startswith(f"{folder}/") and not path.startswith(left_out):
            target = into / path
            target.parent.mkdir(parents=True, exist_ok=True)
            shutil.copyfile(ROOT / path, target)
    settle(into)
    return into / folder


def settle(folder: Path) -> None:
    """Gives all files below a folder the time of the commit, and modes that no umask has a part in."""
    for path in [*folder.rglob("*"), folder]:
        if not path.is_symlink():
            path.chmod(0o755 if path.is_dir() or path.stat().st_mode & 0o100 else 0o644)
        os.utime(path, (epoch(), epoch()), follow_symlinks=False)


def run(words: list[str | Path], folder: Path, **more: str) -> str:
    """Runs a builder, and returns its output. Times that it writes are those of the commit."""
    environment = {**os.environ, "SOURCE_DATE_EPOCH": str(epoch()), "LC_ALL": "C.UTF-8", "TZ": "UTC", **more}
    ran = subprocess.run([str(it) for it in words], cwd=folder, env=environment, umask=0o022, check=False, **building.PIPES)
    if ran.returncode:
        raise Unavailable(f"{' '.join(map(str, words[:4]))} fails: {' '.join(ran.stdout.split())[-600:]}")
    return str(ran.stdout)


def wheel(into: Path, room: Path) -> Path:
    """Builds the wheel without a network, in copies of its sources, and returns its path."""
    python = building.python_with(BUILDER)
    if python is None:
        raise Unavailable("the wheel takes pip, wheel and setuptools: python3-pip, python3-wheel and python3-setuptools of Debian")
    package = copy("clients/python", room, ["tests", "stubs"])
    for name in ("libelephant.so", "libelephant_file.so", "library.stamp"):
        (room / "out").mkdir(exist_ok=True)
        shutil.copyfile(building.OUT / name, room / "out" / name)
    settle(room)
    alone = ["--no-build-isolation", "--no-index", "--no-deps", "--no-cache-dir", "--quiet"]
    run([python, "-m", "pip", "wheel", *alone, "--wheel-dir", into, package], room)
    return next(into.glob("*.whl"))


def crate(into: Path, room: Path) -> Path:
    """Packs the Rust crate, and returns the path of its file."""
    if not shutil.which("cargo"):
        raise Unavailable("the Rust crate takes cargo, and there is none on this machine")
    folder = copy("clients/rust", room)
    run(["cargo", "package", "--offline", "--no-verify", "--allow-dirty", "--quiet", "--target-dir", room / "target"], folder)
    made = next((room / "target" / "package").glob("*.crate"))
    shutil.copyfile(made, into / made.name)
    return into / made.name
