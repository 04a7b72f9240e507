"""What the checks of the packages share: how they run a command, and say what is wrong and what was left out."""

import os
import subprocess
from collections.abc import Mapping, Sequence
from pathlib import Path

SECONDS = 600
# What a check may leave of this process's environment: nothing that names a library, a package or a place of modules.
KEPT = ("HOME", "LANG", "PATH", "TMPDIR", "CARGO_HOME", "RUSTUP_HOME", "http_proxy", "https_proxy", "no_proxy")


class Wrong(Exception):
    """What is not as it should be."""


class Lacking(Exception):
    """What this machine lacks for a check."""


def clean_environment(**more: str) -> dict[str, str]:
    """Returns an environment in which nothing of this repository or of a user's settings helps a package."""
    return {**{it: os.environ[it] for it in KEPT if it in os.environ}, "LC_ALL": "C.UTF-8", **more}


def run(words: Sequence[str | Path], given: str = "", folder: Path | str = "/", environment: Mapping[str, str] | None = None) -> str:
    """Runs a command, and returns its output. Raises Wrong with what it said if it fails."""
    status, output, errors = outcome(words, given, folder, environment)
    if status:
        raise Wrong(f"{' '.join(map(str, words))[:200]}, status {status}: {(errors.strip() or output.strip())[-1500:]}")
    return output


def outcome(
    words: Sequence[str | Path], given: str = "", folder: Path | str = "/", environment: Mapping[str, str] | None = None,
) -> tuple[int, str, str]:
    """Runs a command, and returns its status, its output and what it said on standard error."""
    ran = subprocess.run(
        list(map(str, words)), input=given, cwd=folder, env=dict(clean_environment() if environment is None else environment),
        capture_output=True, encoding="utf-8", errors="replace", timeout=SECONDS, check=False,
    )
    return ran.returncode, ran.stdout, ran.stderr


def expect(found: object, wanted: object, what: str) -> None:
    """Raises Wrong unless both are equal."""
    if found != wanted:
        raise Wrong(f"{what}: it is {found!r}, and should be {wanted!r}")
