"""The version of this package, and what is known of the proof of the library that it came with."""

from __future__ import annotations

from pathlib import Path

# Printed by tools/pages/surface --write, from VERSION.
__version__ = "2.1.0"


def about() -> str:
    """Returns the version. The commit of the library follows, by which toolchain it was proved, and on which day: from the file PROVENANCE
    of an installed package, or from the stamp of the repository that this file lies in. Without both there is only the version."""
    here = Path(__file__).resolve()
    file = here.with_name("PROVENANCE")
    if file.is_file():
        return f"{__version__}\n{file.read_text(encoding='utf-8')}"
    for stamp in (folder / "out" / "library.stamp" for folder in here.parents if (folder / "crates.txt").is_file()):
        if stamp.is_file():
            commit, kit, day = stamp.read_text(encoding="utf-8").splitlines()[:3]
            return f"{__version__}\ncommit {commit}\nproved on {day} by {kit}\n"
    return f"{__version__}\n"
