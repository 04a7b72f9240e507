"""Builds the wheel: the package, and in it the shared libraries with what is known of their proof, if `./elephant library` has built them.

pyproject.toml has all that setuptools needs to know beside it.
"""

from __future__ import annotations

import re
import shutil
import tempfile
from pathlib import Path

from setuptools import Distribution, setup
from setuptools.command.build_py import build_py

try:
    from setuptools.command.bdist_wheel import bdist_wheel
except ImportError:  # before setuptools 70.1
    from wheel.bdist_wheel import bdist_wheel

HERE = Path(__file__).resolve().parent
BUILT = HERE.parent.parent / "out"
LIBRARY, STAMP = BUILT / "libelephant.so", BUILT / "library.stamp"
# A commit to a file as one call. Without it, or with an older C library than it asks for, the package makes several.
APPEND = BUILT / "libelephant_file.so"
# What pip of Python 3.9 calls the platform with this version of the GNU C library.
OLD_NAMES = {17: "manylinux2014_x86_64"}


def platform() -> str:
    """Returns the platforms on which the library runs: those with the GNU C library of the newest version that it asks for, or a later
    one."""
    newest = max((int(it) for it in re.findall(rb"\0GLIBC_2\.(\d+)", LIBRARY.read_bytes())), default=0)
    # Names of versions before 5 mean nothing to pip.
    version = next((it for it in sorted(OLD_NAMES) if it >= newest), newest)
    return ".".join([f"manylinux_2_{version}_x86_64", *filter(None, [OLD_NAMES.get(version)])])


class Package(Distribution):
    """The package: with the library it is for one platform."""

    def has_ext_modules(self) -> bool:
        return LIBRARY.is_file()


class WithLibrary(build_py):
    """Copies the libraries and what is known of their proof beside the modules. An editable installation finds them in out/."""

    def run(self) -> None:
        super().run()
        # Before setuptools 64 an editable installation runs no build_py.
        if getattr(self, "editable_mode", False) or not LIBRARY.is_file():
            return
        folder = Path(self.build_lib, "elephant")
        folder.mkdir(parents=True, exist_ok=True)
        for built in filter(Path.is_file, (LIBRARY, APPEND)):
            shutil.copyfile(built, folder / built.name)
        if STAMP.is_file():
            commit, kit, day = STAMP.read_text(encoding="utf-8").splitlines()[:3]
            (folder / "PROVENANCE").write_text(f"commit {commit}\nproved on {day} by {kit}\n", encoding="utf-8")


class Wheel(bdist_wheel):
    """A wheel for each Python 3: the package has no extension modules, and loads the library itself."""

    def get_tag(self) -> tuple[str, str, str]:
        return ("py3", "none", platform() if LIBRARY.is_file() else "any")


def licence() -> str:
    """Returns the identifier in the first line of LICENSE, or NONE."""
    return (HERE / "LICENSE").read_text(encoding="utf-8").partition("\n")[0].removeprefix("SPDX-License-Identifier: ")


with tempfile.TemporaryDirectory() as room:
    # Nothing is left in the sources.
    setup(
        license=licence(), distclass=Package, cmdclass={"build_py": WithLibrary, "bdist_wheel": Wheel},
        options={"build": {"build_base": f"{room}/build"}, "egg_info": {"egg_base": room}, "bdist_wheel": {"bdist_dir": f"{room}/wheel"}},
    )
