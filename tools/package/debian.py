"""The Debian package: the program, the library, the Python package with its commands, manual pages, completions and documents."""

import datetime
import gzip
import hashlib
import re
import shutil
import zipfile
from email.utils import format_datetime
from pathlib import Path

from gate import building, libraries
from gate.building import ROOT, Unavailable
from gate.libraries import LaidFile
from package import completions, contents, manual, sources
from package.contents import PACKAGING, Laid, text

MAINTAINER = "Gorbitsen maintainers <maintainers@users.noreply.gorbitsen.example>"
LIBDIR = "lib/x86_64-linux-gnu"
PYTHON, DOCUMENTS = "lib/python3/dist-packages", "share/doc/elephant"
# The revision of the packaging.
REVISION = 1
COMMAND = """#!/usr/bin/python3
import sys

from elephant.{}.main import main

sys.exit(main())
"""
CHANGES = """elephant ({version}) unstable; urgency=medium

  * changelog.gz has the changes.

 -- {maintainer}  {date}
"""


def version() -> str:
    return f"{building.version()}-{REVISION}"


def packed(data: bytes) -> LaidFile:
    """Returns a file of these bytes as gzip packs them, without a time."""
    return LaidFile(0o644, gzip.compress(data, 9, mtime=0))


def glibc_of(data: bytes) -> int:
    """Returns N of the newest version 2.N of the GNU C library that a file asks for."""
    return max((int(it) for it in re.findall(rb"\0GLIBC_2\.(\d+)", data)), default=0)


def of_python(wheel: Path) -> Laid:
    """Returns the files of the Python package: those of the wheel, without the libraries, and without the list of the wheel's files."""
    laid: Laid = {}
    with zipfile.ZipFile(wheel) as archive:
        for name in archive.namelist():
            if not name.endswith((libraries.SHARED.name, libraries.APPEND.name, "/RECORD", "/WHEEL", "/LICENSE")):
                laid[f"{PYTHON}/{name}"] = LaidFile(0o644, archive.read(name))
    return laid


def documents() -> Laid:
    """Returns the documents and examples, as they lie in the tree."""
    chosen = [it for it in sources.files() if it.startswith(("docs/", "examples/")) and not it.endswith(".1")]
    laid: Laid = {f"{DOCUMENTS}/{it}": LaidFile(0o644, (ROOT / it).read_bytes()) for it in ["README.md", "tools/README.md", *chosen]}
    date = format_datetime(datetime.datetime.fromtimestamp(sources.epoch(), datetime.timezone.utc))
    laid[f"{DOCUMENTS}/changelog.gz"] = packed((ROOT / "CHANGELOG.md").read_bytes())
    changes = CHANGES.format(version=version(), maintainer=MAINTAINER, date=date)
    laid[f"{DOCUMENTS}/changelog.Debian.gz"] = packed(changes.encode())
    laid[f"{DOCUMENTS}/copyright"] = text(copyright_page())
    return laid


def copyright_page() -> str:
    """Returns Debian's page on the copyright, with what LICENSE says."""
    first, _, rest = (ROOT / "LICENSE").read_text(encoding="utf-8").partition("\n")
    lines = "\n".join(f" {it}" if it else " ." for it in rest.strip().splitlines())
    year = datetime.datetime.fromtimestamp(sources.epoch(), datetime.timezone.utc).year
    form = (PACKAGING / "copyright").read_text(encoding="utf-8")
    licence = first.removeprefix("SPDX-License-Identifier: ")
    return form.format(maintainer=MAINTAINER, commit=building.commit(), year=year, licence=licence, text=lines)


def laid_out(wheel: Path) -> Laid:
    """Returns all files of the package, by their paths below /usr."""
    laid = contents.program_and_library(Path("/usr"), LIBDIR, is_site=False)
    laid.update(of_python(wheel))
    laid.update(documents())
    commands = ("mount", completions.of_mount(), manual.of_mount()), ("browse", completions.of_browse(), manual.of_browse())
    for name, words, described in commands:
        laid.update(contents.with_completions(f"elephant-{name}", words, is_site=False))
        laid[f"bin/elephant-{name}"] = text(COMMAND.format(name), 0o755)
        laid[f"share/man/man1/elephant-{name}.1"] = text(described)
    laid["share/lintian/overrides/elephant"] = LaidFile(0o644, (PACKAGING / "lintian-overrides").read_bytes())
    laid["lib/systemd/user/elephant-mount@.service"] = LaidFile(0o644, (PACKAGING / "elephant-mount@.service").read_bytes())
    pages = [(path, it) for path, it in laid.items() if path.startswith("share/man/") and isinstance(it, LaidFile)]
    for path, page in pages:
        laid[f"{path}.gz"] = packed(page.data)
        del laid[path]
    return laid


def control_files(laid: Laid, libc: int) -> Laid:
    """Returns the files by which dpkg knows the package."""
    held = {path: it for path, it in laid.items() if isinstance(it, LaidFile)}
    size = sum((len(it.data) + 1023) // 1024 for it in held.values())
    form = (PACKAGING / "control").read_text(encoding="utf-8")
    sums = "".join(f"{hashlib.md5(it.data).hexdigest()}  usr/{path}\n" for path, it in sorted(held.items()))
    numbers = {name.partition(".")[0]: name.rpartition(".")[2] for name in (libraries.SONAME, libraries.APPEND_SONAME)}
    return {
        "control": text(form.format(version=version(), maintainer=MAINTAINER, size=size, libc=libc)),
        "md5sums": text(sums),
        "shlibs": text("".join(f"{name} {number} elephant (>= {building.version()})\n" for name, number in numbers.items())),
        "triggers": text("activate-noawait ldconfig\n"),
        **{name: LaidFile(0o755, (PACKAGING / name).read_bytes()) for name in ("postinst", "prerm")},
    }


def build(into: Path, room: Path, wheel: Path) -> Path:
    """Builds the package, and returns its path."""
    if not shutil.which("dpkg-deb"):
        raise Unavailable("the Debian package takes dpkg-deb, and there is none on this machine")
    laid = laid_out(wheel)
    libc = max(glibc_of(it.data) for it in laid.values() if isinstance(it, LaidFile))
    for path, it in laid.items():
        libraries.lay(room / "usr" / path, it)
    for path, it in control_files(laid, libc).items():
        libraries.lay(room / "DEBIAN" / path, it)
    sources.settle(room)
    made = into / f"elephant_{version()}_amd64.deb"
    # More threads may cut the archive into other blocks.
    sources.run(["dpkg-deb", "--root-owner-group", "-Zxz", "--build", room, made], into, DPKG_DEB_THREADS_MAX="1")
    return made
