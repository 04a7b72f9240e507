"""Checks the Debian package in an empty Debian system: it is installed, used, replaced by a later version, and removed.

mmdebstrap makes the system in a folder, of Debian's packages and nothing else: those that the package depends on and recommends, and a
compiler of C. What runs there has a namespace of its own, without a network. The system's user has no rights beyond its own.
"""

import contextlib
import os
import re
import shutil
import subprocess
import tempfile
import time
from collections.abc import Iterator
from pathlib import Path

from gate import building, libraries
from gate.building import NAME, ROOT
from package import contents, crates
from package.trying import Lacking, Wrong, expect, outcome, run
from package.venvs import MOUNTED, MOUNTING, PROGRAM, mounted

SUITES = ["bookworm", "trixie"]
# What compiles C and Rust. tcc is a compiler of C that is there in a moment.
SHORT, LONG = ["tcc", "libc6-dev", "pkg-config"], ["gcc", "libc6-dev", "pkg-config", "cargo"]
# What runs in the system: its folder of processes is mounted, and then the root changes. The words are the folder of the system, the user
# with its folder, a script and a word of that.
INSIDE = """mount -t proc proc "$1/proc"
exec chroot --userspec="$2" "$1" /usr/bin/env -i -C "$3" PATH=/usr/bin:/usr/sbin:/bin:/sbin HOME="$3" LC_ALL=C.UTF-8 sh -c "$4" sh "$5"
"""
USER, HOME = "1000:1000", "/home/writer"
# What dpkg, apt and the loader keep for themselves.
OWN = re.compile(r"/(proc|sys|dev|tmp|var/lib/dpkg|var/lib/apt|var/cache|var/log)(/|$)|/etc/ld\.so\.cache$")
BEFORE = "0.0.1-1"


class Root:
    """A system in a folder."""

    def __init__(self, top: Path) -> None:
        self.top = top

    def make(self, suite: str, packages: list[str]) -> None:
        """Makes it of Debian's packages."""
        hasty = ["--quiet", "--variant=apt", "--dpkgopt=force-unsafe-io"]
        words = ["mmdebstrap", *hasty, f"--include={','.join(packages)}", suite, str(self.top)]
        ran = subprocess.run(words, capture_output=True, encoding="utf-8", errors="replace", timeout=1200, check=False)
        if ran.returncode:
            raise Lacking(f"mmdebstrap makes no {suite} here: {' '.join(ran.stderr.split())[-300:]}")
        (self.top / HOME.lstrip("/")).mkdir()
        os.chown(self.top / HOME.lstrip("/"), 1000, 1000)
        with open(self.top / "etc/passwd", "a", encoding="utf-8") as users:
            users.write(f"writer:x:1000:1000::{HOME}:/bin/sh\n")
        # fusermount3 reads it. An installation of Debian has this link.
        (self.top / "etc/mtab").unlink(missing_ok=True)
        (self.top / "etc/mtab").symlink_to("../proc/self/mounts")
        (self.top / "dev/fuse").unlink(missing_ok=True)
        # Where no device can be made, nothing is mounted.
        with contextlib.suppress(OSError):
            os.mknod(self.top / "dev/fuse", 0o20666, os.makedev(10, 229))
            os.chmod(self.top / "dev/fuse", 0o666)

    def shell(self, script: str, word: str = "", given: str = "", is_root: bool = False) -> str:
        """Runs a script there, as the user or as root, and returns its output."""
        apart = ["unshare", "--mount", "--pid", "--fork", "--kill-child", "--ipc", "--net", "sh", "-ec", INSIDE, "sh"]
        user, home = ("0:0", "/root") if is_root else (USER, HOME)
        status, output, errors = outcome([*apart, self.top, user, home, f"set -e\n{script}", word], given)
        if status:
            raise Wrong(f"in the system {script.strip()[:90]!r} ends with status {status}: {errors.strip()[-900:]}{output.strip()[-300:]}")
        return output

    def put(self, path: Path, name: str) -> None:
        """Copies a file, or a folder, into the user's folder."""
        target = self.top / HOME.lstrip("/") / name
        if path.is_dir():
            shutil.copytree(path, target)
        else:
            shutil.copy(path, target)
        for it in [target, *target.rglob("*")]:
            os.chown(it, 1000, 1000)

    def files(self) -> set[str]:
        """Returns the paths of all files and folders, but for what the system keeps for itself."""
        found: set[str] = set()
        for folder, folders, names in os.walk(self.top):
            below = "/" + os.path.relpath(folder, self.top) if Path(folder) != self.top else ""
            folders[:] = [it for it in folders if not OWN.match(f"{below}/{it}")]
            found.update(f"{below}/{it}" for it in [*names, *folders])
        return {it for it in found if not OWN.match(it)}


def needed() -> list[str]:
    """Returns the packages that the package depends on and recommends."""
    control = (contents.PACKAGING / "control").read_text(encoding="utf-8")
    rows = re.findall(r"(?m)^(?:Depends|Recommends): (.*)$", control)
    return [it.partition("(")[0].strip() for row in rows for it in row.split(",")]


def earlier(package: Path, folder: Path) -> Path:
    """Returns the same package under an earlier version."""
    run(["dpkg-deb", "-R", package, folder / "parts"])
    control = folder / "parts/DEBIAN/control"
    control.write_text(re.sub(r"(?m)^Version: .*", f"Version: {BEFORE}", control.read_text(encoding="utf-8")), encoding="utf-8")
    made = folder / f"elephant_{BEFORE}_amd64.deb"
    run(["dpkg-deb", "--root-owner-group", "-Zgzip", "-z1", "-b", folder / "parts", made])
    return made


INSTALL = "DEBIAN_FRONTEND=noninteractive apt-get -qq install -y"
C_PROGRAM = "cc -Wall -Werror -o plan plan.c $(pkg-config --cflags --libs elephant) && ./plan && ldd ./plan"
AGAIN = """
import sys
from elephant import Store
with Store(journal=sys.argv[1], clock="manual") as store:
    print(store.read("/notes"), store.read("/notes", at=59), len(store.versions("/notes")))
"""


def uses_program(root: Root) -> str:
    """Runs the first script, and asks for the version."""
    given, wanted = ((ROOT / "crates" / NAME / it).read_text(encoding="utf-8") for it in ("stdin", "stdout"))
    expect(root.shell("elephant run", given=given), wanted, "the answers of the first script")
    library = libraries.BUILT_LIBRARY
    for command, product in (("elephant", building.BUILT_PROGRAM), ("elephant-mount", library), ("elephant-browse", library)):
        expect(root.shell(f"{command} --version"), contents.said_version(command, product), f"{command} --version")
    return "the first script is answered"


def uses_c(root: Root, folder: Path) -> str:
    """Builds a C program by pkg-config, and runs it over the shared library."""
    program = folder / "plan.c"
    program.write_text(libraries.examples_in_page("c")[0], encoding="utf-8")
    root.put(program, "plan.c")
    printed = root.shell(C_PROGRAM)
    if not printed.startswith("walk\n") or f"{libraries.SONAME} => /" not in printed:
        raise Wrong(f"the C program prints {printed!r}")
    return "a C program is built by pkg-config, and runs"


def uses_python(root: Root) -> str:
    """Runs a Python program over a journal."""
    printed = root.shell('python3 -c "$1" notes.journal', PROGRAM).splitlines()
    expect(printed[0], f"{building.version()} b'two' b'one'", "what the Python program prints")
    return "a Python program runs"


def uses_rust(root: Root, packed: Path, built: Path, is_long: bool) -> str:
    """Runs a Rust program that was built by pkg-config. At length, Debian's cargo builds it there."""
    if is_long:
        with tempfile.TemporaryDirectory() as folder:
            crates.unpack(packed, Path(folder), HOME + "/rust")
            root.put(Path(folder), "rust")
        expect(root.shell("cd rust/notes && cargo run --quiet --offline"), crates.PRINTED, "what a program of Debian's cargo prints")
        return "a Rust program is built by pkg-config, and runs"
    if not built.is_file():
        return "no Rust program was built, so none ran"
    root.put(built, "rust-notes")
    expect(root.shell("./rust-notes"), crates.PRINTED, "what the Rust program prints")
    return "a Rust program runs"


def mounts(root: Root) -> str:
    """Mounts a folder as the user, saves and undoes."""
    if not (root.top / "dev/fuse").exists() or not Path("/dev/fuse").exists():
        return "there is no /dev/fuse, so nothing was mounted"
    expect(mounted(root.shell(MOUNTING.replace('"$1"', "elephant-mount"))), MOUNTED, "what a mounted folder holds")
    return "a folder was mounted, and undone"


def upgrades(root: Root, package: Path) -> str:
    """Installs the later version over the earlier one. The journals that the user has are as they were."""
    held = root.shell("sha256sum *.journal")
    root.shell(f"{INSTALL} /root/{package.name}", is_root=True)
    version = root.shell("dpkg-query -W -f '${Version}' elephant")
    expect(version, f"{building.version()}-1", "the version after the upgrade")
    expect(root.shell("sha256sum *.journal"), held, "the journals after the upgrade")
    expect(root.shell('python3 -c "$1" notes.journal', AGAIN), "b'two' b'one' 3\n", "what the journal holds after the upgrade")
    return f"the upgrade from {BEFORE} keeps the journals"


def removes(root: Root, before: set[str]) -> str:
    """Removes the package. What is left is the user's."""
    root.shell("DEBIAN_FRONTEND=noninteractive apt-get -qq purge -y elephant", is_root=True)
    after = root.files()
    left = sorted(it for it in after - before if not it.startswith(f"{HOME}/") and not it.startswith("/root/"))
    expect(left, [], "what the removal leaves")
    expect(sorted(before - after), [], "what the removal takes beside its own")
    expect(root.shell("ls *.journal").split()[-1], "notes.journal", "the user's journal")
    return "the removal leaves no file but the user's"


def check_suite(suite: str, root: Root, packages: tuple[Path, Path, Path], rust_program: Path, is_long: bool) -> Iterator[str]:
    """Checks the package in one system, and yields a line for each thing. The packages are the earlier one, the present one and the Rust
    crate."""
    older, package, packed = packages
    before = root.files()
    for it in (older, package):
        shutil.copy(it, root.top / "root")
    root.shell(f"{INSTALL} /root/{older.name}", is_root=True)
    yield f"{suite}: {uses_program(root)}"
    yield f"{suite}: {uses_c(root, rust_program.parent)}"
    yield f"{suite}: {uses_python(root)}"
    yield f"{suite}: {uses_rust(root, packed, rust_program, is_long)}"
    yield f"{suite}: {mounts(root)}"
    yield f"{suite}: {upgrades(root, package)}"
    yield f"{suite}: {uses_program(root)}"
    yield f"{suite}: {removes(root, before)}"


def check(package: Path, packed: Path, folder: Path, rust_program: Path, is_long: bool) -> Iterator[str]:
    """Checks the package in an empty system of each suite, and yields a line for each thing. `packed` is the Rust crate."""
    if os.geteuid() or not all(map(shutil.which, ("mmdebstrap", "unshare", "chroot"))):
        raise Lacking("an empty Debian system takes mmdebstrap, unshare and root's rights, so none was made")
    older = earlier(package, folder)
    for suite in SUITES if is_long else SUITES[:1]:
        began = time.monotonic()
        root = Root(folder / suite)
        root.make(suite, [*needed(), *(LONG if is_long else SHORT)])
        yield f"{suite}: an empty system of {len(root.files())} files, {time.monotonic() - began:.0f} seconds"
        yield from check_suite(suite, root, (older, package, packed), rust_program, is_long)
