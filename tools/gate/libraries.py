"""The C library: how its files are made from the crate `ele_c`, and where `./elephant install` puts them.

The kit's `rattle build` writes one position-independent object file. It calls the C library, and three functions of the kit that
allocate memory. clients/c/src/elephant.c, which tools/pages/surface prints, has the calls of the header over the exports of the crate.
This module links all of these into one object, makes every name but `elephant_*` local, and builds libelephant.a and libelephant.so
from it. It uses the kit's own LLVM tools, so building needs no C compiler of the machine.

libelephant.so opens no file. Beside it is libelephant_file.so, which is no part of it: the one call of
clients/c/src/elephant_file_append.c, by which the Python package commits to a file.
"""

import os
import re
import subprocess
import tempfile
from collections.abc import Callable
from pathlib import Path
from typing import NamedTuple

from gate import building
from gate.building import OUT, ROOT, Unavailable

CRATE = "ele_c"
HEADER = ROOT / "include" / "elephant.h"
# The calls of the header over the exports of the crate.
CALLS = ROOT / "clients" / "c" / "src" / "elephant.c"
# A store in a file: source that a program compiles, over the library.
FILE_HEADER, FILE_SOURCE = ROOT / "include" / "elephant_file.h", ROOT / "clients" / "c" / "src" / "elephant_file.c"
# What that source includes, from beside it.
FILE_PARTS = tuple(FILE_SOURCE.with_name(f"elephant_file_{it}.h") for it in ("ahead", "calls"))
# A commit to a file as one call.
APPEND_HEADER, APPEND_SOURCE = (CALLS.with_name(f"elephant_file_append.{it}") for it in "hc")
# The kit's clang has no headers of C. These have what elephant.h and the commit take of them, as glibc has it on x86-64.
HEADERS = {
    "stddef.h": "typedef __SIZE_TYPE__ size_t;\n",
    "stdint.h": "typedef __INT32_TYPE__ int32_t;\ntypedef __UINT32_TYPE__ uint32_t;\ntypedef __UINT64_TYPE__ uint64_t;\n"
    "typedef __INT64_TYPE__ int64_t;\n"
    "#define UINT64_MAX __UINT64_MAX__\n",
    "errno.h": "int *__errno_location(void);\n#define errno (*__errno_location())\nenum { EINTR = 4, ENOSPC = 28 };\n",
    "fcntl.h": "enum { POSIX_FADV_DONTNEED = 4, O_CLOEXEC = 02000000 };\nint open(const char *path, int flags, ...);\n"
    "int posix_fadvise(int file, long place, long length, int advice);\n",
    "sys/stat.h": "struct stat { unsigned long st_dev, st_ino, before[4]; long st_size, after[11]; };\n"
    "int stat(const char *path, struct stat *found);\n",
    "unistd.h": "typedef long off_t, ssize_t;\nssize_t pwrite(int file, const void *bytes, __SIZE_TYPE__ length, off_t place);\n"
    "ssize_t pread(int file, void *bytes, __SIZE_TYPE__ length, off_t place);\nint fdatasync(int file);\nint fsync(int file);\n",
}
COMPILED = ["--target=x86_64-unknown-linux-gnu", "-std=c11", "-O2", "-fPIC", "-Wall", "-Wextra", "-Wconversion", "-Werror", "-nostdinc"]
STATIC, SHARED, APPEND = OUT / "libelephant.a", OUT / "libelephant.so", OUT / "libelephant_file.so"
# The number goes up when a program that was linked with an earlier library can't run with this one.
SONAME, APPEND_SONAME = "libelephant.so.1", "libelephant_file.so.1"
SECURED = ["-z", "defs", "-z", "relro", "-z", "now", "--build-id", "--gc-sections"]
EXPORTED = "elephant_*"
CONFIG = """prefix={prefix}
libdir=${{prefix}}/{libdir}
includedir=${{prefix}}/include
file=${{prefix}}/share/elephant/elephant_file.c

Name: elephant
Description: The core of a file system that keeps earlier versions of files, in memory
Version: {version}
Libs: -L${{libdir}} -lelephant
Cflags: -I${{includedir}}
"""
BUILT_LIBRARY = building.Product(
    "library", CRATE, OUT / "library.stamp", {STATIC: 0o644, SHARED: 0o755, APPEND: 0o755}, "./elephant library",
    (HEADER, CALLS, APPEND_HEADER, APPEND_SOURCE, *FILE_PARTS[1:]),
)


class LaidFile(NamedTuple):
    """A file of an installation."""

    mode: int
    data: bytes


class LaidLink(NamedTuple):
    """A link of an installation."""

    target: str


def version() -> str:
    """Returns the version that the header defines."""
    return building.match_in(r'(?m)^#define ELEPHANT_LIBRARY_VERSION "([\d.]+)"$', HEADER.read_text(encoding="utf-8"))[1]


def run_kit(tool: str, *words: str | Path) -> None:
    """Runs a tool of the kit's LLVM. All of them are one file, which looks at the name of its call."""
    llvm = building.kit_file("toolchain/bin/clang")
    ran = subprocess.run([tool, *map(str, words)], executable=llvm, capture_output=True, encoding="utf-8", errors="replace", check=False)
    if ran.returncode:
        raise Unavailable(f"{tool} of the kit failed: {' '.join(ran.stderr.split())[:300]}")


def _unsaid(text: str) -> None:
    """Says nothing."""


def build(top: Path, say: Callable[[str], None] = _unsaid) -> tuple[Path, str]:
    """Builds the crate's archive in a repository, `top`, whose crates below it `rt ci` has proved. Returns its path, and what was printed.

    `rt ci` checks a static library and leaves no archive, and `rt lib` takes nothing that `rt ci` built below the crate. So the crate
    is proved as it is built, over the very libraries over which `rt ci` proves it. `say` hears how far that is."""
    folder = top / "crates" / CRATE
    archive = folder / "out" / f"lib{CRATE}.a"
    if not folder.is_dir():
        raise Unavailable(f"there is no crate {CRATE} here")
    archive.parent.mkdir(exist_ok=True)
    uses, jobs = building.read_uses()[CRATE], len(os.sched_getaffinity(0))
    with tempfile.TemporaryDirectory() as room:
        checked = Path(room) / "checked"
        proved, said = building.prove_above(folder, CRATE, uses, top, jobs, checked, Progress(say).hear)
        if proved:
            said += building.build_static(folder, CRATE, uses, checked, archive, top)
    if not proved or not archive.is_file():
        raise Unavailable(f"{CRATE} isn't built over what `rt ci` proved: {' '.join(said.split())[-300:]}")
    return archive, said


class Progress:
    """Tells how many functions of the crate are proved, for each tenth of them."""

    def __init__(self, say: Callable[[str], None]) -> None:
        self._say, self._tenth = say, 0

    def hear(self, line: str) -> None:
        found = re.match(r"checked .*, (\d+) of (\d+)$", line)
        if found and 10 * int(found[1]) // int(found[2]) > self._tenth:
            self._tenth = 10 * int(found[1]) // int(found[2])
            self._say(f"{CRATE}: {found[1]} of {found[2]} functions proved")


def compiled(source: Path, folder: Path) -> Path:
    """Compiles a source over the header in a folder, and returns the object."""
    for name, text in HEADERS.items():
        (folder / name).parent.mkdir(exist_ok=True)
        (folder / name).write_text(text, encoding="ascii")
    made = folder / f"{source.stem}.o"
    run_kit("clang", *COMPILED, f"-I{HEADER.parent}", "-isystem", folder, "-c", source, "-o", made)
    return made


def libc() -> list[Path]:
    """Returns the C library of the kit."""
    return [building.kit_file(f"toolchain/lib/{it}") for it in ("libc.so.6", "ld-linux-x86-64.so.2")]


def pack_append() -> bytes:
    """Returns the bytes of the library with the commit to a file. It takes its calls of the other library as pointers."""
    with tempfile.TemporaryDirectory() as folder:
        made, source = Path(folder, APPEND.name), compiled(APPEND_SOURCE, Path(folder))
        run_kit("ld.lld", "-shared", *SECURED, "-soname", APPEND_SONAME, "-o", made, source, "--as-needed", *libc())
        return made.read_bytes()


def pack(archive: Path) -> dict[Path, bytes]:
    """Returns the bytes of the libraries, made from the crate's archive, the calls of the header and the commit to a file."""
    with tempfile.TemporaryDirectory() as folder:
        whole, local, static, shared = (Path(folder, it) for it in ("whole.o", "local.o", STATIC.name, SHARED.name))
        objects = [compiled(CALLS, Path(folder)), building.kit_file("c/liblibc_c.a")]
        run_kit("ld.lld", "-r", "-o", whole, "--whole-archive", archive, "--no-whole-archive", *objects)
        run_kit("llvm-objcopy", "--wildcard", f"--keep-global-symbol={EXPORTED}", whole, local)
        run_kit("llvm-ar", "rcsD", static, local)
        run_kit("ld.lld", "-shared", *SECURED, "-soname", SONAME, "-o", shared, local, "--as-needed", *libc())
        return {STATIC: static.read_bytes(), SHARED: shared.read_bytes(), APPEND: pack_append()}


def build_and_install(sums: building.Sums) -> None:
    """Builds the library in this tree, whose crates `rt ci` has proved from sources with these sums, and puts it into out/."""
    archive, _ = build(ROOT)
    BUILT_LIBRARY.install(pack(archive), sums)


def installed(prefix: Path, folder: Path = OUT, libdir: str = "lib") -> dict[str, LaidFile | LaidLink]:
    """Returns the installed files and links of the libraries, by their paths below the prefix."""
    config = CONFIG.format(prefix=prefix, libdir=libdir, version=version())
    return {
        "include/elephant.h": LaidFile(0o644, HEADER.read_bytes()),
        "include/elephant_file.h": LaidFile(0o644, FILE_HEADER.read_bytes()),
        **{f"share/elephant/{it.name}": LaidFile(0o644, it.read_bytes()) for it in (FILE_SOURCE, *FILE_PARTS)},
        f"{libdir}/{STATIC.name}": LaidFile(0o644, (folder / STATIC.name).read_bytes()),
        f"{libdir}/{SONAME}": LaidFile(0o644, (folder / SHARED.name).read_bytes()),
        f"{libdir}/{SHARED.name}": LaidLink(SONAME),
        f"{libdir}/{APPEND_SONAME}": LaidFile(0o644, (folder / APPEND.name).read_bytes()),
        f"{libdir}/{APPEND.name}": LaidLink(APPEND_SONAME),
        f"{libdir}/pkgconfig/elephant.pc": LaidFile(0o644, config.encode()),
    }


def lay(path: Path, laid: LaidFile | LaidLink) -> None:
    """Writes a file or a link of an installation, so that no reader ever finds half of it."""
    path.parent.mkdir(parents=True, exist_ok=True)
    if isinstance(laid, LaidFile):
        building.write_whole(path, laid.data, laid.mode)
        return
    link = path.with_name(f".{path.name}-{os.getpid()}")
    link.symlink_to(laid.target)
    os.replace(link, path)


def examples_in_page(word: str) -> list[str]:
    """Returns the programs in the code blocks of docs/EMBED.md that have this language."""
    pages = sorted((ROOT / "docs").glob("EMBED.md"))
    text = "".join(it.read_text(encoding="utf-8") for it in pages)
    return [it for it in re.findall(rf"^```{word}\n(.*?)^```$", text, re.M | re.S) if " main(" in it]
