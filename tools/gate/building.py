"""What `./elephant` and its tools share: paths, the sources of the built program, and what this machine needs to build it."""

import argparse
import ctypes
import datetime
import functools
import hashlib
import json
import os
import re
import shutil
import signal
import subprocess
import sys
import tempfile
from collections.abc import Callable, Collection, Iterable, Mapping
from dataclasses import dataclass
from pathlib import Path
from typing import Any, AnyStr, NamedTuple

ROOT = Path(__file__).resolve().parents[2]
OUT = ROOT / "out"
NAME = "elephant"
# The proved program, and what the gates counted that proved it.
PROGRAM, COUNTED = OUT / NAME, OUT / "counted.json"
PARTS = ("src", "specs", "proofs")
# How a command runs whose whole output is read as one text.
PIPES: dict[str, Any] = {
    "stdin": subprocess.DEVNULL, "stdout": subprocess.PIPE, "stderr": subprocess.STDOUT, "encoding": "utf-8", "errors": "replace",
}
# A check takes up to 3.5 GB; this is in MB.
CHECK_MEMORY = 3500
# The status if this machine lacks something (as EX_UNAVAILABLE of sysexits.h). The program's own are 0 to 5.
UNAVAILABLE = 69
DAY = re.compile(r"\d{4}-\d\d-\d\d")
# The crates of this repository that each of them uses.
Uses = dict[str, set[str]]
# A sum for each source, by its path from the top of the repository.
Sums = dict[str, str]


class Unavailable(Exception):
    """This machine lacks something: the message is one line that names it."""


def match_in(form: AnyStr | re.Pattern[AnyStr], text: AnyStr) -> re.Match[AnyStr]:
    """Returns the first match in a text that has to have one."""
    found = re.search(form, text)
    if found is None:
        raise LookupError(f"nothing is as {form!r} in {text[:60]!r}..")
    return found


def say(text: str) -> None:
    """Prints a line for the user on standard error, which no answer of the program uses."""
    print(f"elephant: {text}", file=sys.stderr, flush=True)


def read_libraries() -> dict[str, list[str]]:
    """Returns, for each crate of crates.txt, the libraries that it uses, of this repository and of the kit."""
    rows: dict[str, list[str]] = {}
    for line in (ROOT / "crates.txt").read_text(encoding="utf-8").splitlines():
        words, _, libraries = line.partition("#")[0].partition(":")
        # A crate's name may be followed by words such as may_wait=3.
        for name in words.split()[:1]:
            rows[name] = libraries.split()
    return rows


def read_uses() -> Uses:
    """Returns, for each crate of crates.txt, the crates of this repository that it uses."""
    rows = read_libraries()
    return {name: {it for it in libraries if it in rows} for name, libraries in rows.items()}


def below(crate: str, uses: Uses) -> set[str]:
    """Returns all crates below the crate."""
    return uses[crate].union(*(below(it, uses) for it in uses[crate]))


def with_below(names: Iterable[str]) -> set[str]:
    """Returns these crates of the repository and all crates below them. It passes over names of other crates."""
    uses = read_uses()
    return {crate for it in names if it in uses for crate in (it, *below(it, uses))}


def program_crates() -> set[str]:
    """Returns the crates that the program is made of, itself included."""
    return with_below([NAME])


def crate_rows(crates: set[str]) -> list[str]:
    """Returns the lines of crates.txt that name these crates."""
    lines = (ROOT / "crates.txt").read_text(encoding="utf-8").splitlines(keepends=True)
    return [it for it in lines if crates.intersection(it.partition(":")[0].split()[:1])]


def lay_out(room: Path, crates: set[str], rows: Iterable[str] = ()) -> None:
    """Makes a repository of only these crates of this one, without wrong bodies and tests' data. crates.txt gets a line for each crate
    that the caller adds to them."""
    # rt takes the folder that holds .git for the top of a repository.
    (room / ".git").mkdir()
    (room / "crates.txt").write_text("".join([*crate_rows(crates), *(f"{it}\n" for it in rows)]), encoding="utf-8")
    shutil.copyfile(ROOT / "HANDLES", room / "HANDLES")
    for crate in crates:
        copy_crate(room, crate)


def copy_crate(room: Path, crate: str) -> None:
    """Copies what a proof of a crate reads, and what its program is run on, into a repository."""
    source, target = ROOT / "crates" / crate, room / "crates" / crate
    for part in PARTS:
        if (source / part).is_dir():
            shutil.copytree(source / part, target / part)
    for file in ("stdin", "stdout", "args", "status"):
        if (source / file).is_file():
            shutil.copyfile(source / file, target / file)


def gate_environment() -> dict[str, str]:
    """Returns the environment for `rt ci`: as many checks at once as processors and memory allow. By default it gives a check up to four
    idle processors; a check uses little more than one, so the next checks would wait for nothing."""
    checks = min(len(os.sched_getaffinity(0)), free_memory() // CHECK_MEMORY)
    return {"RT_JOBS": str(max(checks, 1)), **os.environ}


def run_gate(room: Path) -> tuple[bool, str]:
    """Runs `rt ci` in such a repository, and returns whether all is proved, and what it printed."""
    ran = subprocess.run(["rt", "ci"], cwd=room, env=gate_environment(), check=False, **PIPES)
    return ran.returncode == 0, ran.stdout


def kit_file(path: str) -> Path:
    """Returns a file or folder of the kit."""
    require_rt()
    found = Path(shutil.which("rt") or "rt").resolve().parent.parent / path
    if not found.exists():
        raise Unavailable(f"the kit has no {found}")
    return found


def library_of(crate: str, top: Path = ROOT) -> Path:
    """Returns the folder of the gate's library of a crate of a repository."""
    return top / "crates" / crate / "out" / "rlib" / f"{crate}.rlib"


def has_libraries(crates: Collection[str]) -> bool:
    """Whether the gate's libraries of these crates are here, and no source is newer."""
    parts = [ROOT / "crates" / crate / part for crate in crates for part in PARTS]
    sources = [ROOT / "HANDLES", ROOT / "crates.txt", *(it for part in parts for it in part.rglob("*"))]
    built = [library_of(it) for it in crates]
    return all(it.exists() for it in built) and max(it.stat().st_mtime for it in sources) < min(it.stat().st_mtime for it in built)


Words = list[str | Path]
Hear = Callable[[str], None]


def _unheard(line: str) -> None:
    """Hears nothing."""


def words_above(name: str, uses: Collection[str], top: Path = ROOT) -> Words:
    """Returns the words by which the toolchain's checker takes the library `name`, which uses these crates of a repository, over the gate's
    libraries."""
    kit = ["--extern", f"std={kit_file('rlibs/std.rlib')}", "-L", f"dependency={kit_file('rlibs')}"]
    own = [word for it in sorted(uses) for word in ("--extern", f"{it}={library_of(it, top)}")]
    own += [word for it in sorted(with_below(uses)) for word in ("-L", f"dependency={library_of(it, top).parent}")]
    logic: Words = ["--antt-project", kit_file("rattle/logic/antt-project.json")]
    return ["--crate-name", name, "src/lib.rt", *kit, *own, *logic, "--links", f"{name}="]


def prove_above(
    folder: Path, name: str, uses: Collection[str], top: Path = ROOT, jobs: int = 1, into: Path | None = None, hear: Hear = _unheard,
) -> tuple[bool, str]:
    """Proves the library `name` in a folder, which uses these crates of a repository, over the gate's libraries. Returns whether it is
    proved, and what was printed. With `into` it is a static library, and the folder `into` gets what was checked, for `build_static`.
    `hear` gets each line as it comes."""
    static: Words = ["--crate-type", "staticlib", "-o", into] if into else []
    built: Words = ["--logic-built", kit_file("logic_built"), "--jobs", str(jobs), "--progress"]
    words: Words = [kit_file("bin/rattle"), "check", *words_above(name, uses, top), *built, *static]
    said = []
    with subprocess.Popen(words, cwd=folder, preexec_fn=end_with_parent, **PIPES) as ran:
        for line in ran.stdout or ():
            said.append(line)
            hear(line)
    text = "".join(said)
    return ran.returncode == 0 and "\nlogic=proved " in text, text


def build_static(folder: Path, name: str, uses: Collection[str], checked: Path, archive: Path, top: Path = ROOT) -> str:
    """Builds the static library that `prove_above` proved, and returns what was printed."""
    words = [*words_above(name, uses, top), "--crate-type", "staticlib", "--crate-checked", checked]
    words = [kit_file("bin/rattle"), "build", *words, "--toolchain", kit_file("toolchain"), "-o", archive]
    ran = subprocess.run(words, cwd=folder, check=False, preexec_fn=end_with_parent, **PIPES)
    return str(ran.stdout)


def end_with_parent() -> None:
    """Makes the calling process end when its parent does, even if the parent is killed."""
    set_parent_death_signal = 1
    ctypes.CDLL(None).prctl(set_parent_death_signal, signal.SIGTERM)


def sum_of(data: bytes) -> str:
    return hashlib.sha256(data).hexdigest()[:32]


def source_sums(crate: str = NAME) -> Sums:
    """Returns a sum for each file that the proof of the crate and of those below it reads, by path from the top of the repository."""
    crates = with_below([crate])
    sums = {"crates.txt": sum_of("".join(sorted(crate_rows(crates))).encode())}
    files = [ROOT / "HANDLES"]
    for crate in crates:
        for part in PARTS:
            files += [it for it in (ROOT / "crates" / crate / part).rglob("*") if it.is_file()]
    sums.update((str(it.relative_to(ROOT)), sum_of(it.read_bytes())) for it in files)
    return dict(sorted(sums.items()))


def commit() -> str:
    """Returns the commit that is checked out, or `-` outside of git, from the files that `elephant` reads for it at each start."""
    git = ROOT / ".git"
    try:
        if git.is_file():
            # A worktree.
            git = ROOT / first_line(git).removeprefix("gitdir: ")
        head = first_line(git / "HEAD")
    except OSError:
        return "-"
    if not head.startswith("ref: "):
        return head
    name = head.removeprefix("ref: ")
    shared = git / first_line(git / "commondir") if (git / "commondir").is_file() else git
    if (shared / name).is_file():
        return first_line(shared / name)
    packed = (shared / "packed-refs").read_text(encoding="utf-8") if (shared / "packed-refs").is_file() else ""
    return next((it.split()[0] for it in packed.splitlines() if it.endswith(f" {name}")), "-")


def version() -> str:
    """Returns the version of the program, the library and their clients."""
    return first_line(ROOT / "VERSION")


def first_line(file: Path) -> str:
    """Returns what a file has before its first line feed."""
    return file.read_text(encoding="utf-8").partition("\n")[0]


def require_rt() -> None:
    """Raises Unavailable unless the toolchain is here."""
    if not shutil.which("rt"):
        raise Unavailable("there is no command rt on this machine: proving or building takes Rattle's toolchain (see README.md)")


def kit() -> str:
    """Returns the one line that identifies the toolchain."""
    require_rt()
    return str(subprocess.run(["rt", "version"], capture_output=True, encoding="utf-8", check=False).stdout).strip()


def free_memory() -> int:
    """Returns the free memory in MB."""
    return int(match_in(r"(?m)^MemAvailable: *(\d+)", Path("/proc/meminfo").read_text(encoding="ascii"))[1]) // 1024


def require_memory(megabytes: int, what: str) -> None:
    """Raises Unavailable if less memory is free."""
    if free_memory() < megabytes:
        raise Unavailable(f"{what} takes {megabytes} MB of free memory, and this machine has {free_memory()}")


def require_disk(megabytes: int, what: str) -> None:
    """Raises Unavailable if less is free on the disk of temporary files or of the repository."""
    for folder in (tempfile.gettempdir(), str(ROOT)):
        free = shutil.disk_usage(folder).free >> 20
        if free < megabytes:
            raise Unavailable(f"{what} takes {megabytes} MB of free disk, and {folder} has {free}")


def write_whole(path: Path, data: bytes, mode: int = 0o644) -> None:
    """Writes a file so that no reader ever finds half of it."""
    path.parent.mkdir(exist_ok=True)
    with tempfile.NamedTemporaryFile("wb", dir=path.parent, prefix=f".{path.name}-", delete=False) as file:
        file.write(data)
        os.fchmod(file.fileno(), mode)
    os.replace(file.name, path)


@functools.cache
def python_with(module: str) -> str | None:
    """Returns a Python that has a module, or None. Debian's modules are for its own Python alone."""
    for program in (sys.executable, "/usr/bin/python3"):
        if shutil.which(program) and subprocess.run([program, "-c", f"import {module}"], capture_output=True, check=False).returncode == 0:
            return program
    return None


class Stamp(NamedTuple):
    """The commit, the kit, the day and the sums of the sources that a product was proved with."""

    commit: str
    kit: str
    day: str
    sums: Sums

    def provenance(self) -> str:
        """Returns the lines that an installation keeps of it. `elephant` at the top prints the same of a stamp."""
        return f"commit {self.commit}\nproved on {self.day} by {self.kit}\n"


@dataclass(frozen=True)
class Product:
    """What is proved and built of a crate: files in out/, each with its mode, and a stamp of their sources: the commit, the kit, the day,
    and a sum and a path for each source. The stamp is written last, so without it the product doesn't count."""

    what: str
    crate: str
    stamp: Path
    files: dict[Path, int]
    command: str
    # Sources of the product beside its crates.
    beside: tuple[Path, ...] = ()

    def sums(self) -> Sums:
        return source_sums(self.crate) | {str(it.relative_to(ROOT)): sum_of(it.read_bytes()) for it in self.beside}

    def install(self, built: Mapping[Path, bytes], sums: Sums) -> None:
        """Writes these bytes, built from sources with these sums, as the files of out/."""
        self.stamp.unlink(missing_ok=True)
        for path, mode in self.files.items():
            write_whole(path, built[path], mode)
        self.write_stamp(sums, today())

    def write_stamp(self, sums: Sums, day: str) -> None:
        lines = [commit(), kit(), day, *(f"{it} {path}" for path, it in sums.items())]
        write_whole(self.stamp, "".join(f"{line}\n" for line in lines).encode())

    def read_stamp(self) -> Stamp | None:
        """Returns the stamp, or None if the product isn't there, or its stamp has another form."""
        is_there = (os.access(it, os.X_OK if mode & 0o100 else os.R_OK) for it, mode in self.files.items())
        if not (self.stamp.is_file() and all(is_there)):
            return None
        first, made_by, day, *rows = [*self.stamp.read_text(encoding="utf-8").splitlines(), "", "", ""]
        if not DAY.fullmatch(day):
            return None
        return Stamp(first, made_by, day, {path: it for it, path in (row.split(" ", 1) for row in rows if row)})

    def state(self) -> tuple[bool, str]:
        """Returns whether it was proved from the present sources by the present kit, and a line that says so."""
        found = self.read_stamp()
        if not found:
            return False, f"there is no proved {self.what} here: '{self.command}' proves and builds it"
        changed = changed_since(self.sums(), found.sums)
        # Without rt no other kit can have replaced this one.
        if not changed and shutil.which("rt") and kit() != found.kit:
            changed = [f"the kit ({found.kit})"]
        if changed:
            more = f" and {len(changed) - 3} more" if len(changed) > 3 else ""
            paths = f"{', '.join(changed[:3])}{more}"
            return False, f"the proved {self.what} is of other sources: {paths} changed since; '{self.command}' proves the present ones"
        if found.commit != commit():
            # The proof doesn't read the files that have changed: the next start needn't look again.
            self.write_stamp(found.sums, found.day)
        return True, f"the proved {self.what} is that of the present sources"


BUILT_PROGRAM = Product("program", NAME, OUT / "stamp", {PROGRAM: 0o755}, "./elephant prove")


def today() -> str:
    return datetime.datetime.now(datetime.timezone.utc).date().isoformat()


def read_counted() -> dict[str, Any]:
    """Returns what each gate counted when it last ran here, by its command."""
    return dict(json.loads(COUNTED.read_text(encoding="utf-8"))) if COUNTED.is_file() else {}


def record_counted(command: str, **counts: int) -> None:
    """Keeps what a gate counted, with its commit, its toolchain and the day."""
    facts: dict[str, object] = {"commit": commit(), "toolchain": kit(), "day": today(), **counts}
    write_whole(COUNTED, (json.dumps({**read_counted(), command: facts}, indent=1) + "\n").encode())


def changed_since(sums: Sums, built: Sums) -> list[str]:
    """Returns the paths of the files that are new, changed or removed."""
    return sorted(it for it in {*sums, *built} if sums.get(it) != built.get(it))


def tool_words(name: str, description: str) -> argparse.ArgumentParser:
    """Returns the reader of a tool's words: each takes a program, and `--long`."""
    words = argparse.ArgumentParser(prog=f"tools/{name}", description=description.split("\n")[0])
    words.add_argument("--program", default=str(PROGRAM), metavar="PROGRAM", help="in place of the one that './elephant prove' builds")
    words.add_argument("--long", action="store_true", help="check at length")
    return words
