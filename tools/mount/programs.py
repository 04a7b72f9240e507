"""Other programs in a mounted folder. Each check returns how many things it checked, and how many were wrong."""

import hashlib
import io
import os
import subprocess
import tarfile
import time
from collections.abc import Callable, Sequence
from pathlib import Path
from typing import Any, NamedTuple

from gate.building import ROOT
from mount.mounts import Mounted

GIT = {
    "GIT_AUTHOR_NAME": "a", "GIT_AUTHOR_EMAIL": "a@b", "GIT_COMMITTER_NAME": "a", "GIT_COMMITTER_EMAIL": "a@b", "GIT_CONFIG_NOSYSTEM": "1",
    "GIT_CONFIG_GLOBAL": "/dev/null",
}
# The part of the history that the short form replays. The long one replays all of it.
SHORT_PATHS, SHORT_COMMITS = ["docs", "tools", "examples", "include"], 8
STRESSORS = [
    "access", "chdir", "chmod", "dentry", "dir", "dirdeep", "dup", "fcntl", "flock", "fstat", "getdent", "link", "lockf", "locka", "mknod",
    "open", "rename", "sendfile", "symlink", "touch", "utime",
]
# A store makes at most 10,000 directories and 100,000 files ever, and these would make more at once.
LESS = {"dir": ["--dir-dirs", "64"], "dentry": ["--dentries", "64"], "dirdeep": ["--dirdeep-inodes", "500"]}


# Prints a line of a check.
Say = Callable[[str], None]
# How many things a check looked at, and what was wrong.
Checked = tuple[int, list[str]]
# By path, a sum of each file, and whether the file may be run.
Sums = dict[str, tuple[str, bool]]


def run(words: Sequence[str | Path], folder: Path, **options: Any) -> bytes:
    """Runs a program, and returns its output. Raises CalledProcessError with its errors."""
    how: dict[str, Any] = {"capture_output": True, "timeout": 900, "stdin": None if options else subprocess.DEVNULL, **options}
    ran = subprocess.run(words, cwd=folder, env={**os.environ, **GIT}, check=False, **how)
    output: bytes = ran.stdout
    if ran.returncode:
        said = (output + ran.stderr).decode(errors="replace")[-600:]
        raise OSError(f"{' '.join(map(str, words))[:200]} ended with {ran.returncode}: {said}")
    return output


def in_turn(*calls: Callable[[], object]) -> None:
    """Makes calls one after another."""
    for call in calls:
        call()


def sums_of(folder: Path) -> Sums:
    """Returns a sum of each file below a folder, without git's own, by path, and whether the file may be run. A link's sum is its
    target."""
    sums: Sums = {}

    def add(place: str | Path, above: str) -> None:
        with os.scandir(place) as rows:
            for row in rows:
                if row.is_symlink():
                    sums[above + row.name] = hashlib.sha256(os.readlink(row.path).encode()).hexdigest(), False
                elif row.is_dir():
                    if above or row.name != ".git":
                        add(row.path, f"{above}{row.name}/")
                else:
                    with open(row.path, "rb", buffering=0) as file:
                        may_run = bool(os.fstat(file.fileno()).st_mode & 0o100)
                        sums[above + row.name] = hashlib.sha256(file.readall()).hexdigest(), may_run

    add(folder, "")
    return sums


def sums_of_commit(commit: str, paths: Sequence[str]) -> Sums:
    """Returns the same of a commit of this repository."""
    sums: Sums = {}
    archive = run(["git", "archive", commit, "--", *paths], ROOT)
    with tarfile.open(fileobj=io.BytesIO(archive)) as files:
        for it in files:
            if file := files.extractfile(it) if it.isfile() else None:
                sums[it.name] = hashlib.sha256(file.read()).hexdigest(), bool(it.mode & 0o100)
            elif it.issym():
                sums[it.name] = hashlib.sha256(it.linkname.encode()).hexdigest(), False
    return sums


def next_second() -> int:
    """Waits until another second has begun, and returns the one before."""
    now = int(time.time())
    while int(time.time()) == now:
        time.sleep(0.01)
    return now


def paths_in(commit: str, paths: Sequence[str]) -> list[str]:
    """Returns those of the paths that a commit has."""
    found = run(["git", "ls-tree", "--name-only", commit], ROOT).decode().split()
    return [it for it in paths if it in found] if paths else found


class Replayed(NamedTuple):
    """A commit that was made again: the last moment of its second, a sum over all its files, and how many these are."""

    moment: int
    sum: str
    files: int


def replay(top: Path, commits: Sequence[str], paths: Sequence[str]) -> list[Replayed]:
    """Commits again in a repository what the commits of this one have, each in a second of its own."""
    rows = []
    run(["tar", "-x"], top, input=run(["git", "archive", commits[0], "--", *paths_in(commits[0], paths)], ROOT))
    for before, commit in zip([None, *commits], commits):
        if before is not None:
            patch = run(["git", "diff", "--binary", before, commit, "--", *paths], ROOT)
            if patch:
                run(["git", "apply", "--whitespace=nowarn", "-"], top, input=patch)
        run(["git", "add", "-A"], top)
        run(["git", "commit", "-q", "--allow-empty", "-m", commit], top)
        moment = int(time.time())
        wanted = sums_of_commit(commit, paths_in(commit, paths))
        if int(time.time()) == moment:
            next_second()
        rows.append(Replayed(moment, sum_of_all(wanted), len(wanted)))
    return rows


def sum_of_all(sums: Sums) -> str:
    """Returns one sum for those of many files."""
    return hashlib.sha256(repr(sorted(sums.items())).encode()).hexdigest()


def git(mounted: Mounted, is_long: bool, say: Say) -> Checked:
    """Replays commits in a repository in the mount, and reads each back from the past."""
    paths: list[str] = [] if is_long else SHORT_PATHS
    newest = [] if is_long else [f"-{SHORT_COMMITS}"]
    commits = run(["git", "rev-list", "--first-parent", "--reverse", *newest, "HEAD"], ROOT).decode().split()
    if len(commits) < 2:
        return 1, ["this is no repository with a history"]
    wrong: list[str] = []
    top, began = mounted.folder / "repository", time.monotonic()
    run(["git", "init", "-q", str(top)], mounted.folder)
    run(["git", "config", "gc.auto", "0"], top)
    rows = replay(top, commits, paths)
    replayed = time.monotonic() - began
    wrong += [f"git fsck says {it!r}" for it in run(["git", "fsck", "--full", "--strict"], top).decode().splitlines() if "notice" not in it]
    wrong += [f"git status says {it!r}" for it in run(["git", "status", "--porcelain"], top).decode().splitlines()[:3]]
    for commit, row in zip(commits, rows):
        iso = time.strftime("%Y-%m-%dT%H:%M:%SZ", time.gmtime(row.moment))
        found = sums_of(mounted.folder / ".elephant" / "at" / iso / "repository")
        if sum_of_all(found) != row.sum:
            sums = sums_of_commit(commit, paths_in(commit, paths))
            differing = sorted(it for it in {*found, *sums} if found.get(it) != sums.get(it))
            wrong.append(f"{commit} reads otherwise in the past: {differing[:5]}")
    counts, read = [it.files for it in rows], time.monotonic() - began - replayed
    say(f"git: {len(commits)} commits of up to {max(counts)} files replayed in {replayed:.0f} seconds; {sum(counts)} files of all of them"
        f" read back from the past in {read:.0f} seconds; a journal of {mounted.journal.stat().st_size / 1e6:.0f} MB")
    return 2 + len(commits), wrong


def sqlite(mounted: Mounted, is_long: bool, say: Say) -> Checked:
    """Keeps databases with a journal and with a write-ahead log, and reads one as it was."""
    wrong: list[str] = []
    rows = 4000 if is_long else 1000
    for mode in ("delete", "truncate", "persist", "wal"):
        base = mounted.folder / f"{mode}.db"
        script = f"""pragma journal_mode={mode}; create table t(a integer primary key, b);
            with recursive c(i) as (select 1 union all select i+1 from c where i<{rows}) insert into t select i, hex(randomblob(40)) from c;
            begin; update t set b = 'x' where a % 7 = 0; commit; begin; delete from t where a % 2; rollback; pragma integrity_check;
            select count(*), sum(b = 'x') from t;"""
        printed = run(["sqlite3", base, script], mounted.folder).decode().split()
        if printed != [mode, "ok", f"{rows}|{rows // 7}"]:
            wrong.append(f"sqlite3 with {mode} prints {printed}")
    moment = next_second()
    run(["sqlite3", mounted.folder / "delete.db", "delete from t;"], mounted.folder)
    old = mounted.folder / ".elephant" / "at" / str(moment) / "delete.db"
    question = "pragma integrity_check; select count(*) from t;"
    printed = run(["sqlite3", f"file:{old}?immutable=1", question], mounted.folder).decode().split()
    if printed != ["ok", str(rows)]:
        wrong.append(f"the database of {moment} says {printed}")
    return 5, wrong


def copies(mounted: Mounted, is_long: bool, say: Say) -> Checked:
    """Copies folders there and back, by tar, rsync and cp."""
    wrong: list[str] = []
    source = ROOT / ("crates" if is_long else "docs")
    wanted = sums_of(source)
    for name, words in {
        "tar": ["sh", "-c", 'mkdir tar && tar cf - -C "$1" . | tar xf - -C tar && mkdir "$2" && tar cf - -C tar . | tar xf - -C "$2"'],
        "rsync": ["sh", "-c", 'rsync -a "$1"/ rsync/ && rsync -a --checksum rsync/ "$2"/ && test -z "$(rsync -ai "$1"/ rsync/)"'],
        "cp": ["sh", "-c", 'cp -a "$1" cp && cp -a cp "$2"'],
    }.items():
        back = mounted.folder.parent / name
        run([*words, "sh", source, back], mounted.folder)
        for place in (mounted.folder / name, back):
            if sums_of(place) != wanted:
                wrong.append(f"{name} has other files in {place}")
    next_second()
    run(["rm", "-r", "tar", "rsync", "cp"], mounted.folder)
    if os.listdir(mounted.folder):
        wrong.append("rm -r leaves something")
    return 7, wrong


def fio(mounted: Mounted, is_long: bool, say: Say) -> Checked:
    """Has fio verify what it wrote, in several ways."""
    wrong: list[str] = []
    jobs = {
        "random": "--rw=randwrite --bs=4k", "mixed": "--rw=randrw --bs=1k-16k", "sequential": "--rw=write --bs=64k --fsync=4",
        "mapped": "--rw=randwrite --bs=4k --ioengine=mmap", "direct": "--rw=randwrite --bs=4k --direct=1",
        "many": "--rw=randwrite --nrfiles=20",
    }
    size = "16m" if is_long else "2m"
    for name, own in jobs.items():
        words = ["fio", f"--name={name}", f"--directory={mounted.folder}", f"--size={size}", "--filesize=512k", "--verify=crc32c"]
        words += ["--do_verify=1", "--fallocate=none", *([] if "nrfiles" in own else ["--nrfiles=4"]), *own.split()]
        try:
            run(words, mounted.folder.parent)
        except OSError as fault:
            wrong.append(str(fault))
    return len(jobs), wrong


def stress(mounted: Mounted, is_long: bool, say: Say) -> Checked:
    """Runs the stressors of files that stress-ng has, those that don't want files of more than 1 MiB or names of more than 64 bytes."""
    wrong: list[str] = []
    place = mounted.folder / "stress"
    stressors = STRESSORS if is_long else STRESSORS[::2]
    for name in stressors:
        mounted.renew()
        place.mkdir()
        # Two of fcntl take away each other's folder.
        words = ["stress-ng", "--temp-path", str(place), f"--{name}", "1" if name == "fcntl" else "2"]
        words += [f"--{name}-ops", "100" if is_long else "20", "--timeout", "20" if is_long else "3", "--verify", "--quiet"]
        try:
            run([*words, *LESS.get(name, [])], mounted.folder.parent)
        except OSError as fault:
            wrong.append(str(fault))
        subprocess.run(["rm", "-rf", place], check=False)
    return len(stressors), wrong


def _versions(mounted: Mounted, name: str) -> dict[int, bytes]:
    folder = mounted.folder / ".elephant" / "versions" / name
    return {int(it.name): it.read_bytes() for it in folder.iterdir()}


def editors(mounted: Mounted, is_long: bool, say: Say) -> Checked:
    """Saves in each of the three ways, and looks whether the name's past goes on."""
    wrong: list[str] = []
    top = mounted.folder
    ways: dict[str, Callable[[Path, str], object]] = {
        "over": lambda path, text: path.write_text(text),
        "renamed": lambda path, text: (path.with_name("new").write_text(text), path.with_name("new").rename(path)),
        "moved": lambda path, text: in_turn(
            lambda: path.rename(f"{path}~"), lambda: path.write_text(text), lambda: Path(f"{path}~").unlink(),
        ),
        "ed": lambda path, text: run(["ed", "-s", path], top, input=f"1,$c\n{text}.\nw\nq\n".encode()),
        "sed": lambda path, text: run(["sed", "-i", f"1c{text[:-1]}", path], top),
    }
    all_texts = {name: [f"{number} by {name}\n" for number in range(4)] for name in ways}
    for name, texts in all_texts.items():
        (top / name).write_text(texts[0])
    time.sleep(2.1)  # a file that is renamed as soon as it was made was made to be renamed
    for name, save in ways.items():
        path, texts = top / name, all_texts[name]
        for text in texts[1:]:
            save(path, text)
        # What a session writes over a file may be several versions, if it opens the file more than once.
        held = [it.decode() for _, it in sorted(_versions(mounted, name).items()) if it]
        if [it for at, it in enumerate(held) if held[at - 1:at] != [it]] != texts:
            wrong.append(f"the versions of {name} are {held}")
        if path.read_text() != texts[-1]:
            wrong.append(f"{name} has {path.read_text()!r}")
    answer = mounted.ask("undo", "over")
    if (top / "over").read_text() != "2 by over\n" or not answer.startswith("ok version "):
        wrong.append(f"undo says {answer!r} and leaves {(top / 'over').read_text()!r}")
    return 2 * len(ways) + 1, wrong


CHECKS = [git, sqlite, copies, fio, stress, editors]
