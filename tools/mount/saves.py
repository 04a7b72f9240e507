"""The ways in which programs save a file: the table of clients/python/tests/ways.py by calls, and programs of this machine. After each the
name's past has to go on, and `undo` has to bring the old content back. And folders of thousands of files, each brought back by one undo."""

from __future__ import annotations

import argparse
import errno
import os
import shutil
import subprocess
import sys
import time
from collections.abc import Sequence
from pathlib import Path
from typing import IO, Optional, Union

from gate.building import ROOT
from mount.calls import rename_how
from mount.mounts import Counts, Mounted
from mount.past import Faults, refusal
from mount.programs import GIT, next_second

sys.path.insert(0, str(ROOT / "clients" / "python" / "tests"))

from ways import WAYS, calls_of, without_repetitions

EXCHANGE = 2
# The mode of each name, with the content of a file or the target of a link.
Tree = dict[str, tuple[int, Optional[Union[str, bytes]]]]
# Longer than the time in which a new file of a name continues its past, and than a whole second.
REST = 2.3

# What saves `two` over the file f, which holds `one`. A line is skipped if the machine lacks its first word.
COMMANDS = (
    "cp other/f f", "cp --remove-destination other/f f", "cp -b other/f f", "cp --backup=numbered other/f f", "cp -f other/f f",
    "mv other/f f", "mv -b other/f f", "install other/f f", "install -b other/f f", "ln -f other/f f",
    "sed -i s/one/two/ f", "sed -i.bak s/one/two/ f", "perl -pi -e s/one/two/ f", "perl -pi.bak -e s/one/two/ f",
    "gawk -i inplace '{print \"two\"}' f", "ruby -pi -e 'gsub(/one/, \"two\")' f",
    "tar -xf other/f.tar f", "tar -x --unlink-first -f other/f.tar f", "tar -x --overwrite -f other/f.tar f", "unzip -qo other/f.zip f",
    "rsync -I other/f f", "rsync -I -b other/f f", "rsync -I --inplace other/f f", "rsync -I --delay-updates other/f .",
    "dd if=other/f of=f conv=notrunc status=none", "tee f <other/f >/dev/null", "sort -o f other/f", "tac -- other/f >f",
    "patch -s f other/f.patch", "patch -s -b f other/f.patch", "ed -s f <other/ed", "ex -s f <other/ex", "vim -es f <other/ex",
    "vim -es --cmd 'set backup backupcopy=no' f <other/ex", "vim -es --cmd 'set backup backupcopy=yes' f <other/ex",
    "emacs --batch f --eval '(progn (erase-buffer) (insert \"two\\n\") (save-buffer))'", "sponge f <other/f", "dos2unix -q -n other/f f",
    "git checkout -q two f", "git stash -q", "python3 -c 'import os; os.replace(\"other/f\", \"f\")'",
    "python3 -c 'import shutil; shutil.copyfile(\"other/f\", \"f\")'",
    "python3 -c 'import mmap; f = open(\"f\", \"r+b\"); m = mmap.mmap(f.fileno(), 0); m[:] = b\"two\\n\"; m.close(); f.close()'",
)


class Caller:
    """Runs the calls of a way in a folder."""

    def __init__(self, top: Path) -> None:
        self.top = top
        self.opened: list[IO[str]] = []

    def call(self, word: str, *words: str) -> None:
        getattr(self, f"do_{word}")(*(self.top / it for it in words[:1]), *words[1:])

    @staticmethod
    def do_folder(path: Path) -> None:
        path.mkdir()

    @staticmethod
    def do_write(path: Path, text: str) -> None:
        path.write_text(text)

    @staticmethod
    def do_over(path: Path, text: str) -> None:
        with open(path, "r+", encoding="ascii") as file:
            file.write(text)

    def do_begin(self, path: Path, text: str) -> None:
        file = open(path, "w", encoding="ascii")
        file.write(text)
        file.flush()
        self.opened.append(file)

    def do_read(self, path: Path) -> None:
        self.opened.append(open(path, encoding="ascii"))

    def do_hold(self, path: Path) -> None:
        self.opened.append(open(path, "r+", encoding="ascii"))

    def do_share(self) -> None:
        os.close(os.dup(self.opened[-1].fileno()))

    def do_close(self) -> None:
        while self.opened:
            self.opened.pop().close()

    def do_move(self, path: Path, other: str) -> None:
        path.rename(self.top / other)

    def do_exchange(self, path: Path, other: str) -> None:
        rename_how(path, self.top / other, EXCHANGE)

    def do_link(self, path: Path, other: str) -> None:
        os.link(path, self.top / other)

    @staticmethod
    def do_unlink(path: Path) -> None:
        path.unlink()

    @staticmethod
    def do_pause() -> None:
        time.sleep(REST)


def _texts(mounted: Mounted, name: str) -> tuple[str, ...]:
    """Returns the contents of the versions of a file, without repetitions."""
    folder = mounted.folder / ".elephant" / "versions" / name
    return without_repetitions([(folder / it).read_text().strip() for it in sorted(os.listdir(folder), key=int)])


def _begin(tops: Sequence[Path]) -> None:
    """Saves `zero` and `one` in each folder, and waits until no way is taken for the end of these saves."""
    for text in ("zero\n", "one\n"):
        for top in tops:
            top.mkdir(exist_ok=True)
            (top / "f").write_text(text)
        time.sleep(REST)


def saves(room: str, asked: argparse.Namespace) -> Counts:
    """Each way of the table continues the past, and undo brings back what the table says."""
    seen = Faults("saves")
    with Mounted(room) as mounted:
        tops = [mounted.folder / f"way{number}" for number in range(len(WAYS))]
        _begin(tops)
        for top, way in zip(tops, WAYS):
            caller = Caller(top)
            for words in calls_of(way):
                caller.call(*words)
        time.sleep(REST)
        for top, way in zip(tops, WAYS):
            seen.expect(f"{way.name}: the content", (top / "f").read_text().strip(), "two")
            seen.expect(f"{way.name}: the versions", _texts(mounted, f"{top.name}/f"), way.versions)
            for name, text in way.others:
                seen.expect(f"{way.name}: {name}", (top / name).read_text().strip(), text)
            seen.expect(f"{way.name}: undo", mounted.ask("undo", str(top / "f"))[:11], "ok version ")
            seen.expect(f"{way.name}: undone", (top / "f").read_text().strip(), way.undone)
        told = refusal(lambda: os.open(mounted.folder, os.O_TMPFILE | os.O_WRONLY))
        seen.expect("a file that is made without a name", told, errno.errorcode[errno.EOPNOTSUPP])
    return seen.counts()


def children(room: str, asked: argparse.Namespace) -> Counts:
    """Each save is a version though children of the program still have the file open to write it, also if the mount is killed then."""
    seen, texts = Faults("children"), ("one", "two", "three")
    processes: list[subprocess.Popen[bytes]] = []
    with Mounted(room) as mounted:
        try:
            for text in texts:
                with open(mounted.folder / "f", "w", encoding="ascii") as file:
                    file.write(text)
                    processes.append(subprocess.Popen(["sleep", "600"], pass_fds=[file.fileno()]))
            seen.expect("the versions before the last save", _texts(mounted, "f"), texts[:-1])
            mounted.kill()
            mounted.start()
            seen.expect("the versions after a kill", _texts(mounted, "f"), texts)
        finally:
            for process in processes:
                process.kill()
                process.wait()
    return seen.counts()


def _prepare(top: Path) -> None:
    """Lays out what the commands save: the file other/f, and it in archives, a patch, a commit and scripts."""
    other = top / "other"
    other.mkdir()
    (other / "f").write_text("two\n")
    (other / "ed").write_text("1c\ntwo\n.\nw\nq\n")
    (other / "ex").write_text("1c\ntwo\n.\nwq\n")
    (other / "f.patch").write_text("--- f\n+++ f\n@@ -1 +1 @@\n-one\n+two\n")
    _run("tar -cf f.tar f; command -v zip >/dev/null && zip -q f.zip f", other)


def _prepare_git(top: Path) -> None:
    """Makes a repository whose branch `two` has the other content, and in whose working tree the file f has been changed to `one`."""
    _run("git init -q -b two && cp other/f f && git add f && git commit -qm two", top)


def _run(line: str, folder: Path) -> subprocess.CompletedProcess[str]:
    environment = {**os.environ, **GIT, "HOME": str(folder)}
    return subprocess.run(["bash", "-c", line], cwd=folder, env=environment, capture_output=True, text=True, check=False, timeout=600)


def commands(room: str, asked: argparse.Namespace) -> Counts:
    """Each command that is installed continues the past, and undo brings the old content back."""
    seen = Faults("commands")
    lines = [it for it in COMMANDS if shutil.which(it.split()[0])]
    with Mounted(room) as mounted:
        tops = [mounted.folder / f"command{number}" for number in range(len(lines))]
        for top, line in zip(tops, lines):
            top.mkdir()
            _prepare(top)
            if line.startswith("git"):
                _prepare_git(top)
        _begin(tops)
        ran = [_run(line, top) for top, line in zip(tops, lines)]
        time.sleep(REST)
        for top, line, answer in zip(tops, lines, ran):
            if answer.returncode and line.split()[0] in ("unzip", "dos2unix"):
                continue  # it lacks its archive, or an option
            seen.expect(line, (answer.stderr[-200:] if answer.returncode else "", (top / "f").read_text()), ("", "two\n"))
            seen.expect(f"{line}: the versions end", _texts(mounted, f"{top.name}/f")[-2:], ("one", "two"))
            seen.expect(f"{line}: undo", mounted.ask("undo", str(top / "f"))[:11], "ok version ")
            seen.expect(f"{line}: undone", (top / "f").read_text(), "one\n")
    return seen.counts()


def _tree(top: Path) -> Tree:
    """Returns what a folder shows: contents and modes of files, targets of links."""
    found: Tree = {}
    for path in sorted(top.rglob("*")):
        it = path.lstat()
        content: Optional[Union[str, bytes]] = os.readlink(path) if path.is_symlink() else path.read_bytes() if path.is_file() else None
        found[str(path.relative_to(top))] = it.st_mode, content
    return found


def _fill(top: Path, count: int) -> None:
    for number in range(count):
        path = top / f"folder {number % 20}" / f"file {number}"
        path.parent.mkdir(parents=True, exist_ok=True)
        path.write_text(f"line {number}\n")
        if number % 50 == 0:
            path.chmod(0o640)
            (path.parent / f"link {number}").symlink_to(path.name)


# What goes wrong with a folder, as shell commands in it.
ACCIDENTS = {
    "deleted": "rm -r work",
    "sed": "find work -type f -exec sed -i s/line/oops/ {} +",
    "renamed names": "for it in work/*/file*; do mv \"$it\" \"$it.txt\"; done",
    "ransom": "for it in work/*/file*; do echo x >\"$it\"; mv \"$it\" \"$it.locked\"; done; echo pay >work/READ_ME",
    "a renamed folder inside": "mv 'work/folder 1' 'work/folder one'",
    "one folder deleted": "rm -r 'work/folder 3'",
}


def folders(room: str, asked: argparse.Namespace) -> Counts:
    """A folder is brought back by one undo, whatever was done to it, and what was newer stays."""
    seen, count = Faults("folders"), 5000 if asked.long else 200
    with Mounted(room) as mounted:
        _fill(mounted.folder / "work", count)
        for name, accident in ACCIDENTS.items():
            before, moment = _tree(mounted.folder / "work"), next_second()
            _run(accident, mounted.folder)
            seen.expect(f"{name} changes it", _tree(mounted.folder / "work") == before, False)
            next_second()
            words = ["undo", str(mounted.folder / "work"), *([] if name in ("deleted", "sed") else [str(moment)])]
            began = time.monotonic()
            told = mounted.ask(*words)
            print(f"mount: folders: {name}, {count} files: {time.monotonic() - began:.1f} seconds: {told.splitlines()[0][:150]}")
            seen.expect(f"undo after {name}", told[:3], "ok ")
            after = _tree(mounted.folder / "work")
            seen.expect(f"what was there before {name}", {it: after.get(it) for it in before}, before)
            seen.expect(f"more after {name}", sorted(set(after) - set(before)), ["READ_ME"] if name == "ransom" else [])
        copy = mounted.folder.parent / "copy"
        subprocess.run(["cp", "-a", mounted.folder / ".elephant" / "at" / str(moment) / "work", copy], check=True)
        seen.expect("a copy out of the past", _tree(copy), before)
        mounted.stop()
        mounted.start()
        seen.expect("when it is mounted again", _tree(mounted.folder / "work"), after)
    return seen.counts()


CHECKS = [saves, children, commands, folders]
