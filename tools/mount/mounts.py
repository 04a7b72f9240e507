"""Mounts folders for checks: starts `elephant-mount`, waits until it answers, ends or kills it."""

from __future__ import annotations

import os
import shutil
import signal
import subprocess
import sys
import tempfile
import time
from collections.abc import Iterable
from pathlib import Path
from typing import Any

from gate.building import ROOT, python_with

SOURCE = ROOT / "clients" / "python" / "src"
PACKAGES = ROOT / ".ci" / "packages"
INSTALL = "apt-get install -y"
START, END = 120, 120
# How many checks were made, and how many of them failed.
Counts = tuple[int, int]


class Fault(Exception):
    """A mount did not start, or did not end."""


def heed_signals() -> None:
    """Makes a mount heed the signals that end it. A shell script makes commands that it starts with `&` ignore SIGINT."""
    for number in (signal.SIGINT, signal.SIGTERM, signal.SIGHUP):
        signal.signal(number, signal.SIG_DFL)


def python() -> str | None:
    """Returns the Python that has pyfuse3, or None."""
    return python_with("pyfuse3")


def lacking(programs: Iterable[str]) -> list[str]:
    """Returns what this machine lacks for mounts and for these programs, as lines that say how it is installed."""
    rows = [line.split() for line in PACKAGES.read_text(encoding="utf-8").splitlines() if line and not line.startswith("#")]
    packages = {row[0]: row[1] for row in rows}
    missing = [name for name in ("fusermount3", *programs) if not shutil.which(name)]
    if python() is None:
        missing.append("pyfuse3")
    lines = [f"there is no {name}: '{INSTALL} {packages[name]}' installs it" for name in missing]
    with tempfile.NamedTemporaryFile() as file:
        try:
            os.setxattr(file.name, "user.a", b"")
        except OSError as fault:
            place = tempfile.gettempdir()
            lines.append(f"files in {place} take no extended attributes ({fault.strerror}): set TMPDIR to a folder of a disk")
    if not os.path.exists("/dev/fuse"):
        lines.append("there is no /dev/fuse: FUSE is not in this kernel, or not let into this container")
    return lines


class Mounted:
    """A folder that is mounted, as a `with` block. `options` are further words of the command."""

    def __init__(self, room: str | Path, *options: str, journal: Path | None = None) -> None:
        self.folder, self.journal = Path(room, "mounted"), Path(journal or Path(room, "journal"))
        self.log_path = Path(room, "log")
        self.folder.mkdir(exist_ok=True)
        self.options = options
        self._process: subprocess.Popen[bytes] | None = None

    def __enter__(self) -> Mounted:
        self.start()
        return self

    def __exit__(self, *_: object) -> None:
        self.stop()

    def words(self, *words: object) -> list[str]:
        return [python() or sys.executable, "-m", "elephant.mount", *map(str, words)]

    @staticmethod
    def environment() -> dict[str, str]:
        return {**os.environ, "PYTHONPATH": str(SOURCE), "PYTHONDONTWRITEBYTECODE": "1"}

    @property
    def process(self) -> subprocess.Popen[bytes]:
        """The process of the command."""
        if self._process is None:
            raise Fault("it isn't mounted")
        return self._process

    @property
    def is_running(self) -> bool:
        """Whether the command runs."""
        return self._process is not None

    def start(self) -> None:
        self.launch()
        self.await_mount()

    def launch(self) -> None:
        """Starts the command, and doesn't wait until the folder is mounted."""
        words = self.words(self.folder, "--journal", self.journal, *self.options)
        with open(self.log_path, "ab") as log:
            how: dict[str, Any] = {"stdin": subprocess.DEVNULL, "stderr": log, "preexec_fn": heed_signals}
            self._process = subprocess.Popen(words, env=self.environment(), **how)

    def await_mount(self) -> None:
        deadline = time.monotonic() + START
        while not os.path.ismount(self.folder):
            if self.process.poll() is not None or time.monotonic() > deadline:
                raise Fault(f"it isn't mounted: {self.log()[-500:]}")
            time.sleep(0.02)

    def stop(self) -> int:
        """Unmounts the folder, and returns the status of the command."""
        if self._process is None:
            return 0
        deadline = time.monotonic() + END
        while subprocess.run(["fusermount3", "-u", self.folder], capture_output=True, check=False).returncode:
            if self.process.poll() is not None or time.monotonic() > deadline:
                break
            time.sleep(0.1)
        try:
            status = self.process.wait(END)
        except subprocess.TimeoutExpired:
            self.process.kill()
            raise Fault("it did not end after its folder was unmounted") from None
        finally:
            self._release()
        return status

    def renew(self) -> None:
        """Mounts the folder with a new journal, in which nothing was ever made."""
        self.stop()
        self.journal.unlink()
        self.start()

    def kill(self) -> None:
        """Ends it by a signal that it can't handle, and unmounts the folder."""
        self.process.send_signal(signal.SIGKILL)
        self.process.wait()
        self._release()

    def _release(self) -> None:
        self._process = None
        subprocess.run(["fusermount3", "-u", "-z", self.folder], capture_output=True, check=False)

    def ask(self, *words: str) -> str:
        """Sends a line, and returns its answer."""
        ran = subprocess.run(self.words("--at", self.folder, *words), env=self.environment(), capture_output=True, text=True, check=False)
        return ran.stdout or ran.stderr

    def log(self) -> str:
        return self.log_path.read_text(encoding="utf-8", errors="replace") if self.log_path.exists() else ""
