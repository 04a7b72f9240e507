"""examples/undo_folder.py over documents of this repository."""

import importlib.util
import io
import os
import re
import shutil
import signal
import subprocess
import sys
import tempfile
import time
import unittest
from contextlib import redirect_stdout
from datetime import datetime
from pathlib import Path
from types import ModuleType

ROOT = Path(__file__).resolve().parents[3]
TOOL = ROOT / "examples" / "undo_folder.py"
DOCUMENTS = ("README.md", "docs/SCRIPT.md", "docs/POLICIES.md", "docs/landmarks_at_30.svg")


def loaded_tool() -> ModuleType:
    spec = importlib.util.spec_from_file_location("undo_folder", TOOL)
    assert spec is not None and spec.loader is not None
    tool = importlib.util.module_from_spec(spec)
    spec.loader.exec_module(tool)
    return tool


def words_of(row: str) -> tuple[str, ...]:
    """Returns the words of a row of `list FILE`: number, moment, length and fate."""
    found = re.fullmatch(r"#(\d) +(\S+) +(\d+) bytes, (.*)", row)
    assert found is not None, row
    return found.groups()


class UndoFolder(unittest.TestCase):
    def setUp(self) -> None:
        folder = tempfile.TemporaryDirectory()
        self.addCleanup(folder.cleanup)
        self.folder = Path(folder.name)
        for name in DOCUMENTS:
            (self.folder / name).parent.mkdir(exist_ok=True)
            shutil.copyfile(ROOT / name, self.folder / name)

    def run_tool(self, *words: str, status: int = 0) -> str:
        ran = subprocess.run([sys.executable, TOOL, self.folder, *words], capture_output=True, text=True, timeout=120, check=False)
        self.assertEqual(ran.returncode, status, ran)
        return ran.stdout if status == 0 else ran.stderr

    def moment(self) -> str:
        """Returns the present second as the tool takes it, and waits until it has passed."""
        now = int(time.time())
        while int(time.time()) == now:
            time.sleep(0.02)
        return datetime.fromtimestamp(now).isoformat()

    def test_saves_are_kept_and_restored(self) -> None:
        readme = self.folder / "README.md"
        first = readme.read_bytes()
        (self.folder / ".hidden").write_text("no")
        (self.folder / "big").write_bytes(bytes(1_048_577))
        self.assertEqual(sorted(self.run_tool("keep").splitlines()), sorted(f"kept {name} as version 2" for name in DOCUMENTS))
        self.assertEqual(self.run_tool("keep"), "")
        saved = self.moment()
        readme.write_text("a mistake")
        (self.folder / "docs/SCRIPT.md").unlink()
        self.assertEqual(self.run_tool("keep"), "ended docs/SCRIPT.md\nkept README.md as version 3\n")
        self.assertEqual(self.run_tool("list").splitlines(), [
            "README.md: 3 versions", "docs/POLICIES.md: 2 versions", "docs/landmarks_at_30.svg: 2 versions",
        ])
        rows = [words_of(line) for line in self.run_tool("list", "README.md").splitlines()]
        self.assertEqual([(row[0], row[2]) for row in rows], [("1", "0"), ("2", str(len(first))), ("3", "9")])
        self.assertEqual((rows[2][3], rows[1][3].startswith("kept until "), rows[1][1] <= saved < rows[2][1]), ("current", True, True))
        self.run_tool("restore", "README.md", saved)
        self.run_tool("restore", "docs/SCRIPT.md", saved)
        self.assertEqual(readme.read_bytes(), first)
        self.assertEqual((self.folder / "docs/SCRIPT.md").read_bytes(), (ROOT / "docs/SCRIPT.md").read_bytes())
        # What docs/SCRIPT.md held came back with its name.
        self.assertEqual(self.run_tool("keep"), "kept README.md as version 4\n")
        self.run_tool("restore", "README.md", "#3")
        self.assertEqual(readme.read_text(), "a mistake")
        self.assertIn("14 NoVersion", self.run_tool("restore", "README.md", "#9", status=1))
        self.assertIn("5 NoEntry", self.run_tool("restore", "never", saved, status=1))
        self.assertEqual(self.run_tool("forget"), "removed 0 versions; 0 more wait\n")
        self.assertRegex(self.run_tool("mark", "before the talk"), "^marked before the talk at ")
        readme.unlink()
        readme.mkdir()
        (readme / "part 1").write_text("one")
        self.assertEqual(self.run_tool("keep"), "ended README.md\nkept README.md/part 1 as version 2\n")

    def test_marks_outlast_what_is_forgotten(self) -> None:
        """A day later the versions of one hour go but its newest, and a marked one."""
        note, tool = self.folder / "note", loaded_tool()
        hour = 1_800_000_000 // 3600 * 3600
        clock = [hour]
        real, time.time = time.time, lambda: clock[0]
        sleep, time.sleep = time.sleep, lambda seconds: clock.__setitem__(0, clock[0] + 1)
        try:
            for text in ("one", "two", "three", "four"):
                note.write_text(text)
                clock[0] += 60
                with redirect_stdout(io.StringIO()):
                    tool.keep_changes(self.folder, tool.documents(self.folder), {})
                    if text == "two":
                        tool.mark(self.folder, "the talk")
            clock[0] += 86_400 + 3600
            with redirect_stdout(io.StringIO()) as told:
                tool.forget(self.folder)
                clock[0] += 86_400
                tool.forget(self.folder)
            # Of each of the four documents the empty version; of the note also the first and the third content. They wait for a day.
            self.assertEqual(told.getvalue(), "removed 0 versions; 7 more wait\nremoved 7 versions; 0 more wait\n")
            with tool.open_store(self.folder) as store:
                self.assertEqual([store.read("/note", version=it.number) for it in store.versions("/note")], [b"two", b"four"])
        finally:
            time.time, time.sleep = real, sleep

    def test_it_watches(self) -> None:
        words = [sys.executable, str(TOOL), str(self.folder), "watch"]
        with subprocess.Popen(words, stdout=subprocess.PIPE, text=True) as watching:
            assert watching.stdout is not None
            try:
                kept = {watching.stdout.readline() for _ in DOCUMENTS}
                self.assertEqual(kept, {f"kept {name} as version 2\n" for name in DOCUMENTS})
                (self.folder / "README.md").write_text("changed")
                self.assertEqual(watching.stdout.readline(), "kept README.md as version 3\n")
                self.assertIn("README.md: 3 versions", self.run_tool("list"))
                os.replace(self.folder / "README.md", self.folder / "docs" / "moved")
                told = {watching.stdout.readline() for _ in range(2)}
                self.assertEqual(told, {"kept docs/moved as version 2\n", "ended README.md\n"})
            finally:
                watching.send_signal(signal.SIGTERM)

    def test_it_is_short(self) -> None:
        self.assertLess(len(TOOL.read_text().splitlines()), 150)


if __name__ == "__main__":
    unittest.main()
