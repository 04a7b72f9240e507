"""The script language in a mount: each command is answered as a store answers it, or refused, and has its help. Without a kernel. It needs
pyfuse3."""

from __future__ import annotations

import contextlib
import io
import re
import unittest

try:
    import pyfuse3  # noqa: F401
except ImportError:
    raise unittest.SkipTest("there is no pyfuse3 for this Python") from None

from clocks import DAY, START
from elephant import Store
from elephant.mount import main
from elephant.mount.audit import LINES as AUDIT
from elephant.mount.helping import LINES, LISTED, NOT_HERE, OWN
from elephant.mount.language import COMMANDS
from elephant.mount.reasons import TAKES
from test_mount import FOLDER
from test_mount_lines import Case, HOUR

# Lines with each command of a store without a history, each after a second.
SCRIPT = f"""\
default / all
mkdir /d
create /d/a
save /f 6f6e65
link /f /g
save /f 74776f
stat /f
stat /f#2
stat /d
stat /f@{START + 4}
versions /f
list /
list /@{START + 2}
read /f
read /f#2
read /f#9
revert /f 2
restore /f {START + 5}
rename /g /h
unlink /h
restorable
undelete /h
rmdir /d
create /d/a
group make g
group add g /f
group remove g /f
group add g /f
groups
open read /f#2
read 1
close 1
policy /f safe:5
due
ahead {START + HOUR}
expiring {START + HOUR}
why /f
why /f#2
story /f
clean
pass 2
usage
unmark g {START}
group drop g
note 6869
tick 0
"""


class Language(Case):
    def test_each_command_is_answered_as_a_store_answers_it(self) -> None:
        with Store(str(self.journal.with_name("other")), clock=self.clocks, guard=False) as other:
            tried = set()
            for line in SCRIPT.splitlines():
                words = line.split(" ")
                tried.add(next(it for it in (" ".join(words[:2]), words[0]) if it in COMMANDS))
                self.assertEqual(self.ask(line), other.line(line), line)
                self.clocks.pass_by(1)
            # A mark says more, changes have their dates, and `tick` moves no clock here.
            self.assertEqual(tried | {"mark", "changes"} | AUDIT, COMMANDS.keys() - NOT_HERE | {"tick"})

    def test_what_a_mount_has_not_is_refused(self) -> None:
        self.save(b"f", b"one")
        handle = self.ask("open read /f").split()[-1]
        others = {"clock": "clock 7", "tick": "tick 5", "open write": "open write /f", "write": f"write {handle} 0 00",
                  "truncate": f"truncate {handle} 0", "abandon": f"abandon {handle}"}
        self.assertEqual(others.keys(), NOT_HERE)
        for line in others.values():
            self.assertRegex(self.ask(line), "^(elephant-mount: |no 16 NotWriter)", line)


class Helping(Case):
    """The help on lines."""

    def printed(self, *words: str, status: int = 0) -> str:
        """Returns what the command prints, and to which end."""
        text, said = io.StringIO(), io.StringIO()
        with contextlib.redirect_stdout(text), contextlib.redirect_stderr(said):
            self.assertEqual(main.main(list(words)), status, words)
        self.assertLessEqual(max(map(len, text.getvalue().splitlines()), default=0), 80, words)
        return text.getvalue() + said.getvalue()

    def test_each_line_has_its_help(self) -> None:
        for name in {*TAKES, *OWN}:
            page = self.printed("help", *name.split())
            self.assertEqual(page.partition(" ")[0], "Line:", name)
            self.assertIn(f"   {name}", page)
            self.assertEqual(self.printed("--at", "nowhere", "help", *name.split()), page)
            self.assertEqual(self.printed("--at", "nowhere", f"help {name}"), page)
        self.assertEqual(len(re.findall("^Line: ", self.printed("help", "group"), re.M)), 4)
        self.assertIn("Answer: ok file F\n", self.printed("help", "create"))
        self.assertIn("mount with --history", " ".join(self.printed("help", "gone").split()))

    def test_the_list_has_each_line(self) -> None:
        page = self.printed("help")
        self.assertEqual(self.printed("--at", "nowhere", "help"), page)
        self.assertTrue(page.startswith(LINES))
        listed, _, others = page.partition("\nLines of the script language:\n")
        for name in LISTED:
            self.assertRegex(listed, rf"(?m:^  (.*, )?{name}\b)")
        self.assertEqual({*" ".join(others.split()).split(", "), *LISTED, *NOT_HERE}, set(COMMANDS))

    def test_what_is_no_line(self) -> None:
        self.assertIn("there is no line 'nonsense'", self.printed("help", "nonsense", status=2))
        self.assertIn("there is no line 'undo f'", self.printed("--at", "nowhere", "help", "undo", "f", status=2))

    def test_the_examples_are_lines(self) -> None:
        """Each is answered. What a mount answers without its lock is none of these lines."""
        self.it.naming.mkdir(self.it.top, b"work", FOLDER, 0, 0)
        self.save(b"letter", b"one", b"two", b"three")
        self.clocks.pass_by(DAY)
        tried = 0
        for name, page in OWN.items():
            for line in page.examples:
                if name in ("time", "journal", "rewrite", "dump", "help", "clean", "soon"):
                    continue
                told_line = line.replace("letter", "/letter").replace("work", "/work")
                answer = self.ask(told_line)
                self.assertRegex(answer, "^(ok|no: |no 22 NoMark|elephant-mount: this mount keeps no history)", told_line)
                tried += 1
        self.assertGreater(tried, 20)


if __name__ == "__main__":
    unittest.main()
