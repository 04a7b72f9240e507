"""The help on lines: how each is typed, and what it does. `elephant-mount help LINE` prints it."""

from __future__ import annotations

import textwrap
from collections.abc import Sequence
from typing import NamedTuple

from .language import COMMANDS

COLUMNS = 80
_MOMENT = "A MOMENT is a time as you type it, as 2026-11-29, '2026-11-29 09:21', 'yesterday 15:00' or '2 hours ago'."
_HISTORY = "A mount with --history answers it. What it knows begins where the journal was made anew, also before the first such mount."
_DRY = "With --dry-run it only prints what it would do."
_LENGTHS = "A length is seconds, or has a unit: s, m, h, d, w or y. LADDER is AGE/WIDTH,AGE/WIDTH,.. as 7d/1h,30d/1d, or standard is one."
_POLICIES = f"A POLICY is one, all, safe:LENGTH, safe:LENGTH/FLOOR, landmarks:LADDER or standard. {_LENGTHS}"
_PROGRAMS = "Programs write the files of a mount, so no line opens one to write it."
_CLOCK = "A mount has no such line: its clock is the time of day. See time."


class Help(NamedTuple):
    """The ways to type a line, what it does, a paragraph each, and lines as examples."""

    forms: tuple[str, ...]
    what: tuple[str, ...]
    examples: tuple[str, ...] = ()


OWN = {
    "undo": Help(
        ("undo FILE", "undo FOLDER", "undo FILE MOMENT", "undo FOLDER MOMENT", "undo FILE '#3'", "undo --dry-run .."),
        ("Of a file: makes what it held before its last save its next version. The next undo goes further back, redo goes forward, and a "
         "save ends that: what was undone before it is passed over. With '#3' it is what version 3 held.",
         "Of a deleted file or folder: brings it back, a folder with all that was deleted with it.",
         "Of a folder: makes all below it as it was before the last changes there, those that followed each other within two seconds. The "
         "next undo goes further back, and redo forward.",
         f"With a MOMENT: as it was then, names, contents and links. What is newer stays. {_MOMENT} {_DRY}",
         "It makes no content up. If there is nothing to bring back, the answer begins with 'no:' and says why, and nothing changes."),
        ("undo letter", "undo letter 'yesterday 15:00'", "undo --dry-run work '2 hours ago'", "undo letter '#3'"),
    ),
    "redo": Help(
        ("redo FILE", "redo FOLDER", "redo --dry-run .."),
        ("Takes the last undo back, and then the one before it, until the file or the folder is as it was before the first of them. In a "
         f"folder it deletes nothing again. {_DRY}",),
        ("redo letter", "redo work"),
    ),
    "restore": Help(
        ("restore FILE MOMENT", "restore FOLDER MOMENT"),
        (f"Is undo with a MOMENT. {_MOMENT}",),
        ("restore letter 'yesterday 15:00'",),
    ),
    "history": Help(
        ("history FILE", "history FILE --json", "history"),
        ("Lists the versions of a file, also of a deleted one: when each was saved and ended, its length, until when it is kept and by "
         "what (its policy, or a mark), or when it was removed. If the file had other names, they follow. With --json it is for programs.",
         "A mount with --history also tells when a removed version was saved and ended, its length and why it was removed, and which mark "
         "held a version after its policy had let it go.",
         f"Without a FILE it lists the changes since the journal was made anew. {_HISTORY}"),
        ("history letter", "history letter --json"),
    ),
    "changes": Help(
        ("changes MOMENT MOMENT", "changes MOMENT MOMENT PATH", "changes .. --json"),
        (f"Lists what was made, saved, renamed, deleted or brought back between two moments, in the folder or file PATH or everywhere. "
         f"{_MOMENT} Quote one that has a space.",),
        ("changes 'yesterday 15:00' now work",),
    ),
    "policy": Help(
        ("policy FILE POLICY",),
        ("Gives a file a policy, which decides at once how long each of its versions stays.", _POLICIES),
        ("policy letter safe:30d/3", "policy letter landmarks:7d/1h,30d/1d"),
    ),
    "default": Help(
        ("default FOLDER POLICY",),
        ("Sets the policy of the files and folders that are made in FOLDER from now on. It changes no file that is there.", _POLICIES),
        ("default / safe:30d/3",),
    ),
    "why": Help(
        ("why FILE NUMBER",),
        ("Prints why a version stays, or since when it may be removed and why. Of a removed version it prints when that was; in a mount "
         "with --history also why.",),
        ("why letter 2",),
    ),
    "due": Help(
        ("due",),
        ("Lists the versions that may be removed now, for programs: since when, the number of the file, and the version. soon has names "
         "and dates.",),
        ("due",),
    ),
    "ahead": Help(
        ("ahead MOMENT",),
        (f"Lists the versions that may be removed at MOMENT if nothing else changes, as due does. {_MOMENT}",),
        ("ahead 2027-01-01",),
    ),
    "expiring": Help(
        ("expiring MOMENT",),
        (f"Lists what ahead lists, with the path of each file or, if it has none now, its last path and until when. {_MOMENT}",),
        ("expiring 2027-01-01",),
    ),
    "soon": Help(
        ("soon", "soon MOMENT"),
        (f"Lists what goes within a week, or until MOMENT, if nothing else changes: when, the size, which version of which file, and why. "
         f".elephant/soon has the same text for a week. {_MOMENT}",),
        ("soon", "soon 2027-01-01"),
    ),
    "clean": Help(
        ("clean all", "clean"),
        ("Removes all versions that are due, also those that wait for a day. Without 'all' it removes the first one alone. A mount does "
         "this by itself each minute, but for those that wait.",),
        ("clean all",),
    ),
    "group make": Help(
        ("group make G",), ("Makes a group without files. A mark of the group keeps what its files held.",), ("group make tax",),
    ),
    "group add": Help(
        ("group add G FILE",), ("Adds a file to a group. The marks of the group keep its versions too.",), ("group add tax letter",),
    ),
    "group remove": Help(
        ("group remove G FILE",),
        ("Takes a file out of a group, whose marks don't keep its versions any more.",),
        ("group remove tax letter",),
    ),
    "mark": Help(
        ("mark G MOMENT", "mark G MOMENT until MOMENT"),
        (f"Keeps what each file of a group held at a moment that has passed, for good or until another moment. The answer counts the "
         f"versions that it holds. {_MOMENT}",),
        ("mark tax '2026-11-29 09:21' until 2036-12-31",),
    ),
    "unmark": Help(
        ("unmark G MOMENT",),
        (f"Removes a mark of a group. The policies then decide at once. {_MOMENT}",),
        ("unmark tax '2026-11-29 09:21'",),
    ),
    "group drop": Help(("group drop G",), ("Removes a group and its marks. No file is removed.",), ("group drop tax",)),
    "gone": Help(
        ("gone",),
        (f"Lists the removed versions: when, the file, the version, the path of then, the mark that held it longer than its policy, and "
         f"why it was due. {_HISTORY}",),
        ("gone",),
    ),
    "removals": Help(
        ("removals",),
        (f"Lists the same with the last path of a file that was deleted, and until when it led there. {_HISTORY}",),
        ("removals",),
    ),
    "answers": Help(("answers",), (f"Lists the changes since the journal was made anew, each with its answer. {_HISTORY}",), ("answers",)),
    "handles": Help(
        ("handles",),
        (f"Lists the open handles of the store: which version each reads, or which file it writes. {_HISTORY}",),
        ("handles",),
    ),
    "trim": Help(
        ("trim",),
        (f"Empties what gone, removals, answers and history list, and frees its memory. The next change makes it anew from the journal. "
         f"{_HISTORY}",),
        ("trim",),
    ),
    "usage": Help(
        ("usage",), ("Counts, for each kind of policy, the files, their held versions, and the bytes and blocks of these.",), ("usage",),
    ),
    "time": Help(
        ("time", "time is right"),
        ("Prints the time of day and the folder's time, and whether the clocks agree. If the time of day has jumped, nothing is removed "
         "until you say that it is right.",),
        ("time",),
    ),
    "journal": Help(("journal",), ("Prints the path of the journal, the file that keeps all of it.",), ("journal",)),
    "rewrite": Help(
        ("rewrite",), ("Makes the journal anew, without what was removed, and prints how long it was and is.",), ("rewrite",),
    ),
    "dump": Help(
        ("dump",), ("Prints the policies, defaults, groups and marks of the folder, as lines of the script language.",), ("dump",),
    ),
    "help": Help(("help", "help LINE"), ("Lists the lines, or says how one is typed and what it does.",), ("help undo",)),
    "clock": Help(("clock M",), (_CLOCK,)),
    "tick": Help(("tick 0",), (_CLOCK, "tick 0 alone prints the folder's time."), ("tick 0",)),
    "open write": Help(("open write P",), (_PROGRAMS,)),
    "write": Help(("write H N X",), (_PROGRAMS,)),
    "truncate": Help(("truncate H N",), (_PROGRAMS,)),
    "abandon": Help(("abandon H",), (_PROGRAMS,)),
}
# Commands of the script language that a mount hasn't, and those that the list below has.
NOT_HERE = frozenset(("clock", "tick", "open write", "write", "truncate", "abandon"))
LISTED = frozenset((
    "history", "policy", "default", "why", "due", "ahead", "expiring", "clean", "group make", "group add", "mark", "unmark", "gone",
    "answers", "changes", "handles", "removals", "trim", "usage",
))
LINES = """\
elephant-mount --at FOLDER LINE sends one of these lines to a mounted folder,
and prints its answer. A MOMENT is a time as you type it: 'yesterday 15:00'.

  undo FILE             bring back what it held before its last save; again:
                        before that; a deleted file or folder comes back
  undo FOLDER           bring back what was in it before its last changes
  undo FILE MOMENT      as it was then; of a FOLDER too
  undo FILE '#3'        what its version 3 held
  redo FILE             take the last undo back; of a FOLDER too
  history FILE          its versions, and until when each is kept, and why
  changes MOMENT MOMENT [PATH]
                        what was made, saved, renamed, deleted between them
  policy FILE safe:30d/3
                        keep its versions for 30 days, and 3 for good
  default FOLDER standard
                        the policy of new files in it
  why FILE 2            why version 2 stays, or since when it may go
  soon [MOMENT]         what goes within a week, or until then, and why
  due, ahead MOMENT, expiring MOMENT
                        the same for programs: what may be removed now or then,
                        and then with paths
  clean all             remove all that is due now
  group make G, group add G FILE, mark G MOMENT [until MOMENT], unmark G MOMENT
                        keep what the files of a group held at a moment
  gone, removals, answers, handles, history, trim
                        an audit of a mount with --history
  usage, time, time is right, journal, rewrite, dump
                        counts, the clock, the journal, policies as lines
  help LINE             more about a line, as in 'elephant-mount help undo'

undo and redo take --dry-run; history and changes take --json. Each line of the
script language works too: elephant help script lists them. .elephant in the
folder has the past: .elephant/at, versions, restorable, soon, limits.

elephant-mount move OLD NEW makes a new journal with what OLD has now, and
--past OLD then shows OLD's past beside it."""


def help_on(words: Sequence[str]) -> str:
    """Returns the help on the lines that begin with these words, or the list of all lines if there are none, or an empty text."""
    if not any(words):
        return _list()
    return "\n".join(map(_page, _named(" ".join(words))))


def _named(words: str) -> list[str]:
    """Returns the names of the lines that these words are, or are the first word of."""
    return [it for it in (*OWN, *(it for it in COMMANDS if it not in OWN)) if words in (it, it.partition(" ")[0])]


def _page(name: str) -> str:
    """Returns the help on a line."""
    found = OWN.get(name)
    if found is None:
        form, answer, what = COMMANDS[name]
        lines = [*_hung("Line:   ", form), *_hung("Answer: ", answer), "", *_filled(what)]
        return "".join(f"{it}\n" for it in lines)
    lines = [f"{'Line:   ' if number == 0 else '        '}{it}" for number, it in enumerate(found.forms)]
    for it in found.what:
        lines += ["", *_filled(it)]
    examples = [f"    elephant-mount --at letters {it}" for it in found.examples]
    return "".join(f"{it}\n" for it in (*lines, *(["", "Example:" if len(examples) == 1 else "Examples:"] if examples else []), *examples))


def _filled(text: str) -> list[str]:
    return textwrap.wrap(text, COLUMNS, break_long_words=False, break_on_hyphens=False)


def _hung(head: str, text: str) -> list[str]:
    """Returns a text after a heading, whose next lines begin below its first word."""
    return textwrap.wrap(head + text, COLUMNS, subsequent_indent=" " * len(head), break_long_words=False, break_on_hyphens=False)


def _list() -> str:
    """Returns the list of all lines."""
    names = ", ".join(sorted(COMMANDS.keys() - LISTED - NOT_HERE))
    return f"{LINES}\n\nLines of the script language:\n{textwrap.fill(names, COLUMNS, initial_indent='  ', subsequent_indent='  ')}\n"
