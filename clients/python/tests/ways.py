"""The ways in which programs save a file, as calls: one row each. tools/mount runs them in a mounted folder, and commands beside them.

Before a way, the file f has held `zero` and then `one`, and some time has passed. The way saves `two`. Then the versions of f have to be
what the row says, and `undo f` has to bring `one` back, or what the row says.

The words of a call: `write NAME TEXT` opens and cuts off or makes a file, writes it and closes it; `over` writes over a file without
cutting it off; `begin` does as `write` and leaves it open; `read` and `hold` open a file to read it, or to write it, and leave it open;
`share` closes a duplicate of what was left open last, as a program does whose child still has the file; `close` closes what was left open.
`move`, `link`, `unlink`, `exchange` change names, and `folder` makes one. `pause` waits until a new file of a name doesn't continue its
past any more.
"""

from __future__ import annotations

from collections.abc import Iterable, Iterator
from typing import NamedTuple

ALL = ("zero", "one", "two")
TWICE = ("zero", "one", "mid", "two")


class Way(NamedTuple):
    """A way to save: who does so, the calls, the texts of f's versions without repetitions, and what `undo f` brings back."""

    name: str
    calls: str
    versions: tuple[str, ...] = ALL
    undone: str = "one"
    others: tuple[tuple[str, str], ...] = ()
    """What other names hold after it."""


WAYS = (
    Way("write over the file: cp, tee, nano, `>`", "write f two"),
    Way("write over it without cutting it off: dd conv=notrunc, databases", "over f two"),
    Way("write over it while it is read", "read f; write f two; close"),
    Way("write over it twice while a program holds it to write it", "hold f; write f mid; write f two; close", TWICE, "mid"),
    Way("the same without cutting it off", "hold f; over f mid; over f two; close", TWICE, "mid"),
    Way("write over it while a child of the program that saved it has it", "begin f mid; share; over f two; close", TWICE, "mid"),
    Way("cut it off and write it while another program writes it: `>` over a log", "begin f mid; write f two; close", TWICE, "mid"),
    Way("write over it after a copy is made: vim with backupcopy=yes", "write f~ one; write f two; unlink f~"),
    Way("a new file is renamed over it: sed -i, rsync, gedit, Python's os.replace", "write n two; move n f"),
    Way("a new file of another folder is renamed over it", "folder d; write d/n two; move d/n f"),
    Way("a new file is renamed over it while its writer has it open", "begin n two; move n f; close"),
    Way("a new file is renamed over it while a scanner reads it", "write n two; read n; move n f; close"),
    Way("a new file is renamed over it while a viewer reads the old one", "read f; write n two; move n f; close"),
    Way("the same with both open", "read f; write n two; read n; move n f; close"),
    Way("a new file is renamed over it while a program holds the old one to write it", "hold f; write n two; move n f; close"),
    Way("a new file is renamed over it, twice at once", "write n mid; move n f; write n two; move n f", TWICE, "mid"),
    Way("renamed away and made anew: vim with backupcopy=no, emacs", "move f f~; write f two", others=(("f~", "one"),)),
    Way("the same, and the backup is deleted", "move f f~; write f two; unlink f~"),
    Way("renamed away over an older backup", "write f~ old; pause; move f f~; write f two", others=(("f~", "one"),)),
    Way("renamed away while it is read: perl -i.bak", "read f; move f f.bak; write f two; close", others=(("f.bak", "one"),)),
    Way("renamed away while a program holds it to write it", "hold f; move f f~; write f two; close", others=(("f~", "one"),)),
    Way("renamed away twice at once", "move f f~; write f mid; move f f~; write f two", TWICE, "mid", (("f~", "mid"),)),
    Way("renamed away, and a complete new one renamed in: sed -i.bak, mv -b, rsync -b", "write n two; move f f~; move n f",
        others=(("f~", "one"),)),
    Way("the same, and the old one is deleted: Word over a network, LibreOffice", "write n two; move f t; move n f; unlink t"),
    Way("the same while a scanner reads the new one", "write n two; move f t; read n; move n f; unlink t; close"),
    Way("the same while a viewer reads the old one", "read f; write n two; move f t; move n f; unlink t; close"),
    Way("the same twice at once", "write n mid; move f t; move n f; unlink t; write n two; move f t; move n f; unlink t",
        TWICE, "mid"),
    Way("renamed away, and a complete new one linked in", "write n two; move f f~; link n f; unlink n", others=(("f~", "one"),)),
    Way("deleted and made anew: git, tar, install, cp --remove-destination", "unlink f; write f two"),
    Way("deleted while it is read, and made anew: perl -i", "read f; unlink f; write f two; close"),
    Way("deleted while a program holds it to write it, and made anew", "hold f; unlink f; write f two; close"),
    Way("deleted and made anew, twice at once", "unlink f; write f mid; unlink f; write f two", TWICE, "mid"),
    Way("deleted, and a complete new one renamed in", "write n two; unlink f; move n f"),
    Way("deleted while it is read, and a complete new one renamed in", "read f; write n two; unlink f; move n f; close"),
    Way("deleted, and a complete new one linked in", "write n two; unlink f; link n f; unlink n"),
    Way("a link to a complete new one is renamed over it: ln -f", "write n two; link n t; move t f; unlink n"),
    Way("a backup by link, and a new file is renamed over it: rsync -b, gawk -i inplace", "link f f~; write n two; move n f",
        others=(("f~", "one"),)),
    Way("a backup by link, deleted and made anew", "link f f~; unlink f; write f two", others=(("f~", "one"),)),
    Way("a new file is renamed over it, which has long had a hard link", "link f g; pause; write n two; move n f", others=(("g", "one"),)),
    Way("the same with two hard links", "link f g; link f h; pause; write n two; move n f", others=(("g", "one"), ("h", "one"))),
    Way("exchanged with a complete new one, which is then deleted", "write n two; exchange n f; unlink n"),
    Way("the same while both are read", "read f; write n two; read n; exchange n f; unlink n; close"),
    Way("exchanged by three renames", "write n two; move f t; move n f; move t n", others=(("n", "one"),)),
    Way("deleted, and made anew after some seconds: slow networks", "unlink f; pause; write f two", ("two",)),
    Way("renamed away, and made anew after some seconds", "move f f~; pause; write f two", ("two",), others=(("f~", "one"),)),
)


def calls_of(way: Way) -> Iterator[list[str]]:
    """Yields the words of each call."""
    for call in way.calls.split("; "):
        yield call.split()


def without_repetitions(texts: Iterable[str]) -> tuple[str, ...]:
    """Returns the texts without empty ones and without those that repeat the text before."""
    held = [it for it in texts if it]
    return tuple(it for at, it in enumerate(held) if held[at - 1:at] != [it])
