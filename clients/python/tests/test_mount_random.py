"""Random changes of a mount: after each its tree is the store's, and at the end each moment's tree is as it was, also after another mount,
after its journal was made anew, and after a cut."""

from __future__ import annotations

import random
import unittest
from contextlib import suppress
from functools import partial
from typing import Callable

import elephant
from anew import make_anew
from clocks import clock_at
from elephant._disk import start_of
from elephant.mount.naming import EXCHANGE
from elephant.mount.past import Past, PastNode
from elephant.mount.tree import Directory, File, Node
from test_mount import FOLDER, Case, Mounted

NAMES = [b"a", b"b", b"c \xff"]
FIRST = 2_000_000_000
Contents = dict[bytes, bytes]
Calls = dict[str, Callable[[], object]]
WORDS = (
    # These are drawn more often, since they make the most of a past.
    "save", "save", "save", "rename", "rename", "undelete", "undelete", "mode",
    "save", "unlink", "mkdir", "rmdir", "link", "rename", "exchange", "symlink", "mode", "attribute", "undelete", "revert", "age",
)


def files_at(past: Past, moment: int) -> Contents:
    """Returns the contents of all files at a moment, by path."""
    found: Contents = {}

    def below(node: PastNode, path: bytes) -> None:
        for name in past.names(node):
            child = past.find(node, name)
            if child.key[0] == "at":
                below(child, path + b"/" + name)
            else:
                found[path + b"/" + name] = past.content(child)

    below(past.lookup(past.lookup(past.root, b"at"), b"%d" % moment), b"")
    return found


def make_older(node: File) -> None:
    node.born -= 10


def calls_of_a_node(it: Mounted, drawn: random.Random, node: Node) -> Calls:
    return {
        "mode": lambda: it.naming.set_attributes(node, {"mode": drawn.choice([0o600, 0o640])}),
        "attribute": lambda: it.naming.set_extended(node, b"user.a", drawn.choice([b"1", b"", None])),
    }


def calls_of_a_name(it: Mounted, drawn: random.Random, parent: Directory, name: bytes) -> Calls:
    """Returns the changes that a name allows."""
    node, path = parent.children.get(name), parent.path_of(name)
    calls: Calls = {
        "unlink": lambda: it.naming.unlink(parent, name), "mkdir": lambda: it.naming.mkdir(parent, name, FOLDER, 0, 0),
        "rmdir": lambda: it.naming.rmdir(parent, name), "symlink": lambda: it.naming.symlink(parent, name, b"to", 0, 0),
    }
    if node is None:
        calls["undelete"] = lambda: it.store.undelete(path)
    else:
        calls.update(calls_of_a_node(it, drawn, node))
    if isinstance(node, File) and node.is_regular:
        file = node
        calls["revert"] = lambda: it.store.revert(path, drawn.randrange(1, 5))
        calls["age"] = lambda: make_older(file)
    if node is None or "age" in calls:
        calls["save"] = lambda: it.save(name, drawn.randbytes(drawn.choice([0, 1, 2000])), parent)
    return calls


class Random(Case):
    def change(self, it: Mounted, drawn: random.Random) -> None:
        """Makes one change, if its names allow it."""
        folders = [it.top, *it.tree.directories()]
        parent, other, name, new = drawn.choice(folders), drawn.choice(folders), drawn.choice(NAMES), drawn.choice(NAMES)
        calls, node = calls_of_a_name(it, drawn, parent, name), parent.children.get(name)
        calls["rename"] = lambda: it.naming.rename(parent, name, other, new, 0)
        calls["exchange"] = lambda: it.naming.rename(parent, name, other, new, EXCHANGE)
        if isinstance(node, File):
            file = node
            calls["link"] = lambda: it.naming.link(file, other, new)
        word = drawn.choice(WORDS)
        with suppress(OSError, elephant.Refused, elephant.NoVersion):
            calls.get(word, lambda: None)()
        differing = list(it.tree.refresh())
        if word not in ("undelete", "revert"):
            self.assertEqual(differing, [], word)

    def test_each_moment_is_as_it_was(self) -> None:
        changed = 0
        for seed in range(20):
            with self.subTest(seed=seed):
                drawn, clock = random.Random(seed), [FIRST]
                moments: dict[int, dict[object, object]] = {}
                self.journal.unlink(missing_ok=True)
                self.mounted = None
                with clock_at(partial(clock.__getitem__, 0)):
                    it = self.mount()
                    it.store.line("default / all")
                    for _ in range(60):
                        self.change(it, drawn)
                        if drawn.random() < 0.4:
                            moments[clock[0]] = {row[0]: row[-1] for row in it.all() if len(row) > 6}
                            clock[0] += 1
                    clock[0] += 1
                    changed += sum(map(len, moments.values()))
                    self.compare(it, moments, drawn)
                self.mounted = None
        self.assertGreater(changed, 1000)

    def compare(self, it: Mounted, moments: dict[int, dict[object, object]], drawn: random.Random) -> None:
        before, used = it.all(), dict(it.store.quota.used)
        new, cut = self.journal.with_name("new"), self.journal.with_name("cut")
        make_anew(self.journal, new)
        it.close()
        for journal in (self.journal, new):
            again = Mounted(journal)
            self.assertEqual((again.all(), again.store.quota.used), (before, used))
            for moment, wanted in moments.items():
                self.assertEqual(files_at(again.past, moment), wanted)
            again.close()
        new.unlink()
        data = self.journal.read_bytes()
        for _ in range(5):
            cut.write_bytes(data[:drawn.randrange(start_of(data), len(data))])
            again = Mounted(cut)
            self.assertEqual(list(again.tree.refresh()), [])
            again.close()
            cut.unlink()


if __name__ == "__main__":
    unittest.main()
