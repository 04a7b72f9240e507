"""Journals of lines, which earlier versions of the mount made: a mount has all that they say, and rewrites them."""

from __future__ import annotations

import stat
import unittest
from pathlib import Path
from typing import Optional

from clocks import clock_at
from elephant import JournalDamaged
from elephant._journal import Journal
from elephant.mount.moving import move
from elephant.mount.undo import Undo
from test_mount import Case, Mounted

MADE = b"# made f%d d0 %o 1 2 1500000000000000000"
FILE, LINK = 0o100640, stat.S_IFLNK | 0o777
CHANGES: list[list[bytes]] = [
    [b"default / landmarks:604800/3600,2592000/86400,31536000/604800"],
    [b"clock 1500000000", b"create /f", MADE % (1, FILE)],
    [b"open write /f", b"write 1 0 6f6e65", b"# saved f1 1500000001000000000"], [b"close 1"],
    [b"mkdir /d", b"# made d1 d0 42750 3 4 1500000000000000000"],
    [b"clock 1500000010", b"save /f 74776f", b"# saved f1 1500000010000000000"],
    [b"# xattr f1 1500000010000000000 757365722e61 =31"],
    [b"create /link", MADE % (2, LINK), b"save /link 642f6e6f7768657265"],
    [b"create /d/gone", b"# made f3 d1 100600 5 6 1500000010000000000", b"save /d/gone 6c6f7374"],
    [b"clock 1500000020", b"unlink /d/gone", b"# names 1500000020000000000 d1 f3"],
    [b"clock 1500000030", b"create /old", MADE % (4, FILE), b"policy /old one", b"save /old 78"],
    [b"clock 1500000040", b"clean"],
    [b"clock 1500000050", b"revert /f 2", b"# undone f1 4 2 0", b"# of another program"],
    [b"# due 1500000050 1:1"],
    [b"open write /f", b"write 2 0 73697865", b"# saved f1 1500000051000000000"],
]


class Earlier(Case):
    def setUp(self) -> None:
        super().setUp()
        self.write(self.journal)

    def write(self, path: Path) -> bytes:
        journal = Journal(str(path), False, 0.0)
        for _ in journal.changes():
            pass
        for it in CHANGES:
            journal.append(it)
        journal.close()
        return path.read_bytes()

    def check(self, it: Mounted, last: Optional[bytes] = b"sixe") -> None:
        file, folder = it.file(b"f"), it.top.children[b"d"]
        attributes = file.attributes
        self.assertEqual((attributes.mode, attributes.owner, attributes.group, attributes.mtime, attributes.extended),
                         (FILE, 1, 2, 1500000051000000000, {b"user.a": b"1"}))
        self.assertEqual((folder.attributes.mode, folder.attributes.owner), (0o42750, 3))
        self.assertEqual((it.read(b"link"), it.file(b"link").attributes.is_link), (b"d/nowhere", True))
        self.assertEqual(it.versions(b"f"), [b"", b"one", b"two", b"one"] + ([] if last is None else [last]))
        place = it.past.root
        for name in (b"restorable", b"d", b"gone"):
            place = it.past.lookup(place, name)
        self.assertEqual((it.past.content(place), it.past.show(place).mode), (b"lost", 0o100600))
        with clock_at(1_500_000_060):
            then = it.past.lookup(it.past.lookup(it.past.root, b"at"), b"1500000005")
            self.assertEqual(it.past.content(it.past.lookup(then, b"f")), b"one")
            moments = [1_500_000_000, 1_500_000_010, 1_500_000_020, 1_500_000_030, 1_500_000_050]
            self.assertEqual((list(it.past.moments())[:5], it.past.begin), (moments, 1_500_000_000))
        self.assertEqual((it.store.records.announced.since, it.store.records.undone), ({(1, 1): 1500000050}, {(1, 4): (2, 0)}))
        self.assertEqual({version: tuple(told) for version, told in it.store.removals.of(4).items()}, {1: (1_500_000_040, 1_500_000_030)})
        self.assertEqual((it.store.departed[3].path, it.store.departed[3].length, it.store.departed[3].ended), (b"/d/gone", 4, 1500000020))

    def test_a_mount_has_all_of_one_and_goes_on(self) -> None:
        old = self.journal.read_bytes()
        for _ in range(3):
            it = self.mount()
            self.check(it)
            it.store.compact()
            self.check(it)
        it.save(b"f", b"later")
        it.naming.unlink(it.top, b"link")
        before = it.all()
        it = self.mount()
        self.assertEqual((it.all(), it.read(b"f")), (before, b"later"))
        self.assertRegex(Undo(it.store, it.tree, it.contents).run(b"/d/gone", None, False), "^ok ")
        self.assertEqual(it.store.read("/d/gone"), b"lost")
        names = sorted(path.name for path in self.journal.parent.iterdir())
        self.assertEqual((names, self.journal.with_name("journal.before-1").read_bytes()), (["journal", "journal.before-1"], old))

    def test_a_look_changes_nothing(self) -> None:
        old = self.journal.read_bytes()
        look = Mounted(self.journal, read_only=True)
        self.addCleanup(look.store.close)
        self.check(look, None)
        self.assertEqual((self.journal.read_bytes(), len(list(self.journal.parent.iterdir()))), (old, 1))

    def test_one_goes_on_in_a_new_journal(self) -> None:
        old, new = self.journal.read_bytes(), self.journal.with_name("new")
        self.assertIn("has the 3 files of", move(str(self.journal), str(new)))
        self.assertEqual(self.journal.read_bytes(), old)
        it = Mounted(new)
        self.addCleanup(it.store.close)
        self.assertEqual((it.versions(b"f"), it.file(b"f").attributes.mode), ([b"", b"sixe"], FILE))

    def test_a_damaged_one_is_refused(self) -> None:
        data = bytearray(self.journal.read_bytes())
        data[200] ^= 1
        self.journal.write_bytes(data)
        with self.assertRaises(JournalDamaged):
            self.mount()
        self.assertEqual(self.journal.read_bytes(), data)


if __name__ == "__main__":
    unittest.main()
