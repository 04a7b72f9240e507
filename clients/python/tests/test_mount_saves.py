"""Every way to save a file keeps the past of its name, and `undo` brings back what it held: the table of ways.py."""

from __future__ import annotations

import stat
import unittest
from collections.abc import Callable

from elephant import Limits
from elephant.mount.naming import EXCHANGE
from elephant.mount.tree import Directory, File
from test_mount import FILE, FOLDER, Mounted
from test_mount_undo import Undoing
from ways import WAYS, Way, calls_of, without_repetitions


class Caller:
    """Runs the calls of a way in a mount without a kernel."""

    def __init__(self, mounted: Mounted, later: Callable[[int], object]) -> None:
        self.mounted, self.later = mounted, later
        self.opened: list[tuple[File, bool]] = []

    def place(self, path: str) -> tuple[Directory, bytes]:
        parent, _, name = path.encode().rpartition(b"/")
        folder = self.mounted.top.children[parent] if parent else self.mounted.top
        assert isinstance(folder, Directory)
        return folder, name

    def node(self, path: str) -> File:
        folder, name = self.place(path)
        found = folder.children[name]
        assert isinstance(found, File)
        return found

    def call(self, word: str, *words: str) -> None:
        getattr(self, f"do_{word}")(*words)

    def do_folder(self, path: str) -> None:
        self.mounted.naming.mkdir(*self.place(path), FOLDER, 0, 0)

    def _open(self, node: File, writes: bool, is_cut: bool = False) -> None:
        self.mounted.open(node, writes, is_cut)
        self.opened.append((node, writes))

    def do_begin(self, path: str, text: str) -> None:
        folder, name = self.place(path)
        is_there = name in folder.children
        node = self.node(path) if is_there else self.mounted.naming.create(folder, name, FILE, 0, 0)
        self._open(node, True, is_there)
        self.mounted.contents.write(node, 0, text.encode())

    def _close_last(self) -> None:
        node, writes = self.opened.pop()
        self.mounted.contents.save(node)
        self.mounted.contents.closed(node, writes)

    def do_write(self, path: str, text: str) -> None:
        self.do_begin(path, text)
        self._close_last()

    def do_over(self, path: str, text: str) -> None:
        self._open(self.node(path), True)
        self.mounted.contents.write(self.node(path), 0, text.encode())
        self._close_last()

    def do_read(self, path: str) -> None:
        self._open(self.node(path), False)

    def do_hold(self, path: str) -> None:
        self._open(self.node(path), True)

    def do_share(self) -> None:
        self.mounted.contents.save(self.opened[-1][0])

    def do_close(self) -> None:
        while self.opened:
            self._close_last()

    def do_move(self, path: str, other: str) -> None:
        self.mounted.naming.rename(*self.place(path), *self.place(other), 0)

    def do_exchange(self, path: str, other: str) -> None:
        self.mounted.naming.rename(*self.place(path), *self.place(other), EXCHANGE)

    def do_link(self, path: str, other: str) -> None:
        self.mounted.naming.link(self.node(path), *self.place(other))

    def do_unlink(self, path: str) -> None:
        self.mounted.naming.unlink(*self.place(path))

    def do_pause(self) -> None:
        self.later(4)


class Ways(Undoing):
    def begin(self) -> Mounted:
        it = self.mount()
        for text in (b"zero", b"one"):
            it.save(b"f", text)
            self.later()
        return it

    def run_way(self, way: Way) -> None:
        caller = Caller(self.begin(), self.later)
        for words in calls_of(way):
            caller.call(*words)
        self.later()

    def texts(self, name: bytes) -> tuple[str, ...]:
        return without_repetitions([it.decode() for it in self.it.versions(name)])

    def check(self, way: Way) -> None:
        files = {name.decode(): it.decode() for name, it in self.files().items()}
        self.assertEqual(files, {"/f": "two", **{f"/{name}": text for name, text in way.others}})
        self.assertEqual(self.texts(b"f"), way.versions)

    def test_every_way_keeps_the_past(self) -> None:
        for way in WAYS:
            with self.subTest(way=way.name):
                self.journal.unlink(missing_ok=True)
                self.mounted = None
                self.run_way(way)
                self.check(way)
                before = self.it.all()
                self.mount()
                self.assertEqual(self.it.all(), before)
                self.check(way)
                self.assertRegex(self.undo(b"/f"), "^ok version ")
                self.assertEqual(self.it.read(b"f").decode(), way.undone)
                self.redo(b"/f")
                self.assertEqual(self.it.read(b"f"), b"two")
                self.it.close()

    def test_the_table_has_all_ways(self) -> None:
        self.assertGreaterEqual(len(WAYS), 37)
        self.assertEqual(len({it.calls for it in WAYS}), len(WAYS))

    def test_readers_keep_what_they_opened(self) -> None:
        for calls in ("read f; write n two; move n f", "read f; unlink f; write f two", "read f; write n two; unlink f; move n f",
                      "read f; write n two; move f t; move n f; unlink t", "read f; link f g; write n two; move n f; unlink g"):
            with self.subTest(calls=calls):
                self.journal.unlink(missing_ok=True)
                self.mounted = None
                caller = Caller(self.begin(), self.later)
                for words in (it.split() for it in calls.split("; ")):
                    caller.call(*words)
                (node, _), = caller.opened
                self.assertEqual(self.it.contents.read(node, 0, 9), b"one")
                caller.do_close()
                self.assertEqual((self.files(), self.it.contents.drafts), ({b"/f": b"two"}, set()))
                self.it.close()

    def test_a_writer_goes_on_after_its_file_was_renamed_over_another(self) -> None:
        it = self.begin()
        caller = Caller(it, self.later)
        caller.do_begin("n", "two")
        caller.do_move("n", "f")
        (node, _), = caller.opened
        self.assertEqual((it.read(b"f"), self.texts(b"f")), (b"two", ("zero", "one")))
        it.contents.write(node, 3, b"more")
        caller.do_close()
        self.assertEqual(self.texts(b"f"), ("zero", "one", "twomore"))

    def test_what_a_killed_writer_has_synced_of_a_renamed_file_is_kept(self) -> None:
        it = self.begin()
        caller = Caller(it, self.later)
        caller.do_begin("n", "two")
        caller.do_move("n", "f")
        copy = self.journal.with_name("copy")
        copy.write_bytes(self.journal.read_bytes())
        again = type(it)(copy)
        self.assertEqual((again.read(b"f"), sorted(again.top.children)), (b"two", [b"f"]))
        again.close()

    def test_a_rename_back_is_a_rename(self) -> None:
        it = self.begin()
        number = it.top.children[b"f"].number
        it.rename(b"f", b"g")
        it.rename(b"g", b"f")
        self.assertEqual((it.top.children[b"f"].number, self.texts(b"f")), (number, ("zero", "one")))

    def test_a_program_that_is_linked_keeps_its_own_past(self) -> None:
        it = self.begin()
        for text in (b"1", b"2", b"3"):
            it.save(b"g", text)
        self.later()
        it.naming.unlink(it.top, b"f")
        it.naming.link(it.top.children[b"g"], it.top, b"f")
        self.assertEqual(self.texts(b"f"), ("1", "2", "3"))
        self.assertIs(it.top.children[b"f"], it.top.children[b"g"])

    def test_modes_and_links_follow_the_new_file(self) -> None:
        it = self.begin()
        it.naming.link(it.top.children[b"f"], it.top, b"g")
        self.later()
        it.save(b"n", b"two")
        it.naming.set_attributes(it.top.children[b"n"], {"mode": 0o600})
        it.rename(b"n", b"f")
        modes = {name: (stat.S_IMODE(it.file(name).attributes.mode), len(it.file(name).names)) for name in it.top.children}
        self.assertEqual(modes, {b"f": (0o600, 1), b"g": (0o644, 1)})
        before = it.all()
        self.assertEqual(self.mount().all(), before)

    def test_near_a_limit_a_save_begins_a_past_anew(self) -> None:
        it = self.mount(Limits(versions=9))
        it.save(b"f", b"one")
        self.later()
        it.save(b"n", b"two")
        it.rename(b"n", b"f")
        it.save(b"n", b"three")
        it.rename(b"n", b"f")
        self.assertEqual(it.read(b"f"), b"three")
        self.assertFalse(any(isinstance(node, Directory) for node in it.top.children.values()))


if __name__ == "__main__":
    unittest.main()
