"""Reads: of every length near those at which they are made by other calls, in stores with and without a history."""

import unittest

from elephant import BadName, BadPath, Forgotten, Future, IsDirectory, KeepOne, NoEntry, NotDirectory, NoVersion, Store
from elephant._core import SHORT
from elephant._names import spell

LENGTHS = (0, 1, 100, SHORT - 1, SHORT, SHORT + 1, 3 * SHORT + 5, 1_048_575, 1_048_576)


def content(length: int) -> bytes:
    """Returns bytes of which no two slots of 512 are alike."""
    return b"".join(b"%d;" % at for at in range(length // 2 + 1))[:length]


class Reads(unittest.TestCase):
    def stores(self) -> list[Store]:
        found = [Store(clock="manual", history=history) for history in (False, True)]
        for store in found:
            self.addCleanup(store.close)
        return found

    def test_each_length_by_each_call(self) -> None:
        for store in self.stores():
            for at, length in enumerate(LENGTHS):
                store.save("/f", content(length))
                store.tick(10)
                with store.reader("/f") as reader, store.session("/f") as session:
                    found = {
                        "now": store.read("/f"), "at": store.read("/f", at=10 * at + 9), "version": store.read("/f", version=at + 2),
                        "reader": reader.read(), "session": session.read(), "bytes": store.read(b"/f"),
                    }
                with store.open("/f", "rb") as file:
                    found["file"] = file.read()
                for name, data in found.items():
                    with self.subTest(name, length=length):
                        self.assertEqual(type(data), bytes)
                        self.assertTrue(data == content(length))

    def test_what_was_read_stays_when_more_is_read(self) -> None:
        for store in self.stores():
            for length in LENGTHS:
                store.save(f"/{length}", content(length))
            found = {length: store.read(f"/{length}") for length in LENGTHS}
            for length in LENGTHS:
                store.save(f"/{length}", b"x" * length)
                store.read(f"/{length}")
            self.assertTrue(all(data == content(length) for length, data in found.items()))

    def test_a_removed_version_says_which_one_is_held_before_it(self) -> None:
        for store in self.stores():
            store.set_default("/", KeepOne())
            for data in (b"two", b"three", b"four"):
                store.save("/f", data)
            with store.reader("/f", version=2):
                self.assertEqual(store.pass_().removed, 2)
                for number, last in ((1, None), (3, 2)):
                    # The detail of the call before is another one.
                    self.assertRaises(NoEntry, store.stat, "/none")
                    with self.assertRaises(Forgotten) as told:
                        store.read("/f", version=number)
                    self.assertEqual((told.exception.last, told.exception.subject), (last, "/f"))

    def test_refusals(self) -> None:
        for store in self.stores():
            store.mkdir("/d")
            store.save("/f", b"one")
            self.assertRaises(NoEntry, store.read, "/none")
            self.assertRaises(IsDirectory, store.read, "/d")
            self.assertRaises(NotDirectory, store.read, "/f/g")
            self.assertRaises(NoVersion, store.read, "/f", version=3)
            self.assertRaises(Future, store.read, "/f", at=1)
            self.assertRaises(BadPath, store.read, b"f")
            self.assertRaises(BadName, store.read, b"/" + b"n" * 65)
            self.assertRaises(BadPath, store.read, "/n" * 33)
            self.assertEqual(store.read("/f"), b"one")

    def test_only_a_history_has_the_reads(self) -> None:
        _, store = self.stores()
        store.save("/f", b"one")
        store.read("/f")
        self.assertRaises(NoEntry, store.read, "/g", at=0)
        self.assertEqual(store.history().lines, ("save /f 6f6e65", "read /f", "read /g@0"))


class Paths(unittest.TestCase):
    def test_spellings(self) -> None:
        rows = {
            "/": b"/", "/f": b"/f", "/a/b/c": b"/a/b/c", "/...": b"/...", "/.a": b"/.a", "/a.": b"/a.", "/..a/b": b"/..a/b",
            "/!\"$&'()*+,-": b"/!\"$&'()*+,-", "/09:;<=>?AZ[\\]^_`az{|}~": b"/09:;<=>?AZ[\\]^_`az{|}~",
            "/.": b"/%2E", "/..": b"/%2E%2E", "/a/./b": b"/a/%2E/b", "/../a": b"/%2E%2E/a", "/a b": b"/a%20b", "/a\n": b"/a%0A",
            "/50%": b"/50%25", "/a@b": b"/a%40b", "/a#b": b"/a%23b", "/\x7f": b"/%7F", "/ä": b"/%C3%A4", "/\udcff": b"/%FF",
            "/" + "n" * 64: b"/" + b"n" * 64, "/a/" + "n" * 64 + "/b": b"/a/" + b"n" * 64 + b"/b",
        }
        for path, spelled in rows.items():
            with self.subTest(path):
                self.assertEqual(spell(path), spelled)
                self.assertEqual(spell(spelled), spelled)

    def test_what_is_no_path(self) -> None:
        refused: dict[type[Exception], tuple[str, ...]] = {
            BadPath: ("", "f", "//", "/a/", "/a//b", "a/b"), BadName: ("/" + "n" * 65, "/a/" + "n" * 65 + "/b", "/" + "ä" * 11),
        }
        for kind, paths in refused.items():
            for path in paths:
                with self.subTest(path):
                    self.assertRaises(kind, spell, path)
        for data in (b"/a b", b"/\n", b"/f\n", b"/\x7f", b"/\xc3\xa4", b"/\0"):
            with self.subTest(data):
                self.assertRaises(BadPath, spell, data)


if __name__ == "__main__":
    unittest.main()
