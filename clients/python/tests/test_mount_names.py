"""Names that no folder can show, times and quotes as people type them."""

from __future__ import annotations

import os
import tempfile
import unittest
from collections.abc import Callable
from pathlib import Path
from typing import Union
from unittest import mock

from elephant import BadName, Store
from elephant.mount import client
from elephant.mount.names import names_of
from elephant.mount.past import is_lasting, moment_of
from elephant.mount.tree import Directory
from elephant.mount.wording import line_of, spelled_path, words_of
from test_mount import Case

# What a journal of another program may have, by the name that the folder shows.
ODD = {
    b"a%2Fb": b"/a%2Fb", b"%00": b"/%00", b"%2E%2E": b"/%2E%2E", b"%2E": b"/%2E", b"%2Eelephant": b"/.elephant", b"%2f": b"/%2f",
    b"%41": b"/%41", b"%E4": b"/%E4",
}


def make_raw(journal: Path, *paths: bytes, word: str = "create") -> None:
    """Makes names in a journal that the package refuses to make, as an older one would have."""
    with Store(journal=journal) as store, mock.patch("elephant._store.require_shown"):
        for path in paths:
            getattr(store, word)(path)


class Odd(Case):
    def test_a_journal_with_them_is_listed_read_and_mended(self) -> None:
        make_raw(self.journal, *(it for it in ODD.values() if it not in (b"/%E4", b"/%2E")), b"/%2E")
        it = self.mount()
        self.assertEqual(set(it.top.children), set(ODD) - {b"%E4"})
        for number, name in enumerate(sorted(it.top.children)):
            self.assertFalse(set(name) & set(b"/\0"))
            it.save(name, b"text")
            self.assertEqual(it.versions(name), [b"", b"text"])
            it.rename(name, b"mended%d" % number)
        self.assertEqual(sorted(it.top.children), [b"mended%d" % number for number in range(len(ODD) - 1)])
        self.assertEqual(self.mount().read(b"mended0"), b"text")

    def test_a_name_that_two_spellings_mean_is_shown_twice(self) -> None:
        self.assertEqual(names_of([b"%2F", b"%252F", b"%2F%"]), {b"%2F": b"%252F", b"%2F%": b"%2F", b"%2F%%": b"%2F%"})
        make_raw(self.journal, b"/a%2Fb", b"/a%252Fb")
        it = self.mount()
        self.assertEqual({name: node.number for name, node in it.top.children.items()}, {b"a%2Fb%": 1, b"a%2Fb": 2})
        it.save(b"a%2Fb%", b"odd")
        it.save(b"a%2Fb", b"own")
        self.assertEqual((it.store.read(b"/a%2Fb"), it.store.read(b"/a%252Fb")), (b"odd", b"own"))

    def test_every_name_of_a_listing_is_found_in_the_past(self) -> None:
        make_raw(self.journal, *ODD.values(), b"/a%252Fb")
        it = self.mount()
        past = it.past
        at = past.lookup(past.lookup(past.root, b"at"), b"%d" % it.store.now)
        for name in past.names(at):
            past.lookup(at, name)
        self.assertEqual(len(past.names(at)), len(ODD) + 1)
        versions = past.lookup(past.root, b"versions")
        for name in past.names(versions):
            past.lookup(versions, name)
        for name in list(it.top.children):
            it.naming.unlink(it.top, name)
        restorable = past.lookup(past.root, b"restorable")
        self.assertEqual(len(past.names(restorable)), len(ODD) + 1)
        for name in past.names(restorable):
            past.find(restorable, name)

    def test_a_folder_of_the_name_of_the_past_can_be_renamed(self) -> None:
        make_raw(self.journal, b"/.elephant", word="mkdir")
        make_raw(self.journal, b"/.elephant/f", b"/.elephant/.elephant")
        it = self.mount()
        it.rename(b"%2Eelephant", b"mended")
        mended = it.top.children[b"mended"]
        assert isinstance(mended, Directory)
        self.assertEqual(sorted(mended.children), [b".elephant", b"f"])
        again = self.mount()
        self.assertEqual(list(again.top.children), [b"mended"])

    def test_longest_spelling(self) -> None:
        make_raw(self.journal, b"/" + b"%2F" * 21)
        it = self.mount()
        it.save(b"%2F" * 21, b"text")
        self.assertEqual(it.read(b"%2F" * 21), b"text")

    def test_the_package_makes_none(self) -> None:
        store = Store()
        calls: tuple[Callable[[Union[str, bytes]], object], ...] = (
            store.create, store.mkdir, lambda it: store.save(it, b"x"), lambda it: store.link("/f", it), lambda it: store.rename("/f", it),
            lambda it: store.open(it, "w").close(),
        )
        store.create("/f")
        store.mkdir("/d")
        paths: tuple[Union[str, bytes], ...] = (
            b"/a%2Fb", b"/%00", b"/%2E", b"/..", b"/.", "/.", "/..", "/d/..", "/a\0", "/.elephant", b"/.elephant", b"/d/%2E",
        )
        for path in paths:
            for call in calls:
                with self.subTest(path=path), self.assertRaises(BadName):
                    call(path)
        for line in ("create /a%2Fb", "mkdir /.elephant", "link /f /%00", "rename /f /..", "create /d/%2E"):
            self.assertEqual(store.line(line), "bad 28 BadName\n")
        for path in ("/d/.elephant", "/...", "/a%2Fb", "/.elephants"):
            store.save(path, b"x")
        self.assertEqual(len(store.list("/")), 5)


class Words(unittest.TestCase):
    def test_lines_are_split_as_they_were(self) -> None:
        for line in ("policy /f one", "why /it's 2", "read /f@150", "x  y", "", 'create /a"b', "unlink /a\\b"):
            self.assertEqual(words_of(line), line.split(" "))

    def test_quotes_keep_spaces(self) -> None:
        for line in ("policy '/my dir/a b' one", 'policy "/my dir/a b" one', "policy /my\\ dir/a\\ b one"):
            self.assertEqual(words_of(line), ["policy", "/my dir/a b", "one"])
        self.assertEqual(words_of("undo '/it'\\''s'"), ["undo", "/it's"])
        with self.assertRaises(ValueError):
            words_of("policy '/my dir one")

    def test_words_become_a_line_and_words_again(self) -> None:
        for words in (["policy", "/my dir/a b", "one"], ["undo", "/f", "2", "hours", "ago"], ["undo", "it's", "'x"], ["a", "", "b c"],
                      ["/\\ x"]):
            self.assertEqual(words_of(line_of(words)), words)
        self.assertEqual(line_of(["why", "/f", "2"]), "why /f 2")

    def test_paths_are_spelled(self) -> None:
        self.assertEqual(spelled_path("/my dir/\u00e4%20@5#2"), "/my%20dir/%C3%A4%20@5#2")
        self.assertEqual(spelled_path("my dir"), "my dir")


class Undone(unittest.TestCase):
    """The words of `undo` at the command line."""

    def setUp(self) -> None:
        room = tempfile.TemporaryDirectory()
        self.addCleanup(room.cleanup)
        self.top = os.path.realpath(room.name)
        patch = mock.patch.object(client, "mount_of", lambda _: self.top)
        patch.start()
        self.addCleanup(patch.stop)

    def words(self, *words: str) -> list[str]:
        """Returns the words of a line that is typed as one word, or as several."""
        return client.typed_line(self.top, words[0] if len(words) == 1 else "", words_of(words[0]) if len(words) == 1 else list(words))

    def test_files_and_moments(self) -> None:
        for name in ("f", "my letter", "f 2026"):
            Path(self.top, name).touch()
        for words, wanted in (
            (("undo", "f", "2026-11-29 09:21"), ["/f", "2026-11-29 09:21"]),
            (("undo", "f", "2", "hours", "ago"), ["/f", "2", "hours", "ago"]),
            (("undo f yesterday 15:00",), ["/f", "yesterday", "15:00"]),
            (("undo f 2026",), ["/f%202026"]),
            (("undo my letter 2 hours ago",), ["/my%20letter", "2", "hours", "ago"]),
            (("undo gone 2 hours ago",), ["/gone", "2", "hours", "ago"]),
            (("undo a deleted one",), ["/a%20deleted%20one"]),
            (("undo 'a deleted one' 15:00",), ["/a%20deleted%20one", "15:00"]),
            (("undo", "--dry-run", "my letter", "15:00"), ["--dry-run", "/my%20letter", "15:00"]),
            (("undo my letter --dry-run",), ["--dry-run", "/my%20letter"]),
            (("undo", "/my letter"), ["/my%20letter"]),
            (("undo", "."), ["/"]),
        ):
            with self.subTest(words=words):
                self.assertEqual(self.words(*words), ["undo", *wanted])


class Moments(unittest.TestCase):
    def test_names_of_moments(self) -> None:
        now = 1_800_000_000
        self.assertEqual(moment_of(b"2 hours ago", now), now - 7200)
        self.assertEqual(moment_of(b"@1234", now), 1234)
        self.assertEqual(moment_of(b"2026-11-29 09:21:05+00:00", now), 1_795_944_065)
        for name in (b"soon", b"", b"01/02/2026", b"yesterday", b"\xff"):
            with self.assertRaises(FileNotFoundError):
                moment_of(name, now)

    def test_which_names_always_mean_the_same(self) -> None:
        self.assertTrue(all(map(is_lasting, (b"1800000000", b"2026-11-29 09:21", b"2026-11-29T09:21:05Z"))))
        self.assertFalse(any(map(is_lasting, (b"2 hours ago", b"15:00", b"yesterday 15:00", b"now"))))


if __name__ == "__main__":
    unittest.main()
