"""Walks, the paths of a file, the directories above a path, and which of two paths a refusal is about. Expected answers are worked out from
docs/EMBED.md and from the order of refusals in docs/SCRIPT.md."""

from __future__ import annotations

import tempfile
import unittest
from collections.abc import Callable
from pathlib import Path, PurePosixPath
from typing import Any
from unittest import mock

import elephant
from elephant import ElephantError, Full, KeepAll, Limits, PathEntry, ReadOnly, Store
from test_journal import MEMORY, QUICK

Call = Callable[[Any], object]


def manual(**options: Any) -> Store:
    return Store(clock="manual", **options)


def paths(store: Store, path: str = "/", **at: Any) -> list[str]:
    """Returns the paths below a directory, each with a slash after it if it is a directory's."""
    return [it.path + "/" * it.is_directory for it in store.walk(path, **at)]


def make_tree(store: Store) -> None:
    """Makes `/a` with `/a/z` and the empty `/a/y`, `/b` that is `/a/z` too, and `/a-`, whose bytes are between those of `/a` and `/a/z`."""
    store.mkdir("/a")
    store.mkdir("/a/y")
    store.create("/a/z")
    store.link("/a/z", "/b")
    store.create("/a-")


class Walks(unittest.TestCase):
    def test_each_directory_comes_before_what_is_in_it(self) -> None:
        with manual() as store:
            make_tree(store)
            self.assertEqual(paths(store), ["/a/", "/a/y/", "/a/z", "/a-", "/b"])
            self.assertEqual(paths(store, "/a"), ["/a/y/", "/a/z"])
            self.assertEqual((store.walk("/a/y"), store.walk("/a")[1]), ([], PathEntry("/a/z", False, 1, b"/a/z")))
            self.assertRaises(elephant.NotDirectory, store.walk, "/b")
            self.assertRaises(elephant.NoEntry, store.walk, "/c")
            self.assertRaises(elephant.Future, store.walk, "/", at=1)

    def test_names_of_a_moment(self) -> None:
        with manual() as store:
            make_tree(store)
            store.tick(5)
            store.rename("/a", "/c")
            store.unlink("/b")
            self.assertEqual(paths(store, at=4), ["/a/", "/a/y/", "/a/z", "/a-", "/b"])
            self.assertEqual(paths(store, "/a", at=4), ["/a/y/", "/a/z"])
            self.assertEqual(paths(store), ["/a-", "/c/", "/c/y/", "/c/z"])

    def test_paths_are_as_they_were_given(self) -> None:
        with manual() as store:
            store.save("/Müller & Söhne/2026", b"x", parents=True)
            found = store.walk()
            self.assertEqual([it.path for it in found], ["/Müller & Söhne", "/Müller & Söhne/2026"])
            self.assertEqual(found[1].spelled, b"/M%C3%BCller%20&%20S%C3%B6hne/2026")
            self.assertEqual(store.path_of(1), "/Müller & Söhne/2026")

    def test_the_paths_of_a_file(self) -> None:
        with manual() as store:
            make_tree(store)
            self.assertEqual((store.paths_of(1), store.path_of(1)), (["/a/z", "/b"], "/a/z"))
            store.mkdir("/d")  # directory 3, which is no file
            self.assertEqual((store.paths_of(3), store.path_of(3)), ([], None))
            store.unlink("/a-")
            self.assertEqual((store.paths_of(2), store.path_of(2)), ([], None))
            self.assertRaises(ValueError, store.path_of, -1)

    def test_a_name_that_no_path_reaches_is_left_out(self) -> None:
        with manual() as store:
            deep = "/d" * 31
            store.make_parents(f"{deep}/x")
            store.create("/m/n/g", parents=True)
            store.create("/m/f")
            store.rename("/m", f"{deep}/m")  # it has 32 names, those in it 33
            found = paths(store)
            self.assertEqual((len(found), found[31]), (32, f"{deep}/m/"))
            self.assertEqual((store.path_of(1), store.path_of(2)), (None, None))


class Parents(unittest.TestCase):
    def test_what_is_missing_is_made(self) -> None:
        with manual() as store:
            self.assertEqual(store.make_parents("/a/b/c/f"), 3)
            self.assertEqual(paths(store), ["/a/", "/a/b/", "/a/b/c/"])
            for path, made in (("/a/b/c/f", 0), ("/a/b/x/f", 1), ("/f", 0), ("/", 0), ("/a/b", 0)):
                self.assertEqual(store.make_parents(path), made, path)
            self.assertEqual(store.save(PurePosixPath("/n/o/f"), b"x", parents=True), 2)
            self.assertEqual((store.create("/p/q/f", parents=True), store.mkdir("/r/s/t", parents=True)), (2, 11))
            self.assertRaises(elephant.Exists, store.mkdir, "/r/s", parents=True)
            self.assertRaises(elephant.Exists, store.create, "/p/q/f", parents=True)
            self.assertEqual(store.save("/n/o/f", b"y", parents=True), 3)

    def test_without_it_a_missing_directory_is_refused(self) -> None:
        with manual() as store:
            calls: tuple[Call, ...] = (store.create, store.mkdir, lambda it: store.save(it, b"x"))
            for call in calls:
                self.assertRaises(elephant.NoEntry, call, "/a/b")
            self.assertEqual(store.walk(), [])

    def test_nothing_is_made_above_what_cant_be(self) -> None:
        with manual() as store:
            store.create("/f")
            calls: tuple[Call, ...] = (
                lambda it: store.save(it, b"x", parents=True), lambda it: store.create(it, parents=True),
                lambda it: store.mkdir(it, parents=True),
            )
            for path, kind in (
                (b"/n/f@1", elephant.BadName), ("/n/%2E%2E/" + "x" * 65, elephant.BadName), ("/n//f", elephant.BadPath),
                ("n/f", elephant.BadPath), ("/n" * 33, elephant.BadPath), ("/f/n/g", elephant.NotDirectory),
                (b"/n/%2F/f", elephant.BadName), (b"/n/m/%00", elephant.BadName), ("/.elephant/f", elephant.BadName),
            ):
                for call in calls:
                    with self.subTest(path), self.assertRaises(kind):
                        call(path)
                    self.assertEqual(paths(store), ["/f"])
            with self.assertRaises(elephant.TooBig):
                store.save("/n/m/f", bytes(1_048_577), parents=True)
            self.assertEqual(paths(store), ["/f"])

    def test_what_was_made_before_a_refusal_stays(self) -> None:
        with manual(limits=Limits(directories=2)) as store:
            with self.assertRaises(Full) as told:
                store.save("/a/b/c/f", b"x", parents=True)
            self.assertEqual((told.exception.what, told.exception.subject), ("directories", "/a/b/c"))
            self.assertEqual(paths(store), ["/a/", "/a/b/"])

    def test_they_are_in_the_journal(self) -> None:
        with tempfile.TemporaryDirectory(dir=MEMORY) as folder:
            journal = Path(folder, "journal")
            with Store(journal=journal, **QUICK) as store:
                store.save("/a/b/f", b"x", parents=True)
                number = store.create("/a/c/g", parents=True)
            with Store(journal=journal, **QUICK) as store:
                self.assertEqual(paths(store), ["/a/", "/a/b/", "/a/b/f", "/a/c/", "/a/c/g"])
                self.assertEqual((store.read("/a/b/f"), store.path_of(number)), (b"x", "/a/c/g"))
            with Store(journal=journal, read_only=True) as store:
                for path in ("/x/y", "/a/b/f"):
                    self.assertRaises(ReadOnly, store.make_parents, path)
                self.assertEqual(len(store.walk()), 5)


class Pairs(unittest.TestCase):
    def test_the_path_that_a_refusal_is_about(self) -> None:
        with manual() as store:
            store.mkdir("/d")
            store.create("/d/f")
            store.create("/f")
            rows: tuple[tuple[Callable[..., None], Any, Any, str, str], ...] = (
                (store.link, "/n", "/m", "NoEntry", "/n"), (store.link, "/f", "/n/m", "NoEntry", "/n/m"),
                (store.link, "/n", "/n/m", "NoEntry", "/n"), (store.link, "/f/g", "/m", "NotDirectory", "/f/g"),
                (store.link, "/f", "/d/f/g", "NotDirectory", "/d/f/g"), (store.link, "/d", "/m", "IsDirectory", "/d"),
                (store.link, "/", "/m", "IsDirectory", "/"), (store.link, "/f", "/", "IsRoot", "/"),
                (store.link, "/f", "/d/f", "Exists", "/d/f"), (store.link, "/f" * 33, "/m", "BadPath", "/f" * 33),
                (store.link, "/f", "/m" * 33, "BadPath", "/m" * 33),
                (store.rename, "/", "/m", "IsRoot", "/"), (store.rename, "/f", "/", "IsRoot", "/"),
                (store.rename, "/n", "/f", "NoEntry", "/n"), (store.rename, "/f", "/n/m", "NoEntry", "/n/m"),
                (store.rename, "/f/g", "/m", "NotDirectory", "/f/g"), (store.rename, "/f", "/d/f/g", "NotDirectory", "/d/f/g"),
                (store.rename, "/d", "/d/e", "IntoItself", "/d/e"), (store.rename, "/f", "/d/f", "Exists", "/d/f"),
                (store.rename, "/d", "/f", "Exists", "/f"), (store.rename, b"/a@b", "/m", "BadName", "b'/a@b'"),
                (store.rename, "/f", b"/a@b", "BadName", "b'/a@b'"),
            )
            for call, first, second, name, about in rows:
                with self.subTest(call=call.__name__, first=first, second=second):
                    with self.assertRaises(ElephantError) as told:
                        call(first, second)
                    self.assertEqual((told.exception.name, told.exception.subject), (name, about))
            self.assertEqual(str(_raised(store.rename, "/d/f", "/f")), "8 Exists: /f")

    def test_a_limit_is_about_both(self) -> None:
        with manual(limits=Limits(names=1)) as store:
            store.create("/f")
            self.assertEqual(str(_raised(store.link, "/f", "/g")), "27 Full names: ('/f', '/g')")

    def test_without_memory_for_the_question_it_is_about_both(self) -> None:
        with manual() as store:
            core = store._core
            assert core is not None
            with mock.patch.object(core, "code_at", return_value=elephant.NoMemory.number):
                self.assertEqual(str(_raised(store.link, "/n", "/m")), "5 NoEntry: ('/n', '/m')")

    def test_the_question_is_no_event(self) -> None:
        with manual(history=True) as store:
            store.set_default("/", KeepAll())
            _raised(store.rename, "/n", "/m")
            store.make_parents("/d/f")
            self.assertEqual(store.history().lines, ("default / all", "rename /n /m", "mkdir /d"))


def _raised(call: Callable[..., object], *words: object) -> ElephantError:
    try:
        call(*words)
    except ElephantError as fault:
        return fault
    raise AssertionError("nothing was raised")


class Saves(unittest.TestCase):
    def test_an_unchanged_content_makes_a_version_also_an_empty_one(self) -> None:
        with manual() as store:
            store.set_default("/", KeepAll())
            self.assertEqual([store.save("/f", it) for it in (b"x", b"x", b"", b"")], [2, 3, 4, 5])
            self.assertEqual([store.read("/f", version=it) for it in (1, 2, 3, 4, 5)], [b"", b"x", b"x", b"", b""])
            self.assertEqual([store.save("/e", b""), store.save("/e", b"")], [2, 3])

    def test_an_open_session_refuses_a_save_by_each_name(self) -> None:
        with manual() as store:
            store.save("/f", b"one")
            store.link("/f", "/g")
            store.mkdir("/d")
            session = store.session("/f")
            session.write(b"t")
            for path in ("/f", "/g"):
                for content in (b"other", b""):
                    self.assertRaises(elephant.Drafting, store.save, path, content)
            self.assertEqual((session.read(), store.read("/f")), (b"tne", b"one"))
            # Directory 1 is another thing than file 1.
            self.assertRaises(elephant.IsDirectory, store.save, "/d", b"x")
            self.assertEqual((store.save("/n", b"x"), session.close(), store.save("/g", b"other")), (2, 3, 4))

    def test_an_empty_save_into_the_draft_of_a_line_says_so(self) -> None:
        with manual(history=True) as store:
            store.save("/f", b"one")
            store.line("open write /f")
            self.assertRaises(elephant.Drafting, store.save, "/f", b"")
            self.assertEqual(store.read("/f"), b"one")

    def test_a_save_takes_no_handle(self) -> None:
        with manual(limits=Limits(handles=0)) as store:
            self.assertEqual([store.save("/f", b"x"), store.save("/f", bytes(100_000))], [2, 3])

    def test_a_new_file_that_finds_no_room_for_its_content_is_not_made(self) -> None:
        with manual(limits=Limits(versions=1)) as store:
            self.assertEqual(str(_raised(store.save, "/f", b"one")), "27 Full versions: /f")
            self.assertEqual((store.list(), store.restorable()), ([], []))


if __name__ == "__main__":
    unittest.main()
