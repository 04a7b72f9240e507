"""A store in memory: what its calls answer, and what they refuse. Expected answers are worked out from docs/SCRIPT.md."""

import io
import os
import random
import subprocess
import sys
import threading
import unittest
from datetime import datetime, timedelta, timezone
from pathlib import Path, PurePosixPath
from typing import Any, BinaryIO, Callable, Union, cast

import elephant
from elephant import (
    Counts,
    Current,
    DeletedName,
    DirectoryStat,
    Due,
    Entry,
    File,
    FileStat,
    Forgotten,
    Full,
    Group,
    KeepAll,
    KeepOne,
    KeepSafe,
    Kept,
    Landmarks,
    Limits,
    Mark,
    Marked,
    Moment,
    NoEntry,
    Open,
    Pass,
    Removable,
    Store,
    TextFile,
    Usage,
    Version,
)
from stats import file_stat

MOST = 1_048_576
ZERO = Moment(0)
# A call, its words, and a word of the error that it raises.
Call = tuple[Callable[..., object], tuple[object, ...], str]


def manual(**options: Any) -> Store:
    return Store(clock="manual", **options)


def write_to(file: Union[File, TextFile], text: str) -> None:
    if isinstance(file, TextFile):
        file.write(text)
    else:
        file.write(text.encode())


class Contents(unittest.TestCase):
    def test_a_file_is_written_and_read(self) -> None:
        with manual() as store:
            with store.open("/f", "wb") as file:
                file.write(b"one")
                file.write(b" two")
            self.assertEqual((file.version, store.read("/f")), (2, b"one two"))
            self.assertEqual(store.versions("/f"), [Version(1, ZERO, ZERO, ZERO, 0), Version(2, ZERO, ZERO, None, 7)])

    def test_an_exception_makes_no_version(self) -> None:
        with manual() as store:
            store.save("/f", b"old")
            for mode in ("wb", "w", "r+b", "a", "xb"):
                path = "/g" if mode == "xb" else "/f"
                with self.subTest(mode), self.assertRaises(ZeroDivisionError), store.open(path, mode) as file:
                    write_to(file, "new")
                    raise ZeroDivisionError
            self.assertEqual([it.number for it in store.versions("/f")], [1, 2])
            self.assertEqual((store.read("/f"), store.list("/")), (b"old", [Entry("f", False, 1, b"f")]))

    def test_a_file_that_is_never_closed_makes_no_version(self) -> None:
        with manual() as store:
            store.save("/f", b"old")
            for mode in ("wb", "w"):
                file = store.open("/f", mode)
                write_to(file, "new")
                with self.assertWarns(ResourceWarning):
                    del file
            self.assertEqual(store.versions("/f")[-1].number, 2)

    def test_discard_makes_no_version(self) -> None:
        with manual() as store:
            for mode in ("wb", "w"):
                file = store.open("/f", mode)
                write_to(file, "new")
                file.discard()
                self.assertTrue(file.closed)
            self.assertRaises(NoEntry, store.read, "/f")

    def test_modes_of_binary_files(self) -> None:
        with manual() as store:
            store.save("/f", b"0123456789")
            with store.open("/f", "rb") as file:
                self.assertEqual((file.read(3), file.tell(), file.seek(-2, io.SEEK_END), file.read()), (b"012", 3, 8, b"89"))
                self.assertRaises(io.UnsupportedOperation, file.write, b"x")
                self.assertRaises(io.UnsupportedOperation, file.truncate)
            with store.open("/f", "ab") as file:
                self.assertEqual((file.tell(), file.seek(0), file.write(b"ab"), file.tell()), (10, 0, 2, 12))
                self.assertRaises(io.UnsupportedOperation, file.read)
            self.assertEqual(store.read("/f"), b"0123456789ab")
            with store.open("/f", "r+b") as file:
                self.assertEqual((file.read(2), file.write(b"xy"), file.truncate(5)), (b"01", 2, 5))
            self.assertEqual(store.read("/f"), b"01xy4")
            with store.open("/f", "r+b") as file:
                file.truncate(7)
            self.assertEqual(store.read("/f"), b"01xy4\0\0")
            with store.open("/f", "w+b") as file:
                file.write(b"line 1\nline 2\n")
                file.seek(0)
                self.assertEqual((file.readline(), list(file)), (b"line 1\n", [b"line 2\n"]))
            self.assertEqual([it.length for it in store.versions("/f")], [0, 10, 12, 5, 7, 14])
            with self.assertRaises(elephant.Exists):
                store.open("/f", "xb")
            with store.open("/g", "xb"):
                pass
            self.assertEqual(store.versions("/g"), [Version(1, ZERO, ZERO, None, 0)])
            for mode in ("", "rw", "rbb", "rbt", "z", "r++"):
                self.assertRaises(ValueError, store.open, "/f", mode)
            self.assertRaises(ValueError, store.open, "/f", "wb", at=0)

    def test_modes_of_text_files(self) -> None:
        with manual() as store:
            with store.open("/f", "w") as file:
                print("erste Zeile äöü", file=file)
            with store.open("/f", "a") as file:
                file.write("zweite\r\n")
            with store.open("/f") as file:
                self.assertEqual(file.readlines(), ["erste Zeile äöü\n", "zweite\n"])
            with store.open("/f", newline="", encoding="latin-1") as file:
                self.assertEqual(file.read(), "erste Zeile Ã¤Ã¶Ã¼\nzweite\r\n")
            self.assertEqual(store.read("/f"), "erste Zeile äöü\nzweite\r\n".encode())
            wrapper = io.TextIOWrapper(cast(BinaryIO, store.open("/f", "wb")), encoding="ascii")
            wrapper.write("plain")
            wrapper.close()
            self.assertEqual(store.read("/f"), b"plain")

    def test_a_file_that_nothing_is_written_to_makes_no_version(self) -> None:
        with manual() as store:
            store.save("/f", b"abc")
            for mode in ("r+b", "ab", "r+", "a"):
                with store.open("/f", mode) as file:
                    file.seek(0)
                    write_to(file, "")
                self.assertIsNone(file.version)
            with store.open("/f", "r+b") as file:
                self.assertEqual((file.truncate(3), file.tell()), (3, 0))
            with self.assertRaises(NoEntry):
                store.open("/g", "r+b")
            for mode in ("ab", "wb", "w"):  # each makes the file, and nothing else
                with store.open(f"/{mode}", mode):
                    pass
                self.assertEqual(store.versions(f"/{mode}"), [Version(1, ZERO, ZERO, None, 0)])
            self.assertEqual(([it.number for it in store.versions("/f")], store.reader("/f").number), ([1, 2], 1))
            # The same bytes once more are a change, as they are for the core.
            with store.open("/f", "r+b") as file:
                file.write(b"abc")
            self.assertEqual((file.version, store.read("/f")), (3, b"abc"))

    def test_a_draft_that_a_line_opened(self) -> None:
        for history in (False, True):
            with manual(history=history) as store:
                store.save("/f", b"abc")
                store.line("open write /f")
                self.assertRaises(elephant.Drafting, store.save, "/f", b"xyz")
                self.assertEqual((store.line("close 1"), store.read("/f")), ("ok closed\n", b"abc"))
                self.assertEqual(store.save("/f", b"more"), 3)

    def test_a_write_that_changes_a_part_shares_the_rest(self) -> None:
        with manual() as store:
            store.save("/f", bytes(512 * 10))
            with store.open("/f", "r+b") as file:
                file.seek(512 * 4)
                file.write(b"x")
            # Ten blocks of the first content, and one that differs.
            self.assertEqual(store.usage()[2], Usage("safe", 1, 3, 512 * 20, 11))

    def test_what_is_patched_is_what_was_meant(self) -> None:
        """Random writes and cuts about the edges of slots leave what they leave of a list of bytes."""
        rng, version = random.Random(1), 1
        with manual() as store:
            store.create("/f")
            for _ in range(400):
                before = store.read("/f")
                wanted = bytearray(before)
                with store.open("/f", "r+b") as file:
                    for _ in range(rng.randint(1, 3)):
                        place, data = rng.choice([0, 1, 500, 511, 512, 513, 1100]), rng.choice([b"a", b"b"]) * rng.choice([1, 2, 512, 700])
                        wanted = wanted.ljust(place, b"\0")
                        wanted[place:place + len(data)] = data
                        file.seek(place)
                        file.write(data)
                    if rng.random() < 0.3:
                        size = file.truncate(rng.choice([0, 1, 511, 512, 513]))
                        wanted = wanted[:size].ljust(size, b"\0")
                version += 1
                self.assertEqual((file.version, store.read("/f")), (version, bytes(wanted)))

    def test_a_write_over_what_another_wrote_meanwhile_is_whole(self) -> None:
        with manual() as store:
            store.save("/f", b"b" * 600)
            with store.open("/f", "ab") as file:
                file.write(b" and more")
                store.save("/f", b"another" * 100)
            self.assertEqual((file.version, store.read("/f")), (4, b"b" * 600 + b" and more"))
            self.assertEqual(store.read("/f", version=3), b"another" * 100)

    def test_a_content_has_at_most_a_mebibyte(self) -> None:
        with manual() as store:
            with store.open("/f", "wb") as file:
                file.write(bytes(MOST))
                self.assertRaises(elephant.TooBig, file.write, b"x")
                self.assertRaises(elephant.TooBig, file.truncate, MOST + 1)
            self.assertEqual(file_stat(store, "/f").length, MOST)
            self.assertRaises(elephant.TooBig, store.save, "/f", bytes(MOST + 1))
            self.assertRaises(TypeError, store.save, "/f", 5)
            self.assertRaises(TypeError, store.save, "/f", "text")
            self.assertEqual([it.length for it in store.versions("/f")], [0, MOST])
            self.assertEqual(store.save("/f", b"and on"), 3)

    def test_a_save_makes_the_file(self) -> None:
        with manual() as store:
            self.assertEqual([store.save("/f", it) for it in (b"", b"", b"a", b"a", b"")], [2, 3, 4, 5, 6])
            self.assertEqual([it.length for it in store.versions("/f")], [0, 0, 0, 1, 1, 0])
            self.assertRaises(NoEntry, store.save, "/d/f", b"a")
            self.assertRaises(elephant.IsRoot, store.save, "/", b"a")
            self.assertRaises(NoEntry, store.open, "/d/f", "wb")
            self.assertRaises(elephant.NotDirectory, store.open, "/f/g", "wb")
            self.assertRaises(elephant.IsDirectory, store.open, "/", "wb")

    def test_sessions_share_a_draft(self) -> None:
        with manual() as store:
            store.save("/f", b"hello")
            with store.session("/f") as one:
                two = store.session("/f")
                two.truncate(2)
                two.write(b"!", 4)
                self.assertEqual((one.read(), store.read("/f"), two.close()), (b"he\0\0!", b"hello", None))
                self.assertRaises(elephant.Drafting, store.revert, "/f", 1)
                self.assertRaises(elephant.Drafting, store.save, "/f", b"x")
                self.assertEqual(store.save("/g", b"x"), 2)
            self.assertEqual((one.version, store.read("/f")), (3, b"he\0\0!"))
            self.assertRaises(elephant.Closed, one.write, b"x")
            with store.session("/f") as unchanged:
                pass
            self.assertEqual((unchanged.version, store.save("/f", b"x")), (None, 4))

    def test_an_abandoned_session_makes_no_version(self) -> None:
        for history in (False, True):
            with manual(history=history) as store:
                store.save("/f", b"hello")
                session = store.session("/f")
                session.write(b"mistake")
                session.abandon()
                self.assertEqual((store.read("/f"), len(store.versions("/f"))), (b"hello", 2))
                self.assertRaises(elephant.Closed, session.abandon)
                one, two = store.session("/f"), store.session("/f")
                one.write(b"J")
                two.write(b"e", 1)
                one.abandon()
                self.assertRaises(elephant.Drafting, store.save, "/f", b"x")
                self.assertEqual((two.read(), two.close(), store.read("/f")), (b"Jello", 3, b"Jello"))
                self.assertEqual(store.line("abandon 3"), "no 15 NoHandle\n")
                with store.session("/f") as given_up:
                    given_up.write(b"mistake")
                    given_up.abandon()
                self.assertEqual((given_up.version, store.save("/f", b"x")), (None, 4))

    def test_what_a_path_held_is_restored(self) -> None:
        with manual() as store:
            store.save("/my notes", b"one")
            store.clock(10)
            store.save("/my notes", b"two")
            store.clock(20)
            self.assertEqual((store.restore("/my notes", 9), store.read("/my notes")), (4, b"one"))
            store.rename("/my notes", "/n")
            # By its own past, and by that of the name, which no file has now.
            self.assertEqual((store.restore("/n", Moment(10)), store.read("/n")), (5, b"two"))
            self.assertEqual((store.restore("/my notes", 9), store.read("/my notes"), store.read("/n")), (2, b"one", b"two"))
            store.clock(30)
            store.unlink("/n")
            self.assertEqual((store.restore("/n", 29), store.read("/n"), file_stat(store, "/n").file), (6, b"two", 1))
            self.assertRaises(elephant.Future, store.restore, "/n", 31)
            self.assertRaises(NoEntry, store.restore, "/none", 9)
            self.assertRaises(elephant.IsDirectory, store.restore, "/", 9)
            self.assertRaises(elephant.BadMoment, store.restore, "/n", 1 << 40)
            with store.session("/n"):
                self.assertRaises(elephant.Drafting, store.restore, "/n", 29)
            store.set_policy("/n", elephant.KeepOne())
            store.pass_()
            self.assertRaises(Forgotten, store.restore, "/n", 20)

    def test_a_reader_keeps_its_version(self) -> None:
        with manual() as store:
            store.set_default("/", KeepOne())
            store.save("/f", b"one")
            store.save("/f", b"two")
            with store.reader("/f", version=2) as reader:
                self.assertEqual((store.why("/f", version=2), store.pass_()), (Open(), Pass(1, True)))
                self.assertEqual((reader.read(), reader.number), (b"one", 1))
                self.assertRaises(elephant.NotWriter, store._write_handle, reader.number, 0, b"x")
            self.assertEqual(store.clean(), Removable(ZERO, 1, 2))
            self.assertIsNone(store.clean())
            with self.assertRaises(Forgotten) as told:
                store.read("/f", version=2)
            self.assertEqual((told.exception.last, told.exception.number, told.exception.name), (None, 13, "Forgotten"))


class Moments(unittest.TestCase):
    def test_moments_are_numbers_and_aware_datetimes(self) -> None:
        noon = datetime(2026, 11, 28, 12, tzinfo=timezone.utc)
        with manual() as store:
            self.assertEqual(store.clock(noon).datetime, noon)
            store.save("/f", b"one")
            self.assertEqual(store.tick(60), int(noon.timestamp()) + 60)
            store.save("/f", b"two")
            east = timezone(timedelta(hours=9))
            moments: list[tuple[Union[int, datetime], bytes]] = [
                (noon, b"one"), (noon + timedelta(seconds=59, microseconds=999_999), b"one"), (int(noon.timestamp()) + 60, b"two"),
                (datetime(2026, 11, 28, 21, 1, tzinfo=east), b"two"),
            ]
            for at, content in moments:
                self.assertEqual(store.read("/f", at=at), content)
            ended = store.versions("/f")[1].ended
            assert ended is not None
            self.assertEqual(ended.datetime, noon + timedelta(minutes=1))
            self.assertRaises(ValueError, store.read, "/f", at=datetime(2026, 11, 28, 12))
            self.assertRaises(TypeError, store.read, "/f", at=1.5)
            self.assertRaises(TypeError, store.read, "/f", at=True)
            self.assertRaises(TypeError, store.read, "/f", at=1, version=1)
            self.assertRaises(elephant.BadMoment, store.read, "/f", at=-1)
            self.assertRaises(elephant.BadMoment, store.clock, elephant.LAST_MOMENT + 1)
            self.assertRaises(elephant.Future, store.read, "/f", at=store.now + 1)
            self.assertRaises(elephant.ClockBack, store.clock, noon)
            self.assertRaises(elephant.ClockEnd, store.tick, elephant.LAST_MOMENT)
            self.assertRaises(ValueError, store.tick, -1)

    def test_the_clock_follows_the_system(self) -> None:
        with Store() as store:
            before = int(datetime.now(timezone.utc).timestamp())
            store.save("/f", b"one")
            after = int(datetime.now(timezone.utc).timestamp())
            self.assertTrue(before <= store.versions("/f")[1].closed <= after)
            ahead = store.clock(after + 1000)
            self.assertEqual(store.now, ahead)
            self.assertEqual(file_stat(store, "/f").closed, store.versions("/f")[1].closed)


class Names(unittest.TestCase):
    def test_names_have_any_characters(self) -> None:
        names = ["my file", "100%", "a@b#c", "Ümläut", "日本語", "tab\tline\nend", "...", "~!", "%41", "\udcff"]
        with manual() as store:
            for name in names:
                store.save(f"/{name}", name.encode("utf-8", "surrogateescape"))
            self.assertEqual({it.name for it in store.list("/")}, set(names))
            for name in names:
                self.assertEqual(store.read(f"/{name}"), name.encode("utf-8", "surrogateescape"))

    def test_names_that_no_folder_can_show_are_not_made(self) -> None:
        with manual() as store:
            store.mkdir("/d")
            store.create("/f")
            for path in ("/.", "/..", "/d/..", "/a\0b", b"/a%2Fb", b"/%00", b"/%2E", "/.elephant"):
                calls: list[Callable[[Union[str, bytes]], object]] = [
                    store.mkdir, store.create, lambda it: store.save(it, b"x"), lambda it: store.link("/f", it),
                    lambda it: store.rename("/f", it), lambda it: store.open(it, "x").close(),
                ]
                for call in calls:
                    self.assertRaises(elephant.BadName, call, path)
            self.assertEqual(store.line("mkdir /.elephant"), "bad 28 BadName\n")
            self.assertEqual([it.name for it in store.list()], ["d", "f"])

    def test_how_names_are_spelled(self) -> None:
        with manual() as store:
            store.create("/my file")
            store.create("/ä%")
            self.assertEqual([it.spelled for it in store.list()], [b"%C3%A4%25", b"my%20file"])
            self.assertEqual(store.line("list /"), "ok names 2\n- %C3%A4%25 file 2\n- my%20file file 1\n")
            # A name that isn't spelled so by this package is told as it stands, and read as bytes.
            store.line("create /%zz")
            store.line("create /%41")
            self.assertEqual([it.name for it in store.list()], ["%41", "ä%", "%zz", "my file"])
            self.assertEqual(store.read(b"/%41"), b"")
            self.assertRaises(NoEntry, store.read, "/%41")
            self.assertEqual(store.read(PurePosixPath("/my file")), b"")

    def test_names_that_are_none(self) -> None:
        with manual() as store:
            self.assertEqual(store.create("/" + "x" * 64), 1)
            self.assertEqual(store.create("/" + "ä" * 10), 2)
            paths: list[tuple[Union[str, bytes], str]] = [
                ("f", "BadPath"), ("", "BadPath"), ("//", "BadPath"), ("/d/", "BadPath"), ("/a" * 33, "BadPath"),
                ("/" + "x" * 65, "BadName"), ("/" + "ä" * 11, "BadName"), (b"/a b", "BadPath"), (b"/a@1", "BadName"),
            ]
            for path, kind in paths:
                with self.subTest(path), self.assertRaises(getattr(elephant, kind)):
                    store.create(path)
            self.assertEqual(len(store.list()), 2)
            self.assertRaises(elephant.BadName, store.group_make, "")

    def test_names_come_and_go(self) -> None:
        with manual() as store:
            self.assertEqual((store.create("/f"), store.mkdir("/d")), (1, 1))
            store.link("/f", "/g")
            store.rename("/g", "/d/g")
            store.unlink("/f")
            store.unlink("/d/g")
            self.assertEqual((store.undelete("/f"), store.undelete("/g")), (2, None))
            self.assertRaises(elephant.IntoItself, store.rename, "/d", "/d/e")
            self.assertEqual(store.mkdir("/x"), 2)
            store.rmdir("/x")
            self.assertEqual(store.restorable(), [DeletedName(0, "x", True, 2, b"x"), DeletedName(1, "g", False, 1, b"g")])
            self.assertRaises(elephant.Exists, store.link, "/f", "/g")
            self.assertRaises(elephant.IsRoot, store.rmdir, "/")
            self.assertRaises(elephant.NotRestorable, self._lost, store)

    @staticmethod
    def _lost(store: Store) -> None:
        store.set_default("/", KeepOne())
        store.create("/lost")
        session = store.session("/lost")
        store.unlink("/lost")
        store.pass_()
        store.undelete("/lost")
        session.close()

    def test_names_at_a_moment(self) -> None:
        with manual() as store:
            store.mkdir("/d")
            store.create("/d/f")
            store.clock(5)
            store.rename("/d", "/e")
            self.assertEqual(store.list(), [Entry("e", True, 1, b"e")])
            self.assertEqual(store.list("/", at=4), [Entry("d", True, 1, b"d")])
            self.assertRaises(FileNotFoundError, store.read, "/d/f")
            self.assertEqual((store.read("/d/f", at=4), store.revert("/e/f", 1)), (b"", 2))
            five = Moment(5)
            self.assertEqual(store.versions("/d/f", at=4), [Version(1, ZERO, ZERO, five, 0), Version(2, five, five, None, 0)])


class Policies(unittest.TestCase):
    def test_policies_are_given_and_told(self) -> None:
        ladder = "landmarks:86400/3600,604800/86400,2592000/604800"
        with manual() as store:
            for policy, word in (
                (KeepOne(), "one"), (KeepAll(), "all"), (KeepSafe(days=7, floor=3), "safe:604800/3"), (KeepSafe(seconds=1), "safe:1"),
                (KeepSafe(hours=1, minutes=2, seconds=timedelta(seconds=3)), "safe:3723"), (Landmarks.standard(), ladder),
                (Landmarks([(timedelta(minutes=1), 10), (3600, timedelta(minutes=10))]), "landmarks:60/10,3600/600"),
            ):
                with self.subTest(word):
                    store.set_default("/", policy)
                    self.assertEqual((policy.word, store.stat("/")), (word, DirectoryStat(0, policy)))
                    self.assertEqual(store.line("stat /"), f"ok directory 0 default {word}\n")
                    self.assertEqual(elephant.Policy.of(word), policy)
                    self.assertEqual(eval(repr(policy), vars(elephant)), policy)
            number = store.create("/f")
            store.set_policy("/f", KeepSafe(seconds=5))
            self.assertEqual(store.stat("/f"), FileStat(number, 1, ZERO, ZERO, None, 0, KeepSafe(seconds=5)))

    def test_policies_that_are_none(self) -> None:
        for make in (
            lambda: KeepSafe(), lambda: KeepSafe(seconds=-1), lambda: KeepSafe(days=1, floor=17), lambda: Landmarks([]),
            lambda: Landmarks([(1, 1)] * 9), lambda: Landmarks([(10, 10), (40, 15)]), lambda: Landmarks([(10, 10), (10, 20)]),
            lambda: Landmarks([(0, 1)]), lambda: KeepSafe(seconds=timedelta(milliseconds=1500)), lambda: elephant.Policy.of("safe:0"),
        ):
            self.assertRaises(elephant.BadLadder, make)
        for word in ("", "two", "safe", "safe:x", "safe:01", "landmarks", "landmarks:1", "landmarks:1/x", "safe:1/2/3"):
            self.assertRaises(elephant.Syntax, elephant.Policy.of, word)

    def test_why_versions_stay(self) -> None:
        with manual() as store:
            store.set_default("/", Landmarks([(10, 10), (40, 50)]))
            store.create("/f")
            for moment in (12, 18, 23):
                store.clock(moment)
                store.save("/f", b"x")
            store.clock(30)
            fates = [store.why("/f", version=number) for number in (1, 2, 3, 4)]
            self.assertEqual(fates, [Kept(Moment(52), 1), Due(Moment(28), by=3, level=1), Kept(Moment(63), 0), Current()])
            self.assertEqual(list(map(str, fates)), ["kept until 52 level 1", "due 28 by 3 level 1", "kept until 63 level 0", "current"])
            self.assertEqual((store.due(), store.ahead(52)), ([(28, 1, 2)], [(28, 1, 2), (52, 1, 1)]))
            self.assertRaises(elephant.NotAhead, store.ahead, 29)
            store.set_policy("/f", KeepSafe(seconds=10))
            self.assertEqual((store.why("/f", version=1), str(store.why("/f", version=1))), (Due(Moment(22), age=10), "due 22 by age 10"))
            store.set_policy("/f", KeepOne())
            self.assertEqual((store.why("/f", at=0), str(store.why("/f", at=0))), (Due(Moment(12)), "due 12 at once"))
            store.set_policy("/f", KeepAll())
            self.assertEqual(store.why("/f", version=1), Kept(None, None))
            self.assertEqual(store.pass_(5), Pass(0, True))

    def test_a_pass_removes_what_is_due(self) -> None:
        with manual() as store:
            store.set_default("/", KeepSafe(seconds=10, floor=2))
            for content in (b"a", b"b", b"c"):
                store.save("/f", content)
            store.clock(10)
            self.assertEqual(store.due(), [Removable(Moment(10), 1, 1), Removable(Moment(10), 1, 2)])
            self.assertEqual((store.pass_(1), store.pass_()), (Pass(1, False), Pass(1, True)))
            self.assertEqual([it.number for it in store.versions("/f")], [3, 4])
            self.assertEqual(store.usage()[2], Usage("safe", 1, 2, 2, 2))
            self.assertRaises(elephant.NoVersion, store.read, "/f", version=5)
            self.assertRaises(Forgotten, store.revert, "/f", 1)

    def test_what_the_limits_count(self) -> None:
        with manual(history=True) as store:
            store.mkdir("/d")
            store.create("/d/f")
            store.link("/d/f", "/l")
            with store.session("/l") as session:
                session.write(b"x")
            with store.session("/l"):
                # The empty first version, that of the session, and an open draft, which wasn't changed and makes none.
                self.assertEqual((store.counts().versions, store.counts().handles), (3, 2))
            store.group_make("g")
            store.group_add("g", "/l")
            store.clock(9)
            store.mark("g", 3)
            before = store.counts()
            made = dict(files=1, directories=1, names=3, versions=2, handles=2, groups=1, members=1, marks=1)
            self.assertEqual(before, Counts(events=before.events, **made))
            store.unlink("/l")
            store.trim()
            self.assertEqual(store.counts(), before._replace(events=before.events + 1))
        with manual() as store:
            store.clock(9)
            self.assertEqual(store.counts(), Counts(*[0] * 9))
            self.assertEqual(Counts._fields, Limits._fields)

    def test_groups_and_marks(self) -> None:
        with manual() as store:
            store.set_default("/", KeepOne())
            store.create("/f")
            store.clock(5)
            store.save("/f", b"a")
            store.clock(9)
            store.group_make("my release")
            store.group_add("my release", "/f")
            store.mark("my release", 3)
            store.mark("my release", datetime(1970, 1, 1, 0, 0, 7, tzinfo=timezone.utc), until=40)
            marks = Mark(Moment(3), None), Mark(Moment(7), Moment(40))
            self.assertEqual(store.groups(), [Group("my release", (1,), marks, b"my%20release")])
            self.assertEqual(store.why("/f", version=1), Marked("my release", Moment(3), None))
            self.assertEqual((store.pass_(), store.read("/f", at=3)), (Pass(0, True), b""))
            calls: list[Call] = [
                (store.group_make, ("my release",), "GroupExists"), (store.group_add, ("my release", "/f"), "AlreadyMember"),
                (store.mark, ("my release", 3), "MarkExists"), (store.mark, ("my release", 9), "NotPast"),
                (store.mark, ("my release", 1, 9), "NotAhead"), (store.unmark, ("my release", 4), "NoMark"),
                (store.mark, ("other", 3), "NoGroup"),
            ]
            for call, words, kind in calls:
                self.assertRaises(getattr(elephant, kind), call, *words)
            store.unmark("my release", 3)
            self.assertEqual(store.clean(), Removable(Moment(5), 1, 1))
            store.group_remove("my release", "/f")
            self.assertRaises(elephant.NotMember, store.group_remove, "my release", "/f")
            store.group_drop("my release")
            self.assertEqual(store.groups(), [])

    def test_the_mark_that_held_a_version(self) -> None:
        with manual() as store:
            store.set_default("/", KeepSafe(seconds=5))
            store.save("/f", b"one")
            store.clock(10)
            store.save("/f", b"two")
            store.group_make("my release")
            store.group_add("my release", "/f")
            store.mark("my release", 6, 99)
            held = Marked("my release", Moment(6), Moment(99))
            self.assertEqual(store.why("/f", version=2), held)
            store.clock(120)
            fate = store.why("/f", version=2)
            self.assertEqual((fate, str(fate)), (Due(Moment(99), age=5, held=held), "held my release 6/99 due 99 by age 5"))
            # No mark was made while version 1 was current.
            self.assertEqual(store.why("/f", version=1), Due(Moment(5), age=5))
            # Keep Safe holds version 2 as long as the mark.
            store.set_policy("/f", KeepSafe(seconds=89))
            self.assertEqual(store.why("/f", version=2), Due(Moment(99), age=89))


class Limited(unittest.TestCase):
    def test_what_is_full_is_told(self) -> None:
        ones = Limits(files=1, directories=1, names=9, versions=2, handles=0, groups=1, members=1, marks=1)
        with manual(limits=ones) as store:
            store.mkdir("/d")
            store.create("/f")
            store.clock(5)
            store.group_make("g")
            store.group_add("g", "/f")
            store.mark("g", 1)
            self.assertEqual(store.save("/f", b"a"), 2)
            calls: list[Call] = [
                (store.mkdir, ("/e",), "directories"), (store.create, ("/g",), "files"), (store.session, ("/f",), "handles"),
                (store.save, ("/f", b"b"), "versions"), (store.save, ("/g", b"b"), "files"),
                (store.group_make, ("h",), "groups"), (store.mark, ("g", 2), "marks"),
            ]
            for call, words, what in calls:
                with self.subTest(what), self.assertRaises(Full) as told:
                    call(*words)
                self.assertEqual((told.exception.what, told.exception.number), (what, 27))
                self.assertTrue(str(told.exception).startswith(f"27 Full {what}: "))
        self.assertRaises(elephant.BadLimits, Store, limits=Limits(files=100_001))

    def test_a_history_is_told_and_trimmed(self) -> None:
        with manual(history=True, limits=Limits(events=4)) as store:
            store.create("/f")
            store.clock(5)
            self.assertEqual(store.history(), elephant.History(0, ("create /f", "clock 5")))
            self.assertEqual((store.trim(), store.due(), store.history()), (2, [], elephant.History(2, ("due",))))
            store.read("/f")
            self.assertRaises(elephant.HistoryFull, store.read, "/f")
        with manual() as store:
            self.assertRaises(elephant.NoHistory, store.history)
            self.assertRaises(elephant.NoHistory, store.trim)

    def test_a_closed_store_is_refused(self) -> None:
        store = manual()
        store.close()
        store.close()
        self.assertTrue(store.is_closed)
        for call in (store.due, store.sync, lambda: store.save("/f", b""), lambda: store.line("due")):
            self.assertRaises(elephant.Closed, call)

    def test_errors_are_those_that_python_has(self) -> None:
        with manual() as store:
            store.create("/f")
            calls: list[tuple[type[Exception], Callable[[], object]]] = [
                (FileNotFoundError, lambda: store.read("/g")), (NotADirectoryError, lambda: store.read("/f/g")),
                (IsADirectoryError, lambda: store.read("/")), (FileExistsError, lambda: store.create("/f")),
                (ValueError, lambda: store.create("f")),
            ]
            for kind, call in calls:
                with self.assertRaises(kind) as told:
                    call()
                self.assertIsInstance(told.exception, elephant.ElephantError)
            with self.assertRaises(NoEntry) as lack:
                store.read("/g")
            self.assertEqual((str(lack.exception), lack.exception.errno), ("5 NoEntry: /g", 2))
            numbers = {it: kind.__name__ for it, kind in elephant._errors.BY_NUMBER.items() if it < 64}
            self.assertTrue(all(getattr(elephant, name) for name in numbers.values()))

    def test_a_library_that_is_nowhere(self) -> None:
        words = [sys.executable, "-c", "import elephant; elephant.Store()"]
        environment = {**os.environ, "PYTHONPATH": str(Path(elephant.__file__).parents[1]), "ELEPHANT_LIBRARY": "/nowhere/libelephant.so"}
        told = subprocess.run(words, env=environment, capture_output=True, text=True, check=False).stderr
        self.assertRegex(told.splitlines()[-1], "^elephant._errors.ElephantError: no libelephant.so: /nowhere/libelephant.so: ")

    def test_lines(self) -> None:
        with manual() as store:
            self.assertEqual(store.line("create /f"), "ok file 1\n")
            self.assertEqual(store.line("open write /f"), "ok handle 1\n")
            self.assertEqual((store.line("write 1 0 6869"), store.line("close 1")), ("ok done\n", "ok closed version 2\n"))
            self.assertEqual((store.line("read /g"), store.line("hello"), store.line("")), ("no 5 NoEntry\n", "bad 32 Syntax\n", ""))
            self.assertEqual(store.line("clock 9"), "ok now 9 1970-01-01T00:00:09Z\n")
            self.assertEqual((store.now, store.line("ä"), store.line("why /f")), (9, "bad 32 Syntax\n", "ok why current\n"))
            self.assertRaises(ValueError, store.line, "due\ndue")


class Threads(unittest.TestCase):
    def test_many_threads_call_one_store(self) -> None:
        threads, rounds = 8, 200
        faults: list[object] = []
        with manual() as store:
            def work(thread: int) -> None:
                try:
                    for at in range(rounds):
                        store.save(f"/{thread}", b"%d %d" % (thread, at))
                        if store.read(f"/{thread}") != b"%d %d" % (thread, at):
                            faults.append((thread, at))
                        with store.open("/shared", "ab") as file:
                            file.write(b"%d" % thread)
                except BaseException as fault:
                    faults.append(fault)

            store.create("/shared")
            workers = [threading.Thread(target=work, args=(thread,)) for thread in range(threads)]
            for worker in workers:
                worker.start()
            for worker in workers:
                worker.join()
            self.assertEqual(faults, [])
            self.assertEqual([file_stat(store, f"/{thread}").version for thread in range(threads)], [rounds + 1] * threads)
            self.assertEqual(file_stat(store, "/shared").version, threads * rounds + 1)


if __name__ == "__main__":
    unittest.main()
