"""A store as bytes: `checkpoint` and `from_checkpoint`. Expected bytes are worked out from the form in crates/ele_checkpoint/README.md."""

from __future__ import annotations

import gc
import random
import tempfile
import unittest
from collections.abc import Iterator
from pathlib import Path
from typing import Any, Optional
from unittest import mock

from clocks import DAY, START, FalseClocks
from elephant import (
    BadCheckpoint,
    ClockDoubt,
    Closed,
    ClosedSession,
    ElephantError,
    Full,
    HistoryFull,
    KeepOne,
    KeepSafe,
    Limits,
    Moment,
    NoHistory,
    Pass,
    Recovered,
    RemovalWaits,
    Store,
    Waiting,
)
from elephant._core import limits_in
from elephant._library import library
from elephant.keeping import KeepingStore
from stats import file_stat
from test_calls_fail import Faulty, contents
from test_journal import MEMORY, QUICK, fill, state

# The world of `small`, by hand.
HEAD = b"ELEPHANT\x01"
SMALL = HEAD + bytes.fromhex(
    "ac02"  # the moment 300: seven bits a byte, the lowest first
    "01 00 00"  # one directory: the root, which is 0, with the default KeepOne
    "01 01 00 03"  # one file: number 1, KeepOne, the next version is 3
    "01 00 01 66 00 01 00 00"  # one name: in directory 0, f, of file 1, born at 0, not dead
    "02 01 01 00 00 01 00 00 00"  # two versions: number 1 of file 1, opened and closed at 0, ended at 0, of no cells: none is kept
    "01 02 00 00 00 01 00 02 02 61 62 00"  # number 2: not ended, of one cell: none is kept, writer 2, ab, and none is kept
    "00 00 00"  # no drafts, handles, groups
    "01 00 01 02 00 00 00 00"  # made: files, directories, names, versions, handles, groups, members, marks
    "05 02 03 04 06 07 08 09 0a"  # limits: events, and the others in that order
)
LIMITS = Limits(events=5, files=2, directories=3, names=4, versions=6, handles=7, groups=8, members=9, marks=10)
PATHS = ("/a", "/b", "/d", "/d/a", "/d/b")


def crc32c(data: bytes) -> int:
    """Returns the remainder by the Castagnoli polynomial, bit by bit."""
    left = 0xFFFFFFFF
    for byte in data:
        left ^= byte
        for _ in range(8):
            left = (left >> 1) ^ (0x82F63B78 if left & 1 else 0)
    return left ^ 0xFFFFFFFF


def sealed(body: bytes, length: Optional[int] = None) -> bytes:
    """Returns a body with its length, or another one, and its sum."""
    measured = body + (len(body) + 12 if length is None else length).to_bytes(8, "big")
    return measured + crc32c(measured).to_bytes(4, "big")


def small() -> Store:
    store = Store(clock="manual", limits=LIMITS)
    store.set_default("/", KeepOne())
    store.save("/f", b"ab")
    store.clock(300)
    return store


def put_back(data: bytes, **options: Any) -> Store:
    given: dict[str, Any] = {"clock": "manual", **options}
    return Store.from_checkpoint(data, **given)


def everything(store: Store) -> list[object]:
    """Returns all that a store tells, now and at moments of its past."""
    past = [store.walk(at=moment) for moment in range(0, int(store.now) + 1, max(int(store.now) // 40, 1))]
    return [*state(store), list(store.dump()), store.counts()[1:], store.ahead(store.now + 10 * DAY), *past]


def lines(chance: random.Random) -> Iterator[str]:
    """Yields lines about a few paths. Each handle that they open is closed before the next one."""
    handle = 0
    while True:
        path, other, number = chance.choice(PATHS), chance.choice(PATHS), chance.randrange(9)
        word = chance.choice(("save", "save", "make", "link", "unlink", "rename", "undelete", "tick", "clean", "group", "policy", "open"))
        if word == "open":
            handle += 1
            yield from (f"create {path}", f"open write {path}", f"write {handle} {number * 200} {number:02x}", f"close {handle}")
        elif word == "group":
            yield from ("group make g", f"group add g {path}", f"mark g {number}", f"unmark g {other.count('a')}")
        elif word == "policy":
            yield chance.choice((f"policy {path} safe:{number}", f"default / landmarks:10/{number + 1}", "default /d one"))
        else:
            yield {
                "save": f"save {path} {number:02x}", "make": "mkdir /d", "link": f"link {path} {other}", "unlink": f"unlink {path}",
                "rename": f"rename {path} {other}", "undelete": f"undelete {path}", "tick": f"tick {number}", "clean": "clean",
            }[word]


def asked(store: Store, chance: random.Random, count: int) -> list[str]:
    """Returns the answers to so many random lines. A handle whose opening is refused may get the number of a later one."""
    script = lines(chance)
    return [store.line(next(script)) for _ in range(count)]


class Bytes(unittest.TestCase):
    def test_the_bytes_are_those_of_the_form(self) -> None:
        self.assertEqual(crc32c(b"123456789"), 0xE3069283)
        with small() as store:
            self.assertEqual(store.checkpoint(), sealed(SMALL))

    def test_bytes_that_were_made_by_hand_are_a_store(self) -> None:
        with put_back(sealed(SMALL)) as store:
            self.assertEqual((store.now, store.read("/f"), store.read("/f", version=1)), (300, b"ab", b""))
            self.assertEqual((store.pass_(), store.save("/f", b"c"), store.save("/g", b"d")), (Pass(1, True), 3, 2))
            with self.assertRaises(Full) as told:
                store.create("/h")
            self.assertEqual(told.exception.what, "files")

    def test_the_limits_are_those_of_the_bytes(self) -> None:
        self.assertEqual(limits_in(sealed(SMALL)), LIMITS)
        for limits in (Limits(), Limits(127, 128, 129, 1, 0, 16_383, 255, 16_384, 9_999)):
            with Store(clock="manual", limits=limits) as store:
                self.assertEqual(limits_in(store.checkpoint()), limits)
        with Store(clock="manual", limits=Limits(files=4)) as store:
            for name in "abc":
                store.save(f"/{name}", b"old")
            store.clock(10)
            for name in "abc":
                store.link(f"/{name}", f"/{name}{name}")
                store.unlink(f"/{name}")
            with put_back(store.checkpoint()) as again:
                before = again.checkpoint()
                # Each file has another name, so a restore makes a new one. There is a place for one, so none is made.
                self.assertRaises(Full, again.restore_tree, "/", 5)
                self.assertEqual(again.checkpoint(), before)

    def test_any_bytes_like_object_will_do_and_a_text_wont(self) -> None:
        for data in (bytearray(sealed(SMALL)), memoryview(sealed(SMALL))):
            with Store.from_checkpoint(data, clock="manual") as store:
                self.assertEqual(store.read("/f"), b"ab")
        self.assertRaises(TypeError, Store.from_checkpoint, "ELEPHANT")
        self.assertRaises(ValueError, Store.from_checkpoint, sealed(SMALL), clock="sometimes")

    def test_a_keeping_store_gives_a_plain_one(self) -> None:
        with KeepingStore.from_checkpoint(sealed(SMALL), clock="manual") as store:
            self.assertEqual((type(store), store.read("/f")), (Store, b"ab"))


class OutAndBack(unittest.TestCase):
    def test_after_each_change_the_store_that_is_put_back_is_the_same(self) -> None:
        with Store(clock="manual") as store:
            left_out = 0
            for _ in fill(store):
                data = store.checkpoint()
                core = store._core
                assert core is not None
                with put_back(data) as again:
                    if any(map(core.is_open, range(1, store.counts().handles + 1))):
                        left_out += 1
                        continue
                    self.assertEqual((everything(again), again.checkpoint()), (everything(store), data))
            # A reader is open at two of the places.
            self.assertEqual(left_out, 2)

    def test_a_store_of_megabytes_is_the_same(self) -> None:
        chance = random.Random(1)
        with Store(clock="manual") as store:
            for number in range(7):
                store.save(f"/{number}", chance.randbytes(1 << 19))
            data = store.checkpoint()
            self.assertGreater(len(data), 7 << 19)
            with put_back(data) as again:
                self.assertEqual((contents(again), again.checkpoint()), (contents(store), data))

    def test_both_go_on_alike(self) -> None:
        for seed in range(60):
            with self.subTest(seed), Store(clock="manual", history=bool(seed % 2)) as store:
                chance = random.Random(seed)
                asked(store, chance, 40 + seed)
                for handle in range(1, store.counts().handles + 1):
                    store.line(f"close {handle}")
                with put_back(store.checkpoint(), history=bool(seed % 3)) as again:
                    self.assertEqual(again.recovered, Recovered())
                    then = chance.getstate()
                    wanted = asked(store, chance, 60)
                    chance.setstate(then)
                    self.assertEqual(asked(again, chance, 60), wanted)
                    self.assertEqual((everything(again), again.checkpoint()), (everything(store), store.checkpoint()))

    def test_the_way_round_by_the_calls_of_c(self) -> None:
        """The bytes of a checkpoint are the same from every language."""
        with small() as store:
            core = store._core
            assert core is not None
            length, copied = core.look(core.library.elephant_checkpoint, ""), b""
            while len(copied) < length:
                count = core.look(core.library.elephant_answer, "", len(copied), core.name_room, 7)
                copied += core.name_room.raw[:count]
            self.assertEqual(copied, store.checkpoint())
            other = type(core)(LIMITS, False, copied)
            self.assertEqual(other.read("", b"/f", 0, 0), b"ab")

    def test_a_journal_and_the_bytes_of_its_store(self) -> None:
        with tempfile.TemporaryDirectory(dir=MEMORY) as folder:
            path = Path(folder, "journal")
            with Store(journal=path, **QUICK) as store:
                for _ in fill(store):
                    pass
                before = path.read_bytes()
                data, wanted = store.checkpoint(), everything(store)
                self.assertEqual(path.read_bytes(), before)
                with Store(journal=path, read_only=True) as looking:
                    self.assertEqual(looking.checkpoint(), data)
            with put_back(data) as again:
                self.assertEqual((everything(again), again.checkpoint()), (wanted, data))
                again.save("/new", b"new")
            self.assertEqual(path.read_bytes(), before)

    def test_a_history_begins_with_the_checkpoint(self) -> None:
        with small() as store, put_back(store.checkpoint(), history=True) as again:
            self.assertEqual((again.history().folded, again.history().lines), (1, ()))
            again.save("/f", b"c")
            again.clean()
            self.assertEqual(again.history().lines, ("save /f 63", "clean"))
            self.assertEqual([(it.path, it.number) for it in again.gone().removals], [("/f", 1)])
            self.assertEqual(again.checkpoint(), put_back(again.checkpoint()).checkpoint())
        with small() as store, put_back(store.checkpoint()) as again:
            self.assertRaises(NoHistory, again.history)

    def test_a_limit_of_no_events_allows_no_history(self) -> None:
        with Store(clock="manual", limits=Limits(events=0)) as store:
            store.save("/f", b"ab")
            data = store.checkpoint()
            self.assertRaises(HistoryFull, put_back, data, history=True)
            with put_back(data) as again:
                self.assertEqual(again.read("/f"), b"ab")

    def test_a_closed_store_has_no_checkpoint(self) -> None:
        store = small()
        store.close()
        self.assertRaises(Closed, store.checkpoint)


class OpenHandles(unittest.TestCase):
    def opened(self, **options: Any) -> Store:
        """A store with handles 1 to 5: two sessions of /s, one of /t that wrote nothing, one of a deleted file, and a reader."""
        store = Store(clock="manual", **options)
        store.set_default("/", KeepOne())
        for path in ("/s", "/t", "/u", "/r"):
            store.save(path, b"old")
        store.clock(10)
        sessions = [store.session(path) for path in ("/s", "/s", "/t", "/u")]
        sessions[0].write(b"new")
        sessions[1].write(b"er", 3)
        sessions[3].write(b"lost")
        store.unlink("/u")
        store.reader("/r")
        store.save("/r", b"newer")
        return store

    def test_what_was_open_is_closed(self) -> None:
        for history, before in ((False, False), (True, False), (False, True), (True, True)):
            with self.subTest(history=history, before=before), self.opened(history=before) as store:
                data = store.checkpoint()
                with put_back(data, history=history) as again:
                    closed = (ClosedSession("/s", None), ClosedSession("/s", 3), ClosedSession("/t", None), ClosedSession("", 3))
                    self.assertEqual(again.recovered, Recovered(0, closed))
                    self.assertEqual((again.read("/s"), again.read("/t"), again.read("/r")), (b"newer", b"old", b"newer"))
                    self.assertEqual((again.now, file_stat(again, "/s").opened), (10, 10))
                    self.assertEqual((again.save("/s", b"saved"), again.save("/t", b"saved")), (4, 3))
                    self.assertEqual(again.session("/s").number, 6)
                # The store that the bytes are of is as it was.
                self.assertEqual((store.checkpoint(), store.read("/s")), (data, b"old"))
                self.assertEqual(store.line("close 5"), "ok closed\n")

    def test_a_limit_of_no_events_hides_the_paths(self) -> None:
        with self.opened(limits=Limits(events=0)) as store, put_back(store.checkpoint()) as again:
            self.assertEqual(again.recovered.closed, (ClosedSession("", 3), ClosedSession("", 3)))
            self.assertEqual(again.read("/s"), b"newer")

    def test_a_session_that_cant_be_closed_leaves_no_store(self) -> None:
        with self.opened() as store:
            data = store.checkpoint()
        counted = Faulty(library())
        with mock.patch("elephant._core.library", return_value=counted):
            put_back(data).close()
        self.assertEqual(counted.names.count("open_checkpoint"), 2)
        self.assertEqual(counted.names.count("close_handle"), 5)
        for at, made in enumerate(counted.names):
            if made not in ("new", "delete"):
                faulty = Faulty(library(), at, 1)
                with self.subTest(f"{at} {made}"), mock.patch("elephant._core.library", return_value=faulty):
                    self.assertRaises(ElephantError, put_back, data)


class Clocks(unittest.TestCase):
    def test_a_manual_clock_stays_at_the_moment_of_the_bytes(self) -> None:
        with put_back(sealed(SMALL)) as store:
            self.assertEqual((store.now, store.clock_fault, store.may_remove), (300, "", True))
            self.assertEqual(store.read("/f", at="5 minutes ago"), b"ab")

    def test_the_time_of_day_moves_it_from_the_first_call_on(self) -> None:
        clock = FalseClocks()
        with put_back(sealed(SMALL), clock=clock) as store:
            self.assertEqual((store.now, store.clock_fault), (Moment(START), ""))
            clock.pass_by(5)
            store.save("/f", b"c")
            self.assertEqual(store.versions("/f")[-1].closed, START + 5)

    def test_a_moment_ahead_of_the_time_of_day_never_goes_back(self) -> None:
        with Store(clock="manual") as store:
            store.clock(START + 30 * DAY)
            store.set_default("/", KeepOne())
            store.save("/f", b"ab")
            data = store.checkpoint()
        with put_back(data, clock=FalseClocks(), guard=False) as again:
            self.assertEqual((again.now, again.save("/f", b"c")), (Moment(START + 30 * DAY), 3))
            self.assertIn("30 days before the store's time", again.clock_fault)
            self.assertRaises(ClockDoubt, again.pass_)
            again.trust_clock()
            # Nothing is due by the time of day.
            self.assertEqual((again.pass_().removed, len(again.versions("/f"))), (0, 3))

    def aged(self) -> bytes:
        """The bytes of a store at START with three due versions of /f, and one of a deleted file that is due in a week."""
        with Store(clock="manual") as store:
            store.clock(START - DAY)
            store.set_default("/", KeepSafe(seconds=60))
            for text in (b"one", b"two"):
                store.save("/f", text)
            store.save("/g", b"gone")
            store.set_policy("/g", KeepSafe(days=8))
            store.tick(1)
            store.save("/f", b"three")
            store.unlink("/g")
            store.clock(START)
            self.assertEqual(len(store.due()), 3)
            return store.checkpoint()

    def test_a_date_that_is_ahead_removes_nothing_for_a_day(self) -> None:
        wrong = FalseClocks(START + 60 * DAY)
        with put_back(self.aged(), clock=wrong) as store:
            self.assertEqual((store.pass_(), store.waiting.versions, store.clean()), (Pass(0, False), 5, None))
            self.assertRaises(RemovalWaits, store.line, "clean")
            for _ in range(47):
                wrong.pass_by(1800)
                self.assertEqual(store.pass_().removed, 0)
            wrong.pass_by(1800)
            self.assertEqual((store.pass_(), store.waiting), (Pass(5, True), Waiting(0, None)))

    def test_what_is_due_by_the_bytes_waits_for_ten_minutes(self) -> None:
        clock = FalseClocks()
        with put_back(self.aged(), clock=clock) as store:
            self.assertEqual((store.pass_(), store.waiting), (Pass(0, False), Waiting(3, Moment(START + 600))))
            clock.pass_by(600)
            self.assertEqual(store.pass_(), Pass(3, True))

    def test_a_deleted_file_is_announced_for_a_day(self) -> None:
        clock = FalseClocks()
        with put_back(self.aged(), clock=clock) as store:
            removed = []
            for _ in range(9 * 48):
                clock.pass_by(1800)
                due = [it.since for it in store.due() if it.file == 2]
                if store.pass_().removed and due:
                    removed.append(clock.day - due[0])
            # Version 1 when it was announced at once, and version 2, due a second later, half an hour later.
            self.assertEqual(removed, [DAY, DAY + 1799])

    def test_without_a_guard_what_is_due_goes_at_once(self) -> None:
        ways: tuple[dict[str, Any], ...] = ({"guard": False, "clock": FalseClocks()}, {"clock": "manual"})
        for options in ways:
            with self.subTest(options), put_back(self.aged(), **options) as store:
                self.assertEqual(store.pass_(), Pass(3, True))
        with put_back(self.aged(), clock=FalseClocks()) as store:
            self.assertEqual(store.pass_(confirm=True), Pass(3, True))


class WrongBytes(unittest.TestCase):
    def refuse(self, data: bytes) -> None:
        with self.assertRaises(BadCheckpoint) as told:
            put_back(data)
        self.assertEqual((told.exception.number, isinstance(told.exception, ValueError)), (72, True))

    def test_every_cut_and_every_flipped_bit_is_refused(self) -> None:
        data = sealed(SMALL)
        for end in range(len(data)):
            with self.subTest(end=end):
                self.refuse(data[:end])
        for bit in range(8 * len(data)):
            flipped = bytearray(data)
            flipped[bit // 8] ^= 1 << bit % 8
            with self.subTest(bit=bit):
                self.refuse(bytes(flipped))

    def test_other_bytes_are_refused(self) -> None:
        whole = sealed(SMALL)
        others = (
            b"", b"\0", b"a text\n", b"\0" * 1000, b"\xff" * 1000, HEAD, sealed(b""), sealed(HEAD), whole + b"\0", whole[1:], whole * 2,
            sealed(SMALL, len(SMALL)), sealed(SMALL, 1 << 63), sealed(SMALL, (1 << 64) - 1), sealed(b"ELEPHANT\x02" + SMALL[9:]),
            sealed(HEAD + b"\xff" * 9 + b"\x01" + SMALL[11:]), sealed(HEAD + b"\x00" + b"\xff" * 9 + b"\x01"), sealed(SMALL + b"\0"),
            b"886c3dd6 = # elephant journal 1\n",
        )
        for data in others:
            with self.subTest(data[:40]):
                self.refuse(data)

    def test_a_huge_count_with_a_right_sum_is_refused(self) -> None:
        for place in range(len(HEAD), len(SMALL)):
            with self.subTest(place):
                self.refuse(sealed(SMALL[:place] + b"\xff\xff\xff\xff\xff\xff\xff\xff\x7f" + SMALL[place + 1:]))

    def test_bytes_with_a_right_sum_are_refused_or_are_just_that_store(self) -> None:
        opened = 0
        for place in range(len(HEAD), len(SMALL)):
            for other in {0, 1, 2, 3, 9, 127, 128, 255, SMALL[place] ^ 1} - {SMALL[place]}:
                data = sealed(SMALL[:place] + bytes((other,)) + SMALL[place + 1:])
                with self.subTest(place=place, other=other):
                    try:
                        store = put_back(data)
                    except BadCheckpoint:
                        continue
                    opened += 1
                    with store:
                        self.assertEqual(store.checkpoint(), data)
                        everything(store)
                        store.pass_()
        self.assertGreater(opened, 50)

    def test_refused_bytes_leave_no_store(self) -> None:
        counted, deleted = Faulty(library()), mock.Mock(side_effect=library().elephant_delete)
        counting = mock.patch.object(counted, "elephant_delete", deleted, create=True)
        with mock.patch("elephant._core.library", return_value=counted), counting:
            for data in (b"", sealed(SMALL)[:-1], sealed(SMALL + b"\0")):
                self.refuse(data)
            gc.collect()
        self.assertEqual((counted.names.count("new"), deleted.call_count), (3, 3))


if __name__ == "__main__":
    unittest.main()
