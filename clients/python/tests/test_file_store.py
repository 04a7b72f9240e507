"""A store in a file that C and Rust open too: what is committed is there, and nothing else is. test_file_store_faults.py makes the calls of
the system fail, and tools/library/c_file goes between the languages."""

from __future__ import annotations

import os
import stat
import subprocess
import tempfile
import threading
import time
import unittest
from collections.abc import Callable
from pathlib import Path
from typing import Any
from unittest import mock

from clocks import DAY, START, FalseClocks
from elephant import (
    BadJournal,
    BadLimits,
    Closed,
    ClosedSession,
    FileStore,
    Full,
    HandlesOpen,
    JournalDamaged,
    JournalError,
    JournalLocked,
    JournalLost,
    KeepOne,
    KeepSafe,
    Limits,
    Moment,
    NoEntry,
    Pass,
    ReadOnly,
    Recovered,
    Store,
    Waiting,
)
from elephant._disk import BLOCK, LEAST_AHEAD, PAGE, filling, first_gap, written_end
from test_journal import MEMORY

HEAD = b"ELEPHANT JOURNAL\x02"


class InFolder(unittest.TestCase):
    is_alone = False
    """Whether Python makes each call of the system, as without `libelephant_file.so`."""

    def setUp(self) -> None:
        if self.is_alone:
            alone = mock.patch("elephant._disk.at_once", return_value=None)
            alone.start()
            self.addCleanup(alone.stop)
        folder = tempfile.TemporaryDirectory(dir=MEMORY)
        self.addCleanup(folder.cleanup)
        self.folder = Path(folder.name)
        self.path = self.folder / "store.journal"

    def open(self, **options: Any) -> FileStore:
        given: dict[str, Any] = {"clock": "manual", "guard": False, **options}
        store = FileStore(self.path, **given)
        self.addCleanup(store.close)
        return store

    def written(self) -> list[int]:
        """Makes a file of three changes, and returns where each begins, and the end."""
        store = self.open()
        ends = [store.info.length]
        for content in (b"one", b"two", b"three"):
            store.save("/f", content)
            store.commit()
            ends.append(store.info.length)
        store.close()
        return ends

    def saved(self, store: FileStore, content: bytes) -> None:
        """Makes a content the only one that a store holds of its file, and commits that."""
        store.set_default("/", KeepOne())
        store.save("/f", content)
        store.tick(1)
        store.pass_()
        store.commit()


class Commits(InFolder):
    def test_what_is_committed_is_there_again(self) -> None:
        with FileStore(self.path, clock="manual", guard=False) as store:
            self.assertEqual((store.info.is_new, stat.S_IMODE(self.path.stat().st_mode)), (True, 0o600))
            store.save("/f", b"one")
            store.commit()
            store.save("/f", b"two")
        store = self.open()
        self.assertEqual((store.read("/f"), store.info.is_new, store.recovered), (b"one", False, Recovered()))
        self.assertEqual(self.path.read_bytes()[:len(HEAD)], HEAD)

    def test_a_new_file_begins_as_a_new_journal(self) -> None:
        """Its policy is the one of a mounted folder."""
        with Store(self.folder / "journal", clock="manual") as journaled, self.open() as store:
            self.assertEqual(list(store.dump()), list(journaled.dump()))
            self.assertIn("default / landmarks:", "".join(store.dump()))

    def test_a_commit_of_nothing_writes_nothing(self) -> None:
        store = self.open()
        before = store.info
        self.assertRaises(NoEntry, store.unlink, "/no")
        store.list("/")
        store.commit()
        self.assertEqual((store.info, self.path.stat().st_size), (before, before.length))

    def test_the_space_ahead_is_there_while_it_is_open(self) -> None:
        store = self.open()
        store.save("/f", b"one")
        store.commit()
        length, data = store.info.length, self.path.read_bytes()
        self.assertEqual(data[length:], filling(length, len(data)))
        self.assertEqual((len(data) % PAGE, len(data) - length >= LEAST_AHEAD), (0, True))
        store.close()
        self.assertEqual(self.path.read_bytes(), data[:length])

    def test_an_empty_file_becomes_one(self) -> None:
        self.path.touch()
        self.path.chmod(0o640)
        store = self.open()
        self.saved(store, b"one")
        self.assertEqual((store.info.is_new, stat.S_IMODE(self.path.stat().st_mode)), (True, 0o640))

    def test_limits_that_are_too_large_leave_no_file(self) -> None:
        self.assertRaises(BadLimits, self.open, limits=Limits(files=100_001))
        self.assertEqual(list(self.folder.iterdir()), [])

    def test_one_has_the_file_and_others_look(self) -> None:
        store = self.open()
        store.save("/f", b"one")
        store.commit()
        self.assertRaises(JournalLocked, self.open)
        before = self.path.read_bytes()
        looking = self.open(read_only=True)
        self.assertEqual(looking.read("/f"), b"one")
        for refused in (looking.commit, looking.compact, looking.renew, looking.rollback, looking.tidy):
            self.assertRaises(ReadOnly, refused)
        self.assertRaises(ReadOnly, looking.save, "/f", b"two")
        looking.sync()
        looking.close()
        self.assertEqual(self.path.read_bytes(), before)
        store.close()
        self.open()
        for refused in (store.commit, store.compact, store.renew, store.rollback, store.sync, store.tidy):
            self.assertRaises(Closed, refused)

    def test_a_second_opener_waits(self) -> None:
        store = self.open()
        self.saved(store, b"one")
        store.compact()
        closing = threading.Timer(0.2, store.close)
        closing.start()
        began = time.monotonic()
        self.assertEqual(self.open(wait=60).read("/f"), b"one")
        self.assertGreater(time.monotonic() - began, 0.1)
        closing.join()

    def test_a_closed_file_is_free_at_once(self) -> None:
        """Another program that has the file too, as between a fork and what it runs, doesn't keep the lock."""
        store = self.open()
        self.saved(store, b"one")
        with subprocess.Popen(["sleep", "60"], pass_fds=[store._disk.file]) as other:
            try:
                store.close()
                self.assertEqual(self.open().read("/f"), b"one")
            finally:
                other.kill()

    def test_a_session_that_was_open_is_closed(self) -> None:
        store = self.open()
        store.create("/f")
        session = store.session("/f")
        session.write(b"one")
        store.commit()
        session.write(b" more", 3)
        store.close()
        looking = self.open(read_only=True)
        self.assertEqual((looking.recovered.closed, looking.read("/f"), looking.read("/f", version=1)), ((), b"", b""))
        looking.close()
        store = self.open()
        self.assertEqual((store.recovered, store.read("/f")), (Recovered(0, (ClosedSession("/f", 2),)), b"one"))

    def test_a_note_is_in_the_history_that_is_opened(self) -> None:
        store = self.open()
        store.note("ticket 7")
        self.assertEqual(store.line("note 77686f"), "ok done\n")
        store.commit()
        store.close()
        self.assertEqual(self.open(history=True).line("history"), "ok history 1 2\n- note 7469636b65742037\n- note 77686f\n")

    def test_a_file_that_was_taken_away_or_changed_takes_no_change(self) -> None:
        away = self.folder / "away"
        store = self.open()
        self.saved(store, b"one")
        size = self.path.stat().st_size

        def put_back() -> None:
            os.truncate(self.path, size)

        def replace() -> None:
            self.path.rename(away)
            self.path.write_bytes(away.read_bytes())

        ways: tuple[tuple[Callable[[], object], Callable[[], object]], ...] = (
            (lambda: self.path.rename(away), lambda: away.rename(self.path)), (replace, lambda: away.rename(self.path)),
            (lambda: os.truncate(self.path, size - 1), put_back), (lambda: os.truncate(self.path, size + 1), put_back),
        )
        for spoil, mend in ways:
            store.save("/f", b"two")
            spoil()
            self.assertRaises(JournalLost, store.commit)
            self.assertRaises(JournalLost, store.compact)
            self.assertEqual([it.name for it in self.folder.iterdir() if "new" in it.name], [])
            mend()
        os.truncate(self.path, store.info.length)
        self.assertEqual(self.open(read_only=True).read("/f"), b"one")

    def test_a_forked_child_has_no_file(self) -> None:
        store = self.open()
        store.save("/f", b"one")
        child = os.fork()
        if not child:
            refused = 0
            for call in (store.commit, lambda: store.read("/f"), lambda: store.save("/f", b"two"), store.compact, store.sync):
                try:
                    call()
                except JournalError:
                    refused += 1
            store.close()
            os._exit(refused)
        self.assertEqual(os.waitstatus_to_exitcode(os.waitpid(child, 0)[1]), 5)
        store.commit()
        self.assertRaises(JournalLocked, self.open)
        self.assertEqual(self.open(read_only=True).read("/f"), b"one")


class Rollbacks(InFolder):
    def test_a_rollback_goes_back_to_the_last_commit(self) -> None:
        store = self.open()
        store.save("/f", b"one")
        store.tick(5)
        store.commit()
        store.save("/f", b"two")
        store.tick(5)
        store.rollback()
        self.assertEqual((store.read("/f"), int(store.now), store.save("/f", b"three")), (b"one", 5, 3))
        store.commit()
        self.assertEqual((self.open(read_only=True).read("/f"), store.renewed), (b"three", 0))

    def test_it_waits_for_sessions_and_readers(self) -> None:
        store = self.open()
        store.save("/f", b"one")
        store.commit()
        with store.session("/f"):
            self.assertRaises(HandlesOpen, store.rollback)
        with store.reader("/f"):
            self.assertRaises(HandlesOpen, store.rollback)
        store.rollback()

    def test_a_session_that_was_open_at_the_commit_is_closed(self) -> None:
        store = self.open()
        store.create("/f")
        session = store.session("/f")
        session.write(b"one")
        store.commit()
        session.write(b"two")
        self.assertEqual(session.close(), 2)
        store.save("/f", b"three")
        store.rollback()
        self.assertEqual((store.read("/f"), len(store.versions("/f")), store.recovered), (b"one", 2, Recovered()))
        # The file object of a content that is no more writes the whole content.
        with store.open("/f", "r+b") as file:
            file.write(b"on")
        self.assertEqual((file.version, store.read("/f")), (3, b"one"))

    def test_a_file_that_has_lost_its_changes_is_found(self) -> None:
        store = self.open()
        start = store.info.length
        self.saved(store, b"one")
        store.save("/f", b"two")
        with open(self.path, "r+b") as file:
            file.seek(start + 30)
            file.write(b"\xff")
        with self.assertRaises(JournalDamaged) as caught:
            store.rollback()
        self.assertEqual((caught.exception.offset, store.read("/f")), (start, b"two"))


class Tidying(InFolder):
    def test_a_new_file_and_fresh_numbers_keep_the_store(self) -> None:
        store = self.open()
        store.set_default("/", KeepOne())
        store.mkdir("/no")
        store.rmdir("/no")
        store.save("/f", b"one")
        store.compact()
        self.assertEqual((store.info.compactions, store.renewed, store.info.start), (1, 0, store.info.length))
        store.tick(1)
        store.pass_()
        store.renew()
        self.assertEqual((store.info.compactions, store.renewed, store.counts().versions), (1, 1, 1))
        store.save("/f", b"two")
        store.commit()
        store.close()
        self.assertEqual(self.open().read("/f"), b"two")

    def test_a_compaction_keeps_mode_and_owner_and_a_link(self) -> None:
        link = self.folder / "link"
        link.symlink_to(self.path.name)
        self.open().close()
        self.path.chmod(0o640)
        if not os.geteuid():
            os.chown(self.path, 1234, 4321)
        before = self.path.stat()
        Path(f"{self.path}.elephant-new").write_bytes(b"left by a kill")
        with FileStore(link, clock="manual", guard=False) as store:
            self.saved(store, b"one")
            store.compact()
        after = self.path.stat()
        self.assertEqual((after.st_mode, after.st_uid, after.st_gid), (before.st_mode, before.st_uid, before.st_gid))
        self.assertNotEqual(after.st_ino, before.st_ino)
        self.assertEqual(sorted(it.name for it in self.folder.iterdir()), ["link", "store.journal"])
        self.assertTrue(link.is_symlink())

    def test_an_opening_removes_what_a_kill_left(self) -> None:
        self.open().close()
        left = Path(f"{self.path}.elephant-new")
        left.write_bytes(b"left by a kill")
        self.open(read_only=True).close()
        self.assertTrue(left.exists())
        self.open()
        self.assertFalse(left.exists())

    def test_it_grows_only_to_twice_what_it_holds(self) -> None:
        store = self.open()
        with self.assertLogs("elephant", "INFO") as log:
            for number in range(12):
                self.saved(store, bytes([number]) * 500_000)
        self.assertGreater(store.info.compactions, 1)
        self.assertEqual(len(log.output), store.info.compactions)
        self.assertIn(f"INFO:elephant:{self.path} is compacted: ", log.output[0])
        # Before the commit that compacts it, it has at most 1 MiB, or twice what it was made with: one content, and what is beside it.
        self.assertLess(store.info.length, 2_000_000)
        self.assertIsNone(store.info.tidied)
        store.close()
        self.assertEqual(self.open().read("/f"), bytes([11]) * 500_000)

    def test_a_store_near_its_limits_gets_fresh_numbers(self) -> None:
        store = self.open(limits=Limits(versions=20))
        with self.assertLogs("elephant", "INFO") as log:
            for number in range(60):
                self.saved(store, b"%d" % number)
                self.assertLess(store.counts().versions, 18)
        # A new file takes two versions and each save one: the 17th save makes 18. Of the one that is held each 17 more do.
        self.assertEqual((store.renewed, len(log.output)), (3, 3))
        self.assertIn(f"INFO:elephant:{self.path} has fresh numbers, since a count was near its limit: ", log.output[0])
        store.close()
        store = self.open()
        self.assertEqual((store.read("/f"), store.renewed), (b"59", 0))

    def test_the_limits_are_those_of_the_file(self) -> None:
        store = self.open(limits=Limits(versions=20), tidy=False)
        for number in range(17):
            self.saved(store, b"%d" % number)
        self.assertEqual((store.counts().versions, store.renewed), (18, 0))
        store.close()
        store = self.open()
        self.assertEqual((store.counts().versions, store.renewed, store.read("/f")), (1, 1, b"16"))

    def test_a_renewal_that_a_handle_stops_is_tried_again_before_the_store_is_full(self) -> None:
        store = self.open(limits=Limits(versions=100))
        self.saved(store, b"f")
        reader = store.reader("/f")
        tried = []
        with mock.patch.object(store, "_with_fresh_numbers", wraps=store._with_fresh_numbers) as fresh:
            while store.counts().versions < 99:
                before = fresh.call_count
                self.saved(store, b"f")
                tried += [store.counts().versions] * (fresh.call_count - before)
        # When 90 are made, after one commit and two; then when half of the 10, the 5 and the 2 is made that may still be made.
        self.assertEqual((tried, store.renewed, type(store.info.tidied)), ([90, 91, 93, 95, 98, 99], 0, HandlesOpen))
        self.assertRaises(HandlesOpen, store.renew)
        reader.close()
        self.saved(store, b"f")
        self.assertEqual((store.counts().versions, store.renewed, store.info.tidied), (1, 1, None))

    def test_a_store_that_is_full_is_rarely_tried(self) -> None:
        store = self.open(limits=Limits(versions=20))
        store.set_default("/", KeepOne())
        for number in range(10):
            store.save(f"/{number}", b"x")
        store.pass_()
        tried = []
        with mock.patch.object(store, "_with_fresh_numbers", wraps=store._with_fresh_numbers) as fresh:
            for _ in range(200):
                store.tick(1)
                store.commit()
                tried.append(fresh.call_count)
        # At the first commit, and after 1, 2, 4 and so on more: half of the limit is held.
        self.assertEqual([at + 1 for at, count in enumerate(tried) if count > [0, *tried][at]], [1, 2, 4, 8, 16, 32, 64, 128])
        self.assertEqual((store.renewed, store.info.tidied), (0, None))
        self.assertRaises(Full, store.save, "/more", b"x")
        for number in range(1, 10):
            store.unlink(f"/{number}")
        store.pass_()
        store.commit()
        self.assertEqual(store.renewed, 0)
        # Another opening tries it at once.
        store.close()
        store = self.open()
        self.assertEqual((store.renewed, store.counts().versions), (1, 1))

    def test_without_it_only_a_call_does(self) -> None:
        store = self.open(limits=Limits(versions=20), tidy=False)
        for number in range(17):
            self.saved(store, b"%d" % number * 50_000)
        self.assertEqual((store.info.compactions, store.renewed), (0, 0))
        with store.session("/f"):
            self.assertRaises(HandlesOpen, store.tidy)
        # The file was long, so it was compacted all the same.
        self.assertEqual((store.info.compactions, store.renewed), (1, 0))
        store.close()
        store = self.open(tidy=False)
        self.assertEqual(store.renewed, 0)
        store.tidy()
        self.assertEqual((store.renewed, store.info.tidied, store.read("/f")), (1, None, b"16" * 50_000))


class Guarded(InFolder):
    def test_the_last_version_of_a_deleted_file_waits_for_a_day(self) -> None:
        clocks = FalseClocks()
        store = self.open(clock=clocks, guard=True)
        store.set_default("/", KeepSafe(seconds=60))
        store.save("/f", b"one")
        clocks.pass_by(10)
        store.unlink("/f")
        store.commit()
        store.close()
        clocks.pass_by(120)
        store = self.open(clock=clocks, guard=True)
        self.assertEqual(store.pass_(), Pass(0, False))
        self.assertEqual(store.waiting, Waiting(2, Moment(START + 130 + DAY)))
        clocks.pass_by(700)
        self.assertEqual((store.pass_(), store.waiting.versions), (Pass(0, False), 2))
        for _ in range(48):
            clocks.pass_by(1800)
            store.pass_()
        self.assertEqual((store.waiting, store.usage()[2].versions), (Waiting(0, None), 0))


class Damage(InFolder):
    def test_a_cut_file_has_the_whole_changes(self) -> None:
        ends, data = self.written(), self.path.read_bytes()
        for length in range(1, len(data)):
            self.path.write_bytes(data[:length])
            if length < ends[0]:
                self.assertRaises(BadJournal, self.open)
                self.assertEqual(self.path.read_bytes(), data[:length])
                continue
            store, last = self.open(), max(end for end in ends if end <= length)
            cut = store.recovered.cut
            # Zeros can't be told from space that a power failure kept from being filled.
            self.assertEqual((store.info.length, cut > 0, cut <= length - last), (last, any(data[last:length]), True), length)
            self.assertEqual(self.path.stat().st_size, last)
            store.close()

    def test_a_damaged_change_is_found_and_set_aside(self) -> None:
        ends, data = self.written(), bytearray(self.path.read_bytes())
        data[ends[1] + 20] ^= 1
        self.path.write_bytes(data)
        for looks in (False, True):
            with self.assertRaises(JournalDamaged) as caught:
                self.open(read_only=looks)
            self.assertEqual((caught.exception.offset, self.path.read_bytes()), (ends[1], data))
        looking = self.open(repair=True, read_only=True)
        self.assertEqual((looking.read("/f"), self.path.read_bytes(), looking.recovered.copy), (b"one", data, ""))
        Path(f"{self.path}.damaged-1").write_bytes(b"of another day")
        store = self.open(repair=True)
        self.assertEqual((store.read("/f"), store.recovered.copy), (b"one", f"{self.path}.damaged-2"))
        self.assertEqual(Path(store.recovered.copy).read_bytes(), data[ends[1]:])

    def test_each_changed_byte_of_a_change_is_damage(self) -> None:
        ends, data = self.written(), bytearray(self.path.read_bytes())
        for place in range(ends[1], ends[3]):
            # There is one way to turn a byte into what was there before it was written.
            bit = 2 if data[place] ^ 1 == filling(place, place + 1)[0] else 1
            data[place] ^= bit
            self.path.write_bytes(data)
            with self.assertRaises(JournalDamaged) as caught:
                self.open()
            self.assertEqual((caught.exception.offset, self.path.read_bytes()), (ends[1 if place < ends[2] else 2], data), place)
            data[place] ^= bit

    def test_other_files_are_no_store(self) -> None:
        self.path.write_bytes(b"twenty bytes of text")
        self.assertRaises(BadJournal, self.open)
        self.path.unlink()
        Store(self.path, clock="manual").close()
        self.assertRaises(BadJournal, self.open)
        self.path.unlink()
        self.open().close()
        self.assertRaises(JournalDamaged, Store, self.path, clock="manual")
        self.assertRaises(JournalError, FileStore, self.folder / "no" / "store.journal")
        self.assertRaises(JournalError, FileStore, self.folder / "none", read_only=True)
        self.assertRaises(JournalError, FileStore, "a\0b")
        self.assertRaises(JournalError, FileStore, self.folder)
        self.assertRaises(BadJournal, FileStore, self.folder, read_only=True)
        os.mkfifo(self.folder / "pipe")
        self.assertRaises(BadJournal, FileStore, self.folder / "pipe")

    def test_each_torn_change_in_the_space_ahead_is_cut_off(self) -> None:
        ends, data = self.written(), self.path.read_bytes()
        whole, end = ends[2], ends[3] + 3 * BLOCK
        for written in range(1, ends[3] - whole):
            torn = data[:whole + written] + filling(whole + written, end)
            if data[whole + written - 1] == filling(whole + written - 1, whole + written)[0]:
                continue  # the last byte that was written is the one that was there
            self.assertEqual((first_gap(torn, whole, end), written_end(torn, whole, end)), (whole + written, whole + written))
            self.path.write_bytes(torn)
            store = self.open()
            self.assertEqual((store.read("/f"), store.recovered.cut, self.path.stat().st_size), (b"two", written, whole))
            store.close()

    def test_text_in_a_damaged_change_is_no_hole(self) -> None:
        """A content may have the bytes with which a block of the filling ends, as text with its spaces does."""
        store = self.open()
        whole = store.info.length
        store.save("/f", b" " * (4 * BLOCK))
        store.commit()
        self.saved(store, b"more")
        store.close()
        data = bytearray(self.path.read_bytes())
        for place in range(whole, whole + 4 * BLOCK, 101):
            data[place] ^= 1
            for more in (b"", filling(len(data), len(data) // BLOCK * BLOCK + 4 * BLOCK)):
                self.path.write_bytes(data + more)
                with self.assertRaises(JournalDamaged) as caught:
                    self.open()
                self.assertEqual(caught.exception.offset, whole)
            data[place] ^= 1

    def test_unfilled_space_is_no_damage_and_zeros_in_place_of_a_change_are(self) -> None:
        ends, data = self.written(), self.path.read_bytes()
        end = (ends[3] // BLOCK + 2) * BLOCK
        self.path.write_bytes(data + filling(ends[3], end) + bytes(2 * BLOCK))
        store = self.open()
        self.assertEqual((store.read("/f"), store.recovered), (b"three", Recovered()))
        store.close()
        self.path.write_bytes(data[:ends[2]] + bytes(ends[3] - ends[2]))
        with self.assertRaises(JournalDamaged) as caught:
            self.open()
        self.assertEqual(caught.exception.offset, ends[2])


class CommitsAlone(Commits):
    is_alone = True


class RollbacksAlone(Rollbacks):
    is_alone = True


class TidyingAlone(Tidying):
    is_alone = True


class DamageAlone(Damage):
    is_alone = True


if __name__ == "__main__":
    unittest.main()
