"""The commit of a store in a file as one call of C: what it does, what it leaves to Python, and each way in which it fails.

tools/library/file_kills makes the calls of the system fail that it makes, and kills it within them.
"""

from __future__ import annotations

import ctypes
import errno
import os
import threading
import unittest
from collections.abc import Iterator
from contextlib import contextmanager
from ctypes import c_int32, c_size_t, c_uint64, c_void_p
from typing import Any
from unittest import mock

from elephant import FileStore, JournalError, JournalLost, NoMemory
from elephant._at_once import DONE, NOT_ORDINARY, NOTHING, SYNC, WRITE, AtOnce, at_once
from elephant._library import Library
from test_file_store import InFolder

PENDING, ANSWER = ctypes.CFUNCTYPE(c_int32, c_void_p, c_void_p), ctypes.CFUNCTYPE(c_int32, c_void_p, c_uint64, c_void_p, c_size_t, c_void_p)
WRITTEN = ctypes.CFUNCTYPE(c_int32, c_void_p)


class OneCall(InFolder):
    def call_of(self, store: FileStore) -> AtOnce:
        call = store._disk._at_once
        if call is None:
            self.skipTest("there is no libelephant_file.so beside the library")
        return call

    def ready(self, **options: Any) -> FileStore:
        """Returns a store whose file has space ahead, and a change that isn't committed."""
        store = self.open(**options)
        self.call_of(store)
        self.saved(store, b"one")
        store.save("/f", b"two")
        return store

    @contextmanager
    def other_file(self, store: FileStore, path: str) -> Iterator[None]:
        """Has another file in the place of the store's."""
        kept, other = os.dup(store._disk.file), os.open(path, os.O_RDWR)
        try:
            os.dup2(other, store._disk.file, inheritable=False)
            yield
        finally:
            os.dup2(kept, store._disk.file, inheritable=False)
            os.close(kept)
            os.close(other)

    @contextmanager
    def fails_with(self, store: FileStore, call: str, kind: Any, code: int) -> Iterator[None]:
        """Has a call of the library fail that the commit makes."""
        row = self.call_of(store).row
        had, fails = getattr(row, call), kind(lambda *_: code)
        setattr(row, call, ctypes.cast(fails, c_void_p).value)
        try:
            yield
        finally:
            setattr(row, call, had)

    def found(self) -> bytes:
        with self.open(read_only=True) as store:
            return store.read("/f")

    def test_it_is_one_call(self) -> None:
        store = self.ready(fsync="sync")
        row = self.call_of(store).row
        with mock.patch("elephant._disk.os") as calls, mock.patch.object(store._core, "text_of") as texts:
            store.commit()
            self.assertEqual((row.step, row.error), (DONE, 0))
            store.commit()
            self.assertEqual(row.step, NOTHING)
        self.assertEqual((calls.mock_calls, texts.mock_calls), ([], []))
        self.assertEqual((self.found(), store._disk.has_unsynced), (b"two", True))
        store.sync()
        self.assertFalse(store._disk.has_unsynced)

    def test_it_syncs(self) -> None:
        store = self.ready()
        with mock.patch("os.fdatasync") as syncs:
            store.commit()
        self.assertEqual((self.call_of(store).row.step, store._disk.has_unsynced, syncs.call_count), (DONE, False, 0))

    def test_long_changes_are_written_in_pieces(self) -> None:
        store = self.ready()
        row = self.call_of(store).row
        for length in (type(row).piece.size - 40, 40_000):
            content = os.urandom(length)
            store.save("/f", content)
            store.commit()
            self.assertEqual((row.step, self.found()), (DONE, content))

    def test_a_change_without_space_ahead_is_left_to_python(self) -> None:
        store = self.ready(tidy=False)
        row = self.call_of(store).row
        content = os.urandom(200_000)
        store.save("/f", content)
        store.commit()
        self.assertEqual((row.step, self.found()), (NOT_ORDINARY, content))
        store.save("/f", b"three")
        store.commit()
        self.assertEqual((row.step, self.found()), (DONE, b"three"))

    def test_another_file_at_the_path_gets_nothing(self) -> None:
        store = self.ready()
        aside = self.folder / "aside"
        self.path.rename(aside)
        self.assertRaisesRegex(JournalLost, "deleted or renamed", store.commit)
        self.path.write_bytes(b"another")
        self.assertRaisesRegex(JournalLost, "replaced or changed", store.commit)
        self.assertEqual(self.path.read_bytes(), b"another")
        aside.replace(self.path)
        size = self.path.stat().st_size
        os.truncate(self.path, size + 1)
        self.assertRaisesRegex(JournalLost, "replaced or changed", store.commit)
        os.truncate(self.path, size)
        store.commit()
        self.assertEqual(self.found(), b"two")

    def test_a_path_that_cant_be_looked_at(self) -> None:
        store = self.ready()
        self.call_of(store).row.path = b"/" + b"x" * 300
        with mock.patch.object(store._disk, "path", "/" + "x" * 300):
            self.assertRaisesRegex(JournalError, "can't be found", store.commit)
        self.call_of(store).row.path = os.fsencode(self.path)
        store.commit()
        self.assertEqual(self.found(), b"two")

    def test_a_write_that_fails(self) -> None:
        store = self.ready()
        length = store.info.length
        with self.other_file(store, "/dev/full"):
            with self.assertRaisesRegex(JournalError, "can't be written: .*No space") as caught:
                store.commit()
            self.assertEqual((self.call_of(store).row.step, self.call_of(store).row.error), (WRITE, errno.ENOSPC))
            assert isinstance(caught.exception.__cause__, OSError)
            self.assertEqual(caught.exception.__cause__.errno, errno.ENOSPC)
        # The file couldn't be cut, so the next commit does.
        self.assertEqual((store.info.length, store._disk.is_sound, store._disk.is_stuck), (length, False, False))
        store.commit()
        self.assertEqual((self.found(), store._disk.is_sound), (b"two", True))

    def test_a_sync_that_fails_is_for_good(self) -> None:
        store = self.ready()
        length = store.info.length
        with self.other_file(store, "/dev/null"):  # takes bytes, and can't be synced
            with self.assertRaisesRegex(JournalError, "can't be synced: .*Invalid") as caught:
                store.commit()
        self.assertEqual((self.call_of(store).row.step, self.call_of(store).row.error), (SYNC, errno.EINVAL))
        assert isinstance(caught.exception.__cause__, OSError)
        self.assertEqual((caught.exception.__cause__.errno, store.info.length, store._disk.is_stuck), (errno.EINVAL, length, True))
        for refused in (store.commit, store.sync, store.tidy):
            self.assertRaisesRegex(JournalError, "compact it, or open it again", refused)
        store.compact()
        self.assertEqual(self.found(), b"two")
        for content in (b"three", b"four"):  # the first one takes space ahead
            store.save("/f", content)
            store.commit()
        self.assertEqual((self.call_of(store).row.step, self.found()), (DONE, b"four"))

    def test_no_memory_for_the_change(self) -> None:
        store = self.ready()
        length = store.info.length
        for call, kind, step in (("pending", PENDING, NOTHING), ("answer", ANSWER, WRITE)):
            with self.fails_with(store, call, kind, NoMemory.number):
                self.assertRaises(NoMemory, store.commit)
                self.assertEqual((self.call_of(store).row.step, store.info.length, store._is_unsure), (step, length, False))
        store.commit()
        self.assertEqual(self.found(), b"two")

    def test_a_store_that_doesnt_hear_that_it_is_written_gets_a_new_file(self) -> None:
        store = self.ready()
        with self.fails_with(store, "written", WRITTEN, NoMemory.number):
            self.assertRaises(NoMemory, store.commit)
        self.assertTrue(store._is_unsure)
        store.commit()
        self.assertEqual((store.info.compactions, store._is_unsure, self.found()), (1, False, b"two"))

    def test_an_interruption_is_followed_by_a_new_file(self) -> None:
        real = AtOnce.append

        def after(*words: Any) -> int:
            real(*words)
            raise KeyboardInterrupt

        for append in (mock.Mock(side_effect=KeyboardInterrupt), after):
            store = self.ready()
            with mock.patch("elephant._at_once.AtOnce.append", append):
                self.assertRaises(KeyboardInterrupt, store.commit)
            store.commit()
            self.assertEqual((store.info.compactions, store.info.length, self.found()), (1, store.info.start, b"two"))
            store.close()

    def test_a_new_file_in_place_of_the_old_one(self) -> None:
        """The row follows compactions, renewals and rollbacks, whose cores and files are others."""
        store = self.ready()
        row = self.call_of(store).row
        for change in (store.compact, store.renew, store.rollback):
            change()
            for content in (b"a", b"b"):
                store.save("/f", content)
                store.commit()
            self.assertEqual((row.step, row.file, self.found()), (DONE, store._disk.file, b"b"), change)

    def test_other_threads_run_while_it_waits(self) -> None:
        """A call of the library that never returns while another thread can't run."""
        store, ran = self.ready(), threading.Event()
        real = PENDING(self.call_of(store).row.pending)

        def pending(handle: int, length: int) -> int:
            threading.Thread(target=ran.set).start()
            self.assertTrue(ran.wait(30))
            return int(real(handle, length))

        waits = PENDING(pending)
        self.call_of(store).row.pending = ctypes.cast(waits, c_void_p).value
        store.commit()
        self.assertEqual((ran.is_set(), self.found()), (True, b"two"))

    def test_many_threads_commit(self) -> None:
        store = self.ready(fsync="sync")

        def work(of: int) -> None:
            for number in range(50):
                store.save(f"/{of}", b"%d" % number)
                store.commit()

        threads = [threading.Thread(target=work, args=(of,)) for of in range(4)]
        for thread in threads:
            thread.start()
        for thread in threads:
            thread.join()
        store.close()
        with self.open(read_only=True) as store:
            self.assertEqual([store.read(f"/{of}") for of in range(4)], [b"49"] * 4)

    def test_a_child_commits_nothing(self) -> None:
        store = self.ready()
        before = self.path.read_bytes()
        child = os.fork()
        if not child:
            try:
                store.commit()
            except JournalError:
                os._exit(7)
            os._exit(1)
        self.assertEqual(os.waitstatus_to_exitcode(os.waitpid(child, 0)[1]), 7)
        self.assertEqual(self.path.read_bytes(), before)
        store.commit()
        self.assertEqual(self.found(), b"two")

    def test_without_the_call(self) -> None:
        """No library is beside that of the store, or it has other calls, or its row is of another size."""
        store = self.ready()
        library = self.call_of(store).library
        for beside in ("/nowhere/libelephant.so", os.path.join(os.path.dirname(os.__file__), "libelephant.so")):
            self.assertIsNone(self.beside(library, beside, store))
        call = self.call_of(store)
        call._words = call._words[0], c_size_t.from_param(8)
        store.commit()
        self.assertEqual((call.row.step, self.found()), (NOT_ORDINARY, b"two"))

    @staticmethod
    def beside(library: Library, place: str, store: FileStore) -> Any:
        other = mock.Mock(spec=Library)
        other._name = place
        core = mock.Mock(library=other)
        return at_once(core, True)


if __name__ == "__main__":
    unittest.main()
