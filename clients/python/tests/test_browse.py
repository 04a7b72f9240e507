"""The page of `elephant-browse` over a journal: what it shows, and what each of its acts changes. Expected contents and versions are worked
out by hand; what an act has done is read from the store."""

from __future__ import annotations

import errno
import importlib.util
import json
import re
import tempfile
import time
import unittest
from pathlib import Path
from typing import Optional
from unittest import mock
from urllib.parse import urlencode

from elephant import FileStat, JournalError, KeepAll, KeepOne, KeepSafe, Landmarks, Policy, Store

HAS_FLASK = importlib.util.find_spec("flask") is not None and importlib.util.find_spec("waitress") is not None
if HAS_FLASK:
    from browsing import Answer, Elements, Served
    from elephant.browse import contents
    from elephant.browse.sources import ChangeRefused, JournalSource

NOW = 1_796_000_000
DAY = 86_400


def fill(store: Store) -> None:
    """Makes a letter with three saves, a deleted plan, and a folder whose files were changed and deleted."""
    store.clock(NOW)
    store.set_default("/", KeepSafe(days=7, floor=2))
    store.save("/letter", b"Dear Ms Weber,\n\nthe offer is enclosed.\n")
    store.save("/plan", b"plan\n")
    for name in ("bill", "offer"):
        store.save(f"/work/2026/{name}", f"{name} 1\n".encode(), parents=True)
    store.clock(NOW + 100)
    store.save("/letter", b"Dear Ms Weber,\n\nthe offer is enclosed.\nIt is valid until May.\n")
    store.clock(NOW + 200)
    store.save("/letter", b"oops\n")
    store.unlink("/plan")
    store.save("/work/2026/bill", b"bill 2\n")
    store.unlink("/work/2026/offer")
    store.clock(NOW + 300)


@unittest.skipUnless(HAS_FLASK, "there is no flask or waitress")
class Case(unittest.TestCase):
    history = False

    def setUp(self) -> None:
        room = tempfile.TemporaryDirectory()
        self.addCleanup(room.cleanup)
        self.journal = str(Path(room.name, "my.journal"))
        with Store(self.journal, clock="manual", fsync="sync") as store:
            self.fill(store)
        self.page = Served(JournalSource(self.journal, is_manual=True, history=self.history))
        self.addCleanup(self.page.__exit__, None, None, None)
        self.store = self.page.source.store
        self.page.come_in()

    def fill(self, store: Store) -> None:
        fill(store)

    def text(self, address: str, status: int = 200) -> str:
        """Returns the words of a page, with one space between two of them."""
        answer = self.page.ask(address)
        self.assertEqual(answer.status, status, address)
        return " ".join(Elements(answer.text).text.split())

    def links(self, address: str) -> list[str]:
        return [str(it["href"]) for it in Elements(self.page.ask(address).text).of("a") if it.get("href")]

    def follow(self, answer: Answer) -> str:
        """Follows the redirection after an act, and returns the words of the page."""
        self.assertEqual(answer.status, 303, answer.text)
        return self.text(answer.headers["location"])

    def do(self, kind: str, **words: object) -> str:
        """Asks a question, says yes, and returns the words of the page that follows."""
        return self.follow(self.page.act(kind, {name: str(it) for name, it in words.items()}))


class Views(Case):
    def test_the_tree_is_that_of_the_moment(self) -> None:
        now, then = self.text("/"), self.text(f"/?path=/work/2026&at={NOW + 50}")
        self.assertNotIn("plan", now)
        for word in ("plan", "letter", "work/", "bill", "offer"):
            self.assertIn(word, then)
        self.assertNotIn("offer", self.text("/?path=/work/2026"))
        self.assertIn("7 bytes", then)
        self.assertIn("Nothing had this name", self.text(f"/?path=/letter&at={NOW - 50}", 404))

    def test_deleted_names_are_shown_on_request(self) -> None:
        self.assertNotIn("Bring back", self.text("/"))
        self.assertIn("Bring back plan", self.text("/?deleted=1"))
        self.assertIn("plan deleted", self.text("/?path=/letter&deleted=1"))
        self.assertNotIn("plan deleted", self.text(f"/?path=/letter&deleted=1&at={NOW + 150}"))
        self.assertIn(f"/?path=/plan&at={NOW + 199}&deleted=1", self.links("/?deleted=1"))
        self.assertIn("plan", self.text(f"/?path=/plan&at={NOW + 199}"))

    def test_a_file_shows_its_versions_contents_and_difference(self) -> None:
        text = self.text("/?path=/letter")
        self.assertIn("4 versions held", text)
        self.assertIn("oops", text)
        self.assertIn("It is valid until May.", self.text("/?path=/letter&version=3"))
        page = Elements(self.page.ask("/?path=/letter&version=3&with=2").text)
        self.assertEqual(page.text.count("It is valid until May."), 2)  # in the difference and in the content
        self.assertEqual((len(page.of("ins")), len(page.of("del"))), (1, 0))
        self.assertEqual(len(page.of("svg")), 4)
        self.assertIn("They hold the same", self.text("/?path=/letter&version=3&with=3"))

    def test_the_slider_has_the_moments_of_changes(self) -> None:
        slider = next(it for it in Elements(self.page.ask("/").text).of("input") if it.get("id") == "moments")
        self.assertEqual((slider["min"], slider["max"], slider["value"]), ("0", "3", "3"))
        found = [json.loads(self.page.ask(f"/moment?index={index}").text)["moment"] for index in range(4)]
        self.assertEqual(found, [NOW, NOW + 100, NOW + 200, None])
        links = self.links(f"/?path=/letter&at={NOW + 150}")
        self.assertIn(f"/?path=/letter&at={NOW + 100}", links)
        self.assertIn(f"/?path=/letter&at={NOW + 200}", links)
        # The tree of now is that of the last change, so the change before it is another one.
        self.assertIn(f"/?path=/letter&at={NOW + 100}", self.links("/?path=/letter"))

    def test_a_moment_may_be_typed(self) -> None:
        answer = self.page.ask("/go?path=/letter&when=100+seconds+ago")
        self.assertEqual((answer.status, answer.headers["location"]), (303, f"/?path=%2Fletter&at={NOW + 200}"))
        answer = self.page.ask("/go?path=/letter&when=01/02/2026")
        self.assertIn("write the year, the month and the day", self.text(answer.headers["location"]))

    def test_what_will_be_forgotten_and_why(self) -> None:
        self.assertIn("Nothing will be forgotten", self.text("/soon?within=hour"))
        week = self.text("/soon?within=month")
        self.assertIn("7 days after its end", week)
        # Versions 1 and 2 of the letter go; the floor keeps its newest two. So does version 1 of the bill. The deleted ones go whole.
        rows = re.findall(r"<th scope=\"row\">.*?>([^<]*)</a>", self.page.ask("/soon?within=month").text)
        deleted = ["deleted /plan", "deleted /work/2026/offer"]
        self.assertEqual(sorted(rows), sorted(["/letter"] * 2 + ["/work/2026/bill"] + deleted * 2))

    def test_limits_and_usage(self) -> None:
        text = self.text("/space")
        self.assertIn("safe 4 11 133 bytes", text)
        # An empty version for each of four files, and seven saves.
        self.assertIn("files 4 99,996", text)
        self.assertIn("versions 11 999,989", text)

    def test_without_a_history_nothing_is_said_of_the_forgotten(self) -> None:
        self.assertIn("--history", self.text("/gone"))


class ForgottenOnes(Case):
    history = True

    def fill(self, store: Store) -> None:
        fill(store)
        store.set_policy("/letter", KeepOne())
        store.pass_()

    def test_what_was_forgotten_and_by_which_rule(self) -> None:
        text = self.text("/gone")
        self.assertIn("3 versions", text)
        self.assertEqual(text.count("/letter its policy keeps only the newest"), 3)
        self.assertIn("was forgotten", self.text(f"/?path=/letter&at={NOW + 50}"))


class Acting(Case):
    def test_a_lost_paragraph_comes_back_and_the_undo_takes_that_back(self) -> None:
        asked = self.text("/ask/restore?path=/letter&version=3")
        self.assertIn("new version 5", asked)
        self.assertIn("stays as version 4", asked)
        self.assertEqual(self.store.read("/letter"), b"oops\n")
        self.assertIn("It is version 5 now", self.do("restore", path="/letter", version=3))
        self.assertIn(b"It is valid until May.", self.store.read("/letter"))
        self.assertIn("Undone", self.do("undo"))
        self.assertEqual((self.store.read("/letter"), self.store.stat("/letter").version), (b"oops\n", 6))  # type: ignore[union-attr]
        self.assertEqual(self.page.ask("/ask/undo").status, 409)

    def test_a_deleted_name_comes_back(self) -> None:
        self.do("undelete", path="/plan")
        self.assertEqual(self.store.read("/plan"), b"plan\n")
        self.do("undo")
        self.assertNotIn("plan", [it.name for it in self.store.list("/")])
        self.assertIn("plan", [it.name for it in self.store.restorable()])

    def test_a_version_of_a_deleted_file_comes_back(self) -> None:
        self.do("restore", path="/plan", version=2, at=NOW + 150)
        self.assertEqual((self.store.read("/plan"), len(self.store.versions("/plan"))), (b"plan\n", 3))
        self.do("undo")
        self.assertNotIn("plan", [it.name for it in self.store.list("/")])

    def test_a_folder_is_restored_as_of_a_moment(self) -> None:
        asked = self.text(f"/ask/folder?path=/work&at={NOW + 50}")
        self.assertIn("/work/2026/bill gets what it held then", asked)
        self.assertIn("bring /work/2026/offer back", asked)
        self.do("folder", path="/work", at=NOW + 50)
        self.assertEqual([self.store.read(f"/work/2026/{name}") for name in ("bill", "offer")], [b"bill 1\n", b"offer 1\n"])
        self.assertEqual(self.page.ask(f"/ask/folder?path=/work&at={NOW + 50}").status, 409)
        self.do("undo")
        self.assertEqual(self.store.read("/work/2026/bill"), b"bill 2\n")
        self.assertEqual([it.name for it in self.store.list("/work/2026")], ["bill"])

    def test_a_moment_is_kept_for_some_days_and_released(self) -> None:
        self.store.set_policy("/letter", KeepOne())
        self.assertIn("may be removed", self.text("/?path=/letter"))
        self.assertIn("2 files of then have no name now", self.text(f"/ask/keep?path=/&at={NOW + 150}"))
        form = self.page.form_of(f"/ask/keep?path=/&at={NOW + 150}")
        self.assertEqual({"label", "days"} - form.keys(), set())
        self.follow(self.page.send("/do/keep", {**form, "label": "before the <mistake>", "days": "3"}))
        group = self.store.groups()[0]
        self.assertEqual((group.name, len(group.members)), ("before the <mistake>", 2))
        self.assertEqual(group.marks, ((NOW + 150, NOW + 300 + 3 * DAY),))
        self.store.pass_(confirm=True)
        self.assertIn(b"valid until May", self.store.read("/letter", at=NOW + 150))
        self.assertIn("before the <mistake>", self.text("/kept"))
        self.do("release", group=group.spelled.decode(), at=NOW + 150)
        self.assertEqual(self.store.groups()[0].marks, ())
        self.do("undo")
        self.assertEqual(self.store.groups()[0].marks, group.marks)
        self.do("undo")
        self.assertEqual(self.store.groups(), [])

    def test_some_files_can_be_kept(self) -> None:
        boxes = [it for it in Elements(self.page.ask(f"/?path=/&at={NOW + 150}").text).of("input") if it.get("type") == "checkbox"]
        self.assertEqual([it["value"] for it in boxes], ["/letter", "/plan", "/work"])
        for words, members in (("files=/letter&files=/work", 2), ("files=/letter", 1), ("files=/letter&files=/letter", 1)):
            form = self.page.form_of(f"/ask/keep?path=/&at={NOW + 150}&{words}")
            self.follow(self.page.send("/do/keep", form))
            self.assertEqual(len(self.store.groups()[-1].members), members)
        self.assertIn("isn't one of the store", self.text("/ask/keep?path=/&files=/letter&files=letter", 409))

    def test_the_moment_of_now_can_be_kept(self) -> None:
        self.do("keep", path="/letter")
        self.assertEqual(self.store.groups()[0].marks, ((NOW + 200, None),))

    def policy_of(self, path: str) -> Policy:
        found = self.store.stat(path)
        return found.policy if isinstance(found, FileStat) else found.default

    def test_a_policy_is_previewed_changed_and_undone(self) -> None:
        before = self.policy_of("/letter")
        text = self.text("/policy?path=/letter&kind=one")
        self.assertIn("now 0 3", text)
        self.assertIn("3 more versions could be forgotten at once", text)
        self.assertEqual((self.policy_of("/letter"), len(self.store.due())), (before, 0))
        asked = self.text("/ask/policy?path=/letter&policy=one")
        self.assertIn("Of 4 versions 3 could be forgotten at once, and 0 by the present policy", asked)
        self.do("policy", path="/letter", policy="one")
        self.assertEqual((self.policy_of("/letter"), len(self.store.due())), (KeepOne(), 3))
        self.do("undo")
        self.assertEqual((self.policy_of("/letter"), len(self.store.due())), (before, 0))

    def test_a_preview_leaves_nothing_in_the_journal(self) -> None:
        size = Path(self.journal).stat().st_size
        for kind in ("all", "one", "standard", "long", "safe&days=1&floor=1", "word&word=safe:5"):
            self.assertEqual(self.page.ask(f"/policy?path=/&kind={kind}").status, 200)
        self.assertEqual(Path(self.journal).stat().st_size, size)
        self.assertIn("no policy", self.text("/policy?path=/letter&kind=word&word=nonsense"))

    def test_a_preview_says_what_the_policy_then_does(self) -> None:
        """The store itself, under the other policy, is what the preview is compared with."""
        for word in ("one", "all", "safe:50", "safe:50/1", "landmarks:50/100", "safe:604800/2"):
            found = re.findall(r"<th scope=\"row\">(now|within a week)</th><td>(\d+) .*?<td>(\d+) ", self.page.ask(
                f"/policy?{urlencode({'path': '/letter', 'kind': 'word', 'word': word})}").text)
            with tempfile.TemporaryDirectory() as room:
                copy = Path(room, "copy")
                copy.write_bytes(Path(self.journal).read_bytes())
                with Store(copy, clock="manual", fsync="sync") as store:
                    present = [self.count(store, None), self.count(store, NOW + 300 + 7 * DAY)]
                    store.set_policy("/letter", Policy.of(word))
                    other = [self.count(store, None), self.count(store, NOW + 300 + 7 * DAY)]
            self.assertEqual([(int(a), int(b)) for _, a, b in found], list(zip(present, other)), word)

    @staticmethod
    def count(store: Store, moment: Optional[int]) -> int:
        file = store.stat("/letter").file  # type: ignore[union-attr]
        return sum(it.file == file for it in (store.due() if moment is None else store.ahead(moment)))

    def test_a_policy_of_a_folder_is_for_its_files_or_for_later_ones(self) -> None:
        before = self.policy_of("/work/2026/bill")
        self.do("policy", path="/work", policy="all", scope="later")
        self.assertEqual((self.policy_of("/work"), self.policy_of("/work/2026/bill")), (KeepAll(), before))
        self.do("policy", path="/work", policy="landmarks:86400/3600", scope="all")
        self.assertEqual(self.policy_of("/work/2026/bill"), Landmarks([(DAY, 3600)]))
        self.do("undo")
        self.assertEqual((self.policy_of("/work"), self.policy_of("/work/2026/bill")), (KeepAll(), before))

    # Two pages, and another writer.

    def test_a_question_that_is_out_of_date_is_asked_again(self) -> None:
        form = self.page.form_of("/ask/restore?path=/letter&version=3")
        self.store.save("/letter", b"of an editor\n")
        answer = self.page.send("/do/restore", form)
        self.assertEqual(answer.status, 200)
        self.assertIn("Something has changed since you were asked", answer.text)
        self.assertIn("new version 6", answer.text)
        self.assertEqual(self.store.read("/letter"), b"of an editor\n")

    def test_two_pages_of_one_folder(self) -> None:
        first, second = (self.page.form_of(f"/ask/folder?path=/work&at={NOW + 50}") for _ in range(2))
        self.follow(self.page.send("/do/folder", first))
        self.assertEqual(self.page.send("/do/folder", second).status, 409)
        self.assertEqual(len(self.store.versions("/work/2026/bill")), 4)

    def test_an_undo_after_another_save_is_refused(self) -> None:
        self.do("restore", path="/letter", version=3)
        form = self.page.form_of("/ask/undo")
        self.store.save("/letter", b"newer\n")
        answer = self.page.send("/do/undo", form)
        self.assertEqual((answer.status, self.store.read("/letter")), (409, b"newer\n"))
        self.assertIn("was changed since", answer.text)

    def test_what_was_done_is_in_the_journal(self) -> None:
        self.do("restore", path="/letter", version=3)
        self.do("folder", path="/work", at=NOW + 50)
        with Store(self.journal, read_only=True) as store:
            self.assertIn(b"valid until May", store.read("/letter"))
            self.assertEqual(store.read("/work/2026/offer"), b"offer 1\n")

    def test_refusals_are_told(self) -> None:
        for address, wanted in (
            ("/ask/restore?path=/letter&version=4", "what /letter holds now"), ("/ask/restore?path=/letter&version=9", "NoVersion"),
            ("/ask/undelete?path=/letter", "nothing has to be brought back"), ("/ask/folder?path=/work", "choose a moment"),
            (f"/ask/folder?path=/none&at={NOW}", "NoEntry"), ("/ask/policy?path=/letter&policy=x", "no policy"),
            ("/ask/release?group=g&at=1", "no such mark"), (f"/ask/keep?path=/none&at={NOW}", "0 files"),
        ):
            self.assertIn(wanted, self.text(address, 409), address)
        answer = self.page.act("undelete", {"path": "/none"})
        self.assertEqual(answer.status, 409)


class Reused(Case):
    """A name that two files had: what is shown of a moment is of the file that had the name then."""

    def fill(self, store: Store) -> None:
        store.clock(NOW)
        store.set_default("/", KeepOne())
        store.save("/x", b"first\n")
        store.clock(NOW + 10)
        store.save("/x", b"second\n")
        store.pass_()
        store.clock(NOW + 20)
        store.rename("/x", "/y")
        store.save("/x", b"another file\n")
        store.clock(NOW + 30)

    def test_a_forgotten_moment_of_another_file(self) -> None:
        text = self.text(f"/?path=/x&at={NOW + 5}")
        self.assertIn("was forgotten", text)
        self.assertIn("1 version held", text)
        self.assertNotIn("Bring it back", text)
        self.assertIn("another file", self.text("/?path=/x"))

    def test_a_version_of_the_earlier_file_goes_into_the_one_of_now(self) -> None:
        text = self.text(f"/?path=/x&at={NOW + 15}")
        self.assertIn("second", text)
        self.assertIn("Another file has this name now", text)
        self.assertIn("the newest version", text)  # of the earlier file, which has another name
        self.assertIn("Another file has the name /x now", self.text(f"/ask/restore?path=/x&at={NOW + 15}&version=3"))
        self.do("restore", path="/x", at=NOW + 15, version=3)
        self.assertEqual((self.store.read("/x"), self.store.read("/y")), (b"second\n", b"second\n"))
        self.do("undo")
        self.assertEqual((self.store.read("/x"), self.store.read("/y")), (b"another file\n", b"second\n"))


@unittest.skipUnless(HAS_FLASK, "there is no flask or waitress")
class OfTheDay(unittest.TestCase):
    """A journal whose time is the time of day. A page that only looks leaves it as it is."""

    def test_a_look_writes_nothing_and_an_act_has_the_time_of_day(self) -> None:
        with tempfile.TemporaryDirectory() as room:
            journal = Path(room, "j")
            with Store(journal, fsync="sync") as store:
                store.save("/f", b"one\n")
                store.save("/f", b"two\n")
            before = journal.read_bytes()
            with Served(JournalSource(str(journal))) as page:
                page.come_in()
                looks = "/", "/?path=/f&version=2&with=3", "/soon", "/space", "/policy?path=/f&kind=one", "/ask/restore?path=/f&version=2"
                for address in looks:
                    self.assertEqual(page.ask(address).status, 200, address)
                self.assertEqual(journal.read_bytes(), before)
                began = int(time.time())
                self.assertEqual(page.act("restore", {"path": "/f", "version": "2"}).status, 303)
            with Store(journal, read_only=True) as store:
                made = store.versions("/f")[-1]
                self.assertEqual((made.number, store.read("/f")), (4, b"one\n"))
                self.assertLessEqual(began, made.closed)


@unittest.skipUnless(HAS_FLASK, "there is no flask or waitress")
class Looking(unittest.TestCase):
    """A journal that another program writes is shown, and not changed."""

    def test_the_page_follows_another_writer(self) -> None:
        with tempfile.TemporaryDirectory() as room:
            journal = str(Path(room, "j"))
            with Store(journal, clock="manual", fsync="sync") as writer:
                fill(writer)
                with Served(JournalSource(journal)) as page:
                    page.come_in()
                    self.assertIn("another program has the journal open", page.ask("/").text)
                    self.assertNotIn("new", [it.name for it in page.source.store.list("/")])
                    writer.save("/new", b"n" * 9000)
                    writer.clock(NOW + 500)
                    writer.save("/letter", b"after that\n")
                    self.assertIn("after that", page.ask("/?path=/letter").text)
                    self.assertIn("new", page.ask("/").text)
                    self.assertEqual(list(page.source.store.notes.moments), [NOW, NOW + 100, NOW + 200, NOW + 300, NOW + 500])
                    before = Path(journal).read_bytes()
                    page.send("/do/restore", {"token": page.door.token, "state": "", "path": "/letter", "version": "3"})
                    self.assertEqual(Path(journal).read_bytes(), before)
                    # Another journal at the same place is begun anew.
                    writer.close()
                    Path(journal).unlink()
                    with Store(journal, clock="manual", fsync="sync") as other:
                        other.save("/other", b"1")
                        self.assertIn("other", page.ask("/").text)
                        self.assertNotIn("letter", page.ask("/").text)

    def test_a_journal_that_can_not_be_written_is_shown(self) -> None:
        with tempfile.TemporaryDirectory() as room:
            journal = str(Path(room, "j"))
            with Store(journal, clock="manual", fsync="sync") as writer:
                fill(writer)
            for number, wanted in ((errno.EROFS, "can't be written"), (errno.EIO, None)):
                fault = JournalError("no")
                fault.__cause__ = OSError(number, "no")
                with mock.patch("elephant.browse.sources.Opened", side_effect=fault):
                    if wanted is None:
                        self.assertRaises(JournalError, JournalSource, journal)
                        continue
                    source = JournalSource(journal)
                self.assertIn(wanted, source.fault)
                with self.assertRaises(ChangeRefused):
                    source.run("unlink", "/letter")
                source.close()


@unittest.skipUnless(HAS_FLASK, "there is no flask or waitress")
class Contents(unittest.TestCase):
    def test_kinds(self) -> None:
        self.assertEqual(contents.text_of("ä\n".encode()), "ä\n")
        self.assertIsNone(contents.text_of(b"a\0"))
        self.assertIsNone(contents.text_of(b"\xff"))
        self.assertEqual(contents.image_type(b"\x89PNG\r\n\x1a\nx"), "image/png")
        self.assertIsNone(contents.image_type(b"<svg/>"))

    def test_differences(self) -> None:
        rows = contents.compared("a\nb\nc\n", "a\nx\nc\nd\n")
        assert rows is not None
        self.assertEqual([(it.kind, it.old, it.new, it.text) for it in rows], [
            ("same", 1, 1, "a"), ("less", 2, None, "b"), ("more", None, 2, "x"), ("same", 3, 3, "c"), ("more", None, 4, "d"),
        ])
        far = contents.compared("\n".join(map(str, range(100))), "\n".join(["new", *map(str, range(100))]))
        assert far is not None
        self.assertEqual([it.kind for it in far], ["more", "same", "same", "same", "gap"])
        self.assertEqual(contents.first_difference(b"abc", b"abd"), 2)
        self.assertEqual(contents.first_difference(b"ab", b"abd"), 2)
        self.assertIsNone(contents.first_difference(b"ab", b"ab"))

    def test_a_comparison_takes_no_long_time(self) -> None:
        alike = "\n".join(["same"] * 4000)
        mixed = "\n".join(str(it % 39) for it in range(4000))
        other = "\n".join(str(it * 7 % 39) for it in range(4000))
        began = time.process_time()
        for old, new in ((alike, alike + "\nx"), (mixed, other), ("\n" * 5000, "x")):
            contents.compared(old, new)
        self.assertLess(time.process_time() - began, 5)


if __name__ == "__main__":
    unittest.main()
