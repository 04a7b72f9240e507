"""Words as people type them in a line of the mount, why a line is bad, and which moments a folder lists: without a kernel and a store."""

from __future__ import annotations

import os
import re
import time
import unittest
from pathlib import Path
from typing import Optional

from elephant import BadTime
from elephant.mount.reasons import TAKES, UNITS, kinds_of, reason, reasons
from elephant.mount.timeline import Moments, Removals
from elephant.mount.typed import moment_in, moments_in, policy_word, two_moments_in, version_in

SCRIPT = Path(__file__).resolve().parents[3] / "docs" / "SCRIPT.md"
DAY, HOUR = 86_400, 3600
# 2026-11-29 09:00:00 UTC, which is 10:00 in Berlin.
NOW = 1_795_942_800
TEN = NOW


class Berlin(unittest.TestCase):
    """Tests in one zone."""

    def setUp(self) -> None:
        before = os.environ.get("TZ")
        self.set_zone("Europe/Berlin")
        self.addCleanup(self.set_zone, before)

    @staticmethod
    def set_zone(zone: Optional[str]) -> None:
        os.environ.pop("TZ", None)
        if zone is not None:
            os.environ["TZ"] = zone
        time.tzset()


class Words(Berlin):
    def test_lengths_of_policies_have_units(self) -> None:
        for word, wanted in (
            ("safe:30d", "safe:2592000"), ("safe:1h/3", "safe:3600/3"), ("safe:90s", "safe:90"), ("safe:2m", "safe:120"),
            ("landmarks:7d/1h,30d/1d,1y/7d", "landmarks:604800/3600,2592000/86400,31536000/604800"), ("safe:2w", "safe:1209600"),
            ("standard", "landmarks:86400/3600,604800/86400,2592000/604800"), ("safe:604800/3", "safe:604800/3"), ("one", "one"),
            # What isn't a length is left to the store, which refuses it.
            ("safe:07d", "safe:07d"), ("safe:1x", "safe:1x"), ("safe:1d2h", "safe:1d2h"), ("30d", "30d"),
        ):
            self.assertEqual(policy_word(word), wanted, word)

    def test_one_moment_or_two(self) -> None:
        for words, wanted in (
            (["2026-11-29", "09:30"], [TEN - HOUR // 2]),
            (["yesterday", "10:00"], [TEN - DAY]),
            (["2", "hours", "ago"], [TEN - 2 * HOUR]),
            (["2026-11-29T09:00:00Z"], [TEN]),
            (["1795942800"], [TEN]),
            (["7", "1795942800"], [7, TEN]),
            (["2", "hours", "ago", "2026-12-01"], [TEN - 2 * HOUR, TEN + DAY + 14 * HOUR]),
            (["09:30", "until", "2026-11-29", "11:00"], [TEN - HOUR // 2, TEN + HOUR]),
            # All of it is one moment if it can be.
            (["2026-11-28", "09:30"], [TEN - DAY - HOUR // 2]),
            (["2026-11-28", "until", "09:30"], [TEN - DAY - 10 * HOUR, TEN - HOUR // 2]),
        ):
            self.assertEqual(moments_in(words, NOW), wanted, words)
        for words in (["soon"], ["yesterday"], ["2026-11-29", "until"], ["now", "now", "now"], ["until", "now"]):
            with self.assertRaises(BadTime, msg=words):
                moments_in(words, NOW)

    def test_two_moments(self) -> None:
        for words, wanted in (
            (["2026-11-29", "09:00", "2026-11-29", "09:30"], [TEN - HOUR, TEN - HOUR // 2]),
            (["2", "hours", "ago", "now"], [TEN - 2 * HOUR, TEN]),
            (["yesterday 10:00", "1 hour ago"], [TEN - DAY, TEN - HOUR]),
            (["2026-11-29", "09:00", "now"], [TEN - HOUR, TEN]),
        ):
            self.assertEqual(two_moments_in(words, NOW), wanted, words)
        others: list[list[str]] = [["now"], [], ["2026-11-29", "soon"], ["now", "now", "now"]]
        for words in others:
            with self.assertRaisesRegex(BadTime, "is not two moments", msg=words):
                two_moments_in(words, NOW)

    def test_a_small_number_is_a_moment_and_a_version_has_a_sign(self) -> None:
        self.assertEqual((moment_in(["7"], NOW), version_in(["#7"]), version_in(["#12"])), (7, 7, 12))
        others: list[list[str]] = [["7"], ["#07"], ["#"], ["#7", "#8"], [], ["f#7"]]
        for words in others:
            self.assertIsNone(version_in(words), words)


class Reasons(unittest.TestCase):
    def test_the_words_of_each_command_are_those_of_the_page(self) -> None:
        """The audit's lines and `why` stand in a table of their own."""
        page = SCRIPT.read_text(encoding="utf-8").partition("\n## Commands\n")[2].partition("<!-- End of the commands. -->")[0]
        found: dict[str, list[list[str]]] = {}
        for line in re.findall(r"(?m)^\| (`[^|]*) \|", page):
            for form in re.findall(r"`([^`]+)`", line):
                words = re.findall(r"[a-z]+|[A-Z]+", form)
                name = " ".join(it for it in words if it.islower())
                found.setdefault(name, []).append([it for it in words if it.isupper()])
        self.assertGreater(len(found), 35)
        for name, forms in found.items():
            wanted = {"read": ["TH"], "mark": ["G", "M", "U"]}.get(name, forms[0])
            self.assertEqual(TAKES[name].split(), wanted, name)
            self.assertLessEqual(len(forms), 1 + (name in ("read", "mark")), name)

    def test_no_command_has_no_reason(self) -> None:
        for line in ("create /f", "policy /f safe:604800/3", "mark g 5", "mark g 5 7", "read 7", "read /f@2026-11-29T09:00:00Z", "why /f#2",
                     "policy / landmarks:60/60,3600/120", "save /f -", "save /f 00fF", "list /", "due", "default /d all", "group add g /f"):
            self.assertEqual(reason(line.split(" ")), "", line)

    def test_a_bad_policy_is_told_of_the_units_that_a_mount_takes(self) -> None:
        self.assertEqual(reasons(["policy", "/f", "safe:7x"]), [reason(["policy", "/f", "safe:7x"]), UNITS])
        self.assertEqual(reasons(["policy", "/f", "safe:60/17"]), ["word 3: a floor is at most 16 versions"])
        self.assertEqual(reasons(["policy", "/f", "one"]), [])

    def test_the_kinds_of_the_words_of_a_line(self) -> None:
        for line, wanted in (("group add g /f", ["", "", "G", "P"]), ("read /f 2", ["", "TH", ""]), ("list", [""]), ("x /f", ["", ""])):
            self.assertEqual(kinds_of(line.split(" ")), wanted, line)

    def test_the_first_bad_word_is_told(self) -> None:
        """The texts are those of `elephant run --explain`, as docs/TUTORIAL.md and the source of ele_reasons have them."""
        for line, wanted in (
            ("create f", "word 2: a path begins with a slash"),
            ("clock 007", "word 2: a moment has no leading zero"),
            ("policy /f safe:7x", "word 3: a policy is one, all, safe:SECONDS, safe:SECONDS/FLOOR or landmarks:AGE/WIDTH,.."),
            ("policy /f safe:0", "word 3: a policy has from 1 to 253402300799 seconds"),
            ("policy /f safe:60/17", "word 3: a floor is at most 16 versions"),
            ("policy /f landmarks:60/60,60/60", "word 3: each age of a ladder is greater than the one before it"),
            ("policy /f landmarks:60/60,3600/90", "word 3: each width of a ladder divides the next, as 60 divides 3600"),
            ("policy /f landmarks:", "word 3: a ladder has one to eight pairs, as in landmarks:3600/60,86400/3600"),
            ("policy /a b one", "number of words: the command takes a path and a policy, and a name has no space: write %20"),
            ("policy /a", "number of words: the command takes a path and a policy"),
            ("mark g", "number of words: the command takes a group and one moment or two"),
            ("link /a", "number of words: the command takes two paths"),
            ("due now", "number of words: the command takes no words"),
            ("mark g 2026-03-02", "word 3: a date wants its time, for example 2026-03-02T00:00:00Z"),
            ("ahead 2026-02-30T00:00:00Z", "word 2: a moment is seconds since 1970, or a time as 2026-03-02T00:00:00Z"),
            ("mark g/h 5", "word 2: the name of a group has no /, @ or #"),
            ("ahead 253402300800", "word 2: a moment is at most 253402300799"),
            ("revert /f 7d", "word 3: a number has only digits, and a time is in seconds: a day has 86400"),
            ("revert /f x", "word 3: a number has only digits"),
            ("create /a@b", "word 2: a name has no @ and no #"),
            ("create /a//b", "word 2: a path has no empty name and at most 32 names"),
            ("create /" + "n" * 65, "word 2: a name has at most 64 bytes, and is neither . nor .."),
            ("create /..", "word 2: a name has at most 64 bytes, and is neither . nor .."),
            ("why /f#x", "word 2: a path has no empty name and at most 32 names, and a number after #"),
            ("list /d#2", "word 2: only @ and a moment may follow the path"),
            ("read x", "word 2: a path begins with a slash, and a handle has only digits"),
            ("save /f 0", "word 3: bytes are an even number of hexadecimal digits, or - for none"),
            ("ls /", "word 1: the command for this is list"),
            ("group x", "word 2: make, drop, add or remove follows group"),
            ("open /f", "word 2: write or read follows open"),
            ("Create /f", "word 1: commands are in lower case, as create"),
            ("create  /f", "word 2: one space too many stands here"),
            ("create\t/f", "word 1: it has a tab: put one space between two words"),
            ("nonsense", "word 1: there is no such line: elephant-mount --help lists them"),
        ):
            self.assertEqual(reason(line.split(" ")), wanted, line)


class Timeline(Berlin):
    def test_the_last_thousand_moments_and_before_them_one_of_each_day(self) -> None:
        moments, noon = Moments(), TEN + 2 * HOUR
        old = [noon - 3 * DAY, noon - 3 * DAY + 60, noon - 3 * DAY + 120, noon - 2 * DAY, noon - 2 * DAY + 60]
        new = [noon + it for it in range(1000)]
        for it in old + new:
            moments.note(it)
        self.assertEqual(list(moments.listed()), [old[0], old[2], old[4], *new])
        moments.note(new[-1])  # another change of the second
        moments.note(new[-1] + 1)
        # The first of today is left out now: today has later ones.
        self.assertEqual(list(moments.listed()), [old[0], old[2], old[4], *new[1:], new[-1] + 1])

    def test_few_moments_are_all_listed(self) -> None:
        moments = Moments()
        self.assertEqual(list(moments.listed()), [])
        for it in (5, 5, 6, 6 + DAY):
            moments.note(it)
        self.assertEqual(list(moments.listed()), [5, 6, 6 + DAY])

    def test_a_day_ends_at_midnight_of_the_zone(self) -> None:
        moments = Moments()
        midnight = TEN - 10 * HOUR
        first = [midnight - 2, midnight - 1, midnight]
        for it in [*first, *(midnight + DAY + it for it in range(1000))]:
            moments.note(it)
        self.assertEqual(list(moments.listed())[:4], [midnight - 2, midnight - 1, midnight, midnight + DAY])

    def test_the_first_moment_is_listed_once_also_if_its_day_has_no_other(self) -> None:
        moments = Moments()
        for it in [TEN - DAY, *(TEN + it for it in range(1000))]:
            moments.note(it)
        self.assertEqual(list(moments.listed())[:2], [TEN - DAY, TEN])

    def test_removals_of_a_file(self) -> None:
        removals = Removals()
        removals.note(7, 2, 500, 400)
        removals.note(8, 1, 600, 450)
        removals.note(7, 3, 700, 650)
        self.assertEqual(removals.of(7), {2: (500, 400), 3: (700, 650)})
        self.assertEqual(removals.of(9), {})


if __name__ == "__main__":
    unittest.main()
