"""Times as people type them, in three zones, at both ends of summer time. Expected moments are from the offsets of the zones."""

from __future__ import annotations

import os
import sys
import time
import unittest
from collections.abc import Iterator
from datetime import datetime, timedelta, timezone
from pathlib import Path
from typing import Optional

sys.path.insert(0, str(Path(__file__).resolve().parents[1] / "src"))
from elephant import BadTime, ElephantError, read_time

# The offsets of winter and summer in minutes, and for 2026 the local times at which summer time begins and ends.
ZONES = {
    "Europe/Berlin": (60, 120, "2026-03-29 02", "2026-10-25 02"),
    "America/New_York": (-300, -240, "2026-03-08 02", "2026-11-01 01"),
    "Australia/Adelaide": (570, 630, "2026-10-04 02", "2026-04-05 02"),
}
NOTHING = (
    "", " ", "x", "noon", "3pm", "15h", "9.30", "24:00", "15:60", "15:00:60", "-5", "+5", "1e9", "0x10", "1.5", "@", "@-1", "@@5",
    "2026-11", "2026-13-01", "2026-02-29", "2026-11-31", "2026-00-10", "26-11-29", "2026-1-2", "2026-11-29T", "2026-11-29 9",
    "2026/11/29 x",
    "2026-11-29 25:00", "2026-11-29 09:21 CET", "2026-11-29 09:21 +24:00", "2026-11-29 09:21 +01:60", "2026-11-29 09:21 +1", "10000-01-01",
    "2026-11-29 09:21 +0100 x", "2026-11-29T09:21:57ZZ", "20261129T0921", "\u0662\u0660\u0662\u0666-11-29", "1969-12-31",
    "9999-12-31T23:59:59-00:01",
    "ago", "2 ago", "hours ago", "-2 hours ago", "1.5 hours ago", "two hours ago", "2 months ago", "1 year ago", "2 hours", "in 2 hours",
    "1 day 2 hours ago", "60 years ago", "tomorrow", "tomorrow 15:00", "yesterday 25:00", "yesterday at 15:00", "today15:00", "now now",
    "later",
)
AMBIGUOUS = (
    "01/02/2026", "2026/01/02", "1.2.2026", "01.02.2026 15:00", "01-02-2026", "0", "15", "2026", "20261129", "12345678", "123456789012",
    "202611290921", "20261129092100", "yesterday",
    "today", "monday", "last monday", "Last Monday 15:00",
)


def utc(text: str) -> int:
    return int(datetime.fromisoformat(text).replace(tzinfo=timezone.utc).timestamp())


class Times(unittest.TestCase):
    def setUp(self) -> None:
        before = os.environ.get("TZ")
        self.addCleanup(self.move, before)

    def move(self, zone: Optional[str]) -> None:
        if zone is None:
            os.environ.pop("TZ", None)
        else:
            os.environ["TZ"] = zone
        time.tzset()

    def zones(self) -> Iterator[tuple[int, int, str, str]]:
        for zone, row in ZONES.items():
            self.move(zone)
            yield row

    def refused(self, text: str, now: int = utc("2026-11-29 12:00")) -> str:
        with self.assertRaises(BadTime, msg=repr(text)) as told:
            found = read_time(text, now)
            self.fail(f"{text!r} is understood as {found}")
        self.assertIsInstance(told.exception, ValueError)
        self.assertIsInstance(told.exception, ElephantError)
        return str(told.exception)

    def test_a_time_with_a_zone_is_that_moment_everywhere(self) -> None:
        wanted = utc("2026-11-29 08:21:57")
        texts = (
            "2026-11-29T08:21:57Z", "2026-11-29t08:21:57z", "2026-11-29 08:21:57 UTC", "2026-11-29T09:21:57+01:00",
            "2026-11-29 09:21:57 +0100",
            "2026-11-29 13:51:57.999+05:30", "2026-11-28T22:21:57-10:00", "  2026-11-29   09:21:57 +01:00 ", f"@{wanted}", f"{wanted}",
        )
        for _ in self.zones():
            for text in texts:
                self.assertEqual(read_time(text, 0).moment, wanted, text)
        self.assertEqual(len(str(wanted)), 10)

    def test_a_time_without_a_zone_is_local(self) -> None:
        for winter, summer, _, _ in self.zones():
            january, july = ((winter, summer) if self.is_north() else (summer, winter))
            for text, minutes in (("2026-01-15 15:00", january), ("2026-07-15 15:00", july)):
                wanted = utc(text) - minutes * 60
                for form in (text, text.replace(" ", "T"), f"{text}:00", f"{text}:00.5"):
                    self.assertEqual(read_time(form, 0).moment, wanted, form)

    def is_north(self) -> bool:
        return os.environ["TZ"] != "Australia/Adelaide"

    def test_what_was_understood_is_local_and_is_read_again_as_the_same_moment(self) -> None:
        self.move("Europe/Berlin")
        self.assertEqual(read_time("2026-11-29T08:21:57Z", 0), (utc("2026-11-29 08:21:57"), "2026-11-29 09:21:57 +01:00"))
        self.assertEqual(read_time("2026-07-15 15:00", 0).understood, "2026-07-15 15:00:00 +02:00")
        for _ in self.zones():
            for moment in (0, 1, utc("2026-03-29 00:59:59"), utc("2026-03-29 01:00:00"), utc("2026-10-25 00:30"), utc("2026-10-25 01:30"),
                           utc("2026-10-03 16:29:59"), utc("2026-10-03 16:30"), utc("2026-11-01 05:30"), utc("2026-11-01 06:30"),
                           253402300799):
                told = read_time(f"@{moment}", 0)
                self.assertEqual((told.moment, read_time(told.understood, 0)), (moment, told))

    def test_the_hour_that_summer_time_leaves_out_is_refused(self) -> None:
        for _, _, begins, _ in self.zones():
            for minute in ("00", "30", "59"):
                self.assertIn("never comes", self.refused(f"{begins}:{minute}"))
            hour = datetime.fromisoformat(f"{begins}:00")
            before, after = hour - timedelta(seconds=1), hour + timedelta(hours=1)
            self.assertEqual(read_time(str(after), 0).moment - read_time(str(before), 0).moment, 1)

    def test_the_hour_that_summer_time_doubles_is_refused_and_its_zones_are_named(self) -> None:
        for winter, summer, _, ends in self.zones():
            told = self.refused(f"{ends}:30")
            self.assertIn("comes twice", told)
            first, second = (f"{'-' if it < 0 else '+'}{abs(it) // 60:02}{abs(it) % 60:02}" for it in (summer, winter))
            self.assertIn(f"add {first} for the first time, or {second}", told)
            moments = [read_time(f"{ends}:30 {zone}", 0).moment for zone in (first, second)]
            self.assertEqual(moments, [utc(f"{ends}:30") - it * 60 for it in (summer, winter)])
            last = datetime.fromisoformat(f"{ends}:00") - timedelta(seconds=1)
            self.assertEqual(read_time(str(last), 0).moment, utc(str(last)) - summer * 60)
            self.assertEqual(read_time(str(last + timedelta(seconds=3601)), 0).moment, utc(f"{ends}:59:59") + 1 - winter * 60)

    def test_a_date_is_the_beginning_of_its_day(self) -> None:
        for winter, summer, begins, ends in self.zones():
            for day in ("2026-01-01", begins[:10], ends[:10], "2026-07-01"):
                self.assertEqual(read_time(day, 0), read_time(f"{day} 00:00:00", 0))
            self.assertEqual(read_time(begins[:10], 0).moment, utc(begins[:10]) - winter * 60)
            self.assertEqual(read_time(ends[:10], 0).moment, utc(ends[:10]) - summer * 60)

    def test_a_day_without_a_beginning_is_refused(self) -> None:
        """In Beirut the clocks go from 0:00 to 1:00."""
        self.move("Asia/Beirut")
        self.assertIn("never comes", self.refused("2026-03-29"))
        self.assertEqual(read_time("2026-03-29 01:00", 0).moment, utc("2026-03-28 22:00"))

    def test_a_time_of_day_is_the_last_one(self) -> None:
        self.move("Europe/Berlin")
        now = utc("2026-11-29 09:00")  # 10:00 in Berlin
        for text, wanted in (
            ("09:59", "2026-11-29 08:59"), ("9:59:30", "2026-11-29 08:59:30"), ("10:00", "2026-11-29 09:00"),
            ("10:00:01", "2026-11-28 09:00:01"),
            ("15:00", "2026-11-28 14:00"), ("today 15:00", "2026-11-29 14:00"), ("Yesterday 9:00", "2026-11-28 08:00"),
            ("00:00", "2026-11-28 23:00"),
            ("now", "2026-11-29 09:00"), ("yesterday 23:59:59", "2026-11-28 22:59:59"),
        ):
            self.assertEqual(read_time(text, now).moment, utc(wanted), text)

    def test_a_time_of_day_at_the_ends_of_summer_time(self) -> None:
        self.move("Europe/Berlin")
        self.assertEqual(read_time("15:00", utc("2026-10-25 09:00")).moment, utc("2026-10-24 13:00"))
        self.assertEqual(read_time("yesterday 15:00", utc("2026-03-29 09:00")).moment, utc("2026-03-28 14:00"))
        self.assertIn("comes twice", self.refused("02:30", utc("2026-10-25 09:00")))
        self.assertIn("never comes", self.refused("02:30", utc("2026-03-29 09:00")))
        self.assertIn("comes twice", self.refused("02:30", utc("2026-10-26 00:00")))  # 1:00, so that it is yesterday's

    def test_a_while_ago(self) -> None:
        self.move("America/New_York")
        now = utc("2026-11-29 12:00")
        for text, seconds in (
            ("2 hours ago", 7200), ("1 hour ago", 3600), ("90 minutes ago", 5400), ("5 min ago", 300), ("1 second ago", 1),
            ("0 seconds ago", 0),
            ("3 days ago", 259_200), ("2 weeks ago", 1_209_600), ("600 hours ago", 2_160_000), ("2 HOURS AGO", 7200),
        ):
            self.assertEqual(read_time(text, now).moment, now - seconds, text)

    def test_days_over_a_change_of_the_clocks_are_refused_and_hours_are_not(self) -> None:
        for zone, now, days in (
            ("America/New_York", "2026-11-02 12:00", 2), ("Europe/Berlin", "2026-03-30 12:00", 2),
            ("Australia/Adelaide", "2026-10-05 12:00", 3),
        ):
            self.move(zone)
            self.assertIn("24 hours", self.refused(f"{days} days ago", utc(now)))
            self.assertEqual(read_time(f"{days * 24} hours ago", utc(now)).moment, utc(now) - days * 86_400)

    def test_what_means_nothing_is_refused_and_what_is_accepted_is_told(self) -> None:
        for _ in self.zones():
            for text in NOTHING:
                self.refused(text)
        self.assertIn("2026-11-29 15:00", self.refused("soon"))

    def test_what_means_two_moments_is_refused(self) -> None:
        for text in AMBIGUOUS:
            self.assertRegex(self.refused(text), "first|whole day|may be")


if __name__ == "__main__":
    unittest.main()
