"""Tests of the days before which something wasn't recorded."""

import datetime
import unittest

from weft.deciding.beacons import Beacon, Digests, date_events, has_value, is_crossed, list_unmet, read_day

FIRST, LATER = Beacon("paper", "ab" * 32, "2026-11-30"), Beacon("round", "cd" * 32, "2026-12-01")
LOGGED, BYTES, NONE = Digests("ab" * 32, "00" * 32), Digests(None, "cd" * 32), Digests("11" * 32, "22" * 32)


class Day(unittest.TestCase):
    """How a day is written."""

    def test_a_day_of_the_calendar(self) -> None:
        for text in ("1970-01-01", "2000-02-29", "2024-02-29", "2026-12-01", "2026-12-31", "2100-02-28", "2026-04-30"):
            begins = datetime.datetime.fromisoformat(text).replace(tzinfo=datetime.timezone.utc)
            self.assertEqual(read_day(text), int(begins.timestamp()), text)

    def test_no_day(self) -> None:
        for text in ("", "today", "2026-12-1", "2026-13-01", "2026-00-01", "2026-12-00", "2026-12-32", "2026-04-31", "2026-02-29", "2100-02-29", "1969-12-31", "2026-12-01 ", "2026-12-01T00:00:00Z"):
            self.assertIsNone(read_day(text), text)


class Days(unittest.TestCase):
    """What came not before a day."""

    def test_an_event_has_a_value_as_a_file_or_by_its_bytes(self) -> None:
        self.assertEqual([has_value(it, FIRST) for it in (LOGGED, BYTES, NONE)], [True, False, False])
        self.assertEqual([has_value(it, LATER) for it in (LOGGED, BYTES, NONE)], [False, True, False])
        self.assertEqual(list_unmet([LOGGED, NONE], [FIRST, LATER]), [LATER])
        self.assertEqual(list_unmet([], [FIRST]), [FIRST])

    def test_what_has_the_value_and_what_came_after_it_has_the_day(self) -> None:
        self.assertEqual(date_events([LOGGED], [FIRST]), [FIRST])
        self.assertEqual(date_events([LOGGED, NONE], [FIRST]), [FIRST, FIRST])
        self.assertEqual(date_events([NONE, LOGGED], [FIRST]), [None, FIRST])
        self.assertEqual(date_events([NONE, NONE], [FIRST]), [None, None])
        self.assertEqual(date_events([NONE], []), [None])

    def test_the_latest_day_counts(self) -> None:
        self.assertEqual(date_events([LOGGED, BYTES], [FIRST, LATER]), [FIRST, LATER])
        self.assertEqual(date_events([BYTES, LOGGED], [FIRST, LATER]), [LATER, LATER])
        same = FIRST._replace(day="2027-01-01")
        for both in ([FIRST, same], [same, FIRST]):
            self.assertEqual(date_events([LOGGED], both), [same])

    def test_a_stamp_from_before_the_day_crosses_it(self) -> None:
        begins = read_day(FIRST.day)
        assert begins is not None
        self.assertEqual([is_crossed(FIRST, begins + it) for it in (-1, 0, 1)], [True, False, False])
        self.assertFalse(is_crossed(FIRST._replace(day="someday"), 0))


if __name__ == "__main__":
    unittest.main()
