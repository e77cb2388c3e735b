"""Tests of which status ends a command over many things."""

import itertools
import unittest

from weft.deciding.worst import ORDER, worst_of
from weft.statuses import Status

GOOD = (Status.DONE, Status.SHOWN_BY_REFERENCE)


class WorstOf(unittest.TestCase):
    """The worst status counts."""

    def test_nothing_is_done_well(self) -> None:
        self.assertIs(worst_of([]), Status.DONE)

    def test_each_status_has_one_place(self) -> None:
        self.assertEqual(sorted(ORDER), sorted(Status))

    def test_which_came_first_doesnt_matter(self) -> None:
        for first, second in itertools.combinations(ORDER, 2):
            self.assertIs(worst_of([first, second]), second)
            self.assertIs(worst_of([second, first]), second)
            self.assertIs(worst_of([first, second, first]), second)

    def test_a_good_proof_in_front_hides_no_forged_one(self) -> None:
        self.assertIs(worst_of([Status.SHOWN_BY_REFERENCE, Status.NOT_SHOWN_BY_REFERENCE]), Status.NOT_SHOWN_BY_REFERENCE)
        self.assertIs(worst_of([Status.SHOWN_BY_REFERENCE, Status.UNREADABLE]), Status.UNREADABLE)

    def test_a_junk_file_in_front_hides_no_two_lines(self) -> None:
        self.assertIs(worst_of([Status.UNREADABLE, Status.CONTRADICTION]), Status.CONTRADICTION)

    def test_nothing_but_a_bug_or_an_interruption_is_worse_than_two_lines(self) -> None:
        for status in set(Status) - {Status.BUG, Status.STOPPED, Status.CONTRADICTION}:
            self.assertIs(worst_of([Status.CONTRADICTION, status]), Status.CONTRADICTION)

    def test_what_isnt_shown_is_worse_than_what_is_missing_or_unread(self) -> None:
        for status in (Status.LOOK, Status.MISSING, Status.UNREADABLE, Status.NO_INPUT, *GOOD):
            self.assertIs(worst_of([Status.NOT_SHOWN, status]), Status.NOT_SHOWN)
            self.assertIs(worst_of([Status.NOT_SHOWN_BY_REFERENCE, status]), Status.NOT_SHOWN_BY_REFERENCE)

    def test_what_asks_for_a_look_is_worse_than_what_is_shown(self) -> None:
        for status in GOOD:
            self.assertIs(worst_of([Status.LOOK, status]), Status.LOOK)

    def test_shown_by_the_reference_is_less_than_shown(self) -> None:
        self.assertIs(worst_of([Status.DONE, Status.SHOWN_BY_REFERENCE]), Status.SHOWN_BY_REFERENCE)

    def test_judges_that_differ_are_worse_than_what_isnt_shown(self) -> None:
        self.assertIs(worst_of([Status.NOT_SHOWN, Status.DIFFER, Status.UNREADABLE]), Status.DIFFER)


if __name__ == "__main__":
    unittest.main()
