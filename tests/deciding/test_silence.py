"""Tests of when a peer's silence is told, and of what counts as one."""

import errno
import unittest

from weft.deciding.lines import Line
from weft.deciding.signatures import Signed
from weft.deciding.silence import (
    MOST_TURNS, NO_SUCH_FILE, Came, Handed, Heard, Silence, begin_handed_on, choose_last_heard, describe_silence, hear, hear_handed_on, is_handed_on_due,
    is_silent, list_later, may_count, read_handed, read_silence, weigh_failure, weigh_heard,
)  # fmt: skip

MONDAY, TUESDAY = "2026-11-30", "2026-12-01"


def after(*nights: tuple[Heard, int, str], began: Silence = Silence(0, 5, MONDAY, 10, MONDAY)) -> Silence:
    """The silence after some turns, each of what was heard, the last own step and the day."""
    found = began
    for heard, own, day in nights:
        found = hear(found, heard, 5, own, day)
    return found


class Failures(unittest.TestCase):
    """What a failed look for a file means."""

    def test_only_no_such_file_is_not_there(self) -> None:
        self.assertEqual(NO_SUCH_FILE, errno.ENOENT)
        self.assertIs(weigh_failure(errno.ENOENT), Came.NOT_THERE)

    def test_what_may_not_be_read_is_not_taken_for_absent(self) -> None:
        for number in (errno.EACCES, errno.EPERM, errno.ELOOP, errno.ENOTDIR, errno.EIO, errno.ESTALE, errno.ENAMETOOLONG, errno.EMFILE, 0, 1, 3, None):
            self.assertIs(weigh_failure(number), Came.UNREAD, number)


class Hearing(unittest.TestCase):
    """What a turn heard."""

    def test_a_later_step_is_new(self) -> None:
        for is_whole in (False, True):
            self.assertIs(weigh_heard(5, 6, is_whole), Heard.NEW)
            self.assertIs(weigh_heard(0, 1, is_whole), Heard.NEW)

    def test_the_same_or_an_earlier_line_once_more_is_not_new(self) -> None:
        self.assertIs(weigh_heard(6, 6, True), Heard.SAME)
        self.assertIs(weigh_heard(7, 6, True), Heard.SAME)

    def test_what_is_missing_or_damaged_is_nothing(self) -> None:
        self.assertIs(weigh_heard(6, 6, False), Heard.NOTHING)
        self.assertIs(weigh_heard(6, 0, False), Heard.NOTHING)

    def test_what_a_stopped_turn_took_is_new_to_the_next_one(self) -> None:
        self.assertEqual(choose_last_heard(5, True, 6), 5)

    def test_what_a_box_had_before_anything_was_noted_is_not_new(self) -> None:
        self.assertEqual(choose_last_heard(0, False, 6), 6)
        self.assertEqual(choose_last_heard(0, True, 6), 6)

    def test_a_line_of_a_key_that_was_taken_out_hides_no_later_one(self) -> None:
        self.assertEqual(choose_last_heard(2**40 - 1, False, 6), 6)
        self.assertIs(weigh_heard(choose_last_heard(2**40 - 1, False, 6), 7, True), Heard.NEW)


class Counting(unittest.TestCase):
    """Which turns make a silence longer."""

    def test_something_new_ends_a_silence(self) -> None:
        before = Silence(7, 5, MONDAY, 10, MONDAY)
        self.assertEqual(hear(before, Heard.NEW, 6, 11, TUESDAY), Silence(0, 6, TUESDAY, 11, TUESDAY))
        self.assertFalse(may_count(before, Heard.NEW, 11, TUESDAY))

    def test_a_peer_that_is_cut_off_is_silent_after_three_turns(self) -> None:
        for heard in (Heard.SAME, Heard.NOTHING):
            two = after((heard, 11, MONDAY), (heard, 12, MONDAY))
            self.assertFalse(is_silent(two, 3))
            self.assertTrue(is_silent(after((heard, 13, MONDAY), began=two), 3))

    def test_missing_and_damaged_files_count_in_each_turn(self) -> None:
        self.assertEqual(after(*[(Heard.NOTHING, 10, MONDAY)] * 12).turns, 12)

    def test_a_turn_made_once_more_in_one_night_counts_for_nothing(self) -> None:
        once = after((Heard.SAME, 11, MONDAY))
        self.assertEqual(once.turns, 1)
        self.assertEqual(after(*[(Heard.SAME, 11, MONDAY)] * 9, began=once), once)
        self.assertEqual(after(*[(Heard.SAME, 10, MONDAY)] * 9, began=once), once)

    def test_a_service_that_makes_no_step_itself_counts_days(self) -> None:
        found = after((Heard.SAME, 10, "2026-12-01"), (Heard.SAME, 10, "2026-12-02"), (Heard.SAME, 10, "2026-12-02"), (Heard.SAME, 10, "2026-12-03"))
        self.assertEqual(found, Silence(3, 5, MONDAY, 10, "2026-12-03"))

    def test_an_earlier_own_step_is_no_new_one(self) -> None:
        self.assertFalse(may_count(Silence(1, 5, MONDAY, 10, MONDAY), Heard.SAME, 9, MONDAY))
        self.assertTrue(may_count(Silence(1, 5, MONDAY, 10, MONDAY), Heard.SAME, 11, MONDAY))
        self.assertTrue(may_count(Silence(1, 5, MONDAY, 10, MONDAY), Heard.SAME, 10, TUESDAY))

    def test_a_box_that_never_counted_begins_with_what_lies_there(self) -> None:
        self.assertEqual(hear(Silence(), Heard.SAME, 5, 10, MONDAY), Silence(0, 5, "-", 10, MONDAY))
        self.assertEqual(hear(Silence(), Heard.NOTHING, 5, 10, MONDAY), Silence(1, 5, "-", 10, MONDAY))
        self.assertEqual(hear(Silence(0, 5), Heard.SAME, 5, 10, MONDAY), Silence(0, 5, "-", 10, MONDAY))
        self.assertEqual(hear(Silence(), Heard.NEW, 5, 10, MONDAY), Silence(0, 5, MONDAY, 10, MONDAY))

    def test_the_last_step_that_came_stays(self) -> None:
        self.assertEqual(hear(Silence(1, 5, MONDAY, 10, MONDAY), Heard.NOTHING, 9, 10, TUESDAY), Silence(2, 5, MONDAY, 10, TUESDAY))

    def test_the_count_ends(self) -> None:
        self.assertEqual(hear(Silence(MOST_TURNS, 5), Heard.NOTHING, 5, 10, MONDAY).turns, MOST_TURNS)
        self.assertEqual(hear(Silence(MOST_TURNS - 1, 5), Heard.NOTHING, 5, 10, MONDAY).turns, MOST_TURNS)


def line(service: str, step: int) -> Signed:
    """A signed line of a service."""
    return Signed(Line(service, step, "a" * 64), b"armour")


class HandingOn(unittest.TestCase):
    """When a peer hands on no lines of others any more."""

    def test_a_new_good_line_ends_it(self) -> None:
        for before in (Silence(), Silence(7, 1, MONDAY, 3, MONDAY)):
            for is_due in (False, True):
                self.assertEqual(hear_handed_on(before, True, is_due, 9, TUESDAY), Silence(0, 1, TUESDAY, 9, TUESDAY))

    def test_each_turn_without_what_is_due_counts(self) -> None:
        before = Silence(1, 1, MONDAY, 3, MONDAY)
        self.assertEqual(hear_handed_on(before, False, True, 9, TUESDAY), Silence(2, 1, MONDAY, 9, TUESDAY))
        self.assertEqual(hear_handed_on(before, False, False, 9, TUESDAY), before)
        self.assertEqual(hear_handed_on(Silence(), False, True, 9, TUESDAY), Silence(1, 0, "-", 9, TUESDAY))
        self.assertEqual(hear_handed_on(Silence(MOST_TURNS, 1), False, True, 9, TUESDAY).turns, MOST_TURNS)

    def test_of_who_handed_on_before_something_is_due_where_others_went_on(self) -> None:
        before = Silence(0, 1, MONDAY, 3, MONDAY)
        self.assertTrue(is_handed_on_due(before, True, {"liar"}, {"liar", "port"}, set()))
        self.assertFalse(is_handed_on_due(before, True, {"bank"}, {"liar", "port"}, {"bank"}))
        self.assertFalse(is_handed_on_due(before, True, set(), {"liar"}, {"liar"}))
        self.assertTrue(is_handed_on_due(before, False, set(), set(), set()))

    def test_of_who_never_did_it_is_where_its_receipts_tell_of_others_that_went_on(self) -> None:
        for has_lines in (False, True):
            self.assertTrue(is_handed_on_due(Silence(), has_lines, {"liar"}, set(), {"liar", "port"}))
            self.assertFalse(is_handed_on_due(Silence(), has_lines, {"bank"}, {"bank"}, {"liar", "port"}))
            self.assertFalse(is_handed_on_due(Silence(), has_lines, set(), set(), {"liar"}))

    def test_a_peer_that_was_accepted_once_more_begins_anew(self) -> None:
        self.assertEqual(begin_handed_on(False, TUESDAY), Silence())
        anew = begin_handed_on(True, TUESDAY)
        self.assertEqual(read_silence(anew.text), anew)
        for has_lines in (False, True):
            self.assertFalse(is_handed_on_due(anew, has_lines, {"liar"}, {"liar"}, {"liar"}))

    def test_only_later_lines_can_be_new(self) -> None:
        lines = [line("liar", 5), line("liar", 7), line("port", 3), line("liar", 6), line("port", 2)]
        self.assertEqual(list_later(lines, {"liar": 5}), [line("liar", 7), line("port", 3), line("liar", 6), line("port", 2)])
        self.assertEqual(list_later(lines, {"liar": 7, "port": 3}), [])
        self.assertEqual(list_later([line("liar", 0), line("liar", 1)], {}), [line("liar", 1)])

    def test_what_was_handed_on_is_read_again(self) -> None:
        found = Handed("liar", 2**40 - 1, f"SHA256:{'k' * 43}")
        self.assertEqual(read_handed(found.text), found)
        for text in ("", "liar 5", f"liar 5 SHA256:{'k' * 42}", f"Liar 5 SHA256:{'k' * 43}", f"liar x SHA256:{'k' * 43}", f"{found.text} "):
            self.assertIsNone(read_handed(text), text)


class Telling(unittest.TestCase):
    """When a silence is told, and in which words."""

    def test_a_limit_of_0_is_never_reached(self) -> None:
        self.assertFalse(is_silent(Silence(0), 0))
        self.assertFalse(is_silent(Silence(MOST_TURNS), 0))

    def test_it_is_told_from_the_limit_on(self) -> None:
        self.assertEqual([is_silent(Silence(turns), 3) for turns in (0, 1, 2, 3, 4)], [False, False, False, True, True])
        self.assertTrue(is_silent(Silence(1), 1))

    def test_what_is_known_is_told_and_no_more(self) -> None:
        self.assertEqual(describe_silence(Silence(3, 5, MONDAY), "signed line"), "no new signed line of it came in 3 turns; the last was of its step 5, on 2026-11-30")
        self.assertEqual(describe_silence(Silence(1, 5, "-"), "message"), "no new message of it came in 1 turn; the last was of its step 5")
        self.assertEqual(describe_silence(Silence(1200), "message"), "no message of it came in 1,200 turns, and none before")


class Kept(unittest.TestCase):
    """What is kept from turn to turn."""

    def test_what_is_kept_is_read_again(self) -> None:
        for found in (Silence(), Silence(3, 5, MONDAY, 10, TUESDAY), Silence(MOST_TURNS, 2**40 - 1, "-", 2**40 - 1, MONDAY)):
            self.assertEqual(read_silence(found.text), found)

    def test_what_is_damaged_begins_anew(self) -> None:
        for text in ("", "1", "1 2 - 3", "x 5 - 1 -", "1 2 - 3 - 4", "1 2 2026-1-1 3 -", "-1 2 - 3 -", "1 2 - 3 -\n"):
            self.assertEqual(read_silence(text), Silence(), text)


if __name__ == "__main__":
    unittest.main()
