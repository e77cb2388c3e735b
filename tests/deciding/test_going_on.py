"""Tests of how a log goes on in parts."""

import unittest

from weft.deciding.going_on import (
    Fault,
    Joint,
    Making,
    choose_names_to_note,
    end_counts,
    find_later_part,
    find_missing_part,
    is_behind_end,
    is_being_made,
    is_folder_of_part,
    is_name_of_other,
    is_name_of_part,
    is_next,
    must_go_on,
    named_in,
    naming_event,
    next_name,
    number_of_part,
    weigh_name,
)
from weft.deciding.lines import Line

END = Line("shop", 31, "1" * 64)
JOINT = Joint(END, "shop-2", "shop-2", END)


class Next(unittest.TestCase):
    """What is the next part."""

    def test_it_is_named_and_received_the_last_line(self) -> None:
        self.assertTrue(is_next(JOINT))

    def test_the_look_of_a_name_says_nothing(self) -> None:
        self.assertFalse(is_next(JOINT._replace(named=None)))
        self.assertFalse(is_next(JOINT._replace(named="other")))
        self.assertTrue(is_next(JOINT._replace(named="other", name="other")))

    def test_a_name_alone_is_not_enough(self) -> None:
        for received in (None, END._replace(step=30), END._replace(service="shop-1"), END._replace(authenticator="2" * 64)):
            self.assertFalse(is_next(JOINT._replace(received=received)), received)

    def test_the_name_stands_in_an_event_of_its_own(self) -> None:
        self.assertEqual(named_in([naming_event("shop-2")]), "shop-2")
        for event in (b"goes on as ", b"goes on as Shop", b"goes on as -2", b"goes on as shop 2", b"goes on as \xff", b" goes on as shop-2", b"gone  ./shop-2",
                      b"goes on as " + b"x" * 17):  # fmt: skip
            self.assertIsNone(named_in([event]), event)
        self.assertIsNone(named_in([]))
        self.assertIsNone(named_in([naming_event("shop-2"), b""]))


class Later(unittest.TestCase):
    """Which kept line tells of a part behind those that are there."""

    @staticmethod
    def find_next(names: list[str], kept: str, others: str = "", step: int = 3) -> str:
        """The name of the service whose line tells of one, - for none."""
        line = find_later_part(names, [Line(name, step, "a" * 64) for name in kept.split()], others.split())
        return line.service if line else "-"

    def test_it_has_the_name_of_a_later_part(self) -> None:
        self.assertEqual(self.find_next(["shop"], "bank shop shop-2"), "shop-2")
        self.assertEqual(self.find_next(["shop", "shop-3"], "shop-2 shop shop-3 shop-10 shop-4"), "shop-10")
        for kept in ("bank", "shop", "shop-1", "shop-02", "shop-a", "ashop-2", "bank-2", "shops-2", "-2", ""):
            self.assertEqual(self.find_next(["shop"], kept), "-", kept)

    def test_of_an_earlier_number_it_tells_nothing(self) -> None:
        for kept in ("shop-2", "shop-3", "shop"):
            self.assertEqual(self.find_next(["shop", "shop-3"], kept), "-", kept)

    def test_a_number_far_ahead_is_none(self) -> None:
        self.assertEqual(self.find_next(["shop"], "shop-2026 shop-101"), "-")
        self.assertEqual(self.find_next(["shop"], "shop-2026 shop-100"), "shop-100")
        self.assertEqual(self.find_next(["shop", "shop-3"], "shop-103"), "-")
        self.assertEqual(self.find_next(["shop", "shop-3"], "shop-102"), "shop-102")
        self.assertEqual(self.find_next(["shop"], "shop-101 shop-102", "shop-2"), "shop-101")
        self.assertEqual(self.find_next(["shop"], "shop-102", "shop-2"), "-")
        self.assertEqual(self.find_next(["finance-log-2025"], "finance-log-2026"), "-")

    def test_another_service_is_none(self) -> None:
        self.assertEqual(self.find_next(["shop"], "shop-2", "shop-2"), "-")
        self.assertEqual(self.find_next(["shop"], "shop-2 shop-3", "shop-2"), "shop-3")

    def test_the_line_of_step_0_says_nothing(self) -> None:
        self.assertEqual(self.find_next(["shop"], "shop-2", step=0), "-")
        self.assertEqual(self.find_next(["shop"], "shop-2", step=1), "shop-2")

    def test_numbers_of_parts(self) -> None:
        for name, number in (("shop", 1), ("shop-2", 2), ("shop-31", 31), ("shop-1", 0), ("bank", 0), ("bank-2", 0)):
            self.assertEqual(number_of_part("shop", name), number, name)
        self.assertEqual(number_of_part("a-name-of-16-abc", "a-name-of-16-a-2"), 2)


class Ended(unittest.TestCase):
    """Whether a peer's part has ended."""

    def test_no_end_outlives_its_key(self) -> None:
        self.assertTrue(end_counts(True, [], ""))
        self.assertFalse(end_counts(False, [], ""))
        self.assertFalse(end_counts(False, ["SHA256:a"], "SHA256:a"))

    def test_a_key_that_a_person_noted_of_the_part_is_his_word(self) -> None:
        self.assertTrue(end_counts(False, ["SHA256:a", "SHA256:b"], "SHA256:a"))
        self.assertTrue(end_counts(False, ["SHA256:b"], ""))


class Noted(unittest.TestCase):
    """Which names of others are noted."""

    def test_of_peers_each_and_of_heard_ones_those_that_a_next_part_could_get(self) -> None:
        self.assertEqual(choose_names_to_note(["a"], ["a-900"], ["a-800"], ["a-2", "a-100", "a-101", "a-5000"]), ["a-100", "a-2", "a-800", "a-900"])
        self.assertEqual(choose_names_to_note(["a", "a-2"], [], [], ["a-2", "a-3", "a-101", "a-102", "b-3"]), ["a-101", "a-3"])
        self.assertEqual(choose_names_to_note(["a"], ["a-5"], ["a-5"], ["a-5", "a-2"]), ["a-2", "a-5"])
        self.assertEqual(choose_names_to_note(["a"], [], [], []), [])

    def test_made_up_ones_fill_no_file(self) -> None:
        heard = [f"a-{number}" for number in range(2, 100_000)]
        self.assertEqual(len(choose_names_to_note(["a"], [], [], heard)), 99)

    def test_none_that_was_noted_is_forgotten(self) -> None:
        noted = [f"a-{number}" for number in range(2, 9)]
        self.assertEqual(choose_names_to_note(["a"], noted, [], ["a-1000"]), sorted(noted))


class Made(unittest.TestCase):
    """Whether a part is being made, and whether one is missing."""

    BEGUN = Making(3, "shop-3", 2, "shop-3", 0, False, False)
    THERE = Making(3, "shop-3", 3, "shop-3", 1, False, False)

    def test_it_is_the_part_behind_the_last_one_or_that_itself(self) -> None:
        self.assertTrue(is_being_made(self.BEGUN) and is_being_made(self.THERE))
        for parts in (1, 4, 5):
            self.assertFalse(is_being_made(self.BEGUN._replace(parts=parts)), parts)
        self.assertFalse(is_being_made(Making(1, "shop", 1, "shop", 1, False, False)))
        self.assertTrue(is_being_made(Making(2, "shop-2", 1, "shop-2", 0, False, False)))

    def test_a_note_that_the_part_before_it_does_not_bear_out_says_nothing(self) -> None:
        for named in (None, "other"):
            self.assertFalse(is_being_made(self.BEGUN._replace(named=named)))
            self.assertFalse(is_being_made(self.THERE._replace(named=named)))

    def test_a_part_that_is_there_or_was_is_not_made(self) -> None:
        self.assertFalse(is_being_made(self.THERE._replace(steps=2)))
        self.assertFalse(is_being_made(self.THERE._replace(has_lines=True)))
        self.assertFalse(is_being_made(self.BEGUN._replace(has_lines=True)))
        for it in (self.BEGUN, self.THERE):
            self.assertFalse(is_being_made(it._replace(is_noted=True)))

    def test_a_line_of_no_part_tells_that_one_is_missing(self) -> None:
        other = END._replace(service="shop-2")
        self.assertIsNone(find_missing_part(["shop", "shop-2"], [END, other]))
        self.assertIsNone(find_missing_part(["shop"], []))
        self.assertEqual(find_missing_part(["shop"], [END, other]), other)


class Names(unittest.TestCase):
    """How a part is called."""

    def test_the_number_stands_behind_the_first_name(self) -> None:
        self.assertEqual([next_name("shop", number, ()) for number in (2, 3, 12)], ["shop-2", "shop-3", "shop-12"])

    def test_a_long_name_is_cut(self) -> None:
        self.assertEqual(next_name("a" * 16, 2, ()), "a" * 14 + "-2")
        self.assertEqual(next_name("a" * 14, 2, ()), "a" * 14 + "-2")
        self.assertEqual(next_name("a" * 16, 100, ()), "a" * 12 + "-100")

    def test_a_name_that_is_taken_is_passed_over(self) -> None:
        self.assertEqual(next_name("shop", 2, {"shop-2", "shop-3"}), "shop-4")
        self.assertEqual(next_name("a" * 16, 9, {"a" * 14 + "-9"}), "a" * 13 + "-10")


class Peers(unittest.TestCase):
    """What a peer may name, and what counts of it once it has ended."""

    def test_each_name_that_is_made_for_a_part_may_be_one(self) -> None:
        for first in ("shop", "shop-2", "a" * 16, "a" * 14, "a" * 13 + "-2", "a" * 13 + "--b"):
            for number in (2, 3, 10, 12, 999, 1_000, 999_999):
                self.assertTrue(is_name_of_part(first, next_name(first, number, ())), (first, number))

    def test_a_peer_takes_no_other_name_by_naming_a_part(self) -> None:
        for name in ("bank", "bank-2", "shop", "shop-", "shop-1", "shop-0", "shop-02", "shop-2-2", "shop-x", "shop-2x", "sho-2", "shop--2", "-2", "", "2", "shop-1000000"):
            self.assertFalse(is_name_of_part("shop", name), name)
        self.assertFalse(is_name_of_part("a" * 16, "a" * 13 + "-2"))
        self.assertFalse(is_name_of_part("a" * 16, "a" * 15 + "-2"))

    def test_a_name_that_nobody_else_has_is_looked_for(self) -> None:
        self.assertIsNone(weigh_name("shop-2", "shop", {"shop", "bank", "shop-3"}))
        self.assertIs(weigh_name("shop-2", "shop", {"shop-2"}), Fault.TAKEN)
        self.assertIs(weigh_name("bank", "shop", {"bank"}), Fault.FOREIGN)
        self.assertIs(weigh_name("shop", "shop", ()), Fault.FOREIGN)
        self.assertIs(weigh_name(None, "shop", ()), Fault.UNNAMED)

    def test_a_thief_of_an_old_key_signs_behind_the_end(self) -> None:
        self.assertTrue(is_behind_end(END, END._replace(step=32)))
        self.assertFalse(is_behind_end(END, END))
        self.assertFalse(is_behind_end(END, END._replace(authenticator="2" * 64)))
        self.assertFalse(is_behind_end(END, END._replace(step=30)))


class Named(unittest.TestCase):
    """Which folders and names a service is made or goes on under."""

    def test_the_folder_of_a_part_is_not_named_by_itself(self) -> None:
        for name in ("part-2", "part-10", "part-999999"):
            self.assertTrue(is_folder_of_part(name, True), name)
            self.assertFalse(is_folder_of_part(name, False), name)
        for name in ("part", "part-0", "part-02", "part-2a", "parts-2", "xpart-2", "part-1000000", "log"):
            self.assertFalse(is_folder_of_part(name, True), name)

    def test_a_name_of_which_a_line_is_kept_is_anothers(self) -> None:
        for steps in ((1,), (0, 9), (7, 9)):
            self.assertTrue(is_name_of_other(steps), steps)
        self.assertFalse(is_name_of_other(()))
        self.assertFalse(is_name_of_other((0,)))


class Share(unittest.TestCase):
    """When a part is at its end."""

    def test_no_step_goes_above_the_share(self) -> None:
        self.assertFalse(must_go_on(90, 10, 100))
        self.assertTrue(must_go_on(90, 11, 100))
        self.assertTrue(must_go_on(101, 0, 100))


if __name__ == "__main__":
    unittest.main()
