"""Tests of which kept lines a file is held against, which are missing, whom to ask, and what is said first."""

import unittest

from weft.deciding.choosing import (
    Beside, Chosen, Extent, Headline, HeldHistory, Needed, choose_headline, choose_headline_unheld, choose_history_headline, choose_holders, choose_later_step,
    choose_lines,
    choose_older_step, choose_unknown, choose_whom_to_ask, hold_history, hold_line, list_received, measure_extent,
)  # fmt: skip
from weft.deciding.lines import Line

OWN = [digit * 64 for digit in "01234567"]
TRUE = [Line("registry", step, auth) for step, auth in enumerate(OWN)]


def other(step: int, service: str = "registry") -> Line:
    """A line of this step of another history."""
    return Line(service, step, "f" * 64)


class HoldLine(unittest.TestCase):
    """A line that a file tells beside the kept ones."""

    def test_the_kept_line_of_its_step_is_the_same_or_another(self) -> None:
        self.assertIs(hold_line(TRUE[3], [TRUE[2], TRUE[3]]), Beside.SAME)
        self.assertIs(hold_line(TRUE[3], [TRUE[2], other(3)]), Beside.OTHER)

    def test_lines_of_other_steps_and_services_tell_nothing(self) -> None:
        self.assertIs(hold_line(TRUE[3], []), Beside.NONE)
        self.assertIs(hold_line(TRUE[3], [other(2), other(4), other(3, "bank")]), Beside.NONE)

    def test_a_carried_line_that_contradicts_one_of_two_kept_ones_is_another(self) -> None:
        self.assertIs(hold_line(TRUE[3], [TRUE[3], other(3)]), Beside.OTHER)
        self.assertIs(hold_line(TRUE[3], [other(3), TRUE[3]]), Beside.OTHER)


class HoldHistory(unittest.TestCase):
    """A history beside all kept lines of its service."""

    def test_it_is_bound_up_to_the_last_step_whose_line_agrees(self) -> None:
        held = hold_history(OWN, [TRUE[2], TRUE[5], TRUE[4]])
        self.assertEqual(held, HeldHistory([], [TRUE[2], TRUE[4], TRUE[5]], TRUE[5]))

    def test_the_last_step_of_the_file_counts(self) -> None:
        self.assertEqual(hold_history(OWN, [TRUE[7]]).bound, TRUE[7])

    def test_a_history_made_anew_is_contradicted_by_a_kept_line_of_an_earlier_step(self) -> None:
        anew = OWN[:3] + [digit * 64 for digit in "abcde"]
        last = Line("registry", 7, anew[7])
        held = hold_history(anew, [TRUE[3], last])
        self.assertEqual(held, HeldHistory([TRUE[3]], [last], last))
        self.assertIs(measure_extent(held, 7), Extent.CONTRADICTED)
        self.assertIs(measure_extent(held, 2), Extent.CONTRADICTED)

    def test_lines_of_steps_that_the_file_lacks_bind_nothing_and_show_that_it_was_cut(self) -> None:
        held = hold_history(OWN, [other(9), other(8)])
        self.assertEqual(held, HeldHistory([], [], None, 9))
        self.assertEqual(hold_history(OWN, [TRUE[7], other(8)]), HeldHistory([], [TRUE[7]], TRUE[7], 8))
        self.assertIsNone(hold_history(OWN, [TRUE[7]]).beyond)

    def test_a_line_of_step_0_says_nothing_of_a_history(self) -> None:
        self.assertEqual(hold_history(OWN, [other(0), TRUE[0]]), HeldHistory([], [], None))
        self.assertEqual(hold_history(OWN, [other(0), TRUE[4]]), HeldHistory([], [TRUE[4]], TRUE[4]))

    def test_under_two_kept_lines_of_one_step_nothing_is_bound(self) -> None:
        held = hold_history(OWN, [TRUE[4], other(4), TRUE[2], TRUE[2]])
        self.assertEqual(held, HeldHistory([other(4)], [TRUE[2], TRUE[4]], TRUE[2]))


class ListReceived(unittest.TestCase):
    """The lines that a history shows as received."""

    def test_they_are_those_of_its_steps_up_to_the_one_that_is_bound_each_once(self) -> None:
        threads = [None, other(3, "shop"), other(0, "port"), other(3, "shop"), other(4, "shop")]
        self.assertEqual(list_received(threads, 4), [other(3, "shop")])
        self.assertEqual(list_received(threads, 5), [other(3, "shop"), other(4, "shop")])
        self.assertEqual(list_received(threads, 1), [])


class MeasureExtent(unittest.TestCase):
    """How far a history is bound."""

    def test_it_is_shown_up_to_the_step_that_is_asked_about(self) -> None:
        held = hold_history(OWN, [TRUE[4]])
        self.assertIs(measure_extent(held, 4), Extent.WHOLE)
        self.assertIs(measure_extent(held, 3), Extent.WHOLE)

    def test_what_stands_behind_the_bound_step_is_the_files_word_alone(self) -> None:
        self.assertIs(measure_extent(hold_history(OWN, [TRUE[4]]), 5), Extent.PART)
        self.assertIs(measure_extent(hold_history(OWN, [TRUE[1]]), 7), Extent.PART)

    def test_without_a_line_nothing_is_bound(self) -> None:
        self.assertIs(measure_extent(hold_history(OWN, []), 1), Extent.UNBOUND)

    def test_a_line_of_step_0_binds_nothing(self) -> None:
        self.assertIs(measure_extent(hold_history(OWN, [TRUE[0]]), 1), Extent.UNBOUND)


class ChooseLines(unittest.TestCase):
    """The lines that a file needs."""

    def test_all_missing_lines_are_told_at_once(self) -> None:
        needed = [Needed("shop", 3), Needed("bank", 17), Needed("port", 14), Needed("bank", 17)]
        held = Line("shop", 3, "a" * 64)
        self.assertEqual(choose_lines(needed, {needed[0]: held}), Chosen([held], [Needed("bank", 17), Needed("port", 14)], None))

    def test_a_line_of_another_step_does_not_do(self) -> None:
        self.assertEqual(choose_lines([Needed("shop", 3)], {Needed("shop", 4): Line("shop", 4, "a" * 64)}), Chosen([], [Needed("shop", 3)], None))

    def test_two_steps_of_one_service_are_told(self) -> None:
        needed = [Needed("shop", 3), Needed("shop", 4), Needed("bank", 1), Needed("bank", 2)]
        lines = {it: Line(*it, "a" * 64) for it in needed}
        self.assertEqual(choose_lines(needed, lines), Chosen([lines[needed[0]], lines[needed[2]]], [], "shop"))
        self.assertIsNone(choose_lines([needed[0], needed[0]], lines).clashing)


class ChooseWhomToAsk(unittest.TestCase):
    """Who may have a missing line."""

    def test_the_keeper_in_dispute_is_never_asked_for_a_fresh_line(self) -> None:
        self.assertEqual(choose_whom_to_ask("shop", ["shop", "bank", "shop"], {"shop", "bank"}), ["bank"])
        self.assertEqual(choose_whom_to_ask("shop", ["shop"], {"shop"}), [])
        self.assertEqual(choose_unknown("shop", ["shop"], set()), [])

    def test_nobody_is_sent_to_whom_an_unjudged_file_names_alone(self) -> None:
        recorders = ["evil", "bank", "evil"]
        self.assertEqual(choose_whom_to_ask("shop", recorders, {"bank"}), ["bank"])
        self.assertEqual(choose_whom_to_ask("shop", recorders, set()), [])
        self.assertEqual(choose_unknown("shop", recorders, {"bank"}), ["evil"])
        self.assertEqual(choose_unknown("shop", recorders, {"bank", "evil"}), [])

    def test_each_recorder_is_named_once_and_three_at_most(self) -> None:
        self.assertEqual(choose_whom_to_ask("shop", ["e", "a", "e", "c", "d"], set("acde")), ["e", "a", "c"])
        self.assertEqual(choose_unknown("shop", ["e", "a", "e", "c", "d"], set()), ["e", "a", "c"])


class ChooseSteps(unittest.TestCase):
    """Under which other kept lines the same can be proved."""

    def test_an_older_line_is_the_first_one_from_the_proved_step_on(self) -> None:
        self.assertEqual(choose_older_step([1, 3, 5, 8], 3, 8), 3)
        self.assertEqual(choose_older_step([8, 5, 4], 3, 8), 4)
        self.assertIsNone(choose_older_step([1, 2, 8, 9], 3, 8))
        self.assertIsNone(choose_older_step([], 3, 8))

    def test_a_later_line_is_the_first_one_above(self) -> None:
        self.assertEqual(choose_later_step([9, 3, 7], 6), 7)
        self.assertIsNone(choose_later_step([6, 3], 6))


class ChooseHeadline(unittest.TestCase):
    """What is said first."""

    def test_what_is_accepted_is_shown(self) -> None:
        self.assertIs(choose_headline(True, 0, False, False, False), Headline.SHOWN)

    def test_what_isnt_accepted_isnt_shown(self) -> None:
        self.assertIs(choose_headline(False, 0, False, False, False), Headline.NOT_SHOWN)

    def test_what_somebodys_word_carries_is_shown_in_part(self) -> None:
        for is_accepted in (True, False):
            self.assertIs(choose_headline(is_accepted, 1, False, False, False), Headline.IN_PART)

    def test_where_a_line_is_missing_nothing_is_judged(self) -> None:
        self.assertIs(choose_headline(False, 0, True, False, False), Headline.NOT_JUDGED)
        self.assertIs(choose_headline(False, 0, True, False, True), Headline.NOT_JUDGED)

    def test_a_wrong_file_isnt_shown_by_a_good_proof_of_another_one(self) -> None:
        self.assertIs(choose_headline(True, 0, False, False, True), Headline.NOT_SHOWN)
        self.assertIs(choose_headline(True, 1, False, False, True), Headline.NOT_SHOWN)

    def test_what_contradicts_a_kept_line_isnt_shown(self) -> None:
        self.assertIs(choose_headline(True, 1, True, True, False), Headline.NOT_SHOWN)
        self.assertIs(choose_headline(True, 0, False, True, False), Headline.NOT_SHOWN)


class ChooseHeadlineUnheld(unittest.TestCase):
    """What is said first where a file that it is to be held against can't be read."""

    def test_nothing_is_called_shown(self) -> None:
        for found in (Headline.SHOWN, Headline.IN_PART, Headline.NOT_JUDGED):
            self.assertIs(choose_headline_unheld(found), Headline.NOT_JUDGED)

    def test_what_isnt_shown_stays_so(self) -> None:
        self.assertIs(choose_headline_unheld(Headline.NOT_SHOWN), Headline.NOT_SHOWN)


class ChooseHistoryHeadline(unittest.TestCase):
    """What is said first of a history."""

    def test_how_far_it_is_bound_is_said(self) -> None:
        wanted = {
            Extent.CONTRADICTED: Headline.NOT_SHOWN, Extent.WHOLE: Headline.SHOWN, Extent.PART: Headline.IN_PART, Extent.UNBOUND: Headline.NOT_JUDGED,
        }  # fmt: skip
        self.assertEqual({extent: choose_history_headline(extent) for extent in Extent}, wanted)


class Holders(unittest.TestCase):
    """Who may have a line that somebody lacks."""

    def test_those_who_received_that_step_or_a_later_one_the_earliest_first(self) -> None:
        received = [("registry", 7, "port"), ("registry", 5, "bank"), ("registry", 4, "mill"), ("bank", 9, "mill"), ("registry", 5, "bank")]
        known = ["port", "bank", "mill"]
        self.assertEqual(choose_holders(Needed("registry", 5), received, known), ["bank", "port"])
        self.assertEqual(choose_holders(Needed("registry", 8), received, known), [])

    def test_nobody_whom_receipts_name_alone(self) -> None:
        received = [("registry", 5, "made-up"), ("registry", 6, "bank")]
        self.assertEqual(choose_holders(Needed("registry", 5), received, ["bank"]), ["bank"])

    def test_never_the_keeper_and_three_at_most(self) -> None:
        received = [("registry", 5, name) for name in ("registry", "a", "b", "c", "d")]
        self.assertEqual(choose_holders(Needed("registry", 5), received, ["registry", "a", "b", "c", "d"]), ["a", "b", "c"])


if __name__ == "__main__":
    unittest.main()
