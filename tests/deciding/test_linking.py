"""Tests of which links are asked for, of what an answer means, and of when none is told."""

import unittest

from weft.deciding.linking import (
    MOST_TRIED, Meaning, Open, Pair, choose_base, count_night, is_evidence, list_loose, list_unheld, may_ask, must_tell, pair_of, read_link_files, read_open,
    weigh_all, weigh_answer,
)  # fmt: skip
from weft.deciding.lines import Line


def line(step: int, letter: str = "a", service: str = "liar") -> Line:
    """A line of this step."""
    return Line(service, step, letter * 64)


SIX, SEVEN = line(6), line(7, "b")


class Answers(unittest.TestCase):
    """What an answer means."""

    def test_the_earlier_line_under_the_later_one_joins_both(self) -> None:
        self.assertIs(weigh_answer(Pair(SIX, SEVEN), SIX), Meaning.JOINS)

    def test_another_line_of_the_earlier_step_shows_two_histories(self) -> None:
        self.assertIs(weigh_answer(Pair(SIX, SEVEN), line(6, "b")), Meaning.PARTS)

    def test_two_histories_are_evidence_by_good_signatures_alone(self) -> None:
        self.assertTrue(is_evidence(Meaning.PARTS, [True, True]))
        for are_good in ([True, False], [False, True], [False, False]):
            self.assertFalse(is_evidence(Meaning.PARTS, are_good))
        for meaning in (Meaning.JOINS, Meaning.NOTHING):
            self.assertFalse(is_evidence(meaning, [True, True]))

    def test_a_link_that_is_not_accepted_shows_nothing(self) -> None:
        self.assertIs(weigh_answer(Pair(SIX, SEVEN), None), Meaning.NOTHING)

    def test_a_link_of_another_step_or_service_shows_nothing(self) -> None:
        for given in (line(5), line(7, "b"), line(6, service="bank"), line(6, "b", service="bank")):
            self.assertIs(weigh_answer(Pair(SIX, SEVEN), given), Meaning.NOTHING)

    def test_the_later_line_of_both_is_the_one_that_is_judged_under(self) -> None:
        for found in (Open(SIX, SEVEN), Open(SEVEN, SIX)):
            self.assertEqual(found.pair, Pair(SIX, SEVEN))
            self.assertEqual((found.pair.request, found.pair.file_name), ("link 6 7", "link-6-7"))


class Choice(unittest.TestCase):
    """Which links are asked for."""

    def test_even_and_odd_steps_are_asked_for(self) -> None:
        self.assertTrue(may_ask(SEVEN, [line(2), line(4), SIX], []))
        self.assertTrue(may_ask(line(5, "b"), [line(2), line(4), SIX], []))

    def test_what_is_known_or_asked_for_is_not(self) -> None:
        self.assertFalse(may_ask(SIX, [SIX], []))
        self.assertFalse(may_ask(SEVEN, [SIX], [Open(SEVEN, SIX)]))
        self.assertTrue(may_ask(SEVEN, [SIX], [Open(line(7, "c"), SIX)]))

    def test_another_line_of_a_step_contradicts_without_a_link(self) -> None:
        self.assertFalse(may_ask(line(6, "b"), [SIX], []))

    def test_step_0_is_never_asked_for(self) -> None:
        self.assertFalse(may_ask(line(0), [SIX], []))
        self.assertTrue(may_ask(line(1), [SIX], []))

    def test_the_latest_line_is_what_others_are_held_against(self) -> None:
        self.assertEqual(choose_base([line(2), SIX, line(4)]), SIX)
        self.assertIsNone(choose_base([]))

    def test_the_newest_of_each_peer_is_tried_first(self) -> None:
        ann, bob = [line(3), line(9), line(5)], [line(8), line(4)]
        self.assertEqual(list_loose([ann, bob], [], [], 0), [line(9), line(8), line(5), line(4), line(3)])
        self.assertEqual(list_loose([ann, bob], [], [], 1), [line(8), line(9), line(4), line(5), line(3)])
        self.assertEqual(list_loose([ann, bob], [], [], 2), list_loose([ann, bob], [], [], 0))

    def test_each_line_is_tried_once_and_what_is_known_is_not(self) -> None:
        self.assertEqual(list_loose([[line(3), line(9)], [line(9)]], [line(3)], [], 0), [line(9)])
        self.assertEqual(list_loose([[line(3), line(9)]], [], [Open(line(9), line(3))], 0), [line(3)])
        self.assertEqual((list_loose([], [], [], 5), list_loose([[]], [], [], 5)), ([], []))

    def test_made_up_lines_of_one_peer_do_not_keep_anothers_from_being_tried(self) -> None:
        made_up = [line(1_000 + number, "f") for number in range(100)]
        for turn in range(4):
            tried = list_loose([made_up, [SEVEN], []], [SIX], [], turn)
            self.assertEqual(len(tried), MOST_TRIED)
            self.assertIn(SEVEN, tried)

    def test_of_many_liars_no_one_keeps_an_honest_peers_line_from_being_tried(self) -> None:
        liars = [[line(1_000 + 10 * number + each, "f") for each in range(9)] for number in range(30)]
        self.assertTrue(any(SEVEN in list_loose([*liars, [SEVEN]], [SIX], [], turn) for turn in range(31)))


class Nights(unittest.TestCase):
    """When it is told that no link came."""

    def test_none_in_three_nights_is_told(self) -> None:
        found, told = Open(SEVEN, SIX), []
        for _ in range(6):
            found = count_night(found, True, 3)
            told.append(must_tell(found, 3))
        self.assertEqual(told, [False, False, False, True, True, True])
        self.assertEqual(found.nights, 4)

    def test_a_turn_without_anything_new_of_the_service_does_not_count(self) -> None:
        self.assertEqual(count_night(Open(SEVEN, SIX, 2), False, 3), Open(SEVEN, SIX, 2))

    def test_an_answer_that_does_not_fit_is_told_at_once(self) -> None:
        self.assertTrue(must_tell(Open(SEVEN, SIX, 0, True), 3))
        self.assertTrue(must_tell(Open(SEVEN, SIX, 0, True), 0))

    def test_with_a_limit_of_0_silence_is_never_told(self) -> None:
        found = Open(SEVEN, SIX)
        for _ in range(9):
            found = count_night(found, True, 0)
        self.assertFalse(must_tell(found, 0))


class Held(unittest.TestCase):
    """Lines that a user keeps of a peer's next part."""

    def test_those_of_whose_steps_what_came_shows_nothing_are_held_by_a_link(self) -> None:
        self.assertEqual(list_unheld([SIX, SEVEN], [line(6, "b")]), [SEVEN])
        self.assertEqual(list_unheld([line(0), SIX], []), [SIX])
        self.assertEqual(list_unheld([SIX], [line(6, service="bank")]), [SIX])

    def test_a_pair_has_the_earlier_line_first(self) -> None:
        self.assertEqual(pair_of(SEVEN, SIX), Pair(SIX, SEVEN))
        self.assertEqual(pair_of(SIX, SEVEN), Pair(SIX, SEVEN))

    def test_all_have_to_join_and_one_that_parts_is_enough(self) -> None:
        self.assertIs(weigh_all([]), Meaning.JOINS)
        self.assertIs(weigh_all([Meaning.JOINS, Meaning.JOINS]), Meaning.JOINS)
        self.assertIs(weigh_all([Meaning.JOINS, Meaning.NOTHING]), Meaning.NOTHING)
        self.assertIs(weigh_all([Meaning.NOTHING, Meaning.PARTS, Meaning.JOINS]), Meaning.PARTS)


class Kept(unittest.TestCase):
    """What is kept from turn to turn."""

    def test_what_is_kept_is_read_again(self) -> None:
        for found in (Open(SEVEN, SIX), Open(SIX, SEVEN, 12, True)):
            self.assertEqual(read_open(found.text), found)

    def test_what_is_none_is_left_out(self) -> None:
        good = Open(SEVEN, SIX).text
        bank = Open(line(7, service="bank"), SIX).text
        same = Open(line(6, "b"), SIX).text
        for text in ("", good + " x", good[:-1], good.replace("open", "shut"), "x" + good, "-" + good, bank, same, f"0 open {SIX.text}"):
            self.assertIsNone(read_open(text), text)

    def test_links_that_show_two_histories_are_known_by_their_names(self) -> None:
        names = ["link-16-17", f"6-{'a' * 64}", "link-6-7", "link-6", "link-6-7.new", "xlink-6-7", "link-06-7"]
        self.assertEqual(read_link_files(names), [(6, 7), (16, 17)])


if __name__ == "__main__":
    unittest.main()
