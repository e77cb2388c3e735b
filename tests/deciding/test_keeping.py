"""Tests of what becomes of a line beside others of its step: both of two that differ are kept, and neither counts until one is chosen."""

import unittest

from weft.deciding.keeping import (
    Counting, Mark, Outcome, Placement, Standing, choose_line, find_standing_choice, is_anothers, is_of_system, list_counting, may_be_mistyped, may_be_sent, may_come_beside, place_line, read_mark,
    standing_of, was_passed_over,
)  # fmt: skip
from weft.deciding.lines import LAST_STEP, Kept, Line

A, B, C = "a" * 64, "b" * 64, "c" * 64
DAY = "2026-11-29T09:40:00Z"
NEXT = "2026-11-30T09:40:00Z"
LAST = "2026-12-01T09:40:00Z"


def kept(authenticator: str, how: str = "by letter", date: str = DAY) -> Kept:
    """A kept line of one step."""
    return Kept(Line("shop", 2, authenticator), date, how)


def seen(*authenticators: str, date: str = DAY) -> Mark:
    """That lines were seen that differ."""
    return Mark(False, "shop", 2, authenticators, date, "")


def chosen(*authenticators: str, date: str = NEXT, how: str = "by telephone") -> Mark:
    """That the first one was chosen over the others."""
    return Mark(True, "shop", 2, authenticators, date, how)


class Marks(unittest.TestCase):
    """The lines of a file that tell of contradictions."""

    def test_a_mark_is_read_as_it_is_written(self) -> None:
        for mark, text in (
            (seen(A, B), f"contradiction: shop 2 {A} {B} {DAY}"), (seen(A, B, C), f"contradiction: shop 2 {A} {B} {C} {DAY}"),
            (chosen(B, A), f"chosen: shop 2 {B} {A} {NEXT} by telephone"), (chosen(B, A, date="", how=""), f"chosen: shop 2 {B} {A}"),
            (chosen(B, A, how="two  blanks "), f"chosen: shop 2 {B} {A} {NEXT} two  blanks "),
        ):  # fmt: skip
            self.assertEqual(mark.text, text)
            self.assertEqual(read_mark(text), mark)

    def test_capital_digits_are_the_same(self) -> None:
        self.assertEqual(read_mark(f"chosen: shop 2 {A.upper()} {B} {NEXT} by telephone"), chosen(A, B))

    def test_what_isnt_one_is_none(self) -> None:
        for text in (
            "", f"shop 2 {A}", f"chosen: shop 2 {A}", f"contradiction: shop 2 {A}", f"chosen: shop 2 {A} {DAY} {B}", f"chosen shop 2 {A} {B}",
            f"other: shop 2 {A} {B}", f"chosen: shop {LAST_STEP + 1} {A} {B}", f"chosen: shop 02 {A} {B}", f"chosen: Shop 2 {A} {B}", f" chosen: shop 2 {A} {B}",
            f"chosen: shop 2 {A}  {B}", f"chosen: {'s' * 17} 2 {A} {B}", f"chosen: shop 2 {A} {B} {DAY}\n",
        ):  # fmt: skip
            self.assertIsNone(read_mark(text), text)
        self.assertIsNotNone(read_mark(f"chosen: shop {LAST_STEP} {A} {B}"))


class Files(unittest.TestCase):
    """A file of kept lines that isn't there."""

    def test_one_that_somebody_named_may_be_mistyped(self) -> None:
        self.assertTrue(may_be_mistyped(True, False))
        for is_named, is_there in ((True, True), (False, True), (False, False)):
            self.assertFalse(may_be_mistyped(is_named, is_there))

    def test_one_that_is_named_from_the_current_folder_on_may_have_been_sent(self) -> None:
        self.assertEqual([may_be_sent(named) for named in ("signers", "./signers", "~/signers", "/home/a/signers", "")], [True, True, True, False, False])

    def test_what_comes_beside_a_line_may_take_the_place_of_what_came_beside_one(self) -> None:
        for named in (f"shop 2 {A}\n".encode(), f"shop 2 {A}".encode(), b"# The line of step 2 of shop. Behind"):
            self.assertTrue(may_come_beside(named))
        for other in (None, b"", b"thesis", f"shop 2 {A}\n\n".encode(), f"x\nshop 2 {A}\n".encode(), f"shop 2 {A}\nx".encode(), b"The line of step 2", b"\xff"):
            self.assertFalse(may_come_beside(other))

    def test_which_links_are_the_systems(self) -> None:
        for folder in ("/dev", "/dev/fd", "/proc/self/fd", "/sys"):
            self.assertTrue(is_of_system(folder))
        for folder in ("/", "/srv", "/devices", "/dev/shm", "/dev/shm/a", "/srv/dev"):
            self.assertFalse(is_of_system(folder))


class Owners(unittest.TestCase):
    """Whose a file is that somebody may have made before."""

    def test_neither_this_users_nor_the_systems(self) -> None:
        self.assertEqual([is_anothers(owner, own) for owner, own in ((1000, (1001,)), (1000, (1000,)), (0, (1000,)), (1000, (0, 1000)), (1, ()))], [True, False, False, False, True])


class CountingLines(unittest.TestCase):
    """What counts of lines that came by signatures, by the keys that are noted now."""

    OLD, NEW = f"SHA256:{'o' * 43}", f"SHA256:{'n' * 43}"

    def by(self, authenticator: str, key: str) -> Kept:
        """A line that came by the signature of a key."""
        return kept(authenticator, f"signed by ED25519 {key}, by exchange")

    def test_a_line_of_a_key_that_was_taken_out_contradicts_nothing(self) -> None:
        both, mark = [self.by(A, self.OLD), self.by(B, self.NEW)], seen(A, B)
        self.assertEqual(list_counting(both, [mark], {self.NEW}), Counting([both[1]], []))
        self.assertEqual(list_counting(both, [mark], {self.OLD}), Counting([both[0]], []))
        self.assertEqual(list_counting(both, [mark], {self.OLD, self.NEW}), Counting(both, [mark]))
        self.assertEqual(list_counting(both, [mark], set()), Counting([], []))

    def test_one_that_came_by_a_person_too_counts(self) -> None:
        letter = kept(A)
        lines = [self.by(A, self.OLD), letter, self.by(B, self.NEW)]
        self.assertEqual(list_counting(lines, [seen(A, B)], {self.NEW}), Counting([letter, lines[2]], [seen(A, B)]))

    def test_what_else_was_seen_of_the_step_is_not_forgotten(self) -> None:
        lines = [self.by(A, self.OLD), self.by(B, self.NEW)]
        self.assertEqual(list_counting(lines, [seen(A, B, C)], {self.NEW}), Counting(lines[1:], [seen(A, B, C)]))
        self.assertEqual(list_counting(lines[1:], [seen(A, B)], {self.NEW}), Counting(lines[1:], [seen(A, B)]))

    def test_a_choice_stays(self) -> None:
        lines = [self.by(A, self.OLD), self.by(B, self.NEW)]
        self.assertEqual(list_counting(lines, [seen(A, B), chosen(B, A)], {self.NEW}), Counting(lines[1:], [chosen(B, A)]))


class Standings(unittest.TestCase):
    """Which line of a step counts."""

    def test_the_only_line_counts(self) -> None:
        self.assertEqual(standing_of([kept(A)], []), Standing(kept(A).line, (A,), None))
        self.assertEqual(standing_of([kept(A), kept(A, "by mail")], []).line, kept(A).line)
        self.assertEqual(standing_of([], []), Standing(None, (), None))

    def test_of_two_lines_that_differ_neither_counts(self) -> None:
        for marks in (list[Mark](), [seen(A, B)]):
            found = standing_of([kept(A), kept(B)], marks)
            self.assertEqual(found, Standing(None, (A, B), None))
            self.assertTrue(found.is_disputed)
        self.assertFalse(standing_of([kept(A)], []).is_disputed)
        self.assertFalse(standing_of([], []).is_disputed)

    def test_the_chosen_one_counts_and_that_they_differed_stays(self) -> None:
        for line, mark in ((A, chosen(A, B)), (B, chosen(B, A))):
            found = standing_of([kept(A), kept(B)], [seen(A, B), mark])
            self.assertEqual(found, Standing(kept(line).line, (A, B), mark))
            self.assertFalse(found.is_disputed)

    def test_a_line_that_was_seen_is_not_forgotten_when_it_is_taken_out(self) -> None:
        found = standing_of([kept(A)], [seen(A, B)])
        self.assertEqual((found.line, found.is_disputed), (None, True))
        self.assertEqual(standing_of([kept(A)], [chosen(A, B)]).line, kept(A).line)
        self.assertTrue(standing_of([], [seen(A, B)]).is_disputed)

    def test_without_the_chosen_line_none_counts(self) -> None:
        found = standing_of([kept(B)], [chosen(A, B)])
        self.assertEqual((found.line, found.is_disputed), (None, False))

    def test_a_further_line_that_differs_opens_it_again(self) -> None:
        found = standing_of([kept(A), kept(B), kept(C)], [seen(A, B), chosen(A, B)])
        self.assertEqual((found.line, found.is_disputed, found.authenticators), (None, True, (A, B, C)))
        found = standing_of([kept(A), kept(B), kept(C)], [seen(A, B), chosen(A, B), seen(A, B, C), chosen(C, A, B)])
        self.assertEqual(found.line, kept(C).line)

    def test_the_last_choice_counts(self) -> None:
        marks = [chosen(A, B), chosen(B, A, date=LAST)]
        for order in (marks, marks[::-1]):
            self.assertEqual(standing_of([kept(A), kept(B)], order).line, kept(B).line)

    def test_two_choices_of_one_moment_that_differ_are_none(self) -> None:
        found = standing_of([kept(A), kept(B)], [chosen(A, B), chosen(B, A)])
        self.assertEqual((found.line, found.is_disputed), (None, True))
        self.assertEqual(standing_of([kept(A), kept(B)], [chosen(A, B), chosen(A, B, how="again")]).line, kept(A).line)

    def test_a_later_mark_of_the_same_lines_undoes_no_choice(self) -> None:
        self.assertEqual(standing_of([kept(A), kept(B)], [chosen(A, B), seen(B, A, date=LAST)]).line, kept(A).line)


class PassedOver(unittest.TestCase):
    """Whether a person has said what a line that doesn't count is."""

    def test_it_is_where_a_standing_choice_took_another_one(self) -> None:
        standing = standing_of([kept(B)], [chosen(B, A)])
        self.assertTrue(was_passed_over(kept(A).line, standing))
        self.assertFalse(was_passed_over(kept(B).line, standing))
        self.assertFalse(was_passed_over(kept(C).line, standing))

    def test_without_a_standing_choice_it_isnt(self) -> None:
        for standing in (standing_of([kept(B)], []), standing_of([kept(B)], [seen(A, B)]), standing_of([kept(B), kept(C)], [chosen(B, A)])):
            self.assertFalse(was_passed_over(kept(A).line, standing))


class Placing(unittest.TestCase):
    """What becomes of a line that is to be kept."""

    def test_a_line_is_added_once_for_each_way_in_which_it_came(self) -> None:
        self.assertEqual(place_line(kept(A), [], []), Placement(Outcome.NEW, (kept(A),)))
        again = kept(A, date=NEXT)
        self.assertEqual(place_line(again, [kept(A)], []), Placement(Outcome.KNOWN, ()))
        self.assertEqual(place_line(kept(A, "by mail"), [kept(A)], []), Placement(Outcome.NEW, (kept(A, "by mail"),)))

    def test_the_second_letter_leaves_a_trace(self) -> None:
        second = kept(B, date=NEXT)
        found = place_line(second, [kept(A)], [])
        self.assertEqual(found, Placement(Outcome.CONTRADICTING, (second, seen(A, B, date=NEXT))))
        after = standing_of([kept(A), second], [seen(A, B, date=NEXT)])
        self.assertTrue(after.is_disputed)

    def test_a_line_of_two_that_differ_is_told_each_time(self) -> None:
        both, marks = [kept(A), kept(B)], [seen(A, B)]
        self.assertEqual(place_line(kept(A, date=NEXT), both, marks), Placement(Outcome.CONTRADICTING, ()))
        self.assertEqual(place_line(kept(B, "by mail"), both, marks), Placement(Outcome.CONTRADICTING, (kept(B, "by mail"),)))

    def test_two_that_were_put_there_by_hand_are_marked(self) -> None:
        self.assertEqual(place_line(kept(A, date=NEXT), [kept(A), kept(B)], []), Placement(Outcome.CONTRADICTING, (seen(A, B, date=NEXT),)))

    def test_beside_a_choice(self) -> None:
        both, marks = [kept(A), kept(B)], [seen(A, B), chosen(A, B)]
        self.assertEqual(place_line(kept(A), both, marks), Placement(Outcome.KNOWN, ()))
        self.assertEqual(place_line(kept(A, "by mail"), both, marks), Placement(Outcome.NEW, (kept(A, "by mail"),)))
        self.assertEqual(place_line(kept(B), both, marks), Placement(Outcome.NOT_CHOSEN, ()))
        self.assertEqual(place_line(kept(B, "by mail"), both, marks), Placement(Outcome.NOT_CHOSEN, (kept(B, "by mail"),)))
        third = kept(C, date=LAST)
        self.assertEqual(place_line(third, both, marks), Placement(Outcome.CONTRADICTING, (third, seen(A, B, C, date=LAST))))


class StandingChoices(unittest.TestCase):
    """Whether a new choice counts beside the earlier ones."""

    def test_a_choice_counts_behind_all_earlier_dates(self) -> None:
        self.assertIsNone(find_standing_choice(chosen(B, A, date=LAST), [seen(A, B), chosen(A, B, date=DAY), chosen(B, A)]))
        self.assertIsNone(find_standing_choice(chosen(B, A), []))

    def test_a_clock_that_was_set_back_makes_no_choice_that_does_not_count(self) -> None:
        earlier = [chosen(A, B, date=NEXT), chosen(A, B, date=LAST), chosen(B, A, date=NEXT)]
        for order in (earlier, earlier[::-1]):
            self.assertEqual(find_standing_choice(chosen(B, A, date=DAY), order), chosen(A, B, date=LAST))

    def test_nor_does_a_second_choice_of_one_moment(self) -> None:
        self.assertEqual(find_standing_choice(chosen(B, A), [chosen(A, B)]), chosen(A, B))

    def test_marks_and_choices_of_other_lines_stand_over_none(self) -> None:
        self.assertIsNone(find_standing_choice(chosen(B, A, date=DAY), [seen(A, B, date=LAST), chosen(A, B, C, date=LAST)]))


class Choosing(unittest.TestCase):
    """What a choice writes."""

    def test_a_line_is_chosen_over_all_others_that_were_seen(self) -> None:
        both = [kept(A), kept(B)]
        self.assertEqual(choose_line(kept(B).line, both, [seen(A, B)], NEXT, "by telephone"), chosen(B, A))
        self.assertEqual(choose_line(kept(B).line, [kept(B)], [seen(A, C, B)], NEXT, "by telephone"), chosen(B, A, C))

    def test_nothing_is_chosen_where_there_is_no_other_line(self) -> None:
        self.assertIsNone(choose_line(kept(A).line, [kept(A)], [], NEXT, "by telephone"))
        self.assertIsNone(choose_line(kept(A).line, [], [], NEXT, "by telephone"))

    def test_what_is_chosen_isnt_chosen_twice_and_may_be_chosen_otherwise(self) -> None:
        both, marks = [kept(A), kept(B)], [seen(A, B), chosen(A, B)]
        self.assertIsNone(choose_line(kept(A).line, both, marks, LAST, "again"))
        self.assertEqual(choose_line(kept(B).line, both, marks, LAST, "by telephone"), chosen(B, A, date=LAST))


if __name__ == "__main__":
    unittest.main()
