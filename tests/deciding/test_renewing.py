"""Tests of when stamps are renewed by themselves, and of what is noted of them."""

import unittest

from weft.deciding.lines import Line
from weft.deciding.renewing import (
    DAY, LEAD, MOST_A_NIGHT, MOST_DAYS, Note, choose_looked_at, find_end, first_due, is_worth_keeping, last_of, line_of_stamp, read_notes, when_due,
)

NOW = 1_800_000_000
NAME, OTHER = f"12-{'ab' * 32}-{'0' * 32}.stamp", f"3-{'cd' * 32}-{'1' * 32}-{'2' * 32}.stamp"
NOTE = Note(NAME, 100, NOW, NOW + 5, "tsa")


class Ends(unittest.TestCase):
    """When a stamp counts no more, and when it is renewed."""

    def test_the_end_is_found_to_the_day(self) -> None:
        for days in (0, 1, 2, 90, 3650, MOST_DAYS - 1):
            self.assertEqual(find_end(lambda moment, days=days: moment <= NOW + days * DAY, NOW), NOW + days * DAY)  # type: ignore[misc]
            self.assertEqual(find_end(lambda moment, days=days: moment < NOW + (days + 1) * DAY, NOW), NOW + days * DAY)  # type: ignore[misc]
        self.assertEqual(find_end(lambda moment: True, NOW), NOW + (MOST_DAYS - 1) * DAY)

    def test_it_is_due_90_days_before_or_in_the_last_third(self) -> None:
        for days, due in ((3650, 3560), (271, 181), (270, 180), (269, 179 + 1 / 3), (3, 2), (0, 0)):
            self.assertEqual(when_due(NOW, NOW + days * DAY), NOW + due * DAY)
        self.assertEqual(when_due(NOW, NOW - 5), NOW - 5)
        self.assertEqual(LEAD, 90 * DAY)

    def test_a_renewal_that_counts_no_longer_is_not_kept(self) -> None:
        self.assertEqual([is_worth_keeping(5, it) for it in (4, 5, 6)], [False, False, True])


class Notes(unittest.TestCase):
    """What is noted of stamps."""

    def test_what_is_written_is_read_and_other_rows_are_passed_over(self) -> None:
        second = Note(OTHER, 7, 8, 9, "other-1")
        self.assertEqual(read_notes(f"{NOTE.text}\n{second.text}\n"), {NAME: NOTE, OTHER: second})
        for bad in ("", "x 1 2 3 tsa", f"{NAME} 1 2 3", f"{NAME} -1 2 3 tsa", f"{NAME} 1 2 x tsa", f"{NAME} 1 2 3 ../up", f"{NAME} 1 2 3 tsa more", f" {NOTE.text}"):
            self.assertEqual(read_notes(f"{bad}\n{second.text}"), {OTHER: second}, bad)

    def test_the_line_stands_in_the_name(self) -> None:
        self.assertEqual(line_of_stamp("shop", NAME), Line("shop", 12, "ab" * 32))
        self.assertEqual(line_of_stamp("shop", OTHER), Line("shop", 3, "cd" * 32))
        for bad in ("noted", NAME + ".new", NAME[:-6], f"x-{'ab' * 32}-{'0' * 32}.stamp", f"1-{'ab' * 31}-{'0' * 32}.stamp", f"1-{'ab' * 32}.stamp"):
            self.assertIsNone(line_of_stamp("shop", bad), bad)

    def test_tonight_are_looked_at_what_is_new_or_changed_and_then_what_is_due(self) -> None:
        notes = {NAME: NOTE}
        self.assertEqual(choose_looked_at({NAME: 100}, notes, NOW), [])
        self.assertEqual(choose_looked_at({NAME: 100}, notes, NOW + 4), [])
        self.assertEqual(choose_looked_at({NAME: 100}, notes, NOW + 5), [NAME])
        self.assertEqual(choose_looked_at({NAME: 101}, notes, NOW), [NAME])
        self.assertEqual(choose_looked_at({NAME: 101}, notes, NOW + 5), [NAME])
        self.assertEqual(choose_looked_at({NAME: 100, OTHER: 1}, notes, NOW + 5), [OTHER, NAME])
        self.assertEqual(choose_looked_at({}, notes, NOW + 5), [])
        many = {f"{number}": 1 for number in range(MOST_A_NIGHT + 1)}
        self.assertEqual(len(choose_looked_at(many, {}, NOW)), MOST_A_NIGHT)
        late = {name: Note(name, 1, 0, NOW - int(name), "tsa") for name in many}
        self.assertEqual(choose_looked_at(many, late, NOW), [str(number) for number in range(MOST_A_NIGHT, 0, -1)])

    def test_the_last_stamp_and_the_next_renewal(self) -> None:
        second = Note(OTHER, 7, NOW + 1, NOW + 4, "tsa")
        self.assertEqual([last_of([]), first_due([])], [None, None])
        for notes in ([NOTE, second], [second, NOTE]):
            self.assertEqual([last_of(notes), first_due(notes)], [second, NOW + 4])


if __name__ == "__main__":
    unittest.main()
