"""Tests of lines in letters: how they are written, read, and what was typed wrong. The page's tests read the same texts, of letters.json."""

import json
import unittest
from pathlib import Path

from weft.deciding.letters import take_digits, words_of
from weft.deciding.letters import DIGITS, HEX, ROW, Fault, Slip, check_row, check_whole, find_slip, guess_of, read_typed, rows_of, write_letter
from weft.deciding.lines import Line

LINE = Line("shop", 2, "5585fc74c8b89378088d61ce37d82efe4c25f9ab0bbeb79b20a4618dce62a486")
TEXTS = json.loads((Path(__file__).parent / "letters.json").read_text())


def changed(text: str, place: int, digit: str) -> str:
    """A text with another letter at a place."""
    return text[:place] + digit + text[place + 1 :]


class Write(unittest.TestCase):
    """A line as a letter has it."""

    def test_it_has_rows_of_groups_with_their_letters(self) -> None:
        wanted = ["shop 2", "5585 fc74 c8b8 9378  RX", "088d 61ce 37d8 2efe  LP", "4c25 f9ab 0bbe b79b  RK", "20a4 618d ce62 a486  QJ", "THRN"]
        self.assertEqual(write_letter(LINE), wanted)

    def test_each_wrong_digit_is_seen_by_its_row_and_its_letters_tell_which(self) -> None:
        for number, row in enumerate(rows_of(LINE), 1):
            letters = check_row(row, number)
            for place in range(ROW):
                for digit in HEX.replace(row[place], ""):
                    typed = changed(row, place, digit)
                    self.assertNotEqual(check_row(typed, number), letters)
                    self.assertEqual(guess_of(typed, number, letters), Slip((place,), digit, row[place]))

    def test_two_swapped_digits_and_another_row_are_seen(self) -> None:
        for number, row in enumerate(rows_of(LINE), 1):
            for place in range(ROW - 1):
                swapped = row[:place] + row[place + 1] + row[place] + row[place + 2 :]
                self.assertEqual(check_row(swapped, number) == check_row(row, number), swapped == row)
            self.assertNotEqual(check_row(row, number), check_row(row, number + 1))

    def test_where_no_single_digit_fits_nothing_is_guessed(self) -> None:
        self.assertIsNone(guess_of("0" * ROW, 1, "GG"))
        self.assertIsNone(guess_of("5" + "0" * 15, 1, check_row("5" + "0" * 15, 1)))

    def test_the_letters_of_the_whole_hang_on_name_step_and_digits(self) -> None:
        others = [LINE._replace(service="shap"), LINE._replace(step=3), LINE._replace(authenticator=changed(LINE.authenticator, 5, "0"))]
        self.assertEqual(len({check_whole(it) for it in [LINE, *others]}), 4)


class Slips(unittest.TestCase):
    """Digests that differ so little that one was typed wrong."""

    def test_one_digit_and_two_neighbours_that_are_swapped(self) -> None:
        self.assertEqual(find_slip("5585", "5595"), Slip((2,), "8", "9"))
        self.assertEqual(find_slip("5585", "5855"), Slip((1, 2), "58", "85"))
        self.assertEqual(Slip((5,), "8", "9").where, "digit 2 of group 2")
        self.assertEqual(Slip((3, 4), "58", "85").where, "digit 4 of group 1 and digit 1 of group 2")

    def test_equal_ones_and_others_are_none(self) -> None:
        for one, other in (("5585", "5585"), ("1234", "1243"[::-1]), ("1234", "1299"), ("1234", "3214"), ("1234", "2134"[::-1]), ("1221", "2112")):
            self.assertIsNone(find_slip(one, other), (one, other))


class Read(unittest.TestCase):
    """Lines in texts."""

    def test_each_text_of_the_table(self) -> None:
        for it in TEXTS:
            read = read_typed(it["text"])
            found = [{**typed._asdict(), "fault": typed.fault.value if typed.fault else None} for typed in read.typed]
            self.assertEqual((found, read.others), (it["typed"], it["others"]), it["name"])

    def test_a_letter_is_read_as_it_was_written(self) -> None:
        for line in (LINE, Line("a", 0, "0" * DIGITS), Line("abba-1", 2**40 - 1, "f" * DIGITS), Line("7", 1234, "1234" * 16)):
            read = read_typed("\n".join(write_letter(line)))
            self.assertEqual(([it.line for it in read.typed], read.others), ([line], []))

    def test_each_fault_is_in_the_table(self) -> None:
        self.assertEqual({typed["fault"] for it in TEXTS for typed in it["typed"]} - {None}, {it.value for it in Fault})


class FirstDigits(unittest.TestCase):
    """Where the digits of a line begin."""

    def test_the_first_digits_are_no_next_line_though_they_begin_as_one(self) -> None:
        self.assertEqual(take_digits(words_of("shop 2\nbeef 12 cd"), 2).digits, "beef12cd")


if __name__ == "__main__":
    unittest.main()
