"""Tests of what stands of the lines that a turn saw of its own service."""

import unittest

from weft.deciding.lines import Line
from weft.deciding.told import MOST_OF_ONE, By, Row, choose_counting, choose_told, read_told, write_told

SIGNED = Row(Line("shop", 8, "a" * 64), By.SIGNED, "bank")
OTHERS = Row(Line("shop", 9, "b" * 64), By.SIGNED, "port")
UNSIGNED = Row(Line("shop", 7, "c" * 64), By.UNSIGNED, "bank")
PUBLISHED = Row(Line("shop-2", 3, "d" * 64), By.PUBLISHED)


class Rows(unittest.TestCase):
    """The file."""

    def test_what_is_written_is_read_again(self) -> None:
        rows = [SIGNED, OTHERS, UNSIGNED, PUBLISHED]
        self.assertEqual(read_told(write_told(rows)), rows)
        self.assertEqual(write_told([PUBLISHED]), f"shop-2 3 {'d' * 64} published\n")

    def test_a_file_with_anything_else_is_none(self) -> None:
        for text in ("\n", "shop 8\n", f"shop 8 {'a' * 64}\n", f"shop 8 {'a' * 63} signed bank\n", f"Shop 8 {'a' * 64} signed bank\n", f"shop 8 {'a' * 64} other bank\n"):
            self.assertIsNone(read_told(text), text)
        self.assertIsNone(read_told(f"damaged\n{SIGNED.text}\n"))
        self.assertIsNone(read_told(SIGNED.text))
        self.assertIsNone(read_told(f"shop 08 {'a' * 64} signed bank\n"))
        self.assertEqual(read_told(""), [])


class Counting(unittest.TestCase):
    """What counts before a word."""

    def test_each_word_but_a_turn_goes_by_all(self) -> None:
        self.assertEqual(choose_counting([SIGNED, UNSIGNED, PUBLISHED], ["bank"], False), [SIGNED, UNSIGNED, PUBLISHED])

    def test_a_turn_goes_by_what_was_signed_but_of_peers_that_are_passed_over(self) -> None:
        self.assertEqual(choose_counting([SIGNED, OTHERS, UNSIGNED, PUBLISHED], [], True), [SIGNED, OTHERS])
        self.assertEqual(choose_counting([SIGNED, OTHERS, UNSIGNED, PUBLISHED], ["bank"], True), [OTHERS])


class Chosen(unittest.TestCase):
    """What stands behind a turn."""

    def test_what_stood_and_what_was_seen_each_once(self) -> None:
        self.assertEqual(choose_told([SIGNED], [SIGNED, OTHERS, PUBLISHED]), [PUBLISHED, SIGNED, OTHERS])
        self.assertEqual(choose_told([], []), [])

    def test_of_one_teller_the_latest_steps(self) -> None:
        rows = [Row(Line("shop", step, "a" * 64), By.SIGNED, "bank") for step in range(1, MOST_OF_ONE + 3)]
        self.assertEqual([row.line.step for row in choose_told(rows[:2], rows)], list(range(MOST_OF_ONE + 2, 2, -1)))


if __name__ == "__main__":
    unittest.main()
