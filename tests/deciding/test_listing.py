"""Tests of which steps are listed."""

import unittest

from weft.deciding.lines import LAST_STEP
from weft.deciding.listing import Range, find_empty, is_listed, join_names, read_range


class Read(unittest.TestCase):
    """The words of a range."""

    def test_one_step_some_and_all_from_one_on(self) -> None:
        self.assertEqual(read_range("5"), Range(5, 5))
        self.assertEqual(read_range("5-9"), Range(5, 9))
        self.assertEqual(read_range("5-5"), Range(5, 5))
        self.assertEqual(read_range("5-"), Range(5, LAST_STEP))
        self.assertEqual(read_range(str(LAST_STEP)), Range(LAST_STEP, LAST_STEP))

    def test_other_words_are_none(self) -> None:
        for text in ("", "0", "9-5", "-5", "05", "5-09", "5--9", "5 -9", "a", "5-9-", "1099511627776", "1-1099511627776", "5\n"):
            self.assertIsNone(read_range(text), text)


class Listed(unittest.TestCase):
    """Which steps are in ranges."""

    def test_all_where_no_range_is_named(self) -> None:
        self.assertTrue(is_listed(7, []))

    def test_those_within_one_of_them(self) -> None:
        found = [step for step in range(1, 12) if is_listed(step, [Range(2, 3), Range(9, 10)])]
        self.assertEqual(found, [2, 3, 9, 10])

    def test_a_range_behind_the_last_step_is_found(self) -> None:
        self.assertIsNone(find_empty([Range(1, 3), Range(5, 9)], 5))
        self.assertEqual(find_empty([Range(1, 3), Range(6, 9), Range(8, 8)], 5), Range(6, 9))


class Names(unittest.TestCase):
    """The names of one content."""

    def test_each_name_is_told_once_and_of_many_how_many_more(self) -> None:
        self.assertEqual(join_names(["deed"]), "deed")
        self.assertEqual(join_names(["deed", "deed"]), "deed")
        self.assertEqual(join_names(["deed", "copy", "deed", "third"]), "deed (the same content: copy, third)")
        names = [f"n{number}" for number in range(10)]
        self.assertEqual(join_names(names[:9]), "n0 (the same content: n1, n2, n3, n4, n5, n6, n7, n8)")
        self.assertEqual(join_names(names), "n0 (the same content: n1, n2, n3, n4, n5, n6, n7, n8, 1 more)")


if __name__ == "__main__":
    unittest.main()
