"""Tests of whose receipts are believed first."""

import unittest

from weft.deciding.doubting import find_doubted, list_trusted

TELLERS = {"a": ["bank"], "b": ["bank", "liar"], "c": ["liar"], "d": ["liar", "other liar"], "e": ["store"]}


class Doubt(unittest.TestCase):
    """Who is doubted, and what is trusted then."""

    def test_a_receipt_that_failed_costs_its_teller_all_others(self) -> None:
        self.assertEqual(find_doubted(["c"], TELLERS), {"liar"})
        self.assertEqual(list_trusted(TELLERS, {"liar"}), ["a", "b", "d", "e"])
        self.assertEqual(list_trusted(TELLERS, find_doubted(["d"], TELLERS)), ["a", "b", "e"])

    def test_without_a_failure_all_is_trusted(self) -> None:
        self.assertEqual(find_doubted([], TELLERS), set())
        self.assertEqual(list_trusted(TELLERS, set()), list(TELLERS))

    def test_what_nobody_told_accuses_nobody(self) -> None:
        self.assertEqual(find_doubted(["x"], TELLERS), set())
        self.assertEqual(list_trusted({"x": []}, set()), [])


if __name__ == "__main__":
    unittest.main()
