"""Tests of audits."""

import unittest

from weft.deciding.auditing import Unheld, find_unheld, may_program_audit
from weft.deciding.lines import Line

ONE, OTHER = "1" * 64, "2" * 64
SHOP, BANK = Line("shop", 3, ONE), Line("bank", 5, OTHER)


class Auditor(unittest.TestCase):
    """Who audits."""

    def test_the_program_audits_what_is_together_no_longer_than_a_history_may_be(self) -> None:
        self.assertTrue(may_program_audit([], 100) and may_program_audit([60, 40], 100))
        self.assertFalse(may_program_audit([60, 41], 100) or may_program_audit([101], 100))


class Held(unittest.TestCase):
    """What the histories have."""

    def test_all_lines_stand_there(self) -> None:
        self.assertIsNone(find_unheld([SHOP, BANK], {"shop": {3: ONE}, "bank": {5: OTHER}}))
        self.assertIsNone(find_unheld([], {}))

    def test_the_first_one_that_does_not_is_told(self) -> None:
        self.assertEqual(find_unheld([SHOP, BANK], {"shop": {3: OTHER}, "bank": {5: ONE}}), Unheld(SHOP, OTHER))
        self.assertEqual(find_unheld([SHOP, BANK], {"shop": {3: ONE}, "bank": {5: ONE}}), Unheld(BANK, ONE))

    def test_a_step_or_a_history_that_is_not_there(self) -> None:
        self.assertEqual(find_unheld([SHOP], {"shop": {2: ONE}}), Unheld(SHOP, None))
        self.assertEqual(find_unheld([SHOP], {"bank": {3: ONE}}), Unheld(SHOP, None))


if __name__ == "__main__":
    unittest.main()
