"""Tests of what a peer is taken to have recorded of the own service."""

import unittest

from weft.deciding.recording import choose_other_start, may_note_recorded


class Recorded(unittest.TestCase):
    """Which told steps are noted."""

    def test_the_first_and_each_later_step_is_noted(self) -> None:
        for since in (None, 3, 5):
            self.assertTrue(may_note_recorded(None, 1, since))
            self.assertTrue(may_note_recorded(5, 6, since))

    def test_the_same_step_and_an_earlier_one_of_a_receipt_are_not(self) -> None:
        for since in (None, 3, 5):
            self.assertFalse(may_note_recorded(5, 5, since))
        self.assertFalse(may_note_recorded(5, 4, None))

    def test_a_made_up_receipt_is_corrected_by_the_refusal_of_what_was_made_since(self) -> None:
        self.assertTrue(may_note_recorded(9, 4, 9))

    def test_an_old_refusal_that_still_lies_there_changes_nothing(self) -> None:
        self.assertFalse(may_note_recorded(9, 4, 3))
        self.assertFalse(may_note_recorded(9, 4, 10))


class OtherStart(unittest.TestCase):
    """Since which step another message is put out."""

    def test_since_the_step_that_the_peer_hands_back_where_that_is_earlier(self) -> None:
        self.assertEqual(choose_other_start(9, 4, 8, 10), 4)
        self.assertEqual(choose_other_start(9, 8, 9, 10), 8)

    def test_else_since_the_step_that_was_sent_before(self) -> None:
        for handed_back in (None, 0, 4, 5):
            self.assertEqual(choose_other_start(4, handed_back, 8, 10), 8)

    def test_else_there_is_none(self) -> None:
        for since, sent, last in ((8, 8, 10), (9, 8, 10), (4, 10, 10)):
            self.assertIsNone(choose_other_start(since, None, sent, last))
            self.assertIsNone(choose_other_start(since, since, sent, last))


if __name__ == "__main__":
    unittest.main()
