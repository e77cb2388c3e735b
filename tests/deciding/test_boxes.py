"""Tests of whose a box is, and of folders in it that are no peers'."""

import unittest

from weft.deciding.boxes import is_of_another, may_be_meant


class Boxes(unittest.TestCase):
    """Boxes, and what is put into them by mistake."""

    def test_a_box_without_a_turn_is_anybodys(self) -> None:
        self.assertFalse(is_of_another(None, "shop"))

    def test_it_is_of_the_service_that_made_its_first_turn(self) -> None:
        self.assertFalse(is_of_another("shop", "shop"))
        for noted in ("port", "shop-2", ""):
            self.assertTrue(is_of_another(noted, "shop"), noted)

    def test_a_folder_that_somebody_carries_to_needs_a_look(self) -> None:
        self.assertTrue(may_be_meant(False, True))
        self.assertTrue(may_be_meant(True, False))
        self.assertFalse(may_be_meant(False, False))


if __name__ == "__main__":
    unittest.main()
