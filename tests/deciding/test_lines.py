"""Tests of what a line is, and of how one is read."""

import unittest

from weft.deciding.lines import LAST_STEP, End, Kept, Line, can_be, find_end, may_take_name, read_kept, read_line

HEX = "5585fc74c8b89378088d61ce37d82efe4c25f9ab0bbeb79b20a4618dce62a486"
LINE = Line("shop", 2, HEX)


class CanBe(unittest.TestCase):
    """Which lines a service can have."""

    def test_step_0_has_the_authenticator_that_follows_from_the_name_and_later_steps_any(self) -> None:
        self.assertTrue(can_be(Line("shop", 0, HEX), HEX))
        self.assertFalse(can_be(Line("shop", 0, "a" * 64), HEX))
        self.assertTrue(can_be(Line("shop", 1, "a" * 64), HEX))


class ReadLine(unittest.TestCase):
    """What reads as a line."""

    def test_a_line_is_a_name_a_step_and_64_digits(self) -> None:
        self.assertEqual(read_line(f"shop 2 {HEX}"), LINE)
        self.assertEqual(read_line(LINE.text), LINE)

    def test_capital_digits_are_the_same_line(self) -> None:
        self.assertEqual(read_line(f"shop 2 {HEX.upper()}"), LINE)

    def test_a_step_is_0_or_without_a_0_in_front(self) -> None:
        self.assertEqual(read_line(f"shop 0 {HEX}"), Line("shop", 0, HEX))
        for step in ("00", "02", "-1", "+1", "1.0", "", "x", "1_0", "\u0661"):
            self.assertIsNone(read_line(f"shop {step} {HEX}"), step)

    def test_the_last_step_is_the_greatest_one(self) -> None:
        self.assertEqual(read_line(f"shop {LAST_STEP} {HEX}"), Line("shop", LAST_STEP, HEX))
        self.assertIsNone(read_line(f"shop {LAST_STEP + 1} {HEX}"))
        self.assertIsNone(read_line(f"shop 9{'9' * 13} {HEX}"))

    def test_a_name_has_1_to_16_small_letters_digits_and_signs(self) -> None:
        for name in ("a", "z-9", "a" * 16):
            self.assertEqual(read_line(f"{name} 2 {HEX}"), Line(name, 2, HEX))
        for name in ("", "a" * 17, "Shop", "sh op", "shöp", "a_b", "a\n"):
            self.assertIsNone(read_line(f"{name} 2 {HEX}"), name)

    def test_nothing_stands_in_front_behind_or_between(self) -> None:
        for text in (f" shop 2 {HEX}", f"shop 2 {HEX} ", f"shop 2 {HEX}\n", f"shop  2 {HEX}", f"shop\t2 {HEX}", f"shop 2 {HEX}0", f"shop 2 {HEX[:-1]}", ""):
            self.assertIsNone(read_line(text), text)


class TakeName(unittest.TestCase):
    """Which names are made and accepted."""

    def test_a_name_that_looks_like_an_option_isnt_taken(self) -> None:
        for name in ("-x", "-", "--", "-" * 16):
            self.assertFalse(may_take_name(name), name)
            self.assertIsNotNone(read_line(f"{name} 2 {HEX}"), "its lines are read")
        for name in ("a", "x-", "a-b", "9", "a" * 16):
            self.assertTrue(may_take_name(name), name)

    def test_a_name_that_no_service_can_have_isnt_taken(self) -> None:
        for name in ("", "a" * 17, "Shop", "a b", "a\n"):
            self.assertFalse(may_take_name(name), name)


class ReadKept(unittest.TestCase):
    """What reads as a kept line."""

    def test_date_and_how_stand_behind_the_line(self) -> None:
        kept = Kept(LINE, "2026-11-29T09:40:00Z", "by mail  from Anna ")
        self.assertEqual(read_kept(f"{LINE.text} 2026-11-29T09:40:00Z by mail  from Anna "), kept)
        self.assertEqual(read_kept(kept.text), kept)

    def test_date_and_how_may_be_missing(self) -> None:
        self.assertEqual(read_kept(LINE.text), Kept(LINE, "", ""))
        self.assertEqual(read_kept(f"{LINE.text} 2026-11-29T09:40:00Z"), Kept(LINE, "2026-11-29T09:40:00Z", ""))
        self.assertEqual(Kept(LINE, "", "").text, LINE.text)

    def test_what_has_no_line_in_front_is_none(self) -> None:
        for text in ("", "#", f"# {LINE.text}", f"{LINE.text}x by mail", "shop 2", f" {LINE.text}"):
            self.assertIsNone(read_kept(text), text)

    def test_how_it_came_is_told(self) -> None:
        self.assertEqual(Kept(LINE, "2026-11-29T09:40:00Z", "by mail").told, "kept 2026-11-29, by mail")
        self.assertEqual(Kept(LINE, "2026-11-29T09:40:00Z", "").told, "kept 2026-11-29, nothing is told of how it came")
        self.assertEqual(Kept(LINE, "", "").told, "nothing is told of how it came")


class Ends(unittest.TestCase):
    """Where a file of lines goes on."""

    def test_it_goes_on_behind_the_last_line_end(self) -> None:
        text = f"{LINE.text}\n".encode()
        self.assertEqual((find_end(b""), find_end(text), find_end(text * 2)), (End(0, b""), End(len(text), b""), End(2 * len(text), b"")))

    def test_what_was_stopped_amid_its_writing_goes(self) -> None:
        text = f"{LINE.text}\n".encode()
        for cut in range(1, len(text) - 1):
            self.assertEqual(find_end(text + text[:cut]), End(len(text), b""), cut)

    def test_a_whole_line_without_its_end_stays(self) -> None:
        text = f"{LINE.text}\n".encode()
        self.assertEqual(find_end(text + text[:-1]), End(len(text), text))
        self.assertEqual(find_end(text[:-1]), End(0, text))


if __name__ == "__main__":
    unittest.main()
