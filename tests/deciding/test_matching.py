"""Tests of whether a file is the one of an event that was recorded."""

import unittest

from weft.deciding.matching import Logged, Match, Matched, digests_of, match_file, read_logged, whole_digest

ONE, OTHER = "1" * 64, "2" * 64
SOLD, PAID = Logged(ONE, b"sold"), Logged(OTHER, b"paid")


class Read(unittest.TestCase):
    """What an event tells of a file."""

    def test_an_entry_has_the_digest_and_the_name_behind_all_folders(self) -> None:
        self.assertEqual(read_logged(ONE.encode() + b"  ./a/sold"), SOLD)
        self.assertEqual(read_logged(ONE.encode() + b"  sold"), SOLD)

    def test_escapes_are_turned_back_where_a_backslash_stands_in_front(self) -> None:
        self.assertEqual(read_logged(b"\\" + ONE.encode() + rb"  ./a\\n\nb\rc"), Logged(ONE, b"a\\n\nb\rc"))
        self.assertEqual(read_logged(ONE.encode() + rb"  ./a\nb"), Logged(ONE, rb"a\nb"))

    def test_a_path_may_have_line_ends_and_blanks(self) -> None:
        self.assertEqual(read_logged(ONE.encode() + b"  ./a  b\nc"), Logged(ONE, b"a  b\nc"))

    def test_other_events_are_no_entries(self) -> None:
        for event in (b"", b"gone  ./sold", ONE[1:].encode() + b"  ./sold", ONE.encode() + b" ./sold", b"x" * 64 + b"  ./sold", b"\\\\" + ONE.encode() + b"  a"):
            self.assertIsNone(read_logged(event), event)


class DigestsOf(unittest.TestCase):
    """What an event stands for."""

    def test_an_event_stands_for_itself_and_for_the_file_of_which_it_tells_the_digest(self) -> None:
        self.assertEqual(digests_of(b"word"), (whole_digest(b"word"),))
        for event in (ONE.encode() + b"  -", ONE.encode() + b"  ./sold"):
            self.assertEqual(digests_of(event), (whole_digest(event), ONE))


class MatchFile(unittest.TestCase):
    """A file beside the events of a proof."""

    def test_the_file_of_the_later_event_is_that_one(self) -> None:
        self.assertEqual(match_file([SOLD, PAID], OTHER, b"paid"), Matched(Match.SAME, [1]))
        self.assertEqual(match_file([SOLD, PAID], ONE, b"sold"), Matched(Match.SAME, [0]))
        self.assertEqual(match_file([SOLD], ONE, b"sold"), Matched(Match.SAME, [0]))

    def test_a_file_of_both_events_is_of_both(self) -> None:
        self.assertEqual(match_file([SOLD, SOLD], ONE, b"sold"), Matched(Match.SAME, [0, 1]))

    def test_another_name_is_told_and_the_own_one_counts_first(self) -> None:
        self.assertEqual(match_file([SOLD, PAID], OTHER, b"sold"), Matched(Match.RENAMED, [1]))
        self.assertEqual(match_file([Logged(ONE, b"x"), SOLD], ONE, b"sold"), Matched(Match.SAME, [1]))

    def test_a_file_of_neither_is_another_one(self) -> None:
        self.assertEqual(match_file([SOLD], "3" * 64, b"sold"), Matched(Match.OTHER, []))
        self.assertEqual(match_file([SOLD, PAID], "3" * 64, b"sold"), Matched(Match.OTHER, []))
        self.assertEqual(match_file([None, PAID], "3" * 64, b"sold"), Matched(Match.OTHER, []))

    def test_events_that_are_no_entries(self) -> None:
        self.assertEqual(match_file([None, None], ONE, b"sold"), Matched(Match.NO_ENTRY, []))
        self.assertEqual(match_file([None], ONE, b"sold"), Matched(Match.NO_ENTRY, []))

    def test_a_file_that_was_recorded_as_it_is(self) -> None:
        self.assertEqual(match_file([None], ONE, b"sold", [ONE]), Matched(Match.SAME, [0]))
        self.assertEqual(match_file([None, PAID], ONE, b"sold", [ONE, OTHER]), Matched(Match.SAME, [0]))
        self.assertEqual(match_file([None], ONE, b"sold", [OTHER]), Matched(Match.NO_ENTRY, []))
        self.assertEqual(match_file([SOLD, None], ONE, b"sold", [OTHER, ONE]), Matched(Match.SAME, [0, 1]))

    def test_a_file_that_has_the_bytes_of_an_entry_isnt_the_file_of_that_entry(self) -> None:
        self.assertEqual(match_file([SOLD], OTHER, b"sold", [OTHER]), Matched(Match.OTHER, []))

    def test_a_file_that_is_called_as_an_unnamed_one_has_that_name(self) -> None:
        self.assertEqual(read_logged(ONE.encode() + b"  ./-"), Logged(ONE, b"-"))
        self.assertEqual(match_file([Logged(ONE, b"-")], ONE, b"sold"), Matched(Match.RENAMED, [0]))

    def test_a_digest_without_a_name_is_that_of_a_file_of_any_name(self) -> None:
        self.assertEqual(match_file([read_logged(ONE.encode() + b"  -")], ONE, b"sold"), Matched(Match.SAME, [0]))
        self.assertEqual(match_file([read_logged(ONE.encode() + b"  -")], OTHER, b"sold"), Matched(Match.OTHER, []))

    def test_the_digest_of_an_event(self) -> None:
        self.assertEqual(whole_digest(b""), "e3b0c44298fc1c149afbf4c8996fb92427ae41e4649b934ca495991b7852b855")


if __name__ == "__main__":
    unittest.main()
