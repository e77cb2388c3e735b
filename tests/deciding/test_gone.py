"""Tests of when a logged file is gone, and of what is left out of a log."""

import unittest

from weft.deciding.gone import (
    TICK,
    Fate,
    Kind,
    State,
    has_lost_most,
    is_left_out,
    is_left_over,
    is_of_store,
    judge_missing,
    list_folders_above,
    may_log,
    was_still,
)
from weft.deciding.gone import is_hollow, least_content, may_be_hollow

ROOT = Kind.FOLDER


class Missing(unittest.TestCase):
    """What became of a file that wasn't found."""

    def test_nothing_of_its_name_is_gone(self) -> None:
        self.assertEqual(judge_missing([Kind.NOTHING]), Fate.GONE)
        self.assertEqual(judge_missing([ROOT, Kind.FOLDER, Kind.NOTHING]), Fate.GONE)

    def test_with_its_folder_it_is_gone(self) -> None:
        self.assertEqual(judge_missing([ROOT, Kind.NOTHING, Kind.NOTHING]), Fate.GONE)
        self.assertEqual(judge_missing([ROOT, Kind.NOTHING, Kind.UNTOLD]), Fate.GONE)

    def test_what_is_there_and_cannot_be_looked_at_is_not_gone(self) -> None:
        self.assertEqual(judge_missing([ROOT, Kind.UNTOLD]), Fate.LEFT_OUT)
        self.assertEqual(judge_missing([ROOT, Kind.UNTOLD, Kind.NOTHING]), Fate.LEFT_OUT)
        self.assertEqual(judge_missing([Kind.UNTOLD, Kind.UNTOLD]), Fate.LEFT_OUT)

    def test_a_file_that_is_there_after_all_is_not_gone(self) -> None:
        self.assertEqual(judge_missing([ROOT, Kind.FOLDER, Kind.FILE]), Fate.LEFT_OUT)

    def test_something_else_in_its_place_is_for_a_person_to_say(self) -> None:
        for kind in (Kind.FOLDER, Kind.LINK, Kind.OTHER):
            self.assertEqual(judge_missing([ROOT, kind]), Fate.REPLACED, kind)

    def test_something_else_in_the_place_of_its_folder_too(self) -> None:
        for kind in (Kind.FILE, Kind.LINK, Kind.OTHER):
            for below in (Kind.FILE, Kind.NOTHING, Kind.UNTOLD):
                self.assertEqual(judge_missing([ROOT, kind, below]), Fate.REPLACED, (kind, below))

    def test_the_outermost_counts(self) -> None:
        self.assertEqual(judge_missing([ROOT, Kind.LINK, Kind.NOTHING, Kind.UNTOLD]), Fate.REPLACED)
        self.assertEqual(judge_missing([ROOT, Kind.UNTOLD, Kind.LINK, Kind.NOTHING]), Fate.LEFT_OUT)


class LeftOut(unittest.TestCase):
    """What is left out."""

    def test_folders_above(self) -> None:
        self.assertEqual(list_folders_above(b"./a/b/c"), [b".", b"./a", b"./a/b"])
        self.assertEqual(list_folders_above(b"./a"), [b"."])
        self.assertEqual(list_folders_above(b"."), [])

    def test_all_below_a_folder_that_cannot_be_read_is_left_out(self) -> None:
        self.assertTrue(is_left_out(b"./sub/deed", {b"./sub"}))
        self.assertTrue(is_left_out(b"./sub/x/deed", {b"./sub"}))
        self.assertTrue(is_left_out(b"./sub", {b"./sub"}))
        self.assertTrue(is_left_out(b"./sub/deed", {b"."}))
        self.assertTrue(is_left_out(b"./a", {b"./a"}))

    def test_a_name_that_begins_alike_is_not(self) -> None:
        for path in (b"./subject", b"./a/sub/deed", b"./su", b"./sub2/deed"):
            self.assertFalse(is_left_out(path, {b"./sub"}), path)
        self.assertFalse(is_left_out(b"./a", set()))


class LostMost(unittest.TestCase):
    """A folder that may not be mounted."""

    def test_an_empty_folder(self) -> None:
        self.assertTrue(has_lost_most(0, 0, 5, 5))
        self.assertTrue(has_lost_most(0, 0, 0, 0))

    def test_more_than_half_gone(self) -> None:
        self.assertTrue(has_lost_most(2, 0, 5, 3))
        self.assertTrue(has_lost_most(9, 3, 5, 3))
        self.assertTrue(has_lost_most(0, 1, 5, 3))

    def test_half_gone_is_an_ordinary_day(self) -> None:
        self.assertFalse(has_lost_most(2, 0, 4, 2))
        self.assertFalse(has_lost_most(1, 0, 0, 0))

    def test_what_cannot_be_read_is_not_lost(self) -> None:
        self.assertFalse(has_lost_most(0, 1, 5, 0))


class Logged(unittest.TestCase):
    """What is logged as gone."""

    def test_what_is_gone_unless_most_is(self) -> None:
        self.assertTrue(may_log(Fate.GONE, False, False))
        self.assertFalse(may_log(Fate.GONE, True, False))

    def test_what_has_something_else_in_its_place_is_not(self) -> None:
        self.assertFalse(may_log(Fate.REPLACED, False, False))
        self.assertFalse(may_log(Fate.REPLACED, True, False))

    def test_both_are_where_a_person_says_so(self) -> None:
        for fate in (Fate.GONE, Fate.REPLACED):
            self.assertTrue(may_log(fate, False, True) and may_log(fate, True, True))

    def test_what_is_left_out_never_is(self) -> None:
        self.assertFalse(may_log(Fate.LEFT_OUT, False, True) or may_log(Fate.LEFT_OUT, True, True) or may_log(Fate.LEFT_OUT, False, False))


class LeftOver(unittest.TestCase):
    """Whether a file is one that a killed run of the log left."""

    OWN = {b"shop.lines", b"shop.entries", "\u00fc".encode() * 70 + b".lines"}

    def test_a_name_that_the_log_gives(self) -> None:
        for front in (b"shop.lines", b"shop.entries", "\u00fc".encode() * 60):
            self.assertTrue(is_left_over(b"." + front + b".0123456789abcdef.new", self.OWN), front)

    def test_a_file_that_only_begins_and_ends_so_is_hidden_from_nobody(self) -> None:
        for name in (b".shop.evil.new", b".shop.deed.0123456789abcdef.new", b".shop.lines.0123456789abcde.new", b".shop.lines.0123456789ABCDEF.new",
                     b"shop.lines.0123456789abcdef.new", b".shop.lines.0123456789abcdef.new2", b".shop.lines.new", b"shop.lines", b"\xff"):  # fmt: skip
            self.assertFalse(is_left_over(name, self.OWN), name)


class OfStore(unittest.TestCase):
    """What stands in the folder of a log's store."""

    def test_its_file_its_parts_and_what_is_left_of_them_are_its_own(self) -> None:
        for name in (b"timeline.tw", b".timeline.tw.0123456789abcdef.new", b"part-2", b"part-12", b"part-2.lines", b".part-2.seal.0123456789abcdef.new"):
            self.assertTrue(is_of_store(name, (".lines", ".seal"), True), name)

    def test_all_else_was_put_there(self) -> None:
        for name in (b"secret", b"timeline.tw.bak", b".timeline.tw.new", b"part-", b"part-0", b"part-x", b"part-2.txt", b"part-2.lines.x", b"xpart-2", b"\xff"):
            self.assertFalse(is_of_store(name, (".lines", ".seal"), True), name)

    def test_in_a_further_part_no_other_one_lies(self) -> None:
        self.assertTrue(is_of_store(b"timeline.tw", (".lines",), False))
        self.assertFalse(is_of_store(b"part-3", (".lines",), False))
        self.assertFalse(is_of_store(b"part-3.lines", (".lines",), False))


class Still(unittest.TestCase):
    """Whether what was read is what the file was."""

    STATE = State(1, 2, 3, 4 * TICK, 5 * TICK)

    def test_an_unchanged_file(self) -> None:
        self.assertTrue(was_still(self.STATE, self.STATE, 6 * TICK))
        self.assertTrue(was_still(self.STATE, self.STATE, 900 * TICK))

    def test_a_file_changed_while_it_is_read(self) -> None:
        for name in State._fields:
            other = self.STATE._replace(**{name: 77})
            self.assertFalse(was_still(self.STATE, other, 900 * TICK), name)

    def test_one_changed_just_before_may_change_within_the_same_tick(self) -> None:
        self.assertFalse(was_still(self.STATE, self.STATE, 5 * TICK))
        self.assertFalse(was_still(self.STATE, self.STATE, 6 * TICK - 1))

    def test_a_time_that_lies_ahead_is_no_change(self) -> None:
        self.assertTrue(was_still(self.STATE, self.STATE, 5 * TICK - 1))

    def test_what_was_not_looked_at_is_not_still(self) -> None:
        self.assertFalse(was_still(None, self.STATE, 900 * TICK))
        self.assertFalse(was_still(None, None, 900 * TICK))
        self.assertFalse(was_still(self.STATE, None, 900 * TICK))


class Hollow(unittest.TestCase):
    """Files of which next to nothing is on the disk."""

    def test_a_large_one_with_less_than_a_thousandth(self) -> None:
        for size, content in ((1 << 40, 0), (1 << 40, (1 << 40) // 1_000 - 1), ((1 << 30) + 1, 0)):
            self.assertTrue(is_hollow(size, content))
        for size, content in ((1 << 30, 0), (1 << 40, (1 << 40) // 1_000), (1 << 40, 1 << 40), (0, 0)):
            self.assertFalse(is_hollow(size, content))
        self.assertEqual([may_be_hollow(1 << 30), may_be_hollow((1 << 30) + 1), least_content(1 << 40)], [False, True, (1 << 40) // 1_000])


if __name__ == "__main__":
    unittest.main()
