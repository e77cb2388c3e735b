"""Tests of when a row of an earlier table stands for a file."""

import hashlib
import stat
import unittest

from weft.deciding.rows import HEAD, NO_DIGEST, Row, digest_of, is_own_state, may_take_row, name_state, read_as_table, read_row, read_rows, title_of
from weft.statuses import Status

PASSING = (Status.DIFFER, Status.NO_MEMORY, Status.DISK)

GOOD, FORGED = b"bread", b"bribe"
DIGEST = hashlib.sha256(GOOD).hexdigest()
ROW = Row("proof", 5, DIGEST, "shown", 0, "event maker 1 0 00", "maker 3")
TITLE = "# judged by: X"


class ReadAsTable(unittest.TestCase):
    """Texts of a table are read so by every program that reads tables."""

    def test_no_quotes_take_rows_together(self) -> None:
        self.assertEqual(read_as_table('"a', "./"), "\\x22a")
        self.assertEqual(read_as_table('a "b" c"', "./"), "a \\x22b\\x22 c\\x22")

    def test_none_begins_as_a_formula(self) -> None:
        for letter in "=+-@":
            self.assertEqual(read_as_table(f"{letter}1+1", "./"), f"./{letter}1+1")
        for text in ("", "a=1", " =1", "./-x", "1-1"):
            self.assertEqual(read_as_table(text, "./"), text)


class MayTakeRow(unittest.TestCase):
    """Rows stand for bytes."""

    def test_a_row_stands_for_the_bytes_that_it_has_the_digest_of(self) -> None:
        self.assertTrue(may_take_row(ROW, digest_of(GOOD), PASSING))

    def test_a_forged_file_of_the_same_name_size_and_time_isnt_shown_by_the_row_of_the_good_one(self) -> None:
        self.assertEqual(len(GOOD), len(FORGED))
        self.assertFalse(may_take_row(ROW, digest_of(FORGED), PASSING))

    def test_without_a_row_none_is_taken(self) -> None:
        self.assertFalse(may_take_row(None, digest_of(GOOD), PASSING))

    def test_where_two_judges_differed_it_is_judged_anew(self) -> None:
        self.assertFalse(may_take_row(ROW._replace(status=13), digest_of(GOOD), PASSING))
        self.assertFalse(may_take_row(ROW._replace(status=6), digest_of(GOOD), PASSING))

    def test_a_file_that_couldnt_be_read_is_judged_anew(self) -> None:
        self.assertFalse(may_take_row(ROW._replace(sha256=NO_DIGEST), digest_of(b""), PASSING))


class IsOwnState(unittest.TestCase):
    """Rows are read from a file of this user's own."""

    def test_a_regular_file_of_ones_own_counts(self) -> None:
        for mode in (0o600, 0o644, 0o400):
            self.assertTrue(is_own_state(1000, stat.S_IFREG | mode, 1000))

    def test_a_table_of_somebody_else_is_never_believed(self) -> None:
        self.assertFalse(is_own_state(0, stat.S_IFREG | 0o600, 1000))
        self.assertFalse(is_own_state(1001, stat.S_IFREG | 0o600, 1000))

    def test_what_others_may_write_is_never_believed(self) -> None:
        for mode in (0o620, 0o602, 0o666):
            self.assertFalse(is_own_state(1000, stat.S_IFREG | mode, 1000))

    def test_a_folder_or_a_pipe_is_none(self) -> None:
        for kind in (stat.S_IFDIR, stat.S_IFIFO, stat.S_IFLNK):
            self.assertFalse(is_own_state(1000, kind | 0o600, 1000))


class NameState(unittest.TestCase):
    """Where rows are kept."""

    def test_the_name_is_a_digest_and_nothing_of_the_path(self) -> None:
        self.assertEqual(name_state(b"/a/../b"), hashlib.sha256(b"/a/../b").hexdigest() + ".rows")
        self.assertNotEqual(name_state(b"/a"), name_state(b"/b"))


class TitleOf(unittest.TestCase):
    """What rows hold under."""

    def test_other_judges_code_lines_or_carried_lines_make_another_title(self) -> None:
        title = title_of("judged by: X", "c0de", b"lines", False)
        self.assertEqual(
            title, f"# judged by: X; weft and reference, SHA-256 c0de; kept lines, SHA-256 {hashlib.sha256(b'lines').hexdigest()}; carried lines refused"
        )
        self.assertTrue(title_of("judged by: X", "c0de", b"lines", True).endswith("carried lines accepted"))


class ReadRows(unittest.TestCase):
    """What reads as rows."""

    def test_rows_read_as_they_were_written(self) -> None:
        self.assertEqual(read_row(ROW.text), ROW)
        self.assertEqual(read_rows(f"{TITLE}\n{HEAD}\n{ROW.text}\n", TITLE), {"proof": ROW})

    def test_under_another_title_no_row_counts(self) -> None:
        self.assertEqual(read_rows(f"{TITLE}\n{HEAD}\n{ROW.text}\n", TITLE + "Y"), {})

    def test_under_another_head_no_row_counts(self) -> None:
        old = "file\tbytes\tmodified\tverdict\treason\tlines"
        for head in (old, "", ROW.text):
            self.assertEqual(read_rows(f"{TITLE}\n{head}\n{ROW.text}\n", TITLE), {})
        self.assertEqual(read_rows("", TITLE), {})
        self.assertEqual(read_rows(TITLE, TITLE), {})

    def test_a_line_that_was_never_finished_counts_for_nothing(self) -> None:
        half = ROW._replace(file="half").text
        self.assertEqual(read_rows(f"{TITLE}\n{HEAD}\n{ROW.text}\n{half}", TITLE), {"proof": ROW})

    def test_a_line_that_is_no_row_is_passed_over(self) -> None:
        self.assertEqual(read_rows(f"{TITLE}\n{HEAD}\nx\n{ROW.text}\n\n", TITLE), {"proof": ROW})

    def test_a_row_has_seven_fields_with_numbers_and_a_digest(self) -> None:
        self.assertIsNone(read_row(ROW.text + "\tmore"))
        self.assertIsNone(read_row(ROW.text.rsplit("\t", 1)[0]))
        for place, wrong in ((1, "x"), (1, ""), (1, "-1"), (1, "1" * 13), (2, NO_DIGEST), (2, DIGEST[:-1]), (2, DIGEST.upper()), (4, "x"), (4, ""), (4, "1000")):
            fields = ROW.text.split("\t")
            fields[place] = wrong
            self.assertIsNone(read_row("\t".join(fields)), (place, wrong))


if __name__ == "__main__":
    unittest.main()
