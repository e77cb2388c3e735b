"""Tests of what was made, and isn't made once more."""

import unittest

from weft.deciding.made import Known, Made, TakeOut, list_names, list_to_add, made_in, may_make, read_made, read_never_sent, take_out, weigh_taking_out


class Noted(unittest.TestCase):
    """What is noted of services that were made."""

    def test_what_is_written_is_read_again_whatever_its_folder_is_called(self) -> None:
        for folder in (b"/srv/log", b"/srv/with blank", b"/srv/with\nline", b"/srv/\xff%41"):
            made = made_in("data", folder)
            self.assertEqual(read_made(f"{made.text}\n"), {made}, folder)
        self.assertEqual(made_in("data", b"/a%~\x7f b").folder, "/a%25~%7F%20b")
        self.assertEqual(len({made_in("data", folder) for folder in (b"/a b", b"/a%20b", b"/a+b")}), 3)

    def test_what_is_no_row_tells_nothing(self) -> None:
        self.assertEqual(read_made("\n# x\ndata\nDATA /srv\ndata /srv more\ndata /srv\n"), {Made("data", "/srv")})

    def test_the_same_is_not_made_twice_in_one_folder(self) -> None:
        noted = {made_in("data", b"/srv/log")}
        self.assertFalse(may_make(noted, made_in("data", b"/srv/log")))
        self.assertTrue(may_make(noted, made_in("data", b"/srv/other")))
        self.assertTrue(may_make(noted, made_in("data-2", b"/srv/log")))

    def test_the_names_of_a_folder_are_those_of_all_that_was_made_there(self) -> None:
        noted = [made_in("data-2", b"/srv/a b"), made_in("data-3", b"/srv/a b"), made_in("data-4", b"/srv/a")]
        self.assertEqual(list_names(noted, b"/srv/a b"), {"data-2", "data-3"})
        self.assertEqual(list_names(noted, b"/srv"), set())


class TakenOut(unittest.TestCase):
    """What a person takes out, since no line of it was ever handed out."""

    def test_a_row_is_taken_out_where_nothing_tells_otherwise(self) -> None:
        for known, found in (
            (Known(True, False, False, False), TakeOut.YES), (Known(False, False, False, False), TakeOut.UNNOTED), (Known(False, True, True, True), TakeOut.UNNOTED),
            (Known(True, True, True, True), TakeOut.STORE_THERE), (Known(True, False, True, True), TakeOut.BESIDE), (Known(True, False, False, True), TakeOut.LINE_KEPT),
        ):  # fmt: skip
            self.assertIs(weigh_taking_out(known), found, known)

    def test_what_was_taken_out_can_be_made_and_its_row_stays(self) -> None:
        made = Made("data", "/srv/log")
        text = take_out("data /srv/log\ndata-2 /srv/log-2\n", made, "2026-12-01T02:31:07Z")
        self.assertEqual(text, "data-2 /srv/log-2\nnever-sent data /srv/log 2026-12-01T02:31:07Z\n")
        self.assertTrue(may_make(read_made(text), made))
        self.assertEqual(read_never_sent(text), {made})
        self.assertEqual(read_never_sent("never-sent data /srv/log\n"), set())

    def test_of_a_backup_comes_back_what_is_not_there_and_was_not_taken_out(self) -> None:
        here, had = "new /srv/new\ndata /srv/log\nnever-sent out /srv/out 2026-12-01T02:31:07Z\n", "old /srv/old\ndata /srv/log\nout /srv/out\nx\nbit /srv/bit\n"
        self.assertEqual(list_to_add(here, had), [Made("bit", "/srv/bit"), Made("old", "/srv/old")])
        self.assertEqual(list_to_add(had, had), [])


if __name__ == "__main__":
    unittest.main()
