"""Tests of whether a store may make a step: by its own lines beside it, and by what each peer last said of it."""

import unittest

from weft.deciding.lines import Line
from weft.deciding.restoring import (
    DAY,
    LONG_AGO,
    NO_NOTE,
    Answer,
    Begun,
    Beside,
    Go,
    Likeness,
    Look,
    Missing,
    Named,
    Seal,
    Told,
    Word,
    compare_file,
    compare_named,
    compare_note,
    find_claim,
    find_lacking,
    find_missing,
    find_of_other_part,
    has_come,
    is_box_copied,
    is_copied,
    is_look_copied,
    judge_turn,
    list_steps_to_prove,
    must_begin_anew,
    must_look,
    read_look,
    read_seal,
    when_begun,
    write_look,
    write_open,
)

BEGAN = 1_800_000_000
YEARS = 10 * 365 * DAY
LOOK = Look(BEGAN, BEGAN + 9 * DAY)


def line(step: int, letter: str = "a", service: str = "shop") -> Line:
    """A line of this step."""
    return Line(service, step, letter * 64)


def make_told(*lines: Line) -> list[Told]:
    """The lines, each handed back by bank."""
    return [Told(it, "handed back by bank") for it in lines]


class Lines(unittest.TestCase):
    """Lines that are told of a store."""

    def test_the_last_line_and_proved_ones_are_of_the_store(self) -> None:
        proved = {2: line(2), 7: line(7)}
        self.assertIsNone(find_lacking(line(9), proved, make_told(line(2), line(7), line(9), line(0, "f"))))
        self.assertIsNone(find_lacking(line(9), {}, []))

    def test_a_later_line_shows_an_old_store(self) -> None:
        later = make_told(line(10))
        self.assertEqual(find_lacking(line(9), {}, later), later[0])

    def test_another_line_of_a_step_shows_another_history(self) -> None:
        for step in (2, 9):
            other = make_told(line(2), line(step, "b"))
            self.assertEqual(find_lacking(line(9), {2: line(2)}, other), other[1])

    def test_a_step_that_the_store_does_not_prove_is_lacking(self) -> None:
        self.assertEqual(find_lacking(line(9), {}, make_told(line(4))), make_told(line(4))[0])

    def test_the_first_lacking_line_is_told(self) -> None:
        both = make_told(line(11), line(10))
        self.assertEqual(find_lacking(line(9), {}, both), both[0])

    def test_lines_of_others_say_nothing(self) -> None:
        self.assertIsNone(find_lacking(line(9), {}, make_told(line(12, service="bank"))))

    def test_a_store_without_steps_lacks_each_line_of_one(self) -> None:
        self.assertEqual(find_lacking(line(0), {}, make_told(line(1))), make_told(line(1))[0])

    def test_the_steps_between_have_to_be_proved(self) -> None:
        lines = [line(7), line(2), line(7, "b"), line(0), line(9), line(12), line(3, service="bank")]
        self.assertEqual(list_steps_to_prove(line(9), make_told(*lines)), [2, 7])
        self.assertEqual(list_steps_to_prove(line(9), make_told(line(1), line(8))), [1, 8])


class Waiting(unittest.TestCase):
    """When peers' words are waited for."""

    def test_a_turn_of_last_night_is_no_reason(self) -> None:
        for ago in (0, 1, DAY, LONG_AGO):
            self.assertFalse(must_look(False, BEGAN - ago, BEGAN), ago)

    def test_a_box_of_two_nights_ago_may_come_from_a_backup(self) -> None:
        for ago in (LONG_AGO + 1, 2 * DAY, 900 * DAY):
            self.assertTrue(must_look(False, BEGAN - ago, BEGAN), ago)

    def test_a_turn_that_lies_ahead_is_a_reason(self) -> None:
        self.assertTrue(must_look(False, BEGAN + 1, BEGAN))

    def test_a_first_turn_has_nothing_to_be_old(self) -> None:
        self.assertFalse(must_look(False, None, BEGAN))

    def test_a_person_may_ask_for_it(self) -> None:
        for last_turn in (None, BEGAN, BEGAN - 2 * DAY):
            self.assertTrue(must_look(True, last_turn, BEGAN))

    def test_a_word_counts_a_day_after_the_look_began(self) -> None:
        self.assertTrue(has_come(Word("bank", BEGAN + DAY), LOOK))
        for came in (None, 0, BEGAN, BEGAN + DAY - 1):
            self.assertFalse(has_come(Word("bank", came), LOOK), came)
        self.assertTrue(has_come(Word("bank", BEGAN + 5), Look(BEGAN, BEGAN + 5, 5)))
        self.assertFalse(has_come(Word("bank", BEGAN + 4), Look(BEGAN, BEGAN + 5, 5)))

    def test_a_word_that_lies_ahead_has_not_come(self) -> None:
        for now in (BEGAN, BEGAN + DAY, BEGAN + 3 * DAY - 1):
            self.assertFalse(has_come(Word("bank", BEGAN + 3 * DAY), Look(BEGAN, now)), now)
        self.assertTrue(has_come(Word("bank", BEGAN + 3 * DAY), Look(BEGAN, BEGAN + 3 * DAY)))

    def test_a_look_begins_now_or_at_the_latest_word_that_lies_there(self) -> None:
        self.assertEqual(when_begun(BEGAN, []), BEGAN)
        self.assertEqual(when_begun(BEGAN, [None, BEGAN - 7, None]), BEGAN)
        self.assertEqual(when_begun(BEGAN - YEARS, [BEGAN - 7, None, BEGAN, BEGAN - DAY]), BEGAN)

    def test_a_restored_word_does_not_end_a_look_by_a_clock_that_stands_years_back(self) -> None:
        restored = Word("bank", BEGAN)
        since = when_begun(BEGAN - YEARS, [restored.came])
        for now in (BEGAN - YEARS, BEGAN, BEGAN + 9 * DAY):
            self.assertFalse(has_come(restored, Look(since, now)), now)

    def test_a_look_that_lies_ahead_is_begun_anew(self) -> None:
        self.assertTrue(must_begin_anew(BEGAN + 1, None, BEGAN))
        self.assertTrue(must_begin_anew(BEGAN + YEARS, BEGAN - DAY, BEGAN))
        for since in (BEGAN, BEGAN - DAY):
            self.assertFalse(must_begin_anew(since, None, BEGAN), since)

    def test_so_is_one_that_lies_before_the_last_turn(self) -> None:
        self.assertTrue(must_begin_anew(BEGAN - YEARS, BEGAN - 2 * DAY, BEGAN))
        self.assertTrue(must_begin_anew(BEGAN - 1, BEGAN, BEGAN))
        self.assertFalse(must_begin_anew(BEGAN - 2 * DAY, BEGAN - 2 * DAY, BEGAN))
        self.assertFalse(must_begin_anew(BEGAN - DAY, BEGAN - 2 * DAY, BEGAN))

    def test_a_turn_that_lies_ahead_itself_is_no_reason(self) -> None:
        self.assertFalse(must_begin_anew(BEGAN, BEGAN + 1, BEGAN))
        self.assertFalse(must_begin_anew(BEGAN - DAY, BEGAN + YEARS, BEGAN))

    def test_the_file_of_a_look_says_what_it_is(self) -> None:
        for begun in (Begun(BEGAN, "12.34", "56.78"), Begun(BEGAN, f"12.0.{BEGAN}", NO_NOTE)):
            self.assertEqual(read_look(write_look(begun)), begun)
        for text in ("", "x", "12.34", f"-{BEGAN}", f"{BEGAN} 12.34", f"{BEGAN} 12.34 56.78 9", f"{BEGAN}\n{BEGAN}"):
            self.assertIsNone(read_look(text), text)

    def test_a_look_that_came_out_of_a_backup_begins_anew(self) -> None:
        begun = Begun(BEGAN, "12.34", "56.78")
        self.assertFalse(is_look_copied(begun, "12.34", "56.78"))
        for identity in ("12.35", "13.34", None):
            self.assertTrue(is_look_copied(begun, identity, "56.78"), identity)

    def test_so_does_one_whose_box_came_out_of_a_backup(self) -> None:
        for note in ("56.79", "57.78", NO_NOTE):
            self.assertTrue(is_look_copied(Begun(BEGAN, "12.34", "56.78"), "12.34", note), note)
        self.assertFalse(is_look_copied(Begun(BEGAN, "12.34", NO_NOTE), "12.34", NO_NOTE))
        self.assertTrue(is_look_copied(Begun(BEGAN, "12.34", NO_NOTE), "12.34", "56.78"))

    def test_a_look_that_does_not_say_which_file_it_is_begins_anew(self) -> None:
        for text in (str(BEGAN), f"{BEGAN}\n"):
            begun = read_look(text)
            self.assertEqual(begun, Begun(BEGAN, "", ""))
            self.assertTrue(begun is not None and is_look_copied(begun, "12.34", "56.78"))
            self.assertTrue(begun is not None and is_look_copied(begun, "12.34", NO_NOTE))

    def test_an_older_line_than_it_recorded_is_no_word(self) -> None:
        come = BEGAN + DAY
        self.assertFalse(has_come(Word("bank", come, (), 8, 9), LOOK))
        self.assertFalse(has_come(Word("bank", come, (), 0, 9), LOOK))
        for handed_back, recorded in ((9, 9), (10, 9), (0, 0), (3, 0)):
            self.assertTrue(has_come(Word("bank", come, (), handed_back, recorded), LOOK))


class Turn(unittest.TestCase):
    """What a turn does."""

    def test_a_turn_without_a_look_goes_on(self) -> None:
        self.assertEqual(judge_turn(line(9), {}, make_told(line(9)), [Word("bank", None)], None), Answer(Go.ON))

    def test_a_restored_store_waits_for_each_peer(self) -> None:
        words = [Word("bank", BEGAN + DAY), Word("port", BEGAN - 7), Word("mint", None)]
        self.assertEqual(judge_turn(line(9), {}, make_told(line(9)), words, LOOK), Answer(Go.WAIT, None, ("port", "mint")))

    def test_the_stale_word_in_a_restored_box_counts_for_nothing(self) -> None:
        words = [Word("bank", BEGAN - 60)]
        self.assertEqual(judge_turn(line(26), {25: line(25)}, make_told(line(25)), words, LOOK).go, Go.WAIT)

    def test_a_word_fetched_at_once_may_have_been_said_before(self) -> None:
        self.assertEqual(judge_turn(line(26), {}, make_told(line(26)), [Word("bank", BEGAN + 600)], LOOK).go, Go.WAIT)

    def test_once_all_words_have_come_it_goes_on(self) -> None:
        words = [Word("bank", BEGAN + DAY), Word("port", BEGAN + 2 * DAY)]
        self.assertEqual(judge_turn(line(9), {}, make_told(line(9)), words, LOOK), Answer(Go.ON))
        self.assertEqual(judge_turn(line(9), {}, [], [Word("bank", BEGAN + 3)], Look(BEGAN, BEGAN + 3, 3)), Answer(Go.ON))

    def test_a_box_without_peers_has_nobody_to_wait_for(self) -> None:
        self.assertEqual(judge_turn(line(9), {}, [], [], LOOK), Answer(Go.ON))

    def test_a_lacking_line_counts_at_once_and_before_all_waiting(self) -> None:
        later = make_told(line(27))
        for look in (None, LOOK):
            self.assertEqual(judge_turn(line(26), {}, later, [Word("bank", None)], look), Answer(Go.OLD, later[0]))

    def test_a_claim_that_nobody_signed_stops_nothing(self) -> None:
        for claims in ((line(27),), (line(26, "b"), line(99))):
            self.assertEqual(judge_turn(line(26), {}, make_told(line(26)), [Word("bank", BEGAN, claims)], None), Answer(Go.ON))

    def test_it_keeps_a_look_open(self) -> None:
        come = BEGAN + DAY
        words = [Word("bank", come, (line(26), line(27))), Word("port", come, (line(26),)), Word("mint", come, (line(25, "b"),)), Word("inn", come)]
        self.assertEqual(judge_turn(line(26), {25: line(25)}, [], words, LOOK), Answer(Go.WAIT, None, ("bank", "mint")))

    def test_the_first_claim_that_the_store_lacks_is_told(self) -> None:
        self.assertEqual(find_claim(line(26), {25: line(25)}, Word("bank", 0, (line(25), line(28), line(27)))), line(28))
        self.assertIsNone(find_claim(line(26), {25: line(25)}, Word("bank", 0, (line(25), line(26), line(0, "f")))))
        self.assertIsNone(find_claim(line(26), {}, Word("bank", 0)))

    def test_a_line_of_a_part_that_is_not_there_shows_an_old_store(self) -> None:
        both = make_told(line(3), line(2, service="shop-2"))
        self.assertEqual(find_of_other_part(line(3), both), both[1])
        self.assertIsNone(find_of_other_part(line(3), both[:1]))
        self.assertEqual(judge_turn(line(3), {}, both, [], None), Answer(Go.OLD, both[1]))
        self.assertEqual(judge_turn(line(3), {}, make_told(line(2, service="shop-2"), line(9)), [], None).lacking, make_told(line(9))[0])

    def test_a_claim_of_one_keeps_a_look_open(self) -> None:
        word = Word("bank", BEGAN + DAY, (line(2, service="shop-2"),))
        self.assertEqual(judge_turn(line(26), {}, [], [word], LOOK), Answer(Go.WAIT, None, ("bank",)))
        self.assertEqual(judge_turn(line(26), {}, [], [word], None), Answer(Go.ON))

    def test_a_step_made_anew_in_a_restored_store_is_another_history(self) -> None:
        other = make_told(line(27, "b"))
        self.assertEqual(judge_turn(line(27), {}, other, [], None), Answer(Go.OLD, other[0]))


class Neighbours(unittest.TestCase):
    """What has to stand beside a store."""

    def test_a_store_copied_alone_makes_no_step(self) -> None:
        self.assertEqual(find_missing(line(1), Beside(False, False, True)), Missing.LINES)
        self.assertEqual(find_missing(line(9), Beside(False, True, True)), Missing.LINES)
        self.assertEqual(find_missing(line(9), Beside(False, False, False)), Missing.LINES)

    def test_a_log_without_its_entries_makes_no_step(self) -> None:
        self.assertEqual(find_missing(line(9), Beside(True, False, True)), Missing.ENTRIES)

    def test_a_store_without_steps_needs_nothing(self) -> None:
        for beside in (Beside(False, False, False), Beside(False, False, True), Beside(True, True, True)):
            self.assertEqual(find_missing(line(0), beside), Missing.NOTHING)

    def test_a_whole_one_and_one_that_never_logged_go_on(self) -> None:
        self.assertEqual(find_missing(line(9), Beside(True, True, True)), Missing.NOTHING)
        self.assertEqual(find_missing(line(9), Beside(True, False, False)), Missing.NOTHING)

    def test_a_store_of_recorded_events_is_no_log(self) -> None:
        self.assertEqual(find_missing(line(9), Beside(True, False, True, True)), Missing.LOG)
        self.assertEqual(find_missing(line(9), Beside(True, True, True, True)), Missing.NOTHING)
        self.assertEqual(find_missing(line(9), Beside(False, False, True, True)), Missing.LINES)

    def test_a_person_names_the_last_line(self) -> None:
        self.assertEqual(compare_named(line(9), None, line(9)), Named.LAST)

    def test_no_other_line_will_do(self) -> None:
        for named, proved, wanted in (
            (line(9, service="bank"), None, Named.OTHER_SERVICE),
            (line(10), None, Named.LATER),
            (line(9, "b"), None, Named.OTHER_HISTORY),
            (line(4, "b"), line(4), Named.OTHER_HISTORY),
            (line(4), None, Named.OTHER_HISTORY),
            (line(4), line(4), Named.OLDER),
        ):
            self.assertEqual(compare_named(line(9), proved, named), wanted)


class Seals(unittest.TestCase):
    """Whether a store and what stands beside it are where they were written."""

    def test_a_store_that_was_put_back_with_all_that_stood_beside_it_is_a_copy(self) -> None:
        self.assertTrue(is_copied(line(9), Seal("41.7", line(9)), "41.8"))

    def test_one_without_a_seal_is_taken_for_a_copy(self) -> None:
        self.assertTrue(is_copied(line(9), None, None))
        self.assertTrue(is_copied(line(9), None, "41.7"))
        self.assertTrue(is_copied(line(9), Seal("41.7", line(9)), None))

    def test_one_where_it_was_written_is_none(self) -> None:
        self.assertFalse(is_copied(line(9), Seal("41.7", line(9)), "41.7"))

    def test_where_no_generation_is_told_a_file_of_that_number_that_was_changed_later_is_a_copy(self) -> None:
        seal = Seal("41.0.1800000000", line(9))
        for seconds in (0, 1, 60):
            self.assertFalse(is_copied(line(9), seal, f"41.0.{1_800_000_000 + seconds}"))
        for found in ("41.0.1800000061", "41.0.1799999999", "42.0.1800000000", "41.7", "41.0", None, "", "41"):
            self.assertTrue(is_copied(line(9), seal, found), found)
        self.assertTrue(is_copied(line(9), Seal("41.0", line(9)), "41.0.1800000000"))
        self.assertTrue(is_copied(line(9), Seal("x", line(9)), "41.7"))

    def test_a_store_without_steps_is_none(self) -> None:
        self.assertFalse(is_copied(line(0), None, None))

    def test_a_seal_is_a_number_and_a_line(self) -> None:
        self.assertEqual(read_seal(f"41.7 {line(9).text}\n"), Seal("41.7", line(9)))
        self.assertEqual(read_seal(f"41.0.1800000000 {line(9).text}\n"), Seal("41.0.1800000000", line(9)))
        both = f"41.7 {line(9).text}\n{line(1, service='shop-2').text}\n"
        self.assertEqual(read_seal(both), Seal("41.7", line(9), line(1, service="shop-2")))
        self.assertEqual(read_seal(f"41.7 {line(9).text}\nx\n"), Seal("41.7", line(9), None))
        for text in ("", "41.7", f"41 {line(9).text}", f"x.7 {line(9).text}", "41.7 shop 9 aa", f"\u0664.7 {line(9).text}"):
            self.assertIsNone(read_seal(text))


class Boxes(unittest.TestCase):
    """Whether a box is where its last turn was made."""

    def test_one_whose_note_is_another_file_is_a_copy(self) -> None:
        self.assertFalse(is_box_copied("12.34", 7, "12.34"))
        for identity in ("12.35", "13.34", NO_NOTE):
            self.assertTrue(is_box_copied("12.34", 7, identity), identity)

    def test_a_new_box_has_neither(self) -> None:
        self.assertFalse(is_box_copied(None, 0, NO_NOTE))
        self.assertTrue(is_box_copied(None, 7, "12.34"))
        self.assertTrue(is_box_copied(NO_NOTE, 7, "12.34"))

    def test_one_whose_turn_was_killed_is_none(self) -> None:
        self.assertFalse(is_box_copied(write_open(7, "12.34"), 7, "12.34"))
        self.assertFalse(is_box_copied(write_open(7, "12.34"), 8, "12.36"))
        self.assertFalse(is_box_copied(write_open(0, NO_NOTE), 0, NO_NOTE))
        self.assertFalse(is_box_copied(write_open(0, NO_NOTE), 1, "12.36"))

    def test_a_copy_of_one_whose_turn_was_killed_is_one(self) -> None:
        for identity in ("12.35", "13.34", NO_NOTE):
            self.assertTrue(is_box_copied(write_open(7, "12.34"), 7, identity), identity)
        self.assertTrue(is_box_copied("open", 7, "12.34"))

    def test_other_rights_or_a_link_are_seen_only_where_no_generation_is_told(self) -> None:
        later = f"12.0.{BEGAN + 61}"
        self.assertTrue(is_box_copied(f"12.0.{BEGAN}", 7, later))
        self.assertTrue(is_box_copied(write_open(7, f"12.0.{BEGAN}"), 7, later))
        for seal in (f"12.0.{BEGAN}", write_open(7, f"12.0.{BEGAN}")):
            self.assertEqual(compare_note(seal, later), Likeness.CHANGED)
            self.assertEqual(compare_note(seal, f"12.0.{BEGAN}"), Likeness.SAME)
            self.assertEqual(compare_note(seal, NO_NOTE), Likeness.OTHER)
        self.assertEqual(compare_note(NO_NOTE, NO_NOTE), Likeness.SAME)
        self.assertEqual(compare_note(NO_NOTE, later), Likeness.OTHER)

    def test_what_a_file_is_to_the_sealed_one(self) -> None:
        for sealed, found, wanted in (
            ("12.34", "12.34", Likeness.SAME),
            ("12.34", "12.35", Likeness.OTHER),
            ("12.34", None, Likeness.OTHER),
            ("x", "x", Likeness.OTHER),
            (f"12.0.{BEGAN}", f"12.0.{BEGAN + 60}", Likeness.SAME),
            (f"12.0.{BEGAN}", f"12.0.{BEGAN + 61}", Likeness.CHANGED),
            (f"12.0.{BEGAN}", f"12.0.{BEGAN - 1}", Likeness.CHANGED),
            (f"12.0.{BEGAN}", f"13.0.{BEGAN}", Likeness.OTHER),
        ):
            self.assertEqual(compare_file(sealed, found), wanted, (sealed, found))


if __name__ == "__main__":
    unittest.main()
