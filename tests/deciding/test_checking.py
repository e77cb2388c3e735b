"""Tests of what weft check may say of a store after what it looked at."""

import unittest
from typing import Optional, Sequence

from weft.deciding.checking import (
    Differing, EntryState, Export, Found, Logged, Looked, Place, choose_places, find_differing, follows, judge_check, judge_entries, list_unseen, may_make_entries,
)  # fmt: skip
from weft.statuses import Status

GOOD = Found(0, 0, 0)


class State(unittest.TestCase):
    """How a check ends by what was found of the entries."""

    def test_lost_entries_need_a_look_and_false_ones_are_damage(self) -> None:
        self.assertEqual(judge_entries(EntryState.DIFFERING), Status.BAD_STORE)
        for found in (EntryState.MISSING, EntryState.AMID_A_STEP):
            self.assertEqual(judge_entries(found), Status.LOOK)
        for found in (EntryState.NONE, EntryState.GOOD, EntryState.MADE, EntryState.UNSEEN):
            self.assertEqual(judge_entries(found), Status.DONE)

    def test_json_tells_each_in_a_word_of_its_own(self) -> None:
        self.assertEqual([it.value for it in EntryState], ["none", "good", "made anew", "missing", "differing", "amid a step", "not looked at"])


class Unseen(unittest.TestCase):
    """What wasn't looked at."""

    def test_a_whole_export_is_all(self) -> None:
        self.assertEqual(list_unseen(Looked(Export.WHOLE, 900, 200, False)), [])

    def test_a_long_history_is_looked_at_where_each_event_was_proved(self) -> None:
        self.assertEqual(list_unseen(Looked(Export.TOO_LONG, 900, 900, True)), [])

    def test_events_that_were_not_proved_are_told(self) -> None:
        self.assertEqual(list_unseen(Looked(Export.TOO_LONG, 1900, 200, True)), ["1,700 of its 1,900 events"])
        self.assertEqual(list_unseen(Looked(Export.TOO_LONG, None, 0, True)), ["the events of steps whose number of events isn't known"])

    def test_an_archive_that_was_not_looked_at_is_told(self) -> None:
        self.assertEqual(list_unseen(Looked(Export.TOO_LONG, 9, 9, False)), ["the archive of the threads that it received"])
        self.assertEqual(len(list_unseen(Looked(Export.TOO_LONG, 9, 8, False))), 2)

    def test_of_a_damaged_store_nothing_else_is_told(self) -> None:
        self.assertEqual(list_unseen(Looked(Export.DAMAGED, 9, 8, False)), [])


class Entries(unittest.TestCase):
    """When entries are made anew."""

    def test_only_of_a_store_that_is_good_as_far_as_it_was_looked_at(self) -> None:
        self.assertEqual([it for it in Status if may_make_entries(it)], [Status.DONE, Status.LOOK])


class Judge(unittest.TestCase):
    """How weft check ends."""

    def test_good_is_only_what_was_looked_at_whole(self) -> None:
        self.assertEqual(judge_check(GOOD, Looked(Export.WHOLE, 900, 200, False)), Status.DONE)
        self.assertEqual(judge_check(GOOD, Looked(Export.TOO_LONG, 900, 900, True)), Status.DONE)

    def test_a_store_beyond_the_limit_of_a_file_is_not_called_good_by_its_links_alone(self) -> None:
        for looked in (Looked(Export.TOO_LONG, 900, 0, True), Looked(Export.TOO_LONG, None, 0, True), Looked(Export.TOO_LONG, 900, 900, False)):
            self.assertEqual(judge_check(GOOD, looked), Status.LOOK)

    def test_one_bad_step_is_a_damaged_store(self) -> None:
        for export in Export:
            self.assertEqual(judge_check(Found(1, 0, 0), Looked(export, 900, 900, True)), Status.BAD_STORE)

    def test_a_damaged_export_is_a_damaged_store(self) -> None:
        self.assertEqual(judge_check(GOOD, Looked(Export.DAMAGED, 900, 900, True)), Status.BAD_STORE)

    def test_kept_lines_that_contradict_stand_before_damage(self) -> None:
        for export in Export:
            self.assertEqual(judge_check(Found(3, 0, 1), Looked(export, 900, 0, False)), Status.OLD_STORE)

    def test_another_line_stands_before_all(self) -> None:
        for export in Export:
            self.assertEqual(judge_check(Found(3, 1, 2), Looked(export, 900, 0, False)), Status.OLD_STORE)


class Choose(unittest.TestCase):
    """Which events are proved."""

    def test_all(self) -> None:
        self.assertEqual(choose_places([2, 0, 1], None), [Place(1, 0), Place(1, 1), Place(3, 0)])
        self.assertEqual(choose_places([2, 0, 1], 3), [Place(1, 0), Place(1, 1), Place(3, 0)])
        self.assertEqual(choose_places([], None), [])
        self.assertEqual(choose_places([0, 0], 3), [])

    def test_a_sample_goes_from_the_first_to_the_last(self) -> None:
        places = choose_places([10, 0, 90, 900], 4)
        self.assertEqual(places, [Place(1, 0), Place(4, 233), Place(4, 566), Place(4, 899)])

    def test_a_sample_has_each_place_once(self) -> None:
        for counts in ([5, 0, 7, 1], [1] * 40, [0, 0, 30], [13]):
            for most in range(2, sum(counts) + 1):
                places = choose_places(counts, most)
                self.assertEqual(len(set(places)), most)
                self.assertEqual(places, sorted(places))
                self.assertTrue(all(index < counts[step - 1] for step, index in places))

    def test_a_sample_of_one_or_none(self) -> None:
        self.assertEqual(choose_places([3, 4], 1), [Place(1, 0)])
        self.assertEqual(choose_places([3, 4], 0), [])


def is_of_log(events: Sequence[bytes]) -> bool:
    """Whether a step has events, and none that is somebody else's."""
    return bool(events) and b"other's" not in events


class FindDiffering(unittest.TestCase):
    """Entries are held against the store."""

    STEPS: list[tuple[int, list[bytes]]] = [(1, [b"a", b"b"]), (2, []), (3, [b"other's"]), (4, [b"c"])]
    TRUE = (Logged(1, 0, b"a"), Logged(1, 1, b"b"), Logged(4, 0, b"c"))

    def test_an_entry_follows_in_its_step_or_begins_a_later_one(self) -> None:
        for step, place, last, count in ((1, 0, 0, 0), (1, 1, 1, 1), (4, 0, 1, 2)):
            self.assertTrue(follows(step, place, last, count))
        for step, place, last, count in ((1, 0, 1, 2), (1, 1, 0, 0), (1, 2, 1, 1), (1, 0, 4, 1), (1, 1, 4, 1), (4, 1, 1, 2)):
            self.assertFalse(follows(step, place, last, count))

    def differing(self, *entries: Logged) -> Optional[Differing]:
        """Where these entries differ."""
        return find_differing(entries, iter(self.STEPS), is_of_log)

    def test_entries_that_the_store_has_are_true_whatever_others_made(self) -> None:
        self.assertIsNone(self.differing(*self.TRUE))
        self.assertIsNone(self.differing(*self.TRUE[:2], Logged(3, 0, b"other's"), self.TRUE[2]))
        self.assertIsNone(find_differing([], [], is_of_log))

    def test_the_first_that_it_hasnt_is_found(self) -> None:
        for false in (Logged(0, 0, b"a"), Logged(1, 0, b"x"), Logged(1, 1, b"b")):
            self.assertEqual(self.differing(false), Differing(false.step, false))
        for false in (Logged(1, 2, b"a"), Logged(1, 1, b"b"), Logged(2, 0, b"a"), Logged(3, 0, b"x"), Logged(4, 0, b"a"), Logged(1, 0, b"a")):
            self.assertEqual(self.differing(*self.TRUE[:2], false), Differing(false.step, false))
        for false in (Logged(5, 0, b"c"), Logged(4, 1, b"c"), Logged(4, 0, b"c")):
            self.assertEqual(self.differing(*self.TRUE, false), Differing(false.step, false))

    def test_a_step_that_lacks_an_entry_is_found_wherever_it_stands(self) -> None:
        self.assertEqual(self.differing(), Differing(1, None))
        self.assertEqual(self.differing(self.TRUE[0], self.TRUE[2]), Differing(1, None))
        self.assertEqual(self.differing(self.TRUE[2]), Differing(1, None))
        self.assertEqual(self.differing(*self.TRUE[:2]), Differing(4, None))


if __name__ == "__main__":
    unittest.main()
