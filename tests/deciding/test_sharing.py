"""Tests of which signed lines are handed on tonight, where there are more than one file takes."""

import unittest

from weft.deciding.lines import Line
from weft.deciding.sharing import (
    choose_handed_back, choose_names, choose_receipts, count_nights, is_first_hand, keep_latest, move_cursor, order_lines, place_end,
)  # fmt: skip

ROOM = 128


def names_of(count: int) -> list[str]:
    """So many names."""
    return [f"p{number:04}" for number in range(count)]


def handed_on(count: int, turns: int, first: int = 0, each: int = 1) -> list[set[str]]:
    """The names that are carried in so many nights, of `each` turns a night, of which the last one is carried."""
    names, cursor, found = names_of(count), 0, []
    for turn in range(first, first + turns * each):
        if (turn - first) % each == each - 1:
            found.append(set(choose_names(names, ROOM, cursor)))
        cursor = move_cursor(cursor, count, ROOM, turn)
    return found


class Turns(unittest.TestCase):
    """In how many nights each name is handed on."""

    def test_as_many_as_fit_are_handed_on_each_night(self) -> None:
        for count in (0, 1, 127, 128):
            self.assertEqual(choose_names(names_of(count), ROOM, 77), names_of(count))
            self.assertEqual((count_nights(count, ROOM), move_cursor(77, count, ROOM, 1)), (1, 0))

    def test_300_need_3_nights_and_1000_need_8(self) -> None:
        counts = (129, 239, 240, 300, 367, 368, 1000)
        self.assertEqual([count_nights(count, ROOM) for count in counts], [2, 2, 3, 3, 3, 4, 8])

    def test_no_name_is_never_handed_on(self) -> None:
        for count in (129, 141, 200, 239, 240, 256, 300, 367, 368, 384, 1000):
            nights = count_nights(count, ROOM)
            found = handed_on(count, 5 * nights, first=count)
            for begin in range(len(found) - nights + 1):
                self.assertEqual(set().union(*found[begin : begin + nights]), set(names_of(count)), (count, begin))

    def test_no_night_hands_on_more_than_there_is_room_for(self) -> None:
        self.assertEqual({len(names) for names in handed_on(300, 20)}, {ROOM})

    def test_who_makes_some_turns_for_each_one_that_is_carried_hands_on_all_too(self) -> None:
        for count in (141, 256, 300, 384, 1000):
            for each in range(2, 9):
                found = handed_on(count, 40 * count_nights(count, ROOM), each=each)
                self.assertEqual(set().union(*found), set(names_of(count)), (count, each))

    def test_the_names_stand_in_a_circle(self) -> None:
        names = names_of(5)
        self.assertEqual(choose_names(names, 3, 4), ["p0004", "p0000", "p0001"])
        self.assertEqual(choose_names(names, 3, 5), ["p0000", "p0001", "p0002"])

    def test_the_cursor_moves_as_it_says(self) -> None:
        for turn in range(200):
            moved = (move_cursor(299, 300, ROOM, turn) - 299) % 300
            self.assertTrue(86 <= moved <= ROOM, moved)
        self.assertEqual(len({move_cursor(0, 300, ROOM, turn) for turn in range(999)}), ROOM - 86 + 1)


class Order(unittest.TestCase):
    """In which order lines are handed on."""

    def test_the_newest_of_each_stands_first(self) -> None:
        self.assertEqual(order_lines([[3, 2, 1], [30], [], [200, 100]], 99), [3, 30, 200, 2, 100, 1])

    def test_what_there_is_no_room_for_are_the_oldest(self) -> None:
        self.assertEqual(order_lines([[3, 2, 1], [30, 20], [200, 100]], 5), [3, 30, 200, 2, 20])
        self.assertEqual(order_lines([[3], [30]], 0), [])
        self.assertEqual(order_lines([], 5), [])


class Receipts(unittest.TestCase):
    """Which receipts a peer gets."""

    def test_a_peer_gets_none_back_that_it_told_itself(self) -> None:
        self.assertEqual(choose_receipts("abcde", {"b", "e"}, 99), ["a", "c", "d"])
        self.assertEqual(choose_receipts("ab", {"a", "b", "c"}, 99), [])

    def test_what_there_is_no_room_for_are_the_first_of_those_that_it_gets(self) -> None:
        self.assertEqual(choose_receipts("abcde", {"e"}, 2), ["c", "d"])
        self.assertEqual(choose_receipts("abcde", set(), 0), [])


class Latest(unittest.TestCase):
    """No more receipts are held than any peer could get."""

    def test_the_last_ones_are_held_each_once_where_it_was_told_last(self) -> None:
        self.assertEqual(keep_latest("abcabd", 9), ["c", "a", "b", "d"])
        self.assertEqual(keep_latest("abcabd", 3), ["a", "b", "d"])
        self.assertEqual(keep_latest(iter("abca"), 1), ["a"])
        self.assertEqual(keep_latest("", 3), [])

    def test_each_peer_gets_what_it_would_get_of_all(self) -> None:
        known = [number % 50 for number in range(0, 400, 7)]
        for told in ({48, 49, 0}, {7, 14}, set[int]()):
            self.assertEqual(choose_receipts(keep_latest(known, 6), told, 3), choose_receipts(keep_latest(known, 99), told, 3))


class Ends(unittest.TestCase):
    """Where the line goes by which a peer's part before ended."""

    def test_it_goes_behind_the_newest_one(self) -> None:
        for turn in (0, 1, 2, 4, 5):
            self.assertEqual(place_end("cba", "E", turn), ["c", "E", "b", "a"])

    def test_it_goes_before_it_in_one_of_four_turns_in_a_row(self) -> None:
        for turn in (3, 7, 11):
            self.assertEqual(place_end("cba", "E", turn), ["E", "c", "b", "a"])

    def test_a_peer_in_its_first_part_has_none(self) -> None:
        self.assertEqual([place_end("ba", None, turn) for turn in (2, 3)], [["b", "a"]] * 2)


class HandedBack(unittest.TestCase):
    """Whoever holds a line of a peer shows it to that peer: by it a store that was put back is found."""

    def test_a_line_whose_message_was_lost_is_handed_back(self) -> None:
        taken, signed = Line("shop", 5, "aa" * 32), Line("shop", 8, "bb" * 32)
        self.assertEqual(choose_handed_back(taken, signed), signed)
        self.assertEqual(choose_handed_back(None, signed), signed)

    def test_what_was_recorded_is_handed_back_where_it_is_later_or_another_of_that_step(self) -> None:
        taken = Line("shop", 8, "aa" * 32)
        self.assertEqual(choose_handed_back(taken, Line("shop", 5, "bb" * 32)), taken)
        self.assertEqual(choose_handed_back(taken, Line("shop", 8, "bb" * 32)), taken)
        self.assertEqual(choose_handed_back(taken, None), taken)
        self.assertIsNone(choose_handed_back(None, None))


class FirstHand(unittest.TestCase):
    """Which receipts go on."""

    def test_whom_it_is_of_may_tell_it(self) -> None:
        self.assertTrue(is_first_hand(["bank"], ("bank", "shop")))
        self.assertTrue(is_first_hand(["shop"], ("bank", "shop")))
        self.assertTrue(is_first_hand(["shop-2", "shop"], ("bank", "shop")))

    def test_what_others_tell_ends_there(self) -> None:
        self.assertFalse(is_first_hand(["port", "port-2"], ("bank", "shop")))
        self.assertFalse(is_first_hand(["port"], ()))

    def test_in_a_ring_of_any_size_a_receipt_goes_round_no_more_than_once(self) -> None:
        for size in range(3, 9):
            ring = [f"s{number}" for number in range(size)]
            for parties in ((ring[0], ring[1]), (ring[0], "else"), ("some", "else")):
                has, told = {ring[0]}, 0
                for _ in range(4 * size):
                    place = next((at for at, name in enumerate(ring) if name in has and ring[(at + 1) % size] not in has), None)
                    if place is None or not (place == 0 or is_first_hand([ring[place - 1]], parties)):
                        break
                    has.add(ring[(place + 1) % size])
                    told += 1
                self.assertLessEqual(told, 3)


if __name__ == "__main__":
    unittest.main()
