"""What is recorded of what is handed over, and what became of a step that was begun."""

import hashlib
import unittest

from weft.deciding import batching
from weft.deciding.batching import Handed, Recorded, Settled


def digest(data: bytes) -> bytes:
    return hashlib.sha256(data).hexdigest().encode()


class RunsOf(unittest.TestCase):
    """Events that stand one behind another."""

    def test_events_go_together_where_each_stands_behind_the_one_before(self) -> None:
        rows = [("a", 1, 0), ("a", 1, 1), ("a", 2, 2), ("b", 2, 3), None, None, ("b", 2, 4), ("b", 2, 5), ("b", 2, 5)]
        self.assertEqual(list(batching.runs_of(rows)), [(0, 2), (2, 1), (3, 1), (4, 1), (5, 1), (6, 2), (8, 1)])
        self.assertEqual(list(batching.runs_of([])), [])
        self.assertEqual(list(batching.runs_of([("a", 1, 7)])), [(0, 1)])


class HandedOver(unittest.TestCase):
    def test_an_event_is_recorded_as_it_is(self) -> None:
        for data in (b"", b"a", b"\n\0", b"x" * 1024):
            self.assertEqual(batching.handed_over(data), Handed(digest(data), data, b""))
            self.assertFalse(batching.is_by_digest(batching.handed_over(data)))

    def test_of_more_the_digest_is(self) -> None:
        data = b"x" * 1025
        found = batching.handed_over(data, b"k")
        self.assertEqual(found, Handed(digest(data), digest(data) + b"  -", b"k"))
        self.assertTrue(batching.is_by_digest(found))

    def test_both_are_known_again(self) -> None:
        for size in (0, 1, 1024, 1025, 5000):
            it = batching.handed_over(b"y" * size)
            self.assertTrue(batching.is_recorded_as(it.digest, it.event))
            self.assertFalse(batching.is_recorded_as(digest(b"other"), it.event))

    def test_an_event_that_looks_like_a_digest_is_itself(self) -> None:
        """Somebody hands over the 67 bytes that stand for a longer text: they are recorded as they are, under their own digest."""
        event = digest(b"y" * 5000) + b"  -"
        it = batching.handed_over(event)
        self.assertEqual((it.event, it.digest), (event, digest(event)))
        self.assertFalse(batching.is_by_digest(it))
        self.assertTrue(batching.is_recorded_as(digest(event), event))

    def test_nobody_says_what_the_service_says_of_itself(self) -> None:
        for data in (b"goes on as register-2", b"new key ssh-ed25519 AAAA", b"goes on as "):
            self.assertTrue(batching.is_by_digest(batching.handed_over(data)), data)
        for data in (b"goes on", b"it goes on as x", b"New key x"):
            self.assertFalse(batching.is_by_digest(batching.handed_over(data)), data)

    def test_what_was_recorded_before(self) -> None:
        for data in (b"a", b"z" * 5000):
            it = batching.handed_over(data)
            self.assertEqual(batching.handed_before(it.event), it)


class Framed(unittest.TestCase):
    """Events as they are handed over, each behind its length."""

    EVENTS: tuple[list[bytes], ...] = ([], [b""], [b"", b""], [b"a"], [b"ab", b"cd", b"ef"], [b"a", b"", b"abc"], [b"x" * 1024], [b"x" * 1024, b"y"], [b"\0\0\0\1"] * 3, [b"\0\0\0\1", b"\0"])

    def test_what_is_framed_is_split(self) -> None:
        for events in self.EVENTS:
            body = batching.frame(events)
            self.assertTrue(batching.is_framed(len(events), body), events)
            self.assertEqual(batching.split_framed(body), events)

    def test_nothing_else_is_framed(self) -> None:
        for events in self.EVENTS:
            body = batching.frame(events)
            for count in {0, 1, abs(len(events) - 1), len(events) + 1, 5} - {len(events)}:
                self.assertFalse(batching.is_framed(count, body), (count, events))
            for wrong in (body + b"\0", body + b"x" * 4, body[:-1]):
                self.assertEqual(batching.is_framed(len(events), wrong), wrong == body, (wrong, events))
        for sizes in ((1025,), (1025, 1025), (1, 1025), (1025, 1)):
            self.assertFalse(batching.is_framed(len(sizes), batching.frame([b"x" * size for size in sizes])), sizes)
        self.assertFalse(batching.is_framed(2, b"\0\0\0\1a\0\0\0\2b"))
        self.assertFalse(batching.is_framed(2, b"\0\0\0\1a\0\0\1\1b"))

    def test_the_width_is_that_of_all(self) -> None:
        for events, width in (([b"a"], 5), ([b"ab", b"cd"], 6), ([b"a", b"bc"], None), ([b"ab", b"c", b"def"], None), ([b"", b""], 4)):
            self.assertEqual(batching.width_of(batching.frame(events)), width)

    def test_words_of_a_service_go_by_themselves(self) -> None:
        for words in (b"goes on as x", b"new key x  "):
            beginnings: tuple[list[bytes], ...] = ([words], [b"a", words], [words, b"abcd"], [b"n" * len(words), words], [b"x" * len(words), words])
            for events in beginnings:
                self.assertFalse(batching.may_go_as_framed(batching.frame(events)), events)
        others: tuple[list[bytes], ...] = ([b"goes on", b"another"], [b"n", b"g"], [b"a new key ", b"it goes on as x"], [b"new kay x", b"a new key"], [b"new kay x", b"a new key "], [])
        for events in others:
            self.assertTrue(batching.may_go_as_framed(batching.frame(events)), events)

    def test_plain_events_have_the_lines_of_others(self) -> None:
        for count in (0, 1, 3, 1024):
            events = [b"%d" % number for number in range(count)]
            self.assertEqual(batching.write_plain_records(1234, events), batching.write_records(1234, [batching.handed_over(event) for event in events]))


class Keys(unittest.TestCase):
    def test_a_key_is_a_word_of_the_file(self) -> None:
        for key in (b"a", b"!" * 64, b"deed-4711~"):
            self.assertTrue(batching.is_key(key))
        for key in (b"", b"a b", b"a\n", b"a\t", b"\xc3\xa4", b"a" * 65, b"a\x7f"):
            self.assertFalse(batching.is_key(key))

    def test_a_repeated_key_waits(self) -> None:
        self.assertEqual(batching.count_before_repeat([b"a", b"", b"", b"b"], ()), 4)
        self.assertEqual(batching.count_before_repeat([b"a", b"b", b"a"], ()), 2)
        self.assertEqual(batching.count_before_repeat([b"a", b"b"], {b"a"}), 0)
        self.assertEqual(batching.count_before_repeat([], {b"a"}), 0)


class Steps(unittest.TestCase):
    def test_a_step_takes_the_first_ones(self) -> None:
        self.assertEqual(batching.count_of_step([], 3, 10), 0)
        self.assertEqual(batching.count_of_step([1, 1, 1, 1], 3, 10), 3)
        self.assertEqual(batching.count_of_step([4, 4, 4], 3, 10), 2)
        self.assertEqual(batching.count_of_step([4, 6, 0, 1], 9, 10), 3)

    def test_one_always_goes(self) -> None:
        self.assertEqual(batching.count_of_step([11, 1], 3, 10), 1)

    def test_others_are_waited_for_up_to_half_a_step(self) -> None:
        self.assertEqual(batching.patience_for(8, 7, 2.0), 2.0)
        self.assertEqual(batching.patience_for(8, 8, 2.0), 0.0)
        self.assertEqual([batching.patience_for(2000, waiting, 2.0) for waiting in (511, 512, 1024)], [2.0, 0.0, 0.0])
        self.assertEqual([batching.patience_for(8, 7, 2.0, vain) for vain in range(9)], [2.0, *[0.0] * 7, 2.0])


class Records(unittest.TestCase):
    LINE = b"7 0 " + digest(b"a")

    def test_what_is_written_is_read(self) -> None:
        events = [batching.handed_over(b"a", b"k"), batching.handed_over(b"b")]
        lines = batching.write_records(12, events).splitlines()
        self.assertEqual([batching.read_record(line) for line in lines], [Recorded(12, 0, digest(b"a"), b"k"), Recorded(12, 1, digest(b"b"), b"")])

    def test_nothing_else_is(self) -> None:
        for line in (b"", b"7", b"7 0", self.LINE + b" ", self.LINE + b" a b", self.LINE[:-1], b"x" + self.LINE, self.LINE.upper(), self.LINE + b"\n"):
            self.assertIsNone(batching.read_record(line), line)

    def test_a_step_that_was_made_is_noted(self) -> None:
        made = batching.Made(12, "a" * 64)
        self.assertEqual(batching.read_made(batching.write_made(made)[:-1]), made)
        for line in (b"", self.LINE, b"12 made", b"12 made " + b"A" * 64, b"12 made " + b"a" * 63):
            self.assertIsNone(batching.read_made(line))

    def test_lines_stand_in_order(self) -> None:
        a, b, c = (Recorded(step, index, b"", b"") for step, index in ((3, 0), (3, 1), (5, 0)))
        self.assertEqual(list(batching.steps_of_records([a, b, c])), [(3, [a, b]), (5, [c])])
        for wrong in ([b], [a, a], [a, c, b], [Recorded(0, 0, b"", b"")]):
            with self.assertRaises(ValueError):
                list(batching.steps_of_records(wrong))

    def test_steps_rise(self) -> None:
        a, c = Recorded(5, 0, b"", b""), Recorded(3, 0, b"", b"")
        with self.assertRaises(ValueError):
            list(batching.steps_of_records([a, c]))


class OtherStep(unittest.TestCase):
    def test_each_record_is_what_the_store_has(self) -> None:
        store: list[tuple[int, list[bytes]]] = [(1, [b"a", b"b"]), (2, []), (3, [b"strange"]), (4, [b"c"])]
        a, b, c = (Recorded(step, index, digest(it), b"") for step, index, it in ((1, 0, b"a"), (1, 1, b"b"), (4, 0, b"c")))
        self.assertIsNone(batching.find_other_step([(1, [a, b]), (4, [c])], iter(store)))
        self.assertIsNone(batching.find_other_step([], iter(store)))
        for wrong, step in (([(1, [a])], 1), ([(1, [b, a])], 1), ([(1, [a, b]), (3, [c])], 3), ([(4, [c]), (5, [c])], 5)):
            self.assertEqual(batching.find_other_step(wrong, iter(store)), step)


class Untold(unittest.TestCase):
    def test_a_step_with_events_of_which_no_record_tells_is_untold(self) -> None:
        self.assertTrue(batching.is_untold(3, [b"x"], {2, 4}))
        self.assertTrue(batching.is_untold(3, [b"new key x", b"x"], {2, 4}))
        self.assertFalse(batching.is_untold(3, [b"x"], {3}))

    def test_an_empty_one_and_one_of_a_services_words_of_itself_are_not(self) -> None:
        own: list[list[bytes]] = [[], [b"new key ssh-ed25519 AAAA"], [b"goes on as reg-2"]]
        for events in own:
            self.assertFalse(batching.is_untold(3, events, ()))


class Settle(unittest.TestCase):
    def test_what_the_store_has_is_made(self) -> None:
        self.assertIs(batching.settle_step(4, 4, 4, True), Settled.MADE)
        self.assertIs(batching.settle_step(4, 6, 5, False), Settled.MADE)

    def test_the_next_step_was_never_made(self) -> None:
        self.assertIs(batching.settle_step(4, 3, None, False), Settled.UNMADE)

    def test_a_store_that_lacks_it_is_another(self) -> None:
        """An old store put back would lose what was told to be recorded."""
        for last in (2, 4, 9):
            for is_noted in (False, True):
                self.assertIs(batching.settle_step(4, last, None, is_noted), Settled.LOST)

    def test_what_somebody_was_told_of_is_lost_where_it_isn_t_there(self) -> None:
        self.assertIs(batching.settle_step(4, 3, None, True), Settled.LOST)

    def test_a_sample_has_both_ends(self) -> None:
        self.assertEqual([batching.sample_of(count) for count in (0, 1, 2, 5)], [[], [0], [0, 1], [0, 2, 4]])


if __name__ == "__main__":
    unittest.main()
