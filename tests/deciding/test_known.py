"""Tests of what is known of logged files, and of when they aren't read."""

import unittest

from weft.deciding.gone import GONE, State
from weft.deciding.known import (
    AT_REST,
    DAY,
    HEAD_SIZE,
    NO_MARK,
    RECORD,
    Change,
    Entry,
    Head,
    Known,
    Lost,
    is_full_due,
    is_other_folder,
    last_of_each,
    lay_over,
    mark_of,
    mark_read,
    may_skip,
    order_of,
    pack_record,
    pair,
    read_head,
    rest_length,
    shared_length,
    sign_of,
    unpack_record,
    weigh_change,
)

STATE = State(1, 2, 3, 4, 5)
ONE, OTHER = b"1" * 64, b"2" * 64
HEAD = Head(1_700_000_000, 2, 345, "ab" * 32, False, False)


def known(path: bytes, digest: bytes = ONE, mark: bytes = b"m" * 16, lost: Lost = Lost.NO) -> Known:
    """A record."""
    return Known(path, digest, mark, lost)


class Folder(unittest.TestCase):
    """Of which folder a log is."""

    def test_another_one_is_known_where_one_was_noted(self) -> None:
        one, other = sign_of(b"/srv/data"), sign_of(b"/srv/other")
        self.assertTrue(is_other_folder(HEAD._replace(folder=one), other))
        for before in (HEAD._replace(folder=other), HEAD, None):
            self.assertFalse(is_other_folder(before, other))

    def test_it_stands_in_the_head(self) -> None:
        head = HEAD._replace(folder=sign_of(b"/srv/data"))
        self.assertEqual((len(head.data), read_head(head.data)), (HEAD_SIZE, head))
        most = Head(10**15 - 1, 10**9 - 1, 10**15 - 1, "ab" * 32, True, True, "c" * 16)
        self.assertEqual((len(most.data), read_head(most.data)), (HEAD_SIZE, most))


class Skipping(unittest.TestCase):
    """When a file isn't read."""

    def test_a_file_whose_state_is_as_it_was(self) -> None:
        self.assertTrue(may_skip(known(b"./a", mark=mark_of(STATE)), STATE, False))

    def test_each_number_of_the_state_counts(self) -> None:
        for name in State._fields:
            for value in (0, 77, 2**64 - 1):
                self.assertFalse(may_skip(known(b"./a", mark=mark_of(STATE)), STATE._replace(**{name: value}), False), name)

    def test_not_where_all_are_read(self) -> None:
        self.assertFalse(may_skip(known(b"./a", mark=mark_of(STATE)), STATE, True))

    def test_not_where_nothing_is_known(self) -> None:
        self.assertFalse(may_skip(None, STATE, False))
        self.assertFalse(may_skip(known(b"./a", mark=NO_MARK), STATE, False))

    def test_a_time_before_1970_has_a_mark(self) -> None:
        self.assertNotEqual(mark_of(STATE._replace(modified=-1)), mark_of(STATE._replace(modified=1)))

    def test_a_file_that_was_changed_within_a_minute_or_ahead_is_read_once_more(self) -> None:
        for age, is_marked in ((0, False), (1, False), (AT_REST - 1, False), (AT_REST, True), (9 * AT_REST, True), (-1, False), (-9 * AT_REST, False)):
            self.assertEqual(mark_read(STATE, STATE.changed + age), mark_of(STATE) if is_marked else NO_MARK, age)

    def test_a_full_read_is_due_after_some_days(self) -> None:
        self.assertFalse(is_full_due(1000, 1000, 7))
        self.assertFalse(is_full_due(1000, 1000 + 7 * DAY - 1, 7))
        self.assertTrue(is_full_due(1000, 1000 + 7 * DAY, 7))

    def test_it_is_due_where_none_was_and_where_the_last_one_lies_ahead(self) -> None:
        self.assertTrue(is_full_due(None, 1000, 7))
        self.assertTrue(is_full_due(1001, 1000, 7))

    def test_with_0_days_it_is_due_each_time(self) -> None:
        self.assertTrue(is_full_due(1000, 1000, 0))


class Keeping(unittest.TestCase):
    """How it is kept."""

    def test_a_head_is_read_as_it_was_written(self) -> None:
        for head in (HEAD, HEAD._replace(drops_gone=True), HEAD._replace(drops_replaced=True, full=0)):
            self.assertEqual((read_head(head.data), len(head.data)), (head, HEAD_SIZE))

    def test_what_is_no_head(self) -> None:
        for data in (b"", HEAD.data[:-1], HEAD.data + b" ", b"x" + HEAD.data[1:], HEAD.data.replace(b"ab" * 32, b"xy" * 32), bytes(HEAD_SIZE)):
            self.assertIsNone(read_head(data))

    def test_records_are_read_as_they_were_written(self) -> None:
        before = b""
        for path in (b"./a", b"./a/b", b"./a/bc", b"./b", b"./" + b"x" * 900, b"./\xff\n"):
            for lost in Lost:
                record = known(path, OTHER, NO_MARK, lost)
                data = pack_record(record, before)
                head, rest = data[: RECORD.size], data[RECORD.size :]
                self.assertEqual((unpack_record(head, rest, before), rest_length(head)), (record, len(rest)))
            before = path

    def test_only_what_differs_of_a_path_is_kept(self) -> None:
        self.assertEqual(len(pack_record(known(b"./a/b/cd"), b"./a/b/ce")), RECORD.size + 1)
        self.assertEqual([shared_length(b"abc", other) for other in (b"", b"a", b"ab", b"abc", b"abcd", b"xbc", b"abx")], [0, 1, 2, 3, 3, 0, 2])

    def test_what_was_logged_as_gone_counts_no_more(self) -> None:
        gone, replaced = known(b"./a", lost=Lost.GONE), known(b"./a", lost=Lost.REPLACED)
        for head, drops in ((HEAD, (False, False)), (HEAD._replace(drops_gone=True), (True, False)), (HEAD._replace(drops_replaced=True), (False, True))):
            self.assertEqual((head.drops(gone), head.drops(replaced), head.drops(known(b"./a"))), (*drops, False))


class Order(unittest.TestCase):
    """What stands in the order of paths."""

    def test_what_is_below_a_folder_stands_before_names_that_go_on(self) -> None:
        paths = [b"./a", b"./a/b", b"./a/b/c", b"./a b", b"./a-", b"./a.txt", b"./ab"]
        self.assertEqual(sorted(paths, key=order_of), paths)

    def test_each_is_paired_with_what_is_known_of_it(self) -> None:
        found, records = [Entry(b"./a", ONE), Entry(b"./c", ONE), Entry(b"./d", ONE)], [known(b"./b"), known(b"./c"), known(b"./e")]
        paths = [(it and it.path, record and record.path) for it, record in pair(found, records)]
        self.assertEqual(paths, [(b"./a", None), (None, b"./b"), (b"./c", b"./c"), (b"./d", None), (None, b"./e")])

    def test_one_side_may_be_empty(self) -> None:
        self.assertEqual(list(pair([], [known(b"./a")])), [(None, known(b"./a"))])
        self.assertEqual(list(pair([Entry(b"./a", ONE)], [])), [(Entry(b"./a", ONE), None)])
        self.assertEqual(list(pair([], [])), [])

    def test_the_last_entry_of_each_path_counts(self) -> None:
        entries = [Entry(b"./a", ONE), Entry(b"./a", OTHER), Entry(b"./b", ONE)]
        self.assertEqual(list(last_of_each(entries)), [Entry(b"./a", OTHER), Entry(b"./b", ONE)])
        self.assertEqual(list(last_of_each([])), [])

    def test_later_entries_are_laid_over_what_is_known(self) -> None:
        records = [known(b"./a"), known(b"./b"), known(b"./c"), known(b"./d")]
        entries = [Entry(b"./a", ONE), Entry(b"./a", GONE), Entry(b"./b", OTHER), Entry(b"./c", ONE), Entry(b"./x", ONE), Entry(b"./y", GONE)]
        self.assertEqual(list(lay_over(records, entries)), [known(b"./b", OTHER, NO_MARK), known(b"./c"), known(b"./d"), known(b"./x", mark=NO_MARK)])


class Changes(unittest.TestCase):
    """What differs."""

    def test_new_changed_and_as_it_was(self) -> None:
        self.assertEqual(weigh_change(None, ONE), Change.NEW)
        self.assertEqual(weigh_change(known(b"./a"), OTHER), Change.CHANGED)
        self.assertEqual(weigh_change(known(b"./a"), ONE), Change.SAME)


if __name__ == "__main__":
    unittest.main()
