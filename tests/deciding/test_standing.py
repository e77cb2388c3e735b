"""Tests of what a command may do under what is known against a store: the whole table, and what has to hold between its cells."""

import itertools
import unittest

from weft.deciding.checking import EntryState, Export, Found, Looked, judge_check, judge_entries
from weft.deciding.standing import BY_KEPT_LINES, ENDED_BY_A_PERSON, STATUSES, TABLE, Against, Command, May, may_do, status_under
from weft.deciding.worst import RANKS
from weft.statuses import Status

# Each state, and with which status each command ends at best where that alone is known: 10w where it waits for peers' words.
STATED = """
               log  exchange  alone  line  prove  step  list  check  entries  chain  status  backup  restore  record  find
UNJOINED       17   17        17     17    17     17    17    17     17       17     17      17      17       17      17
MISSING_PART   17   17        17     17    17     17    17    17     17       17     17      17      17       17      17
OTHER_PART     17   17        17     17    17     17    17    17     17       17     17      17      17       17      17
UNFOUND        10   10        10     10    10     0     10    10     10       0      10      0       0        10      10
UNCOUNTED      10   10        10     10    10     0     10    10     10       0      10      0       0        10      10
DISPUTED       17   17        17     17    17     0     17    17     17       0      17      0       17       17      17
OTHER_KEPT     17   17        17     17    17     0     17    17     17       0      17      0       17       17      17
LATER_PART     17   17        17     17    17     0     17    10     10       0      10      0       17       17      17
OTHER_LINE     17   17        17     17    17     17    17    17     17       17     17      17      17       17      17
TOLD           17   17        17     17    17     0     17    17     17       0      17      17      17       17      17
LOOK           17   10w       17     10    10     0     10    10     10       0      10      10      0        17      10
NO_LINES       17   17        17     0     0      0     0     0      17       0      0       0       0        17      0
COPY           17   10w       17     10    10     0     10    10     10       0      10      10      0        17      10
NO_ENTRIES     17   0         0      0     17     17    0     10     0        0      0       0       0        0       0
"""


class Table(unittest.TestCase):
    """What each command may do under each state."""

    def test_each_cell_is_as_it_is_stated(self) -> None:
        head, *rows = (line.split() for line in STATED.strip().splitlines())
        self.assertEqual([one.name.lower() for one in Command], head)
        self.assertEqual([one.name for one in Against], [row[0] for row in rows])
        for against, (_, *cells) in zip(Against, rows):
            for command, cell in zip(Command, cells):
                told = f"{against.name} under {command.name}"
                self.assertEqual(STATUSES[may_do(against, command)], Status(int(cell.rstrip("w"))), told)
                self.assertEqual(may_do(against, command) is May.WAIT, cell.endswith("w"), told)

    def test_each_state_has_a_cell_for_each_command(self) -> None:
        self.assertEqual({*TABLE}, {*Against})
        self.assertEqual({len(row) for row in TABLE.values()}, {len(Command)})

    def test_no_command_needs_more_than_a_log(self) -> None:
        for against, command in itertools.product(Against, Command):
            self.assertLessEqual(RANKS[STATUSES[may_do(against, command)]], RANKS[STATUSES[may_do(against, Command.LOG)]], (against, command))

    def test_what_ends_a_log_makes_a_turn_end_or_wait_but_for_entries_which_a_turn_has_none_of(self) -> None:
        for against in Against:
            is_ended = may_do(against, Command.LOG) is May.END and against is not Against.NO_ENTRIES
            self.assertEqual(may_do(against, Command.EXCHANGE) in (May.END, May.WAIT), is_ended, against)

    def test_what_ends_a_log_is_told_by_each_word_that_says_what_is_last_but_that_nothing_stands_there(self) -> None:
        for against, command in itertools.product(Against, (Command.LINE, Command.PROVE, Command.LIST, Command.CHECK, Command.STATUS, Command.FIND)):
            says_nothing_of_entries = (Command.LINE, Command.LIST, Command.STATUS, Command.FIND)
            may_pass = against is Against.NO_LINES or (against is Against.NO_ENTRIES and command in says_nothing_of_entries)
            self.assertEqual(may_do(against, command) is May.GO_ON, may_pass, (against, command))

    def test_what_kept_lines_show_is_none_of_what_a_person_ends(self) -> None:
        self.assertFalse(BY_KEPT_LINES & ENDED_BY_A_PERSON)

    def test_entries_are_made_anew_of_no_store_that_may_be_another(self) -> None:
        for against in (Against.NO_LINES, Against.OTHER_LINE, Against.OTHER_KEPT, Against.DISPUTED, Against.MISSING_PART):
            self.assertIs(may_do(against, Command.ENTRIES), May.END)

    def test_weft_check_says_so_of_what_it_looks_for_itself(self) -> None:
        whole = Looked(Export.WHOLE, 1, 1, True)
        self.assertEqual(judge_check(Found(0, 0, 1), whole), STATUSES[may_do(Against.DISPUTED, Command.CHECK)])
        self.assertEqual(judge_check(Found(0, 1, 0), whole), STATUSES[may_do(Against.OTHER_KEPT, Command.CHECK)])
        self.assertEqual(judge_check(Found(0, 1, 0), whole), STATUSES[may_do(Against.OTHER_LINE, Command.CHECK)])
        self.assertEqual(judge_check(Found(0, 1, 0), whole), STATUSES[may_do(Against.OTHER_PART, Command.CHECK)])
        self.assertEqual(judge_entries(EntryState.MISSING), STATUSES[may_do(Against.NO_ENTRIES, Command.CHECK)])


class Person(unittest.TestCase):
    """What a person's word ends."""

    def test_a_named_line_ends_what_only_a_person_can_tell(self) -> None:
        for against, command in itertools.product(Against, Command):
            named = may_do(against, command, True)
            self.assertIs(named, May.GO_ON if against in ENDED_BY_A_PERSON else may_do(against, command), (against, command))

    def test_it_ends_nothing_that_a_line_shows(self) -> None:
        shown = {Against.UNJOINED, Against.MISSING_PART, Against.OTHER_PART, Against.DISPUTED, Against.OTHER_KEPT, Against.LATER_PART, Against.OTHER_LINE, Against.TOLD}
        self.assertFalse(shown & ENDED_BY_A_PERSON)


class Several(unittest.TestCase):
    """Several states at once."""

    def test_the_worst_counts(self) -> None:
        self.assertEqual(status_under([], Command.LOG), Status.DONE)
        self.assertEqual(status_under([Against.COPY, Against.UNCOUNTED], Command.LINE), Status.LOOK)
        for first, second in itertools.permutations(Against, 2):
            self.assertEqual(status_under([first, second], Command.LOG), status_under([second, first], Command.LOG))
        self.assertEqual(status_under([Against.UNCOUNTED, Against.COPY], Command.LOG), Status.OLD_STORE)
        self.assertEqual(status_under([Against.UNCOUNTED, Against.COPY], Command.LOG, True), Status.LOOK)


if __name__ == "__main__":
    unittest.main()
