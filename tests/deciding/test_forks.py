"""Tests of when two lines contradict, when that is evidence, and what is remembered: nobody is accused by a signature that isn't good."""

import unittest

from weft.deciding.forks import (
    MOST_REMEMBERED, Finding, Fork, contradicts, find_contradicting, may_write_fork, name_fork_file, read_forks, weigh_contradiction,
)  # fmt: skip
from weft.deciding.lines import Line
from weft.deciding.signatures import BEGIN, END, Signed

A, B = "a" * 64, "b" * 64


def signed(authenticator: str, step: int = 12, service: str = "bank", text: bytes = b"AAAA") -> Signed:
    """A line with the shape of a signature."""
    return Signed(Line(service, step, authenticator), BEGIN + b"\n" + text + b"\n" + END + b"\n")


FIRST, SECOND = signed(A), signed(B)


class Contradicting(unittest.TestCase):
    """Which lines contradict."""

    def test_lines_of_one_step_of_one_service_that_differ(self) -> None:
        self.assertTrue(contradicts(FIRST.line, SECOND.line))
        self.assertFalse(contradicts(FIRST.line, FIRST.line))
        self.assertFalse(contradicts(FIRST.line, signed(B, step=13).line))
        self.assertFalse(contradicts(FIRST.line, signed(B, service="shop").line))

    def test_those_of_the_held_lines_are_found(self) -> None:
        held = [signed(A, step=11), FIRST, signed(A, service="shop"), SECOND]
        self.assertEqual(find_contradicting(SECOND.line, held), [FIRST])
        self.assertEqual(find_contradicting(FIRST.line, held), [SECOND])
        self.assertEqual(find_contradicting(signed(A, step=1).line, held), [])


class Weighing(unittest.TestCase):
    """What a contradiction shows."""

    def test_two_good_signatures_are_evidence(self) -> None:
        self.assertIs(weigh_contradiction(FIRST.line, SECOND.line, True, True), Finding.EVIDENCE)

    def test_a_made_up_signature_accuses_nobody(self) -> None:
        self.assertIs(weigh_contradiction(FIRST.line, SECOND.line, True, False), Finding.NOTHING)
        self.assertIs(weigh_contradiction(FIRST.line, SECOND.line, False, False), Finding.NOTHING)

    def test_a_kept_line_whose_signature_isnt_good_accuses_nobody(self) -> None:
        self.assertIs(weigh_contradiction(FIRST.line, SECOND.line, False, True), Finding.DIFFERENT)

    def test_lines_that_dont_contradict_show_nothing(self) -> None:
        self.assertIs(weigh_contradiction(FIRST.line, FIRST.line, True, True), Finding.NOTHING)
        self.assertIs(weigh_contradiction(FIRST.line, signed(B, service="shop").line, True, True), Finding.NOTHING)


class Remembering(unittest.TestCase):
    """The files in which two lines are kept."""

    def test_a_name_has_the_whole_authenticator(self) -> None:
        """Two lines whose authenticators begin alike can be made: neither takes the other's place."""
        alike = signed("a" * 63 + "b")
        self.assertEqual(name_fork_file(FIRST.line), f"12-{A}")
        self.assertNotEqual(name_fork_file(alike.line), name_fork_file(FIRST.line))

    def test_what_is_remembered_isnt_overwritten_by_less(self) -> None:
        again = signed(A, text=b"BBBB")
        self.assertFalse(may_write_fork(FIRST.data, again, True))
        self.assertTrue(may_write_fork(FIRST.data, again, False))
        self.assertTrue(may_write_fork(None, FIRST, False))
        self.assertTrue(may_write_fork(None, FIRST, True))
        self.assertTrue(may_write_fork(None, FIRST, False, MOST_REMEMBERED - 1))
        self.assertFalse(may_write_fork(None, FIRST, False, MOST_REMEMBERED))
        self.assertTrue(may_write_fork(b"x", FIRST, False, MOST_REMEMBERED))
        for other in (b"", b"x", FIRST.data[:-9], SECOND.data, FIRST.data + SECOND.data):
            self.assertTrue(may_write_fork(other, FIRST, True), other)

    def test_forks_are_steps_of_which_two_lines_are_remembered(self) -> None:
        later = [signed(A, step=13), signed(B, step=13), signed("c" * 64, step=13)]
        found = [(name_fork_file(it.line), it.data) for it in (later[0], SECOND, later[1], FIRST, later[2], signed(A, step=14))]
        self.assertEqual(read_forks("bank", found), [Fork(12, (SECOND, FIRST)), Fork(13, tuple(later))])
        self.assertEqual(read_forks("bank", []), [])

    def test_names_of_earlier_versions_are_read(self) -> None:
        self.assertEqual(read_forks("bank", [(f"12-{A[:16]}", FIRST.data), (f"12-{B[:16]}", SECOND.data)]), [Fork(12, (FIRST, SECOND))])

    def test_what_isnt_two_signed_lines_of_the_service_is_no_fork(self) -> None:
        name, other = name_fork_file(FIRST.line), name_fork_file(SECOND.line)
        for found in (
            [(name, FIRST.data)], [(name, FIRST.data), (other, FIRST.data)], [(name, FIRST.data), (other, b"x")], [(name, FIRST.data), (other, SECOND.data + b"x")],
            [(name, FIRST.data), (f"{other}.new", SECOND.data)], [(name, FIRST.data), ("x", SECOND.data)], [(name, FIRST.data), (other, signed(B, step=13).data)],
            [(name, FIRST.data), (other, signed(B, service="shop").data)],
        ):  # fmt: skip
            self.assertEqual(read_forks("bank", found), [])

    def test_a_line_counts_once_however_often_it_is_remembered(self) -> None:
        found = [(f"12-{A[:16]}", FIRST.data), (name_fork_file(FIRST.line), signed(A, text=b"BBBB").data), (name_fork_file(SECOND.line), SECOND.data)]
        self.assertEqual(read_forks("bank", found), [Fork(12, (FIRST, SECOND))])


if __name__ == "__main__":
    unittest.main()
