"""Tests of which of many files may contradict each other."""

import random
import unittest
from typing import Optional

from weft import packages
from weft.deciding.contradicting import Differing, Doubted, Hop, Lacked, Pair, Received, Told, find_denied, find_doubted, find_histories_apart, find_pairs, find_two_lines, list_entries, may_count, read_by, read_told, write_by
from weft.deciding.contradicting import Whole as Recorded
from weft.deciding.lines import LAST_STEP, Line

X, Y = "a" * 64, "b" * 64


def digit(number: int) -> str:
    """An authenticator that is made of a number."""
    return f"{number:064x}"


def file(
    step: int = 9, received: Optional[Received] = None, lacked: Optional[Lacked] = None, service: str = "notary", events: int = 0,
    time: Optional[int] = None, under: Optional[Line] = None, authenticator: str = "", before: str = "",
) -> Told:  # fmt: skip
    """What a file tells, of a step whose authenticators are made of its number, as those of the same history are."""
    line = under or Line(service, 50, digit(50))
    return Told(line, step, authenticator or digit(step), before or digit(step - 1), events, time, received, lacked)


def entry(received: int, archived: int, authenticator: str = X, peer: str = "shop", service: str = "notary") -> Told:
    """A file that tells a line as received."""
    return file(received=Received(peer, received, authenticator, archived), service=service)


def lack(received: int, step: int) -> Told:
    """A file that tells a step as not received."""
    return file(step, lacked=Lacked("shop", received - 1, received, step))


class ReadTold(unittest.TestCase):
    """What a file tells, as the words of a row."""

    def test_what_is_written_is_read_back(self) -> None:
        for told in (entry(5, 2), lack(5, 7), file(3, events=2, time=1700), file(received=Received("shop", 5, X, 2), lacked=Lacked("shop", 5, LAST_STEP, 8))):
            self.assertEqual(read_told(told.text), told)

    def test_other_texts_are_none(self) -> None:
        for text in ("", f"thread notary 9 shop 5 {X} 2", f"{entry(5, 2).text} more"):
            self.assertIsNone(read_told(text), text)


class FindTwoLines(unittest.TestCase):
    """Lines that files tell of one step."""

    def test_one_line_told_by_many_is_one(self) -> None:
        self.assertEqual(find_two_lines([(0, Line("shop", 2, X)), (1, Line("shop", 2, X)), (1, Line("shop", 3, Y)), (2, Line("bank", 2, Y))]), [])

    def test_each_file_that_tells_another_one_than_the_first_is_named_once(self) -> None:
        told = [(0, Line("shop", 2, X)), (1, Line("shop", 2, Y)), (1, Line("shop", 3, Y)), (2, Line("shop", 3, X)), (0, Line("shop", 3, X)), (2, Line("shop", 2, X))]
        one = Differing(0, 1, Line("shop", 2, X), Line("shop", 2, Y))
        self.assertEqual(find_two_lines(told), [one, Differing(1, 2, Line("shop", 3, Y), Line("shop", 3, X)), Differing(1, 0, Line("shop", 3, Y), Line("shop", 3, X))])
        self.assertEqual(find_two_lines([*told[:2], (1, Line("shop", 2, "c" * 64))]), [one])


class MayCount(unittest.TestCase):
    """What files of services that broke a rule show of others."""

    def test_what_such_a_service_received_shows_nothing_and_its_own_lines_count(self) -> None:
        own, other = Line("notary", 9, X), Line("shop", 5, X)
        pairs: list[tuple[Optional[str], set[str]]] = [("notary", set()), ("notary", {"shop"}), (None, {"notary"})]
        self.assertEqual([may_count(line, "notary", {"notary"}) for line in (own, other)], [True, False])
        self.assertEqual([may_count(other, it, broken) for it, broken in pairs], [True, True, True])


class FindHistoriesApart(unittest.TestCase):
    """Whole histories beside one another."""

    def test_one_that_received_another_line_than_a_second_one_has_or_received_is_named(self) -> None:
        shop, true, other = Recorded("shop", ["0" * 64, X, Y], []), Line("shop", 2, Y), Line("shop", 2, X)
        bank, port = Recorded("bank", ["0" * 64], [true]), Recorded("port", ["0" * 64], [other, Line("shop", 0, Y), Line("shop", 9, X)])
        self.assertEqual(find_histories_apart([shop, bank]), [])
        self.assertEqual(find_histories_apart([shop, port]), [Differing(1, 0, other, true)])
        self.assertEqual(find_histories_apart([bank, port]), [Differing(0, 1, true, other)])
        self.assertEqual(find_histories_apart([port]), [])
        self.assertEqual(find_histories_apart([shop, Recorded("mill", ["0" * 64], [Line("shop", 3, X)])]), [])


class FindDoubted(unittest.TestCase):
    """What chains and evidence show by the word of services that broke a rule."""

    def test_it_goes_on_over_carried_steps_until_a_line_binds_one(self) -> None:
        lines = [Line(name, 3, X) for name in ("bank", "shop", "port", "mill")]
        beside = Line("other", 9, Y)

        def chain(*bound: bool) -> list[Hop]:
            return [Hop(by, line, is_bound, [beside]) for by, line, is_bound in zip(("notary", "bank", "shop", "port"), lines, bound)]

        self.assertEqual(find_doubted(chain(False, False, False, False), {"mill"}), Doubted([], False))
        self.assertEqual(find_doubted(chain(False, False, False, False), {"port"}), Doubted([beside, lines[3]], True))
        self.assertEqual(find_doubted(chain(True, False, True, False), {"bank"}), Doubted([beside, lines[1], beside], False))
        self.assertEqual(find_doubted(chain(True, True, True, True), {"notary"}), Doubted([beside], False))
        self.assertEqual(find_doubted([], {"notary"}), Doubted([], False))


class FindPairs(unittest.TestCase):
    """The pairs that a judge is asked about."""

    def test_files_that_agree_are_in_no_pair(self) -> None:
        agreeing = [entry(5, 2), entry(5, 2), entry(6, 3), entry(1, 1, peer="bank"), lack(7, 9), lack(5, 1), file(4, events=3, time=5), file(5, time=5), file(1, time=4)]
        self.assertEqual(find_pairs(agreeing), [])

    def test_one_step_with_two_authenticators_or_received_twice(self) -> None:
        self.assertEqual(find_pairs([entry(5, 2), entry(5, 2, Y)]), [Pair(0, 1)])
        self.assertEqual(find_pairs([entry(5, 2), entry(5, 3)]), [Pair(0, 1)])

    def test_two_lines_received_by_one_step(self) -> None:
        self.assertEqual(find_pairs([entry(5, 2), entry(5, 2, peer="bank")]), [Pair(0, 1)])
        self.assertEqual(find_pairs([entry(5, 2), entry(4, 2)]), [Pair(0, 1)])

    def test_steps_that_fall(self) -> None:
        self.assertEqual(find_pairs([entry(6, 2), entry(5, 3)]), [Pair(0, 1)])
        self.assertEqual(find_pairs([entry(8, 4), entry(5, 3), entry(6, 2)]), [Pair(1, 2)])
        self.assertEqual(find_pairs([entry(6, 2), entry(5, 3, peer="bank")]), [])

    def test_what_is_denied_by_a_later_step(self) -> None:
        self.assertEqual(find_pairs([lack(5, 2), entry(5, 2), lack(5, 1)]), [Pair(0, 1)])
        self.assertEqual(find_pairs([entry(5, 3), lack(5, 2)]), [])
        self.assertEqual(find_pairs([lack(5, 2), lack(5, 2), entry(5, 2)]), [Pair(0, 2), Pair(1, 2)])
        self.assertEqual(find_pairs([entry(5, 2), lack(5, 3), entry(5, 2)]), [Pair(0, 1), Pair(1, 2)])

    def test_the_file_that_denies_it_longest_is_named(self) -> None:
        entries = list_entries([lack(5, 1), lack(5, 4), lack(5, 3), entry(5, 3)])
        self.assertEqual(list(find_denied([lack(5, 1), lack(5, 4), lack(5, 3), entry(5, 3)], entries)), [Pair(1, 3)])
        for archived, pairs in ((3, []), (2, [Pair(0, 1)])):
            told = [lack(5, 2), entry(5, archived)]
            self.assertEqual(list(find_denied(told, list_entries(told))), pairs)
        above = file(4, lacked=Lacked("shop", 3, LAST_STEP, 4))
        self.assertEqual(list(find_denied([above, entry(5, 2)], list_entries([above, entry(5, 2)]))), [])

    def test_what_a_map_denies_of_many_steps(self) -> None:
        above = file(4, lacked=Lacked("shop", 5, LAST_STEP, 4))
        self.assertEqual(find_pairs([above, entry(5, 1), entry(7, 3), entry(9, 8)]), [Pair(0, 2)])
        self.assertEqual(find_pairs([above, entry(5, 1), entry(7, 5)]), [])
        self.assertEqual(find_pairs([file(4, lacked=Lacked("shop", 5, 6, 4)), entry(7, 3)]), [])
        self.assertEqual(find_pairs([above, entry(7, 3, peer="bank"), entry(6, 2, service="port")]), [])

    def test_events_of_a_step_that_received_a_line(self) -> None:
        self.assertEqual(find_pairs([file(2, events=1), entry(5, 2), file(3, events=1), file(2)]), [Pair(0, 1)])

    def test_clocks_that_go_back(self) -> None:
        self.assertEqual(find_pairs([file(3, time=5), file(1, time=9), file(2), file(4, time=5)]), [Pair(0, 1)])
        self.assertEqual(find_pairs([file(3, time=5), file(1, time=9, service="bank")]), [])

    def test_two_authenticators_of_a_step(self) -> None:
        self.assertEqual(find_pairs([file(3), file(3, authenticator=Y)]), [Pair(0, 1)])
        self.assertEqual(find_pairs([file(3), file(4, before=Y)]), [Pair(0, 1)])
        self.assertEqual(find_pairs([file(3), file(7, under=Line("notary", 3, Y))]), [Pair(0, 1)])
        self.assertEqual(find_pairs([file(7, under=Line("notary", 8, X)), file(7, under=Line("notary", 8, Y))]), [Pair(0, 1)])
        self.assertEqual(find_pairs([file(9, before=Y), file(7, under=Line("notary", 8, X))]), [Pair(0, 1)])

    def test_the_steps_before_two_shown_ones_come_last(self) -> None:
        both = [file(9, before=X), file(9, before=Y)]
        self.assertEqual(find_pairs([*both, file(8, authenticator=X)]), [Pair(1, 2)])

    def test_other_services_have_nothing_to_do_with_it(self) -> None:
        self.assertEqual(find_pairs([entry(5, 2), entry(5, 2, Y, service="port"), entry(6, 1, service="bank")]), [])

    def test_many_files_are_in_few_pairs(self) -> None:
        told = [entry(number, number) for number in range(1, 2000)] + [entry(number, number, Y) for number in range(1, 2000)]
        self.assertLessEqual(len(find_pairs(told)), 3 * len(told))


@unittest.skipUnless(packages.HAS_REFERENCE, "timeweave_reference isn't there")
class Whole(unittest.TestCase):
    """Files drawn by chance, and the rules of the reference."""

    def test_where_two_files_break_a_rule_together_a_pair_that_does_is_named(self) -> None:
        draw, broken = random.Random("contradicting"), 0
        for _ in range(1000):
            told = [it for it in (drawn(draw) for _ in range(draw.randrange(2, 6))) if not breaks(it, it)]
            pairs = {Pair(at, other) for at in range(len(told)) for other in range(at + 1, len(told)) if breaks(told[at], told[other])}
            named = set(find_pairs(told))
            broken += bool(pairs)
            self.assertEqual(bool(pairs), bool(pairs & named), f"{told}\n{pairs}\n{named}")
        self.assertGreater(broken, 100)


def drawn(draw: random.Random) -> Told:
    """A file of few services, steps and authenticators."""
    service, peers, step = draw.choice(("notary", "notary", "bank")), ("shop", "bank", "mill"), draw.randrange(2, 6)
    received, lacked = None, None
    if draw.random() < 0.6:
        received = Received(draw.choice(peers), draw.randrange(1, 4), draw.choice((X, X, Y)), draw.randrange(1, 6))
    if draw.random() < 0.5:
        above = draw.randrange(0, 4)
        lacked = Lacked(draw.choice(peers), above, draw.choice((above + 1, LAST_STEP)), step)
    return file(
        step, received, lacked, service, draw.choice((0, 0, 0, 2)), draw.choice((None, None, None, step, 3)), Line(service, 50, digit(50)),
        draw.choice(("", "", "", "", X)), draw.choice(("", "", "", "", "", Y)),
    )  # fmt: skip


def breaks(one: Told, other: Told) -> bool:
    """Whether both files break a rule of the reference."""
    from timeweave_reference.broken_rules import broken_rule

    return broken_rule(facts_of(one), facts_of(other)) is not None


def facts_of(told: Told):  # type: ignore[no-untyped-def]
    """What a file tells, as the reference has it; its step's authenticator is put in, since nothing is hashed here."""
    from timeweave_reference.anchors import Anchor
    from timeweave_reference.archive_facts import Facts, Lack
    from timeweave_reference.archives import Entry
    from timeweave_reference.hashed_texts import NO_EVENTS
    from timeweave_reference.openings import Opening

    root = NO_EVENTS if told.events == 0 else bytes.fromhex(Y)
    opening = Opening(root, bytes(32), told.events, told.time, bytes.fromhex(told.before), ())
    entry = None if told.received is None else Entry(told.received.peer, told.received.step, bytes.fromhex(told.received.authenticator), told.received.at)
    lack = None if told.lacked is None else Lack(*told.lacked)
    line, shown = (Anchor(step, bytes.fromhex(auth)) for step, auth in (told.under[1:], (told.step, told.authenticator)))
    return Facts(told.service, line, shown, opening, entry, lack)


class Tellers(unittest.TestCase):
    """By whose word a file tells what others recorded, as a row has it."""

    def test_they_are_read_as_written_and_are_no_archive(self) -> None:
        many = [f"s-{number}" for number in range(20)]
        for services in (["bank"], ["port", "bank", "bank"], many):
            self.assertEqual(read_by(write_by(services)), {*services})
            self.assertIsNone(read_told(write_by(services)))
        self.assertEqual(write_by(["port", "bank"]), "by bank,port")
        self.assertEqual(write_by([]), "")
        self.assertEqual(read_by(""), set())
        self.assertEqual(read_by(entry(3, 4).text), set())


if __name__ == "__main__":
    unittest.main()
