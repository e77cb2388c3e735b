"""The vectors of the rules that two files show broken: of each rule a keeper who breaks it, what is near to it and sound, and evidence of a fork whose both sides
one service received."""

from __future__ import annotations

from dataclasses import replace
from typing import Iterator, Tuple, Union

from keepers import Keeper, KeptStep, tree_of
from vector import Deep, Vector, flipped, make_vector
from vectors_of_contradictions import File, pair

from timeweave_reference.anchors import anchors_to_bytes
from timeweave_reference.archives import EMPTY, Entry, Node, Tree
from timeweave_reference.evidence import Evidence
from timeweave_reference.hashed_texts import NO_EVENTS, digest, event_leaf, genesis
from timeweave_reference.map_files import HighFile, LowFile
from timeweave_reference.proofs import AbsenceProof, ThreadProof

X, Y = digest(b"one"), digest(b"other")
SHOP, BANK = Entry("shop", 5, X, 1), Entry("bank", 3, Y, 2)
"""Two threads of two services that the notary received."""

Shown = Union[ThreadProof, AbsenceProof, LowFile, HighFile, None]


def notary(*trees: Tree) -> Keeper:
    """A service of so many steps without events, after which its archive is so."""
    keeper = Keeper("notary")
    for tree in trees:
        keeper.add(KeptStep(tree=tree))
    return keeper


def under(keeper: Keeper, file: Shown) -> File:
    """The bytes of a file, and the line of its top."""
    assert file, "the keeper's tree gives what is asked for"
    return file.to_bytes(), keeper.line(file.top)


def thread(keeper: Keeper, step: int, top: int, entry: Entry) -> File:
    """That the archive after a step has the entry."""
    return under(keeper, keeper.thread(step, top, entry))


def none(keeper: Keeper, step: int, top: int) -> File:
    """That it has no thread of a service of which nobody heard; it is asked for what the step's opening says."""
    return under(keeper, keeper.absence(step, top, ("nobody", 1)))


def both(name: str, first: File, second: File, link: bytes = b"") -> Iterator[Vector]:
    """The vectors of two files in both orders."""
    yield pair(name, first, second, link)
    yield pair(f"{name}, the other one first", second, first, link)


def twice(name: str, file: File) -> Vector:
    """The vector of one file, which is given twice."""
    return pair(name, file, file)


# ---- of what is denied, of one entry, and of two


def of_denials() -> Iterator[Vector]:
    """A thread that is denied by the very step that received it, and what is near to it and no denial."""
    late = notary(EMPTY, EMPTY, tree_of([BANK]))
    shown, denied = thread(late, 3, 3, BANK), under(late, late.absence(2, 3, ("bank", 3)))
    yield from both("a thread that is denied by the step that received it", shown, denied)
    yield pair("a thread, and the step before the one that received it", shown, under(late, late.absence(1, 3, ("bank", 3))))
    yield pair("a thread, and a lower step of its service that is absent", shown, under(late, late.absence(3, 3, ("bank", 2))))
    yield pair("a thread, and a higher step of its service that is absent", shown, under(late, late.absence(3, 3, ("bank", 4))))
    beside = notary(tree_of([Entry("bank", 3, Y, 500)]))
    yield twice("a low file next to a thread of another service that a later step received", under(beside.add(KeptStep()), beside.low(2, 2, "shop")))
    above = notary(tree_of([Entry("bank", 3, Y, 500)]))
    yield twice("a high file next to such a thread", under(above, above.high(1, "aunt", 1)))


def of_one_entry() -> Iterator[Vector]:
    """Threads of the service itself, and those that a later step received."""
    own = notary(tree_of([Entry("notary", 4, X, 1)]), EMPTY)
    file = thread(own, 1, 1, Entry("notary", 4, X, 1))
    yield twice("a thread of its own", file)
    yield from both("a thread of its own, and a file of its second step", thread(own, 1, 2, Entry("notary", 4, X, 1)), none(own, 2, 2))
    yield pair("a thread of its own, under two lines, joined", file, none(own, 2, 2), own.link(1, 2).to_bytes())
    yield pair("a thread of its own, under two lines, which nothing joins", file, none(own, 2, 2))
    yield pair("a thread of its own, with a link that joins other lines", file, none(own, 2, 2), own.link(2, 2).to_bytes())
    ledger = Entry("ledger", 1, X, 500)
    later = notary(EMPTY, tree_of([ledger]))
    high = under(later, later.high(2, "ledger", 1))
    yield twice("a reader's: a high file with a thread that a step behind its top received", high)
    yield from both("a high file with such a thread, and another file", high, none(later, 1, 2))
    low_entry = Entry("notary", 2, later.auths[2], 77)
    book = Keeper("ledger").add(KeptStep(tree=tree_of([low_entry]))).add(KeptStep([b"x"], tree_of([low_entry])))
    low = under(book, book.low(2, 2, "notary"))
    yield twice("a reader's: a low file with a thread that a step behind its step received", low)
    early = notary(tree_of([BANK]), tree_of([BANK]), EMPTY)
    yield twice("a low file with a thread that its own step received", under(early, early.low(2, 3, "bank")))
    yield twice("a low file without a thread, which the step behind has", under(later, later.low(2, 2, "ledger")))
    at = notary(EMPTY, tree_of([BANK]))
    yield twice("a high file with a thread that its top received", under(at, at.high(2, "bank", 1)))


def of_two_entries() -> Iterator[Vector]:
    """One key twice, two threads of one step, and steps of a peer that fall."""
    twice = notary(tree_of([SHOP]), tree_of([Entry("shop", 5, Y, 2)]))
    first, second = thread(twice, 1, 2, SHOP), thread(twice, 2, 2, Entry("shop", 5, Y, 2))
    yield from both("a reader's: one thread with two authenticators", first, second)
    yield pair("one thread with two authenticators, under two lines, joined", thread(twice, 1, 1, SHOP), second, twice.link(1, 2).to_bytes())
    yield pair("one thread with two authenticators, under two lines, which nothing joins", thread(twice, 1, 1, SHOP), second)
    other = notary(tree_of([Entry("shop", 5, Y, 1)]))
    yield pair("two histories, each with another authenticator of the thread", thread(twice, 1, 2, SHOP), thread(other, 1, 1, Entry("shop", 5, Y, 1)))
    again = notary(tree_of([SHOP]), tree_of([Entry("shop", 5, X, 2)]))
    yield pair("one thread, received by two steps", thread(again, 1, 2, SHOP), thread(again, 2, 2, Entry("shop", 5, X, 2)))
    same = notary(tree_of([SHOP]), tree_of([SHOP]))
    yield pair("one thread, shown by two steps", thread(same, 1, 2, SHOP), thread(same, 2, 2, SHOP))
    bank = Entry("bank", 3, Y, 1)
    one_step = notary(Node(tree_of([bank]), SHOP, EMPTY))
    yield from both("a reader's: two threads of one step", thread(one_step, 1, 1, SHOP), thread(one_step, 1, 1, bank))
    same = notary(tree_of([Entry("bank", 5, Y, 1), SHOP]))
    yield pair("two threads of one step, of the same step of two services", thread(same, 1, 1, SHOP), thread(same, 1, 1, Entry("bank", 5, Y, 1)))
    two_steps = notary(tree_of([SHOP]), tree_of([SHOP, Entry("shop", 7, Y, 1)]))
    yield pair("two threads of one peer and one step", thread(two_steps, 1, 2, SHOP), thread(two_steps, 2, 2, Entry("shop", 7, Y, 1)))
    stale = Entry("shop", 3, Y, 2)
    falling = notary(tree_of([SHOP]), Node(tree_of([stale]), SHOP, EMPTY))
    yield from both("a reader's: steps of one peer that fall", thread(falling, 2, 2, SHOP), thread(falling, 2, 2, stale))
    rising = notary(tree_of([SHOP]), tree_of([SHOP, Entry("shop", 7, Y, 2)]))
    yield pair("steps of one peer that rise", thread(rising, 1, 2, SHOP), thread(rising, 2, 2, Entry("shop", 7, Y, 2)))
    sound = notary(tree_of([SHOP]), tree_of([BANK, SHOP]))
    yield pair("two threads of two steps", thread(sound, 2, 2, SHOP), thread(sound, 2, 2, BANK))


# ---- of openings


def of_openings() -> Iterator[Vector]:
    """Events of a step that received a thread, clocks that go back, and roots that aren't those of their counts."""
    tree = tree_of([SHOP])
    paid = Keeper("notary").add(KeptStep([b"paid"], tree)).add(KeptStep(tree=tree))
    yield from both("events of a step that received a thread", thread(paid, 2, 2, SHOP), none(paid, 1, 2))
    yield twice("events of a step that received a thread, by one file", thread(paid, 1, 1, SHOP))
    quiet = Keeper("notary").add(KeptStep(tree=tree)).add(KeptStep([b"paid"], tree))
    yield pair("events of the step behind", thread(quiet, 1, 2, SHOP), none(quiet, 2, 2))
    for name, times in (("a clock that goes back", (9, 5)), ("a clock that goes on", (5, 9)), ("a clock that stands", (9, 9)), ("a time before none", (9, None)), ("none before a time", (None, 5))):
        clock = Keeper("notary").add(KeptStep(time=times[0])).add(KeptStep()).add(KeptStep(time=times[1]))
        yield from both(name, none(clock, 1, 3), none(clock, 3, 3))
    for name, count, root in (
        ("no events, and a root of some", 0, event_leaf(b"paid")), ("an event, and the root of none", 1, NO_EVENTS), ("no events and their root", 0, NO_EVENTS)
    ):
        told = Keeper("notary").add(KeptStep(count=count, root=root))
        yield twice(name, none(told, 1, 1))


# ---- of lines and authenticators


def turned() -> "Tuple[Keeper, Keeper]":
    """A history of four steps whose last one has a link to the second step of another history, and that other one."""
    other = notary(EMPTY).add(KeptStep([b"other"]))
    return notary(EMPTY, EMPTY, EMPTY).add(KeptStep(turns={1: other})), other


def of_authenticators() -> Iterator[Vector]:
    """Two authenticators of one step: of the shown steps, of the steps before them, of lines, and of step 0."""
    keeper, other = turned()
    yield from both("two authenticators of a step, under two lines, joined", none(keeper, 2, 3), none(keeper, 2, 4), keeper.link(3, 4).to_bytes())
    yield pair("two authenticators of a step, in two histories", none(keeper, 2, 3), none(other, 2, 2), b"")
    yield from both("another authenticator than that of a line", none(keeper, 1, 2), none(other.copied(2).add(KeptStep()), 2, 3))
    yield pair("two lines of a step", none(keeper, 1, 2), none(other, 1, 2))
    yield pair("two lines of a step, and a link", none(keeper, 1, 2), none(other, 1, 2), keeper.link(2, 2).to_bytes())
    yield from both("a step that doesn't go on from the one before it", none(keeper, 3, 4), none(keeper, 2, 4))
    yield from both("a step that doesn't go on from a line's", none(keeper, 3, 4), none(other, 1, 2), keeper.link(2, 4).to_bytes())
    yield pair("a step that goes on from the one before it", none(keeper, 3, 3), none(keeper, 2, 3))
    yield pair("a step that goes on from a line's", none(keeper, 3, 3), none(keeper, 1, 2), keeper.link(2, 3).to_bytes())
    foreign = Keeper("notary", genesis("shop")).add(KeptStep()).add(KeptStep())
    yield twice("a first step that goes on from another service's genesis", none(foreign, 1, 1))
    yield from both("such a first step, and the second one", none(foreign, 1, 2), none(foreign, 2, 2))
    yield twice("a second step behind such a first one", none(foreign, 2, 2))


def of_links() -> Iterator[Vector]:
    """Links that climb to the later line, and aren't of the earlier one."""
    keeper, other = turned()
    straight = keeper.copied(3).add(KeptStep())
    yield pair("two histories, and a link of the later line to its own step", none(other, 2, 2), none(straight, 2, 4), straight.link(2, 4).to_bytes())
    own = Entry("notary", 4, X, 1)
    broken = notary(tree_of([own]), EMPTY)
    yield pair("a link in another service's name", thread(broken, 1, 1, own), none(broken, 2, 2), replace(broken.link(1, 2), service="bank").to_bytes())
    skipping = broken.copied(1)
    skipping.add(KeptStep()).auths[2] = skipping.auths[1]
    skipping.add(KeptStep())
    yield pair("a link of another step with the authenticator of the earlier line", thread(broken, 1, 1, own), none(skipping, 3, 3), skipping.link(2, 3).to_bytes())


def of_several() -> Iterator[Vector]:
    """Two rules that are broken, of which the first is told, and files of two services, of which none is."""
    keeper, _ = turned()
    late = Keeper("notary").add(KeptStep(time=9, root=X)).add(KeptStep(time=5, tree=tree_of([Entry("shop", 5, X, 2)])))
    yield from both("a clock that goes back, and a root of some events where there are none", none(late, 1, 2), none(late, 2, 2))
    lost = notary(tree_of([SHOP]), EMPTY)
    denies = under(lost, lost.absence(2, 2, ("shop", 5)))
    yield pair("a thread that is denied by the step behind", thread(lost, 1, 2, SHOP), denies)
    bank = Keeper("bank").add(KeptStep(tree=tree_of([Entry("shop", 5, Y, 1)])))
    yield pair("a reader's: a thread with two authenticators, of which two services received one each", thread(lost, 1, 1, SHOP), thread(bank, 1, 1, Entry("shop", 5, Y, 1)))
    own = Keeper("bank").add(KeptStep(tree=tree_of([Entry("bank", 5, Y, 1)])))
    yield pair("a thread of its own, beside a file of another service", thread(own, 1, 1, Entry("bank", 5, Y, 1)), none(keeper, 1, 1))


# ---- evidence of a fork


def receiving(name: str, evidence: "Evidence | bytes", *keepers: Keeper, lines: "bytes | None" = None, link: bytes = b"") -> Vector:
    """The vector of evidence, under the lines of the last steps of keepers, and a link or no bytes of one."""
    data = evidence.to_bytes() if isinstance(evidence, Evidence) else evidence
    held = b"".join(anchors_to_bytes(keeper.line(len(keeper.steps))) for keeper in keepers) if lines is None else lines
    return make_vector(name, ["receiver", "evidence", "anchors", "link"], {"evidence": data, "anchors": held, "link": link})


def evidence_of(one: Keeper, first: Entry, other: Keeper, second: Entry, bottom: bytes = Y) -> Evidence:
    """Evidence of two threads, each shown by the archive of its receiver's last step that has it, with a path that is made up."""
    shown = [keeper.thread(step, len(keeper.steps), entry) for keeper, step, entry in ((one, first.archived, first), (other, second.archived, second))]
    assert shown[0] and shown[1], "the archives have the threads from the steps on that received them"
    return Evidence(shown[0], shown[1], bottom, Deep(first.step, second.step, EMPTY.label, ()).path)


def received() -> Iterator[Vector]:
    """Evidence whose both sides one service received, or two did; and what is none."""
    again = Entry("shop", 5, Y, 2)
    twice = notary(tree_of([SHOP]), tree_of([again]))
    made = evidence_of(twice, SHOP, twice, again)
    yield receiving("a reader's: one receiver of both threads", made, twice)
    yield receiving("one receiver, and its line's own link", made, twice, link=twice.link(2, 2).to_bytes())
    yield receiving("one receiver, and a link of other lines", made, twice, link=twice.link(1, 2).to_bytes())
    yield receiving("one receiver, and a bottom that shows no fork", evidence_of(twice, SHOP, twice, again, X), twice)
    bank, alone = Keeper("bank").add(KeptStep(tree=tree_of([Entry("shop", 5, Y, 1)]))), notary(tree_of([SHOP]))
    yield receiving("a reader's: two receivers", evidence_of(alone, SHOP, bank, Entry("shop", 5, Y, 1)), alone, bank)
    stale, next_one = Entry("shop", 3, Y, 2), Entry("shop", 7, Y, 2)
    falling = notary(tree_of([SHOP]), Node(tree_of([stale]), SHOP, EMPTY))
    yield receiving("one receiver of steps that fall", evidence_of(falling, stale, falling, SHOP), falling)
    rising = notary(tree_of([SHOP]), tree_of([SHOP, next_one]))
    yield receiving("one receiver of steps that rise", evidence_of(rising, SHOP, rising, next_one), rising)
    yield from refused(made.to_bytes(), twice)


def refused(data: bytes, keeper: Keeper) -> Iterator[Vector]:
    """Evidence that is none or isn't accepted, and lines that are none."""
    for name, other in (("no evidence", b""), ("evidence that is cut", data[:-1]), ("a byte behind evidence", data + b"\0")):
        yield receiving(name, other, keeper)
    yield receiving("no line of the receiver", data, lines=b"")
    yield receiving("another line of the receiver", data, keeper.copied(1))
    yield receiving("another root of the first thread's archive", flipped(data, 4 + 37 + 64), keeper)
    yield receiving("another tree of the second thread", flipped(data, -33), keeper)
    yield receiving("a bad line is told before evidence that is none", b"", lines=b"notary 2")


def rules() -> Iterator[Vector]:
    """All of them."""
    yield from of_denials()
    yield from of_one_entry()
    yield from of_two_entries()
    yield from of_openings()
    yield from of_authenticators()
    yield from of_links()
    yield from of_several()
    yield from received()
