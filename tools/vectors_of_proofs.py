"""The vectors of proofs of the kinds 1 to 5, and of the lines that they are judged under."""

from __future__ import annotations

from dataclasses import replace
from functools import lru_cache
from typing import Iterator, List, Tuple

from example_files import SHOP, least_way, three_histories, two_histories
from vector import Deep, Lines, Vector, cuts, flipped, make_proof_vector, make_vector, over

from timeweave_reference.anchors import Anchor
from timeweave_reference.archives import listed
from timeweave_reference.event_trees import event_part
from timeweave_reference.fields import LAST_STEP
from timeweave_reference.hashed_texts import EMPTY_ARCHIVE, digest
from timeweave_reference.histories import existence_proof
from timeweave_reference.paths import Path
from timeweave_reference.precedence import Hop, PrecedenceProof
from timeweave_reference.proofs import AbsenceProof, ExistenceProof, LinkProof, ThreadProof
from timeweave_reference.recording import History
from timeweave_reference.services import absence_proof, link_proof, thread_proof
from timeweave_reference.timelines import Timeline
from timeweave_reference.ways import Way

DIGEST = digest(b"another")
"""A digest that nothing has."""

LEAST = Timeline("a", [[b""]])
"""The least history with an event, whose proof the documents show."""

TIMED = Timeline("clock", [[b"none"], [b"first"], [b"least", b"same"], [b"none again"], [b"last"]], None, [None, 0, 5, None, LAST_STEP])
"""A history of which some steps claim times, the least and the greatest among them."""


def line_at(line: Timeline, step: int) -> Lines:
    """The line of a step of a history."""
    return {line.name: Anchor(step, line.auths[step])}


# ---- kind 1, an event


def event_of(line: Timeline, step: int, index: int, top: int) -> bytes:
    """The proof of an event."""
    return existence_proof(line, step, index, top).to_bytes()


def accepted_events() -> Iterator[Vector]:
    """Paths of no link to several, trees of few events to many, the least and the largest events and names, and times."""
    yield make_proof_vector("the least proof", event_of(LEAST, 1, 0, 1), line_at(LEAST, 1))
    for step, top in ((13, 13), (12, 13), (5, 13), (1, 13), (8, 13), (8, 8), (1, 8), (9, 12), (6, 7)):
        yield make_proof_vector(f"step {step} under {top}", event_of(SHOP, step, top % 3, top), line_at(SHOP, top))
    for count, indices in ((2, (0, 1)), (3, (0, 2)), (5, (3, 4)), (8, (0, 7)), (1024, (0, 777, 1023))):
        line = Timeline("trees", [[b"%d" % index for index in range(count)]])
        for index in indices:
            yield make_proof_vector(f"event {index} of {count}", event_of(line, 1, index, 1), line_at(line, 1))
    for name in ("0", "-", "sixteen-letters0"):
        line = Timeline(name, [[b"\x00", bytes(1024), b"\xff\n"]])
        for index in range(3):
            yield make_proof_vector(f"of a service {name}, {len(line.events(1)[index])} bytes", event_of(line, 1, index, 1), line_at(line, 1))
    for step in range(1, 6):
        yield make_proof_vector(f"step {step} of a history with times", event_of(TIMED, step, 0, 5), line_at(TIMED, 5))


def deep_events() -> Iterator[Vector]:
    """The greatest steps and the longest paths."""
    events = [b"%d" % index for index in range(1024)]
    for step, top in ((1, LAST_STEP), (2**39 + 1, LAST_STEP), (2**39, 2**39), (LAST_STEP, LAST_STEP)):
        deep = Deep(step, top, EMPTY_ARCHIVE, events, LAST_STEP if step == 1 else None)
        proof = ExistenceProof("sixteen-letters0", step, top, deep.path, deep.opening, event_part(events, 777))
        yield make_proof_vector(f"step {step} under {top}", proof.to_bytes(), {proof.service: Anchor(top, deep.reached)})


def rejected_events() -> Iterator[Vector]:
    """Each reason, and of several the lowest."""
    proof, held = existence_proof(SHOP, 5, 1, 13), line_at(SHOP, 13)
    data = proof.to_bytes()
    above = existence_proof(SHOP, 13, 1, 5).to_bytes()
    yield make_proof_vector("a step above the top", above, line_at(SHOP, 5))
    yield make_proof_vector("a step above the top, and no line", above, {})
    yield make_proof_vector("no line", data, {})
    yield make_proof_vector("a line of another service", data, {"sho": held["shop"], "shopp": held["shop"]})
    yield make_proof_vector("a line of another step", data, line_at(SHOP, 12))
    yield make_proof_vector("another authenticator", data, {"shop": Anchor(13, DIGEST)})
    yield make_proof_vector("the line among others", data, {"a": Anchor(1, DIGEST), **held, "zz-9": Anchor(LAST_STEP, DIGEST)})
    yield make_proof_vector("another datum in the path", flipped(data, 37), held)
    yield make_proof_vector("another label in the path", flipped(data, 37 + 64), held)
    yield make_proof_vector("another event root in the opening", replace(proof, opening=replace(proof.opening, event_root=DIGEST)).to_bytes(), held)
    yield make_proof_vector("another archive label in the opening", replace(proof, opening=replace(proof.opening, archive_label=DIGEST)).to_bytes(), held)
    yield make_proof_vector("another count", replace(proof, opening=replace(proof.opening, count=4)).to_bytes(), held)
    yield make_proof_vector("a time put on", replace(proof, opening=replace(proof.opening, time=0)).to_bytes(), held)
    yield make_proof_vector("another authenticator before", replace(proof, opening=replace(proof.opening, before=DIGEST)).to_bytes(), held)
    yield make_proof_vector("another event", replace(proof, event=replace(proof.event, event=b"order 5.2")).to_bytes(), held)
    yield make_proof_vector("another index", replace(proof, event=replace(proof.event, index=0)).to_bytes(), held)
    yield make_proof_vector("another label of the event's path", flipped(data, -1), held)
    yield make_proof_vector("another event, and no line", flipped(data, -1), {})
    yield make_proof_vector("another event, and another authenticator", flipped(data, -1), {"shop": Anchor(13, DIGEST)})
    timed = existence_proof(TIMED, 3, 0, 5)
    yield make_proof_vector("another time", replace(timed, opening=replace(timed.opening, time=6)).to_bytes(), line_at(TIMED, 5))
    yield make_proof_vector("a time taken away", replace(timed, opening=replace(timed.opening, time=None)).to_bytes(), line_at(TIMED, 5))


def no_events() -> Iterator[Vector]:
    """Bytes that are no proof of an event, each with the place of the first bad byte."""
    data, held = event_of(LEAST, 1, 0, 1), line_at(LEAST, 1)
    changes: List[Tuple[str, int, str]] = [
        ("another first letter", 0, "74"), ("another version", 3, "32"), ("kind 0", 4, "00"), ("kind 9", 4, "09"), ("no name", 5, "00"),
        ("a capital", 5, "41"), ("a letter behind a zero", 7, "61"), ("a zero inside a name", 5, "61006100"), ("step 0", 28, "00"),
        ("step 2^40", 23, "01"), ("step 2^63", 21, "80"), ("top 0", 36, "00"), ("top 2^40", 31, "01"), ("count 0", 104, "00"),
        ("count 1025", 103, "0401"), ("count 1280", 103, "0500"), ("a count word that begins with 01", 101, "01"),
        ("a count word that begins with 40", 101, "40"), ("a time that isn't there", 101, "80"), ("index 1", 140, "01"), ("index 256", 139, "01"),
        ("size 1 of no bytes", 144, "01"), ("size 1025", 143, "0401"), ("size 1280", 143, "05"), ("size 65536", 142, "01"),
        ("step 2, which has a label more", 28, "02"), ("count 2, which has a label more", 104, "02"),
    ]
    for name, place, digits in changes:
        yield make_proof_vector(name, over(data, place, bytes.fromhex(digits)), held)
    yield from cuts(data, held, (0, 1, 4, 5, 13, 29, 44, 104, 105, 136, 144))
    timed = event_of(TIMED, 5, 0, 5)
    yield make_proof_vector("a time of 2^40", over(timed, 37 + 68 + 2, b"\x01"), line_at(TIMED, 5))
    yield make_proof_vector("cut in a time", timed[: 37 + 68 + 7], line_at(TIMED, 5))
    yield make_proof_vector("a bad byte is told before a missing line", over(data, 140, b"\x01"), {})


def events() -> Iterator[Vector]:
    """Kind 1."""
    for vectors in (accepted_events, deep_events, rejected_events, no_events):
        yield from vectors()
    data, auth = event_of(LEAST, 1, 0, 1), LEAST.auths[1].hex()
    yield make_vector("the line in words", ["verify", "proof", "a", "1", auth], {"proof": data})
    yield make_vector("the line in words, in capitals", ["verify", "proof", "a", "1", auth.upper()], {"proof": data})
    yield make_vector("another line in words", ["verify", "proof", "a", "2", auth], {"proof": data})
    yield make_proof_vector("the strict form", data, line_at(LEAST, 1), "strict")
    yield make_proof_vector("the strict form, another event", event_of(Timeline("a", [[b"x"]]), 1, 0, 1), line_at(LEAST, 1), "strict")


# ---- kind 2, an event before another


def carried(way: Way, hops: Tuple[int, ...]) -> Way:
    """The way with these hops, counted from 0, carried."""
    return Way(way.family, way.second, [(entry, 0 if number in hops else bind) for number, (entry, bind) in enumerate(way.hops)], way.first)


@lru_cache(maxsize=None)
def long_way(hops: int) -> Way:
    """A way over so many hops, each to a service of its own; the last one's thread is carried, the others are bound one step later."""
    family = {f"s{number}": History(f"s{number}") for number in range(hops + 1)}
    for number, history in enumerate(family.values()):
        if number:
            before = family[f"s{number - 1}"]
            history.receive(before.name, 1, before.line().auths[1])
            history.append([b"%d" % number])
        else:
            history.append([b"first"])
            history.append([])
    chosen = [(listed(family[f"s{number}"].trees[1])[0], 2 if number > 1 else 0) for number in range(hops, 0, -1)]
    return Way(family, (f"s{hops}", 2, 0, 2), chosen, (1, 0))


def accepted_ways() -> Iterator[Vector]:
    """Ways of no hop to 64, bound and carried, with times and without, in both forms."""
    own = History("shop")
    for events, time in (([b"one"], 7), ([b"two", b"too"], None), ([b"three"], 7), ([b"four"], 9)):
        own.append(events, time)
    for second, first in (((4, 0, 4), (1, 0)), ((2, 1, 4), (1, 0)), ((3, 0, 4), (2, 1))):
        way = Way({"shop": own}, ("shop", *second), [], first)
        yield make_proof_vector(f"steps {first[0]} and {second[0]} of one service", way.proof().to_bytes(), way.anchors())
    ways = {
        "the least way": least_way(), "one hop, bound": two_histories()[1], "two hops, bound": three_histories(),
        "two hops and times": three_histories((3, 2**31)), "two hops, the first carried": carried(three_histories(), (0,)),
        "two hops, the second carried": carried(three_histories(), (1,)),
        "two hops, carried": carried(three_histories(), (0, 1)), "five hops": long_way(5),
    }
    for name, way in ways.items():
        for form in ("verify", "strict"):
            yield make_proof_vector(f"{name}, {form}", way.proof().to_bytes(), way.anchors(), form)
    yield make_proof_vector("64 hops", long_way(64).proof().to_bytes(), {name: anchor for name, anchor in long_way(64).anchors().items()})
    anchors = {**three_histories().anchors(), "other": Anchor(1, DIGEST)}
    yield make_proof_vector("a line more than is needed", three_histories().proof().to_bytes(), anchors, "strict")


def with_hop(proof: PrecedenceProof, number: int, hop: Hop) -> PrecedenceProof:
    """The proof with another hop, counted from 1."""
    return replace(proof, hops=(*proof.hops[: number - 1], hop, *proof.hops[number:]))


def faulty_heads(proof: PrecedenceProof) -> Iterator[Tuple[str, PrecedenceProof]]:
    """Faults of the head and of the tail of a proof of two hops."""
    before = proof.before
    assert before is not None
    yield "a second step above its top", replace(proof, top=1, path=())
    yield "a second event of step 1", replace(proof, step=1, path=proof_path("gamma", 2, 1), opening=replace(proof.opening, labels=()))
    yield "another datum of the second event's step", replace(proof, opening=replace(proof.opening, archive_label=DIGEST))
    yield "another second event", replace(proof, event=replace(proof.event, event=b"x"))
    yield "another opening before the second event", replace(proof, before=replace(before, count=1))
    yield "a first step above the thread's", replace(proof, first_step=3, first_path=(), first_opening=replace(proof.first_opening, labels=()))
    yield "another path to the first event", replace(proof, first_path=(replace(proof.first_path[0], datum=DIGEST),))
    yield "another opening of the first event's step", replace(proof, first_opening=replace(proof.first_opening, before=DIGEST))
    yield "another first event", replace(proof, first_event=replace(proof.first_event, event=b"x"))


def proof_path(service: str, top: int, step: int) -> Path:
    """A path of the history of one of the three services."""
    return three_histories().lines[service].path(top, step)


def faulty_hops(proof: PrecedenceProof) -> Iterator[Tuple[str, PrecedenceProof]]:
    """Faults of the hops of a proof of two hops."""
    first, second = proof.hops
    opening = first.opening
    assert opening is not None
    entry = first.entry
    for name, other in (
        ("archived later", entry._replace(archived=2)), ("of another service", entry._replace(service="bet")),
        ("of another authenticator", entry._replace(authenticator=DIGEST)),
    ):
        yield f"a first hop {name}", with_hop(proof, 1, replace(first, entry=other))
    yield "a bind below the thread's step", with_hop(proof, 1, replace(first, bind=2, path=()))
    yield "another path of the first hop", with_hop(proof, 1, replace(first, path=(replace(first.path[0], datum=DIGEST),)))
    yield "another opening of the first hop", with_hop(proof, 1, replace(first, opening=replace(opening, before=DIGEST)))
    yield "another tree of the second hop", with_hop(proof, 2, replace(second, tree=replace(second.tree, sides=(DIGEST, EMPTY_ARCHIVE))))
    yield "a second hop archived later", with_hop(proof, 2, replace(second, entry=second.entry._replace(archived=4)))
    bad, other_bad = (replace(hop, tree=replace(hop.tree, sides=(DIGEST, DIGEST))) for hop in proof.hops)
    yield "both hops' trees changed", with_hop(with_hop(proof, 1, bad), 2, other_bad)


def rejected_ways() -> Iterator[Vector]:
    """Each reason of each part, and which of several is told."""
    way = three_histories()
    proof, held = way.proof(), way.anchors()
    for name, other in (*faulty_heads(proof), *faulty_hops(proof)):
        yield make_proof_vector(name, other.to_bytes(), held)
    data = proof.to_bytes()
    for service in held:
        yield make_proof_vector(f"no line of {service}", data, {name: anchor for name, anchor in held.items() if name != service})
        yield make_proof_vector(f"another authenticator of {service}", data, {**held, service: Anchor(held[service].step, DIGEST)})
    yield make_proof_vector("no line of two: the first in the file is told", data, {"gamma": held["gamma"]})
    yield make_proof_vector("no line at all", data, {})
    faulty = replace(proof, event=replace(proof.event, event=b"x"))
    yield make_proof_vector("another second event, and no line of beta", faulty.to_bytes(), {"gamma": held["gamma"], "alpha": held["alpha"]})
    yield make_proof_vector("both events changed", replace(faulty, first_event=replace(proof.first_event, event=b"x")).to_bytes(), held)
    loose = carried(way, (0, 1)).proof()
    yield make_proof_vector("carried and changed, strict", replace(loose, event=replace(loose.event, event=b"x")).to_bytes(), held, "strict")


def no_ways() -> Iterator[Vector]:
    """Bytes that are no proof of this kind."""
    way = least_way()
    data, held = way.proof().to_bytes(), way.anchors()
    changes = [
        ("65 hops", 5, "41"), ("two hops of which one is there", 5, "02"), ("no hop, and more behind", 5, "00"), ("second step 0", 29, "00"),
        ("step 2^40", 24, "01"), ("count 0 of the second event's step", 105, "00"), ("a bad name of a hop", 279, "ff"), ("a thread of step 0", 301, "00"),
        ("archived at step 0", 341, "00"), ("128 nodes above an entry", 342, "80"), ("a bind of 2^40", 409, "01"),
        ("a bind whose path isn't there", 414, "03"), ("first step 0", 422, "00"),
        ("count 0 of the first event's step", 490, "00"), ("index 1 of the first event", 526, "01"),
    ]
    for name, place, digits in changes:
        yield make_proof_vector(name, over(data, place, bytes.fromhex(digits)), held)
    yield from cuts(data, held, (5, 6, 29, 245, 341, 343, 408, 422, 530, 532))


def ways() -> Iterator[Vector]:
    """Kind 2."""
    for vectors in (accepted_ways, rejected_ways, no_ways):
        yield from vectors()


# ---- kinds 3 and 4, a thread and none


@lru_cache(maxsize=None)
def bank() -> History:
    """A history that received threads of three services, with events and times between."""
    history = History("bank")
    for number, (service, step) in enumerate((("mill", 3), ("aunt", 1), ("zoo", 2**33), ("mill", 9), ("aunt", 256), ("mill", 10)), 1):
        history.append([b"%d" % number], 1000 * number if number % 2 else None)
        history.receive(service, step, digest(b"%d" % number))
    return history


@lru_cache(maxsize=None)
def row(count: int) -> History:
    """A history that received the steps of one service in their order, so that its tree is a row of so many nodes."""
    history = History("row")
    for step in range(1, count + 1):
        history.receive("other", step, digest(b"%d" % step))
    return history


def bank_lines(top: int = 12) -> Lines:
    """A line of that history."""
    return line_at(bank().line(), top)


def thread_of(step: int, top: int, place: int) -> ThreadProof:
    """The proof of the thread at this place of the archive after a step of that history."""
    tree = bank().trees[step]
    return thread_proof(bank().line(), tree, step, top, listed(tree)[place])


def threads() -> Iterator[Vector]:
    """Kind 3."""
    for step, top, place in ((2, 2, 0), (2, 12, 0), (5, 12, 1), (12, 12, 0), (12, 12, 3), (12, 12, 5), (7, 8, 2)):
        yield make_proof_vector(f"entry {place} after step {step}, under {top}", thread_of(step, top, place).to_bytes(), bank_lines(top))
    whole = row(128)
    entry = listed(whole.trees[128])[127]
    longest = thread_proof(whole.line(), whole.trees[128], 128, 128, entry)
    yield make_proof_vector("127 nodes above", longest.to_bytes(), line_at(whole.line(), 128))
    proof, held = thread_of(12, 12, 3), bank_lines()
    own, data = proof.entry, proof.to_bytes()
    yield make_proof_vector("a step above the top", thread_of(12, 5, 3).to_bytes(), bank_lines(5))
    yield make_proof_vector("archived above the step", replace(proof, entry=own._replace(archived=13)).to_bytes(), held)
    yield make_proof_vector("archived above the step, and no line", replace(proof, entry=own._replace(archived=13)).to_bytes(), {})
    yield make_proof_vector("no line", data, {})
    yield make_proof_vector("another authenticator", data, {"bank": Anchor(12, DIGEST)})
    for name, other in (
        ("of another service", own._replace(service="mil")), ("of another step", own._replace(step=own.step + 1)),
        ("of another authenticator", own._replace(authenticator=DIGEST)),
        ("archived at another step", own._replace(archived=own.archived - 1)),
    ):
        yield make_proof_vector(f"an entry {name}", replace(proof, entry=other).to_bytes(), held)
    tree = proof.tree
    yield make_proof_vector("another side", replace(proof, tree=replace(tree, sides=(DIGEST, EMPTY_ARCHIVE))).to_bytes(), held)
    yield make_proof_vector("another label above", flipped(data, -1), held)
    yield make_proof_vector("another entry above", flipped(data, -64), held)
    yield make_proof_vector("a node above left out", replace(proof, tree=replace(tree, ancestors=tree.ancestors[:-1])).to_bytes(), held)
    yield make_proof_vector("nodes above in another order", replace(proof, tree=replace(tree, ancestors=tree.ancestors[::-1])).to_bytes(), held)
    yield make_proof_vector("another archive label", replace(proof, opening=replace(proof.opening, archive_label=DIGEST)).to_bytes(), held)
    yield make_proof_vector("another tree, and another authenticator", flipped(data, -1), {"bank": Anchor(12, DIGEST)})
    small, line = thread_of(2, 2, 0).to_bytes(), bank_lines(2)
    for name, place, digits in (
        ("a bad name of the entry", -129, "41"), ("a thread of step 0", -106, "00"), ("archived at step 0", -66, "00"),
        ("128 nodes above", -65, "80"), ("a node above that isn't there", -65, "01"), ("step 0", 28, "00"), ("count 1025", 103, "0401"),
    ):
        yield make_proof_vector(name, over(small, place, bytes.fromhex(digits)), line)
    yield from cuts(small, line, (37, 101, len(small) - 129, len(small) - 65, len(small) - 1))


def absent_of(step: int, top: int, service: str, asked_step: int) -> AbsenceProof:
    """The proof that the archive after a step of that history has no thread of a service's step."""
    return absence_proof(bank().line(), bank().trees[step], step, top, (service, asked_step))


def absences() -> Iterator[Vector]:
    """Kind 4."""
    for step, top, service, number in (
        (1, 1, "mill", 1), (1, 12, "mill", 3), (12, 12, "mill", 4), (12, 12, "a", 1), (12, 12, "zz-9", LAST_STEP), (9, 12, "aunt", 2), (8, 9, "mill", 10),
    ):
        yield make_proof_vector(f"{service} {number} after step {step}, under {top}", absent_of(step, top, service, number).to_bytes(), bank_lines(top))
    whole = row(128)
    longest = absence_proof(whole.line(), whole.trees[128], 128, 128, ("other", 129))
    yield make_proof_vector("128 nodes above", longest.to_bytes(), line_at(whole.line(), 128))
    proof, held = absent_of(12, 12, "mill", 4), bank_lines()
    data, tree = proof.to_bytes(), proof.tree
    yield make_proof_vector("a step above the top", absent_of(12, 5, "mill", 4).to_bytes(), bank_lines(5))
    yield make_proof_vector("no line", data, {})
    yield make_proof_vector("another authenticator", data, {"bank": Anchor(12, DIGEST)})
    yield make_proof_vector("a thread that is there", replace(proof, absent_step=9).to_bytes(), held)
    yield make_proof_vector("a thread that is there, and stands above", replace(proof, absent_step=3).to_bytes(), held)
    yield make_proof_vector("a thread that another way leads to", replace(proof, absent_step=2).to_bytes(), held)
    yield make_proof_vector("another service in the same place", replace(proof, absent_service="milla", absent_step=1).to_bytes(), held)
    yield make_proof_vector("a node above left out", replace(proof, tree=replace(tree, ancestors=tree.ancestors[1:])).to_bytes(), held)
    yield make_proof_vector("another label above", flipped(data, -1), held)
    yield make_proof_vector("another tree, and no line", flipped(data, -1), {})
    small, line = absent_of(1, 1, "mill", 1).to_bytes(), bank_lines(1)
    for name, place, digits in (
        ("a bad name", -25, "2e"), ("of step 0", -2, "00"), ("of step 2^40", -7, "01"), ("129 nodes above", -1, "81"),
        ("a node above that isn't there", -1, "01"),
    ):
        yield make_proof_vector(name, over(small, place, bytes.fromhex(digits)), line)
    yield from cuts(small, line, (len(small) - 25, len(small) - 9, len(small) - 1))


# ---- kind 5, a link


def link_of(step: int, top: int) -> LinkProof:
    """The proof of the authenticator of a step of the shop's history."""
    return link_proof(SHOP, step, top)


def links() -> Iterator[Vector]:
    """Kind 5."""
    for step, top in ((0, 1), (0, 13), (1, 1), (5, 13), (8, 13), (12, 13), (13, 13), (0, 8), (7, 8), (4, 12)):
        yield make_proof_vector(f"from {top} to {step}", link_of(step, top).to_bytes(), line_at(SHOP, top))
    for step, top in ((0, LAST_STEP), (2**39, LAST_STEP), (1, 2**39)):
        deep = Deep(step, top, EMPTY_ARCHIVE, [b"x"])
        proof = LinkProof("deep", step, top, deep.auth, deep.path)
        yield make_proof_vector(f"from {top} to {step}", proof.to_bytes(), {"deep": Anchor(top, deep.reached)})
    proof, held = link_of(5, 13), line_at(SHOP, 13)
    data = proof.to_bytes()
    above = link_of(13, 5)
    yield make_proof_vector("a step above the top", above.to_bytes(), line_at(SHOP, 5))
    yield make_proof_vector("a step above the top, and no line", above.to_bytes(), {})
    yield make_proof_vector("no line", data, {})
    yield make_proof_vector("a line of another service", data, {"shoq": held["shop"]})
    yield make_proof_vector("a line of another step", data, line_at(SHOP, 12))
    yield make_proof_vector("another authenticator held", data, {"shop": Anchor(13, DIGEST)})
    yield make_proof_vector("another authenticator claimed", replace(proof, authenticator=DIGEST).to_bytes(), held)
    yield make_proof_vector("another authenticator of step 0", replace(link_of(0, 13), authenticator=DIGEST).to_bytes(), held)
    yield make_proof_vector("of a step to itself, another authenticator", replace(link_of(13, 13), authenticator=DIGEST).to_bytes(), held)
    for place in (69, 101, 133, len(data) - 1):
        yield make_proof_vector(f"byte {place} changed", flipped(data, place), held)
    first, second, *others = proof.path
    yield make_proof_vector("labels in another order", replace(proof, path=(first, replace(second, labels=second.labels[::-1]), *others)).to_bytes(), held)
    yield make_proof_vector("the strict form", data, held, "strict")
    for name, place, digits in (
        ("a bad name", 8, "5f"), ("step 2^40", 23, "01"), ("top 0", 36, "00"), ("kind 6", 4, "06"), ("the bytes of another kind", 4, "01"),
    ):
        yield make_proof_vector(name, over(link_of(0, 1).to_bytes(), place, bytes.fromhex(digits)), line_at(SHOP, 1))
    yield from cuts(data, held, (37, 68, 69, 100, len(data) - 1))


# ---- lines


def anchors() -> Iterator[Vector]:
    """The lines of an anchors file."""
    proof, auth = event_of(LEAST, 1, 0, 1), LEAST.auths[1].hex()
    line, other = f"a 1 {auth}\n", f"zz-9 1099511627775 {DIGEST.hex()}\n"
    many = [f"s{number} 1 {DIGEST.hex()}\n" for number in range(64)]
    texts = {
        "a line": line, "a line without a line feed": line[:-1], "two lines": other + line,
        "capitals in an authenticator": f"a 1 {auth.upper()}\n", "64 lines": line + "".join(many[:63]), "65 lines": line + "".join(many),
        "65 lines, the last one bad": "".join(many) + "x\n", "no lines": "", "a line feed alone": "\n", "an empty line first": "\n" + line,
        "an empty line behind": line + "\n", "two lines of one service": line + line, "two steps of one service": line + f"a 2 {auth}\n",
        "step 0": f"a 0 {auth}\n", "step 01": f"a 01 {auth}\n", "step +1": f"a +1 {auth}\n", "step 2^40": f"{line}b 1099511627776 {auth}\n",
        "step 2^64": f"a 18446744073709551617 {auth}\n", "a long step": f"a {'9' * 40} {auth}\n", "a step with a comma": f"a 1,0 {auth}\n",
        "a name of 17 letters": f"{'a' * 17} 1 {auth}\n", "no name": f" 1 {auth}\n", "a capital in a name": f"A 1 {auth}\n",
        "an underscore in a name": f"a_b 1 {auth}\n", "63 digits": f"a 1 {auth[:-1]}\n", "65 digits": f"a 1 {auth}0\n",
        "a letter that is no digit": f"a 1 {auth[:-1]}g\n", "two blanks": f"a  1 {auth}\n", "a blank behind": f"a 1 {auth} \n",
        "a tab": f"a\t1 {auth}\n", "a carriage return": f"a 1 {auth}\r\n", "a word more": f"a 1 {auth} x\n", "a word less": f"a {auth}\n",
        "a good line, then a bad one": f"{line}b\n", "a zero byte": f"a 1 {auth}\0\n",
    }
    for name, text in texts.items():
        yield make_proof_vector(name, proof, text.encode())
    yield make_proof_vector("a byte that is no ASCII", proof, b"\xc3\xa4 1 " + auth.encode())
    yield make_proof_vector("a bad line is told before a bad proof", b"TWP2", b"a")
