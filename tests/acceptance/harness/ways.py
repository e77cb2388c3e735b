"""Ways between events of histories that archive threads of one another, and the fields of their proofs."""

import random
from functools import cache
from itertools import product

from example_files import three_histories

from harness.making import path_bytes
from harness.samples import event_text, reshaping, timed
from timeweave_reference import ways as reference_ways
from timeweave_reference.archives import listed
from timeweave_reference.fields import big_endian as be
from timeweave_reference.fields import padded
from timeweave_reference.histories import Step
from timeweave_reference.proofs import PRECEDES
from timeweave_reference.recording import History


class Way(reference_ways.Way):
    """A way, of whose proof the fields are told."""

    def to_bytes(self):
        """The proof."""
        return self.proof().to_bytes()

    def part_bytes(self):
        """The proofs of single histories that join to it."""
        return [part.to_bytes() for part in self.parts()]

    def pieces(self):
        """The fields of the proof, each with its name; those of a part end in its number."""
        proof = self.proof()
        service, step, _, top = self.second
        last = len(self.hops)
        yield "front", b"TWP1" + be(PRECEDES, 1)
        yield "hops", be(last, 1)
        yield "service", padded(service)
        yield "second step", be(step, 8)
        yield "top", be(top, 8)
        yield "path 0", path_bytes(self.lines[service], top, step)
        yield "opening", proof.opening.to_bytes()
        yield "event 0", proof.event.to_bytes()
        yield "opening 0", proof.before.to_bytes() if proof.before else b""
        for part, hop in enumerate(proof.hops, 1):
            yield f"thread's service {part}", padded(hop.entry.service)
            yield f"thread's step {part}", be(hop.entry.step, 8)
            yield f"thread's authenticator {part}", hop.entry.authenticator
            yield f"archived step {part}", be(hop.entry.archived, 8)
            yield f"tree {part}", hop.tree.to_bytes()
            yield f"bind {part}", be(hop.bind, 8)
            yield f"path {part}", path_bytes(self.lines[hop.entry.service], hop.bind, hop.entry.step) if hop.bind else b""
            yield f"opening {part}", hop.opening.to_bytes() if hop.opening else b""
        yield "first step", be(proof.first_step, 8)
        yield f"path {last + 1}", path_bytes(self.lines[proof.first_service], proof.upper, proof.first_step)
        yield "first opening", proof.first_opening.to_bytes()
        yield f"event {last + 1}", proof.first_event.to_bytes()

    def places(self):
        """Where each field that has a byte begins, and how many bytes it has."""
        at, places = 0, {}
        for name, piece in self.pieces():
            if piece:
                places[name] = at, len(piece)
            at += len(piece)
        return places


def as_way(way):
    """A way of the example files as one of these."""
    return Way(way.family, way.second, way.hops, way.first)


def receive(family, by, source, step, grow):
    """The one history records the thread of the other at a step."""
    family[by].receive(source, step, family[source].line().auths[step], grow)


@cache
def woven_family(names, count, seed):
    """Histories of these services, which record events and threads of one another's last or earlier steps in turns drawn by chance."""
    rand = random.Random(seed)
    family, known = {name: History(name) for name in names}, set()
    while any(len(history.steps) < count for history in family.values()):
        by = rand.choice([name for name in names if len(family[name].steps) < count])
        source = rand.choice([name for name in names if name != by])
        last = len(family[source].steps)
        step = rand.choice([last, rand.randrange(last + 1)])
        if step and rand.randrange(3) and (by, source, step) not in known:
            known.add((by, source, step))
            receive(family, by, source, step, reshaping(rand))
        else:
            number = len(family[by].steps) + 1
            family[by].append([event_text(number, k) for k in range(1 + rand.randrange(3))])
            family[by].steps[-1].time = 1000 * len(known) if rand.randrange(2) else None
    for history in family.values():
        # (times don't fall: those that do are left out)
        latest = 0
        for step in history.steps:
            step.time = step.time if step.time is not None and step.time >= latest else None
            latest = step.time or latest
    return family


def steps_of_events(history):
    """The steps that record an event."""
    return [number for number, step in enumerate(history.steps, 1) if step.events]


def drawn_way(family, hops, seed):
    """A way of so many hops drawn by chance, with each thread bound by a step from its own on; None where there is none."""
    rand = random.Random(seed)
    for _ in range(1000):
        by = rand.choice(sorted(family))
        step = rand.choice([step for step in steps_of_events(family[by]) if step > 1])
        place, chosen = (by, step - 1), []
        while len(chosen) < hops and (entries := listed(family[place[0]].trees[place[1]])):
            entry = rand.choice(entries)
            chosen.append((entry, rand.randrange(entry.step, len(family[entry.service].steps) + 1)))
            place = entry.service, entry.step
        firsts = [first for first in steps_of_events(family[place[0]]) if first <= place[1]]
        if len(chosen) == hops and firsts:
            first = rand.choice(firsts)
            top = rand.randrange(step, len(family[by].steps) + 1)
            return one_anchor_each(family, (by, step, 0, top), chosen, (first, 0))
    return None


def one_anchor_each(family, second, hops, first):
    """The way with one anchor a service: all that one service binds is bound by its last step."""
    service, step, index, _ = second
    last = {name: len(history.steps) for name, history in family.items()}
    return Way(family, (service, step, index, last[service]), [(entry, last[entry.service]) for entry, _ in hops], first)


def with_carried(way, carried):
    """The way with these hops, by their numbers from 0 on, carried."""
    hops = [(entry, 0 if number in carried else bind) for number, (entry, bind) in enumerate(way.hops)]
    return Way(way.family, way.second, hops, way.first)


@cache
def ways():
    """Ways of 0 to 4 hops in several families."""
    found = []
    for names, count in ((("a", "b"), 12), (("a", "b", "c"), 14), (("left", "right-most-16-by", "top"), 9)):
        family = woven_family(names, count, f"{names} {count}")
        for hops, number in product(range(5), range(5)):
            way = drawn_way(family, hops, f"{names} {hops} {number}")
            if way:
                found.append(way)
    assert {len(way.hops) for way in found} == set(range(5))
    return found


@cache
def long_way():
    """A way of two hops between three services, whose paths have links."""
    family = woven_family(("a", "b", "c"), 12, "long")
    for number in range(1000):
        way = drawn_way(family, 2, f"long {number}")
        if way and len({way.second[0], *(entry.service for entry, _ in way.hops)}) == 3 and way.second[1] < 12:
            return way
    raise AssertionError("no way of two hops")


@cache
def chain_of_three(with_times=False):
    """A way from alpha over beta to gamma, whose hops are bound; alpha's steps claim times or none."""
    steps = timed([Step(), Step()], "alpha") if with_times else []
    return as_way(three_histories(tuple(step.time for step in steps)))
