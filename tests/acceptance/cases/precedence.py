"""Acceptance cases of proofs that an event precedes another, and of joining: ways between histories that archive threads of one another, each
change and cut of a proof with two hops, each fault in each part and each two of them, carried threads in both forms, the most hops, and
parts that fit and that don't."""

import os
import random
import subprocess
from functools import cache
from itertools import combinations

from example_files import least_way

from harness.judged import answered, gives, grouped, is_accepted, judged_under, make_case
from harness.large import LONG, SHORT, deep_way
from harness.making import absent_proof, link_bytes, link_proof, path_bytes
from harness.places import HARNESS, LONGEST
from harness.rooms import Wrong, case as case_of, needs
from harness.samples import event_text, flipped, reshaping
from harness.ways import Way, as_way, long_way, one_anchor_each, receive, ways, with_carried
from timeweave_reference.archives import listed
from timeweave_reference.fields import LAST_STEP
from timeweave_reference.fields import big_endian as be
from timeweave_reference.precedence import MOST_HOPS
from timeweave_reference.recording import History


def rejected(name, data, anchors, reason, form="verify"):
    """The case of a proof against which this reason stands."""
    return answered(judged_under(name, data, anchors, form), 1, f"rejected {reason}\n")


def accepted(name, way, form="verify"):
    """The case of a good proof under the anchors that it needs."""
    return is_accepted(judged_under(name, way.to_bytes(), way.anchors(), form))


# ---- histories that archive threads of one another


# ---- good proofs


def good_proofs():
    """Each way with none, some and all of its hops carried, in both forms."""
    for number, way in enumerate(ways()):
        places = range(len(way.hops))
        for count in range(len(way.hops) + 1):
            for carried in list(combinations(places, count))[:6]:
                other = with_carried(way, carried)
                name = f"way {number}, {len(way.hops)} hops, {list(carried)} carried"
                yield accepted(name, other)
                if carried:
                    yield rejected(f"{name}, strict", other.to_bytes(), other.anchors(), f"8 Carried {count}", "strict")
                else:
                    yield accepted(f"{name}, strict", other, "strict")


def worked():
    """The histories of two services that the first example tells: 533 bytes."""
    way = as_way(least_way())
    data = way.to_bytes()
    assert len(data) == 533
    yield accepted("worked", way)
    yield rejected("worked, strict", data, way.anchors(), "8 Carried 1", "strict")
    for size in range(len(data)):
        yield rejected(f"cut to {size}", data[:size], way.anchors(), f"1 Malformed {size}")
    yield rejected("a byte more", data + b"\0", way.anchors(), "1 Malformed 533")
    for size in (3563, 4096, 100000):
        yield rejected(f"{size} bytes more", data + bytes(size), way.anchors(), "1 Malformed 533")


def orders():
    """A's step 5 archived at B's step 6: an event of B at 7 is behind it, and one at 6 isn't; nor is one at step 1."""
    family = {"a": History("a"), "b": History("b")}
    for step in range(1, 6):
        family["a"].append([event_text(step, 0)])
        family["b"].append([event_text(step, 0)])
    receive(family, "b", "a", 5, reshaping(random.Random(1)))
    family["b"].append([b"7"])
    entry = listed(family["b"].trees[6])[0]
    good = Way(family, ("b", 7, 0, 7), [(entry, 5)], (5, 0))
    yield accepted("b at 7", good)
    yield accepted("b at 7, a at 3", Way(family, ("b", 7, 0, 7), [(entry, 5)], (3, 0)))
    # (step 5 of B has no thread, so the proof is made over the archive of step 6, and its opening is that of step 5)
    family["b"].steps[5].events = [b"6"]
    tree, family["b"].trees[5] = family["b"].trees[5], family["b"].trees[6]
    way = Way(family, ("b", 6, 0, 7), [(entry, 5)], (5, 0))
    yield rejected("b at 6", way.to_bytes(), way.anchors(), "2 BadOrder")
    family["b"].trees[5] = tree
    data, at = good.to_bytes(), 6 + 16
    for step, reason in ((1, "2 BadOrder"), (8, "2 BadOrder")):
        yield judged_under(f"the second event's step is {step}", data[:at] + be(step, 8) + data[at + 8 :], good.anchors())
    yield from above_the_upper(family, entry)


def above_the_upper(family, entry):
    """The first event's step below, at and above the thread's; without hops at and above the step before the second event's."""
    family["a"].append([b"6"])
    for step in (4, 5, 6):
        way = Way(family, ("b", 7, 0, 7), [(entry, 5)], (step, 0))
        yield judged_under(f"a at {step}", way.to_bytes(), way.anchors())
    for step in (1, 4, 5):
        way = Way(family, ("b", 5, 0, 7), [], (step, 0))
        yield judged_under(f"without hops, {step} and 5", way.to_bytes(), way.anchors())


def first_step_and_a_hop():
    """An event at step 1, before which a hop can't stand."""
    family = {"a": History("a"), "b": History("b")}
    family["a"].append([b"x"])
    family["b"].append([b"y"])
    receive(family, "b", "a", 1, reshaping(random.Random(2)))
    entry = listed(family["b"].trees[2])[0]
    family["b"].trees[0] = family["b"].trees[2]
    way = Way(family, ("b", 1, 0, 2), [(entry, 1)], (1, 0))
    yield rejected("b at step 1", way.to_bytes(), way.anchors(), "2 BadOrder")


# ---- faults


def each_change():
    """Each byte of a proof with two hops changed, in two ways, each cut, and some padding."""
    way, rand = with_carried(long_way(), (1,)), random.Random("each change")
    data, anchors = way.to_bytes(), way.anchors()
    for place in range(len(data)):
        for value in sorted({data[place] ^ 1, rand.randrange(256)} - {data[place]}):
            yield judged_under(f"byte {place} is {value}", data[:place] + bytes([value]) + data[place + 1 :], anchors)
    for size in range(len(data)):
        yield judged_under(f"cut to {size}", data[:size], anchors)
    for pad in (b"\x00", b"\xff", data):
        yield judged_under(f"{len(pad)} bytes more", data + pad, anchors)


def faults_of(way):
    """The faults that one changed byte of a way's proof makes: each one's number, its part, and the place of the byte."""
    for name, (place, size) in way.places().items():
        field, _, part = name.partition(" ")
        if field in FIELDS and part.isdigit():
            yield FIELDS[field], int(part), place + {"event": size - 1, "tree": 1}.get(field, 0)


FIELDS = {"path": 4, "opening": 5, "event": 6, "tree": 7}
NAMES = {4: "BadPath", 5: "BadOpening", 6: "BadEvent", 7: "BadTree"}


def wide_way():
    """A way of two hops of which each part has a path with links, and each event a path of labels."""
    family = {name: History(name) for name in ("a", "b", "c")}
    for step in range(1, 4):
        for name in family:
            family[name].append([event_text(step, k) for k in range(2)])
    receive(family, "b", "a", 3, reshaping(random.Random(3)))
    receive(family, "b", "a", 2, reshaping(random.Random(3)))
    receive(family, "c", "b", 4, reshaping(random.Random(3)))
    receive(family, "c", "b", 5, reshaping(random.Random(3)))
    for name in family:
        for step in range(6, 9):
            family[name].append([event_text(step, k) for k in range(2)])
    first = next(entry for entry in listed(family["c"].trees[5]) if entry.step == 5)
    second = next(entry for entry in listed(family["b"].trees[5]) if entry.step == 3)
    return one_anchor_each(family, ("c", 6, 1, 0), [(first, 0), (second, 0)], (1, 1))


def each_fault():
    """Each fault in each part, and each two of them: of the lowest number the first is told."""
    way = wide_way()
    data, anchors, faults = way.to_bytes(), way.anchors(), sorted(faults_of(way))
    assert {fault[:2] for fault in faults} == {(4, 0), (4, 1), (4, 2), (4, 3), (5, 0), (5, 1), (6, 0), (6, 3), (7, 1), (7, 2)}
    for number, part, place in faults:
        yield rejected(f"{NAMES[number]} {part}", flipped(data, place), anchors, f"{number} {NAMES[number]} {part}")
    for one, other in combinations(faults, 2):
        both = flipped(flipped(data, one[2]), other[2])
        yield rejected(f"{one[:2]} and {other[:2]}", both, anchors, f"{one[0]} {NAMES[one[0]]} {one[1]}")
    for number, part, place in faults:
        yield rejected(f"{NAMES[number]} {part}, and a byte more", flipped(data, place) + b"\0", anchors, f"1 Malformed {len(data)}")
        yield from without_anchors(f"{NAMES[number]} {part}", flipped(data, place), anchors, way)


def without_anchors(name, data, anchors, way):
    """The proof without some of its anchors: the first that isn't held is told."""
    needed = [way.second[0], *(entry.service for entry, bind in way.hops if bind)]
    for count in range(1, len(anchors) + 1):
        for left_out in combinations(sorted(anchors), count):
            held = {service: anchor for service, anchor in anchors.items() if service not in left_out}
            first = next(service for service in needed if service in left_out)
            yield rejected(f"{name}, {left_out} not held", data, held, f"3 NotHeld {first} {anchors[first][0]}")


def other_anchors():
    """Anchors of other steps, and of other authenticators."""
    way = wide_way()
    data, anchors = way.to_bytes(), way.anchors()
    yield from without_anchors("good", data, anchors, way)
    for service, (step, auth) in anchors.items():
        yield judged_under(f"{service} at {step - 1}", data, {**anchors, service: (step - 1, way.lines[service].auths[step - 1])})
        yield judged_under(f"another authenticator of {service}", data, {**anchors, service: (step, flipped(auth, 0))})


def numbers_in_fields():
    """Each field of a number with those at the ends of its range and beyond."""
    way = wide_way()
    data, anchors = way.to_bytes(), way.anchors()
    steps = (0, 1, 2, 3, 4, 5, 6, 7, 8, 9, 2**32, LAST_STEP, LAST_STEP + 1, 2**63, 2**64 - 1)
    for value in range(256):
        yield judged_under(f"{value} hops", data[:5] + be(value, 1) + data[6:], anchors)
    for field, (place, size) in way.places().items():
        for value in steps if size == 8 else ():
            yield judged_under(f"{field} {value}", data[:place] + be(value, 8) + data[place + 8 :], anchors)


def carried_by_a_bind_of_0():
    """A bind of 0 where links of a path follow, and a bind below, at and above the thread's step."""
    way = wide_way()
    for number, (entry, bind) in enumerate(way.hops):
        for other in sorted({0, entry.step - 1, entry.step, entry.step + 1, bind}):
            hops = [*way.hops]
            hops[number] = entry, other
            data = Way(way.family, way.second, hops, way.first).to_bytes()
            for form in ("verify", "strict"):
                yield judged_under(f"hop {number + 1} bound by {other}, {form}", data, way.anchors(), form)


def swapped_hops():
    """Hops in the other order, one told twice, and one left out."""
    way = wide_way()
    one, other = way.hops
    for name, hops in (("swapped", [other, one]), ("twice the first", [one, one, other]), ("twice the last", [one, other, other])):
        data = Shown(way, hops).to_bytes()
        yield judged_under(name, data, way.anchors())
    for number in (0, 1):
        yield judged_under(f"hop {number + 1} left out", Shown(way, [way.hops[1 - number]]).to_bytes(), way.anchors())


class Shown(Way):
    """A way whose hops are shown by the archives that have them, wherever they stand."""

    def __init__(self, way, hops):
        super().__init__(way.family, way.second, hops, way.first)
        self.shown_by = {entry.key: place for place, (entry, _) in zip(way.ends(), way.hops)}

    def archive_of(self, number):
        return self.shown_by[self.hops[number][0].key]


# ---- the most hops, and the largest proofs


@cache
def winding_family(count):
    """Two histories that archive each other's last step in turns, so often."""
    family = {"a": History("a"), "b": History("b")}
    family["a"].append([b"first"])
    for number in range(count):
        by, source = ("b", "a") if number % 2 == 0 else ("a", "b")
        receive(family, by, source, len(family[source].steps), reshaping(random.Random(number)))
    family[by].append([b"second"])
    return family, by


def winding_way(count):
    """The way over all of them: each service stands there many times."""
    family, by = winding_family(count)
    step, place, hops = len(family[by].steps), (by, len(family[by].steps) - 1), []
    for _ in range(count):
        entry = max(listed(family[place[0]].trees[place[1]]), key=lambda entry: entry.step)
        hops.append((entry, 0))
        place = entry.service, entry.step
    return one_anchor_each(family, (by, step, 0, 0), hops, (1, 0))


def most_hops():
    """Ways of 1, 2, 3, 63 and 64 hops; and of 65, of which there is no proof."""
    for count in (1, 2, 3, MOST_HOPS - 1, MOST_HOPS):
        way = winding_way(count)
        yield accepted(f"{count} hops", way)
        yield accepted(f"{count} hops, strict", way, "strict")
        carried = with_carried(way, range(count))
        yield accepted(f"{count} hops, all carried", carried)
        yield rejected(f"{count} hops, all carried, strict", carried.to_bytes(), carried.anchors(), f"8 Carried {count}", "strict")
    way = winding_way(MOST_HOPS + 1)
    yield rejected("65 hops", way.to_bytes(), way.anchors(), "1 Malformed 5")


def large_archives():
    """64 hops over archives of a million entries each."""
    for percent in (SHORT, LONG):
        data, anchors = deep_way(MOST_HOPS, percent)
        yield is_accepted(judged_under(f"{len(data)} bytes", data, anchors))
        yield judged_under(f"{len(data)} bytes, last one changed", flipped(data, len(data) - 1), anchors)


# ---- joining


def joining(name, parts):
    """The case of parts that are joined, as the reference joins them."""
    names = [f"part{number}" for number in range(1, len(parts) + 1)]
    return make_case(name, ["join", *names], dict(zip(names, parts)))


def good_parts():
    """The parts of each way, with links and without, join to its proof."""
    for number, way in enumerate([*ways(), long_way(), wide_way(), winding_way(MOST_HOPS)]):
        for carried in ((), range(len(way.hops)), range(0, len(way.hops), 2)):
            other = with_carried(way, carried)
            parts = list(other.part_bytes())
            yield gives(joining(f"way {number}, {list(carried)} carried", parts), other.to_bytes())


def parts_that_do_not_fit():
    """Each part left out, told twice, put in another's place, or of another kind; and too many."""
    way = wide_way()
    parts = list(way.part_bytes())
    line = way.lines["a"]
    others = [*parts, way.to_bytes(), absent_proof(way.lines["c"], way.family["c"].trees[5], 5, 6, ("zz", 1)), link_proof(line, 2, 5)]
    for size in range(2, len(parts)):
        yield joining(f"the first {size}", parts[:size])
    for place in range(len(parts)):
        yield joining(f"without part {place + 1}", parts[:place] + parts[place + 1 :])
        for number, other in enumerate(others):
            yield joining(f"other {number} for part {place + 1}", [*parts[:place], other, *parts[place + 1 :]])
            yield joining(f"other {number} before part {place + 1}", [*parts[:place], other, *parts[place:]])
    for number, other in enumerate(others):
        yield joining(f"other {number} behind all", [*parts, other])
    yield joining("65 hops", list(winding_way(MOST_HOPS + 1).part_bytes()))
    yield from other_links(way, parts)


def other_links(way, parts):
    """Links of another service, step or authenticator than the thread before."""
    (entry, bind), place = way.hops[0], 2
    line = way.lines[entry.service]
    for name, other in (
        ("another service", link_proof(way.lines["a"], entry.step, 6)), ("another step", link_proof(line, entry.step - 1, bind)),
        ("another authenticator", link_bytes(entry.service, entry.step, bind, flipped(entry.authenticator, 3), path_bytes(line, bind, entry.step))),
        ("another top", link_proof(line, entry.step, bind - 1)), ("its own step as its top", link_proof(line, entry.step, entry.step)),
    ):
        yield joining(f"a link of {name}", [*parts[:place], other, *parts[place + 1 :]])


def unreadable_parts():
    """Parts that are malformed, too long or missing: the first malformed one is told once all are read."""
    way = wide_way()
    parts = list(way.part_bytes())
    for place, part in enumerate(parts):
        for name, data, bad in (("cut", part[:-1], len(part) - 1), ("longer", part + b"\0", len(part)), ("empty", b"", 0)):
            case = joining("", parts)
            files = {**case["files"], f"part{place + 1}": data}
            text = f"unreadable part{place + 1} byte {bad}\n"
            yield {"name": f"part {place + 1} {name}", "files": files, "words": case["words"], "status": 9, "stdout": text}
            files = {**files, "part6": b"x"}
            if place < 5:
                yield {"name": f"part {place + 1} {name}, and part 6", "files": files, "words": case["words"], "status": 9, "stdout": text}
        files = {f"part{number}": data for number, data in enumerate(parts, 1) if number != place + 1}
        bad = {**files, "part1" if place else "part2": b"x"}
        for name, found in (("", files), (", and a malformed one", bad)):
            words = ["join", *(f"part{number}" for number in range(1, len(parts) + 1))]
            yield {"name": f"part {place + 1} missing{name}", "files": found, "words": words, "status": 3, "stdout": "fault input\n"}


def in_pieces(room):
    """the least proof, and with a byte more, read in pieces of each length from one byte on: one verdict"""
    compiler, shim = needs("cc", "gcc"), str(room.folder / "short_count.so")
    subprocess.run([compiler, "-shared", "-fPIC", "-O1", "-o", shim, HARNESS / "short_count.c"], check=True, timeout=LONGEST)
    case = judged_under("", as_way(least_way()).to_bytes(), as_way(least_way()).anchors())
    for name, data in (*case["files"].items(), ("q", case["files"]["p"] + b"\0")):
        room.put(name, data)
    whole = room.run("verify", "p", "k")[:2], room.run("verify", "q", "k")[:2]
    if whole != ((0, case["bytes"]), (1, b"rejected 1 Malformed 533\n")):
        raise Wrong(f"  in one piece: {whole}")
    for most in range(1, 535):
        env = {**os.environ, "LD_PRELOAD": shim, "SHORT_MOST": str(most)}
        found = tuple(room.run("verify", name, "k", env=env)[:2] for name in "pq")
        if found != whole:
            raise Wrong(f"  in pieces of {most} bytes: {found}")


def cases():
    yield case_of(in_pieces, "precedence")
    yield from grouped(
        worked, good_proofs, orders, first_step_and_a_hop, each_change, each_fault, other_anchors, numbers_in_fields, carried_by_a_bind_of_0, swapped_hops, most_hops,
        large_archives, good_parts, parts_that_do_not_fit, unreadable_parts,
    )
