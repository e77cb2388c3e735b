"""Cases of atlases: the earliest step of every service to which a step leads, by receipts."""

import random

from example_files import CHAIN, receipt_of, receipts_of

from harness.judged import make_case
from timeweave_reference.atlases import Hop
from timeweave_reference.fields import LAST_STEP
from timeweave_reference.receipts import MOST_FILES, MOST_RECEIPTS

CIRCLE = (Hop("a", 5, "b", 6), Hop("b", 7, "c", 3), Hop("c", 4, "b", 2))


def atlas(name, service, step, *files):
    """The case of files, each the bytes of one."""
    named = {f"r{number}": data for number, data in enumerate(files)}
    return make_case(f"atlas: {name}", ["atlas", service, str(step), *named], named)


def worked():
    """The examples of the documents, and each of their orders."""
    for hops, service, step in ((CHAIN, "alpha", 2), (CHAIN, "alpha", 4), (CHAIN, "beta", 4), (CHAIN, "gamma", 1), (CIRCLE, "a", 5), (CIRCLE, "b", 2)):
        name = f"{len(hops)} hops from {service} {step}"
        yield atlas(name, service, step, receipts_of(hops))
        yield atlas(f"{name}, in the other order", service, step, receipts_of(hops[::-1]))
        yield atlas(f"{name}, a file each", service, step, *(receipt_of(hop) for hop in hops))
        yield atlas(f"{name}, twice", service, step, receipts_of(hops), receipts_of(hops))
    yield atlas("no receipts", "alpha", 1, b"")
    yield atlas("no receipts, in two files", "alpha", LAST_STEP, b"", b"")
    shared = [Hop("a", 1, "b", 2), Hop("a", 2, "b", 2), Hop("a", 2, "b", 1), Hop("b", 1, "a", 1), Hop("b", 2, "a", 9)]
    yield atlas("two legs to one step, and a way back below the start", "a", 2, receipts_of(shared))
    yield atlas("the start's own step counts for its service alone", "a", 1, receipts_of([Hop("b", 1, "c", 1)]))
    yield atlas("a hop to its own service", "a", 1, receipts_of([Hop("a", 3, "a", 2), Hop("a", 2, "b", 1)]))


def by_chance():
    """Hops between few services and steps, so that many go on from one another."""
    for seed in range(120):
        rand = random.Random(f"atlas {seed}")
        names = [f"s{number}" for number in range(rand.randrange(2, 7))]
        steps = rand.choice((4, 9, 40))
        hops = [
            Hop(rand.choice(names), rand.randrange(1, steps), rand.choice(names), rand.randrange(1, steps)) for _ in range(rand.randrange(1, 40))
        ]
        cut = rand.randrange(len(hops) + 1)
        yield atlas(f"by chance {seed}", rand.choice(names), rand.randrange(1, steps), receipts_of(hops[:cut]), receipts_of(hops[cut:]))


def bad_files():
    """Each byte of two receipts changed, and each cut; the first bad file is told, and that of all files one receipt too many stands in."""
    data = receipts_of(CHAIN[:2])
    rand = random.Random("receipts")
    for place in range(len(data)):
        changed = bytearray(data)
        changed[place] ^= rand.choice((1, 2, 128, 255))
        yield atlas(f"byte {place} changed", "alpha", 2, bytes(changed))
    for size in range(0, len(data) + 1, 5):
        yield atlas(f"cut to {size}", "alpha", 2, data[:size])
    yield atlas("a byte behind", "alpha", 2, data + b"T")
    yield atlas("another byte behind", "alpha", 2, data + b"\0")
    yield atlas("the second file", "alpha", 2, data, data[:115])
    yield atlas("both files", "alpha", 2, b"no", data[:115])
    wide = [Hop("a", 1 + number, f"b{number % 9}", 1 + number) for number in range(MOST_RECEIPTS)]
    full = receipts_of(wide)
    yield atlas("as many receipts as may be", "a", 4000, full)
    yield atlas("one too many", "a", 4000, full + receipt_of(wide[0]))
    yield atlas("a byte too many", "a", 4000, full + b"\0")
    yield atlas("one too many, in the second file", "a", 4000, full, b"", receipt_of(wide[0]))
    yield atlas("one too many of equal ones", "a", 1, receipt_of(wide[0]) * (MOST_RECEIPTS // 2), receipt_of(wide[0]) * (MOST_RECEIPTS // 2 + 1))
    yield atlas("one too many, of 64 files", "a", 1, *[receipt_of(wide[0]) * 64] * 63, receipt_of(wide[0]) * 65)
    yield atlas("64 files", "a", 1, *[receipt_of(wide[0])] * MOST_FILES)


def shapes():
    """A long chain, a star, and a grid."""
    chain = [Hop(f"c{number}", 1, f"c{number + 1}", 1) for number in range(300)]
    yield atlas("a chain", "c0", 1, receipts_of(chain))
    yield atlas("a chain, from its middle", "c150", 1, receipts_of(chain[::-1]))
    yield atlas("a star", "hub", 1, receipts_of([Hop("hub", 1 + number, f"p{number}", 7) for number in range(200)]))
    grid = [Hop(f"g{row}", column, f"g{row + 1}", column) for row in range(12) for column in range(1, 13)]
    yield atlas("a grid", "g0", 6, receipts_of(grid))


def cases():
    for some in (worked, by_chance, bad_files, shapes):
        yield from some()
