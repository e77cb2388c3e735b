"""Cases of audits: a proof held against the histories of files."""

import random

from example_files import with_events

from harness.judged import make_case, told_first
from harness.making import absent_proof, link_proof, proof_bytes, thread_proof
from harness.samples import reshaping, timed, woven
from harness.ways import Way, chain_of_three, with_carried
from timeweave_reference.anchors import anchors_to_bytes
from timeweave_reference.archives import listed
from timeweave_reference.histories import MOST_BYTES as MOST_HISTORY, Step, history_to_bytes
from timeweave_reference.recording import History
from timeweave_reference.timelines import Timeline


def audit(name, data, anchors, *histories):
    """The case of a proof under anchors and of histories, each the bytes of a file."""
    files = {f"h{number}": file for number, file in enumerate(histories)}
    return make_case(f"audit: {name}", ["audit", "p", "k", *files], {"p": data, "k": anchors_to_bytes(anchors), **files})


def wanted(name, told, data, anchors, *histories):
    """The same, where this is to be told first."""
    return told_first(audit(name, data, anchors, *histories), told)


def carried():
    """The way over three services, where no anchor binds a hop."""
    return with_carried(chain_of_three(), (0, 1))


def files_of(way, *names):
    """The files of the histories of a way, or of those of these names."""
    return [way.family[name].to_bytes() for name in names or way.family]


def least():
    """The proof of an event of one step, against its history, one without steps, and others."""
    line = Timeline("a", [[b""]])
    data, anchors = proof_bytes(line, 1, 0, 1), {"a": (1, line.auths[1])}
    own, none, other = history_to_bytes("a", [Step([b""])]), history_to_bytes("a", []), history_to_bytes("b", [])
    yield wanted("the least proof", "stands\nevent a 1 0 -\n", data, anchors, own)
    yield wanted("a history of no steps", "unheld a 1 ", data, anchors, none)
    yield wanted("no history of the service", "unheld a 1 ", data, anchors, other)
    yield wanted("another event in the history", "unheld a 1 ", data, anchors, history_to_bytes("a", [Step([b"x"])]))
    yield wanted("a history that goes on", "stands\n", data, anchors, history_to_bytes("a", [Step([b""]), Step([b"y"])]))
    yield wanted("another history before it", "stands\n", data, anchors, other, own)
    yield wanted("one service twice", "unreadable h1 byte 4\n", data, anchors, own, own)
    yield wanted("one service twice, with no steps", "unreadable h1 byte 4\n", data, anchors, own, none)
    yield wanted("one service twice, the second one unsound", "unsound h1 step 1 rule ", data, anchors, own, history_to_bytes("a", [Step([b""], root=1)]))
    yield wanted("one service twice, the second one cut", "unreadable h1 byte ", data, anchors, own, own[:-1])
    yield wanted("one service twice, and a bad file behind", "unreadable h2 byte 4\n", data, anchors, other, own, own, b"")
    yield wanted("another proof", "rejected 4 BadPath 0\n", data, {"a": (1, bytes(32))}, own)
    yield wanted("no anchor", "rejected 3 NotHeld a 1\n", data, {}, own)
    yield wanted("no proof", "rejected 1 Malformed 0\n", b"", anchors, own)
    yield wanted("no proof, and no history", "unreadable h0 byte 0\n", b"", anchors, b"")
    yield wanted("a rejected proof, and a history that lacks it", "rejected 4 BadPath 0\n", data, {"a": (1, bytes(32))}, none)


def chains():
    """Two hops, bound and carried; each history changed, cut, left out; the order of the histories."""
    for name, way in (("bound", chain_of_three()), ("timed", chain_of_three(True)), ("carried", carried())):
        data, anchors, files = way.to_bytes(), way.anchors(), files_of(way)
        yield wanted(f"{name}: all histories", "stands\nevent alpha 1 1 ", data, anchors, *files)
        yield wanted(f"{name}: in another order", "stands\n", data, anchors, *files[::-1])
        for left in range(3):
            yield wanted(f"{name}: without {list(way.family)[left]}", "unheld ", data, anchors, *files[:left], *files[left + 1 :])
        for service, step in (("alpha", 1), ("beta", 1), ("beta", 3), ("gamma", 2)):
            others = files_of(way, *(other for other in way.family if other != service))
            yield wanted(f"{name}: another event of {service} {step}", "unheld ", data, anchors, with_events(way.family[service], step, [b"new"]), *others)
        beta = way.family["beta"]
        yield audit(f"{name}: another event behind the thread", data, anchors, with_events(beta, 4, [b"new"]), *files_of(way, "alpha", "gamma"))
        for length in range(4):
            short = history_to_bytes("beta", beta.steps[:length])
            yield audit(f"{name}: {length} steps of beta", data, anchors, short, *files_of(way, "alpha", "gamma"))
    way = carried()
    yield wanted("two threads lacked: the first in the file is told", "unheld beta ", way.to_bytes(), way.anchors(), *files_of(way, "gamma"))


def kinds():
    """Proofs of each kind over a history that received threads, against it, and against it with one event changed."""
    history = woven(20, "audit", reshaping(random.Random("audit")))
    timed(history.steps, "audit")
    line, tree, file = history.line(), history.trees[12], history.to_bytes()
    entry = listed(tree)[0]
    of_events = next(step for step in range(1, 21) if line.events(step))
    made = {
        "event": proof_bytes(line, of_events, 0, 18), "thread": thread_proof(line, tree, 12, 18, entry),
        "absent": absent_proof(line, tree, 12, 18, ("zz", 3)), "link": link_proof(line, 7, 18), "link to step 0": link_proof(line, 0, 18),
    }
    anchors = {"woven": (18, line.auths[18])}
    for name, data in made.items():
        yield wanted(name, "stands\n", data, anchors, file)
        for step in range(1, 21):
            if not history.steps[step - 1].thread:
                changed = list(history.steps)
                changed[step - 1] = Step([b"another"], nodes=changed[step - 1].nodes, root=changed[step - 1].root, time=changed[step - 1].time)
                yield audit(f"{name}, another event in step {step}", data, anchors, history_to_bytes("woven", changed))


def bad_histories():
    """Each byte of small histories changed, and each cut, beside a good one before and behind."""
    way = chain_of_three()
    data, anchors = way.to_bytes(), way.anchors()
    alpha, beta, gamma = files_of(way)
    rand = random.Random("audits")
    for place in range(len(beta)):
        changed = bytearray(beta)
        changed[place] ^= rand.choice((1, 2, 128, 255))
        yield audit(f"byte {place} of a history changed", data, anchors, alpha, bytes(changed), gamma)
    for size in range(0, len(beta), 3):
        yield audit(f"a history cut to {size}", data, anchors, alpha, beta[:size], gamma)
    yield audit("two bad histories", data, anchors, alpha, beta[:-1], gamma[:-1])
    for place in range(0, len(data), 2):
        changed = bytearray(data)
        changed[place] ^= rand.choice((1, 2, 128, 255))
        yield audit(f"byte {place} of the proof changed", bytes(changed), anchors, alpha, beta, gamma)


def by_chance():
    """Ways over histories with trees of any shape."""
    for seed in range(20):
        rand = random.Random(f"audit {seed}")
        first, second = History("one"), History("other")
        for step in range(rand.randrange(1, 9)):
            first.append([bytes([rand.randrange(256)]) * rand.randrange(4) for _ in range(rand.randrange(1, 4))])
        last = len(first.steps)
        grow = reshaping(rand)
        for other in range(rand.randrange(3)):
            second.receive(f"p{other}", other + 1, bytes([other]) * 32, grow)
        second.receive("one", last, first.line().auths[last], grow)
        at = len(second.steps)
        second.append([b"end"])
        entry = next(entry for entry in listed(second.trees[at]) if entry.service == "one")
        way = Way({"one": first, "other": second}, ("other", at + 1, 0, at + 1), [(entry, rand.choice((0, last)))], (rand.randrange(1, last + 1), 0))
        files = files_of(way)
        yield wanted(f"by chance {seed}", "stands\n", way.to_bytes(), way.anchors(), *files)
        yield audit(f"by chance {seed}, a history alone", way.to_bytes(), way.anchors(), rand.choice(files))


def limits():
    """The histories of one audit have so many bytes together: each is refused at the first byte behind what those before it left."""
    line = Timeline("a", [[b""]])
    data, anchors = proof_bytes(line, 1, 0, 1), {"a": (1, line.auths[1])}
    own = history_to_bytes("a", [Step([b""])])
    yield audit("64 histories", data, anchors, own, *(history_to_bytes(f"s{number}", []) for number in range(63)))
    zeros = bytes(MOST_HISTORY - len(own) + 1)
    yield wanted("one byte too many, in the second file", f"unreadable h1 byte {MOST_HISTORY - len(own)}\n", data, anchors, own, zeros)
    yield wanted("no byte too many, and no history", "unreadable h1 byte 0\n", data, anchors, own, zeros[:-1])
    yield wanted("all left is taken by a bad file", "unreadable h0 byte 0\n", data, anchors, bytes(MOST_HISTORY), own)


def without_events():
    """A history of 8 MiB, of steps without events, is audited in eight times its bytes and what the program itself takes: of each step three texts
    are hashed, each of some 74 bytes, and it has 11 in the file."""
    line, count = Timeline("a", [[b""]]), 8 * 2**20 // 11
    file = history_to_bytes("a", [Step([b""])] + [Step([])] * (count - 1))
    files = {"p": proof_bytes(line, 1, 0, 1), "k": anchors_to_bytes({"a": (1, line.auths[1])}), "h": file}
    told = {"status": 0, "bytes": b"stands\nevent a 1 0 -\n", "memory": 8 * len(file) + 2**24}
    yield {"name": "audit: many steps without events, in little memory", "words": ["audit", "p", "k", "h"], "files": files, **told}


def cases():
    for some in (least, chains, kinds, bad_histories, by_chance, limits, without_events):
        yield from some()
