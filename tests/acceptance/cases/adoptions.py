"""Cases of adoption: a lost service's history taken over as far as proofs hold it."""

import random

from example_files import Peer, thread_of, with_events

from harness.judged import make_case, told_first, where
from harness.making import absent_proof, link_proof, proof_bytes, thread_proof
from harness.samples import lost_history, reshaping, woven
from timeweave_reference.anchors import anchors_to_bytes
from timeweave_reference.archives import listed
from timeweave_reference.histories import Step, history_to_bytes, read_history
from timeweave_reference.timelines import Timeline


def adoption(name, data, anchors, *proofs):
    """The case of the bytes of a history, of anchors and of the bytes of proofs."""
    files = {f"p{number}": proof for number, proof in enumerate(proofs, 1)}
    return make_case(f"adopt: {name}", ["adopt", "h", "k", *files], {"h": data, "k": anchors_to_bytes(anchors), **files})


def wanted(name, told, *given):
    """The same, where this is to be told: the front of a line, or so many steps of the history."""
    case = adoption(name, *given)
    if isinstance(told, int):
        return where(case, lambda status, output: status == 0 and len(read_history(output)[1]) == told)
    return told_first(case, told)


def least():
    """A history of two steps, of which one service received the first; altered, cut, and of another service."""
    line = Timeline("a", [[b""], [b""]])
    peer = Peer("b", ("a", 1, line.auths[1]))
    anchors, proof = peer.anchor(), peer.proof(0)
    file = history_to_bytes("a", [Step([b""]), Step([b""])])
    yield wanted("the least history", 1, file, anchors, proof)
    yield wanted("an altered step", "rejected 14 Differs 1 1 ", history_to_bytes("a", [Step([b"x"]), Step([b""])]), anchors, proof)
    yield wanted("no step", f"rejected 14 Differs 1 1 {line.auths[1].hex()} none\n", history_to_bytes("a", []), anchors, proof)
    yield wanted("another service", "rejected 13 Stranger 1\n", history_to_bytes("c", [Step([b""])]), anchors, proof)
    yield wanted("a prefix of its name", "rejected 13 Stranger 1\n", history_to_bytes("aa", [Step([b""])]), anchors, proof)
    yield wanted("another event behind", 1, history_to_bytes("a", [Step([b""]), Step([b"y"])]), anchors, proof)
    yield wanted("no proof", "rejected 10 Part 1 1\n", file, anchors, b"junk")
    yield wanted("no anchor", "rejected 10 Part 1 3\n", file, {}, proof)
    yield wanted("another anchor", "rejected 10 Part 1 4\n", file, {"b": (2, bytes(32))}, proof)
    yield wanted("64 proofs", 1, file, anchors, *[proof] * 64)


def several():
    """Proofs of several services, in each order; the first fault is told."""
    for times in (False, True):
        history = lost_history(times)
        one = Peer("one", thread_of(history, 2), thread_of(history, 5))
        two = Peer("two", thread_of(history, 3), ("far", 9, bytes(32)))
        anchors, file = one.anchor() | two.anchor(), history.to_bytes()
        second, fifth, third, far = one.proof(0), one.proof(1), two.proof(0), two.proof(1)
        yield wanted("the greatest step last", 5, file, anchors, second, third, fifth)
        yield wanted("the greatest step first", 5, file, anchors, fifth, third, second)
        yield wanted("the greatest step between", 3, file, anchors, second, third, second)
        yield wanted("a stranger before another event", "rejected 13 Stranger 2\n", with_events(history, 3, [b"another"]), anchors, second, far, third)
        yield wanted("another event before a stranger", "rejected 14 Differs 2 3 ", with_events(history, 3, [b"another"]), anchors, second, third, far)
        yield wanted("another event before no proof", "rejected 14 Differs 1 3 ", with_events(history, 3, [b"another"]), anchors, third, b"")
        yield wanted("no proof before another event", "rejected 10 Part 1 1\n", with_events(history, 3, [b"another"]), anchors, b"", third)
        yield wanted("another event behind what is held", 3, with_events(history, 5, [b"another"]), anchors, second, third)
        yield wanted("another event, and then a short history", "rejected 14 Differs 1 2 ", with_events(history, 1, [b"another"]), anchors, second, fifth)
        for length in range(6):
            short = history_to_bytes("lost", history.steps[:length])
            yield adoption(f"{length} steps", short, anchors, second, third, fifth)


def other_kinds():
    """Proofs of the other kinds are strangers, whatever they say."""
    history = woven(20, "adoption", reshaping(random.Random("adoption")))
    line, tree = history.line(), history.trees[12]
    peer = Peer("peer", thread_of(history, 18))
    anchors = {"woven": (18, line.auths[18])} | peer.anchor()
    of_events = next(step for step in range(1, 13) if line.events(step))
    made = {
        "event": proof_bytes(line, of_events, 0, 18), "absent": absent_proof(line, tree, 12, 18, ("zz", 3)), "link": link_proof(line, 7, 18),
        "link to step 0": link_proof(line, 0, 18), "own thread of another service": thread_proof(line, tree, 12, 18, listed(tree)[0]),
    }
    for name, data in made.items():
        yield wanted(name, "rejected 13 Stranger 2\n", history.to_bytes(), anchors, peer.proof(0), data)
    yield wanted("the service's own receiver", 18, history.to_bytes(), anchors, peer.proof(0))


def bad_bytes():
    """Each byte of a proof and of a history changed, and each cut of both."""
    history, rand = lost_history(), random.Random("adoptions")
    peer = Peer("peer", thread_of(history, 4))
    file, proof, anchors = history.to_bytes(), peer.proof(0), peer.anchor()
    for place in range(len(proof)):
        changed = bytearray(proof)
        changed[place] ^= rand.choice((1, 2, 128, 255))
        yield adoption(f"byte {place} of the proof changed", file, anchors, bytes(changed))
        yield adoption(f"the proof cut to {place}", file, anchors, proof[:place])
    for place in range(len(file)):
        changed = bytearray(file)
        changed[place] ^= rand.choice((1, 2, 128, 255))
        yield adoption(f"byte {place} of the history changed", bytes(changed), anchors, proof)
        yield adoption(f"the history cut to {place}", file[:place], anchors, proof)


def by_chance():
    """Histories with trees of any shape, of which peers received some steps, maybe altered behind or before them."""
    for seed in range(30):
        rand = random.Random(f"adopt {seed}")
        history = woven(rand.randrange(1, 25), f"adopt {seed}", reshaping(rand))
        last = len(history.steps)
        peers = [Peer(f"p{k}", *(thread_of(history, step) for step in sorted(rand.sample(range(1, last + 1), min(last, 2))))) for k in range(3)]
        anchors = {name: anchor for peer in peers for name, anchor in peer.anchor().items()}
        proofs = [peer.proof(rand.randrange(len(peer.entries))) for peer in peers]
        yield adoption(f"by chance {seed}", history.to_bytes(), anchors, *proofs)
        yield adoption(f"by chance {seed}, cut", history_to_bytes("woven", history.steps[: rand.randrange(last + 1)]), anchors, *proofs)
        step = rand.randrange(1, last + 1)
        if not history.steps[step - 1].thread:
            yield adoption(f"by chance {seed}, step {step} altered", with_events(history, step, [b"another"]), anchors, *proofs)


def cases():
    for some in (least, several, other_kinds, bad_bytes, by_chance):
        yield from some()
