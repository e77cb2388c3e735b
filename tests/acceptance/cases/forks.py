"""Acceptance cases of evidence of a fork: services whose peers hold threads of two histories, accused with and without a link; each change
and cut of evidence, parts and links that don't fit, and anchors that aren't held."""

from itertools import product

from example_files import Fork

from harness.judged import answered, grouped, is_accepted, make_case
from harness.making import link_proof, path_bytes, thread_proof
from harness.samples import fork_parts, sample_fork
from timeweave_reference.anchors import anchors_to_bytes
from timeweave_reference.archives import listed
from timeweave_reference.evidence import accused
from timeweave_reference.fields import big_endian as be
from timeweave_reference.proofs import LINK, THREAD


def evidence_of(*parts):
    """The bytes of the evidence that parts make, or the number of the part that doesn't fit."""
    made = accused(*parts)
    return made if isinstance(made, int) else made.to_bytes()


def judge_evidence(name, data, anchors):
    """The case of evidence under anchors."""
    return make_case(name, ["checkfork", "e", "k"], {"e": data, "k": anchors_to_bytes(anchors)})


def rejected(name, data, anchors, reason):
    """The case of evidence against which this reason stands."""
    return answered(judge_evidence(name, data, anchors), 1, f"rejected {reason}\n")


def accusing(name, parts):
    """The case of parts of which evidence is made, as the reference makes it."""
    names = ["first", "second", "link"][: len(parts)]
    return make_case(name, ["accuse", *names], dict(zip(names, parts)))


def forks():
    """Two histories that part before both steps, between them or behind both, at steps near and far from each other: the evidence is made,
    and accepted exactly where they part before the first step."""
    for k, m in ((1, 1), (1, 2), (2, 2), (3, 8), (4, 12), (7, 7), (8, 9), (8, 16), (5, 33)):
        for common in sorted({0, k - 1, k, m}):
            fork, name = Fork(common, k, m, k % 3), f"{k} and {m}, {common} common"
            yield accusing(name, fork_parts(fork))
            case = judge_evidence(name, fork.evidence().to_bytes(), fork.anchors())
            yield is_accepted(case) if common < k else answered(case, 1, "rejected 11 NoConflict\n")
            if k == m:
                yield accusing(f"{name}, without a link", fork_parts(fork)[:2])
                yield judge_evidence(f"{name}, without a link", evidence_of(fork.proof(0), fork.proof(1)), fork.anchors())


def least():
    """The least evidence, 568 bytes, with a byte less and a byte more."""
    fork = Fork(0, 1, 1)
    data = evidence_of(fork.proof(0, 1), fork.proof(1, 1))
    assert len(data) == 568
    anchors = {history.name: (1, history.line().auths[1]) for history in fork.receivers}
    yield judge_evidence("least", data, anchors)
    yield rejected("cut", data[:-1], anchors, "1 Malformed 567")
    yield rejected("longer", data + b"\0", anchors, "1 Malformed 568")
    yield rejected("empty", b"", anchors, "1 Malformed 0")
    yield rejected("a proof", fork.proof(0).to_bytes(), anchors, "1 Malformed 2")


def each_change():
    """Each byte of evidence changed, and each cut."""
    data, anchors = sample_fork().evidence().to_bytes(), sample_fork().anchors()
    for place in range(len(data)):
        new = data[:place] + bytes([data[place] ^ 1]) + data[place + 1 :]
        yield judge_evidence(f"byte {place}", new, anchors)
        yield rejected(f"cut to {place}", data[:place], anchors, f"1 Malformed {place}")


def several_faults():
    """Each set of faults: the proofs, the conflict and the link, in this order."""
    fork = sample_fork()
    for one, two, same, path in product((False, True), repeat=4):
        parts, bottom = fork_parts(fork)[:2], fork.shown[1].auths[fork.k]
        parts[0] = parts[0][:-1] + bytes([parts[0][-1] ^ one])
        parts[1] = parts[1][:-1] + bytes([parts[1][-1] ^ two])
        # (the first thread's authenticator at its step doesn't climb to the second one)
        link = fork.shown[0].auths[fork.k] if same else bytes([bottom[0] ^ path]) + bottom[1:]
        data = b"TWV1" + parts[0] + parts[1] + link + path_bytes(fork.shown[1], fork.m, fork.k)
        wanted = "10 Part 1 7" if one else "10 Part 2 7" if two else "11 NoConflict" if same else "12 BadLink" if path else None
        name = f"first {one}, second {two}, same {same}, path {path}"
        yield rejected(name, data, fork.anchors(), wanted) if wanted else judge_evidence(name, data, fork.anchors())


def other_anchors():
    """Anchors of one receiver alone, of another step, and of another authenticator."""
    fork = sample_fork()
    data, anchors = fork.evidence().to_bytes(), fork.anchors()
    for number, name in enumerate(anchors, 1):
        step, auth = anchors[name]
        yield rejected(f"none of {name}", data, {key: anchors[key] for key in anchors if key != name}, f"10 Part {number} 3")
        yield rejected(f"step before of {name}", data, {**anchors, name: (step - 1, auth)}, f"10 Part {number} 3")
        yield rejected(f"other of {name}", data, {**anchors, name: (step, bytes(32))}, f"10 Part {number} 4")
    yield rejected("none", data, {}, "10 Part 1 3")
    yield rejected("changed for each other", data, dict(zip(anchors, reversed(anchors.values()))), "10 Part 1 4")


def parts_that_do_not_fit():
    """Proofs in the other order, of another service and of one history; links of other steps and of none."""
    fork, other = sample_fork(), Fork(0, 1, 1)
    first, second, link = fork_parts(fork)
    yield accusing("no link", [first, second])
    yield accusing("the other order", [second, first])
    yield accusing("the other order, with a link", [second, first, link])
    yield accusing("one proof twice", [first, first])
    for lower, upper in ((0, 8), (2, 8), (3, 7), (3, 3), (8, 8)):
        yield accusing(f"a link from {upper} to {lower}", [first, second, link_proof(fork.shown[1], lower, upper)])
    yield accusing("a link of another history", [first, second, link_proof(Fork(2, 8, 8).shown[0], 3, 8)])
    history = fork.receivers[0]
    yield accusing("a link of another service", [first, second, link_proof(history.line(), 3, 4)])
    last = len(history.steps) - 1
    apart = thread_proof(history.line(), history.trees[last], last, last, listed(history.trees[last])[0])
    yield accusing("another service", [apart, second, link])
    yield accusing("of the least fork", fork_parts(other))


def unreadable_parts():
    """Parts of another kind, cut, longer and missing: the first bad byte is that of the kind that is wanted."""
    fork = sample_fork()
    names, parts = ["first", "second", "link"], fork_parts(fork)
    for place, (name, part) in enumerate(zip(names, parts)):
        kind = LINK if place == 2 else THREAD
        others = [part[:4] + be(other, 1) + part[5:] for other in range(7) if other != kind]
        bad = [(data, 4) for data in others] + [(part[:-1], len(part) - 1), (part + b"\0", len(part)), (b"", 0)]
        for number, (data, at) in enumerate(bad):
            files = {**dict(zip(names, parts)), name: data}
            text = f"unreadable {name} byte {at}\n"
            yield {"name": f"{name}, {number}", "files": files, "words": ["accuse", *names], "status": 9, "stdout": text}
        files = {other: data for other, data in zip(names, parts) if other != name}
        yield {"name": f"{name} missing", "files": files, "words": ["accuse", *names], "status": 3, "stdout": "fault input\n"}


def cases():
    yield from grouped(forks, least, each_change, several_faults, other_anchors, parts_that_do_not_fit, unreadable_parts)
