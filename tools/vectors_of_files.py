"""The vectors of what reaches beyond one proof: joined proofs, map files, evidence of a fork, histories, audits, histories taken over, atlases."""

from __future__ import annotations

from dataclasses import replace
from functools import lru_cache
from typing import Dict, Iterator, List, Sequence, Tuple

from example_files import (
    CHAIN, ENTRY, SHOP, Fork, Peer, audited_chain, high_of, ledger_and_notary, line_of, lost, low_of, receipt_of, receipts_of,
    thread_of, three_histories, two_histories, with_events,
)
from vector import Lines, Vector, flipped, make_vector, over
from vectors_of_proofs import DIGEST, TIMED, bank, event_of, line_at, row

from timeweave_reference.anchors import Anchor, anchors_to_bytes
from timeweave_reference.archives import listed
from timeweave_reference.atlases import Hop
from timeweave_reference.evidence import Evidence
from timeweave_reference.histories import NodeRow, Step, Thread, history_to_bytes
from timeweave_reference.map_files import low_file, read_low
from timeweave_reference.paths import PathLink
from timeweave_reference.recording import History
from timeweave_reference.services import link_proof, thread_proof


def numbered(front: str, files: Sequence[bytes]) -> Dict[str, bytes]:
    """Files by the names `front1`, `front2` and so on."""
    return {f"{front}{number}": data for number, data in enumerate(files, 1)}


# ---- joined proofs


def joined(name: str, *parts: bytes) -> Vector:
    """The vector of parts that are joined."""
    files = numbered("part", parts)
    return make_vector(name, ["join", *files], files)


def joins() -> Iterator[Vector]:
    """Parts that fit, and the first that doesn't."""
    _, one = two_histories()
    two = three_histories()
    parts, more = [part.to_bytes() for part in one.parts()], [part.to_bytes() for part in two.parts()]
    yield joined("one hop, bound", *parts)
    yield joined("one hop, carried", parts[0], parts[1], parts[3])
    yield joined("two hops, bound", *more)
    yield joined("two hops, the second carried", *more[:4], more[5])
    yield joined("two events of one service", event_of(SHOP, 9, 0, 13), event_of(SHOP, 2, 1, 8))
    yield joined("two events of one service, under another step", event_of(SHOP, 9, 0, 13), event_of(SHOP, 2, 1, 7))
    yield joined("a part missing behind", *parts[:3])
    yield joined("in the other order", *parts[::-1])
    yield joined("a link twice", parts[0], parts[1], parts[2], parts[2], parts[3])
    yield joined("a link first", parts[2], parts[3])
    yield joined("a part more", *parts, parts[3])
    yield joined("another second event", event_of(SHOP, 2, 0, 3), *parts[1:])
    yield joined("a part cut", parts[0], parts[1][:-1], *parts[2:])


# ---- map files


def mapped(name: str, low: bytes, high: bytes, lines: Lines) -> Vector:
    """The vector of two map files under lines."""
    return make_vector(name, ["checkmap", "low", "high", "anchors"], {"low": low, "high": high, "anchors": anchors_to_bytes(lines)})


def accepted_maps() -> Iterator[Vector]:
    """Each step of the ledger, and one of the notary."""
    ledger, notary, _ = ledger_and_notary()
    for step in range(1, len(ledger.steps) + 1):
        for top, upto in ((len(ledger.steps), len(notary.steps)), (step, 2)):
            files = low_of(ledger, step, "notary", top), high_of(notary, upto, "ledger", step)
            yield mapped(f"step {step} under {top}, up to {upto}", *files, {**line_of(ledger, top), **line_of(notary, upto)})
    files = low_of(notary, 5, "ledger", 5), high_of(ledger, 4, "notary", 5)
    yield mapped("the other way", *files, {**line_of(ledger, 4), **line_of(notary, 5)})
    whole = row(129)
    deep = low_file(whole.line(), whole.trees[128], 129, "other", 129)
    other = History("other")
    other.append([b"x"])
    yield mapped("128 nodes above", deep.to_bytes(), high_of(other, 1, "row", 129), {**line_of(whole, 129), **line_of(other, 1)})


def rejected_maps() -> Iterator[Vector]:
    """Each reason of both files, files that don't fit, and bytes that are none."""
    ledger, notary, _ = ledger_and_notary()
    low, high = low_of(ledger, ENTRY, "notary", 4), high_of(notary, 5, "ledger", ENTRY)
    held = {**line_of(ledger, 4), **line_of(notary, 5)}
    first = low_of(ledger, 1, "notary", 4), high_of(notary, 5, "ledger", 1)
    yield mapped("no line of the service", low, high, line_of(notary, 5))
    yield mapped("no line of the peer", low, high, line_of(ledger, 4))
    yield mapped("no lines", low, high, {})
    yield mapped("another authenticator of the service", low, high, {**held, "ledger": Anchor(4, DIGEST)})
    yield mapped("another authenticator of the peer", low, high, {**held, "notary": Anchor(5, DIGEST)})
    yield mapped("step 1, another authenticator of the service", *first, {**held, "ledger": Anchor(4, DIGEST)})
    yield mapped("step 1, no line of the service", *first, line_of(notary, 5))
    read = read_low(low)
    assert read.before is not None
    above = replace(read, top=2, before=replace(read.before, path=()))
    yield mapped("a step above the top", above.to_bytes(), high, {**line_of(ledger, 2), **line_of(notary, 5)})
    yield mapped("another tree of the low file", flipped(low, -1), high, held)
    yield mapped("another tree of the high file", low, flipped(high, -1), held)
    yield mapped("both trees changed", flipped(low, -1), flipped(high, -1), held)
    yield mapped("another tree, and no line of the peer", flipped(low, -1), high, line_of(ledger, 4))
    yield mapped("files of two steps", low, high_of(notary, 5, "ledger", ENTRY + 1), held)
    yield mapped("files of two services", low, high_of(notary, 5, "ledge", ENTRY), held)
    yield mapped("files of two peers", low_of(ledger, ENTRY, "notar", 4), high, held)
    yield mapped("files that don't fit, and no lines", low, high_of(notary, 5, "ledger", ENTRY + 1), {})
    yield mapped("the files in the other order", high, low, held)
    yield mapped("the low file twice", low, low, held)
    yield mapped("a low file that is cut", low[:-1], high, held)
    yield mapped("a byte behind the high file", low, high + b"\0", held)
    yield mapped("a low file of step 1 with a byte behind", first[0] + b"\0", first[1], held)
    yield mapped("both files bad", b"", b"TWP1", held)
    yield make_vector("a bad file, and a bad line", ["checkmap", "low", "high", "anchors"], {"low": low, "high": b"TWP1", "anchors": b"x"})
    yield make_vector("a bad line", ["checkmap", "low", "high", "anchors"], {"low": low, "high": high, "anchors": b"ledger 4"})


def maps() -> Iterator[Vector]:
    """Kinds 6 and 7."""
    yield from accepted_maps()
    yield from rejected_maps()


# ---- evidence of a fork


def checked(name: str, data: bytes, lines: "Lines | bytes") -> Vector:
    """The vector of evidence under lines."""
    file = lines if isinstance(lines, bytes) else anchors_to_bytes(lines)
    return make_vector(name, ["checkfork", "evidence", "anchors"], {"evidence": data, "anchors": file})


def evidence_of(fork: Fork) -> Evidence:
    """The evidence that its parts make."""
    found = fork.evidence()
    assert isinstance(found, Evidence)
    return found


def forks() -> Iterator[Vector]:
    """Evidence that is accepted, each reason, which of several is told, and bytes that are none."""
    for common, k, m, before in ((2, 3, 8, 2), (0, 1, 1, 0), (3, 4, 4, 5), (7, 8, 1024, 1)):
        fork = Fork(common, k, m, before)
        yield checked(f"steps {k} and {m}, behind {common} common ones", evidence_of(fork).to_bytes(), fork.anchors())
    fork = Fork(2, 3, 8, 2)
    made, held = evidence_of(fork), fork.anchors()
    first, second = made.first, made.second
    yield checked("no line of the first", made.to_bytes(), {"bert": held["bert"]})
    yield checked("no line of the second", made.to_bytes(), {"anna": held["anna"]})
    yield checked("another authenticator of the first", made.to_bytes(), {**held, "anna": Anchor(held["anna"].step, DIGEST)})
    yield checked("another authenticator of the second", made.to_bytes(), {**held, "bert": Anchor(held["bert"].step, DIGEST)})
    bad, other_bad = (replace(proof, tree=replace(proof.tree, sides=(DIGEST, DIGEST))) for proof in (first, second))
    yield checked("another tree of the first", replace(made, first=bad).to_bytes(), held)
    yield checked("another tree of the second", replace(made, second=other_bad).to_bytes(), held)
    yield checked("another tree of the first, and no line of the second", replace(made, first=bad).to_bytes(), {"anna": held["anna"]})
    yield checked("a first step above its top", replace(made, first=replace(first, top=2, path=())).to_bytes(), held)
    yield checked("one history", replace(made, bottom=first.entry.authenticator).to_bytes(), held)
    yield checked("the other order", Evidence(second, first, first.entry.authenticator, ()).to_bytes(), held)
    yield checked("one thread twice", Evidence(first, first, first.entry.authenticator, ()).to_bytes(), held)
    yield checked("another bottom", replace(made, bottom=DIGEST).to_bytes(), held)
    yield checked("another path", replace(made, path=(replace(made.path[0], datum=DIGEST), *made.path[1:])).to_bytes(), held)
    other = fork.receivers[1]
    apart = thread_proof(other.line(), other.trees[3], 3, 4, listed(other.trees[3])[0])
    yield checked("threads of two services", Evidence(apart, second, DIGEST, second_path(fork, apart.entry.step)).to_bytes(), held)
    data = made.to_bytes()
    place = 4 + len(first.to_bytes())
    for name, new in (
        ("no bytes", b""), ("a proof", first.to_bytes()), ("cut", data[:-1]), ("a byte behind", data + b"\0"),
        ("another kind of the first", over(data, 8, b"\x04")), ("another kind of the second", over(data, place + 4, b"\x01")),
        ("a bad name in the second", over(data, place + 5, b"_")), ("cut in the first", data[:100]),
    ):
        yield checked(name, new, held)
    yield checked("a bad line is told first", b"", b"anna")


def second_path(fork: Fork, step: int) -> "Tuple[PathLink, ...]":
    """The path of the second history from its last step down to a step."""
    return fork.shown[1].path(fork.m, step)


def accusing(name: str, *parts: bytes) -> Vector:
    """The vector of parts of which evidence is made."""
    files = dict(zip(("first", "second", "link"), parts))
    return make_vector(name, ["accuse", *files], files)


def accusations() -> Iterator[Vector]:
    """Evidence that is made, parts that don't fit, and bytes that are none."""
    fork, same = Fork(2, 3, 8, 2), Fork(3, 4, 4, 5)
    first, second, link = fork.proof(0).to_bytes(), fork.proof(1).to_bytes(), fork.link().to_bytes()
    yield accusing("two steps", first, second, link)
    yield accusing("one step, and no link", same.proof(0).to_bytes(), same.proof(1).to_bytes())
    yield accusing("one step, and a link", same.proof(0).to_bytes(), same.proof(1).to_bytes(), same.link().to_bytes())
    yield accusing("two steps, and no link", first, second)
    yield accusing("the other order", second, first, link)
    yield accusing("a link of another step", first, second, link_proof(fork.shown[1], 2, 8).to_bytes())
    yield accusing("a link first", link, second, first)
    yield accusing("a part cut", first, second[:-1], link)


# ---- histories


def make_show_vector(name: str, data: bytes, step: int, index: int) -> Vector:
    """The vector of an event of a history that is shown."""
    return make_vector(name, ["show", "history", str(step), str(index)], {"history": data})


def unsound() -> Iterator[Tuple[int, str, List[Step]]]:
    """Histories of a service `a` that break a rule, and what breaks it."""
    five, four, own, other = (Thread(name, step, bytes(32)) for name, step in (("b", 5), ("b", 4), ("a", 1), ("c", 1)))
    node = NodeRow(0, 1, 0)
    yield 1, "a node beside itself", [Step(thread=five, nodes=[NodeRow(1, 1, 0)], root=1)]
    yield 1, "a node of a step of events", [Step([b"x"]), Step(thread=five, nodes=[node], root=1)]
    yield 1, "a root above the nodes", [Step(thread=five, nodes=[node], root=2)]
    yield 2, "keys that fall", [Step(thread=five, nodes=[node], root=1), Step(thread=other, nodes=[NodeRow(0, 2, 1)], root=2)]
    yield 3, "a thread left out", [Step(thread=five, nodes=[node], root=1), Step(thread=other, root=1)]
    yield 3, "a thread lost", [Step(thread=five, nodes=[node], root=1), Step([b"x"])]
    yield 4, "a thread of its own", [Step(thread=own, nodes=[node], root=1)]
    yield 5, "a step below an earlier one", [Step(thread=five, nodes=[node], root=1), Step(thread=four, nodes=[NodeRow(0, 2, 1)], root=2)]
    yield 6, "65 events of 1,024 bytes", [Step([bytes(1024)] * 65)]
    yield 7, "a time below an earlier one", [Step([b"x"], time=5), Step([b"y"]), Step([b"z"], time=4)]


def shows() -> Iterator[Vector]:
    """Events that are shown, events and steps that aren't there, rules that are broken, and bytes that are none."""
    files = {name: history.to_bytes() for name, history in (("bank", bank()), ("lost", lost()), ("ledger", ledger_and_notary()[0]))}
    for name, step, index in (("bank", 1, 0), ("bank", 11, 0), ("lost", 5, 4), ("ledger", 3, 0)):
        yield make_show_vector(f"event {index} of step {step} of {name}", files[name], step, index)
    for step, index in ((0, 0), (13, 0), (2, 0), (1, 1), (2**40, 0)):
        yield make_show_vector(f"event {index} of step {step}, which isn't there", files["bank"], step, index)
    yield make_show_vector("a history of no steps", history_to_bytes("a", []), 1, 0)
    for rule, name, steps in unsound():
        yield make_show_vector(f"rule {rule}, {name}", history_to_bytes("a", steps), 1, 0)
    data = history_to_bytes("a", [Step([b""])])
    thread = history_to_bytes("a", [Step(thread=Thread("b", 258, bytes(32)), nodes=[NodeRow(0, 1, 0)], root=1)])
    for name, place, digits in (
        ("another first letter", 0, "74"), ("no name", 4, "00"), ("2^40 steps", 22, "01"), ("kind 0", 28, "00"), ("kind 5", 28, "05"),
        ("a size of 1025", 35, "0401"), ("1025 events", 31, "0401"),
    ):
        yield make_show_vector(name, over(data, place, bytes.fromhex(digits)), 1, 0)
    changes = (("a thread of step 0", 51, "0000"), ("two nodes where one is", 86, "02"), ("a node of a step that isn't there", 93, "01"))
    for name, place, digits in changes:
        yield make_show_vector(name, over(thread, place, bytes.fromhex(digits)), 1, 0)
    yield make_show_vector("cut", data[:-1], 1, 0)
    yield make_show_vector("a byte behind", data + b"\0", 1, 0)


@lru_cache(maxsize=None)
def histories() -> List[Dict[str, object]]:
    """Histories, each with the labels of archives, the datums and the authenticators of its steps."""
    plain = {line.name: [Step(list(events), time=line.times[place]) for place, events in enumerate(line.steps)] for line in (SHOP, TIMED)}
    files = {name: history_to_bytes(name, steps) for name, steps in plain.items()}
    lines = {"shop": SHOP, "clock": TIMED}
    for history in (bank(), lost(), ledger_and_notary()[1], *three_histories().family.values()):
        files[history.name], lines[history.name] = history.to_bytes(), history.line()
    return [
        {
            "service": name, "history": files[name].hex(), "archives": [label.hex() for label in line.archives],
            "datums": [datum.hex() for datum in line.datums], "authenticators": [auth.hex() for auth in line.auths],
        }
        for name, line in lines.items()
    ]


# ---- audits, histories taken over, atlases


def audited(name: str, proof: bytes, lines: bytes, *histories: bytes) -> Vector:
    """The vector of a proof that is held against histories."""
    files = numbered("history", histories)
    return make_vector(name, ["audit", "proof", "anchors", *files], {"proof": proof, "anchors": lines, **files})


def audits() -> Iterator[Vector]:
    """Proofs that stand, threads that the histories lack, and files that are none."""
    made = audited_chain()
    proof, lines, alpha, beta, gamma = (made[name] for name in ("proof", "lines", "alpha", "beta", "gamma"))
    yield audited("all histories", proof, lines, alpha, beta, gamma)
    yield audited("in another order", proof, lines, gamma, beta, alpha)
    yield audited("another event in a history", proof, lines, alpha, made["changed"], gamma)
    yield audited("a history left out", proof, lines, alpha, gamma)
    yield audited("a history that is too short", proof, lines, alpha, beta, history_to_bytes("gamma", three_histories().family["gamma"].steps[:1]))
    yield audited("one service twice", proof, lines, alpha, beta, beta)
    yield audited("an unsound history", proof, lines, alpha, history_to_bytes("beta", [Step([b"x"], root=1)]))
    yield audited("a history that is cut", proof, lines, alpha, beta[:-1], gamma[:-1])
    yield audited("a rejected proof", flipped(proof, -1), lines, alpha, beta, gamma)
    yield audited("no lines", proof, b"", alpha, beta, gamma)
    yield audited("a bad line", proof, b"x", alpha, beta, gamma)
    clock = next(str(row["history"]) for row in histories() if row["service"] == "clock")
    yield audited("an event with a time", event_of(TIMED, 3, 1, 5), anchors_to_bytes(line_at(TIMED, 5)), bytes.fromhex(clock))


def taken(name: str, history: bytes, lines: Lines, *proofs: bytes) -> Vector:
    """The vector of a history that is taken over by proofs."""
    files = numbered("proof", proofs)
    return make_vector(name, ["adopt", "history", "anchors", *files], {"history": history, "anchors": anchors_to_bytes(lines), **files})


def adoptions() -> Iterator[Vector]:
    """Histories that are taken over, and each fault."""
    history = lost()
    one, two = Peer("one", thread_of(history, 2)), Peer("two", thread_of(history, 5), ("far", 9, bytes(32)))
    file, lines, second, fifth, far = history.to_bytes(), {**one.anchor(), **two.anchor()}, one.proof(0), two.proof(0), two.proof(1)
    altered = with_events(history, 3, [b"another"])
    yield taken("as far as one received", file, lines, second)
    yield taken("as far as two received", file, lines, second, fifth)
    yield taken("an altered step", altered, lines, second, fifth)
    yield taken("a step altered behind", altered, lines, second)
    yield taken("a history that is too short", history_to_bytes("lost", history.steps[:4]), lines, fifth)
    yield taken("a proof of another service", file, lines, second, far)
    yield taken("a proof of another kind", file, {**lines, "shop": Anchor(13, SHOP.auths[13])}, event_of(SHOP, 5, 1, 13))
    yield taken("a proof that isn't accepted", file, one.anchor(), second, fifth)
    yield taken("no proof", file, lines, second, b"TWP1")
    yield taken("the first fault is told", altered, lines, fifth, far)
    yield taken("an unsound history", history_to_bytes("lost", [Step([b"x"], root=1)]), lines, second)


def reached(name: str, service: str, step: int, *files: bytes) -> Vector:
    """The vector of an atlas."""
    named = numbered("receipts", files)
    return make_vector(name, ["atlas", service, str(step), *named], named)


def atlases() -> Iterator[Vector]:
    """Where steps lead by receipts."""
    circle = [Hop("a", 5, "b", 6), Hop("b", 7, "c", 3), Hop("c", 4, "b", 2)]
    shared = [Hop("a", 1, "b", 2), Hop("a", 2, "b", 2), Hop("a", 2, "b", 1), Hop("b", 1, "a", 1), Hop("b", 2, "a", 9)]
    yield reached("two hops", "alpha", 2, receipts_of(CHAIN))
    yield reached("two hops, in two files", "alpha", 2, receipts_of(CHAIN[1:]), receipt_of(CHAIN[0]))
    yield reached("a step too late", "alpha", 4, receipts_of(CHAIN))
    yield reached("a circle", "a", 5, receipts_of(circle))
    yield reached("two legs to one step", "a", 2, receipts_of(shared))
    yield reached("no receipts", "alpha", 1, b"")
    yield reached("a receipt that is cut", "alpha", 2, receipts_of(CHAIN)[:-1])
    yield reached("a byte behind", "alpha", 2, receipts_of(CHAIN) + b"T")
    yield reached("a bad name", "alpha", 2, over(receipts_of(CHAIN), 116 + 4, b"_"))
