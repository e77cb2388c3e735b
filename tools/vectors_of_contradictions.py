"""The vectors of files that contradict each other: a service received a thread, and left it out of its archive later, or in another history."""

from __future__ import annotations

from functools import lru_cache
from typing import Iterator, Sequence, Tuple

from vector import Lines, Vector, flipped, make_vector
from vectors_of_proofs import DIGEST

from timeweave_reference.anchors import Anchor, anchors_to_bytes
from timeweave_reference.archives import EMPTY, listed
from timeweave_reference.hashed_texts import digest
from timeweave_reference.histories import Step, existence_proof
from timeweave_reference.map_files import high_file, low_file
from timeweave_reference.recording import History
from timeweave_reference.services import absence_proof, link_proof, thread_proof

File = Tuple[bytes, Lines]
"""The bytes of a file, and the lines that it is judged under."""


@lru_cache(maxsize=None)
def keeper(is_honest: bool) -> History:
    """A history `bank` of six steps, which received step 3 of `mill` at its second one and step 9 at its fifth one. The keeper who isn't honest
    left the first out of the archive from step 4 on."""
    history = History("bank")
    history.append([b"opened"])
    history.receive("mill", 3, digest(b"mill"))
    history.append([b"paid"])
    history.add(Step([b"closed"]), history.trees[-1] if is_honest else EMPTY)
    history.receive("mill", 9, digest(b"mill again"))
    history.append([b"behind"])
    return history


def line_at(history: History, top: int) -> Lines:
    """A line of a history."""
    return {history.name: Anchor(top, history.line().auths[top])}


def thread(history: History, step: int, top: int, place: int = 0) -> File:
    """That the archive after a step has the entry of this place."""
    tree = history.trees[step]
    return thread_proof(history.line(), tree, step, top, listed(tree)[place]).to_bytes(), line_at(history, top)


def none(history: History, step: int, top: int, asked_step: int = 3, peer: str = "mill") -> File:
    """That the archive after a step has no thread of a step of `mill`."""
    return absence_proof(history.line(), history.trees[step], step, top, (peer, asked_step)).to_bytes(), line_at(history, top)


def low(history: History, step: int, top: int, peer: str = "mill") -> File:
    """What was received of `mill` before a step."""
    return low_file(history.line(), history.trees[step - 1], step, peer, top).to_bytes(), line_at(history, top)


def high(history: History, top: int, step: int, service: str = "mill") -> File:
    """Which step received a step of `mill` or a later one, up to a top."""
    return high_file(history.line(), history.trees[top], top, service, step).to_bytes(), line_at(history, top)


def link(history: History, step: int, top: int) -> bytes:
    """That a step of a history has its authenticator."""
    return link_proof(history.line(), step, top).to_bytes()


def pair(name: str, first: File, second: File, joined: bytes = b"") -> Vector:
    """The vector of two files, and a link or no bytes of one."""
    lines = [anchors_to_bytes(file[1]) for file in (first, second)]
    files = {"first": first[0], "first_anchors": lines[0], "second": second[0], "second_anchors": lines[1], "link": joined}
    return make_vector(name, ["contradict", *files], files)


def accepted() -> Iterator[Vector]:
    """Under one line, under two that a link joins, and under two that nothing joins."""
    false, true = keeper(False), keeper(True)
    yield pair("under one line", thread(false, 3, 6), none(false, 4, 6))
    yield pair("under one line, the absence first", none(false, 4, 6), thread(false, 3, 6))
    yield pair("under one line, and its own link", thread(false, 3, 6), none(false, 4, 6), link(false, 6, 6))
    yield pair("under two lines, joined", thread(false, 3, 3), none(false, 4, 4), link(false, 3, 4))
    yield pair("under two lines, joined, the later one first", none(false, 4, 5), thread(false, 2, 3), link(false, 3, 5))
    yield pair("under two lines, which nothing joins", thread(false, 3, 3), none(false, 4, 4))
    yield pair("two histories", thread(true, 4, 4), none(false, 4, 4))
    yield pair("two histories, at different steps", thread(true, 6, 6), none(false, 4, 5))
    yield pair("the step that received it itself", thread(true, 2, 2), none(false, 6, 6))
    yield pair("a low file that lacks it", thread(false, 3, 6), low(false, 5, 6))
    yield pair("a low file that has it", low(false, 4, 6), none(false, 4, 6))
    yield pair("a high file that lacks it", thread(false, 3, 6), high(false, 6, 2))
    yield pair("a high file without an entry", thread(false, 3, 6), high(false, 4, 1))
    yield pair("a high file that has it", high(false, 3, 1), none(false, 4, 6), link(false, 3, 6))
    yield pair("two map files", low(false, 4, 6), high(false, 4, 3), link(false, 4, 6))


def rejected() -> Iterator[Vector]:
    """Files that don't contradict each other, links that don't join, files that aren't accepted, and lines that are none."""
    false, true = keeper(False), keeper(True)
    good = thread(false, 3, 6), none(false, 4, 6)
    yield pair("an absence before it was received", thread(false, 3, 6), none(false, 1, 6))
    yield pair("another step", thread(false, 3, 6), none(false, 4, 6, 4))
    yield pair("another peer", thread(false, 3, 6), none(false, 4, 6, 3, "mil"))
    yield pair("two threads", thread(false, 3, 6), thread(false, 2, 6))
    yield pair("two absences", none(false, 4, 6), none(false, 1, 6))
    yield pair("a low file before it was received", thread(false, 3, 6), low(false, 2, 6))
    yield pair("a low file of another peer", thread(false, 3, 6), low(false, 5, 6, "nobody"))
    yield pair("a high file of a later step", thread(false, 3, 6), high(false, 6, 4))
    yield pair("a high file that has it too", thread(true, 3, 6), high(true, 6, 1))
    other = History("other")
    other.receive("mill", 3, digest(b"mill"))
    yield pair("another service", thread(other, 1, 1), none(false, 4, 6))
    yield pair("no conflict, and a link that is none", thread(false, 3, 6), none(false, 1, 6), b"TWP1")
    for name, bytes_of_link in (
        ("a link of other steps", link(false, 2, 4)), ("a link to the earlier line's step in another history", link(true, 3, 4)),
        ("a changed link", flipped(link(false, 3, 4), -1)), ("a link that is cut", link(false, 3, 4)[:-1]), ("a thread as a link", good[0][0]),
    ):
        yield pair(name, thread(false, 3, 3), none(false, 4, 4), bytes_of_link)
    yield pair("a link between two histories", thread(true, 4, 4), none(false, 4, 4), link(true, 4, 4))
    yield pair("no line of the first", (good[0][0], {}), good[1])
    yield pair("another line of the first", (good[0][0], {"bank": Anchor(6, DIGEST)}), good[1])
    yield pair("no line of the second", good[0], (good[1][0], {}))
    yield pair("another tree of the first", (flipped(good[0][0], -1), good[0][1]), good[1])
    yield pair("both bad: the first is told", (good[0][0], {}), (b"", {}))
    yield pair("a step above its top", (thread(false, 3, 2)[0], line_at(false, 2)), good[1])
    yield pair("a second one that is cut", good[0], (good[1][0][:-1], good[1][1]))
    event = existence_proof(false.line(), 1, 0, 6).to_bytes()
    yield pair("a proof of an event", (event, line_at(false, 6)), good[1])
    yield pair("a link for a file", good[0], (link(false, 3, 6), line_at(false, 6)))
    yield pair("a low file of step 1", good[0], low(false, 1, 6))
    yield from bad_lines(good)


def bad_lines(good: Sequence[File]) -> Iterator[Vector]:
    """Lines that are none, which are told before all else."""
    for name, first, second in (("of the first", b"bank", None), ("of the second", None, b"bank 6"), ("of both", b"x", b"x")):
        lines = [other if other is not None else anchors_to_bytes(file[1]) for file, other in zip(good, (first, second))]
        files = {"first": b"", "first_anchors": lines[0], "second": b"", "second_anchors": lines[1], "link": b""}
        yield make_vector(f"bad lines {name}", ["contradict", *files], files)


def contradictions() -> Iterator[Vector]:
    """All of them."""
    yield from accepted()
    yield from rejected()
