"""Map files: between which steps of a peer a step of a service lies.

docs/formats.md, "Map files (kinds 6 and 7)".
"""

from __future__ import annotations

from dataclasses import dataclass
from typing import Iterator

from .anchors import Anchors
from .answers import ACCEPTED, REJECTED, Answer, answer_text
from .archives import WRONG, Ask, Question, Shown, Tree, TreeProof, read_tree_proof, tree_proof
from .fields import LAST_STEP, Reader, big_endian, padded
from .openings import Opening, read_opening
from .paths import Path, path_to_bytes, read_path
from .proofs import BAD_ORDER, Reason, bad_tree, lowest, unbound
from .timelines import Timeline

LOW, HIGH = 6, 7
"""The kinds of map files, as their fifth byte has them."""

MOST_LOW, MOST_HIGH = 67_458, 13_698
"""The most bytes of a low and of a high file."""


def low_ask(peer: str) -> Ask:
    """The peer's last thread: none has a step of 2^40."""
    return Ask(Question.BELOW, (peer, LAST_STEP + 1))


def high_ask(service: str, step: int) -> Ask:
    """The service's first thread of the step or of a later one."""
    return Ask(Question.ABOVE, (service, step - 1))


@dataclass(frozen=True)
class Before:
    """What a low file shows of the step before its own: the path to it from the top, its opening, and the tree proof of its archive."""

    path: Path
    opening: Opening
    tree: TreeProof


@dataclass(frozen=True)
class LowFile:
    """Kind 6: what a service, before its step, had received of a peer; `before` is None of step 1. `top` is the step of its anchor. Both
    steps are from 1 on."""

    service: str
    step: int
    peer: str
    top: int
    before: Before | None

    def to_bytes(self) -> bytes:
        """Its bytes."""
        front = b"TWP1" + big_endian(LOW, 1) + padded(self.service) + big_endian(self.step, 8) + padded(self.peer) + big_endian(self.top, 8)
        before = self.before
        return front + path_to_bytes(before.path) + before.opening.to_bytes() + before.tree.to_bytes() if before else front

    def show_nearest(self) -> Shown:
        """What its tree proof shows; of step 1 that there is no thread."""
        return self.before.tree.shows(self.before.opening.archive_label, low_ask(self.peer)) if self.before else Shown("Nearest")

    def low(self) -> int:
        """The greatest step of the peer that was received before the step, or 0."""
        nearest = self.show_nearest().nearest
        return nearest.step if nearest and nearest.service == self.peer else 0

    def reasons(self, anchors: Anchors) -> Iterator[Reason]:
        """What stands against it."""
        if self.step > self.top:
            yield BAD_ORDER
        if not self.before:
            if self.service not in anchors or anchors[self.service][0] != self.top:
                yield Reason(3, "NotHeld", f"{self.service} {self.top}")
            return
        bottom = self.before.opening.authenticator(self.step - 1)
        yield from unbound(anchors, self.service, self.top, self.step - 1, self.before.path, bottom, 0)
        if self.show_nearest() == WRONG:
            yield bad_tree(0)


@dataclass(frozen=True)
class HighFile:
    """Kind 7: at which step a peer, up to its step `top`, first received the step of a service or a later one; both are from 1 on."""

    peer: str
    top: int
    service: str
    step: int
    opening: Opening
    tree: TreeProof

    def to_bytes(self) -> bytes:
        """Its bytes."""
        front = b"TWP1" + big_endian(HIGH, 1) + padded(self.peer) + big_endian(self.top, 8) + padded(self.service) + big_endian(self.step, 8)
        return front + self.opening.to_bytes() + self.tree.to_bytes()

    def show_nearest(self) -> Shown:
        """What its tree proof shows."""
        return self.tree.shows(self.opening.archive_label, high_ask(self.service, self.step))

    def high(self) -> int | None:
        """The step of the peer that received it, or None."""
        nearest = self.show_nearest().nearest
        return nearest.archived if nearest and nearest.service == self.service else None

    def reasons(self, anchors: Anchors) -> Iterator[Reason]:
        """What stands against it."""
        yield from unbound(anchors, self.peer, self.top, self.top, (), self.opening.authenticator(self.top), 1)
        if self.show_nearest() == WRONG:
            yield bad_tree(1)


def read_low(data: bytes) -> LowFile:
    """The low file that the bytes are; raises `Malformed` where they are none, a wrong kind at byte 4."""
    read = Reader(data, MOST_LOW)
    read.magic(b"TWP1" + big_endian(LOW, 1))
    service, step = read.name(), read.number(8, 1, LAST_STEP)
    peer, top = read.name(), read.number(8, 1, LAST_STEP)
    before = None
    if step > 1:
        path = read_path(read, top, step - 1)
        before = Before(path, read_opening(read, step - 1, 0), read_tree_proof(read, has_sides=False))
    read.end()
    return LowFile(service, step, peer, top, before)


def read_high(data: bytes) -> HighFile:
    """The high file that the bytes are; raises `Malformed` where they are none, a wrong kind at byte 4."""
    read = Reader(data, MOST_HIGH)
    read.magic(b"TWP1" + big_endian(HIGH, 1))
    peer, top = read.name(), read.number(8, 1, LAST_STEP)
    service, step = read.name(), read.number(8, 1, LAST_STEP)
    opening = read_opening(read, top, 0)
    tree = read_tree_proof(read, has_sides=False)
    read.end()
    return HighFile(peer, top, service, step, opening, tree)


def check_map(low: LowFile, high: HighFile, anchors: Anchors) -> Answer:
    """What is answered of two map files under anchors."""
    if (low.service, low.step, low.peer) != (high.service, high.step, high.peer):
        return answer_text(REJECTED, "rejected Gap 2\n")
    found = lowest([*low.reasons(anchors), *high.reasons(anchors)])
    if found:
        return answer_text(REJECTED, found.line())
    bound = high.high()
    return answer_text(ACCEPTED, f"accepted map\nlow {low.low()}\nhigh {'none' if bound is None else bound}\nupto {high.top}\n")


# ---- making


def _gap(tree: Tree, ask: Ask) -> TreeProof:
    """The tree proof of a search, which each tree has."""
    proof = tree_proof(tree, ask)
    assert proof is not None
    return proof


def low_file(line: Timeline, before: Tree, step: int, peer: str, top: int) -> LowFile:
    """The low file that a history gives of its step under a top; `before` is its archive's tree after the step before."""
    if step == 1:
        return LowFile(line.name, step, peer, top, None)
    return LowFile(line.name, step, peer, top, Before(line.path(top, step - 1), line.opening(step - 1), _gap(before, low_ask(peer))))


def high_file(line: Timeline, tree: Tree, top: int, service: str, step: int) -> HighFile:
    """The high file that a peer's history gives up to a top, after which its archive is this tree, of the step of a service."""
    return HighFile(line.name, top, service, step, line.opening(top), _gap(tree, high_ask(service, step)))
