"""Proofs that an event precedes another, over the histories of several services: how they are read, written, judged and reported.

docs/formats.md, "Proof that one event precedes another (kind 2)". The hops stand from the second event's service backwards. Each is shown
by the archive after the step of which the opening stands before it.
"""

from __future__ import annotations

from dataclasses import dataclass
from typing import ClassVar, Iterator, List, Tuple

from .anchors import Anchors
from .archives import Entry, TreeProof, present, read_entry, read_tree_proof
from .event_trees import EventPart, read_event_part
from .fields import LAST_STEP, Reader, big_endian, padded
from .openings import Opening, read_opening
from .paths import Path, climbed, path_to_bytes, read_path
from .proofs import BAD_ORDER, PRECEDES, Proof, Reason, bad_event, bad_opening, bad_path, bad_tree, event_lines, unbound

MOST_HOPS = 64
"""The most hops of a proof."""

MOST_BYTES = 5_242_879
"""The most bytes of a proof."""


@dataclass(frozen=True)
class Hop:
    """A thread in an archive, and what leads on from it: the step of the anchor that binds it, or 0 where it is carried; the path from
    there to the thread's step; and that step's opening where another hop follows, else None."""

    entry: Entry
    tree: TreeProof
    bind: int
    path: Path
    opening: Opening | None

    def to_bytes(self) -> bytes:
        """Its bytes."""
        opening = self.opening.to_bytes() if self.opening else b""
        return self.entry.to_bytes() + self.tree.to_bytes() + big_endian(self.bind, 8) + path_to_bytes(self.path) + opening

    def reasons(self, anchors: Anchors, step: int, archive_label: bytes, part: int) -> Iterator[Reason]:
        """What stands against it as this part, under the archive of this label, which is that after this step."""
        entry = self.entry
        if entry.archived > step:
            yield BAD_ORDER
        if not self.tree.proves(archive_label, present(entry)):
            yield bad_tree(part)
        if self.bind:
            if self.bind < entry.step:
                yield BAD_ORDER
            yield from unbound(anchors, entry.service, self.bind, entry.step, self.path, entry.authenticator, part)
        if self.opening and self.opening.authenticator(entry.step) != entry.authenticator:
            yield bad_opening(part)


@dataclass(frozen=True)
class PrecedenceProof(Proof):
    """Kind 2: the event of the tail precedes that of the head.

    The head is of the second event: its service, step and top, the path from the top to the step, the step's opening, the event, and the
    opening of the step before, or None without hops. The tail is of the first event: its step, the path to it, its opening, the event.
    """

    service: str
    step: int
    top: int
    path: Path
    opening: Opening
    event: EventPart
    before: Opening | None
    hops: Tuple[Hop, ...]
    first_step: int
    first_path: Path
    first_opening: Opening
    first_event: EventPart
    kind: ClassVar[int] = PRECEDES

    @property
    def first_service(self) -> str:
        """The service of the first event: that of the last hop's thread, or without hops that of the second event."""
        return self.hops[-1].entry.service if self.hops else self.service

    @property
    def upper(self) -> int:
        """The step under which the first event stands: that of the last hop's thread, or without hops the one before the second event's."""
        return self.hops[-1].entry.step if self.hops else self.step - 1

    @property
    def upper_authenticator(self) -> bytes:
        """The authenticator of that step."""
        return self.hops[-1].entry.authenticator if self.hops else self.opening.before

    def to_bytes(self) -> bytes:
        """Its bytes."""
        head = padded(self.service) + big_endian(self.step, 8) + big_endian(self.top, 8) + path_to_bytes(self.path)
        before = self.before.to_bytes() if self.before else b""
        hops = b"".join(hop.to_bytes() for hop in self.hops)
        tail = big_endian(self.first_step, 8) + path_to_bytes(self.first_path) + self.first_opening.to_bytes() + self.first_event.to_bytes()
        front = b"TWP1" + big_endian(PRECEDES, 1) + big_endian(len(self.hops), 1)
        return front + head + self.opening.to_bytes() + self.event.to_bytes() + before + hops + tail

    def archives(self) -> List[Tuple[int, bytes]]:
        """For each hop the step and the label of the archive that is to show it."""
        shown = [(self.step - 1, self.before)] + [(hop.entry.step, hop.opening) for hop in self.hops]
        return [(step, opening.archive_label) for step, opening in shown if opening]

    def reasons(self, anchors: Anchors) -> Iterator[Reason]:
        """What stands against it: the rows "the head", "a hop" and "the tail" of the table of checks."""
        if self.step > self.top or self.hops and self.step < 2:
            yield BAD_ORDER
        yield from unbound(anchors, self.service, self.top, self.step, self.path, self.opening.authenticator(self.step), 0)
        if self.event.root(self.opening.count) != self.opening.event_root:
            yield bad_event(0)
        if self.before and (self.step < 2 or self.before.authenticator(self.step - 1) != self.opening.before):
            yield bad_opening(0)
        for part, (hop, (step, label)) in enumerate(zip(self.hops, self.archives()), 1):
            yield from hop.reasons(anchors, step, label, part)
        tail = len(self.hops) + 1
        if self.first_step > self.upper:
            yield BAD_ORDER
        bottom = self.first_opening.authenticator(self.first_step)
        if climbed(self.first_path, self.upper, self.first_step, bottom) != self.upper_authenticator:
            yield bad_path(tail)
        if self.first_event.root(self.first_opening.count) != self.first_opening.event_root:
            yield bad_event(tail)

    def carried(self) -> List[Entry]:
        """The threads that it carries, from the first event's service to the second's."""
        return [hop.entry for hop in reversed(self.hops) if not hop.bind]

    def report(self) -> str:
        """Both events, then the hops and the carried threads, each from the first event's service to the second's."""
        first = event_lines(self.first_service, self.first_step, self.first_event, self.first_opening.time)
        second = event_lines(self.service, self.step, self.event, self.opening.time)
        recorders = [self.service, *(hop.entry.service for hop in self.hops)]
        hops = [f"hop {hop.entry.service} {hop.entry.step} {by} {hop.entry.archived}\n" for by, hop in zip(recorders, self.hops)]
        carried = [f"carried {entry.service} {entry.step} {entry.authenticator.hex()}\n" for entry in self.carried()]
        return "".join(["accepted precedes\n", first, second, *reversed(hops), *carried])


def _read_hop(read: Reader, is_followed: bool) -> Hop:
    """The hop that stands next, behind which another one follows or none."""
    entry = read_entry(read)
    tree = read_tree_proof(read, has_sides=True)
    bind = read.number(8, 0, LAST_STEP)
    path = read_path(read, bind, entry.step)
    return Hop(entry, tree, bind, path, read_opening(read, entry.step, 0) if is_followed else None)


def read_precedence(data: bytes) -> PrecedenceProof:
    """The proof of kind 2 that the bytes are; raises `Malformed` where they are none."""
    read = Reader(data, MOST_BYTES)
    read.magic(b"TWP1" + big_endian(PRECEDES, 1))
    count = read.number(1, 0, MOST_HOPS)
    service, step, top = read.name(), read.number(8, 1, LAST_STEP), read.number(8, 1, LAST_STEP)
    path = read_path(read, top, step)
    opening = read_opening(read, step, 1)
    event = read_event_part(read, opening.count)
    before = read_opening(read, step - 1, 0) if count else None
    hops = tuple(_read_hop(read, number < count) for number in range(1, count + 1))
    upper = hops[-1].entry.step if hops else step - 1
    first_step = read.number(8, 1, LAST_STEP)
    first_path = read_path(read, upper, first_step)
    first_opening = read_opening(read, first_step, 1)
    first_event = read_event_part(read, first_opening.count)
    read.end()
    return PrecedenceProof(service, step, top, path, opening, event, before, hops, first_step, first_path, first_opening, first_event)
