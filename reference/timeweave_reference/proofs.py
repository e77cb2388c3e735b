"""Proofs over one history: how they are read, written, judged and reported.

docs/formats.md, "Existence proof (kind 1)" and "Proofs of threads, of their absence and of links (kinds 3 to 5)"; what is checked of them
stands under "Proof that one event precedes another", in the row of a part. That kind, 2, is in `precedence`.
"""

from __future__ import annotations

from abc import ABC, abstractmethod
from dataclasses import dataclass
from typing import ClassVar, Iterable, Iterator, List, NamedTuple, Sequence

from .anchors import Anchors
from .archives import Ask, Entry, Key, TreeProof, absent, present, read_entry, read_tree_proof
from .event_trees import EventPart, read_event_part
from .fields import LAST_STEP, Reader, big_endian, padded
from .openings import Opening, read_opening
from .paths import Path, climbed, path_to_bytes, read_path

EXISTS, PRECEDES, THREAD, ABSENT, LINK = KINDS = range(1, 6)
"""The kinds of proofs, as their fifth byte has them."""

MOST_BYTES = 67_474
"""The most bytes of a proof over one history."""


# ---- what stands against a proof


class Reason(NamedTuple):
    """A reason that stands against a proof: its number, its name, and what it tells besides."""

    number: int
    name: str
    fields: str = ""

    def line(self) -> str:
        """The line of the answer."""
        return f"rejected {self.number} {self.name}{' ' if self.fields else ''}{self.fields}\n"


BAD_ORDER = Reason(2, "BadOrder")


def bad_path(part: int) -> Reason:
    """A path doesn't climb to the authenticator that is held."""
    return Reason(4, "BadPath", str(part))


def bad_opening(part: int) -> Reason:
    """An opening doesn't compute the authenticator that it is of."""
    return Reason(5, "BadOpening", str(part))


def bad_event(part: int) -> Reason:
    """An event doesn't compute its step's event root."""
    return Reason(6, "BadEvent", str(part))


def bad_tree(part: int) -> Reason:
    """A tree proof doesn't show what is claimed."""
    return Reason(7, "BadTree", str(part))


def lowest(reasons: Iterable[Reason]) -> Reason | None:
    """Of the reasons of the lowest number the first one, or None."""
    found = list(reasons)
    return min(found, key=lambda reason: reason.number) if found else None


def unbound(anchors: Anchors, service: str, top: int, step: int, path: Path, auth: bytes, part: int) -> Iterator[Reason]:
    """What stands against a path from an anchor of this top down to a step's authenticator."""
    held = anchors.get(service)
    if held is None or held[0] != top:
        yield Reason(3, "NotHeld", f"{service} {top}")
    elif climbed(path, top, step, auth) != held[1]:
        yield bad_path(part)


# ---- reports


def hex_or_dash(data: bytes) -> str:
    """The bytes in hexadecimal digits; `-` for none."""
    return data.hex() or "-"


def event_lines(service: str, step: int, event: EventPart, time: int | None) -> str:
    """The lines of an event, and of its step's time where it has one."""
    line = f"event {service} {step} {event.index} {hex_or_dash(event.event)}\n"
    return line if time is None else line + f"time {service} {step} {time}\n"


def thread_text(service: str, step: int, entry: Entry) -> str:
    """What is written where the archive after the step has the entry."""
    return f"accepted thread\nthread {service} {step} {entry.service} {entry.step} {entry.authenticator.hex()} {entry.archived}\n"


def absent_text(service: str, step: int, key: Key) -> str:
    """What is written where the archive after the step has no thread of this service and step."""
    return f"accepted absent\nabsent {service} {step} {key[0]} {key[1]}\n"


def link_text(service: str, step: int, top: int, auth: bytes) -> str:
    """What is written where the step has this authenticator."""
    return f"accepted link\nlink {service} {step} {top} {auth.hex()}\n"


# ---- proofs


def front_to_bytes(kind: int, service: str, step: int, top: int) -> bytes:
    """What proofs of the kinds 1 and 3 to 5 begin with: 37 bytes."""
    return b"TWP1" + big_endian(kind, 1) + padded(service) + big_endian(step, 8) + big_endian(top, 8)


class Proof(ABC):
    """A proof of any kind. `service`, `step` and `top` are those of its front: the top is the step of the anchor that it needs."""

    kind: ClassVar[int]
    service: str
    step: int
    top: int

    @abstractmethod
    def to_bytes(self) -> bytes:
        """Its bytes."""

    @abstractmethod
    def reasons(self, anchors: Anchors) -> Iterator[Reason]:
        """What stands against it under the anchors held; the reasons of one number in the order of its bytes."""

    @abstractmethod
    def report(self) -> str:
        """What is written where nothing stands against it."""

    def carried(self) -> List[Entry]:
        """The threads that it carries, which no anchor binds: none, but of kind 2."""
        return []


@dataclass(frozen=True)
class StepProof(Proof):
    """What proofs of the kinds 1, 3 and 4 begin with: the path from the top to the step, and the step's opening."""

    service: str
    step: int
    top: int
    path: Path
    opening: Opening

    def front(self) -> bytes:
        """Its bytes up to the end of the opening."""
        return front_to_bytes(self.kind, self.service, self.step, self.top) + path_to_bytes(self.path) + self.opening.to_bytes()

    def is_in_order(self) -> bool:
        """Whether its steps are in their order."""
        return self.step <= self.top

    @abstractmethod
    def own_reason(self) -> Reason | None:
        """What stands against its claim under the opening, or None."""

    def reasons(self, anchors: Anchors) -> Iterator[Reason]:
        """What stands against it."""
        if not self.is_in_order():
            yield BAD_ORDER
        yield from unbound(anchors, self.service, self.top, self.step, self.path, self.opening.authenticator(self.step), 0)
        own = self.own_reason()
        if own:
            yield own


@dataclass(frozen=True)
class ExistenceProof(StepProof):
    """Kind 1: an event stands in the step. At most 56,505 bytes."""

    event: EventPart
    kind: ClassVar[int] = EXISTS

    def to_bytes(self) -> bytes:
        """Its bytes."""
        return self.front() + self.event.to_bytes()

    def own_reason(self) -> Reason | None:
        """The event isn't the step's."""
        return None if self.event.root(self.opening.count) == self.opening.event_root else bad_event(0)

    def report(self) -> str:
        """The event, and the time that its step claims."""
        return "accepted exists\n" + event_lines(self.service, self.step, self.event, self.opening.time)


@dataclass(frozen=True)
class ThreadProof(StepProof):
    """Kind 3: the archive after the step has an entry. At most 67,474 bytes."""

    entry: Entry
    tree: TreeProof
    kind: ClassVar[int] = THREAD

    def to_bytes(self) -> bytes:
        """Its bytes."""
        return self.front() + self.entry.to_bytes() + self.tree.to_bytes()

    def is_in_order(self) -> bool:
        """The entry was archived up to the step, too."""
        return self.step <= self.top and self.entry.archived <= self.step

    def own_reason(self) -> Reason | None:
        """The archive doesn't have the entry."""
        return None if self.tree.proves(self.opening.archive_label, present(self.entry)) else bad_tree(0)

    def report(self) -> str:
        """The entry."""
        return thread_text(self.service, self.step, self.entry)


@dataclass(frozen=True)
class AbsenceProof(StepProof):
    """Kind 4: the archive after the step has no thread of a service's step, `absent_step`, from 1 on. At most 67,466 bytes."""

    absent_service: str
    absent_step: int
    tree: TreeProof
    kind: ClassVar[int] = ABSENT

    @property
    def ask(self) -> Ask:
        """The question that its tree proof answers."""
        return absent(self.absent_service, self.absent_step)

    def to_bytes(self) -> bytes:
        """Its bytes."""
        return self.front() + padded(self.absent_service) + big_endian(self.absent_step, 8) + self.tree.to_bytes()

    def own_reason(self) -> Reason | None:
        """The archive isn't shown to lack the thread."""
        return None if self.tree.proves(self.opening.archive_label, self.ask) else bad_tree(0)

    def report(self) -> str:
        """What is absent."""
        return absent_text(self.service, self.step, self.ask.key)


@dataclass(frozen=True)
class LinkProof(Proof):
    """Kind 5: a step, which may be 0, has an authenticator. At most 53,829 bytes."""

    service: str
    step: int
    top: int
    authenticator: bytes
    path: Path
    kind: ClassVar[int] = LINK

    def to_bytes(self) -> bytes:
        """Its bytes."""
        return front_to_bytes(self.kind, self.service, self.step, self.top) + self.authenticator + path_to_bytes(self.path)

    def reasons(self, anchors: Anchors) -> Iterator[Reason]:
        """What stands against it."""
        if self.step > self.top:
            yield BAD_ORDER
        yield from unbound(anchors, self.service, self.top, self.step, self.path, self.authenticator, 0)

    def report(self) -> str:
        """The step's authenticator."""
        return link_text(self.service, self.step, self.top, self.authenticator)


# ---- reading


def take_proof(read: Reader, kinds: Sequence[int]) -> Proof:
    """The proof of one of these kinds, of 1 and 3 to 5, that stands next."""
    read.magic(b"TWP1")
    kind = read.byte(kinds)
    service = read.name()
    step = read.number(8, 0 if kind == LINK else 1, LAST_STEP)
    top = read.number(8, 1, LAST_STEP)
    if kind == LINK:
        auth = read.digest()
        return LinkProof(service, step, top, auth, read_path(read, top, step))
    path = read_path(read, top, step)
    opening = read_opening(read, step, 1 if kind == EXISTS else 0)
    if kind == EXISTS:
        return ExistenceProof(service, step, top, path, opening, read_event_part(read, opening.count))
    if kind == THREAD:
        entry = read_entry(read)
        return ThreadProof(service, step, top, path, opening, entry, read_tree_proof(read, has_sides=True))
    asked = read.name(), read.number(8, 1, LAST_STEP)
    return AbsenceProof(service, step, top, path, opening, *asked, read_tree_proof(read, has_sides=False))


def read_proof_of(data: bytes, kinds: Sequence[int]) -> Proof:
    """The proof of one of these kinds that the bytes are; raises `Malformed` where they are none, a wrong kind at byte 4."""
    read = Reader(data, MOST_BYTES)
    proof = take_proof(read, kinds)
    read.end()
    return proof


def read_thread_proof(data: bytes) -> ThreadProof:
    """The proof of kind 3 that the bytes are; raises `Malformed` where they are none, a wrong kind at byte 4."""
    proof = read_proof_of(data, (THREAD,))
    assert isinstance(proof, ThreadProof)
    return proof


def read_link_proof(data: bytes) -> LinkProof:
    """The proof of kind 5 that the bytes are; raises `Malformed` where they are none, a wrong kind at byte 4."""
    proof = read_proof_of(data, (LINK,))
    assert isinstance(proof, LinkProof)
    return proof
