"""The file of a store: its pages, and what the program keeps in them.

docs/formats.md, from "The store's pages" to "Step pages and event pages". The pages of an archive's tree are in `tree_pages`. A page
is read by its number in the store, since it names only pages below its own.
"""

from __future__ import annotations

from dataclasses import dataclass
from typing import List, Sequence, Tuple

from .events_files import sized
from .fields import LAST_STEP, LAST_TIME, MOST_COUNT, Malformed, Reader, big_endian, padded
from .hashed_texts import genesis
from .histories import Thread
from .paths import top_level
from .tree_pages import FIRST, PAGE, Child

PIECE = 4085
"""The most bytes of a step's stream of events in one page."""

MOST_STREAM = 69_632
"""The most bytes of a step's stream of events: each event behind its length."""

MOST_ROOT = 512
"""The most bytes of a root record."""

_LAST_PAGE = 2**48 - 1


def page(data: bytes) -> bytes:
    """The page that begins with these bytes, and zeros to its end."""
    return data.ljust(PAGE, b"\0")


GATE = page(b"\x01")
"""An open gate."""


@dataclass(frozen=True)
class Body:
    """A body: its generation, below 2^48; how many pages the store has, its first four among them, from 4 and below 2^48; and the root
    record, of at most 512 bytes."""

    generation: int
    used: int
    root: bytes

    def to_bytes(self) -> bytes:
        """Its 4,096 bytes."""
        return page(b"TWSTORE1" + big_endian(self.generation, 8) + big_endian(self.used, 8) + big_endian(len(self.root), 2) + self.root)


def read_body(data: bytes) -> Body:
    """The body that a page is; raises `Malformed` where it is none."""
    read = Reader(data, PAGE)
    read.magic(b"TWSTORE1")
    generation, used = read.number(8, 0, _LAST_PAGE), read.number(8, FIRST, _LAST_PAGE)
    root = read.take(read.number(2, 0, MOST_ROOT))
    read.zeros(PAGE)
    return Body(generation, used, root)


class NoStore(ValueError):
    """The bytes are no store: `slot` is that which fails, or None where there are fewer than four pages or no gate is open."""

    def __init__(self, slot: int | None) -> None:
        super().__init__(slot)
        self.slot = slot


def read_store(data: bytes) -> Tuple[int, Body]:
    """The slot that counts, 0 or 1, and its body, of the bytes of a store's file; raises `NoStore`."""
    pages = len(data) // PAGE
    slots = [slot for slot in (0, 1) if pages >= FIRST and data[slot * PAGE] == 1]
    bodies = []
    for slot in slots:
        try:
            bodies.append((read_body(data[(2 + slot) * PAGE : (3 + slot) * PAGE]), slot))
        except Malformed as bad:
            raise NoStore(slot) from bad
        if bodies[-1][0].used > pages:
            raise NoStore(slot)
    if not bodies:
        raise NoStore(None)
    if len(bodies) == 2 and bodies[0][0].generation == bodies[1][0].generation:
        raise NoStore(1)
    found, slot = max(bodies, key=lambda one: one[0].generation)
    return slot, found


def slot_of(commits: int) -> int:
    """The slot, 0 or 1, that counts in a store after so many commits behind its making."""
    return commits % 2


def store_file(last: Body, before: Body, commits: int, pages: Sequence[bytes]) -> bytes:
    """The whole file of a store at rest: both gates open, the body of its last commit in the slot that counts and the one before in the
    other, and its pages from page 4 on."""
    bodies = [last, before] if slot_of(commits) == 0 else [before, last]
    return b"".join([GATE, GATE, *(one.to_bytes() for one in bodies), *pages])


def time_bytes(time: int | None) -> bytes:
    """A time in seconds in eight bytes, where there is one."""
    return b"" if time is None else big_endian(time, 8)


@dataclass(frozen=True)
class ServiceRoot:
    """The root record of a service: 112 bytes, or 120 where a step has a time.

    The number of steps, the last one's authenticator and page; the root of the archive's tree, and how many threads it has; the greatest
    time in seconds, or None.
    """

    name: str
    steps: int
    authenticator: bytes
    page: int
    archive: Child
    threads: int
    time: int | None

    def to_bytes(self) -> bytes:
        """Its bytes."""
        last = padded(self.name) + big_endian(self.steps, 8) + self.authenticator + big_endian(self.page, 8)
        return last + big_endian(self.archive.page, 8) + self.archive.label + big_endian(self.threads, 8) + time_bytes(self.time)

    def may_stand(self, body: Body) -> bool:
        """Whether the record is allowed beside this body, whose pages it names."""
        has_pages = self.page < body.used and self.archive.page < body.used
        return has_pages and body.used <= FIRST + 64 * self.steps and body.generation <= self.steps + 1


def read_service_root(data: bytes) -> ServiceRoot:
    """The root record of a service that the bytes are; raises `Malformed` where they are none."""
    read = Reader(data, 120)
    name, steps, auth = read.name(), read.number(8, 0, LAST_STEP), read.digest()
    last = read.number(8, FIRST if steps else 0, _LAST_PAGE if steps else 0)
    archive = Child(read.number(8, 0, _LAST_PAGE), read.digest())
    if 0 < archive.page < FIRST:
        raise Malformed(16 + 8 + 32 + 8 + 7)
    threads = read.number(8, 1 if archive.page else 0, steps if archive.page else 0)
    time = read.number(8, 0, LAST_TIME) if steps and len(data) > 112 else None
    read.end()
    return ServiceRoot(name, steps, auth, last, archive, threads, time)


@dataclass(frozen=True)
class FollowerRoot:
    """The root record of a follower: 64 bytes. The last head's step, 0 for none, its authenticator, at step 0 the name's own,
    and its page, 0 for none."""

    name: str
    step: int
    authenticator: bytes
    page: int

    def to_bytes(self) -> bytes:
        """Its bytes."""
        return padded(self.name) + big_endian(self.step, 8) + self.authenticator + big_endian(self.page, 8)

    def may_stand(self, body: Body) -> bool:
        """Whether the record is allowed beside this body. That its page is one of the store's is found out where heads are told."""
        is_begun = self.step > 0 or self.authenticator == genesis(self.name)
        return is_begun and body.used <= FIRST + self.step and body.generation <= self.step + 1


def read_follower_root(data: bytes) -> FollowerRoot:
    """The root record of a follower that the bytes are; raises `Malformed` where they are none."""
    read = Reader(data, 64)
    name, step, auth = read.name(), read.number(8, 0, LAST_STEP), read.digest()
    last = read.number(8, 1 if step else 0, 2**64 - 1 if step else 0)
    read.end()
    return FollowerRoot(name, step, auth, last)


@dataclass(frozen=True)
class HeadPage:
    """The page of a head that a follower kept: its step, from 1 on, its authenticator, and the page of the head before, 0 for none, else
    below its own."""

    step: int
    authenticator: bytes
    before: int

    def to_bytes(self) -> bytes:
        """Its 4,096 bytes."""
        return page(b"\x04" + big_endian(self.step, 8) + self.authenticator + big_endian(self.before, 8))


def read_head_page(data: bytes, number: int) -> HeadPage:
    """The head page of this number; raises `Malformed` where it is none. That the heads lead on isn't looked at."""
    read = Reader(data, PAGE)
    read.byte((4,))
    found = HeadPage(read.number(8, 1, LAST_STEP), read.digest(), read.number(8, 0, number - 1))
    read.zeros(PAGE)
    return found


@dataclass(frozen=True)
class StepPage:
    """The page of a step: how many events it has, the bytes of their stream, and its first event page, 0 for none; the events' root; the
    root of the archive's tree; the thread that it received, or None; its authenticator; for each of its links, from level 0 on, the page
    and the authenticator of the step that it leads to; and its time in seconds, or None."""

    step: int
    count: int
    stream: int
    first: int
    event_root: bytes
    archive: Child
    thread: Thread | None
    authenticator: bytes
    links: Tuple[Tuple[int, bytes], ...]
    time: int | None

    def to_bytes(self) -> bytes:
        """Its 4,096 bytes."""
        kind = (1 if self.thread is None else 2) + (0 if self.time is None else 2)
        events = big_endian(self.count, 4) + big_endian(self.stream, 4) + big_endian(self.first, 8) + self.event_root
        thread = padded(self.thread.service) + big_endian(self.thread.step, 8) + self.thread.authenticator if self.thread else bytes(56)
        links = big_endian(len(self.links), 1) + b"".join(big_endian(number, 8) + auth for number, auth in self.links)
        archive = self.archive.label + big_endian(self.archive.page, 8)
        front = b"\x01" + big_endian(self.step, 8) + big_endian(kind, 1)
        return page(front + events + archive + thread + self.authenticator + links + time_bytes(self.time))


def read_step_page(data: bytes, number: int) -> StepPage:
    """The step page of this number; raises `Malformed` where it is none."""
    read = Reader(data, PAGE)
    read.byte((1,))
    step, kind = read.number(8, 1, LAST_STEP), read.byte((1, 2, 3, 4))
    is_thread = kind in (2, 4)
    count, stream = read.number(4, 0, 0 if is_thread else MOST_COUNT), read.number(4, 0, 0 if is_thread else MOST_STREAM)
    first = read.number(8, 1 if stream else 0, number - 1 if stream else 0)
    root, label, archive = read.digest(), read.digest(), read.number(8, 0, number - 1)
    thread = Thread(read.name(), read.number(8, 0, LAST_STEP), read.digest()) if is_thread else None
    if not is_thread:
        read.zeros_next(56)
    auth = read.digest()
    read.byte((top_level(step) + 1,))
    links = []
    for level in range(top_level(step) + 1):
        is_genesis = step - 2**level == 0
        links.append((read.number(8, 0 if is_genesis else 1, 0 if is_genesis else number - 1), read.digest()))
    time = read.number(8, 0, LAST_TIME) if kind > 2 else None
    read.zeros(PAGE)
    return StepPage(step, count, stream, first, root, Child(archive, label), thread, auth, tuple(links), time)


@dataclass(frozen=True)
class EventPage:
    """A page of a step's stream of events: the step, the page's number within it, from 0, and 4,085 bytes, of which the stream's end and zeros
    may be the last ones."""

    step: int
    number: int
    piece: bytes

    def to_bytes(self) -> bytes:
        """Its 4,096 bytes."""
        return page(b"\x02" + big_endian(self.step, 8) + big_endian(self.number, 2) + self.piece)


def read_event_page(data: bytes) -> EventPage:
    """The event page that a page is; raises `Malformed` where it is none.

    That its step and number are those of the step page that names it, and that zeros stand behind the stream, isn't looked at.
    """
    read = Reader(data, PAGE)
    read.byte((2,))
    found = EventPage(read.number(8, 1, LAST_STEP), read.number(2, 0, 65535), read.take(PIECE))
    read.end()
    return found


def event_pages(step: int, events: Sequence[bytes]) -> List[EventPage]:
    """The event pages of a step, none where its stream has no bytes."""
    stream = sized(events)
    return [EventPage(step, number, stream[place : place + PIECE].ljust(PIECE, b"\0")) for number, place in enumerate(range(0, len(stream), PIECE))]
