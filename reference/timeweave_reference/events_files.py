"""Events files: the events of a step, as a service is given them.

docs/formats.md, "Events file".
"""

from __future__ import annotations

from typing import List, Sequence

from .fields import Malformed, Reader, big_endian

MOST_BYTES = 1_048_576
"""The most bytes of an events file."""

_ANY = 2**32 - 1


def read_events(data: bytes) -> List[bytes]:
    """The events of a file; raises `Malformed` where it is none, of a longer one with the limit as its place."""
    if len(data) > MOST_BYTES:
        raise Malformed(MOST_BYTES)
    read = Reader(data, MOST_BYTES)
    read.magic(b"TWE1")
    events = []
    for _ in range(read.number(4, 0, _ANY)):
        events.append(read.take(read.number(4, 0, _ANY)))
    read.end()
    return events


def events_to_bytes(events: Sequence[bytes]) -> bytes:
    """The file of these events."""
    return b"TWE1" + big_endian(len(events), 4) + sized(events)


def sized(events: Sequence[bytes]) -> bytes:
    """Each event behind its length in four bytes."""
    return b"".join(big_endian(len(event), 4) + event for event in events)
