"""Trees of events, as in RFC 6962, sections 2.1 and 2.1.1; and the event part of a proof.

docs/formats.md, "The tree of events" and "Event part".
"""

from __future__ import annotations

from dataclasses import dataclass
from typing import List, Sequence, Tuple

from .fields import MOST_EVENT, Reader, big_endian
from .hashed_texts import NO_EVENTS, event_leaf, event_node


def event_root(events: Sequence[bytes]) -> bytes:
    """The root of a step's events, in their order; of none the digest of no bytes."""
    whole: List[bytes] = []
    for number, event in enumerate(events, 1):
        whole.append(event_leaf(event))
        # As many whole trees of equal size end here as the number is divisible by 2, again and again.
        while number % 2 == 0:
            right, left = whole.pop(), whole.pop()
            whole.append(event_node(left, right))
            number //= 2
    root = whole.pop() if whole else NO_EVENTS
    while whole:
        root = event_node(whole.pop(), root)
    return root


def left_size(count: int) -> int:
    """How many of `count` events, 2 or more, stand on the left: the greatest power of two below the count."""
    return 1 << ((count - 1).bit_length() - 1)


def ways_down(count: int, index: int) -> List[Tuple[int, int, bool]]:
    """The way from the root of `count` events down to that of the index, from 0: for each node the first of its events, how many it has,
    and whether the way goes left there."""
    ways, first = [], 0
    while count > 1:
        left = left_size(count)
        goes_left = index - first < left
        ways.append((first, count, goes_left))
        first, count = (first, left) if goes_left else (first + left, count - left)
    return ways


def audit_path(events: Sequence[bytes], index: int) -> Tuple[bytes, ...]:
    """The labels beside the way of the event of this index, from 0, from the leaf upwards."""
    path = []
    for first, count, goes_left in reversed(ways_down(len(events), index)):
        middle = first + left_size(count)
        path.append(event_root(events[middle : first + count] if goes_left else events[first:middle]))
    return tuple(path)


@dataclass(frozen=True)
class EventPart:
    """An event, its index in its step, from 0, and the labels of its audit path, from the leaf upwards."""

    index: int
    event: bytes
    path: Tuple[bytes, ...]

    def root(self, count: int) -> bytes:
        """The root of `count` events that it computes."""
        label = event_leaf(self.event)
        for (_, _, goes_left), beside in zip(reversed(ways_down(count, self.index)), self.path):
            label = event_node(label, beside) if goes_left else event_node(beside, label)
        return label

    def to_bytes(self) -> bytes:
        """Its bytes in a proof."""
        return big_endian(self.index, 4) + big_endian(len(self.event), 4) + self.event + b"".join(self.path)


def event_part(events: Sequence[bytes], index: int) -> EventPart:
    """The event part of one of a step's events."""
    return EventPart(index, events[index], audit_path(events, index))


def read_event_part(read: Reader, count: int) -> EventPart:
    """The event part that stands next, behind the opening of a step of `count` events, 1 or more."""
    index = read.number(4, 0, count - 1)
    event = read.take(read.number(4, 0, MOST_EVENT))
    return EventPart(index, event, read.digests(len(ways_down(count, index))))
