"""The links of a history's steps, and the path from a step down to a lower one.

docs/formats.md, "The skip list" and "Path". A step from 1 on has a link of each level l such that 2^l divides its number; it leads to
the step 2^l below. The greedy path takes the longest link that doesn't lead below its end, again and again.
"""

from __future__ import annotations

from dataclasses import dataclass
from typing import List, Tuple

from .fields import Reader
from .hashed_texts import authenticator, link_label


def top_level(step: int) -> int:
    """The greatest level of the step's links; -1 of step 0, which has none."""
    return (step & -step).bit_length() - 1


def other_labels(step: int) -> int:
    """How many links a step has besides one; none of step 0."""
    return max(0, top_level(step))


def link_level(start: int, end: int) -> int:
    """The level of the link that the greedy path to a lower step `end` takes at `start`."""
    level = top_level(start)
    while 2**level > start - end:
        level -= 1
    return level


def greedy_steps(start: int, end: int) -> List[int]:
    """The steps of the path, from the upper one to the lower one, both among them; `start` alone where `end` isn't below it."""
    steps = [start]
    while steps[-1] > end:
        steps.append(steps[-1] - 2 ** link_level(steps[-1], end))
    return steps


@dataclass(frozen=True)
class PathLink:
    """What a path tells of a link: the datum of the step that it leaves, and the labels of that step's other links, from level 0 on."""

    datum: bytes
    labels: Tuple[bytes, ...]


Path = Tuple[PathLink, ...]
"""The links of a path, from the upper step downwards."""


def path_to_bytes(path: Path) -> bytes:
    """Its bytes: at most 53,760."""
    return b"".join(link.datum + b"".join(link.labels) for link in path)


def read_path(read: Reader, top: int, step: int) -> Path:
    """The path from the top to the step, which stands next; it has no bytes where the step isn't below the top."""
    return tuple(PathLink(read.digest(), read.digests(top_level(start))) for start in greedy_steps(top, step)[:-1])


def passed(path: Path, top: int, step: int, bottom: bytes) -> List[Tuple[int, bytes]]:
    """The steps of the path, from the lower one upwards to the top, each with the authenticator that the path computes of it from that of the lower one."""
    found = [(step, bottom)]
    for start, link in zip(reversed(greedy_steps(top, step)[:-1]), reversed(path)):
        level = link_level(start, step)
        label = link_label(start, level, link.datum, found[-1][1])
        found.append((start, authenticator(start, [*link.labels[:level], label, *link.labels[level:]])))
    return found


def climbed(path: Path, top: int, step: int, bottom: bytes) -> bytes:
    """The authenticator of the top that the path computes from that of the step; the step's own where the path has no link."""
    return passed(path, top, step, bottom)[-1][1]
