"""Lines, each the authenticator of a step of a service, and files of them, by which proofs are judged.

docs/formats.md, "Anchors file".
"""

from __future__ import annotations

import re
from typing import Dict, Mapping, NamedTuple

from .fields import LAST_STEP, Malformed

MOST_ANCHORS = 64
"""The most lines of an anchors file."""

MOST_BYTES = MOST_ANCHORS * (16 + 1 + 13 + 1 + 64 + 1)
"""The most bytes of an anchors file."""

_LINE = re.compile(rb"([a-z0-9-]{1,16}) ([1-9][0-9]{0,12}) ([0-9a-fA-F]{64})")


class Anchor(NamedTuple):
    """A step, from 1 on, and the authenticator that is held of it; a follower before its first head has 0."""

    step: int
    authenticator: bytes


Anchors = Mapping[str, Anchor]
"""The anchors that are held, one a service, by the services' names."""


def read_anchors(data: bytes) -> Dict[str, Anchor]:
    """The anchors of a file, in the order of its lines.

    Raises `Malformed` with the number of the first line, from 1, that can't follow those before it.
    """
    anchors: Dict[str, Anchor] = {}
    data = data[: MOST_BYTES + 1]
    for number, line in enumerate((data[:-1] if data.endswith(b"\n") else data).split(b"\n") if data else (), 1):
        fields = _LINE.fullmatch(line)
        if not fields or number > MOST_ANCHORS:
            raise Malformed(number)
        name, step = fields[1].decode(), int(fields[2])
        if step > LAST_STEP or name in anchors:
            raise Malformed(number)
        anchors[name] = Anchor(step, bytes.fromhex(fields[3].decode()))
    return anchors


def anchors_to_bytes(anchors: Anchors) -> bytes:
    """The file of these anchors."""
    return "".join(f"{name} {step} {auth.hex()}\n" for name, (step, auth) in anchors.items()).encode()
