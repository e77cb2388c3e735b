"""The texts that are hashed, and their digests.

docs/formats.md, "Hashed texts": each function here is a row of its table. A digest is that of SHA-256, 32 bytes.
"""

from __future__ import annotations

from hashlib import sha256
from typing import Sequence

from .fields import big_endian, padded


def digest(text: bytes) -> bytes:
    """SHA-256 of FIPS 180-4."""
    return sha256(text).digest()


def genesis(name: str) -> bytes:
    """The authenticator of step 0 of the service of this name."""
    return digest(b"\x10" + padded(name))


def link_label(step: int, level: int, datum: bytes, below: bytes) -> bytes:
    """The label of the link of `level` of a step from 1 on with this datum; `below` is the authenticator of step - 2^level."""
    return digest(b"\x11" + big_endian(step, 8) + big_endian(level, 1) + datum + below)


def authenticator(step: int, labels: Sequence[bytes]) -> bytes:
    """The authenticator of a step from 1 on whose links have these labels, from level 0 on."""
    return digest(b"\x12" + big_endian(step, 8) + big_endian(len(labels), 1) + b"".join(labels))


def step_datum(event_root: bytes, archive_label: bytes, count: int, time: int | None) -> bytes:
    """The datum of a step of `count` events, and of its time in seconds, or None."""
    held = event_root + archive_label + big_endian(count, 4)
    return digest(b"\x13" + held if time is None else b"\x16" + held + big_endian(time, 8))


EMPTY_ARCHIVE = digest(b"\x14")
"""The label of the archive without entries."""


def node_text(left: bytes, entry: bytes, right: bytes) -> bytes:
    """The text of a node of an archive's tree: the labels of its sides, and between them the 64 bytes of its entry."""
    return b"\x15" + left + entry + right


def event_leaf(event: bytes) -> bytes:
    """The label of an event, of at most 1,024 bytes (RFC 6962, section 2.1)."""
    return digest(b"\x00" + event)


def event_node(left: bytes, right: bytes) -> bytes:
    """The label of a node of a tree of events, from the labels of its sides (RFC 6962, section 2.1)."""
    return digest(b"\x01" + left + right)


NO_EVENTS = digest(b"")
"""The event root of a step without events."""
