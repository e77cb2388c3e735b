"""Messages: what a service hands to the one that is to receive its last step.

docs/formats.md, "Message".
"""

from __future__ import annotations

from dataclasses import dataclass

from .fields import LAST_STEP, Reader, big_endian, padded
from .paths import Path, climbed, path_to_bytes, read_path
from .timelines import Timeline

MOST_BYTES = 53_828
"""The most bytes of a message."""


@dataclass(frozen=True)
class Message:
    """A service's step, from 1 on, with its authenticator; an earlier step or the same, `since`; and the path between the two."""

    service: str
    step: int
    authenticator: bytes
    since: int
    path: Path

    def to_bytes(self) -> bytes:
        """Its bytes."""
        front = b"TWT1" + padded(self.service) + big_endian(self.step, 8) + self.authenticator + big_endian(self.since, 8)
        return front + path_to_bytes(self.path)

    def leads_from(self, bottom: bytes) -> bool:
        """Whether its path climbs from this authenticator of the earlier step to the one that it tells."""
        return climbed(self.path, self.step, self.since, bottom) == self.authenticator


def read_message(data: bytes) -> Message:
    """The message that the bytes are; raises `Malformed` where they are none."""
    read = Reader(data, MOST_BYTES)
    read.magic(b"TWT1")
    service, step, auth = read.name(), read.number(8, 1, LAST_STEP), read.digest()
    since = read.number(8, 0, step)
    path = read_path(read, step, since)
    read.end()
    return Message(service, step, auth, since, path)


def message_of(line: Timeline, step: int, since: int) -> Message:
    """The message of a step of a history, from 1 on, as its last one, since that step or an earlier one, from 0 on."""
    return Message(line.name, step, line.auths[step], since, line.path(step, since))
