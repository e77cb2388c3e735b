"""The opening of a step: what its authenticator is made of.

docs/formats.md, "Opening".
"""

from __future__ import annotations

from dataclasses import dataclass
from typing import Tuple

from .fields import Reader, count_and_time
from .hashed_texts import authenticator, link_label, step_datum
from .paths import other_labels


@dataclass(frozen=True)
class Opening:
    """The fields of an opening: `time` is in seconds, or None; `before` is the authenticator of the step before; `labels` are those of
    the step's links from level 1 on."""

    event_root: bytes
    archive_label: bytes
    count: int
    time: int | None
    before: bytes
    labels: Tuple[bytes, ...]

    def authenticator(self, step: int) -> bytes:
        """The authenticator that it computes of the step that it is of."""
        datum = step_datum(self.event_root, self.archive_label, self.count, self.time)
        return authenticator(step, [link_label(step, 0, datum, self.before), *self.labels])

    def to_bytes(self) -> bytes:
        """Its bytes: 100, 8 more with a time, and 32 more for each label."""
        return self.event_root + self.archive_label + count_and_time(self.count, self.time) + self.before + b"".join(self.labels)


def read_opening(read: Reader, step: int, least: int) -> Opening:
    """The opening of the step that stands next, whose count of events is `least`, 0 or 1, at least."""
    root, archive = read.digest(), read.digest()
    count, time = read.count_and_time(least)
    return Opening(root, archive, count, time, read.digest(), read.digests(other_labels(step)))
