"""Evidence of a fork: two archives have threads of one service that no history of it has both.

docs/formats.md, "Evidence of a fork".
"""

from __future__ import annotations

from dataclasses import dataclass

from .anchors import Anchors
from .answers import ACCEPTED, REJECTED, Answer, answer_text
from .archives import Entry
from .fields import Malformed, Reader
from .paths import Path, climbed, path_to_bytes, read_path
from .proofs import THREAD, LinkProof, Reason, ThreadProof, lowest, take_proof

MOST_BYTES = 188_744
"""The most bytes of evidence."""


@dataclass(frozen=True)
class Evidence:
    """Proofs of two threads; the authenticator, `bottom`, of the first one's step in the history of the second; and the path from the
    second one's step down to it."""

    first: ThreadProof
    second: ThreadProof
    bottom: bytes
    path: Path

    def to_bytes(self) -> bytes:
        """Its bytes."""
        return b"TWV1" + self.first.to_bytes() + self.second.to_bytes() + self.bottom + path_to_bytes(self.path)

    def reason(self, anchors: Anchors) -> Reason | None:
        """The first reason that stands against it, in the order of their numbers, or None."""
        for number, proof in enumerate((self.first, self.second), 1):
            found = lowest(proof.reasons(anchors))
            if found:
                return Reason(10, "Part", f"{number} {found.number}")
        lower, upper = self.first.entry, self.second.entry
        if not is_in_order(lower, upper) or self.bottom == lower.authenticator:
            return Reason(11, "NoConflict")
        if climbed(self.path, upper.step, lower.step, self.bottom) != upper.authenticator:
            return Reason(12, "BadLink")
        return None


def is_in_order(lower: Entry, upper: Entry) -> bool:
    """Whether two threads are of one service, and the first isn't of the later step."""
    return lower.service == upper.service and lower.step <= upper.step


def _take_thread(read: Reader) -> ThreadProof:
    """The proof of a thread that stands next."""
    proof = take_proof(read, (THREAD,))
    assert isinstance(proof, ThreadProof)
    return proof


def read_evidence(data: bytes) -> Evidence:
    """The evidence that the bytes are; raises `Malformed` where they are none."""
    read = Reader(data, MOST_BYTES)
    read.magic(b"TWV1")
    first, second = _take_thread(read), _take_thread(read)
    bottom = read.digest()
    path = read_path(read, second.entry.step, first.entry.step)
    read.end()
    return Evidence(first, second, bottom, path)


def _line(which: str, proof: ThreadProof) -> str:
    """The line of a thread, who received it and at which step."""
    entry = proof.entry
    return f"{which} {entry.service} {entry.step} {entry.authenticator.hex()} {proof.service} {entry.archived}\n"


def check_fork(data: bytes, anchors: Anchors) -> Answer:
    """What is answered of the bytes of evidence under anchors."""
    try:
        evidence = read_evidence(data)
    except Malformed as bad:
        return answer_text(REJECTED, Reason(1, "Malformed", str(bad.place)).line())
    reason = evidence.reason(anchors)
    if reason:
        return answer_text(REJECTED, reason.line())
    return answer_text(ACCEPTED, "accepted fork\n" + _line("first", evidence.first) + _line("second", evidence.second))


def accused(first: ThreadProof, second: ThreadProof, link: LinkProof | None = None) -> Evidence | int:
    """The evidence that two proofs of threads and a link make, or the number, from 1, of the part that doesn't fit."""
    lower, upper = first.entry, second.entry
    if not is_in_order(lower, upper) or link is None and lower.step != upper.step:
        return 2
    if link is None:
        return Evidence(first, second, upper.authenticator, ())
    if (link.service, link.step, link.top) != (lower.service, lower.step, upper.step):
        return 3
    return Evidence(first, second, link.authenticator, link.path)


def accuse(first: ThreadProof, second: ThreadProof, link: LinkProof | None = None) -> Answer:
    """What is answered of these parts: the bytes of the evidence, or the number of the part that doesn't fit."""
    made = accused(first, second, link)
    return answer_text(REJECTED, f"rejected Gap {made}\n") if isinstance(made, int) else Answer(ACCEPTED, made.to_bytes())
