"""Files that contradict each other: a service broke a rule of histories, or showed two of them.

docs/definitions.md, "Files that contradict each other".
"""

from __future__ import annotations

from typing import Sequence, Tuple

from .anchors import Anchor, Anchors, read_anchors
from .answers import ACCEPTED, REJECTED, Answer, answer_text, unreadable
from .archive_facts import Facts, judge_file
from .broken_rules import broken_rule
from .evidence import read_evidence
from .fields import Malformed
from .paths import climbed
from .proofs import Reason, read_link_proof


def joins(link: bytes, service: str, one: Anchor, other: Anchor) -> bool:
    """Whether the bytes are those of a proof of a step's authenticator that leads from the later of two lines down to the earlier one."""
    lower, upper = (one, other) if one.step <= other.step else (other, one)
    try:
        proof = read_link_proof(link)
    except Malformed:
        return False
    if (proof.service, proof.step, proof.top, proof.authenticator) != (service, lower.step, upper.step, lower.authenticator):
        return False
    return climbed(proof.path, proof.top, proof.step, proof.authenticator) == upper.authenticator


def _answer(one: Facts, other: Facts, link: bytes) -> Answer:
    """What is answered of two accepted files and the link between their lines."""
    broken = broken_rule(one, other)
    if not broken:
        return answer_text(REJECTED, Reason(11, "NoConflict").line())
    if link and not joins(link, one.service, one.line, other.line):
        return answer_text(REJECTED, Reason(12, "BadLink").line())
    head = "accepted broken-rule" if link or one.line == other.line else "accepted broken-rule-or-fork"
    return answer_text(ACCEPTED, "".join(f"{line}\n" for line in (head, *broken.lines())))


def _of_files(files: Sequence[Tuple[bytes, Anchors]], link: bytes) -> Answer:
    """What is answered of two files, each under its anchors, and of the link between their lines."""
    said = []
    for number, (data, anchors) in enumerate(files, 1):
        found = judge_file(data, anchors)
        if isinstance(found, Reason):
            return answer_text(REJECTED, Reason(10, "Part", f"{number} {found.number}").line())
        said.append(found)
    one, other = said
    return _answer(one, other, link)


def contradict(first: bytes, first_anchors: bytes, second: bytes, second_anchors: bytes, link: bytes = b"") -> Answer:
    """What is answered of two files, each judged under the lines of an anchors file of its own, and of the link between their lines."""
    files = []
    for name, data, lines in (("first_anchors", first, first_anchors), ("second_anchors", second, second_anchors)):
        try:
            files.append((data, read_anchors(lines)))
        except Malformed as bad:
            return unreadable(name, "line", bad.place)
    return _of_files(files, link)


def receiver(evidence: bytes, anchors: bytes, link: bytes = b"") -> Answer:
    """What is answered of both proofs of evidence of a fork, under one list of lines: whether one service received both threads, and broke a
    rule by it. Whether they show a fork isn't asked."""
    try:
        held = read_anchors(anchors)
    except Malformed as bad:
        return unreadable("anchors", "line", bad.place)
    try:
        shown = read_evidence(evidence)
    except Malformed as bad:
        return answer_text(REJECTED, Reason(1, "Malformed", str(bad.place)).line())
    return _of_files([(shown.first.to_bytes(), held), (shown.second.to_bytes(), held)], link)
