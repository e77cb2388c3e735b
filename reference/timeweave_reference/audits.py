"""Audits: an accepted proof held against whole histories.

docs/formats.md, "An audit" under "History file". Two texts with one SHA-256 digest are known to nobody, so that the lines of a clash are
never written here.
"""

from __future__ import annotations

from typing import Dict, Iterator, Sequence, Tuple

from .anchors import Anchors
from .answers import ACCEPTED, REJECTED, Answer, answer_text, unreadable
from .histories import MOST_BYTES, NAME_PLACE, Thread, sound_history
from .precedence import PrecedenceProof
from .proofs import Proof, Reason
from .timelines import Timeline
from .verdicts import judge_proof

Files = Sequence[Tuple[str, bytes]]
"""Files, each its name and its bytes."""


def read_histories(files: Files) -> Dict[str, Timeline] | Answer:
    """The timelines of histories by their services; or what is answered of the first file that isn't one beside those before it. They have
    at most 67,108,864 bytes together."""
    lines: Dict[str, Timeline] = {}
    left = MOST_BYTES
    for file, data in files:
        if len(data) > left:
            return unreadable(file, "byte", left)
        left -= len(data)
        line = sound_history(file, data)
        if isinstance(line, Answer):
            return line
        if line.name in lines:
            return unreadable(file, "byte", NAME_PLACE)
        lines[line.name] = line
    return lines


def held(proof: Proof, anchors: Anchors) -> Iterator[Thread]:
    """The anchors that an accepted proof names and the threads that it carries, in the order of its bytes."""
    yield Thread(proof.service, *anchors[proof.service])
    for hop in proof.hops if isinstance(proof, PrecedenceProof) else ():
        service, step, auth, _ = hop.entry
        yield Thread(service, *anchors[service]) if hop.bind else Thread(service, step, auth)


def audit(data: bytes, anchors: Anchors, files: Files) -> Answer:
    """What is answered of the bytes of a proof under anchors, and of histories."""
    lines = read_histories(files)
    if isinstance(lines, Answer):
        return lines
    proof = judge_proof(data, anchors)
    if isinstance(proof, Reason):
        return answer_text(REJECTED, proof.line())
    for service, step, auth in held(proof, anchors):
        auths = lines[service].auths if service in lines else []
        found = auths[step] if step < len(auths) else None
        if found != auth:
            return answer_text(REJECTED, f"unheld {service} {step} {auth.hex()} {found.hex() if found else 'none'}\n")
    return answer_text(ACCEPTED, "stands\n" + proof.report().partition("\n")[2])
