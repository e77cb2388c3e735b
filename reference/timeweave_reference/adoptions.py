"""Adoption: a lost service's history taken over as far as others received it.

docs/formats.md, "A history that is taken over" under "History file".
"""

from __future__ import annotations

from typing import Sequence

from .anchors import Anchors
from .answers import ACCEPTED, REJECTED, Answer, answer_text
from .histories import history_to_bytes, read_history, sound_history
from .proofs import Reason, ThreadProof
from .timelines import Timeline
from .verdicts import judge_proof


def fault_of(number: int, data: bytes, anchors: Anchors, line: Timeline) -> Reason | int:
    """The fault of the proof of this number, from 1; or the step of its thread, which the history has."""
    proof = judge_proof(data, anchors)
    if isinstance(proof, Reason):
        return Reason(10, "Part", f"{number} {proof.number}")
    if not isinstance(proof, ThreadProof) or proof.entry.service != line.name:
        return Reason(13, "Stranger", str(number))
    _, step, auth, _ = proof.entry
    found = line.auths[step] if step < len(line.auths) else None
    if found != auth:
        return Reason(14, "Differs", f"{number} {step} {auth.hex()} {found.hex() if found else 'none'}")
    return step


def adopt(file: str, data: bytes, anchors: Anchors, proofs: Sequence[bytes]) -> Answer:
    """What is answered of the bytes of a history file of this name, of anchors and of the bytes of proofs: the file of its first steps, up
    to the greatest that the proofs show as received; or the first fault of the proofs, in their order."""
    line = sound_history(file, data)
    if isinstance(line, Answer):
        return line
    upto = 0
    for number, proof in enumerate(proofs, 1):
        found = fault_of(number, proof, anchors, line)
        if isinstance(found, Reason):
            return answer_text(REJECTED, found.line())
        upto = max(upto, found)
    name, steps = read_history(data)
    return Answer(ACCEPTED, history_to_bytes(name, steps[:upto]))
