"""Proofs of any kind: how their bytes are read, and what is answered of them under anchors.

docs/formats.md, "Proof that one event precedes another": what is checked, and which reason is told.
"""

from __future__ import annotations

from .anchors import Anchors
from .answers import ACCEPTED, REJECTED, Answer, answer_text
from .fields import Malformed
from .precedence import read_precedence
from .proofs import ABSENT, EXISTS, LINK, PRECEDES, THREAD, Proof, Reason, lowest, read_proof_of


def read_proof(data: bytes) -> Proof:
    """The proof of any kind that the bytes are; raises `Malformed` where they are none."""
    return read_precedence(data) if data[4:5] == bytes([PRECEDES]) else read_proof_of(data, (EXISTS, THREAD, ABSENT, LINK))


def refusal(proof: Proof, anchors: Anchors, is_strict: bool = False) -> Reason | None:
    """The reason that is told of a proof, or None where it is accepted: of those of the lowest number the first in the order of its bytes.

    The strict form refuses carried threads besides.
    """
    found = lowest(proof.reasons(anchors))
    if not found and is_strict and proof.carried():
        return Reason(8, "Carried", str(len(proof.carried())))
    return found


def judge_proof(data: bytes, anchors: Anchors, is_strict: bool = False) -> Proof | Reason:
    """The accepted proof that the bytes are, or the reason that is told of them."""
    try:
        proof = read_proof(data)
    except Malformed as bad:
        return Reason(1, "Malformed", str(bad.place))
    return refusal(proof, anchors, is_strict) or proof


def verdict(data: bytes, anchors: Anchors, is_strict: bool = False) -> Answer:
    """What is answered of the bytes of a proof under anchors: `accepted` and the report, or `rejected` and the reason."""
    found = judge_proof(data, anchors, is_strict)
    return answer_text(REJECTED, found.line()) if isinstance(found, Reason) else answer_text(ACCEPTED, found.report())
