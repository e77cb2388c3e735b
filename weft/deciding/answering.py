"""What becomes of an answer to what was asked of a peer. Nobody signs it: whoever carries it may have made it up, and a refusal shows nothing for good.

A proof is judged before anything rests on it, and ends the asking; where what was joined of it is refused, it is doubted, and asked for anew. A refusal is kept
as long as it is what the peer's folder says, and asked after each night: the peer's own answer, once it comes, takes its place."""

from __future__ import annotations

import hashlib
from enum import Enum
from typing import Collection, Optional, Sequence


class Kind(Enum):
    """What an answer is."""

    PROOF = "proof"
    DOUBTED = "a proof that was of no use"
    REFUSAL = "refusal"
    NOTHING = "nothing"


class Fate(Enum):
    """What becomes of an answer and of its request."""

    TAKEN = "it is kept, and not asked for any more"
    NOTED = "it is kept, and asked for further"
    FORGOTTEN = "what was kept isn't the peer's word any more, and it is asked for further"
    AWAITED = "it is asked for further"


def digest_of(data: bytes) -> str:
    """By its digest an answer that was of no use is known again."""
    return hashlib.sha256(data).hexdigest()


def kind_of_answer(data: Optional[bytes], doubted: Collection[str] = ()) -> Kind:
    """An answer is a proof, by its first letters, or a refusal, which begins with `refused`; what is neither, and what isn't there, is no answer."""
    if data is None:
        return Kind.NOTHING
    if data.startswith(b"TWP1"):
        return Kind.DOUBTED if digest_of(data) in doubted else Kind.PROOF
    return Kind.REFUSAL if data.startswith(b"refused") else Kind.NOTHING


def settle_answer(kept: Kind, came: Kind) -> Fate:
    """A proof ends the asking. One that is doubted doesn't, though it may turn out to be right, and a refusal doesn't; a refusal is forgotten once the peer's
    folder has it no more."""
    if came is Kind.PROOF:
        return Fate.TAKEN
    if came is not Kind.NOTHING:
        return Fate.NOTED
    return Fate.FORGOTTEN if kept is Kind.REFUSAL else Fate.AWAITED


def choose_pending(requests: Sequence[str], answered: Collection[str], most: int) -> list[str]:
    """Of more requests than one file takes those are left out first that have an answer already, and of them, as of the others, the oldest."""
    ordered = [*(it for it in requests if it in answered), *(it for it in requests if it not in answered)]
    left_out = set(ordered[: max(0, len(requests) - most)])
    return [it for it in requests if it not in left_out]
