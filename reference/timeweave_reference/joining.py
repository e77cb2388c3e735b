"""Joining: a proof that an event precedes another, put together of proofs of the other kinds.

docs/formats.md, "Joining": which part fits where.
"""

from __future__ import annotations

from typing import Dict, List, Sequence

from .answers import ACCEPTED, REJECTED, Answer, answer_text
from .precedence import MOST_HOPS, Hop, PrecedenceProof
from .proofs import ExistenceProof, LinkProof, Proof, ThreadProof


def joined(parts: Sequence[Proof]) -> PrecedenceProof | int:
    """The proof that these join to, or the number of the first part, from 1, that doesn't fit or is missing."""
    if not parts:
        return 1
    second = parts[0]
    if not isinstance(second, ExistenceProof):
        return 1
    threads: List[ThreadProof] = []
    links: Dict[int, LinkProof] = {}
    service, step = second.service, second.step - 1
    for place, part in enumerate(parts[1:], 2):
        if isinstance(part, ThreadProof) and len(threads) < MOST_HOPS and (part.service, part.step) == (service, step):
            threads.append(part)
            service, step = part.entry.service, part.entry.step
        elif isinstance(part, LinkProof) and threads and len(threads) not in links and _is_of(part, threads[-1]):
            links[len(threads)] = part
        elif isinstance(part, ExistenceProof) and (part.service, part.top) == (service, step):
            return place + 1 if place < len(parts) else _composed(second, threads, links, part)
        else:
            return place
    return len(parts) + 1


def _is_of(link: LinkProof, thread: ThreadProof) -> bool:
    """Whether a link is to the step of a thread."""
    return (link.service, link.step, link.authenticator) == thread.entry[:3]


def _composed(second: ExistenceProof, threads: List[ThreadProof], links: Dict[int, LinkProof], first: ExistenceProof) -> PrecedenceProof:
    """The proof of parts that fit; a link is kept by the number, from 1, of the hop that it binds."""
    hops = []
    for number, thread in enumerate(threads, 1):
        link = links.get(number)
        opening = threads[number].opening if number < len(threads) else None
        hops.append(Hop(thread.entry, thread.tree, link.top if link else 0, link.path if link else (), opening))
    head = second.service, second.step, second.top, second.path, second.opening, second.event
    before = threads[0].opening if threads else None
    return PrecedenceProof(*head, before, tuple(hops), first.step, first.path, first.opening, first.event)


def join(parts: Sequence[Proof]) -> Answer:
    """What is answered of parts: the bytes of the proof, or the number of the part that doesn't fit."""
    made = joined(parts)
    return answer_text(REJECTED, f"rejected Gap {made}\n") if isinstance(made, int) else Answer(ACCEPTED, made.to_bytes())
