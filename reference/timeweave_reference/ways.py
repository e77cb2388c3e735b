"""Ways from an event to a later one over histories in the making, and the proofs that they give.

docs/formats.md, "Proof that one event precedes another (kind 2)".
"""

from __future__ import annotations

from typing import Dict, Iterator, List, Mapping, Sequence, Tuple

from .anchors import Anchor
from .archives import Entry, TreeProof, present, tree_proof
from .event_trees import event_part
from .histories import existence_proof
from .precedence import Hop, PrecedenceProof
from .proofs import Proof
from .recording import History
from .services import link_proof, thread_proof


class Way:
    """The histories by their names; the second event; the hops from it backwards, each an entry and the step of the anchor that binds its
    thread, or 0; and the first event, by its step and its index there.

    The second event is told by its service, its step, its index there, from 0, and the step of its anchor.
    """

    def __init__(
        self, family: Mapping[str, History], second: Tuple[str, int, int, int], hops: Sequence[Tuple[Entry, int]], first: Tuple[int, int]
    ) -> None:
        self.family, self.second, self.hops, self.first = family, second, list(hops), first
        self.lines = {name: history.line() for name, history in family.items()}

    def ends(self) -> List[Tuple[str, int]]:
        """The service and the step whose archive shows each hop, and behind them those under which the first event stands."""
        service, step, _, _ = self.second
        return [(service, step - 1), *((entry.service, entry.step) for entry, _ in self.hops)]

    def archive_of(self, number: int) -> Tuple[str, int]:
        """The service and the step whose archive shows a hop, counted from 0."""
        return self.ends()[number]

    def prove_hop(self, number: int) -> TreeProof:
        """The tree proof of a hop, counted from 0."""
        service, step = self.archive_of(number)
        proof = tree_proof(self.family[service].trees[step], present(self.hops[number][0]))
        assert proof is not None, "the archive has the hop's entry"
        return proof

    def proof(self) -> PrecedenceProof:
        """The proof."""
        service, step, index, top = self.second
        line = self.lines[service]
        head = line.path(top, step), line.opening(step), event_part(line.events(step), index)
        before = line.opening(step - 1) if self.hops else None
        hops = []
        for number, (entry, bind) in enumerate(self.hops):
            own = self.lines[entry.service]
            opening = own.opening(entry.step) if number + 1 < len(self.hops) else None
            hops.append(Hop(entry, self.prove_hop(number), bind, own.path(bind, entry.step) if bind else (), opening))
        (last, upper), (first_step, first_index) = self.ends()[-1], self.first
        own = self.lines[last]
        tail = own.path(upper, first_step), own.opening(first_step), event_part(own.events(first_step), first_index)
        return PrecedenceProof(service, step, top, *head, before, tuple(hops), first_step, *tail)

    def parts(self) -> Iterator[Proof]:
        """The proofs over one history each that join to it."""
        service, step, index, top = self.second
        yield existence_proof(self.lines[service], step, index, top)
        for (service, step), (entry, bind) in zip(self.ends(), self.hops):
            line = self.lines[service]
            yield thread_proof(line, self.family[service].trees[step], step, len(line.steps), entry)
            if bind:
                yield link_proof(self.lines[entry.service], entry.step, bind)
        (service, upper), (step, index) = self.ends()[-1], self.first
        yield existence_proof(self.lines[service], step, index, upper)

    def anchors(self) -> Dict[str, Anchor]:
        """The anchors that it needs."""
        service, _, _, top = self.second
        needed = {service: top, **{entry.service: bind for entry, bind in self.hops if bind}}
        return {name: Anchor(step, self.lines[name].auths[step]) for name, step in needed.items()}
