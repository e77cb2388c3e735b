"""Atlases: by receipts, the earliest step of every service to which a step leads.

docs/formats.md, "An atlas" under "Receipt". A receipt says that the thread's service has a hop from the thread's step to the
recorder's.
"""

from __future__ import annotations

from typing import Dict, Iterable, List, NamedTuple, Set, Tuple

from .fields import padded
from .receipts import Receipt


class Hop(NamedTuple):
    """A step of a service, and the step at which another service archived its thread; hops are ordered by these fields."""

    service: str
    step: int
    by: str
    archived: int


def hop_of(receipt: Receipt) -> Hop:
    """The hop that a receipt tells."""
    return Hop(receipt.service, receipt.step, receipt.recorder, receipt.archived)


class Leg(NamedTuple):
    """A hop that goes on behind the leg of this number, from 1, or from the start, which is 0."""

    after: int
    hop: Hop


def legs_of(hops: Iterable[Hop], service: str, step: int) -> List[Leg]:
    """The legs in rounds: each round has the hops that go on from the start or from a leg of an earlier round, in their order.

    A hop that isn't listed yet goes on from none of the older ends, so each round looks at those of the round before alone.
    """
    left: Dict[str, Set[Hop]] = {}
    for hop in hops:
        left.setdefault(hop.service, set()).add(hop)
    legs: List[Leg] = []
    ends = [(service, step, 0)]
    while ends:
        found: Dict[Hop, int] = {}
        for at, least, number in ends:
            for hop in left.get(at, ()):
                if hop.step >= least:
                    found[hop] = min(number, found.get(hop, number))
        first = len(legs)
        legs += [Leg(found[hop], hop) for hop in sorted(found)]
        for hop in found:
            left[hop.service].discard(hop)
        ends = [(leg.hop.by, leg.hop.archived, number) for number, leg in enumerate(legs[first:], first + 1)]
    return legs


def arrivals(legs: List[Leg], service: str, step: int) -> Dict[str, Tuple[int, int]]:
    """For each service that is reached, by name, the least step, and the least number of a leg that leads there."""
    found = {service: (step, 0)}
    for number, leg in enumerate(legs, 1):
        end = leg.hop.archived, number
        found[leg.hop.by] = min(end, found.get(leg.hop.by, end))
    return {name: found[name] for name in sorted(found, key=padded)}


def atlas_text(hops: Iterable[Hop], service: str, step: int) -> str:
    """What is written of these hops from a step of a service on."""
    legs = legs_of(hops, service, step)
    lines = [f"atlas {service} {step}"]
    lines += [f"leg {number} after {after} hop {hop.service} {hop.step} {hop.by} {hop.archived}" for number, (after, hop) in enumerate(legs, 1)]
    lines += [f"arrive {name} {at} leg {number}" for name, (at, number) in arrivals(legs, service, step).items()]
    return "".join(line + "\n" for line in lines)
