"""Who takes part in a network, who exchanges with whom, and what the schedule has in which nights."""

import random
from typing import NamedTuple

LEAST_SERVICES, LEAST_NIGHTS = 8, 16
EACH = 4
SHOWN_TO_ONE = 6
MOST_PART = 10
# By so many steps a skipper's other history is ahead: more than a service makes in the nights that are left.
AHEAD = 600

Nights = dict[str, int]


class Plan(NamedTuple):
    """The services, the peers of each, and of each part who has it, from which night on:

    `forkers` show another history to one peer, and after some nights to all; `hiders` show it to one peer for good; `skippers` do so too, and no step number of
    what they show to that peer is one of what they show to the others; of the `old` an old store is put back,
    and the right one after so many nights; `squatted` are those in whose name a message is made up; `flooders` fill the folders of their peers; the `gone` stay
    away for good; `keepers` drop a thread from their archives."""

    names: list[str]
    peers: dict[str, list[str]]
    forkers: Nights
    hiders: Nights
    skippers: Nights
    old: Nights
    squatted: Nights
    flooders: Nights
    gone: Nights
    keepers: Nights
    saved: int
    old_nights: int

    @property
    def liars(self) -> Nights:
        """Those that have two histories."""
        return {**self.forkers, **self.hiders, **self.skippers}

    @property
    def begun(self) -> int:
        """The first night in which each part has begun."""
        parts = (self.forkers, self.hiders, self.skippers, self.old, self.squatted, self.flooders, self.gone, self.keepers)
        return max(night for part in parts for night in part.values()) + SHOWN_TO_ONE

    @property
    def honest(self) -> list[str]:
        """Those that keep the rules."""
        return [name for name in self.names if name not in self.liars and name not in self.keepers]

    def is_at_work(self, night: int, name: str) -> bool:
        """Whether the service makes a turn in this night."""
        return night < self.gone.get(name, night + 1)

    def is_old(self, night: int, name: str) -> bool:
        """Whether the service has an old store in this night."""
        return name in self.old and self.old[name] <= night < self.old[name] + self.old_nights

    def is_lying(self, night: int, name: str) -> bool:
        """Whether the service has two histories in this night."""
        return name in self.liars and night >= self.liars[name]

    def is_shown_other(self, night: int, liar: str, peer: str) -> bool:
        """Whether the peer is shown the liar's other history in this night."""
        if not self.is_lying(night, liar):
            return False
        if liar in self.hiders or liar in self.skippers or night < self.liars[liar] + SHOWN_TO_ONE:
            return peer == self.victim(liar)
        return (night + self.peers[liar].index(peer)) % 2 == 0

    def victim(self, liar: str) -> str:
        """Whom a liar shows the other history first."""
        return self.peers[liar][0]

    def is_ahead(self, liar: str) -> int:
        """By how many steps the other history of a liar is ahead of the first one."""
        return AHEAD if liar in self.skippers else 0

    def can_be_found(self, hider: str) -> bool:
        """Whether the one peer that is shown the other history exchanges with another peer of the liar."""
        return bool(set(self.peers[self.victim(hider)]) & set(self.peers[hider]))


def peers_of(names: list[str], drawn: random.Random) -> dict[str, list[str]]:
    """Each service exchanges with those beside it in a ring, and with some drawn by chance."""
    peers: dict[str, set[str]] = {name: set() for name in names}
    for number, name in enumerate(names):
        others = [names[(number + 1) % len(names)], *drawn.sample([it for it in names if it != name], EACH // 2 - 1)]
        for other in others:
            peers[name].add(other)
            peers[other].add(name)
    return {name: sorted(others) for name, others in peers.items()}


def plan_of(services: int, nights: int, seed: int) -> Plan:
    """A plan by a seed: each part has one service, or one in forty; those that hide their lie come with forty services, and those that skip steps with
    nine. All parts have begun after some
    fifty nights, and after fewer where there are fewer."""
    drawn = random.Random(f"plan {seed}")
    names = [f"s{number}" for number in range(services)]
    peers, part, count = peers_of(names, drawn), min(nights // 6, MOST_PART), max(1, services // 40)
    begins = {"forkers": 2 * part, "old": 2 * part, "squatted": 3 * part, "flooders": 3 * part + 2, "gone": 5 * part, "keepers": 2 * part + 1}
    hidden, skipping = services // 40, count if services > LEAST_SERVICES else 0
    chosen = iter(drawn.sample(names, len(begins) * count + hidden + skipping))
    parts = {role: {next(chosen): night + number % part for number in range(count)} for role, night in begins.items()}
    hiders = {next(chosen): 2 * part + number % part for number in range(hidden)}
    skippers = {name: 2 * part + number % part for number, name in enumerate(chosen)}
    return Plan(names, peers, hiders=hiders, skippers=skippers, saved=part, old_nights=max(2, part // 3), **parts)
