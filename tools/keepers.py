"""Services whose keepers may break any rule of histories: each step has the events, the archive, the time and the links that its keeper likes, and every
file that is made of them is accepted under their lines."""

from __future__ import annotations

from dataclasses import dataclass, field
from typing import Dict, List, Sequence, Tuple

from timeweave_reference.anchors import Anchor
from timeweave_reference.archives import EMPTY, Ask, Entry, Key, Node, Tree, TreeProof, absent, present, tree_proof
from timeweave_reference.event_trees import event_part, event_root
from timeweave_reference.hashed_texts import authenticator, genesis, link_label, step_datum
from timeweave_reference.map_files import Before, HighFile, LowFile, high_ask, low_ask
from timeweave_reference.openings import Opening
from timeweave_reference.paths import Path, PathLink, link_level, top_level
from timeweave_reference.proofs import AbsenceProof, ExistenceProof, LinkProof, ThreadProof


@dataclass
class KeptStep:
    """A step as its keeper tells it: its events, the tree of its archive, its time in seconds or None; a count of events and a root of them that are told
    in place of the true ones; and the keepers to whose steps its links lead, by their level, where those aren't its own keeper's."""

    events: Sequence[bytes] = ()
    tree: Tree = EMPTY
    time: "int | None" = None
    count: "int | None" = None
    root: "bytes | None" = None
    turns: "Dict[int, Keeper]" = field(default_factory=dict)


class Keeper:
    """The steps of a service, from step 1 on, and their authenticators, from step 0 on. Another genesis than the service's may be told."""

    def __init__(self, name: str, first: "bytes | None" = None) -> None:
        self.name = name
        self.steps: List[KeptStep] = []
        self.auths: List[bytes] = [genesis(name) if first is None else first]

    def add(self, step: KeptStep) -> "Keeper":
        """One more step."""
        self.steps.append(step)
        number = len(self.steps)
        self.auths.append(authenticator(number, self.labels(number)))
        return self

    def copied(self, count: int) -> "Keeper":
        """A keeper of the first steps, who goes on by himself."""
        other = Keeper(self.name, self.auths[0])
        other.steps, other.auths = self.steps[:count], self.auths[: count + 1]
        return other

    # ---- steps

    def step(self, number: int) -> KeptStep:
        """A step from 1 on."""
        return self.steps[number - 1]

    def _counted(self, number: int) -> Tuple[bytes, int]:
        step = self.step(number)
        root = event_root(step.events) if step.root is None else step.root
        return root, len(step.events) if step.count is None else step.count

    def datum(self, number: int) -> bytes:
        """The datum of a step from 1 on."""
        root, count = self._counted(number)
        return step_datum(root, self.step(number).tree.label, count, self.step(number).time)

    def linked(self, number: int, level: int) -> "Keeper":
        """The keeper to whose step a link leads."""
        return self.step(number).turns.get(level, self)

    def _below(self, number: int, level: int) -> bytes:
        return self.linked(number, level).auths[number - (1 << level)]

    def labels(self, number: int) -> List[bytes]:
        """The labels of the links of a step from 1 on."""
        datum = self.datum(number)
        return [link_label(number, level, datum, self._below(number, level)) for level in range(top_level(number) + 1)]

    def opening(self, number: int) -> Opening:
        """The opening of a step from 1 on."""
        root, count = self._counted(number)
        step = self.step(number)
        return Opening(root, step.tree.label, count, step.time, self._below(number, 0), tuple(self.labels(number)[1:]))

    def way(self, top: int, number: int) -> "Tuple[Path, Keeper]":
        """The path from a top down to a step, and the keeper to whose step it leads."""
        links, keeper, at = [], self, top
        while at > number:
            level = link_level(at, number)
            labels = keeper.labels(at)
            del labels[level]
            links.append(PathLink(keeper.datum(at), tuple(labels)))
            keeper, at = keeper.linked(at, level), at - (1 << level)
        return tuple(links), keeper

    # ---- files, each with None where the tree's own search doesn't give what is asked for

    def line(self, top: int) -> "Dict[str, Anchor]":
        """The line of a step from 1 on."""
        return {self.name: Anchor(top, self.auths[top])}

    def _shown(self, step: int, top: int, ask: Ask) -> "Tuple[Path, Opening, TreeProof] | None":
        path, keeper = self.way(top, step)
        proof = tree_proof(keeper.step(step).tree, ask)
        return (path, keeper.opening(step), proof) if proof else None

    def thread(self, step: int, top: int, entry: Entry) -> "ThreadProof | None":
        """That the archive after a step has the entry."""
        shown = self._shown(step, top, present(entry))
        return ThreadProof(self.name, step, top, shown[0], shown[1], entry, shown[2]) if shown else None

    def absence(self, step: int, top: int, key: Key) -> "AbsenceProof | None":
        """That the archive after a step has no thread of this key."""
        shown = self._shown(step, top, absent(*key))
        return AbsenceProof(self.name, step, top, shown[0], shown[1], *key, shown[2]) if shown else None

    def low(self, step: int, top: int, peer: str) -> "LowFile | None":
        """What was received of a peer before a step from 2 on."""
        shown = self._shown(step - 1, top, low_ask(peer))
        return LowFile(self.name, step, peer, top, Before(*shown)) if shown else None

    def high(self, top: int, service: str, step: int) -> "HighFile | None":
        """Which step received a step of a service or a later one, up to a top."""
        shown = self._shown(top, top, high_ask(service, step))
        return HighFile(self.name, top, service, step, shown[1], shown[2]) if shown else None

    def link(self, step: int, top: int) -> LinkProof:
        """The authenticator of a step under a top."""
        path, keeper = self.way(top, step)
        return LinkProof(self.name, step, top, keeper.auths[step], path)

    def event(self, step: int, index: int, top: int) -> ExistenceProof:
        """That an event stands in a step."""
        path, keeper = self.way(top, step)
        return ExistenceProof(self.name, step, top, path, keeper.opening(step), event_part(keeper.step(step).events, index))


def tree_of(entries: Sequence[Entry]) -> Tree:
    """The tree of these entries in this order, whatever their keys are: the middle one stands above the halves."""
    if not entries:
        return EMPTY
    middle = len(entries) // 2
    return Node(tree_of(entries[:middle]), entries[middle], tree_of(entries[middle + 1 :]))
