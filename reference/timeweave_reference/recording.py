"""Histories in the making: steps of events, and received threads whose archive's tree grows as one likes.

docs/formats.md, "History file". What a service writes is in `services`; here each tree may have any shape.
"""

from __future__ import annotations

from typing import Callable, Dict, List, Sequence

from .archives import EMPTY, Entry, Node, Tree, with_leaf
from .histories import NodeRow, Step, Thread, history_to_bytes
from .timelines import Timeline

Grow = Callable[[Tree, Entry], Tree]
"""A way to put one more entry into a tree."""


class History:
    """A history in the making: its steps, and the archive's tree after each, from step 0 on, with its label from step 1 on."""

    def __init__(self, name: str) -> None:
        self.name = name
        self.steps: List[Step] = []
        self.trees: List[Tree] = [EMPTY]
        self.labels: List[bytes] = []
        self.numbers: Dict[Tree, int] = {EMPTY: 0}

    def append(self, events: Sequence[bytes], time: int | None = None) -> None:
        """Records events, at a time in seconds or none."""
        self.add(Step(list(events), time=time), self.trees[-1])

    def receive(self, service: str, step: int, auth: bytes, grow: Grow = with_leaf) -> None:
        """Records a thread."""
        entry = Entry(service, step, auth, len(self.steps) + 1)
        self.add(Step(thread=Thread(service, step, auth)), grow(self.trees[-1], entry))

    def add(self, step: Step, tree: Tree) -> None:
        """Adds a step after which the archive is this tree; its nodes that no earlier tree has are numbered, each behind its sides."""
        step.nodes = self._new_nodes(tree)
        step.root = self.numbers[tree]
        self.steps.append(step)
        self.trees.append(tree)
        self.labels.append(tree.label)

    def _new_nodes(self, tree: Tree) -> List[NodeRow]:
        rows: List[NodeRow] = []
        left = [tree]
        while left:
            node = left[-1]
            sides = [side for side in (node.left, node.right) if side not in self.numbers] if isinstance(node, Node) else []
            if node in self.numbers or not sides:
                left.pop()
                if isinstance(node, Node) and node not in self.numbers:
                    self.numbers[node] = len(self.numbers)
                    rows.append(NodeRow(self.numbers[node.left], node.entry.archived, self.numbers[node.right]))
            else:
                left.append(sides[0])
        return rows

    def line(self) -> Timeline:
        """Its timeline, whether it is sound or not."""
        return Timeline(self.name, [step.events for step in self.steps], self.labels, [step.time for step in self.steps])

    def to_bytes(self) -> bytes:
        """Its file."""
        return history_to_bytes(self.name, self.steps)
