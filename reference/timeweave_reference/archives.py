"""Archives of received threads: trees of entries, and the proofs of what they have and don't have.

docs/formats.md, "Tree proofs". A proof answers one of four questions about a key, from the nodes on the way down to where it stands or
would stand. It has the nodes above, nearest first, each with the label of its other side; where the entry is there also the labels of
both sides of its own node. A way that comes to no entry ends at an empty place.
"""

from __future__ import annotations

from dataclasses import dataclass
from enum import Enum
from typing import Iterable, List, NamedTuple, Tuple

from .fields import LAST_STEP, Reader, big_endian, padded
from .hashed_texts import EMPTY_ARCHIVE, digest, node_text

MOST_ABOVE_ENTRY = 127
"""The most nodes above an entry that is shown."""

MOST_ABOVE_GAP = 128
"""The most nodes above an empty place."""

Key = Tuple[str, int]
"""What entries are ordered by: the service, and the step of its thread, from 1 on."""


class Entry(NamedTuple):
    """A thread in an archive: a service, one of its steps with the authenticator there, and the recorder's step that archived it."""

    service: str
    step: int
    authenticator: bytes
    archived: int

    @property
    def key(self) -> Key:
        """What entries are ordered by."""
        return self.service, self.step

    def to_bytes(self) -> bytes:
        """Its 64 bytes."""
        return padded(self.service) + big_endian(self.step, 8) + self.authenticator + big_endian(self.archived, 8)


def node_label(left: bytes, entry: Entry, right: bytes) -> bytes:
    """The label of a node, from the labels of its sides."""
    return digest(node_text(left, entry.to_bytes(), right))


# ---- trees


class Tree:
    """A tree of which the label alone is known."""

    def __init__(self, label: bytes) -> None:
        self.label = label


EMPTY = Tree(EMPTY_ARCHIVE)
"""The tree without entries."""


class Node(Tree):
    """A tree of an entry between two sides. Trees of several steps may share their nodes."""

    def __init__(self, left: Tree, entry: Entry, right: Tree) -> None:
        super().__init__(node_label(left.label, entry, right.label))
        self.left, self.entry, self.right = left, entry, right


def listed(tree: Tree) -> List[Entry]:
    """The entries of a tree, in its order."""
    entries: List[Entry] = []
    above: List[Node] = []
    while above or isinstance(tree, Node):
        if isinstance(tree, Node):
            above.append(tree)
            tree = tree.left
        else:
            node = above.pop()
            entries.append(node.entry)
            tree = node.right
    return entries


# ---- questions and answers


class Question(Enum):
    """The four questions: whether an entry is there, or none of a key; the last entry below a key, and the first above it."""

    PRESENT = "Present"
    ABSENT = "Absent"
    BELOW = "Below"
    ABOVE = "Above"


class Ask(NamedTuple):
    """A question about a key; of PRESENT with the entry that is to be there."""

    question: Question
    key: Key
    entry: Entry | None = None


def present(entry: Entry) -> Ask:
    """Whether this entry is there."""
    return Ask(Question.PRESENT, entry.key, entry)


def absent(service: str, step: int) -> Ask:
    """Whether no thread of the service at this step is there."""
    return Ask(Question.ABSENT, (service, step))


class Shown(NamedTuple):
    """What a tree proof shows: `Present`, `Absent`, `Nearest` with the entry or None, or `Wrong`."""

    answer: str
    nearest: Entry | None = None


WRONG = Shown("Wrong")


def goes_left(ask: Ask, key: Key) -> bool | None:
    """Whether the way goes left at a node of this key; None where it may not lead through it."""
    if ask.question is Question.BELOW:
        return key >= ask.key
    if ask.question is Question.ABOVE:
        return key > ask.key
    return None if key == ask.key else key > ask.key


# ---- proofs


class Ancestor(NamedTuple):
    """A node above, with the label of its side that the way doesn't take."""

    entry: Entry
    other: bytes


@dataclass(frozen=True)
class TreeProof:
    """The labels of the left and the right side of the entry's node, or None above an empty place; and the nodes above, nearest first."""

    sides: Tuple[bytes, bytes] | None
    ancestors: Tuple[Ancestor, ...]

    def to_bytes(self) -> bytes:
        """Its bytes: at most 12,257 of an entry, and 12,289 of an empty place."""
        ancestors = b"".join(ancestor.entry.to_bytes() + ancestor.other for ancestor in self.ancestors)
        return big_endian(len(self.ancestors), 1) + b"".join(self.sides or ()) + ancestors

    def shows(self, root: bytes, ask: Ask) -> Shown:
        """What it shows of the question under this label of a tree."""
        if (self.sides is None) != (ask.entry is None):
            return WRONG
        label = node_label(self.sides[0], ask.entry, self.sides[1]) if self.sides and ask.entry else EMPTY.label
        nearest = None
        for entry, other in self.ancestors:
            left = goes_left(ask, entry.key)
            if left is None:
                return WRONG
            if nearest is None and left == (ask.question is Question.ABOVE):
                nearest = entry
            label = node_label(label, entry, other) if left else node_label(other, entry, label)
        if label != root:
            return WRONG
        is_search = ask.question in (Question.BELOW, Question.ABOVE)
        return Shown("Nearest", nearest) if is_search else Shown(ask.question.value)

    def proves(self, root: bytes, ask: Ask) -> bool:
        """Whether it shows that what is asked for is so; of questions for a presence or an absence."""
        return self.shows(root, ask).answer == ask.question.value


def tree_proof(tree: Tree, ask: Ask) -> TreeProof | None:
    """The proof of the answer that a tree gives; None where the entry asked for isn't there, or the absent key is."""
    ancestors: List[Ancestor] = []
    while isinstance(tree, Node):
        left = goes_left(ask, tree.entry.key)
        if left is None:
            break
        other, way = (tree.right, tree.left) if left else (tree.left, tree.right)
        ancestors.insert(0, Ancestor(tree.entry, other.label))
        tree = way
    if isinstance(tree, Node):
        return TreeProof((tree.left.label, tree.right.label), tuple(ancestors)) if tree.entry == ask.entry else None
    assert tree is EMPTY, "the way leads to where the label alone is known"
    return TreeProof(None, tuple(ancestors)) if ask.entry is None else None


def read_entry(read: Reader) -> Entry:
    """The entry that stands next."""
    return Entry(read.name(), read.number(8, 1, LAST_STEP), read.digest(), read.number(8, 1, LAST_STEP))


def read_tree_proof(read: Reader, has_sides: bool) -> TreeProof:
    """The tree proof that stands next: of an entry, or above an empty place."""
    count = read.number(1, 0, MOST_ABOVE_ENTRY if has_sides else MOST_ABOVE_GAP)
    sides = (read.digest(), read.digest()) if has_sides else None
    return TreeProof(sides, tuple(Ancestor(read_entry(read), read.digest()) for _ in range(count)))


# ---- what a list of entries answers, and trees of any shape


def listed_answer(entries: Iterable[Entry], ask: Ask) -> Shown | None:
    """What a tree's entries answer; None where the entry asked for isn't there, or the absent key is."""
    if ask.question is Question.BELOW:
        return Shown("Nearest", max((entry for entry in entries if entry.key < ask.key), default=None))
    if ask.question is Question.ABOVE:
        return Shown("Nearest", min((entry for entry in entries if entry.key > ask.key), default=None))
    found = next((entry for entry in entries if entry.key == ask.key), None)
    return Shown(ask.question.value) if found == ask.entry else None


def with_leaf(tree: Tree, entry: Entry) -> Tree:
    """The tree with one more entry, at its empty place."""
    above: List[Tuple[Node, bool]] = []
    while isinstance(tree, Node):
        left = entry.key < tree.entry.key
        above.append((tree, left))
        tree = tree.left if left else tree.right
    grown = Node(EMPTY, entry, EMPTY)
    for node, left in reversed(above):
        grown = Node(grown, node.entry, node.right) if left else Node(node.left, node.entry, grown)
    return grown

