"""A proof of a thread, or of an absent one, in an archive of a million entries, of which nobody has to build more than its way.

    python3 tests/acceptance/large.py FOLDER    writes the proofs `thread` and `absent` into the folder, each with its anchors file
                                                `NAME.anchors`, and prints of each its size and what checking it hashes
"""

from harness.deep import DeepStep, deep_part
from harness.making import absent_bytes, event_bytes, thread_bytes
from timeweave_reference.archives import EMPTY, Entry, Node, Tree, absent, goes_left, present, tree_proof
from timeweave_reference.fields import padded
from timeweave_reference.fields import big_endian as be
from timeweave_reference.hashed_texts import digest
from timeweave_reference.paths import greedy_steps, top_level
from timeweave_reference.proofs import ABSENT, PRECEDES, THREAD, absent_text, thread_text

# The sizes of hashed texts in bytes: of a link, of the datum of a step without a time, of a node of an archive's tree.
LINK_SIZE, DATUM_SIZE, NODE_SIZE = 74, 69, 129


def part_sizes(step, top):
    """The sizes of the texts that checking a step's opening and the path to it from its top hashes, each once."""
    levels = [top_level(start) for start in greedy_steps(top, step)[:-1]]
    links = [size for level in levels for size in (LINK_SIZE, 10 + 32 * (level + 1))]
    return [DATUM_SIZE, LINK_SIZE, 10 + 32 * (top_level(step) + 1), *links]


def blocks(sizes):
    """How many blocks of 64 bytes SHA-256 hashes of texts of these sizes: the last of a text has a byte and its length beside it."""
    return sum((size + 9 + 63) // 64 for size in sizes)


SERVICE = "large"

# The entries, the services that they are of, the step whose archive has them, and the step of the anchor.
ENTRIES = STEP = 10**6
PEERS = 1000
TOP = 2**20

# The parts of a hundred that each node leaves to the side where the way goes on: ways of about 20 and 40 nodes.
SHORT, LONG = 50, 70


def entry_at(place):
    """The entry at this place of the archive: of each of a thousand services, whose names rise, a thousand threads."""
    peer, number = divmod(place, ENTRIES // PEERS)
    return Entry(f"peer-{peer:03}", 7 * (number + 1), digest(be(place, 8)), number * PEERS + peer + 1)


def made_up(low, high):
    """The tree of the entries from `low` to below `high`, with a label that is made up."""
    return EMPTY if low == high else Tree(digest(be(low, 8) + be(high, 8)))


def tree_around(ask, percent, low=0, high=ENTRIES):
    """The tree of these entries, of which only the way of the question is made. Each node of it leaves about so many percent of its
    entries, at least 50, to the side where the way goes on."""
    if low == high:
        return EMPTY
    rest = min(high - low - 1, ((high - low) * percent + 99) // 100)
    is_before_middle = goes_left(ask, entry_at((low + high) // 2).key)
    pivot = low + rest if is_before_middle else high - 1 - rest
    left = goes_left(ask, entry_at(pivot).key)
    lower = tree_around(ask, percent, low, pivot) if left else made_up(low, pivot)
    upper = tree_around(ask, percent, pivot + 1, high) if left is False else made_up(pivot + 1, high)
    return Node(lower, ask.entry if left is None else entry_at(pivot), upper)


class LargeProof:
    """The proof of the thread at a place, or that none of the step before it is there: `data`, the authenticator `auth` of the top, the
    text `accepted` where it is accepted, and the number of its `ancestors`."""

    def __init__(self, kind, place, percent):
        entry = entry_at(place)
        ask = present(entry) if kind == THREAD else absent(entry.service, entry.step - 1)
        tree = tree_around(ask, percent)
        shown = tree_proof(tree, ask)
        part, self.auth = deep_part(kind, SERVICE, STEP, TOP, tree.label, [], b"large")
        if kind == THREAD:
            self.data, self.accepted = thread_bytes(part, entry, shown), thread_text(SERVICE, STEP, entry)
        else:
            self.data, self.accepted = absent_bytes(part, ask.key, shown), absent_text(SERVICE, STEP, ask.key)
        self.ancestors = len(shown.ancestors)
        self.own = NODE_SIZE if kind == THREAD else 1

    def sizes(self):
        """The sizes of the texts that checking it hashes, each once: those of its tree proof begin with the entry's node, or with the
        empty tree."""
        return part_sizes(STEP, TOP) + [self.own] + [NODE_SIZE] * self.ancestors


def deep_way(hops, percent):
    """The proof that an event of one service precedes one of another, by so many hops over archives of a million entries each, and its
    anchors. Each hop is of a service of its own; that of the first event's service is carried, the others are bound."""
    places = [ENTRIES // hops * number for number in range(hops)]
    first = DeepStep(1, entry_at(places[0]).step, EMPTY.label, [b"first"], b"first")
    tail = be(1, 8) + first.path + first.opening + event_bytes([b"first"], 0)
    pieces, anchors, shown = [], {}, first
    for number, place in enumerate(places):
        entry = entry_at(place)._replace(authenticator=shown.auth if number else shown.reached, archived=1)
        # (the first event's service binds nothing, and its step isn't opened once more)
        behind = be(TOP, 8) + shown.path + (shown.opening if number else b"") if number else be(0, 8)
        tree = tree_around(present(entry), percent)
        pieces.append(entry.to_bytes() + tree_proof(tree, present(entry)).to_bytes() + behind)
        if number:
            anchors[entry.service] = TOP, shown.reached
        following = entry_at(places[number + 1]).step if number + 1 < hops else STEP
        shown = DeepStep(following, TOP, tree.label, [], be(number, 2))
    second = DeepStep(STEP + 1, TOP, EMPTY.label, [b"second"], b"second", shown.auth)
    anchors[SERVICE] = TOP, second.reached
    head = b"TWP1" + be(PRECEDES, 1) + be(hops, 1) + padded(SERVICE) + be(STEP + 1, 8) + be(TOP, 8) + second.path + second.opening
    return head + event_bytes([b"second"], 0) + shown.opening + b"".join(reversed(pieces)) + tail, anchors


def write_measured(folder):
    """Writes what is to be measured, and tells what it hashes. The trees differ, so each proof has an anchor of its own."""
    for name, kind in (("thread", THREAD), ("absent", ABSENT)):
        proof = LargeProof(kind, ENTRIES // 3, LONG)
        (folder / name).write_bytes(proof.data)
        (folder / f"{name}.anchors").write_text(f"{SERVICE} {TOP} {proof.auth.hex()}\n")
        sizes = proof.sizes()
        print(f"{name}: {len(proof.data)} bytes, {proof.ancestors} ancestors, {len(sizes)} texts hashed, {blocks(sizes)} blocks")
