"""Histories made up for cases: steps of events, and steps that received threads, whose archive's tree has any shape."""

import random
from functools import cache

from example_files import Fork, lost

from timeweave_reference.archives import EMPTY, Node, listed, with_leaf
from timeweave_reference.fields import big_endian as be
from timeweave_reference.hashed_texts import digest
from timeweave_reference.recording import History
from timeweave_reference.timelines import Timeline


def event_text(step, index):
    """An event that tells where it stands."""
    return f"{step}.{index}".encode()


def reshaping(rand):
    """A way to grow a tree: into one of a shape drawn by chance, or with its new entry at the empty place."""

    def grow(tree, entry):
        return with_leaf(tree, entry) if rand.randrange(2) else shaped(sorted([*listed(tree), entry]), rand)

    return grow


def woven(count, seed, grow=with_leaf):
    """A history `woven` that records events and threads of three services, in an order of its own."""
    rand = random.Random(seed)
    history, last = History("woven"), {"a": 0, "b": 0, "wide-name": 0}
    for step in range(1, count + 1):
        if rand.randrange(2):
            history.append([event_text(step, k) for k in range(rand.randrange(4))])
            continue
        service = rand.choice(sorted(last))
        last[service] += rand.randrange(1, 300)
        history.receive(service, last[service], digest(event_text(step, 0)), grow)
    return history


def timed(steps, seed):
    """The same steps, of which some claim times that don't fall."""
    rand = random.Random(seed)
    latest = 0
    for step in steps:
        latest += rand.choice((0, 0, 1, 2**20, 2**31))
        step.time = latest if rand.randrange(3) else None
    return steps


def shaped(entries, rand):
    """A tree of these entries, which rise, in a shape drawn by chance."""
    if not entries:
        return EMPTY
    middle = rand.randrange(len(entries))
    return Node(shaped(entries[:middle], rand), entries[middle], shaped(entries[middle + 1 :], rand))


def counted_timeline(name, counts):
    """Step i has counts[i - 1] events."""
    return Timeline(name, [[event_text(step, k) for k in range(count)] for step, count in enumerate(counts, 1)])


def flipped(data, place=-1):
    """The bytes with one of them changed."""
    place %= len(data)
    return data[:place] + bytes([data[place] ^ 1]) + data[place + 1 :]


@cache
def exchange():
    """Two histories that archive threads of each other, and of others."""
    one, other = History("mill"), History("bank")
    for turn in range(1, 7):
        one.append([b"one %d" % turn])
        other.append([b"other %d" % turn])
        if turn % 2:
            one.receive("bank", len(other.steps), other.line().auths[-1])
            other.receive("aunt", turn, be(turn, 32))
        if turn % 3:
            other.receive("mill", len(one.steps), one.line().auths[-1])
            one.receive("zoo", turn, be(turn, 32))
    return one, other


def anchors_of(*ends):
    """The anchors of steps of histories."""
    return {history.name: (step, history.line().auths[step]) for history, step in ends}


# ---- of the example files


@cache
def sample_fork():
    """The fork that most cases change: five steps apart, with a path of two links."""
    return Fork(2, 3, 8, 2)


def fork_parts(fork):
    """The bytes of both proofs of a fork, and of the link."""
    return [fork.proof(0).to_bytes(), fork.proof(1).to_bytes(), fork.link().to_bytes()]


@cache
def lost_history(with_times=False):
    """The history of a lost service, whose steps claim times or none."""
    history = lost.__wrapped__()
    if with_times:
        timed(history.steps, "lost")
    return history
