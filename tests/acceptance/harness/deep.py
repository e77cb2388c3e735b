"""Steps of long histories that nobody has to build: their links lead to digests made up for the purpose."""

from harness.making import event_bytes
from timeweave_reference.event_trees import event_root
from timeweave_reference.fields import big_endian as be
from timeweave_reference.hashed_texts import EMPTY_ARCHIVE, authenticator, digest, link_label, step_datum
from timeweave_reference.paths import greedy_steps, link_level, top_level
from timeweave_reference.proofs import front_to_bytes


class DeepStep:
    """A step of a history of which nothing but what a path from a top down to it shows is made: the labels that the path doesn't use are
    digests of a counter. The step has this label of its archive and these events, and behind it stands this authenticator, or one that is
    made up. Tells the bytes of the `path` and of the `opening`, and the authenticators that they compute: `auth` of the step, `reached`
    of the top."""

    def __init__(self, step, top, archive, events, made_up, prev=None):
        self.counter, self.made_up = iter(range(10**9)), made_up
        root = event_root(events)
        below, *others = self.stand_ins(1 + top_level(step))
        below = prev or below
        self.opening = root + archive + be(len(events), 4) + below + b"".join(others)
        self.auth = authenticator(step, [link_label(step, 0, step_datum(root, archive, len(events), None), below), *others])
        records, self.reached = [], self.auth
        for start in reversed(greedy_steps(top, step)[:-1]):
            level = link_level(start, step)
            own, *labels = self.stand_ins(1 + top_level(start))
            records.append(own + b"".join(labels))
            labels.insert(level, link_label(start, level, own, self.reached))
            self.reached = authenticator(start, labels)
        self.path = b"".join(reversed(records))

    def stand_ins(self, count):
        """So many digests that are made up."""
        return [digest(self.made_up + be(next(self.counter), 8)) for _ in range(count)]


def deep_part(kind, name, step, top, archive, events, made_up):
    """What a proof of this kind begins with, of such a step. Answers the bytes and the authenticator of the top that they compute."""
    deep = DeepStep(step, top, archive, events, made_up)
    return front_to_bytes(kind, name, step, top) + deep.path + deep.opening, deep.reached


def deep_proof(name, step, index, top, events, made_up):
    """The proof of an event of such a step, and the authenticator of its top."""
    part, reached = deep_part(1, name, step, top, EMPTY_ARCHIVE, events, made_up)
    return part + event_bytes(events, index), reached
