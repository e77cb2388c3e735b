"""History files: all that a service recorded; the rules that a sound history keeps; and the proof of an event, made of a history.

docs/formats.md, "History file", and "Histories" of docs/definitions.md, which has the rules.
"""

from __future__ import annotations

from dataclasses import dataclass, field
from typing import Dict, Iterator, List, NamedTuple, Sequence, Tuple

from .answers import ACCEPTED, REFUSED, UNREADABLE, Answer, answer_text, unreadable
from .archives import EMPTY, Entry, Key, Node, Tree
from .event_trees import event_part
from .events_files import sized
from .fields import LAST_STEP, LAST_TIME, MOST_COUNT, MOST_EVENT, MOST_STEP_BYTES, Malformed, Reader, big_endian, padded
from .proofs import ExistenceProof
from .timelines import Timeline

MOST_BYTES = 67_108_864
"""The most bytes of a history file, and of all that are read together."""

NAME_PLACE = 4
"""The place of the service's name in a history file."""

_EVENTS, _THREAD, _WITH_TIME = 1, 2, 2
_WORD = 2**32 - 1


class Thread(NamedTuple):
    """A service, a step of it, from 1 on, and the authenticator there."""

    service: str
    step: int
    authenticator: bytes


class NodeRow(NamedTuple):
    """A node that a step adds to the archive: the numbers of its sides, 0 for the empty tree, and the step that received its thread."""

    left: int
    received: int
    right: int


@dataclass
class Step:
    """What a step records: events, or a thread; the nodes that it adds, which are numbered from 1 over the whole history; the number of
    the archive's root then; and its time in seconds, or None."""

    events: List[bytes] = field(default_factory=list)
    thread: Thread | None = None
    nodes: List[NodeRow] = field(default_factory=list)
    root: int = 0
    time: int | None = None

    def to_bytes(self) -> bytes:
        """Its bytes in a history file."""
        kind = (_THREAD if self.thread else _EVENTS) + (0 if self.time is None else _WITH_TIME)
        time = b"" if self.time is None else big_endian(self.time, 8)
        if self.thread:
            service, step, auth = self.thread
            content = padded(service) + big_endian(step, 8) + auth
        else:
            content = big_endian(len(self.events), 4) + sized(self.events)
        nodes = b"".join(big_endian(left, 4) + big_endian(received, 8) + big_endian(right, 4) for left, received, right in self.nodes)
        return big_endian(kind, 1) + time + content + big_endian(len(self.nodes), 2) + nodes + big_endian(self.root, 4)


def history_to_bytes(name: str, steps: Sequence[Step]) -> bytes:
    """The history file of a service of these steps."""
    return b"TWH1" + padded(name) + big_endian(len(steps), 8) + b"".join(step.to_bytes() for step in steps)


def _take_step(read: Reader) -> Step:
    """The step that stands next."""
    step = Step()
    kind = read.number(1, _EVENTS, _THREAD + _WITH_TIME)
    if kind > _WITH_TIME:
        step.time = read.number(8, 0, LAST_TIME)
    if kind in (_EVENTS, _EVENTS + _WITH_TIME):
        step.events = [read.take(read.number(4, 0, MOST_EVENT)) for _ in range(read.number(4, 0, MOST_COUNT))]
    else:
        step.thread = Thread(read.name(), read.number(8, 1, LAST_STEP), read.digest())
    for _ in range(read.number(2, 0, 65535)):
        step.nodes.append(NodeRow(read.number(4, 0, _WORD), read.number(8, 0, 2**64 - 1), read.number(4, 0, _WORD)))
    step.root = read.number(4, 0, _WORD)
    return step


def read_history(data: bytes) -> Tuple[str, List[Step]]:
    """The service's name and the steps of a history file; raises `Malformed` where the bytes are none, of a longer one at the limit."""
    if len(data) > MOST_BYTES:
        raise Malformed(MOST_BYTES)
    read = Reader(data, MOST_BYTES)
    name = take_name(read)
    steps = list(take_steps(read))
    read.end()
    return name, steps


def take_name(read: Reader) -> str:
    """The service's name, with which a history file begins."""
    read.magic(b"TWH1")
    return read.name()


def take_steps(read: Reader) -> Iterator[Step]:
    """The steps that stand behind the name, one after another."""
    for _ in range(read.number(8, 0, LAST_STEP)):
        yield _take_step(read)


# ---- soundness


class Unsound(ValueError):
    """The history's step of this number, from 1, breaks this rule, from 1 to 7; those before it keep all."""

    def __init__(self, step: int, rule: int) -> None:
        super().__init__(step, rule)
        self.step, self.rule = step, rule


class _Range(NamedTuple):
    """What the keys of a tree are between, and how many entries it has; None where its keys don't rise."""

    low: Key | None
    high: Key | None
    entries: int


class Growing:
    """A history's archive while its steps are read: the trees by their numbers, of which 0 is the empty one; the threads received so far by
    their steps, and the greatest step of each service; and the greatest time so far."""

    def __init__(self) -> None:
        self.trees: List[Tree] = [EMPTY]
        self.ranges: List[_Range | None] = [_Range(None, None, 0)]
        self.received: Dict[int, Thread] = {}
        self.latest_of: Dict[str, int] = {}
        self.clock = 0

    def add(self, row: NodeRow) -> None:
        """One more node, whose sides and thread are there."""
        entry = Entry(*self.received[row.received], row.received)
        self.trees.append(Node(self.trees[row.left], entry, self.trees[row.right]))
        self.ranges.append(_joined(self.ranges[row.left], entry.key, self.ranges[row.right]))

    def broken_rule(self, name: str, number: int, step: Step) -> int | None:
        """The first rule that the step of this number breaks, or None; what it adds is there then."""
        if step.thread:
            self.received[number] = step.thread
        first = len(self.trees)
        for row in step.nodes:
            if max(row.left, row.right) >= len(self.trees) or row.received not in self.received:
                return 1
            self.add(row)
        if step.root >= len(self.trees):
            return 1
        if None in self.ranges[first:]:
            return 2
        reached = self.ranges[step.root]
        if reached is None or reached.entries != len(self.received):
            return 3
        rule = self._broken_by_thread(name, step.thread)
        if rule:
            return rule
        if sum(map(len, step.events)) > MOST_STEP_BYTES:
            return 6
        if step.time is not None and step.time < self.clock:
            return 7
        self.clock = max(self.clock, step.time or 0)
        return None

    def _broken_by_thread(self, name: str, thread: Thread | None) -> int | None:
        """The rule that a received thread breaks, or None."""
        if thread is None:
            return None
        if thread.service == name:
            return 4
        if self.latest_of.get(thread.service, 0) >= thread.step:
            return 5
        self.latest_of[thread.service] = thread.step
        return None


def _joined(left: _Range | None, key: Key, right: _Range | None) -> _Range | None:
    """The range of a key between two trees."""
    if left is None or right is None or left.high is not None and left.high >= key or right.low is not None and right.low <= key:
        return None
    return _Range(left.low or key, right.high or key, left.entries + 1 + right.entries)


def trees_of(name: str, steps: Sequence[Step]) -> List[Tree]:
    """The archive's tree after each step, from step 1 on; raises `Unsound` where the history isn't sound."""
    growing, trees = Growing(), []
    for number, step in enumerate(steps, 1):
        rule = growing.broken_rule(name, number, step)
        if rule:
            raise Unsound(number, rule)
        trees.append(growing.trees[step.root])
    return trees


def timeline_of(name: str, steps: Sequence[Step]) -> Timeline:
    """The timeline of a history; raises `Unsound` where it isn't sound."""
    labels = [tree.label for tree in trees_of(name, steps)]
    return Timeline(name, [step.events for step in steps], labels, [step.time for step in steps])


def sound_history(file: str, data: bytes) -> Timeline | Answer:
    """The timeline of the bytes of a file of this name; or what is answered where they are no history, or an unsound one."""
    try:
        return timeline_of(*read_history(data))
    except Malformed as bad:
        return unreadable(file, "byte", bad.place)
    except Unsound as broken:
        return answer_text(UNREADABLE, f"unsound {file} step {broken.step} rule {broken.rule}\n")


def existence_proof(line: Timeline, step: int, index: int, top: int) -> ExistenceProof:
    """The proof that the event of this index, from 0, stands in the step, under the authenticator of the top."""
    return ExistenceProof(line.name, step, top, line.path(top, step), line.opening(step), event_part(line.events(step), index))


def show(file: str, data: bytes, step: int, index: int) -> Answer:
    """What is answered of an event of a history file: its proof under the last step."""
    line = sound_history(file, data)
    if isinstance(line, Answer):
        return line
    last = len(line.steps)
    if not 1 <= step <= last:
        return answer_text(REFUSED, f"refused NoStep {last}\n")
    if index >= len(line.events(step)):
        return answer_text(REFUSED, f"refused NoEvent {len(line.events(step))}\n")
    return Answer(ACCEPTED, existence_proof(line, step, index, last).to_bytes())
