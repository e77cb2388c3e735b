"""What files are, and what they say: read by the readers of the reference, and by no others. Nothing here judges."""

from __future__ import annotations

import functools
from typing import Collection, Iterable, NamedTuple, Optional

from weft import files, packages
from weft.deciding.choosing import Needed as Needed
from weft.deciding.contradicting import Hop, Lacked, Received, Told, find_doubted
from weft.files import AnyPath
from weft.deciding.lines import can_be
from weft.kinds import kind_of as kind_of
from weft.lines import Line
from weft.statuses import Status
from weft.texts import name_of
from weft.trouble import Trouble

if not packages.HAS_REFERENCE:
    raise Trouble(
        Status.NO_JUDGE,
        "the Python package timeweave_reference isn't there, by which weft reads files, or isn't the one that this weft was made with",
        "Install it. In a checkout of your own that you have changed: python3 -m weft.packages.",
    )

from timeweave_reference import archive_facts, archives, audits, event_trees, events_files, evidence, map_files, messages, paths, precedence, receipts, verdicts  # noqa: E402
from timeweave_reference import fields as fields  # noqa: E402
from timeweave_reference import paths as paths  # noqa: E402
from timeweave_reference import histories as histories  # noqa: E402
from timeweave_reference import proofs as proofs  # noqa: E402
from timeweave_reference import stores as stores  # noqa: E402
from timeweave_reference import tree_pages as tree_pages  # noqa: E402
from timeweave_reference.anchors import Anchor  # noqa: E402
from timeweave_reference.archives import Entry, TreeProof  # noqa: E402
from timeweave_reference.fields import Malformed as Malformed  # noqa: E402
from timeweave_reference.hashed_texts import EMPTY_ARCHIVE as EMPTY_ARCHIVE  # noqa: E402
from timeweave_reference.hashed_texts import event_leaf, event_node  # noqa: E402
from timeweave_reference.hashed_texts import genesis as genesis  # noqa: E402
from timeweave_reference.messages import Message as Message  # noqa: E402
from timeweave_reference.openings import Opening  # noqa: E402
from timeweave_reference.receipts import Receipt as Receipt  # noqa: E402
from timeweave_reference.timelines import Timeline as Timeline  # noqa: E402

MOST_PROOF = precedence.MOST_BYTES
MOST_MESSAGE = messages.MOST_BYTES
MOST_EVIDENCE = evidence.MOST_BYTES
MOST_HISTORY = histories.MOST_BYTES
MOST_EVENTS = fields.MOST_COUNT
MOST_EVENT = fields.MOST_EVENT
MOST_STEP = fields.MOST_STEP_BYTES
LAST_STEP = fields.LAST_STEP
RECEIPT_SIZE = receipts.SIZE

def read_message(data: bytes) -> Optional[messages.Message]:
    """The message that the bytes are, or None."""
    try:
        return messages.read_message(data)
    except fields.Malformed:
        return None


def line_of(message: messages.Message) -> Line:
    """The line that a message tells."""
    return Line(message.service, message.step, message.authenticator.hex())


def expect_possible(line: Line) -> None:
    """Raises Trouble where no service can have the line."""
    if not can_be(line, genesis(line.service).hex()):
        told = f"this line of step 0 of {line.service} is false: step 0 follows from the name alone, and has the authenticator {genesis(line.service).hex()[:16]}.."
        raise Trouble(Status.UNREADABLE, told, "Nothing was kept. Ask where it came from what else came that way.")


def read_receipt(data: bytes) -> Optional[receipts.Receipt]:
    """The receipt that the bytes are, or None."""
    try:
        return receipts.read_receipt(data)
    except fields.Malformed:
        return None


def read_receipts(data: bytes) -> list[receipts.Receipt]:
    """The receipts of a file; of one that is none, none."""
    try:
        return receipts.read_receipts(data)
    except fields.Malformed:
        return []


def receipt_pieces(data: bytes) -> list[bytes]:
    """The bytes of each receipt of a file, unread; what stands behind the last whole one is left out."""
    return [data[at : at + RECEIPT_SIZE] for at in range(0, len(data) - RECEIPT_SIZE + 1, RECEIPT_SIZE)]


@functools.lru_cache(maxsize=1 << 16)
def parties_of(data: bytes) -> tuple[str, ...]:
    """The recorder of a receipt, and the service that it recorded; of other bytes nobody."""
    receipt = read_receipt(data)
    return (receipt.recorder, receipt.service) if receipt else ()


def needed_by_proof(data: bytes) -> list[Needed]:
    """The lines that a proof of a kind from 1 to 5 says it is judged under; none where the bytes are none."""
    proof = read_proof(data)
    if proof is None:
        return []
    hops = proof.hops if isinstance(proof, precedence.PrecedenceProof) else ()
    return list(dict.fromkeys([Needed(proof.service, proof.top), *(Needed(hop.entry.service, hop.bind) for hop in hops if hop.bind)]))


class Way(NamedTuple):
    """A path of a file: of which service, from its upper step down to its lower one, and the authenticator of that; and where the lower step is opened, that of the
    step before it."""

    service: str
    top: int
    step: int
    path: paths.Path
    bottom: bytes
    before: Optional[bytes] = None

    @property
    def ends(self) -> list[tuple[int, bytes]]:
        """Its lower step, and the one before that where it is opened, each with its authenticator."""
        return [(self.step, self.bottom), *([(self.step - 1, self.before)] if self.before is not None else [])]

    def lines(self, is_whole: bool) -> list[Line]:
        """The lines of its ends, or where it is wanted whole of all steps that it passes too; of step 0 none."""
        passed = paths.passed(self.path, self.top, self.step, self.bottom)[1:] if is_whole else []
        return [Line(self.service, step, auth.hex()) for step, auth in [*self.ends, *passed] if step]


def opened_way(service: str, top: int, step: int, path: paths.Path, opening: Opening) -> Way:
    """The path to a step that is opened."""
    return Way(service, top, step, path, opening.authenticator(step), opening.before)


def ways_of(proof: Optional[proofs.Proof]) -> list[Way]:
    """The paths of a proof of any kind."""
    if isinstance(proof, proofs.StepProof):
        return [opened_way(proof.service, proof.top, proof.step, proof.path, proof.opening)]
    if isinstance(proof, proofs.LinkProof):
        return [Way(proof.service, proof.top, proof.step, proof.path, proof.authenticator)]
    if not isinstance(proof, precedence.PrecedenceProof):
        return []
    hops = [Way(hop.entry.service, hop.bind or hop.entry.step, hop.entry.step, hop.path, hop.entry.authenticator) for hop in proof.hops]
    before = [opened_way(proof.service, proof.step - 1, proof.step - 1, (), proof.before)] if proof.before is not None else []
    opened = [opened_way(hop.entry.service, hop.entry.step, hop.entry.step, (), hop.opening) for hop in proof.hops if hop.opening is not None]
    second = opened_way(proof.service, proof.top, proof.step, proof.path, proof.opening)
    return [second, *before, *hops, *opened, opened_way(proof.first_service, proof.upper, proof.first_step, proof.first_path, proof.first_opening)]


def ways_in(data: bytes) -> list[Way]:
    """The paths of a proof, of a map file, and of both proofs of evidence; of the accused service evidence has two histories, so its link is none of these."""
    low, high, fork = read_low(data), read_high(data), read_evidence(data)
    if low is not None and low.before is not None:
        return [opened_way(low.service, low.top, low.step - 1, low.before.path, low.before.opening)]
    if high is not None:
        return [opened_way(high.peer, high.top, high.top, (), high.opening)]
    if fork is not None:
        return [way for it in (fork.first, fork.second) for way in ways_of(it)]
    return ways_of(read_proof(data))


def lines_shown(data: bytes, kept: Iterable[Line], is_whole: bool = True) -> list[Line]:
    """The lines of steps that a proof, a map file or evidence shows where it is accepted: of each step that its paths pass, unless their ends alone are wanted, of the
    one before each that it opens, and of each that was received, as its trees have it. Of the service that evidence accuses the first one alone counts,
    where a kept line of that step is neither of the two. None where the bytes are none."""
    passed = [line for way in ways_in(data) for line in way.lines(is_whole)]
    return list(dict.fromkeys([*passed, *received_by(data), *lines_in_evidence(data, kept)]))


def lines_on_ways(data: bytes) -> list[Line]:
    """The same of its paths alone, with the steps before those that they open, and without what was received."""
    return [line for way in ways_in(data) for line in way.lines(True)]


def received_by(data: bytes) -> list[Line]:
    """The lines that a proof or a map file shows as received."""
    if kind_of(data).endswith("map"):
        return received_in_map(data)
    proof = read_proof(data)
    if isinstance(proof, (proofs.ThreadProof, proofs.AbsenceProof)):
        return [*([line_received(proof.entry)] if isinstance(proof, proofs.ThreadProof) else []), *received_in(proof.tree)]
    hops = proof.hops if isinstance(proof, precedence.PrecedenceProof) else ()
    return [line for hop in hops for line in [line_received(hop.entry), *received_in(hop.tree)]]


def hop_of(by: str, entry: Entry, is_bound: bool, tree: TreeProof) -> Hop:
    """That a service received a line, with what its archive tells beside it."""
    return Hop(by, line_received(entry), is_bound, received_in(tree))


def tellers_in(data: bytes) -> list[str]:
    """The services by whose word a chain or evidence tells what others recorded; none of another file."""
    proof, fork = read_proof(data), read_evidence(data)
    if fork is not None:
        return [fork.first.service, fork.second.service]
    return [proof.service, *(hop.entry.service for hop in proof.hops)] if isinstance(proof, precedence.PrecedenceProof) else []


def doubted_in(data: bytes, broken: Collection[str]) -> list[Line]:
    """The lines that a chain or evidence tells by the word of services that broke a rule alone; none of another file."""
    proof, fork = read_proof(data), read_evidence(data)
    if fork is not None:
        return [line for it in (fork.first, fork.second) for line in find_doubted([hop_of(it.service, it.entry, False, it.tree)], broken).lines]
    if not isinstance(proof, precedence.PrecedenceProof):
        return []
    by = [proof.service, *(hop.entry.service for hop in proof.hops)]
    found = find_doubted([hop_of(name, hop.entry, bool(hop.bind), hop.tree) for name, hop in zip(by, proof.hops)], broken)
    return [*found.lines, *(ways_of(proof)[-1].lines(True) if found.is_end else [])]


def told_by(data: bytes, under: Iterable[Line]) -> Optional[Told]:
    """What an accepted file on what a service received tells of it, under the line of that service among these; None of another file."""
    file = archive_facts.read_file(data)
    lines = {line.service: line for line in under}
    service = None if file is None else file.peer if isinstance(file, map_files.HighFile) else file.service
    if file is None or service is None or service not in lines:
        return None
    line = lines[service]
    facts = archive_facts.facts_of(file, {service: Anchor(line.step, bytes.fromhex(line.authenticator))})
    entry, lack, opening = facts.entry, facts.lack, facts.opening
    return Told(
        line, facts.shown.step, facts.shown.authenticator.hex(), opening.before.hex(), opening.count, opening.time,
        None if entry is None else Received(entry.service, entry.step, entry.authenticator.hex(), entry.archived), None if lack is None else Lacked(*lack),
    )  # fmt: skip


def lines_reached(data: bytes) -> list[Line]:
    """The lines to which the paths of a proof lead: of each step under whose line a part of it is, the authenticator that it computes. None where the bytes are none."""
    proof = read_proof(data)
    if isinstance(proof, proofs.LinkProof):
        return [line_reached(proof.service, proof.top, proof.step, proof.path, proof.authenticator)]
    if not isinstance(proof, (proofs.StepProof, precedence.PrecedenceProof)):
        return []
    hops = proof.hops if isinstance(proof, precedence.PrecedenceProof) else ()
    bound = [line_reached(it.entry.service, it.bind, it.entry.step, it.path, it.entry.authenticator) for it in hops if it.entry.step <= it.bind]
    own = [line_reached(proof.service, proof.top, proof.step, proof.path, proof.opening.authenticator(proof.step))] if proof.step <= proof.top else []
    return [*own, *bound]


def line_reached(service: str, top: int, step: int, path: paths.Path, bottom: bytes) -> Line:
    """The line of the top to which a path leads from a step's authenticator."""
    return Line(service, top, paths.climbed(path, top, step, bottom).hex())


def line_of_thread(thread: Optional[histories.Thread]) -> Optional[Line]:
    """The line that a step received, where it received one."""
    return Line(thread.service, thread.step, thread.authenticator.hex()) if thread is not None else None


@functools.lru_cache(maxsize=1)
def threads_of(data: bytes) -> list[Optional[Line]]:
    """The lines that the steps of a history's file received, from step 1 on, None of a step that received none."""
    return [line_of_thread(step.thread) for step in read_history(data)]


def line_received(entry: Entry) -> Line:
    """The line that an archive has."""
    return Line(entry.service, entry.step, entry.authenticator.hex())


def received_in(tree: TreeProof) -> list[Line]:
    """The lines that a tree proof shows besides the one that it is of."""
    return [line_received(ancestor.entry) for ancestor in tree.ancestors]


def received_in_map(data: bytes) -> list[Line]:
    """The lines that a map file shows as received."""
    low, high = read_low(data), read_high(data)
    if high is not None:
        return received_in(high.tree)
    return received_in(low.before.tree) if low is not None and low.before is not None else []


def read_low(data: bytes) -> Optional[map_files.LowFile]:
    """The low map file that the bytes are, or None."""
    try:
        return map_files.read_low(data)
    except fields.Malformed:
        return None


def read_high(data: bytes) -> Optional[map_files.HighFile]:
    """The high map file that the bytes are, or None."""
    try:
        return map_files.read_high(data)
    except fields.Malformed:
        return None


def needed_by_maps(low: bytes, high: bytes) -> list[Needed]:
    """The lines that two map files say they are judged under; none where the bytes are none."""
    try:
        first, second = map_files.read_low(low), map_files.read_high(high)
    except fields.Malformed:
        return []
    return [Needed(first.service, first.top), Needed(second.peer, second.top)]


def read_evidence(data: bytes) -> Optional[evidence.Evidence]:
    """The evidence that the bytes are, or None."""
    try:
        return evidence.read_evidence(data)
    except fields.Malformed:
        return None


def lines_in_evidence(data: bytes, kept: Iterable[Line]) -> list[Line]:
    """The lines that the receivers of accepted evidence tell: that their trees have besides, and of the accused service the first one where a kept line of that step
    is neither of the two that it shows. None where the bytes are no evidence."""
    fork = read_evidence(data)
    if fork is None:
        return []
    accused = line_received(fork.first.entry)
    held = {it.authenticator for it in kept if (it.service, it.step) == (accused.service, accused.step)}
    received = [line for it in (fork.first, fork.second) for line in received_in(it.tree) if line.service != accused.service]
    return [*received, *([accused] if held - {accused.authenticator, fork.bottom.hex()} else [])]


def needed_by_evidence(data: bytes) -> list[Needed]:
    """The lines that evidence is judged under; none where the bytes are no evidence."""
    found = read_evidence(data)
    return [Needed(proof.service, proof.top) for proof in (found.first, found.second)] if found is not None else []


def recorders_in(data: bytes, service: str) -> list[str]:
    """The services that received lines of this one, as a proof tells it."""
    proof = read_proof(data)
    if isinstance(proof, proofs.ThreadProof):
        return [proof.service] if proof.entry.service == service else []
    if not isinstance(proof, precedence.PrecedenceProof):
        return []
    by = [proof.service, *(hop.entry.service for hop in proof.hops)]
    return [name for name, hop in zip(by, proof.hops) if hop.entry.service == service]


class MapHead(NamedTuple):
    """Of which step of which service and peer a map file is."""

    kind: str
    service: str
    step: int
    peer: str


def map_head(data: bytes) -> Optional[MapHead]:
    """That of a map file, or None where the bytes are none."""
    try:
        if kind_of(data) == "low map":
            low = map_files.read_low(data)
            return MapHead("low", low.service, low.step, low.peer)
        high = map_files.read_high(data)
        return MapHead("high", high.service, high.step, high.peer)
    except fields.Malformed:
        return None


def first_received(data: bytes) -> Optional[archives.Entry]:
    """The thread that a high map file tells: the first one, of the step that it is of or of a later one, that its service received; None where there is
    none."""
    try:
        high = map_files.read_high(data)
    except fields.Malformed:
        return None
    nearest = high.show_nearest().nearest
    return nearest if nearest is not None and nearest.service == high.service else None


def held_by(data: bytes, lines: Iterable[Line]) -> list[Line]:
    """The lines that an accepted proof hangs on, in its order: those held that it names, and those that it carries."""
    proof = read_proof(data)
    anchors = {line.service: Anchor(line.step, bytes.fromhex(line.authenticator)) for line in lines}
    return [Line(it.service, it.step, it.authenticator.hex()) for it in audits.held(proof, anchors)] if proof is not None else []


def read_proof(data: bytes) -> Optional[proofs.Proof]:
    """The proof of a kind from 1 to 5 that the bytes are, or None."""
    try:
        return verdicts.read_proof(data)
    except fields.Malformed:
        return None


def events_file(events: list[bytes]) -> bytes:
    """The bytes of an events file."""
    return events_files.events_to_bytes(events)


def read_history(data: bytes) -> list[histories.Step]:
    """The steps of a history's file, none where it is none."""
    try:
        return histories.read_history(data)[1]
    except fields.Malformed:
        return []


class ReadHistory(NamedTuple):
    """A sound history, as the reference reads it: its service, its last step, and the authenticators of its steps from 0 on."""

    service: str
    last: int
    authenticators: list[str]
    timeline: Timeline


@functools.lru_cache(maxsize=1)
def timeline_of(data: bytes) -> Optional[ReadHistory]:
    """What the reference computes from a history's file; None where the bytes are none, or break a rule."""
    try:
        name, steps = histories.read_history(data)
        line = histories.timeline_of(name, steps)
    except (fields.Malformed, histories.Unsound):
        return None
    return ReadHistory(name, len(steps), [auth.hex() for auth in line.auths], line)


class StepProver:
    """Makes the proofs of a step's events under a line of its history: what they share is computed once."""

    def __init__(self, history: ReadHistory, step: int, top: int):
        line = history.timeline
        self.front = (history.service, step, top, line.path(top, step), line.opening(step))
        self.events = line.events(step)
        self.labels: dict[tuple[int, int], bytes] = {}

    def proof(self, index: int) -> bytes:
        """The proof of the event of this index, from 0."""
        ways = reversed(event_trees.ways_down(len(self.events), index))
        path = tuple(self.label_beside(*way) for way in ways)
        return proofs.ExistenceProof(*self.front, event_trees.EventPart(index, self.events[index], path)).to_bytes()

    def label_beside(self, first: int, count: int, goes_left: bool) -> bytes:
        """The label beside the way that goes left or right at a node of so many events from this one on."""
        left = event_trees.left_size(count)
        return self.label(first + left, count - left) if goes_left else self.label(first, left)

    def label(self, first: int, count: int) -> bytes:
        """The label of the node of so many events from this one on."""
        if (first, count) not in self.labels:
            left = event_trees.left_size(count) if count > 1 else 0
            self.labels[first, count] = (
                event_node(self.label(first, left), self.label(first + left, count - left)) if left else event_leaf(self.events[first])
            )
        return self.labels[first, count]


def proof_under(history: ReadHistory, top: int) -> bytes:
    """The proof of the last event up to this step, under its line; where there is none up to there, that of the step's own authenticator."""
    line = history.timeline
    step = next((step for step in range(top, 0, -1) if line.events(step)), 0)
    if step:
        return histories.existence_proof(line, step, 0, top).to_bytes()
    return proofs.LinkProof(history.service, top, top, line.auths[top], ()).to_bytes()


def link_to_itself(line: Line) -> bytes:
    """The proof that a step from 1 on has the authenticator of its line, under that line: whoever holds it accepts that. An audit holds it against a file."""
    return proofs.LinkProof(line.service, line.step, line.step, bytes.fromhex(line.authenticator), ()).to_bytes()


def read_file(path: AnyPath, follow: bool = True) -> bytes:
    """The bytes of a file that is to be judged: a history may be longer than all others."""
    data = files.read(path, MOST_HISTORY, follow)
    if len(data) > MOST_PROOF and kind_of(data) not in ("history", "bundle"):
        raise Trouble(Status.UNREADABLE, f"{name_of(path)} has {len(data):,} bytes, and none that is read here has more than {MOST_PROOF:,}")
    return data

