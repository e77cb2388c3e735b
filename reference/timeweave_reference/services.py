"""A service: what appends and messages make of it; its store's bytes; and the proofs of threads, absence and links, the maps, messages,
receipts and the history file that it writes.

docs/operating.md tells what becomes of a message: a thread that the archive has is answered by the receipt of the step that received it;
one of another authenticator is a fork; one below the last step of its service is stale; and a link has to lead up from that last one.
"""

from __future__ import annotations

from copy import copy
from typing import Dict, List, Sequence

from .answers import REFUSED, Answer, answer_text
from .archives import Entry, Key, Tree, absent, present, tree_proof
from .event_trees import event_root
from .events_files import sized
from .fields import LAST_STEP, MOST_COUNT, MOST_EVENT, MOST_STEP_BYTES
from .hashed_texts import genesis
from .histories import NodeRow, Step, Thread, existence_proof, history_to_bytes
from .map_files import high_file, low_file
from .messages import Message, message_of, read_message
from .paths import top_level
from .proofs import AbsenceProof, LinkProof, ThreadProof
from .receipts import Receipt
from .stores import Body, ServiceRoot, StepPage, event_pages, slot_of, store_file
from .timelines import Timeline
from .tree_pages import FIRST, NO_CHILD, Child, PagedTree, Shape, TreePage, size


class Refused(Exception):
    """What a service or a follower refuses, in the words of its line."""

    def answer(self) -> Answer:
        """What is told."""
        return answer_text(REFUSED, f"refused {self}\n")


def refuse_unless(holds: bool, words: str) -> None:
    """Raises the refusal of these words where it doesn't hold."""
    if not holds:
        raise Refused(words)


class Service:
    """A service without a step, and what is done with it.

    Lists have a place for each step, from step 0 on: the entries that the steps archived, or None; the roots of the archive's tree; how
    many threads it has; the steps' pages; how many pages the store has, its first four among them.
    """

    def __init__(self, name: str) -> None:
        self.line = Timeline(name)
        self.archive = PagedTree()
        self.entries: Dict[Key, Entry] = {}
        self.last_of: Dict[str, Entry] = {}
        self.threads: List[Entry | None] = [None]
        self.roots: List[Child] = [NO_CHILD]
        self.counts: List[int] = [0]
        self.step_pages: List[int] = [0]
        self.used: List[int] = [FIRST]

    @property
    def name(self) -> str:
        """Its name."""
        return self.line.name

    @property
    def steps(self) -> int:
        """The number of its last step."""
        return len(self.line.steps)

    def copied(self) -> Service:
        """One that goes on by itself; this one stays as it is."""
        other = copy(self)
        other.line, other.archive = self.line.copied(), self.archive.copied()
        other.entries, other.last_of = dict(self.entries), dict(self.last_of)
        other.threads, other.roots, other.counts = list(self.threads), list(self.roots), list(self.counts)
        other.step_pages, other.used = list(self.step_pages), list(self.used)
        return other

    # ---- what is made

    def append(self, events: Sequence[bytes], time: int | None = None) -> bytes:
        """One more step of these events, at a time in seconds or none; its line. Raises `Refused`."""
        refuse_unless(self.steps < LAST_STEP, "Full")
        refuse_unless(len(events) <= MOST_COUNT, f"TooMany {len(events)}")
        sizes = [len(event) for event in events]
        for length in sizes:
            refuse_unless(length <= MOST_EVENT, f"TooLong {length}")
        refuse_unless(sum(sizes) <= MOST_STEP_BYTES, f"TooLong {sum(sizes)}")
        self._check_clock(time)
        stream = len(sized(events))
        first = self.archive.next_page() if stream else 0
        for page in event_pages(self.steps + 1, events):
            self.archive.put(page.to_bytes())
        self.add_step(events, None, time, stream, first)
        return self.anchor(self.steps)

    def receive(self, data: bytes, time: int | None = None) -> bytes:
        """The receipt of the thread of a message, which is archived in one more step where it wasn't; raises `Refused`, or `Malformed`."""
        message = read_message(data)
        known = self._known(message)
        if known:
            return self.receipt(known)
        self._check_clock(time)
        entry = Entry(message.service, message.step, message.authenticator, self.steps + 1)
        self.archive.insert(entry)
        self.entries[entry.key] = self.last_of[entry.service] = entry
        self.add_step((), entry, time, 0, 0)
        return self.receipt(entry)

    def _known(self, message: Message) -> Entry | None:
        """The entry of the message's thread, or None where it is new and may be archived; raises `Refused`."""
        service, step, auth = message.service, message.step, message.authenticator
        refuse_unless(service != self.name, "Own")
        known = self.entries.get((service, step))
        if known:
            refuse_unless(known.authenticator == auth, f"Forked {step} {known.authenticator.hex()} {auth.hex()}")
            return known
        last = self.last_of.get(service) or Entry(service, 0, genesis(service), 0)
        refuse_unless(step >= last.step, f"Stale {last.step}")
        leads = message.since == last.step and message.leads_from(last.authenticator)
        refuse_unless(leads, f"BadLink {last.step} {last.authenticator.hex()}")
        return None

    def _check_clock(self, time: int | None) -> None:
        clock = self.line.clock(self.steps)
        if time is not None and clock is not None:
            refuse_unless(time >= clock, f"ClockBack {clock} {time}")

    def add_step(self, events: Sequence[bytes], entry: Entry | None, time: int | None, stream: int, first: int) -> None:
        """Adds a step whose event pages or tree pages are there."""
        archive = self.archive.root
        self.line.append(events, archive.label, time)
        step = self.steps
        below = [step - 2**level for level in range(top_level(step) + 1)]
        links = tuple((self.step_pages[lower], self.line.auths[lower]) for lower in below)
        thread = Thread(*entry[:3]) if entry else None
        made = StepPage(step, len(events), stream, first, event_root(events), archive, thread, self.line.auths[step], links, time)
        self.step_pages.append(self.archive.put(made.to_bytes()))
        self.threads.append(entry)
        self.roots.append(archive)
        self.counts.append(self.counts[-1] + (entry is not None))
        self.used.append(self.archive.next_page())

    # ---- what is told

    def anchor(self, step: int) -> bytes:
        """The line of a step."""
        return self.line.line(step)

    def receipt(self, entry: Entry) -> bytes:
        """The receipt of an entry of its archive."""
        service, step, auth, archived = entry
        return Receipt(self.name, archived, self.line.auths[archived], service, step, auth).to_bytes()

    def message(self, since: int) -> bytes:
        """The message of its last step since an earlier one; raises `Refused`."""
        refuse_unless(0 < self.steps and since <= self.steps, f"NoStep {self.steps}")
        return message_of(self.line, self.steps, since).to_bytes()

    def tree(self, step: int) -> Tree:
        """The archive's tree after a step."""
        return self.archive.tree(self.roots[step].page)

    def entry(self, step: int, service: str, k: int) -> Entry | None:
        """The entry of the thread of a service's step `k`, from 1 on, in the archive after a step; None where it isn't there."""
        entry = self.entries.get((service, k))
        return entry if entry and entry.archived <= step else None

    def _check_steps(self, least: int, step: int, top: int) -> None:
        refuse_unless(least <= step <= top and 1 <= top <= self.steps, f"NoStep {self.steps}")

    def event_proof(self, step: int, index: int, top: int) -> bytes:
        """The proof of an event of a step under a top; raises `Refused`."""
        self._check_steps(1, step, top)
        count = len(self.line.events(step))
        refuse_unless(index < count, f"NoEvent {count}")
        return existence_proof(self.line, step, index, top).to_bytes()

    def link_proof(self, step: int, top: int) -> bytes:
        """The proof of the authenticator of a step from 0 on under a top; raises `Refused`."""
        self._check_steps(0, step, top)
        return link_proof(self.line, step, top).to_bytes()

    def thread_proof(self, step: int, service: str, k: int, top: int) -> bytes:
        """The proof that the archive after a step has a thread, under a top; raises `Refused`."""
        self._check_steps(1, step, top)
        entry = self.entry(step, service, k)
        if entry is None:
            raise Refused("NoThread")
        return thread_proof(self.line, self.tree(step), step, top, entry).to_bytes()

    def absent_proof(self, step: int, service: str, k: int, top: int) -> bytes:
        """The proof that the archive after a step has no such thread, under a top; raises `Refused`."""
        self._check_steps(1, step, top)
        entry = self.entry(step, service, k)
        if entry is not None:
            raise Refused(f"HasThread {entry.archived}")
        return absence_proof(self.line, self.tree(step), step, top, (service, k)).to_bytes()

    def low_map(self, step: int, peer: str, top: int) -> bytes:
        """The low file of a step under a top; raises `Refused`."""
        self._check_steps(1, step, top)
        return low_file(self.line, self.tree(step - 1), step, peer, top).to_bytes()

    def high_map(self, step: int, service: str, top: int) -> bytes:
        """The high file for the step, from 1 on, of another service, up to its own step `top`; raises `Refused`."""
        self._check_steps(0, 0, top)
        return high_file(self.line, self.tree(top), top, service, step).to_bytes()

    def history(self) -> bytes:
        """The file of its history: each step adds the nodes of the tree pages that it wrote, each node behind both its sides."""
        numbers, steps = Numbered(self.archive), []
        for step, entry in enumerate(self.threads[1:], 1):
            first = len(numbers.rows)
            root = numbers.root(self.roots[step].page)
            thread = Thread(*entry[:3]) if entry else None
            steps.append(Step(list(self.line.events(step)), thread, numbers.rows[first:], root, self.line.times[step - 1]))
        return history_to_bytes(self.name, steps)

    # ---- the store

    def slot(self) -> int:
        """The slot of its store that counts."""
        return slot_of(self.steps)

    def root(self, steps: int) -> bytes:
        """The root record of its store after so many steps."""
        archive, threads, clock = self.roots[steps], self.counts[steps], self.line.clock(steps)
        return ServiceRoot(self.name, steps, self.line.auths[steps], self.step_pages[steps], archive, threads, clock).to_bytes()

    def file(self) -> bytes:
        """The whole file of its store."""
        last, before = self.steps, max(self.steps - 1, 0)
        pages = [page if isinstance(page, bytes) else page.to_bytes() for page in self.archive.pages]
        bodies = Body(last + 1, self.used[last], self.root(last)), Body(last, self.used[before], self.root(before))
        return store_file(*bodies, last, pages)


class Numbered:
    """The nodes of the trees of an archive's pages as a history file numbers them, from 1 on, in the order in which they are come to."""

    def __init__(self, archive: PagedTree) -> None:
        self.archive = archive
        self.rows: List[NodeRow] = []
        self.numbers = {0: 0}

    def root(self, number: int) -> int:
        """The number of the root of a page's tree, whose nodes are added where they aren't there yet."""
        if number not in self.numbers:
            page = self.archive.page(number)
            self.numbers[number] = self._added(page, page.shape, 0)
        return self.numbers[number]

    def _added(self, page: TreePage, shape: Shape | None, base: int) -> int:
        if not shape:
            return self.root(page.children[base].page)
        slot = base + size(shape.left)
        left = self._added(page, shape.left, base)
        right = self._added(page, shape.right, slot + 1)
        self.rows.append(NodeRow(left, page.entries[slot].archived, right))
        return len(self.rows)


def service_of(name: str, steps: Sequence[Sequence[bytes]], times: Sequence[int | None] | None = None) -> Service:
    """A service of this name after steps of these events, each at its time in seconds or at none."""
    service = Service(name)
    for place, events in enumerate(steps):
        service.append(events, times[place] if times else None)
    return service


# ---- proofs of a timeline and its archive's trees


def link_proof(line: Timeline, step: int, top: int) -> LinkProof:
    """The proof of the authenticator of a step from 0 on, under that of the top."""
    return LinkProof(line.name, step, top, line.auths[step], line.path(top, step))


def thread_proof(line: Timeline, tree: Tree, step: int, top: int, entry: Entry) -> ThreadProof:
    """The proof that the step's archive, which is this tree, has the entry."""
    proof = tree_proof(tree, present(entry))
    assert proof is not None, "the tree has the entry"
    return ThreadProof(line.name, step, top, line.path(top, step), line.opening(step), entry, proof)


def absence_proof(line: Timeline, tree: Tree, step: int, top: int, key: Key) -> AbsenceProof:
    """The proof that the step's archive, which is this tree, has no thread of this service and step."""
    proof = tree_proof(tree, absent(*key))
    assert proof is not None, "the tree lacks the key"
    return AbsenceProof(line.name, step, top, line.path(top, step), line.opening(step), *key, proof)
