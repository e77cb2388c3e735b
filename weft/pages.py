"""The pages of a store, each held against those before it.

Of a page no proof reads all: which page a link leads to is read only under a top that is reached by it, the authenticator that a page has of its own step only
for a receipt, and of a tree page only what lies on a way. So a byte that was flipped there would be found by none. The pages are read by the readers of the
reference, and their labels computed anew by it. Events aren't looked at: each of them is proved by itself."""

from __future__ import annotations

from typing import Iterator, NamedTuple, Optional

from weft.formats import Malformed, fields, genesis, line_of_thread, stores
from weft.formats import tree_pages as trees
from weft.lines import Line

STEP, EVENTS, TREE = 1, 2, 3
NEXT_STEP = "what the store keeps for its next step isn't right"


class Before:
    """What the pages before one have: of each step that a later one leads to its page and its authenticator, of each tree page its label, and the root of the
    last step's archive; how many threads were received; and what was amiss since the last step."""

    def __init__(self, name: str):
        self.steps = {0: (0, genesis(name))}
        self.labels: dict[int, bytes] = {}
        self.archive, self.threads = trees.NO_CHILD, 0
        self.amiss: list[str] = []

    def look(self, number: int, page: bytes) -> list[tuple[int, str]]:
        """Looks at a page; what was amiss up to a step is told with that step's page."""
        try:
            if page[0] == TREE:
                self.look_at_tree(number, trees.read_tree_page(page, number))
            elif page[0] == STEP:
                return self.look_at_step(number, stores.read_step_page(page, number))
            elif page[0] != EVENTS:
                self.amiss.append(f"page {number} is none of a store")
        except Malformed as bad:
            self.amiss.append(f"page {number} isn't as it has to be (byte {bad.place})")
        return []

    def look_at_tree(self, number: int, page: trees.TreePage) -> None:
        """Each page below a tree page has the label that stands there."""
        if any(child.page and self.labels.get(child.page) != child.label for child in page.children):
            self.amiss.append(f"page {number} of its archive has another label of a page below it than that one has")
        self.labels[number] = page.label()

    def look_at_step(self, number: int, page: stores.StepPage) -> list[tuple[int, str]]:
        """Each link leads to the page of its step, which has that authenticator; and where nothing was received the archive is that of the step before."""
        for level, link in enumerate(page.links):
            target = page.step - 2**level
            if self.steps.get(target, link) != link:
                self.amiss.append(f"its link to step {target} and the page of that step differ")
            if target % 2 ** (level + 1):
                self.steps.pop(target, None)  # (no later step has a link to it)
        label = self.labels.get(page.archive.page)
        if page.archive != (self.archive if page.thread is None else (page.archive.page, label)):
            self.amiss.append("the root of its archive isn't as its pages have it")
        self.archive, self.steps[page.step] = page.archive, (number, page.authenticator)
        self.threads += page.thread is not None
        amiss, self.amiss = self.amiss, []
        return [(page.step, why) for why in amiss]


def amiss(data: bytes) -> Iterator[tuple[int, str]]:
    """What is amiss in the pages of a store's file, and at which step; raises ValueError where it is none of a service."""
    _, body = stores.read_store(data)
    root = stores.read_service_root(body.root)
    before = Before(root.name)
    for number in range(trees.FIRST, body.used):
        yield from before.look(number, data[number * trees.PAGE : (number + 1) * trees.PAGE])
    last = before.steps.get(root.steps), before.archive, before.threads
    if before.amiss or last != ((root.page, root.authenticator), root.archive, root.threads):
        yield root.steps, "; ".join([*before.amiss, f"{NEXT_STEP}: the record that counts and the pages differ"])


# ---- what the pages say, as they stand there


class ListedStep(NamedTuple):
    """A step: its number, the time that it claims, or None, its events, and the line that it received, or None."""

    number: int
    time: Optional[int]
    events: list[bytes]
    received: Optional[Line]


def steps_in(data: bytes) -> Iterator[ListedStep]:
    """The steps of a store's file, in their order, as its pages have them; raises ValueError where it is none of a service, or a page can't be read."""
    _, body = stores.read_store(data)
    stores.read_service_root(body.root)
    for number in range(trees.FIRST, body.used):
        page = page_at(data, number)
        if page[0] == STEP:
            found = stores.read_step_page(page, number)
            yield ListedStep(found.step, found.time, events_of(data, found), line_of_thread(found.thread))


def page_at(data: bytes, number: int) -> bytes:
    """A page of a store's file."""
    return data[number * trees.PAGE : (number + 1) * trees.PAGE]


def events_of(data: bytes, step: stores.StepPage) -> list[bytes]:
    """The events of a step, which stand one behind the other over its event pages, each behind its length."""
    count = -(-step.stream // stores.PIECE)
    stream = b"".join(stores.read_event_page(page_at(data, step.first + place)).piece for place in range(count))
    read = fields.Reader(stream[: step.stream], step.stream)
    events = [read.take(read.number(4, 0, fields.MOST_EVENT)) for _ in range(step.count)]
    read.end()
    return events
