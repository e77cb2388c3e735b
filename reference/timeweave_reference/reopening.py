"""Stores read back: the service, or the follower, that a store's file is of.

docs/formats.md, "The store's pages". A service is made anew by its steps' pages, one after another, and its pages have to be those of the file: so what is
read is a store that keeps a history, whole. The first page that isn't so is told.
"""

from __future__ import annotations

from typing import List, Sequence, Union

from .anchors import Anchor
from .archives import Entry
from .events_files import sized
from .fields import Malformed, Reader
from .followers import Follower
from .services import Service
from .stores import PIECE, Body, NoStore, StepPage, event_pages, read_event_page, read_follower_root, read_head_page, read_service_root, read_step_page, read_store
from .tree_pages import FIRST, PAGE, TreePage


class BadPage(ValueError):
    """A page of a store isn't of its kind, or doesn't fit the others; `number` is that page's."""

    def __init__(self, number: int) -> None:
        super().__init__(number)
        self.number = number


class Pages:
    """The pages of a store's file, by their numbers."""

    def __init__(self, data: bytes, used: int) -> None:
        self.data, self.used = data, used

    def page(self, number: int) -> bytes:
        """The page of a number; raises `BadPage` where the store has none."""
        if not FIRST <= number < self.used:
            raise BadPage(number)
        return self.data[number * PAGE : (number + 1) * PAGE]


def step_pages(pages: Pages, last: int, steps: int) -> List[StepPage]:
    """The pages of all steps, the first one first, found from the last one's page down; raises `BadPage`."""
    found: List[StepPage] = []
    number = last
    for step in range(steps, 0, -1):
        try:
            page = read_step_page(pages.page(number), number)
        except Malformed as bad:
            raise BadPage(number) from bad
        if page.step != step:
            raise BadPage(number)
        found.append(page)
        number = page.links[0][0]
    return found[::-1]


def events_of(pages: Pages, page: StepPage) -> List[bytes]:
    """The events of a step, of its event pages; raises `BadPage`."""
    stream = b""
    for place in range(-(-page.stream // PIECE)):
        try:
            stream += read_event_page(pages.page(page.first + place)).piece
        except Malformed as bad:
            raise BadPage(page.first + place) from bad
    read, found = Reader(stream[: page.stream], page.stream), []
    try:
        for _ in range(page.count):
            found.append(read.take(read.number(4, 0, page.stream)))
        read.end()
    except Malformed as bad:
        raise BadPage(page.first) from bad
    return found


def add_step(service: Service, pages: Pages, page: StepPage) -> None:
    """Makes the step of a page once more; raises `BadPage`."""
    if page.thread is None:
        events = events_of(pages, page)
        first = service.archive.next_page() if page.stream else 0
        for made in event_pages(page.step, events):
            service.archive.put(made.to_bytes())
        service.add_step(events, None, page.time, len(sized(events)), first)
        return
    entry = Entry(page.thread.service, page.thread.step, page.thread.authenticator, page.step)
    service.archive.insert(entry)
    service.entries[entry.key] = service.last_of[entry.service] = entry
    service.add_step((), entry, page.time, 0, 0)


def check_pages(made: Sequence[Union[TreePage, bytes]], pages: Pages, first: int) -> None:
    """Raises `BadPage` with the first page, from this place of the list on, that the file has otherwise."""
    for place in range(first, len(made)):
        page = made[place]
        if (page if isinstance(page, bytes) else page.to_bytes()) != pages.page(FIRST + place):
            raise BadPage(FIRST + place)


def read_service(data: bytes, slot: int, body: Body) -> Service:
    """The service whose store the file is; raises `NoStore` or `BadPage`."""
    try:
        root = read_service_root(body.root)
    except Malformed as bad:
        raise NoStore(slot) from bad
    if not root.may_stand(body):
        raise NoStore(slot)
    pages, service = Pages(data, body.used), Service(root.name)
    for page in step_pages(pages, root.page, root.steps):
        place = len(service.archive.pages)
        add_step(service, pages, page)
        check_pages(service.archive.pages, pages, place)
    if service.root(service.steps) != body.root:
        raise NoStore(slot)
    return service


def read_follower(data: bytes, slot: int, body: Body) -> Follower:
    """The follower whose store the file is; raises `NoStore` or `BadPage`."""
    try:
        root = read_follower_root(body.root)
    except Malformed as bad:
        raise NoStore(slot) from bad
    if not root.may_stand(body):
        raise NoStore(slot)
    pages, number = Pages(data, body.used), root.page
    heads: List[Anchor] = []
    while number:
        try:
            page = read_head_page(pages.page(number), number)
        except Malformed as bad:
            raise BadPage(number) from bad
        head = Anchor(page.step, page.authenticator)
        if page.step >= heads[-1].step if heads else head != (root.step, root.authenticator):
            raise BadPage(number)
        heads.append(head)
        number = page.before
    return Follower(root.name, heads[::-1])


def read_stored(data: bytes, of_follower: bool) -> Union[Service, Follower]:
    """The service, or the follower, whose store the file is; raises `NoStore` or `BadPage`."""
    slot, body = read_store(data)
    return read_follower(data, slot, body) if of_follower else read_service(data, slot, body)
