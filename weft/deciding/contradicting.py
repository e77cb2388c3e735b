"""Which of many accepted files on what services received may contradict each other. Of each file few others are named, so that a million are looked through."""

from __future__ import annotations

from bisect import bisect_right
from typing import Collection, Iterable, Iterator, NamedTuple, Optional, Sequence

from weft.deciding.lines import Line


class Received(NamedTuple):
    """A line that a service received: whose, of which step, its authenticator, and the step that received it."""

    peer: str
    step: int
    authenticator: str
    at: int


class Lacked(NamedTuple):
    """Lines of a peer that a service received by no step up to `upto`: those above one step of the peer, up to a last one."""

    peer: str
    above: int
    last: int
    upto: int


class Told(NamedTuple):
    """What an accepted file tells of a service: the line that it is under, the step whose archive it shows with its authenticator and that of the step before,
    how many events it has and which time it claims; a line that was received, and lines that weren't, or None."""

    under: Line
    step: int
    authenticator: str
    before: str
    events: int
    time: Optional[int]
    received: Optional[Received]
    lacked: Optional[Lacked]

    @property
    def service(self) -> str:
        """The service that it is of."""
        return self.under.service

    @property
    def text(self) -> str:
        """Its words, by which `read_told` gives it back."""
        of_step = [self.step, self.authenticator, self.before, self.events, "-" if self.time is None else self.time]
        return " ".join(map(str, [*self.under, *of_step, *(self.received or NOTHING), *(self.lacked or NOTHING)]))


# In the words of what a file tells a thread, and what is lacking, have four, which are these where there is none.
NOTHING = ("-", "-", "-", "-")
WORDS = 16


class Pair(NamedTuple):
    """Two files by their places in a list, the first below the second."""

    first: int
    second: int


class Differing(NamedTuple):
    """Two files, by their places in a list, that tell two lines of one step: that of the first and that of the second."""

    first: int
    second: int
    one: Line
    other: Line


def find_two_lines(told: Iterable[tuple[int, Line]]) -> list[Differing]:
    """Of one step of a service there is one line. Whatever files tell another one than the first that told one are named with that, each such pair once."""
    firsts: dict[tuple[str, int], tuple[int, Line]] = {}
    found: dict[tuple[int, int], Differing] = {}
    for place, line in told:
        first, one = firsts.setdefault((line.service, line.step), (place, line))
        if one != line:
            found.setdefault((first, place), Differing(first, place, one, line))
    return list(found.values())


def read_told(text: str) -> Optional[Told]:
    """What these words tell; None where they aren't so many."""
    words = text.split(" ")
    if len(words) != WORDS:
        return None
    service, top, authenticator, step, shown, before, events, time, *more = words
    (peer, received, line, at), (other, above, last, upto) = more[:4], more[4:]
    return Told(
        Line(service, int(top), authenticator), int(step), shown, before, int(events), None if time == "-" else int(time),
        None if peer == "-" else Received(peer, int(received), line, int(at)), None if other == "-" else Lacked(other, int(above), int(last), int(upto)),
    )  # fmt: skip


# In front of the services by whose word a chain or evidence tells what it does.
BY = "by "


def write_by(services: Iterable[str]) -> str:
    """The services by whose word a file tells what others recorded, as one text; nothing of none."""
    named = ",".join(sorted({*services}))
    return f"{BY}{named}" if named else ""


def read_by(text: str) -> set[str]:
    """The services of such a text; none of another one."""
    return {*text.removeprefix(BY).split(",")} if text.startswith(BY) else set()


def may_count(line: Line, of: Optional[str], broken: Collection[str]) -> bool:
    """What a service that broke a rule received, it may have made up: so a file of it, as `of` names the service of one on what a service received, and of a history, shows no
    other service's line. Its own lines count."""
    return of is None or of not in broken or line.service == of


class Whole(NamedTuple):
    """A whole history: its service, the authenticators of its steps from 0 on, and the lines that it received."""

    service: str
    authenticators: Sequence[str]
    received: Sequence[Line]


def find_histories_apart(histories: Sequence[Whole]) -> list[Differing]:
    """Of one step of a service there is one line: histories of which one received another line than a second one has there, or received, are named, by their places."""
    told = [(place, line) for place, it in enumerate(histories) for line in it.received if line.step]
    steps = {(line.service, line.step): None for _, line in told}
    own = [
        (place, Line(service, step, it.authenticators[step]))
        for place, it in enumerate(histories) for service, step in steps if service == it.service and step < len(it.authenticators)
    ]  # fmt: skip
    return find_two_lines([*told, *own])


class Hop(NamedTuple):
    """That a service received a line, as a chain or evidence tells it: who, the line, whether another line binds it, and what that service's archive tells beside it."""

    by: str
    line: Line
    is_bound: bool
    beside: list[Line]


class Doubted(NamedTuple):
    """The lines that a file tells by the word of services that broke a rule; and whether what lies behind the last hop rests on such a word too."""

    lines: list[Line]
    is_end: bool


def find_doubted(hops: Sequence[Hop], broken: Collection[str]) -> Doubted:
    """What a service that broke a rule received, it may have made up: so the hops of a chain, from the later event on, show nothing of others by its word, nor by that of a
    service whose step it carries, until a line binds the step of a next one."""
    found: list[Line] = []
    is_carried = False
    for hop in hops:
        is_doubted = is_carried or hop.by in broken
        if is_doubted:
            found += [*hop.beside, *([] if hop.is_bound else [hop.line])]
        is_carried = is_doubted and not hop.is_bound
    return Doubted(found, is_carried)


def pair_of(one: int, other: int) -> Pair:
    """The pair of two places."""
    return Pair(min(one, other), max(one, other))


class Entry(NamedTuple):
    """A line that was received, with the service that received it and the place of the file that tells it."""

    service: str
    it: Received
    place: int


def list_entries(told: Sequence[Told]) -> list[Entry]:
    """The lines that were received, by services and peers, and of these by their steps."""
    found = [Entry(one.service, one.received, place) for place, one in enumerate(told) if one.received is not None]
    return sorted(found, key=lambda entry: (entry.service, entry.it.peer, entry.it.step, entry.it.at, entry.place))


def find_differing(entries: Sequence[Entry]) -> Iterator[Pair]:
    """One step of a peer is received once, with one authenticator, and a step receives one line. Whatever differs from the first of its kind is named with
    that one."""
    of_step: dict[tuple[str, str, int], Entry] = {}
    at_step: dict[tuple[str, int], Entry] = {}
    for entry in entries:
        first = of_step.setdefault((entry.service, entry.it.peer, entry.it.step), entry)
        if first.it != entry.it:
            yield pair_of(first.place, entry.place)
        first = at_step.setdefault((entry.service, entry.it.at), entry)
        if first.it[:2] != entry.it[:2]:
            yield pair_of(first.place, entry.place)


def find_falling(entries: Sequence[Entry]) -> Iterator[Pair]:
    """Of two lines of one peer that of the lower step is received first: neighbours by the peer's step are named where that isn't so."""
    for one, other in zip(entries, entries[1:]):
        if (one.service, one.it.peer) == (other.service, other.it.peer) and one.it.at > other.it.at:
            yield pair_of(one.place, other.place)


def find_denied(told: Sequence[Told], entries: Sequence[Entry]) -> Iterator[Pair]:
    """What one file tells as received, another one tells as not received by the step that received it: each line with what denies that very step longest."""
    lacking: dict[tuple[str, str, int], int] = {}
    for place, one in enumerate(told):
        lacked = one.lacked
        if lacked is not None and lacked.last == lacked.above + 1:
            key = one.service, lacked.peer, lacked.last
            other = told[lacking[key]].lacked if key in lacking else None
            if other is None or other.upto < lacked.upto:
                lacking[key] = place
    for entry in entries:
        denied = lacking.get((entry.service, entry.it.peer, entry.it.step))
        lacked = told[denied].lacked if denied is not None else None
        if denied is not None and lacked is not None and entry.it.at <= lacked.upto:
            yield pair_of(entry.place, denied)


def find_denied_by_maps(told: Sequence[Told], entries: Sequence[Entry]) -> Iterator[Pair]:
    """The same of what denies many steps. Of a peer's lines above a step the first is received first, or some fall."""
    found: dict[tuple[str, str], list[Entry]] = {}
    for entry in entries:
        found.setdefault((entry.service, entry.it.peer), []).append(entry)
    steps = {key: [entry.it.step for entry in rising] for key, rising in found.items()}
    for place, one in enumerate(told):
        lacked = one.lacked
        if lacked is None or (one.service, lacked.peer) not in found:
            continue
        above = bisect_right(steps[one.service, lacked.peer], lacked.above)
        for entry in found[one.service, lacked.peer][above : above + 1]:
            if entry.it.step <= lacked.last and entry.it.at <= lacked.upto:
                yield pair_of(place, entry.place)


def find_events_too(told: Sequence[Told], entries: Sequence[Entry]) -> Iterator[Pair]:
    """A step that received a line has no events."""
    with_events = {(one.service, one.step): place for place, one in enumerate(told) if one.events}
    for entry in entries:
        place = with_events.get((entry.service, entry.it.at))
        if place is not None:
            yield pair_of(place, entry.place)


def find_clocks_back(told: Sequence[Told]) -> Iterator[Pair]:
    """A later step claims no earlier time: neighbours of those that claim one are named where it does."""
    times = sorted((one.service, one.step, one.time, place) for place, one in enumerate(told) if one.time is not None)
    for first, second in zip(times, times[1:]):
        if first[0] == second[0] and first[2] > second[2]:
            yield pair_of(first[3], second[3])


def find_other_lines(told: Sequence[Told]) -> Iterator[Pair]:
    """Of one step there is one authenticator: that of a line, of a shown step, and of the step before a shown one. Whatever differs from the first is named
    with it; those of steps before come last, since two of them break nothing by themselves."""
    lines = [(place, line) for place, one in enumerate(told) for line in (one.under, Line(one.service, one.step, one.authenticator))]
    lines += [(place, Line(one.service, one.step - 1, one.before)) for place, one in enumerate(told)]
    for found in find_two_lines(lines):
        yield pair_of(found.first, found.second)


def find_pairs(told: Sequence[Told]) -> list[Pair]:
    """The pairs that a judge is to be asked about. Where two of these files show a rule of histories broken that neither of them shows broken alone, some pair
    does that is named here."""
    entries = list_entries(told)
    received = [*find_differing(entries), *find_falling(entries), *find_denied(told, entries), *find_denied_by_maps(told, entries)]
    received += find_events_too(told, entries)
    return list(dict.fromkeys(pair for pair in [*received, *find_clocks_back(told), *find_other_lines(told)] if pair.first != pair.second))
