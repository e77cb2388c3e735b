"""What `weft check` may say of a store after what it looked at.

A store is called good only where all of it was looked at. What wasn't, since its history is longer than a file may be, or since a sample
was taken of it, is told and needs a look (10). What is damaged (8), and a line that isn't of the store, or that contradicts one that is
(17), stand before that."""

from __future__ import annotations

from enum import Enum
from typing import Callable, Iterable, NamedTuple, Optional, Sequence

from weft.statuses import Status


class Export(Enum):
    """What came of a store's export: the whole history, of which each authenticator was computed anew; none, since it is longer than a
    file may be; or none, since a part of the store is damaged."""

    WHOLE = "whole"
    TOO_LONG = "too long"
    DAMAGED = "damaged"


class Place(NamedTuple):
    """A step, and the index of an event in it."""

    step: int
    index: int  # type: ignore[assignment]


class Logged(NamedTuple):
    """What a log's file of entries tells of an event: its step, its place there, and itself."""

    step: int
    index: int  # type: ignore[assignment]
    event: bytes


class Looked(NamedTuple):
    """What was looked at of a store: what came of its export; how many events its steps have, None where that of a step isn't known; how
    many of them were proved; and whether its archive is known to have no received thread."""

    export: Export
    events: Optional[int]
    proved: int
    has_no_threads: bool


class Found(NamedTuple):
    """What was found: how many steps aren't good, how many kept lines aren't of the store, and of how many of its steps two kept lines
    contradict."""

    bad_steps: int
    other_lines: int
    disputed: int


class EntryState(Enum):
    """What was found of the entries of a store: it is none of a log; all are what it recorded, or were made anew; none stand beside it, though it has such as a
    log makes; they differ; a run of weft log was stopped amid a step; or they weren't looked at."""

    NONE = "none"
    GOOD = "good"
    MADE = "made anew"
    MISSING = "missing"
    DIFFERING = "differing"
    AMID_A_STEP = "amid a step"
    UNSEEN = "not looked at"


def judge_entries(found: EntryState) -> Status:
    """Entries that differ from what the store recorded are as a damaged store (8); lost ones, and such as a stopped run left, need a look (10); what wasn't
    looked at is told with what else wasn't."""
    if found is EntryState.DIFFERING:
        return Status.BAD_STORE
    return Status.LOOK if found in (EntryState.MISSING, EntryState.AMID_A_STEP) else Status.DONE


def list_unseen(looked: Looked) -> list[str]:
    """What wasn't looked at, as parts of a sentence: nothing where the whole history was exported; else each event that wasn't proved,
    and the archive of received threads, unless it is known to have none. Of a damaged store nothing is listed: that it is damaged is
    what is told."""
    if looked.export is not Export.TOO_LONG:
        return []
    unseen = []
    if looked.events is None:
        unseen.append("the events of steps whose number of events isn't known")
    elif looked.proved < looked.events:
        unseen.append(f"{looked.events - looked.proved:,} of its {looked.events:,} events")
    if not looked.has_no_threads:
        unseen.append("the archive of the threads that it received")
    return unseen


def judge_check(found: Found, looked: Looked) -> Status:
    """A store isn't the one of a kept line, or nothing shows that it is where kept lines of one of its steps contradict: it may have been
    set back and gone on with (17). Else it may be damaged (8), which it is where a step is bad or the export says so; it needs a look (10)
    where something wasn't looked at; and else it is good."""
    if found.other_lines or found.disputed:
        return Status.OLD_STORE
    if found.bad_steps or looked.export is Export.DAMAGED:
        return Status.BAD_STORE
    return Status.LOOK if list_unseen(looked) else Status.DONE


def may_make_entries(status: Status) -> bool:
    """Entries are made anew only of a store that is good as far as it was looked at: not of one that is damaged, or that isn't the one of a kept line."""
    return status in (Status.DONE, Status.LOOK)


def follows(step: int, place: int, last: int, count: int) -> bool:
    """An entry follows those before it where it is the next one of their last step, of which there are so many, or the first one of a later step."""
    return (step, place) == (last, count) or (step > last and place == 0)


class Differing(NamedTuple):
    """Where entries and their store differ: the step, and the entry that isn't its event; None where entries of it are missing."""

    step: int
    false: Optional[Logged]


def find_differing(entries: Iterable[Logged], steps: Iterable[tuple[int, Sequence[bytes]]], is_of_log: Callable[[Sequence[bytes]], bool]) -> Optional[Differing]:
    """The first place where they differ: an entry that isn't the event that the store has in its step, at its place; or a step of a log of whose events one
    has no entry. Steps of the store that are of no log are others' work."""
    left = iter(entries)
    entry = next(left, None)
    for step, events in steps:
        count = 0
        while entry is not None and entry.step <= step:
            if entry.step < step or entry.index != count or count >= len(events) or events[count] != entry.event:
                return Differing(entry.step, entry)
            entry, count = next(left, None), count + 1
        if count < len(events) and is_of_log(events):
            return Differing(step, None)
    return None if entry is None else Differing(entry.step, entry)


def choose_places(counts: Sequence[int], most: Optional[int]) -> list[Place]:
    """Of the events of steps from 1 on, which have so many each, all are chosen where `most` is None or they aren't more, else `most`
    spread from the first to the last one; of a `most` of 1 the first."""
    total = sum(counts)
    chosen = total if most is None else min(most, total)
    places: list[Place] = []
    step, below = 0, 0
    for number in range(chosen):
        event = number * (total - 1) // max(1, chosen - 1)
        while event >= below + counts[step]:
            below, step = below + counts[step], step + 1
        places.append(Place(step + 1, event - below))
    return places
