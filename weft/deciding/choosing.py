"""Which kept lines a file is held against, which lines are missing, whom to ask for them, and what is said first of a file that was
judged."""

from __future__ import annotations

from enum import Enum
from typing import Collection, Iterable, Mapping, NamedTuple, Optional, Sequence

from weft.deciding.lines import Line

MOST_ASKED = 3


class Headline(Enum):
    """What is said first of a file that was judged."""

    SHOWN = "shown"
    IN_PART = "shown in part"
    NOT_SHOWN = "not shown"
    NOT_JUDGED = "not judged"


class Beside(Enum):
    """What a line that a file tells is to those that were kept of its step."""

    NONE = "none was kept"
    SAME = "the same"
    OTHER = "another one"


class Extent(Enum):
    """How far a history is bound by kept lines."""

    CONTRADICTED = "a kept line differs"
    WHOLE = "as far as is asked"
    PART = "up to an earlier step"
    UNBOUND = "by no line"


HISTORY_HEADLINES = {
    Extent.CONTRADICTED: Headline.NOT_SHOWN,
    Extent.WHOLE: Headline.SHOWN,
    Extent.PART: Headline.IN_PART,
    Extent.UNBOUND: Headline.NOT_JUDGED,
}


class Needed(NamedTuple):
    """A service and the step of which a line is needed."""

    service: str
    step: int


class Chosen(NamedTuple):
    """The kept lines that a file is judged under; all that are missing; and the service of which it needs lines of two steps, if it
    does."""

    lines: list[Line]
    missing: list[Needed]
    clashing: Optional[str]


class HeldHistory(NamedTuple):
    """A history beside the kept lines of its service: those that it contradicts, those that agree, both by their steps, and the one that binds most of
    its steps, or None; and the last step of which a line was kept, where the file ends before it."""

    differing: list[Line]
    agreeing: list[Line]
    bound: Optional[Line]
    beyond: Optional[int] = None


def hold_line(told: Line, kept: Iterable[Line]) -> Beside:
    """A line that a file tells is held against every kept line of its step, however each came: one that differs makes them two lines of
    one step."""
    same = [line for line in kept if (line.service, line.step) == (told.service, told.step)]
    if any(line.authenticator != told.authenticator for line in same):
        return Beside.OTHER
    return Beside.SAME if same else Beside.NONE


def hold_history(authenticators: Sequence[str], kept: Iterable[Line]) -> HeldHistory:
    """A history, as the authenticators of its steps from 0 on, is held against every kept line of its service, of whatever step it has, from 1 on: that of
    step 0 follows from the name, and says nothing of a history. One that differs contradicts it; it is bound up to the last step whose kept lines all agree.
    A kept line of a step that it lacks shows that the service went on: the file may have been cut."""
    lines = {line for line in kept if line.step}
    beyond = max((line.step for line in lines if line.step >= len(authenticators)), default=None)
    within = sorted({line for line in lines if line.step < len(authenticators)}, key=lambda line: (line.step, line.authenticator))
    differing = [line for line in within if line.authenticator != authenticators[line.step]]
    agreeing = [line for line in within if line.authenticator == authenticators[line.step]]
    doubted = {line.step for line in differing}
    binding = [line for line in agreeing if line.step not in doubted]
    return HeldHistory(differing, agreeing, binding[-1] if binding else None, beyond)


def list_received(threads: Sequence[Optional[Line]], upto: int) -> list[Line]:
    """A history shows the lines that its steps, from step 1 on, received up to the step that a kept line binds, each once: what stands behind that is its file's word alone.
    Lines of step 0 follow from a name, and say nothing."""
    return list(dict.fromkeys(line for line in threads[:upto] if line is not None and line.step))


def measure_extent(held: HeldHistory, wanted: int) -> Extent:
    """A history that one kept line contradicts isn't shown, however many others agree. Else it is shown up to the step `wanted` where a
    line of that or of a later step binds it, and in part where one of an earlier step, from 1 on, does."""
    if held.differing:
        return Extent.CONTRADICTED
    if held.bound is None:
        return Extent.UNBOUND
    return Extent.WHOLE if held.bound.step >= wanted else Extent.PART


def choose_lines(needed: Iterable[Needed], kept: Mapping[Needed, Line]) -> Chosen:
    """Each line that a file needs is taken from the kept ones, and all that are missing are told at once. It is judged under one line a
    service: where it needs two steps of one, that is told."""
    lines: dict[str, Line] = {}
    missing: list[Needed] = []
    steps: dict[str, int] = {}
    clashing = None
    for it in needed:
        if steps.setdefault(it.service, it.step) != it.step:
            clashing = clashing or it.service
        elif it in kept:
            lines[it.service] = kept[it]
        elif it not in missing:
            missing.append(it)
    return Chosen(list(lines.values()), missing, clashing)


def choose_whom_to_ask(keeper: str, recorders: Iterable[str], known: Collection[str]) -> list[str]:
    """A missing line is to come from services that recorded lines of its keeper and of which lines are kept already, three at most, and never from the keeper:
    what he shows today may be made today. Of others a file that isn't judged may tell anything: its keeper may have made them up."""
    return [name for name in dict.fromkeys(recorders) if name != keeper and name in known][:MOST_ASKED]


def choose_unknown(keeper: str, recorders: Iterable[str], known: Collection[str]) -> list[str]:
    """The others that a file names so, three at most: nobody is sent to them."""
    return [name for name in dict.fromkeys(recorders) if name != keeper and name not in known][:MOST_ASKED]


def choose_holders(needed: Needed, received: Iterable[tuple[str, int, str]], known: Collection[str]) -> list[str]:
    """Who may have a missing line, or a later one that does as well: of the services that are known otherwise those that received one of that step or of a later one of
    its keeper, three at most, those of the earliest first; never the keeper. `received` has of each line that receipts tell of its service, its step and its
    receiver: anybody can make a receipt, so nobody is sent to a service that it names alone."""
    found = sorted((step, by) for service, step, by in received if service == needed.service and step >= needed.step)
    return choose_whom_to_ask(needed.service, (by for _, by in found), known)


def choose_older_step(steps: Iterable[int], proved: int, needed: int) -> Optional[int]:
    """What is proved of the step `proved`, under a line of the step `needed` that isn't held, can be proved under the first kept line
    between: of a step from `proved` on, and below `needed`."""
    return min((step for step in steps if proved <= step < needed), default=None)


def choose_later_step(steps: Iterable[int], needed: int) -> Optional[int]:
    """The history that has the step `needed` is proved, too, under the first kept line of a later step."""
    return min((step for step in steps if step > needed), default=None)


def choose_headline(is_accepted: bool, carried: int, is_unjudged: bool, is_contradicted: bool, is_other_file: bool) -> Headline:
    """First is said that nothing was judged, where a line is missing or the file is none. What isn't accepted, what contradicts a kept
    line, and what is of another file than the one named, isn't shown; what somebody's word alone carries is shown in part."""
    if is_contradicted:
        return Headline.NOT_SHOWN
    if is_unjudged:
        return Headline.NOT_JUDGED
    if is_other_file:
        return Headline.NOT_SHOWN
    if carried:
        return Headline.IN_PART
    return Headline.SHOWN if is_accepted else Headline.NOT_SHOWN


def choose_headline_unheld(found: Headline) -> Headline:
    """Where a file is to be held against another one, and that can't be read, it isn't judged: it is never called shown, not in part either. What isn't shown
    without that stays so."""
    return found if found is Headline.NOT_SHOWN else Headline.NOT_JUDGED


def choose_history_headline(extent: Extent) -> Headline:
    """A history is shown as far as is asked, shown in part up to an earlier step, not judged where no line binds it, and not shown where
    one differs."""
    return HISTORY_HEADLINES[extent]
