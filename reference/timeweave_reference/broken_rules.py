"""The rules of sound histories that two files show broken, each by what they say of one service.

docs/definitions.md, "Files that contradict each other". A pair that breaks none of them is one that a sound history may show.
"""

from __future__ import annotations

from typing import Callable, Iterator, NamedTuple, Tuple

from .anchors import Anchor
from .archive_facts import Facts
from .archives import Entry
from .hashed_texts import NO_EVENTS, genesis

Breaks = Callable[[Facts, Facts], bool]
"""Whether a rule is broken by what one file says beside another."""

Line = Callable[[Facts, Facts], str]
"""A line that tells what one of two files says, which is handed in first, or of what both say."""


# ---- what breaks the rules: of one file, and of two


def _denied(one: Facts, other: Facts) -> bool:
    """The other one lacks the entry."""
    return bool(one.entry and other.lack and other.lack.has(one.entry))


def _own_thread(one: Facts, other: Facts) -> bool:
    """The entry is of the service itself."""
    return bool(one.entry and one.entry.service == one.service)


def _received_later(one: Facts, other: Facts) -> bool:
    """The archive of a step has what a later step received."""
    return bool(one.entry and one.entry.archived > one.shown.step)


def _entries(one: Facts, other: Facts) -> Iterator[Tuple[Entry, Entry]]:
    """Both entries, where each has one."""
    if one.entry and other.entry:
        yield one.entry, other.entry


def _two_entries(one: Facts, other: Facts) -> bool:
    """There are two entries of one key."""
    return any(here.key == there.key and here != there for here, there in _entries(one, other))


def _two_at_one_step(one: Facts, other: Facts) -> bool:
    """One step received two threads."""
    return any(here.archived == there.archived and here.key != there.key for here, there in _entries(one, other))


def _steps_fall(one: Facts, other: Facts) -> bool:
    """A lower step of a peer was received later."""
    return any(here.service == there.service and here.step < there.step and here.archived > there.archived for here, there in _entries(one, other))


def _events_too(one: Facts, other: Facts) -> bool:
    """The step that received the entry has events."""
    return bool(one.entry and one.entry.archived == other.shown.step and other.opening.count)


def _clock_back(one: Facts, other: Facts) -> bool:
    """A later step has an earlier time."""
    time, later = one.opening.time, other.opening.time
    return time is not None and later is not None and one.shown.step < other.shown.step and time > later


def _differ(here: Anchor, there: Anchor) -> bool:
    """Two authenticators are of one step."""
    return here.step == there.step and here != there


def _other_empty_root(one: Facts, other: Facts) -> bool:
    """A step without events has a root of some, or one of some the root of none."""
    return (one.opening.count == 0) != (one.opening.event_root == NO_EVENTS)


# ---- what is told of them


def _thread(one: Facts, other: Facts) -> str:
    entry = one.entry
    return f"thread {one.service} {one.shown.step} {entry.service} {entry.step} {entry.authenticator.hex()} {entry.archived}" if entry else ""


def _absent(denies: Facts, says: Facts) -> str:
    return f"absent {denies.service} {denies.lack.upto} {says.entry.service} {says.entry.step}" if denies.lack and says.entry else ""


def _step(one: Facts, other: Facts) -> str:
    (step, auth), time = one.shown, one.opening.time
    return f"step {one.service} {step} {auth.hex()} {one.opening.count} {'-' if time is None else time}"


def _line(one: Facts, other: Facts) -> str:
    return f"line {one.service} {one.line.step} {one.line.authenticator.hex()}"


def _before(one: Facts, other: Facts) -> str:
    return f"before {one.service} {one.before.step} {one.before.authenticator.hex()}"


def _root(one: Facts, other: Facts) -> str:
    return f"root {one.service} {one.shown.step} {one.opening.event_root.hex()}"


# ---- the rules


class Rule(NamedTuple):
    """A rule: its word, what breaks it, and the lines that are told, of the one file and of the other, or None where the one breaks it alone."""

    word: str
    is_broken: Breaks
    one_line: Line
    other_line: Line | None


RULES: Tuple[Rule, ...] = (
    Rule("Denied", _denied, _thread, _absent),
    Rule("OwnThread", _own_thread, _thread, None),
    Rule("ReceivedLater", _received_later, _thread, None),
    Rule("TwoEntries", _two_entries, _thread, _thread),
    Rule("TwoAtOneStep", _two_at_one_step, _thread, _thread),
    Rule("StepsFall", _steps_fall, _thread, _thread),
    Rule("EventsToo", _events_too, _thread, _step),
    Rule("ClockBack", _clock_back, _step, _step),
    Rule("TwoAuthenticators", lambda one, other: _differ(one.shown, other.shown), _step, _step),
    Rule("OtherThanLine", lambda one, other: _differ(one.line, other.shown), _line, _step),
    Rule("TwoLines", lambda one, other: _differ(one.line, other.line), _line, _line),
    Rule("OtherBefore", lambda one, other: _differ(one.before, other.shown), _before, _step),
    Rule("OtherBeforeLine", lambda one, other: _differ(one.before, other.line), _before, _line),
    Rule("OtherGenesis", lambda one, other: _differ(one.before, Anchor(0, genesis(one.service))), _before, None),
    Rule("OtherEmptyRoot", _other_empty_root, _root, None),
)
"""The rules, which are numbered from 1 in this order; the first that is broken is told."""


class Broken(NamedTuple):
    """A rule that is broken: its number, and what the files say of which the rule speaks as the one and the other."""

    number: int
    one: Facts
    other: Facts

    @property
    def rule(self) -> Rule:
        """The rule of this number."""
        return RULES[self.number - 1]

    def lines(self) -> Iterator[str]:
        """What is told of it. Files of which one shows an entry that the other denies are told without a line of the rule."""
        if self.number > 1:
            yield f"rule {self.number} {self.rule.word}"
        yield self.rule.one_line(self.one, self.other)
        if self.rule.other_line:
            yield self.rule.other_line(self.other, self.one)


def broken_rule(first: Facts, second: Facts) -> Broken | None:
    """The first rule that is broken between what two files say, or None; files of two services break none."""
    if first.service != second.service:
        return None
    for number, rule in enumerate(RULES, 1):
        for one, other in ((first, second), (second, first)):
            if rule.is_broken(one, other):
                return Broken(number, one, other)
    return None
