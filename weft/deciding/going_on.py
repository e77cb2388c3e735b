"""When a service goes on in a new part, under which name, what shows that a part is the next one, and that none is missing."""

from __future__ import annotations

import re
from enum import Enum
from typing import Collection, Iterable, NamedTuple, Optional, Sequence

from weft.deciding.lines import Line, may_take_name

GOES_ON = b"goes on as "
MOST_NAME = 16
# So many numbers behind the last part's a name is still taken for a later part's: a year isn't one.
MOST_AHEAD = 99
END = re.compile("-[1-9][0-9]{0,5}")
FOLDER = re.compile("part-[1-9][0-9]{0,5}")


class Joint(NamedTuple):
    """What is proved of two stores, where a log may go on from one to the other: the last line of the old one, and the name in its last step; the name of the
    new one, and the line that its first step received."""

    end: Line
    named: Optional[str]
    name: str
    received: Optional[Line]


class Making(NamedTuple):
    """What is noted of a part that is being made, its number and name; how many parts of the log there are; the name in the last step of the part before it,
    proved; how many steps it has itself, and whether lines stand beside it; and whether it is noted beside the first part that it was made."""

    number: int
    name: str
    parts: int
    named: Optional[str]
    steps: int
    has_lines: bool
    is_noted: bool


def naming_event(name: str) -> bytes:
    """The event by which the last step of a part names the next one; no entry of a file reads so."""
    return GOES_ON + name.encode()


def named_in(events: Sequence[bytes]) -> Optional[str]:
    """The name of the next part, where a step has that event and no other one; else None."""
    if len(events) != 1 or not events[0].startswith(GOES_ON):
        return None
    name = events[0][len(GOES_ON) :].decode("ascii", "replace")
    return name if may_take_name(name) else None


def is_next(joint: Joint) -> bool:
    """A store is the next part where the last step of the old one names it, and its first step received the last line of the old one, both proved. How it is
    called, and where it lies, says nothing."""
    return joint.named == joint.name and joint.received == joint.end


def is_being_made(it: Making) -> bool:
    """A part is being made where it is the one behind the last part, or the last one itself, where the part before it names it, and where it has its first
    step at most, no line beside it, and isn't noted as made. Any other note of one is an old or a false one: a part that is there, or was, isn't made."""
    is_made = it.steps > 1 or it.has_lines or it.is_noted
    return it.number > 1 and it.number in (it.parts, it.parts + 1) and it.named == it.name and not is_made


def is_folder_of_part(name: str, has_store_above: bool) -> bool:
    """A folder that is called as a part, in one that has a store, is that of a part: nothing is made there by itself, since the whole log has one lock and one
    set of entries."""
    return has_store_above and FOLDER.fullmatch(name) is not None


def is_name_of_other(steps: Collection[int]) -> bool:
    """A name is another service's where its user keeps a line of such a step of that name, and no store of his own has it: no service is made under it. The
    line of step 0 follows from the name, and says nothing."""
    return any(step > 0 for step in steps)


def find_missing_part(names: Collection[str], handed_out: Sequence[Line]) -> Optional[Line]:
    """Of the lines of a log that were handed out the first one that is of none of its parts, of which these are the names: that part is missing."""
    return next((line for line in handed_out if line.service not in names), None)


def find_later_part(names: Sequence[str], kept: Iterable[Line], others: Collection[str]) -> Optional[Line]:
    """Of the lines that a log's user keeps the first one that tells of a part behind the last one of these: a further part can have its name, of a later number
    that isn't far ahead, and nobody else is known to have it (names of others are passed over). So an old store isn't gone on with that ended since, and the log
    of another year is none. The line of step 0 follows from the name, and says nothing."""
    return next((line for line in kept if line.step > 0 and is_name_of_later(names, line.service, others)), None)


def is_name_of_later(names: Sequence[str], name: str, others: Collection[str]) -> bool:
    """Whether a part behind the last one of these can have a name, and nobody else is known to have it."""
    last = number_of_part(names[0], names[-1])
    return name not in others and number_of_part(names[0], name) in range(last + 1, last + 1 + MOST_AHEAD + len(others))


def number_of_part(first: str, name: str) -> int:
    """The number of the part of a log, whose first one is called so, that a name is of: 1 of the first one, 0 of what no part can be called."""
    if name == first:
        return 1
    return int(name[name.rfind("-") + 1 :]) if is_name_of_part(first, name) else 0


def choose_names_to_note(names: Sequence[str], noted: Collection[str], peers: Collection[str], heard: Collection[str]) -> list[str]:
    """Names of others are noted for good: those of a box's own peers each, and of such as were only heard, which anybody can make up, those that one of the next
    parts behind the last of these could get."""
    return sorted({*noted, *peers, *(name for name in heard if is_name_of_later(names, name, ()))})


def next_name(first: str, number: int, taken: Collection[str]) -> str:
    """The name of the part of this number is that of the first one, cut where `-2` behind it needs the room; a name that another service has is passed over,
    for that of the next number."""
    while True:
        end = f"-{number}"
        name = first[: MOST_NAME - len(end)] + end
        if name not in taken:
            return name
        number += 1


def is_name_of_part(first: str, name: str) -> bool:
    """A part can only have a name that `next_name` makes of the first one's: so no peer takes, by naming a part, a name that isn't its own to take. That it
    can have it doesn't show that it is the part."""
    end = name[name.rfind("-") :] if "-" in name else ""
    return END.fullmatch(end) is not None and end != "-1" and name == first[: MOST_NAME - len(end)] + end


class Fault(Enum):
    """Why a name isn't that of the part in which a peer goes on."""

    UNNAMED = "its last line names none"
    FOREIGN = "a part of it can't have the name"
    TAKEN = "another service has the name"


def weigh_name(named: Optional[str], first: str, taken: Collection[str]) -> Optional[Fault]:
    """What a peer's last step names is looked for only under a name that a part of it can have and that nobody else has here: so no peer takes the name of
    another one, or of the service itself."""
    if named is None:
        return Fault.UNNAMED
    if not is_name_of_part(first, named):
        return Fault.FOREIGN
    return Fault.TAKEN if named in taken else None


def end_counts(is_signed_now: bool, noted: Collection[str], by_itself: str) -> bool:
    """A part of a peer has ended, as its line said, while a key signed that line which is noted of it now, or where a person noted a key of the part in which it goes
    on, by these fingerprints one that wasn't noted by itself: so no end outlives its key."""
    return is_signed_now or any(key != by_itself for key in noted)


def is_behind_end(end: Line, line: Line) -> bool:
    """A signed line of a part that has ended is told where it is behind its last one: somebody else has the key, or it went on beside the part that it named.
    It is never taken up, whatever it names."""
    return line.step > end.step


def must_go_on(size: int, added: int, most: int) -> bool:
    """A part is at its end where a further step would bring its history's file above its share of what such a file may have."""
    return size + added > most
