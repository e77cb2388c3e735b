"""When the stamps of a service's lines are renewed by themselves, so that each is before what it rests on ends; and what is noted of each, so that it isn't looked at every
night."""

from __future__ import annotations

import re
from typing import Callable, Mapping, NamedTuple, Optional, Sequence

from weft.deciding.authorities import may_name
from weft.deciding.lines import Line

DAY = 86_400
LEAD = 90 * DAY
MOST_DAYS = 36_525
MOST_A_NIGHT = 64
STAMP_NAME = re.compile(r"([0-9]{1,13})-([0-9a-f]{64})-[0-9a-f-]{32,65}\.stamp")
ROW = re.compile(r"(\S+) ([0-9]{1,9}) ([0-9]{1,12}) ([0-9]{1,12}) (\S+)")


def find_end(is_good: Callable[[int], bool], now: int) -> int:
    """The last second, by whole days from now on, at which what is good now is so still; found by halves, and looked for within 100 years."""
    good, bad = 0, MOST_DAYS
    while bad - good > 1:
        middle = (good + bad) // 2
        good, bad = (middle, bad) if is_good(now + middle * DAY) else (good, middle)
    return now + good * DAY


def when_due(made: int, end: int) -> int:
    """A stamp is renewed 90 days before it counts no more; one that counts for less than 270 days in its last third."""
    return end - min(LEAD, max(0, end - made) // 3)


def is_worth_keeping(end: int, renewed: int) -> bool:
    """A renewal is kept where the stamp counts longer by it; else it was made by a certificate that ends as early, and only fills the file."""
    return renewed > end


class Note(NamedTuple):
    """What is noted of a file of stamps: its name, how many bytes it has, the second by which its line stood, when its renewal is due, and by which authority it is."""

    name: str
    size: int
    second: int
    due: int
    authority: str

    @property
    def text(self) -> str:
        """Its row."""
        return f"{self.name} {self.size} {self.second} {self.due} {self.authority}"


def read_notes(text: str) -> dict[str, Note]:
    """The rows by the names of their files. One that is none is passed over: what isn't noted is looked at anew."""
    rows = [found for line in text.splitlines() if (found := ROW.fullmatch(line)) is not None and STAMP_NAME.fullmatch(found[1]) and may_name(found[5])]
    return {it[1]: Note(it[1], int(it[2]), int(it[3]), int(it[4]), it[5]) for it in rows}


def choose_looked_at(sizes: Mapping[str, int], notes: Mapping[str, Note], now: int) -> list[str]:
    """The files that are looked at tonight: those of which nothing is noted, or that have another size since, and then those whose renewal is due, the earliest first; 64 at
    most, and the others in the nights after."""
    new = [name for name, size in sizes.items() if name not in notes or notes[name].size != size]
    due = [it for it in notes.values() if sizes.get(it.name) == it.size and it.due <= now]
    return [*sorted(new), *(it.name for it in sorted(due, key=lambda it: it.due))][:MOST_A_NIGHT]


def line_of_stamp(service: str, name: str) -> Optional[Line]:
    """The line of which a file of stamps is, by its name; None of another file."""
    found = STAMP_NAME.fullmatch(name)
    return Line(service, int(found[1]), found[2]) if found is not None else None


def second_of(note: Note) -> int:
    """The second by which the line of a stamp stood."""
    return note.second


def last_of(notes: Sequence[Note]) -> Optional[Note]:
    """The stamp that was made last."""
    return sorted(notes, key=second_of)[-1] if notes else None


def first_due(notes: Sequence[Note]) -> Optional[int]:
    """When the next renewal is due."""
    return min((it.due for it in notes), default=None)
