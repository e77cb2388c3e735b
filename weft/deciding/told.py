"""What a turn saw of later lines of the own service, as SERVICE.told keeps it beside the store: so each word that comes after the turn knows it too.

A row of a line that the own key signed stands until the store has that line, or a person passes over the peer that told it (--despite). What nobody signed, and
what stands in one's own published folder, is seen anew by each turn, and stands until the next one."""

from __future__ import annotations

import re
from enum import Enum
from typing import Collection, Iterable, NamedTuple, Optional

from weft.deciding.lines import Line

# Of one teller so many rows are kept, those of the latest steps.
MOST_OF_ONE = 4
ROW = re.compile(r"([a-z0-9-]{1,16}) ([0-9]{1,13}) ([0-9a-f]{64}) (signed|unsigned|published)(?: ([a-z0-9-]{1,16}))?")


class By(Enum):
    """By what a line is told: signed by the own key, and handed back by a peer; by a peer's word alone; or in the own published folder."""

    SIGNED = "signed"
    UNSIGNED = "unsigned"
    PUBLISHED = "published"


class Row(NamedTuple):
    """A line of the own service that the store lacks, by what it is told, and which peer told it: none of what was published."""

    line: Line
    by: By
    teller: str = ""

    @property
    def text(self) -> str:
        """Its row in the file."""
        return f"{self.line.text} {self.by.value}{f' {self.teller}' if self.teller else ''}"


def read_told(text: str) -> Optional[list[Row]]:
    """The rows of the file; None where one of its lines is none: then it doesn't tell what it told."""
    found = [ROW.fullmatch(row) for row in text.split("\n")[:-1]]
    rows = [Row(Line(it[1], int(it[2]), it[3]), By(it[4]), it[5] or "") for it in found if it is not None]
    return rows if text == write_told(rows) else None


def write_told(rows: Iterable[Row]) -> str:
    """The file of these rows."""
    return "".join(f"{row.text}\n" for row in rows)


def choose_counting(rows: Iterable[Row], despite: Collection[str], is_turn: bool) -> list[Row]:
    """Before a turn those rows count that it doesn't see anew, but for peers that a person passes over; before each other word all count."""
    return [row for row in rows if not is_turn or (row.by is By.SIGNED and row.teller not in despite)]


def choose_told(stands: Iterable[Row], seen: Iterable[Row]) -> list[Row]:
    """Behind a turn stand the rows that counted before it, and what it saw, each once; of one teller those of the latest steps."""
    tellers: dict[str, list[Row]] = {}
    for row in dict.fromkeys([*stands, *seen]):
        tellers.setdefault(row.teller, []).append(row)
    return [row for _, rows in sorted(tellers.items()) for row in sorted(rows, key=lambda it: -it.line.step)[:MOST_OF_ONE]]
