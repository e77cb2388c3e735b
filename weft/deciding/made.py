"""Which services and further parts of them were made, as a file among their user's own ones has it: a row for each, its name and its folder."""

from __future__ import annotations

import re
from enum import Enum
from typing import Collection, NamedTuple

PLAIN, PERCENT = (0x20, 0x7F), 0x25
ROW = re.compile(r"([a-z0-9-]{1,16}) (\S+)")
# The row of what a person took out stays, with its day: what an older backup has of it doesn't come back.
NEVER_SENT = re.compile(r"never-sent ([a-z0-9-]{1,16}) (\S+) (\S+)")


class Made(NamedTuple):
    """A service or a further part of one: its name, and its folder from the root on, in letters of ASCII."""

    name: str
    folder: str

    @property
    def text(self) -> str:
        """Its row."""
        return f"{self.name} {self.folder}"


def made_in(name: str, folder: bytes) -> Made:
    """What is made under a name in a folder."""
    return Made(name, "".join(chr(it) if PLAIN[0] < it < PLAIN[1] and it != PERCENT else f"%{it:02X}" for it in folder))


def read_made(text: str) -> set[Made]:
    """What a file of such rows has; what is none tells nothing."""
    return {Made(it[1], it[2]) for it in map(ROW.fullmatch, text.splitlines()) if it is not None}


def read_never_sent(text: str) -> set[Made]:
    """What a person took out of such a file, by whose word no line of it was ever handed out."""
    return {Made(it[1], it[2]) for it in map(NEVER_SENT.fullmatch, text.splitlines()) if it is not None}


def list_to_add(present: str, backed_up: str) -> list[Made]:
    """Of what a backup has as made comes back each that isn't there and that no person took out here: one more makes nothing anew, and none that is there goes."""
    return sorted(read_made(backed_up) - read_made(present) - read_never_sent(present))


def take_out(text: str, made: Made, date: str) -> str:
    """The file without the row of what was made, and with one of the day on which a person took it out."""
    rows = [row for row in text.splitlines() if row != made.text]
    return "".join(f"{row}\n" for row in [*rows, f"never-sent {made.text} {date}"])


class Known(NamedTuple):
    """What is known of what a person says was never handed out: whether it is noted as made, whether its store is there, whether anything stands beside that place, and
    whether a line of it, or of what a further part of it can be called, is among the user's own."""

    is_noted: bool
    has_store: bool
    has_beside: bool
    has_line: bool


class TakeOut(Enum):
    """Whether a row is taken out, or why it isn't."""

    YES = "yes"
    UNNOTED = "nothing is noted of it"
    STORE_THERE = "its store is there"
    BESIDE = "files of it stand beside"
    LINE_KEPT = "a line of it is kept"


def weigh_taking_out(known: Known) -> TakeOut:
    """A row is taken out on a person's word, where nothing here tells otherwise: neither its store nor a file of it is there, and no line of it is kept."""
    if not known.is_noted:
        return TakeOut.UNNOTED
    if known.has_store:
        return TakeOut.STORE_THERE
    if known.has_beside:
        return TakeOut.BESIDE
    return TakeOut.LINE_KEPT if known.has_line else TakeOut.YES


def list_names(noted: Collection[Made], folder: bytes) -> set[str]:
    """The names under which something was made in a folder: none that is made there anew takes one of them, as behind an older backup that was put back."""
    return {it.name for it in noted if it == made_in(it.name, folder)}


def may_make(noted: Collection[Made], made: Made) -> bool:
    """What was made under a name in a folder isn't made there once more: its store isn't there since its device isn't mounted, or since it was lost, and another one
    would be a second history."""
    return made not in noted
