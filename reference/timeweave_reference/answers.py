"""What is answered: a status and a text, as the program `timeweave` ends with and writes to standard output."""

from __future__ import annotations

from typing import NamedTuple

ACCEPTED = 0
"""What was asked for is so, or was done."""

REJECTED = 1
"""A reason stands against what was judged."""

USAGE = 2
"""The words are no form of the command line."""

NO_INPUT = 3
"""A file can't be read."""

NO_OUTPUT = 4
"""What was answered couldn't be written."""

NO_DISK = 5
"""The folder of a service or its file can't be read or written."""

REFUSED = 7
"""A service, a follower or a history refuses what is asked of it."""

BAD_STORE = 8
"""The file in the folder is none of what the command asks for."""

UNREADABLE = 9
"""A file isn't of its format, or a history isn't sound."""


class Answer(NamedTuple):
    """The status with which the program ends, and the bytes of its standard output."""

    status: int
    text: bytes


def answer_text(status: int, text: str) -> Answer:
    """The answer of this text."""
    return Answer(status, text.encode())


def unreadable(file: str, unit: str, place: int) -> Answer:
    """A file of this name isn't of its format; the unit of the place is `byte` or `line`."""
    return answer_text(UNREADABLE, f"unreadable {file} {unit} {place}\n")
