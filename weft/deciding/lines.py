"""Lines: the name of a service, a step of it, and the authenticator of that step; and lines that were kept, each with when and how it came."""

from __future__ import annotations

import re
from typing import NamedTuple, Optional

NAME = re.compile(r"[a-z0-9-]{1,16}")
LINE = re.compile(r"([a-z0-9-]{1,16}) (0|[1-9][0-9]{0,12}) ([0-9a-fA-F]{64})")
LAST_STEP = 2**40 - 1
NAME_RULE = "a name has 1 to 16 of the letters a-z, the digits 0-9 and -, and none that begins with - is taken here"


class Line(NamedTuple):
    """A service, a step of it from 0 on, and its authenticator there, 64 hexadecimal digits in small letters."""

    service: str
    step: int
    authenticator: str

    @property
    def text(self) -> str:
        """The line as it is handed out, without its line end."""
        return f"{self.service} {self.step} {self.authenticator}"


class Kept(NamedTuple):
    """A line that was kept, when (as `2026-11-29T09:40:00Z`), and how it came; both may be empty."""

    line: Line
    date: str
    how: str

    @property
    def text(self) -> str:
        """Its line in a file of kept lines."""
        return " ".join(word for word in (self.line.text, self.date, self.how) if word)

    @property
    def told(self) -> str:
        """How it came, as a sentence's end."""
        if not self.date:
            return "nothing is told of how it came"
        return f"kept {self.date[:10]}, {self.how or 'nothing is told of how it came'}"


def may_take_name(name: str) -> bool:
    """A name is taken for a service or a peer where a service can have it, and where it doesn't begin with -, as an option of a command does."""
    return NAME.fullmatch(name) is not None and not name.startswith("-")


def read_line(text: str) -> Optional[Line]:
    """A line is a name, a step and 64 hexadecimal digits, with one blank between them and nothing else; of another text, or of a step above 2^40 - 1,
    the answer is None."""
    fields = LINE.fullmatch(text)
    if not fields or int(fields[2]) > LAST_STEP:
        return None
    return Line(fields[1], int(fields[2]), fields[3].lower())


def can_be(line: Line, genesis: str) -> bool:
    """A line of step 0 follows from its service's name: one with another authenticator than that, `genesis`, is of no service."""
    return line.step > 0 or line.authenticator == genesis


class End(NamedTuple):
    """Where a file that lines are added to goes on: the place behind the last line end, and a whole line that stands there without one, with it."""

    place: int
    rest: bytes


def find_end(data: bytes) -> End:
    """What stands behind the last line end was stopped amid its writing, and goes, unless it is a whole line."""
    place = data.rfind(b"\n") + 1
    is_whole = read_kept(data[place:].decode("ascii", "replace")) is not None
    return End(place, data[place:] + b"\n" if is_whole else b"")


def read_kept(text: str) -> Optional[Kept]:
    """A kept line is a line, and behind it, where they are told, its date and how it came, as they stand there; of another text the answer is None."""
    words = text.split(" ", 4)
    line = read_line(" ".join(words[:3]))
    if line is None:
        return None
    return Kept(line, *[*words[3:], "", ""][:2])
