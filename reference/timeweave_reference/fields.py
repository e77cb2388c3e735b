"""Fields of bytes: numbers, names and digests; and a reader that tells the first byte that can't stand where it does.

docs/formats.md, the paragraph before "Hashed texts". Numbers are unsigned, the high byte first. Lengths are in bytes, times
in seconds.
"""

from __future__ import annotations

import re
from typing import Container, Tuple

LAST_STEP = 2**40 - 1
"""The greatest number of a step."""

LAST_TIME = 2**40 - 1
"""The greatest time that a step may claim, in seconds."""

MOST_COUNT = 1024
"""The most events of a step."""

MOST_EVENT = 1024
"""The most bytes of an event."""

MOST_STEP_BYTES = 65536
"""The most bytes of all events of a step together."""

NAME = re.compile("[a-z0-9-]{1,16}")
"""A service's name, as text."""

_NAME_BYTES = re.compile(rb"[a-z0-9-]{1,16}\0*")
_LETTERS = b"abcdefghijklmnopqrstuvwxyz0123456789-"
_HAS_TIME = 2**31


def big_endian(number: int, width: int) -> bytes:
    """The number, from 0 to 256^width - 1, in `width` bytes."""
    return number.to_bytes(width, "big")


def padded(name: str) -> bytes:
    """The 16 bytes of a service's name: its letters, then zeros."""
    return name.encode().ljust(16, b"\0")


def count_and_time(count: int, time: int | None) -> bytes:
    """A count of events, at most 1,024, and the time in seconds, or None: 4 bytes, and 8 more with a time."""
    return big_endian(count, 4) if time is None else big_endian(count + _HAS_TIME, 4) + big_endian(time, 8)


class Malformed(ValueError):
    """The bytes are not of the format.

    `place` is that of the first byte, from 0, at which no bytes of the format go on; where they end too early it is their length. Of
    texts it is the number of the first line, from 1, that can't follow those before it.
    """

    def __init__(self, place: int) -> None:
        super().__init__(place)
        self.place = place


class Reader:
    """Reads fields from the front of some bytes, and raises `Malformed` at the first byte that can't stand there.

    `most` is how many bytes the format has at most: only one more is ever looked at.
    """

    def __init__(self, data: bytes, most: int) -> None:
        self.data = data[: most + 1]
        self.at = 0

    def take(self, count: int) -> bytes:
        """The next `count` bytes, whatever they are."""
        end = self.at + count
        if end > len(self.data):
            raise Malformed(len(self.data))
        taken = self.data[self.at : end]
        self.at = end
        return taken

    def digest(self) -> bytes:
        """The next 32 bytes."""
        return self.take(32)

    def digests(self, count: int) -> Tuple[bytes, ...]:
        """The next `count` digests."""
        return tuple(self.take(32) for _ in range(count))

    def byte(self, allowed: Container[int]) -> int:
        """The next byte, which is one of these."""
        if self.at == len(self.data) or self.data[self.at] not in allowed:
            raise Malformed(self.at)
        self.at += 1
        return self.data[self.at - 1]

    def magic(self, letters: bytes) -> None:
        """These bytes stand next."""
        for letter in letters:
            self.byte((letter,))

    def number(self, width: int, least: int, most: int) -> int:
        """The number of `width` bytes from `least` to `most`; refused at the first byte at which no such number goes on."""
        field = self.data[self.at : self.at + width]
        value = int.from_bytes(field, "big")
        if len(field) == width and least <= value <= most:
            self.at += width
            return value
        for done in range(1, len(field) + 1):
            front, left = int.from_bytes(field[:done], "big"), 8 * (width - done)
            if front << left > most or (front + 1) << left <= least:
                raise Malformed(self.at + done - 1)
        raise Malformed(len(self.data))

    def count_and_time(self, least: int) -> Tuple[int, int | None]:
        """A count of events from `least` to 1,024, and the time in seconds that follows, or None."""
        is_timed = self.byte((0, _HAS_TIME >> 24)) != 0
        count = self.number(3, least, MOST_COUNT)
        return count, self.number(8, 0, LAST_TIME) if is_timed else None

    def name(self) -> str:
        """The name of a service, in 16 bytes."""
        field = self.data[self.at : self.at + 16]
        if len(field) == 16 and _NAME_BYTES.fullmatch(field):
            self.at += 16
            return field.rstrip(b"\0").decode()
        for place, letter in enumerate(field):
            is_zero = place > 0 and letter == 0
            if not is_zero and (letter not in _LETTERS or field[place - 1 : place] == b"\0"):
                raise Malformed(self.at + place)
        raise Malformed(len(self.data))

    def end(self) -> None:
        """Nothing follows."""
        if self.at < len(self.data):
            raise Malformed(self.at)

    def zeros_next(self, count: int) -> None:
        """So many zeros stand next."""
        for _ in range(count):
            self.byte((0,))

    def zeros(self, size: int) -> None:
        """Zeros follow up to this size of the whole, and nothing behind them."""
        while self.at < size:
            self.byte((0,))
        self.end()
