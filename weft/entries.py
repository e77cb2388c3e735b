"""The entries of a log: what was logged of which file, at which step and index.

An event is what sha256sum prints of the file: its digest, two blanks, and its path from the folder on; a backslash stands in front where the path has
a backslash or a line end, which are escaped then. Of a file that is gone it is `gone`, two blanks and the path. A line of SERVICE.entries has step, index
and event; lines are added, and none is changed."""

from __future__ import annotations

import hashlib
import heapq
import itertools
import os
import re
import tempfile
from pathlib import Path
from typing import IO, Iterable, Iterator, NamedTuple, Optional, Sequence

from weft import files
from weft.deciding.gone import GONE
from weft.deciding.checking import Logged, follows
from weft.deciding.known import Entry, order_of

ESCAPES = ((b"\\", b"\\\\"), (b"\n", b"\\n"), (b"\r", b"\\r"))
# So many entries are sorted in memory at a time.
MOST_SORTED = 50_000
MOST_TAIL = 4_096


def event_of(word: bytes, path: bytes) -> bytes:
    """The event of a path, with its digest or `gone`."""
    escaped = path
    for plain, escape in ESCAPES:
        escaped = escaped.replace(plain, escape)
    return (b"" if escaped == path else b"\\") + word + b"  " + escaped


def read_event(event: bytes) -> Optional[Entry]:
    """The path of an event, and its digest or `gone`; None of one that is no entry of a log: such as another way to write one, which no log makes."""
    word, mark, path = event.partition(b"  ")
    if not mark:
        return None
    if word.startswith(b"\\"):
        pieces = path.split(b"\\\\")
        path = b"\\".join(piece.replace(b"\\n", b"\n").replace(b"\\r", b"\r") for piece in pieces)
        word = word[1:]
    is_one = (word == GONE or is_digest(word)) and path.startswith(b"./") and event_of(word, path) == event
    return Entry(path, word) if is_one else None


def is_digest(word: bytes) -> bool:
    """Whether it is a digest in hexadecimal."""
    return len(word) == 64 and all(digit in b"0123456789abcdef" for digit in word)


def entry_lines(step: int, events: Sequence[bytes]) -> bytes:
    """The lines of a step's entries."""
    return b"".join(b"%d %d %s\n" % (step, index, event) for index, event in enumerate(events))


class End(NamedTuple):
    """The end of a file of entries: the last step of which it has some, and how many, of none 0 and 0; and the first line that is out of order, or None."""

    step: int
    count: int  # type: ignore[assignment]
    strange: Optional[Logged]


ENTRY_LINE = re.compile(rb"([0-9]{1,13}) ([0-9]{1,4}) (.*)", re.DOTALL)
NO_ENTRY = Logged(-1, 0, b"")
"""What stands for a whole line that is no entry: it is out of order wherever it stands, and tells nothing of a file."""


def read_entry_line(line: bytes) -> Logged:
    """The entry of a line, without its end."""
    found = ENTRY_LINE.fullmatch(line)
    return Logged(int(found[1]), int(found[2]), found[3]) if found else NO_ENTRY


class Entries:
    """The file of the entries of a service."""

    def __init__(self, path: Path):
        self.path = path

    @property
    def is_there(self) -> bool:
        """Whether there is such a file."""
        return files.is_there(self.path)

    def size(self) -> int:
        """How many bytes it has; of none 0."""
        return os.stat(self.path).st_size if self.is_there else 0

    def lines(self, at: int = 0) -> Iterator[Logged]:
        """Its whole lines from a place on."""
        if not self.is_there:
            return
        with os.fdopen(files.opened(self.path), "rb") as file:
            file.seek(at)
            for text in file:
                if text.endswith(b"\n"):
                    yield read_entry_line(text[:-1])

    def last_step(self) -> End:
        """Where it ends, and the first line that doesn't stand where its step and place belong, where one doesn't."""
        step, count, strange = 0, 0, None
        for line in self.lines():
            if strange is None and not follows(line.step, line.index, step, count):
                strange = line
            step, count = line.step, count + 1 if line.step == step else 1
        return End(step, count, strange)

    def ends_at(self) -> int:
        """The step of its last entry, 0 of none, for which its end alone is read."""
        step = 0
        for line in self.lines(max(0, self.size() - MOST_TAIL)):
            step = line.step
        return step

    def put(self, at: int, step: int, events: Sequence[bytes]) -> None:
        """Puts the entries of a step at a place, behind which nothing stands then; they are on the disk before this returns."""
        files.extend(self.path, entry_lines(step, events), at)

    def tail(self, end: int) -> str:
        """The digest of what stands at the end of so many bytes."""
        if not self.is_there:
            return hashlib.sha256(b"").hexdigest()
        with os.fdopen(files.opened(self.path), "rb") as file:
            file.seek(max(0, end - MOST_TAIL))
            return hashlib.sha256(file.read(min(end, MOST_TAIL))).hexdigest()


def in_order(lines: Iterable[Logged]) -> Iterator[Entry]:
    """What lines tell, in the order of paths, and of each path in the order of lines; of more than are sorted in memory a file of their own has a part."""
    found = (entry for entry in (read_event(line.event) for line in lines) if entry is not None)
    parts: list[Iterable[Entry]] = []
    while True:
        part = sorted(itertools.islice(found, MOST_SORTED), key=order_of_entry)
        parts.append(part if len(part) < MOST_SORTED else set_aside(part))
        if len(part) < MOST_SORTED:
            return iter(heapq.merge(*parts, key=order_of_entry))


def order_of_entry(entry: Entry) -> bytes:
    """Where an entry stands."""
    return order_of(entry.path)


def set_aside(part: Iterable[Entry]) -> Iterator[Entry]:
    """Entries, put into a file that nobody else sees, and read back one at a time."""
    file: IO[bytes] = tempfile.TemporaryFile(prefix="weft-")
    file.writelines(event_of(entry.word, entry.path) + b"\n" for entry in part)
    file.seek(0)
    return (entry for entry in (read_event(line[:-1]) for line in file) if entry is not None)
