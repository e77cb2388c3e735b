"""What is known of the files of a log, beside it in SERVICE.known: records in the order of paths, read and made anew one after another.

It may be lost, and may be older than the entries: then the entries are laid over it, and what it doesn't know is read anew. What counts is decided in
`weft.deciding.known`."""

from __future__ import annotations

import hashlib
import itertools
import os
from contextlib import suppress
from pathlib import Path
from typing import IO, Iterator, Optional, Sequence

from weft import files
from weft.deciding.known import HEAD_SIZE, RECORD, Head, Known, lay_over, pack_record, read_head, rest_length, unpack_record
from weft.entries import Entries, in_order

PIECE = 1 << 20
SUM = 32


class Records:
    """The file of what is known, and the entries of the parts of the log that it goes on from."""

    def __init__(self, path: Path, parts: Sequence[Entries]):
        self.path, self.parts = path, parts
        self.head = self.checked_head()
        self.is_current = self.head is not None and self.covers(self.head)

    def covers(self, head: Head) -> bool:
        """Whether records with this head are all that is known: they cover all entries, and each of them counts."""
        return self.ends_with_entries and not head.drops_gone and not head.drops_replaced

    @property
    def ends_with_entries(self) -> bool:
        """Whether the records end where the entries do: those that stand behind were made by a run that was stopped, or by somebody else."""
        return self.head is not None and (self.head.parts, self.head.entries) == (len(self.parts), self.parts[-1].size())

    def forget(self) -> None:
        """Lets nothing be known but by the entries."""
        self.head, self.is_current = None, False

    def checked_head(self) -> Optional[Head]:
        """The head of a file that is whole and of these entries; else None, and nothing is known by it."""
        if not files.is_there(self.path):
            return None
        with os.fdopen(files.opened(self.path), "rb") as file:
            head, size = read_head(file.read(HEAD_SIZE)), os.fstat(file.fileno()).st_size
            if head is None or not 0 < head.parts <= len(self.parts) or not is_whole(file, head, size):
                return None
        covered = self.parts[head.parts - 1]
        return head if covered.size() >= head.entries and covered.tail(head.entries) == head.tail else None

    def kept(self) -> Iterator[Known]:
        """The records of the file."""
        path = b""
        for head, rest in self.raw():
            record = unpack_record(head, rest, path)
            path = record.path
            yield record

    def raw(self) -> Iterator[tuple[bytes, bytes]]:
        """The bytes of each record of the file: the first ones, and what stands there of its path."""
        if self.head is None:
            return
        with os.fdopen(files.opened(self.path), "rb") as file:
            left = os.fstat(file.fileno()).st_size - SUM - HEAD_SIZE
            file.seek(HEAD_SIZE)
            while left > 0:
                head = file.read(RECORD.size)
                rest = file.read(rest_length(head))
                left -= len(head) + len(rest)
                yield head, rest

    def all(self) -> Iterator[Known]:
        """What is known of each logged file: the records, and laid over them the entries that they don't cover."""
        if self.is_current:
            return self.kept()
        head = self.head
        first = (head.parts - 1, head.entries) if head is not None else (0, 0)
        lines = (line for number, part in enumerate(self.parts) if number >= first[0] for line in part.lines(first[1] if number == first[0] else 0))
        counting = (record for record in self.kept() if head is not None and not head.drops(record))
        return lay_over(counting, in_order(lines))


def is_whole(file: IO[bytes], head: Head, size: int) -> bool:
    """Whether an open file ends with the digest of all that stands before."""
    digest, left = hashlib.sha256(), size - HEAD_SIZE - SUM
    while left > 0:
        piece = file.read(min(left, PIECE))
        digest.update(piece)
        left -= len(piece) or left
    return file.read() == hashlib.sha256(head.data + digest.digest()).digest()


class Writer:
    """A file of what is known that is made anew, from the first record on that differs; where none does, no file is made. It comes in the place of the
    old one at the end."""

    def __init__(self, records: Records):
        self.records, self.same = records, 0
        self.new = ""
        self.file: Optional[IO[bytes]] = None
        self.digest = hashlib.sha256()
        self.before = b""
        if not records.is_current:
            self.start()

    def start(self) -> None:
        """Begins to write; first come the old records that were the same up to here."""
        try:
            number, self.new = files.new_beside(os.fspath(self.records.path), files.PRIVATE)
        except OSError as failure:
            raise files.unwritten(self.records.path, failure) from None
        self.file = os.fdopen(number, "wb", PIECE)
        self.file.write(bytes(HEAD_SIZE))
        for head, rest in itertools.islice(self.records.raw(), self.same):
            self.write(head + rest)
            self.before = unpack_record(head, rest, self.before).path

    def write(self, data: bytes) -> None:
        """Writes bytes of records."""
        assert self.file is not None
        self.digest.update(data)
        try:
            self.file.write(data)
        except OSError as failure:
            raise files.unwritten(self.records.path, failure) from None

    def add(self, record: Optional[Known], old: Optional[Known]) -> None:
        """Adds what is known now at a path, None for nothing, in the place of what was."""
        if self.file is None and record == old:
            self.same += record is not None
            return
        if self.file is None:
            self.start()
        if record is not None:
            self.write(pack_record(record, self.before))
            self.before = record.path

    def end(self, head: Head) -> None:
        """Puts the new file into the place of the old one, where something differs."""
        if self.file is None and self.records.head == head:
            return
        try:
            if self.file is None:
                self.start()
            assert self.file is not None
            self.file.write(hashlib.sha256(head.data + self.digest.digest()).digest())
            self.file.seek(0)
            self.file.write(head.data)
            self.file.flush()
            os.fsync(self.file.fileno())
            self.file.close()
            os.replace(self.new, self.records.path)
            files.sync_folder(self.records.path.parent)
        except OSError as failure:
            raise files.unwritten(self.records.path, failure) from None

    def leave(self) -> None:
        """Leaves the old file as it was, where the new one didn't come to its end."""
        if self.file is not None and not self.file.closed:
            files.remove_quietly(self.new)
            with suppress(OSError):
                self.file.close()
