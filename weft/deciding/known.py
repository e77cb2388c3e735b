"""What is known of each logged file since it was last read, by which a run over files that didn't change reads no content.

A record has the file's path, its digest, and a mark: the digest of its size, of its times to the nanosecond, and of its number and device, as they were
when it was read. A file of another mark is read; so is each file once in some days, since what changed a content below the system leaves no mark. Records
stand in the order in which a walk comes to the files. A head tells up to where the entries are covered: what was logged behind that is laid over them."""

from __future__ import annotations

import hashlib
import re
import struct
from enum import Enum
from typing import Iterable, Iterator, NamedTuple, Optional, Protocol, TypeVar

from weft.deciding.gone import GONE, State

DAY = 86_400
# So many nanoseconds after its last change a file has come to rest: what is written to it through a mapping gets its time once the system writes it back, some
# 30 seconds later.
AT_REST = 60 * 10**9
NO_MARK = bytes(16)
HEAD_SIZE = 160
HEAD = re.compile(r"TWK1 ([0-9]{1,15}) ([0-9]{1,9}) ([0-9]{1,15}) ([0-9a-f]{64}) ([01]) ([01])(?: ([0-9a-f]{16}))? *\n")
RECORD = struct.Struct(">HHB32s16s")
NUMBERS = struct.Struct(">5Q")
WHOLE = 2**64


class Lost(Enum):
    """Whether a logged file was found at the last run, wasn't since it is gone, or wasn't since something else has its place."""

    NO = 0
    GONE = 1
    REPLACED = 2


class Known(NamedTuple):
    """What is known of a logged file: its path, its digest in hexadecimal, and its mark, NO_MARK where it wasn't read since it was logged, or not at rest."""

    path: bytes
    digest: bytes
    mark: bytes = NO_MARK
    lost: Lost = Lost.NO


class Head(NamedTuple):
    """What stands before the records: when all files were last read, in seconds since 1970; how many parts of the log they cover, and how many bytes of the
    last one's entries, with the digest of what stands at their end; whether the lost files were logged as gone, of each kind; and the sign of the folder that was logged,
    where it is known."""

    full: int
    parts: int
    entries: int
    tail: str
    drops_gone: bool
    drops_replaced: bool
    folder: str = ""

    @property
    def data(self) -> bytes:
        """As it is kept."""
        text = f"TWK1 {self.full} {self.parts} {self.entries} {self.tail} {int(self.drops_gone)} {int(self.drops_replaced)} {self.folder}"
        return text.ljust(HEAD_SIZE - 1).encode() + b"\n"

    def drops(self, record: Known) -> bool:
        """A record of a file that was logged as gone since it was written counts no more."""
        return (record.lost is Lost.GONE and self.drops_gone) or (record.lost is Lost.REPLACED and self.drops_replaced)


def read_head(data: bytes) -> Optional[Head]:
    """A head is read where it is whole; else nothing is known, and all files are read."""
    found = HEAD.fullmatch(data.decode("ascii", "replace")) if len(data) == HEAD_SIZE else None
    return Head(int(found[1]), int(found[2]), int(found[3]), found[4], found[5] == "1", found[6] == "1", found[7] or "") if found else None


def sign_of(folder: bytes) -> str:
    """By what a folder, named from the root on, is known again."""
    return hashlib.sha256(folder).hexdigest()[:16]


def is_other_folder(before: Optional[Head], folder: str) -> bool:
    """A log was of another folder before where that is known: what its files are now tells nothing of what became of those."""
    return before is not None and before.folder not in ("", folder)


def order_of(path: bytes) -> bytes:
    """Paths stand in the order of a walk: what is below a folder stands before all names that begin with the folder's and go on."""
    return path.replace(b"/", b"\0")


def mark_of(state: State) -> bytes:
    """The mark of a file's state; never NO_MARK."""
    return hashlib.sha256(NUMBERS.pack(*(number % WHOLE for number in state))).digest()[:16]


def is_at_rest(state: State, now: int) -> bool:
    """A file is at rest at a moment, in nanoseconds since 1970, where it was changed a minute before at least: not at a time that lies ahead, as by a clock that was
    set back or by another machine's. What is written through a mapping sooner may leave its times as they are."""
    return now - state.changed >= AT_REST


def mark_read(state: State, now: int) -> bytes:
    """The mark of a file that was read at a moment: none where it isn't at rest: so it is read once more by the next run."""
    return mark_of(state) if is_at_rest(state, now) else NO_MARK


def may_skip(known: Optional[Known], state: State, is_full: bool) -> bool:
    """A file isn't read where its state is still the one that it had when it was read, and this isn't a run that reads all."""
    return known is not None and not is_full and known.mark == mark_of(state)


def is_full_due(full: Optional[int], now: int, days: int) -> bool:
    """All files are read where they never were, where that is as many days ago, and where it lies ahead."""
    return full is None or not 0 <= now - full < days * DAY


# ---- records


def shared_length(first: bytes, second: bytes) -> int:
    """With how many bytes both begin alike."""
    low, high = 0, min(len(first), len(second))
    while low < high:
        middle = (low + high + 1) // 2
        low, high = (middle, high) if first[:middle] == second[:middle] else (low, middle - 1)
    return low


def pack_record(record: Known, before: bytes) -> bytes:
    """A record as it is kept: of its path what differs from the one before."""
    shared = shared_length(record.path, before)
    rest = record.path[shared:]
    return RECORD.pack(shared, len(rest), record.lost.value, bytes.fromhex(record.digest.decode()), record.mark) + rest


def unpack_record(head: bytes, rest: bytes, before: bytes) -> Known:
    """A record that was kept: its first bytes, and what of its path differs from the one before."""
    shared, _, lost, digest, mark = RECORD.unpack(head)
    return Known(before[:shared] + rest, digest.hex().encode(), mark, Lost(lost))


def rest_length(head: bytes) -> int:
    """How many bytes of a path stand behind a record's first bytes."""
    length: int = RECORD.unpack(head)[1]
    return length


# ---- in the order of paths


class HasPath(Protocol):
    """What has a path."""

    @property
    def path(self) -> bytes:
        """The path."""


Found = TypeVar("Found", bound=HasPath)


def pair(found: Iterable[Found], known: Iterable[Known]) -> Iterator[tuple[Optional[Found], Optional[Known]]]:
    """Each file that was found with what is known of it, and each known one that wasn't found; both stand in the order of paths, and so does the answer."""
    left, right = iter(found), iter(known)
    file, record = next(left, None), next(right, None)
    while file is not None or record is not None:
        one = order_of(file.path) if file is not None else None
        other = order_of(record.path) if record is not None else None
        is_first = other is None or (one is not None and one <= other)
        is_second = one is None or (other is not None and other <= one)
        yield (file if is_first else None), (record if is_second else None)
        file = next(left, None) if is_first else file
        record = next(right, None) if is_second else record


class Entry(NamedTuple):
    """What an entry of the log tells: of a path its digest, or the word `gone`."""

    path: bytes
    word: bytes


def last_of_each(entries: Iterable[Entry]) -> Iterator[Entry]:
    """Of entries in the order of paths, those of one path in the order in which they were logged, the last one of each path."""
    before: Optional[Entry] = None
    for entry in entries:
        if before is not None and before.path != entry.path:
            yield before
        before = entry
    if before is not None:
        yield before


def lay_over(known: Iterable[Known], entries: Iterable[Entry]) -> Iterator[Known]:
    """What is known once later entries are laid over it: a file that is gone isn't known any more, and one that was logged with another digest has no mark.
    One that was logged again as it was keeps its own."""
    for entry, record in pair(last_of_each(entries), known):
        if entry is None:
            assert record is not None
            yield record
        elif entry.word != GONE:
            is_same = record is not None and record.digest == entry.word
            yield Known(entry.path, entry.word, record.mark if record is not None and is_same else NO_MARK)


# ---- what differs


class Change(Enum):
    """What a file that was found is to what was logged of it."""

    NEW = "new"
    CHANGED = "changed"
    SAME = "same"


def weigh_change(before: Optional[Known], digest: bytes) -> Change:
    """A file is new where nothing is known of its path, changed where it has another digest, and else as it was."""
    if before is None:
        return Change.NEW
    return Change.SAME if before.digest == digest else Change.CHANGED
