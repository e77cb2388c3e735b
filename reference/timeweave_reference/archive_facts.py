"""What a file that shows an archive says of a service, under the line that it is accepted under.

docs/definitions.md, "Files that contradict each other".
"""

from __future__ import annotations

from dataclasses import dataclass
from typing import Iterator, NamedTuple, Tuple, Union

from .anchors import Anchor, Anchors
from .archives import Entry
from .fields import LAST_STEP, Malformed
from .map_files import HIGH, LOW, HighFile, LowFile, read_high, read_low
from .openings import Opening
from .proofs import ABSENT, BAD_ORDER, THREAD, AbsenceProof, Reason, ThreadProof, lowest, read_proof_of

NO_FILE = Reason(1, "Malformed")
"""The bytes are no file that shows an archive."""


class Lack(NamedTuple):
    """Threads of a peer that a service received by no step up to `upto`: those above one step of the peer, up to a last one."""

    peer: str
    above: int
    last: int
    upto: int

    def has(self, entry: Entry) -> bool:
        """Whether the entry, which a step up to that one received, is of such a thread."""
        return entry.service == self.peer and self.above < entry.step <= self.last and entry.archived <= self.upto


@dataclass(frozen=True)
class Facts:
    """What a file says of a service: the line that it is accepted under; the step, from 1 on, whose archive it shows, with its authenticator
    and its opening; an entry that the archive has; and threads that it lacks. Of the opening the archive's label and those of links are
    no part of what is said."""

    service: str
    line: Anchor
    shown: Anchor
    opening: Opening
    entry: Entry | None = None
    lack: Lack | None = None

    @property
    def before(self) -> Anchor:
        """The step before, which may be 0, and its authenticator."""
        return Anchor(self.shown.step - 1, self.opening.before)


ArchiveFile = Union[ThreadProof, AbsenceProof, LowFile, HighFile]
"""What shows an archive: proofs of kinds 3 and 4, and map files, a low one from step 2 on."""


def read_file(data: bytes) -> ArchiveFile | None:
    """The file that the bytes are, or None."""
    try:
        if data[4:5] == bytes([LOW]):
            low = read_low(data)
            return low if low.before else None
        if data[4:5] == bytes([HIGH]):
            return read_high(data)
        proof = read_proof_of(data, (THREAD, ABSENT))
        assert isinstance(proof, (ThreadProof, AbsenceProof))
        return proof
    except Malformed:
        return None


def reasons(file: ArchiveFile, anchors: Anchors) -> Iterator[Reason]:
    """What stands against a file; of a low map file the step before its own is in question, and not its own."""
    if not isinstance(file, LowFile):
        yield from file.reasons(anchors)
        return
    if file.step - 1 > file.top:
        yield BAD_ORDER
    yield from (reason for reason in file.reasons(anchors) if reason != BAD_ORDER)


def _shown_step(file: ArchiveFile) -> Tuple[str, int, Opening]:
    """The service and the step whose archive a file shows, and the step's opening."""
    if isinstance(file, LowFile):
        assert file.before
        return file.service, file.step - 1, file.before.opening
    return (file.peer, file.top, file.opening) if isinstance(file, HighFile) else (file.service, file.step, file.opening)


def _archived(file: ArchiveFile) -> Tuple[Entry | None, Lack | None]:
    """The entry that the archive has by a file, and the threads that it lacks."""
    if isinstance(file, ThreadProof):
        return file.entry, None
    if isinstance(file, AbsenceProof):
        return None, Lack(file.absent_service, file.absent_step - 1, file.absent_step, file.step)
    nearest = file.show_nearest().nearest
    if isinstance(file, LowFile):
        entry = nearest if nearest and nearest.service == file.peer else None
        return entry, Lack(file.peer, file.low(), LAST_STEP, file.step - 1)
    entry = nearest if nearest and nearest.service == file.service else None
    return entry, Lack(file.service, file.step - 1, LAST_STEP, file.top if entry is None else entry.archived - 1)


def facts_of(file: ArchiveFile, anchors: Anchors) -> Facts:
    """What an accepted file says under these anchors."""
    service, step, opening = _shown_step(file)
    return Facts(service, anchors[service], Anchor(step, opening.authenticator(step)), opening, *_archived(file))


def judge_file(data: bytes, anchors: Anchors) -> Facts | Reason:
    """What the bytes of a file say under these anchors, or the lowest reason against them."""
    file = read_file(data)
    if file is None:
        return NO_FILE
    return lowest(reasons(file, anchors)) or facts_of(file, anchors)
