"""Where something was recorded: what is looked for, and its places, in what stands beside a service or in its history, each of which is read once for all that is
looked for."""

from __future__ import annotations

import mmap
import os
import re
import sys
from pathlib import Path
from typing import IO, Collection, Iterable, Iterator, NamedTuple, Optional, Sequence

from weft import choosing, files, formats, incoming, own, reports
from weft.deciding.batching import Handed, read_record
from weft.deciding.matching import digests_of
from weft.entries import read_entry_line
from weft.formats import ReadHistory, StepProver
from weft.judges import Bench
from weft.lines import KeptLines, kept_now
from weft.parts import Part
from weft.statuses import Status
from weft.texts import beside, name_of, shown_event
from weft.trouble import Trouble

DIGEST = re.compile(r"[0-9a-fA-F]{64}")
LISTED = re.compile(r"\\?([0-9a-fA-F]{64})(?: [ *](.*))?")
# A file is searched for each of so few digests; for more of them its lines are read.
FEW = 8
# How many of a proof's first bytes tell that it is one.
HEAD = 4
MOST_LISTED = 1 << 14


class Wanted(NamedTuple):
    """What is looked for: how it is told in a sentence, how its proofs are called, and its digest."""

    told: str
    name: str
    digest: str


class Place(NamedTuple):
    """Where something is said to be recorded: the part, the step, the index there, and the key that it has, none is empty."""

    part: Part
    step: int
    index: int  # type: ignore[assignment]
    key: str = ""


class Proved(NamedTuple):
    """A proof that was judged, and the event that it shows."""

    proof: bytes
    event: bytes


def named(word: str) -> Wanted:
    """What a word names: a file that is there, else a digest."""
    is_file = files.is_there(word)
    if is_file and DIGEST.fullmatch(word):
        raise Trouble(Status.USAGE, f"{word} is a digest, and there is a file of that name too", f"Name the file as ./{word}, or look for the digest from another folder.")
    if not is_file and DIGEST.fullmatch(word):
        return of_digest(word, "")
    return Wanted(name_of(word), os.path.basename(word), incoming.of_file(Path(word)).digest.decode())


def of_digest(word: str, name: str) -> Wanted:
    """What has a digest; a list may name it."""
    file = os.path.basename(name)
    return Wanted(name_of(file) if file else f"the digest {word[:16].lower()}..", file or word[:16].lower(), word.lower())


def of_text(text: str) -> Wanted:
    """A text."""
    it: Handed = incoming.of_text(text)
    return Wanted(f"the text {shown_event(os.fsencode(text))}", it.digest[:16].decode(), it.digest.decode())


def listed(word: str) -> Iterator[Wanted]:
    """What a list names, a line each: a digest, with a name behind it as sha256sum writes it; else a file."""
    if word == "-":
        yield from listed_in(sys.stdin.buffer)
        return
    with os.fdopen(files.opened(word), "rb") as file:
        yield from listed_in(file)


def listed_in(file: IO[bytes]) -> Iterator[Wanted]:
    """The same of an open list."""
    for data in iter(lambda: file.readline(MOST_LISTED), b""):
        line = os.fsdecode(data.rstrip(b"\r\n"))
        found = LISTED.fullmatch(line)
        if found is not None:
            yield of_digest(found[1], found[2] or "")
        elif line:
            yield named(line)


# ---- places


def found_of(event: bytes, wanted: Collection[str]) -> list[str]:
    """Which of these digests an event stands for, each once."""
    return [digest for digest in dict.fromkeys(digests_of(event)) if digest in wanted]


def in_history(steps: Iterable[tuple[int, Sequence[bytes]]], part: Part, wanted: Collection[str]) -> Iterator[tuple[str, Place]]:
    """The places of these digests in the steps of a part."""
    for step, events in steps:
        for index, event in enumerate(events):
            yield from ((digest, Place(part, step, index)) for digest in found_of(event, wanted))


def beside_it(part: Part, wanted: Collection[str]) -> Iterator[tuple[str, Place]]:
    """The places of these digests of which the files beside a part tell."""
    for line in lines_with(beside(part.folder, ".records"), wanted):
        record = read_record(line)
        if record is not None and record.digest.decode() in wanted:
            yield record.digest.decode(), Place(part, record.step, record.index, record.key.decode())
    for line in lines_with(beside(part.folder, ".entries"), wanted):
        entry = read_entry_line(line)
        if entry.step > 0:
            yield from ((digest, Place(part, entry.step, entry.index)) for digest in found_of(entry.event, wanted))


def lines_with(path: Path, wanted: Collection[str]) -> Iterator[bytes]:
    """The lines of a file, without their ends, that may have one of these digests."""
    if not files.is_there(path) or not path.stat().st_size:
        return
    with open(files.opened(path), "rb") as file:
        if len(wanted) > FEW:
            yield from (line[:-1] for line in file if line.endswith(b"\n"))
            return
        with mmap.mmap(file.fileno(), 0, access=mmap.ACCESS_READ) as data:
            for digest in wanted:
                yield from lines_having(data, digest.encode())


def lines_having(data: mmap.mmap, digest: bytes) -> Iterator[bytes]:
    """The lines that have a digest."""
    at = data.find(digest)
    while at >= 0:
        first, end = data.rfind(b"\n", 0, at) + 1, data.find(b"\n", at)
        if end < 0:
            return
        yield data[first:end]
        at = data.find(digest, end)


# ---- proofs


class Prover:
    """Makes the proofs of events of a part under its last line, and judges them: by its store; or of its history, which is read once for all."""

    def __init__(self, judge: Bench, part: Part, history: Optional[ReadHistory] = None):
        self.judge, self.part, self.history = judge, part, history
        self.kept = KeptLines(more=[kept_now(part.last, "own")])
        self.step: Optional[tuple[int, StepProver]] = None

    def made(self, step: int, index: int) -> bytes:
        """A proof."""
        if self.history is None:
            return self.part.store.done("prove", "event", str(step), str(index), str(self.part.last.step))
        if self.step is None or self.step[0] != step:
            self.step = step, StepProver(self.history, step, self.part.last.step)
        return self.step[1].proof(index)

    def proved(self, place: Place) -> Proved:
        """The proof of a place and its event; raises Trouble where it isn't accepted."""
        proof = self.made(place.step, place.index)
        judgement = choosing.judge_proof(self.judge, proof, self.kept, allow_carried=False)
        if judgement.verdict is None or not judgement.is_shown:
            told = f"the proof that the store in {name_of(self.part.folder)} made isn't accepted under its own line"
            raise Trouble(Status.BAD_STORE, told, "weft check says more.")
        return Proved(proof, reports.read_report(judgement.verdict).events[0].data)


def proof_name(it: Wanted, place: Place) -> str:
    """How the file of a proof is called."""
    return f"{it.name}-{place.part.last.service}-{place.step}-{place.index}.proof"


def in_json(place: Place) -> dict[str, object]:
    """A place as JSON has it."""
    return {"service": place.part.last.service, "step": place.step, "index": place.index, "key": place.key or None}
