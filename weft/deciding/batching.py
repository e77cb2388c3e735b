"""What is recorded of what somebody hands over, in which steps it goes, and what became of a step that a stopped run had begun."""

from __future__ import annotations

import hashlib
import re
from enum import Enum
from typing import Collection, Iterable, Iterator, NamedTuple, Optional, Sequence, Union

MOST_EVENT = 1_024
MOST_TOGETHER = 512
OWN_WORDS = (b"goes on as ", b"new key ")
"""What begins so says something of the service itself: how it goes on, and which key signs for it. Whoever hands over events isn't to say that."""
KEY = re.compile(rb"[!-~]{1,64}")
BY_DIGEST = re.compile(rb"([0-9a-f]{64})  -")


class Handed(NamedTuple):
    """What somebody handed over to be recorded: the SHA-256 digest of its bytes in hexadecimal, the event that is recorded of it, and its key; none is empty."""

    digest: bytes
    event: bytes
    key: bytes


class Recorded(NamedTuple):
    """A line of the file of records: a step, the index of an event there, the digest of what was handed over, and its key, where it has one."""

    step: int
    index: int  # type: ignore[assignment]
    digest: bytes
    key: bytes


class Made(NamedTuple):
    """A line of the file of records behind those of a step: that it was made, before anybody was told, and its authenticator."""

    step: int
    authenticator: str


class Settled(Enum):
    """What became of the last step of the file of records: the store has it; it was never made, since the run was stopped before; or the store is older than what
    was told of it, or another one."""

    MADE = "made"
    UNMADE = "not made"
    LOST = "lost"


def handed_over(data: bytes, key: bytes = b"") -> Handed:
    """Bytes are recorded as they are where they are an event; of more of them, and of what would say something of the service itself, the digest is, as sha256sum
    writes that of its standard input."""
    digest = hashlib.sha256(data).hexdigest().encode()
    return handed_by_digest(digest, key) if len(data) > MOST_EVENT or data.startswith(OWN_WORDS) else Handed(digest, data, key)


def handed_by_digest(digest: bytes, key: bytes = b"") -> Handed:
    """What is longer than an event is recorded by its digest."""
    return Handed(digest, digest + b"  -", key)


def handed_before(event: bytes) -> Handed:
    """Of an event whose record was lost it is taken that it stands for a digest where it looks so."""
    told = BY_DIGEST.fullmatch(event)
    return handed_by_digest(told[1]) if told is not None else handed_over(event)


def frame(events: Sequence[bytes]) -> bytes:
    """Each event behind its length in four bytes."""
    return b"".join([part for event in events for part in (len(event).to_bytes(4, "big"), event)])


def is_framed(count: int, body: bytes) -> bool:
    """Whether a body has so many events and nothing else, each behind its length in four bytes, and none longer than an event. (Where all are of one length, that is seen
    of all at once.)"""
    width = width_of(body)
    if width is not None and len(body) == count * width:
        return width <= 4 + MOST_EVENT
    at = 0
    for _ in range(count):
        size = int.from_bytes(body[at : at + 4], "big")
        if size > MOST_EVENT:
            return False
        at += 4 + size
    return at == len(body)


def width_of(body: bytes) -> Optional[int]:
    """How many bytes each event of a body takes with its length, where that is the same of all and they are framed; else None."""
    width = 4 + int.from_bytes(body[:4], "big")
    count, rest = divmod(len(body), width)
    is_same = not rest and all(body[place::width] == body[place : place + 1] * count for place in range(4))
    return width if is_same else None


def split_framed(body: bytes) -> list[bytes]:
    """The events of a body that is framed."""
    width = width_of(body)
    if width is not None:
        return [body[at : at + width - 4] for at in range(4, len(body) + 1, width)]
    found, at = [], 0
    while at < len(body):
        ends = at + 4 + int.from_bytes(body[at : at + 4], "big")
        found.append(body[at + 4 : ends])
        at = ends
    return found


def may_go_as_framed(body: bytes) -> bool:
    """Whether events go into a step as they are framed: none of them may say something of the service itself. (Where none begins with the first letter of such words, or
    it stands nowhere in events of several lengths, that is seen at once.)"""
    width = width_of(body)
    if not any(word[:1] in body[4::width] for word in OWN_WORDS):
        return True
    return not any(event.startswith(OWN_WORDS) for event in split_framed(body))


def is_by_digest(it: Handed) -> bool:
    """Whether the event tells the digest alone."""
    told = BY_DIGEST.fullmatch(it.event)
    return told is not None and told[1] == it.digest


def is_key(key: bytes) -> bool:
    """A key has 1 to 64 letters of ASCII, and no blank: it is a word of a line of the file of records."""
    return KEY.fullmatch(key) is not None


def is_recorded_as(digest: bytes, event: bytes) -> bool:
    """An event is what was recorded of what has this digest where it is that itself, or tells its digest as that of what is longer than an event."""
    told = BY_DIGEST.fullmatch(event)
    return (told is not None and told[1] == digest) or hashlib.sha256(event).hexdigest().encode() == digest


def count_of_step(sizes: Iterable[int], most_events: int, most_bytes: int) -> int:
    """Of events that wait, of these sizes, so many go into the next step: as many of the first ones as it takes."""
    count, size = 0, 0
    for it in sizes:
        if count == most_events or (count and size + it > most_bytes):
            break
        count, size = count + 1, size + it
    return count


def patience_for(last: int, waiting: int, seconds: float, vain: int = 0) -> float:
    """Where fewer events wait than were under way last time, those who were answered are about to hand over the next ones: they are waited for, as long as the last ones
    took at most, unless half of the events wait that a step takes: then one half is being made while the other is handed over. Where that was in vain, it is tried each
    eighth time."""
    return seconds if waiting < min(last, MOST_TOGETHER) and vain % 8 == 0 else 0.0


def count_before_repeat(keys: Iterable[bytes], recorded: Collection[bytes]) -> int:
    """Of what waits so many go on before one whose key one of them has, or what was recorded just now: that isn't recorded once more. None stands for itself."""
    seen: set[bytes] = set()
    count = 0
    for key in keys:
        if key and (key in seen or key in recorded):
            break
        seen.add(key)
        count += 1
    return count


def runs_of(places: Sequence[Optional[tuple[str, int, int]]]) -> Iterator[tuple[int, int]]:
    """The places of events, service, step and index of each, go together where they stand one behind another: of each such row the first one and how many there are. What
    has no place stands alone."""
    first = 0
    for number in range(1, len(places) + 1):
        before, it = places[number - 1], places[number] if number < len(places) else None
        if before is None or it is None or it != (before[0], before[1], before[2] + 1):
            yield first, number - first
            first = number


def steps_of_records(lines: Iterable[Recorded]) -> Iterator[tuple[int, list[Recorded]]]:
    """The lines of each step; raises ValueError where one doesn't stand where its step and index belong."""
    step: list[Recorded] = []
    last = 0
    for line in lines:
        if step and line.step != last:
            yield last, step
            step = []
        if line.index != len(step) or line.step <= last - bool(step):
            raise ValueError
        last = line.step
        step.append(line)
    if step:
        yield last, step


def find_other_step(records: Iterable[tuple[int, Sequence[Recorded]]], steps: Iterator[tuple[int, Sequence[bytes]]]) -> Optional[int]:
    """The first step of which the records tell anything else than the store has; None where there is none. Steps of which they tell nothing others made."""
    for step, lines in records:
        events = next((events for number, events in steps if number == step), None)
        if events is None or len(events) != len(lines) or not all(is_recorded_as(line.digest, event) for line, event in zip(lines, events)):
            return step
    return None


def is_untold(step: int, events: Sequence[bytes], told: Collection[int]) -> bool:
    """A step that has other events than a service's words of itself, and of which no record tells, was made by others, or its records were taken out."""
    return step not in told and not all(event.startswith(OWN_WORDS) for event in events)


def settle_step(begun: int, last: int, made: Optional[int], is_noted: bool) -> Settled:
    """A step that was begun as the one behind the last one is made where the store has it, there or behind steps that others made meanwhile (`made`). It isn't
    made where the store ends with the step before, and nobody was told of it: that is noted first. A store that lacks more than that, or has others there, isn't
    the one on which it was begun."""
    if made is not None:
        return Settled.MADE
    return Settled.UNMADE if begun == last + 1 and not is_noted else Settled.LOST


def sample_of(count: int) -> list[int]:
    """Of the events of a step the first, the middle and the last one are held against what was handed over."""
    return sorted({0, count // 2, count - 1}) if count else []


def read_record(line: bytes) -> Optional[Recorded]:
    """A line of the file of records, without its end; None where it is none."""
    found = RECORD.fullmatch(line)
    return Recorded(int(found[1]), int(found[2]), found[3], found[4] or b"") if found else None


def read_made(line: bytes) -> Optional[Made]:
    """A line that says that a step was made, without its end; None where it is none."""
    found = MADE.fullmatch(line)
    return Made(int(found[1]), found[2].decode()) if found else None


def write_made(made: Made) -> bytes:
    """The line that says that a step was made."""
    return f"{made.step} made {made.authenticator}\n".encode()


def write_records(step: int, events: Sequence[Union[Handed, Recorded]]) -> bytes:
    """The lines of a step, of what was handed over, or of lines of another step."""
    return b"".join(
        b"%d %d %s %s\n" % (step, index, it.digest, it.key) if it.key else b"%d %d %s\n" % (step, index, it.digest) for index, it in enumerate(events)
    )


def write_plain_records(step: int, events: Sequence[bytes]) -> bytes:
    """The lines of a step of events without keys, which are recorded as they are."""
    digests = tuple([hashlib.sha256(event).hexdigest() for event in events])
    return ("".join(PLAIN_LINES[: len(events)]).replace("STEP", str(step)) % digests).encode()


PLAIN_LINES = [f"STEP {index} %s\n" for index in range(1_024)]
RECORD = re.compile(rb"([0-9]{1,13}) ([0-9]{1,4}) ([0-9a-f]{64})(?: ([!-~]{1,64}))?")
MADE = re.compile(rb"([0-9]{1,13}) made ([0-9a-f]{64})")
