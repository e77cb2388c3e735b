"""Whether a file is the one of an event that was recorded: of the entry that a log of files makes of it, of its digest, or of itself."""

from __future__ import annotations

import hashlib
import re
from enum import Enum
from typing import NamedTuple, Optional, Sequence

LOGGED = re.compile(rb"\\?([0-9a-f]{64})  (.*)", re.DOTALL)
UNNAMED = b"-"
"""What stands in the place of a name where a digest was recorded alone, as sha256sum writes that of its standard input."""


class Match(Enum):
    """What a file is to the events of a proof."""

    SAME = "its digest and its name were logged"
    RENAMED = "its digest was logged, under another name"
    OTHER = "another file was logged"
    NO_ENTRY = "no file was logged"


class Recorded(NamedTuple):
    """What an entry tells of a file: its SHA-256 digest in hexadecimal digits, and its path as it was logged."""

    digest: str
    path: bytes


class Logged(NamedTuple):
    """The same of a file with its name alone, without the folders above it; None where its digest was recorded alone."""

    digest: str
    name: Optional[bytes]


class Matched(NamedTuple):
    """What a file is to the events of a proof, and the places of those whose file it is, from 0 on."""

    match: Match
    places: list[int]


def read_recorded(event: bytes) -> Optional[Recorded]:
    """An event is an entry of a file where it is as sha256sum writes it: the digest, two blanks and the path, with a backslash in front where the path has
    escapes; of another event the answer is None."""
    found = LOGGED.fullmatch(event)
    if found is None:
        return None
    path = found[2]
    if event.startswith(b"\\"):
        path = path.replace(b"\\\\", b"\0").replace(b"\\n", b"\n").replace(b"\\r", b"\r").replace(b"\0", b"\\")
    return Recorded(found[1].decode(), path)


def read_logged(event: bytes) -> Optional[Logged]:
    """The same, with the name of the file alone."""
    found = read_recorded(event)
    return found and Logged(found.digest, None if found.path == UNNAMED else found.path.rpartition(b"/")[2])


def whole_digest(event: bytes) -> str:
    """The digest of an event: a file that is short enough is recorded as it is."""
    return hashlib.sha256(event).hexdigest()


def digests_of(event: bytes) -> tuple[str, ...]:
    """An event stands for what has its own digest; and where it tells the digest of a file, for what has that one."""
    logged = read_recorded(event)
    return (whole_digest(event),) if logged is None else (whole_digest(event), logged.digest)


def match_file(events: Sequence[Optional[Logged]], digest: str, name: bytes, whole: Sequence[str] = ()) -> Matched:
    """A file is held against each event of a proof, what it tells of a file and its own digest (`whole`): it is that of each which has its digest and either its name or
    none, or, of an event that tells of no file, is the file itself; where there is none, that of each whose digest it has; and else it is of none of them. An event that
    tells of a file stands for that one alone, and not for a file that has the event's own bytes."""
    same = [place for place, event in enumerate(events) if event is not None and event.digest == digest]
    named = {place for place in same if events[place] in (Logged(digest, name), Logged(digest, None))}
    itself = {place for place, it in enumerate(whole) if it == digest and events[place] is None}
    if named or itself:
        return Matched(Match.SAME, sorted(named | itself))
    if same:
        return Matched(Match.RENAMED, same)
    return Matched(Match.OTHER if any(event is not None for event in events) else Match.NO_ENTRY, [])
