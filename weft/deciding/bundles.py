"""Bundles: which bytes are one, so that each program that opens it finds the same files in it, and which of its lines count.

A bundle is a zip file that has its files one behind the other, as they are, and its directory behind them: each of one of a few names, once, with one fixed time, and nothing
else anywhere. So it has exactly one spelling, and another one is refused."""

from __future__ import annotations

import binascii
import re
import struct
from enum import Enum
from typing import Mapping, NamedTuple, Optional, Sequence, Union

from weft.deciding.lines import Line

MOST_BYTES, MOST_NUMBER = 1 << 26, 64
PROOF, HIGH, LINES, HELD, KEYS, README = "proof", "proof-2", "lines", "held", "keys", "README.txt"
RECORDS, NAMED = ("record", "record-2"), ".name"
NAME = re.compile(
    r"README\.txt|proof(?:-2)?|lines|held|keys|record(?:-2)?(?:\.name)?|(?:signed|stamped|stamp)-(?:[1-9]|[1-5][0-9]|6[0-4])|signed-(?:[1-9]|[1-5][0-9]|6[0-4])\.sig"
)
NEEDED = (README, PROOF, LINES)
LOCAL, CENTRAL, END = struct.Struct("<4s5H3I2H"), struct.Struct("<4s6H3I5H2I"), struct.Struct("<4s4H2IH")
LOCAL_SIGN, CENTRAL_SIGN, END_SIGN = b"PK\x03\x04", b"PK\x01\x02", b"PK\x05\x06"
VERSION, MADE_BY, DAY, MODE = 10, 3 << 8 | 10, 0x21, 0o100644 << 16


class Unfit(Enum):
    """Why bytes are no bundle, by the sentence that tells it."""

    LONG = "unfit long"
    END = "unfit end"
    PLACE = "unfit place"
    NAME = "unfit name"
    TWICE = "unfit twice"
    PACKED = "unfit packed"
    CHANGED = "unfit changed"
    LACKS = "unfit lacks"


class Entry(NamedTuple):
    """A file of a directory: its name, how many bytes it has, where it begins, the check of its bytes, and whether nothing else is said of it than of each."""

    name: str
    size: int
    at: int
    check: int
    is_plain: bool


def local_of(name: bytes, data: bytes) -> bytes:
    """A file as it stands in a bundle."""
    return LOCAL.pack(LOCAL_SIGN, VERSION, 0, 0, 0, DAY, binascii.crc32(data), len(data), len(data), len(name), 0) + name + data


def central_of(name: bytes, size: int, check: int, at: int) -> bytes:
    """What the directory says of a file."""
    return CENTRAL.pack(CENTRAL_SIGN, MADE_BY, VERSION, 0, 0, 0, DAY, check, size, size, len(name), 0, 0, 0, 0, MODE, at) + name


def write_bundle(found: Mapping[str, bytes]) -> bytes:
    """The one spelling of these files, in the order of their names."""
    files, directory = b"", b""
    for name in sorted(found):
        directory += central_of(name.encode(), len(found[name]), binascii.crc32(found[name]), len(files))
        files += local_of(name.encode(), found[name])
    return files + directory + END.pack(END_SIGN, 0, 0, len(found), len(found), len(directory), len(files), 0)


def read_bundle(data: bytes) -> Union[dict[str, bytes], Unfit]:
    """The files of a bundle; of other bytes the answer is why they are none. Nothing is taken of what isn't spelled as it has to be; each file begins where the one before
    it ends, so that no bytes are taken twice."""
    if len(data) > MOST_BYTES:
        return Unfit.LONG
    entries = read_directory(data)
    if isinstance(entries, Unfit):
        return entries
    found: dict[str, bytes] = {}
    place = 0
    for it in entries:
        begin = it.at + LOCAL.size + len(it.name)
        if NAME.fullmatch(it.name) is None:
            return Unfit.NAME
        if it.name in found:
            return Unfit.TWICE
        if not it.is_plain:
            return Unfit.PACKED
        if it.at != place:
            return Unfit.PLACE
        place = begin + it.size
        found[it.name] = data[begin:place]
        if binascii.crc32(found[it.name]) != it.check:
            return Unfit.CHANGED
    if any(name not in found for name in NEEDED):
        return Unfit.LACKS
    return found if write_bundle(found) == data else Unfit.PACKED


def read_directory(data: bytes) -> Union[list[Entry], Unfit]:
    """The entries of the directory, which has to end where the end begins, and to begin behind the files."""
    if len(data) < END.size or data[-END.size :][:4] != END_SIGN:
        return Unfit.END
    count, size, place = END.unpack(data[-END.size :])[4:7]
    if place + size + END.size != len(data):
        return Unfit.PLACE
    entries: list[Entry] = []
    at = place
    while at < len(data) - END.size:
        fields = CENTRAL.unpack(data[at : at + CENTRAL.size].ljust(CENTRAL.size, b"\0"))
        if fields[0] != CENTRAL_SIGN or len(entries) == count:
            return Unfit.PLACE
        end = at + CENTRAL.size + fields[10] + fields[11] + fields[12]
        name = data[at + CENTRAL.size : at + CENTRAL.size + fields[10]]
        is_plain = data[at:end] == central_of(name, fields[8], fields[7], fields[16])
        entries.append(Entry(name.decode("ascii", "replace"), fields[8], fields[16], fields[7], is_plain))
        at = end
    return entries if len(entries) == count else Unfit.PLACE


# ---- whose its lines are


class Met(Enum):
    """What meets a line of a bundle: the reader's own line of that step; another one of his; a key that he noted of its service; an authority that he trusts; or nothing but the
    sender's word."""

    YOURS = "bundle yours"
    OTHER = "bundle other"
    KEY = "bundle key"
    STAMP = "bundle stamp"
    SENDER = "bundle sender"


def meet_line(line: Line, held: Sequence[Line], is_signed: bool, is_stamped: bool) -> Met:
    """A line that came with a proof is the sender's until something of the reader's meets it: his own line of that step, and only where he has none, a noted key's
    signature, and only where there is none, a stamp."""
    if line in held:
        return Met.YOURS
    if held:
        return Met.OTHER
    if is_signed:
        return Met.KEY
    return Met.STAMP if is_stamped else Met.SENDER


def may_judge_under(met: Met) -> bool:
    """A proof is judged under a line of a bundle where a key or a stamp meets it; under the reader's own ones it is in any case."""
    return met in (Met.KEY, Met.STAMP)


def is_on_a_word(resting: Sequence[Line], met: Mapping[Line, Met]) -> bool:
    """What rests on a line that only a stamp meets is shown in part: whose line it is only the sender says."""
    return any(met.get(line) is Met.STAMP for line in resting)


class Pair(NamedTuple):
    """A text of a bundle and what stands beside it, by their number."""

    number: int
    text: bytes
    beside: bytes


def numbered(found: Mapping[str, bytes], front: str, end: str = "") -> list[Pair]:
    """The texts of a bundle by their numbers, each with what stands beside it, where both are there."""
    pairs: list[Pair] = []
    for number in range(1, MOST_NUMBER + 1):
        text, beside = found.get(f"{front}-{number}"), found.get(f"signed-{number}{end}" if end else f"stamp-{number}")
        if text is not None and beside is not None:
            pairs.append(Pair(number, text, beside))
    return pairs


class Record(NamedTuple):
    """A record of a bundle: its name, and its bytes."""

    name: str
    data: bytes


def list_records(found: Mapping[str, bytes]) -> list[Record]:
    """The records of a bundle, at most two, since a proof of order has two events; each with its name: one that isn't a path, of 1 to 255 bytes, else that in the bundle."""
    return [Record(name_record(found, name), found[name]) for name in RECORDS if name in found]


def name_record(found: Mapping[str, bytes], place: str) -> str:
    """The name of a record, as the file beside it tells it."""
    name = found.get(f"{place}{NAMED}", b"").decode("utf-8", "replace").removesuffix("\n")
    is_fit = 0 < len(name.encode()) <= 255 and "/" not in name and "\0" not in name and name not in (".", "..")
    return name if is_fit else place


def are_judged_together(kinds: Sequence[str]) -> bool:
    """A bundle has one proof, or a low map file and behind it a high one."""
    return len(kinds) == 1 or list(kinds) == ["low map", "high map"]
