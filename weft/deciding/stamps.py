"""Stamps by time-stamping authorities (RFC 3161): which text each is of, which day it gives, and what is told of one that gives none.

A stamp is what an authority answered; that it is good is checked by `openssl ts`, and nothing of it is proved. It says that a text was there at a time by the
authority's clock: not whose the text is, and not since when it was there. A file of stamps has one answer, and behind it those by which it was renewed, each of which
is of the line's text and of all that stands before it in the file. So a file that was never renewed is the answer as it came."""

from __future__ import annotations

import hashlib
import re
from enum import Enum
from typing import Callable, Iterable, NamedTuple, Optional, Sequence

from weft.deciding.lines import Line

# ---- a file of stamps

SEQUENCE, LONG, MOST_LENGTH = 0x30, 0x80, 3
MOST_PIECE, MOST_PIECES = 1 << 17, 16
MOST_BYTES = MOST_PIECE * MOST_PIECES
TOKEN = bytes.fromhex("06092a864886f70d010702")


def measure_piece(data: bytes) -> int:
    """A piece is a sequence of DER: the answer is how long it is by its own head, and 0 of other bytes."""
    if len(data) < 2 or data[0] != SEQUENCE:
        return 0
    count = data[1] - LONG
    if count < 0:
        return 2 + data[1]
    return 2 + count + int.from_bytes(data[2 : 2 + count], "big") if 1 <= count <= MOST_LENGTH else 0


def read_pieces(data: bytes) -> Optional[tuple[bytes, ...]]:
    """A file of stamps is from 1 to 16 pieces, one behind the other and nothing else, none above 128 KiB; of other bytes the answer is None."""
    pieces: list[bytes] = []
    while data:
        size = measure_piece(data)
        if size == 0 or size > min(len(data), MOST_PIECE) or len(pieces) == MOST_PIECES:
            return None
        pieces.append(data[:size])
        data = data[size:]
    return tuple(pieces) or None


def is_token(piece: bytes) -> bool:
    """A piece is the whole answer of an authority, or the signed part of it alone, which begins with the name of that form."""
    head = piece[1:2][0] - LONG
    return piece[2 + max(head, 0) :].startswith(TOKEN)


def texts_of(line: Line, pieces: Sequence[bytes]) -> list[bytes]:
    """The first stamp is of exactly the line with its line end, and each that renewed it of that and of all stamps before it."""
    return [f"{line.text}\n".encode() + b"".join(pieces[:number]) for number in range(len(pieces))]


def name_stamp(line: Line, pieces: Sequence[bytes]) -> str:
    """A kept stamp has a name of its own by its line and by the first answer, which stays when it is renewed."""
    return f"{front_of(line)}{hashlib.sha256(pieces[0]).hexdigest()[:32]}.stamp"


def front_of(line: Line) -> str:
    """The names of the stamps of a line begin with its step and its authenticator."""
    return f"{line.step}-{line.authenticator}-"


class Placing(Enum):
    """What a stamp that comes is to the one of its name that is kept: the first one, that one or an earlier state of it, renewed, or renewed in another way."""

    NEW = "new"
    KNOWN = "known"
    RENEWED = "renewed"
    OTHER = "other"


def place_stamp(old: Optional[bytes], new: bytes) -> Placing:
    """One that goes on from the kept one comes in its place; one with which the kept one begins, or that was renewed otherwise, doesn't."""
    if old is None:
        return Placing.NEW
    if old.startswith(new):
        return Placing.KNOWN
    return Placing.RENEWED if new.startswith(old) else Placing.OTHER


# ---- what an answer tells

MONTHS = (b"Jan", b"Feb", b"Mar", b"Apr", b"May", b"Jun", b"Jul", b"Aug", b"Sep", b"Oct", b"Nov", b"Dec")
TOLD = re.compile(
    rb"Version: 1\nPolicy OID: [^\n]*\nHash Algorithm: ([a-z0-9-]+)\nMessage data:\n(?:    [^\n]*\n)+Serial number: [^\n]*\nTime stamp: "
    rb"([A-Z][a-z]{2}) ([ 0-9][0-9]) ([0-2][0-9]):([0-5][0-9]):([0-6][0-9])(\.[0-9]+)? ([0-9]{4}) GMT\nAccuracy: ([^\n]+)\n"
)
PART = rb"(?:0x([0-9A-F]{1,8})|unspecified)"
ACCURACY = re.compile(PART + rb" seconds, " + PART + rb" millis, " + PART + rb" micros")
STRONG = frozenset({"sha256", "sha384", "sha512", "sha3-256", "sha3-384", "sha3-512"})
DAY_SECONDS = 86_400


class Stamp(NamedTuple):
    """What an answer tells: the second, from 1970 on, by which the text was there, and the digest by which it names the text."""

    second: int
    digest: str


def count_days(year: int, month: int, day: int) -> int:
    """The days from the beginning of 1970 to a day of the calendar: a year of it is taken to begin with March."""
    year, month = (year, month - 3) if month > 2 else (year - 1, month + 9)
    return year * 365 + year // 4 - year // 100 + year // 400 + (153 * month + 2) // 5 + day - 719_469


def read_accuracy(text: bytes) -> Optional[int]:
    """How many seconds behind the time that is told it may have been at most, in whole ones; of a text that tells none the answer is None."""
    if text == b"unspecified":
        return 0
    found = ACCURACY.fullmatch(text)
    if found is None:
        return None
    seconds, *parts = (int(part or b"0", 16) for part in found.groups())
    return seconds + any(parts)


def read_stamp(told: bytes) -> Optional[Stamp]:
    """An answer's second is the time that openssl prints of it, up to the end of that second, and behind it the seconds of its accuracy; each line has to stand where
    openssl prints it. Of another text the answer is None."""
    found = TOLD.match(told)
    over = read_accuracy(found[9]) if found else None
    if found is None or over is None or found[2] not in MONTHS:
        return None
    days = count_days(int(found[8]), MONTHS.index(found[2]) + 1, int(found[3]))
    second = (int(found[4]) * 60 + int(found[5])) * 60 + int(found[6])
    return Stamp(days * DAY_SECONDS + second + (found[7] is not None) + over, found[1].decode())


# ---- what openssl says of it


class Fault(Enum):
    """Why a stamp gives no day, by the sentence that tells it; the first of these counts most, where several authorities were asked about one."""

    UNCHECKED = "stamp unchecked"
    REVOKED = "stamp revoked"
    EXPIRED = "stamp expired"
    OTHER = "stamp other"
    WEAK = "stamp weak"
    CHANGED = "stamp changed"
    FOREIGN = "stamp foreign"


class Check(NamedTuple):
    """What came of checking a stamp at a moment: None where it is good, by which authority; else why not, with openssl's own words."""

    fault: Optional[Fault]
    authority: str = ""
    said: str = ""


GOOD, FAILED = b"Verification: OK\n", b"Verification: FAILED\n"
ERROR = re.compile(rb":error:[0-9A-F]+:[^:\n]*:[^:\n]*:([^:\n]*):[^:\n]*:[0-9]+:(?:Verify error:([^\n]*))?")
FAULTS = {
    b"certificate has expired": Fault.EXPIRED, b"certificate revoked": Fault.REVOKED, b"message imprint mismatch": Fault.OTHER,
    b"self-signed certificate in certificate chain": Fault.FOREIGN, b"self signed certificate in certificate chain": Fault.FOREIGN,
    b"self-signed certificate": Fault.FOREIGN, b"self signed certificate": Fault.FOREIGN, b"unable to get local issuer certificate": Fault.FOREIGN,
    b"unable to get issuer certificate": Fault.FOREIGN, b"unable to verify the first certificate": Fault.FOREIGN, b"malloc failure": Fault.UNCHECKED,
}  # fmt: skip


def read_check(status: int, out: bytes, told: bytes, authority: str) -> Check:
    """A stamp is good where openssl ends with 0 and says so, and isn't where it ends with 1 and says that; after another end nothing is known of it. Why it isn't,
    the first of its errors tells that is known here; any other one is taken for a change."""
    if status == 0 and out == GOOD:
        return Check(None, authority)
    errors: list[bytes] = [found[2] or found[1] for found in ERROR.finditer(told)]
    known = next((error for error in errors if error in FAULTS), None)
    said = (known or b"".join(errors[:1])).decode("utf-8", "replace")
    if status != 1 or out != FAILED:
        return Check(Fault.UNCHECKED, authority, said)
    return Check(FAULTS[known] if known is not None else Fault.CHANGED, authority, said)


def choose_check(checks: Iterable[Check]) -> Check:
    """Of what came under the certificates of several authorities the good one counts, else the one that tells most; where no authority is trusted, it is foreign."""
    ranks = list(Fault)
    return min(checks, key=lambda it: -1 if it.fault is None else ranks.index(it.fault), default=Check(Fault.FOREIGN))


# ---- what a file of stamps gives


class Weighed(NamedTuple):
    """What a file of stamps gives: no fault and a second, by an authority; or a fault, and what is known. And whether it counts by a renewal."""

    fault: Optional[Fault]
    authority: str = ""
    second: Optional[int] = None
    is_renewed: bool = False
    said: str = ""


Asked = Callable[[int, int], Check]


def weigh_stamps(stamps: Sequence[Optional[Stamp]], now: int, ask: Asked) -> Weighed:
    """The first stamp gives its day where it is good now, or was good when one came behind it that itself stands so; `ask` checks one, by its number, at a moment. One
    that names its text by a digest for which two texts may be found gives none, nor one that can't be read."""
    check, is_standing = Check(None), False
    for number, stamp in reversed(list(enumerate(stamps))):
        check = weigh_one(stamp, now, number, ask)
        is_now, after = check.fault is None, stamps[number + 1] if is_standing else None
        if not is_now and after is not None and stamp is not None and stamp.digest in STRONG:
            at_renewal = ask(number, after.second)
            check = at_renewal if at_renewal.fault is None else check
        is_standing = check.fault is None
    first = stamps[0]
    second = first.second if first is not None else None
    if check.fault is None:
        return Weighed(None, check.authority, second, not is_now)
    return Weighed(check.fault, check.authority, second, False, check.said)


def weigh_one(stamp: Optional[Stamp], now: int, number: int, ask: Asked) -> Check:
    """A stamp by itself, now: one whose certificate has expired is told so only where it was good at its own time, since nothing else of it was looked at now."""
    if stamp is None:
        return Check(Fault.CHANGED, said="no time can be read in it")
    if stamp.digest not in STRONG:
        return Check(Fault.WEAK, said=stamp.digest)
    check = ask(number, now)
    if check.fault is not Fault.EXPIRED:
        return check
    before = ask(number, stamp.second)
    return check if before.fault is None else before


def list_told(weighed: Iterable[Weighed]) -> list[Weighed]:
    """Of the stamps of a line those are told that give a day, the earliest one of each authority; where none does, why not, each reason once."""
    given: dict[str, Weighed] = {}
    faults: dict[tuple[Optional[Fault], str], Weighed] = {}
    for it in sorted(weighed, key=lambda it: it.second or 0):
        if it.fault is None:
            given.setdefault(it.authority, it)
        else:
            faults.setdefault((it.fault, it.said), it)
    return list(given.values()) or list(faults.values())


# ---- what was recorded not after that day


class Dated(NamedTuple):
    """A line that stood by a second, as an authority says."""

    line: Line
    second: int
    authority: str


class Place(NamedTuple):
    """Where an event was recorded."""

    service: str
    step: int


def date_place(place: Place, dated: Iterable[Dated]) -> Optional[Dated]:
    """What a service recorded up to the step of a line was there when that line was: the earliest such day counts."""
    return earliest(it for it in dated if it.line.service == place.service and place.step <= it.line.step)


def earliest(dated: Iterable[Optional[Dated]]) -> Optional[Dated]:
    """The one whose day comes first, where there is one."""
    found: list[Dated] = [it for it in dated if it is not None]
    return min(found, key=lambda it: it.second) if found else None


def date_places(places: Sequence[Place], dated: Sequence[Dated], is_in_order: bool) -> list[Optional[Dated]]:
    """Each place has its own day; and where the first is shown to have come before the second, without a hop that rests on somebody's word, it was there when that one
    was."""
    found = [date_place(place, dated) for place in places]
    if is_in_order and len(found) == 2:
        return [earliest(found), found[1]]
    return found
