"""How a service takes a new key: its old one signs an introduction, a text of its own in a namespace of its own, which names the new key and the line of a step whose one
event is that key. So it stands in order with all that was recorded; the event alone, which others may have handed in, introduces nothing.

Who has the old key notes the new one by the signed line and that introduction, with the proof of the event. The new one counts while the key that introduced it is noted:
who takes a stolen key out has taken out what a thief introduced by it, too. A key that is only replaced stays in the file, with an end where it has one (`valid-before`
of ssh-keygen)."""

from __future__ import annotations

import base64
import re
from typing import Collection, Iterable, NamedTuple, Optional

from weft.deciding.lines import Line
from weft.deciding.signatures import END, PublicKey, decode_base64, read_any_key, read_armour, read_public_key

FRONT = b"new key "
NAMESPACE = "timeweave-key"
INTRODUCED = re.compile(rb"\sintroduced-by=(SHA256:[A-Za-z0-9+/]{43})(?=\s|$)")
WORD = b"introduced-by"


def key_event(key: PublicKey) -> bytes:
    """The event that names a new key; no entry of a file reads so."""
    return FRONT + key.text.encode()


def read_key_event(event: bytes) -> Optional[PublicKey]:
    """The key that an event names, where it is the very event that names it; else None."""
    found = read_public_key(event[len(FRONT) :]) if event.startswith(FRONT) else None
    return found if isinstance(found, PublicKey) and key_event(found) == event else None


class Introduction(NamedTuple):
    """A file that introduces a key: the armour of the old key's signature, and the proof of the event."""

    armour: bytes
    proof: bytes


def introduction_text(line: Line, key: PublicKey) -> bytes:
    """The text that the old key signs."""
    return f"{line.text} introduces {key.text}\n".encode()


def write_introduction(text: bytes, it: Introduction) -> bytes:
    """The file: the text, the armour, and the proof in base64."""
    return text + it.armour + base64.b64encode(it.proof) + b"\n"


def read_introduction(data: bytes, text: bytes) -> Optional[Introduction]:
    """The introduction of a file that has this text in front; else None."""
    armour, end, proof = data.removeprefix(text).partition(END + b"\n")
    found = read_armour(armour + end) if data.startswith(text) and end else None
    whole = decode_base64(proof.removesuffix(b"\n"))
    return Introduction(found, whole) if found is not None and whole else None


def read_introduced(data: bytes, line: Line) -> Optional[PublicKey]:
    """The key that the text in front of a file names, as introduced at this line; else None. Whether that is signed isn't said by it."""
    front = f"{line.text} introduces ".encode()
    found = read_public_key(data.partition(b"\n")[0][len(front) :]) if data.startswith(front) else None
    return found if isinstance(found, PublicKey) and data.startswith(introduction_text(line, found)) else None


class Shown(NamedTuple):
    """What a proof shows of an event: its service and step, under which step's line, how many events the step has, and the event."""

    service: str
    step: int
    top: int
    events: int
    event: bytes


def find_introduced(line: Line, shown: Shown) -> Optional[PublicKey]:
    """The key that a signed line introduces: its own step, proved under it, has the event that names the key, and no other one."""
    is_its_own = (shown.service, shown.step, shown.top, shown.events) == (line.service, line.step, line.step, 1)
    return read_key_event(shown.event) if is_its_own else None


def introduced_line(service: str, key: PublicKey, by: str) -> bytes:
    """The line of a file of signers that notes a key which another one introduced."""
    return key.signers_line(service).removesuffix(b"\n") + f" introduced-by={by}\n".encode()


def list_standing(lines: Iterable[bytes]) -> list[bytes]:
    """Of the lines of a service in a file of signers those that count: such as a person noted, and such as were introduced by a key of a line that counts. (A key that
    introduced itself, over others or not, counts for nothing.)"""
    waiting, standing, keys = list(lines), list[bytes](), set[str]()
    while found := [line for line in waiting if may_stand(line, keys)]:
        standing += found
        keys |= {key.fingerprint for key in map(read_any_key, found) if key is not None}
        waiting = [line for line in waiting if line not in found]
    return standing


def may_stand(line: bytes, keys: Collection[str]) -> bool:
    """Whether a line was noted by a person, or introduced by one of these keys. One that says otherwise who introduced it counts for nothing."""
    by = INTRODUCED.search(line)
    return by[1].decode() in keys if by is not None else WORD not in line
