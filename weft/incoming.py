"""What is handed over to be recorded: lines, pieces with their lengths, JSON, files."""

from __future__ import annotations

import base64
import binascii
import hashlib
import json
import os
import struct
from pathlib import Path
from typing import IO, Callable, Iterator, Mapping, Sequence

from weft import files
from weft.deciding.batching import MOST_EVENT, Handed, handed_by_digest, handed_over, is_key
from weft.statuses import Status
from weft.texts import name_of
from weft.trouble import Trouble

MOST_HANDED = 1 << 26
PIECE = 1 << 20


def unreadable(number: int, why: str) -> Trouble:
    """That a piece of the input is none."""
    return Trouble(Status.UNREADABLE, f"event {number} of the input {why}", "What stands before it was recorded, and what is behind it wasn't.")


def as_lines(source: IO[bytes]) -> Iterator[Handed]:
    """Each line is an event, without its end."""
    for number, line in enumerate(iter(lambda: source.readline(MOST_HANDED + 1), b""), 1):
        if len(line) > MOST_HANDED:
            raise unreadable(number, f"is a line of more than {MOST_HANDED:,} bytes")
        yield handed_over(line[:-1] if line.endswith(b"\n") else line)


def as_pieces(source: IO[bytes]) -> Iterator[Handed]:
    """Before each event stands its length, in four bytes, the greatest first."""
    number = 0
    while head := source.read(4):
        number += 1
        size = struct.unpack(">I", head)[0] if len(head) == 4 else 0
        if len(head) < 4 or size > MOST_HANDED:
            raise unreadable(number, "has no whole length" if len(head) < 4 else f"would have {size:,} bytes")
        data = source.read(size)
        if len(data) < size:
            raise unreadable(number, f"ends behind {len(data):,} of its {size:,} bytes")
        yield handed_over(data)


def as_json(source: IO[bytes]) -> Iterator[Handed]:
    """Each line is a value of JSON: a text, which is the event in UTF-8; or an object that has the text as `event` or the bytes as `base64`, and may have a `key`."""
    for number, line in enumerate(iter(lambda: source.readline(2 * MOST_HANDED + 1), b""), 1):
        try:
            value = json.loads(line, object_pairs_hook=object_of)
        except (ValueError, RecursionError):
            raise unreadable(number, "is no line of JSON, or has a name twice") from None
        yield of_json(number, value)


def object_of(pairs: Sequence[tuple[str, object]]) -> dict[str, object]:
    """An object of JSON; raises ValueError where it has a name twice, of which the second would count in silence."""
    found = dict(pairs)
    if len(found) < len(pairs):
        raise ValueError
    return found


def of_json(number: int, value: object) -> Handed:
    """What a value of JSON hands over; raises Trouble where it is none of the forms."""
    it = {"event": value} if isinstance(value, str) else value
    if not isinstance(it, dict) or set(it) - {"event", "base64", "key"} or ("event" in it) == ("base64" in it) or not all(isinstance(one, str) for one in it.values()):
        raise unreadable(number, 'is neither a text nor {"event": TEXT} or {"base64": BYTES}, with "key" where it has one')
    try:
        data = it["event"].encode() if "event" in it else base64.b64decode(it["base64"], validate=True)
    except (UnicodeEncodeError, binascii.Error):
        raise unreadable(number, "has no bytes that JSON can tell") from None
    key = it.get("key", "").encode("utf-8", "replace")
    if "key" in it and not is_key(key):
        raise unreadable(number, "has a key that isn't 1 to 64 letters of ASCII without blanks")
    return handed_over(data, key)


FORMS: Mapping[str, Callable[[IO[bytes]], Iterator[Handed]]] = {"lines": as_lines, "pieces": as_pieces, "json": as_json}


def of_file(path: Path, key: bytes = b"") -> Handed:
    """A file is recorded as it is where it is short enough for an event, else by its digest."""
    number = files.opened(path)
    with os.fdopen(number, "rb") as file:
        files.expect_content(number, path)
        front = file.read(MOST_EVENT + 1)
        if len(front) <= MOST_EVENT:
            return handed_over(front, key)
        whole = hashlib.sha256(front)
        for piece in iter(lambda: file.read(PIECE), b""):
            whole.update(piece)
        return handed_by_digest(whole.hexdigest().encode(), key)


def of_text(text: str, key: bytes = b"") -> Handed:
    """A word is recorded as its bytes."""
    return handed_over(os.fsencode(text), key)


def key_named(word: str) -> bytes:
    """A key as it is named by a person; raises Trouble where it is none."""
    key = word.encode("utf-8", "surrogateescape")
    if not is_key(key):
        raise Trouble(Status.USAGE, f"{name_of(word)} is no key", "A key has 1 to 64 letters of ASCII, and no blank.")
    return key
