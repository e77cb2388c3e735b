"""Receipts: a service's word that a step of it archived a thread; and files of them.

docs/formats.md, "Receipt", and "A file of receipts" there.
"""

from __future__ import annotations

from dataclasses import dataclass
from typing import List

from .fields import LAST_STEP, Malformed, Reader, big_endian, padded

SIZE = 116
"""The bytes of a receipt."""

MOST_RECEIPTS = 4096
"""The most receipts of all files that are read together."""

MOST_FILES = 64
"""The most files that are read together."""


@dataclass(frozen=True)
class Receipt:
    """A recorder's step, `archived`, with its authenticator there; and the thread that it archived: a service, its step, from 1 on, and
    the authenticator there."""

    recorder: str
    archived: int
    recorder_authenticator: bytes
    service: str
    step: int
    authenticator: bytes

    def to_bytes(self) -> bytes:
        """Its 116 bytes."""
        recorder = padded(self.recorder) + big_endian(self.archived, 8) + self.recorder_authenticator
        return b"TWR1" + recorder + padded(self.service) + big_endian(self.step, 8) + self.authenticator


def _take_receipt(read: Reader) -> Receipt:
    """The receipt that stands next."""
    read.magic(b"TWR1")
    recorder = read.name(), read.number(8, 1, LAST_STEP), read.digest()
    return Receipt(*recorder, read.name(), read.number(8, 1, LAST_STEP), read.digest())


def read_receipt(data: bytes) -> Receipt:
    """The receipt that the bytes are; raises `Malformed` where they are none."""
    read = Reader(data, SIZE)
    receipt = _take_receipt(read)
    read.end()
    return receipt


def read_receipts(data: bytes, most: int = MOST_RECEIPTS) -> List[Receipt]:
    """The receipts of a file, which has at most so many; raises `Malformed` where it is none, of one receipt too many at its first byte."""
    read = Reader(data, most * SIZE)
    receipts: List[Receipt] = []
    while read.at < len(read.data):
        if len(receipts) == most:
            raise Malformed(read.at)
        receipts.append(_take_receipt(read))
    return receipts
