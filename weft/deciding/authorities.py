"""Time-stamping authorities: which bytes are certificates that a user can trust, so that what is noted is what was read, and by which name each goes."""

from __future__ import annotations

import base64
import binascii
import hashlib
import re
from enum import Enum
from typing import NamedTuple, Optional, Union

NAME = re.compile(r"[A-Za-z0-9][A-Za-z0-9._-]{0,63}")
BLOCK = re.compile(rb"-----BEGIN ([A-Z0-9 ]+)-----\r?\n([A-Za-z0-9+/=\r\n]*)-----END ([A-Z0-9 ]+)-----")
CERTIFICATE, REVOKED = b"CERTIFICATE", b"X509 CRL"
MOST_BYTES, COLUMNS = 1 << 20, 64


class Unfit(Enum):
    """Why a file has no certificates of an authority."""

    EMPTY = "it has no certificate"
    PRIVATE = "it has a private key, which is its owner's alone"
    UNREADABLE = "a certificate in it can't be read"


class Certificates(NamedTuple):
    """The certificates of an authority, and its lists of those that were revoked, each as DER."""

    certificates: tuple[bytes, ...]
    revoked: tuple[bytes, ...] = ()

    @property
    def pem(self) -> bytes:
        """What is noted: these and nothing else."""
        blocks = [(CERTIFICATE, it) for it in self.certificates] + [(REVOKED, it) for it in self.revoked]
        return b"".join(b"-----BEGIN %s-----\n%s-----END %s-----\n" % (name, rows_of(der), name) for name, der in blocks)

    @property
    def fingerprints(self) -> list[str]:
        """The SHA-256 digests of the certificates, by which a person compares them."""
        return [hashlib.sha256(it).hexdigest() for it in self.certificates]


def rows_of(der: bytes) -> bytes:
    """Bytes as a block has them."""
    text = base64.b64encode(der)
    return b"".join(text[at : at + COLUMNS] + b"\n" for at in range(0, len(text), COLUMNS))


def read_block(text: bytes) -> Optional[bytes]:
    """The bytes of a block, which are a sequence of DER; None of another one."""
    try:
        der = base64.b64decode(text)
    except binascii.Error:
        return None
    return der if der.startswith(b"0") else None


def read_certificates(data: bytes) -> Union[Certificates, Unfit]:
    """A file of an authority has one or several certificates in PEM, perhaps lists of revoked ones, and words between them that count for nothing; or it is one
    certificate as DER. One with a private key is none."""
    if b"PRIVATE KEY" in data:
        return Unfit.PRIVATE
    if data.startswith(b"0"):
        return Certificates((data,))
    found = [(it[1], read_block(it[2]) if it[1] == it[3] else None) for it in BLOCK.finditer(data)]
    if any(der is None for _, der in found):
        return Unfit.UNREADABLE
    certificates = tuple(der for name, der in found if name == CERTIFICATE and der is not None)
    revoked = tuple(der for name, der in found if name == REVOKED and der is not None)
    return Certificates(certificates, revoked) if certificates else Unfit.EMPTY


def may_name(name: str) -> bool:
    """An authority goes by a name that its user gives it: of 1 to 64 letters, digits, dots, - and _, beginning with a letter or a digit."""
    return NAME.fullmatch(name) is not None
