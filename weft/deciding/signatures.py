"""Signed lines and public keys: which bytes are one, so that what is kept is byte for byte what was checked.

A signed line is a line with its line end, and behind it its signature in the armour of ssh-keygen. A public key is one line, `type key [comment]`."""

from __future__ import annotations

import base64
import binascii
import hashlib
import re
import struct
from enum import Enum
from typing import Collection, Iterable, NamedTuple, Optional, Union

from weft.deciding.lines import Line, read_line

NAMESPACE = "timeweave-line"
BEGIN, END = b"-----BEGIN SSH SIGNATURE-----", b"-----END SSH SIGNATURE-----"
ARMOUR = re.compile(BEGIN + rb"\n(?:[A-Za-z0-9+/=]{1,128}\n)+" + END + rb"\n")
NAMESPACES = re.compile(rb'namespaces="([^"]*)"')
VALID = re.compile(rb"valid-(after|before)=\"?([0-9]{8}(?:[0-9]{4}(?:[0-9]{2})?)?)(z?)(?![0-9])")
SIGNED_BY = re.compile(r"signed by \S+ (SHA256:[A-Za-z0-9+/]{43})(?![A-Za-z0-9+/])")
GOOD_BY = re.compile(rb"with (\S+) key (SHA256:\S+)")
NOT_VERIFIED, NOT_GOOD = 255, b"Could not verify signature."
MOST_BYTES = 65_536
KEY_KINDS = (
    b"ssh-ed25519", b"ssh-rsa", b"ecdsa-sha2-nistp256", b"ecdsa-sha2-nistp384", b"ecdsa-sha2-nistp521", b"sk-ssh-ed25519@openssh.com",
    b"sk-ecdsa-sha2-nistp256@openssh.com",
)  # fmt: skip


# ---- signed lines


class Signed(NamedTuple):
    """A line, and its signature in the armour of ssh-keygen; whether it is good isn't said by that."""

    line: Line
    signature: bytes

    @property
    def text(self) -> bytes:
        """What is signed: the line with its line end."""
        return f"{self.line.text}\n".encode()

    @property
    def data(self) -> bytes:
        """Both in one file: the line, and behind it the signature."""
        return self.text + self.signature


def read_armour(data: bytes) -> Optional[bytes]:
    """An armour is one line BEGIN, lines of base64 alone, and one line END that ends the file; the answer is its bytes with plain line ends, which are to
    be checked and kept so, or None of other bytes."""
    plain = data.replace(b"\r\n", b"\n")
    armour = plain if plain.endswith(b"\n") else plain + b"\n"
    return armour if len(data) <= MOST_BYTES and ARMOUR.fullmatch(armour) else None


def read_signed_line(data: bytes) -> Optional[Signed]:
    """A signed line is a line, its line end, and an armour behind which nothing stands; of other bytes the answer is None."""
    text, _, rest = data.partition(b"\n")
    line = read_line(text.decode("ascii", "replace").removesuffix("\r"))
    armour = read_armour(rest)
    return Signed(line, armour) if line is not None and armour is not None else None


def read_signed_lines(data: bytes, services: Optional[Iterable[str]] = None) -> list[Signed]:
    """The signed lines of a file that has them one after another, all or those of these services; what is none, or wasn't written to its end, is left
    out, and hides no other one."""
    found = []
    wanted = None if services is None else {name.encode() for name in services}
    for piece in data.split(END + b"\n")[:-1]:
        if wanted is None or piece.partition(b" ")[0] in wanted:
            signed = read_signed_line(piece + END + b"\n")
            found += [signed] if signed else []
    return found


def cut_torn(data: bytes) -> bytes:
    """Of a file of signed lines, one after another, what stands up to the end of the last one that was written whole."""
    return data[: data.rfind(END + b"\n") + len(END) + 1] if END + b"\n" in data else b""


class Check(NamedTuple):
    """What ssh-keygen told of a signature: whether it is good, None where nothing is known, since it couldn't check it; and where it is, by which key."""

    is_good: Optional[bool]
    key: str = ""


def read_check(status: int, told: bytes) -> Check:
    """A signature is good where ssh-keygen ends with 0 and names the key; it isn't where it ends with 255 and says that it couldn't verify it; after another
    end, as of one that was killed or had no memory, nothing is known of it."""
    key = GOOD_BY.search(told)
    if status == 0 and key is not None:
        return Check(True, f"{key[1].decode()} {key[2].decode()}")
    return Check(False if status == NOT_VERIFIED and told.startswith(NOT_GOOD) else None)


# ---- public keys


class KeyFault(Enum):
    """Why a file is no public key."""

    EMPTY = "it is empty"
    PRIVATE = "it is a private key: name the file beside it that ends in .pub"
    SEVERAL_LINES = "it has more than one line, and a public key is one line"
    NOT_A_KEY = "its line isn't a type, a key and perhaps a comment"
    UNKNOWN_KIND = "its line doesn't begin with a type of key that is known here"
    OTHER_KIND = "the key in its line isn't of the type that stands in front of it"


class PublicKey(NamedTuple):
    """A public key: its type, and its bytes as ssh has them."""

    kind: str
    blob: bytes

    @property
    def text(self) -> str:
        """Type and key as one line has them, without a comment and without a line end."""
        return f"{self.kind} {base64.b64encode(self.blob).decode()}"

    @property
    def fingerprint(self) -> str:
        """The fingerprint, as ssh-keygen tells it: of the bytes that are noted, and of no others."""
        return "SHA256:" + base64.b64encode(hashlib.sha256(self.blob).digest()).decode().rstrip("=")

    def signers_line(self, service: str) -> bytes:
        """Its line in a file of signers, as the key of a service, for lines alone."""
        return f'{service} namespaces="{NAMESPACE}" {self.text}\n'.encode()


def is_private_key(head: bytes) -> bool:
    """A file that begins as ssh and openssl write private keys is one."""
    return head.startswith(b"-----BEGIN ") and b"PRIVATE KEY-----" in head


def is_public_key(head: bytes) -> bool:
    """A file that begins with a known type of key and the first digits of a key is a public one."""
    return any(head.startswith(name + b" AAAA") for name in KEY_KINDS)


def read_public_key(data: bytes) -> Union[PublicKey, KeyFault]:
    """A public key is exactly one line `type key [comment]` of a known type, which the key itself has too; of other bytes the answer is why not."""
    lines = data.removesuffix(b"\n").removesuffix(b"\r").replace(b"\r", b"\n").split(b"\n")
    if not data.strip():
        return KeyFault.EMPTY
    if b"PRIVATE KEY-----" in lines[0]:
        return KeyFault.PRIVATE
    if len(lines) > 1:
        return KeyFault.SEVERAL_LINES
    words = lines[0].split(None, 2)
    if words[0] not in KEY_KINDS:
        return KeyFault.UNKNOWN_KIND
    blob = decode_base64(words[1]) if len(words) > 1 else None
    if not blob:
        return KeyFault.NOT_A_KEY
    if not blob.startswith(struct.pack(">I", len(words[0])) + words[0]):
        return KeyFault.OTHER_KIND
    return PublicKey(words[0].decode(), blob)


def decode_base64(text: bytes) -> Optional[bytes]:
    """The bytes of a text in base64, where it is the one text of these bytes; else None."""
    try:
        found = base64.b64decode(text, validate=True)
    except binascii.Error:
        return None
    return found if base64.b64encode(found) == text else None


class Addition(Enum):
    """What a key is to a file of signers, as that of a service."""

    KNOWN = "it is noted already"
    NEW = "none is noted of that name"
    OTHER = "another one is noted of that name"
    LIMITED = "it is noted with options under which it may not count"


def options_of(line: bytes) -> bytes:
    """The options of a line of a file of signers, in small letters."""
    words = line.split()
    kind = next((place for place, word in enumerate(words) if word in KEY_KINDS), len(words))
    return b" ".join(words[1:kind]).lower()


def has_days(line: bytes) -> bool:
    """Whether a line of a file of signers says from when or until when its key counts; ssh-keygen holds a signature against that."""
    return b"valid-" in options_of(line)


class Moment(NamedTuple):
    """A moment, in fourteen digits from the year to the second: in UTC, and in local time."""

    utc: str
    local: str


def counts_at(line: bytes, moment: Optional[Moment]) -> bool:
    """The key of a line of a file of signers counts at a moment that is neither before the one from which nor behind that until which its options let it count; what
    they say without a Z is local time. Where no moment is known, one with days counts for nothing."""
    for which, digits, zone in VALID.findall(options_of(line)):
        at = digits.decode().ljust(14, "0")
        then = "" if moment is None else moment.utc if zone else moment.local
        if not then or (then < at if which == b"after" else then > at):
            return False
    return True


def may_sign_some(line: bytes) -> bool:
    """A key in a file of signers may count for lines where its options name no authority, and either no namespaces or that of lines as well; on which days, its options
    say too."""
    named = NAMESPACES.search(options_of(line))
    return b"cert-authority" not in options_of(line) and (named is None or NAMESPACE.encode() in named[1].split(b","))


def may_sign_lines(line: bytes) -> bool:
    """The same of a key that counts on all days."""
    return may_sign_some(line) and not has_days(line)


def key_of_signature(armour: bytes) -> Optional[PublicKey]:
    """The public key that stands in a signature's armour, by which it may have been made: whether it is good isn't said by that. None where there is none."""
    blob = decode_base64(b"".join(armour.split(b"\n")[1:-2])) or b""
    size = int.from_bytes(blob[10:14], "big")
    key = blob[14 : 14 + size]
    kind = key[4 : 4 + int.from_bytes(key[:4], "big")]
    return PublicKey(kind.decode(), key) if blob.startswith(b"SSHSIG\0\0\0\x01") and len(key) == size and kind in KEY_KINDS else None


def place_key(key: PublicKey, noted: Iterable[bytes], is_beside: bool = False) -> Addition:
    """A key is added where the lines of its service in the file of signers, which are these, have none; a second one is added beside another only where a
    person says so. One that is there alone with options under which it may not count isn't called noted."""
    lines = list(noted)
    blob = key.text.split(" ")[1].encode()
    same = [line for line in lines if blob in line.split()]
    if same:
        return Addition.KNOWN if any(map(may_sign_lines, same)) else Addition.LIMITED
    return Addition.OTHER if lines and not is_beside else Addition.NEW


def read_noted_key(line: bytes) -> Optional[PublicKey]:
    """The public key of a line of a file of signers, where it may sign lines, on whatever days; else None."""
    return read_any_key(line) if may_sign_some(line) else None


def read_any_key(line: bytes) -> Optional[PublicKey]:
    """The public key of a line of a file of signers, whatever its options; None where it has none."""
    words = line.split()
    kind = next((place for place, word in enumerate(words) if word in KEY_KINDS), len(words))
    found = read_public_key(b" ".join(words[kind : kind + 2]))
    return found if isinstance(found, PublicKey) else None


def is_principal(listed: bytes, name: bytes) -> bool:
    """A name is a principal of a list of patterns, as ssh-keygen reads it: where one of them matches, by `*` for any letters and `?` for one, and none does that stands
    behind `!`."""
    found = False
    for pattern in listed.split(b","):
        plain = re.escape(pattern.removeprefix(b"!")).replace(rb"\*", b".*").replace(rb"\?", b".")
        if re.fullmatch(plain, name, re.DOTALL):
            if pattern.startswith(b"!"):
                return False
            found = True
    return found


def may_count_for_part(key: str, by_itself: str, earlier: Collection[str]) -> bool:
    """A key that was noted of a further part by itself, since it was that of the part before, counts while it counts for that one too: who takes a stolen key out
    there has taken it out. One that a person noted counts by itself."""
    return key != by_itself or key in earlier


def find_signing_key(how: str) -> Optional[str]:
    """The fingerprint of the key by whose signature a kept line came, with however many blanks somebody wrote that; None of one that came in another way."""
    found = SIGNED_BY.match(" ".join(how.split()))
    return found[1] if found is not None else None


def may_rest_on(how: str, fingerprints: Collection[str]) -> bool:
    """A kept line of which is told that a key signed it counts while that key is noted of its service; one that came in another way counts by the word of
    whoever kept it."""
    key = find_signing_key(how)
    return key is None or key in fingerprints
