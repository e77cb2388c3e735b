"""What a backup holds and by which list it is known to be whole, which one may take the place of another, and which one may be put back.

A backup is one tar file of files and folders alone: the service's folder (`service`), what stands beside it (`service.lines` and so on), its box (`box`) without
what came there, its user's kept lines and signers (`own`), and where they are wanted the key of the box and its public half (`keys`). In front stands
`weft-backup`, behind all else `list`, which ends with the digest of what stands before:

    weft backup 1
    made 2026-12-01T02:31:07Z
    line data 31 5585..                              the last line of each part of the service
    peer bank 30                                     which step of its last part each accepted peer was known to have recorded, 0 for none
    folder 0700 box
    file 0600 16384 9f86d0.. service/timeline.tw
    end 2c26b4.."""

from __future__ import annotations

import hashlib
import re
from enum import Enum
from typing import Collection, NamedTuple, Optional, Sequence

from weft.deciding.lines import Line, read_line
from weft.deciding.signatures import PublicKey, read_public_key

MARK, LIST, HEAD = "weft-backup", "list", "weft backup 1"
SERVICE, BOX, OWN, KEYS = "service", "box", "own", "keys"
KEPT, SIGNERS = f"{OWN}/kept", f"{OWN}/signers"
# Beside the kept lines: which names are another service's, which services were made, and the stamps of lines, in a folder for each service.
OTHERS, MADE, STAMPS = f"{KEPT}.others", f"{KEPT}.made", f"{KEPT}.stamps"
STAMP = re.compile(rf"{re.escape(STAMPS)}/([a-z0-9-]{{1,16}})/([0-9]{{1,13}})-([0-9a-f]{{64}})-[0-9a-f-]{{1,200}}\.stamp")
KEY, PUBLIC = f"{KEYS}/key", f"{KEYS}/key.pub"
# What stands beside a service's folder and is a part of it. (Locks, and what is known of files since they were read, aren't.)
BESIDE = (".lines", ".anchor", ".seal", ".entries", ".records", ".pending", ".next", ".others", ".look")
# What is made anew by itself, or is of this place alone.
LEFT_OUT = (".lock", ".new", ".known", ".backup", ".keys", ".keys-wal", ".keys-shm", ".socket", ".keeper")
TOP = {SERVICE, BOX, OWN, KEYS, *(SERVICE + end for end in BESIDE)}
DATE = re.compile(r"[0-9]{4}-[0-9]{2}-[0-9]{2}T[0-9]{2}:[0-9]{2}:[0-9]{2}Z")
FRONT = re.compile(rf"{HEAD}\nmade ({DATE.pattern})\n")
FOLDER_LINE = re.compile(r"folder ([0-7]{4}) (.+)")
FILE_LINE = re.compile(r"file ([0-7]{4}) ([0-9]{1,16}) ([0-9a-f]{64}) (.+)")
PRIVATE_KEY = re.compile(rb"-----BEGIN ([A-Z ]*PRIVATE KEY)-----\n(?:[A-Za-z0-9+/=]{1,76}\n)+-----END \1-----\n")
PEER_LINE = re.compile(r"peer ([a-z0-9-]{1,16}) ([0-9]{1,13})")


class Item(NamedTuple):
    """A file or folder of a backup: its name, its mode, and of a file its size and its SHA-256 digest, of a folder 0 and nothing."""

    name: str
    mode: int
    size: int = 0
    digest: str = ""

    @property
    def text(self) -> str:
        """Its line in the list."""
        return f"file {self.mode:04o} {self.size} {self.digest} {self.name}" if self.digest else f"folder {self.mode:04o} {self.name}"


class Recorded(NamedTuple):
    """An accepted peer, and the step of the service's last part that it was known to have recorded, 0 for none."""

    peer: str
    step: int


class Manifest(NamedTuple):
    """What the list of a backup says: when it was made, the last line of each part of the service, the accepted peers, and all files and folders in their order."""

    made: str
    lines: tuple[Line, ...]
    peers: tuple[Recorded, ...]
    items: tuple[Item, ...]

    @property
    def last(self) -> Line:
        """The last line of the part in which the service goes on."""
        return self.lines[-1]

    @property
    def text(self) -> str:
        """The list without its end."""
        head = [HEAD, f"made {self.made}", *(f"line {line.text}" for line in self.lines), *(f"peer {it.peer} {it.step}" for it in self.peers)]
        return "".join(f"{line}\n" for line in [*head, *(item.text for item in self.items)])

    @property
    def digest(self) -> str:
        """The SHA-256 digest of the list without its end, by which two backups are told apart."""
        return hashlib.sha256(self.text.encode("utf-8", "surrogateescape")).hexdigest()

    @property
    def data(self) -> bytes:
        """The bytes of the list."""
        return f"{self.text}end {self.digest}\n".encode("utf-8", "surrogateescape")


def may_be_named(name: str) -> bool:
    """A name of a backup is a path below one of the places that a backup has: each part of it is plain, and none leads elsewhere."""
    parts = name.split("/")
    is_plain = all(part not in ("", ".", "..") and "\n" not in part and "\0" not in part for part in parts)
    return is_plain and parts[0] in TOP


def read_item(line: str) -> Optional[Item]:
    """A line of the list is that of a folder or of a file, by a name that a backup can have; else None."""
    folder, file = FOLDER_LINE.fullmatch(line), FILE_LINE.fullmatch(line)
    if folder is not None:
        found = Item(folder[2], int(folder[1], 8))
    elif file is not None:
        found = Item(file[4], int(file[1], 8), int(file[2]), file[3])
    else:
        return None
    return found if may_be_named(found.name) else None


def read_manifest(data: bytes) -> Optional[Manifest]:
    """A list is read where it is the very one that is written of what it says, with its digest, and has a line of the service; else None."""
    text = data.decode("utf-8", "surrogateescape")
    front, rows = FRONT.match(text), text.split("\n")
    if front is None:
        return None
    lines = [read_line(row[5:]) for row in rows if row.startswith("line ")]
    peers = [PEER_LINE.fullmatch(row) for row in rows if row.startswith("peer ")]
    items = [read_item(row) for row in rows if row.startswith(("folder ", "file "))]
    found = Manifest(
        front[1],
        tuple(line for line in lines if line is not None),
        tuple(Recorded(it[1], int(it[2])) for it in peers if it is not None),
        tuple(item for item in items if item is not None),
    )
    return found if found.lines and found.data == data else None


def is_backed_up(name: str) -> bool:
    """Of what lies below a service's folder and its box all is backed up but locks, files that a killed run began, what is made anew by itself, and what came into a
    peer's folder `in`: that is brought again, and an old one put back would be read as new."""
    parts = name.split("/")
    came = parts[0] == BOX and len(parts) > 3 and parts[2] == "in"
    return not came and not any(part.endswith(LEFT_OUT) for part in parts[1:])


def mode_put_back(item: Item) -> int:
    """What comes back is for its user alone, whatever mode the backup says, but what a carrier needs: he may read the line to hand out and what lies in `out`, pass through the
    box's folders, and write what comes into `in`. Nothing else of it may be written by others."""
    parts = item.name.split("/")
    if parts[0] == BOX and parts[2:] == ["in"]:
        return item.mode
    is_carried = item.name == f"{SERVICE}.anchor" or (parts[0] == BOX and ("out" in parts[2:3] or (len(parts) < 3 and not item.digest)))
    return item.mode & (0o755 if is_carried else 0o700)


def list_narrowed(items: Sequence[Item]) -> list[str]:
    """The files and folders of a backup that others could read or write more than they can once it is put back."""
    return [item.name for item in items if mode_put_back(item) != item.mode]


def list_written(named: Sequence[tuple[str, str]], box: str) -> list[str]:
    """Of the places that a backup's box.conf names, each with its setting and with all links followed, a turn writes into those that aren't within the box: by which word, since
    whoever made the backup named it."""
    return [setting for setting, place in named if place != box and not place.startswith(f"{box}/")]


class Faulty(NamedTuple):
    """A file or folder that isn't as a backup's list says, and how it differs, as a sentence's end."""

    name: str
    how: str


def find_faulty(listed: Sequence[Item], found: Sequence[Item]) -> Optional[Faulty]:
    """The first file or folder that isn't as the list says: changed, missing, or not listed. Both have the same order."""
    for wanted, item in zip(listed, found):
        if wanted.name != item.name:
            return Faulty(wanted.name, "isn't in its place")
        if wanted != item:
            return Faulty(item.name, "isn't as it was backed up")
    if len(found) < len(listed):
        return Faulty(listed[len(found)].name, "is missing")
    return Faulty(found[len(listed)].name, "isn't in its list") if len(found) > len(listed) else None


def is_of_service(old: Sequence[Line], names: Sequence[str]) -> bool:
    """The backup that is to be replaced, or the files beside a folder, are of this service where its first part has the name of theirs."""
    return old[0].service == names[0]


class Target(NamedTuple):
    """What is where a backup is to be put back: a service, a box, of which backup all was unpacked there by a restore that was stopped, and whether that still
    waits to be put in its place."""

    has_service: bool
    has_box: bool
    unpacked: Optional[str]
    is_waiting: bool


class Begin(Enum):
    """How a restore begins: by unpacking; by going on with what was unpacked; by nothing but an end, since all is in its place; or not, since there is a service
    or a box, or what another backup left."""

    UNPACK = "unpack"
    GO_ON = "go on"
    END = "end"
    SERVICE_THERE = "service there"
    BOX_THERE = "box there"
    OTHER = "other"


def weigh_target(target: Target, digest: str) -> Begin:
    """Nothing is ever written over: a restore begins where neither a service nor a box is. One that was stopped once all was unpacked is gone on with, by the same
    backup: its box may be in its place, and its service comes there last."""
    if target.unpacked is None:
        return Begin.SERVICE_THERE if target.has_service else Begin.BOX_THERE if target.has_box else Begin.UNPACK
    if target.unpacked != digest:
        return Begin.OTHER
    if target.is_waiting:
        return Begin.SERVICE_THERE if target.has_service else Begin.GO_ON
    return Begin.END if target.has_service else Begin.OTHER


def read_stamp_name(name: str) -> Optional[Line]:
    """A stamp of a backup has the name of a kept one, which tells the line that it stamps; what else lies there is none."""
    found = STAMP.fullmatch(name)
    return read_line(f"{found[1]} {found[2]} {found[3]}") if found is not None else None


class Present(Enum):
    """What a file of the user's own is to that of a backup: there is none, so it is put there; it has all of it; or it lacks some of it."""

    NONE = "none"
    HAS_ALL = "has all"
    LACKS = "lacks"


def weigh_present(present: Optional[bytes], backed_up: bytes) -> Present:
    """A file of the user's own that is there is never written over: it has all that the backup has where it has each of its lines."""
    if present is None:
        return Present.NONE
    return Present.HAS_ALL if {*backed_up.splitlines()} <= {*present.splitlines()} else Present.LACKS


def is_key_file(data: bytes, is_public: bool) -> bool:
    """What a backup has as a key is put back where it is one: a public key of one line, or the armour of a private one with nothing but base64 in it, so that it is no
    program of any kind."""
    return isinstance(read_public_key(data), PublicKey) if is_public else PRIVATE_KEY.fullmatch(data) is not None


def list_to_ask(peers: Sequence[Recorded]) -> list[Recorded]:
    """Asked for the last line that it has is each accepted peer: first those that had recorded the latest step."""
    return sorted(peers, key=lambda it: (-it.step, it.peer))


def list_lost(before: Sequence[Recorded], names: Collection[str]) -> list[str]:
    """A backup that comes in the place of another one lacks what that had of the peers that aren't among these names, of all parts of those in its box: that was left out,
    or is another one."""
    return sorted({it.peer for it in before}.difference(names))


def list_lost_own(before: Sequence[Item], now: Sequence[Item]) -> list[str]:
    """A backup that comes in the place of another one lacks each file of the user's own that was in that one, by its name there, and isn't in this one."""
    return sorted({it.name for it in before if it.digest and it.name.startswith(f"{OWN}/")} - {it.name for it in now})


class Noted(NamedTuple):
    """What is noted beside a service of its last backup: the line of its last part then, when, the digest of its list, and its file."""

    line: Line
    made: str
    digest: str
    place: str

    @property
    def text(self) -> str:
        """Its file."""
        return f"{self.line.text} {self.made} {self.digest} {self.place}\n"


def read_noted(text: str) -> Optional[Noted]:
    """The note of a backup is a line, a date, a digest and a path; of another text the answer is None."""
    words = text.removesuffix("\n").split(" ", 5)
    line = read_line(" ".join(words[:3]))
    is_whole = len(words) == 6 and DATE.fullmatch(words[3]) is not None and re.fullmatch("[0-9a-f]{64}", words[4]) is not None
    return Noted(line, words[3], words[4], words[5]) if line is not None and is_whole else None
