"""Stamps of lines by time-stamping authorities: asked for over the web, checked by `openssl ts`, and kept beside the lines. Nothing here checks anything itself; the rules
stand in `weft.deciding.stamps`.

Beside a file KEPT of kept lines stands a folder KEPT.stamps, with a folder for each service, and in that a file for each stamp of one of its lines; those of a service's own
lines, SERVICE.lines, stand so in SERVICE/stamps. Which authorities
count a person says, whose certificates stand in a folder of the user's own, by the names that the user gave them."""

from __future__ import annotations

import argparse
import os
import subprocess
import tempfile
import time
from pathlib import Path
from typing import Iterable, NamedTuple, Optional, Sequence

from weft import files
from weft.deciding import authorities as deciding_authorities
from weft.deciding.authorities import Certificates, Unfit, may_name, read_certificates
from weft.deciding.roads import Address
from weft.deciding.rows import digest_of
from weft.deciding.signatures import read_signed_line
from weft.deciding.stamps import (
    MOST_BYTES, MOST_PIECE, Check, Dated, Fault, Placing, Stamp, Weighed, choose_check, front_of, is_token, list_told, name_stamp, place_stamp, read_check,
    read_pieces, read_stamp, texts_of, weigh_stamps,
)  # fmt: skip
from weft.files import Input
from weft.lines import KeptLines, Line, lines_of
from weft.sentences import fill
from weft.servers import Budget, Server, Unanswered
from weft.statuses import Status
from weft.texts import beside, count_of, date_of, name_of, printable
from weft.trouble import Trouble

MOST_SECONDS = 60
MOST_AUTHORITIES, MOST_STAMPS = 64, 64
MOST_HEADS = 1 << 16
QUERY = "application/timestamp-query"
DIGEST = "-sha512"
END = ".pem"
NO_AUTHORITY = "you trust no time-stamping authority: weft keep --authority NAME FILE notes the certificates of one"
# Certificates and their signatures have at least this strength, as openssl counts it: 112 bits.
LEVEL = "2"


class Authority(NamedTuple):
    """An authority that the user trusts: by which name, and its certificates as they are noted."""

    name: str
    certificates: Certificates


# ---- openssl


class Ran(NamedTuple):
    """How openssl ended, what it wrote, and what it told."""

    status: int
    out: bytes
    told: bytes


def openssl(*words: str) -> Ran:
    """Runs `openssl ts` without any settings of the system; raises Trouble where there is none, or it doesn't end."""
    path = files.which("openssl")
    if path is None:
        raise Trouble(Status.DISK, "there is no openssl on the path", "Install it: stamps are made and checked by it.")
    try:
        done = subprocess.run([path, *words, "-config", os.devnull], stdin=subprocess.DEVNULL, capture_output=True, timeout=MOST_SECONDS, check=False)
    except subprocess.TimeoutExpired:
        raise Trouble(Status.DISK, "openssl didn't end", "Run this again.") from None
    return Ran(done.returncode, done.stdout, done.stderr)


def told_of(ran: Ran) -> str:
    """What openssl told, in a few words."""
    return printable(b" ".join(ran.told.splitlines()[-1:]).decode("utf-8", "replace").strip()) or f"it ended with {ran.status}"


# ---- authorities


def add_authorities(parser: argparse.ArgumentParser) -> None:
    """The word by which a person names the folder of authorities."""
    text = "the folder of authorities that you trust (else WEFT_AUTHORITIES, ..)"
    parser.add_argument("--authorities", metavar="FOLDER", type=Path, help=text)


def default_authorities() -> Path:
    """Where the certificates of authorities stand, where nothing else is named: by the variable WEFT_AUTHORITIES, else among the user's own settings."""
    named = files.named_by("WEFT_AUTHORITIES")
    if named is not None:
        return named
    settings = os.environ.get("XDG_CONFIG_HOME", "")
    return (Path(settings) if os.path.isabs(settings) else files.home() / ".config") / "weft/authorities"


def read_authorities(named: Optional[Path]) -> list[Authority]:
    """The authorities that the user trusts, by their names; raises Trouble where the folder that was named isn't there, or a file of it is none."""
    folder = named or default_authorities()
    if named is None and not files.is_there(folder):
        return []
    files.expect_folder(folder, "the folder of the authorities' certificates")
    names = sorted(name for name in os.listdir(folder) if name.endswith(END) and may_name(name.removesuffix(END)))
    if len(names) > MOST_AUTHORITIES:
        raise Trouble(Status.UNREADABLE, f"{name_of(folder)} has {len(names)} authorities, and {MOST_AUTHORITIES} at most are asked", "Take out those that you don't trust.")
    return [Authority(name.removesuffix(END), certificates_of(folder / name)) for name in names]


def certificates_of(path: files.AnyPath) -> Certificates:
    """The certificates of a file; raises Trouble where it has none."""
    found = read_certificates(files.read(path, deciding_authorities.MOST_BYTES))
    if isinstance(found, Unfit):
        raise Trouble(Status.UNREADABLE, f"{name_of(path)} has no certificates of an authority: {found.value}", "Ask the authority for its certificates, as PEM.")
    return found


def note_authority(folder: Path, name: str, path: files.AnyPath) -> Authority:
    """Notes certificates as those of an authority by this name; raises Trouble where it has others already."""
    if not may_name(name):
        raise Trouble(Status.USAGE, f"{name_of(name)} is no name of an authority", "Take letters, digits, dots, - and _.")
    new, place = Authority(name, certificates_of(path)), folder / f"{name}{END}"
    if files.is_there(place) and certificates_of(place) != new.certificates:
        told = f"{name_of(place)} has other certificates of {name} already, and these weren't noted"
        raise Trouble(Status.LOOK, told, "Ask the authority, by another way. What it stamped counts by the old ones: note the new ones by another name beside them.")
    files.make_folder(folder)
    files.renew(place, new.certificates.pem)
    return new


# ---- what is checked


class Bench:
    """The authorities, as files for openssl, within a folder that goes away with it."""

    def __init__(self, authorities: Sequence[Authority]):
        self.authorities = authorities
        self.room = tempfile.TemporaryDirectory(prefix="weft-")
        self.folder = Path(self.room.name)
        for it in authorities:
            self.put(f"{it.name}{END}", it.certificates.pem)

    def __enter__(self) -> Bench:
        return self

    def __exit__(self, *_: object) -> None:
        self.room.cleanup()

    def put(self, name: str, data: bytes) -> str:
        """Puts bytes into a file of the folder; answers its path."""
        path = self.folder / name
        path.write_bytes(data)
        return str(path)

    def weigh(self, line: Line, data: bytes, now: Optional[int] = None) -> Weighed:
        """What a file of stamps gives of a line, at this moment or another one. What is handed to openssl are the bytes of that file. Where openssl isn't there, or fails,
        nothing is known."""
        parts: Sequence[bytes] = read_pieces(data) or ()
        if not parts:
            return Weighed(Fault.CHANGED, said="it is no file of stamps")
        texts_at = [self.put(f"{number}.text", text) for number, text in enumerate(texts_of(line, parts))]
        paths = [self.put(f"{number}.stamp", part) for number, part in enumerate(parts)]
        moment = int(time.time()) if now is None else now

        def ask(number: int, at: int) -> Check:
            return self.ask(["-data", texts_at[number]], parts[number], paths[number], at)

        try:
            return weigh_stamps([self.read(*it) for it in zip(parts, paths)], moment, ask)
        except Trouble as trouble:
            return Weighed(Fault.UNCHECKED, said=trouble.sentence)

    def made_at(self, data: bytes) -> Optional[int]:
        """The second that the last stamp of a file tells; None where none can be read."""
        piece = (read_pieces(data) or (b"",))[-1]
        stamp = self.read(piece, self.put("last.stamp", piece))
        return stamp.second if stamp is not None else None

    def read(self, piece: bytes, path: str) -> Optional[Stamp]:
        """What openssl reads in an answer; None where it reads nothing. Raises Trouble where it didn't end by itself."""
        ran = openssl("ts", "-reply", "-in", path, *(["-token_in"] if is_token(piece) else []), "-token_out", "-text")
        if ran.status < 0:
            raise Trouble(Status.DISK, f"openssl was ended by signal {-ran.status}", "Run this again.")
        return read_stamp(ran.out) if ran.status == 0 else None

    def ask(self, of: Sequence[str], piece: bytes, path: str, at: int) -> Check:
        """What came of checking an answer, which is of a text or to a query, at a moment, under the certificates of all authorities."""
        form = ["-token_in"] if is_token(piece) else []
        return choose_check(self.check([*of, "-in", path, *form, "-attime", str(at)], it) for it in self.authorities)

    def check(self, words: Sequence[str], it: Authority) -> Check:
        """The same, under those of one."""
        revoked = ["-crl_check"] if it.certificates.revoked else []
        ran = openssl("ts", "-verify", *words, "-CAfile", str(self.folder / f"{it.name}{END}"), "-partial_chain", "-auth_level", LEVEL, *revoked)
        return read_check(ran.status, ran.out, ran.told, it.name)


# ---- a stamp is asked for


def ask_authority(line: Line, before: Sequence[bytes], address: Address, seconds: int, bench: Bench) -> bytes:
    """The answer of an authority, as it came, to a query for a line with the stamps that it renews. Raises Unanswered where none came, and Trouble where it isn't good."""
    text = bench.put("text", f"{line.text}\n".encode() + b"".join(before))
    made = openssl("ts", "-query", "-data", text, DIGEST, "-cert")
    if made.status or not made.out:
        raise Trouble(Status.DISK, f"openssl made no query: {told_of(made)}", "Look whether it runs.")
    query = bench.put("query", made.out)
    server = Server(address, Budget(seconds, MOST_PIECE + MOST_HEADS))
    try:
        answer = server.post(made.out, QUERY, MOST_PIECE)
    finally:
        server.close()
    pieces = read_pieces(answer)
    path = bench.put("answer", answer)
    if pieces is None or len(pieces) != 1 or is_token(answer):
        raise Unanswered("what it answered is no answer of a time-stamping authority")
    check = bench.ask(["-queryfile", query], answer, path, int(time.time()))
    if check.fault is not None:
        raise Trouble(Status.NOT_SHOWN, f"the answer of {address.host} isn't kept: {fault_told(check.fault, check.authority, None, check.said)}".removesuffix("."))
    return answer


# ---- files of lines and of stamps


def line_of(path: files.AnyPath, data: bytes) -> Line:
    """The line of a file, which has one, with a signature behind it or without; raises Trouble of another file."""
    both = read_signed_line(data)
    found = [both.line] if both is not None else lines_of(data, name_of(path))
    if len(found) > 1:
        raise Trouble(Status.UNREADABLE, f"{name_of(path)} has {count_of(len(found), 'line')}, and a stamp is of one", "Put it in a file of its own.")
    return found[0]


def read_file(path: files.AnyPath) -> bytes:
    """The bytes of a file of stamps; raises Trouble of another file."""
    data = files.read(path, MOST_BYTES)
    if read_pieces(data) is None:
        raise Trouble(Status.UNREADABLE, f"{name_of(path)} is no stamp of a time-stamping authority", "Ask for its answer as it came (application/timestamp-reply).")
    return data


# ---- where they are kept


def folder_of(kept: files.AnyPath, service: str) -> Path:
    """The folder of the stamps of a service's lines, beside a file of kept lines."""
    return beside(kept, ".stamps") / service


def own_folder(service: Path) -> Path:
    """The folder of the stamps of a service's own lines, within that of the service, so that a backup has them."""
    return service / "stamps"


def folders_of(kept: files.AnyPath, service: str) -> list[Path]:
    """The folders in which stamps of a service's lines may stand, by a file of kept lines, which may be that of a service's own ones."""
    path = Path(kept)
    own = [own_folder(path.with_suffix("")) / service] if path.suffix == ".lines" else []
    return [folder_of(kept, service), *own]


def keep_stamp(kept: files.AnyPath, line: Line, data: bytes) -> Placing:
    """Keeps a file of stamps beside a kept line, in the place of the one that it renews; answers what became of it."""
    return put_stamp(folder_of(kept, line.service), line, data)


def put_stamp(folder: Path, line: Line, data: bytes) -> Placing:
    """Puts a file of stamps of a line into the folder of its service; answers what became of it."""
    pieces = read_pieces(data)
    assert pieces is not None
    path = folder / name_stamp(line, pieces)
    placing = place_stamp(files.read_if_there(path, MOST_BYTES), data)
    if placing is Placing.OTHER:
        path = path.with_name(f"{path.name.removesuffix('.stamp')}-{name_stamp(line, [data])}")
    if placing is not Placing.KNOWN:
        files.make_folder(folder)
        files.renew(path, data)
    return placing


class Found(NamedTuple):
    """A file of stamps that is kept of a line."""

    path: Path
    data: bytes


def stamps_of(kept: KeptLines, line: Line) -> list[Found]:
    """The files of stamps that are kept of a line, 64 at most of each file of kept lines."""
    found = []
    for folder in [it for path in kept.paths for it in folders_of(path, line.service)]:
        names = sorted(name for name in os.listdir(folder) if name.startswith(front_of(line))) if folder.is_dir() else []
        found += [Found(folder / name, files.read(folder / name, MOST_BYTES)) for name in names[:MOST_STAMPS]]
    return found


# ---- what is told


class Days:
    """What the stamps of kept lines give, each looked at once; and the files that were read for that."""

    def __init__(self, kept: KeptLines, authorities: Optional[Path]):
        self.kept, self.folder = kept, authorities
        self.known: dict[Line, list[Weighed]] = {}
        self.found: dict[Line, list[Found]] = {}
        self.sent: dict[Line, list[Found]] = {}

    def add(self, line: Line, path: Path, data: bytes) -> None:
        """Adds a stamp of a line that came in a file with it."""
        self.sent.setdefault(line, []).append(Found(path, data))
        self.known.pop(line, None)

    def of(self, line: Line) -> list[Weighed]:
        """What is told of the stamps of a line."""
        if line not in self.known:
            self.found[line] = [*stamps_of(self.kept, line), *self.sent.get(line, [])]
            self.known[line] = self.weigh(line, self.found[line]) if self.found[line] else []
        return self.known[line]

    def weigh(self, line: Line, found: Iterable[Found]) -> list[Weighed]:
        """What files of stamps give of a line."""
        with Bench(read_authorities(self.folder)) as bench:
            return list_told([bench.weigh(line, it.data) for it in found])

    def dated(self, lines: Iterable[Line]) -> list[Dated]:
        """The days that stamps give of lines."""
        return [Dated(line, it.second, it.authority) for line in lines for it in self.of(line) if it.fault is None and it.second is not None]

    def inputs(self, lines: Iterable[Line]) -> list[Input]:
        """The files of stamps of lines, as they were read."""
        return [Input("stamp", str(it.path), len(it.data), digest_of(it.data)) for line in lines if self.of(line) for it in self.found[line]]


def stamp_told(line: Line, it: Weighed) -> str:
    """What is told of a file of stamps of a line."""
    if it.fault is not None or it.second is None:
        return fill("stamp of", service=line.service, step=line.step, told=fault_told(it.fault or Fault.CHANGED, it.authority, it.second, it.said))
    told = fill("stood by", service=line.service, step=line.step, day=date_of(it.second), authority=it.authority)
    return f"{told} {fill('renewed')}" if it.is_renewed else told


def fault_told(fault: Fault, authority: str, second: Optional[int], said: str) -> str:
    """Why a stamp gives no day."""
    day = date_of(second) if second is not None else "no day that can be read"
    return fill(fault.value, authority=authority, day=day, said=printable(said) or "openssl says no more")


def as_json(it: Weighed) -> dict[str, object]:
    """What a file of stamps gives, as JSON has it."""
    day = date_of(it.second) if it.second is not None else None
    fault = None if it.fault is None else it.fault.name.lower()
    return {"authority": it.authority or None, "stood_by": day if it.fault is None else None, "tells": day, "renewed": it.is_renewed, "fault": fault, "said": it.said or None}
