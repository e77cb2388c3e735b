"""A backup: one tar file of a service, of what stands beside it, of its box, and of its user's own files. What it holds, and by which list it is known to be whole,
stands in `weft.deciding.backups`."""

from __future__ import annotations

import hashlib
import io
import os
import stat
import tarfile
from contextlib import ExitStack, contextmanager
from pathlib import Path
from typing import IO, Any, Iterator, NamedTuple, Optional, Sequence

from weft import box as boxes
from weft import files, judges, lines, locks, own, parts, signatures
from weft.box import Settings
from weft.deciding import backups as deciding
from weft.deciding.backups import (
    BESIDE, BOX, KEPT, KEY, LIST, MADE, MARK, OTHERS, OWN, PUBLIC, SERVICE, SIGNERS, STAMPS, Item, Manifest, Noted, Recorded, is_backed_up, is_of_service, may_be_named,
)  # fmt: skip
from weft.deciding.restoring import Told, find_lacking
from weft.deciding.standing import Command
from weft.judges import Bench
from weft.own import OwnLines
from weft.parts import Part
from weft.progress import with_progress
from weft.standing import Standing
from weft.statuses import Status
from weft.stores import Store
from weft.texts import beside, count_of, listed, name_of, now
from weft.trouble import Trouble

MOST_LIST = 256 << 20
MOST_TOLD = 8
PIECE = 1 << 20
UNMADE = "No backup was made"


# ---- reading one


def faults_of_tar() -> tuple[type[BaseException], ...]:
    """What the reader of tar files raises where the bytes are none."""
    return tarfile.TarError, ValueError, OverflowError, EOFError


class Entry(tarfile.TarInfo):
    """A file of a tar file. One that says of itself, by whichever of its heads, that it has fewer than no bytes leads the reader back to where it was, again and again, in
    Pythons before 3.13.6: here it is no file."""

    def _block(self, count: int) -> int:
        """The bytes that so many take in a tar file."""
        if count < 0:
            raise tarfile.ReadError("a size below 0")
        return super()._block(count)  # type: ignore[misc,no-any-return]


def opened_tar(file: IO[bytes]) -> tarfile.TarFile:
    """The tar file of an open file, to be read from its first byte on."""
    return tarfile.open(fileobj=file, mode="r:", encoding="utf-8", errors="surrogateescape", tarinfo=Entry)


def begins_as_backup(tar: tarfile.TarFile) -> bool:
    """Whether the first file of a tar file is the mark of a backup."""
    first = tar.next()
    return first is not None and first.isreg() and first.name == MARK


def read_list(path: Path) -> Optional[Manifest]:
    """What the list of a backup says, whose files aren't looked at; None where it is none, or was cut short."""
    number = files.opened(path)
    with os.fdopen(number, "rb") as file:
        try:
            with opened_tar(file) as tar:
                if not begins_as_backup(tar):
                    return None
                last = tar.getmembers()[-1]
                data = tar.extractfile(last) if last.isreg() and last.name == LIST and last.size <= MOST_LIST else None
                return deciding.read_manifest(data.read()) if data is not None else None
        except faults_of_tar():
            return None
        except OSError as failure:
            raise files.unread(path, failure) from None


# ---- making one


class Source(NamedTuple):
    """What is to be backed up: its name in the backup, and where it is."""

    name: str
    path: Path


class Wanted(NamedTuple):
    """What a backup is to be made of: the service's folder, its box where it has one, and whether with its key; and where it goes."""

    folder: Path
    box: Optional[Path]
    to: Path
    has_keys: bool
    wait: float


class Made(NamedTuple):
    """A backup that was made: its list, how many bytes it has, what was left out, the key that isn't in it, why the store may be an old one, and the peers of which the one in
    whose place it came had a box."""

    manifest: Manifest
    size: int
    left_out: tuple[str, ...]
    key: Optional[Path]
    doubt: Optional[str]
    lost: tuple[str, ...]
    lost_own: tuple[str, ...]

    @property
    def lost_told(self) -> list[str]:
        """What is told of peers, and of the user's own files, that the backup before had."""
        what = "what the backup in whose place it came had of {} isn't in it: was its box left out, or is it another one's? Let each box have a backup of its own."
        own = "the backup in whose place it came had {} among your own files, and they aren't there now: were they lost? An earlier backup may have them."
        names = [name_of(it.removeprefix(f"{OWN}/")) for it in self.lost_own[:MOST_TOLD]]
        more = [count_of(len(self.lost_own) - MOST_TOLD, "more file")] if len(self.lost_own) > MOST_TOLD else []
        return [*([what.format(listed(list(self.lost)))] if self.lost else []), *([own.format(listed([*names, *more]))] if names else [])]


class Through:
    """A file that is written by its number, in large pieces."""

    def __init__(self, number: int):
        self.number, self.held, self.place = number, bytearray(), 0

    def tell(self) -> int:
        """How many bytes were written."""
        return self.place

    def write(self, data: bytes) -> int:
        """Writes all bytes, at the latest by `flush`."""
        self.held += data
        self.place += len(data)
        if len(self.held) >= PIECE:
            self.flush()
        return len(data)

    def flush(self) -> None:
        """Writes what is held."""
        files.write_all(self.number, bytes(self.held))
        self.held.clear()


class Reading:
    """An open file that is read to its end, with the digest of what was read."""

    def __init__(self, path: Path, number: int):
        self.path, self.number, self.digest = path, number, hashlib.sha256()

    def read(self, size: int) -> bytes:
        """So many bytes; raises Trouble where there are fewer by now, or they can't be read."""
        try:
            data = files.read_up_to(self.number, size)
        except OSError as failure:
            raise files.unread(self.path, failure) from None
        if len(data) < size:
            raise Trouble(Status.NO_INPUT, f"{name_of(self.path)} was cut while it was read", UNMADE + ": run it again.")
        self.digest.update(data)
        return data


class Packing:
    """A backup that is being written, and what was written."""

    def __init__(self, tar: tarfile.TarFile):
        self.tar, self.items = tar, list[Item]()
        tar.copybufsize = PIECE  # type: ignore[attr-defined]

    def add_bytes(self, name: str, data: bytes) -> None:
        """Adds a file that isn't one of the list."""
        entry = tarfile.TarInfo(name)
        entry.size, entry.mode = len(data), files.PRIVATE
        self.tar.addfile(entry, io.BytesIO(data))

    def add(self, source: Source) -> None:
        """Adds a file or a folder."""
        found = os.lstat(source.path)
        entry = tarfile.TarInfo(source.name)
        entry.mode, entry.mtime = stat.S_IMODE(found.st_mode) & 0o777, int(found.st_mtime)
        if stat.S_ISDIR(found.st_mode):
            entry.type = tarfile.DIRTYPE
            self.tar.addfile(entry)
            self.items.append(Item(source.name, entry.mode))
            return
        number = files.opened(source.path, follow=False)
        try:
            entry.size, reading = os.fstat(number).st_size, Reading(source.path, number)
            self.tar.addfile(entry, reading)  # type: ignore[arg-type]
        finally:
            os.close(number)
        self.items.append(Item(source.name, entry.mode, entry.size, reading.digest.hexdigest()))


class Found:
    """What stands below folders that are to be backed up, and what is left out there."""

    def __init__(self) -> None:
        self.sources = list[Source]()
        self.left_out = list[str]()

    def add(self, name: str, path: Path) -> None:
        """Adds a file, or a folder with all below it; what is neither is left out, and told."""
        try:
            mode = os.lstat(path).st_mode
        except OSError as failure:
            raise files.unread(path, failure) from None
        is_folder = stat.S_ISDIR(mode)
        if not is_backed_up(name):
            return
        if not may_be_named(name) or not (is_folder or stat.S_ISREG(mode)):
            self.left_out.append(str(path))
            return
        self.sources.append(Source(name, path))
        for below in sorted(os.listdir(path)) if is_folder else ():
            self.add(f"{name}/{below}", path / below)

    def add_file(self, name: str, path: Path) -> None:
        """Adds a file that may be a link to one, where it is there."""
        if os.path.isfile(path):
            self.sources.append(Source(name, Path(os.path.realpath(path))))


def expect_apart(wanted: Wanted) -> None:
    """Raises Trouble where the box lies in the service's folder or beside it as its file, or the backup would lie in what it is to hold."""
    folder = Path(os.path.realpath(wanted.folder))
    to = Path(os.path.realpath(wanted.to))
    box = Path(os.path.realpath(wanted.box)) if wanted.box is not None else None
    if box is not None and (box == folder or folder in box.parents or box in folder.parents):
        raise Trouble(Status.USAGE, f"{name_of(wanted.box or '')} and {name_of(wanted.folder)} lie one in the other", "A box has a folder of its own.")
    if any(it is not None and (to == it or it in to.parents) for it in (folder, box)):
        raise Trouble(Status.USAGE, f"{name_of(wanted.to)} lies in what is to be backed up", "Name a file elsewhere, on a device of its own.")


@contextmanager
def still(folder: Path, wait: float) -> Iterator[None]:
    """Within it no program changes a store of the service's parts: each is locked as by one that reads it."""
    with ExitStack() as stack:
        number = 1
        while files.is_there(store := Store(parts.folder_of(folder, number)).file):
            stack.enter_context(locks.reading(store, wait, folder))
            number += 1
        yield


@contextmanager
def alone(wanted: Wanted) -> Iterator[None]:
    """Within it nobody makes a step or a turn."""
    with ExitStack() as stack:
        stack.enter_context(locks.held(beside(wanted.folder, ".lock"), wanted.wait, wanted.folder))
        if wanted.box is not None:
            stack.enter_context(locks.held(wanted.box / ".lock", wanted.wait, wanted.box))
        stack.enter_context(still(wanted.folder, wanted.wait))
        yield


def back_up(wanted: Wanted) -> Made:
    """Makes the backup, of one moment."""
    expect_apart(wanted)
    files.expect_no_own(wanted.to)
    with alone(wanted):
        judge, settings = judges.bench(), boxes.read_settings(wanted.box) if wanted.box is not None else Settings()
        standing = Standing(wanted.folder, judge)
        going, found = standing.expect(Command.BACKUP, UNMADE), standing.parts
        if wanted.box is not None:
            boxes.expect_own(wanted.box, found[0].last.service)
        before = expect_replaceable(wanted.to, found, judge)
        had = (before.peers, before.items) if before is not None else ((), ())
        peers = recorded_of(wanted.box, found, settings) if wanted.box is not None else []
        sources = sources_of(wanted, settings)
        made = write(wanted, sources, Manifest(now(), tuple(part.last for part in found), tuple(peers), ()))
        OwnLines(found[-1].folder).note_backup(Noted(made.last, made.made, made.digest, os.path.realpath(wanted.to)))
        key = settings.key if settings.key is not None and not wanted.has_keys else None
        lost, lost_own = deciding.list_lost(had[0], names_in(wanted.box, found, settings)), deciding.list_lost_own(had[1], made.items)
        return Made(made, os.stat(wanted.to).st_size, tuple(sources.left_out), key, going.doubt, tuple(lost), tuple(lost_own))


def expect_replaceable(to: Path, found: Sequence[Part], judge: Bench) -> Optional[Manifest]:
    """The list of the backup in whose place this one comes. Raises Trouble where that has later steps, or of another history, or of what is no backup."""
    if not files.is_there(to):
        return None
    old = read_list(to)
    if old is None:
        raise Trouble(Status.REFUSED, f"{name_of(to)} is there, and is no whole backup; it isn't written over", "Name another file, or move that one away.")
    if not is_of_service(old.lines, [part.last.service for part in found]):
        raise Trouble(Status.REFUSED, f"{name_of(to)} is a backup of {old.lines[0].service}, and not of {found[0].last.service}; it isn't written over", "Name another file.")
    lacking = find_lacking_line(found, [Told(line, f"in the backup of {old.made}") for line in old.lines], judge)
    if lacking is not None:
        told = f"{name_of(to)} has step {lacking.line.step} of {lacking.line.service}, which the store in {name_of(found[0].folder)} lacks: is that an old one? {UNMADE}"
        raise Trouble(Status.OLD_STORE, told, f"Put that backup back: weft restore {name_of(to)} .. If the store is the right one, name another file here.")
    return old


def find_lacking_line(found: Sequence[Part], told: Sequence[Told], judge: Bench) -> Optional[Told]:
    """The first of the lines of a service that are told which its parts lack; None where they have each."""
    names = [part.last.service for part in found]
    other = next((it for it in told if it.line.service not in names), None)
    lacking = (find_lacking(part.last, own.proved_lines(part.store, judge, part.last, told), told) for part in found)
    return other or next((it for it in lacking if it is not None), None)


def recorded_of(box: Path, found: Sequence[Part], settings: Settings) -> list[Recorded]:
    """The accepted peers of a box, each with the step of the last part that it is known to have recorded."""
    peers, _ = boxes.peers_of(box, [part.last.service for part in found], settings)
    known = []
    for peer in peers:
        has = peer.has()
        if peer.later is None and peer.first.accepted() is not None:
            known.append(Recorded(peer.name, has.step if has is not None and has.service == found[-1].last.service else 0))
    return known


def names_in(box: Optional[Path], found: Sequence[Part], settings: Settings) -> set[str]:
    """The names of the peers of a box, with all their parts; none without a box."""
    return {peer.name for peer in boxes.peers_of(box, [part.last.service for part in found], settings)[0]} if box is not None else set()


def sources_of(wanted: Wanted, settings: Settings) -> Found:
    """All that goes into the backup."""
    found, key = Found(), settings.key
    found.add(SERVICE, wanted.folder)
    for end in BESIDE:
        found.add_file(SERVICE + end, beside(wanted.folder, end))
    if wanted.box is not None:
        found.add(BOX, wanted.box)
    for name, path in own_files():
        if os.path.isdir(path):
            found.add(name, Path(os.path.realpath(path)))
        found.add_file(name, path)
    if key is not None:
        apart = os.path.realpath(key)
        found.sources = [it for it in found.sources if os.path.realpath(it.path) != apart]
        if wanted.has_keys:
            files.read(key, signatures.MOST_BYTES)
            found.add_file(KEY, key)
            found.add_file(PUBLIC, key.with_name(f"{key.name}.pub"))
    return found


def own_files() -> list[tuple[str, Path]]:
    """The user's own files that go into a backup, and the folder of stamps; none where the system knows of no folder of this user's own."""
    try:
        kept = lines.default_kept()
        beside_it = [(OTHERS, beside(kept, ".others")), (MADE, beside(kept, ".made")), (STAMPS, beside(kept, ".stamps"))]
        return [(KEPT, kept), (SIGNERS, signatures.default_signers()), *beside_it]
    except Trouble as trouble:
        if trouble.status is not Status.DISK:
            raise
        return []


def write(wanted: Wanted, found: Found, manifest: Manifest) -> Manifest:
    """Writes the backup, whole or not at all, and answers its list."""
    with files.renewing(wanted.to) as file:
        through: Any = Through(file.fileno())
        with tarfile.open(fileobj=through, mode="w", format=tarfile.PAX_FORMAT, encoding="utf-8", errors="surrogateescape") as tar:
            packing = Packing(tar)
            packing.add_bytes(MARK, f"{deciding.HEAD}\n".encode())
            for source in with_progress(found.sources, "backing up:", len(found.sources)):
                packing.add(source)
            made = manifest._replace(items=tuple(packing.items))
            packing.add_bytes(LIST, made.data)
        through.flush()
    return made


def is_where_noted(noted: Noted) -> bool:
    """Whether the backup that is noted is there, or one that was made since."""
    try:
        found = read_list(Path(noted.place))
    except Trouble:
        return False
    return found is not None and found.made >= noted.made
