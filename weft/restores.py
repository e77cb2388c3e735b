"""A backup that is put back: unpacked beside its place, held against its list and against the lines of its service that are known here, and only then put there, the
service itself last. Nothing is written over, and a restore that was stopped is gone on with.

What was put back is known as a copy, so no step is made there before the peers of its box have been asked, or a person has named its last line (`weft.own`)."""

from __future__ import annotations

import hashlib
import os
import shutil
import tarfile
from pathlib import Path
from typing import IO, NamedTuple, Optional, Sequence

from weft import backups, files, judges, lines, locks, made, parts, stamps
from weft import box as boxes
from weft.backups import MOST_LIST, PIECE, begins_as_backup, faults_of_tar, opened_tar
from weft.deciding.backups import BESIDE, BOX, KEY, KEYS, LIST, MADE, OWN, PUBLIC, SERVICE, STAMPS, Begin, Item, Manifest, Present, Recorded, Target
from weft.deciding.backups import find_faulty, is_key_file, list_narrowed, list_to_ask, list_written, may_be_named, mode_put_back, read_manifest, read_stamp_name
from weft.deciding.backups import weigh_present, weigh_target
from weft.deciding.going_on import is_name_of_part
from weft.deciding.restoring import Told
from weft.deciding.stamps import Placing, read_pieces
from weft.deciding.standing import BY_KEPT_LINES, Against, Command
from weft.judges import Bench
from weft.lines import KeptLines
from weft.looking import Notes
from weft.own import OwnLines, ToldLines
from weft.progress import with_progress
from weft.standing import Standing
from weft.statuses import Status
from weft.texts import beside, count_of, listed, name_of, typed
from weft.trouble import Trouble

END = ".restoring"
UNPACKED = "unpacked"
UNMADE = "Nothing was put back"
MOST_OWN = 1 << 32


class Wanted(NamedTuple):
    """What is to be put back: the backup; where the service comes, and its box and key where these are wanted; the lines of it that are named; and how long is waited
    for another run."""

    backup: Path
    folder: Path
    box: Optional[Path]
    held: KeptLines
    key: Optional[Path]
    wait: float


class Restored(NamedTuple):
    """What was put back: the list of the backup, whom to ask, what needs a look, and whether the backup has a box that wasn't wanted."""

    manifest: Manifest
    peers: tuple[Recorded, ...]
    looks: tuple[str, ...]
    told: tuple[str, ...]


def staging(path: Path) -> Path:
    """Where what comes to a place is unpacked first."""
    return beside(path, END)


class Places:
    """Where the parts of a backup are unpacked, and where they come."""

    def __init__(self, wanted: Wanted):
        self.folder = wanted.folder
        self.box = Path(os.path.realpath(wanted.box)) if wanted.box is not None else None
        self.own = staging(self.folder)
        self.of_box = staging(self.box) if self.box is not None else self.own / BOX
        self.mark = self.own / UNPACKED

    def of(self, name: str) -> Path:
        """Where a file or folder of the backup is unpacked."""
        first, _, rest = name.partition("/")
        return self.of_box / rest if first == BOX and rest else self.of_box if first == BOX else self.own / name

    def target(self) -> Target:
        """What is there now."""
        unpacked = files.read_if_there(self.mark, MOST_LIST)
        digest = None if unpacked is None else unpacked.decode("ascii", "replace").strip()
        return Target(is_taken(self.folder), self.box is not None and is_taken(self.box), digest, files.is_there(self.own / SERVICE))

    def clear(self) -> None:
        """Takes away what a restore has unpacked, last of all the mark that all of it was."""
        try:
            for path in (self.of_box, *(self.own.iterdir() if files.is_there(self.own) else ())):
                if path != self.mark and files.is_there(path):
                    shutil.rmtree(path) if path.is_dir() else path.unlink()
            files.remove(self.mark)
            if files.is_there(self.own):
                self.own.rmdir()
        except OSError as failure:
            raise files.unwritten(self.own, failure) from None


def is_taken(path: Path) -> bool:
    """Whether something is there but an empty folder."""
    if not files.is_there(path):
        return False
    try:
        return not path.is_dir() or any(path.iterdir())
    except OSError as failure:
        raise files.unread(path, failure) from None


# ---- unpacking


def unreadable(path: Path, why: str) -> Trouble:
    """That a backup isn't whole."""
    return Trouble(Status.UNREADABLE, f"{name_of(path)} {why}. {UNMADE}", "Take another backup.")


class Unpacking:
    """A backup that is being unpacked, and what was found in it."""

    def __init__(self, backup: Path, places: Places):
        self.backup, self.places, self.items = backup, places, list[Item]()

    def run(self) -> Manifest:
        """Unpacks all; the answer is its list, which was found to be that of what was unpacked. Raises Trouble where it isn't, or nothing can be written."""
        number = files.opened(self.backup)
        with os.fdopen(number, "rb") as file:
            try:
                with opened_tar(file) as tar:
                    if not begins_as_backup(tar):
                        raise unreadable(self.backup, "is no backup")
                    data = self.unpack(tar)
            except faults_of_tar():
                raise unreadable(self.backup, "is no backup, or was cut short") from None
        manifest = read_manifest(data) if data is not None else None
        if manifest is None:
            raise unreadable(self.backup, "was cut short or changed: the list at its end isn't whole")
        faulty = find_faulty(manifest.items, self.items)
        if faulty is not None:
            raise unreadable(self.backup, f"was changed: {name_of(faulty.name)} {faulty.how}")
        return manifest

    def unpack(self, tar: tarfile.TarFile) -> Optional[bytes]:
        """Unpacks all files up to the list, and answers its bytes; None where it doesn't stand at the end, and nothing behind it."""
        data: Optional[bytes] = None
        for number, entry in enumerate(with_progress(tar, "unpacking:")):
            if data is not None:
                return None
            if entry.name == LIST and entry.isreg() and entry.size <= MOST_LIST:
                found = tar.extractfile(entry)
                data = found.read() if found is not None else None
            elif number:
                self.unpack_one(tar, entry)
        return data

    def unpack_one(self, tar: tarfile.TarFile, entry: tarfile.TarInfo) -> None:
        """Unpacks a file or folder; raises Trouble where it is another thing, or has a name that leads elsewhere."""
        if not may_be_named(entry.name) or not (entry.isdir() or entry.isreg()) or entry.issparse():
            raise unreadable(self.backup, f"was changed: no backup has such a thing as {name_of(entry.name)}")
        path, mode = self.places.of(entry.name), entry.mode & 0o777
        try:
            if entry.name.count("/") == 1 and entry.name.startswith((f"{OWN}/", f"{KEYS}/")):
                path.parent.mkdir(files.PRIVATE_FOLDER, exist_ok=True)
            if entry.isdir():
                path.mkdir(files.PRIVATE_FOLDER)
                self.items.append(Item(entry.name, mode))
                return
            number = os.open(path, os.O_WRONLY | os.O_CREAT | os.O_EXCL | os.O_CLOEXEC | os.O_NOFOLLOW, files.PRIVATE)
        except (FileExistsError, FileNotFoundError, NotADirectoryError):
            raise unreadable(self.backup, f"was changed: {name_of(entry.name)} isn't in its place") from None
        except OSError as failure:
            raise files.unwritten(path, failure) from None
        try:
            data = tar.extractfile(entry)
            assert data is not None
            self.items.append(Item(entry.name, mode, entry.size, copy(data, path, number, entry.size)))
        finally:
            os.close(number)


def copy(data: IO[bytes], path: Path, number: int, size: int) -> str:
    """Writes bytes to an open file; the answer is their digest."""
    whole, left = hashlib.sha256(), size
    while left:
        piece = data.read(min(left, PIECE))
        if not piece:
            raise EOFError
        whole.update(piece)
        left -= len(piece)
        try:
            files.write_all(number, piece)
        except OSError as failure:
            raise files.unwritten(path, failure) from None
    return whole.hexdigest()


# ---- holding it against what is known


def expect_usable(wanted: Wanted, places: Places, manifest: Manifest, judge: Bench) -> None:
    """Raises Trouble where the unpacked store isn't what its list says, or isn't that of the lines in the backup."""
    try:
        standing = Standing(places.own / SERVICE, judge)
        found, _ = standing.parts, standing.expect(Command.RESTORE, UNMADE, but=BY_KEPT_LINES)
    except Trouble as trouble:
        if trouble.status in (Status.NO_JUDGE, Status.NO_MEMORY, Status.STOPPED):
            raise
        raise unreadable(wanted.backup, f"has a store that can't be used ({trouble.sentence})") from None
    if tuple(part.last for part in found) != manifest.lines:
        raise unreadable(wanted.backup, f"has a store whose last line is {found[-1].last.text}, and its list says {manifest.last.text}")


def expect_not_older(wanted: Wanted, places: Places, manifest: Manifest, judge: Bench) -> None:
    """Raises Trouble where the unpacked store lacks a line of the service that is known here: one that stands where the service is to come, that its user keeps,
    or that was named."""
    found = parts.parts_of(places.own / SERVICE, judge)
    names = [part.last.service for part in found]
    own_kept = parts.own_kept(is_new=True)
    expect_some_held(wanted, names)
    told = [*told_beside(wanted, names), *(Told(kept.line, "named by --held") for name in names for kept in wanted.held.of(name))]
    told += [Told(kept.line, f"among the lines that you keep, {kept.told}") for name in names for kept in own_kept.of(name)]
    later = parts.find_later(names, wanted.held)
    lacking = Told(later, "named by --held") if later is not None else backups.find_lacking_line(found, told, judge)
    if lacking is not None:
        sentence = f"{name_of(wanted.backup)} lacks the line of step {lacking.line.step} of {lacking.line.service} ({lacking.whence}): it goes up to step {manifest.last.step}"
        raise Trouble(Status.OLD_STORE, f"{sentence} of {manifest.last.service}. {UNMADE}", advice_of(manifest, wanted.folder))
    try:
        Standing(places.own / SERVICE, judge, own_kept).expect(Command.RESTORE, UNMADE, but={*Against} - BY_KEPT_LINES)
    except Trouble as trouble:
        if trouble.status is not Status.OLD_STORE:
            raise
        raise Trouble(trouble.status, f"{name_of(wanted.backup)}: {trouble.sentence}", advice_of(manifest, wanted.folder)) from None


def expect_some_held(wanted: Wanted, names: Sequence[str]) -> None:
    """Raises Trouble where a person named lines that others hold, and none is of the service, or of a part of it: it may be another file."""
    held = wanted.held.services()
    if held and not any(service in names or is_name_of_part(names[0], service) for service in held):
        told = f"--held names no line of {names[0]}, but of {listed(held)}. {UNMADE}"
        raise Trouble(Status.USAGE, told, "Name a file of lines that others hold of it.")


def told_beside(wanted: Wanted, names: Sequence[str]) -> list[Told]:
    """The lines that are told beside the place of the service; raises Trouble where they are of another one than of these names."""
    there = OwnLines(wanted.folder)
    seal, note = there.sealed(), there.backed_up()
    told = [Told(line, f"kept in {name_of(path)}") for path in (there.lines, there.anchor) for line in there.read(path)]
    told += [Told(line, f"kept in {name_of(there.seal)}") for line in ([seal.line, *there.noted_parts()] if seal is not None else [])]
    told += [Told(note.line, f"in the backup of {note.made}, by {name_of(there.backup)}")] if note is not None else []
    noted = ToldLines(wanted.folder)
    told += [noted.told_of(row) for row in noted.read()]
    if told and told[0].line.service not in names:
        sentence = f"beside {name_of(wanted.folder)} stands a line of {told[0].line.service}, {told[0].whence}, and the backup is of {names[0]}. {UNMADE}"
        raise Trouble(Status.REFUSED, sentence, "Name another folder, or move what stands beside this one away.")
    return told


def advice_of(manifest: Manifest, folder: Path) -> str:
    """What to do where a backup is older than a line that is known."""
    peers = [f"{it.peer} (had step {it.step})" if it.step else it.peer for it in list_to_ask(manifest.peers)]
    whom = listed(peers) if peers else "all who hold lines of it"
    return (
        f"Take a later backup. If there is none, ask {whom}, by a way of your own, for the last line of it that they have. Where nobody has a later one than that of "
        f"step {manifest.last.step} of {manifest.last.service}, move what stands beside {name_of(folder)} away, and put this backup back; else go on under a new name."
    )


# ---- putting it in its place


def restore(wanted: Wanted) -> Restored:
    """Puts a backup back."""
    places = Places(wanted)
    files.expect_no_own(wanted.folder)
    if not wanted.folder.parent.is_dir():
        raise Trouble(Status.DISK, f"there is no folder {name_of(wanted.folder.parent)} for the service", "Make it first.")
    if places.box is not None and not places.box.parent.is_dir():
        raise Trouble(Status.DISK, f"there is no folder {name_of(places.box.parent)} for the box", "Make it first.")
    manifest = backups.read_list(wanted.backup)
    if manifest is None:
        raise unreadable(wanted.backup, "is no backup, or was cut short or changed")
    with locks.held(beside(wanted.folder, ".lock"), wanted.wait, wanted.folder):
        begin = weigh_target(places.target(), manifest.digest)
        expect_free(wanted, places, begin)
        if begin is Begin.UNPACK:
            unpack(wanted, places, manifest)
        looks, told = list[str](), list[str]()
        if begin is Begin.GO_ON:
            expect_not_older(wanted, places, manifest, judges.bench())
        if begin is not Begin.END:
            looks, told = put(wanted, places, manifest)
        places.clear()
        return Restored(manifest, tuple(list_to_ask(manifest.peers)), tuple(looks), tuple(told))


def expect_free(wanted: Wanted, places: Places, begin: Begin) -> None:
    """Raises Trouble where something is in the place."""
    if begin in (Begin.SERVICE_THERE, Begin.BOX_THERE) and not files.is_there(places.mark):
        places.clear()  # (what was left when a restore was stopped before all was unpacked, or after all was put back)
    if begin is Begin.SERVICE_THERE:
        told = f"{name_of(wanted.folder)} isn't empty, and nothing is written over. {UNMADE}"
        raise Trouble(Status.REFUSED, told, f"Move it away, and leave what stands beside it: mv {name_of(wanted.folder)} {name_of(wanted.folder)}.before")
    if begin is Begin.BOX_THERE:
        told = f"{name_of(wanted.box or '')} isn't empty, and nothing is written over. {UNMADE}"
        raise Trouble(Status.REFUSED, told, "If it is the box of this service, leave it out here: it is later than the backup. Else move it away.")
    if begin is Begin.OTHER:
        told = f"{name_of(places.own)} is there, of another restore that was stopped. {UNMADE}"
        raise Trouble(Status.REFUSED, told, "Go on with that backup, or move that folder away.")


def unpack(wanted: Wanted, places: Places, manifest: Manifest) -> None:
    """Unpacks the backup beside its place, and notes that all of it is on the disk."""
    places.clear()
    try:
        files.make_folder(places.own)
        found = Unpacking(wanted.backup, places).run()
        if found != manifest:
            raise unreadable(wanted.backup, "was changed while it was read")
        expect_usable(wanted, places, manifest, judges.bench())
        expect_not_older(wanted, places, manifest, judges.bench())
        make_copies(places)
        for item in sorted(manifest.items, key=lambda it: -len(it.name)):
            os.chmod(places.of(item.name), mode_put_back(item))
        os.sync()
        files.renew(places.mark, f"{manifest.digest}\n".encode())
        files.sync_folder(places.own.parent)
    except BaseException:
        shutil.rmtree(places.own, ignore_errors=True)
        shutil.rmtree(places.of_box, ignore_errors=True)
        raise


def make_copies(places: Places) -> None:
    """Lets the service and the box that were unpacked be known as copies, whatever file they come to be: so no step is made before it was asked whether they are old."""
    folder, number = places.own / SERVICE, 1
    while files.is_there(parts.folder_of(folder, number)):
        OwnLines(parts.folder_of(folder, number)).seal_as_copy()
        number += 1
    if files.is_there(places.of_box):
        Notes(places.of_box).seal_as_copy()


def put(wanted: Wanted, places: Places, manifest: Manifest) -> tuple[list[str], list[str]]:
    """Puts all that was unpacked in its place, the service last; what is there already was put there before. Answers what needs a look, and what else is told."""
    looks, told = list[str](), list[str]()
    try:
        for name, path in backups.own_files():
            more = put_stamps(wanted, places, manifest) if name == STAMPS else put_made(places.of(name), path) if name == MADE else put_own(wanted, places.of(name), name, path)
            looks, told = [*looks, *more[0]], [*told, *more[1]]
        if places.box is not None and files.is_there(places.of_box):
            os.rename(places.of_box, places.box)
            files.sync_folder(places.box.parent)
        more = put_key(wanted, places)
        looks, told = [*looks, *more[0], *named_elsewhere(places)], [*told, *more[1], *narrowed(manifest)]
        if places.box is None and any(item.name == BOX for item in manifest.items):
            told.append("The box that is in the backup wasn't put back: to have it, name a folder for it too")
        listed_names = {item.name for item in manifest.items}
        for end in BESIDE:
            put_beside(places, wanted.folder, end, SERVICE + end in listed_names)
        files.sync_folder(wanted.folder.parent)
        made.note(wanted.folder, manifest.lines[0].service)
        os.rename(places.own / SERVICE, wanted.folder)
        files.sync_folder(wanted.folder.parent)
    except OSError as failure:
        raise files.unwritten(wanted.folder, failure) from None
    return looks, told


def put_beside(places: Places, folder: Path, end: str, is_wanted: bool) -> None:
    """Puts a file beside the service; one that the backup hasn't is of another moment, and is taken away."""
    unpacked, place = places.own / f"{SERVICE}{end}", beside(folder, end)
    if files.is_there(unpacked):
        os.replace(unpacked, place)
    elif not is_wanted:
        files.remove(place)


def put_own(wanted: Wanted, unpacked: Path, name: str, path: Path) -> tuple[list[str], list[str]]:
    """Puts a file of the user's own there, where there is none, and tells it; else says whether that has all of it."""
    if not files.is_there(unpacked):
        return [], []
    data = files.read(unpacked, MOST_OWN)
    present = weigh_present(files.read_if_there(path, MOST_OWN), data)
    if present is Present.NONE:
        files.make_folder(path.parent)
        files.renew(path, data)
        return [], [f"{name_of(path)} is that of the backup: what counts by it is what the backup says"]
    return [left_as_it_is(wanted, name, path)] if present is Present.LACKS else [], []


def put_made(unpacked: Path, path: Path) -> tuple[list[str], list[str]]:
    """Adds to what is noted here as made what the backup has so."""
    count = made.put_back(path, files.read(unpacked, made.MOST_BYTES)) if files.is_there(unpacked) else 0
    return [], [f"{name_of(path)} has {count_of(count, 'row')} of the backup: what is named there isn't made once more"] if count else []


def put_stamps(wanted: Wanted, places: Places, manifest: Manifest) -> tuple[list[str], list[str]]:
    """Keeps each stamp of the backup, as one that comes is kept: beside what is there, or in the place of that from which it goes on. What isn't a stamp is left and told."""
    looks, count, kept = list[str](), 0, lines.default_kept()
    for item in manifest.items:
        if not item.digest or not item.name.startswith(f"{STAMPS}/"):
            continue
        line, data = read_stamp_name(item.name), files.read(places.of(item.name), MOST_OWN)
        if line is None or read_pieces(data) is None:
            looks.append(f"{name_of(item.name)} is no stamp, and isn't put back (tar -xOf {name_of(wanted.backup)} {typed(item.name)})")
        else:
            count += stamps.keep_stamp(kept, line, data) is not Placing.KNOWN
    return looks, [f"{count_of(count, 'stamp')} of the backup {'are' if count > 1 else 'is'} kept beside {name_of(kept)}"] if count else []


def left_as_it_is(wanted: Wanted, name: str, path: Path) -> str:
    """That a file that is there lacks something of the backup's."""
    return f"{name_of(path)} lacks lines that the backup has, and is left as it is: look at both (tar -xOf {name_of(wanted.backup)} {name})"


def put_key(wanted: Wanted, places: Places) -> tuple[list[str], list[str]]:
    """Puts the key of the backup where a person named a place for it, or where it belongs within its box, and nothing is; no other place that a backup names is written
    to. Answers what needs a look, and what else is told."""
    named = boxes.read_settings(places.box).key if places.box is not None and files.is_there(places.box) else None
    is_within = named is not None and places.box is not None and places.box in Path(os.path.realpath(named)).parents
    place = wanted.key if wanted.key is not None else named if is_within else None
    looks, told = list[str](), list[str]()
    if place is not None:
        for name, path in ((KEY, place), (PUBLIC, place.with_name(f"{place.name}.pub"))):
            told += put_key_file(wanted, places.of(name), name, path)
    elif places.box is not None and files.is_there(places.of(KEY)):
        looks.append("the key isn't put back: it comes where --key FILE says, once it was looked at, and to no place that a backup names")
    if named is not None and not files.is_there(named):
        looks.append(f"{name_of(named)}, the key that box.conf names, isn't there: the next turn needs it")
    return looks, told


def named_elsewhere(places: Places) -> list[str]:
    """That the box.conf of the backup has a turn write into places outside of its box, which nobody named here."""
    if places.box is None or not files.is_there(places.box):
        return []
    settings = boxes.read_settings(places.box)
    named = {name: os.path.realpath(path) for name, path in (("publish", settings.publish), ("backup", settings.backup)) if path is not None}
    where = name_of(places.box / "box.conf")
    written = list_written(list(named.items()), os.path.realpath(places.box))
    return [f"{where} is that of the backup, and weft exchange would write where it says, outside of its box: look first at {name} = {name_of(named[name])}" for name in written]


def narrowed(manifest: Manifest) -> list[str]:
    """That others may read or write less than the backup says."""
    found = list_narrowed(manifest.items)
    what = "Others could read or write {} of the backup, as {}; now its user alone can, and chmod gives it to others"
    return [what.format(count_of(len(found), "file or folder", "files or folders"), name_of(found[0]))] if found else []


def put_key_file(wanted: Wanted, unpacked: Path, name: str, path: Path) -> list[str]:
    """Puts a half of the key there, where none is; raises Trouble where it doesn't read like one."""
    if not files.is_there(unpacked) or files.is_there(path):
        return []
    data = files.read(unpacked, MOST_OWN)
    if not is_key_file(data, name == PUBLIC):
        raise unreadable(wanted.backup, f"has no key as {name}")
    files.renew(path, data)
    return [f"{name_of(path)} is that of the backup"]
