"""A box: for each peer a folder of its name, in which whatever carries files finds and leaves them.

    BOX/box.conf            settings, `name = value`: key, unsigned, files, bytes, silent; url PEER, seconds; publish, open, backup, stamp
    BOX/.own                the name of the service whose box it is, which its first turn notes
    BOX/.of                 where the folder of the service is, as its last turn found it: nothing that is published lies there
    BOX/.published          all lines that were published, each signed, in their order
    BOX/.line               the last line of each part of the service, signed, as its last turn put it out
    BOX/allowed_signers     whose keys are whose, as ssh-keygen(1) has it
    BOX/PEER/in             what the peer put out for this service; nobody but the carrier writes it
    BOX/PEER/out            what is to be carried to the peer
    BOX/PEER/kept           what is kept of the peer
    BOX/PEER/events         made by hand: `STEP INDEX` or `STEP *`, the events whose proofs the peer may ask for, of a further part with its name in front

A service goes on in parts. What a further part puts out stands in out/PART, what came of one in in/PART, and what is kept of one in kept/PART; how a peer's
part is taken for that stands in weft.joints."""

from __future__ import annotations

import os
import re
from dataclasses import dataclass
from pathlib import Path
from typing import Collection, NamedTuple, Optional

from weft import files, signatures
from weft.deciding.boxes import is_of_another
from weft.deciding.going_on import end_counts, is_name_of_part
from weft.deciding.roads import Address, read_address
from weft.deciding.signatures import Signed, cut_torn, read_signed_lines
from weft.deciding.silence import Came, Heard, weigh_failure
from weft.deciding.worst import worst_of
from weft.lines import NAME, Kept, KeptLines, Line, read_kept, read_line
from weft.statuses import Status
from weft.texts import name_of, quoted
from weft.trouble import Trouble

MOST_SETTINGS = 65_536
MOST_OWN = 64
MOST_KEPT = 1 << 32
# The files of `kept` that grow night by night, or are as long as a peer makes them: they are read anew where they are asked for, so that no turn holds those of all.
LONG = ("signed", "given", "got", "heard")


class Settings(NamedTuple):
    """What box.conf says: the key that own lines are signed with; whether unsigned messages are taken; how many files and bytes are read, and fetched, a night and
    peer, and for how many seconds; after how many turns in which nothing new came a peer's silence is told, 0 for never; by which address each peer publishes
    for this service; where this one publishes, and for which peers openly, `*` for all; the backup that is made before that; and the authority that stamps its line."""

    key: Optional[Path] = None
    is_unsigned: bool = False
    files: int = 64
    bytes: int = 4 << 20
    seconds: int = 120
    silent: int = 3
    urls: tuple[tuple[str, str], ...] = ()
    publish: Optional[Path] = None
    is_open: tuple[str, ...] = ()
    backup: Optional[Path] = None
    stamp: Optional[Address] = None


SETTINGS = "They are: key = FILE, unsigned = yes, files = 64, bytes = 4194304, seconds = 120, silent = 3, url PEER = https://HOST/PATH/, publish = FOLDER, open = PEER .., backup = FILE, stamp = URL."
PATHS = ("key", "publish", "backup")
NUMBERS = {"files": "[1-9][0-9]{0,9}", "bytes": "[1-9][0-9]{0,9}", "seconds": "[1-9][0-9]{0,3}", "silent": "0|[1-9][0-9]{0,3}"}


def read_settings(box: Path) -> Settings:
    """The settings of a box; raises Trouble where a line of them isn't known."""
    data = files.read_if_there(box / "box.conf", MOST_SETTINGS)
    found, seen = Settings(), dict[str, int]()
    for number, line in enumerate((data or b"").decode("utf-8", "replace").splitlines(), 1):
        if not line.strip() or line.lstrip().startswith("#"):
            continue
        name, _, value = (word.strip() for word in line.partition("="))
        if seen.setdefault(" ".join(name.split()), number) != number:
            told = f"lines {seen[' '.join(name.split())]} and {number} of {name_of(box / 'box.conf')} both set {quoted(name)}"
            raise Trouble(Status.UNREADABLE, told, "Keep the one that is meant, and take the other out.")
        read = with_setting(found, box, name, value) if value else None
        if read is None:
            raise Trouble(Status.UNREADABLE, f"line {number} of {name_of(box / 'box.conf')} is no setting", SETTINGS)
        found = read
    return found


def with_setting(found: Settings, box: Path, name: str, value: str) -> Optional[Settings]:
    """The settings with one more; None where it isn't known."""
    if name in PATHS:
        path = box / os.path.expanduser(value)
        return {"key": found._replace(key=path), "publish": found._replace(publish=path), "backup": found._replace(backup=path)}[name]
    if name == "unsigned" and value in ("yes", "no"):
        return found._replace(is_unsigned=value == "yes")
    if name in NUMBERS and re.fullmatch(NUMBERS[name], value):
        number = int(value)
        with_number = {"files": found._replace(files=number), "bytes": found._replace(bytes=number), "seconds": found._replace(seconds=number)}
        return with_number.get(name, found._replace(silent=number))
    if name == "stamp":
        address = read_address(value, is_open=True)
        return found._replace(stamp=address) if isinstance(address, Address) else None
    if name == "open":
        names = tuple(value.replace(",", " ").split())
        return found._replace(is_open=names) if names == ("*",) or all(NAME.fullmatch(it) for it in names) else None
    peer = name.removeprefix("url ").strip()
    if name.startswith("url ") and NAME.fullmatch(peer) and isinstance(read_address(value), Address):
        return found._replace(urls=(*(it for it in found.urls if it[0] != peer), (peer, value)))
    return None


class End(NamedTuple):
    """Where a part of a peer ended: the name of the next one, and its last line."""

    name: str
    line: Line


def expect_own(box: Path, name: str) -> Optional[str]:
    """The service whose box it is, where that is noted; raises Trouble where it is another one than this."""
    path = box / ".own"
    data = files.read_if_there(path, MOST_OWN)
    noted = None if data is None else data.decode("utf-8", "replace").removesuffix("\n")
    if is_of_another(noted, name):
        raise Trouble(
            Status.USAGE,
            f"{name_of(box)} is the box of {quoted(noted or '')}, and not of {name}: nothing was made or put out",
            f"Name the box of {name}. If this one is to be its own from now on, take {name_of(path)} out of it.",
        )
    return noted


def claim(box: Path, name: str) -> None:
    """Notes whose box it is, where nobody made a turn with it; raises Trouble where it is another service's."""
    if expect_own(box, name) is None:
        files.renew(box / ".own", f"{name}\n".encode())


def opened_folder(folder: Path, below: list[str]) -> int:
    """The number of a folder that is opened, or of one below it, through no link; raises OSError where it can't be."""
    flags = os.O_RDONLY | os.O_DIRECTORY | os.O_NOFOLLOW | os.O_CLOEXEC
    number = os.open(folder, flags)
    for name in below:
        upper = number
        try:
            number = os.open(name, flags, dir_fd=upper)
        finally:
            os.close(upper)
    return number


def why_unopened(path: Path, failure: OSError) -> str:
    """Why a folder can't be opened, as a sentence's end."""
    if path.is_symlink():
        return "it is a link, and no link is followed there"
    return f"it can't be opened: {os.strerror(failure.errno or 0)}"


@dataclass
class Share:
    """How many files and bytes of a peer were read tonight, of all its parts."""

    files: int = 0
    bytes: int = 0


class Peer:
    """A peer in a box, or a further part of one, behind the one before it."""

    def __init__(self, box: Path, name: str, settings: Settings, earlier: Optional[Peer] = None):
        self.name, self.settings, self.earlier = name, settings, earlier
        self.later: Optional[Peer] = None
        self.folder: Path = box / name if earlier is None else earlier.folder
        self.inside = [] if earlier is None else [name]
        self.incoming, self.out = self.folder / "in", self.folder / "out"
        self.kept = self.folder.joinpath("kept", *self.inside)
        self.share: Share = Share() if earlier is None else earlier.share
        self.told: list[str] = []
        self.status = Status.DONE
        self.unopened: set[str] = set()
        self.line_heard, self.message_heard, self.line_came, self.line_had = Heard.NOTHING, Heard.NOTHING, 0, 0
        self.has_message, self.is_accused = False, False
        self.once: dict[str, Optional[bytes]] = {}
        self.seen: list[Signed] = []
        self.is_seen_read = False
        self.signed: Optional[list[Signed]] = None
        self.steps: dict[int, list[Signed]] = {}
        self.known: dict[str, bytes] = {}

    def make(self) -> None:
        """Makes its folders. What the carrier put in the place of `in` is left as it is, and told where it is read."""
        if not os.path.lexists(self.incoming):
            files.make_folder(self.incoming)
        for part in (self.out, self.out / "answers", self.kept, self.kept / "answers", self.kept / "forks"):
            files.make_folder(part)

    # ---- its parts, and those of one's own

    def of_own(self, part: str) -> Path:
        """The folder in which a part of one's own puts out, named for the first one by nothing."""
        return self.folder / "out" / part

    def enter(self, part: str) -> None:
        """What is put out from now on is of this part of one's own."""
        self.out = self.of_own(part)

    def part(self, name: str) -> Peer:
        """The part behind this one, under its name, whether it is that or not."""
        return Peer(self.folder.parent, name, self.settings, self)

    def goes_on_in(self, part: Peer) -> Peer:
        """Takes that for the part in which it goes on."""
        part.out, self.later = self.out, part
        return part

    def end(self) -> Optional[End]:
        """Where it ended, and as what it goes on; None of a part that goes on itself, as far as counts now."""
        end = self.noted_end()
        return end if end is not None and (self.settings.is_unsigned or self.is_end_good(end)) else None

    def is_end_good(self, end: End) -> bool:
        """Whether it has ended so, by the keys that are noted now."""
        signers, part = self.folder.parent / "allowed_signers", self.part(end.name)
        when = self.when_kept(end.line) if signatures.has_days(signers, self.name) else None
        is_signed_now = any(signatures.checked(it, signers, when) is not None for it in self.signed_at(end.line.step) if it.line == end.line)
        return end_counts(is_signed_now, signatures.fingerprints(signers, end.name), part.read("key").decode("ascii", "replace").strip())

    def when_kept(self, line: Line) -> Optional[str]:
        """When a line of it was kept first as signed, by the clock here; None where it wasn't."""
        found = KeptLines([self.kept / "lines"]).all_at(self.name, line.step)
        return min((it.date for it in found if it.line == line and it.how.startswith("signed by ")), default=None)

    def noted_end(self) -> Optional[End]:
        """What is noted of where it ended, whether or not that counts."""
        name, _, line = self.read("next").decode("ascii", "replace").removesuffix("\n").partition(" ")
        found = read_line(line)
        return End(name, found) if found is not None and is_name_of_part(self.first.name, name) else None

    @property
    def first(self) -> Peer:
        """Its first part, by whose name a person accepted it."""
        return self if self.earlier is None else self.earlier.first

    @property
    def last(self) -> Peer:
        """Its last part, which answers for all."""
        return self if self.later is None else self.later.last

    @property
    def names(self) -> set[str]:
        """The names of its parts up to this one."""
        return {self.name} if self.earlier is None else {self.name, *self.earlier.names}

    def say(self, text: str) -> None:
        """Notes what is to be said of it."""
        self.told.append(text)

    def need(self, text: str, status: Status = Status.LOOK) -> None:
        """Notes what is to be said of it, and that it counts; what is worst counts."""
        if text not in self.told:
            self.say(text)
        self.status = worst_of((self.status, status))

    def accuse(self, text: str) -> None:
        """Notes that there is evidence of two histories of it."""
        self.is_accused = True
        self.need(text, Status.CONTRADICTION)

    # ---- what came

    def take(self, name: str, most: int) -> Optional[bytes]:
        """A file of `in`, or None where there is no such file. No link is followed. One that is there and can't be read, isn't regular, is too long, or is beyond
        tonight's share, is told and counts."""
        if self.share.files >= self.settings.files or self.share.bytes >= self.settings.bytes:
            self.need(f"its share of tonight is used up, and {name} wasn't read")
            return None
        within = self.open_within(name)
        if within is None:
            return None
        last = name.split("/")[-1]
        try:
            os.stat(last, dir_fd=within, follow_symlinks=False)
            data = files.read(last, min(most, self.settings.bytes - self.share.bytes), follow=False, within=within)
        except OSError as failure:
            if weigh_failure(failure.errno) is Came.UNREAD:
                self.need(f"{self.place_of(name)} wasn't taken: {os.strerror(failure.errno or 0)}")
            return None
        except Trouble as trouble:
            self.need(f"{self.place_of(name)} wasn't taken: {trouble.sentence}")
            return None
        finally:
            os.close(within)
        self.share.files += 1
        self.share.bytes += len(data)
        return data

    def take_once(self, name: str, most: int) -> Optional[bytes]:
        """The same of a file that is asked for more than once a turn; it is read once."""
        if name not in self.once:
            self.once[name] = self.take(name, most)
        return self.once[name]

    def place_of(self, name: str) -> str:
        """Where a file that came is, as it is told."""
        return "/".join(["in", *self.inside, name])

    def open_within(self, name: str) -> Optional[int]:
        """The number of the folder of a file of `in`, or None where there is no such folder; one that is there and can't be opened is told once, and counts."""
        above = [*self.inside, *name.split("/")[:-1]]
        try:
            return opened_folder(self.incoming, above)
        except OSError as failure:
            path = self.incoming.joinpath(*above)
            if weigh_failure(failure.errno) is Came.UNREAD and path.name not in self.unopened:
                self.unopened.add(path.name)
                self.need(f"nothing of {name_of(path)} was read: {why_unopened(path, failure)}. Let the carrier leave a folder there that this user may read")
            return None

    def came(self, name: str) -> Optional[int]:
        """When a file of `in` was last changed on this device, in seconds since 1970, which no carrier sets back; None where it isn't there, and where that
        can't be told, which counts."""
        within = self.open_within(name)
        if within is None:
            return None
        try:
            return int(os.stat(name.split("/")[-1], dir_fd=within, follow_symlinks=False).st_ctime)
        except OSError as failure:
            if weigh_failure(failure.errno) is Came.UNREAD:
                self.need(f"when {self.place_of(name)} came can't be told: {os.strerror(failure.errno or 0)}")
            return None
        finally:
            os.close(within)

    # ---- what is kept

    def read(self, name: str) -> bytes:
        """A file of `kept`, empty where it isn't there. Whoever changes these files has the lock of the box, so each that isn't long is read once."""
        if name in self.known:
            return self.known[name]
        return self.hold(name, files.read_if_there(os.path.join(self.kept, name), MOST_KEPT) or b"")

    def hold(self, name: str, data: bytes) -> bytes:
        """Holds what a file of `kept` has, where it isn't long."""
        if name not in LONG:
            self.known[name] = data
        return data

    def renew(self, name: str, data: bytes) -> None:
        """Makes a file of `kept` anew, where it has other bytes."""
        if self.read(name) != data:
            files.renew(os.path.join(self.kept, name), data)
            self.hold(name, data)

    def add(self, name: str, data: bytes, size: int) -> None:
        """Adds a piece of this size behind the whole ones of a file of `kept`."""
        old = self.read(name)
        whole = old[: len(old) - len(old) % size]
        files.extend(os.path.join(self.kept, name), data, len(whole))
        self.hold(name, whole + data)

    def remove(self, name: str) -> None:
        """Removes a file of `kept`, if it is there."""
        files.remove(os.path.join(self.kept, name))
        self.hold(name, b"")

    def accepted(self) -> Optional[Kept]:
        """The line by which a person accepted the peer."""
        return read_kept(self.read("accepted").decode("utf-8", "replace").split("\n")[0])

    def signed_lines(self) -> list[Signed]:
        """All lines that it signed, in the order in which they came, and none of another name; the file is read once. That a signature was good when it came
        says nothing of now: whatever rests on one has it checked anew."""
        if self.signed is None:
            self.signed = read_signed_lines(self.read("signed"), [self.name])
            for signed in self.signed:
                self.steps.setdefault(signed.line.step, []).append(signed)
        return self.signed

    def signed_at(self, step: int) -> list[Signed]:
        """Those of this step: one, or where it signed several, each."""
        self.signed_lines()
        return self.steps.get(step, [])

    def add_signed(self, signed: Signed) -> None:
        """Keeps one more behind all others. One whose writing was stopped amid it is cut off first."""
        lines, old = self.signed_lines(), self.read("signed")
        whole = cut_torn(old)
        self.renew("signed", whole)
        files.append(os.path.join(self.kept, "signed"), signed.data)
        lines.append(signed)
        self.steps.setdefault(signed.line.step, []).append(signed)

    def fork_names(self) -> list[str]:
        """The names of the files by which two histories of it were shown; where the folder can't be read, that is trouble."""
        try:
            return sorted(name for name in os.listdir(self.kept / "forks") if not name.endswith(".new"))
        except FileNotFoundError:
            return []
        except OSError as failure:
            raise files.unread(self.kept / "forks", failure) from None

    def taken_line(self) -> Optional[Line]:
        """The line of its last message that was taken."""
        return read_line(self.read("taken").decode("utf-8", "replace").split("\n")[0])

    def taken_by(self) -> str:
        """The part of one's own that took it; empty where the first one did, or none."""
        return self.read("taken").decode("ascii", "replace").partition("\n")[2].removesuffix("\n")

    def has(self) -> Optional[Line]:
        """The last line of this service that the peer is known to have recorded."""
        return read_line(self.read("has").decode("utf-8", "replace").split("\n")[0])

    def may_ask(self, part: str, step: str, index: str) -> bool:
        """Whether the list made by hand has this event of a part, of the first one without a name."""
        text = (files.read_if_there(self.folder / "events", MOST_SETTINGS) or b"").decode("utf-8", "replace")
        allowed = [line.split() for line in text.splitlines() if not line.startswith("#")]
        of_part = [part] if part else []
        return any(words in ([*of_part, step, index], [*of_part, step, "*"], [*of_part, "*", "*"]) for words in allowed)

    # ---- what is put out

    def put(self, name: str, data: bytes) -> None:
        """Puts a file out, whole."""
        files.renew_if_other(os.path.join(self.out, name), data)

    def put_as(self, part: str, name: str, data: bytes) -> None:
        """Puts a file out of this part of one's own."""
        folder = self.of_own(part)
        files.make_folder(folder)
        files.renew_if_other(os.path.join(folder, name), data)


def is_folder(entry: os.DirEntry[str]) -> bool:
    """Whether it is a folder, or a link to one or to what can't be looked at."""
    try:
        return entry.is_dir()
    except OSError:
        return True


def has_incoming(folder: Path) -> bool:
    """Whether a folder has one that is called `in`, or may have: what can't be looked at isn't called not there."""
    try:
        os.lstat(folder / "in")
    except OSError as failure:
        return weigh_failure(failure.errno) is Came.UNREAD
    return True


def parts_of(peer: Peer, is_noted: bool = False) -> list[Peer]:
    """A peer, and behind it the further parts in which it went on, as far as that counts, or as it is noted."""
    found = [peer]
    while (end := found[-1].noted_end() if is_noted else found[-1].end()) is not None and end.name not in found[-1].names:
        found.append(found[-1].goes_on_in(found[-1].part(end.name)))
    return found


def find_peer(box: Path, name: str, settings: Settings) -> Peer:
    """The peer of this name, or the part of a peer, also one whose end doesn't count; where there is none, a new one."""
    peers = peers_of(box, (), settings)[0]
    noted = (part for peer in peers if peer.earlier is None for part in parts_of(Peer(box, peer.name, settings), is_noted=True))
    return next((peer for peer in [*peers, *noted] if peer.name == name), Peer(box, name, settings))


def peers_of(box: Path, own: Collection[str], settings: Settings) -> tuple[list[Peer], list[str]]:
    """The peers of a box, each with all its parts, and the names of folders and of links to folders that are none."""
    if not box.is_dir():
        raise Trouble(Status.DISK, f"{name_of(box)} is no folder", "Make it, and in it a folder for each peer: weft accept BOX PEER does.")
    found = [it for it in os.scandir(box) if is_folder(it) and not it.name.startswith(".")]
    good = {it.name for it in found if not it.is_symlink() and NAME.fullmatch(it.name) and it.name not in own}
    peers = [part for name in sorted(good) for part in parts_of(Peer(box, name, settings))]
    return peers, sorted(it.name for it in found if it.name not in good)
