"""The road of files over the web: what a peer's index lists and which of that is fetched, from which address, and which lines may be published.

What stands in a published folder is told in weft(1), "A PUBLISHED FOLDER". Nothing of it is signed but the lines, and nothing of it is believed: what was
fetched lies in `in`, as what any carrier brings, until a turn looks at it."""

from __future__ import annotations

import re
from enum import Enum
from typing import Collection, Iterable, Mapping, NamedTuple, Optional, Sequence, Union

from weft.deciding.going_on import MOST_AHEAD, is_name_of_part, number_of_part
from weft.deciding.lines import NAME, Line, read_line

# ---- an address


class Address(NamedTuple):
    """An address of the web: whether by TLS, the host, its port, and the path, which begins with a slash."""

    is_secure: bool
    host: str
    port: int
    path: str

    def below(self, name: str) -> Address:
        """That of a file of this name in it, which is a folder."""
        return self._replace(path=self.path.rstrip("/") + "/" + name)


class Unfit(Enum):
    """Why a text is no address that is fetched from."""

    UNREADABLE = "it is no address like https://HOST/PATH/"
    OPEN = "by http:// whoever is between reads what is fetched: it is taken of this machine itself alone; name one that begins with https://"


ADDRESS = re.compile(r"(https?)://([A-Za-z0-9](?:[A-Za-z0-9.-]{0,251}[A-Za-z0-9])?|\[[0-9A-Fa-f:.]{2,45}\])(?::([1-9][0-9]{0,4}))?(/[A-Za-z0-9._~!$&'()*+,;=:@%/-]*)?")
MOST_ADDRESS, MOST_PORT = 2_048, 65_535
PORTS = {"https": 443, "http": 80}
ITSELF = re.compile(r"localhost|127(?:\.[0-9]{1,3}){3}|\[::1\]")


def read_address(text: str, is_open: bool = False) -> Union[Address, Unfit]:
    """An address has a scheme, a host, perhaps a port, and a path: no user, no question, no mark behind. One without TLS is taken of this machine itself alone, but
    where what comes is signed, and what goes there is for all."""
    found = ADDRESS.fullmatch(text) if len(text) <= MOST_ADDRESS else None
    port = int(found[3] or PORTS[found[1]]) if found else 0
    if found is None or port > MOST_PORT:
        return Unfit.UNREADABLE
    host = found[2].lower()
    if found[1] == "http" and not is_open and ITSELF.fullmatch(host) is None:
        return Unfit.OPEN
    return Address(found[1] == "https", host, port, found[4] or "/")


def follow(asked: Address, location: Optional[str]) -> Optional[Address]:
    """A server that sends one elsewhere is followed on the same host and port, by the same way, and nowhere else."""
    if location is None:
        return None
    is_path = location.startswith("/") and not location.startswith("//")
    root = f"{'https' if asked.is_secure else 'http'}://{asked.host}:{asked.port}"
    found = read_address(root + location if is_path else location)
    return found if isinstance(found, Address) and found[:3] == asked[:3] else None


# ---- an index

HEAD = "timeweave-road 1"
MOST_INDEX, MOST_LISTED, MOST_SIZE = 131_072, 1_000, 1 << 40
HEADING = re.compile(rf"{HEAD} ([a-z0-9-]{{1,16}}) ([a-z0-9-]{{1,16}}) (0|[1-9][0-9]{{0,3}})")
LISTED = re.compile("[a-z0-9-]{1,64}(?:/[a-z0-9-]{1,64}){0,2}")
ROW = re.compile(f"(0|[1-9][0-9]{{0,12}}) ([0-9a-f]{{64}}) ({LISTED.pattern})")


class Listed(NamedTuple):
    """A file that an index lists: its name in the peer's `out`, its bytes, and their SHA-256 digest, which is its name where it is published."""

    name: str
    size: int
    digest: str


def is_listable(name: str) -> bool:
    """A file may be listed under this name: of small letters, digits and -, in two folders at most."""
    return LISTED.fullmatch(name) is not None


class Index(NamedTuple):
    """What a service has published for a peer."""

    service: str
    peer: str
    files: tuple[Listed, ...]

    @property
    def data(self) -> bytes:
        """Its bytes: a head, with the number of files, and a row for each of them, by their names."""
        rows = (f"{it.size} {it.digest} {it.name}\n" for it in self.files)
        return f"{HEAD} {self.service} {self.peer} {len(self.files)}\n{''.join(rows)}".encode()


def read_index(data: bytes) -> Optional[Index]:
    """An index is read where it is whole and the one text of what it says: with as many rows as it tells, each name once, and in their order."""
    head, *rows = data.decode("ascii", "replace").split("\n")
    found = HEADING.fullmatch(head)
    listed = [ROW.fullmatch(row) for row in rows[:-1]] if len(rows) <= MOST_LISTED + 1 else [None]
    if found is None or any(row is None for row in listed):
        return None
    files = tuple(sorted(Listed(row[3], int(row[1]), row[2]) for row in listed if row is not None))
    index = Index(found[1], found[2], files)
    return index if index.data == data and len({it.name for it in files}) == len(files) else None


# ---- what is fetched

# What a service puts out for a peer, in the order of what a turn needs most.
NAMES = ("line", "message", "yours", "receipt", "refusal", "next", "goes-on", "came-from", "seen", "requests", "receipts")
ANSWERS = "answers"


class Known(NamedTuple):
    """What is known of a peer: the names of its parts, the first one and those behind it; and the answers that it was asked for, by their names in `in`."""

    parts: Sequence[str]
    asked: Collection[str]


class Wanted(Enum):
    """What a listed file is here: one that a turn may take; an answer to what isn't asked, or not any more; or nothing that a service puts out."""

    TAKEN = "taken"
    UNASKED = "unasked"
    FOREIGN = "foreign"


def is_part(name: str, known: Known) -> bool:
    """A folder within a peer's is that of a further part where the peer is known to have gone on as that, or may go on so next: no peer makes folders without
    end by making up names."""
    first, last = known.parts[0], known.parts[-1]
    ahead = range(number_of_part(first, last) + 1, number_of_part(first, last) + 1 + MOST_AHEAD)
    return name in known.parts[1:] or (is_name_of_part(first, name) and number_of_part(first, name) in ahead)


def weigh_name(name: str, known: Known) -> Wanted:
    """A file is fetched only under a name that a service puts out, of the peer's first part or of a further one, and an answer only while it is asked for."""
    words = name.split("/")
    if len(words) > 1 and words[0] != ANSWERS:
        if not is_part(words[0], known):
            return Wanted.FOREIGN
        words = words[1:]
    if len(words) == 1:
        return Wanted.TAKEN if words[0] in NAMES else Wanted.FOREIGN
    if len(words) > 2 or words[0] != ANSWERS:
        return Wanted.FOREIGN
    return Wanted.TAKEN if name in known.asked else Wanted.UNASKED


class Share(NamedTuple):
    """How many files, and bytes of them, are fetched of a peer in a night at most."""

    files: int
    bytes: int


class Choice(NamedTuple):
    """Which of the listed files are fetched, in their order; which are here already; which aren't, since they are beyond the night's share; and how many names
    are none that are taken here."""

    fetched: tuple[Listed, ...]
    same: tuple[Listed, ...]
    beyond: tuple[Listed, ...]
    foreign: int


def rank(listed: Listed, known: Known) -> tuple[int, int, str]:
    """What is of a part that is known comes before what may be of the next one, and of each what a turn needs most: so a peer that lists much else keeps none of that
    back."""
    first, last = listed.name.split("/")[0], listed.name.split("/")[-1]
    is_next = "/" in listed.name and first != ANSWERS and first not in known.parts
    return (number_of_part(known.parts[0], first) if is_next else 0), (NAMES.index(last) if last in NAMES else len(NAMES)), listed.name


def choose_files(index: Index, known: Known, present: Mapping[str, str], share: Share) -> Choice:
    """Of the listed files those are fetched that a turn may take and that aren't here with this digest, as far as the night's share goes; one that is too large for
    what is left of it is passed over."""
    taken = sorted((it for it in index.files if weigh_name(it.name, known) is Wanted.TAKEN), key=lambda it: rank(it, known))
    foreign = sum(weigh_name(it.name, known) is Wanted.FOREIGN for it in index.files)
    fetched: list[Listed] = []
    same: list[Listed] = []
    beyond: list[Listed] = []
    left = share.bytes
    for it in taken:
        if present.get(it.name) == it.digest:
            same.append(it)
        elif len(fetched) < share.files and it.size <= left:
            fetched.append(it)
            left -= it.size
        else:
            beyond.append(it)
    return Choice(tuple(fetched), tuple(same), tuple(beyond), foreign)


class Strange(Enum):
    """Why an index isn't that of what a peer puts out for this service."""

    SERVICE = "it is of another service"
    PEER = "it is for another peer"


def weigh_index(index: Index, peer: str, own: Optional[str]) -> Optional[Strange]:
    """An index counts where it is of the peer, and for this service, whose name is known once it made a turn. Both are the names of the first parts. It is signed
    by nobody: this finds a mistyped address, and no liar."""
    if index.service != peer:
        return Strange.SERVICE
    return Strange.PEER if own is not None and index.peer != own else None


# ---- what is published


def list_old(names: Iterable[str], before: Optional[Index], now: Index) -> list[str]:
    """Of the files that are called by a digest those are taken away that neither the index now lists nor the one before: whoever has read that one finds what it
    lists. Where the index is the same, none is."""
    if before == now:
        return []
    listed = {it.digest for index in (before, now) if index is not None for it in index.files}
    return sorted(name for name in names if re.fullmatch("[0-9a-f]{64}", name) and name not in listed)


class Lines(NamedTuple):
    """The lines that were published, in the order in which they came."""

    lines: tuple[Line, ...]

    @property
    def data(self) -> bytes:
        """The bytes of their index."""
        return "".join(f"{line.text}\n" for line in self.lines).encode()


def read_lines(data: bytes) -> Optional[Lines]:
    """The index of published lines is a line in each of its lines, and nothing else; what isn't so is another file, or was cut short."""
    found = [read_line(text) for text in data.decode("ascii", "replace").split("\n")[:-1]]
    lines = Lines(tuple(line for line in found if line is not None))
    return lines if lines.data == data else None


class Going(Enum):
    """What the last line of a part is to those that were published of it: one more; the last one, which is there; of a step below that; or another one of a step
    that was published."""

    NEW = "new"
    SAME = "same"
    OLDER = "older"
    OTHER = "other"


def weigh_line(line: Line, published: Sequence[Line]) -> Going:
    """A line goes out behind those that went out before it. One of an earlier step than the last, or another one of a step, shows that an old store or box was put
    back, or that the folder is another's: then nothing goes out."""
    steps = {it.step: it for it in published if it.service == line.service}
    if line.step in steps and steps[line.step] != line:
        return Going.OTHER
    if steps and line.step < max(steps):
        return Going.OLDER
    return Going.SAME if line.step in steps else Going.NEW


class Found(Enum):
    """What a line in a published folder is that the box doesn't know: one that went out before, and is taken up again; one that shows that an old store or box was put
    back; or somebody else's."""

    BEFORE = "before"
    LATER = "later"
    FOREIGN = "foreign"


def weigh_found(line: Line, last: Optional[Line], known: Optional[Line], is_own: bool) -> Found:
    """A line that a key of the service signed is one that went out: below the last line of its part, where the box has no other one of its step, it is taken up again;
    else nothing goes out. One that no such key signed is somebody else's, and stops nothing."""
    if not is_own:
        return Found.FOREIGN
    return Found.BEFORE if known is None and last is not None and line.step < last.step else Found.LATER


def name_line_file(line: Line) -> str:
    """The name of the file of a published line."""
    return f"{line.service}-{line.step}.line"


PLACE = re.compile("[0-9a-f]{32}")


# What stands in a published folder, and what a web server or a host may have there.
PUBLISHED = ("service", "key.pub", "index.html", "timeweave.html", "lines", "peers")
OF_HOSTS = (".well-known", ".htaccess", ".nojekyll", ".git", ".gitignore", "robots.txt", "favicon.ico", "lost+found")


def list_foreign(names: Iterable[str]) -> list[str]:
    """Names in a published folder that neither the service wrote nor a web server or a host needs: all the world may read what stands there. (A killed run leaves a
    name that begins with a dot and ends with `.new`.)"""
    return sorted(name for name in names if name not in PUBLISHED + OF_HOSTS and not (name.startswith(".") and name.endswith(".new")))


class Claim(Enum):
    """Whose a folder is that is to be published: nobody's, empty; the service's own; another service's; or somebody's who put other things there."""

    FREE = "free"
    OWN = "own"
    OTHER = "other"
    FOREIGN = "foreign"


def weigh_folder(noted: Optional[str], service: str, is_empty: bool) -> Claim:
    """A folder is published into that is empty, but for names that begin with a dot, or that the service noted as its own when it was: nothing of anybody else is written over there."""
    if noted is None:
        return Claim.FREE if is_empty else Claim.FOREIGN
    return Claim.OWN if noted == service else Claim.OTHER


def choose_place(peer: str, is_open: bool, drawn: str) -> str:
    """A peer's folder is called as the peer where the keeper has it open, else by what was drawn for it."""
    return peer if is_open else drawn


def has_moved(peer: str, place: str, places: Mapping[str, str]) -> bool:
    """A peer whose drawn folder is another drawn one now asks at an address at which nothing is any more, until it is told the new one. (That it was opened, or closed,
    the keeper knows.)"""
    now = places.get(peer, place)
    return now != place and PLACE.fullmatch(place) is not None and PLACE.fullmatch(now) is not None


def is_place(name: str) -> bool:
    """A folder of published ones that can be a peer's: it is called by a name of a service, or by what was drawn, which no service can be called."""
    return PLACE.fullmatch(name) is not None or NAME.fullmatch(name) is not None
