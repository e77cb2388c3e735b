"""What peers have published for a service is fetched into their folders `in`. Which of it, is decided in `weft.deciding.roads`; it is as hostile as what any
carrier brings, and nothing of it is believed before a turn has looked at it."""

from __future__ import annotations

import hashlib
import os
import random
import time
from concurrent.futures import ThreadPoolExecutor
from pathlib import Path
from typing import NamedTuple, Optional, Sequence

from weft import asking, box as boxes, files
from weft.box import Peer, Settings
from weft.deciding.roads import ANSWERS, MOST_INDEX, Address, Index, Known, Listed, Share, Unfit, choose_files, read_address, read_index, weigh_index
from weft.servers import Budget, Server, Spent, Unanswered
from weft.statuses import Status
from weft.texts import count_of, name_of
from weft.trouble import Trouble

WORKERS = 16
# Heads of answers are read too: so many bytes more.
MOST_HEADS = 1 << 20
# All peers together take so many times as long as one may.
MOST_NIGHT = 10
# Of these the last coming is the peer's word about this service: one that came again as it was has come now.
WORDS = ("yours", "line")


class Fetched(NamedTuple):
    """What came of fetching from a peer: the names of the files that came, how many were here already, what is to be told, and what of it counts."""

    came: tuple[str, ...] = ()
    same: int = 0
    told: tuple[str, ...] = ()
    needs: tuple[str, ...] = ()


def address_of(text: str) -> Address:
    """The address of a text; raises Trouble where it is none that is fetched from."""
    found = read_address(text)
    if isinstance(found, Unfit):
        raise Trouble(Status.USAGE, f"{name_of(text)} is no address to fetch from: {found.value}")
    return found


def fetch_all(box: Path, settings: Settings) -> dict[str, Fetched]:
    """Fetches from all peers whose addresses box.conf has, several at a time, those that it names first not always first."""
    until = time.monotonic() + MOST_NIGHT * settings.seconds
    peers = [(name, Peer(box, name, settings), url) for name, url in settings.urls]
    if not peers:
        return {}

    def fetched(it: tuple[str, Peer, str]) -> tuple[str, Fetched]:
        """What came of one."""
        name, peer, url = it
        if not is_peer(peer):
            return name, Fetched(needs=(f"box.conf has an address of it, and the box no folder {name}: weft accept {name_of(box)} {name} makes it",))
        if time.monotonic() > until:
            return name, Fetched(needs=("nothing was fetched of it: the night's time was up, taken by others",))
        return name, fetch(address_of(url), peer, settings)

    with ThreadPoolExecutor(WORKERS) as workers:
        return dict(workers.map(fetched, random.sample(peers, len(peers))))


def is_peer(peer: Peer) -> bool:
    """Whether the box has such a peer's folder, as weft accept makes it."""
    return peer.kept.is_dir() and not peer.folder.is_symlink()


def fetch(address: Address, peer: Peer, settings: Settings) -> Fetched:
    """Fetches what a peer has published for this service, as far as it is new, and the night's share goes."""
    server = Server(address, Budget(settings.seconds, settings.bytes + MOST_INDEX + MOST_HEADS))
    try:
        return Fetching(peer, server, settings).run()
    except Unanswered as why:
        return Fetched(needs=(f"nothing was fetched of {address.host}: {why}",))
    finally:
        server.close()


def known_of(peer: Peer) -> Known:
    """What is known of a peer, of whose parts this is one. What is asked of a next part, before it is taken for that, is answered in the folder of its name."""
    parts, asked = boxes.parts_of(peer.first), set[str]()
    for part in parts:
        front = "/".join([*part.inside, ANSWERS])
        for request in asking.pending_of(part):
            of_next = {f"{request.split(' ')[1]}/{ANSWERS}"} if request.startswith("of ") else set()
            asked |= {f"{place}/{asking.id_of(request)}" for place in {front, *of_next}}
    return Known([part.name for part in parts], asked)


class Fetching:
    """One night's fetching from a peer."""

    def __init__(self, peer: Peer, server: Server, settings: Settings):
        self.peer, self.server, self.settings = peer, server, settings
        self.incoming, self.host = peer.incoming, server.address.host
        self.came: list[str] = []
        self.told: list[str] = []
        self.needs: list[str] = []

    def run(self) -> Fetched:
        """Fetches what its index lists; raises Unanswered where that doesn't come."""
        index = self.index()
        present = {it.name: it.digest for it in index.files if self.is_present(it)}
        choice = choose_files(index, known_of(self.peer), present, Share(self.settings.files, self.settings.bytes))
        self.take_all(choice.fetched)
        for listed in choice.same:
            self.note_word(listed)
        if choice.beyond:
            large = max(choice.beyond, key=lambda it: it.size)
            told = f"its share of tonight is used up, and {count_of(len(choice.beyond), 'file')} weren't fetched, {large.name} with {large.size:,} bytes among them"
            self.needs.append(told)
        if choice.foreign:
            self.told.append(f"{self.host} lists {count_of(choice.foreign, 'name')} that no service puts out: not fetched")
        return Fetched(tuple(self.came), len(choice.same), tuple(self.told), tuple(self.needs))

    def take_all(self, chosen: Sequence[Listed]) -> None:
        """Fetches files, as long as time and bytes are left; that some didn't come counts."""
        failures: list[str] = []
        for listed in chosen:
            try:
                self.take(listed)
            except Unanswered as why:
                failures.append(f"{listed.name}: {why}")
                if isinstance(why, Spent):
                    break
        if failures:
            self.needs.append(f"of {self.host} came {len(self.came):,} of {count_of(len(chosen), 'new file')}; {failures[0]}")

    def index(self) -> Index:
        """What the peer has published for this service."""
        try:
            index = read_index(self.server.get("index", MOST_INDEX))
        except Unanswered as why:
            raise Unanswered(f"its index didn't come: {why}") from None
        if index is None:
            raise Unanswered("what it has as its index is none, or isn't whole")
        strange = weigh_index(index, self.peer.first.name, self.own_name())
        if strange is not None:
            raise Unanswered(f"its index is of what {index.service} puts out for {index.peer}: {strange.value}; is the address right?")
        return index

    def own_name(self) -> Optional[str]:
        """The name of the service whose box it is, once it made a turn."""
        data = files.read_if_there(self.peer.folder.parent / ".own", boxes.MOST_OWN)
        return None if data is None else data.decode("ascii", "replace").removesuffix("\n")

    def is_present(self, listed: Listed) -> bool:
        """Whether the file is here with these bytes."""
        path = self.incoming / listed.name
        try:
            return listed.size <= self.settings.bytes and os.lstat(path).st_size == listed.size and digest_of(files.read(path, listed.size, follow=False)) == listed.digest
        except (OSError, Trouble):
            return False

    def take(self, listed: Listed) -> None:
        """Fetches a file, and puts it down whole; raises Unanswered where it doesn't come as it is listed."""
        data = self.server.get(listed.digest, listed.size, listed.size)
        if digest_of(data) != listed.digest:
            raise Unanswered("it has other bytes than its index says")
        path = self.incoming / listed.name
        above = self.unfit_folder(path)
        if above is not None:
            self.needs.append(f"{listed.name} wasn't put down: {name_of(above)} is no folder, or a link, and no link is followed there. Take it away")
            return
        try:
            files.make_folder(path.parent)
            files.renew(path, data, follow=False)
        except Trouble as trouble:
            self.needs.append(f"{listed.name} wasn't put down: {trouble.sentence}")
            return
        self.came.append(listed.name)

    def unfit_folder(self, path: Path) -> Optional[Path]:
        """The first folder from `in` on to a file that is none, or a link."""
        below: Sequence[Path] = [it for it in [*reversed(path.parents)] if it == self.incoming or self.incoming in it.parents]
        return next((it for it in below if os.path.lexists(it) and (it.is_symlink() or not it.is_dir())), None)

    def note_word(self, listed: Listed) -> None:
        """Notes that a peer's word has come once more, as it was."""
        if listed.name.split("/")[-1] in WORDS:
            try:
                os.utime(self.incoming / listed.name, follow_symlinks=False)
            except OSError as failure:
                self.needs.append(f"when {listed.name} came can't be noted: {os.strerror(failure.errno or 0)}")


def digest_of(data: bytes) -> str:
    """The SHA-256 digest, as an index has it."""
    return hashlib.sha256(data).hexdigest()
