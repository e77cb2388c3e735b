"""What a service puts out, as a folder that any web server hands out. What stands in it is told in weft(1), "A PUBLISHED FOLDER"; what decides, in
`weft.deciding.roads`.

Each file is written whole, and an index last; a run that was stopped anywhere is made good by the next one. No file is taken away, or written over, but those of
peers' folders that this service has made, `service`, the two pages and the indexes."""

from __future__ import annotations

import hashlib
import os
import secrets
import stat
from pathlib import Path
from typing import Collection, Iterable, Iterator, NamedTuple, Optional

from weft import box as boxes, files, fronts, packages, signatures
from weft.box import Peer, Settings
from weft.deciding.going_on import is_name_of_part, number_of_part
from weft.deciding.lines import LINE, Line, may_take_name
from weft.deciding.roads import MOST_INDEX, PLACE, Claim, Found, Going, Index, Lines, Listed, choose_place, is_listable, is_place, list_foreign, list_old, name_line_file
from weft.deciding.roads import OF_HOSTS, has_moved, read_index, read_lines, weigh_folder, weigh_found, weigh_line
from weft.deciding.signatures import PublicKey, Signed, cut_torn, key_of_signature, read_signed_line, read_signed_lines
from weft.statuses import Status
from weft.texts import count_of, name_of, quoted
from weft.trouble import Trouble

MOST_NAME = 64
MOST_LINES = 1 << 30
MOST_PAGE = 64 << 20
MOST_FILE = 64 << 20
PAGE = "timeweave.html"
# The lines that were published, beside the box's settings.
PUBLISHED = ".published"
EMPTY = b"<!doctype html><meta charset=utf-8><title>.</title>\n"


class Published(NamedTuple):
    """What was published: how many files are new or changed, and how many were taken away; of each peer the folder; and what is told, and of that what
    counts (what doesn't is told where a person publishes)."""

    written: int
    removed: int
    places: dict[str, str]
    told: tuple[str, ...]
    needs: tuple[str, ...]


class Private(NamedTuple):
    """What may not lie in what is published: the folder of the service, where it is known; and the lines that are in the backup, where one is made first."""

    folder: Optional[Path] = None
    backed_up: Optional[Collection[Line]] = None


def publish(box: Path, out: Path, settings: Settings, private: Private = Private()) -> Published:
    """Publishes what the last turn put out. Raises Trouble, and publishes nothing, where the folder isn't this service's, or later lines went out of it than the box
    has; where a backup is named, also where that lacks a line that would go out."""
    return Publishing(box, out, settings, private).run()


def last_published(out: Path) -> list[Signed]:
    """The last signed line of each part that stands in a published folder; none of one that can't be read."""
    folder = out / "lines"
    try:
        found = read_lines(files.read_if_there(folder / "index", MOST_LINES) or b"")
        last = {line.service: line for line in (found.lines if found is not None else ())}
        signed = [read_signed_line(files.read_if_there(folder / name_line_file(line), signatures.MOST_BYTES, follow=False) or b"") for line in last.values()]
    except Trouble:
        return []
    return [it for it in signed if it is not None]


def own_keys(box: Path, settings: Settings) -> list[PublicKey]:
    """The key that the box has now, and those that signed lines which it published before."""
    noted = read_signed_lines(files.read_if_there(box / PUBLISHED, MOST_LINES) or b"")
    keys = [signatures.public_half(settings.key)] if settings.key is not None else []
    return list(dict.fromkeys([*keys, *(key for key in {key_of_signature(it.signature) for it in noted} if key is not None)]))


def is_signed_by(signed: Signed, keys: Iterable[PublicKey]) -> bool:
    """Whether a line is signed by one of these keys."""
    return any(signatures.checked_by(signed, key) is not None for key in keys)


class Publishing:
    """One publishing."""

    def __init__(self, box: Path, out: Path, settings: Settings, private: Private):
        self.box, self.out, self.settings, self.private = box, out, settings, private
        self.written, self.removed, self.was_claimed = 0, 0, False
        self.told: list[str] = []
        self.needs: list[str] = []
        self.name = self.own_name()
        self.peers = [peer.last for peer in boxes.peers_of(box, (), settings)[0] if peer.earlier is None]

    def run(self) -> Published:
        """Publishes: lines first, then what is of peers, the page for people last."""
        self.expect_apart()
        self.claim()
        known, current = read_signed_lines(self.noted()), self.signed_lines()
        lines = self.weighed(known, current)
        backed_up = self.private.backed_up
        last = next((it.line for it in current if backed_up is not None and it.line not in backed_up), None)
        if last is not None:
            raise Trouble(Status.LOOK, f"step {last.step} of {last.service} isn't in the backup, and nothing was published", "Run weft exchange once more.")
        places = self.places()
        self.put_lines(known, lines)
        for peer in self.peers:
            self.put_peer(peer, places[peer.first.name])
        self.remove_others(places)
        self.put_pages(lines, places)
        for name in list_foreign(os.listdir(self.out)):
            self.needs.append(f"{name_of(name)} in {name_of(self.out)} wasn't published by weft, and whoever asks the web server may get it")
        return Published(self.written, self.removed, places, tuple(self.told), tuple(self.needs))

    # ---- whose folder it is

    def own_name(self) -> str:
        """The name of the service whose box it is; raises Trouble where it made no turn yet."""
        data = files.read_if_there(self.box / ".own", boxes.MOST_OWN)
        name = None if data is None else data.decode("ascii", "replace").removesuffix("\n")
        if name is None or not may_take_name(name):
            raise Trouble(Status.REFUSED, f"{name_of(self.box)} is a box without a turn, and there is nothing to publish", "Run weft exchange first.")
        return name

    def expect_apart(self) -> None:
        """Raises Trouble where what is published would lie in the box, or the box, its key or the service's folder, in what is published."""
        out = Path(os.path.realpath(self.out))
        private = [Path(os.path.realpath(it)) for it in (self.box, self.settings.key, self.settings.backup, self.private.folder, self.service_folder()) if it is not None]
        for path in private:
            if out == path or out in path.parents or path in out.parents:
                told = f"{name_of(self.out)} and {name_of(path)} lie one in the other, and whoever asks the web server would get what is private"
                raise Trouble(Status.USAGE, told, "Name a folder of its own.")

    def service_folder(self) -> Optional[Path]:
        """The folder of the service, as its last turn noted it."""
        data = files.read_if_there(self.box / ".of", MOST_FILE)
        return Path(os.fsdecode(data.removesuffix(b"\n"))) if data else None

    def claim(self) -> None:
        """Notes whose folder it is; raises Trouble where it is another service's, or has what somebody else put there."""
        path = self.out / "service"
        data = files.read_if_there(path, MOST_NAME)
        noted = None if data is None else data.decode("utf-8", "replace").removesuffix("\n")
        self.was_claimed = noted is not None
        names = {name for name in os.listdir(self.out) if not name.endswith(".new")}
        claim = weigh_folder(noted, self.name, not names - {*OF_HOSTS})
        if claim is Claim.OTHER:
            told = f"{name_of(self.out)} has what {quoted(noted or '')} publishes, and not {self.name}: nothing was published"
            raise Trouble(Status.USAGE, told, "Let each service have a folder of its own.")
        if claim is Claim.FOREIGN:
            told = f"{name_of(self.out)} has files, and none of {self.name}: nothing was published, so that none of them is written over"
            raise Trouble(Status.USAGE, told, "Name an empty folder.")
        self.put(path, f"{self.name}\n".encode())

    # ---- lines

    def signed_lines(self) -> list[Signed]:
        """The last line of each part, signed by the key of the box; none where it has none."""
        if self.settings.key is None:
            told = self.told if self.settings.is_unsigned else self.needs
            told.append(f"Nothing signs the lines, and none was published: set key = FILE in {name_of(self.box / 'box.conf')}")
            return []
        own = signatures.public_half(self.settings.key)
        found: dict[str, Signed] = {}
        for signed in self.put_out():
            last = found.get(signed.line.service)
            is_own = signed.line.service == self.name or is_name_of_part(self.name, signed.line.service)
            if is_own and (last is None or signed.line.step > last.line.step) and signatures.checked_by(signed, own) is not None:
                found[signed.line.service] = signed
        return sorted(found.values(), key=lambda it: number_of_part(self.name, it.line.service))

    def put_out(self) -> Iterator[Signed]:
        """The signed lines that the last turn put out."""
        yield from read_signed_lines(files.read_if_there(self.box / ".line", MOST_INDEX) or b"")
        for peer in self.peers:
            for name in ["line", *(f"{it.name}/line" for it in os.scandir(peer.of_own("")) if it.is_dir(follow_symlinks=False))]:
                signed = read_signed_line(files.read_if_there(peer.of_own("") / name, signatures.MOST_BYTES, follow=False) or b"")
                if signed is not None:
                    yield signed

    def noted(self) -> bytes:
        """The lines that were published, each signed, as the box keeps them, in the order in which they went out."""
        return cut_torn(files.read_if_there(self.box / PUBLISHED, MOST_LINES) or b"")

    def strange(self, known: Collection[Line]) -> Iterator[Signed]:
        """The signed lines in the published folder that the box doesn't know; an index or a file that has something else is told."""
        folder = self.out / "lines"
        for path in sorted(folder.glob("*.line")) if folder.is_dir() else []:
            signed = read_signed_line(files.read(path, signatures.MOST_BYTES, follow=False))
            if signed is not None and signed.line not in known and name_line_file(signed.line) == path.name:
                yield signed

    def weighed(self, known: list[Signed], current: list[Signed]) -> list[Signed]:
        """All lines that are published from now on, in their order; raises Trouble where one can't go out behind those that did, by what the box knows and the folder has."""
        out = {it.line[:2]: it for it in known}
        last, keys = {it.line.service: it.line for it in current}, own_keys(self.box, self.settings)
        for it in self.strange({it.line for it in (*known, *current)}):
            before = out.get(it.line[:2])
            found = weigh_found(it.line, last.get(it.line.service), before.line if before else None, is_signed_by(it, keys))
            if found is Found.LATER:
                raise self.old(it.line, last.get(it.line.service))
            if found is Found.BEFORE:
                out[it.line[:2]] = it
            else:
                told = f"a line of step {it.line.step} of {it.line.service} that no key of this service signed lies in {name_of(self.out / 'lines')}: take it away"
                self.needs.append(told)
        for it in current:
            going = weigh_line(it.line, [held.line for held in out.values()])
            if going in (Going.OLDER, Going.OTHER):
                raise self.old(max((held.line for held in out.values() if held.line.service == it.line.service), key=lambda line: line.step), it.line)
            out.setdefault(it.line[:2], it)
        return sorted(out.values(), key=lambda it: (number_of_part(self.name, it.line.service), it.line.step))

    def old(self, published: Line, last: Optional[Line]) -> Trouble:
        """A line went out that the box lacks."""
        has = f"its last one is of step {last.step}" if last is not None else "it has none of that part"
        told = f"step {published.step} of {published.service} was published, {published.authenticator[:8]}.., and {name_of(self.box)} lacks it: {has}. Nothing was published"
        return Trouble(Status.OLD_STORE, told, "Was an old box or store put back? If so, see the manual, weft exchange --look.")

    def put_lines(self, known: list[Signed], lines: list[Signed]) -> None:
        """Puts lines down, each once and for good; then the box notes them, and then comes their index. What was taken away or changed is told, and put back."""
        has_folder = (self.out / "lines").is_dir()
        folder, noted = self.folder("lines"), {*known}
        lost = [it for it in known if not has_bytes(folder / name_line_file(it.line), it.data)] if has_folder or self.was_claimed else []
        index = files.read_if_there(folder / "index", MOST_LINES, follow=False) or b""
        before = Lines(tuple(it.line for it in known)).data
        if index != Lines(tuple(it.line for it in lines)).data and not before.startswith(index):
            self.needs.append(f"{name_of(folder / 'index')} was changed, and is put back")
        if lost:
            self.needs.append(f"{count_of(len(lost), 'published line')} in {name_of(folder)} {'was' if len(lost) == 1 else 'were'} taken away or changed, and put back")
        for it in lines:
            self.put(folder / name_line_file(it.line), it.data)
        if new := b"".join(it.data for it in lines if it not in noted):
            whole = self.noted()
            files.extend(self.box / PUBLISHED, new, len(whole))
        self.put(folder / "index", Lines(tuple(it.line for it in lines)).data)

    # ---- what is of peers

    def places(self) -> dict[str, str]:
        """The folder of each peer, whose name is drawn once where it isn't to be open."""
        found = {}
        for peer in self.peers:
            first = peer.first
            drawn = first.read("place").decode("ascii", "replace").removesuffix("\n")
            if PLACE.fullmatch(drawn) is None:
                drawn = secrets.token_hex(16)
                first.renew("place", f"{drawn}\n".encode())
            found[first.name] = choose_place(first.name, self.is_open(first), drawn)
        return found

    def is_open(self, peer: Peer) -> bool:
        """Whether a peer's folder is open."""
        return self.settings.is_open == ("*",) or peer.name in self.settings.is_open

    def put_peer(self, peer: Peer, place: str) -> None:
        """Publishes what is put out for a peer: files by their digests, then the index, and then those are taken away that nobody reads any more."""
        folder, listed = self.folder("peers", place), list[Listed]()
        for name, path in self.names_below(peer.of_own(""), peer):
            data = files.read(path, MOST_FILE, follow=False)
            it = Listed(name, len(data), hashlib.sha256(data).hexdigest())
            self.put(folder / it.digest, data)
            listed.append(it)
        before = read_index(files.read_if_there(folder / "index", MOST_INDEX) or b"")
        now = Index(self.name, peer.first.name, tuple(sorted(listed)))
        self.put(folder / "index.html", EMPTY)
        self.put(folder / "index", now.data)
        for name in list_old(os.listdir(folder), before, now):
            self.remove(folder / name)

    def names_below(self, folder: Path, peer: Peer, front: str = "") -> Iterator[tuple[str, Path]]:
        """The files of a folder and of those within it, by their names from there on."""
        for it in sorted(os.scandir(folder), key=lambda it: it.name):
            if it.name.endswith(".new"):
                continue
            if it.is_dir(follow_symlinks=False):
                yield from self.names_below(Path(it.path), peer, f"{front}{it.name}/")
            elif it.is_file(follow_symlinks=False) and is_listable(front + it.name):
                yield front + it.name, Path(it.path)
            else:
                self.needs.append(f"{name_of(it.path)} is nothing that is put out for {peer.first.name}: not published")

    def remove_others(self, places: dict[str, str]) -> None:
        """Takes away the folders of peers that this service published elsewhere before, which is told, or doesn't have any more."""
        above = self.folder("peers")
        self.put(above / "index.html", EMPTY)
        for folder in [it for it in sorted(above.iterdir()) if it.name not in places.values() and is_place(it.name) and it.is_dir() and not it.is_symlink()]:
            index = read_index(files.read_if_there(folder / "index", MOST_INDEX, follow=False) or b"")
            if index is not None and index.service == self.name:
                self.tell_gone(index.peer, folder, places)
                for name in sorted(os.listdir(folder), key=lambda name: name != "index"):
                    if name in ("index", "index.html") or is_digest(name) or name.endswith(".new"):
                        self.remove(folder / name)
                self.remove_folder(folder)

    def tell_gone(self, peer: str, folder: Path, places: dict[str, str]) -> None:
        """Tells that nothing is any more where a peer asks, where the keeper needn't know that."""
        if peer not in places:
            box = name_of(self.box)
            self.needs.append(f"{name_of(folder)}/ is taken away: {peer} is no peer of {box}. Does another box publish here, let each have a folder of its own")
        elif has_moved(peer, folder.name, places):
            new = f"{name_of(folder.parent)}/{places[peer]}/"
            self.needs.append(f"{peer} asked at {name_of(folder)}/, and has {new} now: tell it that new address, by a way of your own")

    # ---- pages

    def put_pages(self, signed: list[Signed], places: dict[str, str]) -> None:
        """Puts the page for people, and the page that checks proofs beside it."""
        source = packages.ABOVE / "web" / PAGE
        page = files.read_if_there(source, MOST_PAGE)
        if page is not None:
            self.put(self.out / PAGE, page)
        elif not files.is_there(self.out / PAGE):
            self.told.append(f"The page that checks proofs isn't beside it: there is no {name_of(source)} here")
        lines, made_by = Lines(tuple(it.line for it in signed)), key_of_signature(signed[-1].signature) if signed else None
        key = made_by.text if made_by is not None else ""
        has_page = files.is_there(self.out / PAGE)
        receipts = fronts.receipts_of([peer for peer in self.peers if self.is_open(peer.first)], lines)
        if key:
            self.put(self.out / "key.pub", f"{key}\n".encode())
        self.put(self.out / "index.html", fronts.page_of(fronts.Front(self.name, lines.lines, key, receipts, has_page)))
        if not os.stat(self.out).st_mode & (stat.S_IRGRP | stat.S_IROTH):
            self.told.append(f"Only this user can read {name_of(self.out)}: give the web server's user what it needs, by chmod 755, once; what is new there gets that too")

    # ---- files

    def folder(self, *names: str) -> Path:
        """A folder below the published one, which may be entered by those who may enter that; raises Trouble where something else has the name."""
        path = self.out
        for name in names:
            path = path / name
            if path.is_symlink() or (os.path.lexists(path) and not path.is_dir()):
                raise Trouble(Status.DISK, f"{name_of(path)} is no folder, or a link, and nothing is published there", "Take it away.")
            if not path.is_dir():
                try:
                    os.mkdir(path, files.PRIVATE_FOLDER)
                    os.chmod(path, stat.S_IMODE(os.stat(self.out).st_mode) & 0o755 | files.PRIVATE_FOLDER)
                    files.sync_folder(path.parent)
                except OSError as failure:
                    raise files.unwritten(path, failure) from None
        return path

    def put(self, path: Path, data: bytes) -> None:
        """Makes a file anew where it has other bytes."""
        if not has_bytes(path, data):
            files.renew(path, data, files.mode_below(path), follow=False)
            self.written += 1

    def remove(self, path: Path) -> None:
        """Takes a file away."""
        files.remove(path)
        self.removed += 1

    def remove_folder(self, path: Path) -> None:
        """Takes a folder away, where nothing of somebody else's is in it."""
        try:
            os.rmdir(path)
        except OSError:
            self.told.append(f"{name_of(path)} was published before, and has files of somebody else's: it was left with them")


def is_digest(name: str) -> bool:
    """Whether a file is called by a digest."""
    return len(name) == 64 and LINE.fullmatch(f"a 0 {name}") is not None


def has_bytes(path: Path, data: bytes) -> bool:
    """Whether a file is there, and has these bytes."""
    try:
        return os.lstat(path).st_size == len(data) and files.read(path, len(data), follow=False) == data
    except (OSError, Trouble):
        return False
