"""The carrier between the boxes of a network: it loses, doubles, delays and damages files by a seed; and where it is told to, it appends to signed lines
others that it made up."""

import os
import random
from pathlib import Path
from typing import NamedTuple

from network.files import put

from weft.deciding.roads import read_index
from weft.deciding.signatures import BEGIN, END

LOST, LATE, DAMAGED = 0.2, 0.1, 0.02


class Link(NamedTuple):
    """A way from a folder `out`, or from a published one, to a folder `in`, or to where a web server has what is to come there; on it only these files go where there
    are any."""

    name: str
    out: str
    into: str
    only: tuple[str, ...] = ()
    web: str = ""

    @property
    def place(self) -> str:
        """Where files are brought."""
        return self.web or self.into


class Load(NamedTuple):
    """What is to be carried in a night; nothing is lost in a calm one."""

    seed: int
    night: int
    is_calm: bool
    late: str
    links: list[Link]
    appended: float = 0


def carry(load: Load) -> None:
    """Carries what isn't lost; some of it comes once more a night later, and some is damaged."""
    for link in load.links:
        drawn = random.Random(f"{load.seed} {load.night} {link.name}")
        late = Path(load.late, link.name)
        for name in names_in(str(late)):
            os.makedirs(os.path.dirname(os.path.join(link.place, name)), exist_ok=True)
            os.replace(late / name, os.path.join(link.place, name))
        if not os.path.isdir(os.path.dirname(link.into)):
            continue
        for name, path in sources_of(link):
            if not link.only or name in link.only:
                carry_file(load, link, name, path, drawn)


def names_in(folder: str) -> list[str]:
    """The files of a folder and of `answers` in it, by their names from there on."""
    found = []
    for above in ("", "answers/"):
        place = os.path.join(folder, above)
        if os.path.isdir(place):
            found += [above + it.name for it in os.scandir(place) if it.is_file(follow_symlinks=False) and not it.name.endswith(".new")]
    return sorted(found)


def sources_of(link: Link) -> list[tuple[str, Path]]:
    """The files that go on a way, by their names: those of a folder, or what the index of a published one lists."""
    if not link.web:
        return [(name, Path(link.out, name)) for name in names_in(link.out)]
    published = Path(link.out, "index")
    index = read_index(published.read_bytes()) if published.exists() else None
    return [(it.name, Path(link.out, it.digest)) for it in index.files] if index is not None else []


def made_up_line(data: bytes) -> bytes:
    """A line of the step behind that of a signed line, with the armour of a signature and no signature in it: whoever has no key can make it."""
    name, step, _ = data.split(b"\n")[0].split(b" ")
    return b"%s %d %s\n%s\nAAAA\n%s\n" % (name, int(step) + 1, b"f" * 64, BEGIN, END)


def carry_file(load: Load, link: Link, name: str, path: Path, drawn: random.Random) -> None:
    """Carries a file, or not."""
    data, to = path.read_bytes(), Path(link.place, name)
    if name == "line" and random.Random(f"{load.seed} {load.night} {link.name} appended").random() < load.appended:
        data += made_up_line(data)
    if not load.is_calm:
        if drawn.random() < LOST:
            return
        if drawn.random() < LATE:
            put(Path(load.late, link.name, name), data)
        if data and drawn.random() < DAMAGED:
            place = drawn.randrange(len(data))
            data = data[:place] if drawn.random() < 0.5 else data[:place] + bytes([data[place] ^ 1 << drawn.randrange(8)]) + data[place + 1 :]
    put(to, data)
