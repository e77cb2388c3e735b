"""`weft fetch`: what a peer has published, into its folder of a box."""

from __future__ import annotations

import argparse
from pathlib import Path

from weft import box as boxes
from weft import fetching, files, locks
from weft.lines import NAME as NAME_OF_PEER
from weft.output import say, say_json
from weft.statuses import Status
from weft.texts import count_of, listed, name_of
from weft.trouble import Trouble
from weft.waiting import add_wait

NAME = "fetch"
DETAILS = (
    "What is new there is brought by HTTPS, as by any carrier: nothing of it is believed before weft exchange has looked. box.conf limits files, bytes and seconds, "
    "and nothing is followed to another host. What is listed and doesn't come is told, with 10. With `url PEER = URL` in box.conf weft exchange does this first."
)
STATUSES = (Status.LOOK, Status.BUSY)
EXAMPLE = "weft fetch https://bank.example/log/peers/8d1f7a52c3b94e60a1b2c3d4e5f60718/ /srv/box/bank"


def add(parser: argparse.ArgumentParser) -> None:
    """The words."""
    parser.add_argument("url", metavar="URL", help="the address of its folder for you, which the peer told you")
    parser.add_argument("peer", metavar="BOX/PEER", type=Path, help="its folder in the box")
    add_wait(parser)
    parser.add_argument("--json", action="store_true", help="writes JSON")


def run(options: argparse.Namespace) -> Status:
    """Fetches."""
    address, folder = fetching.address_of(options.url), files.folder_named(options.peer)
    files.expect_folder(folder, "the peer's folder in the box: weft accept BOX PEER makes it")
    box = folder.parent
    settings = boxes.read_settings(box)
    with locks.held(box / ".lock", options.wait, box):
        peer = boxes.Peer(box, folder.name, settings)
        if NAME_OF_PEER.fullmatch(peer.name) is None or not fetching.is_peer(peer):
            raise Trouble(Status.USAGE, f"{name_of(folder)} is no peer's folder of a box", "Name BOX/PEER, as weft accept BOX PEER made it.")
        found = fetching.fetch(address, peer, settings)
    status = Status.LOOK if found.needs else Status.DONE
    if options.json:
        say_json({"came": list(found.came), "same": found.same, "told": [*found.needs, *found.told], "status": int(status)})
        return status
    came = f"{count_of(len(found.came), 'file')} came" + (f" ({listed(found.came)})" if found.came else "")
    say(f"{peer.name}: {came}, {found.same:,} as they were")
    for text in [*found.needs, *found.told]:
        say(f"{text}.")
    return status
