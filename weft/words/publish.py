"""`weft publish`: what a service puts out, as a folder for any web server."""

from __future__ import annotations

import argparse
from pathlib import Path

from weft import box as boxes
from weft import files, locks, publishing
from weft.output import say, say_json
from weft.statuses import Status
from weft.texts import count_of, name_of
from weft.waiting import add_wait

NAME = "publish"
DETAILS = (
    "OUT gets each signed line, for good; for each peer a folder with what the last turn put out for it; and a page for people. Who has the address of a peer's "
    "folder reads there your messages, receipts and answers, and with whom you exchange: give it to that peer alone. It can't be guessed, unless box.conf says `open "
    "= PEER ..`. All the world reads the service's name, and how many steps it has. Where a later line was published than the box has, the status is 17. With "
    "`publish = OUT` in box.conf weft exchange does this at its end."
)
STATUSES = (Status.LOOK, Status.BUSY, Status.OLD_STORE)
EXAMPLE = "weft publish /srv/box /srv/www/log"


def add(parser: argparse.ArgumentParser) -> None:
    """The words."""
    parser.add_argument("box", metavar="BOX", type=Path, help="the box")
    parser.add_argument("out", metavar="OUT", type=Path, help="the folder, empty at first")
    add_wait(parser)
    parser.add_argument("--json", action="store_true", help="writes JSON")


def run(options: argparse.Namespace) -> Status:
    """Publishes."""
    box, out = options.box, options.out
    files.expect_folder(box, "the box, which has a folder for each peer: weft accept BOX PEER makes it")
    files.expect_folder(out, "the folder to publish into: make an empty one that your web server may read")
    settings = boxes.read_settings(box)
    with locks.held(box / ".lock", options.wait, box):
        done = publishing.publish(box, out, settings)
    status = Status.LOOK if done.needs else Status.DONE
    if options.json:
        say_json({"written": done.written, "removed": done.removed, "peers": done.places, "told": [*done.needs, *done.told], "status": int(status)})
        return status
    say(told_of(done, out))
    for name, place in sorted(done.places.items()):
        say(f"{name}: {'open, ' if place == name else ''}peers/{place}/{'' if place == name else ' below your address: tell that to nobody else'}")
    for text in [*done.needs, *done.told]:
        say(f"{text}.")
    return status


def told_of(done: publishing.Published, out: Path) -> str:
    """What was published, in a sentence."""
    if not done.written and not done.removed:
        return f"{name_of(out)} has all already"
    return f"{name_of(out)}: {count_of(done.written, 'file')} new or changed, {done.removed:,} taken away"
