"""`weft backup`: a service, its box and its user's own files in one file."""

from __future__ import annotations

import argparse
import os
from pathlib import Path

from weft import backups, files, parts
from weft.backups import Made, Wanted
from weft.output import complain, say, say_json
from weft.statuses import Status
from weft.texts import count_of, listed, name_of
from weft.waiting import add_wait

NAME = "backup"
DETAILS = (
    "TO gets the store with all its parts, what stands beside it, the box without what came, your kept lines with their stamps, your signers, and with --keys the key: a "
    "tar file of one moment. It comes there whole or not at all, and in the place of none that has later steps. Run it behind weft exchange, and before the carrier. DIR.backup notes it."
)
STATUSES = (Status.LOOK, Status.BUSY, Status.OLD_STORE)
EXAMPLE = "weft backup /srv/log /backup/log.backup\nweft backup /srv/log /srv/box /backup/log.backup --keys"


def add(parser: argparse.ArgumentParser) -> None:
    """The words."""
    parser.add_argument("folder", metavar="DIR", type=Path, help="the folder of the service")
    parser.add_argument("box", metavar="BOX", type=Path, nargs="?", help="its box, where it has one")
    parser.add_argument("to", metavar="TO", type=Path, help="the file of the backup, on a device of its own")
    parser.add_argument("--keys", action="store_true", help="has the key too that box.conf names: whoever has the backup can sign then")
    add_wait(parser)
    parser.add_argument("--json", action="store_true", help="writes JSON")


def run(options: argparse.Namespace) -> Status:
    """Makes the backup."""
    folder = files.folder_named(options.folder)
    files.expect_folder(folder, "the folder of the service")
    parts.expect_whole(folder)
    if options.box is not None:
        files.expect_folder(options.box, "the box of the service")
    made = backups.back_up(Wanted(folder, options.box, options.to, options.keys, options.wait))
    for path in made.left_out:
        complain(f"{name_of(path)} is no regular file, and isn't in the backup.")
    if made.doubt is not None:
        complain(f"{made.doubt}. So is the backup.")
    for text in made.lost_told:
        complain(f"{name_of(options.to)}: {text}")
    status = Status.LOOK if made.left_out or made.lost_told or made.doubt is not None else Status.DONE
    if options.json:
        line, count = made.manifest.last._asdict(), sum(bool(item.digest) for item in made.manifest.items)
        what = {"line": line, "file": os.fspath(options.to), "files": count, "bytes": made.size, "list": made.manifest.digest}
        say_json({**what, "left_out": list(made.left_out), "doubt": made.doubt, "status": int(status)})
    else:
        tell(options.to, made)
    return status


def tell(to: Path, made: Made) -> None:
    """Says what the backup has."""
    manifest = made.manifest
    count = count_of(sum(bool(item.digest) for item in manifest.items), "file")
    say(f"{name_of(to)}: {listed([line.service for line in manifest.lines])} up to step {manifest.last.step}, {count}, {made.size:,} bytes")
    if made.key is not None:
        say(f"The key {name_of(made.key)} isn't in it: keep that elsewhere, or say --keys.")
    say(f"The digest of its list: {manifest.digest}")
