"""`weft tell`: what files are and say, unjudged."""

from __future__ import annotations

import argparse
from pathlib import Path
from typing import Optional

from weft import backups, files, formats, telling
from weft.deciding.backups import list_to_ask
from weft.deciding.worst import worst_of
from weft.output import complain, say, say_json
from weft.statuses import Status
from weft.texts import count_of, listed, name_of
from weft.trouble import Trouble

NAME = "tell"
DETAILS = (
    "It knows messages, receipts, proofs, map files, evidence, histories, events files, lines, texts of timeweave, and backups. What a file says may be made "
    "up: weft judge judges."
)
STATUSES = ()
EXAMPLE = "weft tell receipt proof"


def add(parser: argparse.ArgumentParser) -> None:
    """The words."""
    parser.add_argument("files", metavar="FILE", nargs="+", help="files of any kind")
    parser.add_argument("--json", action="store_true", help="writes JSON, a line for each file")


def tell_bad(options: argparse.Namespace, path: str, status: Status, told: str) -> Status:
    """Says why nothing is told of a file; answers the status."""
    if options.json:
        say_json({"file": path, "what": None, "says": [told], "judged": False, "status": int(status)})
    complain(told)
    return status


def tell_backup(path: str) -> Optional[tuple[str, list[str]]]:
    """What the list of a backup says; None where the file is none, or was cut short."""
    found = backups.read_list(Path(path))
    if found is None:
        return None
    peers = [f"{it.peer} (had step {it.step})" if it.step else it.peer for it in list_to_ask(found.peers)]
    count = count_of(sum(bool(item.digest) for item in found.items), "file")
    told = [f"line: {line.text}" for line in found.lines] + [f"made {found.made}, {count}", f"peers: {listed(peers) or 'none'}"]
    return "backup of a service", [*told, f"digest of its list: {found.digest}. Whether its files are whole, weft restore says"]


def run(options: argparse.Namespace) -> Status:
    """Tells each file."""
    status = Status.DONE
    for path in options.files:
        try:
            what, told = tell_backup(path) or telling.tell(files.read(path, formats.MOST_HISTORY))
        except ValueError as bad:
            told_bad = f"{name_of(path)}: {bad}.{' Is it the right file?' if str(bad) == telling.NO_FORMAT else ''}"
            status = worst_of([status, tell_bad(options, path, Status.UNREADABLE, told_bad)])
            continue
        except Trouble as trouble:
            status = worst_of([status, tell_bad(options, path, trouble.status, trouble.describe())])
            continue
        if options.json:
            say_json({"file": path, "what": what, "says": told, "judged": False, "status": int(Status.DONE)})
            continue
        say(f"{name_of(path)}: {what}, unjudged")
        for line in told:
            say(f"  {line}")
    return status
