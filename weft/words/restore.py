"""`weft restore`: a backup is put back."""

from __future__ import annotations

import argparse
from pathlib import Path

from weft import files, lines, parts, restores
from weft.output import complain, say, say_json
from weft.restores import Restored, Wanted
from weft.statuses import Status
from weft.texts import listed, name_of
from weft.waiting import add_wait

NAME = "restore"
DETAILS = (
    "A backup that was cut or changed is refused, and told where. So is, with 17, one that lacks a line of the service that is known here: beside DIR, among your kept "
    "lines, in --held, or by the note of a later backup; then it tells which peers to ask. Nothing is written over. A restore that was stopped is gone on with. No step "
    "is made then before each peer told weft exchange what it has, or the last line was named."
)
STATUSES = (Status.LOOK, Status.BUSY, Status.OLD_STORE)
EXAMPLE = "weft restore /backup/log.backup /srv/log /srv/box\nweft exchange /srv/log /srv/box"


def add(parser: argparse.ArgumentParser) -> None:
    """The words."""
    parser.add_argument("backup", metavar="FILE", type=Path, help="the backup")
    parser.add_argument("folder", metavar="DIR", type=Path, help="where the service comes")
    parser.add_argument("box", metavar="BOX", type=Path, nargs="?", help="where its box comes; leave it out where that is still there")
    parser.add_argument("--held", metavar="FILE", type=Path, action="append", default=[], help="a file of lines of the service that others hold; may be repeated")
    parser.add_argument("--key", metavar="FILE", type=Path, help="where the key of the backup comes, where none is yet; else only within BOX")
    add_wait(parser)
    parser.add_argument("--json", action="store_true", help="writes JSON")


def run(options: argparse.Namespace) -> Status:
    """Puts the backup back."""
    folder = files.folder_named(options.folder)
    parts.expect_whole(folder)
    held = lines.KeptLines(named=options.held)
    done = restores.restore(Wanted(options.backup, folder, options.box, held, options.key, options.wait))
    for text in done.looks:
        complain(f"{text}.")
    status = Status.LOOK if done.looks else Status.DONE
    if options.json:
        what = {"line": done.manifest.last._asdict(), "made": done.manifest.made, "list": done.manifest.digest}
        say_json({**what, "ask": {it.peer: it.step for it in done.peers}, "looks": list(done.looks), "status": int(status)})
    else:
        tell(options, folder, done)
    return status


def tell(options: argparse.Namespace, folder: Path, done: Restored) -> None:
    """Says what was put back, and what has to be asked before a step is made."""
    manifest = done.manifest
    last = manifest.last
    say(f"{last.service} is put back up to step {last.step}, as it was on {manifest.made}. The digest of the backup's list: {manifest.digest}")
    for text in done.told:
        say(f"{text}.")
    if done.peers:
        whom = listed([f"{it.peer} (had your step {it.step})" if it.step else it.peer for it in done.peers])
        box = name_of(options.box) if options.box is not None else "BOX"
        say(f"It may be an old one, and no step is made before it was asked for: {whom}. weft exchange {name_of(folder)} {box} does that, and waits for each.")
        say(f"Ask each of them by another way too: who has a later step of yours than {last.step} shows that this backup is too old.")
    else:
        say(f"It may be an old one, and no step is made before you name its last line. If no later one went out: --adopt-store '{last.text}' of weft log or weft exchange.")
