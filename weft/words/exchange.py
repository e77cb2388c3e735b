"""`weft exchange`: a service's turn with its peers."""

from __future__ import annotations

import argparse
import os
from pathlib import Path
from typing import Optional

from weft import box as boxes
from weft import backups, fetching, files, judges, locks, own, parts, program, publishing, stamping
from weft.deciding.roads import Address
from weft.deciding.standing import Command
from weft.lines import Line
from weft.exchange import Turn
from weft.fetching import Fetched
from weft.output import complain, say, say_json
from weft.standing import Standing
from weft.statuses import Status
from weft.stores import Store
from weft.texts import beside, name_of
from weft.trouble import Trouble
from weft.waiting import add_wait

NAME = "exchange"
DETAILS = (
    "For each peer the box has a folder of its name (A BOX). Messages that are signed by the key kept for the peer are received; requests of peers for threads "
    "and links are answered. A new peer waits for weft accept. What can't be read, a peer of which nothing new came for three turns, and lines of a service "
    "that no link joins, are told, with 10. Two signed lines that no one history has, and proofs that break a rule, end each turn with 11, until they are moved "
    "out of the box. Before its history outgrows its file the service goes on in a new part; a peer's next part is taken where it is proved to be that. Where "
    "box.conf says so, it fetches first, and at its end has its line stamped, and publishes. Else run it each night before the backup, and that before the carrier; after a restore with --look."
)
STATUSES = (Status.LOOK, Status.CONTRADICTION, Status.BUSY, Status.OLD_STORE)
EXAMPLE = "weft exchange /srv/log /srv/box\nrsync -r log@bank.example: /srv/box/bank/in/\nweft exchange /srv/log /srv/box --look"


def add(parser: argparse.ArgumentParser) -> None:
    """The words."""
    parser.add_argument("folder", metavar="DIR", type=Path, help="the folder of the service")
    parser.add_argument("box", metavar="BOX", type=Path, help="the box: a folder for each peer")
    parser.add_argument("--despite", metavar="PEER", action="append", default=[], help="goes on although this peer hands back a line that the store lacks")
    looks = "after a restore: makes no step, puts nothing out, and tells what each peer hands back; turns wait from then on until each peer's word has come"
    parser.add_argument("--look", action="store_true", help=looks)
    own.add_adopt(parser)
    add_wait(parser)
    parser.add_argument("--unproved", action="store_true", help="lets the second implementation make steps, which isn't proved")
    parser.add_argument("--json", action="store_true", help="writes JSON")


def run(options: argparse.Namespace) -> Status:
    """Makes the turn."""
    program.refuse_second(options.unproved)
    folder, box = files.folder_named(options.folder), options.box
    files.expect_folder(folder, "the folder of the service")
    parts.expect_whole(folder)
    files.expect_folder(box, "the box, which has a folder for each peer: weft accept BOX PEER makes it")
    settings = boxes.read_settings(box)
    named = own.named_line(options.adopt_store) if options.adopt_store is not None else None
    with locks.held(box / ".lock", options.wait, box):
        boxes.expect_own(box, Store(folder).last().line.service)
        fetched = fetching.fetch_all(box, settings)
    with locks.held(beside(folder, ".lock"), options.wait, folder), locks.held(box / ".lock", options.wait, box):
        boxes.claim(box, Store(folder).last().line.service)
        files.renew_if_other(box / ".of", os.fsencode(os.path.realpath(folder)) + b"\n", files.PRIVATE)
        turn = open_turn(folder, box, settings, options, named)
        note_fetched(turn, fetched)
        trouble = None
        try:
            turn.run(options.look)
        except Trouble as ended:
            turn.is_made, trouble = False, ended
        except BaseException:
            turn.is_made = False
            say_all(options, turn, None)
            raise
    if turn.is_made:
        hand_out(turn, folder, settings, options.wait)
    status = turn.ended(trouble)
    say_all(options, turn, status)
    if trouble is not None:
        complain(trouble.describe())
    return status


def note_fetched(turn: Turn, fetched: dict[str, Fetched]) -> None:
    """Notes what is to be told of what was fetched, and what of it counts."""
    peers = {peer.name: peer for peer in turn.all_peers}
    for name, found in sorted(fetched.items()):
        for text in found.needs:
            if name in peers:
                peers[name].need(text)
            else:
                turn.told.append(f"{name}: {text}.")
                turn.look()
        for text in found.told if name in peers else ():
            peers[name].say(text)


def hand_out(turn: Turn, folder: Path, settings: boxes.Settings, wait: float) -> None:
    """Has the line stamped, backs the service up, and then publishes what the turn put out, where box.conf says so. What hinders that is told, and counts; the turn stands,
    and nothing is published that isn't in the backup."""
    if settings.stamp is not None:
        stamp(turn, folder, settings.stamp)
    try:
        private = publishing.Private(folder, backed_up(turn, folder, settings.backup, wait) if settings.backup is not None else None)
        if settings.publish is None:
            return
        files.expect_folder(settings.publish, "in box.conf the folder to publish into, which your web server may read")
        with locks.held(turn.box / ".lock", wait, turn.box):
            done = publishing.publish(turn.box, settings.publish, settings, private)
        turn.told += [f"{text}." for text in done.needs]
        turn.look(Status.LOOK if done.needs else Status.DONE)
    except Trouble as trouble:
        turn.told.append(trouble.describe())
        turn.look(trouble.status)


def stamp(turn: Turn, folder: Path, address: Address) -> None:
    """Has the line that the turn made stamped."""
    try:
        done = stamping.stamp_night(folder, stamping.Wanted(address))
        turn.told += done.told
        turn.look(done.status)
    except Trouble as trouble:
        turn.told.append(trouble.describe())
        turn.look()


def backed_up(turn: Turn, folder: Path, to: Path, wait: float) -> tuple[Line, ...]:
    """Makes the backup that box.conf names, without the key; the last lines that are in it."""
    made = backups.back_up(backups.Wanted(folder, turn.box, to, False, wait))
    for text in made.lost_told:
        turn.told.append(f"{name_of(to)}: {text}")
        turn.look()
    for path in made.left_out:
        turn.told.append(f"{name_of(path)} is no regular file, and isn't in the backup.")
        turn.look()
    return made.manifest.lines


def say_all(options: argparse.Namespace, turn: Turn, status: Optional[Status]) -> None:
    """Says all that was found, whatever ended the turn; there is no status where weft itself failed, or was stopped."""
    general = list(turn.told)
    if turn.settings.is_unsigned:
        conf = name_of(turn.box / "box.conf")
        general.append(f"Unsigned messages are taken here ({conf}): whoever can write in a folder `in` can speak in a peer's name.")
    if options.json:
        peers = {peer.name: peer.told for peer in turn.all_peers if peer.told or peer.later is None}
        say_json({"line": turn.last._asdict(), "peers": peers, "told": general, "status": None if status is None else int(status)})
    else:
        for text in [*(f"{peer.name}: {text}." for peer in turn.all_peers for text in peer.told), *general]:
            say(text)
        if turn.is_made:
            say(turn.last.text)


def open_turn(folder: Path, box: Path, settings: boxes.Settings, options: argparse.Namespace, named: Optional[Line]) -> Turn:
    """The turn of a service, in the part in which it goes on; the next one may be being made already. Raises Trouble where it has ended, and where a run of
    weft log that makes the next part has to be brought to its end first."""
    judge = judges.bench()
    standing = Standing(folder, judge, despite=options.despite)
    going, new, found = standing.expect(Command.EXCHANGE, is_named=named is not None), standing.new, standing.made
    going.tell()
    if new is None:
        parts.forget_next(folder)
        if len(found) > 1:
            parts.note_made(folder, judge, found[-1])
    if new is not None and files.is_there(beside(found[-1].folder, ".pending")):
        told = f"{name_of(folder)} is to go on as {new.name}, and the run of weft log that makes that part was stopped"
        raise Trouble(Status.LOOK, told, "Run weft log first.")
    turn = Turn(standing, box, settings, judge, options.despite, named)
    turn.look(going.status)
    return turn
