"""`weft status`: the state of a service, as monitoring reads it."""

from __future__ import annotations

import argparse
import os
import time
from pathlib import Path
from typing import Any, NamedTuple, Optional

from weft import backups, files, hearing, judges, parts, signatures, stamping
from weft import box as boxes
from weft.box import Peer
from weft.deciding.backups import Noted
from weft.deciding.forks import FILE_NAME
from weft.deciding.signatures import read_signed_line
from weft.deciding.renewing import Note, first_due, last_of, line_of_stamp
from weft.deciding.silence import describe_silence, is_silent
from weft.deciding.standing import Command
from weft.deciding.watching import Asking, Concern, PeerState, State, list_concerns, status_of
from weft.deciding.worst import worst_of
from weft.formats import MOST_HISTORY
from weft.looking import Notes
from weft.output import complain, say, say_json
from weft.own import NO_STEP, OwnLines
from weft.parts import Part
from weft.standing import Going, Standing
from weft.statuses import Status
from weft.texts import count_of, date_of
from weft.trouble import Trouble

NAME = "status"
DETAILS = (
    "It changes nothing, and waits for nobody. Status 10: a silent or a new peer, steps that aren't in the last backup, no step, turn or stamp for --days, a stamp that "
    "isn't renewed, or a store that may be an old one. 11: two histories of a peer. 17: the store isn't that of its lines."
)
STATUSES = (Status.LOOK, Status.CONTRADICTION, Status.OLD_STORE)
EXAMPLE = "weft status /srv/log\nweft status /srv/log /srv/box --json"
DAYS = 2

TOLD = {
    Concern.OLD: "", Concern.DOUBT: "", Concern.FORK: "two histories of {peer} were shown: weft exchange tells them.",
    Concern.SILENT: "{peer} is silent: look whether the carrier runs, and ask it.", Concern.NEW: "{peer} is no accepted peer yet: weft accept.",
    Concern.BEHIND: "the last backup lacks steps: weft backup.", Concern.LOST_BACKUP: "the last backup isn't where it was made: is its device mounted?", Concern.NO_STEP: "no step was made for more than {days}: does the timer run?",
    Concern.NO_TURN: "no turn was made for more than {days}: does the timer run?",
    Concern.NO_STAMP: "no line was stamped for more than {days}: does the timer run, and what does it tell of the authority?",
    Concern.STAMP_DUE: "a stamp is due to be renewed for more than {days}: weft stamp tells why it isn't.",
}  # fmt: skip


def add(parser: argparse.ArgumentParser) -> None:
    """The words."""
    parser.add_argument("folder", metavar="DIR", type=Path, help="the folder of the service")
    parser.add_argument("box", metavar="BOX", type=Path, nargs="?", help="its box, where it has one")
    parser.add_argument("--days", metavar="DAYS", type=int, default=DAYS, help=f"asks for a look where no step, or no turn, was made for more days ({DAYS}), 0 for never")
    parser.add_argument("--json", action="store_true", help="writes JSON")


class Known(NamedTuple):
    """What is known of a service: its parts, when its store was changed last, its share of the limit, its last backup and turn; what is known against the store; its peers,
    each with what is known of its silence; and what is noted of its stamps."""

    found: list[Part]
    changed: int
    share: float
    backup: Optional[Noted]
    turn: Optional[int]
    going: Going
    peers: list[tuple[Peer, PeerState]]
    stamps: list[Note]

    @property
    def stamp(self) -> Optional[Note]:
        """Its last stamp."""
        return last_of(self.stamps)

    @property
    def old(self) -> Optional[Trouble]:
        """Why the store isn't the right one."""
        return next(iter(self.going.ended), None)

    @property
    def doubt(self) -> Optional[str]:
        """Why it may be an old one."""
        return self.going.doubt

    @property
    def state(self) -> State:
        """What decides."""
        last = self.found[-1].last
        backed_up = None if self.backup is None else self.backup.line.step if self.backup.line.service == last.service else 0
        is_there = self.backup is not None and backups.is_where_noted(self.backup)
        peers, stamped = [state for _, state in self.peers], None if self.stamp is None else self.stamp.second
        return State(last.step, self.changed, backed_up, is_there, self.turn, self.old is not None, self.doubt is not None, peers, stamped, first_due(self.stamps))


def run(options: argparse.Namespace) -> Status:
    """Tells the state."""
    folder = files.folder_named(options.folder)
    files.expect_folder(folder, "the folder of the service")
    parts.expect_whole(folder)
    if options.days < 0:
        raise Trouble(Status.USAGE, "--days is 0 at least", "0 is for never.")
    if options.box is not None:
        files.expect_folder(options.box, "the box of the service")
    known = look(folder, options.box)
    concerns = list_concerns(known.state, int(time.time()), options.days)
    status = worst_of([status_of(concerns), known.going.status])
    if options.json:
        say_json(as_json(known, concerns, status))
        return status
    tell(known)
    for text in known.going.told:
        complain(text)
    for it in [it for it in concerns if it.concern is not Concern.DOUBT]:
        text = TOLD[it.concern].format(peer=it.peer, days=count_of(options.days, "day"))
        complain(text or (known.old.describe() if known.old is not None else ""))
    return status


def look(folder: Path, box: Optional[Path]) -> Known:
    """Looks at a service and its box."""
    standing = Standing(folder, judges.bench())
    going, found = standing.weigh(Command.STATUS, NO_STEP), standing.parts
    last = found[-1]
    changed = int(os.stat(last.store.file).st_mtime) if last.last.step else 0
    turn = Notes(box).read().moment if box is not None else None
    peers, backup = peers_of(box, found) if box is not None else [], OwnLines(last.folder).backed_up()
    return Known(found, changed, parts.size_of(last.store) / MOST_HISTORY, backup, turn, going, peers, stamping.notes_of(folder))


def peers_of(box: Path, found: list[Part]) -> list[tuple[Peer, PeerState]]:
    """The peers of a box, each in its last part."""
    boxes.expect_own(box, found[0].last.service)
    peers, _ = boxes.peers_of(box, [part.last.service for part in found], boxes.read_settings(box))
    return [(peer, state_of(peer, found[-1].last.service)) for peer in peers if peer.later is None]


def state_of(peer: Peer, service: str) -> PeerState:
    """What is known of a peer of this service."""
    has, kept = peer.has(), hearing.read_kept_silence(peer)
    is_one_silent = any(is_silent(it, peer.settings.silent) for it in kept.values())
    step = has.step if has is not None and has.service == service else None
    return PeerState(peer.name, peer.first.accepted() is not None, step, is_one_silent, is_accused(peer))


def is_accused(peer: Peer) -> bool:
    """Whether the last turn told evidence against a peer, it lies there still, and the two lines of it are signed by keys that are noted now."""
    names = peer.fork_names()
    if not names or not peer.read("accused"):
        return False
    lines = [read_signed_line(files.read(peer.kept / "forks" / name, signatures.MOST_BYTES)) for name in names if FILE_NAME.fullmatch(name)]
    good = [it for it in lines if it is not None and signatures.checked(it, peer.folder.parent / "allowed_signers") is not None]
    return len(good) > 1


def tell(known: Known) -> None:
    """Says what is known."""
    last = known.found[-1].last
    when = f", of {date_of(known.changed)} by its file" if known.changed else ""
    say(f"{last.service}: step {last.step}{when}")
    say(f"its history has {known.share:.0%} of what a file may have" + (f", in part {len(known.found)}" if len(known.found) > 1 else ""))
    backup = known.backup
    say(f"backup: {f'up to step {backup.line.step} of {backup.line.service}, of {backup.made}' if backup is not None else 'none is noted'}")
    stamp, due = known.stamp, first_due(known.stamps)
    if stamp is not None and due is not None:
        of = line_of_stamp("", stamp.name)
        say(f"stamp: of step {of.step if of is not None else 0}, {date_of(stamp.second)}, {stamp.authority}; the next renewal is due on {date_of(due)[:10]}")
    if known.turn is not None:
        say(f"last turn: {date_of(known.turn)}")
    for peer, state in known.peers:
        told = describe_silence(hearing.read_kept_silence(peer)[hearing.LINES], hearing.LINES)
        has = f"it has your step {state.has}, {count_of(last.step - state.has, 'step')} ago" if state.has is not None else "nothing tells that it has a step of this part"
        say(f"{peer.name}: {has}; {told}")


def as_json(known: Known, concerns: list[Asking], status: Status) -> dict[str, Any]:
    """The same as JSON."""
    last, backup = known.found[-1].last, known.backup
    return {
        "line": last._asdict(),
        "changed": known.changed or None,
        "part": len(known.found),
        "share": round(known.share, 4),
        "backup": None if backup is None else {**backup.line._asdict(), "made": backup.made, "list": backup.digest},
        "stamp": None if known.stamp is None else {**known.stamp._asdict(), "next due": first_due(known.stamps)},
        "turn": known.turn,
        "old": None if known.old is None else known.old.describe(),
        "doubt": known.doubt,
        "peers": {peer.name: peer_as_json(peer, state, last.step) for peer, state in known.peers},
        "look": [{"what": it.concern.value, "peer": it.peer or None} for it in concerns],
        "status": int(status),
    }


def peer_as_json(peer: Peer, state: PeerState, last: int) -> dict[str, Any]:
    """What is known of a peer."""
    silences = hearing.read_kept_silence(peer)
    heard = {what: {"step": it.step, "day": it.day if it.day != "-" else None, "turns without": it.turns} for what, it in silences.items() if what != hearing.HANDED_ON}
    behind = None if state.has is None else last - state.has
    return {"accepted": state.is_accepted, "has": state.has, "behind": behind, "silent": state.is_silent, "forks": state.has_forks, **heard}
