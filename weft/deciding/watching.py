"""What asks for a look in the state of a service, as monitoring reads it, and with which status that ends."""

from __future__ import annotations

from enum import Enum
from typing import NamedTuple, Optional, Sequence

from weft.deciding.worst import worst_of
from weft.statuses import Status

DAY = 86_400


class Concern(Enum):
    """What asks for a look: the store isn't the right one, or may be an old one; two histories of a peer were shown; a peer is silent, or isn't accepted yet; steps
    aren't in the last backup, or that isn't where it was made; no step was made, no turn, or no stamp, for too many days; or a stamp isn't renewed that is due to be."""

    OLD = "old store"
    DOUBT = "doubt"
    FORK = "fork"
    SILENT = "silent"
    NEW = "new peer"
    BEHIND = "not backed up"
    LOST_BACKUP = "no backup there"
    NO_STEP = "no step"
    NO_TURN = "no turn"
    NO_STAMP = "no stamp"
    STAMP_DUE = "stamp due"


STATUSES = {Concern.OLD: Status.OLD_STORE, Concern.FORK: Status.CONTRADICTION}


class PeerState(NamedTuple):
    """What is known of a peer: whether a person accepted it; which step of the service's last part it has recorded, None where none is known; whether it is silent; and
    whether two histories of it were shown."""

    name: str
    is_accepted: bool
    has: Optional[int]
    is_silent: bool
    has_forks: bool


class State(NamedTuple):
    """What is known of a service: its last step, and when its store was changed last, 0 for never; up to which step the last backup goes, None where none was made, and
    whether it is where it was made; when the last turn was, None of one without a box; whether the store isn't the right one, or may be an old one; its peers; and when its last line
    was stamped, and the next renewal is due, None where lines aren't stamped each night."""

    step: int
    changed: int
    backed_up: Optional[int] = None
    is_backup_there: bool = True
    turn: Optional[int] = None
    is_old: bool = False
    is_doubted: bool = False
    peers: Sequence[PeerState] = ()
    stamped: Optional[int] = None
    due: Optional[int] = None


class Asking(NamedTuple):
    """Something that asks for a look, and of which peer."""

    concern: Concern
    peer: str = ""


def is_late(moment: int, now: int, days: int) -> bool:
    """Something is late where it was more than so many days ago, or lies ahead by more than a day: then a clock is wrong. Of 0 days nothing is late."""
    return days > 0 and not -DAY <= now - moment <= days * DAY


def list_concerns(state: State, now: int, days: int) -> list[Asking]:
    """All that asks for a look. That no backup was ever noted does not: who makes backups otherwise has none."""
    found = []
    if state.is_old:
        found.append(Asking(Concern.OLD))
    elif state.is_doubted:
        found.append(Asking(Concern.DOUBT))
    if is_late(state.changed, now, days):
        found.append(Asking(Concern.NO_STEP))
    if state.turn is not None and is_late(state.turn, now, days):
        found.append(Asking(Concern.NO_TURN))
    if state.stamped is not None and is_late(state.stamped, now, days):
        found.append(Asking(Concern.NO_STAMP))
    if state.due is not None and days > 0 and state.due + days * DAY < now:
        found.append(Asking(Concern.STAMP_DUE))
    if state.backed_up is not None and state.backed_up < state.step:
        found.append(Asking(Concern.BEHIND))
    if state.backed_up is not None and not state.is_backup_there:
        found.append(Asking(Concern.LOST_BACKUP))
    for peer in state.peers:
        if peer.has_forks:
            found.append(Asking(Concern.FORK, peer.name))
        if not peer.is_accepted:
            found.append(Asking(Concern.NEW, peer.name))
        elif peer.is_silent:
            found.append(Asking(Concern.SILENT, peer.name))
    return found


def status_of(concerns: Sequence[Asking]) -> Status:
    """How it ends: by the worst of what asks for a look."""
    return worst_of(STATUSES.get(it.concern, Status.LOOK) for it in concerns)
