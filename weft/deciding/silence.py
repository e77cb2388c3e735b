"""When a peer's silence is told, and counts: at once where what came can't be read, and after some turns in which nothing new of it came.

What is new is a later step: a signed line of one can't be made up by whoever carries the files. (A receipt, a line that was handed back, and the same
line once more can: a carrier that cuts a peer off would go on with these for ever. So none of them ends a silence.)"""

from __future__ import annotations

import re
from enum import Enum
from itertools import zip_longest
from typing import Collection, Iterable, Mapping, NamedTuple, Optional

from weft.deciding.signatures import Signed

NO_SUCH_FILE = 2  # ENOENT, as each system has it that weft runs on
MOST_TURNS = 9_999
HANDED = re.compile(r"([a-z0-9-]{1,16}) ([0-9]{1,13}) (SHA256:[A-Za-z0-9+/]{43})")
STATE = re.compile(r"([0-9]{1,4}) ([0-9]{1,13}) ([0-9]{4}-[0-9]{2}-[0-9]{2}|-) ([0-9]{1,13}) ([0-9]{4}-[0-9]{2}-[0-9]{2}|-)")


class Came(Enum):
    """What came of a look for a file that a peer may have put out: it isn't there, or something is there that can't be read."""

    NOT_THERE = "not there"
    UNREAD = "unread"


def weigh_failure(number: Optional[int]) -> Came:
    """A file isn't there where the system says, by the number of its failure, that there is no such file; whatever else fails, and whatever is no plain file
    or is too long, is there and can't be read, which is told and counts."""
    return Came.NOT_THERE if number == NO_SUCH_FILE else Came.UNREAD


class Heard(Enum):
    """What a turn heard of a peer: a later step than all before; what came before, which lies there still, whole; or nothing that could be taken."""

    NEW = "new"
    SAME = "same"
    NOTHING = "nothing"


class Silence(NamedTuple):
    """In how many turns in a row nothing new came; the last step that came, 0 for none, and the day on which it did, `-` for none; and at the last turn that
    counted the last step of the own service, and the day."""

    turns: int = 0
    step: int = 0
    day: str = "-"
    own: int = 0
    counted: str = "-"

    @property
    def text(self) -> str:
        """As it is kept."""
        return f"{self.turns} {self.step} {self.day} {self.own} {self.counted}"


def read_silence(text: str) -> Silence:
    """What was kept is read where it is whole; else nothing is known, and the counting begins anew."""
    found = STATE.fullmatch(text)
    return Silence(int(found[1]), int(found[2]), found[3], int(found[4]), found[5]) if found else Silence()


def choose_last_heard(noted: int, is_noted_good: bool, last_good: int) -> int:
    """The last step that was heard is the noted one, as long as it rests on what counts now; else the last one that does. So a line of a step that never
    comes, signed by a thief, hides no later one once the thief's key was taken out."""
    return noted if noted and is_noted_good else last_good


def weigh_heard(had: int, came: int, is_whole: bool) -> Heard:
    """Something new was heard where what came in the turn is of a later step than the last one that was heard; else the same where what came before lies there
    still, whole; else nothing."""
    if came > had:
        return Heard.NEW
    return Heard.SAME if is_whole else Heard.NOTHING


def may_count(before: Silence, heard: Heard, own: int, day: str) -> bool:
    """A turn without anything new counts, unless it may be the same night's once more: where what came before lies there still, it counts only if the own
    service has made a step since the last turn that counted, or that one was on another day. Where nothing lies there that fits, each turn counts."""
    if heard is Heard.NEW:
        return False
    return heard is Heard.NOTHING or own > before.own or day != before.counted


def hear(before: Silence, heard: Heard, step: int, own: int, day: str) -> Silence:
    """A later step ends a silence; a turn that counts makes it longer by one; a turn that may be the same night's once more leaves it. `step` is the last
    one that came, `own` the last one of the own service at the turn's end."""
    if heard is Heard.NEW:
        return Silence(0, step, day, own, day)
    if not may_count(before, heard, own, day):
        return before
    is_first = before.counted == "-" and heard is Heard.SAME
    return Silence(0 if is_first else min(before.turns + 1, MOST_TURNS), before.step or step, before.day, own, day)


def is_silent(found: Silence, limit: int) -> bool:
    """A silence is told, and counts, from `limit` turns in a row on; where the limit is 0, never."""
    return 0 < limit <= found.turns


def describe_silence(found: Silence, what: str) -> str:
    """What is told of a silence is what is known: what came last, and when; not why nothing came since."""
    turns = "1 turn" if found.turns == 1 else f"{found.turns:,} turns"
    if found.step == 0:
        return f"no {what} of it came in {turns}, and none before"
    return f"no new {what} of it came in {turns}; the last was of its step {found.step}" + (f", on {found.day}" if found.day != "-" else "")


# ---- what a peer hands on of others


class Handed(NamedTuple):
    """The latest line of a service that a peer handed on with a good signature: the service, the step, and the fingerprint of the key."""

    service: str
    step: int
    fingerprint: str

    @property
    def text(self) -> str:
        """As it is kept."""
        return f"{self.service} {self.step} {self.fingerprint}"


def read_handed(text: str) -> Optional[Handed]:
    """What was kept is read where it is whole; else nothing is known of that service."""
    found = HANDED.fullmatch(text)
    return Handed(found[1], int(found[2]), found[3]) if found else None


def list_later(lines: Iterable[Signed], noted: Mapping[str, int]) -> list[Signed]:
    """Of lines that a peer hands on only those of a later step than the latest good one of their service before can be new: first the newest of each service,
    then the second of each, and so on. Whether their signatures are good isn't said by that."""
    later: dict[str, list[Signed]] = {}
    for it in lines:
        if it.line.step > noted.get(it.line.service, 0):
            later.setdefault(it.line.service, []).append(it)
    ordered = [sorted(of_service, key=lambda it: -it.line.step) for of_service in later.values()]
    return [it for rank in zip_longest(*ordered) for it in rank if it is not None]


def is_handed_on_due(before: Silence, has_lines: bool, heard: Collection[str], handed: Collection[str], recorded: Collection[str]) -> bool:
    """Of a peer that handed lines of others on before some are due where none at all came, or where others of which it did were heard in this turn. Of one
    that never did they are due where others were heard of which its receipts tell that it recorded them, unless a person accepted it once more since."""
    if before.step:
        return not has_lines or any(name in handed for name in heard)
    return before.counted == "-" and any(name in recorded for name in heard)


def hear_handed_on(before: Silence, is_new: bool, is_due: bool, own: int, day: str) -> Silence:
    """A peer is silent in what it hands on in each turn in which a new line of its own came, lines of others were due, and none of a later step than before
    with a good signature came: whoever carries its files may hold back that file alone, or bring one of before, or a made-up one, in its place."""
    if is_new:
        return Silence(0, 1, day, own, day)
    if not is_due:
        return before
    return Silence(min(before.turns + 1, MOST_TURNS), before.step, before.day, own, day)


def begin_handed_on(is_accepted: bool, day: str) -> Silence:
    """A person who accepts a peer once more knows that nothing may be handed on any more: nothing is due until something is."""
    return Silence(counted=day) if is_accepted else Silence()
