"""Whether a turn may be made at all: the store may be an old one that was put back, or the box with it. The rules stand in `weft.deciding.restoring`.

    BOX/.turn    the number of the last turn, from where on signed lines are handed on next, and its moment, in seconds since 1970; a look that begins
                 makes it anew as it is, and notes which file it is then
    BOX/.seal    which file `.turn` was on this device when it was written, as weft.files tells it: a copy of the box has another one. `open`,
                 and which file `.turn` was before, while a turn is made"""

from __future__ import annotations

import re
import time
from pathlib import Path
from typing import NamedTuple, Optional

from weft import files
from weft.box import Peer
from weft.deciding.restoring import NO_FILE, NO_NOTE, Likeness, Word, compare_note, is_box_copied, write_open
from weft.lines import Line
from weft.texts import date_of, name_of

MOST_NOTE = 200
CLOCK = "The clock was set since peers' words were first waited for: they are waited for anew."
RESTORED = "A backup may have been put back since peers' words were first waited for: they are waited for anew."
CHANGED = "was changed since its turn, as a copy that is put back is, and as `chmod -R`, `chown -R` and `cp -al` change it too: its file system tells no more."
NOTE = re.compile(r"([0-9]{1,15}) ([0-9]{1,15}) ([0-9]{1,15})\n")


class Note(NamedTuple):
    """What the last turn noted: its number, the cursor of what is handed on, and its moment; of a box without a turn there is no moment."""

    turn: int = 0
    cursor: int = 0
    moment: Optional[int] = None

    @property
    def data(self) -> bytes:
        """The bytes of its file."""
        return f"{self.turn} {self.cursor} {self.moment or 0}\n".encode()


class Notes:
    """The notes of a box."""

    def __init__(self, box: Path):
        self.path, self.seal = box / ".turn", box / ".seal"

    def read(self) -> Note:
        """What the last turn noted."""
        found = NOTE.fullmatch((files.read_if_there(self.path, MOST_NOTE) or b"").decode("ascii", "replace"))
        return Note(int(found[1]), int(found[2]), int(found[3])) if found else Note()

    def identity(self) -> str:
        """Which file the note is, as a copy of it isn't."""
        return files.identity_of(self.path) or NO_NOTE

    def sealed(self) -> Optional[str]:
        """What the seal says; None where there is none."""
        data = files.read_if_there(self.seal, MOST_NOTE)
        return None if data is None else data.decode("ascii", "replace").removesuffix("\n")

    def is_copy(self) -> bool:
        """Whether the box isn't where its last turn was made, but a copy of it, as a backup that was put back is."""
        return is_box_copied(self.sealed(), self.read().turn, self.identity())

    def is_changed(self) -> bool:
        """Whether nothing but a change of the note that leaves its content as it is makes the box count as a copy."""
        sealed = self.sealed()
        return sealed is not None and compare_note(sealed, self.identity()) is Likeness.CHANGED

    def renew(self, moment: int) -> str:
        """Makes the note anew as it is, where a look begins: so one of any backup is another file, in its times too. A box that was a copy stays one. Answers
        which file the note is."""
        is_copy = self.is_copy()
        files.renew(self.path, files.read_if_there(self.path, MOST_NOTE) or Note(moment=moment).data)
        if not is_copy:
            self.put_seal()
        return self.identity()

    def put_seal(self) -> None:
        """Says that the note is where it was written."""
        files.renew(self.seal, f"{self.identity()}\n".encode())

    def seal_as_copy(self) -> None:
        """Lets the box be known as a copy wherever it comes."""
        if files.is_there(self.path):
            files.renew(self.seal, f"{NO_FILE}\n".encode())

    def begin(self) -> None:
        """Notes that a turn is made."""
        files.renew_if_other(self.seal, f"{write_open(self.read().turn, self.identity())}\n".encode())

    def end(self, note: Note) -> None:
        """Notes what the turn leaves to the next one."""
        files.renew(self.path, note.data)
        self.put_seal()


def now() -> int:
    """This moment, in seconds since 1970."""
    return int(time.time())


def word_of(peer: Peer, has: Optional[Line], handed_back: Optional[Line], claims: tuple[Line, ...]) -> Word:
    """When the last word of a peer about this service came: its `yours`; only of one that isn't known to have recorded anything of it, its `line`."""
    is_known = handed_back is not None or has is not None
    came = peer.came("yours" if is_known else "line")
    return Word(peer.name, came, claims, handed_back.step if handed_back else 0, has.step if has else 0)


def describe_word(has: Optional[Line], own: Optional[Line]) -> str:
    """What a peer hands back of this service, for somebody who looks, beside what it is known to have."""
    back = f"it hands back your step {own.step}" if own is not None else "it hands back no line of yours"
    return f"{back}; {f'it has your step {has.step}, as its receipts told' if has is not None else 'no receipt of it is known'}"


def describe_waiting(peer: Peer, since: int) -> str:
    """Why a peer's word is waited for, until when, and what to do."""
    return (
        f"its word is waited for: the file `yours` (or `line`, where it has nothing of yours) has to come a day or more after {date_of(since)}, since the "
        f"store or the box may come from a backup. If the carrier leaves out what is the same, empty {name_of(peer.incoming)} then; if {peer.name} is gone for "
        f"good: weft exchange --despite {peer.name} .."
    )


def describe_claim(peer: Peer, claimed: Line, last: Line) -> str:
    """What a peer's file tells of this service that the store lacks and this service hasn't signed."""
    has = f"the store's last one is {last.step}" if claimed.step > last.step else "the store has another step of that number"
    if claimed.service != last.service:
        has = "no part that is here has it"
    return (
        f"a file of it tells your step {claimed.step} of {claimed.service}, not signed by your key, and {has}: somebody may have made it up on its way, or an old store was put "
        f"back here. It stops no turn, and keeps a look after a restore open. Ask {peer.name} by another way; if it is wrong then: weft exchange --despite "
        f"{peer.name} .."
    )
