"""Whether a store may make a step: it may be an old one that was put back, and nothing inside it can tell that.

What tells it stands elsewhere: the lines beside the store, and what each peer last said of it. So a step is made only where none of these
lines is of another history, and, where the store or its box may come from a backup, only once each peer's word has come anew.

How these functions, `weft.own`, `weft log` and `weft exchange` go together:

1. `SERVICE.lines` and `SERVICE.anchor` have the lines of the service's own; `SERVICE.look` stands there while a look goes on, and has the
   moment when it began, in seconds since 1970 (`OwnLines.begun_look`, `begin_look`, `end_look`), which file it is, and which one the
   note of the box is, which is made anew then. While it is there `weft log` makes no step and ends with 17.
2. At its end each turn of `weft exchange` that made no mistake notes the moment in its box. At its beginning the turn asks `must_look`;
   where the answer is yes and no look goes on, it begins one (`when_begun`). `weft exchange --look` begins one anew, and so does a turn
   that finds by `must_begin_anew` that the clock stood otherwise when the last one began, or by `is_look_copied` that a backup was put
   back since.
3. The turn reads from each peer of the box (but those of --despite) the lines of this service that are signed by its own key, whoever
   handed them on. They are handed to `judge_turn` as `Told`, those of the files beside the store first; in a box that takes unsigned
   messages so is what an accepted peer says without a signature. Of each accepted peer it hands in a `Word`: when its last word came,
   and which lines of this service it claims without a signature (what it hands back, its receipt, its refusal): these may be made up by
   whoever carries the files, so they keep a look open and stop nothing else. A word came at the time at which the file was changed on
   this device (`st_ctime`, which no carrier and no restored backup sets back), of `in/yours`; of a peer that isn't known to have recorded
   anything of this service, of `in/line`. What it hands back has to be a line of this service, and none older than it has recorded.
4. `Go.OLD`: the turn ends with 17 and the sentence of `own.old_store`; nothing is put out. `Go.WAIT`: it takes no message, makes no step,
   signs nothing and puts nothing out, tells for whom it waits, and ends with 10. `Go.ON`: the look is at its end (`end_look`), and the
   turn is made.
5. Before all of that each word asks `weft.standing` what is known against the store, and goes by the table of `weft.deciding.standing`. What
   only a person can end there, as that no lines stand beside it, `--adopt-store LINE` ends, which names its last line (`own.add_adopt`,
   `own.named_line`, `OwnLines.adopt`). That ends a look too.

6. `SERVICE.seal` names the very file that it is (its number on its device, and that number's generation, or where the file system tells
   none when it was made), and the line that was noted last. A copy is another file: so a store that was put back with all that stood
   beside it is known as a copy (`is_copied`). Then `weft log` ends with 17, and `weft exchange` begins a look; where no peer is accepted,
   who could tell, it ends with 17 too. `--adopt-store`, or a look that is at its end, makes the seal anew.

A word counts a day after the look began: by then a peer that makes a turn each night has taken what was carried to it before, and has
told so. A peer that is gone for good is passed over by --despite PEER."""

from __future__ import annotations

import re
from enum import Enum
from typing import Iterable, Mapping, NamedTuple, Optional, Sequence

from weft.deciding.lines import Line, read_line

NO_NOTE = "none"
# What a seal says where it is to be that of no file: what it stands beside is a copy, wherever it comes.
NO_FILE = "0.0"
OPEN_BOX = re.compile(r"open ([0-9]{1,15}) (.*)")
IDENTITY = re.compile(r"([0-9]{1,20}\.[0-9]{1,10})(?:\.([0-9]{1,12}))?")
# So many seconds after it was made a seal may have been changed for the last time, where its file system tells no generation.
MOST_WRITING = 60
LOOK = re.compile(r"([0-9]{1,15})(?: (\S+) (\S+))?\n?")
DAY = 86_400
LONG_AGO = 26 * 3_600


class Told(NamedTuple):
    """A line of the own service that stands elsewhere than in the store, and where, as a sentence's end: `handed back by bank`."""

    line: Line
    whence: str


class Word(NamedTuple):
    """When an accepted peer's last word of the own service came to the box, in seconds since 1970, None where none is there; the lines of
    the own service that it claims, which nobody has signed; of which step the line is that it hands back, and which step it is known to
    have recorded, 0 for none."""

    peer: str
    came: Optional[int]
    claims: tuple[Line, ...] = ()
    handed_back: int = 0
    recorded: int = 0


class Look(NamedTuple):
    """That peers' words are waited for: since when, the moment that it is now, both in seconds since 1970, and how long behind the beginning a word counts."""

    since: int
    now: int
    settled: int = DAY


class Begun(NamedTuple):
    """A look that goes on, as its file tells it: since when, in seconds since 1970; which file that is; and which one the note of the box was."""

    since: int
    identity: str
    note: str


class Go(Enum):
    """What a turn does: it goes on, waits for peers' words, or ends since the store is an old or another one."""

    ON = "on"
    WAIT = "wait"
    OLD = "old"


class Answer(NamedTuple):
    """What a turn does; where the store is an old or another one, the line that it lacks; where it waits, the peers for whom."""

    go: Go
    lacking: Optional[Told] = None
    waiting: tuple[str, ...] = ()


class Beside(NamedTuple):
    """What stands beside a store: its lines; its entries; whether it ought to have entries, as a store has in which a step with
    events was made and that is one of a log; and the records of a service in which events are recorded."""

    has_lines: bool
    has_entries: bool
    needs_entries: bool
    has_records: bool = False


class Seal(NamedTuple):
    """What says that files are where they were written, and no copy: which file it is that says so; the last line that was noted
    then; and where a log has parts, beside the first one, the first line of the part that was made last."""

    identity: str
    line: Line
    part: Optional[Line] = None


class Likeness(Enum):
    """What a file is to the one that was sealed: the same; one of its number that was changed since, where the file system tells no more; or another."""

    SAME = "same"
    CHANGED = "changed"
    OTHER = "other"


class Missing(Enum):
    """What is missing beside a store with steps; or that it is no log, since records stand beside it in the place of entries."""

    NOTHING = "nothing"
    LINES = "lines"
    ENTRIES = "entries"
    LOG = "log"


class Named(Enum):
    """What the line is by which a person names a store: its last one; one of another service, of a later step, of another history, or of
    an older step."""

    LAST = "last"
    OTHER_SERVICE = "other service"
    LATER = "later"
    OTHER_HISTORY = "other history"
    OLDER = "older"


def list_steps_to_prove(last: Line, told: Sequence[Told]) -> list[int]:
    """The own line of a told step has to be proved by the store where that step is its own, and neither 0 nor its last one; each step
    once, rising."""
    return sorted({it.line.step for it in told if it.line.service == last.service and 0 < it.line.step < last.step})


def find_lacking(last: Line, proved: Mapping[int, Line], told: Sequence[Told]) -> Optional[Told]:
    """A store lacks a told line of its service where it has no such step, or has another one of that number; the first such line is the
    answer. The line of step 0 follows from the name, and is never lacking."""
    for it in told:
        own = last if it.line.step == last.step else proved.get(it.line.step)
        if it.line.service == last.service and it.line.step > 0 and own != it.line:
            return it
    return None


def find_of_other_part(last: Line, told: Sequence[Told]) -> Optional[Told]:
    """Of another part than the last one a line is told only where that part lacks it, or isn't there: the first such line is lacking."""
    return next((it for it in told if it.line.service != last.service), None)


def must_look(is_asked: bool, last_turn: Optional[int], now: int) -> bool:
    """Peers' words have to be waited for where a person asks for it, and where the box's last turn is more than 26 hours ago, or lies
    ahead: then the box or the store may come from a backup. A box without a turn has nothing to be old."""
    if is_asked:
        return True
    return last_turn is not None and not 0 <= now - last_turn <= LONG_AGO


def when_begun(now: int, came: Iterable[Optional[int]]) -> int:
    """A look begins now, or where a word that lies there already came later, at the latest of these moments: the clock was set back since, and what lies there
    may have been said before."""
    return max([now, *(it for it in came if it is not None)])


def must_begin_anew(since: int, last_turn: Optional[int], now: int) -> bool:
    """A look is begun anew where its moment lies ahead, or before the box's last turn, which doesn't lie ahead itself: the clock stood otherwise when it was
    noted, so no time since tells anything."""
    return since > now or (last_turn is not None and since < last_turn <= now)


def write_look(begun: Begun) -> str:
    """What the file of a look says."""
    return f"{begun.since} {begun.identity} {begun.note}\n"


def read_look(text: str) -> Optional[Begun]:
    """The file of a look has a moment, and behind it two files; where it names none, it is taken for a copy."""
    found = LOOK.fullmatch(text)
    return Begun(int(found[1]), found[2] or "", found[3] or "") if found else None


def is_look_copied(begun: Begun, identity: Optional[str], note: str) -> bool:
    """A look has to begin anew where its file, or the note of its box, isn't the very one that it names: that was put back since it began, so what lies in the
    box may have been said before."""
    return compare_file(begun.identity, identity) is not Likeness.SAME or compare_note(begun.note, note) is not Likeness.SAME


def write_open(turn: int, identity: str) -> str:
    """What the seal of a box says while a turn is made: the number of the turn before, and which file its note is."""
    return f"open {turn} {identity}"


def is_box_copied(seal: Optional[str], turn: int, identity: str) -> bool:
    """A box is a copy where its note, of this turn, isn't the very file that its seal names. A turn that was killed left the seal as it was while it was made:
    then it is none where the note is the same file still, or the next turn's, which is written before the seal is. A box without both is new."""
    if seal is None:
        return identity != NO_NOTE
    found = OPEN_BOX.fullmatch(seal)
    if compare_note(seal, identity) is Likeness.SAME:
        return False
    return found is None or int(found[1]) + 1 != turn


def compare_note(seal: str, identity: str) -> Likeness:
    """A box's note is the one that the seal names as a sealed file is; where there was none it is the same as long as there is none."""
    found = OPEN_BOX.fullmatch(seal)
    sealed = seal if found is None else found[2]
    return Likeness.SAME if sealed == identity == NO_NOTE else compare_file(sealed, identity)


def has_come(word: Word, look: Look) -> bool:
    """A peer's word has come where its file came a day or more after the look began, since what came sooner may have been said before, and
    not later than now, when the clock stood otherwise; and where it hands back no older line than it is known to have recorded. (Whoever
    carries it can bring a word once more that was said before: that is seen by nobody.)"""
    return word.came is not None and look.since + look.settled <= word.came <= look.now and word.handed_back >= word.recorded


def find_claim(last: Line, proved: Mapping[int, Line], word: Word) -> Optional[Line]:
    """The first line that a peer claims without a signature and that the store lacks. While a look goes on it keeps it open: whoever can
    make it up can hold the peer's word back as well. Else it stops nothing."""
    claims = [Told(line, "") for line in word.claims]
    found = find_lacking(last, proved, claims) or find_of_other_part(last, claims)
    return found.line if found else None


def judge_turn(last: Line, proved: Mapping[int, Line], told: Sequence[Told], words: Sequence[Word], look: Optional[Look]) -> Answer:
    """A turn goes on where the store lacks no line that is told of it and, while a look goes on, each peer's word has come and claims none
    that it lacks. A line that is told counts at once, whenever it came."""
    lacking = find_lacking(last, proved, told) or find_of_other_part(last, told)
    if lacking is not None:
        return Answer(Go.OLD, lacking)
    if look is None:
        return Answer(Go.ON)
    waiting = tuple(word.peer for word in words if not has_come(word, look) or find_claim(last, proved, word) is not None)
    return Answer(Go.WAIT, None, waiting) if waiting else Answer(Go.ON)


def read_seal(text: str) -> Optional[Seal]:
    """A seal is the identity of a file and a line, and perhaps one line more, of a part; what is none says nothing."""
    first, _, part = text.removesuffix("\n").partition("\n")
    identity, _, line = first.partition(" ")
    found = read_line(line)
    return Seal(identity, found, read_line(part)) if IDENTITY.fullmatch(identity) and found is not None else None


def compare_file(sealed: str, found: Optional[str]) -> Likeness:
    """A file is the sealed one where it has its number and generation. Where no generation is told, a number may be given to another file:
    so it mustn't have been changed a minute or more after the seal was made, as a copy of that number was, and as `chmod` and a further link
    change it too."""
    before, now = IDENTITY.fullmatch(sealed), IDENTITY.fullmatch(found or "")
    if before is None or now is None or before[1] != now[1]:
        return Likeness.OTHER
    return Likeness.SAME if 0 <= int(now[2] or 0) - int(before[2] or 0) <= MOST_WRITING else Likeness.CHANGED


def is_copied(last: Line, seal: Optional[Seal], identity: Optional[str]) -> bool:
    """A store with steps is a copy where no seal stands beside it, or one that isn't the very file that it names. Whether it is an old one
    nothing beside it can tell then."""
    return last.step > 0 and (seal is None or compare_file(seal.identity, identity) is not Likeness.SAME)


def find_missing(last: Line, beside: Beside) -> Missing:
    """A store with steps makes none where its lines don't stand beside it, or the entries that it ought to have don't: it may have been
    copied without them, and then nothing tells whether it is an old one. One of recorded events has none, and is no log."""
    if last.step == 0:
        return Missing.NOTHING
    if not beside.has_lines:
        return Missing.LINES
    if not beside.needs_entries or beside.has_entries:
        return Missing.NOTHING
    return Missing.LOG if beside.has_records else Missing.ENTRIES


def compare_named(last: Line, proved: Optional[Line], named: Line) -> Named:
    """A store is taken for the right one only where the line by which a person names it is its last one. `proved` is its own line of the
    named step, where that is below its last."""
    if named.service != last.service:
        return Named.OTHER_SERVICE
    if named.step > last.step:
        return Named.LATER
    if named.step == last.step:
        return Named.LAST if named == last else Named.OTHER_HISTORY
    return Named.OLDER if named == proved else Named.OTHER_HISTORY
