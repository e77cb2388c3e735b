"""What becomes of a line that is to be kept beside others of its step.

Two lines of one step that differ contradict: at most one is of the service's history. Both are kept, and neither counts until a person has chosen one.
A file of kept lines says so in lines of its own, behind which nothing is forgotten:

    contradiction: shop 2 AUTHENTICATOR AUTHENTICATOR 2026-11-30T09:40:00Z
    chosen: shop 2 AUTHENTICATOR AUTHENTICATOR 2026-12-01T11:02:00Z asked shop by telephone

The first one names the authenticators that were seen of the step; the second one that which was chosen, and behind it those over which it was."""

from __future__ import annotations

import re
from enum import Enum
from typing import Collection, NamedTuple, Optional, Sequence, Union

from weft.deciding.lines import LAST_STEP, Kept, Line, read_line
from weft.deciding.signatures import may_rest_on

MARK = re.compile(r"(contradiction|chosen): ([a-z0-9-]{1,16}) (0|[1-9][0-9]{0,12})((?: [0-9a-fA-F]{64}){2,})(?: (\S+)(?: (.*))?)?")


class Mark(NamedTuple):
    """What a file of kept lines tells of a step of which lines differ: their authenticators, and where one was chosen, that one first, when and why."""

    is_choice: bool
    service: str
    step: int
    authenticators: tuple[str, ...]
    date: str
    how: str

    @property
    def text(self) -> str:
        """Its line in the file."""
        what = "chosen" if self.is_choice else "contradiction"
        words = [f"{what}: {self.service} {self.step}", *self.authenticators, self.date, self.how]
        return " ".join(word for word in words if word)

    @property
    def chosen(self) -> Line:
        """The line that stands first: of a choice the one that was chosen."""
        return Line(self.service, self.step, self.authenticators[0])


def read_mark(text: str) -> Optional[Mark]:
    """A mark is `contradiction:` or `chosen:`, a service, a step, two authenticators or more, and where they are told a date and a reason; of another
    text the answer is None."""
    found = MARK.fullmatch(text)
    if not found or int(found[3]) > LAST_STEP:
        return None
    authenticators = tuple(found[4].lower().split())
    return Mark(found[1] == "chosen", found[2], int(found[3]), authenticators, found[5] or "", found[6] or "")


def may_be_mistyped(is_named: bool, is_there: bool) -> bool:
    """The name of a file of kept lines that somebody named, and that isn't there, may be mistyped: that is told, and counts wherever something would have been
    held against its lines. The user's own file, which nobody named, is made by the first line that is kept."""
    return is_named and not is_there


def may_be_sent(named: str) -> bool:
    """A file, or a user's folder, that a variable names from the current folder on, may be one of those that somebody sent: it never counts untold."""
    return named != "" and not named.startswith("/")


# ---- which line counts


class Standing(NamedTuple):
    """Of a step: the line that counts, or None; the authenticators of all lines that were ever seen of it, in their order; and where one was chosen, the
    choice."""

    line: Optional[Line]
    authenticators: tuple[str, ...]
    choice: Optional[Mark]

    @property
    def is_disputed(self) -> bool:
        """Whether lines of the step differ and none was chosen over all others."""
        return len(self.authenticators) > 1 and self.choice is None


def standing_of(kept: Sequence[Kept], marks: Sequence[Mark]) -> Standing:
    """The line of a step that counts is the only one that was ever seen of it, or the one that was last chosen over all others that were seen; else none
    does."""
    seen = dict.fromkeys([*(it.line.authenticator for it in kept), *(one for mark in marks for one in mark.authenticators)])
    lines = {it.line.authenticator: it.line for it in kept}
    if len(seen) < 2:
        return Standing(kept[0].line if kept else None, tuple(seen), None)
    choices = [mark for mark in marks if mark.is_choice and set(mark.authenticators) == {*seen}]
    last = [mark for mark in choices if mark.date == max(it.date for it in choices)]
    choice = last[-1] if len({mark.chosen for mark in last}) == 1 else None
    return Standing(lines.get(choice.chosen.authenticator) if choice else None, tuple(seen), choice)


def was_passed_over(line: Line, standing: Standing) -> bool:
    """A line over which a standing choice of its step took another one needs no further word of a person, whether or not its key is still noted."""
    choice = standing.choice
    return choice is not None and line.authenticator in choice.authenticators and line != choice.chosen


class Counting(NamedTuple):
    """The lines of a step that count, and what is told of them."""

    kept: list[Kept]
    marks: list[Mark]


def list_counting(kept: Sequence[Kept], marks: Sequence[Mark], fingerprints: Collection[str], late: Collection[Kept] = ()) -> Counting:
    """Of the lines of a step, and what is told of them, what counts while these keys are noted: no line that came by the signature of another key alone, or when its key
    didn't count, and no mark of a contradiction with such lines alone. A choice stays: a person made it."""
    left = [it for it in kept if may_rest_on(it.how, fingerprints) and it not in late]
    gone = {it.line.authenticator for it in kept} - {it.line.authenticator for it in left}
    return Counting(left, [it for it in marks if it.is_choice or len({*it.authenticators} - gone) > 1])


# ---- what is added


class Outcome(Enum):
    """What a line is that is to be kept."""

    NEW = "it is kept"
    KNOWN = "it was kept already"
    CONTRADICTING = "it differs from another one of its step, and none was chosen"
    NOT_CHOSEN = "another one of its step was chosen over it"


class Placement(NamedTuple):
    """What a line is beside those that were kept of its step, and what is to be added to the file."""

    outcome: Outcome
    added: tuple[Union[Kept, Mark], ...]


def place_line(new: Kept, kept: Sequence[Kept], marks: Sequence[Mark]) -> Placement:
    """A line is added to those that were kept of its step, unless it came in the same way before; where it differs from one that was ever seen, and is
    itself new, a mark that names them all is added too, and no choice covers it."""
    before = standing_of(kept, marks)
    is_new_way = not any(it.line == new.line and it.how == new.how for it in kept)
    added: tuple[Union[Kept, Mark], ...] = (new,) if is_new_way else ()
    seen = tuple(dict.fromkeys([*before.authenticators, new.line.authenticator]))
    if len(seen) == 1:
        return Placement(Outcome.NEW if is_new_way else Outcome.KNOWN, added)
    if before.choice is not None and seen == before.authenticators:
        is_chosen = before.choice.chosen == new.line
        return Placement(Outcome.NOT_CHOSEN if not is_chosen else Outcome.NEW if is_new_way else Outcome.KNOWN, added)
    mark = Mark(False, new.line.service, new.line.step, seen, new.date, "")
    is_marked = any({*it.authenticators} == {*seen} for it in marks)
    return Placement(Outcome.CONTRADICTING, added if is_marked else (*added, mark))


def find_standing_choice(mark: Mark, marks: Sequence[Mark]) -> Optional[Mark]:
    """A new choice counts only where its date is later than those of all earlier choices of these lines: else the earlier one stands, as where the clock was
    set back, or both were made within one second. The answer is that earlier one, the latest of several, or None."""
    earlier = [it for it in marks if it.is_choice and {*it.authenticators} == {*mark.authenticators} and it.date >= mark.date]
    return max(earlier, key=lambda it: it.date) if earlier else None


def choose_line(line: Line, kept: Sequence[Kept], marks: Sequence[Mark], date: str, why: str) -> Optional[Mark]:
    """The choice of a line over all others that were ever seen of its step; None where there is no other one, or it is chosen already."""
    before = standing_of(kept, marks)
    others = tuple(one for one in before.authenticators if one != line.authenticator)
    if not others or (before.choice is not None and before.choice.chosen == line):
        return None
    return Mark(True, line.service, line.step, (line.authenticator, *others), date, why)


def may_come_beside(named: Optional[bytes]) -> bool:
    """What comes beside a file that was named, under a name that nobody typed, is written over only where the named file is what was handed out before, a line alone or in a
    letter; else that may be somebody's own, as his signature of another document."""
    return named is not None and (named.startswith(b"# The line of step ") or read_line(named.decode("ascii", "replace").removesuffix("\n")) is not None)


def is_of_system(folder: str) -> bool:
    """Links in these folders are the system's, of all users, and stay: `/dev/stdout` leads to what a run writes to. Of memory that is a folder, as any other."""
    return f"{folder}/".startswith(("/dev/", "/proc/", "/sys/")) and not f"{folder}/".startswith("/dev/shm/")


def is_anothers(owner: int, own: Collection[int]) -> bool:
    """A lock, or what stands beside a service that is being made, is another's where he is neither this user nor the system's, nor the one whose folder it is: he could hold
    the one, and read and change the other."""
    return owner != 0 and owner not in own
