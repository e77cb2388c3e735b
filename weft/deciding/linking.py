"""Which links are asked of a service between signed lines of it whose steps differ, what an answer means, and when none is told.

Two lines of one step that differ are seen at once. A service that shows its even steps to one peer and the odd ones of another history to another one never
shows two of one step. Of two lines of different steps only the service can show that they are of one history, by the link from the later one down to the
earlier one. So for each line of it that isn't known to be of one history with those that are recorded here, the link is asked for. Until it comes both lines
are kept, and nothing is said against anybody."""

from __future__ import annotations

import re
from enum import Enum
from typing import Collection, Iterable, NamedTuple, Optional, Sequence

from weft.deciding.lines import Line, read_line

# So many links are open at a time of one service, and so many signatures of what a peer hands on are checked for it in a turn.
MOST_OPEN = 4
MOST_TRIED = 8
LINK_FILE = re.compile(r"link-(0|[1-9][0-9]{0,12})-(0|[1-9][0-9]{0,12})")


class Pair(NamedTuple):
    """Two lines of a service, the second one of a later step."""

    earlier: Line
    later: Line

    @property
    def request(self) -> str:
        """By which the service is asked for the link."""
        return f"link {self.earlier.step} {self.later.step}"

    @property
    def file_name(self) -> str:
        """Under which a link that shows two histories is kept."""
        return f"link-{self.earlier.step}-{self.later.step}"


class Open(NamedTuple):
    """A line of a service that isn't known to be of one history with one that is; in how many nights the service was heard and gave no link that fits; and
    whether it gave one that doesn't."""

    loose: Line
    joined: Line
    nights: int = 0
    is_unfit: bool = False

    @property
    def pair(self) -> Pair:
        """Both, the earlier one first."""
        return pair_of(self.loose, self.joined)

    @property
    def text(self) -> str:
        """As it is kept."""
        return f"{self.nights} {'unfit' if self.is_unfit else 'open'} {self.loose.text} {self.joined.text}"


def read_open(text: str) -> Optional[Open]:
    """A kept one is its nights, `open` or `unfit`, and two lines of one service and of different steps; of another text the answer is None."""
    words = text.split(" ")
    loose, joined = read_line(" ".join(words[2:5])), read_line(" ".join(words[5:]))
    is_whole = re.fullmatch("[0-9]{1,4} (?:open|unfit)", " ".join(words[:2]))
    if not is_whole or loose is None or joined is None or loose.service != joined.service or loose.step == joined.step:
        return None
    return Open(loose, joined, int(words[0]), words[1] == "unfit")


class Meaning(Enum):
    """What an answer means: both lines are of one history; the later one's history has another line of the earlier step; or nothing."""

    JOINS = "joins"
    PARTS = "parts"
    NOTHING = "nothing"


def weigh_answer(pair: Pair, given: Optional[Line]) -> Meaning:
    """Both lines are of one history where the link, judged under the later one, gives the earlier one. Where it gives another line of that step, the later
    line's history isn't the earlier line's: two signed lines that contradict. All else, and a link that isn't accepted under the later line, shows nothing:
    `given` is the line that an accepted link gives."""
    if given is None or (given.service, given.step) != (pair.earlier.service, pair.earlier.step):
        return Meaning.NOTHING
    return Meaning.JOINS if given == pair.earlier else Meaning.PARTS


def pair_of(one: Line, other: Line) -> Pair:
    """Two lines of different steps, the earlier one first."""
    return Pair(*sorted((one, other), key=lambda line: line.step))


def list_unheld(kept: Iterable[Line], shown: Iterable[Line]) -> list[Line]:
    """Of the lines that a user keeps of a service those of whose steps what came shows nothing: whether these are of its history only a link can show. Step 0 follows
    from the name."""
    steps = {(line.service, line.step) for line in shown}
    return [line for line in kept if line.step > 0 and (line.service, line.step) not in steps]


def weigh_all(meanings: Iterable[Meaning]) -> Meaning:
    """A line is of one history with several others where it is so with each; one from which it parts is enough for that it isn't."""
    found = {*meanings}
    return Meaning.PARTS if Meaning.PARTS in found else Meaning.NOTHING if Meaning.NOTHING in found else Meaning.JOINS


def is_evidence(meaning: Meaning, are_good: Iterable[bool]) -> bool:
    """Two lines that no one history has are evidence where both signatures are good, checked now by a key that is noted of the service; nobody is accused by
    a line that somebody signed with a key that was taken out."""
    return meaning is Meaning.PARTS and all(are_good)


def choose_base(joined: Collection[Line]) -> Optional[Line]:
    """A loose line is held against the line of the latest step of those that are known to be of one history."""
    return max(joined, key=lambda line: line.step) if joined else None


def may_ask(line: Line, joined: Collection[Line], opened: Iterable[Open]) -> bool:
    """A link is asked for a line that isn't known to be of the history, that isn't asked for already, and of whose step nothing else is known: a line of a
    step of which there is one already is the same, or contradicts it. Step 0 follows from the name."""
    return line.step > 0 and all(line.step != it.step for it in joined) and all(line != it.loose for it in opened)


def list_loose(handed_on: Sequence[Sequence[Line]], joined: Collection[Line], opened: Collection[Open], turn: int) -> list[Line]:
    """The lines to be tried for a service: of each peer that hands some on the newest first, and of the peers in turn, beginning with another one each night,
    so that no peer's lines keep those of others from being tried."""
    place = turn % len(handed_on) if handed_on else 0
    ordered = [sorted(lines, key=lambda line: -line.step) for lines in [*handed_on[place:], *handed_on[:place]]]
    found: dict[Line, None] = {}
    for rank in range(max(map(len, ordered), default=0)):
        for lines in ordered:
            if rank < len(lines):
                found[lines[rank]] = None
    return [line for line in found if may_ask(line, joined, opened)][:MOST_TRIED]


def count_night(found: Open, is_heard: bool, limit: int) -> Open:
    """A night counts against a service only where something new of it came and no answer did: a turn that is made once more counts for nothing, and one that is
    silent is told as silent."""
    return found._replace(nights=min(found.nights + 1, max(limit, 1) + 1)) if is_heard else found


def must_tell(found: Open, limit: int) -> bool:
    """An answer that doesn't fit is told at once. That none came is told once more than `limit` nights counted, the first of which is the one in which the
    service can't have had the request yet; where the limit is 0, never."""
    return found.is_unfit or 0 < limit < found.nights


def read_link_files(names: Iterable[str]) -> list[tuple[int, int]]:
    """The steps of links that were kept since they show two histories, by the names of their files: the earlier step and the later one, rising."""
    found = (LINK_FILE.fullmatch(name) for name in names)
    return sorted((int(it[1]), int(it[2])) for it in found if it)
