"""Which steps of a history are listed, and what of a list is called together."""

from __future__ import annotations

import re
from typing import Iterable, NamedTuple, Optional, Sequence

from weft.deciding.lines import LAST_STEP

RANGE = re.compile(r"([1-9][0-9]{0,12})(-([1-9][0-9]{0,12})?)?")


# Of one content so many names are told each.
MOST_NAMES = 8


class Range(NamedTuple):
    """The steps from one on up to another one, both of them too."""

    first: int
    last: int


def read_range(text: str) -> Optional[Range]:
    """A range is one step (5), the steps from one to another one (5-9), or all from one on (5-); of another text, and of one that has no step, the answer is None."""
    found = RANGE.fullmatch(text)
    if found is None:
        return None
    first = int(found[1])
    last = first if found[2] is None else LAST_STEP if found[3] is None else int(found[3])
    return Range(first, last) if first <= last <= LAST_STEP else None


def is_listed(step: int, ranges: Iterable[Range]) -> bool:
    """A step is listed where it is within one of the ranges, and where none is named."""
    wanted = list(ranges)
    return not wanted or any(it.first <= step <= it.last for it in wanted)


def find_empty(ranges: Iterable[Range], last: int) -> Optional[Range]:
    """The first range that has none of the steps up to the last one, which is told: nobody takes it for one in which nothing was recorded."""
    return next((it for it in ranges if it.first > last), None)


def join_names(names: Sequence[str]) -> str:
    """What has one content is told by its first name, with each other one that it has behind it, or how many more there are: none of them is passed over."""
    first, *others = dict.fromkeys(names)
    more = [f"{len(others) - MOST_NAMES:,} more"] if len(others) > MOST_NAMES else []
    return f"{first} (the same content: {', '.join([*others[:MOST_NAMES], *more])})" if others else first
