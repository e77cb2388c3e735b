"""Which status ends a command that has many things to say."""

from __future__ import annotations

from typing import Iterable

from weft.statuses import Status

ORDER = (
    Status.DONE,
    Status.SHOWN_BY_REFERENCE,
    Status.LOOK,
    Status.BUSY,
    Status.MISSING,
    Status.USAGE,
    Status.NO_INPUT,
    Status.UNREADABLE,
    Status.REFUSED,
    Status.NOT_SHOWN_BY_REFERENCE,
    Status.NOT_SHOWN,
    Status.FEWER,
    Status.NO_JUDGE,
    Status.NO_MEMORY,
    Status.OUTPUT,
    Status.DISK,
    Status.BAD_STORE,
    Status.OLD_STORE,
    Status.DIFFER,
    Status.CONTRADICTION,
    Status.BUG,
    Status.STOPPED,
)
"""All statuses, from the best to the worst. First stands what is good: shown by the reference is good, and less than proved. Then what
asks for a look or for another file; then what isn't shown, which nothing unread hides; then what kept weft from its work; then what a
service is to be asked about at once. Two lines of one step are the worst that is found: no failure of a machine hides them. (A bug and an
interruption end the run itself.)"""

RANKS = {status: rank for rank, status in enumerate(ORDER)}


def worst_of(statuses: Iterable[Status]) -> Status:
    """The status of a command over many things is the worst of theirs, by one order, whichever came first; of nothing it is 0."""
    return max(statuses, key=RANKS.__getitem__, default=Status.DONE)
