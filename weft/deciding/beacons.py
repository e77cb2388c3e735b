"""Beacons: values that nobody knew before a day, as the digest of that day's newspaper. What has such a value, and what came after that, was recorded not before that day."""

from __future__ import annotations

import re
from typing import NamedTuple, Optional, Sequence

from weft.deciding.stamps import DAY_SECONDS, count_days

DAY = re.compile(r"([0-9]{4})-([0-9]{2})-([0-9]{2})")
LENGTHS = (31, 28, 31, 30, 31, 30, 31, 31, 30, 31, 30, 31)


class Beacon(NamedTuple):
    """A value that its reader got from its source himself: the file that has it, the SHA-256 digest of that, and the day before which nobody knew it, as he says."""

    file: str
    digest: str
    day: str


def read_day(text: str) -> Optional[int]:
    """The second at which a day of the calendar begins, written as 2026-12-01; None of another text."""
    found = DAY.fullmatch(text)
    year, month, day = (int(found[1]), int(found[2]), int(found[3])) if found is not None else (0, 0, 0)
    if year < 1970 or not 1 <= month <= 12:
        return None
    is_leap = month == 2 and year % 4 == 0 and (year % 100 != 0 or year % 400 == 0)
    return count_days(year, month, day) * DAY_SECONDS if 1 <= day <= LENGTHS[month - 1] + is_leap else None


class Digests(NamedTuple):
    """The digests by which an event may have a value: that of the file that it logs, where it logs one, and that of the event itself."""

    logged: Optional[str]
    whole: str


def has_value(event: Digests, beacon: Beacon) -> bool:
    """An event has a beacon's value where it logs the file that has it, or is its very bytes."""
    return beacon.digest in (event.logged, event.whole)


def list_unmet(events: Sequence[Digests], beacons: Sequence[Beacon]) -> list[Beacon]:
    """The beacons of which no event has the value: they tell no day."""
    return [it for it in beacons if not any(has_value(event, it) for event in events)]


def date_events(events: Sequence[Digests], beacons: Sequence[Beacon]) -> list[Optional[Beacon]]:
    """Of events that are shown to have come one after the other, none came before the latest day of those whose value it or an earlier one has."""
    dated: list[Optional[Beacon]] = []
    for event in events:
        met = [*(it for it in dated[-1:] if it is not None), *(it for it in beacons if has_value(event, it))]
        dated.append(max(met, key=day_of) if met else None)
    return dated


def day_of(beacon: Beacon) -> str:
    """Its day."""
    return beacon.day


def is_crossed(beacon: Beacon, second: int) -> bool:
    """What was recorded not before the day of a beacon can't have been there when that hadn't begun: then the beacon's day or another clock is wrong."""
    begins = read_day(beacon.day)
    return begins is not None and second < begins
