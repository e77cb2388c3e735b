"""When a logged file is gone, and what is left out of a log.

A file is gone only where the system says that there is nothing of its name. What can't be looked at, and all below a folder that can't
be, is left out: it is told, it counts (10), and of it nothing is logged. Where something else has taken the place of a file or of a
folder above it, a link or a pipe, it is told too, and a person says whether the file is gone (`weft log --gone`)."""

from __future__ import annotations

import re
from enum import Enum
from typing import Collection, NamedTuple, Optional, Sequence

GONE = b"gone"
HOLLOW = 1 << 30
TICK = 20_000_000
LEFT_OVER = re.compile(r"\.(.+)\.[0-9a-f]{16}\.new", re.DOTALL)
MOST_FRONT = 60
STORE = "timeline.tw"
PART = re.compile(r"part-[1-9][0-9]{0,5}(|\..*)", re.DOTALL)


class Kind(Enum):
    """What has a name in a folder: the thing itself, and not where a link leads; nothing, as the system says; or what the system doesn't
    say."""

    FILE = "a file"
    FOLDER = "a folder"
    LINK = "a link"
    OTHER = "no regular file"
    NOTHING = "nothing"
    UNTOLD = "what can't be looked at"


class Fate(Enum):
    """What became of a logged file that wasn't found: it is gone; something else is in its place; or it is left out, since nobody can
    say."""

    GONE = "gone"
    REPLACED = "replaced"
    LEFT_OUT = "left out"


class State(NamedTuple):
    """What tells that a file was changed: device and number, size in bytes, and the times of its content and of itself in nanoseconds."""

    device: int
    number: int
    size: int
    modified: int
    changed: int


def list_folders_above(path: bytes) -> list[bytes]:
    """The folders above a path, each from the logged folder `.` on, outermost first."""
    parts = path.split(b"/")
    return [b"/".join(parts[:count]) for count in range(1, len(parts))]


def is_left_out(path: bytes, left_out: Collection[bytes]) -> bool:
    """A path is left out where it was, or a folder above it was."""
    return path in left_out or any(folder in left_out for folder in list_folders_above(path))


def judge_missing(kinds: Sequence[Kind]) -> Fate:
    """A logged file that wasn't found is gone where there is nothing of its name, or of the name of a folder above it. `kinds` are what
    these folders are, outermost first, and last what has its own name; what stands below one that is no folder doesn't count. A file
    that is there after all is left out."""
    *folders, last = kinds
    found = next((kind for kind in folders if kind is not Kind.FOLDER), last)
    if found is Kind.NOTHING:
        return Fate.GONE
    if found is Kind.UNTOLD or (found is Kind.FILE and all(kind is Kind.FOLDER for kind in folders)):
        return Fate.LEFT_OUT
    return Fate.REPLACED


def has_lost_most(found: int, left_out: int, logged: int, gone: int) -> bool:
    """A folder may be one that isn't mounted where nothing at all is in it, neither a file nor what was left out, or more than half of
    the logged files are gone. Then none is logged as gone unless a person says so."""
    return (found == 0 and left_out == 0) or 2 * gone > logged


def may_log(fate: Fate, is_most_lost: bool, is_said: bool) -> bool:
    """What is gone is logged so unless most of the log may be lost, and what has something else in its place isn't; both are where a person says so. What is
    left out never is."""
    return fate is not Fate.LEFT_OUT and (is_said or (fate is Fate.GONE and not is_most_lost))


def is_left_over(name: bytes, own: Collection[bytes]) -> bool:
    """A run that was killed leaves a file only under a name that it gives one: a dot, the name of a file of the log, cut to 60 letters, 16 hexadecimal digits,
    and `.new`. Whatever else begins and ends so is a file as others are."""
    found = LEFT_OVER.fullmatch(name.decode("utf-8", "surrogateescape"))
    return found is not None and any(found[1] == it.decode("utf-8", "surrogateescape")[:MOST_FRONT] for it in own)


def is_of_store(name: bytes, own_ends: Collection[str], is_first: bool) -> bool:
    """In the folder of a log's store stand its file, in that of the first part the others with what stands beside them, and what a run that was killed left of these. All
    else somebody put there, and it is told that it isn't logged."""
    text = name.decode("utf-8", "surrogateescape")
    found = LEFT_OVER.fullmatch(text)
    stem = found[1] if found is not None else text
    part = PART.fullmatch(stem)
    return stem == STORE or (is_first and part is not None and part[1] in ("", *own_ends))


def was_still(before: Optional[State], behind: Optional[State], began: int) -> bool:
    """What was read is what the file was where nothing of it changed between the looks before and behind, and its last change wasn't
    within 20 milliseconds of the moment when reading began: a second change within the system's tick leaves the same time."""
    return before is not None and before == behind and not 0 <= began - before.changed < TICK


def may_be_hollow(size: int) -> bool:
    """Of a file of more than 1 GiB it is asked how much of it has content, before it is read."""
    return size > HOLLOW


def least_content(size: int) -> int:
    """Of a file that is read so many bytes have content, a thousandth of all."""
    return size // 1_000


def is_hollow(size: int, content: int) -> bool:
    """A file of more than 1 GiB of which less than a thousandth has content isn't read: to read nothing takes as long as whoever made the file likes."""
    return may_be_hollow(size) and content < least_content(size)
