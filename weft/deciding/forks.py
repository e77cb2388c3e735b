"""When two lines of one step contradict, when that is evidence, and what is remembered of it for good."""

from __future__ import annotations

import re
from enum import Enum
from typing import Iterable, NamedTuple, Optional

from weft.deciding.lines import Line
from weft.deciding.signatures import Signed, read_signed_line

# So many lines of one step that differ, all signed by a key of their service, are kept: one more shows nothing new.
MOST_AT_STEP = 8
# Of so many lines that contradict others of their service each is remembered.
MOST_REMEMBERED = 256
FILE_NAME = re.compile(r"(0|[1-9][0-9]{0,12})-([0-9a-f]{16}|[0-9a-f]{64})")


def contradicts(first: Line, second: Line) -> bool:
    """Two lines contradict where they are of the same step of the same service and have other authenticators."""
    return (first.service, first.step) == (second.service, second.step) and first.authenticator != second.authenticator


def find_contradicting(line: Line, held: Iterable[Signed]) -> list[Signed]:
    """Those of the held lines that contradict this one, in their order."""
    return [it for it in held if contradicts(it.line, line)]


class Finding(Enum):
    """What two lines of one step that differ show."""

    NOTHING = "they don't contradict, or the new one isn't signed by a key of the service"
    EVIDENCE = "both are signed by a key of the service"
    DIFFERENT = "the new one is signed by a key of the service, and the held one isn't, or not any more"


def weigh_contradiction(held: Line, new: Line, is_held_good: bool, is_new_good: bool) -> Finding:
    """Two lines that contradict are evidence against their service where both signatures are good, checked now by a key that is noted of it; nobody is
    accused by a signature that isn't."""
    if not contradicts(held, new) or not is_new_good:
        return Finding.NOTHING
    return Finding.EVIDENCE if is_held_good else Finding.DIFFERENT


# ---- what is remembered


def name_fork_file(line: Line) -> str:
    """The name of the file that remembers a line of a step of which there are two: its step and its whole authenticator, so that no other line has it."""
    return f"{line.step}-{line.authenticator}"


def may_write_fork(found: Optional[bytes], new: Signed, is_found_good: bool, remembered: int = 0) -> bool:
    """What is remembered is replaced only where it isn't a signed line of this step and authenticator, or its signature isn't good by a key that is noted
    now. Nothing is added to so many that are remembered: they show what there is to be shown."""
    if found is None:
        return remembered < MOST_REMEMBERED
    signed = read_signed_line(found)
    return signed is None or signed.line != new.line or not is_found_good


class Fork(NamedTuple):
    """Two lines or more of one step that contradict, each with its signature."""

    step: int
    lines: tuple[Signed, ...]


def read_forks(service: str, found: Iterable[tuple[str, bytes]]) -> list[Fork]:
    """The forks of a service that files, each of a name and its bytes, remember: steps of which there are two signed lines of the service that differ,
    rising; each line once."""
    steps: dict[int, dict[Line, Signed]] = {}
    for name, data in found:
        signed = read_signed_line(data) if FILE_NAME.fullmatch(name) else None
        if signed is not None and signed.line.service == service:
            steps.setdefault(signed.line.step, {}).setdefault(signed.line, signed)
    return [Fork(step, tuple(lines.values())) for step, lines in sorted(steps.items()) if len(lines) > 1]
