"""Whether the lines that a proof hangs on are those of whole histories, and who can say so."""

from __future__ import annotations

from typing import Mapping, NamedTuple, Optional, Sequence

from weft.deciding.lines import Line


class Unheld(NamedTuple):
    """A line that a proof hangs on and the histories lack; and the authenticator that they have of its step, None where none has that step."""

    line: Line
    found: Optional[str]


def may_program_audit(sizes: Sequence[int], most: int) -> bool:
    """The program audits histories that together are no longer than one may be; of more the reference holds each against the lines by itself."""
    return sum(sizes) <= most


def find_unheld(held: Sequence[Line], histories: Mapping[str, Mapping[int, str]]) -> Optional[Unheld]:
    """The first of the lines that a proof hangs on, in its order, that the histories lack. These are told by their services, each by the authenticators of
    the steps that are asked for."""
    for line in held:
        found = histories.get(line.service, {}).get(line.step)
        if found != line.authenticator:
            return Unheld(line, found)
    return None
