"""A proof held against the whole histories of the services that it hangs on: by the program, or where these are too long together by the reference, which
is tested and not proved. The rules stand in weft.deciding.auditing."""

from __future__ import annotations

from pathlib import Path
from typing import NamedTuple, Sequence

from weft import formats, judges
from weft.deciding.auditing import find_unheld, may_program_audit
from weft.judges import Bench
from weft.lines import Line, anchors
from weft.statuses import Status
from weft.texts import listed, name_of, printable
from weft.trouble import Trouble

STANDS = "The histories have each line that it hangs on: what it shows is so of them."


class Audit(NamedTuple):
    """What came of an audit: its status, what is told, and by whom it was made."""

    status: Status
    told: str
    by: str


class Sent(NamedTuple):
    """A history that was named, with its bytes: all that is said of it is said of these."""

    path: Path
    data: bytes


def audited(judge: Bench, proof: bytes, lines: Sequence[Line], sent: Sequence[Sent]) -> Audit:
    """Holds an accepted proof against histories; raises Trouble where one of them is none."""
    sizes = [len(it.data) for it in sent]
    if may_program_audit(sizes, formats.MOST_HISTORY) and not judge.is_by_reference:
        return by_program(judge, proof, lines, sent)
    return by_reference(proof, lines, sent, sum(sizes), judge.is_by_reference)


def by_program(judge: Bench, proof: bytes, lines: Sequence[Line], sent: Sequence[Sent]) -> Audit:
    """The program's audit."""
    verdict = judge.audit(proof, anchors(lines), *[it.data for it in sent])
    words, by = verdict.text.split(), judge.seated("audit")[0].name
    if words[:1] == ["stands"]:
        return Audit(Status.DONE, STANDS, by)
    if words[:1] == ["unheld"]:
        return Audit(Status.NOT_SHOWN, unheld_told(Line(words[1], int(words[2]), words[3]), words[4]), by)
    named = listed([name_of(it.path) for it in sent])
    raise Trouble(Status.UNREADABLE, f"of {named} one is no sound history beside the others: {printable(verdict.text.strip())}", "Ask its service for it again.")


def by_reference(proof: bytes, lines: Sequence[Line], sent: Sequence[Sent], size: int, is_asked: bool) -> Audit:
    """The reference's audit, one history after another."""
    held = formats.held_by(proof, lines)
    found: dict[str, dict[int, str]] = {}
    for path, data in sent:
        history = formats.timeline_of(data)
        if history is None or history.service in found:
            raise Trouble(Status.UNREADABLE, f"{name_of(path)} is no sound history, or a second one of its service", "Ask its service for it again.")
        steps = [line.step for line in held if line.service == history.service and line.step <= history.last]
        found[history.service] = {step: history.authenticators[step] for step in steps}
    why = "" if is_asked else f", since the histories have {size:,} bytes together, and the program audits {formats.MOST_HISTORY:,} at most"
    unheld = find_unheld(held, found)
    if unheld is None:
        return Audit(Status.SHOWN_BY_REFERENCE, STANDS, judges.REFERENCE + why)
    return Audit(Status.NOT_SHOWN_BY_REFERENCE, unheld_told(unheld.line, unheld.found or "none"), judges.REFERENCE + why)


def unheld_told(line: Line, found: str) -> str:
    """That histories lack a line."""
    has = f"no history of {line.service} has that step" if found == "none" else f"the history of {line.service} has {found[:16]}.. there"
    return f"NOT SO: it hangs on step {line.step} of {line.service}, {line.authenticator[:16]}.., and {has}. The docs tell what that means: An audit."
