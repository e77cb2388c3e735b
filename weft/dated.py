"""The days that stamps give to a judgement: of each line that it rests on, and of what was recorded below it. Not after: what is below a line was there when that was."""

from __future__ import annotations

import shlex
from typing import NamedTuple, Optional, Sequence

from weft.choosing import Judgement
from weft.deciding.choosing import Headline
from weft.deciding.commands import in_its_folder
from weft.deciding.stamps import Dated, Place, date_places
from weft.judges import Bench
from weft.lines import Line
from weft.outcomes import Named, Outcome, report_of
from weft.sentences import fill
from weft.stamps import Days, as_json, stamp_told
from weft.texts import date_of

# Of so many agreeing lines of a history the stamps are looked at, the last ones.
MOST_AGREEING = 16


class NotAfter(NamedTuple):
    """What was recorded not after a day: an event of a step, or a history up to it; by which line's stamp."""

    service: str
    step: int
    event: Optional[int]
    by: Dated

    @property
    def told(self) -> str:
        """It in a sentence."""
        key = "history stood by" if self.event is None else "event stood by"
        return fill(key, service=self.service, step=self.step, index=self.event, day=date_of(self.by.second), authority=self.by.authority)

    @property
    def json(self) -> dict[str, object]:
        """It as JSON has it."""
        return {"service": self.service, "step": self.step, "event": self.event, "day": date_of(self.by.second), "authority": self.by.authority, "line": self.by.line._asdict()}


def lines_of(judgement: Judgement) -> list[Line]:
    """The lines that a judgement rests on, and of a history other kept ones that are of it."""
    agreeing = judgement.history.held.agreeing[-MOST_AGREEING:] if judgement.history is not None else []
    return list(dict.fromkeys([*judgement.lines, *agreeing]))


def not_after(judge: Bench, days: Days, group: Sequence[Named], judgement: Judgement, outcome: Outcome) -> list[NotAfter]:
    """What was recorded below the lines, and not after which day."""
    if not is_shown(outcome):
        return []
    dated = days.dated(lines_of(judgement))
    if judgement.history is not None:
        return [NotAfter(it.line.service, it.line.step, None, it) for it in dated]
    report = report_of(judge, list(group), judgement)
    events = report.events if report is not None else []
    found = date_places([Place(it.service, it.step) for it in events], dated, outcome.headline is Headline.SHOWN)
    return [NotAfter(event.service, event.step, event.index, it) for event, it in zip(events, found) if it is not None]


def is_shown(outcome: Outcome) -> bool:
    """Whether something is shown, on which lines rest."""
    return outcome.headline in (Headline.SHOWN, Headline.IN_PART) and not outcome.is_refuted


def sentences(judge: Bench, days: Days, group: Sequence[Named], judgement: Judgement, outcome: Outcome) -> list[str]:
    """What stamps tell of what is shown."""
    if not is_shown(outcome):
        return []
    told = [stamp_told(line, it) for line in lines_of(judgement) for it in days.of(line)]
    below = [it.told for it in not_after(judge, days, group, judgement, outcome)]
    return [*told, *below, *([fill("whose stamp")] if below else [])]


def stamps_of(days: Days, line: Line) -> list[dict[str, object]]:
    """What the stamps of a line give, as JSON has it."""
    return [as_json(it) for it in days.of(line)]


def again(days: Days, lines: list[Line]) -> list[str]:
    """The commands that check the stamps of lines once more, by a file of the line and one of the authority's certificates."""
    return [f"openssl ts -verify -data LINE -in {shlex.quote(in_its_folder(it.file))} -partial_chain -CAfile CERTIFICATES" for it in days.inputs(lines)]


def told_in_row(days: Days, lines: list[Line]) -> str:
    """By when each of these lines stood, as a table has it."""
    return "; ".join(f"{it.line.service} {it.line.step} by {date_of(it.second)} ({it.authority})" for it in days.dated(lines))
