"""The days before which something wasn't recorded, by beacons that the reader names. The rules stand in `weft.deciding.beacons`."""

from __future__ import annotations

from typing import NamedTuple, Sequence

from weft import outcomes
from weft.choosing import Judgement
from weft.dated import NotAfter
from weft.deciding.beacons import Beacon, Digests, date_events, is_crossed, list_unmet, read_day
from weft.deciding.choosing import Headline
from weft.deciding.matching import read_logged, whole_digest
from weft.deciding.worst import worst_of
from weft.files import Input
from weft.judges import Bench
from weft.outcomes import Named, Outcome
from weft.reports import Report
from weft.sentences import fill
from weft.statuses import Status
from weft.texts import name_of
from weft.trouble import Trouble


class NotBefore(NamedTuple):
    """An event that was recorded not before the day of a beacon."""

    service: str
    step: int
    event: int
    by: Beacon

    @property
    def told(self) -> str:
        """It in a sentence."""
        return fill("event not before", service=self.service, step=self.step, index=self.event, day=self.by.day, file=name_of(self.by.file))

    @property
    def json(self) -> dict[str, object]:
        """It as JSON has it."""
        return {"service": self.service, "step": self.step, "event": self.event, "day": self.by.day, "file": self.by.file, "sha256": self.by.digest}


class Read(NamedTuple):
    """The beacons that the reader names, and their files as they were read."""

    beacons: list[Beacon]
    inputs: list[Input]


def read_beacons(named: Sequence[Sequence[str]]) -> Read:
    """Reads the files of beacons; raises Trouble where one has no day, or can't be read."""
    found = Read([], [])
    for day, path in named:
        if read_day(day) is None:
            raise Trouble(Status.USAGE, f"{name_of(day)} is no day", "Write it as 2026-12-01: the first day on which anybody knew the value.")
        it = outcomes.document_of(path, is_whole=True)._replace(what="beacon")
        found.beacons.append(Beacon(path, it.sha256 or "", day))
        found.inputs.append(it)
    return found


def digests_of(report: Report) -> list[Digests]:
    """The digests by which the events of a proof may have a value."""
    logged = [read_logged(event.data) for event in report.events]
    return [Digests(it.digest if it is not None else None, whole_digest(event.data)) for event, it in zip(report.events, logged)]


def not_before(judge: Bench, beacons: Sequence[Beacon], group: Sequence[Named], judgement: Judgement, outcome: Outcome) -> list[NotBefore]:
    """The events of what is shown by lines alone that have a day by a beacon."""
    report = outcomes.report_of(judge, list(group), judgement) if judgement.history is None and beacons and outcome.headline is Headline.SHOWN else None
    if report is None or outcome.is_refuted:
        return []
    dated = zip(report.events, date_events(digests_of(report), beacons))
    return [NotBefore(event.service, event.step, event.index, by) for event, by in dated if by is not None]


def with_beacons(judge: Bench, outcome: Outcome, judgement: Judgement, group: Sequence[Named], read: Read, after: Sequence[NotAfter]) -> Outcome:
    """The outcome of an accepted proof, with the days of beacons; that one tells no day is told, and needs a look, and so does one that contradicts a stamp."""
    report = outcomes.report_of(judge, list(group), judgement) if judgement.history is None else None
    if report is None or report.kind not in ("exists", "precedes"):
        raise Trouble(Status.USAGE, "--beacon is for the proof of one event, or of one before another", "Name a proof of an event.")
    outcome = outcome._replace(inputs=(*outcome.inputs, *read.inputs))
    if outcome.headline is not Headline.SHOWN:
        return outcome._replace(told=[*outcome.told, fill("beacon unshown")])
    found = not_before(judge, read.beacons, group, judgement, outcome)
    unmet = [fill("beacon unmet", file=name_of(it.file)) for it in list_unmet(digests_of(report), read.beacons)]
    crossed = [
        fill("days crossed", service=it.service, step=it.step, index=it.event) for it in found
        if any(is_crossed(it.by, one.by.second) for one in after if one[:3] == it[:3])
    ]  # fmt: skip
    status = worst_of([outcome.status, Status.LOOK]) if unmet or crossed else outcome.status
    return outcome._replace(status=status, told=[*outcome.told, *(it.told for it in found), *unmet, *crossed])
