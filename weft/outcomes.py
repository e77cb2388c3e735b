"""What came of judging a file: what is said first, the status of it by itself, and the sentences. One judgement is told in the same words
everywhere."""

from __future__ import annotations

import hashlib
import os
from pathlib import Path
from typing import Callable, Collection, Mapping, NamedTuple, Optional, Sequence

from weft import auditing, choosing, files, formats, judges, kinds, reports
from weft.auditing import Sent
from weft.choosing import BoundHistory, Judgement
from weft.deciding.choosing import Beside, Extent, Headline, choose_headline, choose_headline_unheld, choose_history_headline, hold_history, hold_line, list_received
from weft.deciding.contradicting import Whole, find_histories_apart, may_count
from weft.deciding.keeping import was_passed_over
from weft.deciding.letters import find_slip
from weft.deciding import rows
from weft.deciding.matching import Logged, Match, match_file, read_logged, whole_digest
from weft.deciding.worst import worst_of
from weft.events import told_event
from weft.files import Input
from weft.judges import Bench, Verdict
from weft.kinds import ARCHIVE_KINDS
from weft.lines import KeptLines, Line, anchors, slip_sentences
from weft.reports import Report
from weft.sentences import capital, fill
from weft.statuses import Status
from weft.texts import count_of, listed, name_of, steps_of, typed
from weft.trouble import Trouble

MOST_TOLD = 8
# How the sentence begins that two kept lines contradict each other.
OWN_LINES = "Two of your lines of "
UNCOUNTED_DIFFERS = "A LINE THAT DOESN'T COUNT IS ANOTHER ONE"
# The events of a proof of order, as they are called.
WHICH = ("earlier event", "later event")


class Named(NamedTuple):
    """A file with its bytes and its kind."""

    path: str
    data: bytes
    kind: str


class Outcome(NamedTuple):
    """What is said first, and what stands behind it there; the status; the sentences; the kept lines that what was judged contradicts; whether it contradicts itself; and
    the files that it was held against, as they were read for that."""

    headline: Headline
    status: Status
    told: list[str]
    contradicted: list[Line]
    aside: str = ""
    is_refuted: bool = False
    inputs: tuple[Input, ...] = ()

    @property
    def title(self) -> str:
        """What is said first, with what stands behind it."""
        return f"{self.headline.value}{self.aside}"


def judgement_of(judge: Bench, kept: KeptLines, group: list[Named], allow_carried: bool, top: Optional[int] = None) -> Judgement:
    """The judgement of what is judged together."""
    it = group[0]
    if top is not None and it.kind != "history":
        raise Trouble(Status.USAGE, "--top is for a history", "A proof is under the line of its own top.")
    if it.kind.endswith("map"):
        if len(group) == 1:
            other = "high" if it.kind.startswith("low") else "low"
            raise Trouble(Status.MISSING, f"{name_of(it.path)} is one of two map files", f"Name the {other} one of the same step beside it.")
        return choosing.judge_map(judge, group[0].data, group[1].data, kept)
    if it.kind == "evidence":
        return choosing.judge_evidence(judge, it.data, kept)
    if it.kind == "history":
        return choosing.judge_history(judge, it.data, kept, top)
    if it.kind in ("message", "receipts", "events", "text", "bundle"):
        raise no_proof(it)
    return choosing.judge_proof(judge, it.data, kept, allow_carried)


def no_proof(it: Named) -> Trouble:
    """That a file is of a kind that isn't judged."""
    named, path = kinds.text_named(it.data) if it.kind == "text" else kinds.NAMES[it.kind], name_of(it.path)
    if not it.data:
        return Trouble(Status.UNREADABLE, f"{path} is empty", "Ask for it again.")
    if named is None:
        advice = f"{fill('is it the document')} Then: weft judge PROOF --file {typed(it.path)}"
        return Trouble(Status.UNREADABLE, fill("no format", file=path).removesuffix("."), advice)
    if it.kind == "bundle":
        return Trouble(Status.UNREADABLE, f"{path} is a zip file, which weft judge opens by itself alone", f"weft judge {typed(it.path)}")
    if "line" in named:
        return Trouble(Status.UNREADABLE, f"{path} is {named}, no proof: weft keep {typed(it.path)}")
    return Trouble(Status.UNREADABLE, f"{path} is no proof: it is {named}", "weft tell says what it says.")


def outcome_of(judge: Bench, kept: KeptLines, group: list[Named], judgement: Judgement) -> Outcome:
    """What came of a judgement of a file, or of two map files."""
    found = outcome_by(judge, kept, group, judgement)
    return beside_uncounted(found, kept, lines_beside(judge, kept, group, judgement)) if kept.uncounted else found


def outcome_by(judge: Bench, kept: KeptLines, group: list[Named], judgement: Judgement) -> Outcome:
    """The same, by the kept lines that count."""
    resting = choosing.resting(judgement, kept)
    if judgement.history is not None:
        return outcome_of_history(judge, kept, judgement, judgement.history, group[0].data)
    if judgement.verdict is None or judgement.missing:
        hindrance = f"It can't be judged: {judgement.hindrance}. Ask for it under one step of that service."
        told = choosing.missing_sentences(judgement.missing, kept, group[0].data) or [hindrance]
        return Outcome(choose_headline(False, 0, True, False, False), Status.MISSING, told, [])
    report = report_of(judge, group, judgement)
    refuted = refutation(judge, group, judgement)
    if refuted:
        return Outcome(Headline.NOT_SHOWN, Status.CONTRADICTION, [*refuted, *resting], [], ": it contradicts itself", True)
    others, compared = beside_kept(lines_told(report, kept, group, judgement), kept, lines_bound(report, group, judgement)) if report else ([], [])
    slips = slips_told(group, judgement)
    if judgement.is_shown and report is not None:
        told = map_sentences(report, group) or [*reports.sentences(report, receiver_of(judge, report, group, judgement))]
    else:
        told = [*slips, " ".join(reports.reason_sentence(judgement.verdict)).strip()]
    carried = len(report.carried) if report else 0
    status = Status.CONTRADICTION if others else judge.status(judgement.is_shown)
    told = [*compared, *told] if others else [*told, *compared]
    headline = choose_headline(judgement.is_shown, carried, False, bool(others), False)
    aside = f": {fill('on a word')}" if headline is Headline.IN_PART else aside_of([*slips, *compared], bool(others))
    return Outcome(headline, status, [*told, *resting], others, aside)


def aside_of(told: Sequence[str], is_contradicted: bool) -> str:
    """What stands behind the headline: that a line may have been typed wrong, else whether two kept lines contradict each other, or one and the file."""
    if any(capital(fill("typed rightly")) in text for text in told):
        return f": {fill('typed rightly')}"
    if not is_contradicted:
        return ""
    are_own = any(text.startswith(OWN_LINES) for text in told)
    return f": {fill('own lines' if are_own else 'line and file')}"


def slips_told(group: list[Named], judgement: Judgement) -> list[str]:
    """That a line under which a proof isn't accepted may be one that was typed wrong, where one digit makes it the line to which the proof leads."""
    if judgement.verdict is None or judgement.verdict.reason[1:2] != ["BadPath"]:
        return []
    reached = {(line.service, line.step): line for it in group for line in formats.lines_reached(it.data)}
    found = ((line, find_slip(reached[line[:2]].authenticator, line.authenticator)) for line in judgement.lines if line[:2] in reached)
    return [fill("slip", service=line.service, step=line.step, where=slip.where, right=slip.one, wrong=slip.other) for line, slip in found if slip is not None]


def refutation(judge: Bench, group: list[Named], judgement: Judgement) -> list[str]:
    """What is said of an accepted file on what a service received that contradicts itself; nothing of another one. Nothing that it says is told as shown."""
    if not judgement.is_shown:
        return []
    seat = judges.for_contradictions(judge)
    for it in group:
        verdict = choosing.judge_alone(seat, it.data, judgement.lines) if it.kind in ARCHIVE_KINDS else None
        if verdict is not None and verdict.is_accepted:
            return [*reports.refuted_sentences(verdict), seat.name_judges("contradict")]
    return []


def receiver_of(judge: Bench, report: Report, group: list[Named], judgement: Judgement) -> Optional[Verdict]:
    """What the judge says of the one service that received both lines of accepted evidence; None of another file, and where two received them."""
    if report.kind != "fork" or report.other("first")[3] != report.other("second")[3]:
        return None
    return choosing.judge_receiver(judges.for_contradictions(judge, "receiver"), group[0].data, judgement.lines)


def sentences(judge: Bench, judgement: Judgement, outcome: Outcome) -> list[str]:
    """What is told below the headline: what came of it, and by whom it was judged."""
    return [*outcome.told, *([judge.name_judges(judgement.call)] if judgement.verdict is not None else [])]


def report_of(judge: Bench, group: list[Named], judgement: Judgement) -> Optional[Report]:
    """What an accepted verdict says; of a proof that is refused since it carries lines alone, what it says where they are accepted; else
    None."""
    verdict = judgement.verdict
    if verdict is not None and verdict.reason[1:2] == ["Carried"]:
        verdict = judge.judge("verify", group[0].data, anchors(judgement.lines))
    return reports.without_held(reports.read_report(verdict), judgement.held) if verdict is not None and verdict.is_accepted else None


def map_name(group: list[Named]) -> Optional[formats.MapHead]:
    """Of which step a map is, where it is one."""
    return formats.map_head(group[0].data) if group[0].kind.endswith("map") else None


def map_sentences(report: Report, group: list[Named]) -> list[str]:
    """What two map files say; of another file nothing."""
    head = map_name(group)
    return reports.map_sentences(report, head.service, str(head.step), head.peer) if head else []


# ---- lines beside the kept ones


def lines_told(report: Report, kept: KeptLines, group: list[Named], judgement: Judgement, is_whole: bool = True) -> list[Line]:
    """The lines that accepted files tell, each once, but for those that they were judged under. All that is held against kept lines, those that count and those that
    don't, and against what other files tell, is this one list; of many files without what their paths only pass."""
    held = [it.line for it in [*kept.all(), *(it for same in kept.uncounted.values() for it in same)]]
    shown = [line for it in group for line in formats.lines_shown(it.data, held, is_whole)]
    return [line for line in dict.fromkeys([*reports.told_lines(report), *shown]) if line not in judgement.lines]


def all_lines(judge: Bench, kept: KeptLines, group: list[Named], judgement: Judgement, is_whole: bool = True) -> list[Line]:
    """The lines that accepted files rest on, and those that they tell."""
    if judgement.history is not None:
        return [*judgement.lines, *(received_in(judgement.history, group[0].data) if is_whole else [])]
    report = report_of(judge, group, judgement)
    return [*judgement.lines, *(lines_told(report, kept, group, judgement, is_whole) if report is not None else [])]


def received_in(history: BoundHistory, data: bytes) -> list[Line]:
    """The lines that a history shows as received, up to the step that a kept line binds."""
    return list_received(formats.threads_of(data), history.held.bound.step) if history.held.bound is not None else []


def lines_that_count(judge: Bench, kept: KeptLines, group: list[Named], judgement: Judgement, broken: Collection[str]) -> list[Line]:
    """The same, but what services that broke a rule received."""
    told = next((it for it in (formats.told_by(it.data, judgement.lines) for it in group) if it is not None), None)
    history = judgement.history.service if judgement.history is not None else None
    of, doubted = told.service if told is not None else history, {line for it in group for line in formats.doubted_in(it.data, broken)}
    return [line for line in all_lines(judge, kept, group, judgement) if line not in doubted and may_count(line, of, broken)]


def lines_bound(report: Report, group: list[Named], judgement: Judgement) -> dict[Line, Line]:
    """The lines that accepted files show by their paths, each with the kept one of the same service under which it is so; none of a service of which something is
    carried, and nothing that was received, which is its receiver's word."""
    under = {line.service: line for line in judgement.lines}
    for line in report.carried:
        under.pop(line.service, None)
    return {line: under[line.service] for it in group for line in formats.lines_on_ways(it.data) if line.service in under}


def beside_kept(lines: list[Line], kept: KeptLines, bound: Mapping[Line, Line]) -> tuple[list[Line], list[str]]:
    """What a proof tells of lines beside those of their steps that were kept: the kept ones that are others, and the sentences. `bound` has of each line that is so under a
    kept one which one that is."""
    others: list[Line] = []
    told: list[str] = []
    same: list[str] = []
    for line in lines:
        held = kept.at(line.service, line.step)
        beside = hold_line(line, (it.line for it in held))
        if beside is Beside.SAME:
            same.append(fill("same line", service=line.service, step=line.step))
        elif beside is Beside.OTHER:
            differing = list(dict.fromkeys(it.line for it in held if it.line != line))
            others += differing
            told += [*slip_sentences([line, *(it.line for it in held)]), *two_lines_told(line, differing, kept), *own_lines_told(differing, bound.get(line), kept)]
            told.append(fill("in doubt", service=line.service))
    more = [f"So are {count_of(len(same) - MOST_TOLD, 'other line')} that you kept."] if len(same) > MOST_TOLD else []
    return others, [*told, *same[:MOST_TOLD], *more]


def two_lines_told(line: Line, differing: Sequence[Line], kept: KeptLines) -> list[str]:
    """That kept lines of a step are others than the one that a file tells."""
    came_so = "; ".join(it.told for it in kept.at(line.service, line.step) if it.line in differing)
    text = fill("other line", service=line.service, step=line.step, came=f" ({came_so})", told=line.authenticator[:16])
    return [f"TWO LINES: {text} {fill('keep both', service=line.service)}"]


def own_lines_told(differing: Sequence[Line], under: Optional[Line], kept: KeptLines) -> list[str]:
    """That kept lines contradict one under which a file is accepted, with both, and how each came; nothing where the file isn't so under a kept one."""
    if under is None or under in differing:
        return []
    rows = [f"  {it.text} ({came(kept, it)})" for it in (*differing, under)]
    return [fill("own lines told", service=under.service, other=under.step, step=differing[0].step), *rows]


def lines_beside(judge: Bench, kept: KeptLines, group: list[Named], judgement: Judgement) -> list[Line]:
    """The lines that accepted files rest on, and those that they tell; of a history those of the steps of which lines are kept that don't count, and those that it
    received."""
    if judgement.history is None:
        return all_lines(judge, kept, group, judgement)
    return lines_of_history(kept, group[0].data, judgement.history)


def lines_of_history(kept: KeptLines, data: bytes, bound: BoundHistory) -> list[Line]:
    """The lines of a history's steps of which lines are kept that don't count, and those that it shows as received."""
    history, steps = formats.timeline_of(data), {it.line.step for it in kept.uncounted.get(bound.service, [])}
    own = [Line(bound.service, step, history.authenticators[step]) for step in sorted(steps) if step <= history.last] if history is not None else []
    return [*own, *received_in(bound, data)]


def beside_uncounted(outcome: Outcome, kept: KeptLines, lines: list[Line]) -> Outcome:
    """The outcome beside kept lines that don't count: these bind nothing and accuse nobody, and where one of them is another one than a line of what would be
    shown, that isn't judged before a person has said what it is, as by choosing over it."""
    differing = [it for line in lines for it in kept.uncounted.get(line.service, []) if hold_line(line, [it.line]) is Beside.OTHER]
    others = [it for it in differing if not was_passed_over(it.line, kept.standing(it.line.service, it.line.step))]
    if not others:
        return outcome
    first = others[0]
    told = (
        f"{UNCOUNTED_DIFFERS}: that of step {first.line.step} of {first.line.service} that you kept ({first.told}), than this file has. Was "
        "its key stolen, take that line out of your file of kept lines; else note its key, and look at both."
    )
    return under_headline(outcome, choose_headline_unheld(outcome.headline), Status.LOOK, [told, *outcome.told])


def under_headline(outcome: Outcome, headline: Headline, status: Status, told: list[str]) -> Outcome:
    """The outcome with another headline, or the same one with what stands behind it; its status, and what is told of it."""
    aside = outcome.aside if headline is outcome.headline else ""
    return outcome._replace(headline=headline, status=worst_of([outcome.status, status]), told=told, aside=aside)


# ---- histories


def outcome_of_history(judge: Bench, kept: KeptLines, judgement: Judgement, history: BoundHistory, data: bytes) -> Outcome:
    """What came of a history that was held against the kept lines of its service, with the lines that it received, which are held against those of theirs."""
    resting = [*choosing.resting(judgement, kept), *computed_by(judge, judgement)]
    headline = choose_history_headline(history.extent)
    if history.extent is Extent.CONTRADICTED:
        differing = contradiction_told(kept, history)
        return Outcome(headline, Status.CONTRADICTION, [*differing, *resting], history.held.differing, aside_of(differing, True))
    if history.extent is Extent.UNBOUND:
        return Outcome(headline, Status.MISSING, [*choosing.missing_sentences(judgement.missing, kept), *beyond_told(history)], [])
    if judgement.verdict is None or not judgement.verdict.is_accepted:
        told = "two judges differ: the reference and an audit find the line in this history, and the proof that was made of it isn't accepted"
        raise Trouble(Status.DIFFER, told, "This is a bug: keep the history, and report it.")
    others, compared = beside_kept(received_in(history, data), kept, {})
    bound = [*([] if others else bound_sentences(history)), *compared]
    if others:
        return Outcome(Headline.NOT_SHOWN, Status.CONTRADICTION, [*bound, *resting], others, aside_of(compared, True))
    if history.extent is Extent.WHOLE:
        status = Status.LOOK if history.held.beyond is not None else judge.status(True)
        return Outcome(headline, status, [*bound, *resting], [])
    return Outcome(headline, Status.MISSING, [*bound, *choosing.missing_sentences(judgement.missing, kept), *resting], [])


def bound_sentences(history: BoundHistory) -> list[str]:
    """Up to which step a history is bound, by which line, and what is its own word."""
    line = history.held.bound
    assert line is not None
    told = f"It is a history of {history.service} that keeps the rules, up to step {line.step}, of which you hold the line"
    if line.step < history.last:
        behind = steps_of(range(line.step + 1, history.last + 1))
        only = f"; weft judge --top {line.step} judges it up to there" if history.extent is Extent.PART else ""
        told = f"{told}. Behind that, of {behind}, the file's word alone stands: no line that you hold binds it{only}"
    return [f"{told}.", *agreeing_told(history), *beyond_told(history)]


def beyond_told(history: BoundHistory) -> list[str]:
    """That the service went on behind the file's last step, where a kept line shows it."""
    if history.held.beyond is None:
        return []
    told = f"You hold a line of step {history.held.beyond} of {history.service}, and this file ends at step {history.last}: what {history.service} recorded behind that isn't in it."
    return [f"{told} It is an older file, or was cut: ask for the whole one."]


def agreeing_told(history: BoundHistory) -> list[str]:
    """How many other kept lines agree."""
    count = len(history.held.agreeing) - 1
    return [f"{count_of(count, 'other line')} of {history.service} that you kept {'is' if count == 1 else 'are'} of it too."] if count > 0 else []


def contradiction_told(kept: KeptLines, history: BoundHistory) -> list[str]:
    """Which kept lines a history contradicts, which ones are of it, and how each came."""
    service, held = history.service, history.held
    told = slip_sentences([*history.own, *held.differing])
    told += [
        f"TWO LINES: the line of step {line.step} of {service} that you kept, {line.authenticator[:16]}.. ({came(kept, line)}), isn't of this history."
        for line in held.differing[:MOST_TOLD]
    ]
    if len(held.differing) > MOST_TOLD:
        told.append(f"So it is with {count_of(len(held.differing) - MOST_TOLD, 'other line')}.")
    if held.agreeing:
        told += own_lines_told(held.differing[:MOST_TOLD], held.agreeing[-1], kept)
    told += [f"Of this history is the line of step {line.step}, {line.authenticator[:16]}.. ({came(kept, line)})." for line in held.agreeing[-MOST_TOLD:]]
    told.append(
        f"The file was made anew or changed, or {service} has shown two histories, or a line isn't {service}'s. Keep the file and all these lines, and show them "
        f"to others who hold lines of {service}: which of them do they have? A line that {service} or the sender gives you now decides nothing."
    )
    told.append(fill("in doubt", service=service))
    return told


def came(kept: KeptLines, line: Line) -> str:
    """How a kept line came."""
    ways = [it.told for it in kept.at(line.service, line.step) if it.line == line]
    return "; ".join(ways) or "it was seen, and is no more in your file"


def computed_by(judge: Bench, judgement: Judgement) -> list[str]:
    """Who computed the authenticators of a history, and who held the lines that count against the file."""
    if judgement.verdict is None:
        return []
    by = judge.seated("audit")[0].name
    also = "" if judge.is_by_reference else f"; the lines that count here were held against the file by: {by}"
    return [f"authenticators computed from the file by: Python reference, tested, not proved{also}"]


# ---- a file beside the events that were recorded


def is_held_against(judgement: Judgement, outcome: Outcome) -> bool:
    """Whether what came of a judgement is held against a file or histories: where it is accepted, and where lines that are carried alone hinder that; not of a file that
    contradicts itself, nor of a history that isn't bound as far as is asked."""
    is_in_part = judgement.history is None and outcome.headline is Headline.IN_PART
    return (judgement.is_shown or is_in_part) and not outcome.is_refuted


def with_file(judge: Bench, outcome: Outcome, judgement: Judgement, group: list[Named], path: str) -> Outcome:
    """The outcome of an accepted proof of events, held against a file: of a file of none of them nothing is shown, and of what isn't shown for another reason nothing is said
    of the file."""
    report = report_of(judge, group, judgement) if judgement.history is None else None
    if report is None or report.kind not in ("exists", "precedes"):
        raise Trouble(Status.USAGE, "--file is for the proof of one event, or of one before another", "Name a proof of an event.")
    events = [event.data for event in report.events]
    logged = [read_logged(event) for event in events]
    document = document_of(path, is_whole=any(logged))
    found, outcome = document.sha256 or "", outcome._replace(inputs=(*outcome.inputs, document))
    match, places = match_file(logged, found, os.path.basename(os.fsencode(path)), [whole_digest(event) for event in events])
    if match is Match.NO_ENTRY:
        text = fill("no files" if len(events) > 1 else "no file", told="; ".join(map(told_event, events)))
        return other_file(judge, outcome, [text], "as no file")
    if match is Match.OTHER:
        own = os.path.basename(os.fsencode(path))
        key = "namesake" if any(it is not None and it.name == own for it in logged) else "other file than both" if all(logged) and len(logged) > 1 else "other file"
        apart = [*dict.fromkeys(f"  {fill('digest recorded', digest=it.digest)}" for it in logged if it is not None), f"  {fill('digest given', digest=found)}"]
        return other_file(judge, outcome, [fill(key, file=name_of(path)), *apart, fill("other version")], "not this file")
    if outcome.headline is Headline.NOT_SHOWN:
        return outcome
    word = fill("by word", whose=reports.whose_word(report), told="") if any(reports.is_on_word(report, place) for place in places) else ""
    as_which, which = (" as", listed([fill(WHICH[place]) for place in places])) if len(events) > 1 else ("", "")
    if match is Match.RENAMED:
        names = listed([name_of(os.fsdecode(it.name)) for it in dict.fromkeys(logged[place] for place in places) if it is not None and it.name is not None])
        text = f"{word}{fill(f'renamed file{as_which}', file=name_of(path), which=which, names=names)}"
        return outcome._replace(status=worst_of([outcome.status, Status.LOOK]), told=[*outcome.told, text])
    return outcome._replace(told=[*outcome.told, f"{word}{fill(f'same file{as_which}', file=name_of(path), which=which)}"])


def other_file(judge: Bench, outcome: Outcome, told: Sequence[str], aside: str) -> Outcome:
    """The outcome where what was recorded is another file: that is told first."""
    headline = choose_headline(True, 0, False, bool(outcome.contradicted), True)
    status = worst_of([outcome.status, judge.status(False)])
    return outcome._replace(headline=headline, status=status, told=[*told, *outcome.told], aside=f": {fill(aside)}")


def documents_of(judge: Bench, outcome: Outcome, judgement: Judgement, group: list[Named]) -> list[Logged]:
    """The documents that an accepted proof names; none of another one."""
    if outcome.headline not in (Headline.SHOWN, Headline.IN_PART) or judgement.history is not None:
        return []
    report = report_of(judge, group, judgement)
    return [it for it in (read_logged(event.data) for event in report.events) if it is not None] if report is not None else []


def without_file(judge: Bench, outcome: Outcome, judgement: Judgement, group: list[Named]) -> Outcome:
    """The outcome where no document was given: of a proof that names files it is told first that none was compared, and the title of one that is shown says so."""
    logged = documents_of(judge, outcome, judgement, group)
    if not logged:
        return outcome
    names = " or ".join(dict.fromkeys(name_of(os.fsdecode(it.name)) if it.name else "document" for it in logged))
    told = f"{fill('document not given', names=names)} Name it: --file FILE."
    aside = outcome.aside if outcome.headline is Headline.IN_PART else f": {fill('no document')}"
    return outcome._replace(told=[told, *outcome.told], aside=aside)


def document_of(path: str, is_whole: bool) -> Input:
    """A regular file of any size, with its SHA-256 digest; where that of the whole isn't wanted, a file is opened all the same, and one that is longer than any event has
    none."""
    digest, count = hashlib.sha256(), 0
    with os.fdopen(files.opened(path), "rb") as file:
        if is_whole:
            files.expect_content(file.fileno(), path)
        for piece in iter(lambda: file.read(1 << 20), b""):
            digest.update(piece)
            count += len(piece)
            if not is_whole and count > formats.MOST_EVENT:
                return Input("document", path, None, None)
    return Input("document", path, count, digest.hexdigest())


# ---- a proof beside the histories that it hangs on


def unheld(outcome: Outcome, trouble: Trouble) -> Outcome:
    """The outcome where something that it was to be held against can't be read, or isn't of the right kind: that is told first, and what was found without it."""
    told = [trouble.describe(), "What was found without that:", *outcome.told]
    return under_headline(outcome, choose_headline_unheld(outcome.headline), trouble.status, told)


def unless_troubled(outcome: Outcome, work: Callable[[Outcome], Outcome]) -> Outcome:
    """What comes of holding an outcome against more, or that this can't be done."""
    try:
        return work(outcome)
    except Trouble as trouble:
        return unheld(outcome, trouble)


def with_histories(judge: Bench, kept: KeptLines, outcome: Outcome, judgement: Judgement, proof: bytes, paths: Sequence[Path]) -> Outcome:
    """The outcome of an accepted proof, held against histories, each of which is read once: what they don't have isn't shown. One of these that kept lines
    contradict shows nothing, whatever the audit says."""
    if formats.read_proof(proof) is None:
        raise Trouble(Status.USAGE, "--audit is for proofs", "A history is judged by itself, maps and evidence by the lines that they need.")
    sent: list[Sent] = []
    unsound: list[str] = []
    whole: dict[str, Whole] = {}
    for path in paths:
        try:
            sent.append(Sent(path, files.read(path, formats.MOST_HISTORY)))
            read = Input("history", os.fspath(path), len(sent[-1].data), rows.digest_of(sent[-1].data))
            outcome = outcome._replace(inputs=(*outcome.inputs, read))
        except Trouble as trouble:
            outcome = unheld(outcome, trouble)
            continue
        history = held_history(kept, sent[-1].data)
        if history is None:
            unsound.append(name_of(path))
        else:
            outcome = beside_uncounted(beside_history(kept, outcome, history, sent[-1].data), kept, lines_of_history(kept, sent[-1].data, history))
            whole[os.fspath(path)] = whole_of(sent[-1].data)
    outcome = beside_one_another(outcome, whole)
    if len(sent) < len(paths):
        return outcome
    return unless_troubled(outcome, lambda it: with_audit(judge, it, auditing.audited(judge, proof, judgement.lines, sent), unsound))


def whole_of(data: bytes) -> Whole:
    """What a sound history's file tells of lines, its own and those that it received."""
    history = formats.timeline_of(data)
    assert history is not None
    return Whole(history.service, history.authenticators, [line for line in formats.threads_of(data) if line is not None])


def beside_one_another(outcome: Outcome, whole: Mapping[str, Whole]) -> Outcome:
    """The outcome beside histories of which two tell two lines of one step: that is told, as of files that are judged beside one another."""
    names, told = list(whole), []
    for it in find_histories_apart(list(whole.values())):
        said = {"first": name_of(names[it.first]), "second": name_of(names[it.second]), "one": it.one.authenticator[:16], "other": it.other.authenticator[:16]}
        told.append(f"TWO LINES: {fill('told twice', service=it.one.service, step=it.one.step, **said)} {fill('keep both', service=it.one.service)}")
    return under_headline(outcome, outcome.headline, Status.CONTRADICTION, [*outcome.told, *told]) if told else outcome


def beside_history(kept: KeptLines, outcome: Outcome, history: BoundHistory, data: bytes) -> Outcome:
    """The outcome beside a history: another one where that contradicts kept lines, by its own lines or by one that it received."""
    others, compared = beside_kept(received_in(history, data), kept, {})
    differing = [*history.held.differing, *others]
    if not differing:
        return outcome
    told = [*outcome.told, *(contradiction_told(kept, history) if history.held.differing else []), *(compared if others else [])]
    status = worst_of([outcome.status, Status.CONTRADICTION])
    return outcome._replace(headline=Headline.NOT_SHOWN, status=status, told=told, contradicted=[*outcome.contradicted, *differing], aside=aside_of(told, True))


def with_audit(judge: Bench, outcome: Outcome, found: auditing.Audit, unsound: Sequence[str]) -> Outcome:
    """The outcome of an accepted proof by what its audit came to. None stands over a history that the reference calls unsound."""
    is_held = found.status in (Status.DONE, Status.SHOWN_BY_REFERENCE)
    if is_held and unsound:
        told = f"two judges differ: an audit stands, and for the reference {listed(unsound)} is no sound history"
        raise Trouble(Status.DIFFER, told, "This is a bug: keep the files, and report it.")
    headline = outcome.headline if is_held else Headline.NOT_SHOWN
    told_more = [*outcome.told, found.told, f"audited by: {found.by}"]
    return under_headline(outcome, headline, found.status, told_more)


def held_history(kept: KeptLines, data: bytes) -> Optional[BoundHistory]:
    """A history beside the kept lines of its service; None of a file that is none."""
    history = formats.timeline_of(data)
    if history is None:
        return None
    held = hold_history(history.authenticators, choosing.lines_of(kept, history.service))
    return choosing.bound_history(history, held, history.last)
