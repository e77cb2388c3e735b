"""`weft judge`: proofs, map files and evidence under the lines that were kept."""

from __future__ import annotations

import argparse
import itertools
from pathlib import Path
from typing import Collection, Iterator, NamedTuple, Optional, Union

from weft import beacons, bulk, bundles, choosing, dated, facts, files, formats, judges, lines, outcomes, reports, sheets, signatures, stamps
from weft.choosing import Judgement
from weft.deciding.bundles import is_on_a_word
from weft.deciding.choosing import Extent, Headline
from weft.deciding.contradicting import Differing, Told, find_pairs, find_two_lines
from weft.deciding.worst import worst_of
from weft.judges import Bench, Verdict
from weft.kinds import ARCHIVE_KINDS
from weft.facts import Facts, services_of
from weft.lines import KeptLines, Line
from weft.once import Once
from weft.outcomes import Named, Outcome
from weft.output import complain, say, say_json
from weft.sentences import fill
from weft.statuses import Status
from weft.texts import count_of, name_of
from weft.trouble import Trouble, of_machine

NAME = "judge"
DETAILS = (
    "It picks the lines that each needs, has it judged, and says what is shown, on whose lines that rests and how each came; or which lines are "
    "missing, and who may have kept them. First stands shown, shown in part, not shown or not judged. "
    "A low and a high map file of one step are judged together. Proofs that carry a line aren't accepted but with --carried. A "
    "history is judged by the rules that it has to keep, and its lines, those that it received too, are held against every kept one. What tells another line than a kept one of that step "
    "(TWO LINES), or contradicts itself, isn't shown. Accepted files that contradict each other on what a service received are told; name the "
    "link between their lines beside them."
)
STATUSES = (
    Status.NOT_SHOWN, Status.LOOK, Status.CONTRADICTION, Status.MISSING, Status.BUSY, Status.FEWER, Status.SHOWN_BY_REFERENCE, Status.NOT_SHOWN_BY_REFERENCE,
)  # fmt: skip
EXAMPLE = (
    "weft judge proof --file paid.csv\nweft judge chain --svg chain.svg\nweft judge chain --report report.html\nweft judge low high\nweft judge log.history --top 2\nweft judge -- sent/*\n"
    "weft judge --many proofs/ --table proofs.tsv"
)


# So many of these are compared each with each.
MOST_COMPARED = 32


def add(parser: argparse.ArgumentParser) -> None:
    """The words."""
    parser.add_argument("proofs", metavar="PROOF", nargs="*", help="proofs, map files, evidence, histories")
    parser.add_argument("--kept", metavar="FILE", type=Path, action="append", help="a file of kept lines; several may be named (else WEFT_KEPT, ..)")
    signatures.add_signers(parser)
    stamps.add_authorities(parser)
    parser.add_argument("--file", action=Once, metavar="F", help="holds the event against the digest and the name of this file")
    beacon = "tells what was recorded not before DAY (2026-12-01), by FILE, which nobody knew earlier; may be repeated"
    parser.add_argument("--beacon", metavar=("DAY", "FILE"), nargs=2, action="append", default=[], help=beacon)
    parser.add_argument("--audit", metavar="HISTORY", type=Path, action="append", default=[], help="holds what is shown against this history; may be repeated")
    parser.add_argument("--carried", action="store_true", help="accepts proofs that carry lines, and says which")
    parser.add_argument("--top", action=Once, metavar="STEP", type=int, help="of a history: judges it up to this step (else up to its last one)")
    parser.add_argument("--svg", action=Once, metavar="OUT", help="draws what is shown as a picture")
    parser.add_argument("--report", action=Once, metavar="OUT.html", help="writes all of it, with what it rests on, digests and how to repeat it, as a page for a court's file")
    parser.add_argument("--many", action=Once, metavar="FOLDER", help="judges all files of the folder")
    parser.add_argument("--table", action=Once, metavar="FILE", help="with --many: the table (else FOLDER.verdicts.tsv); a run that was stopped is gone on with")
    parser.add_argument("--workers", metavar="N", type=int, help="with --many: how many processes (else one a processor)")
    parser.add_argument("--dask", metavar="ADDRESS", help="with --many: over the Dask cluster whose scheduler has this address, as tls://host:8786")
    parser.add_argument("--tls", metavar=("CA", "CERT", "KEY"), nargs=3, help="with --dask: the files of the authority, of the own certificate and of its key")
    parser.add_argument("--reference", action="store_true", help="judges by the Python reference alone, which is tested and not proved")
    parser.add_argument("--json", action="store_true", help="writes JSON, a line for each")


class Sheet(NamedTuple):
    """What a report has: the facts of each judgement, its picture where there is one, and what is told of several files together."""

    each: list[Facts]
    pictures: list[Optional[str]]
    between: list[str]

    def add(self, known: Facts, picture: Optional[str] = None) -> None:
        """Adds a judgement."""
        self.each.append(known)
        self.pictures.append(picture)


class Judged(NamedTuple):
    """A group of files that was judged, of a bundle its proof; its judgement where there is one, and where it may stand against others, which isn't so of one under a line that
    a stamp alone meets; the status of it by itself, whether it contradicts itself, and its picture where one is wanted."""

    group: list[Named]
    judgement: Optional[Judgement]
    status: Status
    is_refuted: bool = False
    picture: Optional[str] = None


def run(options: argparse.Namespace) -> Status:
    """Judges what was named."""
    kept = signatures.counted(lines.kept_of(options.kept), options.signers)
    judge = judges.bench(options.reference)
    expect_words(options)
    options.sheet, options.days = Sheet([], [], []), stamps.Days(kept, options.authorities)
    options.beacons = beacons.read_beacons(options.beacon)
    for text in choosing.told_kept(options.kept) if not options.json else ():
        say(text)
    status = bulk.run(options, kept, judge) if options.many else judge_named(options, kept, judge)
    return worst_of([status, kept.status])


def expect_words(options: argparse.Namespace) -> None:
    """Raises Trouble where words don't go together, before anything is judged."""
    if options.many:
        if options.proofs or options.file or options.beacon or options.svg or options.report or options.audit or options.top is not None:
            raise Trouble(Status.USAGE, "--many takes no proofs, --file, --beacon, --svg, --report, --audit or --top beside it", "See weft judge --help.")
        return
    if options.dask or options.tls:
        raise Trouble(Status.USAGE, "--dask and --tls are for --many", "See weft judge --help.")
    if not options.proofs:
        raise Trouble(Status.USAGE, "no proof is named", "See weft judge --help.")


def judge_named(options: argparse.Namespace, kept: KeptLines, judge: Bench) -> Status:
    """Judges the files that were named, each of them, whatever came of those before it; the worst of it counts."""
    read = [read_named(options, path) for path in options.proofs]
    groups = grouped([it for it in read if isinstance(it, Named)])
    if (options.svg or options.file or options.beacon or options.audit or options.top is not None) and (len(groups) != 1 or len(read) != sum(map(len, groups))):
        raise Trouble(Status.USAGE, "--svg, --file, --beacon, --audit and --top are of one proof", "Name one proof.")
    statuses = [it for it in read if isinstance(it, Status)]
    shown, broken = [], set[str]()
    try:
        for group in groups:
            found = judge_or_tell(options, kept, judge, group)
            statuses.append(found.status)
            statuses.append(hand_out_picture(options, found.picture) if options.svg else Status.DONE)
            if found.judgement is not None and found.judgement.is_shown and found.is_refuted:
                broken |= {told.service for it in found.group if (told := formats.told_by(it.data, found.judgement.lines)) is not None}
            elif found.judgement is not None and (found.judgement.is_shown or is_in_part(found.judgement)):
                shown.append((found.group, found.judgement))
        broken |= contradicted(options, judge, shown)
        statuses += [Status.CONTRADICTION if broken else Status.DONE, told_apart(options, kept, judge, shown, broken)]
    except Trouble as trouble:
        complain(trouble.describe())
        statuses.append(trouble.status)
        options.sheet.between.append(trouble.describe())
        if options.json:
            say_json({"status": int(trouble.status), "says": [trouble.describe()]})
    if options.report and options.sheet.each:
        sheet: Sheet = options.sheet
        files.hand_out(options.report, sheets.page(sheet.each, sheet.pictures, sheet.between, worst_of([*statuses, kept.status])))
    return worst_of(statuses)


def is_in_part(judgement: Judgement) -> bool:
    """Whether a judgement is of a history that kept lines bind up to an earlier step: up to there it is held against other files."""
    return judgement.history is not None and judgement.history.extent is Extent.PART


def read_named(options: argparse.Namespace, path: str) -> Union[Named, Status]:
    """A file that is to be judged; or the status of one that can't be read, which is told."""
    try:
        data = formats.read_file(path)
    except Trouble as trouble:
        tell_trouble(options, [Named(path, b"", "text")], trouble)
        return trouble.status
    return Named(path, data, formats.kind_of(data))


def tell_trouble(options: argparse.Namespace, group: list[Named], trouble: Trouble) -> None:
    """Says that files weren't judged, and why."""
    known = facts.troubled(group, trouble)
    options.sheet.add(known)
    if options.json:
        say_json(known)
        return
    say(f"{' and '.join(name_of(it.path) for it in group)}: {Headline.NOT_JUDGED.value}")
    complain(trouble.describe())


def grouped(named: list[Named]) -> list[list[Named]]:
    """What is judged together: of map files two, of all others each by itself."""
    groups: list[list[Named]] = []
    waiting: dict[tuple[str, int, str], tuple[str, list[Named]]] = {}
    for it in named:
        head = formats.map_head(it.data) if it.kind.endswith("map") else None
        if head is None:
            groups.append([it])
            continue
        other = waiting.pop((head.service, head.step, head.peer), None)
        if other is None or other[0] == head.kind:
            group = [it]
            groups.append(group)
            waiting[head.service, head.step, head.peer] = head.kind, group
        elif head.kind == "high":
            other[1].append(it)
        else:
            other[1].insert(0, it)
    return groups


def judge_or_tell(options: argparse.Namespace, kept: KeptLines, judge: Bench, group: list[Named]) -> Judged:
    """Judges a group; that the machine failed at it is told, and others are judged all the same."""
    paths = [it.path for it in group]
    try:
        with of_machine(" and ".join(paths)):
            return judge_group(options, kept, judge, group)
    except Trouble as trouble:
        if trouble.status not in (Status.NO_MEMORY, Status.DISK):
            raise
        tell_trouble(options, group, trouble)
        return Judged(group, None, trouble.status)


def judge_group(options: argparse.Namespace, kept: KeptLines, judge: Bench, group: list[Named]) -> Judged:
    """Judges a group, or the proof of a bundle, and says what came of it."""
    own, whole, opened = kept, group[0], None
    try:
        if group[0].kind == "bundle":
            bundles.expect_alone(options)
            opened = bundles.open_bundle(group[0], kept, options.days, options.signers or signatures.default_signers())
            group, kept = opened.proofs, opened.kept
        judgement = choosing.with_held(judge, group[0].data, kept, outcomes.judgement_of(judge, kept, group, options.carried, options.top))
        outcome = outcomes.outcome_of(judge, kept, group, judgement)
        told = [*dated.sentences(judge, options.days, group, judgement, outcome), *choosing.uncounted_sentences(kept, services_of(judgement))]
        outcome = outcome._replace(told=[*outcome.told, *told])
    except Trouble as trouble:
        if trouble.status in (Status.MISSING, Status.UNREADABLE, Status.CONTRADICTION, Status.DIFFER):
            tell_trouble(options, group, trouble)
            return Judged(group, None, trouble.status)
        raise
    is_held = outcomes.is_held_against(judgement, outcome)
    if opened is not None:
        outcome = bundles.with_met(bundles.with_records(judge, outcome, opened, judgement), opened, judgement, own)
    outcome = held_against(options, kept, judge, group, judgement, outcome, is_bundled=opened is not None and bool(opened.records)) if is_held else outcome
    known = facts.facts(options, judge, kept, group if opened is None else bundles.taken_out(opened), judgement, outcome) if options.json or options.report else {}
    if known and opened is not None:
        known = bundles.facts_of(known, whole, opened)
    if options.json:
        say_json(known)
    else:
        tell(judge, group if opened is None else [whole], judgement, outcome)
    picture = facts.picture_of(judge, group, judgement, outcome) if options.svg or options.report else None
    if options.report:
        options.sheet.add(known, picture)
    is_doubtful = opened is not None and is_on_a_word(judgement.counting, opened.met)
    return Judged(group, None if is_doubtful else judgement, outcome.status, outcome.is_refuted, picture)


def held_against(options: argparse.Namespace, kept: KeptLines, judge: Bench, group: list[Named], judgement: Judgement, outcome: Outcome, is_bundled: bool) -> Outcome:
    """The outcome of an accepted proof, held against the files that were named: a document, where none came in a bundle, beacons and histories."""
    if options.file:
        outcome = outcomes.unless_troubled(outcome, lambda it: outcomes.with_file(judge, it, judgement, group, options.file))
    elif not is_bundled:
        outcome = outcomes.without_file(judge, outcome, judgement, group)
    if options.beacon:
        after = dated.not_after(judge, options.days, group, judgement, outcome)
        outcome = outcomes.unless_troubled(outcome, lambda it: beacons.with_beacons(judge, it, judgement, group, options.beacons, after))
    if options.audit:
        outcome = outcomes.unless_troubled(outcome, lambda it: outcomes.with_histories(judge, kept, it, judgement, group[0].data, options.audit))
    return outcome


def hand_out_picture(options: argparse.Namespace, picture: Optional[str]) -> Status:
    """Writes the picture of what was judged; where nothing is shown there is none, and one that an earlier run drew isn't of this: that is told."""
    if picture is not None:
        files.hand_out(options.svg, picture.encode())
    else:
        still = f"; {name_of(options.svg)}, which is there, is of something else" if files.is_there(options.svg) else ""
        complain(f"no picture was drawn, since nothing is shown{still}.")
    return Status.DONE


def tell(judge: Bench, group: list[Named], judgement: Judgement, outcome: Outcome) -> None:
    """Says what came of a group, and by whom it was judged."""
    say(f"{' and '.join(name_of(it.path) for it in group)}: {outcome.title}")
    for line in outcomes.sentences(judge, judgement, outcome):
        say(f"  {line}")


def told_apart(options: argparse.Namespace, kept: KeptLines, judge: Bench, shown: list[tuple[list[Named], Judgement]], broken: Collection[str]) -> Status:
    """Whether two of the accepted files tell two lines of one step; a history is asked for the steps that others tell. What services that broke a rule received
    shows nothing of others."""
    told = [(place, line) for place, (group, judgement) in enumerate(shown) for line in outcomes.lines_that_count(judge, kept, group, judgement, broken)]
    for place, (group, judgement) in enumerate(shown):
        history = formats.timeline_of(group[0].data) if judgement.history is not None else None
        if history is not None:
            bound = judgement.lines[0].step
            steps = dict.fromkeys(line.step for _, line in told if line.service == history.service and line.step <= bound)
            told += [(place, Line(history.service, step, history.authenticators[step])) for step in steps]
    found = find_two_lines(told)
    for it in found:
        tell_two_lines(options, it, *(" and ".join(named.path for named in shown[place][0]) for place in (it.first, it.second)))
    return Status.CONTRADICTION if found else Status.DONE


def tell_two_lines(options: argparse.Namespace, it: Differing, first: str, second: str) -> None:
    """Says that two files tell two lines of one step."""
    said = {"first": name_of(first), "second": name_of(second), "one": it.one.authenticator[:16], "other": it.other.authenticator[:16]}
    told = f"TWO LINES: {fill('told twice', service=it.one.service, step=it.one.step, **said)} {fill('keep both', service=it.one.service)}"
    options.sheet.between.append(told)
    if options.json:
        say_json({"two_lines": [first, second], **it.one._asdict(), "other": it.other.authenticator, "status": int(Status.CONTRADICTION), "says": [told]})
    else:
        say(told)


class Held(NamedTuple):
    """An accepted file that tells what a service received: the file, the bytes of the lines that it is under, and what it tells."""

    it: Named
    lines: bytes
    told: Told


def contradicted(options: argparse.Namespace, judge: Bench, shown: list[tuple[list[Named], Judgement]]) -> set[str]:
    """Says which of the accepted files contradict each other; the services of these. A file that was named twice, or by two names, is one."""
    judge = judges.for_contradictions(judge)
    held = [
        Held(it, lines.anchors(judgement.lines), told) for group, judgement in shown for it in group
        if it.kind in ARCHIVE_KINDS and (told := formats.told_by(it.data, judgement.lines)) is not None
    ]  # fmt: skip
    held = list({(one.it.data, one.lines): one for one in reversed(held)}.values())[::-1]
    links = [it.data for group, _ in shown for it in group if it.kind == "link"]
    broken = set()
    for first, second in pairs_of(options, held):
        verdict = choosing.judge_contradiction(judge, (first.it.data, first.lines, second.it.data, second.lines), links)
        if verdict.is_accepted:
            broken.add(first.told.service)
            tell_contradiction(options, judge, verdict, first.it.path, second.it.path)
    return broken


def pairs_of(options: argparse.Namespace, held: list[Held]) -> Iterator[tuple[Held, Held]]:
    """The files that are compared: each with each where they are few; of many those of which two break a rule, if any two do."""
    if len(held) <= MOST_COMPARED:
        yield from itertools.combinations(held, 2)
        return
    if not options.json:
        say(f"{count_of(len(held), 'file')} tell what services received: of those that break a rule together each is told with the first, and not each with each.")
    yield from ((held[first], held[second]) for first, second in find_pairs([one.told for one in held]))


def tell_contradiction(options: argparse.Namespace, judge: Bench, verdict: Verdict, first: str, second: str) -> None:
    """Says that two files contradict each other."""
    told = reports.contradiction_sentences(verdict, name_of(first), name_of(second))
    options.sheet.between.extend(told)
    if options.json:
        by = [one.name for one in judge.seated("contradict")]
        say_json({"contradiction": [first, second], "status": int(Status.CONTRADICTION), "text": verdict.text, "says": told, "judged_by": by})
        return
    for sentence in [*told, f"  {judge.name_judges('contradict')}"]:
        say(sentence)
