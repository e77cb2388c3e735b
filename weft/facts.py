"""What is known of a judgement: as JSON has it, and the report for a file of a court (weft.sheets). Both have the same facts."""

from __future__ import annotations

import argparse
import shlex
from typing import Iterable, Optional, Sequence

from weft import __version__, beacons, choosing, dated, lines, listing, packages, pictures, program
from weft.choosing import Judgement
from weft.deciding.choosing import Headline
from weft.deciding.commands import in_its_folder
from weft.deciding.rows import digest_of
from weft.deciding.worst import worst_of
from weft.files import Input
from weft.judges import REFERENCE, Bench
from weft.lines import KeptLines
from weft.outcomes import Named, Outcome, map_name, report_of
from weft.sentences import fill
from weft.texts import now
from weft.trouble import Trouble

Facts = dict[str, object]
ASSUMED = ("assume lines", "assume rules", "assume digests")
NOT_SHOWN = ("not who", "not the day", "not of broken rules", "not what else")
DAY = 10


def inputs_of(group: Sequence[Named], outcome: Optional[Outcome], kept: Optional[KeptLines]) -> list[Input]:
    """What was judged, what it was held against, and the files of kept lines: each as it was read for that, and not once more."""
    judged = [Input(it.kind, it.path, len(it.data), digest_of(it.data)) if it.data else Input(it.kind, it.path, None, None) for it in group]
    return [*judged, *(outcome.inputs if outcome is not None else ()), *(kept.inputs if kept is not None else ())]


def assumed(judged_by: Iterable[str]) -> list[str]:
    """Under which assumptions what is shown is so, in plain words."""
    names = list(judged_by)
    proved = ["assume proved"] if any(name != REFERENCE for name in names) else ["assume tested"] if names else []
    return [fill(key) for key in (*ASSUMED, *proved)]


def again(options: argparse.Namespace, group: Sequence[Named], judgement: Judgement) -> list[str]:
    """The commands that judge it once more, by another tool: under a file of the lines that are named here."""
    names = [shlex.quote(in_its_folder(it.path)) for it in group]
    digests = [f"sha256sum {' '.join([*names, *([shlex.quote(in_its_folder(options.file))] if options.file else [])])}"]
    if judgement.verdict is None:
        return digests
    if judgement.history is not None:
        return [*digests, f"weft judge --reference --kept LINES {names[0]}"]
    call = "verify" if options.carried and judgement.call == "verify" else judgement.call
    return [*digests, f"timeweave {call} {' '.join(names)} LINES", f"python3 reference/timeweave_reference {call} {' '.join(names)} LINES"]


def facts(options: argparse.Namespace, judge: Bench, kept: KeptLines, group: Sequence[Named], judgement: Judgement, outcome: Outcome) -> Facts:
    """What came of a group of files, which says what the sentences say."""
    services = services_of(judgement)
    judged_by = [one.name for one in judge.seated(judgement.call)] if judgement.verdict is not None else []
    return {
        "files": [it.path for it in group],
        "sha256": [digest_of(it.data) for it in group],
        "kind": group[0].kind,
        "headline": outcome.title,
        "shown": outcome.headline is Headline.SHOWN,
        "status": int(worst_of([outcome.status, kept.status])),
        "text": judgement.verdict.text if judgement.verdict is not None else None,
        "says": outcome.told,
        "lines": [
            {
                **line._asdict(), "kept": [{"date": it.date, "how": it.how} for it in kept.at(line.service, line.step)], "stamps": dated.stamps_of(options.days, line),
            } for line in judgement.counting
        ],
        "not_after": [it.json for it in dated.not_after(judge, options.days, group, judgement, outcome)],
        "not_before": [it.json for it in beacons.not_before(judge, options.beacons.beacons, group, judgement, outcome)],
        "kept": [str(path) for path in options.kept or [lines.default_kept()]],
        "missing": [needed._asdict() for needed in judgement.missing],
        "not_counting": [{**it.line._asdict(), "date": it.date, "how": it.how} for it in choosing.uncounted(kept, services)],
        "contradicts": [line._asdict() for line in outcome.contradicted],
        "bound": bound_step(judgement),
        "beyond": judgement.history.held.beyond if judgement.history is not None else None,
        "judged_by": judged_by,
        **common([*inputs_of(group, outcome, kept), *options.days.inputs(judgement.lines)], judged_by),
        "again": [*again(options, group, judgement), *dated.again(options.days, judgement.lines)],
    }


def common(inputs: Sequence[Input], judged_by: Sequence[str]) -> Facts:
    """What is the same of each judgement: when it was made, of which files and by which code, and what it rests on."""
    return {
        "judged_on": now(),
        "inputs": [it._asdict() for it in inputs],
        "weft": {"version": __version__, "sha256": packages.digest(), "program": program_of()},
        "assumed": assumed(judged_by),
        "theorem": fill("theorem"),
        "not_shown": [fill(key) for key in NOT_SHOWN],
    }


def program_of() -> Optional[str]:
    """The digest of the program at hand, by which each part of a judgement is that isn't the library's."""
    path = program.find_program()
    return program.digest_of(path) if path else None


def troubled(group: Sequence[Named], trouble: Trouble) -> Facts:
    """What is known of files that weren't judged."""
    told = {"files": [it.path for it in group], "headline": Headline.NOT_JUDGED.value, "shown": False, "status": int(trouble.status), "says": [trouble.describe()]}
    return {**told, **common(inputs_of(group, None, None), [])}


def services_of(judgement: Judgement) -> list[str]:
    """The services of whose lines a judgement is."""
    of_history = [judgement.history.service] if judgement.history is not None else []
    return [*of_history, *(line.service for line in judgement.lines), *(needed.service for needed in judgement.missing)]


def bound_step(judgement: Judgement) -> Optional[int]:
    """Up to which step a history is bound, 0 for by no line; None of another file."""
    if judgement.history is None:
        return None
    line = judgement.history.held.bound
    return line.step if line is not None and not judgement.history.held.differing else 0


def picture_of(judge: Bench, group: Sequence[Named], judgement: Judgement, outcome: Outcome) -> Optional[str]:
    """The picture of what is shown, of a history of all of it; None where nothing is."""
    if outcome.headline not in (Headline.SHOWN, Headline.IN_PART) or judgement.verdict is None:
        return None
    if judgement.history is None:
        report = report_of(judge, list(group), judgement)
        return None if report is None else pictures.verdict(report, judgement.counting, map_name(list(group)))
    steps = list(listing.of_file(group[0].path, group[0].data).steps)
    return pictures.history(judgement.history.service, steps, bound_step(judgement) or 0)
