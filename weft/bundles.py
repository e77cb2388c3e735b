"""Bundles, opened: which of the lines that came with a proof count, and what is told of each. The rules stand in `weft.deciding.bundles`."""

from __future__ import annotations

import argparse
import itertools
import shlex
import tempfile
from pathlib import Path
from typing import NamedTuple, Optional

from weft import lines, outcomes, signatures, stamps
from weft.choosing import Judgement
from weft.deciding.bundles import (
    HELD, HIGH, LINES, MOST_NUMBER, PROOF, Met, Record, Unfit, are_judged_together, is_on_a_word, list_records, may_judge_under, meet_line, numbered, read_bundle,
)  # fmt: skip
from weft.deciding.choosing import Headline
from weft.deciding.commands import in_its_folder
from weft.deciding.rows import digest_of
from weft.deciding.signatures import Signed, read_armour
from weft.facts import Facts
from weft.files import Input
from weft.judges import Bench
from weft.kinds import kind_of
from weft.lines import Kept, KeptLines, Line
from weft.outcomes import Named, Outcome
from weft.sentences import fill
from weft.statuses import Status
from weft.texts import name_of, typed
from weft.trouble import Trouble


class Opened(NamedTuple):
    """A bundle that was opened: its proof, of map files both, the lines under which that is judged, what meets each line that came in it, and its records."""

    proofs: list[Named]
    kept: KeptLines
    met: dict[Line, Met]
    keys: dict[Line, str]
    records: list[Record]


def open_bundle(it: Named, kept: KeptLines, days: stamps.Days, signers: Path) -> Opened:
    """Opens a bundle beside the reader's lines, keys and authorities. Raises Trouble where it is none."""
    found = read_bundle(it.data)
    if isinstance(found, Unfit):
        advice = f"{fill('ask for bundle')} {fill('is it the document')} Then: weft judge PROOF --file {typed(it.path)}"
        raise Trouble(Status.UNREADABLE, fill("no bundle", file=name_of(it.path), why=fill(found.value)), advice)
    proofs = [Named(it.path, found[name], kind_of(found[name])) for name in (PROOF, HIGH) if name in found]
    if not are_judged_together([proof.kind for proof in proofs]):
        raise Trouble(Status.UNREADABLE, fill("bundle apart", file=name_of(it.path)), "Ask for a bundle of each.")
    sent = list(dict.fromkeys(line for name in (LINES, HELD) if name in found for line in lines.lines_of(found[name], f"{name_of(it.path)}: {name}")))
    if len(sent) > MOST_NUMBER:
        told = fill("bundle many lines", file=name_of(it.path), count=len(sent), most=MOST_NUMBER)
        raise Trouble(Status.UNREADABLE, told, "Ask for one of a single proof.")
    keys = signed_lines(found, sent, signers)
    for line, pair in itertools.product(sent, numbered(found, "stamped")):
        if pair.text == f"{line.text}\n".encode():
            days.add(line, Path(f"stamp-{pair.number}"), pair.beside)
    met: dict[Line, Met] = {}
    for line in sent:
        held = [one.line for one in kept.at(line.service, line.step)]
        met[line] = meet_line(line, held, line in keys, bool(days.dated([line])))
    counted = with_counted(kept, [Kept(line, "", how_of(line, met[line], keys, it.path)) for line in sent if may_judge_under(met[line])])
    return Opened(proofs, counted, met, keys, list_records(found))


def signed_lines(found: dict[str, bytes], sent: list[Line], signers: Path) -> dict[Line, str]:
    """The lines that are signed by a key which the reader noted of their service, each with that key."""
    keys: dict[Line, str] = {}
    for pair in numbered(found, "signed", ".sig"):
        armour = read_armour(pair.beside)
        line = next((it for it in sent if pair.text == f"{it.text}\n".encode()), None)
        key = signatures.checked(Signed(line, armour), signers) if line is not None and armour is not None else None
        if line is not None and key is not None:
            keys[line] = key
    return keys


def how_of(line: Line, met: Met, keys: dict[Line, str], path: str) -> str:
    """How a line came that counts."""
    return f"in {name_of(path)}, signed by {keys[line]}" if met is Met.KEY else f"in {name_of(path)}, and stamped"


def with_counted(kept: KeptLines, more: list[Kept]) -> KeptLines:
    """The reader's lines, and behind them those of a bundle that count."""
    made = KeptLines()
    made.paths, made.inputs, made.status, made.others = kept.paths, kept.inputs, kept.status, kept.others
    made.uncounted, made.marks = kept.uncounted, kept.marks
    for it in [*kept.all(), *more]:
        made.add(it)
    return made


def with_records(judge: Bench, outcome: Outcome, opened: Opened, judgement: Judgement) -> Outcome:
    """The outcome of an accepted proof, held against each record of its bundle."""
    for record in opened.records:
        if outcomes.is_held_against(judgement, outcome):
            outcome = with_record(judge, outcome, opened, judgement, record)
    return outcome


def with_record(judge: Bench, outcome: Outcome, opened: Opened, judgement: Judgement, record: Record) -> Outcome:
    """The same, held against one."""
    with tempfile.TemporaryDirectory(prefix="weft-") as folder:
        path = Path(folder) / record.name
        path.write_bytes(record.data)
        found = outcomes.unless_troubled(outcome, lambda it: outcomes.with_file(judge, it, judgement, opened.proofs, str(path)))
        told = [text.replace(f"{folder}/", "") for text in found.told]
        return found._replace(told=told, inputs=tuple(it._replace(file=it.file.replace(f"{folder}/", "")) for it in found.inputs))


def with_met(outcome: Outcome, opened: Opened, judgement: Judgement, kept: KeptLines) -> Outcome:
    """The outcome, with what meets each line of the bundle: one that differs from the reader's is told as two lines, and what rests on a line that only a stamp meets is shown
    in part."""
    told = [fill(met.value, service=line.service, step=line.step, by=opened.keys.get(line, "")) for line, met in opened.met.items() if met is not Met.OTHER]
    others, differing = outcomes.beside_kept([line for line, met in opened.met.items() if met is Met.OTHER], kept, {})
    if others:
        changed = outcomes.under_headline(outcome, Headline.NOT_SHOWN if outcome.headline is not Headline.NOT_JUDGED else outcome.headline, Status.CONTRADICTION, [*differing, *outcome.told, *told])
        return changed._replace(contradicted=[*outcome.contradicted, *others])
    if outcome.is_refuted and is_on_a_word(judgement.counting, opened.met):
        alone = "It contradicts itself, under a line of which only the sender says whose it is: nothing is shown, and against nobody."
        return outcome._replace(status=Status.NOT_SHOWN, told=[alone, *told])
    if outcome.headline is Headline.SHOWN and is_on_a_word(judgement.counting, opened.met):
        part = outcomes.under_headline(outcome, Headline.IN_PART, Status.NOT_SHOWN, [*outcome.told, *told])
        return part._replace(aside=f": {fill('on a word')}")
    return outcome._replace(told=[*outcome.told, *told])


def expect_alone(options: argparse.Namespace) -> None:
    """Raises Trouble where words don't go with a bundle."""
    if options.audit or options.top is not None:
        raise Trouble(Status.USAGE, "--audit and --top aren't for a bundle", "Take its proof out by any program that opens zip files.")


def taken_out(opened: Opened) -> list[Named]:
    """The proof of a bundle, of map files both, by the names that they have in it."""
    return [it._replace(path=name) for it, name in zip(opened.proofs, (PROOF, HIGH))]


def facts_of(known: Facts, it: Named, opened: Opened) -> Facts:
    """The facts of a bundle's proof, as those of the bundle: its digest, what meets each of its lines, and how to take the proof out."""
    name = shlex.quote(in_its_folder(it.path))
    met = [{**line._asdict(), "met": met.name.lower(), "key": opened.keys.get(line)} for line, met in opened.met.items()]
    again = [f"sha256sum {name}", f"unzip -n {name} -d opened && cd opened", *list_of(known["again"])[1:]]
    return {**known, "files": [it.path], "sha256": [digest_of(it.data)], "again": again, "bundle": met, "inputs": [Input("bundle", it.path, len(it.data), digest_of(it.data))._asdict(), *list_of(known["inputs"])]}


def list_of(value: object) -> list[object]:
    """A list among the facts."""
    return list(value) if isinstance(value, list) else []
