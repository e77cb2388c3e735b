"""`weft chain`: the proof that one event precedes another."""

from __future__ import annotations

import argparse
import os
import re
from contextlib import ExitStack, contextmanager
from pathlib import Path
from typing import Iterator, Optional, Sequence

from weft import chains, choosing, files, formats, judges, locks, outcomes, pictures, readers, reports, signatures
from weft.chains import Event, Misfit, Part, Plan, Sources
from weft.deciding.choosing import Headline
from weft.deciding.standing import Command
from weft.deciding.worst import worst_of
from weft.judges import Bench
from weft.lines import LAST_STEP, KeptLines
from weft.outcomes import Named, Outcome
from weft.output import collect, complain, say
from weft.parts import Part as PartOfLog
from weft.standing import Standing
from weft.statuses import Status
from weft.texts import count_of, listed, name_of, typed
from weft.trouble import Trouble

NAME = "chain"
DETAILS = (
    "It finds a way from the earlier event to the later one by the receipts of boxes, stores and files. It takes each part from where it is at hand, and "
    "asks peers for the others by their requests: run weft exchange, let it be carried, and run weft chain again. It joins them, and has the whole "
    "judged strictly. Or it says which part is missing and whom to ask. Peers of your boxes are asked, and over them the services that they exchange with; of "
    "others it says the command, to be asked for by hand (--hand). An event is named NAME:STEP:INDEX, or by a file that has its proof."
)
STATUSES = (
    Status.NOT_SHOWN, Status.CONTRADICTION, Status.MISSING, Status.BUSY, Status.OLD_STORE, Status.SHOWN_BY_REFERENCE, Status.NOT_SHOWN_BY_REFERENCE,
)  # fmt: skip
EXAMPLE = (
    "weft chain data:1:0 sent.proof --store /srv/log --store /srv/bank --box /srv/box --out chain\n"
    "weft chain data:1:0 sent.proof --store /srv/log --store /srv/bank --for his.lines"
)
MOST_FILES = 10_000
WAIT = 30


def add(parser: argparse.ArgumentParser) -> None:
    """The words."""
    parser.add_argument("earlier", metavar="EARLIER", help="the earlier event")
    parser.add_argument("later", metavar="LATER", help="the later event")
    parser.add_argument("--store", metavar="DIR", action="append", default=[], type=Path, help="the folder of a service of your own; may be repeated")
    parser.add_argument("--box", metavar="BOX", action="append", default=[], type=Path, help="a box with what peers handed out; may be repeated")
    parser.add_argument("--hand", metavar="FILE", action="append", default=[], type=Path, help="receipts or proofs, a file or a folder; may be repeated")
    parser.add_argument("--kept", metavar="FILE", type=Path, action="append", help="a file of kept lines; may be repeated (else WEFT_KEPT, ..)")
    signatures.add_signers(parser)
    readers.add_for(parser)
    parser.add_argument("--out", metavar="FILE", help="where the proof is written (else chain, where that is free)")
    parser.add_argument("--svg", metavar="OUT", help="draws it")
    parser.add_argument("--reference", action="store_true", help="judges by the Python reference alone, which is tested and not proved")
    parser.add_argument("--json", action="store_true", help="writes JSON")


def event_of(word: str) -> Event:
    """The event of a word: NAME:STEP:INDEX, or a file that has its proof."""
    fields = re.fullmatch(r"([a-z0-9-]{1,16}):([1-9][0-9]{0,12}):(0|[1-9][0-9]{0,3})", word)
    if fields and int(fields[2]) <= LAST_STEP:
        return Event(fields[1], int(fields[2]), int(fields[3]))
    if not os.path.lexists(word):
        raise Trouble(Status.USAGE, f"{name_of(word)} names no event, and there is no such file", "An event is NAME:STEP:INDEX, as bank:31:2.")
    data = files.read(word, formats.MOST_PROOF)
    proof = formats.read_proof(data)
    if not isinstance(proof, formats.proofs.ExistenceProof):
        raise Trouble(Status.UNREADABLE, f"{name_of(word)} has no proof of an event", "weft tell says what it has.")
    return Event(proof.service, proof.step, proof.event.index, data)


def at_hand(paths: list[Path]) -> list[bytes]:
    """The files that were named, and those of named folders."""
    folders = [path for path in paths if path.is_dir()]
    found = [path for folder in folders for path in sorted(folder.iterdir()) if path.is_symlink() or not path.is_dir()]
    if len(found) + len(paths) > MOST_FILES:
        raise Trouble(Status.USAGE, f"{len(found) + len(paths):,} files are named by --hand, and {MOST_FILES:,} are read at most", "Name fewer.")
    named = [files.read(path, formats.MOST_PROOF) for path in paths if path not in folders]
    return named + [data for path in found if (data := read_below(path)) is not None]


def read_below(path: Path) -> Optional[bytes]:
    """The bytes of a file of a named folder, which somebody else may have filled: no link is followed there, and what can't be read is told and passed over."""
    try:
        return files.read(path, formats.MOST_PROOF, follow=False)
    except Trouble as trouble:
        complain(f"passed over: {trouble.describe()}")
        return None


def parts_of(folder: Path, judge: Bench) -> list[PartOfLog]:
    """The parts of a service of one's own; raises Trouble where they aren't those of the lines that stand beside them."""
    standing = Standing(folder, judge)
    standing.expect(Command.CHAIN, "No chain was made")
    return standing.made


def run(options: argparse.Namespace) -> Status:
    """Makes the chain."""
    if options.json:
        collect()
    first, second = event_of(options.earlier), event_of(options.later)
    if options.reader and options.kept:
        raise Trouble(Status.USAGE, "--for names the reader's lines, and --kept one's own", "Leave one of both out.")
    kept, judge = readers.counted_for(options), judges.bench(options.reference)
    for text in choosing.told_kept(options.kept):
        say(text)
    if options.reader:
        say(readers.told_for(options))
    for text in choosing.uncounted_sentences(kept, kept.uncounted):
        say(text)
    hand = at_hand(options.hand) + [event.proof for event in (first, second) if event.proof is not None]
    services = [(folder, parts_of(folder, judge)) for folder in options.store]
    sources = Sources([part.store for _, of_one in services for part in of_one], options.box, hand, kept, judge, bool(options.reader))
    if options.reader:
        for folder, of_one in services:
            readers.expect_same(folder, judge, of_one, kept)
        second = for_reader(kept, second)
    try:
        plan, parts, proof = chains.gathered(sources, first, second)
    except Misfit as misfit:
        raise asked_again(options.box, sources, misfit, misfit.parts) from None
    if proof is None:
        further = chains.further_parts(sources, first, second, plan)
        with held_boxes(options.box):
            return tell_missing(sources, plan, parts, further)
    named = [Named("what was joined", proof, formats.kind_of(proof))]
    judgement = outcomes.judgement_of(judge, kept, named, allow_carried=False)
    outcome = outcomes.outcome_of(judge, kept, named, judgement)
    if outcome.headline is not Headline.SHOWN or judgement.verdict is None:
        return tell_refused(options.box, sources, judgement, outcome, plan)
    out = options.out or files.unchosen("chain", proof)
    files.hand_out(out, proof)
    say(f"{name_of(out)}: {outcome.title}, {len(proof):,} bytes")
    for line in outcomes.sentences(judge, judgement, outcome):
        say(f"  {line}")
    if options.reader:
        say(f"He judges it by: weft judge {typed(out, 'PROOF')}")
    if options.svg:
        files.hand_out(options.svg, pictures.verdict(reports.read_report(judgement.verdict), judgement.lines, None).encode())
    return worst_of([outcome.status, kept.status])


def for_reader(kept: KeptLines, second: Event) -> Event:
    """The later event for a reader: a proof of it under a line that he doesn't hold is left aside, and one under a line of his is made or asked for."""
    proof = formats.read_proof(second.proof) if second.proof is not None else None
    return second._replace(proof=None) if proof is not None and not kept.at(proof.service, proof.top) else second


def tell_missing(sources: Sources, plan: Plan, parts: list[bytes | None], further: list[Part]) -> Status:
    """Which parts are missing, and whom to ask; those that further ways need are asked for too."""
    have = sum(part is not None for part in parts)
    say(f"A way over {len(plan.hops)} {'hop' if len(plan.hops) == 1 else 'hops'} is known; {have} of its {len(parts)} parts are at hand. Missing:")
    for part, data in zip(plan.parts, parts):
        if data is None:
            say(f"  {sources.ask(part)}")
    asked = [part for part in further if sources.ask_peers(part)]
    if asked:
        say(f"{count_of(len(asked), 'part')} of further ways {'is' if len(asked) == 1 else 'are'} asked for too: a receipt may be made up.")
    return Status.MISSING


@contextmanager
def held_boxes(boxes: Sequence[Path]) -> Iterator[None]:
    """Holds the locks of the boxes, as a turn does: what peers are asked for is noted there."""
    with ExitStack() as held:
        for path in sorted({os.path.realpath(it) for it in boxes}):
            held.enter_context(locks.held(Path(path) / ".lock", WAIT, path))
        yield


def asked_again(boxes: Sequence[Path], sources: Sources, trouble: Trouble, parts: Sequence[Part]) -> Trouble:
    """The trouble, once peers are asked anew for what was at hand by their answers: any of them may be made up."""
    with held_boxes(boxes):
        names = sources.ask_again(parts)
    if not names:
        return trouble
    again = f"The answers of {listed(names)}, which nobody signs, are asked for again by the next weft exchange."
    return Trouble(trouble.status, trouble.sentence, f"{trouble.advice} {again}")


def tell_refused(boxes: Sequence[Path], sources: Sources, judgement: choosing.Judgement, outcome: Outcome, plan: Plan) -> Status:
    """Why what was joined isn't handed out, as weft judge says it."""
    if judgement.verdict is not None and not judgement.is_shown:
        told = f"what was joined isn't accepted: {reports.reason_sentence(judgement.verdict)[0].removesuffix('.')}"
        refused = Trouble(outcome.status, told, "A part may be of another history than your lines: ask for it again.")
        raise asked_again(boxes, sources, refused, plan.parts)
    say(f"What was joined, and isn't written: {outcome.title}")
    for sentence in outcomes.sentences(sources.judge, judgement, outcome):
        say(f"  {sentence}")
    if outcome.contradicted:
        say("  In the place of this file keep its parts: they stay where they are.")
    return outcome.status
