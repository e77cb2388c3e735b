"""`weft prove`: the proof of a file that was logged."""

from __future__ import annotations

import argparse
import os
from pathlib import Path
from typing import NamedTuple, Optional, Sequence

from weft import chains, choosing, files, judges, many_proofs, own, readers, reports
from weft.chains import Event, Sources
from weft.deciding.choosing import choose_older_step
from weft.deciding.gone import GONE
from weft.deciding.known import Entry
from weft.deciding.standing import Command
from weft.deciding.worst import worst_of
from weft.entries import read_event
from weft.events import told_event
from weft.judges import Bench
from weft.lines import KeptLines, Line, kept_now
from weft.output import collect, complain, say
from weft.parts import Part
from weft.recorded import expect_end, expect_true
from weft.standing import Standing
from weft.statuses import Status
from weft.texts import beside, listed, name_of, typed
from weft.trouble import Trouble

NAME = "prove"
DETAILS = (
    "It looks the file's last entry up in SERVICE.entries, has the service prove it under its last line, or under that of the step --top, which the "
    "reader has to hold, and judges the proof before it is handed out. Of a file that an earlier part of the "
    "log has, the proof is that it was recorded before an event of the last part; with --top it is under a line of its own part. With --many all that the list "
    "FILE names is proved, each under the last line of its part, which SERVICE.anchor has."
)
STATUSES = (Status.LOOK, Status.CONTRADICTION, Status.MISSING, Status.OLD_STORE)
EXAMPLE = "weft prove /srv/log paid.csv --top 2 --out paid.proof\nweft prove /srv/log paid.csv --for his.lines\nsha256sum *.pdf | weft prove /srv/register --many - --out proofs"


def add(parser: argparse.ArgumentParser) -> None:
    """The words."""
    parser.add_argument("service", metavar="SERVICE", type=Path, help="the folder of the service")
    parser.add_argument("file", metavar="FILE", help="the path of the file, from the logged folder on, or the end of it")
    many = "FILE is a list, a line each, of digests as sha256sum writes them, or of files, and all that it names is proved; - is standard input. The proofs come into the folder --out"
    parser.add_argument("--many", action="store_true", help=many)
    parser.add_argument("--step", metavar="STEP", type=int, help="takes the entry of this step, and not the last one")
    parser.add_argument("--top", metavar="STEP", type=int, help="the step whose line the reader holds (else the last one)")
    readers.add_for(parser)
    parser.add_argument("--out", metavar="PROOF", help="where the proof is written (else the file's name with .proof behind, in this folder, where no other file has it)")
    parser.add_argument("--json", action="store_true", help="writes JSON")


NO_PROOF = "No proof was made"


class Place(NamedTuple):
    """A step of a service."""

    service: str
    step: int


class Found(NamedTuple):
    """An entry: the part in which it stands, its step and index there, and its event; and the later step that logged the file as gone, where one did."""

    part: Part
    step: int
    index: int  # type: ignore[assignment]
    event: bytes
    gone: Optional[Place] = None


class Made(NamedTuple):
    """A proof that was made, the judgement of it, and the line under which it is."""

    proof: bytes
    judgement: choosing.Judgement
    top: Line


def run(options: argparse.Namespace) -> Status:
    """Makes the proof."""
    if options.json:
        collect()
    service = files.folder_named(options.service)
    if options.many:
        return many_proofs.prove_many(service, options)
    if options.reader and options.top is not None:
        raise Trouble(Status.USAGE, "--for finds the line, and --top names it", "Leave one of both out.")
    judge = judges.bench()
    standing = Standing(service, judge)
    going, all_parts = standing.expect(Command.PROVE if options.step is None else Command.STEP, NO_PROOF), standing.made
    found = entry_of(service, judge, all_parts, options)
    if options.reader:
        say(readers.told_for(options))
        made = for_reader(judge, all_parts, found, readers.counted_for(options), options)
    else:
        made = chained(judge, all_parts, found) if options.top is None and found.part is not all_parts[-1] else under(judge, found, options)
    check(found.part.folder, made.judgement, found.event)
    unseen = expect_last(service, judge, all_parts[found.part.number - 1 :]) if options.step is None else None
    out = options.out or files.unchosen(f"{os.path.basename(options.file)}.proof", made.proof)
    files.hand_out(out, made.proof)
    where = f"in step {found.step} of {found.part.last.service}"
    if made.top.service == found.part.last.service:
        say(f"{name_of(out)}: {told_event(found.event)} {where}, for whoever holds its line of step {made.top.step}: {made.top.text}")
    else:
        between = listed([it.last.text for it in all_parts[found.part.number - 1 : -1]])
        before = f"before step {made.top.step} of {made.top.service}, for whoever holds {made.top.text}"
        say(f"{name_of(out)}: {told_event(found.event)} {where}, {before}; and {between}")
    say(f"  {judge.name_judges(made.judgement.call)}")
    if options.reader:
        say(f"He judges it by: weft judge {typed(out, 'PROOF')} --file {typed(options.file)}")
    told = [unseen] if unseen is not None else []
    if found.gone is not None:
        told.append(f"step {found.gone.step} of {found.gone.service} logged later that {name_of(options.file)} is gone: this is the entry before that.")
    for text in told:
        complain(text)
    going.tell()
    return worst_of([going.status, Status.LOOK if told else Status.DONE])


def under(judge: Bench, found: Found, options: argparse.Namespace) -> Made:
    """The proof of an entry under a line of its own part: the last one, or that of the step --top."""
    last, store = found.part.last, found.part.store
    if options.top is not None and not found.step <= options.top <= last.step:
        told = f"{name_of(options.file)} was logged in step {found.step}, and the last step is {last.step}"
        raise Trouble(Status.REFUSED, told, f"Name a --top from {found.step} to {last.step}.")
    top = own.line_at(store, judge, options.top or last.step, last)
    proof = store.done("prove", "event", str(found.step), str(found.index), str(top.step))
    return Made(proof, choosing.judge_proof(judge, proof, KeptLines(more=[kept_now(top, "own")]), allow_carried=False), top)


def for_reader(judge: Bench, all_parts: list[Part], found: Found, reader: KeptLines, options: argparse.Namespace) -> Made:
    """The proof of an entry under a line that its reader holds: the first one of its own part that has it, else that of the last part, where he has the lines between."""
    last = found.part.last
    readers.expect_same(all_parts[0].folder, judge, all_parts, reader)
    step = choose_older_step(reader.steps(last.service), found.step, last.step + 1)
    if step is not None:
        return under(judge, found, argparse.Namespace(top=step, file=options.file))
    if found.part is not all_parts[-1] and event_of_end(all_parts[-1]) is not None:
        return chained(judge, all_parts, found, reader)
    raise Trouble(
        Status.MISSING,
        f"the reader holds no line of {last.service} that has {name_of(options.file)}, of one of the steps {found.step} to {last.step}",
        f"Ask whoever may have kept one, as a notary, another reader, or a service that received it: a line that {last.service} hands out now binds it, and shows nothing "
        "about the time before. Holds he lines of services that received it: weft chain --for.",
    )


def event_of_end(part: Part) -> Optional[tuple[int, int]]:
    """The step of a part's last entries, and how many there are, behind the one that received the part before; None where there are none."""
    step, count, _ = part.entries.last_step()
    return (step, count) if 1 < step <= part.last.step else None


def chained(judge: Bench, all_parts: list[Part], found: Found, reader: Optional[KeptLines] = None) -> Made:
    """The proof of an entry of an earlier part under the last line of the last one: that it was recorded before an event there; where there is none, under
    the last line of its own part. For a reader it is under his lines."""
    last, end = all_parts[-1], event_of_end(all_parts[-1])
    if end is None:
        return under(judge, found, argparse.Namespace(top=None, file=""))
    step, count = end
    later = last.store.done("prove", "event", str(step), str(count - 1), str(last.last.step)) if reader is None else None
    kept = reader or KeptLines(more=[kept_now(part.last, "own") for part in all_parts])
    sources = Sources([part.store for part in all_parts], [], [], kept, judge, reader is not None)
    made = chains.gathered(sources, Event(found.part.last.service, found.step, found.index), Event(last.last.service, step, count - 1, later))
    if made.proof is None:
        raise Trouble(Status.BAD_STORE, f"the parts of {all_parts[0].last.service} don't make the chain to their last one", "weft check says which is damaged.")
    judgement = choosing.judge_proof(judge, made.proof, kept, allow_carried=False)
    return Made(made.proof, judgement, next((line for line in judgement.lines if line.service == last.last.service), last.last))


def check(service: Path, judgement: choosing.Judgement, event: bytes) -> None:
    """Raises Trouble where the service's own proof isn't accepted, or is of another event than the entry."""
    if judgement.verdict is None or not judgement.is_shown:
        told = f"the proof that the store in {name_of(service)} made isn't accepted under its own line"
        raise Trouble(Status.BAD_STORE, told, "A page of it may be damaged: weft check.")
    if reports.read_report(judgement.verdict).events[0].data != event:
        told = f"the store in {name_of(service)} has another event there than {name_of(beside(service, '.entries'))}"
        raise Trouble(Status.BAD_STORE, told, "Were the entries changed, or another store put there? weft check.")


def entry_of(service: Path, judge: Bench, all_parts: Sequence[Part], options: argparse.Namespace) -> Found:
    """The entry that is to be proved. That there is none isn't said where entries were taken away or changed: then that is told."""
    try:
        return entry(all_parts, os.fsencode(options.file), options.step)
    except Trouble:
        expect_last(service, judge, all_parts)
        raise


def expect_last(service: Path, judge: Bench, later: Sequence[Part]) -> Optional[str]:
    """Raises Trouble where an entry of these parts isn't what the store recorded, or was taken away: then the last one that is there of a file needn't be its
    last one. The answer is why that couldn't be seen, where it couldn't."""
    if files.is_there(beside(later[-1].folder, ".pending")):
        return "a run of weft log was stopped amid a step: this is the last entry that is there. Run it again, and then this."
    unseen = None
    for part in later:
        if part.store.history_size() is not None:
            expect_true(service, judge, part, NO_PROOF)
            continue
        expect_end(service, judge, part, NO_PROOF)
        unseen = f"the history of {part.last.service} is longer than a file may be: whether this is the last entry of its file"
    return f"{unseen} wasn't looked at; weft check --all {name_of(service)} does that." if unseen is not None else None


def note(found: dict[bytes, Found], read: Entry, it: Found) -> None:
    """Notes the last entry of a path with a digest, and which later one tells that the file is gone."""
    if read.word != GONE:
        found[read.path] = it
    elif read.path in found:
        found[read.path] = found[read.path]._replace(gone=Place(it.part.last.service, it.step))


def entry(all_parts: Sequence[Part], name: bytes, step: Optional[int]) -> Found:
    """The last entry of a file, or that of a step; raises Trouble where there is none, or several files have the name."""
    found: dict[bytes, Found] = {}
    wanted = name[2:] if name.startswith(b"./") else name
    for part in all_parts:
        os.close(files.opened(part.entries.path))
        for line in part.entries.lines():
            read = read_event(line.event)
            if read is None or (step is not None and line.step != step):
                continue
            if read.path[2:] == wanted or read.path.endswith(b"/" + wanted):
                note(found, read, Found(part, line.step, line.index, line.event))
    exact = found.get(b"./" + wanted)
    if exact is None and len(found) != 1:
        several = ", ".join(name_of(os.fsdecode(it)) for it in sorted(found)[:5])
        told = f"{name_of(all_parts[0].entries.path)} has {'no' if not found else 'several'} entries of {name_of(os.fsdecode(name))}"
        raise Trouble(Status.REFUSED, told, f"Name one: {several}." if found else "Is it a path from the logged folder on? weft log logs it.")
    return exact or next(iter(found.values()))
