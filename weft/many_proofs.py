"""The proofs of all that a list names, in all parts of a service: the history of each part is read once, and what the proofs of a step share is computed once. Each
proof is under the last line of its part, which SERVICE.anchor has."""

from __future__ import annotations

import argparse
import os
from pathlib import Path
from typing import Iterable, Iterator

from weft import files, judges
from weft.deciding.listing import join_names
from weft.deciding.matching import digests_of
from weft.deciding.standing import Command
from weft.deciding.worst import worst_of
from weft.finding import HEAD, Place, Prover, Wanted, beside_it, in_history, in_json, listed, proof_name
from weft.judges import Bench
from weft.output import complain, say, say_json
from weft.parts import Part
from weft.progress import with_progress
from weft.recorded import history_of
from weft.standing import Standing
from weft.statuses import Status
from weft.texts import beside, count_of, name_of
from weft.trouble import Trouble

# Of what isn't recorded so many are told each.
MOST_TOLD = 20


def prove_many(service: Path, options: argparse.Namespace) -> Status:
    """Makes the proofs."""
    if options.step is not None or options.top is not None or options.reader or options.out is None:
        advice = "weft prove SERVICE --many LIST --out FOLDER, and none of --step, --top and --for."
        raise Trouble(Status.USAGE, "--many takes a list, and a folder for the proofs as --out", advice)
    wanted = together(listed(options.file))
    if not wanted:
        raise Trouble(Status.USAGE, f"{name_of(options.file)} names nothing", "A line each: a digest as sha256sum writes it, or a file.")
    judge, folder = judges.bench(), Path(options.out)
    standing = Standing(service, judge)
    going = standing.expect(Command.FIND, "No proof was made")
    files.make_folder(folder)
    made, found = 0, set[str]()
    with judge.working():
        for part in standing.parts:
            for digest, path in proved_in(judge, part, wanted, folder, options.json):
                found.add(digest)
                made += 1
    lacking = [it for digest, it in wanted.items() if digest not in found]
    tell_end(service, options, made, lacking)
    going.tell()
    return worst_of([Status.REFUSED if lacking else Status.DONE, going.status])


def together(found: Iterable[Wanted]) -> dict[str, Wanted]:
    """What is wanted, by digests: of what has one content one proof is made, which tells all its names."""
    names: dict[str, list[Wanted]] = {}
    for it in found:
        names.setdefault(it.digest, []).append(it)
    return {digest: same[0]._replace(told=join_names([it.told for it in same])) for digest, same in names.items()}


def proved_in(judge: Bench, part: Part, wanted: dict[str, Wanted], folder: Path, is_json: bool) -> Iterator[tuple[str, Path]]:
    """The digests that a part has, each with the file of its proof, which is judged before it is written."""
    history = history_of(part.store, part.last, "No proof was made") if part.last.step else None
    # (one that is longer than a file may be isn't read: what stands beside it tells the places)
    places = list(in_history(enumerate(history.timeline.steps, 1), part, wanted) if history is not None else beside_it(part, wanted))
    prover = Prover(judge, part, history)
    for digest, place in with_progress(places, f"proving, of {part.last.service}:", len(places)):
        it, proved = wanted[digest], prover.proved(place)
        if digest not in digests_of(proved.event):
            told = f"the store in {name_of(part.folder)} has something else in step {place.step}, index {place.index}, than what stands beside it tells"
            raise Trouble(Status.OLD_STORE, told, "weft check holds both against each other.")
        path = folder / proof_name(it, place)
        files.expect_begins(path, proved.proof[:HEAD], "proof")
        files.hand_out(path, proved.proof)
        tell_made(it, place, path, is_json)
        yield digest, path


def tell_made(it: Wanted, place: Place, path: Path, is_json: bool) -> None:
    """Tells of a proof."""
    if is_json:
        say_json({"digest": it.digest, "found": [in_json(place)], "proofs": [os.fspath(path)]})
    else:
        say(f"{name_of(path)}: {it.told}, step {place.step} of {place.part.last.service}, index {place.index}")


def tell_end(service: Path, options: argparse.Namespace, made: int, lacking: list[Wanted]) -> None:
    """Tells what isn't recorded, and under which lines the proofs are."""
    for it in lacking[:MOST_TOLD]:
        complain(f"{it.told} isn't recorded.")
    if lacking[MOST_TOLD:]:
        complain(f"{count_of(len(lacking) - MOST_TOLD, 'other')} aren't either.")
    if options.json:
        say_json({"made": made, "lacking": [it.digest for it in lacking]})
    else:
        say(f"{count_of(made, 'proof')}, for whoever holds the lines of {name_of(beside(service, '.anchor'))}.")
