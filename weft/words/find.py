"""`weft find`: where something was recorded."""

from __future__ import annotations

import argparse
import os
from pathlib import Path
from typing import Sequence

from weft import files, judges
from weft.deciding.matching import digests_of
from weft.deciding.standing import Command
from weft.deciding.worst import worst_of
from weft.finding import HEAD, Place, Proved, Prover, Wanted, beside_it, in_history, in_json, named, of_text, proof_name
from weft.judges import Bench
from weft.output import collect, complain, say, say_json
from weft.parts import Part
from weft.progress import with_progress
from weft.recorded import exported_events
from weft.standing import Standing
from weft.statuses import Status
from weft.texts import beside, name_of
from weft.trouble import Trouble

NAME = "find"
DETAILS = (
    "It is looked for in all parts of the service, in SERVICE.records and SERVICE.entries. Each place that is found is proved by the service, under its last line, before it "
    "is told; that there is no other isn't."
)
STATUSES = (Status.LOOK, Status.OLD_STORE)
EXAMPLE = "weft find /srv/register deed.pdf\nweft find /srv/register --text 'deed 4711 was sold' --proofs proofs"


def add(parser: argparse.ArgumentParser) -> None:
    """The words."""
    parser.add_argument("service", metavar="SERVICE", type=Path, help="the folder of the service")
    parser.add_argument("wanted", metavar="WHAT", nargs="*", help="a file, or a digest in hexadecimal; several may be named")
    parser.add_argument("--text", metavar="TEXT", action="append", default=[], help="a text; may be repeated")
    parser.add_argument("--all", action="store_true", help="reads the whole store, whatever stands beside it")
    parser.add_argument("--proofs", metavar="FOLDER", type=Path, help="writes the proof of each place into this folder")
    parser.add_argument("--json", action="store_true", help="writes JSON, a line for each that is looked for")


def run(options: argparse.Namespace) -> Status:
    """Finds what is named."""
    if options.json:
        collect()
    wanted = [*(named(word) for word in options.wanted), *(of_text(text) for text in options.text)]
    if not wanted:
        raise Trouble(Status.USAGE, "nothing is named that is to be found", "Name a file, a digest, or --text TEXT.")
    service, judge = files.folder_named(options.service), judges.bench()
    files.expect_folder(service, "the folder of the service")
    standing = Standing(service, judge)
    going, found = standing.expect(Command.FIND, "Nothing was looked for"), standing.parts
    with judge.working():
        places = places_of(options, judge, found, {it.digest for it in wanted})
        lacking = [it for it in with_progress(wanted, "finding:", len(wanted)) if not tell(options, judge, it, places.get(it.digest, []))]
    going.tell()
    if lacking and not options.all:
        complain(f"What wasn't found may be recorded all the same, if {name_of(beside(service, '.records'))} lacks it: weft find --all reads the store.")
    return worst_of([Status.REFUSED if lacking else Status.DONE, going.status])


def places_of(options: argparse.Namespace, judge: Bench, found: Sequence[Part], wanted: set[str]) -> dict[str, list[Place]]:
    """The places of digests in all parts, each of which is read once: of the store with --all, else as what stands beside it tells them."""
    places: dict[str, list[Place]] = {}
    for part in found:
        for digest, place in in_history(exported_events(part.store, judge, part.last), part, wanted) if options.all else beside_it(part, wanted):
            places.setdefault(digest, []).append(place)
    return places


def proved_at(judge: Bench, it: Wanted, place: Place) -> Proved:
    """The proof of a place; raises Trouble where the store hasn't there what is looked for."""
    proved = None
    if place.step <= place.part.last.step and place.index < place.part.store.count(place.step, place.part.last.step):
        proved = Prover(judge, place.part).proved(place)
    if proved is None or it.digest not in digests_of(proved.event):
        told = f"what stands beside {name_of(place.part.folder)} tells of {it.told} in step {place.step}, index {place.index}, and the store has something else there"
        raise Trouble(Status.OLD_STORE, told, "Was that changed, or another store put there? weft find --all reads the store alone.")
    return proved


def tell(options: argparse.Namespace, judge: Bench, it: Wanted, places: list[Place]) -> bool:
    """Tells where it is recorded, each place proved, and writes the proofs; answers whether it is."""
    proved = [(place, proved_at(judge, it, place)) for place in places]
    written = [write(options.proofs, it, place, made) for place, made in proved] if options.proofs is not None else []
    if options.json:
        say_json({"digest": it.digest, "found": [in_json(place) for place in places], "proofs": [os.fspath(path) for path in written]})
    elif not places:
        complain(f"{it.told} isn't recorded." if options.all else f"{it.told} isn't among what was recorded.")
    else:
        for place in places:
            key = f", key {place.key}" if place.key else ""
            say(f"{it.told}: step {place.step} of {place.part.last.service}, index {place.index}{key}")
        for path in written:
            say(f"  {name_of(path)}")
    return bool(places)


def write(folder: Path, it: Wanted, place: Place, made: Proved) -> Path:
    """Writes the proof of a place, and answers its file."""
    files.make_folder(folder)
    path = folder / proof_name(it, place)
    files.expect_begins(path, made.proof[:HEAD], "proof")
    files.hand_out(path, made.proof)
    return path
