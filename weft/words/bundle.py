"""`weft bundle`: a proof with all that it takes to judge it, in one file."""

from __future__ import annotations

import argparse
import os
from pathlib import Path
from typing import NamedTuple, Sequence

from weft import choosing, files, formats, judges, lines, outcomes, reports, signatures, stamps
from weft.choosing import Judgement
from weft.deciding.bundles import HELD, HIGH, KEYS, LINES, MOST_BYTES, MOST_NUMBER, NAMED, PROOF, README, RECORDS, are_judged_together, write_bundle
from weft.deciding.signatures import Signed, read_armour, read_signed_line
from weft.lines import KeptLines, Line, anchors
from weft.outcomes import Named
from weft.output import say, say_json
from weft.statuses import Status
from weft.texts import count_of, listed, name_of, typed
from weft.trouble import Trouble

NAME = "bundle"
DETAILS = (
    "It is a zip file of the proof, or of two map files, the lines that it needs, their signatures and stamps, and a text for whoever has no weft. Its lines stay the "
    "sender's until a kept line, a noted key, or a stamp by a trusted authority meets them."
)
STATUSES = (Status.NOT_SHOWN, Status.CONTRADICTION, Status.MISSING, Status.REFUSED, Status.SHOWN_BY_REFERENCE)
EXAMPLE = "weft bundle paid.zip paid.proof --file paid.csv --line log.line"
# By which command of the program these are judged.
CALLS = {"low map": "checkmap proof proof-2", "evidence": "checkfork proof"}
TEXT = """What is in here
===============

proof       a proof that something was recorded in a log, made by Timeweave; of two map files the low one, and in proof-2 the high one
record      the record itself, where it is here, and record-2 a second one; record.name has its name
lines       the lines of the logs under which the proof holds, as whoever sent this says
held        further lines, which the proof carries, and whoever sent this keeps
signed-N    such a line, and signed-N.sig its signature (ssh-keygen -Y verify)
keys        the fingerprints of the keys that made these
stamped-N   such a line, and stamp-N the answer of a time-stamping authority (RFC 3161)

How to check it
===============

Take nothing that checks from whoever sent you this. With the page timeweave.html, or the program timeweave, of a release:

    timeweave CALL lines

That says what the proof shows under these lines. Whose they are it doesn't say: ask somebody who kept a line of that log for it, and is neither its
keeper nor whoever sent you this. A signature says so, if you have the key by another way:

    echo "NAME namespaces=\\"timeweave-line\\" KEY" > allowed
    ssh-keygen -Y verify -f allowed -I NAME -n timeweave-line -s signed-1.sig < signed-1

A stamp says by when the line was there, and not whose it is, if you trust the authority:

    openssl ts -verify -data stamped-1 -in stamp-1 -partial_chain -CAfile CERTIFICATES

An event of a file has its SHA-256 digest: sha256sum record.
"""


KINDS = ("event", "precedence", "thread", "absence", "link", "evidence", "low map", "high map")


class Made(NamedTuple):
    """The files of a bundle, how many lines, signatures and stamps it has, and the lines that the proof carries."""

    files: dict[str, bytes]
    lines: int
    signed: int
    stamped: int
    carried: tuple[Line, ...]


def add(parser: argparse.ArgumentParser) -> None:
    """The words."""
    parser.add_argument("out", metavar="OUT", help="the bundle, as paid.zip")
    parser.add_argument("proof", metavar="PROOF", help="the proof")
    parser.add_argument("high", metavar="HIGH", nargs="?", help="the high map file, beside a low one")
    parser.add_argument("--file", metavar="F", action="append", default=[], help="the record; of a chain both")
    parser.add_argument("--line", metavar="LINE", action="append", default=[], help="a signed line; may be repeated")
    parser.add_argument("--kept", metavar="FILE", type=Path, action="append", help="a file of kept lines; may be repeated (else WEFT_KEPT, ..)")
    parser.add_argument("--reference", action="store_true", help="judges by the Python reference alone")
    parser.add_argument("--json", action="store_true", help="writes JSON")


def run(options: argparse.Namespace) -> Status:
    """Makes the bundle."""
    if len(options.file) > len(RECORDS):
        raise Trouble(Status.USAGE, f"a bundle has {len(RECORDS)} records at most", "Send the others beside it.")
    judge, group = judges.bench(options.reference), read_group([options.proof, *([options.high] if options.high else [])])
    signed = [signed_line(path) for path in options.line]
    kept = lines.kept_of(options.kept)
    for it in signed:
        if it.line not in [one.line for one in kept.at(it.line.service, it.line.step)]:
            kept.add(lines.Kept(it.line, "", "named"))
    judgement = judgement_under(judge, group, kept)
    made = files_of(options, group, judgement, signed, kept)
    whole = write_bundle(made.files)
    if len(whole) > MOST_BYTES:
        raise Trouble(Status.REFUSED, f"it would have {len(whole):,} bytes, and a bundle has at most {MOST_BYTES:,}", "Leave --file out, and send the record beside it.")
    files.hand_out(options.out, whole)
    return tell(options, judge, made)


def read_group(paths: Sequence[str]) -> list[Named]:
    """The files that are judged together; raises Trouble where they aren't."""
    group = [Named(path, data, formats.kind_of(data)) for path in paths for data in [formats.read_file(path)]]
    bad = next((it for it in group if it.kind not in KINDS), None)
    if bad is not None:
        raise Trouble(Status.UNREADABLE, f"{name_of(bad.path)} is no proof", "Name a proof, evidence, or a low map file and behind it the high one.")
    if len(group) == 2 and not are_judged_together([it.kind for it in group]):
        raise Trouble(Status.USAGE, f"{name_of(paths[0])} and {name_of(paths[1])} aren't a low map file and a high one", "A bundle has one proof: make one of each.")
    return group


def signed_line(path: str) -> Signed:
    """The signed line of a file; raises Trouble where it has none."""
    data = files.read(path, signatures.MOST_BYTES)
    both = read_signed_line(data)
    if both is None:
        armour = read_armour(files.read_if_there(f"{path}.sig", signatures.MOST_BYTES) or b"")
        line = stamps.line_of(path, data)
        both = Signed(line, armour) if armour is not None else None
    if both is None:
        raise Trouble(Status.UNREADABLE, f"{name_of(path)} has no signature, nor has {name_of(path)}.sig", "A line that isn't signed goes with the proof by itself: keep it.")
    return both


def judgement_under(judge: judges.Bench, group: list[Named], kept: KeptLines) -> Judgement:
    """The judgement under the lines under which the proof is accepted; raises Trouble where it isn't."""
    judgement = choosing.with_held(judge, group[0].data, kept, outcomes.judgement_of(judge, kept, group, allow_carried=True))
    if judgement.missing or judgement.verdict is None:
        told = " ".join(choosing.missing_sentences(judgement.missing, kept, group[0].data)) or judgement.hindrance
        raise Trouble(Status.MISSING, told.removesuffix("."), "Name a file of the line by --kept, or a signed one by --line.")
    if not judgement.verdict.is_accepted:
        names = " and ".join(name_of(it.path) for it in group)
        raise Trouble(Status.NOT_SHOWN, f"{names} isn't accepted: nobody could be shown anything by it", f"weft judge {' '.join(typed(it.path) for it in group)} says why.")
    return judgement


def files_of(options: argparse.Namespace, group: list[Named], judgement: Judgement, signed: list[Signed], kept: KeptLines) -> Made:
    """The files of the bundle."""
    resting, held = judgement.lines, [line for line in judgement.held if line not in judgement.lines]
    found = {README: text_for(group[0].kind, bool(carried_by(judgement))).encode(), LINES: anchors(resting), **{name: it.data for name, it in zip((PROOF, HIGH), group)}}
    if held:
        found[HELD] = anchors(held)
    for name, path in zip(RECORDS, options.file):
        found[name], found[f"{name}{NAMED}"] = files.read(path, MOST_BYTES), os.fsencode(os.path.basename(path)) + b"\n"
    keys, signed = [], [it for it in signed if it.line in (*resting, *held)][:MOST_NUMBER]
    for number, one in enumerate(signed, 1):
        found[f"signed-{number}"], found[f"signed-{number}.sig"] = one.text, one.signature
        keys.append(f"{one.line.service} {signatures.signing_key(one)}\n")
    if keys:
        found[KEYS] = "".join(dict.fromkeys(keys)).encode()
    stamped = [(line, it.data) for line in (*resting, *held) for it in stamps.stamps_of(kept, line)][:MOST_NUMBER]
    for number, (line, stamp) in enumerate(stamped, 1):
        found[f"stamped-{number}"], found[f"stamp-{number}"] = f"{line.text}\n".encode(), stamp
    return Made(found, len(resting) + len(held), len(signed), len(stamped), carried_by(judgement))


def text_for(kind: str, is_carrying: bool) -> str:
    """The text for a stranger, with the command that judges the proof."""
    return TEXT.replace("CALL", CALLS.get(kind, "verify proof" if is_carrying else "strict proof"))


def carried_by(judgement: Judgement) -> tuple[Line, ...]:
    """The lines that an accepted proof carries."""
    return reports.read_report(judgement.verdict).carried if judgement.call in ("strict", "verify") and judgement.verdict is not None else ()


def tell(options: argparse.Namespace, judge: judges.Bench, made: Made) -> Status:
    """Says what is in it."""
    status = judge.status(True)
    if options.json:
        carried = [line._asdict() for line in made.carried]
        say_json({"file": options.out, "names": sorted(made.files), "lines": made.lines, "signed": made.signed, "stamped": made.stamped, "carried": carried, "status": int(status)})
        return status
    records = sum(name in made.files for name in RECORDS)
    what = [*([["the record"], ["both records"]][records - 1] if records else []), count_of(made.lines, "line"), count_of(made.signed, "signature"), count_of(made.stamped, "stamp")]
    say(f"{name_of(options.out)} has the proof, {', '.join(what)}. Who gets it judges it by: weft judge {typed(options.out)}")
    if made.carried:
        steps = listed([f"step {line.step} of {line.service}" for line in made.carried])
        say(f"It carries the line of {steps}: who neither kept that nor noted a key that signed it is shown it in part, or says --carried.")
    return status
