"""For whose lines a proof is made: those that its reader holds, and no others."""

from __future__ import annotations

import argparse
from pathlib import Path
from typing import Optional, Sequence

from weft import own, signatures
from weft.deciding.restoring import Told
from weft.judges import Bench
from weft.lines import KeptLines, Line, kept_of
from weft.parts import Part
from weft.standing import Standing
from weft.statuses import Status
from weft.stores import Store
from weft.texts import listed, name_of
from weft.trouble import Trouble

UNMADE = "No proof was made"


def add_for(parser: argparse.ArgumentParser) -> None:
    """The word that names the reader's lines."""
    parser.add_argument("--for", dest="reader", metavar="LINES", type=Path, action="append", help="the reader's lines: it is made under these alone, and those that he lacks are told; may be repeated")


class ReadersLines(KeptLines):
    """The lines that a reader holds: which of two of one step counts, he alone says."""

    def contradiction(self, service: str, step: int, path: Optional[Path] = None) -> Trouble:
        """That lines of this step contradict."""
        found = super().contradiction(service, step, path)
        return Trouble(found.status, f"among the reader's lines {found.sentence}", "Ask him which of them counts: nothing is made for him under either. He says so by weft keep --choose.")


def lines_for(options: argparse.Namespace) -> Optional[KeptLines]:
    """The reader's lines; None where none are named, and the proof is for whoever holds one's own."""
    return ReadersLines(named=options.reader) if options.reader else None


def told_for(options: argparse.Namespace) -> str:
    """For whom it is made."""
    return f"For the reader who holds the lines of {listed([name_of(path) for path in options.reader])}:"


def expect_same(service: Path, judge: Bench, found: Sequence[Part], reader: KeptLines) -> None:
    """Raises Trouble where one of the reader's lines isn't of these parts of a service, all that there are: where the store has another line of its step, a proof would be
    none to him; where it lacks that step, or the part, it is an old one that was put back."""
    later = Standing(service, judge, reader).find_later_part(UNMADE)
    if later is not None:
        raise later.trouble
    for part in found:
        for disputed in reader.disputes_of(part.last.service):
            raise reader.contradiction(*disputed)
        for step in reader.steps(part.last.service):
            line = reader.one(part.last.service, step) if step else None
            if line is not None and step > part.last.step:
                raise own.lacking(part.store.path, part.last, Told(line, "of the reader"), UNMADE)
            expect_one(part.store, judge, part.last, line)


def expect_one(store: Store, judge: Bench, last: Line, line: Optional[Line]) -> None:
    """Raises Trouble where the store has another line of a step than the reader's."""
    if line is not None:
        step, mine = line.step, own.line_at(store, judge, line.step, last)
        if line != mine:
            raise Trouble(
                Status.CONTRADICTION,
                f"TWO LINES: the reader's line of step {step} of {last.service} has {line.authenticator[:16]}.., and the store in {name_of(store.path)} {mine.authenticator[:16]}..",
                "No proof of this history is accepted under that line. Which of both did others get? Was it typed rightly, and is this store an old one, or another one?",
            )


def counted_for(options: argparse.Namespace) -> KeptLines:
    """The reader's lines, or one's own that count."""
    return lines_for(options) or signatures.counted(kept_of(options.kept), options.signers)
