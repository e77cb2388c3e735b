"""One run of a log: what a look comes to is logged in steps while it goes on, and what is known of each file is kept."""

from __future__ import annotations

import os
import tempfile
import time
from dataclasses import dataclass
from pathlib import Path
from typing import IO, Iterator, NamedTuple, Optional

from weft import logs
from weft.deciding import gone
from weft.deciding.gone import GONE, Fate
from weft.deciding.known import Change, Head, Known, Lost, is_full_due, is_other_folder, sign_of, weigh_change
from weft.entries import event_of, read_event
from weft.lines import Line
from weft.logs import Log
from weft.output import complain
from weft.recorded import expect_near_end
from weft.records import Records, Writer
from weft.texts import name_of
from weft.walking import Look, Seen

LOST = {Fate.GONE: Lost.GONE, Fate.REPLACED: Lost.REPLACED}
MOST_SPOOLED = 1 << 20


class Wanted(NamedTuple):
    """What a person wants of a run: all files logged anew; what is gone logged in any case; no time claimed; after how many days all files are read; and how
    many are read at a time, None for as many as there are processors."""

    is_all: bool = False
    is_gone: bool = False
    is_timeless: bool = False
    days: int = 7
    workers: Optional[int] = None


@dataclass
class Counts:
    """How many files were found new, changed, and as they were; how many were logged before, are gone, or have something else in their place; and how many
    were read."""

    new: int = 0
    changed: int = 0
    same: int = 0
    logged: int = 0
    gone: int = 0
    replaced: int = 0
    read: int = 0

    @property
    def found(self) -> int:
        """How many were found."""
        return self.new + self.changed + self.same


class Day:
    """A run of a log over a folder."""

    def __init__(self, log: Log, wanted: Wanted, folder: Path):
        self.log, self.wanted, self.began = log, wanted, int(time.time())
        self.records, self.folder = Records(log.known, log.all_entries), sign_of(os.fsencode(os.path.realpath(folder)))
        self.is_elsewhere = is_other_folder(self.records.head, self.folder)
        full = self.records.head.full if self.records.head is not None else None
        self.is_full = wanted.is_all or is_full_due(full, self.began, wanted.days)
        if self.is_full or not self.records.ends_with_entries:
            log.expect_all_entries(self.is_full)
        else:
            expect_near_end(log.service, log.judge, log.part)
        if self.is_full:
            self.records.forget()
        self.full = self.began if self.is_full or full is None else full
        self.counts = Counts()
        self.lost: IO[bytes] = tempfile.SpooledTemporaryFile(MOST_SPOOLED, prefix="weft-")
        self.is_fewer = False
        self.made: list[Line] = []

    def run(self, look: Look) -> None:
        """Looks, makes the steps, and keeps what is known."""
        writer = Writer(self.records)
        try:
            for piece in logs.pieces(self.events(look, writer)):
                moment = None if self.wanted.is_timeless else int(time.time())
                self.made.append(self.log.add(piece, moment))
            self.log.close()
            writer.end(self.head())
        finally:
            writer.leave()

    def events(self, look: Look, writer: Writer) -> Iterator[bytes]:
        """The events of the run: files that are new or changed in the order of paths, and behind them those that are gone."""
        for seen in look.look(self.records.all()):
            writer.add(known_now(seen), seen.before)
            change = self.count(seen)
            if seen.now is not None and (self.wanted.is_all or change is not Change.SAME):
                yield event_of(seen.now.digest, seen.path)
        self.is_fewer = gone.has_lost_most(self.counts.found, len(look.left_out), self.counts.logged, self.counts.gone)
        self.lost.seek(0)
        for line in self.lost:
            fate, event = Fate.GONE if line[:1] == b"g" else Fate.REPLACED, line[1:-1]
            if self.logs(fate):
                yield event

    def logs(self, fate: Fate) -> bool:
        """Whether what has this fate is logged as gone."""
        return gone.may_log(fate, self.is_fewer, self.wanted.is_gone)

    def count(self, seen: Seen) -> Optional[Change]:
        """Counts what was seen, and sets aside what isn't there any more; what a file that was found is to what was logged."""
        self.counts.logged += seen.before is not None
        self.counts.read += seen.is_read
        if seen.now is not None:
            change = weigh_change(seen.before, seen.now.digest)
            setattr(self.counts, change.value, getattr(self.counts, change.value) + 1)
            return change
        if seen.before is not None and seen.fate is Fate.GONE:
            self.counts.gone += 1
            self.lost.write(b"g" + event_of(GONE, seen.path) + b"\n")
        elif seen.before is not None and seen.fate is Fate.REPLACED:
            self.counts.replaced += 1
            self.lost.write(b"r" + event_of(GONE, seen.path) + b"\n")
        return None

    def replaced(self) -> Iterator[str]:
        """The paths of the files that have something else in their place."""
        self.lost.seek(0)
        for line in self.lost:
            entry = read_event(line[1:-1]) if line[:1] == b"r" else None
            if entry is not None:
                yield os.fsdecode(entry.path)

    def tell_replaced(self) -> None:
        """Tells what has something else in its place and wasn't logged as gone."""
        if self.counts.replaced and not self.wanted.is_gone:
            for path in self.replaced():
                complain(f"{name_of(path)} was a file, and something else is in its place: it isn't logged as gone.")
            which = "that file is" if self.counts.replaced == 1 else "those files are"
            complain(f"If {which} gone for good, run weft log --gone, which logs it.")

    def head(self) -> Head:
        """The head of what is known now."""
        parts = self.log.all_entries
        size = parts[-1].size()
        drops = (bool(self.counts.gone) and self.logs(Fate.GONE), bool(self.counts.replaced) and self.logs(Fate.REPLACED))
        return Head(self.full, len(parts), size, parts[-1].tail(size), *drops, self.folder)


def known_now(seen: Seen) -> Optional[Known]:
    """What is known of a path from now on: of a file that wasn't found what was known, and that it wasn't."""
    if seen.now is not None or seen.before is None:
        return seen.now
    return seen.before._replace(lost=LOST.get(seen.fate, Lost.NO) if seen.fate is not None else Lost.NO)
