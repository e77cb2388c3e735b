"""`weft record`: events that somebody hands over, in steps of a service."""

from __future__ import annotations

import argparse
import itertools
import sys
from contextlib import contextmanager
from pathlib import Path
from typing import Iterator

from weft import files, incoming, judges, keeper, lines, locks, own, parts, program
from weft.deciding.batching import Handed
from weft.deciding.worst import worst_of
from weft.formats import MOST_EVENTS
from weft.incoming import FORMS
from weft.lines import Line
from weft.output import collect, complain, say, say_json
from weft.recording import Recorder, Told, record_all
from weft.statuses import Status
from weft.texts import beside, name_of
from weft.trouble import Trouble
from weft.waiting import add_wait

NAME = "record"
DETAILS = (
    "Each event is answered by its service, step and index there, and the SHA-256 digest of what was handed over; then it is on the disk for good. At the end stands the "
    "line to hand out. What is longer than 1,024 bytes, or begins as a service's words of itself (goes on as, new key), is recorded by its digest, as sha256sum writes that "
    "of its standard input. Both weft judge --file and weft find know it again. With a key, which has 1 to 64 letters of ASCII, the same isn't recorded twice: handed over again "
    "it is answered as before. The service is made under --name at the first run. Beside it stand SERVICE.records (step, "
    "index, digest, key), SERVICE.lines and SERVICE.anchor, as those of weft log, and SERVICE.keys, which may be lost."
)
STATUSES = (Status.LOOK, Status.BUSY, Status.OLD_STORE)
EXAMPLE = (
    "weft record /srv/register --name register --event 'deed 4711 was sold'\nweft record /srv/register deed.pdf --key deed-4711\n"
    "journalctl -o cat | weft record /srv/register"
)


def add(parser: argparse.ArgumentParser) -> None:
    """The words."""
    parser.add_argument("service", metavar="SERVICE", type=Path, help="the folder of the service")
    parser.add_argument("files", metavar="FILE", type=Path, nargs="*", help="files, each of which is an event")
    parser.add_argument("--name", metavar="NAME", help=f"the service's name, at the first run: {lines.NAME_RULE}")
    parser.add_argument("--event", metavar="TEXT", action="append", default=[], help="a word that is an event; may be repeated")
    parser.add_argument("--key", metavar="KEY", help="the key of a single event")
    forms = "how standard input has events, where neither FILE nor --event is named: each line is one (lines), each has its length in four bytes before it (pieces), or each line is JSON, as {\"event\": \"text\", \"key\": \"k1\"} (json)"
    parser.add_argument("--input", choices=tuple(FORMS), default="lines", help=forms)
    parser.add_argument("--serve", action="store_true", help="takes events of other programs, many at once, until it is stopped")
    parser.add_argument("--idle", metavar="SECONDS", type=float, help="ends --serve once nobody has been connected for so long")
    parser.add_argument("--no-time", action="store_true", help="lets the steps claim no time")
    own.add_adopt(parser)
    add_wait(parser)
    parser.add_argument("--unproved", action="store_true", help="lets the second implementation make the steps, which isn't proved")
    parser.add_argument("--json", action="store_true", help="writes JSON, a line each")


def run(options: argparse.Namespace) -> Status:
    """Records the events."""
    if options.json:
        collect()
    program.refuse_second(options.unproved)
    service = files.folder_named(options.service)
    parts.expect_whole(service)
    if options.name is not None:
        lines.checked_name(options.name)
    expect_sense(options)
    if not service.parent.is_dir():
        raise Trouble(Status.DISK, f"there is no folder {name_of(service.parent)} for the service", "Make it first.")
    if options.serve:
        return served(options, service)
    handed = handed_in(options)
    found = keeper.connected(service)
    if found is not None:
        expect_same(options, found)
        return Answers(options).by_keeper(found, handed)
    with opened(options, service) as recorder:
        return Answers(options).by(recorder, handed)


@contextmanager
def opened(options: argparse.Namespace, service: Path) -> Iterator[Recorder]:
    """The service, which is opened under its lock."""
    with locks.held(beside(service, ".lock"), options.wait, service):
        recorder = Recorder(service, judges.bench(), not options.no_time)
        recorder.begin(options.name, own.named_line(options.adopt_store) if options.adopt_store is not None else None)
        yield recorder


def served(options: argparse.Namespace, service: Path) -> Status:
    """Keeps the service for others. What can be wrong with it is told before it listens."""
    with keeper.alone(service) as is_alone:
        if not is_alone:
            raise Trouble(Status.BUSY, f"another run of weft record --serve keeps {name_of(service)}", "Hand over to that one.")
        with opened(options, service) as recorder:
            recorder.rest()
        keeper.keep(service, keeper.Keeper(service, judges.bench(), not options.no_time, options.wait), options.idle)
    return Status.DONE


def expect_sense(options: argparse.Namespace) -> None:
    """Raises Trouble where the words don't fit one another."""
    named = len(options.files) + len(options.event)
    if options.key is not None and named != 1:
        raise Trouble(Status.USAGE, "--key is that of a single event", 'Name one FILE or --event with it; many have keys by --input json: {"event": .., "key": ..}.')
    if options.serve and (named or options.key is not None):
        raise Trouble(Status.USAGE, "--serve takes events of other programs, and none is named with it", "Leave FILE, --event and --key out.")
    if options.idle is not None and (not options.serve or not options.idle >= 0):
        raise Trouble(Status.USAGE, "--idle is a number of seconds, 0 at least, and stands with --serve")


def expect_same(options: argparse.Namespace, found: keeper.Connection) -> None:
    """Raises Trouble where the words say something of the service that its keeper was told otherwise."""
    if options.adopt_store is not None or options.no_time:
        told = f"a keeper is at work on {name_of(options.service)}, and --adopt-store and --no-time are said to whoever opens the service"
        raise Trouble(Status.USAGE, told, "Leave them out, or end weft record --serve first.")
    if options.name is not None and options.name != found.name():
        raise Trouble(Status.USAGE, f"the service in {name_of(options.service)} is called {found.name()}, and not {options.name}")


def handed_in(options: argparse.Namespace) -> Iterator[Handed]:
    """What is handed over: files and words, else what standard input has."""
    key = incoming.key_named(options.key) if options.key is not None else b""
    if options.files or options.event:
        found = [*(incoming.of_file(path, key) for path in options.files), *(incoming.of_text(text, key) for text in options.event)]
        return iter(found)
    return FORMS[options.input](sys.stdin.buffer)


class Answers:
    """Tells of each event, and at the end of the line."""

    def __init__(self, options: argparse.Namespace):
        self.options, self.status = options, Status.DONE

    def tell(self, told: Told) -> None:
        """Where an event was recorded, or why it is refused."""
        if isinstance(told, str):
            self.status = Status.REFUSED
            complain(told)
        elif self.options.json:
            say_json(told._asdict())
        else:
            say(f"{told.service} {told.step} {told.index} {told.digest}")

    def end(self, line: Line) -> None:
        """The line to hand out."""
        if self.options.json:
            say_json({"line": line._asdict()})
        else:
            say(f"Hand out {name_of(beside(self.options.service, '.anchor'))}: {line.text}")

    def by_keeper(self, found: keeper.Connection, handed: Iterator[Handed]) -> Status:
        """Hands over to the keeper of the service."""
        for piece in pieces(handed):
            answers = found.record(piece)
            for told in answers:
                if not isinstance(told, Trouble):
                    self.tell(told)
            for told in answers:
                if isinstance(told, Trouble):
                    raise told
        self.end(found.line())
        return self.status

    def by(self, recorder: Recorder, handed: Iterator[Handed]) -> Status:
        """Records what is handed over, a step at a time. What was told stands, whatever comes behind it."""
        try:
            for piece in pieces(handed):
                record_all(recorder, piece, lambda _, told: self.tell(told))
        finally:
            line = recorder.note_line()
            recorder.rest()
        self.end(line)
        return worst_of([self.status, recorder.status])


def pieces(handed: Iterator[Handed]) -> Iterator[list[Handed]]:
    """What is handed over, as much of it at a time as one step may have."""
    while piece := list(itertools.islice(handed, MOST_EVENTS)):
        yield piece
