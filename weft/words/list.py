"""`weft list`: what a history holds, step by step."""

from __future__ import annotations

import argparse
import os
from pathlib import Path
from typing import Iterator, Sequence

from weft import files, formats, judges, listing, parts
from weft.deciding.listing import Range, find_empty, is_listed, read_range
from weft.deciding.standing import Command
from weft.kinds import kind_of
from weft.listing import Held
from weft.output import say, say_json
from weft.standing import Standing
from weft.statuses import Status
from weft.texts import count_of, name_of, quoted
from weft.trouble import Trouble

NAME = "list"
DETAILS = "Nothing is judged: weft judge and weft check do that."
STATUSES = (Status.LOOK, Status.OLD_STORE)
EXAMPLE = "weft list /srv/log 1-\nweft list log.history --json"


def add(parser: argparse.ArgumentParser) -> None:
    """The words."""
    parser.add_argument("history", metavar="DIR|HISTORY", help="the folder of a service, or its history's file")
    parser.add_argument("steps", metavar="STEPS", nargs="*", help="as 5, 5-9 or 5- (else all)")
    parser.add_argument("--json", action="store_true", help="writes JSON, a line for each step")


def run(options: argparse.Namespace) -> Status:
    """Lists the steps that were named."""
    ranges, last = [range_of(word) for word in options.steps], 0
    for held in histories_of(options.history):
        last = max(last, held.last)
        tell(options, held, ranges)
    status = whether_whole(options)
    empty = find_empty(ranges, last)
    if empty is not None:
        raise Trouble(Status.REFUSED, f"{name_of(options.history)} has no step {empty.first}: its last one is {last}", "Name steps up to that one.")
    return status


def whether_whole(options: argparse.Namespace) -> Status:
    """Of a service whether all of its parts were listed, and its last steps, as far as that is seen; raises Trouble where they weren't. Of a file nothing is known."""
    if not os.path.isdir(options.history):
        return Status.DONE
    going = Standing(files.folder_named(Path(options.history)), judges.bench()).expect(Command.LIST, "What is listed may be another's, or older")
    if options.json and going.status is not Status.DONE:
        say_json({"status": int(going.status), "says": going.told})
    going.tell()
    return going.status


def range_of(word: str) -> Range:
    """The range of a word; raises Trouble where it is none."""
    found = read_range(word)
    if found is None:
        raise Trouble(Status.USAGE, f"{quoted(word[:80])} names no steps", "Steps are 5, 5-9 or 5-, from 1 on, the lower one first.")
    return found


def histories_of(path: str) -> Iterator[Held]:
    """What the file, or the parts of the service in the folder, hold."""
    if os.path.isdir(path):
        folder = files.folder_named(Path(path))
        parts.expect_whole(folder)
        yield from listing.of_folder(folder, judges.bench())
        return
    data = files.read(path, formats.MOST_HISTORY)
    if kind_of(data) != "history":
        raise Trouble(Status.UNREADABLE, f"{name_of(path)} is no history", "weft tell says what it is. A service is named by its folder.")
    yield listing.of_file(path, data)


def tell(options: argparse.Namespace, held: Held, ranges: Sequence[Range]) -> None:
    """Says the wanted steps of a history; all of it is read, so that one that was cut is told."""
    if not options.json:
        say(f"{held.service}: {count_of(held.last, 'step')}, unjudged")
    for step in held.steps:
        if not is_listed(step.number, ranges):
            continue
        if options.json:
            say_json(listing.as_json(held.service, step))
            continue
        for line in listing.told_step(step):
            say(f"  {line}")
