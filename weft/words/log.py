"""`weft log`: the files of a folder as events of a service."""

from __future__ import annotations

import argparse
import os
from pathlib import Path
from typing import Sequence

from weft import files, judges, lines, locks, logs, own, parts, program
from weft.days import Counts, Day, Wanted
from weft.deciding.gone import Fate
from weft.lines import Line
from weft.logs import Log
from weft.output import complain, say, say_json
from weft.statuses import Status
from weft.texts import beside, count_of, date_of, listed, name_of, steps_of
from weft.trouble import Trouble
from weft.waiting import add_wait
from weft.walking import Look

NAME = "log"
DETAILS = (
    "What is new or changed since the last run is logged by its digest and path, what is gone by its path; each run makes one step at least, which "
    "claims this moment. The service lies in the folder SERVICE and is made, under NAME, at the first run. Beside it stand SERVICE.lines, "
    "SERVICE.anchor (the line to hand out), and SERVICE.entries (step, index and event of each entry, by which proofs are made). "
    "Links, pipes and the log itself aren't logged. What can't be looked at, with all that is below it, and what is changed while it is read "
    "is left out, and isn't called gone. Without SERVICE.lines or SERVICE.entries beside it a store makes no step. "
    "Before its history outgrows its file the log goes on in a new part, in SERVICE/part-2 and so on."
)
STATUSES = (Status.LOOK, Status.BUSY, Status.FEWER, Status.OLD_STORE)
EXAMPLE = "weft log /srv/data /srv/log data\nweft log /srv/data /srv/log"


def add(parser: argparse.ArgumentParser) -> None:
    """The words."""
    parser.add_argument("folder", metavar="FOLDER", type=Path, help="the folder whose files are logged")
    parser.add_argument("service", metavar="SERVICE", type=Path, help="the folder of the service")
    parser.add_argument("name", metavar="NAME", nargs="?", help=f"the service's name, at the first run: {lines.NAME_RULE}")
    parser.add_argument("--all", action="store_true", help="logs all files, those that are as they were too")
    parser.add_argument("--no-time", action="store_true", help="lets the step claim no time")
    parser.add_argument("--gone", action="store_true", help="logs what is gone also where most is, or something else is in its place")
    days = "reads all files after so many days (7), 0 each time; else those whose size, times, number or device changed, or those read within a minute of that"
    parser.add_argument("--all-read", metavar="DAYS", type=int, default=7, help=days)
    parser.add_argument("--workers", metavar="N", type=int, help="how many files are read at a time (else one a processor)")
    own.add_adopt(parser)
    add_wait(parser)
    parser.add_argument("--unproved", action="store_true", help="lets the second implementation make the step, which isn't proved")
    parser.add_argument("--json", action="store_true", help="writes JSON")


def run(options: argparse.Namespace) -> Status:
    """Logs the folder."""
    program.refuse_second(options.unproved)
    if options.name is not None:
        lines.checked_name(options.name)
    if options.all_read < 0 or (options.workers is not None and options.workers < 1):
        raise Trouble(Status.USAGE, "--all-read is 0 at least, and --workers 1", "Leave them out for 7 days, and one a processor.")
    folder, service = options.folder, files.folder_named(options.service)
    adopted = own.named_line(options.adopt_store) if options.adopt_store is not None else None
    check_folders(folder, service)
    if options.name is not None and not options.gone and logs.is_new(service) and not logs.has_files(folder):
        told = f"{name_of(folder)} has no files, and no service was made"
        raise Trouble(Status.FEWER, told, "Is it mounted? If it is to be empty: weft log --gone.")
    with locks.held(beside(service, ".lock"), options.wait, service):
        log = Log(service, judges.bench())
        log.begin(options.name, adopted)
        day = Day(log, Wanted(options.all, options.gone, options.no_time, options.all_read, options.workers), folder)
        return logged(options, log, Look(folder, service, day.is_full, options.workers), day)


def check_folders(folder: Path, service: Path) -> None:
    """Raises Trouble where the folder can't be read, or the service can't lie there."""
    parts.expect_whole(service)
    if not folder.is_dir() or not os.access(folder, os.R_OK | os.X_OK):
        raise Trouble(Status.NO_INPUT, f"{name_of(folder)} is no folder that can be read", "Is it mounted?")
    if not service.parent.is_dir():
        raise Trouble(Status.DISK, f"there is no folder {name_of(service.parent)} for the service", "Make it first.")
    if files.is_there(service) and not service.is_dir():
        raise Trouble(Status.DISK, f"{name_of(service)} is a file", "Name a folder for the service.")
    if service.is_dir() and os.path.samefile(folder, service):
        raise Trouble(Status.USAGE, f"{name_of(service)} is the logged folder itself", "Name another folder for the service.")
    above = Path(os.path.realpath(service.parent))
    if logs.is_new(service) and any(os.path.samefile(folder, it) for it in (above, *above.parents)):
        told = f"{name_of(service)} would lie in {name_of(folder)}: what is put there under the names of its files would never be logged"
        raise Trouble(Status.USAGE, told, "Name a folder elsewhere for the service.")


def logged(options: argparse.Namespace, log: Log, look: Look, day: Day) -> Status:
    """Makes the steps, and says what they have."""
    day.run(look)
    status = status_of(options, log, look, day)
    tell(options, log, look, day, status)
    day.tell_replaced()
    if day.is_elsewhere:
        complain(f"{name_of(log.service)} was the log of another folder than {name_of(options.folder)} at its last run: what differs was logged as new, changed or gone.")
    if look.left_out:
        what = count_of(len(look.left_out), "file or folder", "files or folders")
        complain(f"{what} left out: nothing is logged of them. See to it that they can be read, and run weft log again.")
    if day.is_fewer and not options.gone:
        complain(fewer(options.folder, day.counts))
    return status


def status_of(options: argparse.Namespace, log: Log, look: Look, day: Day) -> Status:
    """How a run ends whose steps are made."""
    if day.is_fewer and not options.gone:
        return Status.FEWER
    return Status.LOOK if look.left_out or day.is_elsewhere or (day.counts.replaced and not options.gone) else log.status


def fewer(folder: Path, counts: Counts) -> str:
    """That files are missing which were there."""
    if not counts.logged:
        return f"{name_of(folder)} has no files. Is it mounted? If it is to be empty, run weft log --gone."
    what = "none" if not counts.found else "fewer than half"
    return (
        f"{name_of(folder)} has {what} of the {counts.logged:,} files that were logged. Is it mounted? The {counts.gone:,} that are missing weren't logged "
        "as gone: if they are gone for good, run weft log --gone, which logs it."
    )


def summary(day: Day) -> str:
    """How many files are new, changed, gone, missing, or as they were. Gone are those that are logged so."""
    counts, with_gone = day.counts, day.logs(Fate.GONE)
    number = (counts.gone if with_gone else 0) + (counts.replaced if day.logs(Fate.REPLACED) else 0)
    parts = [f"{count_of(counts.new, 'file')} new", f"{counts.changed:,} changed", f"{number:,} gone"]
    if counts.gone and not with_gone:
        parts.append(f"{counts.gone:,} missing")
    return f"{', '.join(parts)}, {counts.same:,} as they were"


def told_reading(day: Day) -> str:
    """How many files were read, and when all were last."""
    if day.is_full:
        return f"{count_of(day.counts.read, 'file')} read: all that can be."
    return f"{count_of(day.counts.read, 'file')} read; all were last read on {date_of(day.full)[:10]}."


def made_told(made: Sequence[Line]) -> str:
    """The steps that were made; of several parts those of each."""
    steps: dict[str, list[int]] = {}
    for line in made:
        steps.setdefault(line.service, []).append(line.step)
    if len(steps) == 1:
        return steps_of([line.step for line in made])
    return listed([f"{steps_of(numbers)} of {service}" for service, numbers in steps.items()])


def tell(options: argparse.Namespace, log: Log, look: Look, day: Day, status: Status) -> None:
    """Says what was logged, and the line to hand out."""
    counts, with_gone, with_replaced = day.counts, day.logs(Fate.GONE), day.logs(Fate.REPLACED)
    if options.json:
        number = (counts.gone if with_gone else 0) + (counts.replaced if with_replaced else 0)
        not_logged = {"missing": 0 if with_gone else counts.gone, "replaced": 0 if with_replaced else counts.replaced}
        found = {"new": counts.new, "changed": counts.changed, "same": counts.same, "gone": number, **not_logged, "left_out": len(look.left_out)}
        made = {"steps": [line.step for line in day.made], **found, "read": counts.read, "all_read": day.full, "line": log.last._asdict()}
        say_json({**made, "status": int(status)})
        return
    say(f"{made_told(day.made)}: {summary(day)}{', all logged' if options.all else ''}")
    if counts.logged:
        say(told_reading(day))
    say(f"Hand out {name_of(log.anchor)}: {log.last.text}")
