"""A store checked whole: each step's authenticator, link, and some of its events, or all.

What is computed anew is computed by the reference from the export; links and events are proved by the program and judged, which needs no
export; and the pages are held against one another (weft.pages). The work is done over processes. What may be said of it is decided in weft.deciding.checking."""

from __future__ import annotations

import fcntl
import functools
import mmap
import os
import shutil
import tempfile
from concurrent.futures import Executor, ProcessPoolExecutor
from concurrent.futures.process import BrokenProcessPool
from typing import Iterator, NamedTuple, Optional, Sequence, cast

from weft import formats, judges, pages
from weft.deciding.checking import Export, Place
from weft.judges import Bench, Verdict
from weft.lines import Line, anchors
from weft.statuses import Status
from weft.stores import ClockBack, Store
from weft.texts import name_of
from weft.trouble import Trouble

PIECE = 100
TOO_LONG = "its history is longer than a file may be, so no authenticator was computed anew from its export"


class Link(NamedTuple):
    """A step whose link is to be proved, and its authenticator where that was computed anew."""

    step: int
    authenticator: Optional[str]


class Event(NamedTuple):
    """An event that is to be proved, and what it has to be where the export says so."""

    place: Place
    data: Optional[bytes]


class Received(NamedTuple):
    """A line that a step received: the step, and the line."""

    archived: int
    line: Line


class Task(NamedTuple):
    """Steps whose links are to be proved, and, where `counts` says so, whose events are to be counted; events that are to be proved, and lines of which it is to be
    proved that they were received."""

    folder: str
    top: Line
    links: Sequence[Link] = ()
    counts: bool = False
    events: Sequence[Event] = ()
    received: Sequence[Received] = ()


class Bad(NamedTuple):
    """A step that isn't good, and why."""

    step: int
    why: str


class Result(NamedTuple):
    """What came of a task: the steps that aren't good; how many events each of its steps has, None where that can't be told; and how
    many were proved."""

    bad: list[Bad]
    counts: list[Optional[int]]
    proved: int


@functools.lru_cache(maxsize=1)
def bench() -> Bench:
    """The judges, once a process."""
    return judges.bench()


def proved(store: Store, top: Line, *words: str) -> tuple[Optional[Verdict], str]:
    """The accepted verdict of a proof that the store makes; or None, and why not."""
    answer = store.ask("prove", *words, str(top.step))
    if answer.status:
        return None, answer.text.strip()
    verdict = bench().judge("strict", answer.output, anchors([top]))
    return (verdict, "") if verdict.is_accepted else (None, verdict.text.strip())


def worked(task: Task) -> Result:
    """What comes of a task; what a worker does."""
    store, result = Store(task.folder), Result([], [], 0)
    with bench().working():
        for link in task.links:
            result.bad.extend(bad_link(store, task.top, link))
            if task.counts:
                result.counts.append(counted(store, task.top, link.step, result.bad))
        for received in task.received:
            result.bad.extend(bad_received(store, task.top, received))
        bad = [bad_event(store, task.top, event) for event in task.events]
    return result._replace(bad=[*result.bad, *(it for found in bad for it in found)], proved=sum(not found for found in bad))


def bad_link(store: Store, top: Line, link: Link) -> list[Bad]:
    """Why the link of a step isn't good; nothing where it is."""
    verdict, why = proved(store, top, "link", str(link.step))
    if verdict is None:
        return [Bad(link.step, f"its link isn't proved: {why}")]
    found = verdict.lines[1][4]
    if link.authenticator is not None and found != link.authenticator:
        return [Bad(link.step, f"its link has the authenticator {found[:16]}.., and computed anew it is {link.authenticator[:16]}..")]
    return []


def counted(store: Store, top: Line, step: int, bad: list[Bad]) -> Optional[int]:
    """How many events a step has; where the store doesn't tell that, the step is bad."""
    try:
        return store.count(step, top.step)
    except Trouble as trouble:
        bad.append(Bad(step, f"it doesn't tell how many events it has: {trouble.sentence}"))
        return None


def bad_event(store: Store, top: Line, event: Event) -> list[Bad]:
    """Why an event isn't good; nothing where it is."""
    step, index = event.place
    verdict, why = proved(store, top, "event", str(step), str(index))
    if verdict is None:
        return [Bad(step, f"its event {index} isn't proved: {why}")]
    if event.data is not None and verdict.lines[1][4] != (event.data.hex() or "-"):
        return [Bad(step, f"its event {index} is another one in the export")]
    return []


def bad_received(store: Store, top: Line, it: Received) -> list[Bad]:
    """Why a step isn't good that received a line, by the archive as it stands now; nothing where it is."""
    peer, step, authenticator = it.line
    verdict, why = proved(store, top, "thread", str(top.step), peer, str(step))
    if verdict is None:
        return [Bad(it.archived, f"that it received step {step} of {peer} isn't proved: {why}")]
    wanted = ["thread", top.service, str(top.step), peer, str(step), authenticator, str(it.archived)]
    return [] if verdict.lines[1] == wanted else [Bad(it.archived, f"what it received of {peer} is another line in the export")]


class Ahead(NamedTuple):
    """What follows from a history for its next step: the authenticator of one without events and without a time; and the greatest time that is claimed, below
    which none may be, or None."""

    authenticator: str
    greatest: Optional[int]


class History(NamedTuple):
    """What the export says of a store: the authenticators of its steps from 1 on, computed anew, and the events of each; the lines that it received; and what
    follows for its next step."""

    authenticators: list[str]
    events: list[list[bytes]]
    received: list[Received]
    ahead: Ahead


class Exported(NamedTuple):
    """What came of a store's export, the history where it is whole, and else why there is none."""

    export: Export
    history: Optional[History] = None
    why: str = ""


def exported(store: Store, top: Line) -> Exported:
    """What the export says, up to this last step: somebody may have made further ones since it was read."""
    answer = store.ask("export")
    if answer.words[:2] == ["refused", "TooLong"]:
        return Exported(Export.TOO_LONG, None, TOO_LONG)
    if answer.status:
        return Exported(Export.DAMAGED, None, f"it can't be exported ({answer.text.strip()}), so no authenticator was computed anew")
    try:
        name, steps = formats.histories.read_history(answer.output)
        line = formats.histories.timeline_of(name, steps)
    except formats.Malformed as bad:
        return Exported(Export.DAMAGED, None, f"its export is no history (byte {bad.place}), so no authenticator was computed anew")
    except formats.histories.Unsound as broken:
        return Exported(Export.DAMAGED, None, f"its export breaks rule {broken.rule} at step {broken.step}, so no authenticator was computed anew")
    received = [Received(place, Line(it.thread.service, it.thread.step, it.thread.authenticator.hex())) for place, it in enumerate(steps, 1) if it.thread]
    auths, events, last = [auth.hex() for auth in line.auths[1:]], [step.events for step in steps], top.step
    return Exported(Export.WHOLE, History(auths[:last], events[:last], [it for it in received if it.archived <= last], ahead_of(line)))


def ahead_of(line: formats.Timeline) -> Ahead:
    """What follows for the step behind the last one."""
    ahead = line.copied()
    ahead.append([], line.archives[-1] if line.archives else formats.EMPTY_ARCHIVE)
    return Ahead(ahead.auths[-1].hex(), line.clocks[-1])


def tried_ahead(store: Store, top: Line, ahead: Optional[Ahead]) -> Optional[str]:
    """Why a step that is made on a copy of the store isn't the one that follows from its history, or without that from its last step; None where it is. So what
    the store keeps for its next step alone is seen: a fault of it shows in no step that is there. Raises Trouble where there is no room for the copy."""
    with tempfile.TemporaryDirectory(prefix="weft-") as folder:
        copy = Store(folder)
        try:
            with open(store.file, "rb") as file, open(copy.file, "wb") as into:
                fcntl.flock(file, fcntl.LOCK_SH)
                shutil.copyfileobj(file, into, 1 << 20)
        except OSError as failure:
            told = f"no copy of the store in {name_of(store.path)} could be made, so its next step wasn't tried: {os.strerror(failure.errno or 0)}"
            raise Trouble(Status.DISK, told, "Is there room for temporary files? Another folder is named by TMPDIR.") from None
        if copy.last().line != top:
            return None  # (somebody made a step meanwhile)
        if ahead is None:
            return differing_label(copy, copy.append(formats.events_file([]), None))
        return differing_time(copy, ahead.greatest) or differing_step(copy, ahead.authenticator)


def label_of(store: Store, step: int, top: Line) -> Optional[bytes]:
    """The label of the archive of received lines after a step, as the proof tells it that some line is absent; None where the store makes none, or none that is
    accepted. Raises Trouble where that couldn't be seen, as where there was no memory."""
    answer = store.ask("prove", "absent", str(step), top.service, "1", str(top.step))
    if answer.status not in (Status.DONE, Status.REFUSED, Status.BAD_STORE):
        raise store.trouble(answer)
    if answer.status or not bench().judge("strict", answer.output, anchors([top])).is_accepted:
        return None
    proof = formats.read_proof(answer.output)
    return proof.opening.archive_label if isinstance(proof, formats.proofs.AbsenceProof) else None


def differing_label(store: Store, made: Line, step: Optional[int] = None) -> Optional[str]:
    """Whether a step that received nothing, the last one or that of this number, has another archive than the one before it."""
    number = made.step if step is None else step
    before = label_of(store, number - 1, made) if number > 1 else formats.EMPTY_ARCHIVE
    if before is not None and label_of(store, number, made) == before:
        return None
    return "a step that received nothing would have another archive than the one before it"


def differing_time(copy: Store, greatest: Optional[int]) -> Optional[str]:
    """Whether a store takes a time below the greatest one that its steps claim, or knows another one than that."""
    if not greatest:
        return None
    try:
        copy.append(formats.events_file([]), greatest - 1)
    except ClockBack as back:
        return None if back.greatest == greatest else f"the greatest claimed time is {greatest}, and the store takes {back.greatest} for it"
    return f"the greatest claimed time is {greatest}, and the store would take an earlier one"


def differing_step(copy: Store, authenticator: str) -> Optional[str]:
    """Whether a step without events, made on a store, has another authenticator than follows."""
    found = copy.append(formats.events_file([]), None).authenticator
    return None if found == authenticator else f"a step behind it would have the authenticator {found[:16]}.., and computed anew it is {authenticator[:16]}.."


def bad_pages(store: Store) -> list[Bad]:
    """Which steps' pages don't fit those before them; none where the file can't be read as a store, which is told by what needs it."""
    try:
        with open(store.file, "rb") as file, mmap.mmap(file.fileno(), 0, access=mmap.ACCESS_READ) as mapped:
            return [Bad(*it) for it in pages.amiss(cast(bytes, mapped))]
    except (OSError, ValueError):
        return []


def has_no_threads(store: Store, top: Line) -> bool:
    """Whether the archive of received threads is known to be empty."""
    return label_of(store, top.step, top) == formats.EMPTY_ARCHIVE


def link_tasks(store: Store, top: Line, history: Optional[History]) -> Iterator[Task]:
    """The tasks of all links, in the order of steps; without a history the events are counted too."""
    known = history.authenticators if history is not None else []
    links = [Link(step, known[step - 1] if step <= len(known) else None) for step in range(1, top.step + 1)]
    for at in range(0, len(links), PIECE):
        yield Task(store.path, top, links[at : at + PIECE], history is None)


def event_tasks(store: Store, top: Line, history: Optional[History], places: Sequence[Place]) -> Iterator[Task]:
    """The tasks of the events at these places, in their order."""
    for at in range(0, len(places), PIECE):
        pieces = places[at : at + PIECE]
        yield Task(store.path, top, events=[Event(it, history.events[it.step - 1][it.index] if history is not None else None) for it in pieces])


def received_tasks(store: Store, top: Line, history: Optional[History]) -> Iterator[Task]:
    """The tasks of the lines that were received, in their order."""
    received = history.received if history is not None else []
    for at in range(0, len(received), PIECE):
        yield Task(store.path, top, received=received[at : at + PIECE])


def results(work: list[Task], workers: Optional[int] = None, executor: Optional[Executor] = None) -> Iterator[Result]:
    """What comes of each task, in the order of the tasks."""
    count = workers or len(os.sched_getaffinity(0))
    if executor is None and (count == 1 or len(work) <= 1):
        yield from map(worked, work)
        return
    used = executor or ProcessPoolExecutor(count)
    try:
        yield from used.map(worked, work)
    except BrokenProcessPool:
        raise Trouble(Status.NO_MEMORY, "a process that checked ended early", "Run it again; --workers 1 takes less memory.") from None
    finally:
        if executor is None:
            used.shutdown(cancel_futures=True)
