"""What a history holds, step by step, as its file or a store has it, unjudged: that each step is so, `weft judge` and `weft check` say."""

from __future__ import annotations

import mmap
from pathlib import Path
from typing import Iterator, NamedTuple, cast

from weft import formats, pages, parts
from weft.events import logged_file, told_event
from weft.formats import Malformed, fields, histories
from weft.judges import Bench
from weft.pages import ListedStep
from weft.statuses import Status
from weft.stores import Store
from weft.texts import count_of, date_of, name_of, shown_event
from weft.trouble import Trouble


class Held(NamedTuple):
    """A history: its service, how many steps it has, and these, one after another; a step that can't be read raises Trouble where it comes."""

    service: str
    last: int
    steps: Iterator[ListedStep]


def of_file(path: str, data: bytes) -> Held:
    """What a history's file holds; raises Trouble where it is none."""
    read = fields.Reader(data, formats.MOST_HISTORY)
    try:
        service = histories.take_name(read)
        last = int.from_bytes(data[read.at : read.at + 8], "big")
    except Malformed as bad:
        raise broken(path, bad.place) from None
    return Held(service, last, read_steps(path, read))


def read_steps(path: str, read: fields.Reader) -> Iterator[ListedStep]:
    """The steps that stand behind a history's name, up to its end."""
    try:
        for number, step in enumerate(histories.take_steps(read), 1):
            yield ListedStep(number, step.time, step.events, formats.line_of_thread(step.thread))
        read.end()
    except Malformed as bad:
        raise broken(path, bad.place) from None


def broken(path: str, place: int) -> Trouble:
    """That a file begins as a history, and isn't one to its end."""
    told = f"{name_of(path)} begins as a history, and at byte {place} none goes on: it was cut short or changed"
    return Trouble(Status.UNREADABLE, told, "What stands above was read before that byte. Ask for it again.")


def of_folder(folder: Path, judge: Bench) -> Iterator[Held]:
    """What the parts of a service hold, in their order: by the export of each, and where that is longer than a history's file may be, by its pages."""
    for part in parts.parts_of(folder, judge):
        answer = part.store.ask("export")
        if answer.words[:2] == ["refused", "TooLong"]:
            yield Held(part.last.service, part.last.step, of_pages(part.store))
        elif answer.status:
            raise part.store.trouble(answer)
        else:
            yield of_file(part.store.path, answer.output)


def of_pages(store: Store) -> Iterator[ListedStep]:
    """The steps of a store as its pages have them."""
    try:
        with open(store.file, "rb") as file, mmap.mmap(file.fileno(), 0, access=mmap.ACCESS_READ) as mapped:
            yield from pages.steps_in(cast(bytes, mapped))
    except ValueError as bad:
        told = f"the store in {name_of(store.path)} is damaged, or none of a service ({bad})"
        raise Trouble(Status.BAD_STORE, told, "weft check finds which step; go back to a backup.") from None


# ---- in words


def told_step(step: ListedStep) -> list[str]:
    """A step in sentences: its number, its time, and what it recorded."""
    time = "" if step.time is None else f", which claims the time {date_of(step.time)}"
    if step.received is not None:
        return [f"step {step.number}{time}: received {step.received.text}"]
    count = count_of(len(step.events), "event") if step.events else "no events"
    return [f"step {step.number}{time}: {count}", *(f"  event {index}: {told_event(event)}" for index, event in enumerate(step.events))]


def as_json(service: str, step: ListedStep) -> dict[str, object]:
    """The same as a value for JSON: each event as it is told, in hexadecimal, and where it is of a file that one's path and digest."""
    return {
        "service": service,
        "step": step.number,
        "time": step.time,
        "date": None if step.time is None else date_of(step.time),
        "events": [event_json(index, event) for index, event in enumerate(step.events)],
        "received": step.received._asdict() if step.received is not None else None,
        "judged": False,
    }


def event_json(index: int, event: bytes) -> dict[str, object]:
    """An event, as JSON has it."""
    file = logged_file(event)
    return {"index": index, "says": shown_event(event), "hex": event.hex(), "file": file and file.path, "sha256": file and file.digest}
