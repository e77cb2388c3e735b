"""A service in which whoever has a register, a queue or an application records events. Beside the folder SERVICE stand, with the lines as of a log,

    SERVICE.records   step, index, digest and key of what was recorded, in lines; those of a step that has keys are on the disk before it is made
    SERVICE.keys      which key was recorded where: made anew of SERVICE.records where it was lost
    SERVICE.pending   from which step on the lines of steps without keys are put there beside the making of the step, and before anybody is told: of the last one
                      they are made anew of the store, where a run was stopped amid it

A step has what waited when it was begun, up to 1,024 events. What is told to be recorded is in the store for good. A run that was stopped amid a step is
brought to its end by the next one: the store says whether the step was made."""

from __future__ import annotations

import hashlib
import os
import re
import struct
import time
from contextlib import suppress
from pathlib import Path
from typing import Callable, Iterable, Iterator, NamedTuple, Optional, Sequence, Union

from weft import files, own
from weft.deciding.batching import OWN_WORDS, Handed, Made, Recorded, Settled, count_before_repeat, count_of_step, find_other_step, handed_before, is_recorded_as, is_untold, read_made, read_record, sample_of, settle_step, split_framed, steps_of_records, write_made, write_plain_records, write_records
from weft.deciding.checking import EntryState
from weft.deciding.standing import Command
from weft.formats import MOST_EVENTS, MOST_STEP, events_file
from weft.judges import Bench
from weft.keyed import Keys
from weft.lines import Line, read_line
from weft.logs import Log
from weft.output import complain
from weft.parts import Part
from weft.program import Begun
from weft.standing import Standing
from weft.statuses import Status
from weft.stores import Store
from weft.texts import beside, count_of, name_of, steps_of
from weft.trouble import Trouble

# The lines of one step have no more bytes.
MOST_TAIL = MOST_EVENTS * 160
# Of the steps that are made one behind another the first ones have their lines on the disk before: so many that the note of those which needn't is worth its price.
FIRST_BESIDE = 4
BESIDE = re.compile(rb"beside ([0-9]{1,13})\n")


class Receipt(NamedTuple):
    """What is told of an event that was recorded: the service, or the part of it, the step, the index there, and the digest of what was handed over."""

    service: str
    step: int
    index: int  # type: ignore[assignment]
    digest: str


Told = Union[Receipt, str]
"""What is told of an event that was handed over: where it was recorded, or why it is refused."""


class Tail(NamedTuple):
    """The end of a file of records: the lines of its last step, where they begin, where the last whole line ends, and what says that the step was made, where
    something does."""

    lines: list[Recorded]
    begins: int
    ends: int
    made: Optional[Made] = None


class Records:
    """The file of records of a part."""

    def __init__(self, folder: Path):
        self.path = beside(folder, ".records")
        self.number: Optional[int] = None

    @property
    def is_there(self) -> bool:
        """Whether there is such a file."""
        return files.is_there(self.path)

    def size(self) -> int:
        """How many bytes it has, of none 0."""
        return self.path.stat().st_size if self.is_there else 0

    def lines(self, at: int = 0) -> Iterator[Recorded]:
        """Its whole lines from a place on; raises Trouble where one is none."""
        if not self.is_there:
            return
        with open(files.opened(self.path), "rb") as file:
            file.seek(at)
            for text in file:
                if text.endswith(b"\n") and (b" made " not in text or read_made(text[:-1]) is None):
                    yield self.line(text[:-1])

    def line(self, text: bytes) -> Recorded:
        """A line; raises Trouble where it is none."""
        found = read_record(text)
        if found is None:
            raise self.changed("it has a line that is no record")
        return found

    def changed(self, what: str) -> Trouble:
        """That the file isn't as it was written."""
        advice = "Put it back from a backup; or take it away, and weft record --adopt-store LINE makes it anew of the store, without keys."
        return Trouble(Status.OLD_STORE, f"{name_of(self.path)} was changed: {what}. {own.NO_STEP}", advice)

    def tail(self) -> Tail:
        """Its last step."""
        size = self.size()
        at = max(0, size - MOST_TAIL)
        with open(files.opened(self.path), "rb") as file:
            file.seek(at)
            data = file.read(size - at)
        first = data.find(b"\n") + 1 if at else 0
        ends = data.rfind(b"\n") + 1
        texts = data[first:ends].split(b"\n")[:-1]
        made = read_made(texts[-1]) if texts else None
        lines = self.last_step(texts[:-1] if made is not None else texts)
        if made is not None and (not lines or made.step != lines[0].step):
            raise self.changed(f"it says of step {made.step} that it was made, and has none of its lines")
        length = sum(len(text) + 1 for text in texts[len(texts) - len(lines) - (made is not None) :]) if lines else 0
        return Tail(lines, at + ends - length, at + ends, made)

    def last_step(self, texts: Sequence[bytes]) -> list[Recorded]:
        """The lines of the last step of these; none of none."""
        last: list[Recorded] = []
        for text in reversed(texts):
            line = read_record(text)
            if line is None or (last and line.step != last[0].step):
                break
            last.insert(0, line)
        if (texts and not last) or [line.index for line in last] != list(range(len(last))):
            raise self.changed("its last lines are out of order")
        return last

    def put(self, at: int, data: bytes) -> int:
        """Puts the lines of a step at a place, behind which nothing stands then; they are on the disk before this returns. Answers where they end."""
        self.write(at, data, is_lasting=True)
        return at + len(data)

    def write(self, at: int, data: bytes, is_lasting: bool) -> None:
        """Puts bytes at a place; where the file is held open, behind what this wrote before or over it."""
        if self.number is None:
            files.extend(self.path, data, at, is_lasting)
            return
        files.extend_open(self.number, self.path, data, at, is_lasting)

    def hold_open(self) -> None:
        """Holds the file open, so that many steps are put without looking where it stands."""
        if self.number is None:
            self.number = files.opened_to_extend(self.path)

    def release(self) -> None:
        """Holds it open no longer."""
        if self.number is not None:
            os.close(self.number)
            self.number = None

    def note_made(self, at: int, made: Made) -> int:
        """Says at a place that the step whose lines stand before it was made; answers where that ends. It is on the disk with the next step's lines: the store
        tells it too."""
        data = write_made(made)
        self.write(at, data, is_lasting=False)
        return at + len(data)


class Recorder(Log):
    """A service in which events are recorded."""

    command = Command.RECORD

    def __init__(self, service: Path, judge: Bench, may_claim: bool = True):
        self.may_claim, self.is_ahead = may_claim, False
        self.wait_for: Callable[[int], None] = lambda number: None
        self.fed: Callable[[], None] = lambda: None
        self.beside: Optional[Callable[[], None]] = None
        self.ended: Optional[Begun] = None
        self.records: Records = Records(service)
        self.begun: Optional[tuple[Store, Begun]] = None
        super().__init__(service, judge)
        self.keys = Keys(beside(service, ".keys"))

    def enter(self, folder: Path, last: Line) -> None:
        """Goes on in a part."""
        super().enter(folder, last)
        self.release()
        self.records = Records(folder)
        self.ends = self.records.tail().ends if self.records.is_there else 0
        self.noted, self.steps, self.is_beside = 0, 0, False

    def begin(self, name: Optional[str], adopted: Optional[Line] = None) -> None:
        """Opens the service as a log is opened; and sees to it that what is known of keys has all that was recorded."""
        super().begin(name, adopted)
        for part in [*self.former, self.part]:
            self.noted = self.keys.take(part.last.service, Records(part.folder))

    def make_entries(self, standing: Standing, may_make: bool) -> None:
        """Raises Trouble where it is a log of files, or the records don't stand beside a store that has events; where they may be made, they are made anew."""
        if self.entries.size():
            told = f"the service in {name_of(self.service)} is a log of files"
            raise Trouble(Status.USAGE, told, "Record into a service of its own: weft record OTHER --name NAME.")
        if self.records.is_there:
            return
        if standing.has_events and not may_make:
            told = f"{name_of(self.records.path)} doesn't stand beside it, by which what was recorded is known"
            raise own.unnamed(self.store, self.last, told, "it", own.NO_STEP)
        files.renew(self.records.path, b"".join(self.made_anew()) if standing.has_events else b"")
        if standing.has_events:
            complain(f"{name_of(self.records.path)} was made anew, of the store: no event has a key now.")

    def made_anew(self) -> Iterator[bytes]:
        """The lines of what the store has."""
        from weft.recorded import exported_events

        for step, events in exported_events(self.store, self.judge, self.last):
            yield write_records(step, [handed_before(event) for event in events])

    def go_on(self) -> None:
        """Cuts off the records of a step that a stopped run hadn't made, and notes where those of one that it had made belong; of one whose lines were put there beside the
        making, and not all, they are made anew of the store."""
        noted = BESIDE.fullmatch(files.read_if_there(self.pending, MOST_EVENTS) or b"")
        beside_from = int(noted[1]) if noted is not None else None
        tail = self.records.tail()
        self.ends, known = tail.ends, tail.lines[0].step if tail.lines else 0
        if beside_from is not None and known >= beside_from and self.is_in_part(tail):
            self.ends, known = tail.begins, known - 1
        elif tail.lines:
            self.settle(tail)
        if beside_from is not None:
            self.put_lacking(max(beside_from, known + 1))
        files.remove(self.pending)

    def is_in_part(self, tail: Tail) -> bool:
        """Whether the records end with the first lines of a step that the store has, and not all of them."""
        if not tail.lines or tail.made is not None or tail.lines[0].step > self.last.step:
            return False
        step, count = tail.lines[0].step, len(tail.lines)
        return self.store.count(step, self.last.step) > count and self.has(step, tail.lines)

    def put_lacking(self, first: int) -> None:
        """Makes the lines of the first step from one on that has events, other than words of the service of itself, anew of the store."""
        last = self.last.step
        steps = ((step, self.store.count(step, last)) for step in range(first, last + 1))
        found = next(((step, count) for step, count in steps if count and not self.event(step, 0).startswith(OWN_WORDS)), None)
        if found is None:
            files.extend(self.records.path, b"", self.ends)
            return
        step, count = found
        self.ends = self.records.put(self.ends, write_records(step, [handed_before(self.event(step, index)) for index in range(count)]))
        self.ends = self.records.note_made(self.ends, Made(step, own.line_at(self.store, self.judge, step, self.last).authenticator))
        complain(f"Step {step} of {self.last.service} was made by a run that was stopped: its lines in {name_of(self.records.path)} were made anew, of the store.")

    def event(self, step: int, index: int) -> bytes:
        """An event of the store, which is proved."""
        return own.event_at(self.store, self.judge, step, index, self.last)

    def settle(self, tail: Tail) -> None:
        """Sees what became of the last step of the records."""
        begun = tail.lines[0].step
        made = self.find_made(begun, tail)
        found = settle_step(begun, self.last.step, made, tail.made is not None)
        if found is Settled.LOST:
            told = f"{name_of(self.records.path)} tells of step {begun}, and the store in {name_of(self.store.path)} hasn't recorded that"
            raise Trouble(Status.OLD_STORE, f"{told}: it may be an old one. {own.NO_STEP}", "Put the right one back. What was told to be recorded is lost else.")
        if found is Settled.UNMADE:
            files.extend(self.records.path, b"", tail.begins)
            self.ends = tail.begins
        elif made is not None and tail.made is None:
            ends = self.records.put(tail.begins, write_records(made, tail.lines)) if made != begun else tail.ends
            self.ends = self.records.note_made(ends, Made(made, own.line_at(self.store, self.judge, made, self.last).authenticator))

    def find_made(self, begun: int, tail: Tail) -> Optional[int]:
        """The step of the store that is the last one of the records: where it is noted that this was made, the one of that authenticator; else the first one that
        has its events."""
        if tail.made is not None:
            has_step = begun <= self.last.step and own.line_at(self.store, self.judge, begun, self.last).authenticator == tail.made.authenticator
            return begun if has_step else None
        return next((step for step in range(begun, self.last.step + 1) if self.is_recorded(step, tail.lines)), None)

    def is_recorded(self, step: int, lines: Sequence[Recorded]) -> bool:
        """Whether the step has these events, and no more."""
        return self.store.count(step, self.last.step) == len(lines) and self.has(step, lines)

    def has(self, step: int, lines: Sequence[Recorded]) -> bool:
        """Whether the step has these events, of which the first, the middle and the last one are looked at."""
        return all(is_recorded_as(lines[place].digest, self.event(step, place)) for place in sample_of(len(lines)))

    def note_others(self) -> None:
        """Keeps the last line where others made steps, and tells of those that have events."""
        tail = self.records.tail()
        known = tail.lines[0].step if tail.lines else 0
        held = self.lines.last()
        others = range(max(known, held.step if held else 0) + 1, self.last.step + 1)
        strange = [step for step in others if self.store.count(step, self.last.step)]
        if strange and held is not None:
            complain(f"{steps_of(strange)} of {self.last.service}: no run of weft record made such a step; what it has isn't among the records.")
            self.status = Status.LOOK
        if held != self.last:
            self.lines.note(self.last)

    def record(self, waiting: Sequence[Handed]) -> list[Receipt]:
        """Records the first ones of what waits, in one step, and answers where each stands: as many as a step takes."""
        events = list(waiting[: count_of_step((len(it.event) for it in waiting), MOST_EVENTS, MOST_STEP)])
        data = [it.event for it in events]
        self.make_room(data)
        at, begun = self.ends, self.last.step + 1
        self.ends = self.records.put(at, write_records(begun, events))
        try:
            self.last = self.appended(events_file(data), self.now())
        except BaseException:
            self.ends = at
            raise
        self.note_step(begun, at, lambda step: write_records(step, events))
        self.keys.add(self.last.service, self.last.step, events, self.ends)
        return [Receipt(self.last.service, self.last.step, index, it.digest.decode()) for index, it in enumerate(events)]

    def record_framed(self, count: int, body: bytes) -> Line:
        """Records events without keys, which are framed as they go into a step, in one step, and answers its line. Where many are made their lines are put into the records
        beside the making."""
        self.steps += 1
        if not self.is_ahead or self.steps < FIRST_BESIDE:
            self.record([Handed(hashlib.sha256(event).hexdigest().encode(), event, b"") for event in split_framed(body)])
            return self.last
        self.make_room_for(len(body))
        self.begin_beside()
        at, begun, lines = self.ends, self.last.step + 1, b""

        def put_lines() -> None:
            """Puts the lines there, as of the step that is being made."""
            nonlocal lines
            lines = write_plain_records(begun, split_framed(body))
            self.ends = self.records.put(at, lines)

        try:
            self.beside = put_lines
            self.last = self.appended(b"TWE1" + struct.pack(">I", count) + body, self.now())
        except BaseException:
            self.ends = at
            raise
        finally:
            self.beside = None
        self.note_step(begun, at, lambda step: write_plain_records(step, split_framed(body)))
        return self.last

    def begin_beside(self) -> None:
        """Notes, on the disk, from which step on lines are put there beside the making."""
        if not self.is_beside:
            files.extend(self.pending, b"beside %d\n" % (self.last.step + 1), 0)
            self.records.hold_open()
            self.is_beside = True

    def note_step(self, begun: int, at: int, lines_of: Callable[[int], bytes]) -> None:
        """Notes in the records that a step was made, and which, where others made some in between."""
        self.expect_following(self.last.step)
        if self.last.step != begun:
            self.ends = self.records.put(at, lines_of(self.last.step))
            self.tell_others_amid(range(begun, self.last.step))
        self.ends = self.records.note_made(self.ends, Made(self.last.step, self.last.authenticator))
        self.noted = self.ends

    def now(self) -> Optional[int]:
        """The time that a step claims, if it may claim one."""
        return int(time.time()) if self.may_claim else None

    def append(self, events: bytes, time: Optional[int]) -> Line:
        """The line of a step that is appended: where many steps are made, by a program that was started while the one before was made, and begins once it has the
        events."""
        ended, self.ended = self.ended, None
        if ended is not None:
            ended.expect_end()
        begun = self.left_begun(self.store)
        if begun is None and not self.is_ahead:
            return super().append(events, time)
        begun = begun or self.store.begin_append(time)
        if begun is None:
            self.put_beside()
            return super().append(events, time)
        begun.feed(events)
        self.fed()
        with suppress(Trouble):
            ahead = self.store.begin_append(self.now())
            self.begun = (self.store, ahead) if ahead is not None else None
        try:
            self.put_beside()
            self.wait_for(begun.output)
            told = begun.read()
        except BaseException:
            begun.answer()
            raise
        line = read_line(told.decode("ascii", "replace").strip()) if told.endswith(b"\n") else None
        if line is None:
            return self.store.appended(begun.answer(told))
        # (the line is told once the step is made; that the program ends as it should is seen before the next step)
        self.ended = begun
        return line

    def put_beside(self) -> None:
        """Does what is to be done beside the making of a step, once."""
        beside, self.beside = self.beside, None
        if beside is not None:
            beside()

    def left_begun(self, store: Optional[Store]) -> Optional[Begun]:
        """The program that was started ahead for a store; one for another store is let go."""
        (of, begun), self.begun = self.begun or (None, None), None
        if begun is not None and of is not store:
            begun.leave()
            return None
        return begun

    def note_line(self) -> Line:
        """The line of the last step, which is noted as one that is handed out."""
        self.lines.note(self.last)
        self.close()
        self.is_beside = False
        return self.last

    @property
    def name(self) -> str:
        """The name of the service, that of its first part."""
        return [*self.former, self.part][0].last.service

    def rest(self) -> None:
        """Ends a run, or a part of it: of the records those are taken whose keys were noted."""
        self.left_begun(None)
        self.keys.rest(self.last.service, self.noted)
        self.keys.close()
        if self.is_beside:
            files.remove(self.pending)
        self.steps, self.is_beside = 0, False
        self.release()

    def let_go(self) -> None:
        """Leaves all as it stands, where a trouble has ended the work."""
        for leave in (lambda: self.left_begun(None), self.release):
            with suppress(Trouble):
                leave()

    def release(self) -> None:
        """Holds no file open, and waits for no program that has answered."""
        ended, self.ended = self.ended, None
        self.records.release()
        if ended is not None:
            ended.expect_end()

    def find_key(self, it: Handed) -> Optional[Receipt]:
        """Where an event of this key was recorded before, which is proved; raises Trouble where the key is that of something else, or the store hasn't recorded
        that there."""
        found = self.keys.find(it)
        if found is not None and not self.is_there(found):
            told = f"{name_of(beside(self.service, '.records'))} tells of the key {it.key.decode()} in step {found.step} of {found.service}, index {found.index}"
            raise Trouble(Status.OLD_STORE, f"{told}, and the store hasn't that there", "Was the file changed? weft check holds it against the store.")
        return found

    def is_there(self, it: Receipt) -> bool:
        """Whether the store has, in that place, what was recorded there."""
        part = next((part for part in [*self.former, self.part] if part.last.service == it.service), None)
        if part is None or not 0 < it.step <= part.last.step or it.index >= part.store.count(it.step, part.last.step):
            return False
        return is_recorded_as(it.digest.encode(), own.event_at(part.store, self.judge, it.step, it.index, part.last))


def record_all(recorder: Recorder, events: Sequence[Handed], tell: Callable[[int, Told], None]) -> None:
    """Records events in as few steps as take them, and tells of each, by its place, once it is durable. Of what has one key the first is recorded, and the
    others are told of that."""

    def is_told(place: int) -> bool:
        """Whether its key was recorded before: then that is told of it, or that it is refused."""
        try:
            found: Optional[Told] = recorder.find_key(events[place])
        except Trouble as trouble:
            if trouble.status is not Status.REFUSED:
                raise
            found = trouble.describe()
        if found is not None:
            tell(place, found)
        return found is not None

    places = [place for place in range(len(events)) if not is_told(place)]
    done, keys = 0, set[bytes]()
    while done < len(places):
        ahead = places[done : done + MOST_EVENTS]
        step = ahead[: count_before_repeat((events[place].key for place in ahead), keys)]
        for place, receipt in zip(step, recorder.record([events[place] for place in step])):
            tell(place, receipt)
            keys.add(events[place].key)
            done += 1
        while done < len(places) and is_told(places[done]):
            done += 1


def look_at_records(folder: Path, last: Line, steps: Iterator[tuple[int, Sequence[bytes]]]) -> EntryState:
    """Holds the records beside a store against its steps, and tells what is wrong."""
    records, told, untold = Records(folder), set[int](), list[int]()

    def noted_records() -> Iterator[tuple[int, Sequence[Recorded]]]:
        """The records by steps, which are noted."""
        for step, lines in steps_of_records(records.lines()):
            told.add(step)
            yield step, lines

    def noted_steps() -> Iterator[tuple[int, Sequence[bytes]]]:
        """The steps, of which those are noted that no record tells of so far."""
        for step, events in steps:
            if is_untold(step, events, told):
                untold.append(step)
            yield step, events

    try:
        tail = records.tail()
        if files.is_there(beside(folder, ".pending")) or tail.made is None and tail.lines and tail.lines[0].step > last.step:
            complain(f"{name_of(records.path)} wasn't looked at: a run of weft record was stopped amid a step. Run it again first.")
            return EntryState.AMID_A_STEP
        seen = noted_steps()
        step = find_other_step(noted_records(), seen)
        for _ in seen if step is None else ():
            pass
    except Trouble as trouble:
        complain(trouble.describe())
        return EntryState.DIFFERING
    except ValueError:
        complain(records.changed("its lines are out of order").describe())
        return EntryState.DIFFERING
    if step is None and untold:
        complain(f"{name_of(records.path)} tells nothing of {steps_of(untold)}, with events: others made that, or its lines were taken out. weft find --all reads the store.")
        return EntryState.MISSING
    if step is None:
        return EntryState.GOOD
    complain(records.changed(f"of step {step} it tells what the store hasn't").describe())
    return EntryState.DIFFERING
