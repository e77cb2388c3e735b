"""The log of a folder's files: an event each in steps of a service. Beside the folder SERVICE stand

    SERVICE.lines     the line of each run's last step
    SERVICE.seal      that these files are where they were written, and no copy
    SERVICE.anchor    the last one
    SERVICE.entries   step, index and event of each entry
    SERVICE.pending   from where on the entries are those of a step that is being made; a run that was stopped is brought to its end by the next one
    SERVICE.known     what is known of each file since it was read, by which it isn't read again while nothing of it changes"""

from __future__ import annotations

import functools
import os
import re
from pathlib import Path
from typing import Iterable, Iterator, Optional, Sequence

from weft import checks, files, made, own, parts
from weft.deciding.going_on import is_name_of_other, must_go_on
from weft.deciding.standing import Command
from weft.entries import Entries
from weft.formats import MOST_EVENTS, MOST_STEP, events_file
from weft.judges import Bench
from weft.lines import KeptLines, Line
from weft.output import complain
from weft.own import OwnLines
from weft.parts import Next, Part
from weft.recorded import expect_end, expect_true, exported_events, make_entries, strange_steps
from weft.standing import Standing, no_log
from weft.statuses import Status
from weft.stores import ClockBack, Store
from weft.texts import beside, count_of, name_of, steps_of
from weft.trouble import Trouble

MOST_PENDING = 64
# What a step takes beside its events in the file of a history.
MOST_HEAD = 32
PENDING = re.compile(rb"([0-9]{1,13}) ([0-9]{1,15})\n")


# ---- the service and its files


def traces(lines: OwnLines) -> list[Path]:
    """The files of own lines, of those that aren't empty."""
    return [path for path in (lines.anchor, lines.lines) if files.is_there(path) and os.stat(path).st_size]


def is_new(service: Path) -> bool:
    """Whether neither a store nor a line of the service is there."""
    return not files.is_there(Store(service).file) and not traces(OwnLines(service))


def has_files(folder: Path) -> bool:
    """Whether a file stands in the folder, or in one below it, however deep, or may stand in one that can't be looked at."""
    waiting = [os.fspath(folder)]
    while waiting:
        try:
            with os.scandir(waiting.pop()) as entries:
                kinds = [(entry.path, entry.is_dir(follow_symlinks=False)) for entry in entries]
        except OSError:
            return True
        if not all(is_folder for _, is_folder in kinds):
            return True
        waiting += [path for path, _ in kinds]
    return False


class Log:
    """The log of a service in a folder."""

    command = Command.LOG

    def __init__(self, service: Path, judge: Bench):
        self.service, self.judge = service, judge
        self.known, self.anchor = (beside(service, end) for end in (".known", ".anchor"))
        self.former: list[Part] = []
        self.room: Optional[int] = None
        self.status = Status.DONE
        self.enter(service, Line("", 0, ""))

    def enter(self, folder: Path, last: Line) -> None:
        """Goes on in a part."""
        self.store, self.lines, self.last, self.is_following = Store(folder), OwnLines(folder), last, False
        self.entries, self.pending = Entries(beside(folder, ".entries")), beside(folder, ".pending")

    @functools.cached_property
    def kept(self) -> KeptLines:
        """The lines that its user keeps, which are read once."""
        return parts.own_kept(is_new=not files.is_there(self.store.file))

    @property
    def part(self) -> Part:
        """The part in which it goes on."""
        return Part(len(self.former) + 1, self.store.folder, self.last)

    @property
    def all_entries(self) -> list[Entries]:
        """The entries of all its parts, the last of which grow."""
        return [*(part.entries for part in self.former), self.entries]

    def begin(self, name: Optional[str], adopted: Optional[Line] = None) -> None:
        """Opens the service, and makes it where nothing of it is there; brings a run that was stopped to its end. Raises Trouble where
        nothing shows that the store is the one of the lines, and then no step is made. A person may have named its last line."""
        if not files.is_there(self.store.file):
            self.make(name)
        if name is not None:
            self.store.init(name)
        first = self.store.last().line
        if name is not None and first.service != name:
            raise Trouble(Status.USAGE, f"the service in {name_of(self.service)} is called {first.service}, and not {name}")
        standing = Standing(self.service, self.judge, self.kept)
        going = standing.expect(self.command, is_named=adopted is not None)
        going.tell()
        made.note(self.service, first.service)
        self.status, new = going.status, standing.new
        if new is None:
            parts.forget_next(self.service)
        *self.former, last = standing.made
        self.enter(last.folder, last.last)
        if adopted is not None:
            self.lines.expect_named(self.store, self.judge, self.last, adopted)
            self.lines.adopt(self.last)
        self.make_entries(standing, adopted is not None)
        self.go_on()
        if new is not None:
            self.go_on_in(new)
        elif self.former:
            parts.note_made(self.service, self.judge, self.part)
        self.note_others()

    def go_on_in(self, new: Next) -> None:
        """Goes on in a new part, which is made or whose making is gone on with."""
        old = self.part
        files.remove(self.pending)
        part = parts.make_next(self.service, self.judge, old, new)
        self.former.append(old._replace(last=old.store.last().line))
        self.enter(part.folder, part.last)
        complain(f"{old.last.service} goes on as {part.last.service}, in {name_of(part.folder)}: its history would have outgrown its file.")

    def make_room(self, events: Sequence[bytes]) -> None:
        """Goes on in a new part where a step of these events has no room in this one."""
        self.make_room_for(sum(4 + len(event) for event in events))

    def make_room_for(self, size: int) -> None:
        """The same of events that have so many bytes with their lengths."""
        added = MOST_HEAD + size
        if self.room is None:
            self.room = max(0, parts.MOST_PART - parts.size_of(self.store))
        if must_go_on(parts.MOST_PART - self.room, added, parts.MOST_PART) and self.last.step > 1:
            new = parts.name_next(self.service, [*self.former, self.part], self.kept)
            parts.begin_next(self.service, new)
            self.go_on_in(new)
            self.room = max(0, parts.MOST_PART - parts.size_of(self.store))
        self.room -= added

    def make(self, name: Optional[str]) -> None:
        """Makes the folder of a new service."""
        service, kept = self.store.folder, traces(self.lines)
        if kept:
            told = f"there is {name_of(kept[0])}, and no store in {name_of(service)}"
            raise Trouble(Status.DISK, told, "Was it moved? Put it back; an empty one would begin a second history.")
        if name is None:
            raise Trouble(Status.USAGE, f"there is no service in {name_of(service)} yet", "Name it: weft log FOLDER SERVICE NAME.")
        later = parts.find_later([name], self.kept)
        if is_name_of_other(self.kept.steps(name)) or later is not None:
            called = name if later is None else f"{later.service}, as a further part of {name} would be"
            told = f"you keep a line of another service that is called {called}, and none was made under that name"
            raise Trouble(Status.USAGE, told, "Choose another name. Was this one your own, whose store is lost, go on under a new name too.")
        files.expect_no_own(service)
        files.expect_own_beside(service)
        made.expect_unmade(service, name)
        files.make_folder(service)

    def make_entries(self, standing: Standing, may_make: bool) -> None:
        """Makes the file of entries where it isn't there: of the store, where a person has named that, and else there are none. Raises Trouble of a service in which
        events are recorded."""
        if self.entries.is_there:
            return
        if files.is_there(beside(self.store.folder, ".records")):
            raise no_log(self.store)
        count = make_entries(self.entries, exported_events(self.store, self.judge, self.last) if standing.has_events else [])
        if count:
            complain(f"{name_of(self.entries.path)} was made anew, of the store: {count_of(count, 'entry', 'entries')}.")

    def expect_all_entries(self, is_full: bool) -> None:
        """Raises Trouble where entries of a part were lost, at their end or all: what they tell would be logged again; or where they are out of order, and in a
        run that reads all files where one of them isn't the store's, or one of the store's isn't among them."""
        for part in [*self.former, self.part]:
            if is_full:
                expect_true(self.service, self.judge, part)
            else:
                expect_end(self.service, self.judge, part)

    def go_on(self) -> None:
        """Keeps the entries of a step that a stopped run had made, or cuts off those of one that it hadn't."""
        found = PENDING.fullmatch(files.read_if_there(self.pending, MOST_PENDING) or b"")
        if found is not None:
            begun, at = int(found[1]), min(int(found[2]), self.entries.size())
            events = [line.event for line in self.entries.lines(at)]
            made = next((step for step in range(begun, self.last.step + 1) if self.is_of(step, events)), None)
            if made is None:
                self.entries.put(at, begun, [])
            else:
                self.entries.put(at, made, events)
                self.expect_following(made)
                self.lines.note(own.line_at(self.store, self.judge, made, self.last))
        files.remove(self.pending)

    def is_of(self, step: int, events: list[bytes]) -> bool:
        """Whether the step has these events: so many, and of them the first, the middle and the last one."""
        if self.store.count(step, self.last.step) != len(events):
            return False
        places = {0, len(events) // 2, len(events) - 1} if events else set()
        return all(own.event_at(self.store, self.judge, step, place, self.last) == events[place] for place in places)

    def note_others(self) -> None:
        """Keeps the last line where others made steps, and tells those with events."""
        held = self.lines.last()
        told = strange_steps(self.part, held)
        if told is not None:
            complain(told)
            self.status = Status.LOOK
        if held != self.last:
            self.lines.note(self.last)

    def add(self, events: Sequence[bytes], time: Optional[int]) -> Line:
        """Makes a step of these events, and keeps its line and its entries. These are written first, and the note from where on they stand is taken away
        once the step is made."""
        self.make_room(events)
        at, step = self.entries.size(), self.last.step + 1
        files.extend(self.pending, b"%d %d\n" % (step, at), 0)
        self.entries.put(at, step, events)
        self.last = self.appended(events_file(list(events)), time)
        self.expect_following(self.last.step)
        if self.last.step != step:
            self.entries.put(at, self.last.step, events)
            self.tell_others_amid(range(step, self.last.step))
        if self.lines.is_there:
            self.lines.add(self.last)
        else:
            self.lines.note(self.last)
        return self.last

    def expect_following(self, step: int) -> None:
        """Raises Trouble where the first step that a run makes, or that a stopped run made, doesn't follow from the history: as no step of a log it received
        nothing, so its archive is that of the step before."""
        if not self.is_following and checks.differing_label(self.store, self.last, step):
            raise damaged_end(self.store, step)
        self.is_following = True

    def tell_others_amid(self, steps: range) -> None:
        """Tells that somebody else made steps while this run was at work; their lines are noted."""
        complain(f"{steps_of(steps)} of {self.last.service} came while this run was at work: somebody else made them, and their entries aren't kept.")
        self.status = Status.LOOK
        for step in steps:
            self.lines.add(own.line_at(self.store, self.judge, step, self.last))

    def close(self) -> None:
        """Ends a run that made steps: the last line is handed out, and of each part its last one; nothing is pending."""
        self.lines.close(self.last)
        parts.hand_out(self.service, [*self.former, self.part])
        files.remove(self.pending)

    def appended(self, events: bytes, time: Optional[int]) -> Line:
        """The line of a step that is appended; where its time would be refused it claims none, and that is told."""
        try:
            return self.append(events, time)
        except ClockBack as back:
            complain(f"{back.trouble.sentence}: this step claims no time. Is the clock right?")
            self.status = Status.LOOK
            return self.store.append(events, None)

    def append(self, events: bytes, time: Optional[int]) -> Line:
        """The same; raises ClockBack where the time is refused."""
        return self.store.append(events, time)


def damaged_end(store: Store, step: int) -> Trouble:
    """That a step which was made doesn't follow from the history: what the store keeps for its next step is damaged."""
    told = f"the store in {name_of(store.path)} made step {step}, which doesn't follow from its step {step - 1}: what it keeps for its next step is damaged"
    advice = f"Go back to a backup that has step {step - 1} as its last one, and look at the device."
    return Trouble(Status.BAD_STORE, f"{told}. The line of that step wasn't noted or handed out", advice)


def pieces(events: Iterable[bytes]) -> Iterator[list[bytes]]:
    """The events of each step: as many as one holds. No events are one step."""
    piece: list[bytes] = []
    size, made = 0, 0
    for event in events:
        if piece and (len(piece) == MOST_EVENTS or size + len(event) > MOST_STEP):
            yield piece
            piece, size, made = [], 0, made + 1
        piece.append(event)
        size += len(event)
    if piece or not made:
        yield piece
