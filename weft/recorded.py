"""What a store recorded as a log: the entries of each step, read back from it, by which entries that were lost are made anew."""

from __future__ import annotations

from pathlib import Path
from typing import Iterable, Iterator, Optional, Sequence

from weft import files, formats, own
from weft.deciding.checking import Differing, Logged, find_differing
from weft.entries import Entries, entry_lines, read_event
from weft.judges import Bench
from weft.lines import Line
from weft.own import NO_STEP
from weft.parts import Part
from weft.progress import with_progress
from weft.statuses import Status
from weft.stores import Store
from weft.texts import beside, name_of, shown_event, steps_of
from weft.trouble import Trouble

# So many steps behind the last entry are looked at in each run: that takes less than a second.
MOST_BEHIND = 256

def events_of(store: Store, judge: Bench, last: Line, first: int = 1) -> Iterator[tuple[int, list[bytes]]]:
    """Each step from one on with its events, each of them proved under the last line."""
    for step in with_progress(range(first, last.step + 1), "reading entries:", last.step + 1 - first):
        yield step, [own.event_at(store, judge, step, index, last) for index in range(store.count(step, last.step))]


def history_of(store: Store, last: Line, unmade: str = NO_STEP) -> Optional[formats.ReadHistory]:
    """The history that the store exports, read once; None where it is too long for that. Raises Trouble where it isn't one of the last line: its pages are read as
    they stand."""
    answer = store.ask("export")
    if answer.status:
        return None
    history = formats.timeline_of(answer.output)
    if history is None or history.authenticators[last.step : last.step + 1] != [last.authenticator]:
        told = f"the store in {name_of(store.path)} has events that aren't those of its own last line"
        raise Trouble(Status.BAD_STORE, told, f"It is damaged, or was written over: go back to a backup, and look at the device. {unmade}.")
    return history


def exported_events(store: Store, judge: Bench, last: Line, unmade: str = NO_STEP) -> Iterator[tuple[int, list[bytes]]]:
    """The same of the export, or where that is too long, of the proofs."""
    history = history_of(store, last, unmade)
    if history is None:
        yield from events_of(store, judge, last)
        return
    for step, events in enumerate(history.timeline.steps, 1):
        yield step, list(events)


def is_of_log(events: Sequence[bytes]) -> bool:
    """Whether a step is one of a log: it has events, and each is an entry."""
    return bool(events) and all(read_event(event) is not None for event in events)


def make_entries(entries: Entries, steps: Iterable[tuple[int, Sequence[bytes]]]) -> int:
    """Makes the file of entries anew, of those steps that are of a log; answers how many there are."""
    count = 0
    with files.renewing(entries.path) as file:
        for step, events in steps:
            if is_of_log(events):
                file.write(entry_lines(step, events))
                count += len(events)
    return count


def expect_true(service: Path, judge: Bench, part: Part, unmade: str = NO_STEP) -> None:
    """Raises Trouble where an entry of a part isn't the event that its store has in its place, or one is missing."""
    steps = exported_events(part.store, judge, part.last, unmade)
    differing = find_differing(part.entries.lines(), steps, is_of_log)
    if differing is not None:
        raise differing_entry(service, part.entries, differing, unmade)


def differing_entry(service: Path, entries: Entries, it: Differing, unmade: str = NO_STEP) -> Trouble:
    """That entries of a log aren't what the store recorded."""
    return false_entry(entries, it.false, unmade) if it.false is not None else missing_entries(service, entries, it.step, unmade)


def false_entry(entries: Entries, it: Logged, unmade: str = NO_STEP) -> Trouble:
    """That an entry isn't what the store recorded, and what wasn't made."""
    what = f"of step {it.step}, index {it.index}, it has {shown_event(it.event)}, and the store hasn't" if it.step >= 0 else "it has a line that is no entry"
    told = f"{name_of(entries.path)} was changed: {what}"
    advice = f"What weft log said since rests on it. Keep a copy of it, then let weft check --entries make it anew of the store. {unmade}."
    return Trouble(Status.OLD_STORE, told, advice)


def missing_entries(service: Path, entries: Entries, step: int, unmade: str = NO_STEP) -> Trouble:
    """That the store recorded entries of a log that aren't kept, and what wasn't made."""
    told = f"the store beside {name_of(entries.path)} has entries of step {step} that aren't in it. {unmade}"
    advice = f"Were they lost, or taken away? Put the file back; or weft check --entries {name_of(service)} makes it anew of the store."
    return Trouble(Status.OLD_STORE, told, advice)


def expect_end(service: Path, judge: Bench, part: Part, unmade: str = NO_STEP) -> None:
    """Raises Trouble where entries of a part were lost, at their end or all, or are out of order: then its last entry of a file may be another one."""
    end = part.entries.last_step()
    if end.strange is not None:
        raise false_entry(part.entries, end.strange, unmade)
    step = find_unkept(part.store, judge, part.last, end.step, end.count)
    if step is not None:
        raise missing_entries(service, part.entries, step, unmade)


def find_unkept(store: Store, judge: Bench, last: Line, kept: int, count: int) -> Optional[int]:
    """The first step of a log of which not all entries are kept: the last one of which some are, so many, or one behind it; None where there is none."""
    if 0 < kept <= last.step and store.count(kept, last.step) != count:
        return kept
    return find_behind(store, judge, last, kept)


def expect_near_end(service: Path, judge: Bench, part: Part) -> None:
    """Raises Trouble where entries of a part were lost at their end, though what is known of files ends with those that are left: both may have been put back.
    More steps behind them than are soon looked at are left to a run that reads all files."""
    kept = part.entries.ends_at()
    step = find_behind(part.store, judge, part.last, kept) if part.last.step - kept <= MOST_BEHIND else None
    if step is not None:
        raise missing_entries(service, part.entries, step)


def is_log(first: Part) -> bool:
    """Whether a service, of which this is the first part, is a log: its entries stand there."""
    return first.entries.is_there and first.entries.size() > 0


def strange_steps(part: Part, noted: Optional[Line]) -> Optional[str]:
    """That steps with events stand behind the last noted line of a log's part, which no run of weft log made: before they are noted too this is told, whoever notes
    them. None where there are none. (Steps without events are those that received a line, or tell nothing; those of a run that was stopped are brought to their end
    by the next one.)"""
    if noted is None or files.is_there(beside(part.folder, ".pending")):
        return None
    strange = [step for step in range(noted.step + 1, part.last.step + 1) if part.store.count(step, part.last.step)]
    return f"{steps_of(strange)} of {part.last.service}: no run of weft log made such a step with events; their entries aren't kept." if strange else None


def find_behind(store: Store, judge: Bench, last: Line, kept: int) -> Optional[int]:
    """The first step of a log behind this one; None where there is none."""
    for step in range(kept + 1, last.step + 1):
        if store.count(step, last.step) and read_event(own.event_at(store, judge, step, 0, last)) is not None:
            return step
    return None
