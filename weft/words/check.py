"""`weft check`: a store checked whole."""

from __future__ import annotations

import argparse
from pathlib import Path
from typing import Iterator, NamedTuple, Optional

from weft import checks, files, judges, lines, locks, pages, parts, recorded, signatures
from weft.checks import Bad, Exported, History, Result, Task
from weft.deciding.checking import EntryState, Found, Looked, choose_places, find_differing, judge_check, judge_entries, list_unseen, may_make_entries
from weft.deciding.restoring import Beside, Missing, find_missing
from weft.deciding.standing import Against, Command
from weft.deciding.worst import worst_of
from weft.entries import Entries
from weft.lines import Kept, KeptLines, Line
from weft.output import complain, say, say_json
from weft.own import OwnLines
from weft.progress import with_progress
from weft.recording import Records, look_at_records
from weft.standing import Standing, whose
from weft.statuses import Status
from weft.stores import Store, step_0
from weft.texts import beside, count_of, listed, name_of, steps_of
from weft.trouble import Trouble
from weft.waiting import add_wait

NAME = "check"
DETAILS = (
    "The history is exported once and each authenticator computed anew; each is held against the link that the program proves, and against the lines "
    "that were kept. Each received line is proved; of the events 200 are, or with --all each. The pages are held against one another. A step is made on a copy of "
    "the store, and held against what follows from the history. Where the history is longer than a file may be, its events are counted and proved "
    "without the export; what wasn't looked at is told then, and the status is 10. Of a log all parts are checked, and that one "
    "follows the other. Do it each month, and after each restart that was none of your doing."
)
STATUSES = (Status.LOOK, Status.BUSY, Status.OLD_STORE)
EXAMPLE = "weft check /srv/log\nweft check /srv/log --all --kept ~/lines"
SAMPLE = 200
# What is looked for here more closely than other words do: at each kept line, and each entry.
LOOKED_FOR = (Against.OTHER_PART, Against.DISPUTED, Against.OTHER_KEPT, Against.OTHER_LINE, Against.NO_ENTRIES)


def add(parser: argparse.ArgumentParser) -> None:
    """The words."""
    parser.add_argument("folder", metavar="DIR", type=Path, help="the folder of the service")
    parser.add_argument("--all", action="store_true", help="proves each event")
    parser.add_argument("--entries", action="store_true", help="makes DIR.entries of a log anew where it was lost, of what the store has")
    parser.add_argument("--kept", metavar="FILE", type=Path, action="append", default=[], help="a file of kept lines, beside DIR.lines; may be repeated")
    signatures.add_signers(parser)
    parser.add_argument("--workers", metavar="N", type=int, help="how many processes (else one a processor)")
    add_wait(parser)
    parser.add_argument("--json", action="store_true", help="writes JSON")


def run(options: argparse.Namespace) -> Status:
    """Checks the store."""
    folder = files.folder_named(options.folder)
    files.expect_folder(folder, "the folder of the service")
    parts.expect_whole(folder)
    if options.workers is not None and options.workers < 1:
        raise Trouble(Status.USAGE, "--workers is 1 at least", "Leave it out for one a processor.")
    with locks.held(beside(folder, ".lock"), options.wait, folder):
        kept = signatures.counted(lines.kept_of(options.kept), options.signers)
        standing = Standing(folder, judges.bench(), kept)
        command, unmade = (Command.ENTRIES, "No entries were made") if options.entries else (Command.CHECK, "")
        going = standing.weigh(command, unmade, LOOKED_FOR)
        whole = [checked(options, standing, part.store, not going.ended) for part in standing.parts]
        status = worst_of([going.status, *(it.status for it in whole)])
        told = [*going.told, *(trouble.describe() for trouble in going.ended)]
        for text in told:
            complain(text)
        for part, it in zip(standing.parts, whole) if options.json else ():
            say_json({**it.found, "doubt": going.doubt if part is standing.last else None, "told": told, "status": int(status)})
        return status


class Checked(NamedTuple):
    """What was found of a part, as JSON has it, and its status. JSON has that of the whole run, which is known once all parts were checked."""

    found: dict[str, object]
    status: Status


class Outcome(NamedTuple):
    """What came of a check: what was looked at, the steps that aren't good, the kept lines that aren't of the store in sentences, how many agree, and why a next
    step couldn't be tried."""

    looked: Looked
    exported: Exported
    bad: list[Bad]
    wrong: list[str]
    agreeing: int
    untried: Optional[Trouble] = None

    def count_found(self, disputed: int = 0) -> Found:
        """What was found, where so many steps have kept lines that contradict."""
        return Found(len({it.step for it in self.bad}), len(self.wrong), disputed)


def checked(options: argparse.Namespace, standing: Standing, store: Store, may_make: bool) -> Checked:
    """Checks a part, and says what came of it; the lines beside it and those that the whole log handed out or noted count too. Its entries are made anew, where that
    is wanted, only where they may be."""
    top, kept = store.last().line, standing.kept
    for line in dict.fromkeys([*OwnLines(store.folder).all(), *(line for line, _ in standing.lines_beside() if line.service == top.service)]):
        kept.add(Kept(line, "", ""))
    exported = checks.exported(store, top)
    outcome = looked_at(options, store, top, exported, *held_lines(store, kept, exported.history, top))
    if not options.json:
        tell(options, store, top, outcome)
    disputed = [step for _, step in kept.disputes_of(top.service)]
    for step in disputed:
        complain(kept.contradiction(top.service, step).describe())
    if disputed:
        complain(whose(store))
    status = judge_check(outcome.count_found(len(disputed)), outcome.looked)
    is_looked_at = may_make_entries(status) and (may_make or not options.entries)
    entries = looked_at_entries(options, store, top, exported.history) if is_looked_at else EntryState.UNSEEN
    if outcome.untried is not None:
        complain(f"Not looked at: whether a next step follows. {outcome.untried.describe()}")
    status = worst_of([status, judge_entries(entries), Status.DONE if outcome.untried is None else Status.LOOK])
    return Checked({**as_json(top, outcome), "disputed": disputed, "entries": entries.value}, status)


def looked_at_entries(options: argparse.Namespace, store: Store, top: Line, history: Optional[History]) -> EntryState:
    """Makes the entries of a log anew where that is wanted, or looks at them, and tells what is wrong."""
    is_register = Records(store.folder).is_there
    if options.entries and is_register:
        raise Trouble(Status.USAGE, f"the service in {name_of(store.path)} is one of weft record, and entries are none of it", "Leave --entries out.")
    if options.entries:
        make_entries(store, top, history)
        return EntryState.MADE
    entries = Entries(beside(store.folder, ".entries"))
    if history is None and not options.all:
        return EntryState.UNSEEN
    steps = enumerate(history.events, 1) if history is not None else recorded.events_of(store, judges.bench(), top)
    if is_register:
        return look_at_records(store.folder, top, iter(steps))
    if not entries.is_there:
        return expect_entries(options, entries, top, any(recorded.is_of_log(events) for _, events in steps))
    if files.is_there(beside(store.folder, ".pending")):
        complain(f"The entries in {name_of(entries.path)} weren't looked at: a run of weft log was stopped amid a step. Run it again first.")
        return EntryState.AMID_A_STEP
    differing = find_differing(entries.lines(), steps, recorded.is_of_log)
    if differing is None:
        return EntryState.GOOD
    complain(recorded.differing_entry(options.folder, entries, differing).describe())
    return EntryState.DIFFERING


def expect_entries(options: argparse.Namespace, entries: Entries, top: Line, is_log: bool) -> EntryState:
    """Tells that the entries of a log aren't there."""
    if find_missing(top, Beside(True, False, is_log)) is not Missing.ENTRIES:
        return EntryState.NONE
    complain(
        f"{name_of(entries.path)} isn't there, and the store has entries of a log: weft log makes no step without it. Was it lost, or taken away? Put it back; "
        f"or weft check --entries {name_of(options.folder)} makes it anew of the store."
    )
    return EntryState.MISSING


def make_entries(store: Store, top: Line, history: Optional[History]) -> None:
    """Makes the entries of a log anew: of the history whose authenticators were computed anew, else of proofs."""
    judge, entries = judges.bench(), Entries(beside(store.folder, ".entries"))
    had = sum(1 for _ in entries.lines())
    steps = enumerate(history.events, 1) if history is not None else recorded.events_of(store, judge, top)
    count = recorded.make_entries(entries, steps)
    complain(f"{name_of(entries.path)} was made anew, of the store: {count_of(count, 'entry', 'entries')}; {had:,} stood there.")


def looked_at(options: argparse.Namespace, store: Store, top: Line, exported: Exported, wrong: list[str], agreeing: int) -> Outcome:
    """Looks at all steps, and at the events that are chosen."""
    history, bad = exported.history, checks.bad_pages(store)
    counts: list[Optional[int]] = [len(events) for events in history.events] if history is not None else []
    proved = 0
    for result in with_bar(options, "checking steps:", list(checks.link_tasks(store, top, history))):
        bad += result.bad
        counts += result.counts
    for result in with_bar(options, "checking received lines:", list(checks.received_tasks(store, top, history))):
        bad += result.bad
    places = choose_places([count or 0 for count in counts], None if options.all else SAMPLE)
    for result in with_bar(options, "checking events:", list(checks.event_tasks(store, top, history, places))):
        bad += result.bad
        proved += result.proved
    try:
        ahead, untried = checks.tried_ahead(store, top, history.ahead if history is not None else None) if top.step and not bad else None, None
    except Trouble as trouble:
        ahead, untried = None, trouble
    bad += [Bad(top.step, f"{pages.NEXT_STEP}: {ahead}")] if ahead is not None else []
    known = [count for count in counts if count is not None]
    events = sum(known) if len(known) == len(counts) else None
    no_threads = history is not None or top.step == 0 or checks.has_no_threads(store, top)
    return Outcome(Looked(exported.export, events, proved, no_threads), exported, bad, wrong, agreeing, untried)


def with_bar(options: argparse.Namespace, what: str, work: list[Task]) -> Iterator[Result]:
    """What comes of the tasks, with a bar."""
    return with_progress(checks.results(work, options.workers), what, len(work))


def held_lines(store: Store, kept: KeptLines, history: Optional[History], top: Line) -> tuple[list[str], int]:
    """Which kept lines of the service aren't of the store, in sentences, and how many are. (That of step 0 follows from the name: it may be false, and binds
    nothing.)"""
    wrong, agreeing = [], 0
    for step in kept.steps(top.service):
        found = authenticator_at(store, history, top, step)
        if kept.is_disputed(top.service, step) and any(found == it.line.authenticator for it in kept.all_at(top.service, step)):
            continue  # (that they contradict is told of them all)
        for line in dict.fromkeys(it.line for it in kept.at(top.service, step)):
            if found == line.authenticator:
                agreeing += step > 0
                continue
            if history is not None and 0 < step < top.step and linked(store, top, step) == line.authenticator:
                continue  # (the store is the line's, and damaged: its step is told as not good)
            came = "; ".join(it.told for it in kept.at(top.service, step) if it.line == line)
            has = "has no such step" if step > top.step else "has another step of that number" if found else "doesn't prove that step"
            wrong.append(f"the store {has} as the line of step {step}, {line.authenticator[:16]}.. ({came})")
    return wrong, agreeing


def authenticator_at(store: Store, history: Optional[History], top: Line, step: int) -> Optional[str]:
    """The authenticator of a step: computed anew, or by its link."""
    if step > top.step:
        return None
    if step == top.step:
        return top.authenticator
    if step == 0:
        return step_0(top.service).authenticator
    if history is not None:
        return history.authenticators[step - 1] if step <= len(history.authenticators) else None
    return linked(store, top, step)


def linked(store: Store, top: Line, step: int) -> Optional[str]:
    """The authenticator of a step that its link proves; None where it isn't proved."""
    verdict, _ = checks.proved(store, top, "link", str(step))
    return verdict.lines[1][4] if verdict is not None else None


def as_json(top: Line, outcome: Outcome) -> dict[str, object]:
    """What came of a check, as JSON has it."""
    looked, history = outcome.looked, outcome.exported.history
    found = {"service": top.service, "steps": top.step, "bad": [it._asdict() for it in outcome.bad], "lines": outcome.agreeing, "other_lines": outcome.wrong}
    whether = {"exported": history is not None, "why_not": outcome.exported.why or None, "not_looked_at": list_unseen(looked)}
    return {**found, "events": looked.events, "events_proved": looked.proved, **whether}


def tell(options: argparse.Namespace, store: Store, top: Line, outcome: Outcome) -> None:
    """Says what is good, what isn't, what wasn't looked at, and by what it was found."""
    looked, unseen = outcome.looked, list_unseen(outcome.looked)
    tell_found(top, outcome)
    judge = judges.bench()
    if top.step:
        events = f"{looked.proved:,} of {count_of(looked.events, 'event')}" if looked.events is not None else count_of(looked.proved, "event")
        history = outcome.exported.history
        received = f", {count_of(len(history.received), 'received line')}" if history is not None and history.received else ""
        say(f"links{received} and {events} proved by the program, {judge.name_judges('strict')}")
        why = outcome.exported.why
        say(f"authenticators computed anew by: {judges.REFERENCE}, from the export" if not why else f"{why[0].upper()}{why[1:]}.")
    if unseen:
        what = "" if options.all else f" weft check --all {name_of(store.path)} proves each event."
        say(f"Not looked at: {listed(unseen)}. So nothing is said of that.{what}")
    if judge_check(outcome.count_found(), looked) in (Status.BAD_STORE, Status.OLD_STORE):
        say(f"Append nothing to {name_of(store.path)}: go back to a backup that has your last line, and look at the device.")


def tell_found(top: Line, outcome: Outcome) -> None:
    """Says which steps aren't good, and which kept lines aren't of the store."""
    steps, agreeing = {it.step for it in outcome.bad}, outcome.agreeing
    is_held = agreeing or outcome.wrong
    held = f"{count_of(agreeing, 'kept line')} agree{'s' if agreeing == 1 else ''}" if is_held else "no line of it was kept to hold it against"
    good = f"{top.service}: {top.step - len(steps):,} of {count_of(top.step, 'step')} good" if top.step else f"{top.service} has no step yet"
    say(f"{good}; {held}.")
    for it in outcome.bad[:50]:
        say(f"  {steps_of([it.step])}: {it.why}.")
    if len(outcome.bad) > 50:
        say(f"  and {len(outcome.bad) - 50:,} more.")
    for text in outcome.wrong:
        say(f"  {text[0].upper()}{text[1:]}.")
