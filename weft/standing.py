"""What is known against the store of a service, found of all that lies beside it. What each word may do then stands in weft.deciding.standing."""

from __future__ import annotations

import functools
from pathlib import Path
from typing import Callable, Collection, Iterator, NamedTuple, Optional, Sequence

from weft import choosing, files, own, parts
from weft.deciding.going_on import find_missing_part, is_name_of_later, is_name_of_part
from weft.deciding.restoring import Beside, Missing, Told, find_missing
from weft.deciding.standing import STATUSES, Against, Command, May, may_do
from weft.deciding.told import Row, choose_counting
from weft.deciding.worst import worst_of
from weft.judges import Bench
from weft.lines import KeptLines, Line
from weft.output import complain
from weft.own import NO_STEP, OwnLines, ToldLines
from weft.parts import Part
from weft.statuses import Status
from weft.stores import Store
from weft.texts import beside, count_of, date_of, name_of, typed
from weft.trouble import Trouble

CHECKED = ": nothing here shows whether steps were made behind its last one. Compare that with what others hold of it."
# What a word that goes on says behind that the store may be an old one.
DOUBT_ENDS = {
    Command.LINE: ". Hand out nothing of it before you know that it is the right one.",
    Command.PROVE: ". Then this needn't be the file's last entry: with --step it is proved without a word of that.",
    Command.LIST: ". Then further steps may be missing here.",
    Command.FIND: ". Then what was recorded since isn't found here.",
    Command.CHECK: CHECKED,
    Command.ENTRIES: CHECKED,
    Command.STATUS: ".",
    Command.BACKUP: ".",
}


class Finding(NamedTuple):
    """Something that is known against a store: the trouble that ends a word by it; what a word that goes on tells of it, nothing where it was told as it was read;
    and whether it is that the store may be an old one."""

    trouble: Trouble
    told: Sequence[str] = ()
    is_doubt: bool = False


class Going(NamedTuple):
    """How a word goes on: with which status at best, and what it is to tell; why the store may be an old one; and what ends it."""

    status: Status
    told: list[str]
    doubt: Optional[str]
    ended: list[Trouble]

    def tell(self) -> None:
        """Tells all."""
        for text in self.told:
            complain(text)


class Standing:
    """What is known against the store of a service, with all its parts; for a turn, which sees anew what peers tell, but for those that a person passes over. Raises Trouble
    where a part isn't proved to be the next one of that before it."""

    def __init__(self, service: Path, judge: Bench, kept: Optional[KeptLines] = None, despite: Optional[Collection[str]] = None):
        self.service, self.judge, self.given, self.despite = service, judge, kept, despite
        self.parts = parts.parts_of(service, judge)
        self.new = parts.being_made(service, judge, self.parts)
        self.first = OwnLines(service)

    @property
    def made(self) -> list[Part]:
        """The parts but for one that is still being made."""
        return self.parts if self.new is None else self.parts[: self.new.number - 1]

    @property
    def last(self) -> Part:
        """The part in which it goes on, but for one that is still being made."""
        return self.made[-1]

    @property
    def names(self) -> list[str]:
        """The names of its parts."""
        return [part.last.service for part in self.parts]

    @functools.cached_property
    def kept(self) -> KeptLines:
        """The lines that are held against it: the named ones, else its user's own."""
        return parts.own_kept() if self.given is None else self.given

    # ---- how a word goes on

    def expect(self, command: Command, unmade: str = NO_STEP, is_named: bool = False, but: Collection[Against] = ()) -> Going:
        """How a word goes on, but for what isn't looked for; a person may have named the last line. Raises Trouble where it may not go on, by what is found first, and
        with what wasn't made; what was found before that is told."""
        known = []
        for may, finding in self.known(command, unmade, is_named, but):
            known.append((may, finding))
            if may is May.END:
                break
        going = going_by(command, known)
        if going.ended:
            going.tell()
            raise going.ended[0]
        return going

    def weigh(self, command: Command, unmade: str, but: Collection[Against] = ()) -> Going:
        """How a word goes on that looks at all, whatever is found; but for what it looks for itself."""
        return going_by(command, list(self.known(command, unmade, False, but)))

    def known(self, command: Command, unmade: str, is_named: bool, but: Collection[Against] = ()) -> Iterator[tuple[May, Finding]]:
        """What is known against it, one after another, with what the word may do then. What changes nothing for the word isn't looked for."""
        for against, find in FINDERS.items():
            may = may_do(against, command, is_named)
            finding = find(self, unmade) if may is not May.GO_ON and against not in but else None
            if finding is not None:
                yield may, finding

    # ---- what may be known

    def find_missing_part(self, unmade: str) -> Optional[Finding]:
        """That the last part names one that isn't there, or that a line of one that isn't there was handed out or noted."""
        named = parts.named_by(self.judge, self.parts[-1]) if self.new is None else None
        if named is not None:
            ended, folder = self.parts[-1].last.service, parts.folder_of(self.service, len(self.parts) + 1)
            advice = (
                f"Put that part back, which lay in {name_of(folder)}, with what stood beside it; or name the folder of the whole log. If it is lost, go on under a new "
                f"name. Was the event `goes on as {named}` appended by hand: {named}, once its first step received that line, belongs into {name_of(folder)}."
            )
            return Finding(Trouble(Status.OLD_STORE, f"{ended} has ended, and goes on as {named}: no step is made here", advice))
        line = find_missing_part(self.names, [line for line, _ in self.lines_beside()])
        if line is None:
            return None
        told = f"{name_of(dict(self.lines_beside())[line])} has a line of step {line.step} of {line.service}, and no part of {name_of(self.service)} is called so"
        advice = "Was that part moved, or put back without what stood beside it? Put the right one back. If it is lost, go on under a new name."
        return Finding(Trouble(Status.OLD_STORE, ending(told, unmade), advice))

    def lines_beside(self) -> list[tuple[Line, Path]]:
        """The lines of all parts that stand beside the first one, each with its file."""
        return [(line, self.first.anchor) for line in self.first.read(self.first.anchor)] + [(line, self.first.seal) for line in self.first.noted_parts()]

    def find_other_part(self, unmade: str) -> Optional[Finding]:
        """That a further part isn't that of a line which stands beside the first one."""
        told = [(part, Told(line, f"kept in {name_of(path)}")) for part in self.parts[1:] for line, path in self.lines_beside() if line.service == part.last.service]
        return self.find_lacking(told, unmade)

    def find_lacking(self, told: Sequence[tuple[Part, Told]], unmade: str) -> Optional[Finding]:
        """The first of these lines that the store of its part lacks."""
        for part, it in told:
            if own.lacks_all(part.store, self.judge, part.last, [it.line]):
                return Finding(own.lacking(part.store.path, part.last, it, unmade))
        return None

    def find_unfound(self, unmade: str) -> Optional[Finding]:
        """That a file that was named for lines or keys isn't there, which was told as it was read; of a store without steps nothing would be held against it."""
        is_found = self.kept.status is Status.DONE or self.parts[-1].last.step == 0
        return None if is_found else Finding(Trouble(self.kept.status, "a file that was named isn't there"))

    def find_uncounted(self, unmade: str) -> Optional[Finding]:
        """That kept lines of it don't count, or of what a further part of it can be called."""
        told = choosing.uncounted_sentences(self.kept, [*self.names, *(it for it in self.kept.uncounted if is_name_of_later(self.names, it, self.kept.others))])
        return Finding(Trouble(Status.LOOK, told[0]), told) if told else None

    def find_disputed(self, unmade: str) -> Optional[Finding]:
        """That kept lines of one of its steps contradict, and none was chosen."""
        disputed = [step for name in self.names for step in self.kept.disputes_of(name)]
        if not disputed:
            return None
        contradiction = self.kept.contradiction(*disputed[0])
        told = f"among the lines that you keep {contradiction.sentence}: one of them may be this store's"
        return Finding(Trouble(Status.OLD_STORE, ending(told, unmade), f"{contradiction.advice} {whose(self.last.store)}"))

    def find_other_kept(self, unmade: str) -> Optional[Finding]:
        """That a part isn't that of each line of it that is kept and counts. (One that was noted beside it needs no proof: the last of these is held against it.)"""
        for part in self.parts:
            noted = OwnLines(part.folder).known
            kept = [it for step in self.kept.steps(part.last.service) for it in self.kept.at(part.last.service, step) if it.line not in noted]
            told = [(part, Told(it.line, f"among the lines that you keep, {it.told}; if it isn't its own, take it out there")) for it in kept]
            finding = self.find_lacking(told, unmade)
            if finding is not None:
                return finding
        return None

    def find_later_part(self, unmade: str) -> Optional[Finding]:
        """That a kept line tells of a part behind the last one: this may be an old one."""
        line, first = parts.find_later(self.names, self.kept), self.names[0]
        if line is None:
            return None
        came, where = self.kept.all_at(line.service, line.step)[0].told, name_of(self.service)
        told = f"you keep a line of step {line.step} of {line.service} ({came}), as a further part of {first} would be called, and no part in {where} is"
        trouble = Trouble(
            Status.OLD_STORE,
            ending(told, unmade),
            f"Is that a part of it? Then what stands in {where} is old, or that part was lost: put the right one back; a step made here would begin a second "
            f"history. Is {line.service} another's service? Then note that: echo {line.service} >> {name_of(self.kept.place_of_others)}",
        )
        return Finding(trouble, [trouble.describe()])

    def find_other_line(self, unmade: str) -> Optional[Finding]:
        """That a part isn't that of the lines that stand beside it."""
        held = [(part, it, line) for part in self.made for it in [OwnLines(part.folder)] for line in it.telling()]
        for part, _, line in held:
            if line.service != part.last.service:
                told = f"the service in {name_of(part.store.path)} is called {part.last.service}, and not {line.service}"
                return Finding(Trouble(Status.USAGE, told))
        return self.find_lacking([(part, Told(line, f"kept in {name_of(it.place_of(line))}")) for part, it, line in held], unmade)

    def find_told(self, unmade: str) -> Optional[Finding]:
        """That a turn saw a line of it that it lacks."""
        beside_it = ToldLines(self.service)
        for row in {it.line: it for it in self.told}.values():
            told, part = beside_it.told_of(row), next((it for it in self.parts if it.last.service == row.line.service), None)
            if part is not None and own.lacks_all(part.store, self.judge, part.last, [row.line]):
                trouble = own.lacking(part.store.path, part.last, told, unmade)
            elif part is None and is_name_of_part(self.names[0], row.line.service):
                trouble = own.old_store(str(self.service), row.line, f"no part of it is called {row.line.service}", told.whence, unmade)
            else:
                continue
            return Finding(Trouble(trouble.status, trouble.sentence, f"{trouble.advice} {passing_over(self.service, row)}"))
        return None

    @functools.cached_property
    def told(self) -> list[Row]:
        """The rows of what a turn saw that count."""
        return choose_counting(ToldLines(self.service).read(), self.despite or (), self.despite is not None)

    def find_look(self, unmade: str) -> Optional[Finding]:
        """That peers' words are waited for."""
        begun = OwnLines(self.last.folder).begun_look()
        if begun is None:
            return None
        waited = f"since {date_of(begun.since)} the words of peers on the store in {name_of(self.last.store.path)} are waited for"
        advice = f"weft exchange says for whom, and ends it. Without peers name its last line: {own.adopting(self.last.store)}."
        return Finding(Trouble(Status.OLD_STORE, f"{waited}, and no step was made", advice), [f"S{waited[1:]}: it may be an old one"], True)

    def find_no_lines(self, unmade: str) -> Optional[Finding]:
        """That no line of it stands beside it, though it has steps."""
        part, beside_it = self.last, OwnLines(self.last.folder)
        if find_missing(part.last, Beside(beside_it.is_there, False, False)) is not Missing.LINES:
            return None
        told = f"neither {name_of(beside_it.lines)} nor {name_of(beside_it.anchor)} stands beside it"
        return Finding(own.unnamed(part.store, part.last, told, "them", unmade))

    def find_copy(self, unmade: str) -> Optional[Finding]:
        """That it is a copy, with what stands beside it."""
        part, beside_it = self.last, OwnLines(self.last.folder)
        if not beside_it.is_copy(part.last):
            return None
        where, why = f"the store in {name_of(part.store.path)}", beside_it.why_copied()
        trouble = Trouble(
            Status.OLD_STORE,
            f"{where} has {count_of(part.last.step, 'step')}, and it and the files beside it {why}: it may be an old one. {unmade}",
            f"Was it put back, or moved? With peers: weft exchange, which asks them. Else, if no later line went out than its last one, name that: "
            f"{own.adopting(part.store)}.",
        )
        return Finding(trouble, [f"T{where[1:]} and the files beside it {why}: it may be an old one"], True)

    def find_no_entries(self, unmade: str) -> Optional[Finding]:
        """That the entries don't stand beside a part that has steps with events."""
        part = self.last
        if part.entries.is_there:
            return None
        missing = find_missing(part.last, Beside(True, False, self.has_events, files.is_there(beside(part.folder, ".records"))))
        if missing is Missing.LOG:
            return Finding(no_log(part.store, unmade))
        if missing is not Missing.ENTRIES:
            return None
        told = f"{name_of(part.entries.path)} doesn't stand beside it, by which what was logged is known"
        trouble = own.unnamed(part.store, part.last, told, "it", unmade, f" If it was lost: weft check --entries {name_of(part.store.path)}.")
        return Finding(trouble, [trouble.describe()])

    @functools.cached_property
    def has_events(self) -> bool:
        """Whether a step of its last part has events."""
        return any(self.last.store.count(step, self.last.last.step) for step in range(1, self.last.last.step + 1))


def going_by(command: Command, known: Sequence[tuple[May, Finding]]) -> Going:
    """How a word goes on where this is known."""
    told, ended = [it for may, it in known if may is May.TELL], [it.trouble for may, it in known if may is May.END]
    doubt = next((it.told[0] for it in told if it.is_doubt), None)
    texts = [text for it in told if not it.is_doubt for text in it.told] + ([f"{doubt}{DOUBT_ENDS[command]}"] if doubt is not None else [])
    return Going(worst_of([*(it.status for it in ended), *(STATUSES[May.TELL] for _ in told)]), texts, doubt, ended)


def whose(store: Store) -> str:
    """What to do where one of two lines of a step is the store's."""
    return (
        f"One of them is that of {name_of(store.path)}. Append nothing until you know who made the other one: if it went out from here, this store was set back "
        "and gone on with, and there are two histories: put back the one that has it, and tell those who hold lines. If somebody made it up, choose this store's."
    )


def no_log(store: Store, unmade: str = NO_STEP) -> Trouble:
    """That a service is one in which events are recorded, and what to do with it."""
    where = typed(store.path)
    advice = f"Log into a service of its own: weft log FOLDER OTHER NAME. What was recorded is found, and proved, by: weft find {where} FILE --proofs PROOFS"
    return Trouble(Status.USAGE, ending(f"the service in {name_of(store.path)} is one of weft record, and no log of files", unmade), advice)


def passing_over(service: Path, row: Row) -> str:
    """How a person says that a line which a turn saw isn't the service's."""
    if not row.teller:
        return "Was that line never yours, move its file out of the published folder, and run weft exchange."
    return f"Was that line never yours, as where your key was stolen: weft exchange {name_of(service)} BOX --despite {row.teller}"


def ending(text: str, unmade: str) -> str:
    """A sentence, and behind it what wasn't made."""
    return f"{text}. {unmade}" if unmade else text


FINDERS: dict[Against, Callable[[Standing, str], Optional[Finding]]] = {
    Against.MISSING_PART: Standing.find_missing_part,
    Against.OTHER_PART: Standing.find_other_part,
    Against.UNFOUND: Standing.find_unfound,
    Against.UNCOUNTED: Standing.find_uncounted,
    Against.DISPUTED: Standing.find_disputed,
    Against.OTHER_KEPT: Standing.find_other_kept,
    Against.LATER_PART: Standing.find_later_part,
    Against.OTHER_LINE: Standing.find_other_line,
    Against.TOLD: Standing.find_told,
    Against.LOOK: Standing.find_look,
    Against.NO_LINES: Standing.find_no_lines,
    Against.COPY: Standing.find_copy,
    Against.NO_ENTRIES: Standing.find_no_entries,
}
"""What finds each, in the order in which they are looked for. (A part that isn't joined is found as the parts are read.)"""
