"""Lines: the name of a service, a step of it, and the authenticator of that step; and the file of those that were kept.

A file of kept lines is plain text, a line in each of its lines, and behind it the day on which it was kept and how it came:

    shop 2 5585fc74c8b89378088d61ce37d82efe4c25f9ab0bbeb79b20a4618dce62a486 2026-11-29T09:40:00Z by mail from Anna

Empty lines and those that begin with # are skipped. A line with nothing behind it counts as well, as one of which nothing is told. What is told of a step
whose lines contradict stands in lines of its own (deciding/keeping.py)."""

from __future__ import annotations

import itertools
import os
import time
from contextlib import contextmanager
from pathlib import Path
from typing import Callable, Collection, Iterable, Iterator, NamedTuple, Optional, Sequence, Union

from weft import files, locks
from weft.deciding import keeping, letters
from weft.deciding import lines as deciding
from weft.deciding.keeping import Counting, Mark, Outcome, Standing, choose_line, find_standing_choice, list_counting, may_be_mistyped, place_line, standing_of, was_passed_over
from weft.deciding.lines import LAST_STEP as LAST_STEP
from weft.deciding.lines import NAME as NAME
from weft.deciding.lines import NAME_RULE as NAME_RULE
from weft.deciding.lines import Kept as Kept
from weft.deciding.lines import Line as Line
from weft.deciding.lines import read_line as read_line
from weft.deciding.rows import digest_of
from weft.files import AnyPath, Input
from weft.output import complain
from weft.sentences import fill
from weft.statuses import Status
from weft.texts import MOST_SHOWN, beside, name_of, now, printable, quoted, typed
from weft.trouble import Trouble

MOST_BYTES = 1 << 32
MOST_OTHERS = 1 << 20
MOST_ANCHORS = 64
ONE_SECOND = 1.0
# So much of a text is read in which a line stands amid others.
MOST_TYPED = 1 << 20


def checked_name(name: str) -> str:
    """The name; raises Trouble where none that is made or accepted here can have it."""
    if not deciding.may_take_name(name):
        raise Trouble(Status.USAGE, f"{quoted(name[:MOST_SHOWN])} is no name of a service: {NAME_RULE}")
    return name


def read_kept(text: str) -> Optional[Kept]:
    """A line of a file of kept lines, with nothing raw in its date and in how it came; or None where it has none."""
    kept = deciding.read_kept(text)
    return kept and Kept(kept.line, printable(kept.date), printable(kept.how))


def read_mark(text: str) -> Optional[Mark]:
    """What a line of a file of kept lines tells of a step whose lines contradict, with nothing raw in it; or None where it tells none."""
    mark = keeping.read_mark(text)
    return mark and mark._replace(date=printable(mark.date), how=printable(mark.how))


def lines_of(data: bytes, what: str) -> list[Line]:
    """The lines of a file that has nothing else; raises Trouble where one of its lines is none, or there is none."""
    texts = data.decode("utf-8", "replace").removesuffix("\n").split("\n") if data else []
    found = [read_line(text.rstrip("\r")) for text in texts]
    lines = [line for line in found if line is not None]
    if not lines or len(lines) < len(found):
        number = found.index(None) + 1 if None in found else 1
        advice = "A line is a name, a step and 64 hexadecimal digits, as: shop 2 5585fc74.."
        raise Trouble(Status.UNREADABLE, f"line {number} of {what} is no line of a service", advice)
    return lines


def typed_lines(data: bytes, what: str, is_found: bool = False) -> list[Line]:
    """The lines of a file that somebody typed, in groups or over several lines of it. Raises Trouble where one was typed wrong, where there is none, and where other
    words stand in it, which may say anything of them, but where a person says that they are meant (`is_found`)."""
    try:
        return lines_of(data, what)
    except Trouble as trouble:
        typed, others = letters.read_typed(data[:MOST_TYPED].decode("utf-8", "replace"))
        if not typed:
            raise trouble from None
    found = [it.line for it in typed if it.line is not None]
    alone = [" ".join(typed_sentences(it)) for it in typed if it.fault is letters.Fault.ALONE]
    faults = [" ".join(typed_sentences(it)) for it in typed if it.fault not in (None, letters.Fault.ALONE)]
    if faults or not found:
        raise Trouble(Status.UNREADABLE, f"in {what}: {' '.join([*faults, *alone])}".removesuffix("."), "Nothing was kept.")
    if others and not is_found:
        told = " ".join(fill("amid words", service=it.service, step=it.step, digits=letters.grouped(it.authenticator)) for it in found)
        raise Trouble(Status.LOOK, f"in {what}: {told}".removesuffix("."), "Nothing was kept. Read what the file says of it; if it is the one that is meant: --found.")
    for text in alone:
        complain(f"passed over in {what}: {text}")
    return found


def typed_sentences(it: letters.Typed) -> list[str]:
    """What is wrong with a line that was typed."""
    if it.fault is None:
        return []
    told = fill(it.fault.value, service=it.service, step=it.step, count=len(it.digits), row=it.row, said=it.said, number=it.number)
    return [told, fill("row guess", said=it.said)] if it.fault is letters.Fault.ROW and it.said else [told]


def slip_sentences(kept: Iterable[Line]) -> list[str]:
    """That two of these lines of one step differ so little that one was typed wrong, where two do."""
    found = ((one, other, letters.find_slip(one.authenticator, other.authenticator)) for one, other in itertools.combinations(dict.fromkeys(kept), 2))
    return [
        fill("slip between", service=one.service, step=one.step, where=slip.where, one=slip.one, other=slip.other)
        for one, other, slip in found if slip is not None and (one.service, one.step) == (other.service, other.step)
    ]  # fmt: skip


def anchors(chosen: Iterable[Line]) -> bytes:
    """The bytes of an anchors file of these lines."""
    return b"".join(line.text.encode() + b"\n" for line in chosen)


def default_kept() -> Path:
    """Where lines are kept, where nothing else is named: by the variable WEFT_KEPT, else among the user's own files."""
    return files.named_by("WEFT_KEPT") or own_files() / "kept"


def own_files() -> Path:
    """The folder of weft among the user's own files; a variable that names it from some other folder on is passed over, as XDG's rule is."""
    data = os.environ.get("XDG_DATA_HOME", "")
    return (Path(data) if os.path.isabs(data) else files.home() / ".local/share") / "weft"


class KeptLines:
    """The kept lines of files, by service and step, and what is told of steps of which lines contradict; the names that a person says are another service's, which
    stand beside such a file in FILE.others; and the status of how they were found."""

    def __init__(self, paths: Iterable[AnyPath] = (), more: Iterable[Kept] = (), named: Iterable[AnyPath] = ()):
        self.found: dict[str, dict[int, list[Kept]]] = {}
        self.status = Status.DONE
        self.marks: dict[tuple[str, int], list[Mark]] = {}
        self.rising: dict[str, list[int]] = {}
        self.uncounted: dict[str, list[Kept]] = {}
        self.inputs: list[Input] = []
        self.others: set[str] = set()
        given, wanted = [Path(path) for path in paths], [Path(path) for path in named]
        self.paths = [*given, *wanted]
        for path in given:
            self.add_file(path, files.read_if_there(path, MOST_BYTES))
        for path in wanted:
            self.add_file(path, files.read(path, MOST_BYTES))
        for place in self.paths:
            self.others.update((files.read_if_there(beside(place, ".others"), MOST_OTHERS) or b"").decode("ascii", "replace").split())
        for kept in more:
            self.add(kept)

    @property
    def place_of_others(self) -> Path:
        """Where a person says that a name is another service's."""
        return beside(self.paths[0] if self.paths else default_kept(), ".others")

    def add_file(self, path: AnyPath, data: Optional[bytes]) -> None:
        """Adds all lines of a file that was read, where it is there, and notes what was read."""
        if data is not None:
            self.inputs.append(Input("kept lines", os.fspath(path), len(data), digest_of(data)))
            self.add_text(path, data.decode("utf-8", "replace"))

    def add_text(self, path: AnyPath, text: str) -> None:
        """Adds all lines of a file's text; raises Trouble at one that is none."""
        for number, line in enumerate(text.split("\n"), 1):
            if line.strip() and not line.startswith("#"):
                found = read_kept(line.rstrip("\r")) or read_mark(line.rstrip("\r"))
                if found is None:
                    advice = "Put # in front of what is no line, or take it out."
                    raise Trouble(Status.UNREADABLE, f"line {number} of {name_of(path)} is no line of a service", advice)
                self.add(found)

    def add(self, found: Union[Kept, Mark]) -> None:
        """Adds a line, or what is told of a step."""
        if isinstance(found, Mark):
            self.marks.setdefault((found.service, found.step), []).append(found)
            return
        self.found.setdefault(found.line.service, {}).setdefault(found.line.step, []).append(found)
        self.rising.pop(found.line.service, None)

    def count_by(self, service: str, noted: Collection[str], late: Collection[Kept] = ()) -> None:
        """Lets no line of a service count that came by the signature of another key than these alone, or when its key didn't count, as these, nor what is told of a
        contradiction with such lines."""
        for step in {*self.found.get(service, {}), *(step for name, step in self.marks if name == service)}:
            kept = self.all_at(service, step)
            left = list_counting(kept, self.marks_at(service, step), noted, late)
            gone = [it for it in kept if it not in left.kept]
            if gone:
                self.uncounted.setdefault(service, []).extend(gone)
                self.found[service][step], self.marks[service, step] = left.kept, left.marks
        self.found[service] = {step: kept for step, kept in self.found.get(service, {}).items() if kept}
        self.rising.pop(service, None)

    def all_at(self, service: str, step: int) -> list[Kept]:
        """All that were kept of this step."""
        return self.found.get(service, {}).get(step, [])

    def marks_at(self, service: str, step: int) -> list[Mark]:
        """What is told of this step, where its lines contradict."""
        return self.marks.get((service, step), [])

    def standing(self, service: str, step: int) -> Standing:
        """Which line of this step counts."""
        return standing_of(self.all_at(service, step), self.marks_at(service, step))

    def at(self, service: str, step: int) -> list[Kept]:
        """Those of this step that count, each with how it came: all of them, or where one was chosen over others, that one, and that it was."""
        choice = self.standing(service, step).choice
        if choice is None:
            return self.all_at(service, step)
        own = [it for it in self.all_at(service, step) if it.line == choice.chosen]
        return [*own, Kept(choice.chosen, choice.date, "chosen over another line of that step")] if own else []

    def one(self, service: str, step: int) -> Optional[Line]:
        """The line of this step that counts, or None where there is none; raises Trouble where lines contradict and none was chosen."""
        found = self.standing(service, step)
        if found.is_disputed:
            raise self.contradiction(service, step)
        return found.line

    def contradiction(self, service: str, step: int, path: Optional[Path] = None) -> Trouble:
        """That lines of this step contradict, and where each came from; where one file has them all, which."""
        ways: dict[str, dict[str, None]] = {one: {} for one in self.standing(service, step).authenticators}
        for it in self.all_at(service, step):
            ways[it.line.authenticator][it.told] = None
        came = "; ".join(f"{one} {', '.join(told) or 'was seen, and is no more in the file'}" for one, told in ways.items())
        slips = slip_sentences(Line(service, step, one) for one in ways)
        return Trouble(
            Status.CONTRADICTION,
            f"{''.join(f'{slip} ' for slip in slips)}{'T' if slips else 't'}here are {'two' if len(ways) == 2 else len(ways)} lines of step {step} of {service}, and at most one is of {service}'s history",
            f"Ask {service}, and look where each came from: {came}. Nothing is judged under any of them until you choose one: {choose_command(path)}.",
        )

    def is_disputed(self, service: str, step: int) -> bool:
        """Whether lines of this step contradict, and none was chosen."""
        return self.standing(service, step).is_disputed

    def disputes(self) -> list[tuple[str, int]]:
        """The services and steps of which lines contradict, and none was chosen."""
        places = {(it.line.service, it.line.step) for it in self.all()} | self.marks.keys()
        return sorted(place for place in places if self.is_disputed(*place))

    def disputes_of(self, service: str) -> list[tuple[str, int]]:
        """Those of one service."""
        return [place for place in self.disputes() if place[0] == service]

    def steps(self, service: str) -> list[int]:
        """The steps of which lines were kept, rising; the list is sorted once."""
        if service not in self.rising:
            self.rising[service] = sorted(self.found.get(service, {}))
        return self.rising[service]

    def of(self, service: str) -> list[Kept]:
        """All that were kept of a service, and count."""
        return [it for same in self.found.get(service, {}).values() for it in same]

    def services(self) -> list[str]:
        """The services of which lines were kept."""
        return sorted(self.found)

    def all(self) -> list[Kept]:
        """All kept lines."""
        return [kept for steps in self.found.values() for same in steps.values() for kept in same]

    @property
    def text(self) -> str:
        """What counts of all kept lines, as the text of a file, in an order of its own: the lines without how they came, and the marks."""
        marks = sorted(mark.text for marks in self.marks.values() for mark in marks)
        return "".join(f"{it}\n" for it in [*(kept.line.text for kept in sorted(self.all())), *marks])


def kept_of(named: Optional[Sequence[Path]]) -> KeptLines:
    """The kept lines of the files that were named, each of which has to be there; where none was named those of the user's own file."""
    return KeptLines(named=named) if named else own_kept()


def own_kept(is_new: bool = False) -> KeptLines:
    """The kept lines of the user's own file, which the first line that is kept makes. That the variable WEFT_KEPT names none that is there is told, and stands
    in their status: it may be mistyped, and nothing is held against the lines that were meant. Of a service that is new there are none."""
    own = default_kept()
    found = KeptLines([own])
    if may_be_mistyped(bool(os.environ.get("WEFT_KEPT")) and not is_new, files.is_there(own)):
        complain(f"there is no file {name_of(own)}, which WEFT_KEPT names: is that its name? The first line that is kept makes it.")
        found.status = Status.LOOK
    return found


# ---- the file


Noted = Callable[[str], Collection[str]]
"""The fingerprints of the keys that are noted of a service."""

Late = Callable[[str, Sequence[Kept]], Collection[Kept]]
"""Those of its kept lines whose key didn't count when they were kept."""


class Placed(NamedTuple):
    """A line that was to be kept, and what became of it; where it contradicts others and doesn't count, the sentence of that; and where it was chosen, the
    authenticators over which it was."""

    kept: Kept
    outcome: Outcome
    trouble: Optional[Trouble] = None
    others: tuple[str, ...] = ()


def keep(path: Path, new: Iterable[Kept], noted: Optional[Noted] = None, late: Optional[Late] = None) -> list[Placed]:
    """Adds lines to a file of kept lines, and answers what became of each. One that contradicts others is added too, and marked: others that count, by the keys
    that are noted of their service where these are told."""
    with kept_file(path) as (known, added):
        return [place(path, known, added, it, noted, late) for it in new]


def choose(path: Path, new: Kept) -> Placed:
    """Adds a line to a file of kept lines, and lets it count, of all lines of its step that differ; answers what became of it, and over which it was
    chosen, now or before."""
    service, step = new.line.service, new.line.step
    with kept_file(path) as (known, added):
        placed = place(path, known, added, new)
        mark = choose_line(new.line, known.all_at(service, step), known.marks_at(service, step), new.date, new.how)
        if mark is not None:
            mark = dated_behind(mark, known.marks_at(service, step), path)
            added.append(mark)
            known.add(mark)
        others = tuple(one for one in known.standing(service, step).authenticators if one != new.line.authenticator)
        return Placed(new, Outcome.KNOWN if placed.outcome is Outcome.KNOWN else Outcome.NEW, None, others)


@contextmanager
def kept_file(path: Path) -> Iterator[tuple[KeptLines, list[Union[Kept, Mark]]]]:
    """The lines of a file, under its lock, and a list to which those are to be added that are written behind them."""
    files.make_folder(path.parent)
    with locks.held(beside(path, ".lock"), 30, path):
        old = files.read_if_there(path, MOST_BYTES) or b""
        known = KeptLines()
        known.add_text(path, old.decode("utf-8", "replace"))
        added: list[Union[Kept, Mark]] = []
        yield known, added
        if added:
            end = b"" if not old or old.endswith(b"\n") else b"\n"
            files.renew(path, old + end + b"".join(f"{it.text}\n".encode() for it in added))


def place(path: Path, known: KeptLines, added: list[Union[Kept, Mark]], new: Kept, noted: Optional[Noted] = None, late: Optional[Late] = None) -> Placed:
    """Adds a line to those that are known, and to those that are to be written; answers what became of it."""
    service, step = new.line.service, new.line.step
    kept, marks = known.all_at(service, step), known.marks_at(service, step)
    counting = list_counting(kept, marks, noted(service), late(service, kept) if late is not None else ()) if noted is not None else Counting(list(kept), list(marks))
    standing = standing_of(counting.kept, counting.marks)
    others = [it for it in kept if it not in counting.kept and it.line != new.line and not was_passed_over(it.line, standing)]
    placement = place_line(new, counting.kept, counting.marks)
    for it in placement.added:
        known.add(it)
        added.append(it)
    if placement.outcome is Outcome.CONTRADICTING:
        return Placed(new, placement.outcome, known.contradiction(service, step, path))
    if placement.outcome is Outcome.NOT_CHOSEN:
        return Placed(new, placement.outcome, not_chosen(new, known.at(service, step), path))
    return Placed(new, placement.outcome, beside_uncounted(others) if others else None)


def beside_uncounted(others: Sequence[Kept]) -> Trouble:
    """That a line differs from others of its step which don't count, since their keys aren't noted."""
    line, came = others[0].line, "; ".join(dict.fromkeys(it.told for it in others))
    return Trouble(
        Status.LOOK,
        f"another line of step {line.step} of {line.service} was kept ({came}), and doesn't count, since that key isn't noted of {line.service} or wasn't then",
        "Was the key stolen, take that line out of your file of kept lines; else note it: then these are two lines of one step.",
    )


def dated_behind(mark: Mark, marks: Sequence[Mark], path: Path) -> Mark:
    """A new choice with the date by which it counts: one that is made within the second of an earlier one waits for the next. Raises Trouble where an earlier
    one has a later date, and would stand; nothing is written then."""
    standing = find_standing_choice(mark, marks)
    if standing is not None and standing.date == mark.date:
        time.sleep(ONE_SECOND)
        mark = mark._replace(date=now())
        standing = find_standing_choice(mark, marks)
    if standing is None:
        return mark
    raise Trouble(
        Status.LOOK,
        f"{name_of(path)} has a choice of step {mark.step} of {mark.service} with the date {standing.date}, and by the clock it is {mark.date} now. Nothing "
        "was chosen",
        "The later date counts. Look at the clock, and run it again once that date is past; if that date is wrong, take its line out of the file.",
    )


def choose_command(path: Optional[Path]) -> str:
    """What is typed to choose a line, of this file of kept lines."""
    return "weft keep --choose FILE" + ("" if path is None or path == default_kept() else f" --kept {typed(path)}")


def not_chosen(new: Kept, chosen: Iterable[Kept], path: Path) -> Trouble:
    """A line came over which another one was chosen."""
    service, step = new.line.service, new.line.step
    ways = list(chosen)
    came = f"{ways[0].line.authenticator} {', '.join(dict.fromkeys(it.told for it in ways))}" if ways else "it is no more in the file"
    return Trouble(
        Status.CONTRADICTION,
        f"this line of step {step} of {service}, {new.line.authenticator}, is one over which you chose another ({came})",
        f"It is kept, and doesn't count. If it is the right one: {choose_command(path)}.",
    )


def kept_now(line: Line, how: str) -> Kept:
    """The line, kept at this moment."""
    return Kept(line, now(), printable(how.strip()))
