"""The parts of a service: services that follow one another, so that each one's history stays one that can be exported, audited and taken over.

The first part is the service in the folder SERVICE; further ones lie in SERVICE/part-2, SERVICE/part-3 and so on, with what stands beside each of them. The
last step of a part names the next one, whose first step received the last line of that part: both are proved each time. While a part is being made its
number and name stand in SERVICE.next, so that a run that was stopped is brought to its end. The rules stand in weft.deciding.going_on."""

from __future__ import annotations

import re
from pathlib import Path
from typing import Collection, NamedTuple, Optional, Sequence

from weft import files, formats, lines, made, own, signatures
from weft.deciding.going_on import Joint, Making, choose_names_to_note, find_later_part, is_being_made, is_folder_of_part, is_next, named_in, naming_event, next_name
from weft.entries import Entries
from weft.formats import MOST_HISTORY, events_file
from weft.judges import Bench
from weft.lines import KeptLines, Line
from weft.own import OwnLines
from weft.statuses import Status
from weft.stores import Store
from weft.texts import beside, name_of
from weft.trouble import Trouble

# A part ends there: what is left to the limit of an exported history is for a last exchange, and for the step that names the next part.
MOST_PART = MOST_HISTORY * 3 // 4
MOST_NEXT = 64
MOST_OTHERS = 1 << 24
NEXT = re.compile(rb"([1-9][0-9]{0,5}) ([a-z0-9-]{1,16})\n")


class Part(NamedTuple):
    """A part of a log: its number from 1 on, its folder, and its last line."""

    number: int
    folder: Path
    last: Line

    @property
    def store(self) -> Store:
        """Its store."""
        return Store(self.folder)

    @property
    def entries(self) -> Entries:
        """Its entries."""
        return Entries(beside(self.folder, ".entries"))


class Next(NamedTuple):
    """A part that is being made: its number and its name."""

    number: int
    name: str


def folder_of(service: Path, number: int) -> Path:
    """The folder of a part."""
    return service if number == 1 else service / f"part-{number}"


def expect_whole(service: Path) -> None:
    """Raises Trouble where the folder is that of a part alone."""
    if is_folder_of_part(service.name, files.is_there(Store(service.parent).file)):
        told = f"{name_of(service)} is a part of {name_of(service.parent)}, and isn't named by itself"
        raise Trouble(Status.USAGE, told, f"Name the folder of the whole log: {name_of(service.parent)}.")


def parts_of(service: Path, judge: Bench) -> list[Part]:
    """All parts of a log, in their order; one that is still being made, without a step, isn't there yet. Raises Trouble where one isn't proved to be the next
    one."""
    parts = [Part(1, service, Store(service).last().line)]
    while files.is_there(Store(folder_of(service, len(parts) + 1)).file):
        folder = folder_of(service, len(parts) + 1)
        part = Part(len(parts) + 1, folder, Store(folder).last().line)
        if part.last.step == 0:
            break
        expect_next(judge, parts[-1], part)
        parts.append(part)
    return parts


def names_of_others(service: Path) -> set[str]:
    """The names that others have, of those that a part of the service could get, as far as its peers know."""
    return set((files.read_if_there(beside(service, ".others"), MOST_OTHERS) or b"").decode("ascii", "replace").split())


def note_others(service: Path, names: Sequence[str], peers: Collection[str], heard: Collection[str]) -> None:
    """Notes beside the service, whose parts have these names, the names of peers and such as were heard, and forgets none."""
    found = choose_names_to_note(names, names_of_others(service), peers, heard)
    if found:
        files.renew_if_other(beside(service, ".others"), "".join(f"{name}\n" for name in found).encode(), files.PRIVATE)


def name_next(service: Path, found: Sequence[Part], kept: KeptLines) -> Next:
    """The number and the name of the part behind these: none that another service has, of those that are known, or that a part of its own has, or had there before an older
    backup was put back."""
    had = made.names_at(folder_of(service, len(found) + 1))
    taken = {*kept.services(), *kept.others, *names_of_others(service), *(part.last.service for part in found), *had}
    return Next(len(found) + 1, next_name(found[0].last.service, len(found) + 1, taken))


def own_kept(is_new: bool = False) -> KeptLines:
    """The user's own kept lines, those of them that count, for a service that may be new; none where the system knows of no folder of this user's own."""
    try:
        lines.default_kept()
    except Trouble as trouble:
        if trouble.status is not Status.DISK:
            raise
        return KeptLines()
    return signatures.counted(lines.own_kept(is_new), None)


def find_later(names: Sequence[str], kept: KeptLines) -> Optional[Line]:
    """The first line that the user keeps of a part behind those of these names; None where there is none."""
    return find_later_part(names, (it.line for it in kept.all()), kept.others)


def expect_next(judge: Bench, old: Part, new: Part) -> None:
    """Raises Trouble where a part isn't the next one of another."""
    joint = Joint(old.last, named_by(judge, old), new.last.service, received_by(judge, new, old.last))
    if is_next(joint):
        return
    named = f"the last step of {old.last.service} names {joint.named}" if joint.named else f"the last step of {old.last.service} names no part"
    received = "the first step of that one received its last line" if joint.received == joint.end else "the first step of that one didn't receive its last line"
    raise Trouble(
        Status.OLD_STORE,
        f"{new.last.service} in {name_of(new.folder)} isn't the part in which {old.last.service} goes on: {named}, and {received}. No step was made",
        "Was one of both put back from a backup, or put there by somebody? Put the right ones back.",
    )


def named_by(judge: Bench, part: Part) -> Optional[str]:
    """The name of the next part in the last step of one, proved."""
    if part.last.step == 0 or part.store.count(part.last.step, part.last.step) != 1:
        return None
    return named_in([own.event_at(part.store, judge, part.last.step, 0, part.last)])


def received_by(judge: Bench, part: Part, line: Line) -> Optional[Line]:
    """The line of this service and step that the first step of a part received, proved; None where it received none."""
    answer = part.store.ask("prove", "thread", "1", line.service, str(line.step), str(part.last.step))
    if answer.words[:2] == ["refused", "NoThread"]:
        return None
    if answer.status:
        raise part.store.trouble(answer)
    return first_received(judge, answer.output, part.last)


def first_received(judge: Bench, data: bytes, last: Line) -> Optional[Line]:
    """The line that a proof shows, under a line of a service, as received by the first step of that service; None where it shows none."""
    proof = formats.read_proof(data)
    if not isinstance(proof, formats.proofs.ThreadProof) or (proof.service, proof.step) != (last.service, 1):
        return None
    is_accepted = judge.judge("strict", data, lines.anchors([last])).is_accepted
    return Line(proof.entry.service, proof.entry.step, proof.entry.authenticator.hex()) if is_accepted else None


def size_of(store: Store) -> int:
    """How many bytes the file of a store's history has, or somewhat more: a store is larger than that file, so a small one isn't exported."""
    size = store.file.stat().st_size
    if size <= MOST_PART:
        return size
    found = store.history_size()
    return MOST_HISTORY if found is None else found


def read_next(service: Path) -> Optional[Next]:
    """The part that is being made."""
    found = NEXT.fullmatch(files.read_if_there(beside(service, ".next"), MOST_NEXT) or b"")
    return Next(int(found[1]), found[2].decode()) if found else None


def being_made(service: Path, judge: Bench, found: Sequence[Part]) -> Optional[Next]:
    """The part that is being made: the one behind these, or the last one of them. None where no run was stopped while it made one, whatever is noted."""
    new = read_next(service)
    if new is None or not 1 < new.number <= len(found) + 1:
        return None
    steps = found[-1].last.step if new.number == len(found) else 0
    has_lines = OwnLines(folder_of(service, new.number)).is_there
    is_noted = any(line.service == new.name for line in OwnLines(service).noted_parts()) or made.is_noted(folder_of(service, new.number), new.name)
    named = named_by(judge, found[new.number - 2])
    return new if is_being_made(Making(new.number, new.name, len(found), named, steps, has_lines, is_noted)) else None


def forget_next(service: Path) -> None:
    """Takes away the note of a part that is being made."""
    if files.is_there(beside(service, ".next")):
        files.remove(beside(service, ".next"))
        files.sync_folder(service.parent)


def begin_next(service: Path, new: Next) -> None:
    """Notes that a part is being made."""
    files.renew(beside(service, ".next"), b"%d %s\n" % (new.number, new.name.encode()))


def make_next(service: Path, judge: Bench, old: Part, new: Next) -> Part:
    """Makes the next part, or goes on with it: whatever of it was made isn't made twice."""
    end = ended(judge, old, new.name)
    folder = folder_of(service, new.number)
    store = Store(folder)
    files.make_folder(folder)
    store.init(new.name)
    if store.last().line.step == 0:
        answer = store.receive(old.store.done("thread", "0"))
        if answer.status:
            raise store.trouble(answer)
    part = Part(new.number, folder, store.last().line)
    expect_next(judge, old._replace(last=end), part)
    if not part.entries.is_there:
        files.renew(part.entries.path, b"")
    OwnLines(folder).note(part.last)
    note_made(service, judge, part)
    forget_next(service)
    return part


def note_made(service: Path, judge: Bench, part: Part) -> None:
    """Notes beside the first part, and among the user's own files, that this further one was made, where that isn't noted yet: so it isn't made once more."""
    made.note(part.folder, part.last.service)
    beside_it = OwnLines(service)
    if all(line.service != part.last.service for line in beside_it.noted_parts()):
        beside_it.note_part(own.line_at(part.store, judge, 1, part.last))


def ended(judge: Bench, old: Part, name: str) -> Line:
    """The last line of a part that is at its end: its last step names the next one; it is made where it isn't."""
    named, end = named_by(judge, old), old.last
    if named is None:
        end = old.store.append(events_file([naming_event(name)]), None)
    elif named != name:
        raise Trouble(Status.OLD_STORE, f"{old.last.service} goes on as {named}, and not as {name}. No step was made", "Look what stands in its folder.")
    OwnLines(old.folder).note(end)
    return end


def hand_out(service: Path, found: Sequence[Part]) -> None:
    """Hands out, where there are several parts, the last line of each."""
    if len(found) > 1:
        own = OwnLines(service)
        own.put_lines(own.anchor, lines.anchors([part.last for part in found]))

