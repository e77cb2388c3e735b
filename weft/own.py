"""The lines of one's own service, kept beside its folder: DIR.lines has those that went out or may have, DIR.anchor the last one to hand
out.

By them an old store that was put back is found before it makes a step. DIR.look stands there while peers' words are waited for after a
restore; it has the moment when that began, and says that it is no copy. DIR.told
has the lines that a turn saw and the store lacks. What follows from all of that is decided in weft.deciding.restoring."""

from __future__ import annotations

import argparse
import functools
import os
from pathlib import Path
from typing import Optional, Sequence

from weft import files, judges
from weft.deciding.restoring import NO_FILE, Begun, Likeness, Named, Seal, Told, compare_file, compare_named, find_lacking, is_copied, is_look_copied
from weft.deciding.restoring import list_steps_to_prove, read_look, read_seal, write_look
from weft.deciding.backups import Noted, read_noted
from weft.deciding.lines import End, find_end
from weft.deciding.told import By, Row, read_told, write_told
from weft.judges import Bench
from weft.lines import MOST_BYTES, Line, anchors, lines_of, read_line
from weft.reports import read_report
from weft.statuses import Status
from weft.stores import Store
from weft.texts import beside, count_of, name_of
from weft.trouble import Trouble

MOST_SEAL = 200
MOST_NOTE = 8_192
MOST_TOLD = 1 << 20
WHENCE = {
    By.SIGNED: "signed by its key, and handed back by {} or put out for it before", By.UNSIGNED: "as {} told, unsigned",
    By.PUBLISHED: "signed by its key, and published",
}  # fmt: skip
MOST_NAMED = 64 << 20


def proved(store: Store, judge: Bench, top: Line, *words: str) -> list[list[str]]:
    """The lines of the report of a proof that the store makes, judged under its own line of the top; raises Trouble where it isn't
    accepted."""
    proof = store.done("prove", *words, str(top.step))
    verdict = judge.judge("strict", proof, anchors([top]))
    if not verdict.is_accepted:
        told = f"the store in {name_of(store.path)} made a proof that isn't accepted under its own line ({verdict.text.strip()})"
        raise Trouble(Status.BAD_STORE, told, "A page of it may be damaged: weft check finds which step; go back to a backup.")
    return verdict.lines


def line_at(store: Store, judge: Bench, step: int, top: Line) -> Line:
    """The line of a step in the history of a later line."""
    if step == top.step:
        return top
    link = proved(store, judge, top, "link", str(step))[1]
    return Line(top.service, step, link[4])


def event_at(store: Store, judge: Bench, step: int, index: int, top: Line) -> bytes:
    """An event of a step in the history of a later line."""
    report = read_report(judges.Verdict(0, "\n".join(" ".join(words) for words in proved(store, judge, top, "event", str(step), str(index)))))
    return report.events[0].data


NO_STEP = "No step was made"


def old_store(path: str, line: Line, found: str, whence: str, unmade: str = NO_STEP) -> Trouble:
    """The store isn't the one whose line is held."""
    return Trouble(
        Status.OLD_STORE,
        f"{name_of(path)} isn't the store of {line.service}'s line of step {line.step} ({whence}): {found}. "
        f"Is it an old one that was put back? {unmade}",
        "Put the right one back; if there is none, go on under a new name: a step made here would be a second history.",
    )


def proved_lines(store: Store, judge: Bench, last: Line, told: Sequence[Told]) -> dict[int, Line]:
    """The store's own line of each step that is told and that it has to prove."""
    return {step: line_at(store, judge, step, last) for step in list_steps_to_prove(last, told)}


def lacking(path: str, last: Line, told: Told, unmade: str = NO_STEP) -> Trouble:
    """The store lacks a line that is told of it."""
    found = f"its last step is {last.step}" if last.step < told.line.step else "it has another step of that number"
    return old_store(path, told.line, found, told.whence, unmade)


def lacks_all(store: Store, judge: Bench, last: Line, held: Sequence[Line]) -> bool:
    """Whether the store, whose last line this is, lacks each of these lines."""
    told = [Told(line, "") for line in held]
    proved = proved_lines(store, judge, last, told)
    return all(find_lacking(last, proved, [it]) is not None for it in told)


def add_adopt(parser: argparse.ArgumentParser) -> None:
    """The word by which a person says that a store is the right one."""
    text = (
        "takes the store for the right one although its lines or entries don't stand beside it: LINE, or that of a file, has to be its last one"
    )
    parser.add_argument("--adopt-store", metavar="LINE", help=text)


def named_line(word: str) -> Line:
    """The line of a word: the line itself, or a file that has one; raises Trouble where it is neither."""
    line = read_line(word.strip())
    if line is not None:
        return line
    if not files.is_there(word):
        told = f"{name_of(word)} is no line, and there is no such file"
        raise Trouble(Status.USAGE, told, "A line is a name, a step and 64 hexadecimal digits, in one word: 'shop 2 5585fc74..'.")
    found = lines_of(files.read(word, MOST_NAMED), name_of(word))
    if len(found) > 1:
        raise Trouble(Status.UNREADABLE, f"{name_of(word)} has {len(found):,} lines", "Name a file that has the last one alone.")
    return found[0]


def adopting(store: Store) -> str:
    """How a person names the last line of a store."""
    return f"--adopt-store LINE (weft line {name_of(store.path)} prints it; compare it with what others hold of it)"


def unnamed(store: Store, last: Line, what: str, missing: str, unmade: str, further: str = "") -> Trouble:
    """Nothing beside a store with steps tells whether it is the right one."""
    steps = count_of(last.step, "step")
    return Trouble(
        Status.OLD_STORE,
        f"the store in {name_of(store.path)} has {steps}, and {what}: it may be an old one. {unmade}",
        f"Was it copied without {missing}? Put {missing} beside it.{further} If no later line went out than its last one, name that: {adopting(store)}.",
    )


def not_named(store: Store, last: Line, named: Line, found: Named) -> Trouble:
    """The line by which a person names a store isn't its last one."""
    if found is Named.OTHER_SERVICE:
        return Trouble(Status.USAGE, f"the service in {name_of(store.path)} is called {last.service}, and not {named.service}")
    if found is Named.OLDER:
        told = f"the last line of the store in {name_of(store.path)} is that of step {last.step}, and the named one is of step {named.step}"
        told += ". No step was made"
        return Trouble(Status.OLD_STORE, told, f"If the steps behind it are yours too, name the last one: {last.text}")
    return lacking(store.path, last, Told(named, "named by --adopt-store"))


def step_of(line: Line) -> int:
    """The step of a line."""
    return line.step


class ToldLines:
    """The lines of the own service that the last turn saw, and that the store lacked then, beside the first part."""

    def __init__(self, service: Path):
        self.path = beside(service, ".told")

    def read(self) -> list[Row]:
        """The rows."""
        found = read_told((files.read_if_there(self.path, MOST_TOLD) or b"").decode("ascii", "replace"))
        if found is None:
            told = f"{name_of(self.path)}, which tells lines that this store lacks, was changed: one of its rows is none"
            raise Trouble(Status.UNREADABLE, told, "Put it back, or take it away, and run weft exchange, which makes it anew of what peers tell.")
        return found

    def put(self, rows: Sequence[Row]) -> None:
        """Notes what was seen; where that is nothing, there is no file."""
        if rows:
            files.renew_if_other(self.path, write_told(rows).encode(), files.PRIVATE)
        else:
            files.remove(self.path)

    def told_of(self, row: Row) -> Told:
        """What a row tells, and by whom."""
        return Told(row.line, f"{WHENCE[row.by].format(row.teller)}; noted in {name_of(self.path)}")


class OwnLines:
    """The files of one's own lines beside a folder."""

    def __init__(self, folder: Path):
        self.folder = folder
        self.lines, self.anchor, self.look = beside(folder, ".lines"), beside(folder, ".anchor"), beside(folder, ".look")
        self.seal, self.backup = beside(folder, ".seal"), beside(folder, ".backup")

    @functools.cached_property
    def known(self) -> dict[Line, None]:
        """The lines that were noted, each once, in their order. Whoever notes lines has the lock of the service, so they are read once."""
        return dict.fromkeys(self.read(self.lines))

    @functools.cached_property
    def end(self) -> End:
        """Where the next line is added."""
        return find_end(files.read_if_there(self.lines, MOST_BYTES) or b"")

    def read(self, path: Path) -> list[Line]:
        """The lines of one of the files, none where it isn't there or has none; one whose writing was stopped amid it isn't there yet."""
        data = files.read_if_there(path, MOST_BYTES) or b""
        end = find_end(data)
        data = data[: end.place] + end.rest
        return lines_of(data, name_of(path)) if data else []

    def all(self) -> list[Line]:
        """The lines that were noted, that to hand out, and that of the last backup."""
        noted = self.backed_up()
        return [*self.known, *self.handed_out(), *([noted.line] if noted is not None else [])]

    def backed_up(self) -> Optional[Noted]:
        """What is noted of the last backup of this part; None where nothing is."""
        return read_noted((files.read_if_there(self.backup, MOST_NOTE) or b"").decode("utf-8", "surrogateescape"))

    def note_backup(self, noted: Noted) -> None:
        """Notes a backup of this part."""
        files.renew(self.backup, noted.text.encode("utf-8", "surrogateescape"))

    def handed_out(self) -> list[Line]:
        """The lines of the file to hand out that are of this part: where a log has parts, the first of which it is, those of the others stand behind it."""
        found = self.read(self.anchor)
        return [line for line in found if line.service == found[0].service]

    def last(self) -> Optional[Line]:
        """The last line that was kept."""
        seal = self.sealed()
        found = [*self.all(), *([seal.line] if seal else [])]
        return max(found, key=step_of) if found else None

    def telling(self) -> list[Line]:
        """The lines that a store is held against each time, each once: the last one, that to hand out, those of the seal and of the last backup, and of a step of which two
        differ each. (Every other one was noted behind one that was held.)"""
        steps: dict[int, dict[Line, None]] = {}
        for line in self.all():
            steps.setdefault(line.step, {})[line] = None
        doubled = [line for same in steps.values() if len(same) > 1 for line in same]
        last, seal, noted = self.last(), self.sealed(), self.backed_up()
        others = [*self.handed_out(), *([seal.line] if seal is not None else []), *([noted.line] if noted is not None else [])]
        return list(dict.fromkeys([*([last] if last is not None else []), *others, *doubled]))

    def sealed(self) -> Optional[Seal]:
        """The seal, or None where there is none."""
        return read_seal((files.read_if_there(self.seal, MOST_SEAL) or b"").decode("ascii", "replace"))

    def is_copy(self, last: Line) -> bool:
        """Whether the store and what stands beside it are a copy, as a backup that was put back is."""
        return self.is_there and is_copied(last, self.sealed(), files.identity_of(self.seal))

    def put_seal(self, line: Line, part: Optional[Line] = None) -> None:
        """Says that the files are where they were written, which line was noted last, and which part was made last: this one, or that which it had."""
        lines = [line, *([part] if part is not None else self.noted_parts())]
        files.renew(self.seal, lambda identity: f"{identity} ".encode() + anchors(lines))

    def seal_as_copy(self) -> None:
        """Lets the files be known as a copy wherever they come, with what the seal says."""
        seal = self.sealed()
        if seal is not None:
            files.renew(self.seal, f"{NO_FILE} ".encode() + anchors([seal.line, *([seal.part] if seal.part is not None else [])]))

    def noted_parts(self) -> list[Line]:
        """The first line of the further part of which is noted beside the first one that it was made last; none where no such part was."""
        seal = self.sealed()
        return [seal.part] if seal is not None and seal.part is not None else []

    def note_part(self, part: Line) -> None:
        """Notes the first line of a further part that was made."""
        last = self.last()
        if last is not None:
            self.put_seal(last, part)

    def why_copied(self) -> str:
        """Why the store counts as a copy."""
        seal = self.sealed()
        if seal is not None and compare_file(seal.identity, files.identity_of(self.seal)) is Likeness.CHANGED:
            return f"may be a copy, since {name_of(self.seal)} was changed after it was made, as `chmod` or a link changes it too"
        return f"are a copy, since {name_of(self.seal)} isn't the file that it was"

    @property
    def is_there(self) -> bool:
        """Whether a line stands beside it. (That of a backup alone doesn't tell that no later one went out.)"""
        return bool(self.known) or bool(self.handed_out()) or self.sealed() is not None

    def place_of(self, held: Line) -> Path:
        """The file beside the folder that has a line."""
        if held in self.known:
            return self.lines
        if held in self.read(self.anchor):
            return self.anchor
        noted = self.backed_up()
        return self.backup if noted is not None and noted.line == held else self.seal

    @staticmethod
    def expect_named(store: Store, judge: Bench, last: Line, named: Line) -> None:
        """Raises Trouble where the line by which a person names the store isn't its last one. (Lines that stand beside it were held against it before.)"""
        proved = proved_lines(store, judge, last, [Told(named, "")]).get(named.step)
        found = compare_named(last, proved, named)
        if found is not Named.LAST:
            raise not_named(store, last, named, found)

    def adopt(self, last: Line) -> None:
        """Takes the store for the right one, since a person has named its last line: that is kept, and a look is at its end."""
        self.note(last)
        self.end_look(last)

    def begun_look(self) -> Optional[Begun]:
        """The look that goes on; None where peers' words aren't waited for."""
        data = files.read_if_there(self.look, MOST_SEAL)
        if data is None:
            return None
        found = read_look(data.decode("ascii", "replace"))
        if found is None:
            raise Trouble(Status.UNREADABLE, f"{name_of(self.look)} has no moment", "Take it away, and run weft exchange --look, which makes it anew.")
        return found

    def is_look_copied(self, begun: Begun, note: str) -> bool:
        """Whether a backup was put back since the look began: its file is a copy, or the note of the box, which is this file now."""
        return is_look_copied(begun, files.identity_of(self.look), note)

    def begin_look(self, now: int, note: str) -> None:
        """Begins to wait for peers' words, at this moment, by a box of this note."""
        files.renew(self.look, lambda identity: write_look(Begun(now, identity, note)).encode())

    def end_look(self, last: Line) -> None:
        """Peers' words have come, or a person said that the store is the right one."""
        self.put_seal(last)
        files.remove(self.look)

    def note(self, line: Line) -> None:
        """Keeps a line of one's own among the others, and as the one to hand out where it is the last. That doesn't say that the files are where they were
        written: the seal of a copy stays as it is, until a person or peers have said so."""
        if line not in self.known:
            if not self.is_copy(line):
                self.put_seal(max(line, self.last() or line, key=step_of))
            self.add(line)
        if all(line.step >= it.step for it in self.known):
            self.put_anchor(f"{line.text}\n".encode())

    def add(self, line: Line) -> None:
        """Adds a line to those that were noted; what else tells the last one is written by `close`."""
        if line not in self.known:
            files.extend(self.lines, self.end.rest + f"{line.text}\n".encode(), self.end.place)
            self.end = End(self.end.place + len(self.end.rest) + len(line.text) + 1, b"")
            self.known[line] = None

    def close(self, line: Line) -> None:
        """Ends a run that added lines, the last of which is this."""
        self.put_seal(line)
        self.put_anchor(f"{line.text}\n".encode())

    def put_anchor(self, data: bytes) -> None:
        """Makes the file of the line to hand out anew, where it has another one; a link in its place is followed."""
        self.put_lines(self.anchor, data)

    def put_lines(self, path: Path, data: bytes) -> None:
        """Makes a file of lines to hand out anew, where it has others."""
        if files.read_if_there(os.path.realpath(path), MOST_BYTES) != data:
            files.renew(path, data)
