"""The stamps that a service has made of its own lines each night, in `stamps` within its folder: the last line is stamped, and what was stamped before is renewed in time.
Whatever hinders that is told and counts, and hinders nothing else."""

from __future__ import annotations

import os
import time
from pathlib import Path
from typing import NamedTuple, Optional

from weft import files, parts, stamps
from weft.deciding.authorities import Certificates
from weft.deciding.renewing import Note, choose_looked_at, find_end, is_worth_keeping, line_of_stamp, read_notes, when_due
from weft.deciding.roads import Address
from weft.deciding.stamps import MOST_BYTES, MOST_PIECES, front_of, read_pieces, texts_of
from weft.deciding.worst import worst_of
from weft.lines import Line
from weft.own import OwnLines
from weft.servers import Unanswered
from weft.statuses import Status
from weft.stores import Store
from weft.texts import count_of, date_of, name_of
from weft.trouble import Trouble

NOTES = "noted"
MOST_NOTES = 1 << 24


class Wanted(NamedTuple):
    """What is wanted of a night: by which authority lines are stamped, how long it is waited for, and in which folder the certificates stand that are trusted."""

    address: Address
    seconds: int = 30
    authorities: Optional[Path] = None


def folders_of_parts(folder: Path) -> list[Path]:
    """The folders of the parts of a service."""
    found = [folder]
    while files.is_there(Store(following := parts.folder_of(folder, len(found) + 1)).file):
        found.append(following)
    return found


def folders_of_stamps(folder: Path) -> list[Path]:
    """The folders of stamps of a service, each by the name of a part."""
    tops = [stamps.own_folder(part) for part in folders_of_parts(folder)]
    return [top / name for top in tops if top.is_dir() for name in sorted(os.listdir(top))]


def read_notes_of(folder: Path) -> dict[str, Note]:
    """What is noted of the stamps in a folder."""
    return read_notes((files.read_if_there(folder / NOTES, MOST_NOTES) or b"").decode("ascii", "replace"))


def notes_of(folder: Path) -> list[Note]:
    """What is noted of the stamps of a service, in all its parts."""
    return [note for of_part in folders_of_stamps(folder) for note in read_notes_of(of_part).values()]


class Night:
    """The stamps of a service, on one night."""

    def __init__(self, wanted: Wanted, bench: stamps.Bench, longer: stamps.Bench):
        self.wanted, self.bench, self.longer = wanted, bench, longer
        self.now, self.status = int(time.time()), Status.DONE
        self.told: list[str] = []
        self.renewed = 0
        self.is_worth = True

    def need(self, text: str, status: Status = Status.LOOK) -> None:
        """Notes what needs a look."""
        self.told.append(text)
        self.status = worst_of([self.status, status])

    def renew_due(self, folder: Path) -> None:
        """Renews what is due of a folder, and notes what was looked at."""
        notes, service = read_notes_of(folder), folder.name
        lines = {name: line for name in sorted(os.listdir(folder)) if (line := line_of_stamp(service, name)) is not None}
        for name in choose_looked_at({name: os.stat(folder / name).st_size for name in lines}, notes, self.now):
            note = self.look(folder, name, lines[name])
            notes.pop(name, None)
            if note is not None:
                notes[name] = note
        files.renew_if_other(folder / NOTES, "".join(f"{notes[name].text}\n" for name in sorted(notes) if name in lines).encode())

    def stamp(self, folder: Path, line: Line) -> None:
        """Has the line stamped, where no stamp of it gives a day."""
        kept = [folder / name for name in os.listdir(folder) if name.startswith(front_of(line))] if folder.is_dir() else []
        if any(self.bench.weigh(line, files.read(path, MOST_BYTES)).fault is None for path in kept):
            return
        try:
            data = stamps.ask_authority(line, (), self.wanted.address, self.wanted.seconds, self.bench)
        except Unanswered as why:
            self.need(f"the line of step {line.step} isn't stamped: {self.wanted.address.host}: {why}. The next night stamps the next line, below which this one stands.")
            return
        except Trouble as trouble:
            self.need(f"the line of step {line.step} isn't stamped: {trouble.describe()}")
            return
        weighed = self.bench.weigh(line, data)
        if weighed.fault is not None:
            self.need(stamps.stamp_told(line, weighed))
            return
        stamps.put_stamp(folder, line, data)
        self.told.append(stamps.stamp_told(line, weighed))

    def look(self, folder: Path, name: str, line: Line) -> Optional[Note]:
        """Looks at a file of stamps, and renews it where that is due; what is to be noted of it, nothing where it gives no day."""
        data = files.read(folder / name, MOST_BYTES)
        weighed = self.bench.weigh(line, data)
        if weighed.fault is not None or weighed.second is None:
            self.need(f"{name_of(folder / name)}: {stamps.stamp_told(line, weighed)} No renewal mends that: take it away.")
            return None
        end = self.end_of(line, data)
        due = when_due(self.bench.made_at(data) or weighed.second, end)
        if due <= self.now and self.is_worth:
            longer = self.renew(line, data, end)
            if longer is not None:
                data, end = longer, self.end_of(line, longer)
                due = when_due(self.now, end)
                files.renew(folder / name, data)
                self.renewed += 1
        return Note(name, len(data), weighed.second, due, weighed.authority)

    def end_of(self, line: Line, data: bytes) -> int:
        """Until when the last stamp of a file counts, and so all before it, if nothing is revoked."""
        pieces = read_pieces(data) or (b"",)
        text, path = self.longer.put("end.text", texts_of(line, pieces)[-1]), self.longer.put("end.stamp", pieces[-1])
        return find_end(lambda moment: self.longer.ask(["-data", text], pieces[-1], path, moment).fault is None, self.now)

    def renew(self, line: Line, data: bytes, end: int) -> Optional[bytes]:
        """The file of stamps with one more behind it, by which it counts longer; None where there is none, which is told."""
        pieces = read_pieces(data) or ()
        counting = f"The stamp of the line of step {line.step} counts until {date_of(end)[:10]}, and isn't renewed"
        self.is_worth = False
        if len(pieces) == MOST_PIECES:
            self.need(f"{counting}: it was {MOST_PIECES} times. Have its line stamped anew.")
            return None
        try:
            longer = data + stamps.ask_authority(line, pieces, self.wanted.address, self.wanted.seconds, self.bench)
        except Unanswered as why:
            self.need(f"{counting}: {self.wanted.address.host}: {why}.")
            return None
        except Trouble as trouble:
            self.need(f"{counting}: {trouble.describe()}")
            return None
        if self.bench.weigh(line, longer).fault is not None or not is_worth_keeping(end, self.end_of(line, longer)):
            self.need(f"{counting}: by {self.wanted.address.host} it would count no longer. Name another authority.")
            return None
        self.is_worth = True
        return longer


class Done(NamedTuple):
    """What came of a night: what is told, and the status."""

    told: list[str]
    status: Status


def stamp_night(folder: Path, wanted: Wanted) -> Done:
    """Has the last line of a service stamped, and renews what is due."""
    part = folders_of_parts(folder)[-1]
    line = OwnLines(part).last()
    if line is None:
        raise Trouble(Status.MISSING, f"no line of its own stands beside {name_of(part)}, so none is stamped", "weft log makes one, and so does weft line.")
    authorities = stamps.read_authorities(wanted.authorities)
    if not authorities:
        raise Trouble(Status.LOOK, f"the line of step {line.step} isn't stamped: {stamps.NO_AUTHORITY}")
    bare = [it._replace(certificates=Certificates(it.certificates.certificates)) for it in authorities]
    with stamps.Bench(authorities) as bench, stamps.Bench(bare) as longer:
        night = Night(wanted, bench, longer)
        night.stamp(stamps.own_folder(part) / line.service, line)
        for of_part in folders_of_stamps(folder):
            night.renew_due(of_part)
    told = [f"{count_of(night.renewed, 'stamp')} {'was' if night.renewed == 1 else 'were'} renewed."] if night.renewed else []
    return Done([*night.told, *told], night.status)
