"""Which key was recorded where, in a database of SQLite's. What stands in the files of records counts: where the database lacks some of that, or can't be read,
it is made anew of them."""

from __future__ import annotations

import sqlite3
from pathlib import Path
from typing import TYPE_CHECKING, Iterable, Optional, Sequence

from weft import files
from weft.deciding.batching import Handed, Recorded
from weft.statuses import Status
from weft.texts import name_of, printable
from weft.trouble import Trouble

if TYPE_CHECKING:
    from weft.recording import Receipt, Records

TABLES = """
create table if not exists keys (key text primary key, service text, step integer, place integer, digest text) without rowid;
create table if not exists taken (service text primary key, size integer);
"""
MOST_HELD = 10_000


class Keys:
    """The database of the keys of a service and its parts."""

    def __init__(self, path: Path):
        self.path = path
        self.base: Optional[sqlite3.Connection] = None

    def opened(self) -> sqlite3.Connection:
        """The open database, which is made where none that can be read stands there."""
        if self.base is None:
            try:
                self.base = self.made()
            except sqlite3.DatabaseError:
                self.forget()
                self.base = self.made()
        return self.base

    def made(self) -> sqlite3.Connection:
        """The database, with its tables, for this user alone."""
        if not files.is_there(self.path):
            files.renew(self.path, b"")
        base = sqlite3.connect(self.path, isolation_level=None, check_same_thread=False)
        base.execute("pragma journal_mode = wal")
        base.execute("pragma synchronous = normal")
        base.executescript(TABLES)
        return base

    def forget(self) -> None:
        """Takes the database away."""
        for end in ("", "-wal", "-shm"):
            files.remove(f"{self.path}{end}")

    def take(self, service: str, records: Records) -> int:
        """Takes what stands in the file of records of a part and was not taken yet; answers how many bytes were taken in all."""
        size, taken = records.size(), self.taken(service)
        if taken > size:
            self.opened().execute("delete from keys where service = ?", (service,))
            taken = 0
        if taken < size:
            self.put(service, records.lines(taken), size)
        return size

    def taken(self, service: str) -> int:
        """How many bytes of the file of records of a part were taken."""
        found = self.opened().execute("select size from taken where service = ?", (service,)).fetchone()
        return int(found[0]) if found else 0

    def put(self, service: str, lines: Iterable[Recorded], size: int) -> None:
        """Notes what has a key, and that so much of the file of records was taken."""
        base = self.opened()
        base.execute("begin immediate")
        try:
            rows = ((it.key.decode(), service, it.step, it.index, it.digest.decode()) for it in lines if it.key)
            base.executemany("insert or replace into keys values (?, ?, ?, ?, ?)", rows)
            base.execute("insert or replace into taken values (?, ?)", (service, size))
        except BaseException:
            base.execute("rollback")
            raise
        base.execute("commit")

    def add(self, service: str, step: int, events: Sequence[Handed], size: int) -> None:
        """Notes the keys of a step that was made."""
        if any(it.key for it in events):
            self.put(service, [Recorded(step, index, it.digest, it.key) for index, it in enumerate(events)], size)

    def rest(self, service: str, size: int) -> None:
        """Notes that so much of the file of records of a part was taken, where a run ends or pauses."""
        if self.taken(service) != size:
            self.put(service, [], size)

    def find(self, it: Handed) -> Optional[Receipt]:
        """Where an event of this key was recorded; raises Trouble where the key is that of something else."""
        from weft.recording import Receipt

        if not it.key:
            return None
        found = self.opened().execute("select service, step, place, digest from keys where key = ?", (it.key.decode(),)).fetchone()
        if found is None:
            return None
        if found[3] != it.digest.decode():
            told = f"the key {printable(it.key.decode())} was used for something else, in step {found[1]} of {found[0]}, index {found[2]}"
            raise Trouble(Status.REFUSED, told, f"Take another key for what isn't the same. {name_of(self.path)} has all keys.")
        return Receipt(*found)

    def close(self) -> None:
        """Closes the database."""
        if self.base is not None:
            self.base.close()
            self.base = None
