"""How many durable events a second one writer records, at 1, 64 and 1,024 events a step, and how long each step takes: by the program, and by what people use for it, in
turns on the same disk. A plain file that is synced at each step is the floor; SHA-256 of the same bytes is what a record that can be proved has to compute."""

import hashlib
import os
import sqlite3
import struct
import subprocess
import time
from pathlib import Path
from typing import Callable, Dict, List

from measuring import Bench, Found, load, spread, table

try:
    import lmdb
except ImportError:
    lmdb = None

SIZE = 64
BATCHES = (1, 64, 1_024)
SETTINGS = ("core.fsync=all", "core.fsyncMethod=fsync", "gc.auto=0", "user.name=bench", "user.email=bench@localhost")


def make_event(number: int) -> bytes:
    """An event of 64 bytes."""
    return f"event {number} ".encode().ljust(SIZE, b".")


class Program:
    """The program, which appends a step of a file of events; a process each, as it is used."""

    def __init__(self, bench: Bench, place: Path):
        self.bench, self.store, self.file = bench, place / "store", place / "events"
        self.store.mkdir()
        bench.tell("init", self.store, "register")

    def prepare(self, events: List[bytes]) -> None:
        """Writes the file, which isn't timed: whoever records has it."""
        self.file.write_bytes(b"TWE1" + struct.pack(">I", len(events)) + b"".join(struct.pack(">I", len(it)) + it for it in events))

    def record(self, events: List[bytes]) -> None:
        """Appends a step, with a time, as weft does."""
        words = [self.bench.program, "append", str(self.store), str(self.file), str(int(time.time()))]
        child = os.posix_spawn(self.bench.program, words, os.environ, file_actions=[(os.POSIX_SPAWN_OPEN, 1, os.devnull, os.O_WRONLY, 0)])
        assert os.waitpid(child, 0)[1] == 0, "a step is appended"


class Database:
    """A table of SQLite in this process, with a write-ahead log that is synced at each transaction."""

    def __init__(self, bench: Bench, place: Path):
        self.base, self.step = sqlite3.connect(place / "database", isolation_level=None), 0
        for text in ("pragma journal_mode = wal", "pragma synchronous = full", "create table events (step integer, place integer, event blob, primary key (step, place)) without rowid"):
            self.base.execute(text)

    def record(self, events: List[bytes]) -> None:
        """A transaction."""
        self.step += 1
        self.base.execute("begin immediate")
        self.base.executemany("insert into events values (?, ?, ?)", ((self.step, place, it) for place, it in enumerate(events)))
        self.base.execute("commit")


class Keys:
    """A file of LMDB in this process, which is synced at each transaction."""

    def __init__(self, bench: Bench, place: Path):
        self.base, self.step = lmdb.open(str(place / "keys"), map_size=2**34), 0

    def record(self, events: List[bytes]) -> None:
        """A transaction."""
        self.step += 1
        with self.base.begin(write=True) as transaction:
            for place, it in enumerate(events):
                transaction.put(struct.pack(">QI", self.step, place), it)


class Repository:
    """A repository of git, of which each commit adds a file with the events, all of it synced."""

    def __init__(self, bench: Bench, place: Path):
        self.folder, self.step = place / "repository", 0
        subprocess.run(["git", "init", "-q", self.folder], check=True, capture_output=True)

    def record(self, events: List[bytes]) -> None:
        """A commit."""
        self.step += 1
        (self.folder / f"{self.step:06}").write_bytes(b"\n".join(events))
        for words in (["add", f"{self.step:06}"], ["commit", "-q", "-m", "step"]):
            subprocess.run(["git", "-C", self.folder, *(word for it in SETTINGS for word in ("-c", it)), *words], check=True, capture_output=True)


class Plain:
    """A file that grows, and is synced."""

    def __init__(self, bench: Bench, place: Path):
        self.file = os.open(place / "plain", os.O_WRONLY | os.O_CREAT | os.O_APPEND)

    def record(self, events: List[bytes]) -> None:
        """A write and a sync."""
        os.write(self.file, b"".join(events))
        os.fsync(self.file)


class Hashes:
    """SHA-256 of the events alone: nothing is kept."""

    def __init__(self, bench: Bench, place: Path):
        self.last = b""

    def record(self, events: List[bytes]) -> None:
        """Hashes each event, and all of them."""
        self.last = hashlib.sha256(b"".join(hashlib.sha256(it).digest() for it in events)).digest()


WRITERS: Dict[str, Callable[[Bench, Path], object]] = {
    "a plain file and `fsync`": Plain, "`timeweave append`, a process a step": Program, "SQLite, WAL, synchronous FULL": Database, "LMDB": Keys, "`git commit`, all synced": Repository, "SHA-256 alone, nothing kept": Hashes,
}  # fmt: skip


def measure_durable(bench: Bench) -> Found:
    """The part."""
    tables = {}
    for batch in BATCHES:
        place, steps = bench.place(f"b{batch}"), bench.pick(2_000, 5)
        writers = {name: make(bench, place) for name, make in WRITERS.items() if make is not Keys or lmdb is not None}
        times: Dict[str, List[float]] = {name: [] for name in writers}
        for step in range(steps):
            events = [make_event(step * batch + number) for number in range(batch)]
            for name, writer in writers.items():
                getattr(writer, "prepare", len)(events)
                begun = time.perf_counter()
                writer.record(events)
                times[name].append(time.perf_counter() - begun)
        rows = [{"writer": name, "events a second": round(batch * steps / sum(took)), "steps a second": round(steps / sum(took)), **spread(took, 1e3), "load": load()} for name, took in times.items()]
        tables[f"of {batch}"] = table({"writer": 0, "events a second": 0, "steps a second": 0, "median": 2, "99 of 100": 2, "99.9 of 100": 2}, rows)
    best = tables[f"of {BATCHES[-1]}"]["rows"][1]
    return {"tables": tables, "values": {"events": best["events a second"], "steps": tables["of 1"]["rows"][1]["steps a second"]}}
