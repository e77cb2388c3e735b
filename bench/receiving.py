"""What it costs to receive a thread and to prove one, on stores that hold many threads of few peers and of many. Each store is made by the program itself, a message
at a time; then the next message is received over and over, after each time the store is put back as it was before. Beside it stand a program in C that makes the same
calls on files, and stores of rows that keep the same keys (`kept_rows.py`)."""

import os
import re
import subprocess
from pathlib import Path
from statistics import median
from typing import List, Optional, Tuple

import calls
import kept_rows
from measuring import FRONT, Bench, Found, Store, load, median_times, table, take_turns
from instructions import count_instructions

from timeweave_reference.messages import message_of
from timeweave_reference.timelines import Timeline

# Numbers of threads, and of their peers; by the first of them the goal is told.
SHAPES = ((1_000, 3), (10_000, 100), (10_000, 10_000))
SYNCS_NOTHING = b"int fsync(int file) { return file < 0; }\nint fdatasync(int file) { return file < 0; }\n"


class Receiver(Store):
    """A store of a service that receives threads of so many peers in turn; and the message that it gets next."""

    def __init__(self, bench: Bench, most: int, peers: int):
        super().__init__(f"{bench.folder}/r{peers}")
        self.program, self.threads, self.message = bench.program, 0, f"{bench.folder}/message"
        bench.tell("init", self.folder, "notary")
        # (all peers have events alike, and so one event root)
        self.peers = [Timeline(f"p{number}", [[b"bench"]] * (most // peers + 2)) for number in range(peers)]
        self.words = [bench.program, "receive", self.folder, self.message]
        self.write(0)

    def grow(self, threads: int, unsynced: Optional[str]) -> None:
        """Receives until it has so many threads, without waiting for the device where a library that syncs nothing is given."""
        environment = {**os.environ, **({"LD_PRELOAD": unsynced} if unsynced else {})}
        while self.threads < threads:
            subprocess.run(self.words, check=True, capture_output=True, env=environment)
            self.threads += 1
            self.write(self.threads)
        os.sync()
        self.note()

    def write(self, number: int) -> None:
        """The message of the thread of this number, since the peer's step before."""
        peer, step = self.peers[number % len(self.peers)], number // len(self.peers) + 1
        Path(self.message).write_bytes(message_of(peer, step, step - 1).to_bytes())

    def receive(self) -> List[str]:
        """The words that receive the next message, on the store as it was."""
        self.put_back()
        return self.words

    def proof(self, number: int, step: int) -> List[str]:
        """The words that prove the thread of this number as of this step."""
        peer = self.peers[number % len(self.peers)]
        return [self.program, "prove", self.folder, "thread", str(step), peer.name, str(number // len(self.peers) + 1)]


def library_without_syncs(bench: Bench) -> Optional[str]:
    """A library that, loaded before the C library, syncs nothing; None where there is no compiler."""
    library = f"{bench.folder}/unsynced.so"
    done = subprocess.run(["cc", "-shared", "-fPIC", "-o", library, bench.put("unsynced.c", SYNCS_NOTHING)], capture_output=True)
    return library if done.returncode == 0 else None


def pages_written(words: List[str], folder: str) -> int:
    """How many whole pages behind the store's front the command writes."""
    places = [int(place) for line in calls.traced(words, folder) for place in re.findall(r"^pwrite64\(.*, 4096, (\d+)\) += 4096$", line)]
    return sum(place >= FRONT for place in places)


def own_row(bench: Bench, store: Receiver, runs: int) -> Found:
    """The row of one store: what a further thread costs beside the same calls in C, and these with as many hashes as its new labels ask for; and its proof."""
    written = pages_written(store.receive(), bench.folder)
    same = calls.same_calls(bench.calls, store.receive(), bench.folder)
    counted = count_instructions(store.receive(), bench.folder)
    store.put_back()
    alone, hashed, took = median_times([same, [*same, f"hash {counted.blocks if counted else 0}"], store.words], runs, store.put_back)
    times = {"the calls": alone * 1e6, "`receive`": took * 1e6, "by the calls": took / alone, "by calls and hashes": took / hashed if counted else None}
    read = bench.pages_read(store.proof(0, 1))
    return {**shape_of(store), **times, "new pages": written, "pages a proof reads": read, "bytes a thread": store.size // store.threads, "load": load()}


def shape_of(store: Receiver) -> Found:
    """The first cells of its row."""
    return {"threads": store.threads, "peers": len(store.peers)}


def row_beside_rows(bench: Bench, store: Receiver, kept: List[Tuple[str, str]], runs: int) -> Found:
    """The row of one store beside stores of as many rows: a thread more and a row more, and how many times as long as a row that is read a proof takes."""
    found = {label: kept_rows.Rows(program, f"{bench.folder}/{label}", store.threads, len(store.peers)) for label, program in kept}
    asked = [store.receive, *(rows.add for rows in found.values())]
    own, *others = map(median, take_turns(asked, runs))
    moved = [kept_rows.Moved(words(), bench.folder, bench.folder + "/") for words in asked]
    row = {**shape_of(store), **{f"{name}: syncs; KiB": [it.syncs, it.written / 1024] for name, it in zip(["`receive`", *found], moved)}}
    row.update({f"time by {label}'s": own / other for label, other in zip(found, others)})
    store.put_back()
    proof, middle = store.proof(store.threads // 2, store.threads), store.threads // 2
    proved, *reads = map(median, take_turns([lambda: proof, *((lambda rows=rows: rows.find(middle)) for rows in found.values())], runs))
    return {**row, **{f"a proof by {label}'s read": proved / read for label, read in zip(found, reads)}, "load": load()}


def measure_receiving(bench: Bench) -> Found:
    """The part."""
    if not bench.calls:
        return {"tables": {}}
    shapes, runs = bench.pick(SHAPES, ((20, 3),)), bench.pick(100, 3)
    kept, unsynced = kept_rows.built(bench.folder), library_without_syncs(bench)
    own, beside = [], []
    for threads, peers in shapes:
        store = Receiver(bench, threads, peers)
        store.grow(threads, unsynced)
        own.append(own_row(bench, store, runs))
        beside += [row_beside_rows(bench, store, kept, runs)] if kept else []
        os.remove(store.path)
    columns = {name: 2 if "by " in name else 0 for name in own[0] if name != "load"}
    further = {name: 1 if "KiB" in name else 2 for name in (beside[0] if beside else {}) if name != "load"}
    each = {f"{row['threads']}_of_{row['peers']}": {"bytes": row["bytes a thread"], "us": row["`receive`"]} for row in own}
    tables = {"receiving": table(columns, own), "beside rows": table(further, beside)}
    return {"tables": tables, "values": {"by_calls_and_hashes": own[0]["by calls and hashes"], **each}}
