"""Stores of rows, LMDB and SQLite, that keep the same keys as a service keeps threads: what a row more costs, and a row that is read.

They prove nothing to others and keep no history: they tell what it costs to keep such keys at all. Each is asked by a small program in C, as a command of
its own that opens the store, does one thing and ends, and each row is synced when the program ends. Which of them are there is what the C compiler finds.
"""

import os
import re
import shutil
import subprocess
from pathlib import Path

from measuring import compiled

STORES = (("LMDB", "lmdb_rows", "lmdb"), ("sqlite3", "sqlite_rows", "sqlite3"))

# Bytes that are written, by the descriptor; the last group is how many.
WRITES = re.compile(r"p?write(?:v|64|v2)?\((\d+), .* = (\d+)$")


def built(folder):
    """The stores whose program the C compiler makes here, each with its label."""
    return [(label, program) for label, name, library in STORES if (program := compiled(folder, name, f"-l{library}")) is not None]


class Rows:
    """So many rows of so many peers in a store, which grows by each row that is added."""

    def __init__(self, program, folder, count, peers):
        self.program, self.folder, self.count, self.peers = program, folder, count, str(peers)
        shutil.rmtree(folder, ignore_errors=True)
        os.makedirs(folder)
        subprocess.run([program, folder, "fill", str(count), self.peers], check=True)

    def add(self):
        """The words that add the next row."""
        self.count += 1
        return [self.program, self.folder, "add", str(self.count - 1), self.peers]

    def find(self, number):
        return [self.program, self.folder, "find", str(number), self.peers]


class Moved:
    """What a command asks of files: how often it syncs, and how many bytes it writes, its output apart."""

    def __init__(self, words, folder, store):
        log = f"{folder}/strace"
        subprocess.run(["strace", "-f", "-y", "-s", "0", "-o", log, *words], check=True, capture_output=True)
        lines = [line.split(" ", 1)[1].strip() for line in Path(log).read_text().splitlines()]
        own = [re.sub(r"<[^>]*>", "", line) for line in lines if os.path.realpath(store) in line]
        at_once = {line.split()[-1] for line in own if line.startswith("openat") and "O_DSYNC" in line}
        written = [found.groups() for line in own if (found := WRITES.match(line))]
        self.syncs = sum(line.startswith(("fsync", "fdatasync")) for line in own) + sum(file in at_once for file, _ in written)
        self.written = sum(int(size) for _, size in written)
