"""What a log of a million files takes: makes them, logs them in a first run, and again in a second one in which nothing changed. Of each run are told: seconds by the
clock and of processors, the most memory that weft had, the bytes that weft and the program wrote (but for what they hand to one another in memory), and how many files
were opened to be read (by strace, of a further run). Each part of the log is exported at the end, and of the first file the chain to today's line is made and judged
strictly. It takes some 8 GB of a disk."""

import json
import re
import shutil
import subprocess
import time
from pathlib import Path

from driven import drive
from measuring import Bench, Found

PER_FOLDER = 1000

# What weft and the program hand to one another in memory isn't written to a disk.
COUNTING = """
in_memory, real = [0], stores.write_all
def write_all(number, data):
    in_memory[0] += len(data)
    real(number, data)
stores.write_all = write_all
"""
COUNTED = 'bytes_written=int(io["wchar"]) - in_memory[0], bytes_of_pages_dirtied=int(io["write_bytes"])'


def make_files(folder: Path, count: int) -> None:
    """Makes so many files of some bytes, a thousand a folder."""
    for number in range(count):
        place = folder / f"{number // PER_FOLDER:04}"
        if number % PER_FOLDER == 0:
            place.mkdir(parents=True)
        (place / f"record-{number:08}.txt").write_text(f"record {number}\n")


def opened_contents(trace: Path) -> int:
    """How many of the logged files were opened, by a trace of openat: folders aren't counted."""
    pattern = re.compile(r'openat\([^,]+, "(record-[^"]*)"')
    return sum(bool(pattern.search(line)) for line in trace.read_text(errors="replace").splitlines())


def sizes(folder: Path) -> Found:
    """How many bytes the log's files have."""
    log, parts = folder / "log", sorted((folder / "log").glob("part-*/"))
    entries = sum(path.stat().st_size for path in [folder / "log.entries", *(folder / "log").glob("part-*.entries")])
    stores = sum((path / "timeline.tw").stat().st_size for path in [log, *parts])
    return {"parts": 1 + len(parts), "entries_bytes": entries, "known_bytes": (folder / "log.known").stat().st_size, "store_bytes": stores}


def measure_million(bench: Bench) -> Found:
    """The part."""
    folder, count, began = Path(bench.folder), bench.pick(1_000_000, 2_000), time.monotonic()
    make_files(folder / "src", count)
    found: Found = {"files": count, "made_seconds": round(time.monotonic() - began, 1)}
    found["first"], _ = drive(bench, ["log", "src", "log", "data", "--json"], COUNTING, COUNTED)
    found["second"], _ = drive(bench, ["log", "src", "log", "--json"], COUNTING, COUNTED)
    if shutil.which("strace"):
        before = ["strace", "-f", "--seccomp-bpf", "-e", "trace=openat", "-o", f"{folder}/trace"]
        found["traced"], told = drive(bench, ["log", "src", "log", "--json"], COUNTING, COUNTED, before)
        found["second"].update(contents_opened=opened_contents(folder / "trace"), same=json.loads(told)["same"])
    proof, _ = drive(bench, ["prove", "log", "0000/record-00000000.txt", "--out", "c"], COUNTING, COUNTED)
    strict = subprocess.run([bench.program, "strict", "c", "log.anchor"], cwd=folder, capture_output=True, text=True)
    found.update(sizes(folder), chain={"prove": proof, "strict": strict.stdout.split("\n")[0]})
    found["written_per_entry_byte"] = round(found["first"]["bytes_written"] / found["entries_bytes"], 2)
    parts = [folder / "log", *sorted((folder / "log").glob("part-*/"), key=lambda path: int(path.name[5:]))]
    return {"values": {**found, "exported_bytes": [len(bench.tell("export", part)) for part in parts]}}
