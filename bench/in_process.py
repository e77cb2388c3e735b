"""Proofs checked in one process, by the library from C, from Python and, compiled for WebAssembly, from JavaScript in Node, beside a process for each, and beside what
vouches for a record elsewhere, where it is installed. Several threads at once, and several processes, tell what this machine does besides."""

import os
import re
import shutil
import subprocess
import sys
from pathlib import Path
from typing import Iterator, List, Optional, Sequence, Tuple

from commands import deep_words, least_words
from measuring import HERE, TOP, Bench, Found, compiled, load, table, time_commands

LIBRARY = TOP / "lib/libtimeweave.a"
MODULE = TOP / "web/timeweave.wasm"
# How many threads check at once.
THREADS = 4

BY_PYTHON = """
import sys, threading, time
import timeweave
proof, anchors, count, threads = open(sys.argv[1], "rb").read(), open(sys.argv[2], "rb").read(), *map(int, [*sys.argv[3:], "1"][:2])
def check():
    for _ in range(count):
        timeweave.verify(proof, anchors)
begun, spent, running = time.monotonic(), time.process_time(), [threading.Thread(target=check) for _ in range(threads)]
for each in running:
    each.start()
for each in running:
    each.join()
begun, spent, whole = time.monotonic() - begun, time.process_time() - spent, count * threads
print(f"{whole} of {whole} accepted, {whole / spent:.0f} a second of processor time, {whole / begun:.0f} a second by the clock")
"""


def rates(words: Sequence[object], environment: Optional[dict] = None) -> List[int]:
    """How many a second the command tells, of processor time, and by the clock where it tells that too."""
    told = subprocess.run(list(map(str, words)), check=True, capture_output=True, text=True, env=environment).stdout
    return [int(found) for found in re.findall(r"(\d+) a second", told)]


def best_rates(words: Sequence[object], environment: Optional[dict] = None, runs: int = 3) -> List[int]:
    """The best of some runs."""
    return [max(found) for found in zip(*(rates(words, environment) for _ in range(runs)))]


def signatures() -> int:
    """How many signatures of RSA with 2,048 bits OpenSSL verifies a second in one process, of which a time stamp's check needs one at least."""
    told = subprocess.run(["openssl", "speed", "-mr", "-seconds", "1", "rsa2048"], check=True, capture_output=True, text=True).stdout
    found = re.search(r"^\+F2:\d+:2048:[\d.]+:([\d.]+)", told, re.M)
    assert found is not None
    return round(float(found[1]))


def log_checker(folder: str) -> Optional[str]:
    """The command that checks a record of a log of Go's sumdb/tlog many times, built, where Go and Debian's package of it are there."""
    if not (shutil.which("go") and Path("/usr/share/gocode/src/golang.org/x/mod/sumdb/tlog").exists()):
        return None
    command, settings = f"{folder}/tlog", {"GO111MODULE": "off", "GOPATH": "/usr/share/gocode", "GOCACHE": f"{folder}/gocache"}
    subprocess.run(["go", "build", "-o", command, HERE / "tlog.go"], check=True, env={**os.environ, **settings})
    return command


def files_of(words: List[str]) -> List[str]:
    """The proof's path, and that of an anchors file of the line that the words of `verify` give."""
    Path(f"{words[2]}.anchors").write_text(" ".join(words[3:]) + "\n")
    return [words[2], f"{words[2]}.anchors"]


def checkers(bench: Bench) -> Iterator[Tuple[str, str, List[object]]]:
    """What checks a proof many times, each with a label, the proof's size, and its words but for how often."""
    program = compiled(bench.folder, "many_proofs", "-I", TOP / "include", LIBRARY, "-pthread") if LIBRARY.exists() else None
    for size, words in (("145", least_words(bench)), ("14,547", deep_words(bench))):
        if program is not None:
            yield "the library from C", size, [program, *files_of(words)]
            yield "the library from Python", size, [sys.executable, "-c", BY_PYTHON, *files_of(words)]
        if MODULE.exists() and shutil.which("node"):
            yield "the module of WebAssembly from Node", size, ["node", TOP / "web/tests/many.mjs", *files_of(words)]


def measure_in_process(bench: Bench) -> Found:
    """The part."""
    count, rows, threads = bench.pick(100_000, 1_000), [], []
    for label, size, words in checkers(bench):
        of_size = count if size == "145" else count // 10
        one = best_rates([*words, of_size], bench.environment)
        rows.append({"check": f"{label}, {size} bytes", "a second": one[0], "load": load()})
        if "library" in label:
            many = best_rates([*words, of_size, THREADS], bench.environment)
            cells = {"one thread, a second": one[0], "each of four, a second": many[0], "four together, a second by the clock": many[1]}
            threads.append({"check": f"{label}, {size} bytes", **cells, "load": load()})
    rows.append({"check": "`timeweave verify`, 145 bytes, a process each", "a second": round(1 / min(time_commands([least_words(bench)], bench.pick(1_000, 3))[0]))})
    log = log_checker(bench.folder)
    if log:
        rows.append({"check": "Go's `tlog.CheckRecord`, one of 65,536 records, 16 hashes", "a second": best_rates([log, 65_536, count])[0], "load": load()})
    if shutil.which("openssl"):
        rows.append({"check": "`openssl speed rsa2048`: one signature verified", "a second": signatures(), "load": load()})
    columns = {name: 0 for name in (threads[0] if threads else {"check": 0}) if name != "load"}
    together = threads[0]["four together, a second by the clock"] if threads else None
    return {"tables": {"checks": table({"check": 0, "a second": 0}, rows), "threads": table(columns, threads)}, "values": {"four_threads": together}}
