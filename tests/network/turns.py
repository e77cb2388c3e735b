"""What a service of the network does in a night. Each run of weft is a process of its own, forked from one that has weft and its judges loaded."""

import contextlib
import functools
import gc
import io
import os
import resource
import subprocess
import sys
import tempfile
import threading
from pathlib import Path
from typing import NamedTuple, Optional

from network import TOP, devices, forked
from network.faults import Fault, put_in
from timeweave_reference.events_files import events_to_bytes
from timeweave_reference.messages import read_message

from weft import judges
from weft.main import main as weft_main

LONGEST = 600
DONE = (0, 10, 11)


class Task(NamedTuple):
    """A service's day and night: the events that it records, or None for no step; the fault; of each peer that it hasn't accepted the true lines, by which it
    is; whose word it goes on despite; and by which address
    each peer publishes that it hasn't accepted, where files go over the web."""

    folder: str
    program: str
    name: str
    events: Optional[tuple[bytes, ...]]
    fault: Optional[Fault]
    known: dict[str, frozenset[str]]
    despite: tuple[str, ...] = ()
    urls: dict[str, str] = {}


class Turn(NamedTuple):
    """What became of it: the status, what was told, the lines that were acknowledged, the seconds of a processor that it took, and the most bytes of memory that a process
    had up to now."""

    name: str
    status: int
    told: str
    lines: list[str]
    fault: Optional[Fault]
    processor: float
    memory: int = 0


def environment(folder: str, program: str) -> dict[str, str]:
    """The environment of the network's runs."""
    own = {"HOME": folder, "TMPDIR": f"{folder}/tmp", "TIMEWEAVE_PROGRAM": program, "LC_ALL": "C.UTF-8"}
    library = TOP / "lib/libtimeweave.so"
    return {"PATH": os.environ["PATH"], **own, **({"TIMEWEAVE_LIBRARY": str(library)} if library.exists() else {})}


def run_program(folder: str, program: str, *words: str) -> tuple[int, bytes]:
    """Runs the program in the network's folder."""
    done = subprocess.run([program, *words], cwd=folder, stdin=subprocess.DEVNULL, capture_output=True, timeout=LONGEST)
    return done.returncode, done.stdout


@functools.lru_cache(maxsize=None)
def ready(program: str) -> None:
    """Loads what a run of weft needs into this process, once, so that those forked from it have it."""
    os.environ.update({name: value for name, value in environment("/", program).items() if name.startswith("TIMEWEAVE_")})
    judges.bench().judge("strict", b"", b"")
    with tempfile.TemporaryDirectory() as folder, contextlib.redirect_stdout(io.StringIO()), contextlib.redirect_stderr(io.StringIO()):
        os.mkdir(f"{folder}/a")
        run_program(folder, program, "init", "a", "a")
        weft_main(["accept", f"{folder}/b", "c"])
        weft_main(["exchange", f"{folder}/a", f"{folder}/b"])
    gc.collect()
    gc.freeze()


def weft(folder: str, program: str, *words: str, fault: Optional[Fault] = None) -> tuple[int, str, str]:
    """Runs weft: forked from this process where it has no other threads, else from nothing, and then without a fault."""
    own = environment(folder, program)
    if threading.active_count() > 1:
        env = {**own, "PYTHONPATH": f"{TOP}:{TOP / 'reference'}"}
        done = subprocess.run([sys.executable, "-m", "weft", *words], cwd=folder, env=env, capture_output=True, text=True, timeout=LONGEST)
        return done.returncode, done.stdout, done.stderr
    ready(program)
    return forked.run(folder, own, words, functools.partial(prepare, folder, words, fault))


def prepare(folder: str, words: tuple[str, ...], fault: Optional[Fault]) -> None:
    """What the forked process does first."""
    gc.disable()
    if fault and fault.kind.endswith("device"):
        place, left_out = (words[1], "") if fault.kind == "store device" else (words[2], "in")
        devices.move_to(Path(folder, place), fault.pages, left_out)
    elif fault:
        put_in(fault, os.path.getsize(f"{words[1]}/timeline.tw"))


# ---- a night


def turn(task: Task) -> Turn:
    """Records the day's events, takes new peers in, and makes the night's turn."""
    ready(task.program)
    lines, began = [], processor_time()
    if task.events is not None:
        path = f"{task.folder}/tmp/{task.name}.events"
        Path(path).write_bytes(events_to_bytes(list(task.events)))
        status, output = run_program(task.folder, task.program, "append", task.name, path)
        if status == 0:
            lines.append(output.decode().strip())
    for peer, known in task.known.items():
        if peer in task.urls:
            weft(task.folder, task.program, "fetch", task.urls[peer], f"box-{task.name}/{peer}")
        accept(task, peer, known)
    more = [word for peer in task.despite for word in ("--despite", peer)]
    if lines and not Path(task.folder, f"{task.name}.lines").exists():
        more += ["--adopt-store", lines[-1]]
    status, out, err = weft(task.folder, task.program, "exchange", task.name, f"box-{task.name}", *more, fault=task.fault)
    last = out.splitlines()[-1:] if status in DONE else []
    lines += [line for line in last if line.startswith(f"{task.name} ")]
    return Turn(task.name, status, out + err, lines, task.fault, processor_time() - began, resource.getrusage(resource.RUSAGE_CHILDREN).ru_maxrss << 10)


def processor_time() -> float:
    """The seconds of a processor that this process and those that it waited for took so far."""
    used = [resource.getrusage(who) for who in (resource.RUSAGE_SELF, resource.RUSAGE_CHILDREN)]
    return sum(it.ru_utime + it.ru_stime for it in used)


def accept(task: Task, peer: str, known: frozenset[str]) -> None:
    """Confirms a new peer whose waiting message tells a true line, as a person would by another way."""
    box = Path(task.folder, f"box-{task.name}", peer)
    message = box / "in/message"
    if is_accepted(box) or not message.exists() or message.stat().st_size > 70_000:
        return
    try:
        found = read_message(message.read_bytes())
    except ValueError:
        return
    if f"{found.service} {found.step} {found.authenticator.hex()}" in known:
        weft(task.folder, task.program, "accept", f"box-{task.name}", peer, "--yes", found.authenticator.hex())


def is_accepted(box: Path) -> bool:
    """Whether the peer of this folder was accepted."""
    return (box / "kept/accepted").exists()
