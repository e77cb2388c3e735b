"""What each command and word takes by itself: its memory, what it takes where nothing is in the cache, and what weft takes to start."""

import os
import shutil
import sys
from pathlib import Path
from statistics import median
from typing import List

from commands import Asked, least_words, stored
from driven import drive
from measuring import MIB, Bench, Found, compare, cost_of, load, table
from million import make_files
from two_builds import COMMANDS, Room

WORDS_STARTED = ("help", "line --help", "judge --help", "record --help", "exchange --help")
DROP = Path("/proc/sys/vm/drop_caches")


def measure_memory(bench: Bench) -> Found:
    """The part of memory: of each command of the program, over stores of 10,000 steps; and of weft at large inputs."""
    steps, rows = bench.pick(10_000, 100), []
    room = Room(bench.place("commands"), bench.program, steps)
    here = os.getcwd()
    for command in COMMANDS[: COMMANDS.index("verify event wrong.line")]:
        os.chdir(room.folder)
        seconds, memory = cost_of([bench.program, *room.words(command)], bench.folder)
        os.chdir(here)
        rows.append({"command": f"`{command.removeprefix('+')}`", "seconds of a processor": seconds, "memory, in MiB": memory / MIB if memory else None})
        if command.startswith("+"):
            room.put_back()
    files, folder = bench.pick(100_000, 200), Path(bench.folder)
    make_files(folder / "src", files)
    shutil.copytree(folder / "commands/room/a", folder / "a")
    bench.put("kept", bench.tell("thread", "a", "0") and (folder / "commands/room/a2.line").read_bytes())
    for words in (["log", "src", "log", "data"], ["log", "src", "log"], ["prove", "log", "0000/record-00000000.txt", "--out", "c"], ["check", "a"], ["list", "a"], ["tell", "c"]):
        took, _ = drive(bench, words, good=range(30))
        rows.append({"command": f"`weft {' '.join(words)}`", "seconds of a processor": took["processor"], "memory, in MiB": took["memory_kib"] / 1024})
    return {"tables": {"memory": table({"command": 0, "seconds of a processor": 3, "memory, in MiB": 1}, rows)}, "values": {"steps": steps, "files": files}}


def measure_cold(bench: Bench) -> Found:
    """The part of a cold cache: the system is asked to forget what it read of the disk, which root may; then one command is run."""
    steps = bench.pick(100_000, 1_000)
    store = stored(bench, steps)
    asked = Asked(bench, store, steps)
    if not os.access(DROP, os.W_OK):
        return {"tables": {}}

    def forget() -> None:
        """Puts the store back, and has the system forget it."""
        store.put_back()
        os.sync()
        DROP.write_text("3")

    wanted = (("`prove`, step 1", asked.prove), ("`append`", asked.append), ("`verify`", least_words(bench)))
    rows = []
    for label, words in wanted:
        store.put_back()
        pages = bench.pages_read(words)
        for how, before in (("cold", forget), ("warm", store.put_back)):
            rows.append({**compare([(f"{label}, {how}", words)], bench.pick(20, 2), before)[0], "pages read": pages})
    return {"tables": {"cold": table({"command": 0, "best": 0, "median": 0, "pages read": 0}, rows)}, "values": {"steps": steps}}


def measure_startup(bench: Bench) -> Found:
    """The part of weft's start, with what Python compiled of it kept: seconds of a processor, which other work hardly changes."""
    bench.weft("help")
    kept = {"PYTHONPYCACHEPREFIX": f"{bench.folder}/compiled", "PYTHONDONTWRITEBYTECODE": ""}
    rows: List[Found] = []
    # (the system's own Python, where there is one: others load more when they start)
    python = next(path for path in ("/usr/bin/python3", sys.executable) if os.path.exists(path))
    os.environ.update({**bench.environment, **kept})
    for words in ([], *(it.split() for it in WORDS_STARTED)):
        command = [python, "-m", "weft", *words] if words else [python, "-c", "pass"]
        times = [cost_of(command, bench.folder)[0] for _ in range(bench.pick(50, 3))][1:]
        rows.append({"command": f"`weft {' '.join(words)}`" if words else "Python alone", "median": median(times), "best": min(times), "load": load()})
    return {"tables": {"startup": table({"command": 0, "best": 3, "median": 3}, rows)}, "values": {"help": rows[1]["best"], "python": rows[0]["best"]}}
