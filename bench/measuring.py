"""What all measures share: commands that take turns, what one run costs by itself, the machine with its load, and bench/results.json.

A part is a function that takes a Bench and answers tables and values; `measure.py` names them all. Of each is kept when, where and at what load it was measured."""

import json
import os
import platform
import shutil
import statistics
import subprocess
import sys
import tempfile
import time
from functools import cached_property
from pathlib import Path
from typing import Any, Callable, Dict, Iterable, List, Optional, Sequence, Tuple, TypeVar

HERE = Path(__file__).resolve().parent
TOP = HERE.parent
sys.path[:0] = [str(TOP), *(str(TOP / name) for name in ("reference", "tools", "tests/acceptance", "bindings/python", "tests"))]

import calls  # noqa: E402

RESULTS = HERE / "results.json"
TRUE = "/bin/true"
MIB = 2**20
FRONT = 4 * 4096
# Of so few runs each is kept, of more how they are spread.
EACH_KEPT = 100
SYNCS = 200

Words = Sequence[Any]
Found = Dict[str, Any]
Value = TypeVar("Value")


# ---- times


def run_once(words: Words, null: int) -> float:
    """The seconds of a run of a command, whose output and errors are thrown away."""
    actions = [(os.POSIX_SPAWN_DUP2, null, number) for number in range(3)]
    begun = time.perf_counter()
    child = os.posix_spawn(words[0], words, os.environ, file_actions=actions)
    _, status = os.waitpid(child, 0)
    took = time.perf_counter() - begun
    if status:
        sys.exit(f"{' '.join(map(str, words))} ended with status {os.waitstatus_to_exitcode(status)}")
    return took


def take_turns(asked: Sequence[Callable[[], Words]], runs: int) -> List[Tuple[float, ...]]:
    """The seconds of commands that take turns, of each those of all its runs: each is asked for its words in its turn, so that other work bears on all alike."""
    null = os.open(os.devnull, os.O_RDWR)
    times = [[run_once(words(), null) for words in asked] for _ in range(runs)]
    os.close(null)
    return list(zip(*times))


def time_commands(commands: Iterable[Words], runs: int, before: Callable[[], object] = lambda: None) -> List[Tuple[float, ...]]:
    """The same of commands whose words don't change; what is done before each run isn't timed."""

    def hold_words(words: Words) -> Callable[[], Words]:
        # (so that no run looks for its program)
        found = [shutil.which(words[0]) or words[0], *words[1:]]
        return lambda: before() or found

    return take_turns([hold_words(words) for words in commands], runs)


def median_times(commands: Iterable[Words], runs: int, before: Callable[[], object] = lambda: None) -> List[float]:
    """The median seconds of each command: the best of many runs is made by one alone, which met less other work than all others."""
    return [statistics.median(times) for times in time_commands(commands, runs, before)]


def percentile(values: Sequence[float], share: float) -> float:
    """The value below which this share of them lies."""
    return sorted(values)[min(len(values) - 1, int(len(values) * share))]


def spread(seconds: Sequence[float], unit: float = 1e6) -> Found:
    """How times are spread, in microseconds where no other unit is said; of few runs each stands there."""
    values = [round(it * unit, 1) for it in seconds]
    found: Found = {"runs": len(values), "best": min(values), "median": round(statistics.median(values), 1)}
    found.update({f"{share:g} of 100": percentile(values, share / 100) for share in (99, 99.9)})
    return {**found, "each": values} if len(values) <= EACH_KEPT else found


def compare(rows: Sequence[Tuple[str, Words]], runs: int, before: Callable[[], object] = lambda: None) -> List[Found]:
    """Rows of commands that took turns, each with its median by that of the first one."""
    found = [{"command": label, **spread(times), "load": load()} for (label, _), times in zip(rows, time_commands([words for _, words in rows], runs, before))]
    return [{**row, f"by {rows[0][0]}": row["median"] / found[0]["median"]} for row in found]


def cost_of(words: Words, folder: "str | Path") -> Tuple[float, Optional[int]]:
    """The processor time of a run of a command, in seconds, which other work beside it hardly changes, and the most memory that it has at a time, in bytes; it is
    started by a small process (`cost.c`), and without a C compiler the memory is None."""
    program = compiled(folder, "cost")
    if program is not None:
        spent, room = map(int, subprocess.run([program, *words], check=True, capture_output=True, text=True).stdout.split())
        return spent / 1e6, room * 1024
    begun = os.times()
    subprocess.run(words, check=True, stdout=subprocess.DEVNULL)
    ended = os.times()
    return ended.children_user + ended.children_system - begun.children_user - begun.children_system, None


def compiled(folder: "str | Path", name: str, *more: "str | Path") -> Optional[str]:
    """A program in C of this folder, built; None where there is no compiler, or what it needs isn't there."""
    program = f"{folder}/{name}"
    source = HERE / f"{name}.c" if (HERE / f"{name}.c").exists() else TOP / f"examples/{name}.c"
    if not os.path.exists(program) and shutil.which("cc"):
        subprocess.run(["cc", "-O2", "-o", program, source, *more], capture_output=True)
    return program if os.path.exists(program) else None


# ---- what is measured


class Bench:
    """The built program, and a folder in which it is measured. In a trial there are few runs on small stores."""

    def __init__(self, program: str, folder: "str | Path", is_trial: bool = False):
        self.program, self.folder, self.is_trial = os.path.realpath(program), str(folder), is_trial

    def pick(self, whole: Value, trial: Value) -> Value:
        """How much is measured, and how much of it in a trial."""
        return trial if self.is_trial else whole

    @cached_property
    def calls(self) -> Optional[str]:
        """The program in C that makes the same calls on files as a command, where these can be traced."""
        return compiled(self.folder, "same_calls") if shutil.which("strace") else None

    def put(self, name: str, data: bytes) -> str:
        """Puts a file there, and answers its path."""
        path = Path(self.folder, name)
        path.parent.mkdir(parents=True, exist_ok=True)
        path.write_bytes(data)
        return str(path)

    def place(self, name: str) -> Path:
        """A folder of its own, made anew."""
        shutil.rmtree(f"{self.folder}/{name}", ignore_errors=True)
        os.makedirs(f"{self.folder}/{name}")
        return Path(self.folder, name)

    def same_calls(self, label: str, words: Words) -> List[Tuple[str, Words]]:
        """The row of the same calls in C, where they can be traced."""
        return [(label, calls.same_calls(self.calls, words, self.folder))] if self.calls else []

    def pages_read(self, words: Words) -> Optional[int]:
        """How many pages of the store a command reads, where that can be traced."""
        return calls.pages_read(words, self.folder) if self.calls else None

    def tell(self, *words: "str | Path") -> bytes:
        """The output of the program."""
        return subprocess.run([self.program, *words], cwd=self.folder, check=True, capture_output=True).stdout

    @property
    def environment(self) -> Dict[str, str]:
        """The environment of runs of weft, which has nothing of the user's."""
        own = {"TIMEWEAVE_PROGRAM": self.program, "HOME": self.folder, "TMPDIR": self.folder, "LC_ALL": "C.UTF-8", "WEFT_SIGNERS": f"{self.folder}/signers"}
        library = TOP / "lib/libtimeweave.so"
        paths = {"PATH": os.environ["PATH"], "PYTHONPATH": f"{TOP}:{TOP}/reference:{TOP}/bindings/python"}
        return {**paths, **own, **({"TIMEWEAVE_LIBRARY": str(library)} if library.exists() else {})}

    def weft(self, *words: "str | Path", **settings: Any) -> "subprocess.CompletedProcess[str]":
        """A run of weft in the folder."""
        given = {"cwd": self.folder, "env": self.environment, "capture_output": True, "text": True, **settings}
        return subprocess.run([sys.executable, "-m", "weft", *words], **given)


class Store:
    """A store's file, which is put back as it was before each run that writes: only its front and its end change then."""

    def __init__(self, folder: "str | Path", data: Optional[bytes] = None):
        self.folder, self.path = str(folder), f"{folder}/timeline.tw"
        os.makedirs(self.folder, exist_ok=True)
        if data is not None:
            Path(self.path).write_bytes(data)
            self.note()

    def note(self) -> None:
        """Notes how the file is now."""
        with open(self.path, "rb") as file:
            self.front = file.read(FRONT)
        self.size = os.path.getsize(self.path)

    def put_back(self) -> None:
        """Puts the file back as it was noted."""
        with open(self.path, "r+b") as file:
            file.write(self.front)
            file.truncate(self.size)
            os.fsync(file.fileno())


# ---- what is found


def table(columns: Dict[str, int], rows: Iterable[Found]) -> Found:
    """A table: its columns, each with so many decimal places, and its rows, which may have more than the columns show."""
    return {"columns": columns, "rows": list(rows)}


def load() -> float:
    """How many processes want to run, over the last minute."""
    return round(os.getloadavg()[0], 1)


def sync_spread(folder: "str | Path", runs: int = SYNCS) -> Found:
    """What a write of 4 KiB and its sync take on the disk of a folder, in milliseconds."""
    path, times = Path(folder, "synced"), []
    with open(path, "wb", buffering=0) as file:
        for _ in range(runs):
            begun = time.perf_counter()
            file.write(bytes(4096))
            os.fsync(file.fileno())
            times.append(time.perf_counter() - begun)
    path.unlink()
    return {name: it for name, it in spread(times, 1e3).items() if name != "each"}


def machine(folder: "str | Path") -> Found:
    """The machine, and the disk on which is measured."""
    told = Path("/proc/cpuinfo").read_text(errors="replace") if os.path.exists("/proc/cpuinfo") else ""
    names = [line.partition(":")[2].strip() for line in told.splitlines() if line.startswith("model name")]
    disk = subprocess.run(["df", "--output=fstype,source", str(folder)], capture_output=True, text=True).stdout.splitlines()[-1:]
    about = {"processor": names[0] if names else platform.machine(), "processors": os.cpu_count(), "system": f"{platform.system()} {platform.release()}"}
    return {**about, "disk": " ".join("".join(disk).split()), "sync_ms": sync_spread(folder)}


def git(*words: str) -> str:
    """What git tells of this tree."""
    return subprocess.run(["git", "-C", str(TOP), *words], capture_output=True, text=True).stdout.strip()


def describe_run(by: str, folder: "str | Path", before: float) -> Found:
    """Commit, command, machine and load of what was measured just now; the load was this one when it began."""
    changed = bool(git("status", "--porcelain", "--untracked-files=no", "--", ".", ":!bench/results.json"))
    of = {"commit": git("rev-parse", "--short=12", "HEAD"), "changed": changed, "day": time.strftime("%Y-%m-%d"), "by": by}
    return {**of, "machine": machine(folder), "load": [round(before, 1), load()]}


def read_results(path: Path = RESULTS) -> Found:
    """All parts that were measured."""
    return json.loads(path.read_text()) if path.exists() else {}


def write_part(name: str, found: Found, path: Path = RESULTS) -> None:
    """Writes a part in its place; the others stay."""
    path.write_text(as_json(dict(sorted({**read_results(path), name: found}.items()))) + "\n")


def as_json(value: Any, before: str = "\n") -> str:
    """The text of JSON, in which what has nothing named within it is one line, as a row of a table is; broken numbers have six digits."""
    if isinstance(value, float):
        return json.dumps(float(f"{value:.6g}"))
    if not isinstance(value, (dict, list)):
        return json.dumps(value)
    is_row = "{" not in json.dumps(value)[1:]
    names = [f"{json.dumps(name)}: " for name in value] if isinstance(value, dict) else [""] * len(value)
    items = [name + as_json(it, f"{before} ") for name, it in zip(names, value.values() if isinstance(value, dict) else value)]
    begin, end = "{}" if isinstance(value, dict) else "[]"
    return f"{begin}{', '.join(items)}{end}" if is_row else f"{begin}{before} {f',{before} '.join(items)}{before}{end}"


def measure_parts(parts: Dict[str, Callable[[Bench], Found]], program: str, is_trial: bool, folder: Optional[str], path: Path) -> None:
    """Measures parts, each in a folder of its own, and writes each as soon as it is found."""
    for name, part in parts.items():
        with tempfile.TemporaryDirectory(prefix=f"{name}-", dir=folder) as place:
            print(f"{name} ..", file=sys.stderr, flush=True)
            # (what was found is written before the files are removed, which may take long)
            before, began = load(), time.monotonic()
            found, seconds = part(Bench(program, place, is_trial)), round(time.monotonic() - began)
            if not any(found.values()):
                print(f"{name} can't be measured here: what it needs isn't built, or isn't installed", file=sys.stderr)
                continue
            write_part(name, {**describe_run(f"bench/measure.py PROGRAM {name}", place, before), "seconds": seconds, **found}, path)
