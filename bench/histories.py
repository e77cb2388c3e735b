"""Whole histories: what `show`, `audit` and `adopt` take of files of several sizes, and `export` of stores; time, memory, and instructions beside those of the hashes."""

from pathlib import Path
from typing import Callable, List

import calls
from measuring import MIB, Bench, Found, cost_of, median_times, table, time_commands
from instructions import count_instructions

from example_files import Peer
from timeweave_reference.anchors import anchors_to_bytes
from timeweave_reference.fields import big_endian as be
from timeweave_reference.fields import padded
from timeweave_reference.paths import climbed
from timeweave_reference.proofs import ExistenceProof
from timeweave_reference.services import Service
from timeweave_reference.verdicts import read_proof

# What ends a step that adds no node to the archive: none, and the root.
NO_NODES = bytes(6)
# The size by which goals of `show` and `export` are told.
COUNTED = 16


def event_step(number: int, count: int = 300) -> bytes:
    """Step number + 1, of so many events of 200 bytes, of which no two are the same: an event that stands twice is one text, and takes no room."""
    return b"\x01" + be(count, 4) + b"".join(be(200, 4) + be(count * number + event, 8) + bytes(192) for event in range(count)) + NO_NODES


def empty_step(number: int) -> bytes:
    """One without events, but for the first, which has one of no bytes."""
    return b"\x01" + (be(0, 4) if number else be(1, 4) + be(0, 4)) + NO_NODES


# What stands in each history, and up to how many MiB it is tried: each step without events has 11 bytes, and takes some 80 of memory.
KINDS = (("300 events of 200 bytes a step", event_step, 64), ("no event but the first", empty_step, 16))


def history_file(path: str, size: int, step: Callable[[int], bytes]) -> int:
    """Writes a history of about so many bytes; answers its number of steps."""
    count = size // len(step(1))
    with open(path, "wb") as file:
        file.write(b"TWH1" + padded("bench") + be(count, 8))
        file.writelines(map(step, range(count)))
    return count


class Whole:
    """A history of about so many bytes, the line of its last step, and the proof that it has of its first event."""

    def __init__(self, bench: Bench, size: int, step: Callable[[int], bytes]):
        self.bench, self.history = bench, f"{bench.folder}/whole"
        count = history_file(self.history, size - 100, step)
        data = bench.tell("show", self.history, "1", "0")
        shown = read_proof(data)
        assert isinstance(shown, ExistenceProof)
        self.last = ("bench", count, climbed(shown.path, shown.top, shown.step, shown.opening.authenticator(shown.step)))
        self.proof, self.lines = bench.put("proof", data), bench.put("lines", f"bench {count} {self.last[2].hex()}\n".encode())

    def audit(self) -> List[str]:
        """The words of an audit of the proof against it."""
        return [self.bench.program, "audit", self.proof, self.lines, self.history]

    def adopt(self) -> List[str]:
        """The words that take over the whole of it, of whose last step another service received the thread."""
        peer = Peer("peer", self.last)
        proof, lines = self.bench.put("received", peer.proof(0)), self.bench.put("peer.lines", anchors_to_bytes(peer.anchor()))
        return [self.bench.program, "adopt", self.history, lines, proof]


def cost_row(bench: Bench, words: List[str], size: int, kind: str, is_counted: bool) -> Found:
    """The row of a command on a history of so many MiB."""
    took, room = cost_of(words, bench.folder)
    counted = count_instructions(words, bench.folder) if is_counted else None
    times = {"times the file": room / size / MIB if room else None, "times its hashes": counted.own / counted.inside if counted else None}
    return {"MiB": size, "history": kind, "seconds of a processor": took, "most memory, in MiB": room / MIB if room else None, **times}


COSTS = {"MiB": 0, "history": 0, "seconds of a processor": 2, "most memory, in MiB": 1, "times the file": 1, "times its hashes": 2}


def measure_histories(bench: Bench) -> Found:
    """The part of `show`, `audit` and `adopt`."""
    sizes = bench.pick((1, 16, 64), (1,))
    shown = []
    for count in (300, 1):
        row = {"events a step": count}
        for size in sizes:
            path = f"{bench.folder}/history"
            history_file(path, size * MIB, lambda number, count=count: event_step(number, count))
            words = [bench.program, "show", path, "1", "0"]
            row[f"{size} MiB"] = min(time_commands([words], bench.pick(5, 1))[0]) * 1e3 / size
            if size == bench.pick(COUNTED, 1) and (counted := count_instructions(words, bench.folder)):
                row["times its hashes"] = counted.own / counted.inside
        shown.append(row)
    tables = {"show": table({name: 2 for name in shown[0]}, shown)}
    for command in ("audit", "adopt"):
        rows = []
        for kind, step, most in KINDS:
            for size in (it for it in sizes if it <= most):
                whole = Whole(bench, size * MIB, step)
                rows.append(cost_row(bench, getattr(whole, command)(), size, kind, size == sizes[0]))
        tables[command] = table(COSTS, rows)
    empty = [row for row in tables["audit"]["rows"] if row["history"] == KINDS[1][0]]
    full = tables["audit"]["rows"][0]
    goals = {"show": shown[-1].get("times its hashes"), "audit_full": full["times its hashes"], "audit": empty[0]["times its hashes"], "audit_memory": empty[-1]["times the file"]}
    of = {f"{'empty' if row in empty else 'full'}_{row['MiB']}": {"seconds": row["seconds of a processor"], "memory": row["most memory, in MiB"]} for row in tables["audit"]["rows"]}
    return {"tables": tables, "values": {**goals, **of}}


# A step of 64 events of 1,024 bytes is as large as one may be, and takes so many bytes of a file; 17 pages of its store are of events.
EVENTS = [bytes(1024)] * 64
STEP_SIZE = 1 + 4 + 64 * (4 + 1024) + 2 + 4


def measure_exports(bench: Bench) -> Found:
    """The part of `export`, beside the same calls in C, and such as keep what they read."""
    rows = []
    for size in bench.pick((1, 16, 64), (1,)):
        service = Service("bench")
        for _ in range((size * MIB - 28) // STEP_SIZE):
            service.append(EVENTS)
        store = Path(bench.put(f"e{size}/timeline.tw", service.file())).parent
        words = [bench.program, "export", store]
        same = calls.same_calls(bench.calls, words, bench.folder) if bench.calls else None
        *others, took = median_times([same, [same[0], "keep 0", *same[1:]], words] if same else [words], bench.pick(15, 3))
        alone, kept = (others or [None, None])[:2]
        beside = {"by the calls": took / alone, "by calls that keep": took / kept} if alone and kept else {}
        room = cost_of(words, bench.folder)[1]
        in_ms = {name: it * 1e3 if it else None for name, it in (("the calls", alone), ("calls that keep", kept), ("`export`", took))}
        rows.append({"MiB": size, **in_ms, **beside, "most memory, in MiB": room / MIB if room else None})
    columns = {"MiB": 0, "the calls": 1, "calls that keep": 1, "`export`": 1, "by the calls": 2, "by calls that keep": 2, "most memory, in MiB": 1}
    return {"tables": {"export": table(columns, rows)}, "values": {"by_calls": next((row.get("by the calls") for row in rows if row["MiB"] == bench.pick(COUNTED, 1)), None)}}
