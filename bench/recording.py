"""How many small events a second many processes record by timeweave.Service, and how long each waits for its answer: beside the program that appends the same in
batches, SQLite, and a commit of git a batch.

All take turns, since other work on the machine bears on each: in a turn each records so many steps of 1,024 events of 64 bytes, and of each turn the load is told. By
timeweave.Service eight processes do it, each with 128 calls under way, of which each has a receipt of its own; the seconds end when the last one of them has it. The
program alone has its events in files already, and appends one after another. What is told of all turns are all events over all seconds. In a third of the turns the
events have keys, git makes its commits, or the same number of events is under way by `record_many`, 128 in a call.

Beside that stands what the eight processes need for themselves (`floor`): they make the events, note the times and make the receipts, as in a turn, and nobody records
anything; and what awaiting as many futures takes of asyncio, in one process that does nothing else."""

import asyncio
import itertools
import json
import os
import statistics
import subprocess
import sys
import threading
import time
from pathlib import Path

from durable import SIZE, Database, Program, Repository
from measuring import TOP, load, percentile, table

from command_line import reader_of_words, run_script

BATCH, PROCESSES, TURNS = 1_024, 8, 10
# So many calls are under way, over so many processes, and so many are made of each process.
UNDER_WAY = ((1, 1, 200), (8, 8, 100), (64, 8, 400), (1_024, 8, 2_560))
LONGEST = 900


def event(name, number):
    """An event of 64 bytes."""
    return f"{name} {number} ".encode().ljust(SIZE, b".")


# ---- a process that records


def record(service, name, count, under_way, has_keys, after=lambda: None):
    """Records so many events, so many at a time; how long each waited for its answer."""
    numbers, times, ended = itertools.count(), [], threading.Event()

    def submit():
        """Hands the next one over."""
        number, began = next(numbers), time.perf_counter()
        if number < count:
            future = service.submit(event(name, number), key=f"{name}/{number}" if has_keys else "")
            future.add_done_callback(lambda it: answered(began, it))

    def answered(began, future):
        """Notes how long it waited, and hands one over in its place."""
        times.append(time.perf_counter() - began)
        submit()
        if future.exception() is not None or not future.result().step or len(times) == count:
            ended.set()

    for _ in range(under_way):
        submit()
    after()
    ended.wait()
    if len(times) < count:
        sys.exit("an event was refused")
    return times


def record_many(service, name, count, under_way):
    """Records so many events, so many in a call; how long each call took."""
    times, numbers = [], range(count)
    for at in range(0, count, under_way):
        began = time.perf_counter()
        receipts = service.record_many([event(name, number) for number in numbers[at : at + under_way]])
        assert all(it.step for it in receipts)
        times.append(time.perf_counter() - began)
    return times


class Nobody:
    """Who records nothing, and answers at once."""

    class Answered:
        """A future that is answered when somebody looks."""

        def __init__(self, data):
            self.data, self.callback = data, None

        def add_done_callback(self, callback):
            """Notes who is to be told."""
            self.callback = callback

        def exception(self):
            """None, as of what was recorded."""
            return None

        def result(self):
            """A receipt."""
            import timeweave

            return timeweave.Receipt("register", 1, 0, None, self.data)

    def __init__(self):
        self.waiting = []

    def submit(self, data, key=""):
        """Hands an event over to nobody."""
        it = self.Answered(data)
        self.waiting.append(it)
        return it

    def answer(self):
        """Tells all who wait, and those who wait then, until none does."""
        while self.waiting:
            them, self.waiting = self.waiting, []
            for it in them:
                it.callback(it)


def floor(name, count, under_way):
    """The same as `record`, by nobody."""
    nobody = Nobody()
    return record(nobody, name, count, under_way, False, nobody.answer)


def asyncio_floor(count, under_way):
    """The microseconds that an event takes of asyncio alone: a coroutine that awaits a future, which is resolved together with others."""

    async def one(waiting):
        """Awaits a future as often as an event is recorded by one of those who are under way."""
        for _ in range(count // under_way):
            future = asyncio.get_running_loop().create_future()
            waiting.append(future)
            await future

    async def all_of_them():
        """Resolves what waits, together, until all have ended."""
        waiting = []
        tasks = [asyncio.ensure_future(one(waiting)) for _ in range(under_way)]
        while not all(it.done() for it in tasks):
            them, waiting[:] = list(waiting), []
            for it in them:
                it.set_result(None)
            await asyncio.sleep(0)

    began = time.perf_counter()
    asyncio.run(all_of_them())
    return (time.perf_counter() - began) / (count // under_way * under_way) * 1e6


def work(folder, weft, number):
    """Records what is asked for, a line at a time."""
    import timeweave

    with timeweave.Service(folder, name="register", weft=weft) as service:
        service.record(b"ready")
        print("ready", flush=True)
        for turn, line in enumerate(sys.stdin):
            kind, *numbers = line.split()
            count, under_way = map(int, numbers)
            name = f"{number}/{turn}/{os.getpid()}"
            if kind == "many":
                times = record_many(service, name, count, under_way)
            elif kind == "floor":
                times = floor(name, count, under_way)
            else:
                times = record(service, name, count, under_way, kind == "keys")
            print("done", flush=True)
            print(json.dumps(times[:: max(1, count // 4_000)]), flush=True)


class Ours:
    """Eight processes that record in one service."""

    def __init__(self, program, folder):
        self.folder = folder
        weft = folder / "weft"
        weft.write_text(f'#!/bin/sh\nexec {sys.executable} -P {TOP}/weft/bin/weft "$@"\n')
        weft.chmod(0o755)
        env = {**os.environ, "TIMEWEAVE_PROGRAM": program, "PYTHONPATH": f"{TOP}/bindings/python", "HOME": str(folder)}
        words = [sys.executable, __file__, folder / "service", weft]
        pipe = subprocess.PIPE
        self.running = [subprocess.Popen([*words, str(it)], env=env, stdin=pipe, stdout=pipe, text=True) for it in range(PROCESSES)]
        for it in self.running:
            assert it.stdout.readline() == "ready\n", "a process records"

    def record(self, processes, count, under_way, kind="calls"):
        """The seconds in which so many processes record so many events each, and how long calls waited."""
        began = time.perf_counter()
        for it in self.running[:processes]:
            it.stdin.write(f"{kind} {count} {under_way}\n")
            it.stdin.flush()
        for it in self.running[:processes]:
            assert it.stdout.readline() == "done\n", "a process has recorded"
        took = time.perf_counter() - began
        waits = [json.loads(it.stdout.readline()) for it in self.running[:processes]]
        return took, sorted(itertools.chain(*waits))

    def close(self):
        """Ends the processes."""
        for it in self.running:
            it.stdin.close()
            it.wait(LONGEST)


# ---- what is found


def time_steps(writer, steps):
    """The seconds in which somebody else records so many steps of a batch; what it is handed is there already."""
    took = 0.0
    for step in range(steps):
        events = [event("alone", step * BATCH + number) for number in range(BATCH)]
        getattr(writer, "prepare", len)(events)
        began = time.perf_counter()
        writer.record(events)
        took += time.perf_counter() - began
    return took


def measure_recording(bench):
    """The part."""
    folder, turns, steps = Path(bench.folder), bench.pick(TURNS, 3), bench.pick(100, 1)
    ours, alone, database, repository = Ours(bench.program, folder), Program(bench, folder), Database(bench, folder), Repository(bench, folder)
    each, rows = steps * BATCH // PROCESSES, []
    try:
        latency = [waited(ours, *it) for it in UNDER_WAY]
        for turn in range(turns):
            row = {"load": load(), "service": ours.record(PROCESSES, each, BATCH // PROCESSES)[0], "program": time_steps(alone, steps), "sqlite": time_steps(database, steps)}
            if turn % 3 == 0:
                row["keys"] = ours.record(PROCESSES, each, BATCH // PROCESSES, "keys")[0]
            if turn % 3 == 1:
                row["git"] = time_steps(repository, steps)
            if turn % 3 == 2:
                row["many"] = ours.record(PROCESSES, each, BATCH // PROCESSES, "many")[0]
                row["floor"] = ours.record(PROCESSES, each, BATCH // PROCESSES, "floor")[0]
            rows.append({name: round(it, 3) for name, it in row.items()})
            print(rows[-1], file=sys.stderr, flush=True)
    finally:
        ours.close()
    asyncio_alone = round(statistics.median(asyncio_floor(each, BATCH // PROCESSES) for _ in range(5)), 2)
    return tables_of({"latency": latency, "turns": rows, "asyncio_alone_microseconds_an_event": asyncio_alone, **rates(rows, steps)})


def waited(ours, under_way, processes, count):
    """The median and the 99th percentile of the time to the answer, in milliseconds."""
    seconds, waits = ours.record(processes, count, under_way // processes)
    times = {"median_ms": round(statistics.median(waits) * 1e3, 2), "percentile_99_ms": round(percentile(waits, 0.99) * 1e3, 2)}
    return {"under_way": under_way, "calls": count * processes, **times, "per_second": round(count * processes / seconds), "load": load()}


def rates(rows, steps):
    """Of each how many events a second it recorded over all turns, and which share of the program's that is."""
    found, shares = {}, [row["program"] / row["service"] for row in rows]
    for name in ("service", "program", "keys", "many", "sqlite", "git", "floor"):
        took = [row[name] for row in rows if name in row]
        found[name] = {"events": len(took) * steps * BATCH, "per_second": round(len(took) * steps * BATCH / sum(took)) if took else None}
    share = found["service"]["per_second"] / found["program"]["per_second"]
    many, nobody = found["many"]["per_second"], found.pop("floor")["per_second"]
    share_of_many = round(many / found["program"]["per_second"], 3) if many else None
    return {"recorded": found, "share_of_program": round(share, 3), "share_by_record_many": share_of_many, "processes_alone_per_second": nobody, "share_in_the_middle_turn": round(statistics.median(shares), 3)}


BY = "recorded by (8 processes, 1,024 calls under way, 64 bytes)"


def tables_of(told):
    """What bench/results.json has of that: the tables of bench/RESULTS.md, and its values."""
    names = (
        ("service", "`timeweave.Service`, a call for each event"), ("many", "the same by `record_many`, 128 events a call"), ("keys", "each with a key"), ("program", "the program alone, of files"),
        ("sqlite", "SQLite"), ("git", "a git commit a batch"),
    )  # fmt: skip
    program, found = told["recorded"]["program"]["per_second"], told["recorded"]
    rates = {name: found[name]["per_second"] for name, _ in names if name in found}
    rows = [{BY: label, "events a second": rates[name], "by the program's": rates[name] / program} for name, label in names if rates.get(name)]
    asyncio_us = told["asyncio_alone_microseconds_an_event"]
    alone = (("nobody: what the processes need themselves", told["processes_alone_per_second"]), ("nobody: asyncio, in one process", round(1e6 / asyncio_us) if asyncio_us else None))
    rows += [{BY: label, "events a second": rate, "by the program's": rate / program} for label, rate in alone if rate]
    waits = [{"calls under way": it["under_way"], "median ms": it["median_ms"], "99 of 100 ms": it["percentile_99_ms"], "a second": it.get("per_second"), "load": it.get("load", 0)} for it in told["latency"]]
    values = {**{name: it for name, it in told.items() if name != "latency"}, "share": told["share_of_program"], "processes_alone": told.get("processes_alone_per_second"), "asyncio_us": told.get("asyncio_alone_microseconds_an_event")}
    recorded = table({BY: 0, "events a second": 0, "by the program's": 2}, rows)
    return {"tables": {"recording": recorded, "waits": table({"calls under way": 0, "median ms": 2, "99 of 100 ms": 2}, waits)}, "values": values}


def main():
    """Does what one of the eight processes does, which `bench/measure.py PROGRAM recording` starts."""
    words = reader_of_words(__doc__)
    for name in ("folder", "weft", "number"):
        words.add_argument(name, metavar=name.upper())
    given = words.parse_args()
    work(given.folder, given.weft, given.number)


if __name__ == "__main__":
    run_script(main)
