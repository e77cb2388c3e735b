"""Writers that record in one service by timeweave.Service while processes of theirs are killed, and an auditor who holds all that they were told against the store: by
the export and the second implementation alone, and by nothing that recorded it."""

import hashlib
import os
import random
import signal
import socket
import struct
import subprocess
import sys
import time
from collections import Counter
from contextlib import contextmanager, suppress
from pathlib import Path

from harness.places import LONGEST, TOP
from harness.rooms import Skipped, Wrong
from timeweave_reference.histories import read_history

# A writer: each event is told to a file before it is handed over, and where it stands once that is known. What has a key is handed over until it is. It ends once there is a
# file `stop`, or so many events are made. Every fourth event has no key, or, where a sixth word says so, none has one.
WRITER = """
import collections, hashlib, os, sys, time, timeweave
name, count, weft, tries, service = sys.argv[1], int(sys.argv[2]), sys.argv[3], int(sys.argv[4]), sys.argv[5]
out = os.open(name + ".told", os.O_RDWR | os.O_CREAT | os.O_APPEND, 0o600)
def tell(*words):
    os.write(out, " ".join(map(str, words)).encode() + b"\\n")
def event_of(key):
    return key.encode() * 300 if key.endswith("7") else key.encode()
lines = [line.split() for line in open(name + ".told")]
done = {words[1] for words in lines if words[0] == "at"}
keys = dict.fromkeys(words[2] for words in lines if words[0] == "handed" and words[2] != "-")
waiting = collections.deque((event_of(key), key, tries) for key in keys if key not in done)
first = max([int(words[1 if words[2] == "-" else 2].split("-")[1]) for words in lines if words[0] == "handed"], default=-1) + 1
numbers = iter(range(first, count))
def another():
    if waiting:
        return waiting.popleft()
    number = None if os.path.exists("stop") else next(numbers, None)
    if number is None:
        return None
    time.sleep(0.002)
    return (f"{name}-{number}-{os.getpid()}".encode(), "", 1) if number % 4 == 3 or len(sys.argv) > 6 else (event_of(f"{name}-{number}"), f"{name}-{number}", tries)
def opened():
    for _ in range(tries):
        try:
            return timeweave.Service(service, name="reg", weft=weft)
        except timeweave.RefusedEvent as refused:
            tell("closed", refused.status, repr(str(refused))[:300])
            time.sleep(0.2)
    sys.exit(3)
with opened() as service:
    futures = collections.deque()
    while True:
        while len(futures) < 24 and (it := another()) is not None:
            event, key, left = it
            tell("handed", event.decode() if len(event) < 1000 else "long", key or "-")
            futures.append((event, key, left, service.submit(event, key=key)))
        if not futures:
            break
        event, key, left, future = futures.popleft()
        try:
            it = future.result()
            tell("at", key or event.decode(), it.service, it.step, it.index, it.digest.hex(), hashlib.sha256(event).hexdigest())
        except (timeweave.RefusedEvent, timeweave.Unknown) as failure:
            tell("unknown" if isinstance(failure, timeweave.Unknown) else "refused", key or event.decode(), repr(str(failure))[:300])
            if key and left > 1:
                time.sleep(0.05)
                waiting.append((event, key, left - 1))
tell("ended")
"""


def keeper_of(folder, name="s"):
    """The number of the process that listens for a service; None where none does."""
    at = os.open(folder, os.O_PATH | os.O_DIRECTORY | os.O_CLOEXEC)
    try:
        with socket.socket(socket.AF_UNIX, socket.SOCK_STREAM) as connection:
            connection.connect(f"/proc/self/fd/{at}/{name}.socket")
            return struct.unpack("3i", connection.getsockopt(socket.SOL_SOCKET, socket.SO_PEERCRED, struct.calcsize("3i")))[0]
    except OSError:
        return None
    finally:
        os.close(at)


def kill(number):
    """Kills a process, where it is still there."""
    with suppress(ProcessLookupError):
        os.kill(number, signal.SIGKILL)


def below(number):
    """The numbers of the processes that a process started, and of those that these did."""
    found = []
    with suppress(OSError):
        for task in Path(f"/proc/{number}/task").iterdir():
            for child in map(int, (task / "children").read_text().split()):
                found += [child, *below(child)]
    return found


def is_program(number):
    """Whether a process is one of the proved program."""
    with suppress(OSError):
        return Path(f"/proc/{number}/comm").read_text().startswith("timeweave")
    return False


class Writers:
    """Processes that work in a folder and record in the service `s`, there or in another one."""

    def __init__(self, folder, program, count, each=1 << 30, tries=1_000, place=None, have_keys=True):
        self.have_keys, self.folder, self.place, self.each, self.tries = have_keys, Path(folder), Path(place or folder), each, tries
        self.weft = self.folder / "weft-here"
        self.weft.write_text(f'#!/bin/sh\nexec {sys.executable} -P {TOP}/weft/bin/weft "$@"\n')
        self.weft.chmod(0o755)
        own = {"TIMEWEAVE_PROGRAM": program, "PYTHONPATH": f"{TOP}/bindings/python", "HOME": str(folder), "WEFT_KEPT": f"{folder}/kept", "WEFT_SIGNERS": f"{folder}/signers"}
        self.env = {"PATH": os.environ["PATH"], "LC_ALL": "C.UTF-8", **own}
        (self.folder / "kept").touch(0o600)
        (self.folder / "stop").unlink(missing_ok=True)
        self.killed = Counter()
        self.running = {f"w{number}": self.start(f"w{number}") for number in range(count)}

    def start(self, name):
        """Starts a writer, which goes on from what it was told before."""
        words = [sys.executable, "-c", WRITER, name, str(self.each), self.weft, str(self.tries), self.place / "s", *([] if self.have_keys else ["no keys"])]
        with open(self.folder / f"{name}.errors", "ab") as errors:
            return subprocess.Popen(words, cwd=self.folder, env=self.env, stdout=errors, stderr=errors)

    @property
    def is_at_work(self):
        """Whether a writer is."""
        return any(it.poll() is None for it in self.running.values())

    def kill_one(self, drawn):
        """Kills a process that is drawn: the keeper, one that begins to be it, the program amid a step, or a writer, which is started anew. Answers whether there was one."""
        keeper = keeper_of(self.place)
        of_writers = [number for it in self.running.values() if it.poll() is None for number in below(it.pid)]
        of_keeper = below(keeper) if keeper is not None else []
        programs = [number for number in {*of_writers, *of_keeper} if is_program(number)]
        kinds = {"keeper": [keeper] if keeper is not None else [], "program": programs, "beginning": [it for it in of_writers if it not in programs and it != keeper]}
        names = [name for name, it in self.running.items() if it.poll() is None]
        kind = drawn.choice(["keeper", "keeper", "keeper", "program", "program", "beginning", "writer"])
        if kind == "writer" and names:
            name = drawn.choice(names)
            kill(self.running[name].pid)
            self.running[name].wait()
            self.running[name] = self.start(name)
        elif kinds.get(kind):
            kill(drawn.choice(kinds[kind]))
        else:
            return False
        self.killed[kind] += 1
        return True

    def wait(self):
        """Waits for all, and until nobody keeps the service."""
        (self.folder / "stop").touch()
        for name, it in self.running.items():
            it.wait(LONGEST)
        until = time.monotonic() + LONGEST
        while (number := keeper_of(self.place)) is not None and time.monotonic() < until:
            os.kill(number, signal.SIGTERM)
            time.sleep(0.3)

    def stop(self):
        """Ends all that is still at work."""
        for it in self.running.values():
            if it.poll() is None:
                kill(it.pid)
                it.wait()
        number = keeper_of(self.place)
        if number is not None:
            kill(number)


# ---- the auditor


def stored(place, program):
    """The events of each step of each part of the service in a folder, as its store exports them."""
    found = {}
    for place in [place / "s", *sorted((place / "s").glob("part-*/"))]:
        done = subprocess.run([program, "export", place], capture_output=True, timeout=LONGEST)
        if done.returncode:
            raise Wrong(f"  the store in {place} isn't exported: {done.stdout[:200]}")
        name, steps = read_history(done.stdout)
        found[name] = {number: list(step.events) for number, step in enumerate(steps, 1)}
    return found


def told_to(folder):
    """What the writers were told, in words."""
    texts = [path.read_text() for path in sorted(folder.glob("*.told"))]
    return [line.split(" ") for text in texts for line in text[: text.rfind("\n") + 1].splitlines()]


def audit(writers, program):
    """Holds what was told against the store: all that was acknowledged stands where it was told, nothing twice, and nothing that nobody handed over. Answers how much
    there is."""
    told, events, seen = told_to(writers.folder), stored(writers.place, program), set()
    # (writers may be at work: what they were told is read before the store is, and what they handed over behind that)
    handed = {f"{digest(words[2].encode() * 300)}  -" if words[1] == "long" else words[1] for words in told_to(writers.folder) if words[0] == "handed"}
    for words in told:
        if words[0] != "at":
            continue
        _, what, service, step, index, sum_of, own_sum = words
        event = events[service][int(step)][int(index)]
        if sum_of != own_sum or own_sum not in (digest(event), event[:64].decode("ascii", "replace") if event.endswith(b"  -") else ""):
            raise Wrong(f"  {what} was told to stand in step {step} of {service}, index {index}, where {event[:80]} stands")
        seen.add(what)
    flat = Counter(event for steps in events.values() for them in steps.values() for event in them if not event.startswith(b"goes on as "))
    twice = [event for event, count in flat.items() if count > 1]
    strange = [event for event in flat if event.decode("ascii", "replace") not in handed]
    if twice or strange:
        raise Wrong(f"  {len(twice)} events stand twice, as {twice[:3]}; {len(strange)} were handed over by nobody, as {strange[:3]}")
    return {"acknowledged": len(seen), "in the store": flat.total(), "steps": sum(map(len, events.values()))}


def digest(data):
    """A digest in hexadecimal."""
    return hashlib.sha256(data).hexdigest()


def expect_records(writers, program):
    """Raises Wrong where the file of records tells anything else than the store has."""
    for name, steps in stored(writers.place, program).items():
        folder = writers.place / ("s" if name == "reg" else f"s/part-{name.removeprefix('reg-')}")
        lines = [line.split(" ") for line in folder.with_name(f"{folder.name}.records").read_text().splitlines()]
        told = Counter((int(words[0]), int(words[1]), words[2]) for words in lines if words[1] != "made")
        has = Counter((step, index, stood_for(event)) for step, events in steps.items() for index, event in enumerate(events) if not event.startswith(b"goes on as "))
        if told != has:
            raise Wrong(f"  the records of {name} tell of {list((told - has).elements())[:3]}, and not of {list((has - told).elements())[:3]}")


def stood_for(event):
    """The digest by which an event is recorded."""
    return event[:64].decode() if len(event) == 67 and event.endswith(b"  -") else digest(event)


# Each step is proved by weft check, so that many of them take long.
MOST_CHECKED = 1_500


def expect_good(writers, program, steps):
    """Each writer was told of each of its events that have keys; the records are those of the store; the service goes on, and weft check finds nothing against it."""
    expect_records(writers, program)
    told = told_to(writers.folder)
    lacking = {words[2] for words in told if words[0] == "handed" and words[2] != "-"} - {words[1] for words in told if words[0] == "at"}
    if lacking:
        errors = [path.read_text(errors="replace")[-600:] for path in sorted(writers.folder.glob("*.errors"))]
        raise Wrong(f"  {len(lacking)} were never acknowledged, as {sorted(lacking)[:3]}\n  {errors}\n  {[words for words in told if words[0] in ('closed', 'refused')][-3:]}")
    further = [["check", writers.place / "s"]] if steps < MOST_CHECKED else []
    for words in (["record", writers.place / "s", "--event", f"last {time.time_ns()}"], *further):
        done = subprocess.run([writers.weft, *words], cwd=writers.folder, env=writers.env, capture_output=True, text=True, timeout=LONGEST)
        if done.returncode:
            raise Wrong(f"  weft {words[0]}: {done.returncode} {done.stdout[-500:]} {done.stderr[-800:]}")


def killed_often(folder, program, kills, seed, tell=lambda text: None, have_keys=True):
    """Kills so many processes of writers at drawn moments; answers what was killed, and what the auditor counted. Events that have no keys are handed over once."""
    drawn = random.Random(f"kills {seed}")
    writers = Writers(folder, program, 4, have_keys=have_keys)
    try:
        while (count := sum(writers.killed.values())) < kills:
            time.sleep(drawn.uniform(0, 0.6))
            if writers.kill_one(drawn) and (count + 1) % 25 == 0:
                tell(f"{count + 1} killed, {dict(writers.killed)}: {audit(writers, program)}")
        writers.wait()
        found = audit(writers, program)
        expect_good(writers, program, found["steps"])
        return dict(writers.killed), found
    finally:
        writers.stop()


@contextmanager
def device(folder, size):
    """A small device in a folder, and how it is made larger or read-only."""
    place = Path(folder) / "device"
    place.mkdir()
    if subprocess.run(["mount", "-t", "tmpfs", "-o", f"size={size}", "tmpfs", place], capture_output=True).returncode:
        raise Skipped("a small device can't be mounted here")
    try:
        yield place, lambda options: subprocess.run(["mount", "-o", f"remount,{options}", place], check=True, capture_output=True)
    finally:
        until = time.monotonic() + 60
        while subprocess.run(["umount", place], capture_output=True).returncode and time.monotonic() < until:
            time.sleep(0.5)


def on_a_full_device(folder, program):
    """Records until the device is full, and on one that can't be written; then there is room again. Answers what the auditor counted, full and behind it."""
    with device(folder, "3m") as (place, remount):
        full = ended(Writers(folder, program, 2, tries=3, place=place), program, lambda told: sum(words[0] in REFUSALS for words in told) > 30)
        remount("size=64m,ro")
        before = len(acknowledged(folder))
        ended(Writers(folder, program, 2, tries=2, place=place), program, lambda told: False)
        if len(acknowledged(folder)) != before:
            raise Wrong("  something was acknowledged on a device that can't be written")
        remount("size=64m,rw")
        writers = Writers(folder, program, 2, place=place)
        behind = ended(writers, program, lambda told: len(acknowledged(folder)) > before + 500)
        expect_good(writers, program, behind["steps"])
        return full, behind


REFUSALS = ("refused", "unknown", "closed")


def acknowledged(folder):
    """What was told to be recorded."""
    return [words[1] for words in told_to(Path(folder)) if words[0] == "at"]


def ended(writers, program, is_enough):
    """What the auditor counts once the writers have ended, by themselves or since they were told enough."""
    until = time.monotonic() + LONGEST
    try:
        while writers.is_at_work and not is_enough(told_to(writers.folder)):
            if time.monotonic() > until:
                raise Wrong(f"  the writers didn't come to their end: {told_to(writers.folder)[-3:]}")
            time.sleep(0.3)
        writers.wait()
        return audit(writers, program)
    finally:
        writers.stop()
