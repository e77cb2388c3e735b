"""Each system call that the program makes on its files fails once, by strace: the status is one of the manual page's, and an honest later run
finds each step that was told. A short count is made by short_count.c, since strace can't take a part of the bytes."""

import os
import random
import subprocess

from harness.making import HEX, LEAST, LEAST_TEXT, link_proof, message_bytes, proof_bytes
from harness.places import HARNESS, LONGEST
from harness.power import BY_CHANCE_IN_THE_GATE, EARLIER, EARLIER_TIMES, Device, prepared
from harness.rooms import Wrong, expect, needs
from harness.tracing import calls_of, own_calls
from timeweave_reference.histories import Step, history_to_bytes
from timeweave_reference.services import service_of

ERRORS = ("EIO", "ENOSPC", "EINTR")
SHORT = ("read", "write", "pread64", "pwrite64")

# What a call's failing comes to, by its file.
STATUS = {"input": (3, b"fault input\n"), "store": (5, b"fault disk\n"), "output": (4, b"")}


class Run:
    """A command with the files that it needs; what it answers, and the histories that may stand after it."""

    # The folder of the store.
    folder = "d"

    def __init__(self, room, command):
        self.room = room
        size = {"init": None}.get(command, 2)
        words, self.histories = prepared(self.room, size)
        self.makes = command in ("init", "append")
        earlier = service_of("power", EARLIER, times=EARLIER_TIMES).line
        proof = proof_bytes(earlier, 2, 99, 3)
        steps = [Step(events, time=time) for events, time in zip(EARLIER, EARLIER_TIMES)]
        self.room.put("h", history_to_bytes("power", steps))
        self.room.put("p", LEAST)
        self.room.put("k", f"a 1 {HEX}\n".encode())
        made = self.histories.store()
        self.words, self.output = {
            "prove": ("prove d event 2 99", proof),
            "link": ("prove d link 0", link_proof(earlier, 0, 3)),
            "thread": ("thread d 1", message_bytes(earlier, 3, 1)),
            "show": ("show h 2 99", proof),
            "verify": ("verify p k", LEAST_TEXT),
        }.get(command, (words, made.anchor(len(self.histories.made))))
        path = self.room.folder / "d/timeline.tw"
        self.kept = path.read_bytes() if path.exists() else None

    def again(self):
        """Puts the store back as it was."""
        self.leave(self.kept)

    def leave(self, image):
        """Makes the store these bytes; None is no file."""
        path = self.room.folder / self.folder / "timeline.tw"
        path.unlink(missing_ok=True)
        if image is not None:
            path.write_bytes(image)

    def calls(self):
        """The calls on the command's own files: name, number among those of that name, and kind of file."""
        self.again()
        _, _, calls = calls_of(self.room.program, self.words.split(), self.room.folder)
        own, counts = {id(call) for call in own_calls(calls)}, {}
        for call in calls:
            counts[call.name] = counts.get(call.name, 0) + 1
            kind = self.kind(call)
            if kind and id(call) in own:
                yield call.name, counts[call.name], kind

    def kind(self, call):
        if call.name == "write" and call.number == "1":
            return "output"
        if not call.path.startswith(os.path.realpath(self.room.folder)):
            return None
        return "store" if f"{self.room.folder}/{self.folder}" in call.path else "input"

    def judge(self, found, allowed, what):
        """What was wrong with an answer, or with the store after it."""
        if found not in allowed:
            return [f"  timeweave {self.words}, {what}\n  wanted one of {allowed}\n  got    {found}"]
        if self.makes:
            try:
                self.histories.go_on(self.room, found[0] in (0, 4))
            except Wrong as wrong:
                return [f"{wrong}\n  after timeweave {self.words}, {what}, which answered {found}"]
        return []


def with_errors(run):
    """Runs the command once for each of its calls and each error."""
    whole = (0, run.output)
    for name, when, kind in list(run.calls()):
        for error in ERRORS:
            run.again()
            found = calls_of(run.room.program, run.words.split(), run.room.folder, inject=[f"{name}:error={error}:when={when}"])[:2]
            allowed = [whole] if error == "EINTR" or name == "close" else [STATUS[kind]]
            yield from run.judge(found, allowed, f"whose {name} of its {kind} fails with {error}, the {when}th call of that name")


def killed(run):
    """Runs the command once for each of its calls on the store, killed at that call, and goes on from what is left."""
    for name, when, kind in list(run.calls()):
        if kind == "store" and name in ("fsync", "pwrite64", "pread64", "write"):
            run.again()
            found = calls_of(run.room.program, run.words.split(), run.room.folder, inject=[f"{name}:signal=KILL:when={when}"])[:2]
            run.histories.go_on(run.room, found[0] == 0)


def stays_told(room, words, asked):
    """What a command that asks the service or follower `d` tells behind one that was killed at its last sync; no loss of power takes it back."""
    path = room.folder / "d/timeline.tw"
    before = path.read_bytes()
    _, _, calls = calls_of(room.program, words.split(), room.folder)
    path.write_bytes(before)
    last = sum(call.name == "fsync" for call in calls)
    status, output, calls = calls_of(room.program, words.split(), room.folder, inject=[f"fsync:retval=0:signal=KILL:when={last}"])
    expect((status < 0, output), (True, b""), f"whether timeweave {words} was killed at its last sync, and its output")
    status, told, more = calls_of(room.program, asked.split(), room.folder)
    expect(status, 0, f"the status of timeweave {asked} behind the killed run")
    device = Device(before, [*calls, *more], os.path.realpath(path))
    for image in device.images_after(len(device.calls), random.Random("told"), 20):
        path.write_bytes(image)
        room.expect(asked, 0, told)
    return told


def with_short_counts(run, shim):
    """Runs the command once for each of its calls that take or give bytes, of which that call does a half."""
    counts = {}
    for name, _, kind in list(run.calls()):
        if name in SHORT:
            counts[name] = counts.get(name, 0) + 1
            run.again()
            environment = {**os.environ, "LD_PRELOAD": shim, "SHORT_WHEN": str(counts[name])}
            for call in {name, name.removesuffix("64")}:
                run.again()
                done = run.room.run(*run.words.split(), env={**environment, "SHORT_CALL": call})
                yield from run.judge(done[:2], [(0, run.output)], f"whose {call} of its {kind} is short, the {counts[name]}th call of that name")


def without_power(run, most):
    """Runs the command once, and goes on from at most so many of the images that a loss of power may leave amid."""
    status, output, calls = calls_of(run.room.program, run.words.split(), run.room.folder)
    expect((status, output), (0, run.output), f"timeweave {run.words}")
    store = os.path.realpath(run.room.folder / run.folder / "timeline.tw")
    images = list(Device(run.kept, calls, store).images(random.Random(run.words), BY_CHANCE_IN_THE_GATE))
    for image, is_told in random.Random("some").sample(images, min(len(images), most)):
        run.leave(image)
        run.histories.go_on(run.room, is_told)


def expect_right(wrong):
    """Raises Wrong where anything was wrong."""
    wrong = list(wrong)
    if wrong:
        raise Wrong("\n".join(wrong[:5]))


def over_run(run_of, command, tried, told):
    """The case of a command, whose run in a room is made and tried so; of `told` it tells what is kept, with `{}` for the command."""

    def work(room):
        tried(run_of(room, command))

    work.__doc__ = told.format(f"`{command}`")
    return work


def failing(command, run_of, told="{}, each of whose calls on its files fails once"):
    """The case of a command, whose run in a room is made so."""
    return over_run(run_of, command, lambda run: expect_right(with_errors(run)), told)


def killed_at(command, run_of, told):
    """The same, killed at each of its calls on the store."""
    return over_run(run_of, command, killed, told)


def lost_power(command, run_of, told, most=150):
    """The same, and what a loss of power leaves of it."""
    return over_run(run_of, command, lambda run: without_power(run, most), told)


def short(command, run_of):
    """The same, whose reads and writes are short."""

    def with_shim(run):
        compiler, shim = needs("cc", "gcc"), str(run.room.folder / "short_count.so")
        subprocess.run([compiler, "-shared", "-fPIC", "-O1", "-o", shim, HARNESS / "short_count.c"], check=True, timeout=LONGEST)
        expect_right(with_short_counts(run, shim))

    return over_run(run_of, command, with_shim, "{}, each of whose reads and writes is short once")
