"""What a loss of power may leave of a store, from the device calls that the program makes on its file, each image tried by the program itself.

Of the calls each prefix is taken. After it a loss of power leaves what was written before the last sync, and of the writes since all
subsets up to 8 of them, else all, none, each one missing, each two missing, and 1,000 subsets by chance; and with all of them one torn
at each 512 bytes, either part being the new one. A file whose name wasn't synced may be gone.

On each image the next append has to work; its line shows that the history goes on from the step that was told, or from the one that was
being made; and each earlier step is proved as before.
"""

import hashlib
import itertools
import os
import random
import tempfile

from harness.making import proof_bytes
from harness.rooms import Room, Wrong, append_words
from harness.tracing import calls_of
from timeweave_reference.events_files import events_to_bytes
from timeweave_reference.services import service_of

SECTOR = 512
EXHAUSTIVE = 8
BY_CHANCE = 1000

# How many images the acceptance run tries of each run, and how many subsets by chance it takes them from.
IN_THE_GATE = 250
BY_CHANCE_IN_THE_GATE = 20

EARLIER = [[b"one"], [bytes([k]) * 60 for k in range(100)], []]
EARLIER_TIMES = [None, 4, None]
NEXT = [b"next"]
SIZES = (1, 2, 1024)

# The append of so many events has a time.
TIMES = {2: 6}


class Device:
    """The device calls of a run on the file of a store, from the file before it: writes, syncs of the file, syncs of its folder."""

    def __init__(self, before, calls, store):
        self.before = before
        self.calls = []
        places = {}
        folder = os.path.realpath(os.path.dirname(store))
        for call in calls:
            if call.is_made and call.result >= 0 and call.path in (folder, store):
                self.note(call, places, call.path == folder)

    def note(self, call, places, is_folder):
        if call.name in ("fsync", "fdatasync"):
            self.calls.append(("name",) if is_folder else ("sync",))
        elif call.name == "openat":
            places[call.result] = 0
        elif call.name == "lseek":
            places[call.number] = call.result
        elif call.name == "pwrite64":
            self.calls.append(("write", int(call.words[3]), call.data[: call.result]))
        elif call.name == "write":
            self.calls.append(("write", places.get(call.number, 0), call.data[: call.result]))
            places[call.number] = places.get(call.number, 0) + call.result
        elif call.name in ("ftruncate", "fallocate", "pwritev", "writev"):
            raise Wrong(f"  the program makes a call {call.name}, of which this script doesn't know what it may leave")

    def images(self, rand, by_chance=BY_CHANCE):
        """Each image that a loss of power may leave, with whether all calls were made; None is no file."""
        found = set()
        for length in range(len(self.calls) + 1):
            is_whole = length == len(self.calls)
            for image in self.images_after(length, rand, by_chance):
                mark = (is_whole, image if image is None else hashlib.sha1(image).digest())
                if mark not in found:
                    found.add(mark)
                    yield image, is_whole

    def images_after(self, length, rand, by_chance):
        """The images after so many of the calls."""
        made = self.calls[:length]
        last = max((i for i, call in enumerate(made) if call[0] == "sync"), default=-1)
        stable = applied(self.before or b"", [call for call in made[: last + 1] if call[0] == "write"])
        pending = [call for call in made[last + 1 :] if call[0] == "write"]
        if self.before is None and ("name",) not in made:
            yield None
        for chosen in subsets(pending, rand, by_chance):
            yield applied(stable, chosen)
        for i, (_, place, data) in enumerate(pending):
            for cut in range(SECTOR, len(data), SECTOR):
                for part in ((place, data[:cut]), (place + cut, data[cut:])):
                    yield applied(stable, [*pending[:i], ("write", *part), *pending[i + 1 :]])


def applied(image, writes):
    """The bytes after writes; what no write gave reads as zeros."""
    image = bytearray(image)
    for _, place, data in writes:
        image.extend(bytes(max(0, place + len(data) - len(image))))
        image[place : place + len(data)] = data
    return bytes(image)


def subsets(writes, rand, by_chance):
    """The subsets of the writes that are tried, each in the order of the writes."""
    count = len(writes)
    if count <= EXHAUSTIVE:
        for size in range(count + 1):
            yield from itertools.combinations(writes, size)
        return
    yield from (writes, ())
    for missing in itertools.chain(((i,) for i in range(count)), itertools.combinations(range(count), 2)):
        yield [write for i, write in enumerate(writes) if i not in missing]
    for _ in range(by_chance):
        yield [write for write in writes if rand.randrange(2)]


# ---- what is tried


class Histories:
    """The histories that may stand after a run: the steps before it, None where there was no service yet, and those that it made."""

    def __init__(self, earlier, made, time=None):
        self.earlier, self.made = earlier, made
        self.times = [*EARLIER_TIMES, time]
        self.next = {len(steps): self.longer(steps) for steps in (earlier, made) if steps is not None}

    def longer(self, steps):
        """The store of these steps and the next one."""
        return service_of("power", [*steps, NEXT], times=[*self.times[: len(steps)], None])

    def store(self):
        """The store of the steps that were made."""
        return service_of("power", self.made, times=self.times[: len(self.made)])

    def go_on(self, room, is_told):
        """Appends a step, and proves each step; raises Wrong where one that was told isn't there, or where it doesn't go on."""
        status, line, _ = room.run("append", "d", "next")
        if self.earlier is None and not is_told and (status, line) == (8, b"store Blank\n"):
            room.expect("init d power", 0, service_of("power", []).anchor(0))
            status, line, _ = room.run("append", "d", "next")
        allowed = [self.made] if is_told or self.earlier is None else [self.earlier, self.made]
        store = next((self.next[len(steps)] for steps in allowed if line == self.next[len(steps)].anchor(len(steps) + 1)), None)
        if status or not store:
            raise Wrong(f"  timeweave append d next\n  wanted one more step than {[len(steps) for steps in allowed]}\n  got    {status} {line!r}")
        last = len(store.line.steps)
        for step in range(1, last + 1):
            count = len(store.line.events(step))
            for index in {0, count - 1} if count else ():
                room.expect(f"prove d event {step} {index}", 0, proof_bytes(store.line, step, index, last))


def prepared(room, size):
    """Prepares the folder of a room for an init, or an append of so many events; answers its words and the histories that may stand."""
    (room.folder / "d").mkdir()
    room.put("next", events_to_bytes(NEXT))
    if size is None:
        return "init d power", Histories(None, [])
    room.expect("init d power", 0, service_of("power", []).anchor(0))
    for step, events in enumerate(EARLIER, 1):
        room.put("e", events_to_bytes(events))
        time = EARLIER_TIMES[step - 1]
        room.expect(append_words("e", time), 0, service_of("power", EARLIER[:step], times=EARLIER_TIMES[:step]).anchor(step))
    events = [bytes([k % 256]) * 60 for k in range(size)]
    room.put("e", events_to_bytes(events))
    time = TIMES.get(size)
    return append_words("e", time), Histories(EARLIER, [*EARLIER, events], time)


def recorded(program, size, inject=()):
    """The histories and the device calls of a run."""
    with tempfile.TemporaryDirectory() as folder:
        room = Room(program, folder)
        words, histories = prepared(room, size)
        path = room.folder / "d/timeline.tw"
        before = path.read_bytes() if path.exists() else None
        status, line, calls = calls_of(program, words.split(), folder, inject=inject)
        wanted = histories.store().anchor(len(histories.made))
        if (status, line) != (0, wanted):
            raise Wrong(f"  timeweave {words}\n  wanted {(0, wanted)}\n  got    {(status, line)}")
        return histories, Device(before, calls, os.path.realpath(path))


def tried(program, histories, images):
    """Runs the program on each image, in a folder of its own; tells what was wrong with those that were."""
    with tempfile.TemporaryDirectory() as folder:
        room = Room(program, folder)
        (room.folder / "d").mkdir()
        room.put("next", events_to_bytes(NEXT))
        path = room.folder / "d/timeline.tw"
        for image, is_whole in images:
            path.unlink(missing_ok=True)
            if image is not None:
                path.write_bytes(image)
            try:
                histories.go_on(room, is_whole)
            except Wrong as wrong:
                yield str(wrong)


def some_images(device, size):
    """The images that the acceptance run tries."""
    rand = random.Random(f"power {size}")
    images = list(device.images(rand, BY_CHANCE_IN_THE_GATE))
    return images if len(images) <= IN_THE_GATE else rand.sample(images, IN_THE_GATE)


def name_of(size):
    return "init" if size is None else f"an append of {size} event{'s' * (size > 1)}{' at a time' * (size in TIMES)}"
