"""Rooms: folders in which the program runs, each with what it answers and the bytes of its store."""

import contextlib
import random
import shutil
import subprocess
import tempfile
from pathlib import Path

from harness import seen
from harness.places import LONGEST
from timeweave_reference.events_files import events_to_bytes
from timeweave_reference.services import service_of
from timeweave_reference.tree_pages import PAGE

# The cases that couldn't be run here, each with what it needs.
SKIPPED = []


class Wrong(Exception):
    """The program did something else."""


class Skipped(Exception):
    """The case needs what isn't to be had here."""


def needs(program, package):
    """The path of a program, without which the case is skipped."""
    path = shutil.which(program)
    if not path:
        raise Skipped(f"there is no {program} (Debian: {package})")
    return path


class Room:
    """A folder with the service `d` of it, and the program that runs there."""

    def __init__(self, program, folder):
        self.program = program
        self.folder = Path(folder)

    def put(self, name, data):
        (self.folder / name).write_bytes(data)

    def store(self):
        return (self.folder / "d/timeline.tw").read_bytes()

    def run(self, *words, limit=None, to=subprocess.PIPE, **settings):
        settings = {"stdin": subprocess.DEVNULL, "cwd": self.folder} | settings
        done = subprocess.run(
            [self.program, *words], stdout=to, stderr=subprocess.PIPE, preexec_fn=limit, timeout=LONGEST, **settings,
        )
        seen.note(done.returncode, done.stdout or b"")
        return done.returncode, done.stdout or b"", done.stderr

    def expect(self, words, status, output, **settings):
        found = self.run(*words.split(), **settings)
        if found != (status, output, b""):
            raise Wrong(f"  timeweave {words}\n  wanted {status} {output!r}\n  got    {found}")

    def expect_store(self, data):
        found = self.store()
        if found != data:
            place = next((i for i, (a, b) in enumerate(zip(found, data)) if a != b), min(len(found), len(data)))
            raise Wrong(f"  the store has {len(found)} bytes, and {len(data)} are wanted; byte {place % PAGE} of page {place // PAGE} is the first other one")

    def made(self, name, steps, times=None):
        """Makes the service `d` and its steps, each at its time or at none, and answers its store."""
        (self.folder / "d").mkdir()
        store = service_of(name, steps, times=times)
        self.expect(f"init d {name}", 0, store.anchor(0))
        for step, events in enumerate(steps, 1):
            self.put("e", events_to_bytes(events))
            self.expect(append_words("e", store.line.times[step - 1]), 0, store.anchor(step))
        return store


def append_words(file, time=None):
    """The words that append the events of a file to the service `d`, at this time or at none."""
    return f"append d {file}" if time is None else f"append d {file} {time}"


def case(work, group="steps"):
    """The case of this work, which raises Wrong where the program does something else."""

    def check(program):
        with tempfile.TemporaryDirectory() as folder:
            try:
                work(Room(program, folder))
            except Wrong as wrong:
                return str(wrong)
            except subprocess.TimeoutExpired:
                return f"  it ran for longer than {LONGEST} seconds"
            except Skipped as missing:
                SKIPPED.append(f"{group}: {first_line(work)}: {missing}")
            except subprocess.SubprocessError as failure:
                return f"  it couldn't be run: {failure}"
        return None

    return {"name": f"{group}: {first_line(work)}", "check": check}


def first_line(work):
    return (work.__doc__ or work.__name__).splitlines()[0]


def some_steps(seed, count):
    """Steps of none to many events, some of which need several pages."""
    rand = random.Random(seed)
    sizes = (0, 0, 1, 3, 40, 1000, 1024)
    return [[rand.randbytes(rand.choice(sizes)) for _ in range(rand.choice((0, 1, 2, 5, 30)))] for _ in range(count)]


def checked(group, checks):
    """The cases of checks that need no room, each with its name."""
    return [{"name": f"{group}: {name}", "check": check} for name, check in checks.items()]


def expect(found, wanted, what):
    if found != wanted:
        raise Wrong(f"  {what}\n  wanted {wanted}\n  got    {found}")


def run_apart(room, *words, **settings):
    """Runs the program in a root or with a mount of its own; the case is skipped where that isn't to be had."""
    try:
        return room.run(*words, **settings)
    except subprocess.SubprocessError as failure:
        if isinstance(failure, subprocess.TimeoutExpired):
            raise
        raise Skipped("it needs root, or a user namespace, to change the root or to mount") from failure


def restore(path, data):
    """Puts the file back as it was, or takes it away where it wasn't there."""
    if data is None:
        path.unlink(missing_ok=True)
    else:
        path.write_bytes(data)


# ---- programs that run at one time


def started(room, *words):
    return subprocess.Popen([room.program, *words], cwd=room.folder, stdout=subprocess.PIPE, stderr=subprocess.PIPE, stdin=subprocess.DEVNULL)


def ended(running):
    output, errors = running.communicate(timeout=LONGEST)
    seen.note(running.returncode, output)
    return running.returncode, output, errors


@contextlib.contextmanager
def locked(room, how):
    """Holds the lock of the store, as another program would."""
    flock = needs("flock", "util-linux")
    with subprocess.Popen([flock, how, room.folder / "d/timeline.tw", "-c", "echo; read x"], stdin=subprocess.PIPE, stdout=subprocess.PIPE) as holder:
        holder.stdout.readline()
        yield
        holder.communicate(b"\n")


def waits(running):
    """Whether a program is still waiting after a moment."""
    with contextlib.suppress(subprocess.TimeoutExpired):
        running.wait(0.3)
        return False
    return True


# ---- stores with other bytes


def changed_page(data, page, place, new):
    """The bytes with others at this place of a page."""
    at = page * PAGE + place
    return data[:at] + new + data[at + len(new) :]


def four_steps(room):
    """Makes a service of four steps of one event each; their pages are 5, 7, 9 and 11, those of their events 4, 6, 8 and 10."""
    return room.made("page", [[b"a"], [b"b"], [b"c"], [b"d"]])
