"""Rooms for the acceptance cases of weft: a folder of one's own, weft run in a process of its own, and faults at each of its writes."""

import os
import shutil
import signal
import subprocess
from pathlib import Path

from harness.places import LONGEST, TOP
from harness.rooms import Wrong
from network import faults, forked
from timeweave_reference.events_files import events_to_bytes

from weft import files
from weft import words as weft_words

# (all words are loaded once, and each run is forked from this process)
for word in weft_words.WORDS:
    weft_words.module_of(word)

# Of how many faults one is tried, besides the share of each case, where a machine is slow.
SHARE = int(os.environ.get("WEFT_SHARE", "1"))


# How a run of weft ended: its status, negative of a signal, and what it wrote.
Done = forked.Ended


def events_file(*events):
    """An events file of these events."""
    return events_to_bytes(events)


class Loom:
    """A folder in which weft and the program run, with lines, keys and settings of its own."""

    def __init__(self, room):
        self.folder, self.program = Path(room.folder), os.path.abspath(room.program)
        self.env = {
            "PATH": os.environ["PATH"], "TIMEWEAVE_PROGRAM": self.program, "HOME": str(self.folder), "WEFT_KEPT": str(self.folder / "kept"),
            "WEFT_SIGNERS": str(self.folder / "signers"), "TMPDIR": str(self.folder / "tmp"), "LC_ALL": "C.UTF-8",
        }  # fmt: skip
        library = TOP / "lib/libtimeweave.so"
        if library.exists():
            self.env["TIMEWEAVE_LIBRARY"] = str(library)
        (self.folder / "tmp").mkdir(exist_ok=True)
        (self.folder / "kept").touch(0o600)

    def put(self, name, data):
        """Puts a file there."""
        path = self.folder / name
        path.parent.mkdir(parents=True, exist_ok=True)
        path.write_bytes(data if isinstance(data, bytes) else data.encode())
        return path

    def read(self, name):
        """A file's bytes."""
        return (self.folder / name).read_bytes()

    def timeweave(self, *words, status=0):
        """Runs the program; answers its output."""
        done = subprocess.run([self.program, *words], cwd=self.folder, capture_output=True, timeout=LONGEST)
        if status is not None and done.returncode != status:
            raise Wrong(f"  timeweave {' '.join(words)}: {done.returncode} {done.stdout[:200]}")
        return done.stdout

    def make(self, outputs):
        """Makes files of what the program tells: of each name with the words that tell it."""
        for name, words in outputs.items():
            self.put(name, self.timeweave(*words.split()))

    def service(self, name, *steps, folder=None):
        """Makes a service with a step of each of these lists of events."""
        (self.folder / (folder or name)).mkdir()
        self.timeweave("init", folder or name, name)
        for events in steps:
            self.append(folder or name, *events)

    def append(self, folder, *events):
        """Appends a step of these events, and answers its line."""
        self.put("tmp/events", events_file(*events))
        return self.timeweave("append", folder, "tmp/events").decode()

    def key(self, name):
        """Makes a key."""
        if not (self.folder / f"{name}.key").exists():
            subprocess.run(["ssh-keygen", "-q", "-t", "ed25519", "-N", "", "-C", name, "-f", self.folder / f"{name}.key"], check=True)
        return f"{name}.key"

    def run(self, *words, patch=None, **env):
        """Runs weft in a process of its own, forked from this one; `patch` is called there first."""
        settings = {name: str(value) for name, value in {**self.env, **env}.items() if value is not None}
        done = forked.run(self.folder, settings, [str(word) for word in words], patch, LONGEST)
        if done.status == -signal.SIGALRM:
            raise Wrong(f"  a run of weft took longer than {LONGEST} seconds")
        return done

    def expect(self, words, status, *texts, absent=(), **settings):
        """Runs weft; what it wrote has these texts, and it ended with this status. Nothing of it is raw or a traceback."""
        words = words.split() if isinstance(words, str) else words
        done = self.run(*words, **settings)
        both = done.out + done.err
        if done.status != status or not all(text in both for text in texts) or any(text in both for text in absent):
            raise Wrong(f"  weft {' '.join(map(str, words))}\n  wanted {status} and {texts}, without {absent}\n  got    {done.status} {done.out!r} {done.err!r}")
        expect_plain(done, words)
        return done


def expect_plain(done, words):
    """Nothing raw reached the terminal, and no traceback."""
    both = done.out + done.err
    raw = [c for c in both if c != "\n" and not c.isprintable()]
    if raw or "Traceback" in both:
        raise Wrong(f"  weft {' '.join(map(str, words))[:200]!r} wrote {raw[:5]!r} raw, or a traceback\n  {both[-1500:]!r}")


# ---- faults


def faulty(at, kind, counter=None):
    """What makes the process fail at its call of this number, from 1 on, of those that write files or run the program: `before` kills it there,
    `half` amid a write, `ENOSPC` and `EIO` let the call fail. The number of calls goes to the file `counter`, if one is named."""
    return lambda: faults.put_in(faults.Fault(kind, at), counter=counter)


def reseal(folder):
    """Lets services and boxes that a test has copied into a folder count as being where they were written: else they would be told as copies."""
    for path in [*folder.glob("*/.turn"), *folder.glob("*/.seal")]:
        path.unlink()
    for path in folder.rglob("*.seal"):
        _, _, line = path.read_text().partition(" ")
        files.renew(path, lambda identity, line=line: f"{identity} {line}".encode())
    for path in folder.rglob("*.look"):
        since = path.read_text().split()[0]
        files.renew(path, lambda identity, since=since: f"{since} {identity} none\n".encode())


def copied(loom, *names):
    """The bytes of all files of these names, which may be folders, and what brings them back."""
    kept = loom.folder / "tmp/saved"
    shutil.rmtree(kept, ignore_errors=True)
    kept.mkdir()
    for path in loom.folder.iterdir():
        if path.name != "tmp":
            (shutil.copytree if path.is_dir() else shutil.copy2)(path, kept / path.name)

    def back():
        for path in loom.folder.iterdir():
            if path.name != "tmp":
                shutil.rmtree(path) if path.is_dir() and not path.is_symlink() else path.unlink()
        for path in kept.iterdir():
            (shutil.copytree if path.is_dir() else shutil.copy2)(path, loom.folder / path.name)
        reseal(loom.folder)

    return back


def each_fault(loom, words, check, kinds=("before", "half", "ENOSPC", "EIO")):
    """Runs weft with a fault at each of its calls, from the same files each time, and calls `check` with what was done after each; answers how many
    faults there were. (Killed behind a call it leaves what it leaves in front of the next one.)"""
    back, total = copied(loom), 0
    for kind in kinds:
        counter = loom.folder / "tmp/count"
        counter.unlink(missing_ok=True)
        back()
        loom.run(*words, patch=faulty(0, kind, counter))
        for at in range(1, int(counter.read_text()) + 1, SHARE):
            back()
            done = loom.run(*words, patch=faulty(at, kind))
            told = f"  {kind} at call {at} of weft {' '.join(map(str, words))}: {done}"
            if done.status == 99 or "Traceback" in done.err or (done.status != -signal.SIGKILL and kind == "before"):
                raise Wrong(told)
            if kind in ("ENOSPC", "EIO") and done.status in (1, 2, 3, 9, 70):
                raise Wrong(f"{told}\n  it doesn't say that the device failed")
            total += 1
            check(told)
    back()
    return total
