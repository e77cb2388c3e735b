"""Faults in a run of weft: it is killed, or what it calls fails."""

import errno
import functools
import os
import resource
import signal
import subprocess
from pathlib import Path
from types import SimpleNamespace
from typing import Callable, NamedTuple, Optional

from network.power import Power

KINDS = ("before", "half", "ENOSPC", "EIO", "program", "full", "power", "store device", "box device")
CALLS = ("write", "fsync", "replace", "unlink", "mkdir")
MOST_PAGES = 12


class Fault(NamedTuple):
    """A fault at the so-manieth call of weft that writes a file or runs the program: it is killed `before` the call or with a `half` of the write done, or
    the call fails with `ENOSPC` or `EIO`; or the `program` is killed; or the `power` is lost. With `full` no file may grow beyond the store; with `store
    device` and `box device` the store's folder or the box lies on a file system that has but a few free pages."""

    kind: str
    at: int

    @property
    def pages(self) -> int:
        """How many pages are free on a small device."""
        return self.at % MOST_PAGES


class Reached:
    """Counts the calls of a process, and knows the one of this number; how many there were so far goes to a file, if one is named."""

    def __init__(self, at: int, counter: Optional[Path]):
        self.at, self.counter, self.count, self.write = at, counter, 0, os.write

    def __call__(self) -> bool:
        """Whether this call is the one."""
        self.count += 1
        if self.counter is not None:
            number = os.open(self.counter, os.O_WRONLY | os.O_CREAT | os.O_TRUNC)
            self.write(number, str(self.count).encode())
            os.close(number)
        return self.count == self.at


def put_in(fault: Fault, size: int = 0, counter: Optional[Path] = None) -> None:
    """Puts a fault of another kind than a small device into this process; the store's file has this size, and the number of calls goes to the file `counter`."""
    is_here, power = Reached(fault.at, counter), Power(fault.at) if fault.kind == "power" else None

    def wrapped(name: str, real: Callable[..., object]) -> Callable[..., object]:
        """A call of the system, with the fault in it."""

        def call(*given: object, **more: object) -> object:
            if (name == "write" and given[0] in (1, 2)) or not is_here():
                return real(*given, **more)
            if fault.kind in ("ENOSPC", "EIO"):
                number = getattr(errno, fault.kind)
                raise OSError(number, os.strerror(number))
            if fault.kind == "half" and name == "write":
                real(given[0], bytes(given[1])[: len(given[1]) // 2])
            if power:
                power.lose()
            os.kill(os.getpid(), signal.SIGKILL)
            return None

        return call

    if fault.kind == "program":
        subprocess.run = killing(is_here)
        return
    if fault.kind == "full":
        resource.setrlimit(resource.RLIMIT_FSIZE, (size, size))
        signal.signal(signal.SIGXFSZ, signal.SIG_IGN)
        subprocess.run = functools.partial(subprocess.run, restore_signals=False)
        return
    for name in CALLS:
        setattr(os, name, wrapped(name, getattr(os, name)))
    if fault.kind == "before":
        subprocess.run = wrapped("run", subprocess.run)


def killing(is_here: Callable[[], bool]) -> Callable[..., object]:
    """A run of programs, one of which is killed while it works."""
    real = subprocess.run

    def run(words: list[str], **more: object) -> object:
        if not is_here():
            return real(words, **more)
        child = subprocess.Popen(words, stdin=subprocess.DEVNULL, stdout=subprocess.DEVNULL, stderr=subprocess.DEVNULL)
        try:
            child.wait(0.001)
        except subprocess.TimeoutExpired:
            child.kill()
            child.wait()
        return SimpleNamespace(returncode=-signal.SIGKILL, stdout=b"", stderr=b"")

    return run
