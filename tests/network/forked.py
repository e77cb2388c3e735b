"""A run of weft in a process of its own, forked from this one, which has weft loaded."""

import os
import signal
import sys
import tempfile
import traceback
from typing import Callable, Mapping, NamedTuple, Optional, Sequence

from weft.main import main as weft_main

FAILED = 99
LONGEST = 600


class Ended(NamedTuple):
    """How a run ended: its status, negative of a signal, and what it wrote."""

    status: int
    out: str
    err: str


def run(folder: str, environment: Mapping[str, str], words: Sequence[str], prepare: Optional[Callable[[], None]] = None, longest: int = LONGEST) -> Ended:
    """Runs weft in a folder, with this environment; `prepare` is called there first. One that takes longer than so many seconds is killed."""
    with tempfile.TemporaryFile() as out, tempfile.TemporaryFile() as err:
        sys.stdout.flush()
        sys.stderr.flush()
        child = os.fork()
        if child == 0:
            os._exit(in_child(folder, environment, words, prepare, (out.fileno(), err.fileno()), longest))
        _, status = os.waitpid(child, 0)
        out.seek(0)
        err.seek(0)
        ended = -os.WTERMSIG(status) if os.WIFSIGNALED(status) else os.WEXITSTATUS(status)
        return Ended(ended, out.read().decode("utf-8", "surrogateescape"), err.read().decode("utf-8", "surrogateescape"))


def in_child(folder: str, environment: Mapping[str, str], words: Sequence[str], prepare: Optional[Callable[[], None]], written: tuple[int, int], longest: int) -> int:
    """What the forked process does; answers its status."""
    try:
        signal.alarm(longest)
        os.chdir(folder)
        os.dup2(os.open(os.devnull, os.O_RDONLY), 0)
        for number, file in enumerate(written, 1):
            os.dup2(file, number)
        sys.stdin, sys.stdout, sys.stderr = open(0, closefd=False), open(1, "w", closefd=False), open(2, "w", closefd=False)
        os.environ.clear()
        os.environ.update(environment)
        tempfile.tempdir = None
        if prepare:
            prepare()
        status = weft_main(list(words))
        sys.stdout.flush()
        sys.stderr.flush()
        return status
    except BaseException:
        os.write(2, traceback.format_exc().encode())
        return FAILED
