"""One run at a time: advisory locks, as of flock(2). They end with the process, whatever ends it."""

from __future__ import annotations

import fcntl
import os
import time
from contextlib import contextmanager, suppress
from typing import Iterator

from weft.deciding.keeping import is_anothers
from weft.files import PRIVATE, AnyPath, opened, unwritten
from weft.statuses import Status
from weft.texts import name_of
from weft.trouble import Trouble

PAUSE = 0.05


@contextmanager
def held(path: AnyPath, wait: float, of: AnyPath) -> Iterator[None]:
    """Holds the lock of this file, which is made where it isn't there, for this user alone: whoever may open it can hold it. Waits so
    many seconds for another run that has it, and then raises Trouble."""
    try:
        number = os.open(path, os.O_RDWR | os.O_CREAT | os.O_CLOEXEC | os.O_NOFOLLOW, PRIVATE)
    except OSError as failure:
        raise unwritten(path, failure) from None
    try:
        expect_own(number, path, of)
        wait_for(number, fcntl.LOCK_EX, wait, f"another run of weft is at work on {name_of(of)}")
        yield
    finally:
        os.close(number)


def expect_own(number: int, path: AnyPath, of: AnyPath) -> None:
    """Raises Trouble where a lock is another user's, who could hold it for good: neither this one's nor that of whose things it is."""
    owners = [os.geteuid()]
    with suppress(OSError):
        owners.append(os.stat(of).st_uid)
    if is_anothers(os.fstat(number).st_uid, owners):
        told = f"{name_of(path)}, the lock of {name_of(of)}, is another user's, who could hold it for good"
        raise Trouble(Status.DISK, told, "Take it away, or use a folder in which nobody else may write.")


@contextmanager
def reading(path: AnyPath, wait: float, of: AnyPath) -> Iterator[None]:
    """Holds the lock of a store, which has to be there, as one that reads it: programs that read it go on, and none writes it. Waits so many seconds for one that
    does, and then raises Trouble."""
    number = opened(path)
    try:
        wait_for(number, fcntl.LOCK_SH, wait, f"a program is writing the store in {name_of(of)}")
        yield
    finally:
        os.close(number)


def wait_for(number: int, kind: int, wait: float, told: str) -> None:
    """Takes the lock of an open file, or raises Trouble once so many seconds are gone."""
    until = time.monotonic() + wait
    while not taken(number, kind):
        if time.monotonic() >= until:
            raise Trouble(Status.BUSY, told, "Run it again once that one has ended.")
        time.sleep(PAUSE)


def taken(number: int, kind: int) -> bool:
    """Whether the lock could be had now."""
    try:
        fcntl.flock(number, kind | fcntl.LOCK_NB)
    except BlockingIOError:
        return False
    return True
