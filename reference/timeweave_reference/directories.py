"""The commands with a folder over folders of this machine: a store is the file `timeline.tw` in its folder, byte for byte as the program leaves it.

The manual page of `timeweave`, docs/timeweave.1. A store is read whole and made anew in memory; where a command changes it, the new file takes the old one's place
when it is whole and on the disk.
"""

from __future__ import annotations

import fcntl
import os
import tempfile
from contextlib import ExitStack, contextmanager
from pathlib import Path
from typing import Dict, Iterator, Sequence

from .answers import ACCEPTED, BAD_STORE, Answer, answer_text
from .commands import Files
from .folders import NO_FOLDER, OF_FOLLOWERS, Folders, Store
from .reopening import BadPage, read_stored
from .services import refuse_unless
from .stores import NoStore

STORE = "timeline.tw"
"""The name of a store's file."""

WRITES = ("init", "append", "receive", "watch", "offer")
"""The commands that may change a store."""

MAKES = ("init", "watch")
"""The commands that make a store where there is none: one that can't be read is taken as well."""


@contextmanager
def locked(path: Path, writes: bool) -> Iterator[None]:
    """Holds the advisory lock of the store's file, as the program does: alone where the command writes, else together with others that read."""
    flags = os.O_RDWR | os.O_CREAT if writes else os.O_RDONLY
    number = os.open(path, flags | os.O_CLOEXEC, 0o666)
    try:
        fcntl.flock(number, fcntl.LOCK_EX if writes else fcntl.LOCK_SH)
        yield
    finally:
        os.close(number)


def read_file(path: Path, command: str) -> Store:
    """The store in a file; None where there is none. Raises `NoStore` or `BadPage`, or `Refused` where one is to be made."""
    try:
        return read_stored(path.read_bytes(), command in OF_FOLLOWERS)
    except (NoStore, BadPage) as bad:
        if isinstance(bad, NoStore) and bad.slot is None:
            return None
        refuse_unless(command not in MAKES, "Taken")
        raise


def renew_if_other(path: Path, data: bytes) -> None:
    """Puts a new file in the place of the old one, once it is whole and on the disk; one of the same bytes stays. What stood behind a longer one's stays."""
    old = path.read_bytes()
    data += old[len(data) :]
    if old == data:
        return
    number, name = tempfile.mkstemp(prefix=f".{STORE}.", dir=path.parent)
    try:
        with os.fdopen(number, "wb") as file:
            file.write(data)
            file.flush()
            os.fsync(file.fileno())
        os.chmod(name, path.stat().st_mode & 0o777)
        os.replace(name, path)
    except OSError:
        os.unlink(name)
        raise
    folder = os.open(path.parent, os.O_RDONLY | os.O_DIRECTORY)
    try:
        os.fsync(folder)
    finally:
        os.close(folder)


class OnDisk(Dict[str, Store]):
    """The stores of the folders of this machine, each read when it is asked for, under its file's lock, until `close`."""

    def __init__(self, command: str) -> None:
        super().__init__()
        self.command, self.held = command, ExitStack()

    def __contains__(self, folder: object) -> bool:
        """Whether there is such a folder."""
        return isinstance(folder, str) and os.path.isdir(folder)

    def __getitem__(self, folder: str) -> Store:
        """The folder's store, or None where it has none; raises `NoStore`, `BadPage` or `OSError`."""
        path = Path(folder) / STORE
        if self.command not in WRITES and not path.exists():
            return None
        self.held.enter_context(locked(path, self.command in WRITES))
        self[folder] = store = read_file(path, self.command)
        return store


def answer(words: Sequence[str], files: Files) -> Answer:
    """What is answered of words that name a folder, with the files that they name; the folder's store is then as the command leaves it."""
    folders, stores = Folders({}), OnDisk(words[0])
    folders.stores = stores
    try:
        found = folders.answer(words, files)
        after = stores.get(words[1])
        if words[0] in WRITES and found.status == ACCEPTED and after is not None:
            renew_if_other(Path(words[1]) / STORE, after.file())
        return found
    except NoStore as bad:
        return answer_text(BAD_STORE, f"store NotAStore {bad.slot}\n")
    except BadPage as bad:
        return answer_text(BAD_STORE, f"store BadPage {bad.number}\n")
    except OSError:
        return NO_FOLDER
    finally:
        stores.held.close()
