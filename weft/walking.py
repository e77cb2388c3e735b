"""What is in a folder: a walk through all its files, in the order of paths, that reads those of which nothing is known.

Files are read by several threads at a time; what they answer is handed on in the order of the walk, and no more waits than a few hundred."""

from __future__ import annotations

import functools
import hashlib
import os
import stat
import time
from collections import deque
from concurrent.futures import Future, ThreadPoolExecutor
from dataclasses import dataclass
from pathlib import Path
from typing import Callable, Iterable, Iterator, NamedTuple, Optional

from weft import files
from weft.deciding import gone, known
from weft.deciding.gone import Fate, Kind, State
from weft.deciding.known import Known
from weft.entries import event_of
from weft.formats import MOST_EVENT
from weft.output import complain
from weft.progress import Progress
from weft.texts import name_of
from weft.statuses import Status
from weft.trouble import Trouble

PIECE = 1 << 20
TRIES, PAUSE = 2, 0.025
# The most bytes of a file that is logged: a file without content may be said to have many more.
MOST_FILE = 1 << 40
# What stands beside a service of weft record, and beside no log.
OF_RECORDS = (".records", ".keys")
MOST_WAITING, MOST_FOLDERS, MOST_KINDS = 512, 128, 10_000


class Place(NamedTuple):
    """A folder of the system, whatever path leads to it: its device and number."""

    device: int
    number: int


@dataclass
class Entered:
    """A folder that is open: its number, its path from the logged folder on, the names in it that are still to be looked at, and how many of its files are
    still to be read."""

    number: int
    path: bytes
    names: Iterator[bytes]
    unread: int = 0
    is_left: bool = False


class File(NamedTuple):
    """A regular file: its open folder, its name there, its path from the logged folder on, and its state when the walk came to it."""

    folder: Entered
    name: bytes
    path: bytes
    state: State


class Content(NamedTuple):
    """What was read of a file: its digest in hexadecimal, its state then, and when reading began, in nanoseconds since 1970."""

    digest: bytes
    state: State
    began: int


class Seen(NamedTuple):
    """What a look came to at a path: what was known of it, None of a new one; what is known now, None where it wasn't found or was left out; what became of
    it then; and whether it was read."""

    path: bytes
    before: Optional[Known]
    now: Optional[Known]
    fate: Optional[Fate] = None
    is_read: bool = False


Waiting = Callable[[], Seen]


def place_of(found: os.stat_result) -> Place:
    """The place of a folder."""
    return Place(found.st_dev, found.st_ino)


def state_of(found: os.stat_result) -> State:
    """The state of a file."""
    return State(found.st_dev, found.st_ino, found.st_size, found.st_mtime_ns, found.st_ctime_ns)


def kind_of(mode: int) -> Kind:
    """What has this mode."""
    return Kind.FILE if stat.S_ISREG(mode) else Kind.FOLDER if stat.S_ISDIR(mode) else Kind.LINK if stat.S_ISLNK(mode) else Kind.OTHER


def kind_at(path: bytes) -> Kind:
    """What has this path; a link at its end isn't followed."""
    try:
        return kind_of(os.lstat(path).st_mode)
    except FileNotFoundError:
        return Kind.NOTHING
    except OSError:
        return Kind.UNTOLD


class Look:
    """A look at all files of a folder, but for the log itself where it lies there. No link is followed, also none that comes while it
    goes on: each folder is opened in the one above it. A file of which what is known still holds isn't read, unless all are."""

    def __init__(self, folder: Path, service: Path, is_full: bool = True, workers: Optional[int] = None):
        self.root, self.is_full = os.fsencode(folder), is_full
        self.workers = workers or len(os.sched_getaffinity(0))
        self.left_out: set[bytes] = set()
        self.kinds: dict[bytes, Kind] = {}
        self.open = 0
        self.parent = place_of(os.stat(service.parent))
        self.store = place_of(os.stat(service)) if files.is_there(service) else None
        self.own_names = {os.fsencode(service.name + suffix) for suffix in files.OWN_ENDS if suffix not in OF_RECORDS}

    def look(self, records: Iterable[Known]) -> Iterator[Seen]:
        """Looks: what is in the folder beside what is known of it, in the order of paths."""
        progress = Progress("reading files:", None)
        waiting: deque[Waiting] = deque()
        with ThreadPoolExecutor(self.workers) as pool:
            for file, before in known.pair(self.walk(), records):
                waiting.append(self.begin(pool, file, before))
                while waiting and (len(waiting) >= MOST_WAITING or self.open >= MOST_FOLDERS):
                    yield waiting.popleft()()
                progress.add(file is not None)
            while waiting:
                yield waiting.popleft()()
        progress.end()

    def begin(self, pool: ThreadPoolExecutor, file: Optional[File], before: Optional[Known]) -> Waiting:
        """What answers what was seen at a path, once its file is read where it is to be."""
        if file is None:
            assert before is not None
            lost = Seen(before.path, before, None, self.fate(before.path))
            return lambda: lost
        if before is not None and known.may_skip(before, file.state, self.is_full):
            same = Seen(file.path, before, before._replace(lost=known.Lost.NO))
            return lambda: same
        if len(event_of(b"0" * 64, file.path)) > MOST_EVENT:
            self.leave_out(file.path, "its path is too long for an event")
            left = Seen(file.path, before, None, Fate.LEFT_OUT)
            return lambda: left
        file.folder.unread += 1
        return functools.partial(self.end, file, before, pool.submit(read, file))

    def end(self, file: File, before: Optional[Known], reading: Future[Optional[Content]]) -> Seen:
        """What was seen at the path of a file that was read."""
        content = self.content(file, reading)
        file.folder.unread -= 1
        self.close(file.folder)
        if content is None:
            return Seen(file.path, before, None, Fate.LEFT_OUT if before is None else self.fate(file.path))
        return Seen(file.path, before, Known(file.path, content.digest, known.mark_read(content.state, content.began)), None, True)

    def content(self, file: File, reading: Future[Optional[Content]]) -> Optional[Content]:
        """What was read of a file; None where it isn't there any more, or is left out."""
        try:
            content = reading.result()
        except Trouble as trouble:
            if kind_at(os.path.join(self.root, file.path)) is not Kind.NOTHING:
                self.leave_out(file.path, trouble.sentence)
        except OSError as failure:
            self.leave_out(file.path, f"it can't be read: {os.strerror(failure.errno or 0)}")
        else:
            if content is None:
                self.leave_out(file.path, "it was changed while it was read, twice; what was read may never have been its content")
            return content
        return None

    def leave_out(self, path: bytes, why: str) -> None:
        """Leaves out a file, or a folder with all that is below it, and tells it."""
        self.left_out.add(path)
        complain(f"left out: {name_of(os.fsdecode(path))}: {why}.")

    def walk(self) -> Iterator[File]:
        """All regular files that can be looked at."""
        first = self.enter(None, self.root, b".")
        entered = [] if first is None else [first]
        try:
            while entered:
                folder = entered[-1]
                name = next(folder.names, None)
                if name is None:
                    self.leave(entered.pop())
                    continue
                path = folder.path + b"/" + name
                kind, state = self.kind(folder, name, path)
                if kind is Kind.FILE and state is not None:
                    yield File(folder, name, path, state)
                below = self.enter(folder.number, name, path) if kind is Kind.FOLDER else None
                entered += [] if below is None else [below]
        finally:
            for folder in entered:
                self.leave(folder)

    def leave(self, folder: Entered) -> None:
        """The walk is through a folder; it is closed once its files are read."""
        folder.is_left = True
        self.close(folder)

    def close(self, folder: Entered) -> None:
        """Closes a folder that is needed no more."""
        if folder.is_left and not folder.unread:
            os.close(folder.number)
            self.open -= 1

    def enter(self, above: Optional[int], name: bytes, path: bytes) -> Optional[Entered]:
        """Opens a folder and lists it; None where it is that of the store, isn't there any more, or is left out."""
        if len(event_of(b"0" * 64, path + b"/x")) > MOST_EVENT:
            self.leave_out(path, "its path is too long for an event")
            return None
        number = None
        try:
            number = os.open(name, os.O_RDONLY | os.O_DIRECTORY | os.O_CLOEXEC | (0 if above is None else os.O_NOFOLLOW), dir_fd=above)
            place = place_of(os.fstat(number))
            names = sorted(os.fsencode(it) for it in os.listdir(number))
            if place == self.store:
                self.tell_strange(path, names)
                names = []
            self.open += 1
            return Entered(number, path, iter([it for it in names if place != self.parent or not self.is_own(it, path + b"/" + it)]))
        except OSError as failure:
            if number is not None:
                os.close(number)
            if above is None or not isinstance(failure, FileNotFoundError):
                self.leave_out(path, f"it can't be read: {os.strerror(failure.errno or 0)}")
            return None

    def tell_strange(self, path: bytes, names: Iterable[bytes], is_first: bool = True) -> None:
        """Tells what stands in the folder of the store, or of a further part of it, and is none of its files."""
        for name in names:
            inside, whole = path + b"/" + name, os.path.join(self.root, path, name)
            if not gone.is_of_store(name, files.OWN_ENDS, is_first):
                self.leave_out(inside, "it lies in the folder of the log itself, of which nothing is logged")
            elif is_first and kind_at(whole) is Kind.FOLDER:
                self.tell_strange(inside, sorted(os.listdir(whole)), False)

    def is_own(self, name: bytes, path: bytes) -> bool:
        """Whether it is a file of the log itself, or one that a run that was killed left of it. The latter is left out: somebody else may have put it there."""
        if not gone.is_left_over(name, self.own_names) or name in files.MADE:
            return name in self.own_names or name in files.MADE
        self.leave_out(path, "it is called as a file is that a run of weft log leaves where it is killed: remove it, or give it another name")
        return True

    def kind(self, folder: Entered, name: bytes, path: bytes) -> tuple[Kind, Optional[State]]:
        """What has this name in a folder, and its state. Where nothing in the folder may be looked at, the whole folder is left out."""
        if folder.path in self.left_out:
            return Kind.UNTOLD, None
        try:
            found = os.stat(name, dir_fd=folder.number, follow_symlinks=False)
            return kind_of(found.st_mode), state_of(found)
        except FileNotFoundError:
            return Kind.NOTHING, None
        except PermissionError:
            self.leave_out(folder.path, "what is in it can't be looked at: Permission denied")
        except OSError as failure:
            self.leave_out(path, f"it can't be looked at: {os.strerror(failure.errno or 0)}")
        return Kind.UNTOLD, None

    def fate(self, path: bytes) -> Fate:
        """What became of a logged file that wasn't found; what is neither gone nor left out already is told."""
        if gone.is_left_out(path, self.left_out):
            return Fate.LEFT_OUT
        kinds = [*(self.kind_of_folder(it) for it in gone.list_folders_above(path)), kind_at(os.path.join(self.root, path))]
        found = gone.judge_missing(kinds)
        if found is Fate.LEFT_OUT:
            self.leave_out(path, "it wasn't found in its folder, and the system doesn't say that it isn't there")
        return found

    def kind_of_folder(self, path: bytes) -> Kind:
        """What has the path of a folder, of the last ones asked for each once; the logged folder itself may be named by a link."""
        if path not in self.kinds:
            if len(self.kinds) >= MOST_KINDS:
                self.kinds.clear()
            self.kinds[path] = Kind.FOLDER if path == b"." else kind_at(os.path.join(self.root, path))
        return self.kinds[path]


def read(file: File) -> Optional[Content]:
    """What is read of a file; None where it was changed while it was read, and while it was read once more. One that was changed less than a minute before is read
    twice: what is written through a mapping meanwhile may leave its times as they are. Raises Trouble where it can't be opened."""
    content = next((it for number in range(TRIES) if (it := read_once(file, PAUSE if number else 0)) is not None), None)
    if content is None or known.is_at_rest(content.state, content.began):
        return content
    again = read_once(file, 0)
    return again if again is not None and again.digest == content.digest else None


def read_once(file: File, pause: float) -> Optional[Content]:
    """What is read of a file after a pause, in seconds; None where it was changed meanwhile."""
    time.sleep(pause)
    digest = hashlib.sha256()
    with os.fdopen(files.opened(os.fsdecode(file.name), follow=False, within=file.folder.number), "rb", buffering=0) as opened:
        before, began = state_of(os.fstat(opened.fileno())), time.time_ns()
        if before.size > MOST_FILE:
            raise Trouble(Status.UNREADABLE, f"it has {before.size:,} bytes, and of more than {MOST_FILE:,} no file is read")
        files.expect_content(opened.fileno(), os.fsdecode(file.name))
        left = before.size + 1
        while left > 0 and (piece := opened.read(min(left, PIECE))):
            digest.update(piece)
            left -= len(piece)
        behind = state_of(os.fstat(opened.fileno()))
        is_still = left and gone.was_still(before, behind, began)
        return Content(digest.hexdigest().encode(), behind, began) if is_still else None
