"""A service in a folder, as the program answers of it. No page of a store is read here."""

from __future__ import annotations

import os
import tempfile
from contextlib import contextmanager
from pathlib import Path
from typing import Iterator, NamedTuple, Optional

from weft import files, program
from weft.files import AnyPath, write_all
from weft.lines import Line, checked_name, read_line
from weft.program import WAITED, Answer, Begun
from weft.statuses import Status
from weft.texts import name_of
from weft.trouble import Trouble

NO_SUCH_INDEX = 2**32 - 1
OPEN_FILES = "/proc/self/fd"


class Last(NamedTuple):
    """The last line of a service, and its message since step 0, of a service without steps None."""

    line: Line
    message: Optional[bytes]


def step_0(name: str) -> Line:
    """The line of step 0 of the service of this name, as `init` prints it in a folder of its own."""
    with tempfile.TemporaryDirectory(prefix="weft-") as folder:
        line = read_line(program.done(program.run("init", folder, name), folder).decode().strip())
    if line is None:
        raise Trouble(Status.BUG, f"timeweave printed no line of step 0 of {name}")
    return line


@contextmanager
def in_memory(data: bytes) -> Iterator[int]:
    """The number of an open file of these bytes, which lies on no disk."""
    number = os.memfd_create("weft")
    try:
        write_all(number, data)
        yield number
    finally:
        os.close(number)


class Store:
    """The service whose store lies in a folder."""

    def __init__(self, folder: AnyPath):
        self.folder = Path(folder)
        self.path = os.fspath(folder)

    @property
    def file(self) -> Path:
        """The file of the store."""
        return self.folder / files.STORE

    def ask(self, *words: str) -> Answer:
        """Runs a command on the folder."""
        return program.run(words[0], self.path, *words[1:])

    def hand(self, command: str, data: bytes, *words: str) -> Answer:
        """Runs a command on the folder and on a file of these bytes: in memory, and where open files have no paths, as in a bare chroot, in a temporary one."""
        if os.path.isdir(OPEN_FILES):
            with in_memory(data) as number:
                return program.run(command, self.path, f"{OPEN_FILES}/{number}", *words, handles=[number])
        with tempfile.NamedTemporaryFile(prefix="weft-") as file:
            file.write(data)
            file.flush()
            return program.run(command, self.path, file.name, *words)

    def trouble(self, answer: Answer) -> Trouble:
        """The sentence of a command that failed."""
        return program.trouble(answer, name_of(self.path))

    def done(self, *words: str) -> bytes:
        """The output of a command; raises Trouble where it fails."""
        answer = self.ask(*words)
        if answer.status:
            raise self.trouble(answer)
        return answer.output

    def init(self, name: str) -> None:
        """Makes the service, where there is none in the folder."""
        answer = self.ask("init", checked_name(name))
        if answer.status and answer.words[:2] != ["refused", "Taken"]:
            raise self.trouble(answer)

    def last(self) -> Last:
        """The last line, as the service's message tells it; where there is no step, that of step 0."""
        from weft import formats

        answer = self.ask("thread", "0")
        if answer.words == ["refused", "NoStep", "0"]:
            history = self.done("export")
            return Last(step_0(history[4:20].rstrip(b"\0").decode("ascii", "replace")), None)
        if answer.status:
            raise self.trouble(answer)
        message = formats.read_message(answer.output)
        if message is None:
            raise Trouble(Status.BUG, f"timeweave told no message of {name_of(self.path)}")
        return Last(formats.line_of(message), answer.output)

    def begin_append(self, time: Optional[int]) -> Optional[Begun]:
        """A run of the program that appends a step once it is handed its events; None where open files have no paths."""
        return Begun("append", self.path, WAITED, *([] if time is None else [str(time)])) if os.path.isdir(OPEN_FILES) else None

    def append(self, events: bytes, time: Optional[int]) -> Line:
        """Appends a step of the events of an events file, and answers its line. Where the time is refused since an earlier step claims a
        later one, raises ClockBack, and no step is made."""
        return self.appended(self.hand("append", events, *([] if time is None else [str(time)])))

    def appended(self, answer: Answer) -> Line:
        """The line of a step that the program answers to have appended."""
        if answer.words[:2] == ["refused", "ClockBack"]:
            raise ClockBack(self.trouble(answer), int(answer.words[2]))
        if answer.status:
            raise self.trouble(answer)
        line = read_line(answer.text.strip())
        if line is None:
            raise Trouble(Status.BUG, "timeweave told no line of the step that it appended")
        return line

    def receive(self, message: bytes) -> Answer:
        """Receives a message, and answers the receipt or the refusal."""
        return self.hand("receive", message)

    def history_size(self) -> Optional[int]:
        """How many bytes the file of its history has; None where it would be longer than one may be. Raises Trouble where that couldn't be told: a damaged store,
        or want of memory, makes no history long."""
        answer, size = program.counted("export", self.path)
        if answer.words[:2] == ["refused", "TooLong"]:
            return None
        if answer.status:
            raise self.trouble(answer)
        return size

    def count(self, step: int, top: int) -> int:
        """How many events a step has."""
        answer = self.ask("prove", "event", str(step), str(NO_SUCH_INDEX), str(top))
        if answer.words[:2] != ["refused", "NoEvent"]:
            raise self.trouble(answer)
        return int(answer.words[2])


class ClockBack(Exception):
    """A time is below the greatest one so far, which is this number of seconds."""

    def __init__(self, trouble: Trouble, greatest: int):
        super().__init__(trouble.sentence)
        self.trouble, self.greatest = trouble, greatest
