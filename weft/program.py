"""The proved program `timeweave`: found, run, and its refusals in sentences."""

from __future__ import annotations

import fcntl
import functools
import hashlib
import os
import re
import signal
import subprocess
from contextlib import contextmanager, suppress
from typing import Iterator, NamedTuple, Optional, Sequence

from weft import files
from weft.statuses import Status
from weft.texts import name_of, printable
from weft.trouble import Trouble

ILLEGAL_INSTRUCTION = -4
STOPPING = (-1, -2, -9, -15)
PRIVATE_UMASK = 0o077
PIECE = 1 << 16


class Answer(NamedTuple):
    """What the program answered: its status, and the bytes of its output."""

    status: int
    output: bytes

    @property
    def text(self) -> str:
        """The output as text."""
        return self.output.decode("utf-8", "surrogateescape")

    @property
    def words(self) -> list[str]:
        """The words of the first line of the output."""
        lines = self.text.splitlines()
        return lines[0].split(" ") if lines else []


# What `logic_of` answers of a file that tells no logic.
UNTOLD = "not told"

# What stands in the starter of the second implementation, which answers as the program does and isn't proved.
SECOND = b"NOT PROVED: second implementation"
MOST_STARTER = 4_096


@functools.lru_cache(maxsize=None)
def find_program() -> Optional[str]:
    """The path of the program: what TIMEWEAVE_PROGRAM names, else that of the path. What lies beside a weft that was copied may be a sender's, and so may what is named
    from the current folder on: that is refused."""
    named = os.environ.get("TIMEWEAVE_PROGRAM")
    path = files.which(os.fspath(files.named_by("TIMEWEAVE_PROGRAM") or "") if named and os.path.dirname(named) else named or "timeweave")
    return os.path.realpath(path) if path else None


@functools.lru_cache(maxsize=None)
def is_second(path: Optional[str]) -> bool:
    """Whether the program of this path is the second implementation."""
    if path is None or os.path.getsize(path) > MOST_STARTER:
        return False
    with open(path, "rb") as file:
        return SECOND in file.read(MOST_STARTER)


def refuse_second(is_wanted: bool) -> None:
    """Raises Trouble where the program at hand is the second implementation and it wasn't asked for: what makes steps is to be proved."""
    if is_second(find_program()) and not is_wanted:
        raise Trouble(
            Status.NO_JUDGE,
            f"{name_of(find_program() or '')} is the second implementation, which isn't proved: no step is made by it",
            "Name the proved program by TIMEWEAVE_PROGRAM; to try the second one all the same: --unproved.",
        )


def needed() -> str:
    """The path of the program; raises Trouble where there is none."""
    path = find_program()
    if path is None:
        raise Trouble(
            Status.NO_JUDGE, "the program timeweave isn't on the path", "Install it, or name it by the variable TIMEWEAVE_PROGRAM."
        )
    return path


def run(*words: str, handles: Sequence[int] = ()) -> Answer:
    """Runs the program with these words, and with these open files; a store that it makes may be read by this user alone. Raises Trouble
    where it can't be started or ended by a signal."""
    null, pipe = subprocess.DEVNULL, subprocess.PIPE
    with starting():
        done = subprocess.run([needed(), *words], stdin=null, stdout=pipe, stderr=pipe, check=False, umask=PRIVATE_UMASK, pass_fds=handles)
    expect_answer(done.returncode, done.stderr)
    return Answer(done.returncode, done.stdout)


@contextmanager
def starting() -> Iterator[None]:
    """Raises Trouble where the program can't be started."""
    try:
        yield
    except OSError as failure:
        raise Trouble(Status.NO_JUDGE, f"timeweave can't be started: {os.strerror(failure.errno or 0)}") from None
    except ValueError:
        raise Trouble(Status.USAGE, "a word has a zero byte, and no command takes one") from None


class Begun:
    """A run of the program that was started ahead, and waits for the last word's file, without which it does nothing: the end of this process too leaves it without."""

    def __init__(self, *words: str):
        pipes = [os.pipe() for _ in range(3)]
        (reading, self.writing), (self.output, output), (self.errors, errors) = pipes
        with suppress(OSError):
            fcntl.fcntl(self.writing, SET_PIPE_SIZE, MOST_FED)
        places = ((output, 1), (errors, 2), (reading, FED))
        actions = [(os.POSIX_SPAWN_OPEN, 0, os.devnull, os.O_RDONLY, 0), *((os.POSIX_SPAWN_DUP2, number, place) for number, place in places)]
        all_words = [needed(), *(f"/proc/self/fd/{FED}" if word == WAITED else word for word in words)]
        # (this process has one thread that makes files)
        before = os.umask(PRIVATE_UMASK)
        try:
            with starting():
                self.number = os.posix_spawn(all_words[0], all_words, environment(), file_actions=actions, setsigdef=RESTORED)
        except BaseException:
            for it in (self.writing, self.output, self.errors):
                os.close(it)
            raise
        finally:
            os.umask(before)
            for it in (reading, output, errors):
                os.close(it)

    def feed(self, data: bytes) -> None:
        """Hands the file over. (One that ended before it read all tells why.)"""
        try:
            with suppress(BrokenPipeError):
                files.write_all(self.writing, data)
        finally:
            os.close(self.writing)

    def read(self) -> bytes:
        """What it has answered so far, once that is something, or it has ended."""
        return os.read(self.output, PIECE)

    def answer(self, first: bytes = b"") -> Answer:
        """What it answered, behind what was read first; it has ended then."""
        try:
            output, errors = first + read_all(self.output), read_all(self.errors)
        finally:
            os.close(self.output)
            os.close(self.errors)
            status = os.waitstatus_to_exitcode(os.waitpid(self.number, 0)[1])
        expect_answer(status, errors)
        return Answer(status, output)

    def expect_end(self) -> None:
        """Raises Trouble where it ended otherwise than as it does once it has told a step."""
        answer = self.answer()
        if answer.status or answer.output:
            raise Trouble(Status.BUG, f"timeweave told a step, and ended with status {answer.status}")

    def leave(self) -> None:
        """Lets it end without a file."""
        os.close(self.writing)
        with suppress(Trouble):
            self.answer()


@functools.lru_cache(maxsize=None)
def environment() -> dict[bytes, bytes]:
    """The environment of this process, as a program that is started takes it."""
    return dict(os.environb)


def read_all(number: int) -> bytes:
    """What is read from an open file up to its end."""
    return b"".join(iter(lambda: os.read(number, PIECE), b""))


# The number under which it has that file open; and how many bytes its pipe takes at once.
FED, SET_PIPE_SIZE, MOST_FED = 3, 1031, 1 << 17
RESTORED = (signal.SIGPIPE, signal.SIGXFSZ)
# What stands for the file among the words of a run that is started ahead.
WAITED = "-"


def expect_answer(status: int, errors: bytes = b"") -> None:
    """Raises Trouble where the program ended otherwise than with an answer."""
    if status == ILLEGAL_INSTRUCTION:
        raise Trouble(Status.NO_JUDGE, "this processor lacks an instruction that timeweave was built with", "Take a build for x86-64.")
    if status in STOPPING:
        raise Trouble(Status.STOPPED, f"timeweave was stopped by signal {-status}", "The next run goes on.")
    if status < 0 or status > 10:
        raise Trouble(Status.BUG, f"timeweave ended with status {status}: {printable(errors.decode('utf-8', 'replace'))}")


def counted(*words: str) -> tuple[Answer, int]:
    """Runs the program, and counts the bytes of its output, of which only the first ones are kept: a history isn't held in memory. Raises Trouble where it ended
    by a signal."""
    size, first = 0, b""
    with subprocess.Popen([needed(), *words], stdin=subprocess.DEVNULL, stdout=subprocess.PIPE, stderr=subprocess.DEVNULL, umask=PRIVATE_UMASK) as running:
        assert running.stdout is not None
        for piece in iter(functools.partial(running.stdout.read, PIECE), b""):
            first = first or piece[:PIECE]
            size += len(piece)
    expect_answer(running.returncode)
    return Answer(running.returncode, first), size


# What the texts of a failed command mean: status, the text's first words, a sentence, what to do. `{0}` is the folder or file, the others are the
# words behind the first ones.
FAILURES = (
    (2, "usage", "timeweave takes no such words: word {1} isn't as it has to be", "A path has to be UTF-8 and a number plain."),
    (3, "fault input", "a file that timeweave was to read can't be read", "Is it there?"),
    (4, "", "the output of timeweave failed", "Is the device full?"),
    (5, "fault disk", "the folder {0} isn't there, or its store can't be read or written", "Look whether it is there, may be written, and has room."),
    (6, "no memory", "timeweave had no memory", ""),
    (7, "refused NoStep", "{0} has no such step: its last one is {1}", "Name a step from 1 to {1}."),
    (7, "refused NoEvent", "that step of {0} has {1} events, of the indices from 0 on", "Name an index below {1}."),
    (7, "refused NoThread", "{0} received no such step of that service up to there", ""),
    (7, "refused HasThread", "{0} received that step of that service, at its step {1}", ""),
    (7, "refused Taken", "there is a store in {0} already", "Name another folder."),
    (7, "refused Own", "the message is {0}'s own", ""),
    (7, "refused ClockBack", "an earlier step claims the time {1}, which is later", "Claim no time until the clock is past it."),
    (7, "refused", "{0} refused it: {1}", ""),
    (8, "store Blank", "no service was made in {0}, or its making was stopped", "Make one: timeweave init {0} NAME."),
    (8, "store", "the store in {0} is damaged, or none of a service ({1} {2})", "Go back to a backup, and look at the device."),
    (9, "unreadable", "a file is none of the kind that timeweave reads there ({1} {2} {3})", ""),
    (9, "unsound", "the history breaks a rule ({2} {3} {4} {5})", "Ask its service for another."),
)


def trouble(answer: Answer, of: str) -> Trouble:
    """The sentence of a failed command on this folder or file."""
    text = printable(answer.text.strip())
    for status, first, sentence, advice in FAILURES:
        if answer.status == status and text.startswith(first):
            fields = [of, *text[len(first) :].split(), "", "", "", "", ""]
            return Trouble(Status(status), re.sub(r" *\( *\)", "", sentence.format(*fields)), advice.format(*fields))
    return Trouble(Status.BUG, f"timeweave answered {answer.status} {text}")


def done(answer: Answer, of: str) -> bytes:
    """The output of a command that succeeded on this folder or file; raises Trouble of one that failed."""
    if answer.status:
        raise trouble(answer, of)
    return answer.output


@functools.lru_cache(maxsize=None)
def digest_of(path: str) -> str:
    """The SHA-256 digest of a file, in hexadecimal."""
    with open(path, "rb") as file:
        return hashlib.sha256(file.read()).hexdigest()


@functools.lru_cache(maxsize=None)
def logic_of(path: str) -> str:
    """The digest of the logic that proved the file, as the file says it, or `not told`."""
    with open(path, "rb") as file:
        told = re.search(rb"rattle logic=([0-9a-f]{8,64})", file.read())
    return told[1].decode() if told else UNTOLD


def judge_name(kind: str, path: Optional[str]) -> str:
    """How the program or the library of this path is named behind a verdict: as proved where the file has the prover's mark, and by its
    digest. (Whoever makes a file can put the mark into it: the digest is to be compared with that of the release.)"""
    if path is None:
        return f"{kind}, not known to be proved"
    return f"{kind + ', not known to be proved' if logic_of(path) == UNTOLD else 'proved ' + kind}, SHA-256 {digest_of(path)}"
