"""What is written: sentences to standard output, troubles and progress to standard error. All that weft writes there goes through `write`, in which nothing
stands raw and nothing is endless; no other module has standard output or error."""

from __future__ import annotations

import html
import json
import os
import sys
from enum import Enum
from typing import Any, Optional, TextIO

from weft.statuses import Status
from weft.texts import escaped
from weft.trouble import Trouble

# The most letters of a sentence: none that weft makes of names, events and texts of formats has more.
MOST_SENTENCE = 1 << 16


class Stream(Enum):
    """Where something is written."""

    OUT = "standard output"
    ERR = "standard error"

    def opened(self) -> Optional[TextIO]:
        """The open stream, or None where there is none."""
        return sys.stdout if self is Stream.OUT else sys.stderr


class Written:
    """What became of standard output: the trouble of its first failure, where there was one. The work that was begun is brought to its end all the same, and
    what it found isn't hidden by that."""

    trouble: Optional[Trouble] = None


class Collected:
    """What is said where a word was asked for JSON and has none of its own: its sentences, which are written as one value at its end."""

    says: Optional[list[str]] = None


def fill_closed() -> None:
    """Opens nothing in the place of standard input, output and error where they are closed, so that no file of weft's own gets their numbers, which the programs
    that it runs take for theirs."""
    for number in range(3):
        try:
            os.fstat(number)
        except OSError:
            os.open(os.devnull, os.O_RDWR)


def prepare() -> None:
    """Lets nothing that can't be encoded stop a sentence."""
    Written.trouble, Collected.says = None, None
    fill_closed()
    for stream in (one.opened() for one in Stream):
        if stream is not None and hasattr(stream, "reconfigure"):
            stream.reconfigure(errors="backslashreplace")


def bounded(text: str) -> str:
    """A sentence, cut where it is longer than any of weft's own."""
    return text if len(text) <= MOST_SENTENCE else f"{text[:MOST_SENTENCE]}… and {len(text) - MOST_SENTENCE:,} letters more"


def bounded_value(value: Any) -> Any:
    """A value for JSON, of which each text is cut so."""
    if isinstance(value, str):
        return bounded(value)
    if isinstance(value, dict):
        return {key: bounded_value(it) for key, it in value.items()}
    return [bounded_value(it) for it in value] if isinstance(value, (list, tuple)) else value


def marked(text: str) -> str:
    """A text as it stands in a file of HTML: cut as a sentence is, with nothing raw in it, and nothing that HTML would read as its own."""
    return html.escape(escaped(bounded(text)), quote=True)


def write(to: Stream, text: str, front: str = "", end: str = "\n") -> None:
    """Writes a text in which nothing stands raw, between what weft itself puts in front of it and behind it; raises OSError where that fails. A stream that
    isn't there takes nothing."""
    stream = to.opened()
    if stream is not None:
        stream.write(f"{front}{escaped(text)}{end}")


def flush(to: Stream) -> None:
    """Sees to it that what was written is with whoever reads it; raises OSError where that fails."""
    stream = to.opened()
    if stream is not None:
        stream.flush()


def is_terminal(to: Stream) -> bool:
    """Whether it goes to a terminal."""
    stream = to.opened()
    return stream is not None and stream.isatty()


def note_failure(failure: OSError) -> None:
    """Notes that standard output failed; what is left of it is thrown away."""
    null = os.open(os.devnull, os.O_WRONLY)
    os.dup2(null, 1)
    os.close(null)
    note_trouble(f"standard output failed: {os.strerror(failure.errno or 0)}")


def note_trouble(sentence: str) -> None:
    """Notes the first trouble of standard output."""
    Written.trouble = Written.trouble or Trouble(Status.OUTPUT, sentence, "What was done stands.")


def say(text: str) -> None:
    """Says a sentence. Where that fails, the trouble is told at the end."""
    if Collected.says is not None:
        Collected.says.append(bounded(text))
    else:
        say_whole(bounded(text))


def say_whole(text: str) -> None:
    """Writes a line to standard output, however long it is."""
    if Stream.OUT.opened() is None:
        note_trouble("standard output is closed")
        return
    try:
        write(Stream.OUT, text)
    except OSError as failure:
        note_failure(failure)


def say_json(value: Any) -> None:
    """Writes a value as a line of JSON, in ASCII."""
    say_whole(json.dumps(bounded_value(value), ensure_ascii=True, sort_keys=False))


def collect() -> None:
    """Keeps the sentences that are said from now on, for JSON."""
    Collected.says = []


def end_json(status: Status, trouble: Optional[str]) -> None:
    """Writes the sentences that were kept, and the trouble that ended a word which was asked for JSON, with its status: so bad input is told in JSON too."""
    says, Collected.says = Collected.says, None
    if says is not None or trouble is not None:
        say_json({"status": int(status), "says": [*(says or []), *([trouble] if trouble is not None else [])]})


def finish() -> list[Status]:
    """Sees to it that all was written; where standard output failed, that is told, and its status is the answer."""
    try:
        flush(Stream.OUT)
    except OSError as failure:
        note_failure(failure)
    if Written.trouble is None:
        return []
    complain(Written.trouble.describe())
    return [Written.trouble.status]


def complain(text: str) -> None:
    """Tells a trouble on standard error, as far as that goes; it stands in JSON too, where that is collected."""
    if Collected.says is not None:
        Collected.says.append(bounded(text))
    write_beside(bounded(text), "weft: ", "\n")


def draw(text: str) -> None:
    """Draws a line on the terminal of standard error over the one before, which an empty one takes away."""
    write_beside(bounded(text), "\r", "\x1b[K")


def write_beside(text: str, front: str, end: str) -> None:
    """Writes to standard error at once, as far as that goes."""
    try:
        finish_quietly()
        write(Stream.ERR, text, front, end)
        flush(Stream.ERR)
    except OSError:
        pass


def finish_quietly() -> None:
    """What was said stands in front of what comes."""
    try:
        flush(Stream.OUT)
    except OSError:
        pass
