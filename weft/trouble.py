"""What ends a run early."""

from __future__ import annotations

import os
from contextlib import contextmanager
from typing import Iterator

from weft.statuses import Status


class Trouble(Exception):
    """Ends the run with a status, a sentence that says what is wrong, and where there is one, another that says what to do."""

    def __init__(self, status: Status, sentence: str, advice: str = ""):
        super().__init__(sentence)
        self.status = status
        self.sentence = sentence
        self.advice = advice

    def __reduce__(self) -> tuple[type[Trouble], tuple[Status, str, str]]:
        return Trouble, (self.status, self.sentence, self.advice)

    def describe(self) -> str:
        """The sentences in one line."""
        return f"{self.sentence}. {self.advice}".rstrip() if self.advice else f"{self.sentence}."


@contextmanager
def of_machine(what: str) -> Iterator[None]:
    """Within it want of memory, and a failure of the disk, are troubles of what is at work."""
    try:
        yield
    except MemoryError:
        raise Trouble(Status.NO_MEMORY, f"there was no memory to judge {what}") from None
    except OSError as failure:
        raise Trouble(Status.DISK, f"{what} couldn't be judged: {os.strerror(failure.errno or 0)}", "Is there room for temporary files?") from None
