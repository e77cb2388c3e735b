"""A progress bar on standard error, on a terminal alone, and only for work that takes a while."""

from __future__ import annotations

import time
from typing import Iterable, Iterator, Optional, TypeVar

from weft import output

Item = TypeVar("Item")

FIRST, BETWEEN, WIDTH = 0.5, 0.1, 30


class Progress:
    """How much of so many is done; nothing is drawn in the first half second, or where standard error is no terminal."""

    def __init__(self, what: str, total: Optional[int]):
        self.what, self.total, self.done = what, total, 0
        self.is_shown = output.is_terminal(output.Stream.ERR)
        self.next = time.monotonic() + FIRST
        self.is_drawn = False

    def add(self, count: int = 1) -> None:
        """So many more are done."""
        self.done += count
        if self.is_shown and time.monotonic() >= self.next:
            self.next = time.monotonic() + BETWEEN
            self.draw()

    def draw(self) -> None:
        """Draws the bar over the one before."""
        if self.total:
            filled = WIDTH * self.done // self.total
            bar = f"[{'#' * filled}{'.' * (WIDTH - filled)}] {self.done:,} of {self.total:,}"
        else:
            bar = f"{self.done:,}"
        output.draw(f"{self.what} {bar}")
        self.is_drawn = True

    def end(self) -> None:
        """Takes the bar away."""
        if self.is_drawn:
            output.draw("")


def with_progress(items: Iterable[Item], what: str, total: Optional[int] = None) -> Iterator[Item]:
    """The items, with a bar of how many were taken."""
    progress = Progress(what, total)
    try:
        for item in items:
            yield item
            progress.add()
    finally:
        progress.end()
