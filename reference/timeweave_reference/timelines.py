"""A service's steps with their authenticators, from which its lines, paths and openings are made; proofs and messages are made of these.

docs/formats.md, "Hashed texts", "Path" and "Opening".
"""

from __future__ import annotations

from typing import List, Sequence

from .event_trees import event_root
from .hashed_texts import EMPTY_ARCHIVE, authenticator, genesis, link_label, step_datum
from .openings import Opening
from .paths import Path, PathLink, greedy_steps, link_level, top_level


class Timeline:
    """The steps of a service, from step 1 on: the events of each, the label of its archive after it and its time in seconds, or None;
    and the authenticators, from step 0 on.

    Without archives all of them are empty, and without times no step has one.
    """

    def __init__(
        self, name: str, steps: Sequence[Sequence[bytes]] = (), archives: Sequence[bytes] | None = None, times: Sequence[int | None] | None = None
    ) -> None:
        self.name = name
        self.steps: List[Sequence[bytes]] = []
        self.archives: List[bytes] = []
        self.times: List[int | None] = []
        self.datums: List[bytes] = []
        self.clocks: List[int | None] = [None]
        self.auths: List[bytes] = [genesis(name)]
        for place, events in enumerate(steps):
            self.append(events, archives[place] if archives else EMPTY_ARCHIVE, times[place] if times else None)

    def append(self, events: Sequence[bytes], archive: bytes = EMPTY_ARCHIVE, time: int | None = None) -> None:
        """One more step of these events, after which the archive has this label."""
        self.steps.append(events)
        self.archives.append(archive)
        self.times.append(time)
        self.datums.append(step_datum(event_root(events), archive, len(events), time))
        clock = self.clocks[-1]
        self.clocks.append(clock if time is None or clock is not None and clock > time else time)
        step = len(self.steps)
        self.auths.append(authenticator(step, self.labels(step)))

    def copied(self) -> Timeline:
        """One that goes on by itself; this one stays as it is."""
        other = Timeline(self.name)
        other.steps, other.archives, other.times = list(self.steps), list(self.archives), list(self.times)
        other.datums, other.auths, other.clocks = list(self.datums), list(self.auths), list(self.clocks)
        return other

    def events(self, step: int) -> Sequence[bytes]:
        """The events of a step from 1 on."""
        return self.steps[step - 1]

    def datum(self, step: int) -> bytes:
        """The datum of a step from 1 on."""
        return self.datums[step - 1]

    def labels(self, step: int) -> List[bytes]:
        """The labels of the links of a step from 1 on, from level 0 on; that of level l leads to step - 2^l."""
        return [link_label(step, level, self.datum(step), self.auths[step - 2**level]) for level in range(top_level(step) + 1)]

    def path(self, top: int, step: int) -> Path:
        """The path from the top down to the step."""
        links = []
        for start in greedy_steps(top, step)[:-1]:
            labels = self.labels(start)
            del labels[link_level(start, step)]
            links.append(PathLink(self.datum(start), tuple(labels)))
        return tuple(links)

    def opening(self, step: int) -> Opening:
        """The opening of a step from 1 on."""
        events = self.events(step)
        labels = tuple(self.labels(step)[1:])
        return Opening(event_root(events), self.archives[step - 1], len(events), self.times[step - 1], self.auths[step - 1], labels)

    def clock(self, step: int) -> int | None:
        """The greatest time of the steps up to this one, from 0 on, or None."""
        return self.clocks[step]

    def line(self, step: int) -> bytes:
        """The line of a step from 0 on; from 1 on it is one of an anchors file."""
        return f"{self.name} {step} {self.auths[step].hex()}\n".encode()
