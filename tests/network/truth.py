"""The truth beside a network: what was acknowledged, what the stores have, and which orders of events their receipts can show."""

from bisect import bisect_left
from collections import defaultdict
from pathlib import Path
from typing import Dict, Iterator, NamedTuple, Optional

from network import turns
from network.files import put
from timeweave_reference.histories import Step, history_to_bytes, read_history, timeline_of

Histories = Dict[str, list[Step]]
PARTS = 6


class Event(NamedTuple):
    """An event: its service, its step, and the night in which it was recorded."""

    name: str
    step: int
    night: int


class Truth:
    """The lines that each service was told of its own steps, and the night of each."""

    def __init__(self) -> None:
        self.told: dict[str, dict[int, tuple[str, int]]] = defaultdict(dict)

    def add(self, name: str, night: int, lines: list[str]) -> None:
        """Notes lines that were acknowledged."""
        for line in lines:
            self.told[name].setdefault(int(line.split()[1]), (line, night))

    def lines(self, name: str) -> frozenset[str]:
        """The lines of a service."""
        return frozenset(line for line, _ in self.told[name].values())

    def last(self, name: str) -> int:
        """The last step that a service was told."""
        return max(self.told[name], default=0)

    def wrong_with(self, name: str, steps: list[Step]) -> list[str]:
        """What of a service's history isn't as it was acknowledged."""
        auths = timeline_of(name, steps).auths
        lost = [line for step, (line, _) in self.told[name].items() if step >= len(auths) or auths[step].hex() != line.split()[2]]
        threads = [tuple(step.thread[:2]) for step in steps if step.thread]
        twice = len(threads) - len(set(threads))
        return [f"{name} lost a step that was acknowledged: {line}" for line in lost] + [f"{name} received {twice} lines twice"] * bool(twice)

    def events(self, names: list[str], histories: Histories, nights: int) -> list[Event]:
        """The events of all services of some nights, the last one of each part."""
        between = max(1, nights // PARTS)
        found = []
        for name in names:
            of_night: dict[int, int] = {}
            for step, recorded in enumerate(histories[name], 1):
                if recorded.events and recorded.events[0].startswith(b"night "):
                    of_night[int(recorded.events[0].split()[1])] = step
            found += [Event(name, step, night) for night, step in of_night.items() if night % between == between - 1]
        return found


def history(folder: Path, program: str, name: str) -> list[Step]:
    """The steps of a service, as its store has them."""
    status, data = turns.run_program(str(folder), program, "export", name)
    assert status == 0, (name, status, data)
    return read_history(data)[1]


def taken_over(folder: Path, program: str, gone: str, receivers: list[str], histories: Histories) -> list[str]:
    """Takes over the history of a service that went away, by the proofs of its receivers; answers what was wrong."""
    proofs, lines, last = [], b"", 0
    for name in receivers:
        received = [(step.thread.step, at) for at, step in enumerate(histories[name], 1) if step.thread and step.thread.service == gone]
        if not received:
            continue
        most, top = max(received)[0], len(histories[name])
        _, proof = turns.run_program(str(folder), program, "prove", name, "thread", str(top), gone, str(most), str(top))
        lines += f"{name} {top} {timeline_of(name, histories[name]).auths[top].hex()}\n".encode()
        put(folder / f"tmp/by-{name}", proof)
        proofs.append(f"tmp/by-{name}")
        last = max(last, most)
    put(folder / "tmp/lost", history_to_bytes(gone, histories[gone]))
    put(folder / "tmp/lines", lines)
    status, data = turns.run_program(str(folder), program, "adopt", "tmp/lost", "tmp/lines", *proofs)
    is_good = status == 0 and [step.events for step in read_history(data)[1]] == [step.events for step in histories[gone][:last]]
    return [] if is_good else [f"the history of {gone} isn't taken over up to its step {last}: {status} {data[:100]!r}"]


class Reach:
    """Which steps the archives of services lead back to, over as many hops as there are."""

    def __init__(self, histories: Histories) -> None:
        received: dict[tuple[str, str], list[tuple[int, int]]] = defaultdict(list)
        for name, steps in histories.items():
            for at, step in enumerate(steps, 1):
                if step.thread and step.thread.service in histories:
                    received[step.thread.service, name].append((step.thread.step, at))
        self.by: dict[str, list[tuple[str, list[int], list[int]]]] = defaultdict(list)
        for (service, name), found in received.items():
            found.sort()
            assert [at for _, at in found] == sorted(at for _, at in found), "a service's steps are received in their order"
            self.by[service].append((name, [step for step, _ in found], [at for _, at in found]))
        self.known: dict[tuple[str, int], dict[str, int]] = {}

    def from_step(self, name: str, step: int) -> dict[str, int]:
        """The least step of each service behind which this step stands."""
        if (name, step) not in self.known:
            reached, changed = {name: step}, [name]
            while changed:
                service = changed.pop()
                for by, steps, archived in self.by[service]:
                    place = bisect_left(steps, reached[service])
                    if place < len(steps) and archived[place] < reached.get(by, archived[place] + 1):
                        reached[by] = archived[place]
                        changed.append(by)
            self.known[name, step] = reached
        return self.known[name, step]

    def can(self, first: Event, second: Event) -> bool:
        """Whether the receipts can show that the first event precedes the second."""
        return self.from_step(first.name, first.step).get(second.name, second.step) < second.step


class Spread(NamedTuple):
    """In how many nights a step comes to the other services: of each number of nights, from 0 on, which share of them stands behind it by then; and the
    mean number of nights until 99 of 100 do."""

    shares: list[float]
    until_99: Optional[float]


def spread_of(reach: Reach, truth: Truth, events: list[Event], names: list[str], nights: int) -> Spread:
    """The spread of events that were recorded early enough to come to all."""
    early = [event for event in events if event.night < nights - nights // PARTS]
    ordered = {name: sorted((step, night) for step, (_, night) in truth.told[name].items()) for name in names}
    arrived, until = [0] * (nights + 1), []
    for event in early:
        came = sorted(nights_until(reach, event, ordered))
        for count in came:
            arrived[count] += 1
        needed = -(-99 * (len(names) - 1) // 100)
        if len(came) >= needed:
            until.append(came[needed - 1])
    total, so_far, shares = max(1, len(early) * (len(names) - 1)), 0, []
    for count in arrived:
        so_far += count
        shares.append(so_far / total)
    return Spread(shares, sum(until) / len(until) if until and len(until) == len(early) else None)


def nights_until(reach: Reach, event: Event, ordered: dict[str, list[tuple[int, int]]]) -> Iterator[int]:
    """Of each other service that an event comes to, the number of nights until it stands behind it."""
    for other, step in reach.from_step(event.name, event.step).items():
        told = ordered.get(other, [])
        place = bisect_left(told, (step, -1))
        if other != event.name and place < len(told):
            yield max(0, told[place][1] - event.night)
