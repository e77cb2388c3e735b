"""What is told of a network: its figures, and its part of bench/results.json."""

from typing import NamedTuple, Sequence

from network.found import Count
from network.truth import Spread


class Figures(NamedTuple):
    """The figures of a network that was played."""

    services: int
    nights: int
    seed: int
    pairs: int
    shown: int
    hops: float
    most_hops: int
    proof_bytes: float
    spread: Spread
    store_bytes: float
    steps: float
    seconds: float
    processor: float
    load: int
    faults: dict[str, int]
    counts: list[Count]
    no_devices: str
    is_web: bool = False
    cut: float = 0
    asked: int = 0
    memory: int = 0

    def as_json(self) -> dict[str, object]:
        """All of them, for a program that reads them."""
        return {**self._asdict(), "spread": self.spread._asdict(), "counts": [count._asdict() for count in self.counts]}


def mean(values: Sequence[float]) -> float:
    """The mean of some values, to two places; of none 0."""
    return round(sum(values) / len(values), 2) if values else 0.0


def write_part(figures: Figures, words: Sequence[str], folder: str, before: float) -> None:
    """Writes the network's part of bench/results.json; one over the web has its own. The words are those of the command; before it there was this load."""
    import measuring

    values = {**figures.as_json(), "processes": figures.load, "faults": sum(figures.faults.values())}
    values["failed"] = values["faults"] - figures.faults.get("without harm", 0)
    columns = {"part in the schedule": 0, "services": 0, "found": 0, "why not the others": 0}
    counts = [dict(zip(columns, (it.part, it.played, it.found, it.why if it.found < it.played else ""))) for it in figures.counts]
    found = {"tables": {"counts": measuring.table(columns, counts)}, "values": {name: it for name, it in values.items() if name not in ("counts", "load", "no_devices")}}
    about = measuring.describe_run(" ".join(["tests/play_network.py", "PROGRAM", *words]), folder, before)
    measuring.write_part("network_over_web" if figures.is_web else "network", {**about, **found})
