"""The orders of events that `weft chain` shows of a network, which are held against the truth."""

import contextlib
import functools
import os
import random
import tempfile
from concurrent.futures import Executor
from pathlib import Path
from typing import NamedTuple

from network import turns
from network.truth import Event, Reach

from weft import chains, choosing, formats, judges
from weft.lines import KeptLines
from weft.reports import read_report
from weft.stores import Store
from weft.trouble import Trouble


class Pairs(NamedTuple):
    """Pairs of events whose orders are to be shown."""

    folder: str
    program: str
    names: list[str]
    pairs: list[tuple[Event, Event]]


class Order(NamedTuple):
    """What `weft chain` makes of a pair: the bytes of the proof of the first event before the second, or 0; its hops; why there is none."""

    size: int
    hops: int
    why: str


class Orders(NamedTuple):
    """What became of all pairs: how many there are and are shown, the hops and bytes of the proofs, and what was wrong."""

    pairs: int
    shown: list[Order]
    wrong: list[str]


def drawn_pairs(events: list[Event], most: int, seed: int) -> list[tuple[Event, Event]]:
    """All pairs of events of two services, or so many of them by a seed."""
    pairs = [(first, second) for first in events for second in events if first.name != second.name]
    return random.Random(seed).sample(pairs, most) if len(pairs) > most else pairs


def orders(folder: Path, program: str, names: list[str], pairs: list[tuple[Event, Event]], reach: Reach, executor: Executor) -> Orders:
    """Has `weft chain` show the orders of pairs of events of these services, and holds each against what their receipts can show and against the nights."""
    size = max(1, len(pairs) // 16 + 1)
    work = [Pairs(str(folder), program, names, pairs[at : at + size]) for at in range(0, len(pairs), size)]
    shown, wrong = [], []
    for one, results in zip(work, executor.map(shown_orders, work)):
        for (first, second), order in zip(one.pairs, results):
            can = reach.can(first, second)
            if can != bool(order.size) or order.size and first.night > second.night:
                wrong.append(f"{first} before {second}: the receipts {'can' if can else 'cannot'} show it, and weft chain says {order.why or 'shown'}")
            if order.size:
                shown.append(order)
    return Orders(len(pairs), shown, wrong)


def shown_orders(work: Pairs) -> list[Order]:
    """What `weft chain` makes of each pair."""
    os.environ.update(turns.environment(work.folder, work.program))
    tempfile.tempdir = None
    with contextlib.ExitStack() as stack:
        bench = judges.bench()
        stack.enter_context(bench.working())
        sources = sources_of(work.folder, tuple(work.names))
        return [prove_order(sources, bench, chains.Event(one.name, one.step, 0), chains.Event(other.name, other.step, 0)) for one, other in work.pairs]


@functools.lru_cache(maxsize=1)
def sources_of(folder: str, names: tuple[str, ...]) -> chains.Sources:
    """All stores and boxes of the network, as who asks them all has them at hand."""
    place = Path(folder)
    return chains.Sources([Store(place / name) for name in names], [place / f"box-{name}" for name in names], [], KeptLines(), judges.bench())


def prove_order(sources: chains.Sources, bench: judges.Bench, first: chains.Event, second: chains.Event) -> Order:
    """The proof of a pair, judged strictly."""
    try:
        proof = chains.gathered(sources, first, second).proof
    except Trouble as trouble:
        return Order(0, 0, trouble.describe())
    if proof is None:
        return Order(0, 0, "a part isn't at hand")
    judgement = choosing.judge_proof(bench, proof, sources.kept, allow_carried=False)
    if not judgement.is_shown or judgement.verdict is None:
        return Order(0, 0, f"not shown: {judgement}")
    report = read_report(judgement.verdict)
    wanted = [(first.service, first.step), (second.service, second.step)]
    found = [(event.service, event.step) for event in report.events]
    return Order(len(proof), len(report.hops), "") if found == wanted and formats.read_proof(proof) else Order(0, 0, f"another order: {report}")
