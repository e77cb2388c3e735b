#!/usr/bin/env python3
"""Writes the files of an example into a folder: histories, proofs and anchors that services would hand out.

    python3 tools/example_files.py NAME FOLDER

The scripts of examples/ show what is done with them; the pictures of the documents are of some. They are made by the reference, without
the program. The names: shop, archived_threads, event_chain, between_steps, audited_chain, taken_over, fork_evidence, reached_steps.
"""

import sys
from functools import lru_cache
from pathlib import Path
from typing import Callable, Dict, List, Sequence, Tuple

TOP = Path(__file__).resolve().parent.parent
sys.path.insert(0, str(TOP / "reference"))

from command_line import reader_of_words, run_script  # noqa: E402
from timeweave_reference.anchors import Anchor, anchors_to_bytes  # noqa: E402
from timeweave_reference.archives import listed  # noqa: E402
from timeweave_reference.atlases import Hop  # noqa: E402
from timeweave_reference.evidence import Evidence, accused  # noqa: E402
from timeweave_reference.fields import big_endian  # noqa: E402
from timeweave_reference.hashed_texts import digest  # noqa: E402
from timeweave_reference.histories import Step, history_to_bytes  # noqa: E402
from timeweave_reference.map_files import high_file, low_file  # noqa: E402
from timeweave_reference.proofs import LinkProof, ThreadProof  # noqa: E402
from timeweave_reference.receipts import Receipt  # noqa: E402
from timeweave_reference.recording import History  # noqa: E402
from timeweave_reference.services import absence_proof, link_proof, thread_proof  # noqa: E402
from timeweave_reference.timelines import Timeline  # noqa: E402
from timeweave_reference.ways import Way  # noqa: E402

Contents = Dict[str, bytes]


def line_of(history: History, step: int) -> Dict[str, Anchor]:
    """The anchor of a step of a history."""
    return {history.name: Anchor(step, history.line().auths[step])}


def last_lines(*histories: History) -> Dict[str, Anchor]:
    """The anchors of the last steps of histories."""
    return {name: anchor for history in histories for name, anchor in line_of(history, len(history.steps)).items()}


# ---- one history

# The history that the tutorial's pictures show: thirteen steps of three events each.
SHOP = Timeline("shop", [[f"order {step}.{k}".encode() for k in range(3)] for step in range(1, 14)])


def shop() -> Contents:
    """That history, and the line of its last step."""
    return {"history": history_to_bytes("shop", [Step(list(events)) for events in SHOP.steps]), "line": SHOP.line(13)}


def archived_threads() -> Contents:
    """The thread of `alpha` at step 5 is there, that of step 6 isn't, and step 2 has its authenticator, all under step 4."""
    history = History("shop")
    history.append([b"bread", b"milk"])
    history.receive("alpha", 5, digest(b"alpha"))
    history.receive("beta", 2, digest(b"beta"))
    history.append([b"tea"])
    line, tree = history.line(), history.trees[3]
    return {
        "history": history.to_bytes(),
        "thread": thread_proof(line, tree, 3, 4, listed(tree)[0]).to_bytes(),
        "absent": absence_proof(line, tree, 3, 4, ("alpha", 6)).to_bytes(),
        "link": link_proof(line, 2, 4).to_bytes(),
        "anchors": anchors_to_bytes(last_lines(history)),
    }


# ---- ways over several histories


def least_way() -> Way:
    """The way from the event `hi` of step 1 of alpha to the event of no bytes of step 2 of beta, whose step 1 received the thread of
    alpha's step 1; nothing but the proof binds it."""
    alpha, beta = History("alpha"), History("beta")
    alpha.append([b"hi"])
    beta.receive("alpha", 1, alpha.line().auths[1])
    beta.append([b""])
    return Way({"alpha": alpha, "beta": beta}, ("beta", 2, 0, 2), [(listed(beta.trees[1])[0], 0)], (1, 0))


def two_histories() -> Tuple[bytes, Way]:
    """The file of the maker's history, as it was when the bank received the thread of its last step; and the way from the maker's order to
    the bank's payment, over the histories as they are now."""
    maker, bank = History("maker"), History("bank")
    maker.append([b"ordered"])
    maker.append([b"packed"])
    early, handed = maker.to_bytes(), maker.line().auths[2]
    bank.append([b"opened"])
    bank.receive("maker", 2, handed)
    bank.append([b"paid"])
    maker.append([b"sent"])
    maker.append([b"settled"])
    received = listed(bank.trees[2])[0]
    return early, Way({"maker": maker, "bank": bank}, ("bank", 3, 0, 3), [(received, 4)], (1, 0))


def event_chain() -> Contents:
    """What both services hand out, but for the proofs of the two events, which `show` makes of the histories."""
    early, way = two_histories()
    _, thread, link, _ = way.parts()
    return {
        "maker": early, "bank": way.family["bank"].to_bytes(), "thread": thread.to_bytes(), "link": link.to_bytes(),
        "lines": anchors_to_bytes(way.anchors()),
    }


@lru_cache(maxsize=None)
def three_histories(times: Tuple[int, ...] = ()) -> Way:
    """A way from alpha over beta to gamma, whose hops are bound; beta's history goes on behind. Alpha's steps claim these times, if any."""
    alpha, beta, gamma = History("alpha"), History("beta"), History("gamma")
    steps: List[List[bytes]] = [[b"first", b"second"], []]
    for place, events in enumerate(steps):
        alpha.append(events, times[place] if times else None)
    beta.append([b"own"])
    beta.receive("alpha", 2, alpha.line().auths[2])
    beta.append([b"more"])
    gamma.receive("beta", 3, beta.line().auths[3])
    gamma.append([b"last"])
    beta.append([b"behind"])
    hops = [(listed(gamma.trees[1])[0], 4), (listed(beta.trees[3])[0], 2)]
    return Way({"alpha": alpha, "beta": beta, "gamma": gamma}, ("gamma", 2, 0, 2), hops, (1, 1))


def with_events(history: History, step: int, events: Sequence[bytes]) -> bytes:
    """The file of the history with other events in a step of events."""
    steps: List[Step] = list(history.steps)
    old = steps[step - 1]
    steps[step - 1] = Step(list(events), nodes=old.nodes, root=old.root, time=old.time)
    return history_to_bytes(history.name, steps)


def audited_chain() -> Contents:
    """The histories of three services, a proof over them and its anchors, and beta's history with another event."""
    way = three_histories()
    histories = {name: history.to_bytes() for name, history in way.family.items()}
    changed = with_events(way.family["beta"], 1, [b"another"])
    return {**histories, "proof": way.proof().to_bytes(), "lines": anchors_to_bytes(way.anchors()), "changed": changed}


# ---- a lost history


class Peer:
    """A service that received threads of others, each in a step of its own, with an event behind each."""

    def __init__(self, name: str, *threads: Tuple[str, int, bytes]) -> None:
        self.history = History(name)
        self.entries = []
        for thread in threads:
            self.history.receive(*thread)
            self.entries.append(next(entry for entry in listed(self.history.trees[-1]) if entry.archived == len(self.history.steps)))
            self.history.append([b"seen"])

    def anchor(self) -> Dict[str, Anchor]:
        """The line of its last step."""
        return last_lines(self.history)

    def proof(self, number: int) -> bytes:
        """The proof that the thread of this number, from 0, was received, under the last step."""
        entry = self.entries[number]
        return thread_proof(self.history.line(), self.history.trees[entry.archived], entry.archived, len(self.history.steps), entry).to_bytes()


def thread_of(history: History, step: int) -> Tuple[str, int, bytes]:
    """The thread of a step of a history."""
    return history.name, step, history.line().auths[step]


@lru_cache(maxsize=None)
def lost(times: Tuple["int | None", ...] = ()) -> History:
    """The history of a service of six steps, of which three receive threads. Its steps claim these times, if any."""
    history = History("lost")
    for step in range(1, 7):
        if step % 2:
            history.append([f"{step}.{k}".encode() for k in range(step)])
        else:
            history.receive("far", step, bytes([step]) * 32)
    for step, time in enumerate(times):
        history.steps[step].time = time
    return history


def taken_over() -> Contents:
    """A history, two proofs of what others received of it, the lines of these, and the history with another event."""
    history = lost()
    one, two = Peer("one", thread_of(history, 2)), Peer("two", thread_of(history, 5))
    return {
        "lost": history.to_bytes(), "first": one.proof(0), "second": two.proof(0), "lines": anchors_to_bytes({**one.anchor(), **two.anchor()}),
        "altered": with_events(history, 3, [b"another"]),
    }


# ---- a fork


class Fork:
    """The service `shop` showed one history to `anna` and another to `bert`: they part behind so many common steps. `anna` received the
    first one's step k, and `bert` the second one's step m, each with so many other threads before it."""

    def __init__(self, common: int, k: int, m: int, before: int = 0) -> None:
        self.k, self.m = k, m
        self.shown = [self._history(common, k, "one"), self._history(common, max(k, m), "other")]
        self.receivers = [self._receiver("anna", k, 0, before), self._receiver("bert", m, 1, before)]

    def _history(self, common: int, last: int, word: str) -> Timeline:
        steps = range(1, last + 1)
        return Timeline("shop", [[f"{step}.0".encode()] if step <= common else [word.encode(), f"{step}.1".encode()] for step in steps])

    def _receiver(self, name: str, step: int, which: int, before: int) -> History:
        history = History(name)
        for number in range(1, before + 1):
            history.receive("other", number, big_endian(number, 32))
        history.receive("shop", step, self.shown[which].auths[step])
        history.append([b""])
        return history

    def proof(self, which: int, top: int = 0) -> ThreadProof:
        """The proof of the thread that a receiver, 0 or 1, has, under its last step or an earlier one."""
        history = self.receivers[which]
        step = len(history.steps) - 1
        entry = next(entry for entry in listed(history.trees[step]) if entry.service == "shop")
        return thread_proof(history.line(), history.trees[step], step, top or step + 1, entry)

    def link(self) -> LinkProof:
        """The proof of the second history's authenticator at step k, under its step m."""
        return link_proof(self.shown[1], self.k, self.m)

    def anchors(self) -> Dict[str, Anchor]:
        """The last step of each receiver."""
        return last_lines(*self.receivers)

    def evidence(self) -> "Evidence | int":
        """The evidence that they make, or the number of the part that doesn't fit."""
        return accused(self.proof(0), self.proof(1), self.link())


def fork_evidence() -> Contents:
    """What both receivers and the service hand out: the proofs of both threads, the link between their steps, and the anchors."""
    fork = Fork(2, 3, 8, 2)
    return {
        "first": fork.proof(0).to_bytes(), "second": fork.proof(1).to_bytes(), "link": fork.link().to_bytes(), "lines": anchors_to_bytes(fork.anchors()),
    }


# ---- receipts

CHAIN = (Hop("alpha", 3, "beta", 5), Hop("beta", 4, "gamma", 9), Hop("beta", 6, "gamma", 7))


def receipt_of(hop: Hop) -> bytes:
    """A receipt that tells the hop. Its authenticators are made up: an atlas doesn't look at them."""
    recorder, thread = digest(repr(("by", hop)).encode()), digest(repr(hop).encode())
    return Receipt(hop.by, hop.archived, recorder, hop.service, hop.step, thread).to_bytes()


def receipts_of(hops: Sequence[Hop]) -> bytes:
    """The file of the receipts of hops."""
    return b"".join(map(receipt_of, hops))


def reached_steps() -> Contents:
    """Receipts that a user collected: two ways from alpha's step 2 to gamma, and a hop that it doesn't lead to."""
    return {"receipts": receipts_of([*CHAIN, Hop("delta", 1, "alpha", 4)])}


# ---- maps

# The ledger's step of the entry, and the entry.
ENTRY = 3
CONTRACT = b"the contract"


def ledger_and_notary() -> Tuple[History, History, List[Tuple[str, int]]]:
    """The history of a ledger, whose entry lies between two steps of a notary; and that of the notary, which claims a time at each step of
    events, nine in the morning of a day. Beside them the steps of both in the order in which they were made."""
    ledger, notary = History("ledger"), History("notary")
    made: List[Tuple[str, int]] = []

    def records(history: History, text: bytes, day: int = 0) -> None:
        history.append([text], 1_769_331_600 + 86_400 * day if day else None)
        made.append((history.name, len(history.steps)))

    def receives(history: History, other: History) -> None:
        history.receive(other.name, len(other.steps), other.line().auths[-1])
        made.append((history.name, len(history.steps)))

    records(notary, b"opened on Monday", 1)
    records(ledger, b"opened")
    records(notary, b"opened on Tuesday", 2)
    receives(ledger, notary)
    records(notary, b"opened on Wednesday", 3)
    records(ledger, CONTRACT)
    records(ledger, b"sent")
    receives(notary, ledger)
    records(notary, b"opened on Friday", 5)
    return ledger, notary, made


def low_of(history: History, step: int, peer: str, top: int) -> bytes:
    """The low file that a history gives."""
    return low_file(history.line(), history.trees[step - 1], step, peer, top).to_bytes()


def high_of(history: History, top: int, service: str, step: int) -> bytes:
    """The high file that a history gives."""
    return high_file(history.line(), history.trees[top], top, service, step).to_bytes()


def bounds(own: History, step: int, other: History, upto: int) -> "Tuple[int, int | None]":
    """Low and high by what the histories received."""
    low = [entry.step for entry in listed(own.trees[step - 1]) if entry.service == other.name]
    high = [entry.archived for entry in listed(other.trees[upto]) if entry.service == own.name and entry.step >= step]
    return max(low, default=0), min(high, default=None)


def between_steps() -> Contents:
    """What both services hand out, and another high file."""
    ledger, notary, _ = ledger_and_notary()
    top, upto = len(ledger.steps), len(notary.steps)
    return {
        "ledger": ledger.to_bytes(), "notary": notary.to_bytes(), "low": low_of(ledger, ENTRY, "notary", top),
        "high": high_of(notary, upto, "ledger", ENTRY), "other": high_of(notary, upto, "ledger", ENTRY + 1),
        "lines": anchors_to_bytes(last_lines(ledger, notary)),
    }


EXAMPLES: Dict[str, Callable[[], Contents]] = {
    made.__name__: made for made in (shop, archived_threads, event_chain, between_steps, audited_chain, taken_over, fork_evidence, reached_steps)
}


def main() -> int:
    """Writes the files."""
    words = reader_of_words(__doc__)
    words.add_argument("example", choices=EXAMPLES, metavar="NAME", help="the example")
    words.add_argument("folder", type=Path, metavar="FOLDER", help="where its files are written")
    told = words.parse_args()
    for name, data in EXAMPLES[told.example]().items():
        (told.folder / name).write_bytes(data)
    return 0


if __name__ == "__main__":
    run_script(main)
