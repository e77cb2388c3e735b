"""How large proofs and stores are: of stores that are there measured, and of larger ones computed from the format, which has to give the same where both are there; and
how fast they grow, as the exponent that fits best, beside the bound that the format gives."""

import math
from typing import Callable, Dict, List, Sequence, Tuple

from commands import stored
from measuring import MIB, Bench, Found, table

from harness.deep import DeepStep, deep_proof
from timeweave_reference.fields import big_endian as be
from timeweave_reference.hashed_texts import EMPTY_ARCHIVE
from timeweave_reference.proofs import front_to_bytes
from timeweave_reference.services import Service, service_of
from timeweave_reference.messages import message_of

MEASURED, COMPUTED = (1_000, 10_000, 100_000), (1_000_000, 10_000_000)
LINK = 4
HOPS = (2, 4, 8)
# What a year of a service is: steps of events a day with so many events of so many bytes each, and received threads a day.
YEARS = (1, 5, 10)
KINDS = {"a daily log": (1, 1_000, 64, 0), "a busy register": (86_400, 64, 64, 0), "a hub of 1,000 peers": (1, 1, 64, 1_000)}


def fit_exponent(sizes: Sequence[float], found: Sequence[float]) -> float:
    """The exponent with which what was found grows with the sizes: the slope of the straight line through both logarithms."""
    across, up = [math.log(it) for it in sizes], [math.log(it) for it in found]
    mean, height = sum(across) / len(across), sum(up) / len(up)
    return sum((x - mean) * (y - height) for x, y in zip(across, up)) / sum((x - mean) ** 2 for x in across)


def event_size(steps: int, step: int) -> int:
    """The bytes of the proof of an event of a step, by the format: nobody has to build the history."""
    return len(deep_proof("bench", step, 0, steps, [be(step, 8)], b"bench")[0])


def link_size(steps: int, step: int) -> int:
    """Those of the link to a step, which ends with its authenticator."""
    deep = DeepStep(step, steps, EMPTY_ARCHIVE, [be(step, 8)], b"bench")
    return len(front_to_bytes(LINK, "bench", step, steps) + deep.path + deep.auth)


def proof_rows(bench: Bench) -> Tuple[List[Found], List[str]]:
    """A row of each number of steps; and where a measured proof hasn't the size that was computed."""
    rows, wrong = [], []
    for steps in (*bench.pick(MEASURED, (100, 1_000)), *COMPUTED):
        row: Found = {"steps": steps}
        sizes: Dict[str, Callable[[int, int], int]] = {"event": event_size, "link": link_size}
        store = stored(bench, steps) if steps not in COMPUTED else None
        for name, size in sizes.items():
            for place, step in (("first", 1), ("middle", steps // 2 + 1), ("last", steps)):
                row[f"{name}, {place} step"] = size(steps, step)
                if store is not None:
                    found = len(bench.tell("prove", store.folder, name, str(step), *(["0"] if name == "event" else [])))
                    wrong += [f"{name} of step {step} of {steps}: {found} bytes, computed {row[f'{name}, {place} step']}"] if found != row[f"{name}, {place} step"] else []
        rows.append({**row, "RFC 6962, a path": 32 * math.ceil(math.log2(steps)), "how": "computed" if store is None else "measured"})
    return rows, wrong


def chain_rows(bench: Bench) -> List[Found]:
    """What a chain of so many hops has of bytes, bound by links, between services of 1,000 steps each."""
    rows = []
    for hops in HOPS:
        services = [service_of(f"s{number}", [[be(step, 8)] for step in range(1, bench.pick(1_000, 20))]) for number in range(hops + 1)]
        received = []
        for sender, receiver in zip(services, services[1:]):
            received.append(len(sender.line.auths) - 1)
            receiver.receive(message_of(sender.line, received[-1], 0).to_bytes())
        folders = [str(bench.put(f"c{hops}/{number}/timeline.tw", service.file())).removesuffix("/timeline.tw") for number, service in enumerate(services)]
        for folder in folders:
            bench.tell("append", folder, bench.put("one", b"TWE1" + be(1, 4) + be(0, 4)))
        last = [len(service.line.auths) for service in services]
        parts = [bench.put("part0", bench.tell("prove", folders[-1], "event", str(last[-1]), "0"))]
        for place in range(hops - 1, -1, -1):
            step = received[place]
            parts.append(bench.put(f"thread{place}", bench.tell("prove", folders[place + 1], "thread", str(received[place + 1] if place + 1 < hops else last[-1] - 1), f"s{place}", str(step))))
            parts.append(bench.put(f"link{place}", bench.tell("prove", folders[place], "link", str(step), str(last[place]))))
        parts.append(bench.put("first", bench.tell("prove", folders[0], "event", "1", "0", str(received[0]))))
        rows.append({"hops": hops, "bytes": len(bench.tell("join", *parts))})
    return rows


def room_of(events: int, size: int) -> float:
    """The bytes of a store for each step of so many events, by the difference of two stores."""
    steps = max(5, 500 // events)
    few, many = (len(service_of("bench", [[bytes(size)] * events] * count).file()) for count in (steps, 2 * steps))
    return (many - few) / steps


def room_of_threads(count: int, peers: int) -> float:
    """The bytes of a store for each received thread, where it has so many."""
    notary, senders = Service("notary"), [service_of(f"p{number}", [[b"bench"]]) for number in range(peers)]
    for number in range(count):
        sender = senders[number % peers]
        last = len(sender.line.auths) - 1
        notary.receive(message_of(sender.line, last, last - 1).to_bytes())
        sender.append([b"bench"])
    return len(notary.file()) / count


def room_rows(bench: Bench) -> List[Found]:
    """A row of each kind of service: the room after some years. What a thread takes grows with the logarithm of their number: it is reckoned by two stores."""
    few, many = bench.pick((200, 2_000), (20, 40))
    small, large = (room_of_threads(count, few) for count in (few, many))
    a_doubling = (large - small) / math.log2(many / few)
    rows = []
    for name, (steps, events, size, threads) in KINDS.items():
        each = room_of(events, size)
        row: Found = {"service": name, "bytes a step": round(each)}
        for years in YEARS:
            received = threads * 365 * years
            a_thread = large + a_doubling * math.log2(received / many) if received else 0
            row[f"after {years} years, in MiB"] = (steps * 365 * years * each + received * a_thread) / MIB
        rows.append({**row, "bytes a thread": round(a_thread) if threads else None})
    return rows


def measure_sizes(bench: Bench) -> Found:
    """The part."""
    rows, wrong = proof_rows(bench)
    names = [name for name in rows[0] if name not in ("how", "steps")]
    growth = []
    for name in (it for it in names if "first" in it or "RFC" in it):
        logarithms, found = [math.log2(row["steps"]) for row in rows], [row[name] for row in rows]
        growth.append({"what": name, "exponent of the logarithm of steps": fit_exponent(logarithms, found), "bound by the format": 1 if "RFC" in name else 2})
    rooms = room_rows(bench)
    tables = {
        "proofs": table({"steps": 0, **dict.fromkeys(names, 0), "how": 0}, rows), "growth": table({"what": 0, "exponent of the logarithm of steps": 2, "bound by the format": 0}, growth),
        "chains": table({"hops": 0, "bytes": 0}, chain_rows(bench)), "room": table({name: 0 for name in rooms[0]}, rooms),
    }  # fmt: skip
    return {"tables": tables, "values": {"wrong": wrong or "none"}}
