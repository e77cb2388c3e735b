"""The nights of a network, and the end, at which all is held against the truth."""

import hashlib
import os
import random
import sys
import time
from collections import Counter
from concurrent.futures import Executor
from pathlib import Path
from typing import NamedTuple, Optional

from network import devices, files, found, told, truth, turns
from network.carrier import Link, Load, carry
from network.faults import KINDS, Fault
from network.orders import drawn_pairs, orders
from network.plan import Plan, plan_of
from network.turns import Task, Turn
from network.web import CUTTING, Web

from weft import signatures

FAULTY = 0.05
MOST_CALL = 60
MOST_PAIRS = 10_000
CALM_NIGHTS = 2
PIECES = 16


class Ways(NamedTuple):
    """How files go: to which share of the signed lines a made-up one is appended on the way; which share of the ways is cut in a night, by which nothing comes then; which
    share of the turns has a fault; over which web server they go, which is hostile where a way is cut, else from folder to folder; and the folder of a network whose
    keys are taken, else new ones are made."""

    appended: float = 0
    cut: float = 0
    faulty: float = FAULTY
    web: Optional[Web] = None
    keys: Optional[Path] = None


class Network:
    """The network in a folder, and what became of it."""

    def __init__(self, folder: Path, program: str, plan: Plan, seed: int, nights: int, executor: Executor, ways: Ways = Ways()):
        self.folder, self.program, self.plan, self.seed, self.nights, self.executor = folder, program, plan, seed, nights, executor
        self.ways, self.asked, self.memory = ways, 0, 0
        self.truth = truth.Truth()
        self.wrong: list[str] = []
        self.found = found.Found(plan)
        self.saved: dict[str, int] = {}
        self.faults: Counter[str] = Counter()
        self.seconds: list[float] = []
        self.processor: list[float] = []
        self.no_devices = devices.hindrance()
        self.kinds = [kind for kind in KINDS if not (self.no_devices and kind.endswith("device"))]
        files.make(folder, program, plan.peers, ways.web, ways.keys)

    # ---- nights

    def play(self, most_seconds: float = float("inf"), progress: bool = False) -> None:
        """All nights, or as many as there are seconds for once each part has begun; the last ones without faults and losses, so that what was sent is there."""
        until, night = time.monotonic() + most_seconds, 0
        while night < self.nights:
            began = time.monotonic()
            if began > until and night >= self.plan.begun:
                self.nights, until = min(self.nights, night + CALM_NIGHTS), float("inf")
            self.schedule(night)
            self.lie(night)
            is_calm = night >= self.nights - CALM_NIGHTS
            tasks = [self.task(night, name, is_calm) for name in self.plan.names if self.is_at_work(night, name)]
            for turn in self.executor.map(turns.turn, tasks, chunksize=max(1, len(tasks) // PIECES)):
                self.judge(night, turn)
            self.carry(night, is_calm)
            self.squat_and_flood(night)
            self.seconds.append(time.monotonic() - began)
            if progress:
                print(f"night {night}: {self.seconds[-1]:.2f} s, {len(self.wrong)} wrong", file=sys.stderr, flush=True)
            night += 1

    def is_at_work(self, night: int, name: str) -> bool:
        """Whether the service makes a turn in this night. One with an old store doesn't while nobody hands it a later line of its own: nothing could tell it."""
        if not self.plan.is_old(night, name) or self.holds_later_line(name):
            return self.plan.is_at_work(night, name)
        self.found.untold.add((night, name))
        return False

    def task(self, night: int, name: str, is_calm: bool) -> Task:
        """What the service does in this night. With an old store it exchanges first, which tells it, and so records nothing."""
        drawn, plan, box = random.Random(f"{self.seed} {night} {name}"), self.plan, self.folder / f"box-{name}"
        events = None if plan.is_old(night, name) else (f"night {night} of {name}".encode(),)
        is_faulty = not is_calm and drawn.random() < self.ways.faulty and name in plan.honest
        fault = Fault(drawn.choice(self.kinds), drawn.randrange(1, MOST_CALL)) if is_faulty else None
        known = {peer: self.truth.lines(peer) for peer in plan.peers[name] if not turns.is_accepted(box / peer)}
        despite = tuple(plan.peers[name]) if plan.is_lying(night, name) else ()
        urls = {peer: self.ways.web.address(f"box-{name}/{peer}/in") for peer in known} if self.ways.web else {}
        return Task(str(self.folder), self.program, name, events, fault, known, despite, urls)

    def came(self, to: str, sender: str) -> Path:
        """Where the files lie that a service put out for its peer: in the peer's folder, or where the web server has them."""
        return self.folder / ("web" if self.ways.web else "") / f"box-{to}/{sender}/in"

    def holds_later_line(self, name: str) -> bool:
        """Whether a peer of a service with an old store hands back a later line of it, which wasn't damaged on its way."""
        for peer in self.plan.peers[name]:
            path = self.came(name, peer) / "yours"
            signed = signatures.read_signed_line(path.read_bytes()) if path.exists() else None
            if signed and signed.line.step > self.saved[name] and signatures.checked_by(signed, signatures.public_key(self.folder / f"{name}.key.pub")):
                return True
        return False

    def judge(self, night: int, turn: Turn) -> None:
        """Notes what a turn made, and what it told."""
        self.truth.add(turn.name, night, turn.lines)
        self.processor.append(turn.processor)
        self.memory = max(self.memory, turn.memory)
        self.wrong += self.found.note(night, turn)
        if turn.fault is not None:
            self.faults[turn.fault.kind if turn.status not in turns.DONE else "without harm"] += 1

    # ---- what is done by the schedule

    def schedule(self, night: int) -> None:
        """Stores that are saved, set back, mended and doubled, or lose a thread."""
        plan, folder = self.plan, self.folder
        for name, begin in plan.old.items():
            if night == plan.saved:
                files.copy(folder, name, folder / "saved")
                self.saved[name] = self.truth.last(name)
            if night == begin:
                files.copy(folder, name, folder / "right")
                files.put_back(folder, name, folder / "saved")
            if night == begin + plan.old_nights:
                files.put_back(folder, name, folder / "right")
        for name, begin in plan.liars.items():
            if night == begin:
                files.begin_lying(folder, name, plan.peers[name], self.ways.web)
        for name, begin in plan.keepers.items():
            if night == begin:
                self.found.dropped[name] = files.drop_thread(folder, self.program, name)

    def lie(self, night: int) -> None:
        """The other histories of the liars go on, up to as many steps as the first ones have."""
        lying = [name for name, begin in self.plan.liars.items() if begin < night]
        for name in lying:
            files.go_on_lying(self.folder, self.program, name, self.truth.last(name) + self.plan.is_ahead(name))
        tasks = [Task(str(self.folder / "false"), self.program, name, None, None, {}, tuple(self.plan.peers[name])) for name in lying]
        for turn in self.executor.map(turns.turn, tasks):
            self.found.note_other(turn.name, turn.lines)

    def squat_and_flood(self, night: int) -> None:
        """A made-up message in somebody's name, and a folder full of files, some of them long."""
        plan = self.plan
        for name, begin in plan.squatted.items():
            if night == begin:
                files.put(self.came(plan.peers[name][0], name) / "message", files.forged(self.folder, self.program, name))
        for name, begin in plan.flooders.items():
            if night == begin:
                for peer in plan.peers[name]:
                    files.flood(self.came(peer, name), self.ways.web is not None or self.ways.keys is not None)

    def carry(self, night: int, is_calm: bool) -> None:
        """Carries what was put out; over the web what is fetched in the next night."""
        links = [self.link(night, name, peer) for name in self.plan.names if self.plan.is_at_work(night, name) for peer in self.plan.peers[name]]
        cut = {} if is_calm else {link: way for link in links if (way := self.cut(night, link)) is not None}
        if self.ways.web is not None:
            self.asked = max(self.asked, *Counter(os.path.dirname(it) for it in self.ways.web.take_asked()).values(), 0)
            self.ways.web.be_hostile({os.path.relpath(link.web, self.ways.web.root): way for link, way in cut.items()})
        links = [link for link in links if link not in cut]
        size = len(links) // PIECES + 1
        late, appended = str(self.folder / "late"), 0 if is_calm else self.ways.appended
        loads = [Load(self.seed, night, is_calm, late, links[at : at + size], appended) for at in range(0, len(links), size)]
        for _ in self.executor.map(carry, loads):
            pass

    def cut(self, night: int, link: Link) -> Optional[str]:
        """In which way the server of a way is hostile in the night after this one, so that nothing comes; None where it isn't."""
        drawn = random.Random(f"{self.seed} {night} {link.name} cut")
        return drawn.choice(CUTTING) if drawn.random() < self.ways.cut else None

    def link(self, night: int, name: str, peer: str) -> Link:
        """The way from a service to its peer. One that is shown a liar's other history answers that one; of its messages nothing gets there."""
        out, into, only = "", f"box-{peer}/{name}/in", tuple[str, ...]()
        if self.plan.is_shown_other(night, name, peer):
            out = "false"
        if self.plan.is_shown_other(night, peer, name):
            into, only = f"false/{into}", ("receipt", "refusal", "requests")
        below = f"www/{name}/peers/{peer}" if self.ways.web else f"box-{name}/{peer}/out"
        return Link(f"{name}-{peer}", str(self.folder / out / below), str(self.folder / into), only, str(self.folder / "web" / into) if self.ways.web else "")

    # ---- the end

    def check(self, most_pairs: int) -> told.Figures:
        """Holds all against the truth; answers the figures."""
        plan = self.plan
        histories = {name: truth.history(self.folder, self.program, name) for name in plan.honest}
        for name in plan.honest:
            self.wrong += self.truth.wrong_with(name, histories[name])
        for name in plan.gone:
            receivers = [it for it in plan.peers[name] if it in histories]
            if receivers:
                self.wrong += truth.taken_over(self.folder, self.program, name, receivers, histories)
                self.found.taken_over.add(name)
        counts, wrong = self.found.counted(self.folder, self.program, histories)
        self.wrong += wrong
        events, reach = self.truth.events(plan.honest, histories, self.nights), truth.Reach(histories)
        found_orders = orders(self.folder, self.program, plan.honest, drawn_pairs(events, most_pairs, self.seed), reach, self.executor)
        self.wrong += found_orders.wrong
        staying = [name for name in plan.honest if name not in plan.gone]
        spread = truth.spread_of(reach, self.truth, [event for event in events if event.name in staying], staying, self.nights)
        sizes = [os.path.getsize(self.folder / name / "timeline.tw") for name in plan.honest]
        steps = [len(histories[name]) for name in plan.honest]
        return told.Figures(
            len(plan.names), self.nights, self.seed, found_orders.pairs, len(found_orders.shown),
            told.mean([order.hops for order in found_orders.shown]), max((order.hops for order in found_orders.shown), default=0),
            told.mean([order.size for order in found_orders.shown]), spread, told.mean(sizes), told.mean(steps), told.mean(self.seconds),
            told.mean(self.processor), round(os.getloadavg()[2]), dict(self.faults), counts, self.no_devices, self.ways.web is not None, self.ways.cut, self.asked, self.memory,
        )  # fmt: skip


def played(
    folder: Path, program: str, services: int, nights: int, seed: int, executor: Executor, ways: Ways = Ways(), most_pairs: int = MOST_PAIRS
) -> tuple[list[str], told.Figures]:
    """Plays a network over an executor, and draws so many pairs of events at most; answers what was wrong, and the figures."""
    network = Network(folder, os.path.abspath(program), plan_of(services, nights, seed), seed, nights, executor, ways)
    network.play()
    return network.wrong, network.check(most_pairs)


def finds_of(folder: Path) -> dict[str, str]:
    """The files by which boxes keep that a peer has two histories, each with its digest; and of each service the file of its last line, which stands for all its
    steps."""
    forks = [path for path in folder.glob("box-*/*/kept/forks/*") if not path.name.endswith(".new")]
    return {path.relative_to(folder).as_posix(): hashlib.sha256(path.read_bytes()).hexdigest() for path in sorted([*forks, *folder.glob("s*.anchor")])}


def compare_finds(web: dict[str, str], folders: dict[str, str]) -> list[str]:
    """Which files of finds over the web aren't there over folders, or have other bytes, and the other way round; and what is wrong where there is nothing to compare."""
    if not any("/forks/" in name for name in web):
        return ["nobody keeps that anybody has two histories"]
    unlike = [name for name in sorted({*web, *folders}) if web.get(name) != folders.get(name)]
    return [f"{name}: {web.get(name, 'not there')} over the web, {folders.get(name, 'not there')} over folders" for name in unlike]
