"""Acceptance cases of networks: six services exchange for thirty nights while files are lost, doubled and late; then every pair is connected by a
proof that `strict` accepts; an old store, a fork and a squatter are told by name, and nobody else is.

    PYTHONPATH=tests/acceptance python3 -m cases.weft_network PROGRAM [NIGHTS [SEED]]    plays it, and prints what each night told
"""

import contextlib
import os
import random
import shutil
import sys
import tempfile
from concurrent.futures import ProcessPoolExecutor
from pathlib import Path
from types import SimpleNamespace

from cases.weft_exchange import Net, pair, received
from harness.rooms import Skipped, Wrong, case
from harness.weft_room import reseal
from network import devices
from network import play as played_network
from network.web import Web
from weft import program

NAMES = [f"s{number}" for number in range(6)]
LOST, LATE = 0.3, 0.1
# After so many nights without anything new a peer's silence is told.
SILENT = 20
# The service that shows two histories, the one whose old store is put back, and the one whose name a squatter uses.
LIAR, OLD, SQUATTED = "s1", "s4", "s2"
NIGHTS = 30
# Of a small device so many pages are free at most.
MOST_PAGES = 24
# A service asks for a peer's index, its files and what was sent on, twice in a night; and so many bytes of memory a run has.
MOST_ASKED, MOST_MEMORY = 160, 256 << 20
# Over the web this share of the ways has a hostile server in a night; in these nights some of them send without an end, are slow, or don't answer.
CUT, WEB_SEED, MOST_WEB_PAIRS = 0.02, 2, 300


def peers_of(number):
    """Whom a service exchanges with: those beside it in a ring, and the one across."""
    return [NAMES[k] for k in sorted({(number + 1) % 6, (number - 1) % 6, (number + 3) % 6})]


class Weave(Net):
    """The network, with a carrier that loses, doubles and delays files by a seed."""

    def __init__(self, room, seed):
        super().__init__(room, {name: peers_of(number) for number, name in enumerate(NAMES)})
        for name in NAMES:  # (a line that is lost in three nights running is no reason for a look where three files in ten are)
            self.loom.put(f"box-{name}/box.conf", f"key = ../{name}.key\nsilent = {SILENT}\n")
        self.random, self.late, self.told, self.events = random.Random(seed), [], [], {}

    def carry_some(self):
        """Carries what isn't lost; some of it comes once more a night later."""
        late, self.late = self.late, []
        for to, data in late:
            put(to, data)
        for name, others in self.peers.items():
            for other in others:
                for path, to in self.carried(name, other):
                    if self.random.random() < LOST:
                        continue
                    put(to, path.read_bytes())
                    if self.random.random() < LATE:
                        self.late.append((to, path.read_bytes()))

    def night_of(self, number, despite=()):
        """A night: each records something, makes its turn, and then files are carried."""
        for name in self.peers:
            if name not in despite:
                line = self.loom.append(name, f"night {number} of {name}".encode())
                self.events.setdefault(name, []).append(int(line.split()[1]))
            done = self.loom.run("exchange", name, f"box-{name}", *self.adopting(name))
            if done.status not in (0, 10) or done.err:
                self.told.append((number, name, done.status, done.out + done.err))
            elif done.status == 10 and "it is new" not in done.out:
                self.told.append((number, name, done.status, done.out))
        self.carry_some()
        for name, others in self.peers.items():
            for other in others:
                box = self.loom.folder / f"box-{name}/{other}"
                if not (box / "kept/accepted").exists() and (box / "in/message").exists():
                    self.loom.run("accept", f"box-{name}", other, "--yes", self.waiting(name, other))

    def adopting(self, name):
        """How the last line of a service is named that was made by hand, in its first turn."""
        is_first = not (self.loom.folder / f"{name}.lines").exists()
        return ["--adopt-store", self.loom.run("line", name).out.strip()] if is_first else []


def put(path, data):
    """Puts a carried file down."""
    path.parent.mkdir(parents=True, exist_ok=True)
    path.write_bytes(data)


def play(room, nights=NIGHTS, seed=1):
    """Thirty nights without a liar: no alarm. Then all pairs are connected."""
    weave = Weave(room, seed)
    for number in range(nights):
        weave.night_of(number)
    if weave.told:
        raise Wrong(f"  a false alarm: {weave.told[:3]}")
    return weave


def connected(weave):
    """Each pair of services is connected by a proof that strict accepts, made by weft chain at the earlier one where they are peers, else at one that both
    exchange with."""
    loom = weave.loom
    for first in NAMES:
        for second in NAMES:
            if first == second:
                continue
            earlier = weave.events[first][0]
            later = weave.events[second][-1]
            stores = [first, second] if second in weave.peers[first] else [first, second, *common(weave, first, second)]
            words = ["chain", f"{first}:{earlier}:0", f"{second}:{later}:0", "--out", "chain"]
            for name in stores:
                words += ["--store", name, "--box", f"box-{name}"]
            loom.expect(words, 0, "chain: shown", "Every hop is bound by a line that you hold")


def common(weave, first, second):
    """Those that both exchange with."""
    return [name for name in weave.peers[first] if name in weave.peers[second]]


def by_requests(weave, nights):
    """A chain from a peer's event to an own one is made of what the peer's turns answer to requests, with the same losses on the way."""
    loom, first = weave.loom, NAMES[0]
    second = weave.peers[first][0]
    loom.put(f"box-{second}/{first}/events", "* *\n")
    words = ["chain", f"{first}:{weave.events[first][1]}:0", f"{second}:{weave.events[second][-1]}:0", "--store", first, "--box", f"box-{first}", "--out", "asked"]
    for number in range(12):
        done = loom.run(*words)
        if done.status == 0:
            return
        if done.status != 12:
            raise Wrong(f"  {done}")
        weave.night_of(nights + number)
    raise Wrong(f"  after 12 nights: {loom.run(*words)}")


def woven(room):
    """six services, thirty nights, 30 % of the files lost, 10 % doubled and late: no alarm, and every pair is connected by a strictly accepted proof"""
    weave = play(room)
    connected(weave)
    by_requests(weave, NIGHTS)
    for name in NAMES:
        threads = received(weave.loom, name)
        if len(set(threads)) != len(threads):
            raise Wrong(f"  {name} received a line twice")


def liars(room):
    """in such a network an old store that was put back is told by its service's own turn, a fork as evidence with its name, a squatter is held back; and
    no other alarm comes"""
    weave = play(room, 8, 2)
    loom = weave.loom
    saved = loom.folder / "tmp/old"
    for name in (OLD, f"{OLD}.lines", f"{OLD}.anchor"):
        copy(loom.folder / name, saved / name)
    for name in (LIAR, f"{LIAR}.lines", f"{LIAR}.anchor", f"{LIAR}.seal", f"box-{LIAR}"):
        copy(loom.folder / name, loom.folder / f"tmp/false/{name.replace(LIAR, 'false')}")
    reseal(loom.folder / "tmp/false")
    for number in range(8, 12):
        weave.night_of(number)
    for name in (OLD, f"{OLD}.lines", f"{OLD}.anchor"):
        path = loom.folder / name
        shutil.rmtree(path) if path.is_dir() else path.unlink()
        copy(saved / name, path)
    forge(loom)
    for number in range(12, 22):
        fork_on(weave, number)
        weave.night_of(number, despite=(OLD,))
    alarms = {(name, status, kind_of(text)) for _, name, status, text in weave.told}
    if not any(name == OLD and status == 17 for name, status, _ in alarms):
        raise Wrong(f"  the old store wasn't told: {alarms}")
    if not any(kind == f"evidence {LIAR}" for _, _, kind in alarms):
        raise Wrong(f"  the fork wasn't told: {alarms}")
    others = {it for it in alarms if it[0] != OLD and it[2] not in (f"evidence {LIAR}", f"unlike {LIAR}", f"unsigned {SQUATTED}", f"own {LIAR}")}
    if others:
        raise Wrong(f"  another alarm: {others}\n{weave.told}")
    for name in weave.peers[SQUATTED]:
        if any(step > 10_000 for service, step in received(loom, name) if service == SQUATTED):
            raise Wrong("  the squatter's line was received")


def kind_of(text):
    """What an alarm is about, and of whom."""
    for line in text.splitlines():
        name = line.split(":")[0]
        for words, kind in (("EVIDENCE", "evidence"), ("isn't signed by the key", "unsigned"), ("doesn't lead up", "unlike"), ("another authenticator", "unlike")):
            if words in line:
                return f"{kind} {name}"
        if "isn't the store of" in line:
            return f"own {line.split()[1]}"
    return text


def forge(loom):
    """A made-up message of a great step in the squatted name, not signed by its key."""
    loom.key("thief")
    loom.service(SQUATTED, *[[b"x"]] * 3, folder="tmp/forged")


def fork_on(weave, number):
    """The liar's other history goes to one peer, and the squatter's message to another."""
    loom, victim = weave.loom, weave.peers[LIAR][0]
    box = loom.folder / "tmp/false"
    loom.append("tmp/false/false", b"other %d" % number)
    loom.put("tmp/false/box-false/box.conf", f"key = {loom.folder}/{LIAR}.key\n")
    loom.run("exchange", "tmp/false/false", "tmp/false/box-false", "--despite", *weave.peers[LIAR][:1])
    for path in (box / f"box-false/{victim}/out").iterdir():
        if path.is_file() and path.name in ("message", "line"):
            shutil.copy2(path, loom.folder / f"box-{victim}/{LIAR}/in/{path.name}")
    into = loom.folder / f"box-{weave.peers[SQUATTED][0]}/{SQUATTED}/in"
    if number == 15 and into.exists():
        put(into / "message", loom.timeweave("thread", "tmp/forged", "0"))


def in_earnest(room):
    """eight services weave for sixty nights (tests/play_network.py) while files are lost, doubled, late and damaged, runs and the program are killed and devices
    fail or are full: each order that receipts can show is shown and no other, no step is lost, a fork, an old store, a squatter and a flood are told, a
    dropped thread is shown, and nobody else is accused"""
    folder = Path(room.folder) / "network"
    folder.mkdir()
    with ProcessPoolExecutor(len(os.sched_getaffinity(0))) as executor:
        wrong, figures = played_network.played(folder, room.program, 8, 60, 1, executor)
    if wrong or figures.shown < 300:
        raise Wrong(f"  {wrong[:5]}\n  {figures}")


def over_the_web(room):
    """eight services weave for sixteen nights over one web server alone (tests/play_network.py), whose answers are hostile on one way in fifty a night, and the same
    over folders, where nothing comes on these ways: each file by which a box keeps that a peer has two histories, and each service's last line, has the same bytes;
    nobody who keeps the rules is accused, each order that receipts can show is shown and no other, a night asks a bounded number of times, and no run has more memory
    than others"""
    place = Path(room.folder) / "network"
    # (the processes of the network are forked from this one, which may have looked for the program before)
    os.environ["TIMEWEAVE_PROGRAM"] = os.path.abspath(room.program)
    program.find_program.cache_clear()
    for name in ("web", "folders"):
        (place / name).mkdir(parents=True)
        with contextlib.ExitStack() as stack:
            web = stack.enter_context(contextlib.closing(Web(place / name / "web"))) if name == "web" else None
            executor = stack.enter_context(ProcessPoolExecutor(len(os.sched_getaffinity(0))))
            ways = played_network.Ways(cut=CUT, faulty=0, web=web, keys=None if web else place / "web")
            # (where all steps are the same, so are the orders)
            wrong, figures = played_network.played(place / name, room.program, 8, 16, WEB_SEED, executor, ways, MOST_WEB_PAIRS if web else 0)
        if wrong or (web and not figures.shown) or figures.asked > MOST_ASKED or figures.memory > MOST_MEMORY:
            raise Wrong(f"  {name}: {wrong[:5]}\n  {figures}")
    wrong = played_network.compare_finds(played_network.finds_of(place / "web"), played_network.finds_of(place / "folders"))
    if wrong:
        raise Wrong("  " + "\n  ".join(wrong))


def small_devices(room):
    """a turn whose store or box lies on a file system that is full, or has a few free pages, ends with a sentence, and what was there stands: the next one
    goes on, no acknowledged step is lost, and no line is recorded twice"""
    if devices.hindrance():
        raise Skipped(devices.hindrance())
    net = pair(room)
    loom, lines = net.loom, []
    for place, left_out in (("shop", ""), ("box-shop", "in")):
        statuses = []
        for pages in range(MOST_PAGES):
            lines.append(loom.append("shop", b"%d pages of %s" % (pages, place.encode())))
            net.turn("bank", 0)
            net.carry("bank", "shop")
            done = loom.run("exchange", "shop", "box-shop", patch=lambda: devices.move_to(loom.folder / place, pages, left_out))
            if done.status not in (0, 5) or done.status == 5 and "weft: " not in done.err:
                raise Wrong(f"  {pages} free pages for {place}: {done}")
            statuses.append(done.status)
            net.night()
        if {*statuses} != {0, 5}:
            raise Wrong(f"  {place} on a small device: {statuses}")
    told = [loom.timeweave("prove", "shop", "event", line.split()[1], "0", line.split()[1]) for line in lines]
    for line, proof in zip(lines, told):
        loom.put("proof", proof)
        loom.put("line", line)
        loom.timeweave("strict", "proof", "line")
    for name in net.peers:
        threads = received(loom, name)
        if len(set(threads)) != len(threads):
            raise Wrong(f"  {name} received a line twice")


def copy(path, to):
    """Copies a file or a folder."""
    to.parent.mkdir(parents=True, exist_ok=True)
    (shutil.copytree if path.is_dir() else shutil.copy2)(path, to)


def cases():
    return [case(work, "weft network") for work in (woven, liars, small_devices, in_earnest, over_the_web)]


if __name__ == "__main__":
    with tempfile.TemporaryDirectory() as place:
        nights_, seed_ = (int(word) for word in (sys.argv[2:4] + ["30", "1"][len(sys.argv[2:4]) :]))
        found = play(SimpleNamespace(folder=place, program=os.path.abspath(sys.argv[1])), nights_, seed_)
        connected(found)
        by_requests(found, nights_)
        print(f"{nights_} nights, seed {seed_}: no alarm, all pairs connected; {[found.last(name) for name in NAMES]} steps")
