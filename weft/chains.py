"""The proof that one event precedes another, put together of parts: a way is found by receipts, each part is taken from where it is at hand, and what
isn't is asked for. Nothing here judges: what is joined is judged as any proof is."""

from __future__ import annotations

import copy
import functools
import tempfile
from bisect import bisect_left
from pathlib import Path
from typing import Callable, Iterable, Iterator, NamedTuple, Optional, Sequence, Union

from weft import asking, box, formats, joints, program, signatures
from weft.box import Peer
from weft.deciding.choosing import Needed, choose_holders
from weft.deciding.doubting import find_doubted, list_trusted
from weft.deciding.keeping import Counting, Mark, list_counting
from weft.judges import Bench
from weft.lines import Kept, KeptLines, kept_now
from weft.own import OwnLines
from weft.sentences import fill
from weft.statuses import Status
from weft.stores import Store
from weft.texts import listed, name_of, steps_of
from weft.trouble import Trouble

MOST_HOPS = 64
MOST_ASKED = 2
# So many further ways are asked for beside the shortest one; a peer passes on somewhat more requests at a time.
MOST_WAYS = 15
# Who tells what named files have: never doubted.
AT_HAND = ""


class Event(NamedTuple):
    """An event: its service, its step from 1 on, its place there from 0 on; and a proof of it that is at hand, or None."""

    service: str
    step: int
    place: int
    proof: Optional[bytes] = None


class Hop(NamedTuple):
    """A step of a service that another one received, at a step of its own."""

    service: str
    step: int
    by: str
    archived: int


class Part(NamedTuple):
    """A part: whose store proves it, and the words behind `prove DIR`."""

    service: str
    request: str

    @property
    def command(self) -> str:
        """The command by which its service makes it."""
        return f"timeweave prove DIR {self.request}"


    def refutes(self, hop: Hop) -> bool:
        """Whether a hop isn't so, where the service can't prove this part, a thread."""
        _, received, service, step, _ = self.request.split(" ")
        return (hop.by, hop.service, hop.step) == (self.service, service, int(step)) and hop.archived <= int(received)


class StoreEdges:
    """The hops into the service of a store, of whatever size it is: each is asked for by a map, once."""

    def __init__(self, store: Store, name: str):
        self.store, self.name = store, name
        self.known: dict[tuple[str, int], Optional[Hop]] = {}

    def first_from(self, service: str, step: int, refuted: set[int]) -> Optional[Hop]:
        """The first hop of this step of a service or a later one, but for steps that were refuted; steps of one service are received rising."""
        while (found := self.ask_store(service, step)) is not None and found.step in refuted:
            step = found.step + 1
        return found

    def ask_store(self, service: str, step: int) -> Optional[Hop]:
        """What the store tells."""
        if (service, step) not in self.known:
            answer = self.store.ask("map", "high", str(step), service)
            if answer.status and answer.words[:2] != ["refused", "NoStep"]:
                raise self.store.trouble(answer)
            entry = formats.first_received(answer.output) if answer.status == 0 else None
            self.known[service, step] = Hop(entry.service, entry.step, self.name, entry.archived) if entry is not None else None
        return self.known[service, step]


class Graph:
    """Hops by the two services of each, so that the way from a step on is found without looking at all of them; those into a store's service the store
    tells. A hop counts where `may_count` says so."""

    def __init__(self, hops: Iterable[Hop], stores: Iterable[StoreEdges] = (), may_count: Callable[[Hop], bool] = lambda hop: True):
        self.stores, self.may_count = {it.name: it for it in stores}, may_count
        self.refuted: dict[tuple[str, str], set[int]] = {}
        self.edges: dict[str, dict[str, Edge]] = {}
        pairs: dict[tuple[str, str], list[Hop]] = {}
        for hop in hops:
            if hop.by not in self.stores and may_count(hop):
                pairs.setdefault((hop.service, hop.by), []).append(hop)
        for service, by in sorted(pairs):
            self.edges.setdefault(service, {})[by] = Edge(pairs[service, by])

    def way(self, first: Event, second: Event, shunned: frozenset[tuple[str, str]]) -> Optional[list[Hop]]:
        """The fewest hops that lead from the first event's step to the step before the second's, from the first event on, none of them between two
        services that are shunned; None where none do."""
        reached: dict[str, tuple[int, list[Hop]]] = {first.service: (first.step, [])}
        last = list(reached)
        for _ in range(MOST_HOPS):
            found = dict(reached)
            for service in last:
                step, before = reached[service]
                for hop in self.hops_from(service, step, shunned):
                    if hop.by not in found or hop.archived < found[hop.by][0]:
                        found[hop.by] = hop.archived, [*before, hop]
            last = [service for service, it in found.items() if reached.get(service) is not it]
            reached = found
            end = reached.get(second.service)
            if end is not None and end[1] and end[0] < second.step:
                return end[1]
            if not last:
                return None
        return None

    def hops_from(self, service: str, step: int, shunned: frozenset[tuple[str, str]]) -> Iterator[Hop]:
        """The first hop from a step of a service on to each other one."""
        for by, edge in self.edges.get(service, {}).items():
            hop = None if (service, by) in shunned else edge.first_from(step)
            if hop is not None:
                yield hop
        for by, store in self.stores.items():
            hop = None if by == service or (service, by) in shunned else store.first_from(service, step, self.refuted.get((service, by), set()))
            if hop is not None and self.may_count(hop):
                yield hop

    def refute(self, part: Part) -> None:
        """Takes out the hops by which a receiver would have a line that it can't prove: a receipt may be made up, or damaged on its way."""
        _, received, service, step, _ = part.request.split(" ")
        self.refuted.setdefault((service, part.service), set()).add(int(step))
        edges = self.edges.get(service, {})
        if part.service in edges:
            left = [hop for hop in edges[part.service].hops if hop.step != int(step) or hop.archived > int(received)]
            edges[part.service] = Edge(left)


class Edge:
    """The hops from one service to another one."""

    def __init__(self, hops: list[Hop]):
        self.hops = sorted(hops)
        self.steps = [hop.step for hop in self.hops]
        self.best = self.hops[:]
        for place in range(len(hops) - 2, -1, -1):
            self.best[place] = min(self.hops[place], self.best[place + 1], key=lambda hop: hop.archived)

    def first_from(self, step: int) -> Optional[Hop]:
        """The hop of this step or a later one that is archived first."""
        place = bisect_left(self.steps, step)
        return self.best[place] if place < len(self.best) else None


def matches(data: bytes, part: Part) -> bool:
    """Whether a proof is of what a part asks for; what it shows isn't judged."""
    proof, words = formats.read_proof(data), part.request.split(" ")
    if proof is None or proof.service != part.service or proof.step != int(words[1]):
        return False
    if isinstance(proof, formats.proofs.ThreadProof):
        return words[0] == "thread" and [proof.entry.service, str(proof.entry.step)] == words[2:4]
    if isinstance(proof, formats.proofs.LinkProof):
        return words[0] == "link" and proof.top == int(words[2])
    if isinstance(proof, formats.proofs.ExistenceProof):
        return words[0] == "event" and (proof.event.index, proof.top) == (int(words[2]), int(words[3]))
    return False


def hops_of(data: bytes) -> list[Hop]:
    """What receipts or the proof of a thread tell."""
    if formats.kind_of(data) == "receipts":
        return [Hop(it.service, it.step, it.recorder, it.archived) for it in formats.read_receipts(data)]
    proof = formats.read_proof(data) if formats.kind_of(data) == "thread" else None
    if isinstance(proof, formats.proofs.ThreadProof):
        return [Hop(proof.entry.service, proof.entry.step, proof.service, proof.entry.archived)]
    return []


def lines_of_peer(peer: Peer) -> list[Union[Kept, Mark]]:
    """The lines that were kept of a peer in its box, and its marks, but for lines that a key signed which isn't noted there any more, and for what is told of
    a contradiction with them."""
    found = KeptLines()
    found.add_text(peer.kept / "lines", peer.read("lines").decode("utf-8", "replace"))
    signers = peer.folder.parent / "allowed_signers"
    noted, late = joints.counting_keys(signers, peer), signatures.late_of(signers, peer.name, found.of(peer.name))
    counting: list[Union[Kept, Mark]] = []
    for service, step in sorted({(it.line.service, it.line.step) for it in found.all()} | found.marks.keys()):
        kept, marks = found.all_at(service, step), found.marks_at(service, step)
        left = list_counting(kept, marks, noted, late) if service == peer.name else Counting(list(kept), list(marks))
        counting += [*left.kept, *left.marks]
    return counting


class Sources:
    """What is at hand: stores, boxes with what peers handed out, files; and the lines that are held: one's own, those of peers and stores too, or a reader's alone."""

    def __init__(self, stores: list[Store], boxes: list[Path], hand: list[bytes], kept: KeptLines, judge: Bench, is_for_reader: bool = False):
        self.is_for_reader = is_for_reader
        self.stores = {store.last().line.service: store for store in stores}
        self.store_edges = [StoreEdges(store, name) for name, store in sorted(self.stores.items())]
        self.judge, self.kept, self.hand = judge, kept, hand
        self.refused: set[Part] = set()
        self.graphs: dict[tuple[bool, bool], Graph] = {}
        self.doubted: set[str] = set()
        self.made: dict[Part, bytes] = {}
        self.peers: dict[str, list[Peer]] = {}
        for place in boxes:
            settings = box.read_settings(place)
            for peer in box.peers_of(place, (), settings)[0]:
                self.peers.setdefault(peer.name, []).append(peer)
        if is_for_reader:
            return
        for peer in self.all_peers():
            for it in lines_of_peer(peer):
                kept.add(it)
        for store in self.stores.values():
            for line in {*OwnLines(store.folder).known, store.last().line}:
                if line.step:
                    kept.add(kept_now(line, f"of the store in {name_of(store.path)}"))

    def all_peers(self) -> Iterable[Peer]:
        """The peers of all boxes."""
        return (peer for peers in self.peers.values() for peer in peers)

    def graph(self, is_bound: bool, is_trusted: bool) -> Graph:
        """What is known to have been received, by receipts and by the stores, but for what its receiver couldn't prove. All of it, or what a held line can
        bind; told by anybody, or by somebody of whom no receipt failed."""
        if (is_bound, is_trusted) not in self.graphs:
            hops = list_trusted(self.tellers, self.doubted) if is_trusted else list(self.tellers)
            found = Graph(hops, self.store_edges, (lambda hop: self.top(hop.service, hop.step) is not None) if is_bound else (lambda hop: True))
            for part in self.refused:
                found.refute(part)
            self.graphs[is_bound, is_trusted] = found
        return self.graphs[is_bound, is_trusted]

    def way(self, first: Event, second: Event, shunned: frozenset[tuple[str, str]]) -> Optional[list[Hop]]:
        """The fewest hops from one event to another: of those that a held line can bind first, and of those whose tellers aren't doubted; None where there
        are none."""
        for is_trusted in (True, False):
            for is_bound in (True, False):
                found = self.graph(is_bound, is_trusted).way(first, second, shunned)
                if found is not None:
                    return found
        return None

    @functools.cached_property
    def tellers(self) -> dict[Hop, set[str]]:
        """What receipts tell, and who told it: a peer by its name, AT_HAND of files that were named."""
        found: dict[Hop, set[str]] = {}
        pieces = {(peer.name, piece) for peer in self.all_peers() for name in ("heard", "given", "got") for piece in formats.receipt_pieces(peer.read(name))}
        for teller, data in [*((AT_HAND, data) for data in self.hand), *sorted(pieces)]:
            for hop in hops_of(data):
                found.setdefault(hop, set()).add(teller)
        return found

    def part(self, part: Part) -> Optional[bytes]:
        """The bytes of a part, or None where it isn't at hand."""
        for data in self.hand:
            if matches(data, part):
                return data
        store = self.stores.get(part.service)
        if store is not None:
            return self.of_store(store, part)
        for peer, request in [*((peer, part.request) for peer in self.peers.get(part.service, [])), *self.passed_on(part)]:
            answer = asking.known(peer, request)
            if answer is not None and matches(answer, part):
                return answer
            if answer is not None and answer.startswith(b"refused NoThread") and part.request.startswith("thread "):
                self.refuse(part)
        return None

    def passed_on(self, part: Part) -> list[tuple[Peer, str]]:
        """Peers that exchange with the service of a part, as receipts tell, each with the request that it is to pass on; none for events, which are
        handed out to known peers alone."""
        if part.request.startswith("event") or part.service in self.peers:
            return []
        beside = {hop.by for hop in self.tellers if hop.service == part.service} | {hop.service for hop in self.tellers if hop.by == part.service}
        return [(peer, f"of {part.service} {part.request}") for name in sorted(beside & self.peers.keys()) for peer in self.peers[name]][:MOST_ASKED]

    def of_store(self, store: Store, part: Part) -> Optional[bytes]:
        """The part that a store makes, or None where it has received no such line."""
        if part not in self.made:
            answer = store.ask("prove", *part.request.split(" "))
            if answer.words[:2] == ["refused", "NoThread"]:
                self.refuse(part)
                return None
            if answer.status:
                raise store.trouble(answer)
            self.made[part] = answer.output
        return self.made[part]

    def refuse(self, part: Part) -> None:
        """Notes that the receiver of a line can't prove that it had received it by a step, and doubts who told so."""
        self.refused.add(part)
        new = find_doubted(filter(part.refutes, self.tellers), self.tellers) - self.doubted - {AT_HAND}
        if new:
            self.doubted |= new
            self.graphs.clear()
        for graph in self.graphs.values():
            graph.refute(part)

    def copied(self) -> Sources:
        """The same, of which other parts may be supposed to be refused."""
        other = copy.copy(self)
        other.refused, other.doubted, other.graphs = set(self.refused), set(self.doubted), {}
        return other

    def suppose_refused(self, part: Part, is_missing: bool) -> None:
        """Goes on as if a thread were refused: who told of one that is missing would be doubted then; one that is at hand is only left aside."""
        if is_missing:
            self.refuse(part)
            return
        self.refused.add(part)
        for graph in self.graphs.values():
            graph.refute(part)

    def ask(self, part: Part) -> str:
        """Asks for a part, or says whom to ask."""
        for peer in self.peers.get(part.service, []):
            data = asking.known(peer, part.request)
            asking.ask(peer, part.request)
            if data is not None and data.startswith(b"refused"):
                told = f"{part.service} answered {asking.told_refusal(data)}, which nobody signs: it is asked again each night"
                return f"{told}. Or ask its keeper for {part.command}, and name the file by --hand"
            return f"{part.service} is asked for it by the next weft exchange ({part.request})"
        over = self.passed_on(part)
        for peer, request in over:
            asking.ask(peer, request)
        if over:
            names = listed([peer.name for peer, _ in over])
            return f"{part.service} is asked for it over {names}, by the next weft exchange ({part.request}); it takes a night more each way"
        return f"ask {part.service} for {part.command}, and name the file by --hand"

    def ask_peers(self, part: Part) -> bool:
        """Asks those peers for a part who haven't answered; answers whether there are any."""
        asked = [*((peer, part.request) for peer in self.peers.get(part.service, [])), *self.passed_on(part)]
        left = [(peer, request) for peer, request in asked if asking.known(peer, request) is None]
        for peer, request in left:
            asking.ask(peer, request)
        return bool(left)

    def ask_again(self, parts: Iterable[Part]) -> list[str]:
        """Asks peers anew for those of these parts that were at hand by their answers, since what was joined of them is refused: any of them may be made up.
        Answers the names of the peers."""
        names: dict[str, None] = {}
        for part in parts:
            asked = [*((peer, part.request) for peer in self.peers.get(part.service, [])), *self.passed_on(part)]
            for peer, request in asked:
                data = asking.known(peer, request)
                if data is not None and matches(data, part):
                    asking.ask_anew(peer, request, data)
                    names[peer.name] = None
        return list(names)

    def top(self, service: str, step: int) -> Optional[int]:
        """The least step, from this one on, of which a line is held that counts; where lines of each contradict, the least of those."""
        steps = self.kept.steps(service)
        places = range(bisect_left(steps, step), len(steps))
        return next((steps[place] for place in places if not self.kept.is_disputed(service, steps[place])), steps[places[0]] if places else None)


# ---- the way


class Plan(NamedTuple):
    """The parts, in the order in which they are joined."""

    parts: list[Part]
    hops: list[Hop]

    def hop_of(self, place: int) -> Optional[Hop]:
        """The hop that the part of this place is of, None of those of both events."""
        number = (place - 1) // 2
        return self.hops[len(self.hops) - 1 - number] if 0 <= number < len(self.hops) and place > 0 else None


def lines_needed(hops: list[Hop], second: Event, top: Optional[int]) -> dict[str, int]:
    """Of each service the least step whose line may serve: that of the second event's proof, and those that bind."""
    needed = {second.service: top or second.step}
    for hop in hops:
        needed[hop.service] = max(needed.get(hop.service, 0), hop.step)
    return needed


def planned(sources: Sources, hops: list[Hop], first: Event, second: Event) -> Plan:
    """The parts of a way; raises Trouble where a line is missing, or lines of a step contradict and none was chosen."""
    given = formats.read_proof(second.proof) if second.proof is not None else None
    wanted = lines_needed(hops, second, given.top if given else None)
    held = {service: sources.top(service, step) for service, step in wanted.items()}
    tops = {service: step for service, step in held.items() if step is not None}
    if len(tops) < len(wanted):
        raise no_lines(sources, [Needed(service, step) for service, step in wanted.items() if service not in tops])
    for service, step in tops.items():
        sources.kept.one(service, step)
    if given:
        tops[second.service] = given.top
    parts = [Part(second.service, f"event {second.step} {second.place} {tops[second.service]}")]
    service, step = second.service, second.step - 1
    for hop in reversed(hops):
        parts.append(Part(service, f"thread {step} {hop.service} {hop.step} {step}"))
        parts.append(Part(hop.service, f"link {hop.step} {tops[hop.service]}"))
        service, step = hop.service, hop.step
    parts.append(Part(first.service, f"event {first.step} {first.place} {step}"))
    return Plan(parts, hops)


def no_lines(sources: Sources, missing: Sequence[Needed]) -> Trouble:
    """That lines are missing, all of them, and from whom each may come."""
    who, keep = ("the reader holds", "Then name them by --for") if sources.is_for_reader else ("you hold", "Then keep it: weft keep")
    told = f"{who} no line of {listed([f'{it.service} from step {it.step} on{held_of(sources, it.service)}' for it in missing])}"
    holders = [holders_told(sources, it) for it in missing]
    advice = f"Ask for each somebody who kept it, and not its service alone: {''.join(f'{it} ' for it in holders if it)}a notary, another reader. {keep}. {fill('only now')}"
    return Trouble(Status.MISSING, told, advice)


def held_of(sources: Sources, service: str) -> str:
    """Of which steps of a service lines are held, where some are."""
    steps = sources.kept.steps(service)
    return f" (but of {steps_of([steps[-1]])} and before)" if steps else ""


def holders_told(sources: Sources, needed: Needed) -> str:
    """Which of the services of whom lines are held, of the peers and of one's own received such a line, as receipts tell it; nothing where none did."""
    known = {*sources.kept.services(), *sources.peers, *sources.stores}
    names = choose_holders(needed, ((hop.service, hop.step, hop.by) for hop in sources.tellers), known)
    return f"of {needed.service} {listed(names)}, which received one;" if names else ""


def expect_held(sources: Sources, second: Event) -> None:
    """Raises Trouble where a proof of the second event is given, and is under a line that isn't held: then no part is worth asking for."""
    given = formats.read_proof(second.proof) if second.proof is not None else None
    if given is None or sources.kept.at(given.service, given.top):
        return
    held = sources.top(given.service, given.step)
    wanted = f"under a line that you hold (weft prove .. --top {'N' if held is None else held})"
    told = f"the later event is proved under step {given.top} of {given.service}, whose line you don't hold"
    raise Trouble(Status.MISSING, told, f"Ask {given.service} for the proof {wanted}, or somebody else who kept it for that line. {fill('only now')}")


def plan(sources: Sources, first: Event, second: Event, shunned: frozenset[tuple[str, str]]) -> Plan:
    """The parts of the chain over some hops, none of them between two services that are shunned; raises Trouble where no way is known, or a line is missing
    for each."""
    if first.service == second.service and first.step < second.step:
        return planned(sources, [], first, second)
    found = sources.way(first, second, shunned)
    if found is None:
        told = (
            f"no way is known from step {first.step} of {first.service} to step {second.step} of {second.service}: no receipts show that {second.service} "
            f"had received, over others or not, what {first.service} recorded then"
        )
        raise Trouble(Status.MISSING, told, "Ask both with whom they exchange, and name receipts by --hand; or choose a later event.")
    return planned(sources, found, first, second)


class Gathered(NamedTuple):
    """A plan, its parts, of which those that aren't at hand are None, and the proof that they join to, if all are."""

    plan: Plan
    parts: list[Optional[bytes]]
    proof: Optional[bytes]


def gathered(sources: Sources, first: Event, second: Event) -> Gathered:
    """The parts of the shortest way of which all are at hand, joined; where there is none, those of the shortest way. A hop that its receiver can't
    prove, or that is of another history than the line that is held, is gone round. Raises Trouble where no way is known, or the later event's proof is
    under a line that isn't held."""
    expect_held(sources, second)
    shunned: frozenset[tuple[str, str]] = frozenset()
    shortest, hindrance = None, None
    while True:
        try:
            found = plan(sources, first, second, shunned)
        except Trouble as none:
            if shortest is not None:
                return shortest
            raise hindrance or none from None
        refused = len(sources.refused)
        parts = [sources.part(part) for part in found.parts]
        if len(sources.refused) > refused:
            continue
        lacking = [place for place, part in enumerate(parts) if part is None]
        if not lacking:
            try:
                return Gathered(found, parts, joined([part for part in parts if part is not None], found.parts))
            except Misfit as misfit:
                hindrance, before = misfit, found.parts[misfit.place - 1]
                if not before.request.startswith("thread"):
                    raise
                sources.refuse(before)
                continue
        shortest = shortest or Gathered(found, parts, None)
        gone_round = {(hop.service, hop.by) for hop in map(found.hop_of, lacking) if hop is not None}
        if not gone_round:
            return shortest
        shunned |= gone_round


def further_parts(sources: Sources, first: Event, second: Event, found: Plan) -> list[Part]:
    """The threads that further ways need and that aren't at hand: each way is the one that would be next if what is missing of those before were refused. A
    receipt may be made up, so several are asked for in one night."""
    supposed, missing = sources.copied(), list[Part]()
    for _ in range(MOST_WAYS):
        for part in found.parts:
            if part.request.startswith("thread"):
                supposed.suppose_refused(part, is_missing=sources.part(part) is None)
        hops = supposed.way(first, second, frozenset())
        if hops is None:
            break
        try:
            found = planned(sources, hops, first, second)
        except Trouble:
            break
        missing += [part for part in found.parts if part.request.startswith("thread") and sources.part(part) is None]
    return list(dict.fromkeys(missing))


class Misfit(Trouble):
    """A link that isn't of the line that was received before it: the place of this part, from 0 on, among all parts."""

    def __init__(self, place: int, parts: list[Part]):
        part = parts[place]
        told = f"the parts don't fit: {part.command} of {part.service} isn't what the parts before it ask for"
        super().__init__(Status.NOT_SHOWN, told, f"Ask {part.service} for it again; it may be of another history.")
        self.place, self.parts = place, parts


def joined(parts: list[bytes], names: list[Part]) -> bytes:
    """The proof that the parts join to; raises Misfit where they don't."""
    with tempfile.TemporaryDirectory(prefix="weft-") as folder:
        paths = [Path(folder) / f"{number}" for number in range(1, len(parts) + 1)]
        for path, data in zip(paths, parts):
            path.write_bytes(data)
        answer = program.run("join", *map(str, paths))
    if answer.words[:2] == ["rejected", "Gap"]:
        place = min(int(answer.words[2]), len(names)) - 1
        raise Misfit(place, names)
    return program.done(answer, "the parts")
