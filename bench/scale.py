"""How far and how fast a step spreads over a network of services, by simulation: the table of docs/scale.md.

Each service sends its head to the same peers once a round, and whoever gets it receives it as a thread before it sends its own. A message
is lost by chance, and the next round's, which holds all that the lost one held, takes its place. So a step of one service comes to another by
the way over which it arrives first; each message on that way is a hop of the proof. Graphs and losses are drawn from a fixed seed.
"""

import math
import random
from array import array

from measuring import Bench, Found, table

SEED = 7
NEVER = 255
REWIRED = 0.1

# Bytes of a proof: what stands before and behind its hops, with a path at each end, and what a hop has: the entry, the head of its tree
# proof, the bind, and the opening behind it with two labels of links; and for each node of the archive's tree on the way to the entry.
ENDS, HOP, NODE = 4_000, 64 + 65 + 8 + 132, 96


def random_peers(count, each, node):
    """Peers drawn by chance from all."""
    drawn = random.Random(SEED * 1_000_003 + node).random
    return [int(drawn() * count) for _ in range(each)]


def near_peers(count, each, node):
    """The nearest on a ring, of which one in ten is drawn by chance from all instead: a small world."""
    drawn = random.Random(SEED * 1_000_003 + node).random
    places = [*range(-(each // 2), 0), *range(1, each - each // 2 + 1)]
    return [int(drawn() * count) if drawn() < REWIRED else (node + place) % count for place in places]


def spread(count, each, peers_of, lost):
    """The round in which a step of service 0 comes to each service, and over how many hops."""
    drawn = random.Random(SEED).random
    rounds, hops = array("B", [NEVER]) * count, array("B", [0]) * count
    rounds[0], due = 0, [[0]]
    for now in range(NEVER):
        for node in due[now] if now < len(due) else ():
            if rounds[node] != now:
                continue
            for peer in peers_of(count, each, node):
                then = now + 1
                while drawn() < lost:
                    then += 1
                if then < rounds[peer]:
                    rounds[peer], hops[peer] = then, hops[node] + 1
                    due.extend([] for _ in range(then + 1 - len(due)))
                    due[then].append(peer)
    return rounds, hops


def quantile(values, share):
    return sorted(values)[min(len(values) - 1, int(share * len(values)))]


def proof_size(hops, entries):
    """The bytes of a proof over so many hops, whose archives have so many entries each."""
    return ENDS + hops * (HOP + NODE * math.ceil(math.log2(entries)))


def spread_row(count, name, each, lost):
    """The row of a network."""
    rounds, hops = spread(count, each, random_peers if name == "by chance" else near_peers, lost)
    met = [node for node in range(1, count) if rounds[node] != NEVER]
    far, over = [rounds[node] for node in met], [hops[node] for node in met]
    of = {"services": count, "peers are": name, "peers": each, "lost": f"{lost:.0%}"}
    times = {"rounds, mean": sum(far) / len(far), "99 of 100 by": quantile(far, 0.99), "all by": max(far), "reached": f"{len(met) / (count - 1):.2%}"}
    return {**of, **times, "hops, mean": sum(over) / len(over), "most": max(over), "bytes of a proof": proof_size(quantile(over, 0.5), 100_000)}


def simulate(bench: Bench) -> Found:
    """The part."""
    counts = bench.pick((1_000, 1_000_000), (200,))
    rows = [spread_row(count, name, each, lost) for count in counts for name in ("by chance", "small world") for each in (4, 10) for lost in (0, 0.2)]
    return {"tables": {"spread": table({name: 1 if "mean" in name else 0 for name in rows[0]}, rows)}}
