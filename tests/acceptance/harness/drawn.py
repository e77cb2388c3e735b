"""Trials drawn by chance. The same seed and number give the same trial.

A trial begins as one command with good files and a good service: proofs of each kind, ways over several histories and their parts, evidence,
histories, receipts, anchors, events files, messages, scripts, stores; or as a session of several commands that services and a follower are
given. Most are then changed: bytes changed, cut, doubled, put in from another file, and set to numbers at limits; words swapped, left out,
doubled and changed for others; a file missing; commands left out, doubled and swapped.
"""

import random
import re
from dataclasses import replace
from functools import cache, lru_cache

import example_files
from example_files import Fork, Peer, high_of, lost, low_of, receipts_of, thread_of

from harness import played
from harness.making import absent_proof, link_proof, message_bytes, proof_bytes, thread_proof
from harness.samples import anchors_of, exchange, reshaping, timed, woven
from harness.trials import Command, Trial, one
from harness.ways import ways, with_carried
from timeweave_reference.anchors import anchors_to_bytes
from timeweave_reference.archives import listed
from timeweave_reference.atlases import Hop
from timeweave_reference.events_files import events_to_bytes
from timeweave_reference.fields import LAST_STEP, LAST_TIME
from timeweave_reference.fields import big_endian as be
from timeweave_reference.folders import Folders
from timeweave_reference.followers import Follower
from timeweave_reference.services import service_of
from timeweave_reference.timelines import Timeline
from timeweave_reference.words import kinds_of_forms

# So many good trials are made, and so many trials drawn from them, before others are made.
GOOD, OF_GOOD = 400, 2000


# ---- what good trials are made of


@cache
def some_history(number):
    """One of the histories with threads, half of them with times."""
    rand = random.Random(f"history {number}")
    history = woven(rand.randrange(1, 24), f"fuzz {number}", reshaping(rand))
    if number % 2:
        timed(history.steps, number)
    return history, history.line()


@cache
def some_fork(*numbers):
    """The fork of these numbers."""
    return Fork(*numbers)


@cache
def some_service(number):
    """One of the services with none to 12 steps."""
    rand = random.Random(f"service {number}")
    sizes = (0, 1, 3, 40, 1024)
    steps = [[rand.randbytes(rand.choice(sizes)) for _ in range(rand.choice((0, 1, 2, 5, 9)))] for _ in range(rand.randrange(13))]
    times = [5 * step if rand.randrange(2) else None for step in range(len(steps))]
    return service_of(rand.choice(("shop", "a", "sixteen-letters0")), steps, times)


@cache
def some_follower(number):
    """One of the followers of one service, with none to 4 heads."""
    rand, line = random.Random(f"follower {number}"), some_service(1).line
    heads = sorted(rand.sample(range(1, len(line.steps) + 1), rand.randrange(min(5, len(line.steps) + 1))))
    return Follower(line.name, [(step, line.auths[step]) for step in heads])


def some_way(rand):
    """A way between events, with some of its hops carried."""
    way = rand.choice(ways())
    return with_carried(way, {number for number in range(len(way.hops)) if not rand.randrange(3)})


def some_proof(rand):
    """A proof of any kind, with the anchors that it needs and the histories that it is of."""
    if not rand.randrange(3):
        way = some_way(rand)
        return way.to_bytes(), way.anchors(), [history.to_bytes() for history in way.family.values()]
    history, line = some_history(rand.randrange(40))
    top = rand.randrange(1, len(history.steps) + 1)
    step, key = rand.randrange(1, top + 1), (rand.choice(("a", "b", "zz")), rand.randrange(1, 999))
    tree = history.trees[step]
    made = [link_proof(line, rand.randrange(top + 1), top)]
    if line.events(step):
        made += [proof_bytes(line, step, rand.randrange(len(line.events(step))), top)] * 3
    if listed(tree):
        made.append(thread_proof(line, tree, step, top, rand.choice(listed(tree))))
    if all(entry.key != key for entry in listed(tree)):
        made.append(absent_proof(line, tree, step, top, key))
    return rand.choice(made), {line.name: (top, line.auths[top])}, [history.to_bytes()]


# ---- good trials of one command


def a_verdict(rand):
    """A proof under the anchors that it needs, or under one of them."""
    data, anchors, _ = some_proof(rand)
    files, (name, (step, auth)) = {"p": data, "k": anchors_to_bytes(anchors)}, rand.choice(list(anchors.items()))
    return one(rand.choice((["verify", "p", "k"], ["strict", "p", "k"], ["verify", "p", name, str(step), auth.hex()])), files)


def an_audit(rand):
    """A proof against the histories that it is of."""
    data, anchors, histories = some_proof(rand)
    files = dict(zip("abcd", histories))
    return one(["audit", "p", "k", *files], {"p": data, "k": anchors_to_bytes(anchors), **files})


def an_adoption(rand):
    """A history, and proofs of what others received of it."""
    history = lost((3, None, 3, 9, None, 70) if rand.randrange(2) else ())
    peers = [Peer(name, thread_of(history, rand.randrange(1, 7)), ("far", 9, bytes(32))) for name in ("one", "two")]
    proofs = {f"p{number}": rand.choice(peers).proof(int(not rand.randrange(8))) for number in range(rand.randrange(1, 4))}
    anchors = {name: anchor for peer in peers for name, anchor in peer.anchor().items()}
    return one(["adopt", "h", "k", *proofs], {"h": history.to_bytes(), "k": anchors_to_bytes(anchors), **proofs})


def a_join(rand):
    """The parts of a way."""
    files = {f"p{number}": part for number, part in enumerate(some_way(rand).part_bytes())}
    return one(["join", *files], files)


def a_show(rand):
    """An event of a history, or one that isn't there."""
    history, line = some_history(rand.randrange(40))
    return one(["show", "h", str(rand.randrange(len(line.steps) + 2)), str(rand.randrange(3))], {"h": history.to_bytes()})


def a_fork(rand):
    """Evidence, or what it is made of."""
    low, high = sorted((rand.randrange(1, 9), rand.randrange(1, 9)))
    fork = some_fork(rand.randrange(low + 1), low, high, rand.randrange(3))
    if rand.randrange(2):
        return one(["checkfork", "e", "k"], {"e": fork.evidence().to_bytes(), "k": anchors_to_bytes(fork.anchors())})
    parts = {"p": fork.proof(0).to_bytes(), "q": fork.proof(1).to_bytes(), "l": fork.link().to_bytes()}
    return one(["accuse", *list(parts)[: rand.choice((2, 3, 3))]], parts)


def an_atlas(rand):
    """Receipts in two files."""
    names, steps = [f"s{number}" for number in range(rand.randrange(2, 6))], rand.choice((4, 9, 40))
    hops = [Hop(rand.choice(names), rand.randrange(1, steps), rand.choice(names), rand.randrange(1, steps)) for _ in range(rand.randrange(24))]
    place = rand.randrange(len(hops) + 1)
    files = {"r": receipts_of(hops[:place]), "s": receipts_of(hops[place:])}
    return one(["atlas", rand.choice(names), str(rand.randrange(1, steps)), *files], files)


def a_map(rand):
    """The map files of two histories."""
    own, peer = exchange() if rand.randrange(2) else reversed(exchange())
    step, upto = rand.randrange(1, len(own.steps) + 1), rand.randrange(1, len(peer.steps) + 1)
    top = rand.randrange(step, len(own.steps) + 1)
    low, high = low_of(own, step, peer.name, top), high_of(peer, upto, own.name, step)
    return one(["checkmap", "l", "h", "k"], {"l": low, "h": high, "k": anchors_to_bytes(anchors_of((own, top), (peer, upto)))})


def an_append(rand):
    """Events for a service, at a time or none, some of them at or beyond the limits; or a service to make."""
    service = rand.choice((None, *map(some_service, range(12))))
    events = [rand.randbytes(rand.choice((0, 1, 9, 1024))) for _ in range(rand.choice((0, 1, 2, 7)))]
    if not rand.randrange(5):
        events = rand.choice(([b""] * 1025, [b"", bytes(1025)], [bytes(1024)] * 64, [bytes(1024)] * 64 + [b"x"], [b""] * 1024))
    words = ["append", "d", "e", *[str(rand.choice((rand.randrange(60), 55, LAST_TIME)))] * rand.randrange(2)]
    return one(rand.choice((words, words, words, words, ["init", "d", "new"])), {"e": events_to_bytes(events)}, service)


def a_question(rand):
    """A service that is asked for a proof, a map file, a message or its history."""
    service = rand.choice((None, *map(some_service, range(12))))
    step, top, index = (str(rand.randrange(most)) for most in (14, 14, 3))
    words = rand.choice((
        ["prove", "d", "event", step, index], ["prove", "d", "link", step], ["thread", "d", step], ["export", "d"], ["prove", "d", "thread", step, "peer", index],
        ["prove", "d", "absent", step, "peer", "1"], ["map", "d", "low", step, "peer"], ["map", "d", "high", "1", "peer"],
    ))
    return one([*words, *[top] * (words[0] in ("prove", "map") and rand.randrange(2))], {"e": events_to_bytes([b"x"])}, service)


def an_offer(rand):
    """A follower that is offered a message of its service, of a fork of that one or of another service; or one that is made, or tells its heads."""
    number = rand.randrange(12)
    follower = rand.choice((None, some_service(0), *[some_follower(number)] * 6))
    line = some_service(rand.choice((1, 1, 1, 1, 0))).line
    step = rand.randrange(1, len(line.steps) + 1)
    since = rand.choice((rand.randrange(step + 1), min(step, some_follower(number).last()[0])))
    if not rand.randrange(3):
        steps = [*line.steps[: rand.randrange(step)], *[[b"fork"]] * step]
        line = Timeline(line.name, steps[:step])
    words = rand.choice((["offer", "d", "m"], ["offer", "d", "m"], ["offer", "d", "m"], ["heads", "d"], ["watch", "d", "new"]))
    return one(words, {"m": message_bytes(line, step, since)}, follower)


def a_script(rand):
    """A script by chance, or a network that is generated."""
    if not rand.randrange(8):
        return one(["generate", str(rand.randrange(2**64)), str(rand.choice((1, 2, 49, 50, 51, 100)))], {"s": b""})
    return one(["replay", "s"], {"s": played.script_by_chance(rand.randrange(200), rand.randrange(3, 40))})


# ---- sessions of several commands


class Session:
    """Commands that two services, `alpha` in the folder a and `beta` in b, and a follower of alpha in the folder f are given, each of which
    the reference plays, so that the next one fits."""

    def __init__(self, rand):
        self.rand, self.commands, self.files = rand, [], {}
        self.outputs = {}
        self.folders = Folders({"a": None, "b": None, "f": None})
        self.do("init", "a", "alpha")
        self.do("init", "b", "beta")
        if rand.randrange(2):
            self.do("watch", "f", "alpha")

    def do(self, *words, kept=None):
        """One more command, whose output is kept; whether it answered with status 0."""
        self.commands.append(Command(list(map(str, words)), kept))
        status, output = self.folders.answer(self.commands[-1].words, {**self.files, **self.outputs})
        if kept and status == 0:
            self.outputs[kept] = output
        return status == 0

    def pair(self):
        """A service and its peer, each with its folder."""
        pair = [("a", self.folders.stores["a"]), ("b", self.folders.stores["b"])]
        return pair if self.rand.randrange(2) else pair[::-1]

    def append(self):
        """A service appends a step."""
        (folder, service), _ = self.pair()
        name = f"e{len(self.files)}"
        self.files[name] = events_to_bytes([self.rand.randbytes(self.rand.choice((0, 1, 5))) for _ in range(self.rand.randrange(4))])
        time = [service.line.clock(service.steps) or 7] * (not self.rand.randrange(3))
        self.do("append", folder, name, *time, kept=f"line-{folder}")

    def send(self):
        """A service receives a message of the other one, or the follower is offered it."""
        (folder, service), (peer, other) = self.pair()
        last = other.last_of.get(service.name)
        since = last.step if last and self.rand.randrange(6) else 0
        if self.do("thread", folder, since, kept="m"):
            self.do("receive", peer, "m", kept="receipt")
            if folder == "a" and self.folders.stores["f"]:
                head = self.folders.stores["f"].last()[0]
                self.do("thread", "a", head, kept="n")
                self.do("offer", "f", "n")

    def prove(self):
        """A service proves something, and it is judged under a line of its own."""
        (folder, service), (_, other) = self.pair()
        if not service.steps:
            return
        top = self.rand.randrange(1, service.steps + 1)
        step, k = self.rand.randrange(1, top + 1), self.rand.randrange(1, other.steps + 2)
        words = self.rand.choice((
            ["event", step, 0], ["event", step, 1], ["link", self.rand.randrange(top + 1)], ["thread", step, other.name, k], ["absent", step, other.name, k],
        ))
        if self.do("prove", folder, *words, top, kept="p"):
            self.do(self.rand.choice(("verify", "strict")), "p", f"line-{folder}")
            self.do("verify", "p", service.name, top, service.line.auths[top].hex())

    def bound(self):
        """A step of a service is bounded by steps of the other one."""
        (folder, service), (peer, other) = self.pair()
        if service.steps and other.steps:
            step = self.rand.randrange(1, service.steps + 1)
            self.do("map", folder, "low", step, other.name, kept="low")
            self.do("map", peer, "high", step, service.name, kept="high")
            self.do("checkmap", "low", "high", f"line-{folder}")

    def export(self):
        """A service's history is written, and read again."""
        (folder, service), _ = self.pair()
        if self.do("export", folder, kept="h") and service.steps:
            self.do("show", "h", self.rand.randrange(1, service.steps + 1), 0, kept="q")
            self.do("audit", "q", f"line-{folder}", "h")

    def chain(self):
        """An event of a service is proved to precede one of the other."""
        (folder, service), (peer, other) = self.pair()
        known = service.last_of.get(other.name)
        later = [step for step in range(2, service.steps + 1) if service.line.events(step) and known and known.archived < step]
        first = [step for step in range(1, known.step + 1) if other.line.events(step)] if known else []
        if later and first:
            step = self.rand.choice(later)
            self.do("prove", folder, "event", step, 0, kept="second")
            self.do("prove", folder, "thread", step - 1, other.name, known.step, kept="t")
            self.do("prove", peer, "event", self.rand.choice(first), 0, known.step, kept="first")
            self.do("join", "second", "t", "first", kept="chain")
            self.do(self.rand.choice(("verify", "strict")), "chain", f"line-{folder}")

    def trial(self):
        """The commands, their files and the folders, without a store."""
        return Trial(self.commands, self.files, {"a": None, "b": None, "f": None})


def a_session(rand):
    """Some turns of a session."""
    session = Session(rand)
    turns = (session.append, session.append, session.append, session.send, session.send, session.prove, session.bound, session.export, session.chain)
    for _ in range(rand.randrange(2, 12)):
        rand.choice(turns)()
    return session.trial()


KINDS = (
    a_script, a_verdict, a_verdict, an_audit, an_adoption, a_join, a_show, a_fork, an_atlas, a_map, an_append, an_append, a_question, an_offer, a_session, a_session,
)


# ---- changes

LIMITS = (0, 1, 2, 64, 65, 127, 128, 255, 256, 1024, 1025, 2**16, 2**24, 2**31, 2**32 - 1, 2**32, LAST_STEP, LAST_STEP + 1, 2**63, 2**64 - 1)
ODD_WORDS = ("", "0", "00", "1", "-1", "+1", "1.", " ", "-", "a", "A", "d", "a" * 16, "a" * 17, "\udcff", "é", "event", "link", "low", "thread", "0" * 64, "F" * 64)


def changed_bytes(rand, data, other):
    """The bytes with one change; `other` has bytes of another file."""
    start, end = sorted((rand.randrange(len(data) + 1), rand.randrange(len(data) + 1)))
    # (half of the changes of numbers are where zeros stand, as numbers begin so)
    zeros, width = [found.start() for found in re.finditer(b"\0\0\0", data)], rand.choice((1, 2, 4, 8))
    at = rand.choice(zeros) if zeros and rand.randrange(2) else start
    number = be(rand.choice(LIMITS) % 256**width, width)
    how = rand.randrange(16)
    if how < 7:
        return data[:start] + bytes([(data[start] if start < len(data) else 0) ^ rand.choice((1, 2, 128, 255))]) + data[start + 1 :]
    if how < 11:
        return data[:at] + number + data[at + width :]
    return (
        data[:start], data[:start] + data[end:], data[:end] + data[start:], data + rand.choice((b"\0", b"\n", b"\xff", other)),
        data[:start] + other[start:end] + data[end:],
    )[how - 11]


def changed_words(rand, words):
    """The words with one change."""
    words, at, other = list(words), rand.randrange(len(words)), rand.randrange(len(words))
    new = rand.choice((str(rand.choice(LIMITS)), rand.choice(ODD_WORDS), words[at].upper(), words[at] + "0", rand.choice(kinds_of_forms())[0]))
    how = rand.randrange(5)
    if how == 0:
        words[at], words[other] = words[other], words[at]
    elif how == 1:
        del words[at]
    elif how == 2:
        words.insert(other, words[at])
    else:
        words[at] = new
    return words


def changed_commands(rand, commands):
    """The commands with one change: the words of one, or one left out, doubled, or swapped with another."""
    commands, at, other = list(commands), rand.randrange(len(commands)), rand.randrange(len(commands))
    how = rand.randrange(6) if len(commands) > 1 else 5
    if how == 0:
        del commands[at]
    elif how == 1:
        commands.insert(other, commands[at])
    elif how == 2:
        commands[at], commands[other] = commands[other], commands[at]
    elif commands[at].words:
        commands[at] = commands[at]._replace(words=changed_words(rand, commands[at].words))
    return commands


def changed(rand, trial, other):
    """The trial with one change, for which there is another trial."""
    name, data, how = rand.choice(list(trial.files)), rand.choice(list(other.files.values())), rand.randrange(16)
    if how == 0:
        return replace(trial, files={file: kept for file, kept in trial.files.items() if file != name})
    if how < 4 or len(trial.commands) > 1 and how < 9:
        return replace(trial, commands=changed_commands(rand, trial.commands))
    if how < 7 and trial.stores.get("d"):
        return replace(trial, changed={"d": changed_bytes(rand, trial.image("d"), data)})
    if how < 7:
        return replace(trial, files={**trial.files, name: other.files.get(name, data)})
    return replace(trial, files={**trial.files, name: changed_bytes(rand, trial.files[name], data)})


@lru_cache(2 * GOOD)
def good(seed, number):
    """One of the good trials."""
    rand = random.Random(f"good {seed} {number}")
    return rand.choice(KINDS)(rand)


def drawn(seed, number):
    """The trial of this number."""
    rand, seed = random.Random(f"{seed} {number}"), f"{seed} {number // OF_GOOD}"
    trial = good(seed, rand.randrange(GOOD))
    for _ in range(rand.choice((0, 1, 1, 1, 1, 2, 3))):
        other = good(seed, rand.randrange(GOOD))
        trial = changed(rand, trial, other) if trial.files and other.files and any(words for words, _ in trial.commands) else trial
    return trial
