"""Acceptance cases of services that receive messages: the receipts, the store after each, and the proofs of threads and of their absence."""

import os
import random
import subprocess
import tempfile
from time import sleep

from harness import seen
from harness.entangled import Entangled, both, words
from harness.faults import Run as FaultyRun, failing, killed_at, lost_power, short
from harness.making import forged, message_bytes
from harness.rooms import Room, Wrong, case, changed_page, expect, some_steps
from harness.tracing import calls_of
from timeweave_reference.events_files import events_to_bytes
from timeweave_reference.fields import LAST_STEP, Malformed
from timeweave_reference.fields import big_endian as be
from timeweave_reference.hashed_texts import genesis
from timeweave_reference.messages import read_message
from timeweave_reference.services import Service
from timeweave_reference.tree_pages import PAGE

# The commands that receive, with their times, and those that ask a service that has received.
MAKING = {"receive": None, "receive at a time": 9}
ASKING = ("prove thread", "prove absent", "map low", "map high", "export")

# What the first keep.
LOST = "what a loss of power in {} may leave keeps each thread whose receipt was written, and goes on"
KILLED = "{} that is killed at any of its calls on the store keeps each thread whose receipt was written, and goes on"

# How many pages each of the two commands of `few_reads` reads, those of the store's front among them: two gates and two bodies.
RECEIVING_READS, PROVING_READS = 6, 18


# ---- what is received


def each_receipt(room):
    """two services receive from each other: each receipt and the store after each are the reference's; what a message brings is proved under the later tops"""
    pair = both(room)
    pair.stores_are()
    for name, peer in (("alpha", "beta"), ("beta", "alpha")):
        last = pair.services[name].steps
        pair.put_anchor(name)
        for step in range(1, last + 1):
            for k in (1, 2, 3, 4, 5, 6, LAST_STEP):
                pair.shows(name, step, peer, k, (step, last))
            pair.shows(name, step, name, 1, (last,))
    pair.stores_are()


def repeated(room):
    """a message that was received is answered by the same receipt, whatever the time, and the store stays"""
    pair = both(room)
    first = pair.services["alpha"]
    pair.append("beta", [b"later"], 50)
    before = pair.services["beta"].file()
    for time in (None, 0, 60, LAST_STEP):
        for since in (0, 2, 4):
            old = message_bytes(first.line, 4, since)
            expect(pair.deliver("beta", old, time), 0, "the status of a message that is received again")
    expect(pair.services["beta"].file(), before, "the reference's store")
    pair.stores_are()


def refused_messages(room):
    """messages that aren't taken: one's own, stale ones, forks and links that don't lead up from the last thread; the store stays"""
    pair = both(room)
    alpha, beta = pair.services["alpha"], pair.services["beta"]
    pair.append("alpha", [b"new"])
    own = pair.message("beta", 0)
    good = pair.message("alpha", 4)
    bad = bytes(range(32))
    tried = [
        (own, "Own"), (message_bytes(alpha.line, 1, 0), "Stale 4"), (message_bytes(alpha.line, 3, 2), "Stale 4"),
        (forged(message_bytes(alpha.line, 4, 2), bad), f"Forked 4 {alpha.line.auths[4].hex()} {bad.hex()}"),
        (forged(message_bytes(alpha.line, 2, 0), bad), f"Forked 2 {alpha.line.auths[2].hex()} {bad.hex()}"),
        *((message_bytes(alpha.line, 5, since), f"BadLink 4 {alpha.line.auths[4].hex()}") for since in (0, 1, 2, 3, 5)),
        (forged(good, bad), f"BadLink 4 {alpha.line.auths[4].hex()}"),
    ]
    last = len(good) - 1
    tried += [(good[:place] + bytes([good[place] ^ 1]) + good[place + 1 :], f"BadLink 4 {alpha.line.auths[4].hex()}") for place in (28, 59, 68, last)]
    stranger = Service("gamma")
    stranger.append([b"s"])
    stranger.append([b"t"])
    tried += [(stranger.message(1), f"BadLink 0 {genesis('gamma').hex()}"), (forged(stranger.message(0), bad), f"BadLink 0 {genesis('gamma').hex()}")]
    before = beta.file()
    for message, refusal in tried:
        for time in (None, 0, 99):
            room.put("m", message)
            room.expect(words("receive beta m", time), 7, f"refused {refusal}\n".encode())
            pair.deliver("beta", message, time)
    expect(beta.file(), before, "the reference's store")
    pair.stores_are()
    # the time is looked at last
    for time in (0, 7):
        room.put("m", good)
        room.expect(f"receive beta m {time}", 7, f"refused ClockBack 8 {time}\n".encode())
    expect(pair.deliver("beta", good, 8), 0, "the status of the next message")
    pair.deliver("beta", stranger.message(0))
    pair.stores_are()


def bad_messages(room):
    """files that are no message, each with its byte; the disk isn't asked"""
    line = Service("alpha")
    for events in some_steps("bad", 6):
        line.append(events)
    good = line.message(1)
    room.put("e", events_to_bytes([b"x"]))
    for size in range(len(good)):
        room.put("m", good[:size])
        room.expect("receive d m", 9, f"unreadable m byte {size}\n".encode())
    for place, new in ((0, b"X"), (4, b"\0"), (4, b"-A"), (20, b"\x01"), (20, bytes(8)), (60, be(7, 8)), (60, be(2**63, 8))):
        data = good[:place] + new + good[place + len(new) :]
        try:
            read_message(data)
            raise Wrong("  the reference reads a bad message")
        except Malformed as malformed:
            room.put("m", data)
            room.expect("receive d m", 9, f"unreadable m byte {malformed.place}\n".encode())
    for longer in (good + b"\0", good + bytes(6_000_000)):
        room.put("m", longer)
        room.expect("receive d m 5", 9, f"unreadable m byte {len(good)}\n".encode())
    room.expect("receive d missing", 3, b"fault input\n")
    if (room.folder / "d").exists():
        raise Wrong("  a folder was made")
    room.put("m", good)
    for time in ("1099511627776", "05", "-", "x"):
        room.expect(f"receive d m {time}", 2, b"usage 4\n")
    room.expect("receive d m 6 7", 2, b"usage 5\n")
    (room.folder / "d").mkdir()
    room.expect("receive d m", 8, b"store Blank\n")


def many_threads(room):
    """60 threads of several peers: pages that split, each store as the reference's, and proofs at every archive's size"""
    rand = random.Random("many")
    peers = {name: Service(name) for name in ("a", "b-1", "zz9", "middle")}
    told = {name: 0 for name in peers}
    pair = Entangled(room, "many")
    for number in range(60):
        name = rand.choice(list(peers))
        for _ in range(rand.randrange(1, 4)):
            peers[name].append([b"x"] * rand.randrange(3))
        pair.deliver("many", peers[name].message(told[name]))
        told[name] = peers[name].steps
        if number % 7 == 0:
            pair.append("many", [bytes([number])])
        if number in (0, 1, 23, 24, 25, 47, 48, 59):
            pair.stores_are()
    many = pair.services["many"]
    pair.put_anchor("many")
    for step in (1, 2, 13, 27, 28, 29, 30, 55, many.steps):
        for entry in rand.sample(sorted(many.entries.values()), 6):
            pair.shows("many", step, entry.service, entry.step, (many.steps,))
            pair.shows("many", step, entry.service, entry.step + 1, (many.steps,))
        pair.shows("many", step, "nobody", 1, (many.steps,))
    pair.stores_are()


# ---- proofs that are refused


def refused_proofs(room):
    """proofs of threads whose steps aren't in their order, or that a service without steps is asked for"""
    pair = Entangled(room, "d")
    for kind in ("thread", "absent"):
        for asked in ("0 b 1", "1 b 1", "1 b 1 1"):
            room.expect(f"prove d {kind} {asked}", 7, b"refused NoStep 0\n")
    pair.append("d", [b"x"])
    pair.append("d", [])
    for kind in ("thread", "absent"):
        for asked in ("0 b 1", "3 b 1", "2 b 1 1", "1 b 1 3", "1 b 1 0", "18446744073709551615 b 1", "1 b 1 18446744073709551615"):
            room.expect(f"prove d {kind} {asked}", 7, b"refused NoStep 2\n")
        for asked, word in (("1 b 0", 6), ("1 b 1099511627776", 6), ("1 B 1", 5), ("x b 1", 4), ("1 b 1 x", 7), ("1 b", 6), ("1 b 1 1 1", 8)):
            room.expect(f"prove d {kind} {asked}", 2, f"usage {word}\n".encode())
    pair.stores_are()


# ---- damaged pages


def bad_pages(room):
    """tree pages that aren't of their kind are told, by the first that is met; a proof at an older step reads none of the later ones"""
    pair = both(room)
    pair.append("alpha", [b"more"])
    message = pair.message("alpha", 4)
    beta = pair.services["beta"]
    path = room.folder / "beta/timeline.tw"
    good = path.read_bytes()
    expect(beta.steps, 4, "the steps of beta")
    # the archive after step 3 is the tree page before its step page, and so is that after step 4
    older, newer = (beta.step_pages[step] - 1 for step in (3, 4))
    room.put("m", message)
    for place, new in ((0, bytes(PAGE)), (1, b"\x01"), (2, b"\0"), (3, b"\x02"), (4, b"\x01"), (4095, b"\x01"), (23, bytes(8))):
        path.write_bytes(changed_page(good, newer, place, new))
        for asked in ("prove beta thread 4 alpha 4", "prove beta thread 4 alpha 2", "prove beta absent 4 alpha 3", "receive beta m"):
            room.expect(asked, 8, f"store BadPage {newer}\n".encode())
        for asked, proof in (("thread 3 alpha 2", beta.thread_proof(3, "alpha", 2, 4)), ("absent 3 alpha 4", beta.absent_proof(3, "alpha", 4, 4))):
            room.expect(f"prove beta {asked}", 0, proof)
        expect(path.read_bytes(), changed_page(good, newer, place, new), "the store after a page that is bad")
    path.write_bytes(changed_page(good, older, 0, bytes(PAGE)))
    room.expect("prove beta thread 3 alpha 2", 8, f"store BadPage {older}\n".encode())
    room.expect("prove beta thread 4 alpha 2", 0, beta.thread_proof(4, "alpha", 2, 4))
    path.write_bytes(good)
    pair.deliver("beta", message)
    pair.stores_are()


# ---- runs that are stopped, or lose power


def killed(room):
    """100 messages, many of whose receiving is killed amid (kill -9): each receipt that was written stays, and no message is archived twice"""
    rand = random.Random("killed")
    pair = Entangled(room, "d")
    service, peer, since = pair.services["d"], Service("peer"), 0
    for number in range(100):
        peer.append([rand.randbytes(20)])
        message = peer.message(since)
        room.put("m", message)
        running = subprocess.Popen([room.program, "receive", "d", "m"], cwd=room.folder, stdout=subprocess.PIPE, stdin=subprocess.DEVNULL)
        if rand.randrange(3):
            sleep(rand.random() * 0.004)
            running.kill()
        receipt, _ = running.communicate()
        seen.note(running.returncode, receipt)
        wanted = service.receive(message)
        if receipt not in (b"", wanted):
            raise Wrong(f"  the receipt of message {number} is another one")
        # what was archived or not is archived now, once
        room.expect("receive d m", 0, wanted)
        since = peer.steps
    pair.stores_are()


class Threads:
    """The service `beta` before a `receive` and after it, and the words that receive."""

    def __init__(self, before, after, receipt, words):
        self.before, self.after, self.receipt, self.words = before, after, receipt, words

    def go_on(self, room, is_told):
        """The store reads as that before or after, and the message is answered by the one receipt."""
        before, after = self.before, self.after
        found = room.run("prove", "beta", "absent", str(before.steps), "alpha", "6")
        wanted = [(0, service.absent_proof(before.steps, "alpha", 6, service.steps), b"") for service in (before, after)]
        if is_told and found != wanted[1] or found not in wanted:
            raise Wrong(f"  the steps up to {(after if is_told else before).steps} aren't there")
        room.expect(self.words, 0, self.receipt)
        for step, k in ((3, 2), (4, 4), (5, 5)):
            room.expect(f"prove beta thread {step} alpha {k}", 0, after.thread_proof(step, "alpha", k, after.steps))


class Run(FaultyRun):
    """A command of `beta`, which received from another service, and what it answers."""

    folder = "beta"

    def __init__(self, room, command):
        self.room, self.makes = room, command in MAKING
        pair = both(room)
        pair.append("alpha", [b"last"])
        message = pair.message("alpha", 4)
        room.put("m", message)
        before = pair.services["beta"]
        self.words, self.output = {
            "prove thread": ("prove beta thread 4 alpha 2", before.thread_proof(4, "alpha", 2, 4)),
            "prove absent": ("prove beta absent 4 alpha 3", before.absent_proof(4, "alpha", 3, 4)),
            "map low": ("map beta low 4 alpha", None),
            "map high": ("map beta high 2 alpha", None),
            "export": ("export beta", before.history()),
        }.get(command, (words("receive beta m", MAKING.get(command)), None))
        if self.makes:
            after = before.copied()
            self.output = after.receive(message, MAKING[command])
            self.histories = Threads(before, after, self.output, self.words)
        self.kept = (room.folder / "beta/timeline.tw").read_bytes()
        if self.output is None:
            # (mapped.py holds these against the reference)
            self.output = room.run(*self.words.split())[1]


def synced_first(room):
    """`prove DIR thread` and `absent` sync the store before they read it, and write nothing to it"""
    pair = both(room)
    beta = pair.services["beta"]
    store = os.path.realpath(room.folder / "beta/timeline.tw")
    for asked, proof in (("thread 4 alpha 2", beta.thread_proof(4, "alpha", 2, 4)), ("absent 4 alpha 3", beta.absent_proof(4, "alpha", 3, 4))):
        status, found, calls = calls_of(room.program, ["prove", "beta", *asked.split()], room.folder)
        made = [call.name for call in calls if call.path == store and call.name in ("fsync", "fdatasync", "pread64", "pwrite64", "write")]
        expect((status, found, made[:1], {*made}), (0, proof, ["fsync"], {"fsync", "pread64"}), f"timeweave prove beta {asked}, and its calls on the store")


def few_reads(room):
    """of a service that keeps 60 threads of a peer below a thousand steps more, the next message and the proof of an old thread read few pages"""
    peer, own = Service("peer"), Service("own")
    for since in range(60):
        peer.append([])
        own.receive(peer.message(since))
    for _ in range(1000):
        own.append([])
    peer.append([])
    room.put("m", peer.message(60))
    (room.folder / "own").mkdir()
    (room.folder / "own/timeline.tw").write_bytes(own.file())
    store = os.path.realpath(room.folder / "own/timeline.tw")
    receipt = own.receive(peer.message(60))
    asked = (("receive own m", receipt, RECEIVING_READS), ("prove own thread 3 peer 3", own.thread_proof(3, "peer", 3, own.steps), PROVING_READS))
    for line, wanted, reads in asked:
        status, found, calls = calls_of(room.program, line.split(), room.folder)
        made = sum(call.name == "pread64" and call.path == store for call in calls)
        expect((status, found, made), (0, wanted, reads), f"timeweave {line}, and how many pages it reads")


def races(room):
    """50 races of two messages, of which one builds on the other: each receipt that was written is of the store"""
    for number in range(50):
        with tempfile.TemporaryDirectory(dir=room.folder) as folder:
            inner = Room(room.program, folder)
            pair = Entangled(inner, "d")
            peer = Service("peer")
            for since, file in ((0, "m"), (1, "n")):
                peer.append([b"x"])
                inner.put(file, peer.message(since))
            running = [subprocess.Popen([room.program, "receive", "d", file], cwd=folder, stdout=subprocess.PIPE) for file in ("m", "n")]
            first, second = ((one.communicate()[0], one.returncode) for one in running)
            expect(first, (pair.services["d"].receive(message_bytes(peer.line, 1, 0)), 0), f"the first message of race {number}")
            late = pair.services["d"].receive(peer.message(1))
            if second not in ((late, 0), (f"refused BadLink 0 {genesis('peer').hex()}\n".encode(), 7)):
                raise Wrong(f"  the second message of race {number} was answered {second}")
            inner.expect("receive d n", 0, late)
            pair.stores_are()


def cases():
    works = (
        each_receipt, repeated, refused_messages, bad_messages, many_threads, refused_proofs, bad_pages, killed, synced_first, few_reads, races,
        *(lost_power(command, Run, LOST) for command in MAKING), *(killed_at(command, Run, KILLED) for command in MAKING),
        *(make(command, Run) for make in (failing, short) for command in (*MAKING, *ASKING)),
    )
    return [case(work, "receiving") for work in works]
