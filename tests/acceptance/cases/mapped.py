"""Acceptance cases of the map files that services make of themselves: two services that receive one another's messages; the low and the high
file of each step under each top, which are the reference's and are accepted together; the table; and pages that are bad."""

from bisect import bisect
from itertools import permutations

from example_files import bounds, high_of, low_of

from harness.rooms import Wrong, case, changed_page
from timeweave_reference.archives import EMPTY, Node, listed
from timeweave_reference.events_files import events_to_bytes
from timeweave_reference.fields import LAST_STEP
from timeweave_reference.fields import big_endian as be
from timeweave_reference.messages import message_of, read_message
from timeweave_reference.recording import History
from timeweave_reference.tree_pages import grown, size

# Which service does what, one after another: it records an event, or receives the other one's last step.
TURNS = ("mill events", "bank events", "mill events", "bank receives", "mill receives", "bank events", "bank receives", "mill events", "mill receives", "bank receives")


def over(shape, entries):
    """The tree of these entries, which rise, in this shape."""
    if not shape:
        return EMPTY
    _, left, right = shape
    at = size(left)
    return Node(over(left, entries[:at]), entries[at], over(right, entries[at + 1 :]))


class Service:
    """A service in a room, and the history that it keeps, whose archive has one page."""

    def __init__(self, room, name):
        self.room, self.name, self.history, self.shape = room, name, History(name), None
        (room.folder / name).mkdir()
        room.expect(f"init {name} {name}", 0, self.line(0))

    def line(self, step):
        return f"{self.name} {step} {self.history.line().auths[step].hex()}\n".encode()

    def events(self):
        self.history.append([b"%d" % len(self.history.steps)])
        self.room.put("e", events_to_bytes(self.history.steps[-1].events))
        self.room.expect(f"append {self.name} e", 0, self.line(len(self.history.steps)))

    def grow(self, tree, entry):
        entries = listed(tree)
        place = bisect([it.key for it in entries], entry.key)
        self.shape = grown(self.shape, place)
        return over(self.shape, [*entries[:place], entry, *entries[place:]])

    def receives(self, peer):
        since = max((entry.step for entry in listed(self.history.trees[-1])), default=0)
        status, message, _ = self.room.run("thread", peer.name, str(since))
        if status or read_message(message) != message_of(peer.history.line(), len(peer.history.steps), since):
            raise Wrong(f"  timeweave thread {peer.name} {since}: {status} {message!r}")
        self.room.put("m", message)
        self.history.receive(peer.name, len(peer.history.steps), peer.history.line().auths[-1], self.grow)
        status, receipt, _ = self.room.run("receive", self.name, "m")
        if status:
            raise Wrong(f"  timeweave receive {self.name} m: {status} {receipt!r}")

    def last(self):
        return len(self.history.steps)


def made(room):
    """Both services after their turns."""
    mill, bank = Service(room, "mill"), Service(room, "bank")
    for turn in TURNS:
        name, does = turn.split()
        own, peer = (mill, bank) if name == "mill" else (bank, mill)
        if does == "events":
            own.events()
        else:
            own.receives(peer)
    return mill, bank


def tops(last):
    """Each top as a word, and none, which is the last step."""
    return [(top, f" {top}") for top in range(1, last + 1)] + [(last, "")]


def each_low(room):
    """the low file of each step under each top is the history's, of the other service and of one that it knows nothing of"""
    for own, peer in permutations(made(room)):
        stored = (room.folder / own.name / "timeline.tw").read_bytes()
        for top, word in tops(own.last()):
            for step in range(1, top + 1):
                for name in (peer.name, "a", "zz"):
                    room.expect(f"map {own.name} low {step} {name}{word}", 0, low_of(own.history, step, name, top))
        if (room.folder / own.name / "timeline.tw").read_bytes() != stored:
            raise Wrong("  the store is another one")


def each_high(room):
    """the high file of each top for each step of the other service, and for some that it hasn't, is the history's"""
    for own, peer in permutations(made(room)):
        for top, word in tops(own.last()):
            for step in (*range(1, peer.last() + 2), LAST_STEP):
                for name in (peer.name, "a", "zz"):
                    room.expect(f"map {own.name} high {step} {name}{word}", 0, high_of(own.history, top, name, step))


def accepted_together(room):
    """the files of one step of both are accepted under the lines of their tops, with the bounds of what was received"""
    for own, peer in permutations(made(room)):
        for step in range(1, own.last() + 1):
            for top, upto in ((own.last(), peer.last()), (step, 1), (step, peer.last() // 2)):
                low, high = bounds(own.history, step, peer.history, upto)
                room.put("k", own.line(top) + peer.line(upto))
                for name, words in (("l", f"map {own.name} low {step} {peer.name} {top}"), ("h", f"map {peer.name} high {step} {own.name} {upto}")):
                    room.put(name, room.run(*words.split())[1])
                room.expect("checkmap l h k", 0, f"accepted map\nlow {low}\nhigh {'none' if high is None else high}\nupto {upto}\n".encode())


def table(room):
    """steps and tops out of their order, and a service without a step"""
    mill, _ = made(room)
    last = mill.last()
    for step, top in ((0, ""), (0, " 1"), (2, " 1"), (1, " 0"), (last + 1, ""), (1, f" {last + 1}"), (2**64 - 1, ""), (2**64 - 1, f" {2**64 - 1}")):
        room.expect(f"map mill low {step} bank{top}", 7, f"refused NoStep {last}\n".encode())
    for top in (0, last + 1, 2**64 - 1):
        room.expect(f"map mill high 1 bank {top}", 7, f"refused NoStep {last}\n".encode())
    for step in ("0", str(2**40), "01"):
        room.expect(f"map mill high {step} bank", 2, b"usage 4\n")
    Service(room, "new")
    room.expect("map new low 1 bank", 7, b"refused NoStep 0\n")
    room.expect("map new high 1 bank", 7, b"refused NoStep 0\n")
    (room.folder / "none").mkdir()
    for words in ("map none low 1 bank", "map none high 1 bank"):
        room.expect(words, 8, b"store Blank\n")


def bad_pages(room):
    """a step's page is damaged: what needs it tells it, and what doesn't is answered; the low file of step 1 needs none"""
    own = Service(room, "d")
    for _ in range(3):
        own.events()
    file = room.folder / "d/timeline.tw"
    stored = file.read_bytes()
    # (the pages of the steps are 5, 7 and 9; the steps of low files and the tops of high files that need them)
    for page, steps, tops_of in ((5, (2,), (1,)), (7, (2, 3), (1, 2)), (9, (2, 3), (1, 2, 3))):
        file.write_bytes(changed_page(stored, page, 0, be(9, 1)))
        told = 8, f"store BadPage {page}\n".encode()
        for step in (1, 2, 3):
            room.expect(f"map d low {step} b {step}", *(told if step in steps else (0, low_of(own.history, step, "b", step))))
            room.expect(f"map d high 1 b {step}", *(told if step in tops_of else (0, high_of(own.history, step, "b", 1))))
    file.write_bytes(stored)
    room.expect("map d low 3 b", 0, low_of(own.history, 3, "b", 3))


def cases():
    for work in (each_low, each_high, accepted_together, table, bad_pages):
        yield case(work, "mapped")
