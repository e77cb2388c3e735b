"""Acceptance cases of stores that aren't whole: what `append`, `receive` and `offer` keep where a page that they don't read is damaged, and that a
follower's store, given to `append` and `receive`, stays as it is."""

import os

from harness.entangled import both
from harness.faults import Run as FaultyRun, failing, killed_at, lost_power
from harness.making import message_bytes
from harness.rooms import Wrong, case, changed_page, expect
from harness.tracing import calls_of
from timeweave_reference.events_files import events_to_bytes
from timeweave_reference.services import service_of
from timeweave_reference.stores import NoStore, read_store
from timeweave_reference.timelines import Timeline
from timeweave_reference.tree_pages import PAGE

# The page that is damaged in each store, its first one, and how.
DAMAGED, PLACE, BYTE = 4, 4095, b"\x01"

LINE = Timeline("seen", [[b"a"], [b"b"], [b"c"], [b"d"], [b"e"]])

COMMANDS = ("append", "receive", "offer")

# What they keep where they fail, are killed or lose power.
KEPT = (
    (failing, "{} over a store with a damaged page, each of whose calls on its files fails once, keeps the old record or the next one"),
    (killed_at, "{} over a store with a damaged page, killed at any of its calls on the store, keeps the old record or the next one"),
    (lost_power, "what a loss of power in {} over a store with a damaged page may leave has the old record or the next one"),
)


def kept_in(data):
    """The root record that a file opens with, and its pages."""
    _, body = read_store(data)
    return body.root, data[4 * PAGE : body.used * PAGE]


class Kept:
    """The record and pages that may stand after a run: those before it, and those that it made."""

    def __init__(self, path, before, after, words, again):
        self.path, self.before, self.after = path, before, after
        self.words, self.again = words, again

    def go_on(self, room, is_told):
        """The file opens with the record and pages that were made, or, where nothing was told, with those before; and the program goes on."""
        try:
            found = kept_in(self.path.read_bytes())
        except NoStore as none:
            raise Wrong(f"  the file is no store any more: {none}") from none
        if found != self.after and (is_told or found != self.before):
            raise Wrong("  the store's record and pages aren't those that were made, nor those before")
        room.expect(self.words, 0, self.again[found == self.after])
        if kept_in(self.path.read_bytes())[1][: len(self.after[1])] != self.after[1]:
            raise Wrong(f"  after timeweave {self.words} once more the pages are other ones")


def appended(room):
    """A service of three steps, its words for one more, what they answer, and what they answer once more."""
    steps = [[b"a"], [b"b"], [b"c"], [b"d"], [b"d"]]
    room.made("page", steps[:3])
    room.put("e", events_to_bytes(steps[3]))
    lines = [service_of("page", steps[:count]).anchor(count) for count in (4, 5)]
    return "d", "append d e", lines[0], lines


def received(room):
    """A service that received, its words for one message more, and the receipt, which is answered once more too."""
    pair = both(room)
    pair.append("alpha", [b"last"])
    message = pair.message("alpha", 4)
    room.put("m", message)
    receipt = pair.services["beta"].copied().receive(message)
    return "beta", "receive beta m", receipt, [receipt, receipt]


def offered(room):
    """A follower of two heads, its words for one more, and the head, which is answered once more too."""
    (room.folder / "d").mkdir()
    room.expect("watch d seen", 0, service_of("seen", []).anchor(0))
    for step, since in ((1, 0), (2, 1), (4, 2)):
        room.put("m", message_bytes(LINE, step, since))
        if step < 4:
            room.expect("offer d m", 0, f"seen {step} {LINE.auths[step].hex()}\n".encode())
    head = f"seen 4 {LINE.auths[4].hex()}\n".encode()
    return "d", "offer d m", head, [head, head]


class Run(FaultyRun):
    """A command over a store with a damaged page, and the record and pages that may stand after it."""

    makes = True

    def __init__(self, room, command):
        self.room = room
        self.folder, self.words, self.output, again = {"append": appended, "receive": received, "offer": offered}[command](room)
        self.path = room.folder / self.folder / "timeline.tw"
        self.kept = changed_page(self.path.read_bytes(), DAMAGED, PLACE, BYTE)
        self.again()
        room.expect(self.words, 0, self.output)
        made = self.path.read_bytes()
        self.histories = Kept(self.path, kept_in(self.kept), kept_in(made), self.words, again)
        expect(made[DAMAGED * PAGE + PLACE : (DAMAGED + 1) * PAGE], BYTE, f"the damaged byte behind timeweave {self.words}")
        self.again()


# ---- a page that isn't read


def unread(command):
    def work(room):
        run = Run(room, command)
        status, found, calls = calls_of(room.program, run.words.split(), room.folder)
        expect((status, found), (0, run.output), f"timeweave {run.words}")
        path = os.path.realpath(run.path)
        places = [int(call.words[3]) for call in calls if call.path == path and call.name in ("pread64", "pwrite64")]
        expect(DAMAGED * PAGE in places, False, f"whether timeweave {run.words} reads or writes the damaged page")
        run.histories.go_on(room, True)

    work.__doc__ = f"`{command}` neither reads nor writes a damaged page of the store's, and is done as over a whole one"
    return work


# ---- stores of another kind


class Given(FaultyRun):
    """A command of services over a follower's store, which it doesn't open."""

    folder, makes = "f", False

    def __init__(self, room, command):
        self.room, self.path = room, room.folder / "f/timeline.tw"
        room.put("m", both(room).message("alpha", 0))
        room.put("e", events_to_bytes([b"x"]))
        (room.folder / "f").mkdir()
        room.expect("watch f seen", 0, service_of("seen", []).anchor(0))
        room.put("o", message_bytes(LINE, 2, 0))
        room.expect("offer f o", 0, f"seen 2 {LINE.auths[2].hex()}\n".encode())
        self.kept = self.path.read_bytes()
        self.words = {"append": "append f e", "receive": "receive f m"}[command]


def follower_given(command):
    def work(room):
        run = Given(room, command)
        other = (8, b"store NotAStore 1\n")
        expect(room.run(*run.words.split())[:2], other, f"timeweave {run.words}")
        calls = [(name, when) for name, when, kind in run.calls() if kind == "store"]
        expect("pread64" in {name for name, _ in calls}, True, f"whether timeweave {run.words} reads the store")
        for name, when in calls:
            for fault in ("error=EIO", "signal=KILL"):
                found = calls_of(room.program, run.words.split(), room.folder, inject=[f"{name}:{fault}:when={when}"])[:2]
                what = f"timeweave {run.words}, with {name}:{fault}:when={when}"
                if fault == "error=EIO" and found not in (other, (5, b"fault disk\n")):
                    raise Wrong(f"  {what}, answered {found}")
                expect(run.path.read_bytes() == run.kept, True, f"whether the follower's store is as it was behind {what}")

    work.__doc__ = f"a follower's store that is given to `{command}` stays byte for byte, each of whose calls on it fails once or kills it"
    return work


def cases():
    works = [
        *(unread(command) for command in COMMANDS),
        *(make(command, Run, told) for make, told in KEPT for command in COMMANDS),
        *(follower_given(command) for command in ("append", "receive")),
    ]
    return [case(work, "damaged") for work in works]
