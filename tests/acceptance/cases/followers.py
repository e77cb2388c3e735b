"""Acceptance cases of followers over real folders: `watch`, `offer` and `heads`, each with its output and the bytes of the store."""

import os

from harness.faults import Run as FaultyRun, failing, killed_at, lost_power, stays_told
from harness.limits import closed, growing_to, plain_rights
from harness.making import message_bytes, pathless_message
from harness.rooms import Wrong, case, changed_page, ended, expect, locked, run_apart, some_steps, started, waits
from harness.tracing import calls_of, under_read_only
from timeweave_reference.events_files import events_to_bytes
from timeweave_reference.fields import LAST_STEP, padded
from timeweave_reference.fields import big_endian as be
from timeweave_reference.followers import Follower
from timeweave_reference.services import service_of
from timeweave_reference.stores import page
from timeweave_reference.timelines import Timeline
from timeweave_reference.tree_pages import PAGE

# The history that is watched, and another one of the name, which parts from it at step 3.
LINE = Timeline("seen", [[b"a"], [b"b"], [b"c"], [b"d"], [b"e"], [b"f"]])
OTHER = Timeline("seen", [[b"a"], [b"b"], [b"C"], [b"d"], [b"e"], [b"f"]])

# What the commands that write keep.
LOST = "what a loss of power in {} may leave keeps each head that was told, and goes on"
KILLED = "{} that is killed at any of its calls on the store keeps each head that was told, and goes on"


class Seen(Follower):
    """The follower of a history after heads at these steps."""

    def __init__(self, line, steps=()):
        super().__init__(line.name, [(step, line.auths[step]) for step in steps])
        self.line, self.steps = line, list(steps)

    def moved(self, step):
        return Seen(self.line, [*self.steps, step])

    def at(self, step):
        """The line of a step."""
        return self.anchor(step, self.line.auths[step])


def followed(room, steps=()):
    """Makes a follower of the line in the folder `d`, with heads at these steps, and answers it."""
    (room.folder / "d").mkdir()
    room.expect(f"watch d {LINE.name}", 0, Seen(LINE).head())
    follower, last = Seen(LINE), 0
    for step in steps:
        follower = follower.moved(step)
        room.put("m", message_bytes(LINE, step, last))
        room.expect("offer d m", 0, follower.head())
        last = step
    return follower


# ---- what is kept


def each_head(room):
    """a follower of each of a service's own messages: line, heads and store after each"""
    line = Timeline("seen", some_steps("watched", 9))
    (room.folder / "d").mkdir()
    follower = Seen(line)
    room.expect("watch d seen", 0, follower.head())
    room.expect_store(follower.file())
    room.expect("heads d", 0, b"")
    last = 0
    for step in (1, 2, 5, 6, 9):
        for since in range(last + 1):
            room.put(f"m{since}", message_bytes(line, step, since))
        for since in range(last):
            room.expect(f"offer d m{since}", 7, b"refused BadLink " + b" ".join(follower.head().split()[1:]) + b"\n")
        room.expect_store(follower.file())
        follower = follower.moved(step)
        for since in (last, *range(last + 1)):
            room.expect(f"offer d m{since}", 0, follower.head())
            room.expect_store(follower.file())
        room.expect("heads d", 0, follower.lines())
        last = step


def beside_a_service(room):
    """the message that a service writes since the follower's head moves it to the service's last step"""
    steps = some_steps("beside", 7)
    store = room.made("seen", [])
    (room.folder / "f").mkdir()
    follower = Seen(store.line)
    room.expect("watch f seen", 0, follower.head())
    for step in range(1, 8):
        room.put("e", events_to_bytes(steps[step - 1]))
        store = service_of("seen", steps[:step])
        room.expect("append d e", 0, store.anchor(step))
        if step % 3:
            _, message, _ = room.run("thread", "d", str(follower.steps[-1] if follower.steps else 0))
            room.put("m", message)
            follower = Seen(store.line, [*follower.steps, step])
            room.expect("offer f m", 0, follower.head())
    room.expect("heads f", 0, follower.lines())
    expect((room.folder / "f/timeline.tw").read_bytes(), follower.file(), "the follower's store")


def refusals(room):
    """each refusal in its order, with the store as it was"""
    follower = followed(room, (2, 4))
    kept = LINE.auths[4].hex()
    for words, status, text, message in (
        ("other", 7, "refused Other peer", message_bytes(Timeline("peer", [[]] * 9), 3, 0)),
        ("stale", 7, "refused Stale 4", message_bytes(LINE, 3, 2)),
        ("stale", 7, "refused Stale 4", message_bytes(OTHER, 3, 2)),
        ("same", 0, follower.head().decode().strip(), message_bytes(LINE, 4, 4)),
        ("same", 0, follower.head().decode().strip(), message_bytes(LINE, 4, 1)),
        ("forked", 7, f"refused Forked 4 {kept} {OTHER.auths[4].hex()}", message_bytes(OTHER, 4, 2)),
        ("forked", 7, f"refused Forked 4 {kept} {OTHER.auths[4].hex()}", message_bytes(OTHER, 4, 4)),
        ("since", 7, f"refused BadLink 4 {kept}", message_bytes(LINE, 6, 2)),
        ("since", 7, f"refused BadLink 4 {kept}", message_bytes(LINE, 6, 5)),
        ("climb", 7, f"refused BadLink 4 {kept}", message_bytes(OTHER, 6, 4)),
        ("bytes", 9, "unreadable m byte 100", message_bytes(LINE, 1, 0) + b"x"),
        ("none", 9, "unreadable m byte 0", b""),
    ):
        room.put("m", message)
        room.expect("offer d m", status, f"{text}\n".encode())
        room.expect_store(follower.file())
    room.expect("offer d missing", 3, b"fault input\n")
    room.expect("heads d", 0, follower.lines())


def folders(room):
    """folders without a follower, and one of a service: each is told, and left as it is"""
    (room.folder / "d").mkdir()
    room.put("m", message_bytes(LINE, 1, 0))
    room.expect("heads d", 8, b"store Blank\n")
    expect(os.listdir(room.folder / "d"), [], "what timeweave heads d left in a folder without a store")
    room.expect("offer d m", 8, b"store Blank\n")
    for words in ("offer nowhere m", "heads nowhere"):
        room.expect(words, 5, b"fault disk\n")
    room.expect("watch nowhere seen", 5, b"fault disk\n")
    # (the message is read before the folder is looked at)
    room.expect("offer nowhere missing", 3, b"fault input\n")
    room.put("j", b"junk")
    room.expect("offer nowhere j", 9, b"unreadable j byte 0\n")
    room.expect("init d seen", 0, service_of("seen", []).anchor(0))
    for words, status, text in (("offer d m", 8, b"store NotAStore 0\n"), ("heads d", 8, b"store NotAStore 0\n"), ("watch d seen", 7, b"refused Taken\n")):
        room.expect(words, status, text)
    room.expect_store(service_of("seen", []).file())
    (room.folder / "d/timeline.tw").unlink()
    room.expect("watch d seen", 0, Seen(LINE).head())
    for words in ("init d seen", "watch d other"):
        room.expect(words, 7, b"refused Taken\n")
    for words in ("append d m", "thread d 0", "prove d event 1 0"):
        room.expect(words, 9 if words.startswith("append") else 8, b"unreadable m byte 2\n" if words.startswith("append") else b"store NotAStore 0\n")
    room.expect_store(Seen(LINE).file())


def last_step(room):
    """the last step that there is, and the one before it"""
    (room.folder / "d").mkdir()
    room.expect("watch d seen", 0, Seen(LINE).head())
    start = (room.folder / "d/timeline.tw").read_bytes()
    auth = bytes(range(32))
    root = padded("seen") + be(LAST_STEP, 8) + auth + be(4, 8)
    body = page(b"TWSTORE1" + be(2, 8) + be(5, 8) + be(64, 2) + root)
    head = page(b"\x04" + be(LAST_STEP, 8) + auth + be(0, 8))
    (room.folder / "d/timeline.tw").write_bytes(start[: 2 * PAGE] + body + start[3 * PAGE : 3 * PAGE + 8] + be(1, 8) + start[3 * PAGE + 16 : 4 * PAGE] + head)
    line = f"seen {LAST_STEP} {auth.hex()}\n".encode()
    room.expect("heads d", 0, line)
    room.put("m", pathless_message("seen", LAST_STEP, auth, LAST_STEP))
    room.expect("offer d m", 0, line)
    room.put("m", pathless_message("seen", LAST_STEP, bytes(32), LAST_STEP))
    room.expect("offer d m", 7, f"refused Forked {LAST_STEP} {auth.hex()} {bytes(32).hex()}\n".encode())


# ---- damaged stores


def bad_pages(room):
    """head pages that aren't of their kind, that name a page that can't stand there, and steps that don't rise"""
    follower = followed(room, (1, 2, 4))
    good = room.store()
    room.put("m", message_bytes(LINE, 6, 4))
    for number in (4, 5, 6):
        for place, new in ((0, b"\x01"), (0, b"\x05"), (1, bytes(8)), (1, be(LAST_STEP + 1, 8)), (41, be(number, 8)), (41, be(2**40, 8)), (49, b"\x01"), (4095, b"\x01")):
            (room.folder / "d/timeline.tw").write_bytes(changed_page(good, number, place, new))
            room.expect("heads d", 8, f"store BadPage {number}\n".encode())
    for number, place, new in ((6, 1, be(5, 8)), (6, 9, bytes(32)), (5, 1, be(4, 8)), (4, 1, be(2, 8)), (4, 1, be(3, 8))):
        (room.folder / "d/timeline.tw").write_bytes(changed_page(good, number, place, new))
        room.expect("heads d", 8, f"store BadPage {number}\n".encode())
    # (a page of no store's, of the first four, is told by its own number)
    for before in (1, 2, 3):
        (room.folder / "d/timeline.tw").write_bytes(changed_page(good, 5, 41, be(before, 8)))
        room.expect("heads d", 8, f"store BadPage {before}\n".encode())
    # what an earlier head's authenticator is, no other page says; a page that leads to none is the first
    (room.folder / "d/timeline.tw").write_bytes(changed_page(good, 4, 9, bytes(32)))
    room.expect("heads d", 0, f"seen 1 {bytes(32).hex()}\n".encode() + follower.at(2) + follower.at(4))
    (room.folder / "d/timeline.tw").write_bytes(changed_page(good, 6, 41, bytes(8)))
    room.expect("heads d", 0, follower.at(4))
    # an offer reads no head page
    (room.folder / "d/timeline.tw").write_bytes(changed_page(good, 6, 0, bytes(PAGE)))
    room.expect("offer d m", 0, follower.moved(6).head())
    room.expect("heads d", 8, b"store BadPage 6\n")


def root_records(room):
    """root records that aren't allowed"""
    follower = followed(room, (1, 2, 4))
    good = room.store()
    # the record of three heads stands in page 3 from place 26 on: step from 42, authenticator from 50, page from 82 on
    for place, new in (
        (24, be(63, 2)), (24, be(65, 2)), (26, b"S"), (30, b"\0a"), (42, bytes(8)), (42, be(2, 8)), (42, be(LAST_STEP + 1, 8)), (82, bytes(8)),
        (8, be(6, 8)), (16, be(9, 8)),
    ):
        (room.folder / "d/timeline.tw").write_bytes(changed_page(good, 3, place, new))
        status, text, _ = room.run("heads", "d")
        expect((status, text[:6]), (8, b"store "), f"timeweave heads d, where place {place} of the record's page is {new.hex()}")
    for number in (3, 7, 2**40, 2**64 - 1):
        (room.folder / "d/timeline.tw").write_bytes(changed_page(good, 3, 82, be(number, 8)))
        room.expect("heads d", 8, f"store BadPage {number}\n".encode())
        room.put("m", message_bytes(LINE, 4, 4))
        room.expect("offer d m", 0, follower.head())
    # at step 0 the authenticator is the name's own
    (room.folder / "d/timeline.tw").unlink()
    room.expect("watch d seen", 0, Seen(LINE).head())
    start = room.store()
    (room.folder / "d/timeline.tw").write_bytes(changed_page(changed_page(start, 2, 50, bytes(32)), 3, 50, bytes(32)))
    for words in ("heads d", "offer d m"):
        room.expect(words, 8, b"store NotAStore 0\n")


# ---- faults, races, lost power


def failing_disks(room):
    """folders, files, devices and outputs that fail: nothing that was told is lost"""
    follower = followed(room, (1,))
    later = follower.moved(3)
    room.put("m", message_bytes(LINE, 3, 1))
    path = room.folder / "d/timeline.tw"
    path.chmod(0o444)
    room.expect("heads d", 0, follower.lines(), limit=plain_rights)
    for words in ("offer d m", "watch d seen"):
        room.expect(words, 5, b"fault disk\n", limit=plain_rights)
    path.chmod(0o644)
    room.expect("offer d m", 5, b"fault disk\n", limit=growing_to(5))
    room.expect("heads d", 0, follower.lines())
    found = room.run("offer", "d", "m", limit=closed, to=None)
    expect(found, (4, b"", b""), "timeweave offer d m >&-")
    room.expect_store(later.file())
    with open("/dev/full", "wb") as full:
        for words in ("offer d m", "heads d"):
            expect(room.run(*words.split(), to=full), (4, b"", b""), f"timeweave {words} > /dev/full")
    room.expect("heads d", 0, later.lines())
    (room.folder / "m").chmod(0)
    room.expect("offer d m", 3, b"fault input\n", limit=plain_rights)


def races(room):
    """offers at one time on one follower: each is answered by the head, or as stale, and the heads rise"""
    for k in range(20):
        name = f"r{k}"
        (room.folder / name).mkdir()
        room.expect(f"watch {name} seen", 0, Seen(LINE).head())
        for step in range(1, 7):
            room.put(f"m{step}", message_bytes(LINE, step, 0))
        running = [started(room, "offer", name, f"m{step}") for step in range(1, 7)]
        reading = [started(room, "heads", name) for _ in range(3)]
        answers, told = [ended(it) for it in running], [ended(it) for it in reading]
        first = [step for step, answer in enumerate(answers, 1) if answer[0] == 0]
        expect(len(first), 1, f"how many of six offers since step 0 at one time were taken, of {answers}")
        follower = Seen(LINE, first)
        head = b" ".join(follower.head().split()[1:])
        for step, answer in enumerate(answers, 1):
            wanted = (0, follower.head(), b"") if step == first[0] else (7, b"refused Stale %d\n" % first[0] if step < first[0] else b"refused BadLink " + head + b"\n", b"")
            expect(answer, wanted, f"timeweave offer {name} m{step}, beside others")
        for answer in told:
            expect(answer in ((0, b"", b""), (0, follower.lines(), b"")), True, f"whether {answer} are the heads before or after")
        expect((room.folder / name / "timeline.tw").read_bytes(), follower.file(), f"the store {name}")


def waiting(room):
    """who moves the head waits for each other program, and who reads only for one that writes"""
    follower = followed(room, (1,))
    room.put("m", message_bytes(LINE, 2, 1))
    with locked(room, "-s"):
        room.expect("heads d", 0, follower.lines())
        offer = started(room, "offer", "d", "m")
        if not waits(offer):
            raise Wrong("  offer doesn't wait for one that reads")
    expect(ended(offer), (0, follower.moved(2).head(), b""), "timeweave offer d m, behind one that reads")
    with locked(room, "-x"):
        running = [started(room, *words.split()) for words in ("heads d", "offer d m", "watch d seen")]
        if not all(waits(it) for it in running):
            raise Wrong("  heads, offer or watch doesn't wait for one that writes")
    expect([ended(it)[0] for it in running], [0, 0, 7], "the statuses of heads, offer and watch behind one that writes")


def syncs(room):
    """`heads` syncs before it reads and writes nothing; `watch` and an `offer` that moves sync the folder first"""
    follower = followed(room, (1,))
    path = os.path.realpath(room.folder / "d/timeline.tw")
    status, found, calls = calls_of(room.program, ["heads", "d"], room.folder)
    made = [call.name for call in calls if call.path == path and call.name in ("fsync", "fdatasync", "pread64", "pwrite64", "write")]
    expect((status, found, made[:1], {*made}), (0, follower.lines(), ["fsync"], {"fsync", "pread64"}), "timeweave heads d, and its calls on the store")
    reads = [call.words[3] for call in calls if call.path == path and call.name == "pread64"]
    expect(len(reads), len({*reads}), "the pages that timeweave heads d reads, each once")
    for error in ("EROFS", "EIO"):
        expect(calls_of(room.program, ["heads", "d"], room.folder, inject=[f"fsync:error={error}"])[:2], (5, b"fault disk\n"), f"timeweave heads d, whose sync answers {error}")
    room.put("m", message_bytes(LINE, 2, 1))
    _, _, calls = calls_of(room.program, ["offer", "d", "m"], room.folder)
    made = [call.name for call in calls if call.path == path and call.name in ("fsync", "pwrite64")]
    expect(made, ["fsync", "pwrite64", "fsync", "pwrite64", "pwrite64", "fsync", "pwrite64", "fsync"], "the writes and syncs of timeweave offer d m")


class Lists:
    """The heads that may stand after a run: those before it, None where there was no follower yet, and those that it made."""

    def __init__(self, before, made):
        self.before, self.made = before, made

    def go_on(self, room, is_told):
        """Moves the head to the last step; raises Wrong where a head that was told isn't there, or where it doesn't go on."""
        status, text, _ = room.run("heads", "d")
        if self.before is None and not is_told and (status, text) == (8, b"store Blank\n"):
            room.expect("watch d seen", 0, self.made.head())
            status, text, _ = room.run("heads", "d")
        lists = [self.made] if is_told or self.before is None else [self.before, self.made]
        follower = next((it for it in lists if (status, text) == (0, it.lines())), None)
        if not follower:
            raise Wrong(f"  timeweave heads d\n  wanted one of {[it.steps for it in lists]}\n  got    {status} {text!r}")
        room.put("n", message_bytes(LINE, 6, follower.steps[-1] if follower.steps else 0))
        room.expect("offer d n", 0, follower.moved(6).head())
        room.expect("heads d", 0, follower.moved(6).lines())


class Run(FaultyRun):
    """A command of a follower with the files that it needs; what it answers, and the lists that may stand after it."""

    def __init__(self, room, command):
        self.room, self.makes = room, command != "heads"
        if command == "watch":
            (room.folder / "d").mkdir()
            before, made = None, Seen(LINE)
        else:
            before = followed(room, (1, 2))
            made = before.moved(4) if command == "offer" else before
        room.put("m", message_bytes(LINE, 4, 2))
        self.histories = Lists(before, made)
        self.words, self.output = {
            "watch": ("watch d seen", made.head()), "offer": ("offer d m", made.head()), "heads": ("heads d", made.lines()),
        }[command]
        path = room.folder / "d/timeline.tw"
        self.kept = path.read_bytes() if path.exists() else None


def told_stays(room):
    """a head that `heads` told, of an offer that was killed before its last sync, stays, whatever a loss of power takes"""
    follower = followed(room, (1, 2))
    room.put("m", message_bytes(LINE, 4, 2))
    expect(stays_told(room, "offer d m", "heads d"), follower.moved(4).lines(), "timeweave heads d behind the killed offer")


def read_only_mount(room):
    """on a read-only mount the heads are told; `offer` and `watch` answer `fault disk` and change nothing"""
    follower = followed(room, (1,))
    room.put("m", message_bytes(LINE, 2, 1))
    fault = (5, b"fault disk\n", b"")
    for words, wanted in (("heads d", (0, follower.lines(), b"")), ("offer d m", fault), ("watch d seen", fault)):
        expect(run_apart(room, *words.split(), limit=under_read_only(room.folder / "d")), wanted, f"timeweave {words}, where d is mounted read-only")
    room.expect_store(follower.file())


def cases():
    works = (
        each_head, beside_a_service, refusals, folders, last_step, bad_pages, root_records, failing_disks, races, waiting, syncs, told_stays,
        read_only_mount, *(failing(command, Run) for command in ("watch", "offer", "heads")),
        *(lost_power(command, Run, LOST, 200) for command in ("watch", "offer")), *(killed_at(command, Run, KILLED) for command in ("watch", "offer")),
    )
    return [case(work, "followers") for work in works]
