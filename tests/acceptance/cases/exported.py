"""Acceptance cases of `export`: the file of a service's history is the reference's, and is what `show`, `audit` and `adopt` take."""

import os
import random

from harness.entangled import Entangled, both
from harness.making import proof_bytes
from harness.rooms import case, changed_page, expect, four_steps, some_steps
from harness.tracing import calls_of
from timeweave_reference.adoptions import adopt
from timeweave_reference.audits import audit
from timeweave_reference.fields import big_endian as be
from timeweave_reference.histories import MOST_BYTES as MOST_HISTORY, Unsound, read_history, trees_of
from timeweave_reference.services import Service
from timeweave_reference.timelines import Timeline
from timeweave_reference.tree_pages import PAGE


def writes_files(group):
    """What `export` writes of each service is the reference's, a sound history, and the stores stay."""
    for name, service in group.services.items():
        group.room.expect(f"export {name}", 0, service.history())
    group.stores_are()


def stored(room, service):
    """Puts the store of a service of the reference into the folder `d`."""
    (room.folder / "d").mkdir(exist_ok=True)
    (room.folder / "d/timeline.tw").write_bytes(service.file())


# ---- what is written


def least_files(room):
    """a service without a step has a file of 28 bytes, and one with a step of an empty event one of 43, of which `show` makes the least proof"""
    one = Entangled(room, "a")
    writes_files(one)
    expect(len(one.services["a"].history()), 28, "the size of a history without a step")
    one.append("a", [b""])
    writes_files(one)
    history = one.services["a"].history()
    expect(len(history), 43, "the size of a history of one step")
    room.put("h", history)
    room.expect("show h 1 0", 0, proof_bytes(Timeline("a", [[b""]]), 1, 0, 1))


def each_file(room):
    """two services with events, times and threads: the file after each step"""
    pair = Entangled(room, "alpha", "beta")
    rand = random.Random("exported")
    clock, since = 0, {"alpha": 0, "beta": 0}
    for number, events in enumerate(some_steps("exported", 20)):
        name, peer = ("alpha", "beta") if number % 3 else ("beta", "alpha")
        clock += rand.randrange(3)
        time = rand.choice((None, clock))
        if rand.randrange(2) or not pair.services[peer].steps:
            pair.append(name, events, time)
        else:
            pair.deliver(name, pair.message(peer, since[peer]), time)
            since[peer] = pair.services[peer].steps
        writes_files(pair)


def many_threads(room):
    """the archive's tree comes to several levels of pages: each step's file has the nodes of the pages that it wrote, and the numbers of older ones"""
    rand = random.Random("many")
    service, peers = Service("hub"), [Service(f"peer-{number}") for number in range(70)]
    since = [0] * len(peers)
    for number in range(500):
        at = rand.randrange(len(peers))
        peers[at].append([be(number, 4)])
        service.receive(peers[at].message(since[at]))
        since[at] = peers[at].steps
        if number % 9 == 0:
            service.append([b"between"])
        if number in (23, 24, 25, 60, 499):
            stored(room, service)
            history = service.history()
            room.expect("export d", 0, history)
            rules = broken(history)
            expect(rules, None, f"the first rule that the history of {service.steps} steps breaks")
    room.put("h", history)
    room.expect("show h 2 0", 0, proof_bytes(service.line, 2, 0, service.steps))


def broken(history):
    """The first step of a history's file that breaks a rule, with the rule; None where it is sound."""
    try:
        trees_of(*read_history(history))
    except Unsound as unsound:
        return unsound.step, unsound.rule
    return None


def full_steps(room):
    """steps at their limits"""
    service = Service("full")
    for events in ([b""] * 1024, [bytes([k]) * 1024 for k in range(64)], [bytes([k % 256]) * 64 for k in range(1024)], []):
        service.append(events)
    stored(room, service)
    room.expect("export d", 0, service.history())


# ---- who takes it


def taken(room):
    """`show`, `audit` and `adopt` take what `export` writes: proofs of its events are those of the service, an audit stands, and peers' proofs hold it"""
    pair = both(room)
    alpha, beta = pair.services["alpha"], pair.services["beta"]
    for name in ("alpha", "beta"):
        room.put(name + ".h", room.run("export", name)[1])
        service = pair.services[name]
        for step in range(1, service.steps + 1):
            for index in range(len(service.line.events(step))):
                proof = proof_bytes(service.line, step, index, service.steps)
                room.expect(f"prove {name} event {step} {index}", 0, proof)
                room.expect(f"show {name}.h {step} {index}", 0, proof)
    room.put("k", alpha.anchor(alpha.steps) + beta.anchor(beta.steps))
    anchors = {service.name: (service.steps, service.line.auths[-1]) for service in (alpha, beta)}
    files = [(service.name + ".h", service.history()) for service in (alpha, beta)]
    for proof in (beta.thread_proof(beta.steps, "alpha", 4, beta.steps), beta.absent_proof(4, "alpha", 3, beta.steps)):
        room.put("p", proof)
        status, text = audit(proof, anchors, files)
        expect((status, text.split(b"\n")[0]), (0, b"stands"), "the reference's audit")
        room.expect("audit p k alpha.h beta.h", status, text)
    proof = beta.thread_proof(beta.steps, "alpha", 2, beta.steps)
    room.put("p", proof)
    status, told = adopt("alpha.h", alpha.history(), anchors, [proof])
    expect((status, len(read_history(told)[1])), (0, 2), "the reference's adoption")
    room.expect("adopt alpha.h k p", status, told)


# ---- what isn't written

# As large a step as may be, and its size in a file: kind, number of events, each with its length, number of new nodes, and root.
FULL = [bytes(1024)] * 64
FULL_SIZE = 1 + 4 + 64 * (4 + 1024) + 2 + 4


def with_step(service, events, time=None):
    """The service with a step more; that before stays as it is."""
    after = service.copied()
    after.append(events, time)
    return after


def too_long(room):
    """a file of as many bytes as a history may have is written, and read again; one of a byte more, and one of more steps, is refused with its length"""
    service = Service("long")
    steps, left = divmod(MOST_HISTORY - 28, FULL_SIZE)
    for _ in range(steps):
        service.append(FULL)
    # 55 events fill the file up: the last one has what the others leave
    others, last = FULL[:54], left - 11 - 54 * 1028 - 4
    whole = with_step(service, [*others, bytes(last)])
    stored(room, whole)
    history = whole.history()
    expect(len(history), MOST_HISTORY, "the size of the file")
    room.expect("export d", 0, history)
    room.put("h", history)
    room.expect(f"show h {whole.steps} 54", 0, proof_bytes(whole.line, whole.steps, 54, whole.steps))
    longer = with_step(service, [*others, bytes(last + 1)])
    for service, size in ((longer, 1), (with_step(with_step(longer, FULL), [], 7), 1 + FULL_SIZE + 19)):
        stored(room, service)
        expect(len(service.history()), MOST_HISTORY + size, "the size of a longer file")
        room.expect("export d", 7, f"refused TooLong {MOST_HISTORY + size}\n".encode())


def no_service(room):
    """folders without a store, and words without a form"""
    (room.folder / "d").mkdir()
    room.expect("export d", 8, b"store Blank\n")
    (room.folder / "d/timeline.tw").write_bytes(b"\x01" + bytes(4 * PAGE))
    room.expect("export d", 8, b"store NotAStore 0\n")
    for words, word in (("export", 2), ("export d d", 3)):
        room.expect(words, 2, f"usage {word}\n".encode())


# ---- damaged pages


def bad_pages(room):
    """the first page met that isn't of its kind is told: step pages from the last one down, and then the event pages of each step from the first on"""
    four_steps(room)
    good = room.store()
    # the pages of the steps are 5, 7, 9 and 11, and those of their events 4, 6, 8 and 10
    order = (11, 9, 7, 5, 4, 6, 8, 10)
    for place, page in enumerate(order):
        data = changed_page(good, page, 0, bytes(PAGE))
        for later in (None, *order[place + 1 :]):
            (room.folder / "d/timeline.tw").write_bytes(data if later is None else changed_page(data, later, 0, bytes(PAGE)))
            room.expect("export d", 8, f"store BadPage {page}\n".encode())
    # a number of events that the stream doesn't have
    for step, page, count in ((11, 10, 2), (9, 8, 1024), (11, 10, 0)):
        (room.folder / "d/timeline.tw").write_bytes(changed_page(good, step, 10, be(count, 4)))
        room.expect("export d", 8, f"store BadPage {page}\n".encode())
    # a number of events and no event page: the step's page, which is read last
    store = os.path.realpath(room.folder / "d/timeline.tw")
    for step, count in ((5, 1), (9, 1), (11, 1024)):
        (room.folder / "d/timeline.tw").write_bytes(changed_page(good, step, 10, be(count, 4) + bytes(12)))
        status, found, calls = calls_of(room.program, ["export", "d"], room.folder)
        expect((status, found), (8, f"store BadPage {step}\n".encode()), f"a step in page {step} that counts {count} events and has no event page")
        places = [int(call.words[-1]) // PAGE for call in calls if call.path == store and call.name == "pread64"]
        expect(places[-1], step, "the page that is read last")


def bad_archives(room):
    """tree pages that aren't of their kind are told at the step that wrote them; a thread of step 0, and an archive that no step wrote, by their step's page; pages of 1 to 3 by their number"""
    pair = both(room)
    beta = pair.services["beta"]
    path = room.folder / "beta/timeline.tw"
    good = path.read_bytes()
    # the archive after step 3 is the tree page before its step page, and so is that after step 4
    pages = {step: beta.step_pages[step] for step in (1, 2, 3, 4)}
    for page, place, new, told in (
        (pages[4] - 1, 0, bytes(PAGE), pages[4] - 1), (pages[3] - 1, 0, bytes(PAGE), pages[3] - 1), (pages[3] - 1, 4, b"\x01", pages[3] - 1),
        (pages[4], 90, be(4, 8), pages[4]), (pages[4], 90, be(pages[1], 8), pages[4]), (pages[3], 90, be(pages[2], 8), pages[3]),
        (pages[4], 114, bytes(8), pages[4]), (pages[3], 114, bytes(8), pages[3]),
        (pages[4], 90, be(1, 8), 1), (pages[4], 90, be(2, 8), 2), (pages[3], 90, be(3, 8), 3),
    ):
        path.write_bytes(changed_page(good, page, place, new))
        room.expect("export beta", 8, f"store BadPage {told}\n".encode())
    # the page of an event's step may name any archive: it isn't asked for
    path.write_bytes(changed_page(changed_page(good, pages[3] - 1, 0, bytes(PAGE)), pages[4] - 1, 0, bytes(PAGE)))
    room.expect("export beta", 8, f"store BadPage {pages[3] - 1}\n".encode())
    path.write_bytes(good)
    room.expect("export beta", 0, beta.history())


# ---- calls on the store


def reads_once(room):
    """`export` syncs the store before it reads it, reads each of its pages once, those of its front apart, and writes nothing to it"""
    pair = both(room)
    beta = pair.services["beta"]
    store = os.path.realpath(room.folder / "beta/timeline.tw")
    status, found, calls = calls_of(room.program, ["export", "beta"], room.folder)
    expect((status, found), (0, beta.history()), "timeweave export beta")
    own = [call for call in calls if call.path == store and call.name in ("fsync", "fdatasync", "pread64", "pwrite64", "write")]
    expect(([call.name for call in own][:1], {call.name for call in own}), (["fsync"], {"fsync", "pread64"}), "the calls on the store")
    places = [int(call.words[-1]) // PAGE for call in own if call.name == "pread64"]
    pages = len(beta.file()) // PAGE
    expect(sorted(page for page in places if page >= 4), list(range(4, pages)), "the pages that are read")
    for number in range(1, len(places) + 1):
        found = calls_of(room.program, ["export", "beta"], room.folder, inject=[f"pread64:error=EIO:when={number + before_store(calls, store)}"])[:2]
        expect(found, (5, b"fault disk\n"), f"timeweave export beta, whose read number {number} fails")


def before_store(calls, store):
    """How many reads at a place are made before those of the store."""
    names = [(call.name, call.path) for call in calls if call.name == "pread64"]
    return next(number for number, (_, path) in enumerate(names) if path == store)


def cases():
    works = (least_files, each_file, many_threads, full_steps, taken, too_long, no_service, bad_pages, bad_archives, reads_once)
    return [case(work, "exported") for work in works]
