"""Acceptance cases of a small stack: each form of the command line works in 256 KiB of it, over inputs that are large or reach deep."""

from functools import cache

from example_files import Fork, receipts_of

from harness.large import LONG, deep_way
from harness.limits import with_stack
from harness.making import message_bytes
from harness.rooms import case, expect
from timeweave_reference.anchors import anchors_to_bytes
from timeweave_reference.atlases import Hop
from timeweave_reference.events_files import events_to_bytes
from timeweave_reference.histories import MOST_STEP_BYTES
from timeweave_reference.messages import message_of
from timeweave_reference.receipts import MOST_RECEIPTS
from timeweave_reference.scripts import MOST_BYTES as MOST_SCRIPT
from timeweave_reference.services import Service, service_of
from timeweave_reference.timelines import Timeline

# The stack that is allowed, in bytes.
STACK = 256 << 10

# The stack in which `export` works.
EXPORT_STACK = 96 << 10

# How many threads the service has, each of a service of its own.
THREADS = 1500

# The most hops of a proof.
MOST_HOPS = 64


def peer(number):
    """The name of a service whose thread was received; their order isn't the one in which they came."""
    return f"peer-{number * 7919 % 100003}"


@cache
def notary():
    """A service that received many threads: the tree of its archive is three pages high, and more."""
    service = Service("notary")
    for number in range(THREADS):
        service.receive(message_of(Timeline(peer(number), [[b"x"]]), 1, 0).to_bytes())
    return service


def put_notary(room):
    """Puts the service's store into the folder `d`, and answers the service."""
    (room.folder / "d").mkdir()
    room.put("d/timeline.tw", notary().file())
    return notary().copied()


def works(room, words, status, output, stack=STACK):
    """The command answers so with a small stack."""
    expect(room.run(*words.split(), limit=with_stack(stack)), (status, output, b""), f"timeweave {words}, in {stack >> 10} KiB of stack")


def as_ever(room, words, status, first):
    """The command answers with a small stack as it does with any, by this status and a text that begins so."""
    found = room.run(*words.split())
    expect((found[0], found[1][: len(first)]), (status, first), f"timeweave {words}")
    works(room, words, status, found[1])


def grown_service(room):
    """a service of 1,500 threads takes as large a step as may be, and a message, and shows what it has"""
    service = put_notary(room)
    events = [bytes(64)] * (MOST_STEP_BYTES // 64)
    room.put("e", events_to_bytes(events))
    works(room, "append d e", 0, service.append(events))
    message = message_bytes(Timeline("sender", [[b"x"]] * 1023), 1023, 0)
    room.put("m", message)
    works(room, "receive d m", 0, service.receive(message))
    top, step, asked = service.steps, THREADS + 1, peer(THREADS // 2)
    for words, output in (
        (f"prove d event {step} {len(events) - 1}", service.event_proof(step, len(events) - 1, top)), ("prove d link 1", service.link_proof(1, top)),
        (f"prove d thread {top} {asked} 1", service.thread_proof(top, asked, 1, top)), (f"prove d absent {top} {asked} 2", service.absent_proof(top, asked, 2, top)),
        (f"map d low {top} {asked}", service.low_map(top, asked, top)), (f"map d high 1 {asked}", service.high_map(1, asked, top)),
        ("thread d 0", service.message(0)), ("export d", service.history()),
    ):
        works(room, words, 0, output)


def export_in_less(room):
    """the history of a service of 1,500 threads is exported in 96 KiB"""
    works(room, "export d", 0, put_notary(room).history(), EXPORT_STACK)


def large_history(room):
    """the history of a service of 1,500 threads is shown, audited and taken over, and a proof is judged under one line"""
    service, other = notary().copied(), Service("other")
    service.append([b"the end"])
    top = service.steps
    other.receive(service.message(0))
    for name, data in (
        ("h", service.history()), ("p", service.thread_proof(top, peer(0), 1, top)), ("k", service.anchor(top)),
        ("q", other.thread_proof(1, service.name, top, 1)), ("l", other.anchor(1)),
    ):
        room.put(name, data)
    works(room, f"show h {top} 0", 0, service.event_proof(top, 0, top))
    as_ever(room, "audit p k h", 0, b"stands")
    as_ever(room, f"verify p {service.anchor(top).decode().strip()}", 0, b"accepted thread")
    works(room, "adopt h l q", 0, service.history())


def long_chain(room):
    """a proof of 64 hops is judged, and many parts are joined"""
    data, anchors = deep_way(MOST_HOPS, LONG)
    room.put("p", data)
    room.put("k", anchors_to_bytes(anchors))
    as_ever(room, "verify p k", 0, b"accepted precedes")
    as_ever(room, "strict p k", 1, b"rejected")
    as_ever(room, f"join{' p' * MOST_HOPS}", 1, b"rejected Gap")


def maps_and_forks(room):
    """the maps of a service of 1,500 threads, evidence of a fork far back, and an atlas of as many receipts as may be are judged"""
    service, other = notary().copied(), service_of("other", [[b"x"]] * 3)
    service.receive(other.message(0))
    other.receive(service.message(0))
    low, high = service.low_map(service.steps, "other", service.steps), other.high_map(service.steps, "notary", other.steps)
    for name, data in (("l", low), ("h", high), ("k", service.anchor(service.steps) + other.anchor(other.steps))):
        room.put(name, data)
    as_ever(room, "checkmap l h k", 0, b"accepted map")
    fork = Fork(2, 1000, 1023, 100)
    for name, data in (("a", fork.proof(0).to_bytes()), ("b", fork.proof(1).to_bytes()), ("c", fork.link().to_bytes()), ("f", anchors_to_bytes(fork.anchors()))):
        room.put(name, data)
    evidence = fork.evidence().to_bytes()
    works(room, "accuse a b c", 0, evidence)
    room.put("v", evidence)
    as_ever(room, "checkfork v f", 0, b"accepted fork")
    room.put("r", receipts_of([Hop(f"c{number}", 1, f"c{number + 1}", 1) for number in range(MOST_RECEIPTS)]))
    as_ever(room, "atlas c0 1 r", 0, b"")


def new_service(room):
    """a service and a follower are made, and the follower takes a long message"""
    line = Timeline("a-name-of-16-let", [[b"x"]] * 1023)
    for words in (f"init d {line.name}", f"watch w {line.name}"):
        (room.folder / words.split()[1]).mkdir()
        works(room, words, 0, line.line(0))
    room.put("m", message_bytes(line, 1023, 0))
    works(room, "offer w m", 0, line.line(1023))
    works(room, "heads w", 0, line.line(1023))


def long_script(room):
    """a script of as many bytes as may be is played, and as many rounds are generated as may be"""
    lines = b"service a\nservice b\n" + b"append a\n" * 2000 + b"send a 0\ndeliver 1 b\nprove a event 1 0\n"
    room.put("s", lines + b"#" * (MOST_SCRIPT - len(lines)))
    as_ever(room, "replay s", 0, b"1 ok\n")
    as_ever(room, "generate 7 10000", 0, b"{")


def cases():
    return [case(work, "stacks") for work in (grown_service, export_in_less, large_history, long_chain, maps_and_forks, new_service, long_script)]
