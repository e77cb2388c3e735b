"""Acceptance cases of what a service tells of itself beside its events: `thread`, the message of its last step, and `prove DIR link`, that a step
of it has an authenticator."""

import os

from harness.faults import stays_told
from harness.making import link_bytes, link_proof, message_bytes, pathless_message
from harness.power import EARLIER
from harness.rooms import Wrong, case, changed_page, expect, four_steps, some_steps
from harness.tracing import calls_of
from timeweave_reference.events_files import events_to_bytes
from timeweave_reference.fields import LAST_STEP, padded
from timeweave_reference.fields import big_endian as be
from timeweave_reference.hashed_texts import EMPTY_ARCHIVE
from timeweave_reference.messages import message_of, read_message
from timeweave_reference.proofs import link_text
from timeweave_reference.services import service_of
from timeweave_reference.tree_pages import PAGE

# ---- what is told


def each_message(room):
    """after each step the message since each step is the reference's, and reads back as it"""
    steps = some_steps("told", 9)
    (room.folder / "d").mkdir()
    store = service_of("told", steps)
    room.expect("init d told", 0, store.anchor(0))
    room.expect("thread d 0", 7, b"refused NoStep 0\n")
    for step, events in enumerate(steps, 1):
        room.put("e", events_to_bytes(events))
        room.expect("append d e", 0, store.anchor(step))
        for since in range(step + 1):
            message = message_bytes(store.line, step, since)
            if read_message(message) != message_of(store.line, step, since):
                raise Wrong(f"  the reference reads its own message of step {step} since {since} as another one")
            room.expect(f"thread d {since}", 0, message)
        for since in (step + 1, LAST_STEP, 2**64 - 1):
            room.expect(f"thread d {since}", 7, f"refused NoStep {step}\n".encode())
    room.expect_store(store.file())


def least_message(room):
    """the message of a step 1 since step 0 has 100 bytes"""
    store = room.made("a", [[b""]])
    _, message, _ = room.run("thread", "d", "0")
    expect((len(message), message), (100, message_bytes(store.line, 1, 0)), "timeweave thread d 0")


def each_link(room):
    """the link to each step, from step 0 on, under each top is the reference's, and is accepted under the line of the top"""
    steps = some_steps("linked", 9)
    store = room.made("linked", steps)
    for top in range(1, 10):
        room.put("k", store.anchor(top))
        for step in range(top + 1):
            link = link_proof(store.line, step, top)
            for words in (f"prove d link {step} {top}", *([f"prove d link {step}"] if top == 9 else [])):
                room.expect(words, 0, link)
            room.put("p", link)
            for judge in ("verify", "strict"):
                room.expect(f"{judge} p k", 0, link_text("linked", step, top, store.line.auths[step]).encode())
    room.expect_store(store.file())


def refused_links(room):
    """links whose steps aren't in their order, and those of a service without steps"""
    store = room.made("no", [])
    for words in ("0", "1", "0 0", "0 1", "1 0"):
        room.expect(f"prove d link {words}", 7, b"refused NoStep 0\n")
    for step, events in enumerate(([b"x"], []), 1):
        room.put("e", events_to_bytes(events))
        room.run("append", "d", "e")
        store = service_of("no", [[b"x"], []][:step])
    for words in ("3", "2 1", "0 3", "1 3", "0 0", "1 0", "18446744073709551615", "0 18446744073709551615", "2 1099511627776"):
        room.expect(f"prove d link {words}", 7, b"refused NoStep 2\n")
    room.expect_store(store.file())


def long_ways(room):
    """messages and links of a store of which only the head is there: a last step that is odd has one link"""
    room.made("last", [[b"x"]])
    good, head = room.store(), bytes(range(32))
    root = padded("last") + be(LAST_STEP, 8) + head + be(5, 8) + bytes(8) + EMPTY_ARCHIVE + bytes(8)
    bodies = [(b"TWSTORE1" + be(generation, 8) + be(6, 8) + be(len(root), 2) + root).ljust(PAGE, b"\0") for generation in (7, 8)]
    (room.folder / "d/timeline.tw").write_bytes(good[: 2 * PAGE] + b"".join(bodies) + good[4 * PAGE :])
    whole = pathless_message("last", LAST_STEP, head, LAST_STEP)
    room.expect(f"thread d {LAST_STEP}", 0, whole)
    room.expect(f"prove d link {LAST_STEP}", 0, link_bytes("last", LAST_STEP, LAST_STEP, head, b""))
    room.expect(f"thread d {LAST_STEP - 1}", 8, b"store BadPage 5\n")
    room.expect(f"thread d {LAST_STEP + 1}", 7, f"refused NoStep {LAST_STEP}\n".encode())


# ---- damaged pages


def lower_page_unread(room):
    """the page of a link's lower step isn't read: a damaged one is in no way of the link, and in that of the step's event"""
    store = four_steps(room)
    good = room.store()
    for step, page in ((1, 5), (2, 7), (3, 9)):
        (room.folder / "d/timeline.tw").write_bytes(changed_page(good, page, 0, bytes(PAGE)))
        room.expect(f"prove d link {step} 4", 0, link_proof(store.line, step, 4))
        room.expect(f"thread d {step}", 0, message_bytes(store.line, 4, step))
        room.expect(f"prove d event {step} 0 4", 8, f"store BadPage {page}\n".encode())


def bad_pages(room):
    """the first page met on the way that isn't of its kind is told, and none that is on no way"""
    store = four_steps(room)
    good = room.store()
    # the pages of the steps are 5, 7, 9 and 11; step 4 has links to 3, 2 and 0, step 3 to 2, step 2 to 1 and 0
    for page, words in (
        (11, "thread d 0"), (11, "thread d 3"), (11, "prove d link 3"), (11, "prove d link 0 4"), (11, "prove d link 1 3"),
        (7, "thread d 1"), (7, "prove d link 1 4"), (9, "prove d link 2 3"), (11, "prove d link 3 3"),
    ):
        for place, new in ((0, bytes(PAGE)), (1, be(9, 8)), (10, be(1025, 4)), (4095, b"\x01")):
            (room.folder / "d/timeline.tw").write_bytes(changed_page(good, page, place, new))
            room.expect(words, 8, f"store BadPage {page}\n".encode())
    (room.folder / "d/timeline.tw").write_bytes(changed_page(good, 11, 0, bytes(PAGE)))
    room.expect("thread d 4", 0, message_bytes(store.line, 4, 4))
    room.expect("prove d link 4", 0, link_proof(store.line, 4, 4))
    # the step of the top alone: of an event page no way of a link knows
    (room.folder / "d/timeline.tw").write_bytes(changed_page(good, 10, 0, bytes(PAGE)))
    room.expect("thread d 0", 0, message_bytes(store.line, 4, 0))


# ---- lost power


def synced_first(room):
    """`thread` and `prove DIR link` sync the store before they read it, and write nothing to it"""
    store = room.made("sync", [[b"x"]])
    path = os.path.realpath(room.folder / "d/timeline.tw")
    for words, output in (("thread d 0", message_bytes(store.line, 1, 0)), ("prove d link 0", link_proof(store.line, 0, 1))):
        status, found, calls = calls_of(room.program, words.split(), room.folder)
        made = [call.name for call in calls if call.path == path and call.name in ("fsync", "fdatasync", "pread64", "pwrite64", "write")]
        expect((status, found, made[:1], {*made}), (0, output, ["fsync"], {"fsync", "pread64"}), f"timeweave {words}, and its calls on the store")
        for error in ("EROFS", "EIO"):
            found = calls_of(room.program, words.split(), room.folder, inject=[f"fsync:error={error}"])[:2]
            expect(found, (5, b"fault disk\n"), f"timeweave {words}, whose sync answers {error}")


def told_stays(room):
    """a step that `thread` told, of an append that was killed before its last sync, stays, whatever a loss of power takes"""
    room.made("power", EARLIER)
    room.put("e", events_to_bytes([b"killed"]))
    wanted = message_bytes(service_of("power", [*EARLIER, [b"killed"]]).line, len(EARLIER) + 1, 0)
    expect(stays_told(room, "append d e", "thread d 0"), wanted, "timeweave thread d 0 behind the killed append")


def cases():
    works = (each_message, least_message, each_link, refused_links, long_ways, lower_page_unread, bad_pages, synced_first, told_stays)
    return [case(work, "messages") for work in works]
