"""Acceptance cases of stores whose step pages, event pages or root record were changed byte by byte."""

from harness.making import proof_bytes
from harness.rooms import case, changed_page, four_steps
from timeweave_reference.event_trees import event_root
from timeweave_reference.events_files import events_to_bytes
from timeweave_reference.fields import padded
from timeweave_reference.fields import big_endian as be
from timeweave_reference.hashed_texts import EMPTY_ARCHIVE
from timeweave_reference.stores import Body, read_service_root, read_store
from timeweave_reference.timelines import Timeline
from timeweave_reference.tree_pages import FIRST, PAGE, Child

LABEL = bytes(range(32))


def step_pages(room):
    """step pages that aren't of their kind"""
    four_steps(room)
    good = room.store()
    # the links of step 4 stand from place 187 on, of 40 bytes each: to step 3, to step 2 and to step 0; the number of events from place 10
    # on, of which there are at most 1,024: it goes into the proofs of other steps too
    for place, new in (
        (0, b"\x02"), (1, be(5, 8)), (9, b"\x02"), (10, be(1025, 4)), (10, be(2**32 - 1, 4)), (14, be(69633, 4)), (18, bytes(8)), (18, be(11, 8)),
        (90, be(11, 8)), (90, be(2**63, 8)), (98, b"a"), (121, b"\x01"), (153, b"\x01"), (186, b"\x04"),
        (187, bytes(8)), (187, be(11, 8)), (227, bytes(8)), (267, be(1, 8)), (267, be(5, 8)), (307, b"\x01"), (4095, b"\x01"),
    ):
        (room.folder / "d/timeline.tw").write_bytes(changed_page(good, 11, place, new))
        for words in ("prove d event 4 0", "prove d event 1 0"):
            room.expect(words, 8, b"store BadPage 11\n")
    # a number of events that the stream doesn't have is found out where the stream is read
    for count in (2, 1024):
        (room.folder / "d/timeline.tw").write_bytes(changed_page(good, 11, 10, be(count, 4)))
        room.expect("prove d event 4 0", 8, b"store BadPage 10\n")
        room.expect(f"prove d event 4 {count}", 7, f"refused NoEvent {count}\n".encode())


def pages_that_are_named(room):
    """pages that are told by their own number, when they are come to"""
    store = four_steps(room)
    good = room.store()
    whole = proof_bytes(store.line, 4, 0, 4)
    for page in (1, 2, 3, 7, 10, 12, 2**40):
        link = changed_page(good, 11, 187, be(page, 8))
        (room.folder / "d/timeline.tw").write_bytes(link)
        if page < 11:
            room.expect("prove d event 4 0", 0, whole)
        room.expect("prove d event 3 0", 8, f"store BadPage {page if page < 11 else 11}\n".encode())
    for page in (1, 2, 3, 5, 8):
        (room.folder / "d/timeline.tw").write_bytes(changed_page(good, 11, 18, be(page, 8)))
        room.expect("prove d event 4 0", 8, f"store BadPage {page}\n".encode())
    # the event page of step 4: kind, step, number, an event's length, and the byte behind the stream
    for place, new in ((0, b"\x01"), (1, be(3, 8)), (9, be(1, 2)), (11, bytes(4)), (11, be(2, 4)), (16, b"\x01")):
        (room.folder / "d/timeline.tw").write_bytes(changed_page(good, 10, place, new))
        room.expect("prove d event 4 0", 8, b"store BadPage 10\n")


def step_pages_with_archives(room):
    """step pages with any label and any lower page of an archive are taken"""
    store = four_steps(room)
    good = room.store()
    for page in (1, 3, 10):
        (room.folder / "d/timeline.tw").write_bytes(changed_page(good, 11, 90, be(page, 8)))
        room.expect("prove d event 4 0", 0, proof_bytes(store.line, 4, 0, 4))
    (room.folder / "d/timeline.tw").write_bytes(changed_page(good, 11, 58, LABEL))
    other = Timeline("page", store.line.steps, [EMPTY_ARCHIVE] * 3 + [LABEL])
    room.expect("prove d event 4 0", 0, proof_bytes(other, 4, 0, 4))


def root_records(room):
    """root records that aren't allowed"""
    room.made("root", [[b"a"], [b"b"], [b"c"]])
    good = room.store()
    # the record of 3 steps stands in page 3 from place 26 on: the service, the last step from place 42 on, its page from place 82 on,
    # its archive's page, label and number of threads from place 90 on
    heads = [changed_page(good, 3, 42, be(step, 8)) for step in (0, 2**40)] + [changed_page(good, 3, 82, be(page, 8)) for page in (0, 3, 10, 2**40)]
    # (there are no more threads than steps, and a page exactly where there are some)
    archives = (4, 0), (9, 0), (0, 1), (1, 1), (3, 1), (10, 1), (2**40, 3), (4, 4), (4, 2**40)
    changes = heads + [changed_page(good, 3, 90, be(page, 8) + LABEL + be(threads, 8)) for page, threads in archives]
    # the length of the record stands at place 24; there are only records of 112 bytes, and of 120 with a time of at most 2^40 - 1 behind
    for size, behind in ((111, b""), (113, b""), (119, be(5, 8)), (121, be(5, 8)), (120, be(2**40, 8)), (120, be(2**63, 8)), (128, be(5, 8) * 2)):
        changes.append(changed_page(changed_page(good, 3, 24, be(size, 2)), 3, 138, behind))
    for data in changes:
        (room.folder / "d/timeline.tw").write_bytes(data)
        for words in ("append d e", "prove d event 1 0"):
            room.expect(words, 8, b"store NotAStore 1\n")
        room.expect_store(data)


def archives_kept(room):
    """stores whose root record has another archive than the empty one are served, and an append keeps it, and the number of threads"""
    steps = [[b"a"], [b"b"], [b"c"], [b"d"]]
    room.put("last", events_to_bytes(steps[3]))
    store = room.made("root", steps[:3])
    good = room.store()
    for page, threads in ((0, 0), (4, 1), (9, 3)):
        (room.folder / "d/timeline.tw").write_bytes(changed_page(good, 3, 90, be(page, 8) + LABEL + be(threads, 8)))
        room.expect("prove d event 1 0", 0, proof_bytes(store.line, 1, 0, 3))
        longer = store.copied()
        longer.archive.root = longer.roots[3] = Child(page, LABEL)
        longer.counts[3] = threads
        longer.append(steps[3])
        room.expect("append d last", 0, longer.anchor(4))
        room.expect_store(longer.file())
        room.expect("prove d event 2 0", 0, proof_bytes(longer.line, 2, 0, 4))


def pages_with_times(room):
    """pages of steps with a time, and those of threads, each of its kind"""
    store = room.made("page", [[b"a"], [b"b"], [b"c"], [b"d"]], times=[None, 5, None, 7])
    good = room.store()
    room.expect_store(store.file())
    # the time of step 4 stands behind its links, from place 307 on; the kind at place 9, the counts from place 10 on, the thread from
    # place 98 on
    for place, new in (
        (9, b"\x01"), (9, b"\x02"), (9, b"\x04"), (9, b"\x00"), (9, b"\x05"), (307, be(2**40, 8)), (307, b"\x80"), (315, b"\x01"), (10, be(1025, 4)), (98, b"a"),
    ):
        (room.folder / "d/timeline.tw").write_bytes(changed_page(good, 11, place, new))
        for words in ("prove d event 4 0", "prove d event 1 0"):
            room.expect(words, 8, b"store BadPage 11\n")
    # another time is another opening
    (room.folder / "d/timeline.tw").write_bytes(changed_page(good, 11, 307, be(2**40 - 1, 8)))
    other = Timeline("page", store.line.steps, times=[None, 5, None, 2**40 - 1])
    room.expect("prove d event 4 0", 0, proof_bytes(other, 4, 0, 4))
    # the page of a step that received a thread, with a time and without: no events, and a service where there are zeros of events; its
    # datum is that of no events
    thread = padded("peer") + be(9, 8) + LABEL
    none = Timeline("page", [[b"a"], [b"b"], [b"c"], []], times=[None, 5, None, 7])
    for kind, time in ((b"\x04", be(7, 8)), (b"\x02", bytes(8))):
        page = changed_page(good, 11, 9, kind + bytes(16) + event_root([]))
        page = changed_page(changed_page(page, 11, 98, thread), 11, 307, time)
        (room.folder / "d/timeline.tw").write_bytes(page)
        room.expect("prove d event 4 0", 7, b"refused NoEvent 0\n")
        seven = none if kind == b"\x04" else Timeline("page", none.steps, times=[None, 5, None, None])
        seven.auths = store.line.auths
        room.expect("prove d event 1 0", 0, proof_bytes(seven, 1, 0, 4))
        for place, new in ((10, be(1, 4)), (14, be(1, 4)), (18, be(10, 8)), (98, b"A"), (98, bytes(16)), (114, be(2**40, 8))):
            (room.folder / "d/timeline.tw").write_bytes(changed_page(page, 11, place, new))
            room.expect("prove d event 1 0", 8, b"store BadPage 11\n")


def records_with_times(room):
    """root records of the wrong length for their steps, and the greatest time that they tell"""
    room.made("new", [])
    good = room.store()
    # the record of no step, with a time
    (room.folder / "d/timeline.tw").write_bytes(changed_page(changed_page(good, 2, 24, be(120, 2)), 2, 138, be(5, 8)))
    for words in ("append d e", "append d e 9", "prove d event 1 0"):
        room.put("e", events_to_bytes([b"x"]))
        room.expect(words, 8, b"store NotAStore 0\n")


def records_beside_bodies(room):
    """a root record is refused exactly where the reference says that it may not stand beside its body: too many pages, too late a generation, pages beyond"""
    four_steps(room)
    good = room.store()
    slot, body = read_store(good)
    root = read_service_root(body.root)
    most = FIRST + 64 * root.steps
    for used in (root.page, root.page + 1, body.used, most - 1, most, most + 1):
        for generation in (root.steps, root.steps + 1, root.steps + 2):
            other = Body(generation, used, body.root)
            data = good[: (2 + slot) * PAGE] + other.to_bytes() + good[(3 + slot) * PAGE :]
            data = data[: (1 - slot) * PAGE] + bytes(PAGE) + data[(2 - slot) * PAGE :]
            (room.folder / "d/timeline.tw").write_bytes(data.ljust(used * PAGE, b"\0"))
            answer = (7, f"refused NoStep {root.steps}\n") if root.may_stand(other) else (8, f"store NotAStore {slot}\n")
            room.expect(f"prove d event {2**40 - 1} 0", answer[0], answer[1].encode())


def cases():
    works = (
        step_pages, pages_that_are_named, step_pages_with_archives, root_records, archives_kept, pages_with_times, records_with_times, records_beside_bodies,
    )  # fmt: skip
    return [case(work, "pages") for work in works]
