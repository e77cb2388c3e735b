"""Acceptance cases of services over real folders: `init`, `append` and `prove DIR event` one after another, each with its output
and the bytes of its store, which stores.py makes."""

import random
import subprocess
from time import sleep

from harness import seen
from harness.making import accepted_text, proof_bytes
from harness.rooms import Wrong, append_words, case, some_steps
from timeweave_reference.events_files import MOST_BYTES as MOST_EVENTS_FILE, events_to_bytes
from timeweave_reference.fields import LAST_TIME
from timeweave_reference.services import service_of
from timeweave_reference.tree_pages import PAGE

# ---- what is made, and proved


def each_store(room):
    """the store after each step, and each event proved under each top"""
    steps = some_steps("each", 9)
    (room.folder / "d").mkdir()
    store = service_of("each", steps)
    room.expect("init d each", 0, store.anchor(0))
    room.expect_store(service_of("each", []).file())
    for step, events in enumerate(steps, 1):
        room.put("e", events_to_bytes(events))
        room.expect("append d e", 0, store.anchor(step))
        room.expect_store(service_of("each", steps[:step]).file())
    for step, events in enumerate(steps, 1):
        for index in {0, len(events) // 2, len(events) - 1} if events else ():
            room.expect(f"prove d event {step} {index}", 0, proof_bytes(store.line, step, index, 9))
            for top in (step, 9):
                room.expect(f"prove d event {step} {index} {top}", 0, proof_bytes(store.line, step, index, top))
    room.expect_store(store.file())


def accepted_by_verify(room):
    """proofs are accepted under the anchor lines that the program wrote"""
    store = room.made("both", some_steps("both", 5) + [[b"last"]])
    _, anchor, _ = room.run("append", "d", "e")
    room.put("k", anchor)
    _, proof, _ = room.run("prove", "d", "event", "6", "0")
    room.put("p", proof)
    room.expect("verify p k", 0, accepted_text("both", 6, 0, b"last").encode())


def full_steps(room):
    """steps at their limits"""
    most = [bytes([k % 256]) * 64 for k in range(1024)]
    longest = [bytes([k]) * 1024 for k in range(64)]
    store = room.made("full", [most, longest, [b""] * 1024, []])
    room.expect_store(store.file())
    room.expect("prove d event 1 1023", 0, proof_bytes(store.line, 1, 1023, 4))
    room.expect("prove d event 2 63 3", 0, proof_bytes(store.line, 2, 63, 3))


def two_services(room):
    """the lines of two services are an anchors file"""
    store = room.made("one", [[b"a"], [b"b"]])
    other = service_of("two", [[b"c"]])
    (room.folder / "f").mkdir()
    room.put("e", events_to_bytes([b"c"]))
    room.expect("init f two", 0, other.anchor(0))
    room.expect("append f e", 0, other.anchor(1))
    room.put("k", store.anchor(2) + other.anchor(1))
    for folder, line, step, top, event in (("d", store.line, 1, 2, b"a"), ("f", other.line, 1, 1, b"c")):
        proof = proof_bytes(line, step, 0, top)
        room.expect(f"prove {folder} event {step} 0", 0, proof)
        room.put("p", proof)
        room.expect("verify p k", 0, accepted_text(line.name, step, 0, event).encode())


# ---- claimed times


def timed_steps(room):
    """steps with times and without: the store after each, and their proofs, whose reports tell the times"""
    times = [None, 0, None, 5, 5, None, 7, LAST_TIME, None, LAST_TIME]
    steps = [[bytes([k])] * (k % 4 + 1) for k in range(len(times))]
    (room.folder / "d").mkdir()
    store = service_of("timed", steps, times=times)
    room.expect("init d timed", 0, store.anchor(0))
    for step, time in enumerate(times, 1):
        room.put("e", events_to_bytes(steps[step - 1]))
        room.expect(append_words("e", time), 0, store.anchor(step))
        room.expect_store(service_of("timed", steps[:step], times=times[:step]).file())
    room.put("k", store.anchor(len(times)))
    for step, time in enumerate(times, 1):
        for top in (step, len(times)):
            proof = proof_bytes(store.line, step, 0, top)
            room.expect(f"prove d event {step} 0 {top}", 0, proof)
        room.put("p", proof)
        room.expect("verify p k", 0, accepted_text("timed", step, 0, bytes([step - 1]), time).encode())


def clock_back(room):
    """a time below the greatest one so far is refused, after every other refusal; an equal one isn't"""
    steps, times = [[b"a"], [b"b"], [b"c"]], [3, 5, None]
    room.made("clock", steps, times)
    before = room.store()
    room.put("e", events_to_bytes([b"d"]))
    # the last step has no time, and the one before it isn't the first
    for time in (0, 3, 4):
        room.expect(f"append d e {time}", 7, f"refused ClockBack 5 {time}\n".encode())
    for words in ("append d e 1099511627776", "append d e 18446744073709551616", "append d e 05", "append d e -", "append d e +6", "append d e x"):
        room.expect(words, 2, b"usage 4\n")
    room.expect("append d e 6 7", 2, b"usage 5\n")
    for events, refusal in (([b""] * 1025, "TooMany 1025"), ([bytes(1025)], "TooLong 1025"), ([bytes(1024)] * 64 + [b"x"], "TooLong 65537")):
        room.put("f", events_to_bytes(events))
        room.expect("append d f 4", 7, f"refused {refusal}\n".encode())
    room.put("f", b"TWE2")
    room.expect("append d f 4", 9, b"unreadable f byte 3\n")
    room.expect_store(before)
    for time in (5, 6, None, LAST_TIME):
        steps, times = [*steps, [b"d"]], [*times, time]
        store = service_of("clock", steps, times=times)
        room.expect(append_words("e", time), 0, store.anchor(len(steps)))
        room.expect_store(store.file())
    room.expect(f"append d e {LAST_TIME - 1}", 7, f"refused ClockBack {LAST_TIME} {LAST_TIME - 1}\n".encode())


def older_store(room):
    """a store of steps without times takes one with a time, and proves the earlier ones as before"""
    steps = [[b"a"], [b"b"], [b"c"]]
    store = room.made("old", steps)
    proof = proof_bytes(store.line, 3, 0, 3)
    room.expect("prove d event 3 0 3", 0, proof)
    longer = service_of("old", [*steps, [b"d"]], times=[None, None, None, 100])
    room.put("e", events_to_bytes([b"d"]))
    room.expect("append d e 100", 0, longer.anchor(4))
    room.expect_store(longer.file())
    room.expect("prove d event 3 0 3", 0, proof)
    room.expect("prove d event 4 0", 0, proof_bytes(longer.line, 4, 0, 4))


# ---- what is refused


def refusals(room):
    """Taken, NoStep, NoEvent, TooMany and TooLong; the store stays as it is"""
    store = room.made("no", [[b"x", b"y"], []])
    before = room.store()
    room.expect("init d other", 7, b"refused Taken\n")
    for words in ("0 0", "3 0", "1 0 3", "2 0 1", "18446744073709551615 0", "1 0 0"):
        room.expect(f"prove d event {words}", 7, b"refused NoStep 2\n")
    for words, count in (("1 2", 2), ("1 4294967295", 2), ("1 4294967296", 2), ("1 18446744073709551615 2", 2), ("2 0", 0)):
        room.expect(f"prove d event {words}", 7, f"refused NoEvent {count}\n".encode())
    room.expect("prove d event 3 9 1", 7, b"refused NoStep 2\n")
    for events, refusal in (
        ([b""] * 1025, "TooMany 1025"),
        ([bytes(1025)] * 1000 + [b""] * 25, "TooMany 1025"),
        ([b"", bytes(1025), bytes(2000)], "TooLong 1025"),
        ([bytes(1025)], "TooLong 1025"),
        ([bytes(1024)] * 64 + [b"x"], "TooLong 65537"),
        ([bytes(1024)] * 65, "TooLong 66560"),
        ([bytes(1024)] * 65 + [bytes(1030)], "TooLong 1030"),
    ):
        room.put("f", events_to_bytes(events))
        room.expect("append d f", 7, f"refused {refusal}\n".encode())
    room.expect_store(before)
    room.put("e", events_to_bytes([b"z"]))
    longer = service_of("no", [[b"x", b"y"], [], [b"z"]])
    room.expect("append d e", 0, longer.anchor(3))
    room.expect_store(longer.file())
    assert store.anchor(2) == longer.anchor(2)


def bad_events_files(room):
    """files that are no events file, each with its byte; the disk isn't asked"""
    good = events_to_bytes([b"ab", b""])
    for place in range(4):
        room.put("f", good[:place] + b"\xff" + good[place + 1 :])
        room.expect("append d f", 9, f"unreadable f byte {place}\n".encode())
    for size in range(len(good)):
        room.put("f", good[:size])
        room.expect("append d f", 9, f"unreadable f byte {size}\n".encode())
    room.put("f", good + b"\x00")
    room.expect("append d f", 9, f"unreadable f byte {len(good)}\n".encode())
    room.put("f", b"TWE1" + b"\xff" * 4)
    room.expect("append d f", 9, b"unreadable f byte 8\n")
    room.expect("append d missing", 3, b"fault input\n")
    if (room.folder / "d").exists():
        raise Wrong("  a folder was made")


def longest_events_files(room):
    """events files of the limit, and of one byte more"""
    store = room.made("long", [])
    count = (MOST_EVENTS_FILE - 8) // 4
    room.put("f", events_to_bytes([b""] * count))
    room.expect("append d f", 7, f"refused TooMany {count}\n".encode())
    room.put("f", events_to_bytes([bytes(MOST_EVENTS_FILE - 12)]))
    room.expect("append d f", 7, f"refused TooLong {MOST_EVENTS_FILE - 12}\n".encode())
    for longer in (events_to_bytes([bytes(MOST_EVENTS_FILE - 11)]), bytes(MOST_EVENTS_FILE + 1), bytes(3 * MOST_EVENTS_FILE)):
        room.put("f", longer)
        room.expect("append d f", 9, f"unreadable f byte {MOST_EVENTS_FILE}\n".encode())
    room.put("f", bytes(MOST_EVENTS_FILE))
    room.expect("append d f", 9, b"unreadable f byte 0\n")
    room.expect_store(store.file())


# ---- disks that are no service


def no_stores(room):
    """blank files, files that are no store, and pages that aren't of their kind"""
    store = room.made("kind", [[b"x"], [b"y"], [b"z"]])
    good = room.store()
    path = room.folder / "d/timeline.tw"

    def expect(data, output):
        path.write_bytes(data)
        for words in ("append d e", "prove d event 1 0", "prove d link 1", "thread d 0"):
            room.expect(words, 8, output)
        room.expect_store(data)

    def edited(place, new):
        return good[:place] + new + good[place + len(new) :]

    for data in (b"", bytes(PAGE), good[: 4 * PAGE - 1], edited(0, b"\x00" * PAGE * 2), bytes(20 * PAGE)):
        expect(data, b"store Blank\n")
    for slot in (0, 1):
        expect(edited((2 + slot) * PAGE, b"X"), f"store NotAStore {slot}\n".encode())
        expect(edited((2 + slot) * PAGE + 4095, b"\x01"), f"store NotAStore {slot}\n".encode())
    # the last step is in slot 1: there aren't all its pages; the other body has its generation; its name is none
    expect(good[:-PAGE], b"store NotAStore 1\n")
    expect(edited(2 * PAGE + 15, b"\x04"), b"store NotAStore 1\n")
    expect(edited(3 * PAGE + 26, b"K"), b"store NotAStore 1\n")
    # the pages of the steps are 5, 7 and 9, that of the events of step 1 is 4
    for page, words in (
        (9, "append d e"), (9, "prove d event 1 0"), (7, "prove d event 1 0"), (5, "prove d event 1 0"), (4, "prove d event 1 0"),
        (9, "prove d link 0"), (7, "prove d link 1"), (9, "thread d 2"), (7, "thread d 0"),
    ):
        path.write_bytes(edited(page * PAGE, bytes(PAGE)))
        room.expect(words, 8, f"store BadPage {page}\n".encode())
    path.write_bytes(good)
    room.expect("prove d event 1 0", 0, proof_bytes(store.line, 1, 0, 3))


def begun_again(room):
    """a store that was begun and not made is made anew"""
    (room.folder / "d").mkdir()
    fresh = service_of("again", []).file()
    for begun in (bytes(PAGE), bytes(3 * PAGE), bytes(2 * PAGE) + b"\x55" * PAGE * 2, bytes(2 * PAGE) + fresh[2 * PAGE :]):
        (room.folder / "d/timeline.tw").write_bytes(begun)
        room.expect("init d again", 0, service_of("again", []).anchor(0))
        room.expect_store(fresh)


def killed_amid(room, rand, time):
    """One append, of which two of three are killed at a moment by chance; the line that it wrote."""
    words = [room.program, *append_words("e", time).split()]
    running = subprocess.Popen(words, cwd=room.folder, stdout=subprocess.PIPE, stdin=subprocess.DEVNULL)
    if rand.randrange(3):
        sleep(rand.random() * 0.004)
        running.kill()
    line, _ = running.communicate()
    seen.note(running.returncode, line)
    return line


def stopped(room):
    """200 appends, many of which are killed amid (kill -9): each step that was told is there"""
    rand = random.Random("stopped")
    (room.folder / "d").mkdir()
    steps = [[rand.randbytes(rand.randrange(1025)) for _ in range(20)] for _ in range(201)]
    times = [k if k % 3 else None for k in range(201)]
    store = service_of("stop", steps, times=times)
    room.expect("init d stop", 0, store.anchor(0))
    there = 0
    for _ in range(200):
        room.put("e", events_to_bytes(steps[there]))
        line = killed_amid(room, rand, times[there])
        if line and line != store.anchor(there + 1):
            raise Wrong(f"  timeweave append d e, killed amid\n  wanted {store.anchor(there + 1)!r} or nothing\n  got    {line!r}")
        # (a step may stand that wasn't told; its proof tells)
        status, proof, _ = room.run("prove", "d", "event", str(there + 1), "0")
        if status == 0 and proof == proof_bytes(store.line, there + 1, 0, there + 1):
            there += 1
        elif status != 7 or line:
            raise Wrong(f"  timeweave prove d event {there + 1} 0, after an append that wrote {line!r}\n  got    {status} {proof[:60]!r}")
    for step in range(1, there + 1):
        for index in (0, 19):
            room.expect(f"prove d event {step} {index}", 0, proof_bytes(store.line, step, index, there))


def cases():
    works = (
        each_store, accepted_by_verify, full_steps, two_services, timed_steps, clock_back, older_store, refusals, bad_events_files, longest_events_files, no_stores,
        begun_again, stopped,
    )
    return [case(work) for work in works]
