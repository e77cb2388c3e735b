"""Acceptance cases of services whose folder, file, device or output fails, and of one that has no step left."""

import os

from harness.limits import READING, TELLING, closed, growing_to, plain_rights
from harness.making import proof_bytes
from harness.rooms import Wrong, case
from timeweave_reference.event_trees import event_root
from timeweave_reference.events_files import events_to_bytes
from timeweave_reference.fields import LAST_STEP, padded
from timeweave_reference.fields import big_endian as be
from timeweave_reference.hashed_texts import EMPTY_ARCHIVE, authenticator, link_label, step_datum
from timeweave_reference.histories import Step, history_to_bytes
from timeweave_reference.services import service_of
from timeweave_reference.tree_pages import PAGE


def in_folder(room):
    """The names of the folder `d`."""
    return sorted(path.name for path in (room.folder / "d").iterdir())


def read_only_folder(room):
    """a read-only folder: no store is made, and none is found; a store that is there goes on"""
    folder = room.folder / "d"
    folder.mkdir()
    folder.chmod(0o555)
    room.put("e", events_to_bytes([b"x"]))
    for words in ("init d ro", "append d e"):
        room.expect(words, 5, b"fault disk\n", limit=plain_rights)
    for words in TELLING:
        room.expect(words, 8, b"store Blank\n", limit=plain_rights)
    if in_folder(room):
        raise Wrong(f"  in a read-only folder were made: {in_folder(room)}")
    folder.chmod(0o755)
    store = service_of("ro", [[b"x"]])
    room.expect("init d ro", 0, store.anchor(0))
    folder.chmod(0o555)
    room.expect("append d e", 0, store.anchor(1), limit=plain_rights)
    room.expect("prove d event 1 0", 0, proof_bytes(store.line, 1, 0, 1), limit=plain_rights)
    room.expect_store(store.file())
    folder.chmod(0o755)


def read_only_files(room):
    """a store and an events file that may not be opened so"""
    store = room.made("ro", [[b"x"]])
    for mode, commands in ((0o444, ("init d ro", "append d e")), (0o000, ("init d ro", "append d e", *TELLING))):
        (room.folder / "d/timeline.tw").chmod(mode)
        for words in commands:
            room.expect(words, 5, b"fault disk\n", limit=plain_rights)
    (room.folder / "d/timeline.tw").chmod(0o444)
    room.expect_store(store.file())
    (room.folder / "e").chmod(0o000)
    for words in ("append d e", "verify e ro 1 " + "0" * 64, "show e 1 0"):
        room.expect(words, 3, b"fault input\n", limit=plain_rights)


def failing_disks(room):
    """a folder that isn't there, a folder in the place of the file, and a file that can't grow"""
    room.put("e", events_to_bytes([bytes(1024)] * 60))
    for words in ("init d a", "append d e", *TELLING):
        room.expect(words, 5, b"fault disk\n")
    (room.folder / "g/timeline.tw").mkdir(parents=True)
    for words in ("init d a", "append d e", *TELLING):
        room.expect(f"{words} ".replace(" d ", " g "), 5, b"fault disk\n")
    store = room.made("room", [[b"x"]])
    room.put("e", events_to_bytes([bytes(1024)] * 60))
    room.expect("append d e", 5, b"fault disk\n", limit=growing_to(8))
    room.expect("prove d event 1 0", 0, proof_bytes(store.line, 1, 0, 1))
    longer = service_of("room", [[b"x"], [bytes(1024)] * 60])
    room.expect("append d e", 0, longer.anchor(2))
    room.expect_store(longer.file())


def full_device(room):
    """a device on which a store can't be made whole: it is none, and is made when there is room"""
    (room.folder / "d").mkdir()
    fresh = service_of("full", [])
    room.put("e", events_to_bytes([b"x"]))
    for pages in range(4):
        room.expect("init d full", 5, b"fault disk\n", limit=growing_to(pages))
        for words in ("append d e", *TELLING):
            room.expect(words, 8, b"store Blank\n")
    room.expect("init d full", 0, fresh.anchor(0))
    room.expect_store(fresh.file())
    for pages in (4, 5):
        room.expect("append d e", 5, b"fault disk\n", limit=growing_to(pages))
        for words in READING:
            room.expect(words, 7, b"refused NoStep 0\n")
    longer = service_of("full", [[b"x"]])
    room.expect("append d e", 0, longer.anchor(1))
    room.expect_store(longer.file())


def closed_outputs(room):
    """a closed standard output: each command ends with 4; a service and its step are made, and the line is in no file"""
    (room.folder / "d").mkdir()
    room.put("e", events_to_bytes([b"x"]))
    room.put("h", history_to_bytes("out", [Step([b"x"])]))
    none, one = service_of("out", []), service_of("out", [[b"x"]])
    for words, store in (("init d out", none), ("append d e", one), *((words, one) for words in TELLING), ("show h 1 0", one), ("frob", one)):
        found = room.run(*words.split(), limit=closed, to=None)
        if found != (4, b"", b""):
            raise Wrong(f"  timeweave {words} >&-\n  wanted 4, and nothing written\n  got    {found}")
        room.expect_store(store.file())
    room.expect("prove d event 1 0", 0, proof_bytes(one.line, 1, 0, 1))


def full_outputs(room):
    """a full device as output: the steps stand"""
    room.made("out", [[b"x"]])
    for step in (2, 3):
        with open("/dev/full", "wb") as full:
            found = room.run("append", "d", "e", to=full)
        if found != (4, b"", b""):
            raise Wrong(f"  timeweave append d e > /dev/full\n  wanted 4\n  got    {found}")
        room.expect_store(service_of("out", [[b"x"]] * step).file())


def unread_outputs(room):
    """a pipe that nobody reads: the step stands"""
    room.made("pipe", [])
    room.put("e", events_to_bytes([b"x"]))
    reader, writer = os.pipe()
    os.close(reader)
    found = room.run("append", "d", "e", to=writer)
    os.close(writer)
    if found != (4, b"", b""):
        raise Wrong(f"  timeweave append d e, into a pipe that nobody reads\n  wanted 4\n  got    {found}")
    room.expect_store(service_of("pipe", [[b"x"]]).file())


def last_step(room):
    """a store of 2^40 - 2 steps, of which only the head is there, takes one more step, and then is full"""
    store = room.made("last", [[b"x"]])
    # (the page of the last step isn't looked at: an odd step has the link of level 0 alone)
    good, head = room.store(), bytes(range(32))
    root = padded("last") + be(LAST_STEP - 1, 8) + head + be(4, 8) + bytes(8) + EMPTY_ARCHIVE + bytes(8)
    bodies = [(b"TWSTORE1" + be(generation, 8) + be(6, 8) + be(len(root), 2) + root).ljust(PAGE, b"\0") for generation in (7, 8)]
    (room.folder / "d/timeline.tw").write_bytes(good[: 2 * PAGE] + b"".join(bodies) + good[4 * PAGE :])
    room.put("e", events_to_bytes([b"x"]))
    datum = step_datum(event_root([b"x"]), EMPTY_ARCHIVE, 1, None)
    auth = authenticator(LAST_STEP, [link_label(LAST_STEP, 0, datum, head)])
    room.expect("append d e", 0, f"last {LAST_STEP} {auth.hex()}\n".encode())
    full = room.store()
    for _ in range(2):
        room.expect("append d e", 7, b"refused Full\n")
    room.put("f", events_to_bytes([b""] * 1025))
    room.expect("append d f", 7, b"refused Full\n")
    room.expect("init d last", 7, b"refused Taken\n")
    room.expect_store(full)
    assert store.anchor(1)


def cases():
    works = (
        failing_disks, read_only_folder, read_only_files, full_device, closed_outputs, full_outputs, unread_outputs, last_step,
    )
    return [case(work, "failing") for work in works]
