"""Acceptance cases of what the program keeps itself from: devices and pipes where a store should be, a store that another file took the place
of, showing what a loss of power takes, ending without a word, and holding more proofs than can join."""

import contextlib
import os
import random
import shutil
import socket
import subprocess

from harness.faults import stays_told
from harness.limits import TELLING, in_memory
from harness.making import LEAST, proof_bytes
from harness.places import LONGEST
from harness.power import EARLIER
from harness.rooms import Skipped, Wrong, case, ended, expect, locked, started, waits
from harness.tracing import calls_of
from timeweave_reference.events_files import events_to_bytes
from timeweave_reference.services import service_of
from timeweave_reference.timelines import Timeline
from timeweave_reference.tree_pages import PAGE

# Least size, greatest size, and step of the memory in which the program's start is tried.
LITTLE, MUCH, MORE = 3 << 20, 48 << 20, 1 << 18


# ---- what isn't a regular file


def refuses(room, what):
    """Each command with a folder answers `fault disk` there."""
    for words in ("init d kind", "append d e", *TELLING):
        expect(room.run(*words.split()), (5, b"fault disk\n", b""), f"timeweave {words}, where timeline.tw is {what}")


def placed(room):
    (room.folder / "d").mkdir()
    room.put("e", events_to_bytes([b"x"]))
    return room.folder / "d/timeline.tw"


def devices(room):
    """a character device is no store"""
    path = placed(room)
    for device in ("/dev/null", "/dev/zero"):
        path.symlink_to(device)
        refuses(room, f"a link to {device}")
        path.unlink()


def block_device(room):
    """a block device is no store, and keeps its bytes"""
    path, losetup = placed(room), shutil.which("losetup")
    data = random.Random("device").randbytes(65536)
    room.put("image", data)
    made = losetup and subprocess.run([losetup, "-f", "--show", room.folder / "image"], capture_output=True, text=True, timeout=LONGEST, check=False)
    if not made or made.returncode:
        raise Skipped("no block device can be made here (Debian: mount, and root)")
    device = made.stdout.strip()
    try:
        path.symlink_to(device)
        refuses(room, "a block device")
    finally:
        subprocess.run([losetup, "-d", device], check=True, timeout=LONGEST)
    expect((room.folder / "image").read_bytes() == data, True, "whether the device has its bytes still")


def pipes_and_others(room):
    """a named pipe, which nobody is waited for at, a socket and a folder are no store"""
    path = placed(room)
    os.mkfifo(path)
    refuses(room, "a named pipe")
    path.unlink()
    path.mkdir()
    refuses(room, "a folder")
    path.rmdir()
    with contextlib.chdir(room.folder / "d"), socket.socket(socket.AF_UNIX) as bound:
        bound.bind("timeline.tw")
        refuses(room, "a socket")


# ---- the file behind the name


def put_back(room):
    """`prove` that waited for a file that another took the place of answers nothing of it"""
    room.made("back", [[b"x"]])
    (room.folder / "copy").write_bytes(room.store())
    room.expect("append d e", 0, service_of("back", [[b"x"]] * 2).anchor(2))
    with locked(room, "-x"):
        prove = started(room, "prove", "d", "event", "2", "0")
        if not waits(prove):
            raise Wrong("  prove doesn't wait for one that puts a copy back")
        os.rename(room.folder / "copy", room.folder / "d/timeline.tw")
    expect(ended(prove), (5, b"fault disk\n", b""), "timeweave prove d event 2 0, of a file that lost its name")
    room.expect("prove d event 2 0", 7, b"refused NoStep 1\n")


# ---- syncs of who reads


def syncs(room):
    """`prove` syncs the store before it reads it; a sync that can't be had of its file system is none, and each other failed one is a fault"""
    store = room.made("sync", [[b"x"]])
    words, path = "prove d event 1 0", os.path.realpath(room.folder / "d/timeline.tw")
    status, output, calls = calls_of(room.program, words.split(), room.folder)
    made = [call.name for call in calls if call.path == path and call.name in ("fsync", "fdatasync", "pread64")]
    found = status, output, made[:1], made.count("fsync")
    expect(found, (0, proof_bytes(store.line, 1, 0, 1), ["fsync"], 1), f"timeweave {words}, its first call on the bytes, and its syncs")
    for error, wanted in (("EINVAL", (0, output)), ("EROFS", (5, b"fault disk\n")), ("EIO", (5, b"fault disk\n"))):
        found = calls_of(room.program, words.split(), room.folder, inject=[f"fsync:error={error}"])[:2]
        expect(found, wanted, f"timeweave {words}, whose sync answers {error}")


def full_step_calls(room):
    """the first step of a store, with 64 events of 1,024 bytes, takes 24 writes and syncs behind the sync of opening"""
    room.made("calls", [])
    room.put("e", events_to_bytes([bytes(1024)] * 64))
    path = os.path.realpath(room.folder / "d/timeline.tw")
    status, _, calls = calls_of(room.program, ["append", "d", "e"], room.folder)
    made = [call.name for call in calls if call.path == path and call.name in ("fsync", "pwrite64")]
    found = status, made.count("pwrite64"), made.count("fsync"), len(room.store()) // PAGE
    # (17 event pages and the step's, a body, and two gates)
    expect(found, (0, 21, 4, 22), "timeweave append d e, its writes, its syncs, and the pages then")


def shown_stays(room):
    """what `prove` shows of an append that was killed before its last sync stays, whatever a loss of power takes"""
    room.made("power", EARLIER)
    room.put("e", events_to_bytes([b"killed"]))
    stays_told(room, "append d e", f"prove d event {len(EARLIER) + 1} 0")


# ---- memory


def no_memory_for_words(room):
    """where there is no memory for the words, that is told"""
    words = ["verify", *["x" * 130000] * 12]
    for size in range(LITTLE, MUCH, MORE):
        # (below some size the system doesn't start the program)
        with contextlib.suppress(OSError, subprocess.SubprocessError):
            found = room.run(*words, limit=in_memory(size))
            if found[0] in range(10):
                expect(found, (6, b"no memory\n", b""), f"timeweave with long words, in {size} bytes of memory, the least that it starts in")
                with open("/dev/full", "wb") as full:
                    expect(room.run(*words, limit=in_memory(size), to=full), (4, b"", b""), "the same to a full device")
                return
    raise Skipped("the program doesn't start in little memory here")


def many_parts(room):
    """`join` reads any number of files, and holds no more proofs than decide"""
    room.put("p", proof_bytes(Timeline("a", [[bytes(1024)]]), 1, 0, 1))
    room.put("q", LEAST[:-1])
    parts = ["p"] * 60000
    limit = in_memory(64 << 20)
    for words, wanted in ((parts, (1, b"rejected Gap 2\n", b"")), ([*parts, "q"], (9, f"unreadable q byte {len(LEAST) - 1}\n".encode(), b""))):
        expect(room.run("join", *words, limit=limit), wanted, f"timeweave join of {len(words)} files, in 64 MiB of memory")


def cases():
    works = (
        devices, block_device, pipes_and_others, put_back, syncs, full_step_calls, shown_stays, no_memory_for_words, many_parts,
    )
    return [case(work, "guarded") for work in works]
