"""Acceptance cases of the program's edge to the system: closed streams, the folder's name, stores that may only be read, inputs that are
read in order, and calls that a signal interrupts."""

import contextlib
import os
import shutil
import subprocess
import threading
import time

from example_files import between_steps

from harness.limits import plain_rights
from harness.making import HEX, LEAST, LEAST_TEXT, accepted_text, message_bytes, proof_bytes
from harness.places import LONGEST
from harness.rooms import Room, Skipped, Wrong, case, expect, restore, run_apart
from harness.tracing import bare_root, calls_of, in_root, needs_tracing, own_calls, under_read_only
from timeweave_reference.events_files import MOST_BYTES as MOST_EVENTS_FILE, events_to_bytes
from timeweave_reference.histories import Step, history_to_bytes
from timeweave_reference.services import service_of
from timeweave_reference.timelines import Timeline
from timeweave_reference.tree_pages import PAGE

# ---- closed standard streams


def in_bare_root(room):
    """A room whose folder is the root of all files that the program sees, without any device."""
    inner = Room(bare_root(room.program, room.folder), room.folder)
    expect(run_apart(inner, "frob", limit=in_root(room.folder), cwd=None), (2, b"usage 1\n", b""), "timeweave frob, in a root without /dev")
    return inner


def closing(folder, *numbers):
    def limit():
        in_root(folder)()
        for number in numbers:
            os.close(number)

    return limit


def no_devices(room):
    """without /dev/null and with open streams, all commands work"""
    inner, store = in_bare_root(room), service_of("bare", [[b"x"]])
    (room.folder / "d").mkdir()
    room.put("e", events_to_bytes([b"x"]))
    room.put("p", LEAST)
    proof = proof_bytes(store.line, 1, 0, 1)
    for words, output in (
        ("init d bare", store.anchor(0)), ("append d e", store.anchor(1)), ("prove d event 1 0", proof), (f"verify p a 1 {HEX}", LEAST_TEXT),
    ):
        found = run_apart(inner, *words.split(), limit=in_root(room.folder), cwd=None)
        expect(found, (0, output, b""), f"timeweave {words}, in a root without /dev")
    room.expect_store(store.file())


def no_devices_closed_output(room):
    """without /dev/null and with a closed stream, nothing is made and the status is 4"""
    inner, store = in_bare_root(room), service_of("bare", [[b"x"]])
    (room.folder / "d").mkdir()
    (room.folder / "f").mkdir()
    room.put("e", events_to_bytes([b"x"]))
    room.expect("init d bare", 0, store.anchor(0))
    room.expect("append d e", 0, store.anchor(1))
    for numbers in ((1,), (0, 1), (0, 1, 2), (2,), (0,)):
        for words in ("append d e", "init f bare", "prove d event 1 0", "frob"):
            to = None if 1 in numbers else subprocess.PIPE
            found = run_apart(inner, *words.split(), limit=closing(room.folder, *numbers), cwd=None, to=to)
            expect(found, (4, b"", b""), f"timeweave {words}, in a root without /dev, with {numbers} closed")
            room.expect_store(store.file())
            expect(os.listdir(room.folder / "f"), [], f"the folder of timeweave {words}, in a root without /dev, with {numbers} closed")
    room.expect("prove d event 1 0", 0, proof_bytes(store.line, 1, 0, 1))


# ---- the name of the store


def syncs_before_writes(calls, folder):
    """Whether the folder is synced before anything is written to a store."""
    for call in calls:
        if call.name in ("fsync", "fdatasync") and call.path == os.path.realpath(folder):
            return True
        if call.name in ("write", "pwrite64") and call.path.endswith("timeline.tw"):
            return False
    return False


def folder_synced(room):
    """`init` and each `append` sync the folder before they write, and who reads syncs no folder"""
    (room.folder / "d").mkdir()
    room.put("e", events_to_bytes([b"x"]))
    for words in ("init d name", "append d e", "append d e"):
        status, _, calls = calls_of(room.program, words.split(), room.folder)
        found = status, syncs_before_writes(calls, room.folder / "d")
        expect(found, (0, True), f"the status of timeweave {words}, and whether it syncs the folder first")
    for words in ("prove d event 1 0", "prove d event 9 0", "prove d link 1", "thread d 0"):
        _, _, calls = calls_of(room.program, words.split(), room.folder)
        synced = [os.path.basename(call.path) for call in calls if "sync" in call.name]
        expect(synced, ["timeline.tw"], f"what timeweave {words} syncs")


def linked_store(room):
    """of a store that is a symbolic link the folder of its target is synced"""
    for name in ("d", "there", "e"):
        (room.folder / name).mkdir()
    (room.folder / "d/timeline.tw").symlink_to("../there/other")
    store = service_of("link", [[b"x"]])
    room.put("f", events_to_bytes([b"x"]))
    room.expect("prove d event 1 0", 8, b"store Blank\n")
    for words, line in (("init d link", store.anchor(0)), ("append d f", store.anchor(1))):
        status, output, calls = calls_of(room.program, words.split(), room.folder)
        synced = syncs_before_writes([call for call in calls if call.path != str(room.folder / "d")], room.folder / "there")
        expect((status, output, synced), (0, line, True), f"timeweave {words}, and whether the target's folder is synced first")
    expect((room.folder / "there/other").read_bytes(), store.file(), "the link's target")


# ---- the calls of an append

# The pages of a store before its first step: two gates and two bodies, of which the second ones are the next step's.
GATE, BODY, FIRST_PAGE = 1, 3, 4


def commit_calls(count):
    """The calls that commit so many pages to a new store: syncs, and the pages that are written, gates with their first byte."""
    pages = range(FIRST_PAGE, FIRST_PAGE + count)
    return [(GATE, 0), "sync", *pages, BODY, "sync", (GATE, 1), "sync"]


def store_calls(calls, store):
    """The syncs and writes on the store, as `commit_calls` has them."""
    for call in calls:
        if call.path == store and call.name in ("fsync", "fdatasync"):
            yield "sync"
        elif call.path == store and call.name == "pwrite64":
            page = int(call.words[3]) // PAGE
            yield (page, call.data[0]) if page < BODY - 1 else page


def append_calls(room):
    """the calls of a first append on the store, in their order: eight of one event, 24 of 64 events of 1,024 bytes"""
    path = room.folder / "d/timeline.tw"
    (room.folder / "d").mkdir()
    for events, pages, count in (([b"x"], 2, 8), ([bytes([k]) * 1024 for k in range(64)], 17 + 1, 24)):
        path.unlink(missing_ok=True)
        room.expect("init d calls", 0, service_of("calls", []).anchor(0))
        room.put("e", events_to_bytes(events))
        status, line, calls = calls_of(room.program, ["append", "d", "e"], room.folder)
        store, wanted = service_of("calls", [events]), commit_calls(pages)
        expect((status, line, len(wanted)), (0, store.anchor(1), count), "timeweave append d e, and how many calls are wanted")
        expect(list(store_calls(calls, os.path.realpath(path))), ["sync", *wanted], "the syncs and writes of timeweave append d e")
        room.expect_store(store.file())


# ---- stores that may only be read


def only_read(room):
    """`prove` needs no right to write the store; `append` answers `fault disk` there"""
    store = room.made("ro", [[b"x"], [b"y"]])
    path = room.folder / "d/timeline.tw"
    for mode, folder in ((0o444, 0o755), (0o444, 0o555), (0o400, 0o500)):
        path.chmod(mode)
        (room.folder / "d").chmod(folder)
        room.expect("prove d event 1 0", 0, proof_bytes(store.line, 1, 0, 2), limit=plain_rights)
        room.expect("prove d event 3 0", 7, b"refused NoStep 2\n", limit=plain_rights)
        for words in ("append d e", "init d ro"):
            room.expect(words, 5, b"fault disk\n", limit=plain_rights)
        room.expect_store(store.file())
    (room.folder / "d").chmod(0o755)


def read_only_mount(room):
    """a store on a read-only mount is proved from and tells its last step; `append` and `init` answer `fault disk` and change nothing"""
    store = room.made("ro", [[b"x"]])
    limit = under_read_only(room.folder / "d")
    fault, proof = (5, b"fault disk\n", b""), (0, proof_bytes(store.line, 1, 0, 1), b"")
    message = (0, message_bytes(store.line, 1, 0), b"")
    for words, wanted in (("append d e", fault), ("init d ro", fault), ("prove d event 1 0", proof), ("thread d 0", message)):
        expect(run_apart(room, *words.split(), limit=limit), wanted, f"timeweave {words}, where d is mounted read-only")
    room.expect_store(store.file())


def no_file_left(room):
    """a command that reads leaves no file in a folder without a store"""
    folder = room.folder / "d"
    folder.mkdir()
    for mode in (0o755, 0o555):
        folder.chmod(mode)
        room.expect("prove d event 1 0", 8, b"store Blank\n", limit=plain_rights)
        expect(os.listdir(folder), [], "what timeweave prove left in a folder without a store")
    folder.chmod(0o755)
    room.expect("prove nowhere event 1 0", 5, b"fault disk\n")
    room.put("file", b"")
    room.expect("prove file event 1 0", 5, b"fault disk\n")


# ---- inputs


def opened_once(room):
    """each input is opened once and read in order"""
    history = history_to_bytes("once", [Step([bytes([k]) * 1000 for k in range(60)]) for _ in range(20)])
    room.put("h", history)
    room.put("p", LEAST)
    room.put("k", f"a 1 {HEX}\n".encode() + b"b 1 " + b"0" * 64 + b"\n")
    for name, file in (("l", "low"), ("m", "high"), ("n", "lines")):
        room.put(name, between_steps()[file])
    for words, files in ((f"verify p a 1 {HEX}", "p"), ("verify p k", "kp"), ("show h 1 0", "h"), ("checkmap l m n", "lmn")):
        status, _, calls = calls_of(room.program, words.split(), room.folder)
        opened = [os.path.basename(call.path) for call in calls if call.name == "openat" and call.path.startswith(str(room.folder))]
        sought = sum(call.name == "lseek" for call in calls)
        expect((status, "".join(opened), sought), (0, files, 0), f"the status of timeweave {words}, the files that it opens, and how often it seeks")


def from_pipe(room, words, data):
    """Runs the program with a pipe as its standard input."""
    return room.run(*words.split(), stdin=None, input=data)


def pipes(room):
    """pipes are inputs: standard input, and a named pipe"""
    store = room.made("pipe", [])
    anchors = f"a 1 {HEX}\n".encode()
    room.put("p", LEAST)
    room.put("k", anchors)
    events = [bytes([k % 256]) * 64 for k in range(1000)]
    longer = service_of("pipe", [events])
    history = history_to_bytes("pipe", [Step(events)])
    for words, data, output in (
        (f"verify /dev/stdin a 1 {HEX}", LEAST, LEAST_TEXT),
        ("verify /dev/stdin k", LEAST, LEAST_TEXT),
        ("verify p /dev/stdin", anchors, LEAST_TEXT),
        ("append d /dev/stdin", events_to_bytes(events), longer.anchor(1)),
        ("show /dev/stdin 1 999", history, proof_bytes(longer.line, 1, 999, 1)),
    ):
        expect(from_pipe(room, words, data), (0, output, b""), f"timeweave {words}, from a pipe")
    too_long = (9, f"unreadable /dev/stdin byte {MOST_EVENTS_FILE}\n".encode(), b"")
    expect(from_pipe(room, "append d /dev/stdin", bytes(3 * MOST_EVENTS_FILE)), too_long, "timeweave append d /dev/stdin, from a long pipe")
    twice = from_pipe(room, "verify /dev/stdin /dev/stdin", anchors)
    expect(twice, (3, b"fault input\n", b""), "timeweave verify /dev/stdin /dev/stdin, which asks to go back in a pipe")
    os.mkfifo(room.folder / "f")
    writer = threading.Thread(target=(room.folder / "f").write_bytes, args=(LEAST,))
    writer.start()
    room.expect(f"verify f a 1 {HEX}", 0, LEAST_TEXT)
    writer.join()
    room.expect_store(longer.file())


def substituted(room):
    """`verify <(..)` and `append <(..)` in bash"""
    bash = shutil.which("bash")
    if not bash:
        raise Skipped("there is no bash (Debian: bash)")
    room.made("sub", [[b"x"]])
    script = (
        'append=$("$0" append d <(printf "TWE1\\0\\0\\0\\1\\0\\0\\0\\1y")) && echo "$append" > k && "$0" prove d event 2 0 > p && '
        '"$0" verify <(cat p) <(cat k) && "$0" append d <("$0" prove d event 2 0)'
    )
    done = subprocess.run([bash, "-c", script, room.program], cwd=room.folder, capture_output=True, timeout=LONGEST)
    wanted = accepted_text("sub", 2, 0, b"y").encode() + b"unreadable /dev/fd/63 byte 2\n"
    expect((done.returncode, done.stdout, done.stderr), (9, wanted, b""), "commands over <(..) in bash")


def replaced(room):
    """a file that is replaced while it is read stays the one that was opened"""
    steps = [Step([bytes([k]) * 1000 for k in range(60)]) for _ in range(20)]
    room.put("h", history_to_bytes("old", steps))
    room.put("other", bytes(2_000_000))
    # (each read waits for a moment; the file is replaced after the first)
    record = room.folder / "calls"
    slowly = [needs_tracing(), "-qq", "-o", record, "-P", str(room.folder / "h"), "-e", "inject=read:delay_exit=2000"]
    command = [*slowly, room.program, "show", "h", "1", "0"]
    running = subprocess.Popen(command, cwd=room.folder, stdout=subprocess.PIPE, stderr=subprocess.DEVNULL, stdin=subprocess.DEVNULL)
    while running.poll() is None and not (record.exists() and b"read" in record.read_bytes()):
        time.sleep(0.01)
    os.replace(room.folder / "other", room.folder / "h")
    output, _ = running.communicate(timeout=LONGEST)
    wanted = proof_bytes(Timeline("old", [step.events for step in steps]), 1, 0, 20)
    expect((running.returncode, output), (0, wanted), "timeweave show h 1 0, where h is replaced while it is read")


def waiting_pipe(room):
    """a full pipe that may not be waited for is a failed output"""
    store = room.made("wait", [[bytes(1000)]])
    reader, writer = os.pipe()
    os.set_blocking(writer, False)
    with contextlib.suppress(BlockingIOError):
        while True:
            os.write(writer, bytes(4096))
    for words in ("prove d event 1 0", "append d e"):
        expect(room.run(*words.split(), to=writer), (4, b"", b""), f"timeweave {words}, to a full pipe that isn't waited for")
    os.close(writer)
    os.close(reader)
    room.expect_store(service_of("wait", [[bytes(1000)]] * 2).file())
    assert store.anchor(1)


def open_pipe(room):
    """of a proof no more is read than the piece in which none goes on: it is answered while its pipe stays open"""
    room.put("k", f"a 1 {HEX}\n".encode())
    for data, place in ((b"TWP2", 3), (b"TWP1\6", 4), (LEAST + b"\0", len(LEAST)), (LEAST + bytes(5000), len(LEAST))):
        for words in (f"verify /dev/stdin a 1 {HEX}", "verify /dev/stdin k", "strict /dev/stdin k"):
            reader, writer = os.pipe()
            os.write(writer, data)
            found = room.run(*words.split(), stdin=reader)
            os.close(writer)
            os.close(reader)
            wanted = (1, f"rejected 1 Malformed {place}\n".encode(), b"")
            expect(found, wanted, f"timeweave {words}, from a pipe that stays open behind {len(data)} bytes")


# ---- interrupted calls


def interrupted(room):
    """a call that a signal interrupted is made again, on inputs, standard output and the store"""
    store = service_of("eintr", [[b"x"]])
    (room.folder / "d").mkdir()
    room.put("e", events_to_bytes([b"x"]))
    room.put("p", LEAST)
    proof = proof_bytes(store.line, 1, 0, 1)
    wrong = []
    for words, output in (
        ("init d eintr", store.anchor(0)), ("append d e", store.anchor(1)), ("prove d event 1 0", proof), (f"verify p a 1 {HEX}", LEAST_TEXT),
    ):
        kept = (room.folder / "d/timeline.tw").read_bytes() if (room.folder / "d/timeline.tw").exists() else None
        _, _, calls = calls_of(room.program, words.split(), room.folder)
        for name, when, where in interruptible(calls, room.folder):
            restore(room.folder / "d/timeline.tw", kept)
            found = calls_of(room.program, words.split(), room.folder, inject=[f"{name}:error=EINTR:when={when}..{when + 2}"])[:2]
            if found != (0, output):
                wrong.append(f"  timeweave {words}, where {name} of {where} is interrupted three times\n  wanted {(0, output)}\n  got    {found}")
    if wrong:
        raise Wrong("\n".join(wrong))
    room.expect_store(store.file())


def interruptible(calls, folder):
    """The calls on the program's own files and on standard output that a signal may interrupt: name, number among those of that name, and file."""
    own, counts = {id(call) for call in own_calls(calls)}, {}
    for call in calls:
        counts[call.name] = counts.get(call.name, 0) + 1
        is_output = call.name == "write" and call.number == "1"
        is_own = id(call) in own and (call.path.startswith(str(folder)) or is_output)
        if is_own and call.name in ("openat", "read", "pread64", "write", "pwrite64", "fsync", "statx", "lseek", "flock"):
            yield call.name, counts[call.name], "standard output" if is_output else os.path.basename(call.path)


def cases():
    works = (
        no_devices, no_devices_closed_output, folder_synced, linked_store, append_calls, only_read, read_only_mount, no_file_left, opened_once,
        pipes, substituted, replaced, waiting_pipe, open_pipe, interrupted,
    )
    return [case(work, "edges") for work in works]
