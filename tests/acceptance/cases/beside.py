"""Acceptance cases of programs that run at one time on one store: each waits for the others, and no step is told twice."""

import os
import subprocess
import threading

from example_files import high_of, low_of

from harness.limits import TELLING
from harness.making import absent_proof, link_proof, message_bytes, proof_bytes
from harness.places import LONGEST
from harness.rooms import Wrong, case, ended, locked, needs, started, waits
from timeweave_reference.archives import EMPTY
from timeweave_reference.events_files import events_to_bytes
from timeweave_reference.histories import Step, history_to_bytes
from timeweave_reference.recording import History
from timeweave_reference.services import service_of


def race(room, folder, count):
    """So many appends to a new store at one time, each second one of which claims a time, with proofs in between; answers what was wrong."""
    (room.folder / folder).mkdir()
    room.expect(f"init {folder} race", 0, service_of("race", []).anchor(0))
    events = [b"event %d" % k for k in range(count)]
    for k, event in enumerate(events):
        room.put(f"{folder}/e{k}", events_to_bytes([event]))
    running, proofs = [], []
    for k in range(count):
        running.append(started(room, "append", folder, f"{folder}/e{k}", *["7"] * (k % 2)))
        proofs.append(started(room, "prove", folder, "event", "1", "0"))
    answers, told = [ended(it) for it in running], [ended(it)[:2] for it in proofs]
    wrong = [f"append answered {answer}" for answer in answers if answer[0]]
    # the lines tell which step has which event
    place = {int(output.split()[1]): k for k, (status, output, _) in enumerate(answers) if status == 0}
    if sorted(place) != list(range(1, count + 1)):
        return wrong + [f"the appends told {[output for _, output, _ in answers]}"]
    order = [place[step] for step in range(1, count + 1)]
    store = service_of("race", [[events[k]] for k in order], times=[7 if k % 2 else None for k in order])
    wrong += [f"step {step} was told as {answers[k][1]}" for step, k in place.items() if answers[k][1] != store.anchor(step)]
    if (room.folder / folder / "timeline.tw").read_bytes() != store.file():
        wrong.append("the store isn't that of the steps that were told")
    right = {(7, b"refused NoStep 0\n")} | {(0, proof_bytes(store.line, 1, 0, top)) for top in range(1, count + 1)}
    return wrong + [f"prove answered {answer}" for answer in told if answer not in right]


def races(room, count, number):
    """Raises Wrong where a race of so many appends went wrong."""
    found = [race(room, f"r{k}", count) for k in range(number)]
    bad = [wrong for wrong in found if wrong]
    if bad:
        raise Wrong(f"  {len(bad)} of {number} races of {count} appends went wrong; the first:\n  " + "\n  ".join(bad[0]))


def two_appends(room):
    """200 races of two appends, with proofs in between: each step that was told is there, and none was told twice"""
    races(room, 2, 200)


def eight_appends(room):
    """30 races of eight appends, with proofs in between: each step that was told is there, and none was told twice"""
    races(room, 8, 30)


def two_inits(room):
    """of two that make a service at one time one makes it, and the other is refused"""
    for k in range(20):
        (room.folder / f"d{k}").mkdir()
        running = [started(room, "init", f"d{k}", name) for name in ("one", "two")]
        answers = [ended(it) for it in running]
        lines = [(0, service_of(name, []).anchor(0), b"") for name in ("one", "two")]
        if answers not in ([lines[0], (7, b"refused Taken\n", b"")], [(7, b"refused Taken\n", b""), lines[1]]):
            raise Wrong(f"  two inits at one time\n  got    {answers}")


def waiting(room):
    """who writes waits for each other program, and who reads only for one that writes"""
    store = room.made("lock", [[b"x"]])
    line = store.line
    history = History("lock")
    history.append([b"x"])
    told = (
        proof_bytes(line, 1, 0, 1), link_proof(line, 1, 1), message_bytes(line, 1, 0), absent_proof(line, EMPTY, 1, 1, ("b", 1)),
        low_of(history, 1, "b", 1), high_of(history, 1, "b", 1), history_to_bytes("lock", [Step([b"x"])]),
    )
    with locked(room, "-s"):
        for words, output in zip(TELLING, told):
            room.expect(words, 0, output)
        append = started(room, "append", "d", "e")
        if not waits(append):
            raise Wrong("  append doesn't wait for one that reads")
    if ended(append) != (0, service_of("lock", [[b"x"]] * 2).anchor(2), b""):
        raise Wrong("  append didn't go on after one that reads")
    with locked(room, "-x"):
        running = [started(room, *words.split()) for words in (*TELLING, "append d e", "init d lock")]
        if not all(waits(it) for it in running):
            raise Wrong("  prove, thread, append or init doesn't wait for one that writes")
    for it, statuses in zip(running, (*[(0,)] * len(TELLING), (0,), (7,))):
        if ended(it)[0] not in statuses:
            raise Wrong(f"  {it.args} didn't go on after one that writes")
    room.expect_store(service_of("lock", [[b"x"]] * 3).file())


def put_back(room):
    """a store that is put back under the lock takes no step of one that waits for the old file"""
    room.made("back", [[b"x"]])
    (room.folder / "copy").write_bytes(room.store())
    kept = (room.folder / "copy").read_bytes()
    room.expect("append d e", 0, service_of("back", [[b"x"]] * 2).anchor(2))
    with locked(room, "-x"):
        append = started(room, "append", "d", "e")
        if not waits(append):
            raise Wrong("  append doesn't wait for one that puts a copy back")
        os.rename(room.folder / "copy", room.folder / "d/timeline.tw")
    if ended(append) != (5, b"fault disk\n", b""):
        raise Wrong(f"  append that waited for a file that another took the place of\n  wanted 5\n  got    {append.returncode}")
    room.expect_store(kept)
    room.expect("append d e", 0, service_of("back", [[b"x"]] * 2).anchor(2))


def backed_up(room):
    """a copy that is made under the lock beside appends is a sound store, and goes on where it is put back"""
    flock = needs("flock", "util-linux")
    room.made("copy", [[b"x"]])
    stop = threading.Event()
    told = []

    def keep_appending():
        while not stop.is_set():
            told.append(room.run("append", "d", "e"))

    appending = threading.Thread(target=keep_appending)
    appending.start()
    try:
        for k in range(20):
            before = len(told)
            subprocess.run([flock, "-s", "d/timeline.tw", "cp", "d/timeline.tw", f"copy{k}"], cwd=room.folder, check=True, timeout=LONGEST)
            (room.folder / f"b{k}").mkdir()
            os.rename(room.folder / f"copy{k}", room.folder / f"b{k}/timeline.tw")
            status, line, _ = room.run("append", f"b{k}", "e")
            step = int(line.split()[1]) if status == 0 else 0
            if step < before + 2 or line != service_of("copy", [[b"x"]] * step).anchor(step):
                raise Wrong(f"  append to a copy made after {before + 1} steps\n  got    {status} {line!r}")
    finally:
        stop.set()
        appending.join()
    room.expect_store(service_of("copy", [[b"x"]] * (len(told) + 1)).file())


def cases():
    return [case(work, "beside") for work in (two_appends, eight_appends, two_inits, waiting, put_back, backed_up)]
