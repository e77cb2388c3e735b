"""Acceptance cases of `weft record`, `weft find` and `timeweave.Service`: what is told to be recorded is in the store for good, once, whatever is killed; and is
found again."""

import base64
import hashlib
import itertools
import json
import os
import re
import shutil
import socket
import struct
import subprocess
import sys
import time

from harness.places import LONGEST, TOP
from harness.recorders import keeper_of, kill, killed_often, on_a_full_device
from harness.rooms import Skipped, Wrong, case
from harness.weft_room import SHARE, Loom, each_fault
from timeweave_reference.histories import read_history
from weft.statuses import Status
from weft.trouble import Trouble


def digest(data):
    """A digest in hexadecimal."""
    return hashlib.sha256(data).hexdigest()


def recorded(loom, folder="s"):
    """The events of each step that has some, as the store has them."""
    steps = read_history(loom.timeweave("export", folder))[1]
    return {number: list(step.events) for number, step in enumerate(steps, 1) if step.events}


def records(loom, folder="s"):
    """The lines of the file of records, by step: digest and key of each. Behind those of a step it is said that it was made."""
    found, made = {}, []
    for line in loom.read(f"{folder}.records").decode().splitlines():
        step, index, told, *key = line.split(" ")
        if index == "made":
            made.append(int(step))
            continue
        found.setdefault(int(step), []).append((told, *key))
        if int(index) != len(found[int(step)]) - 1:
            raise Wrong(f"  the record {line} isn't where it has to be")
    if made != list(found):
        raise Wrong(f"  the steps {made} are said to be made, and there are {list(found)}")
    return found


def stood_for(event):
    """The digest by which an event is recorded."""
    return event[:64].decode() if len(event) == 67 and event.endswith(b"  -") else digest(event)


def expect_records(loom, folder="s"):
    """The file of records tells what the store has; answers the events."""
    events, told = recorded(loom, folder), records(loom, folder)
    if {step: [stood_for(it) for it in them] for step, them in events.items()} != {step: [it[0] for it in them] for step, them in told.items()}:
        raise Wrong(f"  the store has {events}\n  the records are {told}")
    return events


def with_input(data):
    """Puts bytes to standard input."""

    def change():
        number = os.memfd_create("input")
        os.write(number, data)
        os.lseek(number, 0, os.SEEK_SET)
        sys.stdin = open(number)

    return change


def recorded_and_found(room):
    """words and files are recorded, long ones by their digest; each is answered by step, index and digest, found by file, digest and text, proved, and judged beside the file"""
    loom = Loom(room)
    short, long = loom.put("short.txt", b"a deed\n"), loom.put("long.pdf", b"x" * 5000)
    done = loom.expect("record s short.txt long.pdf --event word --name reg", 0, "Hand out s.anchor: reg 1 ")
    if done.out.splitlines()[:3] != [f"reg 1 {index} {digest(data)}" for index, data in enumerate((short.read_bytes(), long.read_bytes(), b"word"))]:
        raise Wrong(f"  {done.out}")
    if expect_records(loom)[1] != [b"a deed\n", digest(long.read_bytes()).encode() + b"  -", b"word"]:
        raise Wrong(f"  {recorded(loom)}")
    loom.expect("find s short.txt long.pdf", 0, "short.txt: step 1 of reg, index 0", "long.pdf: step 1 of reg, index 1")
    loom.expect(["find", "s", "--text", "word"], 0, 'the text "word": step 1 of reg, index 2')
    loom.expect(["find", "s", digest(b"word").upper()], 0, "step 1 of reg, index 2")
    loom.expect(["find", "s", "--text", "nothing"], 7, "isn't among what was recorded", "weft find --all")
    loom.expect(["find", "s", "--text", "nothing", "--all"], 7, "isn't recorded")
    loom.expect("find s long.pdf --all --proofs proofs", 0, "index 1", "proofs/long.pdf-reg-1-1.proof")
    loom.expect("find s", 2, "nothing is named")
    loom.expect("find s short.txt --proofs proofs --json", 0, '"step": 1, "index": 0')
    loom.expect("keep s.anchor --by hand", 0)
    for name in ("short.txt", "long.pdf"):
        index = int(name == "long.pdf")
        loom.expect(f"judge proofs/{name}-reg-1-{index}.proof --file {name}", 0, "shown", f"{name} is that file")
        loom.put(f"other/{name}", loom.read(name) + b"!")
        loom.expect(f"judge proofs/{name}-reg-1-{index}.proof --file other/{name}", 1)
    loom.expect("check s", 0)


def told_apart(room):
    """what stands beside the store is believed of no place that the store hasn't: a changed line of the records is told, and --all reads the store alone"""
    loom = Loom(room)
    loom.expect("record s --name reg --event one --event two", 0)
    loom.put("s.records", loom.read("s.records").replace(digest(b"one").encode(), digest(b"forged").encode()))
    loom.expect(["find", "s", "--text", "forged"], 17, "the store has something else there")
    loom.expect(["find", "s", "--text", "one"], 7)
    loom.expect(["find", "s", "--text", "one", "--all"], 0, "step 1 of reg, index 0")
    loom.expect("check s", 8, "of step 1 it tells what the store hasn't")
    loom.put("s.records", loom.read("s.records").replace(digest(b"two").encode(), digest(b"two").encode() + b" k9"))
    (loom.folder / "s.keys").unlink()
    loom.expect("record s --event two --key k9", 0, "reg 1 1 ")
    loom.put("s.records", loom.read("s.records").replace(digest(b"two").encode(), digest(b"never").encode()))
    (loom.folder / "s.keys").unlink()
    loom.expect("record s --event never --key k9", 17, "tells of the key k9", "the store hasn't that there")
    (loom.folder / "s.records").write_bytes(loom.read("s.records")[:-20])
    loom.expect("record s --event three", 17, "hasn't recorded that")


def no_log(room):
    """a register that has what sha256sum prints is no log whose entries were lost; what a keeper was told isn't said otherwise through it"""
    loom = Loom(room)
    loom.expect(["record", "s", "--name", "reg", "--event", f"{digest(b'x')}  ./x.pdf"], 0)
    loom.expect("check s --all", 0, absent=("entries",))
    loom.expect("check s --entries", 2, "is one of weft record")
    loom.expect("record s --event third", 0)
    env = loom.env | {"PYTHONPATH": str(TOP)}
    running = subprocess.Popen([sys.executable, "-m", "weft", "record", "s", "--serve", "--idle", "3"], cwd=loom.folder, env=env, stderr=subprocess.DEVNULL)
    while not (loom.folder / "s.socket").exists() and running.poll() is None:
        time.sleep(0.05)
    loom.expect("record s --event four --name other", 2, "is called reg, and not other")
    loom.expect(["record", "s", "--event", "four", "--adopt-store", "reg 9 " + "a" * 64], 2, "a keeper is at work")
    loom.expect("record s --event four --no-time", 2, "a keeper is at work")
    loom.expect("record s --event four --name reg", 0, "reg 3 0 ")
    if running.wait(120):
        raise Wrong("  the keeper didn't end by itself")
    expect_records(loom)


def forms_of_input(room):
    """standard input has events as lines, as pieces with their lengths, or as JSON, of any bytes; what is none is told by its number, and what stands before it was recorded"""
    loom = Loom(room)
    loom.expect("record s --name reg", 0, patch=with_input(b"one\n\ntwo"))
    loom.expect("record s --input pieces", 0, patch=with_input(b"".join(struct.pack(">I", len(it)) + it for it in (b"a\nb", b"", b"\xff"))))
    values = ["text", {"event": "\u00fc"}, {"base64": base64.b64encode(b"\0\1").decode(), "key": "k"}]
    loom.expect("record s --input json", 0, patch=with_input("".join(json.dumps(it) + "\n" for it in values).encode()))
    if expect_records(loom) != {1: [b"one", b"", b"two"], 2: [b"a\nb", b"", b"\xff"], 3: [b"text", "\u00fc".encode(), b"\0\1"]}:
        raise Wrong(f"  {recorded(loom)}")
    loom.expect(["record", "l" * 95, "--name", "long", "--event", "x"], 0)
    loom.expect(["record", "l" * 95, "--serve", "--idle", "1"], 2, "has a name too long to be listened at: it has 95 bytes")
    loom.expect("record s --input pieces", 9, "event 2 of the input ends behind 1 of its 3 bytes", patch=with_input(b"\0\0\0\1a\0\0\0\3b"))
    bad = ('{"event": 1}', "[]", '{"event": "a", "base64": ""}', '{"event": "a", "key": "b c"}', '{"other": "a"}', "{", '{"event": "a", "event": "b"}', '{"event": "\\ud800"}', '{"base64": "*"}')
    for it in bad:
        loom.expect("record s --input json", 9, "event 1 of the input", patch=with_input(it.encode()))
    loom.expect("record s", 0, patch=with_input(b""))
    many = b"".join(b"%d\n" % number for number in range(2500))
    loom.expect("record s", 0, patch=with_input(many))
    if [len(it) for it in list(expect_records(loom).values())[-3:]] != [1024, 1024, 452]:
        raise Wrong("  2,500 lines aren't in three steps")


def same_key(room):
    """what has a key is recorded once, and told as before; another thing of that key is refused, and so is one in the same input; the keys may be lost"""
    loom = Loom(room)
    first = loom.expect("record s --name reg --event one --key k", 0).out
    loom.expect("record s --event one --key k", 0, *first.splitlines()[:1])
    loom.expect("record s --event other --key k", 7, "the key k was used for something else, in step 1 of reg, index 0")
    for end in ("", "-wal", "-shm"):
        (loom.folder / f"s.keys{end}").unlink(missing_ok=True)
    loom.expect("record s --event one --key k", 0, *first.splitlines()[:1])
    loom.put("s.keys", b"no database" * 1000)
    loom.expect("record s --event one --key k", 0, *first.splitlines()[:1])
    lines = [{"event": "a", "key": "x"}, {"event": "b"}, {"event": "a", "key": "x"}, {"event": "c", "key": "x"}, {"event": "d"}]
    done = loom.expect("record s --input json", 7, "the key x was used", patch=with_input("".join(json.dumps(it) + "\n" for it in lines).encode()))
    if [event for events in list(expect_records(loom).values())[1:] for event in events] != [b"a", b"b", b"d"] or done.out.count(digest(b"a")) != 2:
        raise Wrong(f"  {recorded(loom)}\n  {done}")
    for key in ("a b", "", "x" * 65, "\u00e4"):
        loom.expect(["record", "s", "--event", "e", "--key", key], 2, "is no key")
    loom.expect("record s --event e --event f --key k2", 2, "a single event")


def record_with_faults(room):
    """killed at each of its writes, or on a failing device, nothing that was told is lost, and what is handed over again with its key stands once"""
    loom = Loom(room)
    loom.expect("record s --name reg --event first", 0)
    words = ["record", "s", "--event", "paid", "--key", "k1"]
    count = [0]

    def check(told):
        count[0] += 1
        before = recorded(loom) if not (loom.folder / "s/timeline.tw").exists() else None
        loom.expect("record s --event paid --key k1", 0)
        events = [event for them in expect_records(loom).values() for event in them]
        if events != [b"first", b"paid"] or before:
            raise Wrong(f"{told}\n  {events}")

    if each_fault(loom, words, check) < 20 // SHARE:
        raise Wrong(f"  there were {count[0]} faults")


def old_store(room):
    """an old store that is put back makes no step: with its records, or under newer ones; and none whose records are gone, until a person names its last line"""
    loom = Loom(room)
    loom.expect("record s --name reg --event one", 0)
    kept = [path for path in loom.folder.iterdir() if path.name == "s" or path.name.startswith("s.")]
    for path in kept:
        (shutil.copytree if path.is_dir() else shutil.copy2)(path, loom.folder / f"old-{path.name}")
    loom.expect("record s --event two", 0)
    loom.expect("record s --event three", 0)
    new = {name: loom.read(name) for name in ("s.records", "s.lines", "s.anchor", "s.seal")}
    shutil.copy2(loom.folder / "old-s/timeline.tw", loom.folder / "s/timeline.tw")
    loom.expect("record s --event four", 17)
    for name in ("s.lines", "s.anchor", "s.seal"):
        shutil.copy2(loom.folder / f"old-{name}", loom.folder / name)
    loom.expect("record s --event four", 17, "No step was made")
    shutil.copy2(loom.folder / "old-s.records", loom.folder / "s.records")
    loom.expect("record s --event four", 17, "copy")
    loom.expect(["find", "s", "--text", "one"], 10, "step 1 of reg")
    if recorded(loom) != {1: [b"one"]}:
        raise Wrong("  a step was made on an old store")
    for name, data in new.items():
        loom.put(name, data)


def unnoted():
    """Notes no line of the step that is made."""
    from weft.recording import Recorder

    Recorder.note_line = lambda self: self.last


def words_of_a_service(room):
    """who hands over events ends no service by one, and introduces no key: what a service says of itself is recorded by its digest alone"""
    loom = Loom(room)
    for event in ("goes on as reg-2", "new key ssh-ed25519 AAAAC3NzaC1lZDI1NTE5AAAAIGFzIGFueWJvZHkgbWF5IGhhbmQgaXQgb3Zlcg=="):
        loom.expect(["record", "s", "--name", "reg", "--event", event], 0, digest(event.encode()))
        loom.expect(["find", "s", "--text", event], 0, "of reg, index 0")
    if any(not event.endswith(b"  -") for events in expect_records(loom).values() for event in events):
        raise Wrong(f"  {recorded(loom)}")
    loom.expect("record s --event more", 0)
    loom.expect("check s", 0)


def another_listens(room):
    """to another user who listens at the socket of a service nothing is handed"""
    if os.geteuid() != 0:
        raise Skipped("it needs another user")
    loom = Loom(room)
    loom.folder.chmod(0o777)
    code = f"import os, socket, time; os.setuid(65534); s = socket.socket(socket.AF_UNIX); s.bind('s.socket'); os.chmod('s.socket', 0o777); s.listen(5); time.sleep({LONGEST})"
    running = subprocess.Popen([sys.executable, "-c", code], cwd=loom.folder)
    try:
        while not (loom.folder / "s.socket").exists() and running.poll() is None:
            time.sleep(0.05)
        time.sleep(0.2)
        loom.expect("record s --name reg --event secret", 5, "another user listens")
        env = loom.env | {"PYTHONPATH": str(TOP / "bindings/python")}
        code = "import timeweave\ntry:\n    timeweave.Service('s', name='reg')\nexcept timeweave.RefusedEvent as it:\n    print(it)"
        if b"another user listens" not in subprocess.run([sys.executable, "-c", code], cwd=loom.folder, env=env, capture_output=True, timeout=LONGEST).stdout:
            raise Wrong("  timeweave.Service hands over to another user")
    finally:
        running.kill()
        running.wait()


def one_step_back(room):
    """a store that is set back by the one step that was told last is found by the records alone, though no line of that step was noted"""
    loom = Loom(room)
    loom.expect("record s --name reg --event one", 0)
    before = loom.read("s/timeline.tw")
    loom.expect("record s --event two", 0, patch=unnoted)
    loom.put("s/timeline.tw", before)
    loom.expect("record s --event three", 17, "tells of step 2", "hasn't recorded that")
    if recorded(loom) != {1: [b"one"]}:
        raise Wrong("  a step was made")


def without_records(room):
    """a store whose records were lost makes no step until its last line is named; they are made anew of it then, without keys; a log takes no events, and a register is no log: what
    is told to do then does it"""
    loom = Loom(room)
    loom.put("long", b"y" * 2000)
    loom.expect("record s long --name reg --key k", 0)
    (loom.folder / "s.records").unlink()
    loom.expect("record s --event two", 17, "s.records doesn't stand beside it")
    loom.expect(["record", "s", "--event", "two", "--adopt-store", loom.read("s.anchor").decode().strip()], 0, "s.records was made anew, of the store: no event has a key now")
    expect_records(loom)
    loom.expect("find s long", 0, "step 1 of reg, index 0")
    (loom.folder / "src").mkdir()
    loom.put("src/a", "a")
    loom.expect("log src log data", 0)
    loom.expect("record log --event x", 2, "is a log of files")
    for more in ([], ["--adopt-store", loom.read("s.anchor").decode().strip()]):
        done = loom.expect(["log", "src", "s", *more], 2, "s is one of weft record, and no log of files. No step was made")
    loom.expect("prove s long", 2, "s is one of weft record")
    if (loom.folder / "s.entries").exists():
        raise Wrong("  entries were made beside a register")
    log, find = re.findall(r"weft ([^.:]*)", done.err.partition("of its own: ")[2])
    loom.expect(log.replace("FOLDER", "src").replace("NAME", "name").replace("OTHER", "other"), 0)
    loom.expect(find.strip().replace("FILE", "long"), 0, "step 1 of reg, index 0", "PROOFS/")


def by_hand(room):
    """steps that others make are told, and what a step was begun for stands in the next one; weft check tells those of which no record tells, as where it was taken out"""
    loom = Loom(room)
    loom.expect("record s --name reg --event one", 0)
    loom.append("s", b"strange")
    loom.expect("record s --event two", 10, "step 2 of reg: no run of weft record made such a step")
    loom.expect("record s --event three", 0)
    if recorded(loom) != {1: [b"one"], 2: [b"strange"], 3: [b"two"], 4: [b"three"]} or sorted(records(loom)) != [1, 3, 4]:
        raise Wrong(f"  {recorded(loom)} {records(loom)}")
    untold = "s.records tells nothing of step {}, with events: others made that, or its lines were taken out"
    loom.expect("check s", 10, untold.format(2))
    loom.key("new")
    loom.expect("record t --name other --event one", 0)
    loom.key("old")
    loom.expect("line t --sign old.key --introduce new.key.pub --out l", 0)
    loom.expect("record t --event three", 0)
    loom.expect("check t", 0)
    loom.put("t.records", b"".join(row for row in loom.read("t.records").splitlines(True) if not row.startswith(b"1 ")))
    loom.expect("check t", 10, untold.format(1).replace("s.", "t.", 1))


def lines_beside(room):
    """of a step whose lines a keeper puts into the records beside its making, and that was killed amid that, they are made anew of the store, all or those that lack; of one that
    wasn't made they are taken away; and weft check tells that a run was stopped"""
    loom = Loom(room)
    lines = b"".join(b"2 %d %s\n" % (index, digest(b"%d" % index).encode()) for index in range(3))
    for number, (size, is_made) in enumerate(itertools.product((0, 40, 69, 200, len(lines)), (False, True))):
        name = f"s{number}"
        loom.expect(f"record {name} --name reg --event one", 0)
        if is_made:
            loom.append(name, b"0", b"1", b"2")
        loom.put(f"{name}.records", loom.read(f"{name}.records") + lines[:size])
        loom.put(f"{name}.pending", b"beside 2\n")
        loom.expect(f"check {name}", 10, "a run of weft record was stopped amid a step")
        told = f"Step 2 of reg was made by a run that was stopped: its lines in {name}.records were made anew, of the store."
        are_lacking = is_made and size < len(lines)
        loom.expect(f"record {name} --event next", 0, *([told] if are_lacking else []), absent=("no run of weft record", *([] if are_lacking else ["made anew"])))
        wanted = {1: [b"one"], **({2: [b"0", b"1", b"2"], 3: [b"next"]} if is_made else {2: [b"next"]})}
        if expect_records(loom, name) != wanted or (loom.folder / f"{name}.pending").exists():
            raise Wrong(f"  {size} bytes of lines, and the step was made: {is_made}\n  {recorded(loom, name)}")
        loom.expect(f"check {name}", 0)


def small_parts():
    """Parts of few bytes."""
    from weft import parts

    parts.MOST_PART = 30_000


def in_parts(room):
    """a service that outgrows its file goes on in a new part; what was recorded is found in both, and keys hold over both"""
    loom = Loom(room)
    loom.expect("record s --name reg --event first --key k", 0)
    for number in range(40):
        loom.expect(["record", "s", *(word for place in range(8) for word in ("--event", f"{number}-{place}" + "z" * 100))], 0, patch=small_parts)
    last = json.loads(loom.expect("line s --json", 0).out)
    if last["service"] == "reg":
        raise Wrong("  it didn't go on in a new part")
    loom.expect("record s --event first --key k", 0, "reg 1 0 ", patch=small_parts)
    loom.expect(["find", "s", "--text", "first"], 0, "step 1 of reg, index 0")
    loom.expect(["find", "s", "--text", "39-7" + "z" * 100, "--proofs", "p"], 0, f"of {last['service']}, index 7")


def many_proofs(room):
    """all that a list names is proved in one run, over all parts, by proofs that are those of the program; what isn't recorded is told, and what stands beside the store isn't believed"""
    loom = Loom(room)
    loom.put("long", b"x" * 3000)
    for number in range(5):
        loom.expect(["record", "s", "long", "--name", "reg", *(word for place in range(30) for word in ("--event", f"{number}-{place}" + "z" * 330))], 0, patch=small_parts)
    parts = {"reg": "s", **{f"reg-{number}": f"s/part-{number}" for number in range(2, 9) if (loom.folder / f"s/part-{number}").exists()}}
    if len(parts) < 2:
        raise Wrong("  it has one part")
    events = {digest(event): event for folder in parts.values() for them in recorded(loom, folder).values() for event in them if not event.startswith(b"goes on")}
    lines = [f"{digest(event)}  some/where/event-{number}" for number, event in enumerate(events.values())]
    loom.put("list", "\n".join([*lines, "", "long", digest(b"never")]))
    loom.put("s.records", loom.read("s.records").replace(b" ", b"  ", 1))
    done = loom.expect("prove s --many list --out proofs", 7, "the digest", "isn't recorded", "for whoever holds the lines of s.anchor")
    proofs = {path.name: path.read_bytes() for path in (loom.folder / "proofs").iterdir()}
    if len(proofs) != len(lines) - 1 + 2 * 5 or len(done.out.splitlines()) != len(proofs) + 1:
        raise Wrong(f"  {len(proofs)} proofs of {len(lines)} lines\n  {done.out[-500:]}")
    for name, data in sorted(proofs.items())[::8]:
        _, _, rest = name.removesuffix(".proof").partition("-reg")
        *of, step, index = f"reg{rest}".split("-")
        if data != loom.timeweave("prove", parts["-".join(of)], "event", step, index):
            raise Wrong(f"  the proof {name} isn't the program's")
    loom.expect("keep s.anchor --by hand", 0)
    first = sorted(proofs)[0]
    loom.expect(["judge", f"proofs/{first}"], 0, "shown")
    loom.put("list", "\n".join(lines[1:4]))
    told = [json.loads(line) for line in loom.expect("prove s --many list --out more --json", 0).out.splitlines()]
    if [it.get("made") for it in told[:4]] != [None] * 3 + [3]:
        raise Wrong(f"  {told}")
    for words in ("prove s --many list", "prove s long --many list --out more", "prove s --many list --out more --top 1", "prove s"):
        loom.expect(words, 2)
    loom.put("list", b"")
    loom.expect("prove s --many list --out more", 2, "names nothing")


ODD = """
import os, sys, timeweave
with timeweave.Service("link", name="reg", weft=sys.argv[1]) as service:
    for handed in (4711, True, [1, 2], "text", None):
        for record in (service.record, lambda it: service.record_many([it])):
            try:
                print("taken", record(handed))
            except TypeError:
                pass
    for events in (b"abc", "abc"):
        try:
            print("taken", service.record_many(events))
        except TypeError:
            pass
    for key in (None, 0, b"k", 7):
        try:
            print("taken", service.record(b"x", key=key))
        except TypeError:
            pass
    for data in (bytearray(b"one"), memoryview(b"two"), b"three"):
        service.record(data)
    for place in (["reg"], {}, None):
        try:
            print("taken", service.prove(timeweave.Receipt(place, 1, 0, b"", b"")))
        except timeweave.RefusedEvent:
            pass
    child = os.fork()
    if not child:
        try:
            service.record(b"child")
        except ValueError as failure:
            with timeweave.Service("s", weft=sys.argv[1]) as own:
                own.record(b"four" if "forked off" in str(failure) else b"other")
            os._exit(0)
        os._exit(1)
    print("ended", os.waitpid(child, 0)[1])
    print("last", service.record(b"five").service)
"""


def odd_callers(room):
    """what has no bytes isn't recorded as so many zeros, nor a key that is no text; a service that a fork inherits says so at once; a folder is found by a link to it, and a place
    that is none ends no keeper"""
    loom = Loom(room)
    loom.expect("record s --name reg --event first", 0)
    os.symlink("s", loom.folder / "link")
    words = [sys.executable, "-c", ODD, command_of_weft(loom)]
    done = subprocess.run(words, cwd=loom.folder, env=loom.env | {"PYTHONPATH": str(TOP / "bindings/python")}, capture_output=True, timeout=LONGEST)
    if done.returncode or done.stdout.split() != [b"ended", b"0", b"last", b"reg"]:
        raise Wrong(f"  {done.returncode} {done.stdout!r} {done.stderr[-2000:]!r}")
    events = [event for step in sorted(recorded(loom).items()) for event in step[1]]
    if events != [b"first", b"one", b"two", b"three", b"four", b"five"]:
        raise Wrong(f"  {events}")
    kill_keeper(loom.folder)


WRITER = """
import sys, timeweave
name, count = sys.argv[1], int(sys.argv[2])
with timeweave.Service("s", weft=sys.argv[3]) as service:
    futures = [(key, service.submit(key.encode(), key=key)) for key in (f"{name}-{number}" for number in range(count))]
    for key, it in futures:
        receipt = it.result()
        print(key, receipt.service, receipt.step, receipt.index, receipt.digest.hex(), flush=True)
"""


def command_of_weft(loom):
    """The path of a command that runs this weft."""
    path = loom.put("weft-here", f"#!/bin/sh\nexec {sys.executable} -P {TOP}/weft/bin/weft \"$@\"\n")
    path.chmod(0o755)
    return os.fspath(path)


def kill_keeper(folder):
    """Kills the keeper that listens for a service, where one does."""
    number = keeper_of(folder)
    if number is not None:
        kill(number)


def by_many(room):
    """many processes record at once through one keeper, which is killed again and again amid that: each acknowledged event stands where it was told, and each key once"""
    loom = Loom(room)
    loom.expect("record s --name reg --event first", 0)
    command, env = command_of_weft(loom), loom.env | {"PYTHONPATH": str(TOP / "bindings/python")}
    words = [[sys.executable, "-c", WRITER, f"w{number}", "150", command] for number in range(4)]
    running = [subprocess.Popen(it, cwd=loom.folder, env=env, stdout=subprocess.PIPE, stderr=subprocess.PIPE) for it in words]
    for _ in range(3):
        time.sleep(0.7)
        kill_keeper(loom.folder)
    ended = [it.communicate(timeout=LONGEST) for it in running]
    told = [line.split(" ") for out, _ in ended for line in out.decode().splitlines()]
    if any(it.returncode for it in running) or len(told) != 600:
        raise Wrong(f"  {len(told)} were told\n  {[err[-600:] for _, err in ended]}")
    until = time.monotonic() + 60
    while keeper_of(loom.folder) is not None and time.monotonic() < until:
        time.sleep(6)
    loom.expect("record s --event last", 0)
    events = expect_records(loom)
    for key, service, step, index, sum_of in told:
        if events[int(step)][int(index)] != key.encode() or digest(key.encode()) != sum_of:
            raise Wrong(f"  {key} isn't in step {step}, index {index}")
    flat = [event for them in events.values() for event in them]
    if len(flat) != len(set(flat)) or len(flat) != 602:
        raise Wrong(f"  {len(flat)} events, {len(set(flat))} of them different")


def kills_of_many(room):
    """writers, keepers and programs are killed at drawn moments: an auditor finds all that was acknowledged in the store, and nothing twice"""
    for have_keys in (True, False):
        (room.folder / str(have_keys)).mkdir()
        killed_often(room.folder / str(have_keys), os.path.abspath(room.program), 6, "few", have_keys=have_keys)


def full_device(room):
    """where the device is full, or can't be written, what wasn't recorded is told; once there is room again what is handed over once more with its key stands once"""
    on_a_full_device(room.folder, os.path.abspath(room.program))


ASKER = """
import asyncio, sys, timeweave
with timeweave.Service("s", name="reg", weft=sys.argv[1]) as service:
    one = service.record(b"one", key="k")
    assert service.record(b"one", key="k") == one
    try:
        service.record(b"two", key="k")
        sys.exit("another thing has the key")
    except timeweave.RefusedEvent as refused:
        assert "was used for something else" in str(refused), refused
    many = service.record_many([b"a", b"b" * 3000, b"c"])
    places = [(it.step, it.index) for it in many]
    assert places == sorted(set(places)), many
    async def some():
        return await asyncio.gather(*[service.record_async(b"x%d" % number) for number in range(20)])
    assert len({(it.step, it.index) for it in asyncio.run(some())}) == 20
    async def left():
        task = asyncio.ensure_future(service.record_async(b"left"))
        await asyncio.sleep(0)
        task.cancel()
        return await service.record_async(b"stays")
    assert asyncio.run(left()).step
    line, proof = service.line(), service.prove(many[1])
    open("line", "w").write(f"{line.service} {line.step} {line.authenticator.hex()}\\n")
    open("proof", "wb").write(proof)
    for bad in ("a b", "x" * 65):
        try:
            service.submit(b"", key=bad)
            sys.exit("a bad key is taken")
        except ValueError:
            pass
try:
    timeweave.Service("no/such/folder", name="reg", weft=sys.argv[1])
    sys.exit("no folder is one")
except timeweave.RefusedEvent as refused:
    assert refused.status == 5, refused.status
"""


def service_of_python(room):
    """timeweave.Service makes the service, records with and without keys, blocking and awaited, tells the line and makes proofs; what is refused is told with its status"""
    loom = Loom(room)
    env = loom.env | {"PYTHONPATH": str(TOP / "bindings/python")}
    done = subprocess.run([sys.executable, "-c", ASKER, command_of_weft(loom)], cwd=loom.folder, env=env, capture_output=True, timeout=LONGEST)
    if done.returncode:
        raise Wrong(f"  {done.stdout[-800:]} {done.stderr[-1500:]}")
    loom.expect("judge proof --kept line", 0, "shown")
    while (loom.folder / "s.socket").exists():
        time.sleep(0.2)
    expect_records(loom)


KEEPER = """#!{python}
import os, socket, sys
if os.path.exists("began"):
    sys.stderr.write("the store isn't the one of its lines")
    sys.exit(17)
open("began", "w").close()
found = socket.socket(socket.AF_UNIX, socket.SOCK_STREAM)
found.bind("s.socket")
found.listen(1)
found.accept()[0].recv(65536)
os.unlink("s.socket")
"""

LOST = """
import sys, timeweave
service = timeweave.Service("s", weft=sys.argv[1])
for key in ("k", ""):
    try:
        service.record(b"one", key=key)
    except (timeweave.Unknown, timeweave.RefusedEvent) as told:
        print(type(told).__name__, told)
"""


def lost_keeper(room):
    """where the keeper ended before it answered and no other one comes, timeweave.Service says of what it took, with a key too, that it isn't known whether it is recorded, and not
    that it wasn't"""
    loom = Loom(room)
    keeper = loom.put("keeper", KEEPER.format(python=sys.executable))
    keeper.chmod(0o755)
    env = loom.env | {"PYTHONPATH": str(TOP / "bindings/python")}
    done = subprocess.run([sys.executable, "-c", LOST, str(keeper)], cwd=loom.folder, env=env, capture_output=True, text=True, timeout=LONGEST)
    wanted = ["Unknown the keeper ended before it answered, and the next one doesn't answer: the store isn't the one of its lines", "RefusedEvent the store isn't the one of its lines"]
    if done.stdout.splitlines() != wanted:
        raise Wrong(f"  {done.stdout} {done.stderr[-800:]}")


class FailingRecorder:
    """Records one event a step, and fails at the second step."""

    def __init__(self):
        self.made = 0

    def find_key(self, it):
        return None

    def record(self, waiting):
        from weft.recording import Receipt

        self.made += 1
        if self.made == 2:
            raise Trouble(Status.DISK, "the device is full")
        return [Receipt("reg", self.made, 0, waiting[0].digest.decode())]


def failed_amid(room):
    """where a step fails each request is answered once: what was recorded is told, and of the rest that it isn't known; so no later answer is taken for an earlier one"""
    from weft.deciding.batching import frame
    from weft.keeper import Asked, Client, Framed, Keeper

    own, other = socket.socketpair()
    client = Client(other)
    asked = [Asked(Framed(len(events), b"\n".join(keys), b"", frame(events)), client) for events, keys in (([b"a"], [b"k"]), ([b"b", b"c"], []), ([b"d"], []))]
    asked.append(Asked({"line": True}, client))
    try:
        Keeper.answer(FailingRecorder(), asked)
        raise Wrong("  no step failed")
    except Trouble as trouble:
        for it in asked:
            it.fail(trouble)
    other.close()
    with own.makefile("rb") as lines:
        answers = [json.loads(line) for line in lines]
    own.close()
    unknown = {"unknown": "the device is full.", "status": 5}
    wanted = [{"recorded": [["reg", 1, 0, 1]]}, {"recorded": [unknown, unknown]}, {"recorded": [unknown]}, {"status": 5, "trouble": "the device is full."}]
    if answers != wanted:
        raise Wrong(f"  {answers}")


def faulty_clients(room):
    """a keeper takes of what is handed over only what is framed right, of which it sees the lengths, the keys and what stands for a digest: whoever hands over anything else is told
    so and left, and others aren't hindered; a client of an earlier version is told that it is one"""
    loom = Loom(room)
    loom.expect("record s --name reg --event first", 0)
    words = [sys.executable, "-m", "weft", "record", "s", "--serve", "--idle", "3"]
    running = subprocess.Popen(words, cwd=loom.folder, env=loom.env | {"PYTHONPATH": str(TOP)}, stderr=subprocess.DEVNULL)
    while not (loom.folder / "s.socket").exists() and running.poll() is None:
        time.sleep(0.05)

    def answered(data):
        """What the keeper answers to one who sends that."""
        with socket.socket(socket.AF_UNIX, socket.SOCK_STREAM) as connection:
            at = os.open(loom.folder, os.O_PATH)
            connection.connect(f"/proc/self/fd/{at}/s.socket")
            os.close(at)
            connection.sendall(data)
            return connection.makefile("rb").readline()

    def handed(*events, keys=b"", places=(), number=None, cut=0):
        """Events as they are handed over."""
        body, packed = b"".join(struct.pack(">I", len(it)) + it for it in events), struct.pack(f">{len(places)}I", *places)
        body = body[: len(body) - cut]
        return b"events %d %d %d %d\n" % (len(events) if number is None else number, len(keys), len(packed), len(body)) + keys + packed + body

    bad = [handed(b"a", b"b", number=3), handed(b"a", b"b", cut=1), handed(b"a", b"bc", number=1), handed(b"x" * 1025), handed(*[b""] * 1025), handed(b"a", keys=b"k k"), handed(b"a", b"b", keys=b"k")]
    bad += [handed(b"a", places=[0]), handed(digest(b"z").encode() + b"  -", places=[1]), b"events 1 0 0\n", b"events -1 0 0 0\n", b"events 1 0 0 99999999\n", b"events a b c d\n", b"[]\n", b"\n"]
    half = socket.socket(socket.AF_UNIX, socket.SOCK_STREAM)
    at = os.open(loom.folder, os.O_PATH)
    half.connect(f"/proc/self/fd/{at}/s.socket")
    os.close(at)
    half.sendall(handed(b"half")[:-2])
    for it in bad:
        if b"that is no request" not in answered(it):
            raise Wrong(f"  {it[:60]} is taken: {answered(it)}")
    if b"later version" not in answered(json.dumps({"record": [["YQ==", ""]]}).encode() + b"\n"):
        raise Wrong("  an earlier version isn't told")
    good = [(b"a", b"b"), (b"a", b"", b"abc"), (b"goes on as reg-2", b"goes on as reg-3"), (b"new key x",)]
    for number, events in enumerate(good, 2):
        if json.loads(answered(handed(*events))) != {"recorded": [["reg", number, 0, len(events)]]}:
            raise Wrong(f"  {events} aren't recorded")
    long = digest(b"z" * 5000).encode() + b"  -"
    if json.loads(answered(handed(b"x", long, keys=b"k\n", places=[1]))) != {"recorded": [["reg", 6, 0, 2]]}:
        raise Wrong("  what is longer isn't recorded")
    half.close()
    if running.wait(LONGEST):
        raise Wrong("  the keeper didn't end by itself")
    own_words = [tuple(f"{digest(it)}  -".encode() for it in events) for events in good[2:]]
    if list(map(tuple, expect_records(loom).values())) != [(b"first",), *good[:2], *own_words, (b"x", long)]:
        raise Wrong(f"  {recorded(loom)}")


def of_pushes(room):
    """the hook records each commit that a push brings once, in order, and the bag of the other example is found again by its tag manifest"""
    loom = Loom(room)
    shutil.copy2(command_of_weft(loom), loom.put("path/weft", b""))
    env = loom.env | {"PATH": f"{loom.folder}/path:{loom.env['PATH']}", "WEFT_SERVICE": os.fspath(loom.folder / "s"), "GIT_CONFIG_GLOBAL": "/dev/null"}
    env |= {f"GIT_{who}_{what}": "a@example" for who in ("AUTHOR", "COMMITTER") for what in ("NAME", "EMAIL")}

    def run(*words):
        done = subprocess.run(words, cwd=loom.folder, env=env, capture_output=True, timeout=LONGEST)
        if done.returncode:
            raise Wrong(f"  {words}: {done.returncode} {done.stdout[-500:]} {done.stderr[-800:]}")
        return done.stdout.decode()

    run("git", "init", "-q", "--bare", "--object-format=sha256", "hub")
    shutil.copy2(TOP / "examples/record_pushes.sh", loom.folder / "hub/hooks/post-receive")
    run("git", "init", "-q", "--object-format=sha256", "work")
    run("git", "-C", "work", "remote", "add", "origin", loom.folder / "hub")
    names = []
    for number in range(3):
        run("git", "-C", "work", "commit", "-q", "--allow-empty", "-m", str(number))
        names.append(run("git", "-C", "work", "rev-parse", "HEAD").strip())
        if number:
            run("git", "-C", "work", "push", "-q", "origin", "HEAD:main")
    run("git", "-C", "work", "push", "-q", "origin", "HEAD:refs/heads/same", "HEAD:refs/tags/one")
    run("git", "-C", "work", "push", "-q", "origin", ":refs/heads/same")
    for number in range(2):
        run("git", "-C", "work", "commit", "-q", "--allow-empty", "-m", f"more {number}")
        names.append(run("git", "-C", "work", "rev-parse", "HEAD").strip())
        run("git", "-C", "work", "push", "-q", "origin", "HEAD:main", f"HEAD:refs/heads/beside-{number}", f"HEAD:refs/tags/tag-{number}")
    events = [event for them in expect_records(loom).values() for event in them]
    if events != [f"commit {name}".encode() for name in names]:
        raise Wrong(f"  {events}\n  {names}")
    loom.put("bag/data/a", "a")
    loom.put("bag/manifest-sha256.txt", f"{digest(b'a')}  data/a\n")
    loom.put("bag/bagit.txt", "BagIt-Version: 1.0\n")
    tags = "".join(f"{digest(loom.read(f'bag/{name}'))}  {name}\n" for name in ("bagit.txt", "manifest-sha256.txt"))
    loom.put("bag/tagmanifest-sha256.txt", tags)
    first = run(TOP / "examples/record_bag.sh", "bag", "bags", "bags")
    if run(TOP / "examples/record_bag.sh", "bag", "bags") != first:
        raise Wrong("  a bag was recorded twice")
    loom.expect("find bags bag/tagmanifest-sha256.txt --proofs p", 0, "step 1 of bags")
    loom.put("bag/data/b", "in no manifest")
    if subprocess.run([TOP / "examples/record_bag.sh", "bag", "other", "other"], cwd=loom.folder, env=env, capture_output=True).returncode == 0:
        raise Wrong("  a bag with a file in no manifest was recorded")
    (loom.folder / "bag/data/b").unlink()
    loom.put("bag/data/a", "b")
    if subprocess.run([TOP / "examples/record_bag.sh", "bag", "other", "other"], cwd=loom.folder, env=env, capture_output=True).returncode == 0:
        raise Wrong("  a bag that isn't whole was recorded")


def cases():
    works = (
        recorded_and_found, told_apart, forms_of_input, same_key, record_with_faults, old_store, one_step_back, words_of_a_service, another_listens, without_records, no_log, by_hand, lines_beside, in_parts, by_many, many_proofs, odd_callers, kills_of_many, full_device, service_of_python,
        failed_amid, lost_keeper, faulty_clients, of_pushes,
    )  # fmt: skip
    return [case(work, "weft record") for work in works]
