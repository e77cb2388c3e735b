"""Cases of the reference itself: its types, what it imports, that its readers give back the bytes that they read, and that its functions over
bytes answer as its commands do. What it answers is held against the program by all others."""

import ast
import importlib
import random
import re
import subprocess
import sys

import timeweave
import timeweave_reference
from example_files import audited_chain, between_steps, fork_evidence, reached_steps, taken_over

from harness.making import message_bytes, proof_bytes
from harness.places import LONGEST, TOP
from harness.rooms import Wrong, case, needs
from harness.samples import timed, woven
from harness.ways import ways, with_carried
from timeweave_reference import anchors, commands, events_files, evidence, histories, map_files, messages, receipts, stores, tree_pages
from timeweave_reference.fields import Malformed
from timeweave_reference.followers import Follower
from timeweave_reference.services import Service
from timeweave_reference.tree_pages import PAGE
from timeweave_reference.verdicts import read_proof

PACKAGE = TOP / "reference/timeweave_reference"

# What of the standard library it may use.
STANDARD = {
    "abc", "bisect", "contextlib", "copy", "dataclasses", "enum", "fcntl", "functools", "hashlib", "importlib", "json", "os", "pathlib", "re", "sys", "tempfile", "typing",
    "__future__",
}  # fmt: skip

# What it says first on standard error, to people.
MARK = b"NOT PROVED: second implementation\n"


def types(room):
    """mypy, strict, finds no fault in its types, for Python 3.9"""
    mypy = needs("mypy", "mypy")
    words = [mypy, "--strict", "--python-version", "3.9", "--cache-dir", room.folder / "cache", PACKAGE]
    done = subprocess.run(words, cwd=TOP / "reference", capture_output=True, text=True, timeout=300)
    if done.returncode:
        raise Wrong(done.stdout + done.stderr)


def imports(room):
    """it is Python 3.9, and imports its own modules and the standard library alone"""
    wrong = []
    for path in sorted(PACKAGE.glob("*.py")):
        for node in ast.walk(ast.parse(path.read_text(), feature_version=(3, 9))):
            names = [alias.name for alias in node.names] if isinstance(node, ast.Import) else []
            names += [node.module] if isinstance(node, ast.ImportFrom) and node.level == 0 else []
            wrong += [f"  {path.name} imports {name}" for name in names if name.split(".")[0] not in STANDARD]
    if wrong:
        raise Wrong("\n".join(wrong))


def has_name(module, name):
    """Whether a module has a function, class or value of this name, or one of its classes has such a method."""
    return hasattr(module, name) or any(hasattr(it, name) for it in vars(module).values() if isinstance(it, type))


def is_there(name):
    """Whether there is what is named by a module, what it has, and so on, parted by points."""
    module, *rest = name.split(".")
    found = importlib.import_module(f"timeweave_reference.{module}")
    for word in rest:
        found = getattr(found, word, None)
    return found is not None


def sections(room):
    """its README has a row for each section of docs/formats.md, of modules, readers and makers that are there"""
    text, wrong = (TOP / "reference/README.md").read_text(), []
    table = text.split("| section of formats.md |")[1].split("\n\n")[0]
    rows = [[cell.strip() for cell in line[1:-1].split("|")] for line in table.split("\n")[2:]]
    named = " ".join(section for section, *_ in rows).lower()
    for title in re.findall(r"^###? (.*)$", (TOP / "docs/formats.md").read_text(), re.M):
        wrong += [f"  no row is of {title}"] * (re.sub(r" \(.*\)", "", title).lower() not in named)
    for _, modules, readers, makers in rows:
        found = [importlib.import_module(f"timeweave_reference.{name}") for name in re.findall(r"`(\w+)`", modules)]
        wrong += [f"  {modules} has no {name}" for name in re.findall(r"`(\w+)`", readers) if not any(has_name(module, name) for module in found)]
        wrong += [f"  there is no {name}" for name in re.findall(r"`([^`]*)`", makers) if not is_there(name)]
    if wrong or len(rows) < 20:
        raise Wrong("\n".join(wrong) or f"  the table has {len(rows)} rows")


def written_back(read, write, data):
    """Raises Wrong where what is read isn't written back as the same bytes, or where a byte less or more is read."""
    if write(read(data)) != data:
        raise Wrong(f"  {read.__name__} reads {data[:60]!r} .. as something else")
    for other in (data[:-1], data + b"\0"):
        try:
            read(other)
        except Malformed:
            continue
        raise Wrong(f"  {read.__name__} reads a byte less or more of {data[:60]!r} ..")


def pages(room):
    """each page of a store is read as what was written, and no page has a second spelling"""
    service = Service("hub")
    for number in range(70):
        peer = Service(f"peer-{number % 9}-{number}")
        peer.append([b"x"])
        service.receive(peer.message(0), number if number % 3 else None)
        if number % 5 == 0:
            service.append([bytes([number]) * 1000] * (number % 12), number)
    data, rand = service.file(), random.Random("pages")
    slot, body = stores.read_store(data)
    root = stores.read_service_root(body.root)
    if (slot, root.steps, root.to_bytes()) != (service.slot(), service.steps, body.root):
        raise Wrong(f"  read_store reads slot {slot}, and {root}")
    readers_of = {1: stores.read_step_page, 2: lambda page, _: stores.read_event_page(page), 3: tree_pages.read_tree_page}
    for number in range(4, body.used):
        page = data[number * PAGE : (number + 1) * PAGE]
        for _ in range(20):
            spelled_once(readers_of[page[0]], page, number)
            page = bytearray(data[number * PAGE : (number + 1) * PAGE])
            page[rand.choice((rand.randrange(60), rand.randrange(PAGE)))] ^= rand.choice((1, 2, 128, 255))
            page = bytes(page) if page[0] in readers_of else b"\x01" + bytes(page[1:])
    follower = Follower("hub", [(1, service.line.auths[1]), (9, service.line.auths[9])])
    data = follower.file()
    _, body = stores.read_store(data)
    heads = [stores.read_head_page(data[number * PAGE : (number + 1) * PAGE], number) for number in (4, 5)]
    if stores.read_follower_root(body.root).step != 9 or [(head.step, head.before) for head in heads] != [(1, 0), (9, 4)]:
        raise Wrong(f"  a follower's store is read as {heads}")
    begun = [stores.FollowerRoot("hub", 0, auth, 0).may_stand(stores.Body(1, 4, b"")) for auth in (service.line.auths[0], bytes(32))]
    if begun != [True, False]:
        raise Wrong(f"  a follower's root record at step 0 may stand: {begun}, of the name's own authenticator and of zeros")
    sides = [tree_pages.Child(page, bytes(32)) for page in (1, 8)]
    above = tree_pages.TreePage(1, tree_pages.Shape(False, None, None), [service.threads[1]], sides)
    if tree_pages.read_tree_page(above.to_bytes(), 9) != above:
        raise Wrong("  a tree page that names page 1 is read as something else")


def spelled_once(read, page, number):
    """Raises Wrong where a page is read as a value that is written as another page."""
    try:
        found = read(page, number)
    except Malformed:
        return
    if found.to_bytes() != page:
        raise Wrong(f"  page {number} is read as {str(found)[:200]}, which is written as another page")


def encoded(value):
    return value.to_bytes()


def readers(room):
    """each reader gives a value whose bytes are those that it read, and reads no byte less or more"""
    history, maps, fork = woven(20, "read back"), between_steps(), fork_evidence()
    timed(history.steps, "read back")
    line = history.line()
    proofs = [part for way in ways()[::5] for part in (*way.part_bytes(), way.to_bytes(), with_carried(way, {0}).to_bytes())]
    for data in proofs:
        written_back(read_proof, encoded, data)
    written_back(map_files.read_low, encoded, maps["low"])
    written_back(map_files.read_high, encoded, maps["high"])
    for step, since in ((1, 0), (13, 11), (20, 20), (16, 3)):
        written_back(messages.read_message, encoded, message_bytes(line, step, since))
    parts = [read_proof(fork[name]) for name in ("first", "second", "link")]
    written_back(evidence.read_evidence, encoded, evidence.accused(*parts).to_bytes())
    written_back(receipts.read_receipts, lambda found: b"".join(map(encoded, found)), reached_steps()["receipts"])
    written_back(lambda data: histories.read_history(data), lambda found: histories.history_to_bytes(*found), history.to_bytes())
    written_back(events_files.read_events, events_files.events_to_bytes, events_files.events_to_bytes([b"", b"hi", bytes(1024)]))
    lines = anchors.anchors_to_bytes({"a": (1, bytes(32)), "zz-9": (2**40 - 1, bytes([255]) * 32)})
    if anchors.anchors_to_bytes(anchors.read_anchors(lines)) != lines:
        raise Wrong("  read_anchors reads other lines")


def over_bytes(room):
    """the functions over bytes answer as the commands do, and the module for Python reads their texts"""
    chain, lost, maps, fork = audited_chain(), taken_over(), between_steps(), fork_evidence()
    parts = [read_proof(fork[name]) for name in ("first", "second", "link")]
    found = [
        timeweave_reference.verify(chain["proof"], chain["lines"]), timeweave_reference.strict(chain["proof"], chain["lines"]),
        timeweave_reference.checkmap(maps["low"], maps["high"], maps["lines"]),
        timeweave_reference.checkfork(evidence.accused(*parts).to_bytes(), fork["lines"]),
        timeweave_reference.audit(chain["proof"], chain["lines"], [chain[name] for name in ("alpha", "beta", "gamma")]),
    ]
    wrong = [answer for answer in found if answer.status]
    wrong += [timeweave_reference.verify(chain["proof"][:-1], chain["lines"])] * (timeweave_reference.verify(b"", b"x").status != 9)
    files = {"h": lost["lost"], "k": lost["lines"], "p": lost["first"], "q": lost["second"]}
    if timeweave_reference.adopt(lost["lost"], lost["lines"], [lost["first"], lost["second"]]) != commands.answer(["adopt", "h", "k", "p", "q"], files):
        wrong.append("adopt")
    if timeweave_reference.show(lost["lost"], 1, 0) != commands.answer(["show", "h", "1", "0"], files):
        wrong.append("show")
    if wrong:
        raise Wrong(f"  {wrong}")
    *judged, audited = (answer.text.decode() for answer in found)
    for call, text in zip(("verify", "strict", "checkmap", "checkfork"), judged):
        timeweave.read_answer(f"timeweave_{call}", 0, text)
    if len(timeweave.read_report(audited.replace("stands\n", "accepted precedes\n", 1)).hops) != audited.count("\nhop "):
        raise Wrong(f"  the report {audited!r} isn't read")


def long_inputs(room):
    """deep trees, long files and much behind a file are answered, and at once"""
    rand = random.Random("deep")
    rows = [histories.NodeRow(number, 1, 0) for number in range(60000)]
    deep = histories.Step(thread=histories.Thread("b", 1, bytes(32)), nodes=rows, root=60000)
    shared = histories.Step(thread=histories.Thread("b", 1, bytes(32)), nodes=[histories.NodeRow(number, 1, number) for number in range(4000)], root=4000)
    files = {
        "deep": histories.history_to_bytes("a", [deep]), "shared": histories.history_to_bytes("a", [shared]),
        "proof": proof_bytes(woven(3, "x").line(), 1, 0, 1) if woven(3, "x").line().events(1) else b"TWP1", "zeros": bytes(6_000_000), "noise": rand.randbytes(6_000_000),
        "k": b"a 1 " + b"0" * 6_000_000,
    }
    for words, wanted in (
        (["show", "deep", "1", "0"], (9, b"unsound deep step 1 rule 2\n")), (["show", "shared", "1", "0"], (9, b"unsound shared step 1 rule 2\n")),
        (["verify", "zeros", "k"], (9, b"unreadable k line 1\n")), (["replay", "zeros"], (9, b"unreadable zeros line 1\n")),
        (["checkmap", "noise", "zeros", "k"], (9, b"unreadable noise byte 0\n")),
    ):
        found = commands.answer(words, files)
        if found != wanted:
            raise Wrong(f"  {words}: wanted {wanted}, got {found[0]} {found[1][:60]!r}")
        room.expect(" ".join(words), *wanted) if put(room, words, files) else None


def put(room, words, files):
    """Puts the files that words name."""
    for word in words:
        if word in files:
            room.put(word, files[word])
    return room.program is not None


def as_a_program(room):
    """the reference's command tells missing files, words that are no form, and its help, and runs nothing of the folder that it is run in"""
    command = [sys.executable, "-I", TOP / "reference/timeweave_reference"]
    (room.folder / "timeweave_reference").mkdir()
    for name in ("hashlib.py", "argparse.py", "answers.py", "timeweave_reference/__init__.py", "timeweave_reference/__main__.py"):
        room.put(name, b"raise SystemExit('somebody else was run')\n")
    for words, wanted in ((["judge", "p", "k"], (3, b"fault input\n")), (["frob"], (2, b"usage 1\n")), (["init", "d", "a"], (5, b"fault disk\n"))):
        done = subprocess.run([*command, *words], cwd=room.folder, capture_output=True, timeout=LONGEST)
        if (done.returncode, done.stdout, done.stderr) != (*wanted, MARK):
            raise Wrong(f"  timeweave_reference {' '.join(words)}\n  wanted {wanted}\n  got    {done}")
    done = subprocess.run([*command, "--help"], cwd=room.folder, capture_output=True, timeout=LONGEST)
    if done.returncode or b"judge PROOF ANCHORS" not in done.stdout:
        raise Wrong(f"  timeweave_reference --help\n  got    {done}")
    for words in (["judge"], ["judge", "p", "k", "frob"]):
        done = subprocess.run([*command, *words], cwd=room.folder, capture_output=True, timeout=LONGEST)
        if (done.returncode, done.stdout) != (2, b"") or not done.stderr.startswith(b"usage: "):
            raise Wrong(f"  timeweave_reference {' '.join(words)}\n  wanted 2 and its usage\n  got    {done}")


def cases():
    return [case(work, "reference") for work in (types, imports, sections, readers, pages, over_bytes, long_inputs, as_a_program)]
