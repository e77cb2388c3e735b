"""Cases of files that contradict each other, which come once the others have run: a service whose archive loses threads that it received is shown
by its proofs and map files, one that keeps the rules never is, and the library answers as the reference does."""

import subprocess
import sys
from functools import cache, partial
from itertools import product

from example_files import high_of, low_of

from harness.asked_pairs import FOUND_PAIRS, can_ask, difference, names_innocent, read_pair
from harness.drawn_pairs import drawn_recipe, pair_of
from harness.library import ARCHIVE, built_library, checked_run, row_difference
from harness.places import LONGEST, TOP
from harness.rooms import Skipped, Wrong, case, needs
from timeweave_reference import contradict
from timeweave_reference.anchors import Anchor, anchors_to_bytes
from timeweave_reference.archives import listed, with_leaf
from timeweave_reference.hashed_texts import digest
from timeweave_reference.recording import History
from timeweave_reference.services import absence_proof, link_proof, thread_proof

# The threads that are asked for: those that the service received at one time or another.
KEYS = [("bank", 1), ("bank", 4), ("bank", 6), ("mill", 3), ("mill", 8)]
PEERS = ("bank", "mill")

# So many cases of so many pairs that are drawn by chance.
CASES, CASE_PAIRS, CASE_SEED = 4, 1000, "acceptance"


def received(history, peer, step, grow=with_leaf):
    """Records a thread of the peer."""
    history.receive(peer, step, digest(f"{peer} {step}".encode()), grow)


@cache
def keeper(is_broken, word=b"the end"):
    """A service that received threads of two peers. A broken one goes on, from its step 5 on, with the archive that it had after its step 2."""
    history = History("shop")
    for step in (1, 2, 4):
        received(history, "bank", step)
    received(history, "mill", 3)
    received(history, "bank", 6, (lambda tree, entry: with_leaf(history.trees[2], entry)) if is_broken else with_leaf)
    received(history, "mill", 8)
    history.append([word])
    return history


def line(history, step):
    """The line of a step, as an anchors file."""
    return anchors_to_bytes({history.name: Anchor(step, history.line().auths[step])})


def files(history, top):
    """What the history shows of its archive under a top: its threads and what it lacks at each step, and its map files."""
    for step in range(1, top + 1):
        tree = history.trees[step]
        yield from (thread_proof(history.line(), tree, step, top, entry).to_bytes() for entry in listed(tree))
        lacking = (key for key in KEYS if not any(entry.key == key for entry in listed(tree)))
        yield from (absence_proof(history.line(), tree, step, top, key).to_bytes() for key in lacking)
    for peer in PEERS:
        yield from (low_of(history, step, peer, top) for step in range(1, top + 1))
        yield from (high_of(history, top, peer, step) for step in range(1, 10))


@cache
def list_shown(is_broken, top):
    """These files, in a list."""
    return list(files(keeper(is_broken), top))


def compared(*asked):
    """What the reference answers, where the library answers the same."""
    status, text = contradict(*asked)
    given = [*asked, b""][:5]
    wrong = row_difference(("c", status, given, text))
    if wrong:
        raise Wrong(f"  of {[data.hex() for data in given]}\n{wrong}")
    return status, text


def pairs(is_broken, tops, link=b""):
    """What is answered of each pair of files under these two tops."""
    history = keeper(is_broken)
    for first, second in product(*(list_shown(is_broken, top) for top in tops)):
        yield compared(first, line(history, tops[0]), second, line(history, tops[1]), link)


def broken(room):
    """files of a service that breaks a rule, under one line, and under two with a link and without"""
    built_library()
    history = keeper(True)
    link = link_proof(history.line(), 3, 7).to_bytes()
    rule, either = b"accepted broken-rule", b"accepted broken-rule-or-fork"
    for tops, given, head in (((7, 7), b"", rule), ((3, 7), link, rule), ((7, 3), link, rule), ((3, 7), b"", either)):
        heads = {text.partition(b"\n")[0] for status, text in pairs(True, tops, given) if status == 0}
        if heads != {head}:
            raise Wrong(f"  under the tops {tops}, {'with' if given else 'without'} a link, it is told {heads}, and {head} is wanted")


def sound(room):
    """files of a service that keeps the rules never contradict each other"""
    built_library()
    for tops in ((7, 7), (3, 7), (7, 4)):
        told = {text for _, text in pairs(False, tops)}
        if not told <= {b"rejected 11 NoConflict\n", b"rejected 10 Part 1 1\n", b"rejected 10 Part 2 1\n"}:
            raise Wrong(f"  of a service that keeps the rules it is told {told}")


def refusals(room):
    """bad lines, files and links are told, the first of them"""
    built_library()
    history, lines = keeper(True), line(keeper(True), 7)
    has = thread_proof(history.line(), history.trees[3], 3, 7, listed(history.trees[3])[-1]).to_bytes()
    lacks = absence_proof(history.line(), history.trees[7], 7, 7, ("bank", 4)).to_bytes()
    early = line(history, 5)
    other = line(keeper(True, b"another end"), 7)
    link = link_proof(history.line(), 5, 7).to_bytes()
    for asked, wanted in (
        ((has, lines + b"x", lacks, b"y"), (9, b"unreadable first_anchors line 2\n")),
        ((has, lines, b"", b"y"), (9, b"unreadable second_anchors line 1\n")),
        ((b"", lines, lacks, lines), (1, b"rejected 10 Part 1 1\n")),
        ((has, lines, link, lines), (1, b"rejected 10 Part 2 1\n")),
        ((has, early, lacks, early), (1, b"rejected 10 Part 1 3\n")),
        ((has, lines, lacks, other), (1, b"rejected 10 Part 2 4\n")),
        ((has, lines, has, lines), (1, b"rejected 11 NoConflict\n")),
        ((has, lines, has, lines, link), (1, b"rejected 11 NoConflict\n")),
        ((has, lines, lacks, lines, link), (1, b"rejected 12 BadLink\n")),
        ((has, lines, lacks, lines, lacks), (1, b"rejected 12 BadLink\n")),
        ((has, lines, lacks, lines, b"link"), (1, b"rejected 12 BadLink\n")),
        ((has, lines, lacks, lines, link_proof(history.line(), 7, 7).to_bytes()), None),
        ((has, lines, lacks, lines), None),
    ):
        found = compared(*asked)
        if wanted and found != wanted or not wanted and found[0] != 0:
            raise Wrong(f"  wanted {wanted or 'status 0'}\n  got    {found}")


def told_apart(room):
    """the example for Python says which rule was broken, and the one for C writes what the library tells"""
    built_library()
    history = keeper(True)
    has = thread_proof(history.line(), history.trees[3], 3, 7, listed(history.trees[3])[-1]).to_bytes()
    lacks = absence_proof(history.line(), history.trees[7], 7, 7, ("bank", 4)).to_bytes()
    for name, data in (("has", has), ("lacks", lacks), ("lines", line(history, 7))):
        room.put(name, data)
    words = ["has", "lines", "lacks", "lines"]
    said = subprocess.run([sys.executable, TOP / "examples/broken_rule.py", *words], cwd=room.folder, capture_output=True, text=True, timeout=LONGEST)
    if (said.returncode, said.stdout.splitlines()[-1:]) != (0, ["so it broke a rule"]):
        raise Wrong(f"  broken_rule.py says {said}")
    program = str(room.folder / "broken")
    checked_run([needs("cc", "gcc"), "-O2", "-I", TOP / "include", "-o", program, TOP / "examples/broken_rule.c", ARCHIVE])
    if checked_run([program, *words], cwd=room.folder).encode() != contradict(has, line(history, 7), lacks, line(history, 7)).text:
        raise Wrong("  broken_rule.c writes another text")


def changed(room):
    """each byte of two files and of a link changed, and each cut"""
    built_library()
    history = keeper(True)
    has = thread_proof(history.line(), history.trees[3], 3, 3, listed(history.trees[3])[-1]).to_bytes()
    lacks = absence_proof(history.line(), history.trees[7], 7, 7, ("bank", 4)).to_bytes()
    given = [has, line(history, 3), lacks, line(history, 7), link_proof(history.line(), 3, 7).to_bytes()]
    if compared(*given)[0] != 0:
        raise Wrong(f"  the files that are changed are told {compared(*given)}")
    for at in (0, 2, 4):
        for place in range(len(given[at])):
            for new in (given[at][:place] + bytes([given[at][place] ^ 1]) + given[at][place + 1 :], given[at][:place]):
                compared(*given[:at], new, *given[at + 1 :])


def whole_library():
    """The library is built, and has both functions."""
    built_library()
    if not can_ask():
        raise Skipped("the library that is built doesn't have timeweave_receiver: `make lib`")


def by_chance(first, room):
    """Pairs from this number on."""
    whole_library()
    for number in range(first, first + CASE_PAIRS):
        recipe = drawn_recipe(CASE_SEED, number)
        pair = pair_of(recipe)
        if pair and names_innocent(recipe, pair):
            raise Wrong(f"  pair {number} of seed {CASE_SEED}: of a history that keeps the rules the reference says that it broke one")
        differs = difference(pair) if pair else None
        if differs:
            raise Wrong(f"  pair {number}; `python3 tests/acceptance/fuzz_pairs.py {number + 1} {CASE_SEED}` shrinks it, and writes it into a file\n{differs}")


def as_found(path, room):
    """The pair of a file."""
    whole_library()
    differs = difference(read_pair(path))
    if differs:
        raise Wrong(differs)


def told_as(name, work):
    """The case of this name and work."""
    work.__doc__ = name
    return case(work, "library")


def cases():
    for work in (broken, sound, refusals, changed, told_apart):
        yield case(work, "library")
    for first in range(0, CASES * CASE_PAIRS, CASE_PAIRS):
        yield told_as(f"{CASE_PAIRS} pairs by chance, from {first} on", partial(by_chance, first))
    for path in sorted(FOUND_PAIRS.glob("*.json")):
        yield told_as(f"found: {path.stem}", partial(as_found, path))
