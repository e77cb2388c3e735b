"""Acceptance cases of proofs over archives and of links: good ones from histories with trees of any shape, each change and cut of one of
each kind, each set of faults, tree proofs that show something else, ways at the limits and in large archives, and the strict form."""

import random
from functools import cache
from itertools import combinations

from cases.generated import changed
from harness import large
from harness.judged import answered, grouped, make_case, make_proof_case, renamed, where
from harness.making import absent_bytes, absent_proof, link_bytes, link_proof, part_bytes, path_bytes, proof_bytes, thread_bytes, thread_proof
from harness.samples import counted_timeline, flipped, reshaping, shaped, timed, woven
from timeweave_reference.archives import (
    EMPTY, MOST_ABOVE_ENTRY, MOST_ABOVE_GAP, Ask, Entry, Node, Question, TreeProof, absent, listed, listed_answer, present,
    tree_proof,
)
from timeweave_reference.fields import LAST_STEP, count_and_time
from timeweave_reference.fields import big_endian as be
from timeweave_reference.hashed_texts import digest, node_text
from timeweave_reference.paths import top_level
from timeweave_reference.proofs import ABSENT, EXISTS, LINK, THREAD, absent_text, link_text, thread_text
from timeweave_reference.recording import History
from timeweave_reference.timelines import Timeline


def accepted(name, data, line, top, text):
    """The case of a good proof."""
    return answered(make_proof_case(name, data, line.name, top, line.auths[top]), 0, text)


def rejected(name, data, line, top, reason):
    """The case of a proof against which this reason stands."""
    return answered(make_proof_case(name, data, line.name, top, line.auths[top]), 1, f"rejected {reason}\n")


class Sample:
    """A history of so many steps, some with times, with the trees of its archive, which take any shape."""

    def __init__(self, count, seed):
        history = woven(count, seed, reshaping(random.Random(seed)))
        timed(history.steps, seed)
        self.last, self.line, self.trees = count, history.line(), history.trees

    def gaps(self, step):
        """Keys that the archive after the step doesn't have: beside each of its own, and of other services."""
        entries = listed(self.trees[step])
        keys = {(entry.service, entry.step + off) for entry in entries for off in (-1, 1)}
        keys |= {("a", 1), ("a", LAST_STEP), ("zz", 7), ("0", 7), ("woven", step)}
        return sorted(key for key in keys - {entry.key for entry in entries} if key[1])


@cache
def long_sample():
    """The sample that most groups take their proofs from."""
    return Sample(24, "long")


# ---- good proofs


def good(sample, step, top):
    """What can be proved of a step: each thread in its archive, absent ones in each gap, and its authenticator."""
    line, tree, name = sample.line, sample.trees[step], f"{step} under {top} of {sample.last}"
    for entry in listed(tree) if step else ():
        data = thread_proof(line, tree, step, top, entry)
        yield accepted(f"{name}, thread {entry.key}", data, line, top, thread_text("woven", step, entry))
    for key in sample.gaps(step) if step else ():
        data = absent_proof(line, tree, step, top, key)
        yield accepted(f"{name}, absent {key}", data, line, top, absent_text("woven", step, key))
    text = link_text("woven", step, top, line.auths[step])
    yield accepted(f"{name}, link", link_proof(line, step, top), line, top, text)


def good_proofs():
    """Each step of histories of several lengths under the last one; and each link under each top."""
    for sample in (Sample(1, "thread"), Sample(5, "short"), Sample(13, "middle"), long_sample()):
        for step in range(sample.last + 1):
            yield from good(sample, step, sample.last)
    line = long_sample().line
    for top in range(1, 24):
        for step in range(top + 1):
            text = link_text("woven", step, top, line.auths[step])
            yield accepted(f"link to {step} under {top}", link_proof(line, step, top), line, top, text)


def first_threads():
    """An archive with one entry: its proof has two labels of the empty tree, and no ancestor."""
    line, tree = one_entry(1)
    data = thread_proof(line, tree, 1, 1, tree.entry)
    assert data[-65:] == b"\0" + 2 * EMPTY.label
    yield accepted("one entry", data, line, 1, thread_text("a", 1, tree.entry))
    history = History("c")
    history.receive("alpha", 5, digest(b"alpha"))
    history.receive("beta", 2, digest(b"beta"))
    shown = tree_proof(history.trees[2], absent("alpha", 6))
    assert [entry.key for entry, _ in shown.ancestors] == [("beta", 2), ("alpha", 5)]
    line, key = history.line(), ("alpha", 6)
    yield accepted("alpha 6 is absent", absent_proof(line, history.trees[2], 2, 2, key), line, 2, absent_text("c", 2, key))


def one_entry(archived):
    """A timeline of three steps whose archive has one entry, which says that this step received it."""
    tree = Node(EMPTY, Entry("b", 5, digest(b"b"), archived), EMPTY)
    return Timeline("a", [[b""], [], [b"x"]], [tree.label] * 3), tree


# ---- faults of all sorts


# The step that the faulty proofs are of, and their top: a path of two links.
STEP, TOP = 12, 14


def sample_proofs():
    """A good proof of each kind of the same step, with a function that makes it under a top."""
    sample = long_sample()
    line, tree = sample.line, sample.trees[STEP]
    entry, key = listed(tree)[2], sample.gaps(STEP)[4]
    plain = counted_timeline("woven", [3] * 24)
    yield EXISTS, plain, lambda top: proof_bytes(plain, STEP, 1, top)
    yield THREAD, line, lambda top: thread_proof(line, tree, STEP, top, entry)
    yield ABSENT, line, lambda top: absent_proof(line, tree, STEP, top, key)
    yield LINK, line, lambda top: link_proof(line, STEP, top)


def archive_samples():
    """Those of threads, absent ones and links; the changes of proofs of events stand in generated.py."""
    return (sample for sample in sample_proofs() if sample[0] != EXISTS)


# What each fault is told as; a proof has the last one of these that its kind can have in its last byte.
FAULTS = {1: "Malformed", 2: "BadOrder", 3: "NotHeld", 4: "BadPath", 6: "BadEvent", 7: "BadTree"}
LAST_BYTE = {EXISTS: 6, THREAD: 7, ABSENT: 7}


def faulty(kind, line, make, faults):
    """The case of a proof with these faults: of them the lowest is told."""
    top = STEP - 1 if 2 in faults else TOP
    data = make(top)
    if LAST_BYTE.get(kind) in faults:
        data = flipped(data)
    fields = {1: f" {len(data)}", 2: "", 3: f" woven {top}"}.get(min(faults), " 0")
    auth = line.auths[max(STEP, top)]
    case = make_proof_case(
        f"kind {kind}, {', '.join(FAULTS[fault] for fault in faults)}", data + b"\0" * (1 in faults), "woven", top + (3 in faults),
        flipped(auth) if 4 in faults else auth,
    )
    return answered(case, 1, f"rejected {min(faults)} {FAULTS[min(faults)]}{fields}\n")


def sets_of_faults():
    """Each set of the faults that a kind of proof can have."""
    for kind, line, make in sample_proofs():
        possible = [fault for fault in FAULTS if fault < 5 or fault == LAST_BYTE.get(kind)]
        for count in range(1, len(possible) + 1):
            for faults in combinations(possible, count):
                yield faulty(kind, line, make, faults)


def each_change():
    """Each byte of a proof of each kind changed, each cut, and some padding."""
    for kind, line, make in archive_samples():
        for case in changed(make(TOP), line.name, TOP, line.auths[TOP], f"kind {kind}"):
            yield renamed(case, f"kind {kind}, {case['name']}")


def other_anchors():
    """Anchors of another service, another step and another authenticator."""
    for kind, line, make in archive_samples():
        data = make(TOP)
        for service, pos, of in (("other", TOP, TOP), ("woven", TOP - 1, TOP - 1), ("woven", TOP, TOP - 1), ("woven", STEP, STEP)):
            yield make_proof_case(f"kind {kind}, {service} {pos}, that of {of}", data, service, pos, line.auths[of])


def numbers_put(name, data, line, place, width, values):
    """The cases of other numbers in a field."""
    for value in values:
        new = data[:place] + be(value, width) + data[place + width :]
        yield make_proof_case(f"{name} {value}", new, line.name, TOP, line.auths[TOP])


def numbers_in_fields():
    """Each field of a number with those at the ends of its range and beyond."""
    steps = (0, 1, STEP, 2**32, LAST_STEP, LAST_STEP + 1, 2**63, 2**64 - 1)
    for kind, line, make in archive_samples():
        data = make(TOP)
        fields = [("step", 21, 8, steps), ("top", 29, 8, steps)]
        if kind != LINK:
            front = len(part_bytes(kind, line, STEP, TOP))
            word = front - 32 * (1 + top_level(STEP)) - len(count_and_time(0, line.times[STEP - 1]))
            counts = (0, 1, 255, 1024, 1025, 65536, 2**24, 2**30, 2**31, 2**31 + 1024, 2**31 + 1025, 2**32 - 1)
            fields += [("count of events", word, 4, counts), ("step of the thread", front + 16, 8, steps)]
            fields += [("ancestors", front + (64 if kind == THREAD else 24), 1, (0, 1, 2, 3, 4, 5, 126, 127, 128, 129, 255))]
        if kind == THREAD:
            fields.append(("archived step", front + 56, 8, steps))
        for field, place, width, values in fields:
            yield from numbers_put(f"kind {kind}, {field}", data, line, place, width, values)


def archived_steps():
    """An archived step below, at and above the proof's own."""
    for archived in (1, 2, 3):
        line, tree = one_entry(archived)
        data, name = thread_proof(line, tree, 2, 3, tree.entry), f"archived at {archived}, step 2"
        if archived == 3:
            yield rejected(name, data, line, 3, "2 BadOrder")
        else:
            yield accepted(name, data, line, 3, thread_text("a", 2, tree.entry))


# ---- tree proofs that show something else than is claimed


def other_entries(entry):
    """Entries that differ in one field."""
    yield entry._replace(service="other")
    yield entry._replace(step=entry.step + 1)
    yield entry._replace(authenticator=flipped(entry.authenticator))
    yield entry._replace(archived=entry.archived % STEP + 1)


def other_ways(shown):
    """The ways that differ from a tree proof's: without ancestors, with all in the other order, with an ancestor left out, told twice, other
    in one field, or in the place of the next."""
    ancestors = list(shown.ancestors)
    yield []
    yield ancestors[::-1]
    for place, ancestor in enumerate(ancestors):
        before, after = ancestors[:place], ancestors[place + 1 :]
        yield [*before, *after]
        yield [*before, ancestor, ancestor, *after]
        yield [*before, ancestor._replace(other=flipped(ancestor.other)), *after]
        for entry in other_entries(ancestor.entry):
            yield [*before, ancestor._replace(entry=entry), *after]
        if after:
            yield [*before, after[0], ancestor, *after[1:]]


def wrong_threads():
    """Threads that aren't in the archive, or whose way isn't theirs."""
    sample = long_sample()
    line, tree = sample.line, sample.trees[STEP]
    part = part_bytes(THREAD, line, STEP, TOP)
    for entry in listed(tree):
        shown = tree_proof(tree, present(entry))
        sides = shown.sides
        wrong = [(entry, TreeProof(sides, tuple(way))) for way in other_ways(shown) if way != list(shown.ancestors)]
        wrong += [(other, shown) for other in other_entries(entry)]
        others = {sides[::-1], (flipped(sides[0]), sides[1]), (sides[0], flipped(sides[1])), (EMPTY.label,) * 2} - {sides}
        wrong += [(entry, TreeProof(other, shown.ancestors)) for other in sorted(others)]
        for number, (claimed, way) in enumerate(wrong):
            yield rejected(f"{entry.key}, {number}", thread_bytes(part, claimed, way), line, TOP, "7 BadTree 0")


def absences_that_are_none():
    """Keys that the archive has, with the ways to the empty places right below and right above them."""
    sample = long_sample()
    line, tree = sample.line, sample.trees[STEP]
    part = part_bytes(ABSENT, line, STEP, TOP)
    for key in (entry.key for entry in listed(tree)):
        for question in (Question.BELOW, Question.ABOVE):
            shown = tree_proof(tree, Ask(question, key))
            yield rejected(f"{key}, {question.value}", absent_bytes(part, key, shown), line, TOP, "7 BadTree 0")


def wrong_absences():
    """Absent keys with ways that aren't theirs, or that lead to another empty place."""
    sample = long_sample()
    line, tree = sample.line, sample.trees[STEP]
    part, gaps = part_bytes(ABSENT, line, STEP, TOP), sample.gaps(STEP)
    for key in gaps:
        shown = tree_proof(tree, absent(*key))
        for number, way in enumerate(way for way in other_ways(shown) if way != list(shown.ancestors)):
            yield rejected(f"{key}, {number}", absent_bytes(part, key, TreeProof(None, way)), line, TOP, "7 BadTree 0")
        for other in gaps:
            yield make_proof_case(f"{other} by the way to {key}", absent_bytes(part, other, shown), "woven", TOP, line.auths[TOP])


def other_archives():
    """Proofs over the archive of another step."""
    sample = long_sample()
    line = sample.line
    for step in range(1, TOP + 1):
        for archive in (step - 1, step + 1):
            tree = sample.trees[archive]
            for entry in listed(tree)[:1]:
                data = thread_proof(line, tree, step, TOP, entry)
                yield make_proof_case(f"a thread of {archive} at {step}", data, "woven", TOP, line.auths[TOP])
            data = absent_proof(line, tree, step, TOP, ("zz", 1))
            yield make_proof_case(f"absent in {archive} at {step}", data, "woven", TOP, line.auths[TOP])


def other_links():
    """Links that give another step's authenticator, or another step's path."""
    line, top = long_sample().line, 21
    for step in (0, 1, 12, top - 1, top):
        path = path_bytes(line, top, step)
        for other in sorted({0, 1, step + 1, top, 24} - {step}):
            data = link_bytes("woven", step, top, line.auths[other], path)
            yield rejected(f"that of {other} at {step}", data, line, top, "4 BadPath 0")
            data = link_bytes("woven", step, top, line.auths[step], path_bytes(line, top, other))
            yield make_proof_case(f"the path to {other} for {step}", data, "woven", top, line.auths[top])


# ---- limits


def rising(count):
    """A history of so many threads whose archive is a chain: each entry stands above all before it."""
    history = History("chain")
    for step in range(1, count + 1):
        history.receive("b", 2 * step, digest(be(step, 2)), lambda tree, entry: Node(tree, entry, EMPTY))
    return history


def longest_ways():
    """Ways of the greatest length, and of one node more."""
    for count in (MOST_ABOVE_ENTRY, MOST_ABOVE_ENTRY + 1, MOST_ABOVE_ENTRY + 2, MOST_ABOVE_ENTRY + 3):
        history = rising(count)
        line, tree, key = history.line(), history.trees[-1], ("b", 1)
        entry = listed(tree)[0]
        data = thread_proof(line, tree, count, count, entry)
        if count - 1 <= MOST_ABOVE_ENTRY:
            yield accepted(f"{count - 1} ancestors of an entry", data, line, count, thread_text("chain", count, entry))
        else:
            place = len(part_bytes(THREAD, line, count, count)) + 64
            yield rejected(f"{count - 1} ancestors of an entry", data, line, count, f"1 Malformed {place}")
        data = absent_proof(line, tree, count, count, key)
        if count <= MOST_ABOVE_GAP:
            yield accepted(f"{count} ancestors of a gap", data, line, count, absent_text("chain", count, key))
        else:
            place = len(part_bytes(ABSENT, line, count, count)) + 24
            yield rejected(f"{count} ancestors of a gap", data, line, count, f"1 Malformed {place}")


def large_archives():
    """An archive of a million entries: the first, one in the middle and the last, with ways of 20 to 40 nodes."""
    for kind in (THREAD, ABSENT):
        for place in (0, large.ENTRIES // 3, large.ENTRIES - 1):
            for percent in (large.SHORT, large.LONG):
                proof = large.LargeProof(kind, place, percent)
                assert 20 <= proof.ancestors <= 40
                name = f"kind {kind}, entry {place}, {proof.ancestors} ancestors"
                yield answered(make_proof_case(name, proof.data, large.SERVICE, large.TOP, proof.auth), 0, proof.accepted)
                yield make_proof_case(f"{name}, last byte", flipped(proof.data), large.SERVICE, large.TOP, proof.auth)


# ---- anchors files and the strict form


def from_file(case, form):
    """The same case with its anchor in a file, behind one of another service."""
    _, _, service, pos, auth = case["words"]
    anchors = f"zz 1 {'0' * 64}\n{service} {pos} {auth}\n".encode()
    of_file = make_case(f"{form}: {case['name']}", [form, "p", "k"], {**case["files"], "k": anchors})
    return where(of_file, lambda status, output: (status, output) == (case["status"], case["bytes"]))


def good_and_faulty():
    """Of each kind that is built a good proof, and one of each fault."""
    for kind, line, make in sample_proofs():
        yield make_proof_case(f"kind {kind}", make(TOP), line.name, TOP, line.auths[TOP])
    yield from (case for case in sets_of_faults() if "," not in case["name"].partition(", ")[2])


def anchors_files():
    """`verify` with a file of anchors."""
    return (from_file(case, "verify") for case in good_and_faulty())


def strict_form():
    """`strict` says of these kinds what `verify` says, and of files what it says."""
    yield from (from_file(case, "strict") for case in good_and_faulty())
    proof = proof_bytes(Timeline("a", [[b""]]), 1, 0, 1)
    for name, files, status, text in (
        ("a bad anchor", {"p": proof, "k": b"a 1\n"}, 9, "unreadable k line 1\n"),
        ("no anchors", {"p": proof, "k": b""}, 1, "rejected 3 NotHeld a 1\n"),
        ("no file of anchors", {"p": proof}, 3, "fault input\n"),
        ("no proof, and a bad anchor", {"k": b"a 1\n"}, 3, "fault input\n"),
    ):
        yield {"name": name, "files": files, "words": ["strict", "p", "k"], "status": status, "stdout": text}


# ---- the reference itself


# ---- the reference itself


def sum_of_bytes(text):
    """A digest that clashes easily: the sum of the bytes, and 31 zeros."""
    return bytes([sum(text) % 256]) + bytes(31)


def answers(program):
    """Whether the reference's own tree proofs show what the sorted list says: all questions, trees of 0 to 40 entries in shapes drawn by
    chance; and a label that was computed by hand."""
    rand = random.Random("answers")
    for count in range(41):
        keys = sorted(rand.sample([(service, step) for service in ("a", "ab", "b") for step in range(1, 30)], count))
        entries = [Entry(*key, digest(be(place, 2)), place + 1) for place, key in enumerate(keys)]
        tree = shaped(entries, rand)
        searches = (Question.ABSENT, Question.BELOW, Question.ABOVE)
        asks = [Ask(question, (service, step)) for question in searches for service in ("a", "ab", "b", "c") for step in range(31)]
        for ask in [*asks, *map(present, entries)]:
            shown, wanted = tree_proof(tree, ask), listed_answer(entries, ask)
            if (shown.shows(tree.label, ask) if shown else None) != wanted:
                return f"  {count} entries, {ask}: {wanted}"
    empty, entry = sum_of_bytes(b"\x14"), Entry("a", 1, b"\xbf" + bytes(31), 1)
    return None if sum_of_bytes(node_text(empty, entry.to_bytes(), empty))[0] == 0x5F else "  the label of one entry"


def cases():
    yield {"name": "archives: the reference's answers", "check": answers}
    yield from grouped(
        sets_of_faults, good_proofs, first_threads, each_change, other_anchors, numbers_in_fields, archived_steps, wrong_threads, absences_that_are_none,
        wrong_absences, other_archives, other_links, longest_ways, large_archives, anchors_files, strict_form,
    )
