"""Cases of proofs and histories that are counted off: good ones, and each way to change one of them."""

import random

from harness.deep import deep_proof
from harness.judged import answered, grouped, is_accepted, make_case, make_proof_case, renamed
from harness.making import accepted_text, opening_bytes, proof_bytes
from harness.samples import counted_timeline, event_text, reshaping, timed, woven
from timeweave_reference.archives import listed
from timeweave_reference.fields import big_endian as be
from timeweave_reference.histories import Step, history_to_bytes, timeline_of
from timeweave_reference.proofs import KINDS
from timeweave_reference.timelines import Timeline


def accepted(name, line, step, index, top):
    """The case of an honest proof: it has to be accepted."""
    data = proof_bytes(line, step, index, top)
    text = accepted_text(line.name, step, index, line.events(step)[index], line.times[step - 1])
    return answered(make_proof_case(name, data, line.name, top, line.auths[top]), 0, text)


def paths():
    """Each step of a timeline under each later one, and one event of it."""
    counts = [1 + (step * 5) % 7 for step in range(1, 34)]
    line = counted_timeline("paths", counts)
    for top in range(1, 34):
        for step in range(1, top + 1):
            yield accepted(f"from {top} to {step}", line, step, top % counts[step - 1], top)


def event_trees():
    """Each event of small steps, and some of large ones."""
    for count in (*range(1, 18), 64, 1000, 1024):
        line = counted_timeline("trees", [count])
        for index in range(count) if count < 18 else (0, 1, count // 2, count - 2, count - 1):
            yield accepted(f"event {index} of {count}", line, 1, index, 1)


def sizes():
    """Events of the least and the greatest size, and names of the least and the greatest."""
    for name in ("a", "0", "-", "sixteen-letters0", "zz-top"):
        line = Timeline(name, [[b""], [b"\x00", bytes(1024), b"\xff" * 1023]])
        for index in range(3):
            yield accepted(f"{name}, event {index}", line, 2, index, 2)


def deep():
    """The longest paths: tops and steps of 40 bits."""
    events = [event_text(1, k) for k in range(1024)]
    for step, top in ((1, 2**21 - 1), (1, 2**40 - 1), (2**39, 2**40 - 1), (2**39 + 1, 2**40 - 1), (2**39 - 1, 2**39)):
        data, auth = deep_proof("deep", step, 777, top, events, b"deep")
        yield is_accepted(make_proof_case(f"from {top} to {step}", data, "deep", top, auth))


def changed(data, service, pos, auth, seed):
    """Each byte changed, in two ways; each cut; and some padding."""
    rand = random.Random(seed)
    for place in range(len(data)):
        for value in {data[place] ^ 1, rand.randrange(256)} - {data[place]}:
            new = data[:place] + bytes([value]) + data[place + 1 :]
            yield make_proof_case(f"byte {place} is {value}", new, service, pos, auth)
    for size in range(len(data)):
        yield make_proof_case(f"cut to {size}", data[:size], service, pos, auth)
    for pad in (b"\x00", b"\xff", data):
        yield make_proof_case(f"{len(pad)} bytes more", data + pad, service, pos, auth)


def all_changed():
    line = counted_timeline("changed", [3] * 13)
    data = proof_bytes(line, 5, 1, 13)
    for case in changed(data, "changed", 13, line.auths[13], "13 to 5"):
        yield renamed(case, f"13 to 5, {case['name']}")
    for index in range(3):
        other = proof_bytes(line, 5, index, 13)
        yield make_proof_case("another step's authenticator", other, "changed", 13, line.auths[12])
        yield make_proof_case("another step", other, "changed", 12, line.auths[12])
        yield make_proof_case("another service", other, "change", 13, line.auths[13])
        swapped = data[: -64 - 11] + other[-64 - 11 : -64] + data[-64:]
        yield make_proof_case(f"event {index} with the path of event 1", swapped, "changed", 13, line.auths[13])


def other_kinds():
    """The least proof with another kind, and a kind with nothing behind it."""
    line = Timeline("a", [[b""]])
    data = proof_bytes(line, 1, 0, 1)
    for kind in (0, *KINDS, 6, 9, 255):
        yield make_proof_case(f"kind {kind}", data[:4] + bytes([kind]) + data[5:], "a", 1, line.auths[1])
        yield make_proof_case(f"kind {kind}, and nothing else", data[:4] + bytes([kind]), "a", 1, line.auths[1])


def above_the_top():
    """A step above its top: the proof is well-formed, and refused for the order before all else."""
    line = counted_timeline("order", [2] * 8)
    for step, top in ((2, 1), (8, 3), (5, 4)):
        data = proof_bytes(line, step, 1, top)
        for service, pos in (("order", top), ("other", 1)):
            yield make_proof_case(f"step {step} under {top}, {service}", data, service, pos, line.auths[top])


def show_case(name, data, step, index):
    """The case of showing an event of these bytes, as the reference does."""
    return make_case(name, ["show", "h", str(step), str(index)], {"h": data})


def histories():
    """Each event of histories of events alone and of woven ones, and what isn't there."""
    counts = [1, 3, 0, 2, 7, 1, 1, 5, 2, 1, 4, 1, 1]
    plain = [Step([event_text(step, k) for k in range(count)]) for step, count in enumerate(counts, 1)]
    for name, steps in (("plain", plain), ("woven", woven(12, "one").steps), ("woven", woven(33, "two").steps)):
        data = history_to_bytes(name, steps)
        for step in range(len(steps) + 2):
            events = steps[step - 1].events if 1 <= step <= len(steps) else []
            for index in range(len(events) + 1):
                yield show_case(f"{len(steps)} steps, {name}, event {index} of step {step}", data, step, index)


def archives_of_any_shape():
    """Events of histories whose archive takes a shape by chance with each thread, also where the last step adds nodes of no root."""
    for seed in range(4):
        history = woven(20, f"shape {seed}", reshaping(random.Random(seed)))
        spare = sorted({entry.archived for tree in history.trees for entry in listed(tree)})
        history.steps[-1].nodes += [(0, entry, 0) for entry in spare[: 5 * (seed % 2)]]
        for step, recorded in enumerate(history.steps, 1):
            for index in range(len(recorded.events) + 1):
                yield show_case(f"{seed}, event {index} of step {step}", history.to_bytes(), step, index)


def shown_trees():
    """Each event of steps of 1 to 64 events, of which event i has i bytes, each of them i; and one of 1,024 events."""
    table = [bytes([i]) * i for i in range(64)]
    for count in range(1, 65):
        data = history_to_bytes("table", [Step(table[:count])])
        for index in range(count):
            yield show_case(f"event {index} of {count}", data, 1, index)
    many = history_to_bytes("many", [Step([bytes([i // 256, i % 256]) for i in range(1024)])])
    yield show_case("event 777 of 1024", many, 1, 777)


def shown_and_accepted():
    """What is shown of a woven history, where each of its events is accepted under the authenticator of the last step."""
    history = woven(33, "two")
    data, auth = history.to_bytes(), history.line().auths[-1]
    for step, recorded in enumerate(history.steps, 1):
        for index in range(len(recorded.events)):
            proof = show_case("", data, step, index)["bytes"]
            yield is_accepted(make_proof_case(f"event {index} of step {step}", proof, "woven", 33, auth))


def changed_histories():
    """Each byte of a small history file changed, and each cut of it; each cut of files of one step."""
    event, thread = Step([b""]), Step(thread=("b", 258, bytes(32)), nodes=[(0, 1, 0)], root=1)
    for name, step in (("an event", event), ("a thread", thread)):
        data = history_to_bytes("a", [step])
        for size in range(len(data)):
            yield show_case(f"{name}, cut to {size}", data[:size], 1, 0)
    history = woven(7, "small")
    data = history.to_bytes()
    last = max(number for number, step in enumerate(history.steps, 1) if step.events)
    rand = random.Random("histories")
    for place in range(len(data)):
        for value in {data[place] ^ 1, rand.randrange(256)} - {data[place]}:
            new = data[:place] + bytes([value]) + data[place + 1 :]
            yield show_case(f"byte {place} is {value}", new, last, 0)
    for size in range(len(data)):
        yield show_case(f"cut to {size}", data[:size], last, 0)
    yield show_case("one byte more", data + b"\x00", last, 0)


def broken_by_hand():
    """Histories of a service `a` that break a rule, each by what its name says, with the rule."""
    b5, b4, own, c1 = (("b", 5, bytes(32)), ("b", 4, bytes(32)), ("a", 1, bytes(32)), ("c", 1, bytes(32)))

    def thread(received, nodes, root):
        return Step(thread=received, nodes=nodes, root=root)

    yield 1, "a node beside itself", [thread(b5, [(1, 1, 0)], 1)]
    yield 1, "a node of a later step", [thread(b5, [(0, 2, 0)], 1), thread(c1, [(1, 2, 0)], 2)]
    yield 1, "a node of a step of events", [Step([b"x"]), thread(b5, [(0, 1, 0)], 1)]
    yield 1, "a node of step 0", [thread(b5, [(0, 0, 0)], 1)]
    yield 1, "a root above the nodes", [thread(b5, [(0, 1, 0)], 2)]
    yield 2, "keys by step before name", [thread(b5, [(0, 1, 0)], 1), thread(c1, [(0, 2, 1)], 2)]
    yield 2, "a thread again, in the tree twice", [thread(b5, [(0, 1, 0)], 1), thread(b5, [(0, 2, 1)], 2)]
    yield 2, "an entry twice", [thread(b5, [(0, 1, 0), (1, 1, 0)], 2)]
    yield 3, "a thread again, in the tree once", [thread(b5, [(0, 1, 0)], 1), thread(b5, [], 1)]
    yield 3, "a root that lost an entry", [thread(b5, [(0, 1, 0)], 1), Step([b""])]
    yield 3, "a thread left out", [thread(b5, [(0, 1, 0)], 1), thread(c1, [], 1)]
    yield 4, "an own thread", [thread(own, [(0, 1, 0)], 1)]
    yield 5, "a thread below an earlier one", [thread(b5, [(0, 1, 0)], 1), thread(b4, [(0, 2, 1)], 2)]
    yield 6, "too many bytes of events", [Step([bytes(1024)] * 64 + [b"x"])]
    yield 6, "65 events of 1,024 bytes", [Step([bytes(1024)] * 65)]
    yield 1, "a root above the nodes, and too many bytes of events", [Step([bytes(1024)] * 65, root=1)]
    yield 3, "an entry lost, and too many bytes of events", [thread(b5, [(0, 1, 0)], 1), Step([bytes(1024)] * 65)]


def times():
    """Proofs of steps with times and without, and the histories that show them; the greatest time, and the least."""
    line = Timeline("t", [[b""], [b"hi"], [b"x"], [b"y"]], None, [0, None, 5, 2**40 - 1])
    for top in range(1, 5):
        for step in range(1, top + 1):
            yield accepted(f"step {step} under {top}", line, step, 0, top)
    for count, seed in ((5, "few"), (33, "many")):
        steps = timed(woven(count, seed).steps, seed)
        data = history_to_bytes("woven", steps)
        last = timeline_of("woven", steps)
        for step, recorded in enumerate(steps, 1):
            for index in range(len(recorded.events) + 1):
                yield show_case(f"event {index} of step {step} of {count}", data, step, index)
            for index in range(len(recorded.events)):
                yield accepted(f"step {step} of {count}, event {index}", last, step, index, count)


def changed_times():
    """A proof and a history with a time: each byte changed, each cut; and a time put on, changed and taken away."""
    line = Timeline("t", [[b""], [b"hi"]], None, [5, None])
    data = proof_bytes(line, 1, 0, 1)
    assert len(data) == 153
    yield from changed(data, "t", 1, line.auths[1], "a time")
    for name, times_of in (("no time", None), ("another time", [4]), ("time 0", [0])):
        other = Timeline("t", [[b""]], None, times_of)
        opening = opening_bytes(other, 1)
        yield make_proof_case(name, data[:37] + opening + data[145:], "t", 1, line.auths[1])
    plain = Timeline("t", [[b""]])
    for time in (0, 5):
        own = Timeline("t", [[b""]], None, [time])
        opening = opening_bytes(own, 1)
        least = proof_bytes(plain, 1, 0, 1)
        yield make_proof_case(f"time {time} put on", least[:37] + opening + least[137:], "t", 1, plain.auths[1])
    event = Step([b""], time=5)
    thread = Step(thread=("b", 258, bytes(32)), nodes=[(0, 1, 0)], root=1, time=2**40 - 1)
    for name, steps in (("an event", [event]), ("a thread", [thread]), ("both", [event, thread])):
        data = history_to_bytes("a", steps)
        for size in range(len(data)):
            yield show_case(f"{name}, cut to {size}", data[:size], 1, 0)
        for place in range(28, len(data)):
            for value in {0, data[place] ^ 1, data[place] ^ 2, 128} - {data[place]}:
                new = data[:place] + bytes([value]) + data[place + 1 :]
                yield show_case(f"{name}, byte {place} is {value}", new, 1, 0)


def count_words():
    """Count words and times of an opening: those that stand, and the first bad byte of those that don't."""
    line = Timeline("t", [[b""]])
    data = proof_bytes(line, 1, 0, 1)
    front, back = data[:101], data[105:]
    words = [
        "00000000", "00000001", "00000400", "00000401", "00000500", "00010001", "01000001", "7f000001", "7fffffff", "80000000",
        "80000001", "80000400", "80000401", "80000500", "80010001", "81000001", "c0000001", "ff000001", "ffffffff",
    ]
    times_after = ["", "0000000000000005", "000000ffffffffff", "0000010000000000", "0100000000000000", "00000000000000"]
    for word in words:
        for time in times_after if word.startswith("8") else [""]:
            new = front + bytes.fromhex(word + time) + back
            yield make_proof_case(f"word {word}, time {time or 'none'}", new, "t", 1, line.auths[1])
            yield make_proof_case(f"word {word}, time {time or 'none'}, cut", new[: 105 + len(time) // 2], "t", 1, line.auths[1])


def falling_times():
    """Histories whose times fall, and the step that breaks the rule: also where steps without a time stand between."""
    for number, times_of in enumerate(([5, 4], [5, None, 4], [5, None, 5, 4], [5, 5, 6, 2**40 - 1, 6], [1, 0], [None, 3, None, None, 2])):
        steps = [Step([b"x"], time=time) for time in times_of]
        data = history_to_bytes("h", steps)
        yield answered(show_case(f"{number}", data, 1, 0), 9, f"unsound h step {len(steps)} rule 7\n")
    for number, times_of in enumerate(([5, 5], [None, None], [0, None, 0, 0], [None, 2**40 - 1, None, 2**40 - 1])):
        steps = [Step([b"x"], time=time) for time in times_of]
        yield is_accepted(show_case(f"{number}, sound", history_to_bytes("h", steps), 2, 0))
    heavy = Step([bytes(1024)] * 65, time=4)
    yield show_case("too many bytes of events, and a time below", history_to_bytes("h", [Step([b"x"], time=5), heavy]), 1, 0)


def swapped_labels():
    """A proof of an event of which two labels of its path are swapped, and such a proof under another index."""
    line = counted_timeline("labels", [5])
    data = proof_bytes(line, 1, 2, 1)
    labels = [data[-96:-64], data[-64:-32], data[-32:]]
    for one, two, three in ((1, 0, 2), (0, 2, 1), (2, 1, 0)):
        turned = data[:-96] + labels[one] + labels[two] + labels[three]
        yield make_proof_case(f"labels {one}, {two}, {three}", turned, "labels", 1, line.auths[1])
    place = len(data) - 96 - len(event_text(1, 2)) - 8
    for index in (0, 1, 3, 4, 5, 6):
        yield make_proof_case(f"index {index}", data[:place] + be(index, 4) + data[place + 4 :], "labels", 1, line.auths[1])


def unsound_histories():
    """Each rule broken by hand, and histories of which one number of a node or a root is changed."""
    for rule, name, steps in broken_by_hand():
        case = show_case(name, history_to_bytes("a", steps), 1, 0)
        # (of rule 1 the step may be an earlier one than the last)
        yield case if rule == 1 else answered(case, 9, f"unsound h step {len(steps)} rule {rule}\n")
    yield show_case("as many bytes of events as may be", history_to_bytes("a", [Step([bytes(1024)] * 64)]), 1, 63)
    rand = random.Random("unsound")
    for number in range(150):
        steps = woven(rand.randint(2, 12), f"unsound {number}", *[reshaping(rand)] * (number % 2)).steps
        limit = sum(len(step.nodes) for step in steps) + 2
        step = rand.choice(steps)
        field = rand.randrange(4) if step.nodes else 3
        if field == 3:
            step.root = rand.randrange(limit)
        else:
            node = rand.randrange(len(step.nodes))
            changed_node = list(step.nodes[node])
            changed_node[field] = rand.randrange(limit)
            step.nodes[node] = tuple(changed_node)
        yield show_case(f"random, {number}", history_to_bytes("woven", steps), rand.randint(1, len(steps)), 0)


def cases():
    yield from grouped(
        paths, event_trees, sizes, deep, all_changed, other_kinds, above_the_top, swapped_labels, histories, archives_of_any_shape, shown_trees, shown_and_accepted,
        changed_histories, unsound_histories, times, changed_times, count_words, falling_times,
    )
