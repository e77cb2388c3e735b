"""Acceptance cases of map files: between which steps of a peer a step of a service lies, over histories that archive threads of one another,
each step under several tops; each change and cut of both files, files that don't fit, and anchors that aren't held."""

from example_files import bounds, high_of, low_of

from harness.judged import answered, grouped, make_case
from harness.samples import anchors_of, exchange
from timeweave_reference.anchors import anchors_to_bytes


def judge_map(name, low, high, anchors):
    """The case of these files under anchors, as the reference judges them."""
    return make_case(name, ["checkmap", "low", "high", "k"], {"low": low, "high": high, "k": anchors_to_bytes(anchors)})


def accepted_maps():
    """Each step of each of both, under its last step and some others: accepted, with the bounds of what was received."""
    one, other = exchange()
    for own, peer in ((one, other), (other, one)):
        for step in range(1, len(own.steps) + 1):
            for top, upto in ((len(own.steps), len(peer.steps)), (step, max(1, len(peer.steps) // 2)), (len(own.steps), 1)):
                low, high = low_of(own, step, peer.name, top), high_of(peer, upto, own.name, step)
                case = judge_map(f"{own.name} {step} under {top}, up to {upto}", low, high, anchors_of((own, top), (peer, upto)))
                wanted = bounds(own, step, peer, upto)
                text = f"accepted map\nlow {wanted[0]}\nhigh {'none' if wanted[1] is None else wanted[1]}\nupto {upto}\n"
                yield answered(case, 0, text)


def each_change():
    """Each byte of both files changed, and each cut."""
    own, peer = exchange()
    low, high = low_of(own, 5, "bank", 9), high_of(peer, 10, "mill", 5)
    anchors = anchors_of((own, 9), (peer, 10))
    for place in range(len(low)):
        yield judge_map(f"byte {place} of low", low[:place] + bytes([low[place] ^ 1]) + low[place + 1 :], high, anchors)
        yield judge_map(f"low cut to {place}", low[:place], high, anchors)
    for place in range(len(high)):
        yield judge_map(f"byte {place} of high", low, high[:place] + bytes([high[place] ^ 1]) + high[place + 1 :], anchors)
        yield judge_map(f"high cut to {place}", low, high[:place], anchors)
    yield judge_map("low longer", low + b"\0", high, anchors)
    yield judge_map("high longer", low, high + b"\0", anchors)


def files_that_do_not_fit():
    """Another step, another service, another peer, and each file for the other."""
    own, peer = exchange()
    low, high = low_of(own, 5, "bank", 9), high_of(peer, 10, "mill", 5)
    anchors = anchors_of((own, 9), (peer, 10))
    for name, other in (("another step", high_of(peer, 10, "mill", 6)), ("another service", high_of(peer, 10, "zoo", 5))):
        yield judge_map(name, low, other, anchors)
    yield judge_map("another peer", low_of(own, 5, "zoo", 9), high, anchors)
    yield judge_map("another step, none held", low, high_of(peer, 10, "mill", 6), {})
    yield judge_map("the other way", low_of(peer, 5, "mill", 9), high, anchors)
    yield judge_map("changed for each other", high, low, anchors)


def other_anchors():
    """Anchors of one service alone, of another step, and of another authenticator, of step 1 too; and a step above its top."""
    own, peer = exchange()
    high = {step: high_of(peer, 10, "mill", step) for step in (1, 5, 10)}
    for step in (1, 5):
        low, anchors = low_of(own, step, "bank", 9), anchors_of((own, 9), (peer, 10))
        for name in anchors:
            at, auth = anchors[name]
            yield judge_map(f"step {step}, none of {name}", low, high[step], {key: anchors[key] for key in anchors if key != name})
            yield judge_map(f"step {step}, step before of {name}", low, high[step], {**anchors, name: (at - 1, auth)})
            yield judge_map(f"step {step}, other of {name}", low, high[step], {**anchors, name: (at, bytes(32))})
        yield judge_map(f"step {step}, none", low, high[step], {})
    case = judge_map("a step above its top", low_of(own, 10, "bank", 9), high[10], anchors_of((own, 9), (peer, 10)))
    yield answered(case, 1, "rejected 2 BadOrder\n")


def cases():
    yield from grouped(accepted_maps, each_change, files_that_do_not_fit, other_anchors)
