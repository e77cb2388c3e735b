"""Pairs of files of keepers who break a rule of histories or none, drawn by chance. The same seed and number give the same pair.

A pair is made by a recipe: the steps of a history, each with the archive that its keeper likes; a second history that goes on from some of them, and links of the first
that lead into it; what is asked of which of the two, under which line; and bytes that are changed behind that. A recipe is plain data, so that it can be shrunk and kept.
"""

import random
from dataclasses import asdict, dataclass, replace
from functools import lru_cache
from typing import NamedTuple

from keepers import Keeper, KeptStep, tree_of

from timeweave_reference.anchors import anchors_to_bytes
from timeweave_reference.archives import Entry, listed
from timeweave_reference.evidence import Evidence
from timeweave_reference.fields import LAST_STEP, LAST_TIME
from timeweave_reference.hashed_texts import NO_EVENTS, digest, genesis
from timeweave_reference.paths import Path, PathLink, greedy_steps, top_level

SERVICE, PEERS, AUTHS = "shop", ("bank", "mill", "shop-2"), 3
KINDS = ("thread", "absence", "low", "high", "event", "link")

# So many pairs are asked for of one drawn history; and so often another file is asked for where there is none.
OF_ONE, TRIED = 50, 4


@dataclass(frozen=True)
class DrawnStep:
    """A step: the number of its events; the entries of its archive, each a peer, its step, the number of an authenticator and the step that received it, which stand by
    their keys or, where they are loose, as they are; its time; and a count of events or the root of none that it tells in place of its own."""

    events: int = 0
    entries: tuple = ()
    is_loose: bool = False
    time: "int | None" = None
    count: "int | None" = None
    has_no_root: bool = False


@dataclass(frozen=True)
class Asked:
    """What is asked for: a kind of file, of the first history or the second, of a step under the line of a top; and the peer and the step of it."""

    kind: str
    is_second: bool
    step: int
    top: int
    peer: str
    of: int


@dataclass(frozen=True)
class Recipe:
    """A pair: the steps of the first history; how many of them the second one has too, and its own behind them; the links of the first, each its step and level, that
    lead into the second; whether both go on from another service's genesis; the two files; the link between their lines, as its history, step and top, or None;
    whether the files are put into evidence; the changes, each the place of a part, what is done, and two numbers for it; and whether the one history keeps all rules and
    the other is its own."""

    steps: tuple
    common: int
    others: tuple
    turns: tuple
    is_foreign: bool
    asked: tuple
    link: "tuple | None" = None
    is_evidence: bool = False
    changes: tuple = ()
    is_sound: bool = False


# ---- keepers


def kept(step, turns=()):
    """The step as a keeper tells it."""
    entries = [Entry(peer, of, digest(bytes([auth])), archived) for peer, of, auth, archived in step.entries]
    tree = tree_of(entries if step.is_loose else sorted(entries))
    root = NO_EVENTS if step.has_no_root else None
    return KeptStep([b"event %d" % number for number in range(step.events)], tree, step.time, step.count, root, dict(turns))


@lru_cache(maxsize=64)
def keepers(steps, common, others, turns, is_foreign):
    """The keepers of both histories; links that the second can't have are the first's own."""
    first = genesis(PEERS[0]) if is_foreign else None
    second = Keeper(SERVICE, first)
    for step in steps[:common] + others:
        second.add(kept(step))
    keeper = Keeper(SERVICE, first)
    for number, step in enumerate(steps, 1):
        into = {level: second for at, level in turns if at == number and level <= top_level(number) and number - 2**level <= len(second.steps)}
        keeper.add(kept(step, into))
    return keeper, second


def file_of(both, asked):
    """The file that is asked for, or None where there is none."""
    keeper = both[asked.is_second]
    if not 1 <= asked.step <= asked.top <= len(keeper.steps) or asked.of < 1:
        return None
    if asked.kind == "thread":
        return next(filter(None, (keeper.thread(asked.step, asked.top, entry) for entry in entries_at(keeper, asked))), None)
    if asked.kind == "absence":
        return keeper.absence(asked.step, asked.top, (asked.peer, asked.of))
    if asked.kind == "low":
        return keeper.low(asked.step, asked.top, asked.peer) if asked.step > 1 else None
    if asked.kind == "high":
        return keeper.high(asked.top, asked.peer, asked.of)
    if asked.kind == "event":
        return keeper.event(asked.step, 0, asked.top) if keeper.way(asked.top, asked.step)[1].step(asked.step).events else None
    return keeper.link(asked.step, asked.top)


def entries_at(keeper, asked):
    """The entries of a peer in the archive that is asked for, from one of them on."""
    tree = keeper.way(asked.top, asked.step)[1].step(asked.step).tree
    entries = [entry for entry in listed(tree) if entry.service == asked.peer]
    return entries[asked.of % len(entries) :] if entries else []


# ---- pairs


class Pair(NamedTuple):
    """The function of the library that is asked, and the bytes that it is given."""

    function: str
    parts: list

    def to_json(self):
        """What stands of it in a file."""
        return {"function": self.function, "parts": [part.hex() for part in self.parts]}


def pair_of(recipe):
    """The pair of a recipe, or None where the keepers' trees don't give what is asked for."""
    both = keepers(recipe.steps, recipe.common, recipe.others, recipe.turns, recipe.is_foreign)
    files = [file_of(both, asked) for asked in recipe.asked]
    if None in files:
        return None
    lines = [anchors_to_bytes(both[asked.is_second].line(asked.top)) for asked in recipe.asked]
    parts = [files[0].to_bytes(), lines[0], files[1].to_bytes(), lines[1], link_of(both, recipe.link)]
    if recipe.is_evidence:
        if {asked.kind for asked in recipe.asked} != {"thread"}:
            return None
        parts = [evidence_of(*files).to_bytes(), lines[0], parts[4]]
    for change in recipe.changes:
        changed(parts, *change)
    return Pair("receiver" if recipe.is_evidence else "contradict", parts)


def link_of(both, link):
    """The bytes of a link, or none."""
    if link is None:
        return b""
    is_second, step, top = link
    keeper = both[is_second]
    return keeper.link(step, top).to_bytes() if step <= top <= len(keeper.steps) else b""


def evidence_of(first, second):
    """Evidence of two proofs of threads, whose path is made up."""
    ways = greedy_steps(second.entry.step, first.entry.step)[:-1]
    path: Path = tuple(PathLink(digest(b"datum"), (digest(b"label"),) * top_level(at)) for at in ways)
    return Evidence(first, second, digest(b"bottom"), path)


def changed(parts, place, what, at, new):
    """Changes a part, or swaps two, in their list."""
    place %= len(parts)
    data = parts[place]
    if what == "swapped":
        other = at % len(parts)
        parts[place], parts[other] = parts[other], data
    elif what == "copied":
        parts[place] = parts[at % len(parts)]
    elif what == "cut":
        parts[place] = data[: at % (len(data) + 1)]
    elif what == "behind":
        parts[place] = data + bytes([new % 256])
    elif what == "number":
        at %= max(1, len(data) - 7)
        parts[place] = data[:at] + (new % 2**64).to_bytes(8, "big") + data[at + 8 :]
    elif data:
        at %= len(data)
        parts[place] = data[:at] + bytes([data[at] ^ (1 << new % 8)]) + data[at + 1 :]


# ---- histories that keep the rules


def sound_steps(rand, count, steps=(), clock=0):
    """Steps that keep the rules, behind some that do."""
    made, is_timed = list(steps), rand.randrange(2)
    for number in range(len(made) + 1, count + 1):
        entries = made[-1].entries if made else ()
        events = rand.choice((0, 0, 1, 2))
        if rand.randrange(2):
            peer = rand.choice(PEERS)
            last = max((of for name, of, _, _ in entries if name == peer), default=0)
            entries, events = (*entries, (peer, last + rand.randrange(1, 4), rand.randrange(AUTHS), number)), 0
        clock += rand.randrange(3)
        made.append(DrawnStep(events, entries, time=clock if is_timed and rand.randrange(3) else None))
    return tuple(made)


def from_on(steps, first, change):
    """The steps, with the entries changed of those from a number on."""
    return tuple(replace(step, entries=change(step.entries)) if number >= first else step for number, step in enumerate(steps, 1))


def at(steps, number, **fields):
    """The steps, one of which has other fields."""
    return (*steps[: number - 1], replace(steps[number - 1], **fields), *steps[number:])


# ---- and those that break one


def received(rand, steps):
    """A number of a step from some on, and an entry of its archive; or a step and a thread that it is to have received."""
    number = rand.randrange(1, len(steps) + 1)
    entries = steps[number - 1].entries
    return number, rand.choice(entries) if entries else (rand.choice(PEERS), rand.randrange(1, 9), 0, number)


def left_out(rand, steps):
    """A thread is left out of the archive, for good or for a step."""
    number, entry = received(rand, steps)
    lost = tuple(other for other in steps[number - 1].entries if other != entry)
    return at(steps, number, entries=lost) if rand.randrange(2) else from_on(steps, number, lambda entries: tuple(other for other in entries if other != entry))


def own_thread(rand, steps):
    """The archive has a thread of the service itself."""
    number, (_, of, auth, archived) = received(rand, steps)
    return from_on(steps, number, lambda entries: (*entries, (SERVICE, of, auth, archived)))


def received_later(rand, steps):
    """An entry is told to be of a later step than the archive's."""
    number, entry = received(rand, steps)
    later = (*entry[:3], rand.choice((number + 1, number + 1, len(steps) + 1, 500, LAST_STEP)))
    return from_on(steps, number, lambda entries: (*(other for other in entries if other != entry), later))


def two_entries(rand, steps):
    """An entry has another authenticator or another step that received it, in its place or beside it."""
    number, entry = received(rand, steps)
    peer, of, auth, archived = entry
    other = rand.choice(((peer, of, auth + 1, archived), (peer, of, auth, rand.randrange(1, number + 1))))
    kept_too = (entry,) if rand.randrange(2) else ()
    return from_on(steps, number, lambda entries: (*(one for one in entries if one != entry), *kept_too, other))


def two_at_one_step(rand, steps):
    """A step that received a thread is told to have received another one."""
    number, (peer, of, auth, archived) = received(rand, steps)
    other = (rand.choice((peer, rand.choice(PEERS))), of + rand.randrange(1, 4), auth, archived)
    return from_on(steps, number, lambda entries: (*entries, other))


def steps_fall(rand, steps):
    """A lower step of a peer is received later."""
    number, (peer, of, auth, _) = received(rand, steps)
    return from_on(steps, number, lambda entries: (*entries, (peer, max(1, of - rand.randrange(1, 4)), auth, rand.choice((number, len(steps))))))


def events_too(rand, steps):
    """A step that received a thread has events."""
    _, (*_, archived) = received(rand, steps)
    return at(steps, min(archived, len(steps)), events=rand.randrange(1, 3))


def clock_back(rand, steps):
    """Two steps have times, the later of which may be the lower one."""
    return at(at(steps, rand.randrange(1, len(steps) + 1), time=rand.choice((1, 50, LAST_TIME))), rand.randrange(1, len(steps) + 1), time=rand.randrange(3))


def other_root(rand, steps):
    """A step tells another count of its events, or the root of none."""
    number = rand.randrange(1, len(steps) + 1)
    if rand.randrange(2):
        return at(steps, number, has_no_root=True, events=rand.randrange(3))
    return at(steps, number, count=rand.choice((0, 0, 1, 1024)), events=rand.randrange(3))


def loose(rand, steps):
    """The entries of an archive don't stand by their keys."""
    number = rand.randrange(1, len(steps) + 1)
    return at(steps, number, is_loose=True, entries=steps[number - 1].entries[::-1])


BREAKERS = (left_out, own_thread, received_later, two_entries, two_at_one_step, steps_fall, events_too, clock_back, other_root, loose)
"""What breaks a rule that one history breaks; the others are broken by two, or by another genesis."""


# ---- drawing


@lru_cache(maxsize=16)
def drawn_base(seed, number):
    """A recipe of which nothing is asked yet: a history that keeps the rules or not, beside another one."""
    rand = random.Random(f"{seed} base {number}")
    steps = sound_steps(rand, rand.choice((1, 2, 3, 4, 5, 6, 8, 9)))
    breakers = rand.sample(BREAKERS, rand.choice((0, 1, 1, 1, 1, 1, 1, 2)))
    for breaker in breakers:
        steps = breaker(rand, steps)
    common, others, turns, is_foreign = 0, (), (), not rand.randrange(10)
    is_forked = not rand.randrange(3)
    if is_forked:
        common = rand.randrange(len(steps))
        others = sound_steps(rand, rand.randrange(common + 1, len(steps) + 1), steps[:common], 5)[common:]
        links = [(number, level) for number in range(common + 1, len(steps) + 1) for level in range(top_level(number) + 1) if number - 2**level > common]
        turns = tuple(rand.sample(links, min(len(links), rand.choice((0, 1, 1, 2, 3)))))
    return Recipe(steps, common, others, turns, is_foreign, (), is_sound=not (breakers or is_foreign or is_forked))


def drawn_asked(rand, recipe, tops, entry, kinds):
    """One file that is asked for, most often of an entry or next to it; the first of some that are there."""
    both = keepers(recipe.steps, recipe.common, recipe.others, recipe.turns, recipe.is_foreign)
    for _ in range(TRIED):
        is_second = bool(recipe.others) and not rand.randrange(4)
        top = min(len(both[is_second].steps), rand.choice(tops))
        peer, of, _, archived = entry if rand.randrange(4) else drawn_entry(rand, recipe)
        step = archived if archived <= top and not rand.randrange(3) else rand.randrange(1, top + 1)
        asked = Asked(rand.choice(kinds), is_second, step, top, peer, max(1, of + rand.choice((0, 0, 0, 1, -1))))
        asked = at_turn(rand, recipe, asked) if recipe.turns and rand.randrange(2) else asked
        if file_of(both, asked):
            break
    return asked


def at_turn(rand, recipe, asked):
    """The same of the first history, of the step that a link into the second leads to, or of the one behind, under a line from there on."""
    number, level = rand.choice(recipe.turns)
    step = number - 2**level + rand.choice((0, 0, 1))
    return replace(asked, is_second=False, step=step, top=rand.randrange(step, len(recipe.steps) + 1))


def drawn_entry(rand, recipe):
    """An entry of a step, or one that nobody received."""
    entries = [entry for step in recipe.steps for entry in step.entries]
    return rand.choice(entries) if entries and rand.randrange(8) else (rand.choice(PEERS), rand.randrange(1, 9), 0, 1)


def drawn_change(rand):
    """A change of a part."""
    what = rand.choice(("flipped", "flipped", "cut", "behind", "number", "swapped", "copied"))
    return rand.choice((0, 0, 0, 1, 2, 2, 2, 3, 4, 4)), what, rand.choice((rand.randrange(8), rand.randrange(200), rand.randrange(100_000))), rand.choice((0, 1, 2, 5, LAST_STEP, LAST_STEP + 1, rand.randrange(2**64)))


def drawn_link(rand, recipe, asked):
    """The link between the lines of two files: none, the one of the later line's history, or another one."""
    low, high = sorted(asked, key=lambda one: one.top)
    own = high.is_second, low.top, high.top
    return rand.choice((None, None, own, own, own, (rand.randrange(2) == 1, rand.randrange(len(recipe.steps) + 1), high.top)))


def drawn_recipe(seed, number):
    """The recipe of this number; some ask for what isn't there."""
    base = drawn_base(seed, number // OF_ONE)
    rand = random.Random(f"{seed} {number}")
    tops = [rand.randrange(1, len(base.steps) + 1), *[len(base.steps)] * rand.randrange(1, 5)]
    is_evidence = not rand.randrange(12)
    kinds = ("thread",) if is_evidence else KINDS[:4] * 8 + KINDS
    entry = drawn_entry(rand, base)
    asked = tuple(drawn_asked(rand, base, tops, entry, kinds) for _ in range(2))
    asked = asked if rand.randrange(16) else asked[:1] * 2
    changes = tuple(drawn_change(rand) for _ in range(rand.choice((0, 0, 0, 0, 0, 1, 1, 2))))
    return replace(base, asked=asked, link=drawn_link(rand, base, asked), is_evidence=is_evidence, changes=changes)


# ---- simpler recipes


def without_step(recipe, number):
    """The recipe without a step of the first history, and of both where both have it: what is behind it stands a step lower."""

    def moved(step):
        return step - (step >= number and step > 1)

    steps = tuple(lowered(step, moved) for step in recipe.steps[: number - 1] + recipe.steps[number:])
    others = tuple(lowered(step, moved) for step in recipe.others) if number <= recipe.common else recipe.others
    asked = tuple(replace(one, step=moved(one.step), top=moved(one.top)) for one in recipe.asked)
    link = recipe.link and (recipe.link[0], *map(moved, recipe.link[1:]))
    return replace(recipe, steps=steps, others=others, common=recipe.common - (number <= recipe.common), asked=asked, link=link)


def lowered(step, moved):
    """The step, whose entries were received by the steps to which theirs were moved."""
    return replace(step, entries=tuple((*entry[:3], moved(entry[3])) for entry in step.entries))


def simpler_steps(steps):
    """Steps of which one is simpler."""
    for number, step in enumerate(steps, 1):
        plainer = [{"events": 0}, {"time": None}, {"count": None}, {"has_no_root": False}, {"is_loose": False}]
        fewer = [{"entries": step.entries[:place] + step.entries[place + 1 :]} for place in range(len(step.entries))]
        for fields in plainer + fewer:
            if replace(step, **fields) != step:
                yield at(steps, number, **fields)


def simpler_asked(asked):
    """What is asked for with smaller numbers."""
    for name in ("step", "top", "of"):
        number = getattr(asked, name)
        yield from (replace(asked, **{name: less}) for less in (1, number - 1) if 0 < less < number)
    if asked.is_second:
        yield replace(asked, is_second=False)


def simpler(recipe):
    """Recipes that are each a little simpler than this one."""
    for place in range(len(recipe.changes)):
        yield replace(recipe, changes=recipe.changes[:place] + recipe.changes[place + 1 :])
    for fields in ({"link": None}, {"is_evidence": False}, {"is_foreign": False}, {"turns": ()}, {"common": 0, "others": (), "turns": ()}):
        if replace(recipe, **fields) != recipe:
            yield replace(recipe, **fields)
    for number in range(len(recipe.steps), 0, -1):
        yield from (without_step(recipe, number), replace(recipe, steps=recipe.steps[: number - 1] + recipe.steps[number:], common=min(recipe.common, number - 1)))
    if recipe.others:
        yield replace(recipe, others=recipe.others[:-1])
    yield from (replace(recipe, steps=steps) for steps in simpler_steps(recipe.steps))
    yield from (replace(recipe, others=others) for others in simpler_steps(recipe.others))
    for place, asked in enumerate(recipe.asked):
        for less in simpler_asked(asked):
            yield replace(recipe, asked=recipe.asked[:place] + (less,) + recipe.asked[place + 1 :])


def shrunk(recipe, differs):
    """The simplest recipe that was found whose pair still differs, as a test of pairs says."""
    while True:
        less = next((less for less in simpler(recipe) if is_pair_that(less, differs)), None)
        if less is None:
            return recipe
        recipe = less


def is_pair_that(recipe, differs):
    """Whether a recipe has a pair, of which the test says so."""
    pair = pair_of(recipe)
    return pair is not None and differs(pair)


def recipe_to_json(recipe):
    """What stands of a recipe in a file."""
    return asdict(recipe)
