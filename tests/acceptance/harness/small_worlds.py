"""All sound histories of a few steps, all that files can say of such a service, and which of it one history has: by these the list of rules that two files
show broken is held to be whole.

A history is made of an alphabet that is small: two peers, of each two steps with two authenticators, one event or none, two times or none. What a file says is
made of the file itself, by the reference; whether a history has it is asked of the history alone, by what docs/definitions.md says of its archive.
"""

import random
from collections import Counter
from dataclasses import replace
from functools import reduce
from itertools import chain, combinations_with_replacement, product
from operator import or_
from typing import NamedTuple

from timeweave_reference import histories
from timeweave_reference.anchors import Anchor
from timeweave_reference.answers import Answer
from timeweave_reference.archive_facts import Facts, facts_of
from timeweave_reference.archives import EMPTY, Ancestor, Entry, TreeProof, node_label, with_leaf
from timeweave_reference.broken_rules import RULES, broken_rule
from timeweave_reference.hashed_texts import NO_EVENTS, digest, event_leaf, genesis
from timeweave_reference.histories import Thread
from timeweave_reference.map_files import Before, HighFile, LowFile
from timeweave_reference.openings import Opening
from timeweave_reference.proofs import AbsenceProof, ThreadProof
from timeweave_reference.recording import History

# The services, each a peer of the other one, and a third one of which nothing else is told; the steps and authenticators of threads; counts of events; times.
SERVICES, STRANGER = ("shop", "mill"), "bank"
PEER_STEPS, PEER_AUTHS = (1, 2), (digest(b"one"), digest(b"other"))
COUNTS, TIMES, ROOTS = (0, 1), (None, 1, 2), (NO_EVENTS, event_leaf(b""))

# How many pairs of files are drawn that say something of each kind at once, and by which seed.
DRAWN, SEED = 5_000, "small worlds"


def peers_of(service):
    """The services of which this one receives threads."""
    return [*(other for other in SERVICES if other != service), STRANGER]


# ---- histories


class Step(NamedTuple):
    """What a step records: a count of events, or a thread as its peer, the peer's step and the authenticator; and its time or None."""

    count: int
    thread: "tuple | None"
    time: "int | None"


def may_follow(history, step):
    """Whether a history goes on with the step: the threads of a peer rise, and the clock doesn't go back. That no thread is of the service itself, that a step
    records events or one thread, and that the archive has the threads up to it, each with the step that received it, is so by what a history is here."""
    if step.thread and any(past.thread and past.thread[0] == step.thread[0] and past.thread[1] >= step.thread[1] for past in history):
        return False
    return step.time is None or all(past.time is None or past.time <= step.time for past in history)


def alphabet_of(peers):
    """The steps that histories are made of."""
    contents = [(count, None) for count in COUNTS] + [(0, thread) for thread in product(peers, PEER_STEPS, PEER_AUTHS)]
    return [Step(*content, time) for content in contents for time in TIMES]


def sound_histories(service, most):
    """All sound histories of a service of at most so many steps."""
    alphabet = alphabet_of(peers_of(service))
    made = [()]
    for history in made:
        yield history
        if len(history) < most:
            made += [(*history, step) for step in alphabet if may_follow(history, step)]


def is_sound_by_file(service, history):
    """Whether the file of a history breaks none of the rules of histories, as the reference reads it."""
    made = History(service)
    for number, step in enumerate(history, 1):
        thread = step.thread and Thread(*step.thread)
        tree = with_leaf(made.trees[-1], Entry(*thread, number)) if thread else made.trees[-1]
        made.add(histories.Step([b""] * step.count, thread, time=step.time), tree)
    return not isinstance(histories.sound_history("history", made.to_bytes()), Answer)


def misjudged(service):
    """The histories of two steps, sound or not, of which the worlds hold something else than their files tell."""
    alphabet, sound = alphabet_of([*peers_of(service), service]), set(sound_histories(service, 2))
    return [history for history in product(alphabet, repeat=2) if (history in sound) != is_sound_by_file(service, history)]


class Worlds:
    """All sound histories of a service up to a number of steps. A set of them is a number, whose bit of a history's place is set where it is of the set."""

    def __init__(self, service, most):
        self.service, self.most = service, most
        made = list(sound_histories(service, most))
        self.number = len(made)
        sets = {}
        for place, history in enumerate(made):
            for key in self.keys(history):
                sets.setdefault(key, bytearray(self.number // 8 + 1))[place // 8] |= 1 << place % 8
        self.sets = {key: int.from_bytes(bits, "little") for key, bits in sets.items()}

    @staticmethod
    def keys(history):
        """What the sets of histories are told apart by: that there is a step, its count and time, and the thread that it received."""
        for number, step in enumerate(history, 1):
            yield from ((number,), (number, "count", step.count), (number, "time", step.time))
            if step.thread:
                yield number, *step.thread

    def having(self, *key):
        """The histories that are told apart by this key."""
        return self.sets.get(key, 0)

    def present(self, step, entry):
        """The histories whose archive after the step has the entry."""
        return self.having(step) & self.having(entry.archived, *entry[:3]) if entry.archived <= step else 0

    def lacking(self, step, peer, steps):
        """The histories whose archive after the step has no thread of these steps of a peer."""
        received = (self.having(own, peer, of, auth) for own in range(1, step + 1) for of in steps for auth in PEER_AUTHS)
        return self.having(step) & ~reduce(or_, received, 0)


# ---- what files say


def auth_of(service, step, version=0):
    """An authenticator of a step; those of other versions are of other histories."""
    return digest(f"{service} {step} {version}".encode()) if step or version else genesis(service)


class Said(NamedTuple):
    """What a file says; the histories that have it of their archive, and of these the ones that have its opening too; the steps that it names with their
    authenticators: of its line, of the shown step, of the one before, and of step 0; and the rules that it breaks by itself."""

    facts: Facts
    archive: int
    worlds: int
    names: frozenset
    broken: frozenset


def one_node(entry):
    """The proof of an empty place below the only entry of a tree, or of the empty tree."""
    return TreeProof(None, (Ancestor(entry, EMPTY.label),) if entry else ())


def opening_of(service, step, tree, count=0, time=None):
    """The opening of a step after which the archive has the label that a tree proof computes."""
    label = EMPTY.label
    for entry, other in tree.ancestors:
        label = node_label(label, entry, other)
    return Opening(event_leaf(b"") if count else NO_EVENTS, label, count, time, auth_of(service, step - 1), ())


class Files:
    """What files can say of a service, under lines up to the last step of its histories."""

    def __init__(self, worlds):
        self.worlds, self.service, self.top = worlds, worlds.service, worlds.most
        self.peers = [*peers_of(self.service), self.service]
        self.steps = range(1, self.top + 1)
        self.archives = [self.read(*shown) for shown in chain(self.threads(), self.absences(), self.lows(), self.highs())]
        self.openings = [self.opened(step, *rest) for step, *rest in product(self.steps, COUNTS, TIMES, ROOTS)]
        self.lines = list(self.under_lines())

    def read(self, file, archive):
        """What a file says that shows so much of the archive."""
        facts = facts_of(file, {self.service: Anchor(self.top, auth_of(self.service, self.top))})
        return self.of(replace(facts, shown=Anchor(facts.shown.step, auth_of(self.service, facts.shown.step))), archive)

    def of(self, facts, archive):
        """The same of facts: their histories have the count and the time of the opening, whose root is that of some events where there are some."""
        step, opening = facts.shown.step, facts.opening
        is_root = (opening.count == 0) == (opening.event_root == NO_EVENTS)
        had = self.worlds.having(step, "count", opening.count) & self.worlds.having(step, "time", opening.time) & self.worlds.having(facts.line.step)
        names = frozenset((facts.line, facts.shown, facts.before, Anchor(0, genesis(facts.service))))
        return Said(facts, archive, archive & had if is_root else 0, names, frozenset(rules_broken(facts, facts)))

    # ---- archives

    def entries(self, peer, last, least=1):
        """The entries of a peer, of a step of it or of later ones, that the service's steps up to a last one may have received."""
        return [Entry(peer, *rest) for rest in product([step for step in PEER_STEPS if step >= least], PEER_AUTHS, range(1, last + 1))]

    def threads(self):
        """Proofs of kind 3, which show no entry that a later step received."""
        for peer, step in product(self.peers, self.steps):
            for entry in self.entries(peer, step):
                opening = opening_of(self.service, step, one_node(entry))
                yield ThreadProof(self.service, step, self.top, (), opening, entry, one_node(None)), self.worlds.present(step, entry)

    def absences(self):
        """Proofs of kind 4."""
        return (self.absence(*asked) for asked in product(self.steps, self.peers, PEER_STEPS))

    def absence(self, step, peer=STRANGER, of=9):
        """One of them; of a thread that no history has if nothing else is said."""
        opening = opening_of(self.service, step, one_node(None))
        return AbsenceProof(self.service, step, self.top, (), opening, peer, of, one_node(None)), self.worlds.lacking(step, peer, [of])

    def lows(self):
        """Low map files: the peer's last thread, or that there is none."""
        for peer, step in product(self.peers, self.steps):
            for entry in [None, *self.entries(peer, self.top + 1)]:
                before = Before((), opening_of(self.service, step, one_node(entry)), one_node(entry))
                later = self.worlds.lacking(step, peer, [of for of in PEER_STEPS if not entry or of > entry.step])
                yield LowFile(self.service, step + 1, peer, self.top, before), self.nearest(step, entry, later)

    def highs(self):
        """High map files: the peer's first thread of a step or of a later one, or that there is none. The histories are as long as the file's top."""
        for peer, of, step in product(self.peers, PEER_STEPS, self.steps):
            for entry in [None, *self.entries(peer, self.top + 1, of)]:
                opening = opening_of(self.service, step, one_node(entry))
                between = self.worlds.lacking(step, peer, [at for at in PEER_STEPS if at >= of and not (entry and at >= entry.step)])
                yield HighFile(self.service, step, peer, of, opening, one_node(entry)), self.nearest(step, entry, between)

    def nearest(self, step, entry, lacking):
        """The histories whose archive has an entry, if there is one, and lacks those that are nearer."""
        return lacking & self.worlds.present(step, entry) if entry else lacking

    # ---- openings and lines

    def opened(self, step, count, time, root):
        """What a file says by its opening alone."""
        said = self.read(*self.absence(step))
        return self.of(replace(said.facts, opening=replace(said.facts.opening, count=count, time=time, event_root=root)), said.archive)

    def under_lines(self):
        """What files say by their lines and by the authenticators of their openings, each of one of two histories."""
        for step, top, *versions in product(self.steps, self.steps, *[(0, 1)] * 3):
            if step < top or step == top and versions[0] == versions[1]:
                yield self.under(self.read(*self.absence(step)), top, versions)

    def under(self, said, top, versions):
        """The same under a line of this step, where the line, the shown step and the one before it are of these histories."""
        facts, (of_line, of_step, of_before) = said.facts, versions
        step = facts.shown.step
        line, shown = Anchor(top, auth_of(self.service, top, of_line)), Anchor(step, auth_of(self.service, step, of_step))
        opening = replace(facts.opening, before=auth_of(self.service, step - 1, of_before))
        return self.of(replace(facts, line=line, shown=shown, opening=opening), said.archive)

    def drawn(self, rand):
        """One that says something of each kind."""
        said, opened = rand.choice(self.archives), rand.choice(self.openings).facts.opening
        step = said.facts.shown.step
        fields = {"count": opened.count, "time": opened.time, "event_root": opened.event_root}
        said = said._replace(facts=replace(said.facts, opening=replace(said.facts.opening, **fields)))
        top, versions = rand.randrange(step, self.top + 1), [rand.randrange(8) // 7 for _ in range(3)]
        return self.under(said, top, [versions[1], *versions[1:]] if top == step else versions)


# ---- pairs of them


def is_let_through(one, other):
    """Whether both may be of accepted files: what one authenticator stands for is one opening, or two texts have one digest."""
    here, there = one.facts, other.facts
    fields = [(facts.opening.count, facts.opening.time, facts.opening.event_root, facts.opening.before) for facts in (here, there)]
    return here.shown != there.shown or fields[0] == fields[1]


def has_one(one, other):
    """Whether one sound history has what both files say, and each step that they name has one authenticator."""
    names = one.names | other.names
    return bool(one.worlds & other.worlds) and len({name.step for name in names}) == len(names)


def rules_broken(one, other):
    """The numbers of all rules that are broken by what one file says beside another."""
    return {number for number, rule in enumerate(RULES, 1) if rule.is_broken(one, other)}


class Tally:
    """The pairs that were looked at, how many of them no sound history has, those that are told wrongly, and how often a rule alone tells one."""

    def __init__(self):
        self.pairs, self.unsound, self.wrong, self.alone = 0, 0, [], Counter()

    def add(self, one, other):
        """Looks at a pair: a rule is broken, by both or by one of them twice, exactly where no sound history has it."""
        if not is_let_through(one, other):
            return
        is_sound = has_one(one, other)
        broken = one.broken | other.broken
        if not broken or one is other:
            broken = broken | rules_broken(one.facts, other.facts) | rules_broken(other.facts, one.facts)
            self.alone.update(broken if len(broken) == 1 else ())
        self.pairs += 1
        self.unsound += not is_sound
        if is_sound == bool(broken):
            self.wrong.append((one.facts, other.facts, sorted(broken)))


def tallied(files, drawn=DRAWN):
    """What the pairs of files of one service are told: all pairs of those that speak of archives and by openings, all of those under lines, and some that are drawn."""
    tally, rand = Tally(), random.Random(SEED)
    for group in (files.archives + files.openings, files.lines):
        for one, other in combinations_with_replacement(group, 2):
            tally.add(one, other)
    for _ in range(drawn):
        tally.add(files.drawn(rand), files.drawn(rand))
    return tally


def told_of_two(files, others):
    """How many pairs of files of two services are told as broken rules: a family has whatever each of its histories has."""
    return sum(broken_rule(one.facts, other.facts) is not None for one in files.archives for other in others.archives)
