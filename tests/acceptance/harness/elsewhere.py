"""What a service can break of which the list of rules of two files tells nothing: each with how it is found, or why it isn't, and where two accepted files can show it,
with two that do."""

from typing import Callable, NamedTuple

from keepers import Keeper, KeptStep, tree_of

from timeweave_reference.anchors import anchors_to_bytes
from timeweave_reference.archives import Entry
from timeweave_reference.hashed_texts import digest

X, Y = digest(b"one"), digest(b"other")


class Row(NamedTuple):
    """What is broken; how it is found; and two files that no sound history has, with what is told of them, where there are such."""

    what: str
    found: str
    files: "Callable | None" = None
    told: str = "11 NoConflict"


def pair(one, first, other, second):
    """Two files, each under the line of its top."""
    return first.to_bytes(), anchors_to_bytes(one.line(first.top)), second.to_bytes(), anchors_to_bytes(other.line(second.top))


def one_label():
    """Step 1 has the archive's label of step 2, which received something."""
    tree = tree_of([Entry("mill", 3, X, 2)])
    shop = Keeper("shop").add(KeptStep(tree=tree)).add(KeptStep(tree=tree))
    return pair(shop, shop.thread(2, 2, Entry("mill", 3, X, 2)), shop, shop.absence(1, 2, ("bank", 1)))


def no_entries():
    """Step 2 has the label of the archive without entries, and step 1 received something."""
    shop = Keeper("shop").add(KeptStep(tree=tree_of([Entry("mill", 3, X, 1)]))).add(KeptStep())
    return pair(shop, shop.thread(1, 2, Entry("mill", 3, X, 1)), shop, shop.absence(2, 2, ("bank", 1)))


def between():
    """Below the neighbour of an absent thread nothing is, where something was."""
    entry = Entry("mill", 3, X, 1)
    shop = Keeper("shop").add(KeptStep(tree=tree_of([entry]))).add(KeptStep(tree=tree_of([Entry("mill", 9, X, 2)])))
    return pair(shop, shop.thread(1, 2, entry), shop, shop.absence(2, 2, ("mill", 5)))


def on_the_way():
    """An archive has what a later step received, on the way to another key."""
    shop = Keeper("shop").add(KeptStep(tree=tree_of([Entry("mill", 3, X, 500)])))
    return pair(shop, shop.absence(1, 1, ("bank", 1)), shop, shop.absence(1, 1, ("bank", 1)))


def out_of_order():
    """The keys of an archive don't rise, on the way to another one."""
    entries = [Entry("mill", 5, X, 1), Entry("mill", 3, Y, 2)]
    shop = Keeper("shop").add(KeptStep(tree=tree_of(entries[:1]))).add(KeptStep(tree=tree_of(entries)))
    return pair(shop, shop.absence(2, 2, ("bank", 1)), shop, shop.absence(1, 2, ("bank", 1)))


def one_authenticator():
    """Step 3 goes on from the authenticator of step 1 as if it were that of step 2."""
    first = Keeper("shop").add(KeptStep([b"one"]))
    shop = first.copied(1).add(KeptStep())
    shop.auths[2] = first.auths[1]
    shop.add(KeptStep([b"three"]))
    return pair(shop, shop.absence(3, 3, ("bank", 1)), first, first.absence(1, 1, ("bank", 1)))


def other_label():
    """A link of step 4 leads to the second step of another history."""
    other = Keeper("shop").add(KeptStep()).add(KeptStep([b"two"]))
    shop = Keeper("shop").add(KeptStep()).add(KeptStep()).add(KeptStep()).add(KeptStep(turns={1: other}))
    first, second = shop.absence(4, 4, ("bank", 1)), shop.absence(2, 3, ("bank", 1))
    return *pair(shop, first, shop, second), shop.link(3, 4).to_bytes()


def of_events():
    """The step that received a thread has an event."""
    shop = Keeper("shop").add(KeptStep([b"paid"], tree_of([Entry("mill", 3, X, 1)])))
    return pair(shop, shop.event(1, 0, 1), shop, shop.thread(1, 1, Entry("mill", 3, X, 1)))


def of_links():
    """One step has two authenticators."""
    other = Keeper("shop").add(KeptStep()).add(KeptStep([b"two"]))
    shop = Keeper("shop").add(KeptStep()).add(KeptStep()).add(KeptStep()).add(KeptStep(turns={1: other}))
    return pair(shop, shop.link(2, 3), shop, shop.link(2, 4))


def of_step_0():
    """A link leads to another authenticator of step 0 than the service's name gives."""
    other = Keeper("shop", X)
    shop = Keeper("shop").add(KeptStep()).add(KeptStep(turns={1: other}))
    return pair(shop, shop.link(0, 2), shop, shop.absence(1, 2, ("bank", 1)))


ROWS = (
    Row("one label of the archive at two steps, of which the later one received a thread", "by a map file of the earlier step that shows the thread", one_label),
    Row("what the archive lacks, by the label of the one without entries", "by the absence of the thread in question", no_entries),
    Row("what the archive lacks beside a thread that is absent", "by the absence of the thread in question", between),
    Row("a rule, by an entry on the way of a tree proof to another key", "by a proof or a map file that shows that entry", on_the_way),
    Row("the order of the archive's keys, on the way of a tree proof", "by an audit", out_of_order),
    Row("two steps of one authenticator", "by an audit: two texts of the history have one digest then", one_authenticator),
    Row("a link's label that isn't of the step that it leads to", "by a file of that step whose path takes the link", other_label),
    Row("another authenticator of step 0, by a link", "by whoever computes it, from the name alone", of_step_0, "10 Part 1 1"),
    Row("a rule, by the proof of an event", "by any key's absence at that step, whose opening says the same", of_events, "10 Part 1 1"),
    Row("a rule, by links", "by any key's absence at those steps, whose openings say the same", of_links, "10 Part 1 1"),
    Row("a rule, by a proof that an event precedes another", "by any key's absence at its steps, whose openings say the same"),
    Row("how many entries the archive has", "by an audit: no file tells it; a thread that is asked for is shown or denied"),
    Row("the numbers of the archive's nodes", "by an audit: they stand in a history's file alone"),
    Row("how many bytes the events of a step have together", "by an audit: a proof has one event, and the others as digests"),
)
"""All that was thought of."""
