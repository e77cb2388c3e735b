"""Acceptance cases of services that break a rule of histories: for each rule that files can show there is a liar among honest services; each is found, in a
folder of all their files as among files that are named, and nobody else is. What such a liar received shows nothing of others."""

import re

from keepers import Keeper, KeptStep, tree_of

from cases.weft_exchange import pair
from harness.rooms import Wrong, case
from harness.weft_room import Loom
from timeweave_reference.archives import EMPTY, Entry, Node
from timeweave_reference.broken_rules import RULES
from timeweave_reference.evidence import Evidence
from timeweave_reference.hashed_texts import digest, event_leaf, genesis

from weft import asking, signatures
from weft.lines import Line

X, Y = digest(b"one"), digest(b"other")
SHOP, BANK = Entry("shop", 5, X, 1), Entry("bank", 3, Y, 1)
NOBODY = ("nobody", 1)
# Two lines of one step can't both be kept as good ones: that they differ is told before anything is judged.
BY_LINES = "TwoLines"
# What a map alone can show, which is judged beside the other file of its step.
BY_MAPS = "ReceivedLater"
CALLED = re.compile(r"(?:whoever keeps|Whoever keeps|two lines of) ([a-z0-9-]+)|([a-z0-9-]+) has shown two histories|in its name|([a-z0-9-]+), which received both")


def of_trees(name, *trees):
    """A service of steps without events, whose archives are these."""
    keeper = Keeper(name)
    for tree in trees:
        keeper.add(KeptStep(tree=tree))
    return keeper


def under(keeper, *files):
    """The files, each with the line that it is under."""
    return [(file.to_bytes(), keeper.name, keeper.line(file.top)[keeper.name]) for file in files]


def turned(name):
    """A history whose last step has a link to the second step of another one, and that other one."""
    other = of_trees(name, EMPTY).add(KeptStep([b"other"]))
    return of_trees(name, EMPTY, EMPTY, EMPTY).add(KeptStep(turns={1: other})), other


def by_archives(name):
    """By each rule of what was received the files of a liar who breaks it."""
    lost, own = of_trees(name, tree_of([SHOP]), EMPTY), of_trees(name, tree_of([Entry(name, 4, X, 1)]))
    again = of_trees(name, tree_of([SHOP]), tree_of([Entry("shop", 5, Y, 2)]))
    at_once = of_trees(name, Node(tree_of([BANK]), SHOP, EMPTY))
    stale = Entry("shop", 3, Y, 2)
    falling = of_trees(name, tree_of([SHOP]), Node(tree_of([stale]), SHOP, EMPTY))
    return {
        "Denied": lambda: under(lost, lost.thread(1, 2, SHOP), lost.absence(2, 2, ("shop", 5))),
        "OwnThread": lambda: under(own, own.thread(1, 1, Entry(name, 4, X, 1))),
        "TwoEntries": lambda: under(again, again.thread(1, 2, SHOP), again.thread(2, 2, Entry("shop", 5, Y, 2))),
        "TwoAtOneStep": lambda: under(at_once, at_once.thread(1, 1, SHOP), at_once.thread(1, 1, BANK)),
        "StepsFall": lambda: under(falling, falling.thread(2, 2, SHOP), falling.thread(2, 2, stale)),
    }


def by_maps(name):
    """The two map files of a step of a service of its own, whose peer's archive has what a later step received."""
    asking = Keeper(f"{name}-a").add(KeptStep()).add(KeptStep())
    later = of_trees(name, EMPTY, tree_of([Entry(asking.name, 2, asking.auths[2], 500)]))
    return under(asking, asking.low(2, 2, name)) + under(later, later.high(2, asking.name, 2))


def by_steps(name):
    """By each rule of openings the files of a liar who breaks it."""
    tree = tree_of([SHOP])
    paid = Keeper(name).add(KeptStep([b"paid"], tree)).add(KeptStep(tree=tree))
    clock = Keeper(name).add(KeptStep(time=9)).add(KeptStep()).add(KeptStep(time=5))
    foreign, rooted = Keeper(name, genesis("shop")).add(KeptStep()), Keeper(name).add(KeptStep(count=0, root=event_leaf(b"paid")))
    return {
        "EventsToo": lambda: under(paid, paid.thread(2, 2, SHOP), paid.absence(1, 2, NOBODY)),
        "ClockBack": lambda: under(clock, clock.absence(1, 3, NOBODY), clock.absence(3, 3, NOBODY)),
        "OtherGenesis": lambda: under(foreign, foreign.absence(1, 1, NOBODY)),
        "OtherEmptyRoot": lambda: under(rooted, rooted.absence(1, 1, NOBODY)),
    }


def by_authenticators(name):
    """By each rule of authenticators the files of a liar who breaks it."""
    keeper, other = turned(name)
    longer = other.copied(2).add(KeptStep())
    return {
        "TwoAuthenticators": lambda: under(keeper, keeper.absence(2, 3, NOBODY), keeper.absence(2, 4, NOBODY)),
        "OtherThanLine": lambda: under(keeper, keeper.absence(1, 2, NOBODY)) + under(longer, longer.absence(2, 3, NOBODY)),
        "TwoLines": lambda: under(keeper, keeper.absence(1, 2, NOBODY)) + under(other, other.absence(1, 2, NOBODY)),
        "OtherBefore": lambda: under(keeper, keeper.absence(3, 4, NOBODY), keeper.absence(2, 4, NOBODY)),
        "OtherBeforeLine": lambda: under(keeper, keeper.absence(3, 4, NOBODY)) + under(other, other.absence(1, 2, NOBODY)),
    }


def lying(rule, name):
    """The files of a liar who breaks this rule, each with the name and the anchor of its line."""
    return by_maps(name) if rule == BY_MAPS else {**by_archives(name), **by_steps(name), **by_authenticators(name)}[rule]()


def honest(name):
    """The files of a service that keeps the rules."""
    entries = [Entry("shop", 5, X, 1), Entry("bank", 3, Y, 2), Entry("shop", 7, Y, 3)]
    keeper = of_trees(name, *(tree_of(sorted(entries[:count], key=lambda it: it.key)) for count in (1, 2, 3))).add(KeptStep([b"paid"], tree_of(sorted(entries, key=lambda it: it.key)), 9))
    return under(keeper, *(keeper.thread(entry.archived, 4, entry) for entry in entries), keeper.absence(3, 4, ("shop", 6)), keeper.absence(4, 4, NOBODY))


def network(loom):
    """The files of all services in the folder `sent`, and all lines in `lines`; of each liar its rule by its name."""
    liars = {f"liar-{number}": rule.word for number, rule in enumerate(RULES, 1)}
    held = dict.fromkeys(line_of(loom, name, files) for name, files in services(liars))
    loom.put("lines", "".join(line for lines in held for line in lines))
    return liars


def services(liars):
    """Each service with its files."""
    yield from ((name, lying(rule, name)) for name, rule in liars.items() if rule != BY_LINES)
    yield from ((name, honest(name)) for name in ("gazette", "notary", "port"))


def line_of(loom, name, files):
    """Puts the files of a service there, and answers their lines."""
    for number, (data, _, _) in enumerate(files):
        loom.put(f"sent/{name}.{number}", data)
    return tuple(dict.fromkeys(f"{service} {anchor.step} {anchor.authenticator.hex()}\n" for _, service, anchor in files))


def called(text):
    """Whom sentences call one who broke a rule, or showed two histories."""
    return {name for found in CALLED.findall(text) for name in found if name}


def find_each(room):
    """a liar for each of the rules that two files can show is found among honest services, by the files that are named and by the table of all, and nobody else
    is called anything"""
    loom = Loom(room)
    liars = network(loom)
    names = {name for name, rule in liars.items() if rule != BY_LINES}
    sent = sorted(f"sent/{path.name}" for path in (loom.folder / "sent").iterdir())
    done = loom.expect(["judge", "--reference", "--kept", "lines", *sent], 11, "CONTRADICT EACH OTHER", "CONTRADICTS ITSELF")
    told = called(done.out) | {name for line in done.out.splitlines() if "it broke its rules, or it has" in line for name in re.findall(r"two lines of ([a-z0-9-]+):", line)}
    if told != names:
        raise Wrong(f"  not found: {sorted(names - told)}; called besides: {sorted(told - names)}\n{done.out}")
    for name, rule in liars.items():
        if rule not in (BY_LINES,) and f"{rule}, broken" not in done.out and rule != "Denied":
            raise Wrong(f"  rule {rule} of {name} isn't told\n{done.out}")
    loom.expect("judge --reference --kept lines --many sent --workers 1", 11)
    rows = [line.split("\t") for line in loom.read("sent.verdicts.tsv").decode().splitlines()[2:]]
    marked = {row[0].split(".")[0] for row in rows if row[4] == "11"}
    if marked != names - {name for name, rule in liars.items() if rule == BY_MAPS}:
        raise Wrong(f"  the table marks {sorted(marked)}\n{loom.read('sent.verdicts.tsv').decode()}")
    if any(row[3] != "shown" or row[4] != "20" for row in rows if "liar" not in row[0]):
        raise Wrong(f"  an honest service's file isn't shown\n{loom.read('sent.verdicts.tsv').decode()}")


def by_lines(room):
    """a liar who gave two lines of one step is found when they are kept, whichever files are judged"""
    loom = Loom(room)
    files = lying(BY_LINES, "liar")
    for number, lines in enumerate([line_of(loom, "liar", files)]):
        loom.put("lines", "".join(lines))
        loom.expect(["keep", "lines", "--by", f"letter {number}"], 11, "liar")
    loom.expect("judge --reference sent/liar.0 sent/liar.1", 11, "step 2 of liar", absent=(": shown",))


def alone(room):
    """a map that refutes itself is never told as shown: neither its bounds, in JSON nor as a picture; nor is a proof that does"""
    loom = Loom(room)
    for name, rule in (("map", BY_MAPS), ("own", "OwnThread"), ("root", "OtherEmptyRoot")):
        lines = line_of(loom, name, lying(rule, name))
        loom.put("lines", "".join(lines))
        files = sorted(f"sent/{path.name}" for path in (loom.folder / "sent").glob(f"{name}.*"))
        words = ["judge", "--reference", "--kept", "lines", *files]
        loom.expect([*words, "--svg", f"{name}.svg"], 11, "not shown: it contradicts itself", f"{rule}, broken", f"Whoever keeps {name} broke its rules", absent=("had received", "is the first"))
        loom.expect([*words, "--json"], 11, '"shown": false', absent=("is the first",))
        if (loom.folder / f"{name}.svg").exists():
            raise Wrong("  it was drawn")


def answers(rule, top):
    """The proofs of received lines of a liar called `bank` who breaks a rule, under the line of a late step; and that step's authenticator."""
    again, stale = Entry("shop", 5, Y, 2), Entry("shop", 3, Y, 2)
    trees, shown = {
        "TwoEntries": ([tree_of([SHOP]), tree_of([again])], [(1, SHOP), (2, again)]),
        "TwoAtOneStep": ([Node(tree_of([Entry("port", 3, Y, 1)]), SHOP, EMPTY)], [(1, SHOP), (1, Entry("port", 3, Y, 1))]),
        "StepsFall": ([tree_of([SHOP]), Node(tree_of([stale]), SHOP, EMPTY)], [(2, SHOP), (2, stale)]),
        "OwnThread": ([tree_of([Entry("bank", 4, X, 1)])], [(1, Entry("bank", 4, X, 1))]),
    }[rule]
    keeper = of_trees("bank", *trees, *[trees[-1]] * (top - len(trees)))
    return [(f"thread {step} {entry.service} {entry.step} {top}", keeper.thread(step, top, entry).to_bytes()) for step, entry in shown], keeper.auths[top]


def at_night(room):
    """a peer whose proofs, which it handed out one after another, break a rule between them is told with 11 each night, with where they are kept; one whose proofs
    break none isn't, and a line that isn't signed by its key accuses nobody"""
    net = pair(room)
    loom, box = net.loom, "box-shop/bank"
    sound = of_trees("bank", *[tree_of([SHOP])] * 20)
    for top, rule in ((20, None), (30, "TwoEntries"), (40, "TwoAtOneStep"), (50, "StepsFall"), (60, "OwnThread")):
        asked, auth = answers(rule, top) if rule else ([(f"thread {step} shop 5 20", sound.thread(step, 20, SHOP).to_bytes()) for step in (1, 9)], sound.auths[20])
        loom.put(f"{box}/in/line", signatures.sign(Line("bank", top, auth.hex()), loom.folder / "bank.key").data)
        loom.put(f"{box}/kept/asked", "".join(f"{request}\n" for request, _ in asked))
        places = [f"answers/{asking.id_of(request)}" for request, _ in asked]
        for place, (_, data) in zip(places, asked):
            loom.put(f"{box}/in/{place}", data)
        for _ in range(2):
            done = loom.run("exchange", "shop", "box-shop")
            told = "EVIDENCE" in done.out and f"{rule}, broken" in done.out and all(place in done.out for place in places)
            if (done.status == 11, told) != (rule is not None,) * 2 or "shop has" in done.out:
                raise Wrong(f"  {rule}: {done}")
        if rule == "TwoEntries":
            loom.put("other", (loom.folder / "box-shop/allowed_signers").read_bytes())
            loom.put("box-shop/allowed_signers", b"")
            loom.expect("exchange shop box-shop", 10, absent=("EVIDENCE",))
            loom.put("box-shop/allowed_signers", loom.read("other"))
        for place in places:
            (loom.folder / box / "kept" / place).unlink()
    if "EVIDENCE" in loom.run("exchange", "shop", "box-shop").out:
        raise Wrong("  what was taken out is told")


def evidence_of(one, first, other, second):
    """Evidence of two threads, each shown by its receiver's archive of the step that received it, with a path that is made up."""
    from vector import Deep

    shown = [keeper.thread(entry.archived, len(keeper.steps), entry) for keeper, entry in ((one, first), (other, second))]
    return Evidence(shown[0], shown[1], Y, Deep(first.step, second.step, EMPTY.label, ()).path)


def receivers(room):
    """evidence both of whose lines one service received is put to that service, where it broke a rule by that; of two receivers it is told who may have broken
    one; nothing is said against the service in whose name it is"""
    loom = Loom(room)
    again = Entry("shop", 5, Y, 2)
    twice = of_trees("notary", tree_of([SHOP]), tree_of([again]))
    bank = of_trees("bank", tree_of([Entry("shop", 5, Y, 1)]))
    loom.put("lines", "".join(f"{it.name} {len(it.steps)} {it.auths[-1].hex()}\n" for it in (twice, bank)))
    for name, data in (("alone", evidence_of(twice, SHOP, twice, again)), ("both", evidence_of(twice, SHOP, bank, Entry("shop", 5, Y, 1)))):
        loom.put(name, data.to_bytes())
    done = loom.run("judge", "--reference", "--kept", "lines", "alone", "both")
    for wanted in (
        "No history of shop has both", "notary, which received both, broke a rule by that, whoever made them", "Against shop nothing is shown",
        "Who broke a rule isn't shown: shop may have, or whoever gave notary and bank these lines",
    ):  # fmt: skip
        if wanted not in done.out:
            raise Wrong(f"  {wanted!r} isn't told\n{done}")
    if done.status != 20 or "shop has shown two histories" in done.out:
        raise Wrong(f"  {done}")


def cases():
    return [case(work, "weft liars") for work in (find_each, by_lines, alone, at_night, receivers)]
