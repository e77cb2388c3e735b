"""Draws the pictures and tables of the documents that show data, from crates.txt, the crates' root files and the reference.

    python3 tools/pictures.py           writes them anew into docs/*.md
    python3 tools/pictures.py --check   tells those that differ, and writes nothing

Each stands between the lines `<!-- picture NAME, by tools/pictures.py -->` and `<!-- end of picture -->`.
"""

import re
import sys
import textwrap
from itertools import groupby
from pathlib import Path
from typing import List

TOP = Path(__file__).resolve().parent.parent
sys.path[:0] = [str(TOP / "tools"), str(TOP / "reference")]

import declared  # noqa: E402
from command_line import reader_of_words, run_script  # noqa: E402
from crates import height, read_crates  # noqa: E402
from example_files import ENTRY, SHOP, bounds, least_way, ledger_and_notary  # noqa: E402
from timeweave_reference.archives import EMPTY, Entry, Node, absent, tree_proof, with_leaf  # noqa: E402
from timeweave_reference.event_trees import audit_path, event_root  # noqa: E402
from timeweave_reference.followers import Follower  # noqa: E402
from timeweave_reference.hashed_texts import EMPTY_ARCHIVE  # noqa: E402
from timeweave_reference.messages import message_of  # noqa: E402
from timeweave_reference.paths import top_level  # noqa: E402
from timeweave_reference.receipts import Receipt  # noqa: E402
from timeweave_reference.services import service_of  # noqa: E402
from timeweave_reference.timelines import Timeline  # noqa: E402
from timeweave_reference.tree_pages import FIRST, MOST_KEYS, PAGE, PagedTree, slots_of  # noqa: E402


def short(digest):
    """The first four bytes of a digest."""
    return digest[:4].hex()


# ---- the crates


def in_short(words: str, most: int = 12) -> str:
    """The first sentence; what it says behind a colon is left out where it has more words."""
    first = words.partition(". ")[0].rstrip(".")
    return first.partition(": ")[0] if len(first.split()) > most else first


def crate_list() -> List[str]:
    """The crates by their height, each with what its root file says first that it is."""
    known = read_crates()
    lines: List[str] = []
    by_height = sorted(known, key=lambda name: (-height(name, known), name))
    for level, names in groupby(by_height, lambda name: height(name, known)):
        lines += [f"Height {level}:", ""]
        for name in names:
            line = f"- `{name}`: {in_short(declared.root_words(name))}"
            lines += textwrap.wrap(line, 120, subsequent_indent="  ", break_long_words=False, break_on_hyphens=False)
        lines.append("")
    return lines[:-1]


# ---- a step, the links, a tree of events


def step():
    """What the authenticator of step 12 is made of."""
    root, datum, labels = event_root(SHOP.events(12)), SHOP.datum(12), SHOP.labels(12)
    links = [f"link 12 -> {12 - 2**level:2}, level {level}: {short(label)}" for level, label in enumerate(labels)]
    return [
        f" three events ──> event root {short(root)} ─┐                   ┌─> {links[0]} ─┐",
        f" no archive ────> its label  {short(EMPTY_ARCHIVE)} ─┼─> datum {short(datum)} ─┼─> {links[1]} ─┼─> authenticator {short(SHOP.auths[12])}",
        f" their count, 3 ───────────────────────┘                   └─> {links[2]} ─┘",
        "",
        *[f" and the link to step {12 - 2**level:2} is over its authenticator, {short(SHOP.auths[12 - 2**level])}" for level in range(3)],
    ]


def links():
    """Each step with the steps that its links lead to, and its authenticator."""
    lines = ["step   links of level 0, 1, 2, ..  lead to     authenticator"]
    for number in range(14):
        levels = range(top_level(number) + 1) if number else ()
        leads = "".join(f"{number - 2**level:4}" for level in levels)
        lines.append(f"{number:4}   {leads:<40}{short(SHOP.auths[number])}")
    return lines


def tree():
    """The tree of five events, with the labels' first bytes, and the audit paths of two of them."""
    events = [f"event {k}".encode() for k in range(5)]
    leaf = [short(event_root([event])) for event in events]
    node = [short(event_root(events[a:b])) for a, b in ((0, 2), (2, 4), (0, 4), (0, 5))]
    paths = [", ".join(short(label) for label in audit_path(events, k)) for k in (2, 4)]
    return [
        f"                         {node[3]}                      the event root",
        "                        /         \\",
        f"             {node[2]}             {leaf[4]}        a node: the digest of 01, left label, right label",
        "            /        \\",
        f"     {node[0]}          {node[1]}",
        "      /    \\            /    \\",
        f"{leaf[0]} {leaf[1]}  {leaf[2]} {leaf[3]}              a leaf: the digest of 00, event",
        "",
        f"the path of event 2: {paths[0]}; of event 4: {paths[1]}",
    ]


# ---- bytes


def show_bytes(part):
    """The bytes of a field, in fours: of a long one the first eight, of a long one of equal bytes the first."""
    if len(part) <= 8:
        return part.hex(" ", -4)
    return (part[:1] if len(set(part)) == 1 else part[:8]).hex(" ", -4) + " .."


def dumped(data, fields):
    """The bytes of the fields, each (size, what it is): place, bytes, size and meaning; and how many bytes they have."""
    lines, at = [], 0
    for size, meaning in fields:
        lines.append(f"{at:4}  {show_bytes(data[at : at + size]):<20}{size:4}  {meaning}")
        at += size
    return lines, at


def proof():
    """The least proof, byte by byte."""
    data = (TOP / "crates/timeweave/data/p").read_bytes()
    lines, at = dumped(data, [
        (4, "TWP1"), (1, "kind 1"), (16, "the service a"), (8, "step 1"), (8, "top 1; the path from 1 to 1 has no bytes"),
        (32, "opening: event root"), (32, "archive label, of the empty archive"), (4, "count of events"),
        (32, "authenticator of step 0; no labels, since 1 is odd"), (4, "event part: index 0"),
        (4, "size 0; no bytes of the event, and no path"),
    ])
    assert at == len(data)
    return lines


def absence():
    """A small archive, and the proof that a key is absent in it, byte by byte."""
    entries = [Entry("alpha", 5, bytes([0xAA] * 32), 1), Entry("beta", 2, bytes([0xBB] * 32), 2)]
    tree = with_leaf(with_leaf(EMPTY, entries[0]), entries[1])
    data = tree_proof(tree, absent("alpha", 6)).to_bytes()
    fields = [(1, "two nodes above the place")]
    for entry, side in ((entries[1], "right"), (entries[0], "left")):
        fields += [
            (16, f"{'the nearer' if side == 'right' else 'the root'}: service {entry.service}"), (8, f"step {entry.step}"), (32, "its authenticator"),
            (8, f"archived at step {entry.archived}"), (32, f"label of its {side} side, the empty tree"),
        ]
    lines, at = dumped(data, fields)
    assert at == len(data)
    return [
        "          alpha 5                the label of the root is that of the archive",
        "         /       \\               alpha 6 is above alpha 5: the way goes right",
        "     empty       beta 2          alpha 6 is below beta 2: the way goes left",
        "                /      \\",
        "            empty      empty     the left one is the place where alpha 6 would stand",
        "",
        *lines,
    ]


def chain():
    """The proof that an event of alpha precedes one of beta, byte by byte, part by part."""
    data = least_way().proof().to_bytes()
    lines, at = dumped(data, [
        (4, "TWP1"), (1, "kind 2"), (1, "one hop"), (16, "head, part 0: service beta"), (8, "step 2"), (8, "top 2; the path from 2 to 2 has no bytes"),
        (32, "opening of step 2: event root"), (32, "archive label"), (4, "count of events"), (32, "authenticator of step 1"),
        (32, "label of the link of level 1"), (4, "event part: index 0"), (4, "size 0; no bytes of the event, and no path"),
        (32, "opening of step 1, of part 0 too: event root, of no events"), (32, "archive label, of one entry"), (4, "count of events, 0"),
        (32, "authenticator of step 0"),
        (16, "hop, part 1: thread of the service alpha"), (8, "at step 1"), (32, "its authenticator there"), (8, "archived at step 1"),
        (1, "tree proof of the entry: no node above"), (32, "label of its left side, the empty tree"), (32, "label of its right side, the empty tree"),
        (8, "bind 0: the thread is carried; no path, and no opening, as no hop follows"),
        (8, "tail, part 2: step 1 of alpha; the path from 1 to 1 has no bytes"), (32, "opening of step 1: event root"),
        (32, "archive label, of the empty archive"), (4, "count of events"), (32, "authenticator of step 0"), (4, "event part: index 0"), (4, "size 2"),
        (2, "the event, hi; no path"),
    ])
    assert at == len(data)
    return lines


def between():
    """The steps of the example of maps, in the order in which they were made: two services that received a thread of one another."""
    ledger, notary, made = ledger_and_notary()
    low, high = bounds(ledger, ENTRY, notary, len(notary.steps))
    at = {step: 10 + 7 * place for place, step in enumerate(made)}
    rows = {}
    for name, history in (("notary", notary), ("ledger", ledger)):
        rows[name] = name.ljust(at[name, len(history.steps)] + 1)
        for number in range(1, len(history.steps) + 1):
            rows[name] = rows[name][: at[name, number]] + str(number) + rows[name][at[name, number] + 1 :]
    received, sent = (at["notary", low], at["ledger", 2]), (at["ledger", len(ledger.steps)], at["notary", high])
    ways = []
    for row in range(1, 6):
        line = [" "] * 90
        line[received[0] + row * (received[1] - received[0]) // 6] = "\\"
        line[sent[1] - row * (sent[1] - sent[0]) // 6] = "/"
        ways.append("".join(line).rstrip())
    entry = at["ledger", ENTRY]
    return [
        rows["notary"], *ways, rows["ledger"],
        f"{'|':>{entry + 1}}",
        f"{'the entry':>{entry + 5}}: low {low}, high {high}, upto {len(notary.steps)}",
    ]


def message():
    """The message of the last step of the tutorial's history since step 11, byte by byte."""
    data = message_of(SHOP, 13, 11).to_bytes()
    lines, at = dumped(data, [
        (4, "TWT1"), (16, "the service shop"), (8, "its step 13"), (32, "its authenticator there"), (8, "since step 11"),
        (32, "path, the link 13->12 of level 0: datum of 13"), (32, "the link 12->11 of level 0: datum of 12"), (32, "label 12->10"), (32, "label 12->8"),
    ])
    assert at == len(data)
    return lines


def receipt():
    """The receipt of a step that archived the thread of that message, byte by byte."""
    archive = Node(EMPTY, Entry("shop", 13, SHOP.auths[13], 2), EMPTY)
    bank = Timeline("bank", [[], []], [EMPTY_ARCHIVE, archive.label])
    data = Receipt("bank", 2, bank.auths[2], "shop", 13, SHOP.auths[13]).to_bytes()
    lines, at = dumped(data, [
        (4, "TWR1"), (16, "the recorder, the service bank"), (8, "its step 2, which archived the thread"), (32, "its authenticator there"),
        (16, "the thread: service shop"), (8, "step 13"), (32, "its authenticator there"),
    ])
    assert at == len(data)
    return lines


def pages():
    """The event page and the step page of a step 2, byte by byte."""
    store = service_of("shop", [[b"first"], [b"bread", b"milk"]])
    first = store.step_pages[2] - 1
    lines = [f"page {first}, the event page of step 2"]
    more, _ = dumped(store.archive.pages[first - 4], [
        (1, "2, an event page"), (8, "step 2"), (2, "its page 0"), (4, "the stream: a length"), (5, "bread"), (4, "a length"), (4, "milk"),
        (PAGE - 28, "zeros"),
    ])
    lines += more + ["", f"page {first + 1}, the step page of step 2"]
    more, at = dumped(store.archive.pages[first - 3], [
        (1, "1, a step page"), (8, "step 2"), (1, "1, a step of events"), (4, "two events"), (4, "their stream has 17 bytes"),
        (8, f"first event page, {first}"), (32, "event root"), (32, "archive label"), (8, "the archive has no page"), (56, "zeros"),
        (32, "authenticator of step 2"),
        (1, "two links"), (8, f"level 0: step 1, page {store.step_pages[1]}"), (32, "its authenticator"), (8, "level 1: step 0, which has no page"),
        (32, "its authenticator"), (PAGE - 267, "zeros"),
    ])
    assert at == PAGE
    return lines + more


def heads():
    """The root record of a follower that kept two heads, and its head pages, byte by byte."""
    follower = Follower("shop", [(5, SHOP.auths[5]), (13, SHOP.auths[13])])
    data = follower.file()
    lines = ["the root record"]
    more, _ = dumped(data[2 * PAGE + 26 : 2 * PAGE + 90], [(16, "the service shop"), (8, "step 13"), (32, "its authenticator"), (8, "its page, 5")])
    lines += more
    for page, step, before in ((4, 5, "no head before it"), (5, 13, "the head before it, page 4")):
        more, at = dumped(data[page * PAGE : (page + 1) * PAGE], [
            (1, "4, a head page"), (8, f"step {step}"), (32, "its authenticator"), (8, before), (PAGE - 49, "zeros"),
        ])
        assert at == PAGE
        lines += ["", f"page {page}, of the {'last' if step == 13 else 'first'} head", *more]
    return lines


def rising_versions(count):
    """The versions of an archive that received so many threads of a service alpha, those of its steps 1, 2, .. in order."""
    tree = PagedTree()
    for step in range(1, count + 1):
        tree.insert(Entry("alpha", step, bytes([step]) * 32, step))
    return tree


def half():
    """The left one of the pages that a full page became: its tree and its bytes."""
    tree = rising_versions(MOST_KEYS + 1)
    page = tree.pages[-3]
    root = slots_of(page.shape)
    slots = [f"slot {number}, {'red' if red else 'black'}, {sides_of(left, right)}: alpha {number}" for number, (red, left, right) in enumerate(root, 1)]
    lines, at = dumped(page.to_bytes(), [
        (1, "3, a tree page"), (1, "level 0, a leaf page"), (1, "twelve keys"), (1, "root slot 7"), *[(67, slot) for slot in slots],
        (13 * 40, "thirteen children: page 0, and the label of the empty tree"), (PAGE - 4 - 12 * 67 - 13 * 40, "zeros"),
    ])
    assert at == PAGE
    return [
        "                   7",
        "           /               \\",
        "           4               10",
        "       /       \\       /       \\",
        "       2       6       9       12",
        "     /   \\    /       /        /",
        "     1   3   5       8       11               1, 3, 5, 8 and 11 are red, the others black",
        "",
        *lines,
    ]


def sides_of(left, right):
    """The slots of both sides, as they are told."""
    if left and right:
        return f"over {left} and {right}"
    return f"over {left or right}" if left or right else "over none"


def versions():
    """Two versions of a tree that share a page."""
    tree = rising_versions(MOST_KEYS + 2)
    first = FIRST + len(tree.pages) - 5
    left, right, root, more, above = range(first, first + 5)
    return [
        f"25 threads, root page {root}                   26 threads, root page {above}",
        "",
        f"    page {root}: 13                                page {above}: 13          level 1",
        "    /        \\                                 /       \\",
        f"page {left}     page {right}                          |      page {more}        level 0",
        " 1..12      14..25                          |       14..26",
        "   ^                                        |",
        "   +----------------------------------------+                       both have this page",
    ]


PICTURES = {"crates": crate_list, "step": step, "links": links, "tree": tree, "proof": proof, "absence": absence, "chain": chain, "between": between, "message": message, "receipt": receipt, "pages": pages, "heads": heads, "half": half, "versions": versions}

# Those that are no pictures, but lists.
PROSE = {"crates"}


def drawn(text):
    """The document with its pictures drawn anew."""

    def picture(match):
        lines = PICTURES[match[2]]()
        fence = "" if match[2] in PROSE else "```\n"
        return f"{match[1]}{fence}{chr(10).join(lines)}\n{fence}{match[3]}"

    return re.sub(r"(<!-- picture (\w+), by tools/pictures.py -->\n).*?(<!-- end of picture -->)", picture, text, flags=re.S)


def differing():
    """The documents of which a picture isn't as it is drawn, and the pictures that stand in none."""
    wrong, left = [], set(PICTURES)
    for path in sorted((TOP / "docs").glob("*.md")):
        text = path.read_text()
        left -= set(re.findall(r"<!-- picture (\w+),", text))
        if drawn(text) != text:
            wrong.append(f"docs/{path.name}")
    return wrong + [f"no document has the picture {name}" for name in sorted(left)]


def main():
    """Draws the pictures anew, or tells those that differ."""
    words = reader_of_words(__doc__)
    words.add_argument("--check", action="store_true", help="tell those that differ, and write nothing")
    if words.parse_args().check:
        wrong = differing()
        print("\n".join(wrong))
        return 1 if wrong else 0
    for path in sorted((TOP / "docs").glob("*.md")):
        path.write_text(drawn(path.read_text()))
    return 0


if __name__ == "__main__":
    run_script(main)
