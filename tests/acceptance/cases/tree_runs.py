"""Acceptance cases of an archive's tree in pages, by the built program `tree_pages`: sequences of insertions beside the pages that
tree_pages.py makes of them, and insertions drawn by chance beside a sorted list.

The program reads lines and prints what comes of them; crates/tree_pages/src/main.rt says which there are."""

import os
import random
import subprocess
from bisect import bisect, insort
from hashlib import sha256

from harness.places import TOP
from harness.rooms import Skipped, Wrong, case
from timeweave_reference.archives import EMPTY, Entry, Node, absent, present, tree_proof
from timeweave_reference.fields import big_endian as be
from timeweave_reference.hashed_texts import digest
from timeweave_reference.tree_pages import FIRST, PagedTree

PROGRAM = TOP / "bin/tree_pages"

# The sequences of insertions: the numbers of entries in their order, 1 to 60, 700 or 5,000.
MULTIPLIER = 7919
MIXED = {60: 61, 700: 701, 5000: 5003}
SEQUENCES = [("rising", 60), ("falling", 60), ("mixed", 60), ("rising", 700), ("mixed", 700), ("mixed", 5000)]

# After so many of them the pages are compared: about where the first page is full and becomes two, among others.
SHOWN_AFTER = (1, 2, 3, 5, 24, 25, 26, 49, 60, 300, 700, 1000, 5000)


def order(kind, count):
    """The numbers of the entries in the order in which they are inserted."""
    if kind == "mixed":
        modulus = MIXED[count]
        return [number for place in range(modulus) if (number := 1 + MULTIPLIER * place % modulus) <= count]
    return list(range(1, count + 1)) if kind == "rising" else list(range(count, 0, -1))


def entry_of(number, archived):
    """The entry of this number."""
    return Entry(f"p{number % 7}", number, digest(be(number, 8)), archived)


def expect(lines, wanted):
    """Raises where the program doesn't print these lines, one for each that asks for one."""
    if not os.access(PROGRAM, os.X_OK):
        raise Skipped("bin/tree_pages, which `make check` builds")
    text = "".join(f"{line}\n" for line in lines)
    done = subprocess.run([PROGRAM], input=text, capture_output=True, text=True, timeout=300)
    if done.returncode or done.stderr:
        raise Wrong(f"  status {done.returncode}, stderr {done.stderr!r}")
    found = done.stdout.splitlines()
    for number, (line, other) in enumerate(zip(wanted, found), 1):
        if line != other:
            raise Wrong(f"  line {number}: wanted {line}\n  got    {other}")
    if len(found) != len(wanted):
        raise Wrong(f"  wanted {len(wanted)} lines, got {len(found)}")


# ---- sequences, beside the model of the pages


class Model:
    """A tree in pages as tree_pages.py makes it, and what the program is to print of it."""

    def __init__(self):
        self.tree, self.entries = PagedTree(), {}
        self.hashed, self.hash = 0, sha256()

    def insert(self, number):
        self.entries[number] = entry_of(number, len(self.entries) + 1)
        self.tree.insert(self.entries[number])
        for page in self.tree.pages[self.hashed :]:
            self.hash.update(page.to_bytes())
        self.hashed = len(self.tree.pages)

    def page(self, number):
        return self.tree.pages[number - FIRST]

    def root(self):
        number, label = self.tree.root
        return f"root {len(self.entries)} {FIRST + self.hashed} {number} {self.page(number).level} {label.hex()}"

    def pages(self):
        return f"pages {self.hash.hexdigest()}"

    def list(self):
        return listed(sorted(self.entries.values()))

    def get(self, number):
        entry = self.entries.get(number)
        return f"get {self.pages_read((f'p{number % 7}', number))} {entry.archived if entry else 0}"

    def pages_read(self, key):
        """How many pages are on the way down to a key."""
        number, count = self.tree.root[0], 0
        while number:
            page, count = self.page(number), count + 1
            keys = [entry.key for entry in page.entries]
            number = 0 if key in keys else page.children[bisect(keys, key)][0]
        return count

    def nodes(self):
        """The tree that the pages stand for."""

        def below(number):
            return above(self.page(number), self.page(number).shape, 0) if number else EMPTY

        def above(page, shape, base):
            if not shape:
                return below(page.children[base][0])
            left = above(page, shape[1], base)
            slot = base + count(shape[1])
            return Node(left, page.entries[slot], above(page, shape[2], slot + 1))

        def count(shape):
            return 1 + count(shape[1]) + count(shape[2]) if shape else 0

        return below(self.tree.root[0])

    def proof(self, ask):
        proof = tree_proof(self.nodes(), ask)
        return f"proof {len(proof.ancestors)} {digest(proof.to_bytes()).hex()}"


def listed(entries):
    """The line of a version with these entries, which rise."""
    data = [entry.to_bytes() for entry in entries]
    up, down = digest(b"".join(data)).hex(), digest(b"".join(reversed(data))).hex()
    return f"list {len(data)} {up} {down} {up}"


def sequence(kind, count):
    """The case of a sequence of insertions."""

    def work(_room):
        model, lines, wanted = Model(), [], []
        for number in order(kind, count):
            model.insert(number)
            lines.append(f"insert {number}")
            if len(model.entries) in SHOWN_AFTER:
                lines += ["root", "pages", "list"]
                wanted += [model.root(), model.pages(), model.list()]
        for number in (1, count // 2, count, count + 7):
            lines.append(f"get {number}")
            wanted.append(model.get(number))
        for number in (1, count // 2, count):
            lines.append(f"present {number}")
            wanted.append(model.proof(present(model.entries[number])))
        lines.append(f"absent {count + 7}")
        wanted.append(model.proof(absent("p0", count + 7)))
        expect(lines, wanted)

    work.__doc__ = f"the pages of {count} entries in {kind} order"
    return case(work, "trees in pages")


# ---- pages of few keys, by a table

# The colours of a page's slots, 0 black and 1 red, by the number of keys that came in their order: of the one page of up to 24, and of both of
# those below the one key at the top of 25.
HALF = "101010010010"
COLOURS = {1: ["0"], 2: ["01"], 3: ["101"], 5: ["00101"], 24: ["000000000000000101000101"], 25: ["0", HALF, HALF]}


def colours(page):
    """The colours of the slots in the page's bytes."""
    data = page.to_bytes()
    return "".join(str(data[4 + 67 * slot]) for slot in range(len(page.entries)))


def few_keys(_room):
    """the colours of pages of few keys that rise, by a table; and no key of 25 takes more than two reads"""
    model, lines, wanted = Model(), [], []
    for count in range(1, 26):
        # (numbers of one name: so the keys rise)
        model.insert(7 * count)
        lines.append(f"insert {7 * count}")
        if count in COLOURS:
            root = model.page(model.tree.root[0])
            found = [colours(page) for page in (root, *(model.page(child) for child, _ in root.children if child))]
            if found != COLOURS[count]:
                raise Wrong(f"  {count} keys: wanted {COLOURS[count]}, the model has {found}")
            lines += ["root", "pages"]
            wanted += [model.root(), model.pages()]
    for number in range(7, 7 * 27, 7):
        lines.append(f"get {number}")
        wanted.append(model.get(number))
        if model.pages_read(("p0", number)) > 2:
            raise Wrong(f"  key {number} takes more than two reads")
    expect(lines, wanted)


# ---- entries drawn by chance, beside a sorted list


def beside_a_list(count, one_in):
    """Raises where a version, one in so many, doesn't list the sorted entries, or not any more when all are made."""
    drawn = random.Random("trees in pages").sample(range(1, 2**40), count)
    entries, lines, seen = [], [], {}
    for number in drawn:
        insort(entries, entry_of(number, len(entries) + 1))
        lines.append(f"insert {number}")
        if len(entries) % one_in == 0:
            lines.append("list")
            seen[len(entries)] = listed(entries)
    old = list(seen)[:: max(1, len(seen) // 20)]
    lines += [line for version in old for line in (f"at {version}", "list")]
    expect(lines, [*seen.values(), *(seen[version] for version in old)])


def each_version(_room):
    """each version of 1,000 entries lists the sorted entries, and old ones still do"""
    beside_a_list(1_000, 1)


def large_versions(_room):
    """each thousandth version of 20,000 entries lists the sorted entries, and still does when all are made"""
    beside_a_list(20_000, 1_000)


def versions_apart(_room):
    """two versions over one, each of which has its own entry more"""
    model = Model()
    numbers = order("mixed", 60)
    for number in numbers[:40]:
        model.insert(number)
    entries = sorted(model.entries.values())
    one, other = entry_of(numbers[40], 41), entry_of(numbers[41], 41)
    lines = [f"insert {number}" for number in numbers[:41]] + ["at 40", f"insert {numbers[41]}", "list", "at 41", "list", "at 40", "list"]
    expect(lines, [listed(sorted([*entries, other])), listed(sorted([*entries, one])), listed(entries)])


def cases():
    return [
        *(sequence(kind, count) for kind, count in SEQUENCES),
        *(case(work, "trees in pages") for work in (few_keys, each_version, large_versions, versions_apart)),
    ]
