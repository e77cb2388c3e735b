"""The pages of an archive's tree, and versions of it, each of which copies the pages on the way to its new entry and shares all others.

docs/formats.md, "Tree pages".
"""

from __future__ import annotations

from bisect import bisect
from typing import Iterator, List, NamedTuple, Optional, Tuple

from .archives import EMPTY, Entry, Node, Tree, node_label
from .fields import LAST_STEP, Malformed, Reader, big_endian
from .hashed_texts import EMPTY_ARCHIVE

PAGE = 4096
"""The bytes of a page of a store."""

FIRST = 4
"""The number of the first page behind the four that every store has."""

MOST_KEYS = 24
"""The most keys of a page."""

MOST_LEVEL = 10
"""The greatest level of a page."""


class Child(NamedTuple):
    """What stands at an empty place of a page, or is the root of a version: the number of the page below, 0 for none, and its label."""

    page: int
    label: bytes


NO_CHILD = Child(0, EMPTY_ARCHIVE)


# ---- a page's red-black tree without its entries, of at most 25 nodes


class Shape(NamedTuple):
    """A node: whether it is red, and its sides, of which None is an empty place."""

    is_red: bool
    left: "Optional[Shape]"
    right: "Optional[Shape]"


def size(shape: Shape | None) -> int:
    """How many nodes it has."""
    return 1 + size(shape.left) + size(shape.right) if shape else 0


def _black(shape: Shape) -> Shape:
    return shape._replace(is_red=False)


def _mirrored(shape: Shape | None) -> Shape | None:
    return shape and Shape(shape.is_red, _mirrored(shape.right), _mirrored(shape.left))


def _over_left(is_red: bool, left: Shape, right: Shape | None) -> Shape:
    """A node over a left side that has grown: recoloured or turned where that side and a side of it are red."""
    outer, inner = left.left, left.right
    is_outer_red = outer is not None and outer.is_red
    if is_red or not left.is_red or not (is_outer_red or inner is not None and inner.is_red):
        return Shape(is_red, left, right)
    if right is not None and right.is_red:
        return Shape(True, _black(left), _black(right))
    if is_outer_red or inner is None:
        return Shape(False, outer, Shape(True, inner, right))
    return Shape(False, Shape(True, outer, inner.left), Shape(True, inner.right, right))


def _grown(shape: Shape | None, place: int) -> Shape:
    if not shape:
        return Shape(True, None, None)
    if place <= size(shape.left):
        return _over_left(shape.is_red, _grown(shape.left, place), shape.right)
    turned = _mirrored(_grown(shape.right, place - size(shape.left) - 1))
    assert turned is not None
    made = _mirrored(_over_left(shape.is_red, turned, _mirrored(shape.left)))
    assert made is not None
    return made


def grown(shape: Shape | None, place: int) -> Shape:
    """The tree with one more node at its empty place of this number, from 0; its root is black."""
    return _black(_grown(shape, place))


def rebuilt(count: int, depth: int = 0) -> Shape | None:
    """The tree of half a page that was split: the middle key on top, and so on in each half; nodes of depth 3 are red."""
    middle = count // 2
    return Shape(depth == 3, rebuilt(middle, depth + 1), rebuilt(count - middle - 1, depth + 1)) if count else None


def root_slot(shape: Shape | None, base: int) -> int:
    """The slot, from 1, of a tree's root, whose slots begin behind `base` others; 0 of none."""
    return base + size(shape.left) + 1 if shape else 0


class Slot(NamedTuple):
    """A node in the order of its page: whether it is red, and the slots of its sides, from 1, of which 0 is an empty place."""

    is_red: bool
    left: int
    right: int


def slots_of(shape: Shape | None, base: int = 0) -> Iterator[Slot]:
    """The slots of a tree in their order, behind `base` others."""
    if shape:
        slot = base + size(shape.left) + 1
        yield from slots_of(shape.left, base)
        yield Slot(shape.is_red, root_slot(shape.left, base), root_slot(shape.right, slot))
        yield from slots_of(shape.right, slot)


# ---- pages


class TreePage(NamedTuple):
    """A page: its level, 0 of a leaf page; its tree; its entries, which rise; and a child for each empty place, in order."""

    level: int
    shape: Shape
    entries: List[Entry]
    children: List[Child]

    def with_entry(self, place: int, entry: Entry, left: Child, right: Child) -> TreePage:
        """The page with an entry more at an empty place, from 0, over two children."""
        entries = [*self.entries[:place], entry, *self.entries[place:]]
        children = [*self.children[:place], left, right, *self.children[place + 1 :]]
        return TreePage(self.level, grown(self.shape, place), entries, children)

    def halves(self) -> Tuple[TreePage, Entry, TreePage]:
        """The page, which has a key too many, as two, and the middle entry between them."""
        half = MOST_KEYS // 2
        shape = rebuilt(half)
        assert shape is not None
        left = TreePage(self.level, shape, self.entries[:half], self.children[: half + 1])
        right = TreePage(self.level, shape, self.entries[half + 1 :], self.children[half + 1 :])
        return left, self.entries[half], right

    def to_bytes(self) -> bytes:
        """Its 4,096 bytes."""
        front = bytes([3, self.level, len(self.entries), root_slot(self.shape, 0)])
        slots = b"".join(bytes(slot) + entry.to_bytes() for slot, entry in zip(slots_of(self.shape), self.entries))
        children = b"".join(big_endian(page, 8) + label for page, label in self.children)
        return (front + slots + children).ljust(PAGE, b"\0")

    def label(self) -> bytes:
        """The label of the tree that it stands for."""
        return self._label_of(self.shape, 0)

    def _label_of(self, shape: Shape | None, base: int) -> bytes:
        if not shape:
            return self.children[base].label
        slot = base + size(shape.left)
        return node_label(self._label_of(shape.left, base), self.entries[slot], self._label_of(shape.right, slot + 1))


def read_tree_page(data: bytes, number: int) -> TreePage:
    """The tree page of this number; raises `Malformed` where it is none, of keys that don't rise at the entry's place, and of slots that are
    no red-black tree at the root's slot.

    That its keys lie between those around it, that its level is one lower than that above, and how many keys it has at least, follows from
    the pages above and isn't looked at. A child of 1 to 3 is read; a way that comes to it finds that it is no tree page.
    """
    read = Reader(data, PAGE)
    read.byte((3,))
    level, count = read.number(1, 0, MOST_LEVEL), read.number(1, 1, MOST_KEYS)
    root = read.number(1, 1, count)
    slots, entries = [], []
    for _ in range(count):
        at = read.at
        slots.append(Slot(read.byte((0, 1)) == 1, read.number(1, 0, count), read.number(1, 0, count)))
        entries.append(Entry(read.name(), read.number(8, 1, LAST_STEP), read.digest(), read.number(8, 1, LAST_STEP)))
        if len(entries) > 1 and entries[-2].key >= entries[-1].key:
            raise Malformed(at + 3)
    children = [_read_child(read, level, number) for _ in range(count + 1)]
    read.zeros(PAGE)
    shape = _shape_of(slots, root)
    if shape.is_red or _black_height(shape) is None:
        raise Malformed(3)
    return TreePage(level, shape, entries, children)


def _read_child(read: Reader, level: int, number: int) -> Child:
    """The child that stands next in a page of this level and number."""
    if level:
        return Child(read.number(8, 1, number - 1), read.digest())
    read.number(8, 0, 0)
    read.magic(EMPTY_ARCHIVE)
    return NO_CHILD


def _shape_of(slots: List[Slot], root: int) -> Shape:
    """The tree of slots from this one, from 1, on; raises `Malformed` where their order isn't the tree's.

    The sides of a slot stand on their sides of it, so each is a part of the slots with fewer of them: at most 24 calls are in one another.
    """

    def within(slot: int, low: int, high: int) -> Shape:
        is_red, left, right = slots[slot - 1]
        if not low <= slot <= high or (left == 0) != (slot == low) or (right == 0) != (slot == high):
            raise Malformed(3)
        return Shape(is_red, within(left, low, slot - 1) if left else None, within(right, slot + 1, high) if right else None)

    return within(root, 1, len(slots))


def _black_height(shape: Shape | None) -> int | None:
    """How many black nodes each way down has; None where ways differ, or where a red node has a red side."""
    if shape is None:
        return 0
    left, right = _black_height(shape.left), _black_height(shape.right)
    is_red_over_red = shape.is_red and any(side is not None and side.is_red for side in (shape.left, shape.right))
    return None if left is None or left != right or is_red_over_red else left + (not shape.is_red)


# ---- versions of a tree


class Split(NamedTuple):
    """What a page became that had a key too many: two, and the entry between them."""

    left: Child
    entry: Entry
    right: Child


class PagedTree:
    """The pages of a store from its first one behind the front on, among them those of all versions of an archive's tree; and the root of
    the last version."""

    def __init__(self) -> None:
        self.pages: List[TreePage | bytes] = []
        self.root = NO_CHILD
        self._trees = {0: EMPTY}

    def copied(self) -> PagedTree:
        """One that goes on by itself; this one stays as it is."""
        other = PagedTree()
        other.pages, other.root, other._trees = list(self.pages), self.root, dict(self._trees)
        return other

    def next_page(self) -> int:
        """The number of the page that comes next."""
        return FIRST + len(self.pages)

    def put(self, page: TreePage | bytes) -> int:
        """Puts a page, and answers its number."""
        self.pages.append(page)
        return self.next_page() - 1

    def page(self, number: int) -> TreePage:
        """The tree page of this number."""
        page = self.pages[number - FIRST]
        assert isinstance(page, TreePage)
        return page

    def _staged(self, page: TreePage) -> Child:
        """Puts a tree page, and answers it as a child."""
        return Child(self.put(page), page.label())

    def insert(self, entry: Entry) -> None:
        """A version with an entry more, whose key no other has."""
        if not self.root.page:
            self.root = self._staged(TreePage(0, Shape(False, None, None), [entry], [NO_CHILD] * 2))
            return
        level = self.page(self.root.page).level
        made = self._added(self.root.page, entry)
        if isinstance(made, Split):
            made = self._staged(TreePage(level + 1, Shape(False, None, None), [made.entry], [made.left, made.right]))
        self.root = made

    def _added(self, number: int, entry: Entry) -> Child | Split:
        """The page with the entry below it, or, where it was full, what it became."""
        page = self.page(number)
        place = bisect([it.key for it in page.entries], entry.key)
        if page.level == 0:
            page = page.with_entry(place, entry, NO_CHILD, NO_CHILD)
        else:
            below = self._added(page.children[place].page, entry)
            if isinstance(below, Split):
                page = page.with_entry(place, below.entry, below.left, below.right)
            else:
                page = page._replace(children=[*page.children[:place], below, *page.children[place + 1 :]])
        if len(page.entries) <= MOST_KEYS:
            return self._staged(page)
        left, middle, right = page.halves()
        return Split(self._staged(left), middle, self._staged(right))

    def tree(self, number: int) -> Tree:
        """The tree under a root page, 0 for the empty one."""
        if number not in self._trees:
            page = self.page(number)
            self._trees[number] = self._tree_of(page, page.shape, 0)
        return self._trees[number]

    def _tree_of(self, page: TreePage, shape: Shape | None, base: int) -> Tree:
        if not shape:
            return self.tree(page.children[base].page)
        slot = base + size(shape.left)
        return Node(self._tree_of(page, shape.left, base), page.entries[slot], self._tree_of(page, shape.right, slot + 1))
