"""Works out what `audit` replies over any files, from docs/FORMATS.md and the rules of an audit
alone, for fuzz/audit-damage.

The first broken rule names the place:

1. The files can be opened (forest.py). The place is the one that the opening names.
2. By the numbers of points in the live body, each page of the live side, in ascending order, is a
   leaf of one view or an inner page, with the number of entries that follows. A leaf is lawful, its
   points come after those of the view's leaf before it, and each coordinate is that of a value. An
   inner page has the least boxes and the numbers of the pages below it. The place is the page.
3. For each view, in order of declaration, the counts of its points add up to the facts of the live
   body. For each other view that has all of its attributes, its points are those of that view,
   grouped, with cells that are joined as whole numbers. The place is the first leaf of the view, or
   the front of the side if it has none.

It is independent of python/cubetree/format on purpose, and shares no code with it.
"""
from typing import Dict, List, Optional, Sequence, Tuple

from .forest import GREATEST, PAGE, Box, Cell, Child, Damage, Entry, Node, Opened, Point, Tree
from .forest import around, number_of, opened, order

MOST_KEPT = 3000


class Leaf:
    """A lawful leaf: its entries, and what is needed of them again and again: the first and the
    last point, the least box and the facts."""

    def __init__(self, tree: Tree, arity: int, entries: List[Entry]) -> None:
        self.arity, self.entries = arity, entries
        self.first, self.last = order(entries[0].at), order(entries[-1].at)
        self.box = tree.box([entry.at for entry in entries])
        self.facts = sum(entry.cell.facts for entry in entries)


Leaves = Tuple[Leaf, ...]
Places = Tuple[int, ...]


class Kept:
    """The pages that were read, and which views agree: folders have most pages in common."""

    def __init__(self) -> None:
        self.leaves: Dict[Tuple[int, int, int, bytes], Optional[Leaf]] = {}
        self.inner: Dict[Tuple[int, int, int, bytes], Optional[List[Child]]] = {}
        self.grouped: Dict[Tuple[Leaves, Places], Dict[Point, Cell]] = {}
        self.agreeing: Dict[Tuple[Leaves, Leaves, Places], bool] = {}

    def make_room(self) -> None:
        """Forgets everything if it is much."""
        if len(self.leaves) + len(self.inner) + len(self.agreeing) > MOST_KEPT:
            self.leaves.clear()
            self.inner.clear()
            self.grouped.clear()
            self.agreeing.clear()

    def leaf(self, tree: Tree, data: bytes) -> Optional[Leaf]:
        """A lawful leaf, or None."""
        key = tree.dims, tree.measures, tree.width, data
        if key not in self.leaves:
            entries = tree.leaf(data) if data[0] == tree.kinds[0] else None
            self.leaves[key] = Leaf(tree, data[1], entries) if entries else None
        return self.leaves[key]

    def children(self, tree: Tree, page: int, data: bytes) -> Optional[List[Child]]:
        """The children of a lawful inner page, or None."""
        key = tree.dims, tree.width, page, data
        if key not in self.inner:
            self.inner[key] = tree.inner(data, page) if data[0] == tree.kinds[1] else None
        return self.inner[key]

    def groups(self, finer: Leaves, places: Places) -> Dict[Point, Cell]:
        """The points of a view, grouped by the coordinates at these places."""
        key = finer, places
        if key not in self.grouped:
            self.grouped[key] = grouped(finer, places)
        return self.grouped[key]

    def agree(self, coarser: Leaves, finer: Leaves, places: Places) -> bool:
        """Whether the points of a view are those of a finer one, grouped by the coordinates at
        these places."""
        key = coarser, finer, places
        if key not in self.agreeing:
            cells = {entry.at: entry.cell for leaf in coarser for entry in leaf.entries}
            self.agreeing[key] = cells == self.groups(finer, places)
        return self.agreeing[key]


KEPT = Kept()


def grouped(leaves: Leaves, places: Places) -> Dict[Point, Cell]:
    """The points of a view, grouped by the coordinates at these places. Counts and sums are whole
    numbers of any size."""
    groups: Dict[Point, Cell] = {}
    for leaf in leaves:
        for at, cell in leaf.entries:
            key = tuple(at[place] for place in places)
            groups[key] = whole_join(groups[key], cell) if key in groups else cell
    return groups


def whole_join(one: Cell, other: Cell) -> Cell:
    """The cell of all facts of two cells."""
    pairs = zip(one.parts, other.parts)
    parts = tuple((a + d, min(b, e), max(c, f)) for (a, b, c), (d, e, f) in pairs)
    return Cell(one.facts + other.facts, parts)


class Side:
    """The live side of opened files. The audit raises Damage with the file and the offset of the
    first broken rule."""

    def __init__(self, files: Sequence[bytes], there: Opened) -> None:
        self.there, self.data, self.views = there, files[there.side], there.schema.views
        self.view_at = {
            (number_of(there.schema, view), len(names)): view
            for view, names in enumerate(self.views)
        }
        most = [
            len(there.names[a]) if text else GREATEST["number"] + 1
            for a, (_, text) in enumerate(there.schema.attributes)
        ]
        self.limits = [[most[a] for a in view] for view in self.views]
        self.leaves: List[List[Leaf]] = [[] for _ in self.views]
        self.firsts = [0 for _ in self.views]

    def audit(self) -> None:
        for number, tree in enumerate(self.there.trees):
            self.audit_tree(number, tree)
        for view in range(len(self.views)):
            if not self.agrees(view):
                raise Damage(self.there.side, PAGE * self.firsts[view])

    def audit_tree(self, number: int, tree: Tree) -> None:
        boxes: Dict[int, Box] = {}
        for node in tree.nodes():
            data = self.data[PAGE * node.page : PAGE * node.page + PAGE]
            if node.below:
                below = [(boxes[child.page], child.page) for child in node.below]
                is_due = KEPT.children(tree, node.page, data) == below
                boxes[node.page] = around([box for box, _ in below])
            else:
                leaf, view = KEPT.leaf(tree, data), self.view_at[number, node.arity]
                is_due = leaf is not None and self.takes(view, node, leaf)
                boxes[node.page] = leaf.box if leaf else []
            if not is_due:
                raise Damage(self.there.side, PAGE * node.page)

    def takes(self, view: int, node: Node, leaf: Leaf) -> bool:
        """Takes a lawful leaf if it is the one that is due here."""
        before = self.leaves[view]
        if leaf.arity != node.arity or len(leaf.entries) != node.points:
            return False
        if before and before[-1].last >= leaf.first:
            return False
        self.firsts[view] = self.firsts[view] if before else node.page
        before.append(leaf)
        return all(greatest <= most for (_, greatest), most in zip(leaf.box, self.limits[view]))

    def agrees(self, view: int) -> bool:
        """Whether a view has all facts, and agrees with each finer one."""
        own, names = tuple(self.leaves[view]), self.views[view]
        if sum(leaf.facts for leaf in own) != self.there.body.facts:
            return False
        for other, others in enumerate(self.views):
            if other != view and set(names) <= set(others):
                places = tuple(others.index(a) for a in names)
                if not KEPT.agree(own, tuple(self.leaves[other]), places):
                    return False
        return True


def verdict(files: Sequence[bytes]) -> str:
    """What `audit` replies over these files: root, names, side0 and side1."""
    KEPT.make_room()
    try:
        there = opened(files)
        if there is None:
            return "no schema"
        Side(files, there).audit()
    except Damage as damage:
        return f"audit no {damage.args[0]} {damage.args[1]}"
    return "audit yes"
