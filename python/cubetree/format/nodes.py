"""Which page of a side is which node of which tree, by the numbers of points alone
(docs/FORMATS.md has the rules)."""
from __future__ import annotations

from typing import Iterator, NamedTuple

from ..schema import Schema
from .files import Body
from .forest import ENTRIES, Forest, Tree, leaf_room


class Node(NamedTuple):
    """A page as a node of a tree: its height, the leaves below it, the first of them and how
    many there are, and the first page of all these."""

    tree: int
    height: int
    leaf: int
    leaves: int
    first: int
    page: int


class Leaf(NamedTuple):
    """A leaf among those of its view, both by their numbers from 0, and how many points it has."""

    view: int
    number: int
    of: int
    points: int


class Layout:
    """The nodes of the live side."""

    def __init__(self, schema: Schema, body: Body) -> None:
        forest = Forest(schema)
        self.measures, self.arities, self.points = forest.measures, forest.arities, body.points
        self.trees: list[Tree] = forest.trees(body.points, body.width())
        self.numbers, self.width = forest.numbers, body.width()
        self.pages = sum(tree.pages for tree in self.trees)

    # ---- nodes

    def room(self, tree: int) -> int:
        """How many children an inner page has room for."""
        return ENTRIES // (2 * self.width * self.trees[tree].dimensions + 8)

    def size(self, tree: int, height: int, leaves: int) -> int:
        """The pages of a node of this height over this many leaves: its own and all below it."""
        return sum(-(-leaves // self.room(tree) ** level) for level in range(height + 1))

    def node(self, tree: int, height: int, leaf: int, leaves: int, first: int) -> Node:
        """A node whose pages begin with this one."""
        return Node(tree, height, leaf, leaves, first, first + self.size(tree, height, leaves) - 1)

    def top(self, tree: int) -> Node:
        """The top of a tree, which has pages."""
        leaves, height = sum(self.leaves(view) for view in self.views(tree)), 0
        while self.room(tree) ** height < leaves:
            height += 1
        return self.node(tree, height, 0, leaves, self.trees[tree].first)

    def child(self, node: Node, place: int) -> Node:
        """A node under an inner one; all but the last one are full."""
        height, most = node.height - 1, self.room(node.tree) ** (node.height - 1)
        leaf, first = most * place, self.size(node.tree, height, most) * place
        return self.node(
            node.tree, height, node.leaf + leaf, min(most, node.leaves - leaf), node.first + first
        )

    def children(self, node: Node) -> Iterator[Node]:
        """The nodes under an inner one."""
        most = self.room(node.tree) ** (node.height - 1)
        return (self.child(node, place) for place in range(-(-node.leaves // most)))

    def node_at(self, page: int) -> Node:
        """The node that a page is, which is not after the last tree."""
        number = max(
            number for number, tree in enumerate(self.trees) if tree.pages and tree.first <= page
        )
        node = self.top(number)
        while node.page != page:
            full = self.size(number, node.height - 1, self.room(number) ** (node.height - 1))
            node = self.child(node, (page - node.first) // full)
        return node

    # ---- leaves

    def views(self, tree: int) -> list[int]:
        """The views of a tree, by rising arity."""
        return sorted(
            (view for view, number in enumerate(self.numbers) if number == tree),
            key=lambda view: self.arities[view],
        )

    def leaf_room(self, view: int) -> int:
        """How many points a leaf of a view has room for."""
        return leaf_room(self.arities[view], self.measures, self.width)

    def leaves(self, view: int) -> int:
        """How many leaves a view has."""
        return -(-self.points[view] // self.leaf_room(view))

    def leaf(self, node: Node) -> Leaf:
        """What a node of height 0 is among the leaves of its view."""
        number = node.leaf
        for view in self.views(node.tree):
            if number < self.leaves(view):
                room = self.leaf_room(view)
                return Leaf(
                    view, number, self.leaves(view), min(room, self.points[view] - room * number)
                )
            number -= self.leaves(view)
        raise AssertionError("a leaf is of a view")

    def views_below(self, node: Node) -> list[int]:
        """The views that have leaves below a node."""
        found, first = [], 0
        for view in self.views(node.tree):
            if first < node.leaf + node.leaves and node.leaf < first + self.leaves(view):
                found.append(view)
            first += self.leaves(view)
        return found

    def page_of(self, view: int, number: int) -> int:
        """The page of a leaf of a view."""
        tree = self.numbers[view]
        others = self.views(tree)
        leaf = number + sum(self.leaves(each) for each in others[: others.index(view)])
        node = self.top(tree)
        while node.height:
            node = self.child(node, (leaf - node.leaf) // self.room(tree) ** (node.height - 1))
        return node.page
