"""The trees of a schema, by the rules of docs/FORMATS.md: where they stand in a side, and how
many pages they have."""
from __future__ import annotations

from typing import NamedTuple, Sequence

from ..schema import Schema

PAGE, ENTRIES = 4096, 4088  # the bytes of a page, and those after its header
NARROW, WIDE = 4, 8  # the bytes of a coordinate in the two formats


class Tree(NamedTuple):
    """A tree: its first page in the side, how many it has, its dimensions, and the bytes of a
    coordinate."""

    first: int
    pages: int
    dimensions: int
    width: int


def leaf_room(arity: int, measures: int, width: int) -> int:
    """How many points of an arity a page has room for."""
    return ENTRIES // (width * arity + 8 + 48 * measures)


class Forest:
    """The trees of a schema. A view stands in the tree with the number of views of its arity
    before it."""

    def __init__(self, schema: Schema) -> None:
        self.measures = len(schema.measures)
        self.arities = [len(view.split(",")) if view else 0 for view in schema.views]
        self.numbers = [
            self.arities[:place].count(arity) for place, arity in enumerate(self.arities)
        ]

    def trees(self, points: Sequence[int], width: int) -> list[Tree]:
        """All trees with these points in the views, whose coordinates have this width."""
        trees, first = [], 0
        for number in range(max(self.numbers) + 1):
            views = [
                (arity, count)
                for arity, count, tree in zip(self.arities, points, self.numbers)
                if tree == number
            ]
            trees.append(self.tree(first, views, width))
            first += trees[-1].pages
        return trees

    def tree(self, first: int, views: list[tuple[int, int]], width: int) -> Tree:
        """The tree of these views, which are an arity and a number of points each."""
        dimensions = max(arity for arity, _ in views)
        level = pages = sum(
            -(-count // leaf_room(arity, self.measures, width)) for arity, count in views
        )
        while level > 1:
            level = -(-level // (ENTRIES // (2 * width * dimensions + 8)))
            pages += level
        return Tree(first, pages, dimensions, width)

    def pages(self, points: Sequence[int], width: int) -> int:
        """The pages of all trees."""
        return sum(tree.pages for tree in self.trees(points, width))
