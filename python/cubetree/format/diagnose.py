"""A look at the place that an audit names: which page of which view it is, and which rule is
broken there. It follows docs/FORMATS.md without the program, and reads no more of the files than
the rule needs."""
from __future__ import annotations

import itertools
import os
import struct
from typing import BinaryIO, Callable, Iterator, NamedTuple, Optional, Sequence

from ..errors import FILES
from ..schema import Schema
from ..ui import counted
from .files import BODY, kept_names, live_body, number
from .forest import NARROW, PAGE
from .nodes import Layout, Leaf, Node

Point = tuple[int, ...]
Cell = tuple[int, ...]  # the facts, and for each measure the sum, the least and the greatest value
Box = tuple[int, ...]  # for each dimension the low and the high end
MOST_FACTS, MOST_NAMES, GREATEST_MASS, GREATEST_NUMBER = (
    1 << 40,
    1 << 48,
    (1 << 127) - 1,
    (1 << 63) - 1,
)


class Found(NamedTuple):
    """What stands at a place, and which rule is broken there; no rule where the look finds none."""

    what: str
    rule: str


# ---- the root, and the names


def look_at_root(folder: str, offset: int) -> Found:
    """A body of the root that does not decode, or does not agree with the schema."""
    slot = min(offset // BODY, 1)
    with opened(folder, "root") as file:
        body = file.read(2 * BODY)[BODY * slot :][:BODY]
    return Found(
        f"body {slot} of the root file", body_fault(body, slot) or schema_fault(folder, body)
    )


def body_fault(body: bytes, slot: int) -> str:
    """The first bound that a body breaks."""
    form, views, text, generation, names, facts = (
        number(body[a:b]) for a, b in ((8, 10), (10, 12), (12, 16), (16, 24), (24, 32), (32, 40))
    )
    masses = [number(body[place : place + 16]) for place in range(40, 104, 16)]
    points = [number(body[place : place + 8]) for place in range(104, 360, 8)]
    for is_broken, rule in [
        (len(body) < BODY, "it has fewer than 1,024 bytes"),
        (body[:8] != b"CUBETREE", "it does not begin with CUBETREE"),
        (form not in (1, 2), f"its format is {form}; there are 1 and 2"),
        (not 1 <= views <= 32, f"it counts {counted(views, 'view')}; there are 1 to 32"),
        (text > names, "the schema's text is longer than the names that count"),
        (names > MOST_NAMES, "it counts more names than there may be"),
        (facts > MOST_FACTS, "it counts more facts than there may be"),
        (generation > facts + (form == 2), "its generation is above its facts"),
        (generation % 2 != slot, "its generation is one of the other slot"),
        (max(masses) > GREATEST_MASS, "a mass is above the greatest one"),
        (max(points) > facts, "a view has more points than there are facts"),
        (any(points[views:]), "a view that the schema does not have has points"),
        (number(body[360:368]) > facts, "the number of the last batch is above the facts"),
        (any(body[368:]), "a byte after its fields is not zero"),
    ]:
        if is_broken:
            return rule
    return ""


def schema_fault(folder: str, body: bytes) -> str:
    """Where a body that decodes differs from the schema."""
    schema, views = schema_of(folder, number(body[12:16])), number(body[10:12])
    if views != len(schema.views):
        return f"it counts {counted(views, 'view')}; the schema has {len(schema.views)}"
    return (
        "a measure that the schema does not have has a mass"
        if any(body[40 + 16 * len(schema.measures) : 104])
        else ""
    )


def schema_of(folder: str, size: int) -> Schema:
    """The schema whose canonical text is this long."""
    with opened(folder, "names") as file:
        return Schema(file.read(size).decode("ascii", "replace").split("\n"))


def look_at_names(folder: str, offset: int) -> Found:
    """The names file where it is too short, has no schema, or has a faulty entry."""
    body = live_body(folder)
    with opened(folder, "names") as file:
        text = file.read(min(body.names, os.fstat(file.fileno()).st_size))
    if len(text) < body.names:
        return Found("the names file", f"it has {len(text):,} bytes; {body.names:,} count")
    if offset < max(body.text, 1):
        return Found(
            "the schema in the names file",
            "" if offset else "it is not the canonical text of a schema",
        )
    schema, place, seen = schema_of(folder, body.text), body.text, []
    while place < offset:
        seen.append((text[place], text[place + 2 : place + 2 + text[place + 1]]))
        place += 2 + len(seen[-1][1])
    rule = name_fault(schema, text[offset:], seen) if place == offset < len(text) else ""
    return Found(f"the name at byte {offset:,} of the names file", rule)


def name_fault(schema: Schema, entry: bytes, seen: list[tuple[int, bytes]]) -> str:
    """What is wrong with the name at the front of these bytes, after those that were seen."""
    if len(entry) < 2 or len(entry) < 2 + entry[1]:
        return "it ends after the bytes that count"
    if entry[0] >= len(schema.attributes) or schema.attributes[entry[0]] in schema.numbers:
        return f"the attribute with the number {entry[0]} has no texts"
    name = schema.attributes[entry[0]]
    if (entry[0], entry[2 : 2 + entry[1]]) in seen:
        return f"{name} has this text already"
    return (
        f"{name} has more texts than its max"
        if sum(attribute == entry[0] for attribute, _ in seen) >= int(schema.maxima[entry[0]])
        else ""
    )


# ---- the side


class SideLook:
    """The live side of a folder whose root and names are lawful."""

    def __init__(self, folder: str, side: BinaryIO) -> None:
        self.body, self.side = live_body(folder), side
        self.schema = schema_of(folder, self.body.text)
        self.layout = Layout(self.schema, self.body)
        self.coordinate, self.is_narrow = (
            "I" if self.layout.width == NARROW else "Q"
        ), self.layout.width == NARROW
        self.views = [view.split(",") if view else [] for view in self.schema.views]
        self.names: dict[str, list[bytes]] = {name: [] for name in self.schema.attributes}
        for attribute, text in kept_names(folder, self.body):
            self.names[self.schema.attributes[attribute]].append(text)

    def found(self, offset: int) -> Found:
        """What stands at an offset, and which rule is broken there."""
        size = os.fstat(self.side.fileno()).st_size
        if size < PAGE * self.layout.pages:
            return Found(
                "the whole file",
                (
                    f"it has {size:,} bytes; its {counted(self.layout.pages, 'page')} have"
                    f" {PAGE * self.layout.pages:,}"
                ),
            )
        if offset % PAGE or offset >= PAGE * self.layout.pages:
            return (
                Found(f"byte {offset:,}, where no page begins", "")
                if offset
                else self.found_without_leaf()
            )
        node = self.layout.node_at(offset // PAGE)
        rule = self.page_fault(node)
        if not rule and node.height == 0 and self.layout.leaf(node).number == 0:
            rule = self.view_fault(self.layout.leaf(node).view)
        if not rule and offset == 0:
            return self.found_without_leaf(self.title(node))
        return Found(self.title(node), rule)

    def found_without_leaf(self, title: str = "the side, which has no pages") -> Found:
        """The first view without points whose counts do not add up or whose points are missing."""
        for view, points in enumerate(self.body.points[: len(self.views)]):
            rule = "" if points else self.view_fault(view)
            if rule:
                return Found(f"the view {self.called(view)}, which has no leaf", rule)
        return Found(title, "")

    def called(self, view: int) -> str:
        """A view as it is shown."""
        return f"({self.schema.views[view]})"

    def title(self, node: Node) -> str:
        """Which page a node is."""
        head = f"page {node.page:,} of {self.layout.pages:,}"
        if node.height:
            below = [self.called(view) for view in self.layout.views_below(node)]
            return (
                f"{head}, an inner page over {counted(node.leaves, 'leaf', 'leaves')} of"
                f" {'the view' if len(below) == 1 else 'the views'} {', '.join(below)}"
            )
        leaf = self.layout.leaf(node)
        return (
            f"{head}, leaf {leaf.number + 1:,} of {leaf.of:,} of the view {self.called(leaf.view)}"
        )

    # ---- a page by itself

    def page(self, number: int) -> bytes:
        """The bytes of a page."""
        self.side.seek(PAGE * number)
        return self.side.read(PAGE)

    def page_fault(self, node: Node) -> str:
        """The first rule that a page breaks, after the pages before it; nothing where it breaks
        none."""
        return (
            self.inner_fault(node) if node.height else self.leaf_fault(node, self.layout.leaf(node))
        )

    def head_fault(
        self, page: bytes, kind: int, dimensions: int, count: int, size: int, what: str
    ) -> str:
        """What is wrong with the header of a page, or after its entries."""
        if page[0] != kind or page[1] != dimensions:
            return f"its header is not that of {what}"
        if number(page[2:4]) != count:
            return (
                f"it has {counted(number(page[2:4]), 'entry', 'entries')}; the numbers of points"
                f" ask for {count:,}"
            )
        return (
            "a byte that has to be zero is not"
            if any(page[4:8]) or any(page[8 + size * count :])
            else ""
        )

    def leaf_fault(self, node: Node, leaf: Leaf) -> str:
        """The first rule that a leaf breaks."""
        arity = len(self.views[leaf.view])
        rule = self.head_fault(
            self.page(node.page),
            1 if self.is_narrow else 3,
            arity,
            leaf.points,
            self.entry(arity).size,
            f"a leaf of {counted(arity, 'attribute')}",
        )
        if rule:
            return rule
        entries = list(self.entries(node.page, leaf))
        points = [point[::-1] for point, _ in entries]
        if any(0 in point for point in points):
            return "a coordinate is zero"
        if any(first >= second for first, second in zip(points, points[1:])):
            return "its points do not ascend"
        if any(
            not cell[0] or any(least > most for least, most in zip(cell[2::3], cell[3::3]))
            for _, cell in entries
        ):
            return "a point has no fact, or a least value above its greatest"
        if leaf.number and self.last_point(leaf) >= points[0]:
            return "its points do not come after those of the view's leaf before it"
        return self.value_fault(leaf.view, [point for point, _ in entries])

    def value_fault(self, view: int, points: Sequence[Point]) -> str:
        """The first coordinate that is that of no value."""
        for name, coordinates in zip(self.views[view], zip(*points)):
            most = GREATEST_NUMBER + 1 if name in self.schema.numbers else len(self.names[name])
            if max(coordinates) > most:
                return (
                    f"a coordinate of {name} is {max(coordinates):,}; those of its values go up to"
                    f" {most:,}"
                )
        return ""

    def last_point(self, leaf: Leaf) -> Point:
        """The last point of the view's leaf before one, by the last attribute first."""
        before = self.layout.node_at(self.layout.page_of(leaf.view, leaf.number - 1))
        return list(self.entries(before.page, self.layout.leaf(before)))[-1][0][::-1]

    def entry(self, arity: int) -> struct.Struct:
        """The form of a leaf's entry."""
        return struct.Struct(">" + self.coordinate * arity + "Q" + "16s" * 3 * self.layout.measures)

    def entries(self, page: int, leaf: Leaf) -> Iterator[tuple[Point, Cell]]:
        """The points of a leaf with their cells, as many as the layout has there."""
        arity = len(self.views[leaf.view])
        form = self.entry(arity)
        for values in form.iter_unpack(self.page(page)[8 : 8 + form.size * leaf.points]):
            yield values[:arity], (
                values[arity],
                *(int.from_bytes(each, "big", signed=True) for each in values[arity + 1 :]),
            )

    # ---- an inner page, from its children

    def inner_fault(self, node: Node) -> str:
        """The first rule that an inner page breaks."""
        dimensions, children = self.layout.trees[node.tree].dimensions, list(
            self.layout.children(node)
        )
        kind, size, what = (
            2 if self.is_narrow else 4,
            self.child(dimensions).size,
            f"an inner page of {counted(dimensions, 'dimension')}",
        )
        rule = self.head_fault(self.page(node.page), kind, dimensions, len(children), size, what)
        if rule:
            return rule
        for place, (child, found) in enumerate(zip(children, self.boxes(node)), 1):
            if found[-1] != child.page:
                return (
                    f"its entry {place} names the page {found[-1]:,}; the child is the page"
                    f" {child.page:,}"
                )
            if found[:-1] != self.box(child, dimensions):
                return (
                    f"its entry {place} does not have the least box of the points below page"
                    f" {child.page:,}"
                )
        return ""

    def child(self, dimensions: int) -> struct.Struct:
        """The form of an inner page's entry."""
        return struct.Struct(">" + self.coordinate * 2 * dimensions + "Q")

    def boxes(self, node: Node) -> Iterator[tuple[int, ...]]:
        """The entries of an inner page, as many as the layout has there: each has the ends of a
        box, and then a page."""
        form, count = self.child(self.layout.trees[node.tree].dimensions), len(
            list(self.layout.children(node))
        )
        return form.iter_unpack(self.page(node.page)[8 : 8 + form.size * count])

    def box(self, node: Node, dimensions: int) -> Box:
        """The least box of the points below a page, by its own entries."""
        if node.height:
            ends = list(zip(*self.boxes(node)))[:-1]
            return tuple(max(each) if place % 2 else min(each) for place, each in enumerate(ends))
        points = (
            point + (0,) * (dimensions - len(point))
            for point, _ in self.entries(node.page, self.layout.leaf(node))
        )
        return tuple(end for each in zip(*points) for end in (min(each), max(each)))

    # ---- a view beside finer ones

    def points(self, view: int) -> Iterator[tuple[Point, Cell]]:
        """All points of a view, in order."""
        for number in range(self.layout.leaves(view)):
            page = self.layout.page_of(view, number)
            yield from self.entries(page, self.layout.leaf(self.layout.node_at(page)))

    def view_fault(self, view: int) -> str:
        """Where a view differs from the facts that are counted, or from a finer view."""
        held = dict(self.points(view))
        facts = sum(cell[0] for cell in held.values())
        if facts != self.body.facts:
            return f"its points have {counted(facts, 'fact')}; there are {self.body.facts:,}"
        finer = [
            other
            for other, names in enumerate(self.views)
            if other != view and set(self.views[view]) <= set(names)
        ]
        # Most damage shows in the smallest one already.
        for other in sorted(finer, key=lambda other: self.body.points[other]):
            rolled = self.rolled_up(
                other, [self.views[other].index(name) for name in self.views[view]]
            )
            if rolled != held:
                return (
                    f"its points are not those of the view {self.called(other)}, grouped by its"
                    f" attributes: {self.first_difference(view, held, rolled)}"
                )
        return ""

    def rolled_up(self, finer: int, places: Sequence[int]) -> dict[Point, Cell]:
        """The points of a view, grouped by the coordinates at these places."""
        groups: dict[Point, Cell] = {}
        for point, cell in self.points(finer):
            key = tuple(point[place] for place in places)
            groups[key] = joined(groups[key], cell) if key in groups else cell
        return groups

    def first_difference(
        self, view: int, held: dict[Point, Cell], rolled: dict[Point, Cell]
    ) -> str:
        """The first point at which a view differs from what it should have."""
        point = min(
            (each for each in held.keys() | rolled.keys() if held.get(each) != rolled.get(each)),
            key=lambda each: each[::-1],
        )
        where = " and ".join(
            f"{name}={self.value(name, code)}" for name, code in zip(self.views[view], point)
        )
        return (
            f"at {where or 'its one point'} it has {self.cell(held.get(point))} instead of"
            f" {self.cell(rolled.get(point))}"
        )

    def value(self, name: str, code: int) -> str:
        """The value of a coordinate, as it is shown."""
        if name in self.schema.numbers:
            return str(code - 1)
        names = self.names[name]
        return (
            ascii(names[code - 1].decode("utf-8", "backslashreplace"))
            if 0 < code <= len(names)
            else f"the coordinate {code:,}"
        )

    def cell(self, cell: Optional[Cell]) -> str:
        """A cell as it is shown."""
        if cell is None:
            return "no point"
        measures = (
            f"{name} {total} from {least} to {most}"
            for name, total, least, most in zip(
                self.schema.measures, cell[1::3], cell[2::3], cell[3::3]
            )
        )
        return f"{counted(cell[0], 'fact')} with {', '.join(measures)}"


def joined(one: Cell, other: Cell) -> Cell:
    """The cell of two points together."""
    ways: Iterator[Callable[[int, int], int]] = itertools.cycle((int.__add__, min, max))
    return (
        one[0] + other[0],
        *(way(left, right) for way, left, right in zip(ways, one[1:], other[1:])),
    )


def opened(folder: str, file: str) -> BinaryIO:
    """A file of a warehouse; one that is missing counts as empty."""
    path = os.path.join(folder, file)
    return open(path if os.path.exists(path) else os.devnull, "rb")


def look(folder: str, file: str, offset: int) -> Found:
    """What stands at a place, and which rule is broken there."""
    if file == FILES[0]:
        return look_at_root(folder, offset)
    if file == FILES[1]:
        return look_at_names(folder, offset)
    if file != f"side{live_body(folder).slot}":
        return Found(f"{file}, which is not live", "")
    with opened(folder, file) as side:
        return SideLook(folder, side).found(offset)
