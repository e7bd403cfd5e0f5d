"""The content of a warehouse's files in both formats, read and written by docs/FORMATS.md alone.

It is independent of python/cubetree/format on purpose, and shares no code with it.
"""
import collections
import re
import struct
from typing import Dict, Iterable, List, NamedTuple, Optional, Sequence, Tuple, Union

PAGE = 4096
GREATEST = {
    "facts": 1 << 40,
    "mass": (1 << 127) - 1,
    "names": 1 << 48,
    "number": (1 << 63) - 1,
    "coordinate": (1 << 64) - 1,
}
NARROW, WIDE = 1, 2
ATTRIBUTE_OR_MEASURE = re.compile(
    rb"attr ([a-z][a-z0-9_]{0,31}) (?:number|text max ([1-9][0-9]*))"
    rb"|measure ([a-z][a-z0-9_]{0,31})"
)

Point = Tuple[int, ...]
Box = List[Tuple[int, int]]  # for each dimension the low and the high end
Value = Union[bytes, int]


class Damage(Exception):
    """Damage of a file at an offset, or of a page."""


def number(data: bytes) -> int:
    return int.from_bytes(data, "big")


def signed(data: bytes) -> int:
    return int.from_bytes(data, "big", signed=True)


def bytes_of(value: int, length: int) -> bytes:
    return value.to_bytes(length, "big", signed=value < 0)


class Schema:
    """The schema of a canonical text; ValueError where it is none."""

    def __init__(self, text: bytes) -> None:
        # An attribute is its name and its max, which is 0 for numbers. A view is the places of its
        # attributes.
        self.attributes: List[Tuple[bytes, int]] = []
        self.measures: List[bytes] = []
        self.views: List[List[int]] = []
        if not text.endswith(b"\n"):
            raise ValueError
        for line in text[:-1].split(b"\n"):
            self.take(line)
        if not (self.attributes and self.measures and self.views):
            raise ValueError

    def take(self, line: bytes) -> None:
        named = ATTRIBUTE_OR_MEASURE.fullmatch(line)
        known = [name for name, _ in self.attributes] + self.measures
        if named:
            name = named[1] or named[3]
            if name in known or self.views or (named[1] and self.measures):
                raise ValueError
            if named[3]:
                self.measures.append(name)
            else:
                self.attributes.append((name, int(named[2] or 0)))
        else:
            self.take_view(line)
        is_wide = any(most >= 1 << 24 for _, most in self.attributes)
        if len(self.attributes) > 16 or len(self.measures) > 4 or is_wide:
            raise ValueError

    def take_view(self, line: bytes) -> None:
        if line != b"view" and not line.startswith(b"view "):
            raise ValueError
        names = [name for name, _ in self.attributes]
        view = [names.index(name) for name in line[5:].split(b",")] if line != b"view" else []
        if len(set(view)) < len(view) or len(view) > 8:
            raise ValueError
        if view in self.views or len(self.views) == 32:
            raise ValueError
        self.views.append(view)


class Body:
    """A body of the root file for a slot; ValueError where it does not decode."""

    def __init__(self, data: bytes, slot: int) -> None:
        self.slot = slot
        self.format, self.views = number(data[8:10]), number(data[10:12])
        self.text, self.generation = number(data[12:16]), number(data[16:24])
        self.names, self.facts = number(data[24:32]), number(data[32:40])
        self.masses = [number(data[at : at + 16]) for at in range(40, 104, 16)]
        self.points = [number(data[at : at + 8]) for at in range(104, 360, 8)]
        self.last = number(data[360:368])
        keeps = (
            data[:8] == b"CUBETREE"
            and self.format in (NARROW, WIDE)
            and 1 <= self.views <= 32
            and self.text <= self.names <= GREATEST["names"]
            and self.facts <= GREATEST["facts"]
            and self.generation < self.facts + self.format
            and self.generation % 2 == slot
            and self.last <= self.facts
            and max(self.masses) <= GREATEST["mass"]
            and max(self.points) <= self.facts
            and not any(self.points[self.views :])
            and not any(data[368:])
        )
        if not keeps:
            raise ValueError


Part = Tuple[int, int, int]  # the sum, the least and the greatest value


class Cell(NamedTuple):
    """How many facts a point has, and a part for each measure."""

    facts: int
    parts: Tuple[Part, ...]


class Entry(NamedTuple):
    at: Point
    cell: Cell


Entries = Dict[Point, Optional[Cell]]  # the points of a tree; None if the cells do not join
Child = Tuple[Box, int]  # a box, and the page below it
Held = Tuple[List[Entry], List[Child]]  # the points of a leaf, or the children of an inner page
# The content of the pages that were read: most pages are read again and again.
READ: Dict[Tuple[int, int, int, int, bytes], Optional[Held]] = {}


def joined(one: Cell, other: Cell) -> Optional[Cell]:
    """The join of two cells, or None if they do not join."""
    facts = one.facts + other.facts
    parts = tuple(
        (p[0] + q[0], min(p[1], q[1]), max(p[2], q[2])) for p, q in zip(one.parts, other.parts)
    )
    fits = facts < 1 << 64 and all(-(1 << 127) <= part[0] < 1 << 127 for part in parts)
    return Cell(facts, parts) if fits else None


def joined_at(entries: Entries, at: Point, cell: Optional[Cell]) -> Optional[Cell]:
    """The cell of a point after another cell of it has come."""
    if at not in entries:
        return cell
    there = entries[at]
    return joined(there, cell) if there and cell else None


def order(point: Point) -> Point:
    """What the points of a tree are ordered by: the last coordinate first, unused ones as zero."""
    return tuple(reversed(point + (0,) * (8 - len(point))))


class Node:
    """A page of a tree as it should be: a leaf of `points` points, or an inner page over others."""

    def __init__(self, arity: int, points: int, below: "Sequence[Node]") -> None:
        self.arity, self.points, self.below, self.page = arity, points, below, 0


class Tree:
    """A tree of some views in a format: where its pages are, what is lawful in them, and how they
    are written."""

    def __init__(
        self,
        views: Sequence[List[int]],
        counts: Sequence[int],
        measures: int,
        first: int,
        form: int,
    ) -> None:
        self.views, self.measures, self.first = views, measures, first
        self.counts = {len(view): count for view, count in zip(views, counts)}
        self.dims = max(map(len, views))
        self.width, self.kinds = (4, (1, 2)) if form == NARROW else (8, (3, 4))
        self.child_size = 2 * self.width * self.dims + 8
        self.room = (PAGE - 8) // self.child_size
        level = sum(-(-count // self.leaf_room(arity)) for arity, count in self.counts.items())
        self.pages = level
        while level > 1:
            level = -(-level // self.room)
            self.pages += level

    def entry_size(self, arity: int) -> int:
        return self.width * arity + 8 + 48 * self.measures

    def leaf_room(self, arity: int) -> int:
        return (PAGE - 8) // self.entry_size(arity)

    def coordinates(self, data: bytes, at: int, count: int) -> Point:
        return struct.unpack_from(f">{count}{'I' if self.width == 4 else 'Q'}", data, at)

    def leaf(self, data: bytes) -> Optional[List[Entry]]:
        """The entries of a lawful leaf, or None."""
        arity, count = data[1], number(data[2:4])
        size = self.entry_size(arity)
        if arity > self.dims or not 1 <= count <= self.leaf_room(arity):
            return None
        if any(data[4:8]) or any(data[8 + size * count :]):
            return None
        entries = []
        for at in range(8, 8 + size * count, size):
            point = self.coordinates(data, at, arity)
            rest = at + self.width * arity
            numbers = [signed(data[i : i + 16]) for i in range(rest + 8, at + size, 16)]
            parts = tuple(zip(numbers[::3], numbers[1::3], numbers[2::3]))
            cell = Cell(number(data[rest : rest + 8]), parts)
            if 0 in point or not cell.facts or any(low > high for _, low, high in parts):
                return None
            entries.append(Entry(point, cell))
        keys = [order(entry.at) for entry in entries]
        return entries if all(a < b for a, b in zip(keys, keys[1:])) else None

    def inner(self, data: bytes, page: int) -> Optional[List[Child]]:
        """The children of a lawful inner page, or None."""
        count, size = number(data[2:4]), self.child_size
        if data[1] != self.dims or not 1 <= count <= self.room:
            return None
        if any(data[4:8]) or any(data[8 + size * count :]):
            return None
        children = []
        for at in range(8, 8 + size * count, size):
            ends = self.coordinates(data, at, 2 * self.dims)
            box = list(zip(ends[::2], ends[1::2]))
            if any(low > high for low, high in box):
                return None
            children.append((box, number(data[at + size - 8 : at + size])))
        numbers = [child for _, child in children] + [page]
        return children if all(a < b for a, b in zip(numbers, numbers[1:])) else None

    def page(self, side: bytes, page: int) -> Optional[Held]:
        """The entries and the children of a page, or None if it is not lawful."""
        data = side[PAGE * page : PAGE * page + PAGE]
        key = self.dims, self.measures, self.width, page, data
        if key not in READ:
            READ[key] = self.read_page(data, page)
        return READ[key]

    def read_page(self, data: bytes, page: int) -> Optional[Held]:
        leaf, inner = self.kinds
        if data[0] == leaf:
            entries = self.leaf(data)
            return None if entries is None else (entries, [])
        children = self.inner(data, page) if data[0] == inner else None
        return None if children is None else ([], children)

    def search(self, side: bytes, region: Box) -> List[Entry]:
        """The points of all pages that a search goes to. Damage names a page that is not lawful, or
        one more than the tree has."""
        found: List[Entry] = []
        ahead, seen = [self.first + self.pages - 1] if self.pages else [], 0
        while ahead:
            page = ahead.pop()
            held = self.page(side, page)
            if seen == self.pages or held is None:
                raise Damage(page)
            if any(child < self.first for _, child in held[1]):
                raise Damage(page)
            seen += 1
            found += held[0]
            ahead += reversed([child for box, child in held[1] if do_meet(box, region)])
        return found

    def merged(self, side: bytes, delta: Entries) -> Entries:
        """The points of the tree with these ones joined. Damage names a page that is not lawful,
        does not follow those before it, or has a cell that does not join; or the first page, if an
        arity has not as many points as are counted."""
        entries: Entries = {}
        last: Point = ()
        counts: "collections.Counter[int]" = collections.Counter()
        for page in range(self.first, self.first + self.pages):
            held = self.page(side, page)
            if held is None or (held[0] and order(held[0][0].at) <= last):
                raise Damage(page)
            for entry in held[0]:
                last = order(entry.at)
                counts[len(entry.at)] += 1
                entries[entry.at] = joined_at(delta, entry.at, entry.cell)
                if entries[entry.at] is None:
                    raise Damage(page)
        if any(counts[arity] != self.counts.get(arity, 0) for arity in range(9)):
            raise Damage(self.first)
        return {**delta, **entries}

    # ---- the pages of a tree, by the numbers of its points alone

    def nodes(self) -> List[Node]:
        """The pages of the tree as they should be, in order."""
        level: List[Node] = []
        for arity in sorted(self.counts):
            room, points = self.leaf_room(arity), self.counts[arity]
            level += [Node(arity, min(room, points - at), []) for at in range(0, points, room)]
        while len(level) > 1:
            firsts = range(0, len(level), self.room)
            level = [Node(self.dims, 0, level[at : at + self.room]) for at in firsts]
        nodes: List[Node] = []
        for top in level:
            self.place(top, nodes)
        return nodes

    def place(self, node: Node, nodes: List[Node]) -> None:
        """Adds the pages below a node, and then its own."""
        for child in node.below:
            self.place(child, nodes)
        node.page = self.first + len(nodes)
        nodes.append(node)

    # ---- the bytes of pages, from whole lists

    def packed(self, entries: Dict[Point, Cell]) -> bytes:
        """The bytes of all pages over these points and their cells."""
        pages: List[bytes] = []
        boxes: Dict[int, Box] = {}
        left = {
            arity: iter(sorted((at for at in entries if len(at) == arity), key=order))
            for arity in self.counts
        }
        for node in self.nodes():
            if node.below:
                children = [(boxes[child.page], child.page) for child in node.below]
                boxes[node.page] = around([box for box, _ in children])
                pages.append(self.inner_bytes(children))
            else:
                points = [next(left[node.arity]) for _ in range(node.points)]
                boxes[node.page] = self.box(points)
                pages.append(self.leaf_bytes(node.arity, [Entry(at, entries[at]) for at in points]))
        return b"".join(pages)

    def box(self, points: Sequence[Point]) -> Box:
        """The least box around some points of one arity."""
        padded = [at + (0,) * (self.dims - len(at)) for at in points]
        return [(min(ends), max(ends)) for ends in zip(*padded)]

    def leaf_bytes(self, arity: int, entries: Sequence[Entry]) -> bytes:
        return self.page_bytes(self.kinds[0], arity, [self.entry_bytes(entry) for entry in entries])

    def inner_bytes(self, children: Sequence[Child]) -> bytes:
        rows = [
            self.coded(end for ends in box for end in ends) + bytes_of(page, 8)
            for box, page in children
        ]
        return self.page_bytes(self.kinds[1], self.dims, rows)

    def page_bytes(self, kind: int, arity: int, rows: Sequence[bytes]) -> bytes:
        header = bytes([kind, arity]) + bytes_of(len(rows), 2) + bytes(4)
        return (header + b"".join(rows)).ljust(PAGE, b"\0")

    def coded(self, coordinates: Iterable[int]) -> bytes:
        return b"".join(bytes_of(each, self.width) for each in coordinates)

    def entry_bytes(self, entry: Entry) -> bytes:
        numbers = b"".join(bytes_of(each, 16) for part in entry.cell.parts for each in part)
        return self.coded(entry.at) + bytes_of(entry.cell.facts, 8) + numbers


def around(boxes: Sequence[Box]) -> Box:
    """The least box around some boxes."""
    return [(min(low for low, _ in ends), max(high for _, high in ends)) for ends in zip(*boxes)]


def do_meet(one: Box, other: Box) -> bool:
    """Whether two boxes have a point in common."""
    return all(max(a, c) <= min(b, d) for (a, b), (c, d) in zip(one, other))


def trees_of(schema: Schema, points: Sequence[int], form: int) -> List[Tree]:
    """The trees of a schema whose views have these numbers of points."""
    trees: List[Tree] = []
    first = 0
    numbers = [number_of(schema, view) for view in range(len(schema.views))]
    for tree in range(max(numbers) + 1):
        own = [view for view, at in enumerate(numbers) if at == tree]
        views, counts = [schema.views[v] for v in own], [points[v] for v in own]
        trees.append(Tree(views, counts, len(schema.measures), first, form))
        first += trees[-1].pages
    return trees


def number_of(schema: Schema, view: int) -> int:
    """The number of a view's tree: how many views before it have its arity."""
    return sum(len(other) == len(schema.views[view]) for other in schema.views[:view])


# ---- opening files


class Opened:
    """The content of files as they are opened: the live body, the schema, the names of each
    attribute and the trees. Damage names the place of the first broken rule."""

    def __init__(self, files: Sequence[bytes], body: Body) -> None:
        names, self.body, self.side = files[1], body, 2 + body.slot
        if len(names) < body.names:
            raise Damage(1, len(names))
        try:
            self.schema = Schema(names[: body.text])
        except ValueError:
            raise Damage(1, 0) from None
        if body.views != len(self.schema.views) or any(body.masses[len(self.schema.measures) :]):
            raise Damage(0, 1024 * body.slot)
        self.read_names(names)
        self.points = body.points[: body.views]
        self.trees = trees_of(self.schema, self.points, body.format)
        if len(files[self.side]) < PAGE * sum(tree.pages for tree in self.trees):
            raise Damage(self.side, len(files[self.side]))

    def read_names(self, names: bytes) -> None:
        # The names of each attribute, each with its place among them.
        self.names: List[Dict[bytes, int]] = [{} for _ in self.schema.attributes]
        at = self.body.text
        while at < self.body.names:
            end = at + 2 + (names[at + 1] if at + 1 < self.body.names else 0)
            attribute, text = names[at], names[at + 2 : end]
            most = self.schema.attributes[attribute][1] if attribute < len(self.names) else 0
            if end > self.body.names or most == 0:
                raise Damage(1, at)
            if text in self.names[attribute] or len(self.names[attribute]) == most:
                raise Damage(1, at)
            self.names[attribute][text] = len(self.names[attribute])
            at = end


def opened(files: Sequence[bytes]) -> Optional[Opened]:
    """The content of files, or None if no schema is declared."""
    root, bodies = files[0], []
    for slot in (0, 1):
        data = root[1024 * slot : 1024 * slot + 1024]
        if root[2048 + slot : 2049 + slot] == b"\1" and data.startswith(b"CUBETREE"):
            try:
                bodies.append(Body(data, slot))
            except ValueError:
                raise Damage(0, 1024 * slot) from None
    return Opened(files, max(bodies, key=lambda body: body.generation)) if bodies else None


# ---- making warehouses


def added(
    schema: Schema,
    names: Sequence[Sequence[bytes]],
    rows: Sequence[Sequence[Value]],
    trees: Sequence[Tree],
) -> List[Entries]:
    """The points of rows and their cells, for each tree. `names` has the names of each attribute in
    the order in which they came."""
    deltas = []
    for tree in trees:
        delta: Entries = {}
        for view in tree.views:
            for row in rows:
                point = tuple(code_of(names[a], row[a]) for a in view)
                delta[point] = joined_at(delta, point, fact_cell(row[len(schema.attributes) :]))
        deltas.append(delta)
    return deltas


def fact_cell(measures: Sequence[Value]) -> Cell:
    """The cell of one fact with these measures."""
    return Cell(1, tuple((measure, measure, measure) for measure in map(int, measures)))


def code_of(names: Sequence[bytes], value: Value) -> int:
    """The coordinate of a value."""
    return names.index(value) + 1 if isinstance(value, bytes) else value + 1


def made(text: bytes, rows: Sequence[Sequence[Value]], generation: int, form: int) -> List[bytes]:
    """The files of a warehouse with these rows, whose live body has this generation and format. The
    other slot has no body."""
    schema, entries = Schema(text), b""
    names: List[List[bytes]] = [[] for _ in schema.attributes]
    for row in rows:
        for a, value in enumerate(row[: len(names)]):
            if isinstance(value, bytes) and value not in names[a]:
                names[a].append(value)
                entries += bytes([a, len(value)]) + value
    deltas = added(schema, names, rows, trees_of(schema, [0] * len(schema.views), form))
    points = [
        sum(len(at) == len(view) for at in deltas[number_of(schema, v)])
        for v, view in enumerate(schema.views)
    ]
    masses = [
        sum(abs(int(row[len(names) + m])) for row in rows) for m in range(len(schema.measures))
    ]
    whole = [{at: cell for at, cell in delta.items() if cell} for delta in deltas]
    trees = trees_of(schema, points, form)
    side = b"".join(tree.packed(delta) for tree, delta in zip(trees, whole))
    body = b"CUBETREE" + bytes_of(form, 2) + bytes_of(len(points), 2) + bytes_of(len(text), 4)
    body += bytes_of(generation, 8) + bytes_of(len(text + entries), 8) + bytes_of(len(rows), 8)
    body += b"".join(bytes_of(each, 16) for each in masses).ljust(64, b"\0")
    body += b"".join(bytes_of(each, 8) for each in points)
    slot = generation % 2
    root = (bytes(1024 * slot) + body).ljust(2048 + slot, b"\0") + b"\1"
    return [root, text + entries, *((side, b"") if slot == 0 else (b"", side))]
