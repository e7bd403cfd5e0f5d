"""Draws warehouses and their damage, for fuzz/audit-damage.

`cubetree` makes a warehouse in one to four batches, in format 1 or 2. Most changes are of one byte.
Others can be found by a later rule alone: they also rewrite the boxes above a changed leaf, or
change the cells of some views and not of all. The rest cut a file, exchange pages, or put back
files as they were.

It is independent of python/cubetree/format on purpose, and shares no code with it.
"""
import os
import random
import subprocess
import tempfile
from typing import Callable, Dict, List, NamedTuple, Optional, Tuple

from .forest import PAGE, Box, Cell, Entry, Node, Opened, Point, Tree, Value
from .forest import around, code_of, fact_cell, joined_at, number_of, opened
from .programs import program

PROGRAM = program("cubetree")
NAMES = ("root", "names", "side0", "side1")
SIZES = (1, 2, 5, 20, 60, 150, 300, 600)
NUMBERS = (0, 1, 2, 3, 7, 1997, 65535, 65536, 2**31, 2**32 - 3)
WIDE_NUMBERS = (2**32 - 2, 2**32 - 1, 2**32, 2**40, 2**63 - 1)
# The fields of a body, each by the place of the byte after it.
FIELDS = {
    8: "mark",
    10: "format",
    12: "views",
    16: "length of the schema",
    24: "generation",
    32: "length of the names",
    40: "facts",
    104: "masses",
    360: "points",
    368: "last batch",
    1024: "zeros",
}

Files = List[bytes]
Fact = Tuple[Value, ...]
Draw = random.Random


class Page(NamedTuple):
    """A page of the live side: its tree, its node there, and the view of a leaf."""

    tree: Tree
    node: Node
    view: int

    def entries(self) -> int:
        """How many entries it has."""
        return len(self.node.below) or self.node.points

    def numbers(self) -> List[Tuple[str, int]]:
        """The numbers of an entry, each with its size in bytes."""
        if self.node.below:
            return [("box", self.tree.width)] * 2 * self.tree.dims + [("page below", 8)]
        return (
            [("coordinate", self.tree.width)] * self.node.arity
            + [("count", 8)]
            + [("sum", 16), ("least", 16), ("greatest", 16)] * self.tree.measures
        )

    def size(self) -> int:
        """The size of an entry in bytes."""
        return sum(width for _, width in self.numbers())

    def used(self) -> int:
        """The size of the header and the entries."""
        return 8 + self.size() * self.entries()

    def field(self, at: int) -> str:
        """The name of the field that has this byte of the page."""
        kind = "inner page: " if self.node.below else "leaf: "
        if at < 8 or at >= self.used():
            return kind + ("header" if at < 8 else "zeros")
        fields = [field for field, width in self.numbers() for _ in range(width)]
        return kind + fields[(at - 8) % len(fields)]


class Warehouse:
    """Files after each command, the content of the last ones (None without a schema), the pages of
    the live side, and the facts."""

    def __init__(self, stages: List[Files], facts: List[Fact]) -> None:
        self.stages, self.files, self.facts = stages, stages[-1], facts
        self.there = opened(self.files)
        self.pages = pages_of(self.there) if self.there else []

    def called(self, file: int) -> str:
        """A word for a file."""
        if file < 2:
            return NAMES[file]
        return "live side" if self.there and file == self.there.side else "other side"

    def field(self, file: int, at: int) -> str:
        """The name of the field that has this byte of a file."""
        there, page = self.there, at // PAGE
        if there is None:
            return "no schema"
        if file == 0:
            return root_field(there, at)
        if file == 1:
            return name_field(there, self.files[1], at)
        if file != there.side:
            return self.called(file)
        return self.pages[page].field(at % PAGE) if page < len(self.pages) else "after the pages"


def pages_of(there: Opened) -> List[Page]:
    view_at = {
        (number_of(there.schema, view), len(names)): view
        for view, names in enumerate(there.schema.views)
    }
    return [
        Page(tree, node, -1 if node.below else view_at[number, node.arity])
        for number, tree in enumerate(there.trees)
        for node in tree.nodes()
    ]


def name_field(there: Opened, names: bytes, at: int) -> str:
    if not there.body.text <= at < there.body.names:
        return "schema" if at < there.body.text else "after the names"
    entry = there.body.text
    while entry + 2 + names[entry + 1] <= at:
        entry += 2 + names[entry + 1]
    return "name: " + ("attribute", "length", "text")[min(at - entry, 2)]


def root_field(there: Opened, at: int) -> str:
    if at == 2048 + there.body.slot:
        return "live gate"
    if at >= 2048:
        return "other gate" if at < 2050 else "after the gates"
    if at // 1024 != there.body.slot:
        return "other body"
    return "live body: " + next(name for end, name in FIELDS.items() if at % 1024 < end)


# ---- warehouses


def files_in(folder: str) -> Files:
    files = []
    for name in NAMES:
        path = os.path.join(folder, name)
        files.append(open(path, "rb").read() if os.path.exists(path) else b"")
    return files


def drawn_schema(draw: Draw) -> "Tuple[List[List[Value]], List[bytes]]":
    """The values of each attribute, and the lines of the schema. One view has all attributes, or
    eight of them; sometimes a second one has the same."""
    values: "List[List[Value]]" = []
    lines = []
    for place in range(draw.choice((1, 2, 2, 3, 3, 4, 5, 8, 9))):
        texts = [b"", b"x" * 255, *(b"p%d" % each for each in range(draw.choice((2, 8, 40))))]
        is_text = draw.random() < 0.5
        values.append([*texts] if is_text else [*NUMBERS, *range(draw.choice((2, 10, 60)))])
        most = draw.choice((b"", b" max %d" % len(texts))) if is_text else b""
        lines.append(b"attr a%d %s" % (place, b"text" + most if is_text else b"number"))
    lines += [b"measure m%d" % measure for measure in range(draw.choice((1, 1, 2, 4)))]
    names = [b"a%d" % place for place in range(len(values))]
    whole = draw.sample(names, min(8, len(names)))
    some = [draw.sample(names, draw.randint(0, len(whole))) for _ in range(draw.randint(0, 8))]
    views = [whole, *some] + [draw.sample(whole, len(whole))] * (draw.random() < 0.4)
    draw.shuffle(views)
    lines += [b"view " + b",".join(view) if view else b"view" for view in unlike(views)]
    return values, lines


def unlike(views: "List[List[bytes]]") -> "List[List[bytes]]":
    return [view for place, view in enumerate(views) if view not in views[:place]]


def drawn_facts(draw: Draw, values: "List[List[Value]]", measures: int) -> List[Fact]:
    """Facts whose measures have few bytes or many. One may have a number that needs format 2."""
    great = draw.choice((10, 1000, 1000, 1 << 64, 1 << 115))
    facts = [
        tuple(draw.choice(own) for own in values)
        + tuple(draw.randint(-great, great) for _ in range(measures))
        for _ in range(draw.choice(SIZES))
    ]
    numbers = [place for place, own in enumerate(values) if own[0] == 0]
    if numbers and draw.random() < 0.3:
        place = draw.choice(numbers)
        facts[-1] = facts[-1][:place] + (draw.choice(WIDE_NUMBERS),) + facts[-1][place + 1 :]
    return facts


def written(fact: Fact) -> bytes:
    return b",".join(value if isinstance(value, bytes) else b"%d" % value for value in fact) + b"\n"


def drawn_commands(draw: Draw, facts: List[Fact]) -> List[bytes]:
    """Loads of the facts in batches, the first perhaps numbered, and for some an upgrade."""
    cuts = sorted(draw.sample(range(len(facts) + 1), min(draw.randint(0, 3), len(facts))))
    ends = zip([0, *cuts], [*cuts, len(facts)])
    batches = [facts[first:last] for first, last in ends if first < last]
    commands = [b"load\n%send\n" % b"".join(map(written, batch)) for batch in batches]
    commands[0] = draw.choice((b"load", b"load 1")) + commands[0][4:]
    if draw.random() < 0.35:
        commands.insert(draw.randint(0, len(commands)), b"upgrade\n")
    return commands


def made_by(commands: List[bytes], facts: List[Fact]) -> Warehouse:
    """The warehouse that these commands make, each in a run of its own."""
    stages: List[Files] = [[b""] * 4]
    with tempfile.TemporaryDirectory() as folder:
        for command in commands:
            said = subprocess.run(
                [PROGRAM], cwd=folder, input=command, stdout=subprocess.PIPE, check=True
            ).stdout
            if said.startswith(b"refused"):
                raise SystemExit(f"{command[:300]!r} replied {said!r}")
            stages.append(files_in(folder))
    return Warehouse(stages, facts)


def drawn_warehouse(draw: Draw) -> Warehouse:
    """A warehouse; a few have no schema, or no facts."""
    values, lines = drawn_schema(draw)
    declaring = b"".join(line + b"\n" for line in [b"schema", *lines, b"end"])
    facts = drawn_facts(draw, values, sum(line.startswith(b"measure") for line in lines))
    rare = draw.random()
    if rare < 0.06:
        return made_by([declaring] if rare < 0.04 else [], [])
    return made_by([declaring, *drawn_commands(draw, facts)], facts)


# ---- one byte


def other_byte(draw: Draw, old: int) -> int:
    similar = (old + 1) % 256, (old - 1) % 256, old ^ (1 << draw.randrange(8))
    new = draw.choice((0, 1, 255, *similar, draw.randrange(256)))
    return new if new != old else old ^ (1 << draw.randrange(8))


def put(files: Files, file: int, at: int, new: bytes) -> Files:
    """The files with other bytes at a place."""
    data = files[file]
    return [*files[:file], data[:at] + new + data[at + len(new) :], *files[file + 1 :]]


class Change(NamedTuple):
    """The kind of a change, the field that it changes, and the files after it."""

    kind: str
    field: str
    files: Files


Changed = Optional[Tuple[str, Files]]  # the field and the files; None if the change is impossible


def one_byte(held: Warehouse, draw: Draw, file: int, at: int) -> Tuple[str, Files]:
    new = bytes([other_byte(draw, held.files[file][at])])
    return held.field(file, at), put(held.files, file, at, new)


def place_in(draw: Draw, page: Page) -> int:
    """The place of a byte of a page: of its header, of its zeros, or, most often, of an entry. In
    an entry all fields are equally likely, and the last byte of a number is the likeliest, since
    most of the others are zero."""
    rare = draw.random()
    if rare < 0.1:
        return draw.randrange(8)
    if rare < 0.2 and page.used() < PAGE:
        return draw.randrange(page.used(), PAGE)
    numbers = page.numbers()
    field = draw.choice(sorted({field for field, _ in numbers}))
    number = draw.choice([number for number, (each, _) in enumerate(numbers) if each == field])
    end = sum(width for _, width in numbers[: number + 1])
    back = 1 if draw.random() < 0.6 else draw.randint(1, numbers[number][1])
    return 8 + page.size() * draw.randrange(page.entries()) + end - back


def of_side(held: Warehouse, draw: Draw) -> Changed:
    if not held.pages or not held.there:
        return None
    page = draw.choice(held.pages)
    return one_byte(held, draw, held.there.side, PAGE * page.node.page + place_in(draw, page))


def of_root(held: Warehouse, draw: Draw) -> Changed:
    if not held.there:
        return None
    slot, field = held.there.body.slot, draw.choice((*FIELDS, *FIELDS, 2048, 2049, 0))
    if field >= 2048:
        at = field
    elif field == 0:
        at = 1024 * (1 - slot) + draw.randrange(draw.choice((40, 368, 1024)))
    else:
        before = max([0] + [end for end in FIELDS if end < field])
        if field == 360 and draw.random() < 0.5:
            # The last byte of the number of points of a view.
            at = 1024 * slot + before + 8 * draw.randrange(held.there.body.views) + 7
        else:
            at = 1024 * slot + draw.randrange(before, field)
    return one_byte(held, draw, 0, at) if at < len(held.files[0]) else None


def of_names(held: Warehouse, draw: Draw) -> Changed:
    if not held.there:
        return None
    text, names = held.there.body.text, held.there.body.names
    first, end = (0, text) if draw.random() < 0.25 or text == names else (text, names)
    return one_byte(held, draw, 1, draw.randrange(first, end))


def of_no_count(held: Warehouse, draw: Draw) -> Changed:
    """A byte of the other side, or bytes after the end of a file. They do not count."""
    file = draw.randrange(4)
    if held.there and file == 5 - held.there.side and held.files[file]:
        return one_byte(held, draw, file, draw.randrange(len(held.files[file])))
    end, more = len(held.files[file]), draw.randbytes(draw.choice((1, 2, 100, PAGE)))
    return held.field(file, end), put(held.files, file, end, more)


# ---- more than a byte


def leaf_points(page: Page, side: bytes) -> List[Point]:
    """The points of a leaf, lawful or not."""
    first, size = PAGE * page.node.page + 8, page.size()
    return [
        page.tree.coordinates(side, first + size * entry, page.node.arity)
        for entry in range(page.entries())
    ]


def with_boxes(held: Warehouse, tree: Tree, side: bytes) -> bytes:
    """A side with all inner pages of a tree rewritten for its leaves as they are."""
    boxes: Dict[int, Box] = {}
    for page in held.pages:
        node = page.node
        if page.tree is not tree:
            continue
        if node.below:
            boxes[node.page] = around([boxes[child.page] for child in node.below])
            new = tree.inner_bytes([(boxes[child.page], child.page) for child in node.below])
            side = side[: PAGE * node.page] + new + side[PAGE * node.page + PAGE :]
        else:
            boxes[node.page] = tree.box(leaf_points(page, side))
    return side


def of_leaf_and_boxes(held: Warehouse, draw: Draw) -> Changed:
    """A byte of a coordinate, with the boxes above it changed to match."""
    leaves = [page for page in held.pages if page.node.arity and not page.node.below]
    if not leaves or not held.there:
        return None
    page, file = draw.choice(leaves), held.there.side
    at = PAGE * page.node.page + 8 + page.size() * draw.randrange(page.entries())
    at += page.tree.width * draw.randrange(1, page.node.arity + 1) - draw.choice((1, 1, 1, 2, 3))
    _, files = one_byte(held, draw, file, at)
    files[file] = with_boxes(held, page.tree, files[file])
    return "coordinate", files


def cells_of(held: Warehouse, view: int) -> Dict[Point, Cell]:
    """The points of a view."""
    assert held.there
    side = held.files[held.there.side]
    cells: Dict[Point, Cell] = {}
    for page in held.pages:
        if page.view == view:
            cells.update(page.tree.leaf(side[PAGE * page.node.page :][:PAGE]) or [])
    return cells


def with_cells(held: Warehouse, files: Files, view: int, cells: Dict[Point, Cell]) -> Files:
    """The files with other cells for some points of a view."""
    assert held.there
    side = held.there.side
    for page in held.pages:
        if page.view == view:
            first, size = PAGE * page.node.page + 8, page.size()
            for entry, at in enumerate(leaf_points(page, files[side])):
                if at in cells:
                    new = page.tree.entry_bytes(Entry(at, cells[at]))
                    files = put(files, side, first + size * entry, new)
    return files


def of_facts(held: Warehouse, draw: Draw) -> Changed:
    """Another measure of one fact, in the cells of all views or of some."""
    if not held.there or not held.facts:
        return None
    schema, names = held.there.schema, [list(texts) for texts in held.there.names]
    number = draw.randrange(len(held.facts))
    place = len(names) + draw.randrange(len(schema.measures))
    fact, new = held.facts[number], draw.choice((0, 1, -1, draw.randint(-1000, 1000), 1 << 100))
    facts = list(held.facts)
    facts[number] = fact[:place] + (new,) + fact[place + 1 :]
    some, files = draw.random() < 0.6, held.files
    for view, attributes in enumerate(schema.views):
        if not some or draw.random() < 0.6:
            point = tuple(code_of(names[a], fact[a]) for a in attributes)
            cell = cell_of(facts, [fact[a] for a in attributes], attributes, len(names))
            files = with_cells(held, files, view, {point: cell})
    return ("the cells of some views" if some else "the cells of all views"), files


def cell_of(facts: List[Fact], values: List[Value], attributes: List[int], first: int) -> Cell:
    """The cell of the facts with these values."""
    cells: "Dict[Point, Optional[Cell]]" = {}
    for fact in facts:
        if [fact[a] for a in attributes] == values:
            cells[()] = joined_at(cells, (), fact_cell(fact[first:]))
    cell = cells[()]
    assert cell, "the masses are within their bound"
    return cell


def views_over(held: Warehouse, points: int) -> List[int]:
    """The views with more than this many points."""
    return (
        [view for view, own in enumerate(held.there.points) if own > points] if held.there else []
    )


def of_wrapped(held: Warehouse, draw: Draw) -> Changed:
    """The highest bit of the counts, or of the sums, of two points of a view. If they wrapped
    around, their total would stay."""
    views = views_over(held, 1)
    if not views:
        return None
    view, is_count = draw.choice(views), draw.random() < 0.5
    cells = cells_of(held, view)
    news = {at: wrapped(cells[at], is_count) for at in draw.sample(sorted(cells), 2)}
    return "count" if is_count else "sum", with_cells(held, held.files, view, news)


def wrapped(cell: Cell, is_count: bool) -> Cell:
    if is_count:
        return Cell(cell.facts ^ 1 << 63, cell.parts)
    (total, least, greatest), *others = cell.parts
    total += (1 << 127) * (1 if total < 0 else -1)
    return Cell(cell.facts, ((total, least, greatest), *others))


def of_carried(held: Warehouse, draw: Draw) -> Changed:
    """The sums of three points of a view: two of them exceed 128 bits together, and the total of
    the three stays. Coarser views get the sums that follow, if they can be written."""
    views = views_over(held, 2)
    if not views or not held.there:
        return None
    points, files = held.there.points, held.files
    view = max(views, key=lambda each: points[each])
    great = (1 << 126) + draw.choice((-3, 0, 5))
    attributes, cells = held.there.schema.views[view], cells_of(held, view)
    moved = list(zip(draw.sample(sorted(cells), 3), (great, great, -2 * great)))
    for other, coarser in enumerate(held.there.schema.views):
        if set(coarser) <= set(attributes):
            places = [attributes.index(a) for a in coarser]
            own = [(tuple(at[place] for place in places), more) for at, more in moved]
            files = with_cells(held, files, other, carried(cells_of(held, other), own))
    return "sum", files


def carried(cells: Dict[Point, Cell], moved: List[Tuple[Point, int]]) -> Dict[Point, Cell]:
    """The cells of points after these moves of their sums, if they can be written."""
    news = {}
    for at in dict(moved):
        (total, least, greatest), *others = cells[at].parts
        total += sum(more for point, more in moved if point == at)
        if -(1 << 127) <= total < 1 << 127:
            news[at] = Cell(cells[at].facts, ((total, least, greatest), *others))
    return news


def of_cut(held: Warehouse, draw: Draw) -> Changed:
    file = draw.randrange(4)
    size = len(held.files[file])
    ends = [0, 1, 1024, 2048, 2049, size - 1, *range(0, size, PAGE), draw.randrange(size + 1)]
    files = list(held.files)
    files[file] = files[file][: max(draw.choice(ends), 0)]
    return held.called(file), files


def of_exchange(held: Warehouse, draw: Draw) -> Changed:
    """Two pages exchanged, at least one of the live side."""
    if len(held.pages) < 2 or not held.there:
        return None
    side = held.there.side
    everywhere = [(file, page) for file in (2, 3) for page in range(len(held.files[file]) // PAGE)]
    file, page = draw.choice(everywhere)
    other = draw.randrange(len(held.pages))
    one, two = held.files[file][PAGE * page :][:PAGE], held.files[side][PAGE * other :][:PAGE]
    files = put(put(held.files, file, PAGE * page, two), side, PAGE * other, one)
    return "pages of " + ("the live side" if file == side else "both sides"), files


def of_former(held: Warehouse, draw: Draw) -> Changed:
    """Some files as they were before."""
    stage = draw.choice(held.stages)
    some = draw.sample(range(4), draw.choice((1, 1, 1, 2, 3, 4)))
    files = [stage[file] if file in some else data for file, data in enumerate(held.files)]
    return ", ".join(sorted(map(held.called, some), reverse=True)), files


KINDS: "Dict[str, Tuple[int, Callable[[Warehouse, Draw], Changed]]]" = {
    "a byte of the live side": (50, of_side),
    "a byte of the names": (12, of_names),
    "a byte of the root": (12, of_root),
    "bytes that do not count": (3, of_no_count),
    "a byte of a leaf, with its boxes": (8, of_leaf_and_boxes),
    "a fact, in some views or all": (5, of_facts),
    "two numbers that wrap round": (2, of_wrapped),
    "sums of more than 128 bits": (2, of_carried),
    "a file cut": (3, of_cut),
    "two pages exchanged": (3, of_exchange),
    "files as they were": (3, of_former),
}


def drawn_change(held: Warehouse, draw: Draw) -> Change:
    """A change that makes at least one file differ."""
    while True:
        kind = draw.choices(list(KINDS), [weight for weight, _ in KINDS.values()])[0]
        changed = KINDS[kind][1](held, draw)
        if changed and changed[1] != held.files:
            return Change(kind, *changed)
