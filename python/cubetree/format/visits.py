"""How many pages a slice goes to: the search of its view's tree, from the top down through the
children whose boxes meet its region. It is worked out from the files, whose bytes
docs/FORMATS.md has, while the folder is the reader's."""
from __future__ import annotations

import os
import struct
from typing import BinaryIO, Iterator, NamedTuple, Sequence

from ..design.views import Choice, views_of
from ..errors import Fault
from ..questions import Condition, Question
from ..schema import Schema
from .files import Body, kept_names, live_body
from .forest import NARROW, PAGE, Forest, Tree

ALL, NONE, UNUSED = (1, (1 << 64) - 1), (1, 0), (0, 0)  # of the coordinates of a dimension
Box = list[tuple[int, int]]


class Visits(NamedTuple):
    """The view that answers a slice, the pages that it goes to, and all pages of the view's
    tree."""

    choice: Choice
    pages: int
    of: int


def children(tree: Tree, page: bytes) -> Iterator[tuple[Box, int]]:
    """The box and the page of each child of an inner page."""
    form = struct.Struct(">" + ("I" if tree.width == NARROW else "Q") * 2 * tree.dimensions + "Q")
    for *ends, child in form.iter_unpack(
        page[8 : 8 + form.size * int.from_bytes(page[2:4], "big")]
    ):
        yield list(zip(ends[::2], ends[1::2])), child


def interval(
    condition: Condition, schema: Schema, codes: dict[tuple[str, str], int]
) -> tuple[int, int]:
    """The coordinates that a condition lets through. A text has the place of its name, and a
    number is one more than itself."""
    if condition.name not in schema.numbers:
        code = codes.get((condition.name, condition.value))
        return (code, code) if code else NONE
    low, _, high = condition.value.partition("..")
    ends = int(low) + 1, int(high or low) + 1
    return ends if ends[0] <= ends[1] else NONE


def codes_of(
    conditions: Sequence[Condition], schema: Schema, folder: str, body: Body
) -> dict[tuple[str, str], int]:
    """The places of the texts of these conditions among the names of their attributes, without
    those that no fact has."""
    wanted = {
        (schema.attributes.index(name), value.encode("utf-8", "surrogateescape")): (name, value)
        for name, value in conditions
        if name not in schema.numbers
    }
    codes, counts = {}, [0] * len(schema.attributes)
    for attribute, text in kept_names(folder, body) if wanted else ():
        counts[attribute] += 1
        if (attribute, text) in wanted:
            codes[wanted[attribute, text]] = counts[attribute]
    return codes


def searched(side: BinaryIO, tree: Tree, region: Box) -> int:
    """How many pages a search goes to."""
    count, ahead = 0, [tree.first + tree.pages - 1] if tree.pages else []
    while ahead:
        number = ahead.pop()
        side.seek(PAGE * number)
        page = side.read(PAGE)
        count += 1
        if len(page) < PAGE or not 1 <= page[0] <= 4 or count > tree.pages:
            raise Fault(f"the page {number} of {os.path.basename(side.name)} is damaged")
        if page[0] in (2, 4):
            ahead += [
                child
                for box, child in children(tree, page)
                if all(max(a, c) <= min(b, d) for (a, b), (c, d) in zip(box, region))
            ]
    return count


def visits(folder: str, schema: Schema, choice: Choice, question: Question) -> Visits:
    """What a slice goes to that this view answers."""
    body = live_body(folder)
    codes = codes_of(question.conditions, schema, folder, body)
    bound = {
        condition.name: interval(condition, schema, codes) for condition in question.conditions
    }
    forest = Forest(schema)
    tree = forest.trees(body.points, body.width())[
        forest.numbers[views_of(schema).index(choice.view)]
    ]
    region = [bound.get(name, ALL) for name in choice.view] + [UNUSED] * (
        tree.dimensions - len(choice.view)
    )
    if not tree.pages:
        return Visits(choice, 0, 0)
    with open(os.path.join(folder, f"side{body.slot}"), "rb") as side:
        return Visits(choice, searched(side, tree, region), tree.pages)
