"""What the tools read of the files of a warehouse that has a schema: the bodies of the root, and
the names (docs/FORMATS.md has the bytes)."""
from __future__ import annotations

import os
from typing import Iterator, NamedTuple

from ..errors import Fault
from .forest import NARROW, WIDE

BODY = 1024
GATES = 2 * BODY  # where the gates of the slots stand in the root


class Body(NamedTuple):
    """A body of the root: its slot, the format of the pages, how many bytes of the file `names` are
    the schema's and how many count, the facts, the masses of the measures, the points of the views,
    the generation, and the number of the last numbered batch."""

    slot: int
    format: int
    text: int
    names: int
    facts: int
    masses: list[int]
    points: list[int]
    generation: int
    last: int

    def width(self) -> int:
        """The bytes of a coordinate."""
        return WIDE if self.format == 2 else NARROW


def number(text: bytes) -> int:
    """A number that is written in these bytes."""
    return int.from_bytes(text, "big")


def body_of(text: bytes, slot: int) -> Body:
    """What a body says that the program has accepted."""
    masses = [number(text[place : place + 16]) for place in range(40, 104, 16)]
    ends = range(104, 104 + 8 * number(text[10:12]), 8)
    points = [number(text[place : place + 8]) for place in ends]
    counts = (number(text[12:16]), number(text[24:32]), number(text[32:40]))
    generation, last = number(text[16:24]), number(text[360:368])
    return Body(slot, number(text[8:10]), *counts, masses, points, generation, last)


def raised_bodies(folder: str) -> list[Body]:
    """The bodies of the raised slots of a folder, which the program has opened."""
    with open(os.path.join(folder, "root"), "rb") as file:
        root = file.read(GATES + 2)
    texts = [(root[BODY * slot : BODY * (slot + 1)], slot) for slot in range(2)]
    raised = [
        body_of(text, slot)
        for text, slot in texts
        if root[GATES + slot : GATES + slot + 1] == b"\1" and text.startswith(b"CUBETREE")
    ]
    if not raised:
        raise Fault(f"no schema is declared in {folder}")
    return raised


def live_body(folder: str) -> Body:
    """The live body of a folder, which the program has opened."""
    return max(raised_bodies(folder), key=lambda body: body.generation)


def kept_names(folder: str, body: Body) -> Iterator[tuple[int, bytes]]:
    """Each name that the folder keeps, after the number of its attribute, in the order in which
    they came."""
    with open(os.path.join(folder, "names"), "rb") as file:
        file.seek(body.text)
        left = body.names - body.text
        while left > 0:
            head = file.read(2)
            text = file.read(head[1])
            yield head[0], text
            left -= 2 + len(text)
