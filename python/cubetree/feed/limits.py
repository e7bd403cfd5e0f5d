"""Which rows of a batch go over a limit of the folder: as many different texts as an attribute
may have, and what the numbers of a measure may add up to.

The program refuses such a batch whole, and names the attribute or the measure. The rows are taken
in order, as long as there is room for them; a row that needs none is taken wherever it stands."""
from __future__ import annotations

from typing import Sequence

from ..errors import Refused
from ..format.files import kept_names, live_body
from ..schema import Schema
from .rowstream import GREATEST_NUMBER, fields_of


def rows_over(reply: str, rows: Sequence[bytes], schema: Schema, folder: str) -> dict[int, str]:
    """The rows without room, by their places, with the reason of each; none where the reply is
    about no such limit."""
    name = Refused(reply).name
    if name is None:
        return {}
    place = schema.columns().index(name)
    fields = [list(fields_of(row))[place] for row in rows]
    over = (
        rows_over_names(fields, place, int(schema.maxima[place]), folder)
        if place < len(schema.attributes)
        else rows_over_mass(fields, place - len(schema.attributes), folder)
    )
    return {row: f"{reply.split()[1]} {place + 1}" for row in over}


def rows_over_names(texts: Sequence[bytes], attribute: int, most: int, folder: str) -> list[int]:
    """The places of texts that are new to an attribute when it has no more room."""
    asked, known, room, over = set(texts), set(), most, []
    for kept, text in kept_names(folder, live_body(folder)):
        if kept == attribute:
            room -= 1
            if text in asked:
                known.add(text)
    for place, text in enumerate(texts):
        if text not in known and room == 0:
            over.append(place)
        elif text not in known:
            known.add(text)
            room -= 1
    return over


def rows_over_mass(numbers: Sequence[bytes], measure: int, folder: str) -> list[int]:
    """The places of numbers that would bring the mass of a measure above the greatest one."""
    mass, over = live_body(folder).masses[measure], []
    for place, number in enumerate(numbers):
        if mass + abs(int(number)) > GREATEST_NUMBER:
            over.append(place)
        else:
            mass += abs(int(number))
    return over
