"""The schema that a folder keeps, as the tools have to know it."""
from __future__ import annotations

import os
import re
from typing import Iterable, Union

WHOLE = {
    "end": "a line of it is `end`, which would end the block",
    "whole": "it has more than 65,536 bytes, or a quote that is not closed",
}
OF_A_FIELD = {
    "long": "has more than 255 bytes",
    "number": "is no whole number, or is out of range",
    "names": "has a new text, and no more room for one",
    "mass": "would add up to more than 2^127 - 1",
}


class Schema:
    """The attributes, measures and views of declaration lines, as far as they have the form of
    one; the program judges the rest."""

    def __init__(self, lines: Iterable[str]) -> None:
        words = [line.split(" ") for line in lines]
        self.attributes = [line[1] for line in words if line[0] == "attr" and len(line) > 1]
        self.numbers = [line[1] for line in words if line[0] == "attr" and line[2:] == ["number"]]
        self.measures = [line[1] for line in words if line[0] == "measure" and len(line) > 1]
        self.views = [",".join(line[1:]) for line in words if line[0] == "view"]
        self.maxima = [
            line[4] if line[3:4] == ["max"] and len(line) > 4 else "1000000"
            for line in words
            if line[0] == "attr"
        ]

    def columns(self) -> list[str]:
        """The fields of a row."""
        return self.attributes + self.measures

    def says(self) -> list[list[str]]:
        """What two schemas have to share to be the same."""
        return [self.attributes, self.numbers, self.maxima, self.measures, self.views]

    def row_fault(self, reason: str) -> str:
        """The reason for which a row is refused, as `number 2`, in words."""
        word, *field = reason.split()
        if word == "fields":
            return f"it has not {len(self.columns())} fields"
        if word in WHOLE:
            return WHOLE[word]
        return f"{self.columns()[int(field[0]) - 1]} {OF_A_FIELD[word]}"


def declared_lines(lines: Union[str, Iterable[str]]) -> list[str]:
    """The lines of a declaration as they stand in a block of `schema`: a comment goes as an
    empty line, so that the lines count as they stand."""
    parted = (lines if isinstance(lines, str) else "\n".join(lines)).split("\n")
    return [
        "" if line.startswith("#") else line for line in parted if line not in ("schema", "end")
    ]


def kept_lines(folder: str) -> list[str]:
    """The lines of the schema that the folder keeps, which is declared: its text stands at the
    front of the file `names`, and after it names, each of which begins with the number of an
    attribute, below 16."""
    with open(os.path.join(folder, "names"), "rb") as file:
        text = file.read(1 << 16)
    lines = re.match(rb"(?:(?:attr|measure|view)[a-z0-9_, ]*\n)*", text)
    return lines[0].decode().splitlines() if lines else []


def kept_schema(folder: str) -> Schema:
    """The schema that the folder keeps, which is declared."""
    return Schema(kept_lines(folder))
