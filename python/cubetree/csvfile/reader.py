"""The rows of a csv file as the program reads them, in the order of the columns of a schema."""
from __future__ import annotations

import os
import shutil
import sys
import tempfile
from array import array
from typing import Iterator, Optional, Sequence

from ..codec import line_writer
from ..columns import Columns
from ..errors import Fault
from ..schema import Schema
from .resume import INPUT, Piece
from .tables import Table, picker

ROWS = 10_000  # of a piece
NO_MARKS = bytes(set(range(256)) - set(b",\n"))


def pieces(table: Table, schema: Schema, most: int = ROWS) -> Iterator[Piece]:
    """The rows of a table, in pieces of at most some rows, which come as soon as they are there. If
    a row is faulty, those before it come first."""
    if table.is_plain() and table.names == schema.columns():
        yield from plain_pieces(table, most)
    yield from csv_pieces(table, schema, most)


def plain_pieces(table: Table, most: int) -> Iterator[Piece]:
    """The rows as they stand, up to the first lines that `csv` has to read. They have the bytes
    that `csv` would make of them."""
    while text := table.text.peek():
        lines = plain_lines(text, table.delimiter, len(table.names))
        if lines is None:
            return
        table.text.pass_over()
        places: Sequence[int] = range(table.line + 1, table.line + 1 + len(lines))
        rows = list(filter(None, lines))
        if len(rows) < len(lines):
            places = array("Q", (place for place, line in zip(places, lines) if line))
        table.go_on(table.row + len(rows), table.lines + len(lines))
        for first in range(0, len(rows), most):
            yield Piece(rows[first : first + most], places[first : first + most])


def plain_lines(text: bytes, delimiter: str, width: int) -> Optional[list[bytes]]:
    """Lines with commas between their fields; None if they have quotes or another width."""
    text = text.replace(b"\r\n", b"\n")
    if b'"' in text or b"\r" in text or delimiter != "," and b"," in text:
        return None
    text = text.replace(delimiter.encode(), b",")
    lines = text.removesuffix(b"\n").split(b"\n")
    if have_width(text, len(lines), width):
        return lines
    commas = {line.count(b",") for line in lines if line}
    return lines if commas <= {width - 1} else None


def have_width(text: bytes, count: int, width: int) -> bool:
    """Whether each of these lines has as many fields, by their commas and ends alone, which are
    compared with those of such lines at once."""
    marks = text.translate(None, NO_MARKS)
    end = b"" if marks.endswith(b"\n") else b"\n"
    return marks + end == (b"," * (width - 1) + b"\n") * count


def csv_pieces(table: Table, schema: Schema, most: int) -> Iterator[Piece]:
    """The rows that are left as `csv` reads them."""
    pick, written = picker(table, schema), line_writer()
    rows: list[bytes] = []
    lines, fault = array("Q"), None
    records = table.rows()
    while True:
        try:
            record = next(records, None)
        except Fault as error:
            record, fault = None, error
        if record is not None:
            rows.append(written(pick(record))[:-2].encode("utf-8", "surrogateescape"))
            lines.append(table.line)
        if rows and (record is None or len(rows) == most):
            yield Piece(rows, lines)
            rows, lines = [], array("Q")
        if fault:
            raise fault
        if record is None:
            return


def source_of(path: str) -> str:
    """The name of a source in the record of batches."""
    return INPUT if path == INPUT else os.path.realpath(path)


def use_titles(table: Table, columns: Columns) -> None:
    """Calls the columns of a table as the first file of the folder called those of their titles:
    `Price` and `price` may stand in another order there."""
    names = {title: name for name, title in columns.titles.items()}
    if len(names) < len(columns.titles) or len(set(table.titles)) < len(table.titles):
        return
    known = [names.get(title) for title in table.titles]
    taken = set(filter(None, known))
    table.names = [new or free_name(old, taken) for new, old in zip(known, table.names)]


def free_name(name: str, taken: set[str]) -> str:
    """A name for a column that no known column has."""
    number, found = 1, name
    while found in taken:
        number += 1
        found = f"{name[:26]}_{number}"
    taken.add(found)
    return found


def new_columns(table: Table, schema: Schema, columns: Optional[Columns]) -> list[str]:
    """The titles of columns that the folder has never seen; none if it knows nothing of files."""
    if columns is None or not columns.titles:
        return []
    left = set(columns.left)
    return [
        title
        for title, name in zip(table.titles, table.names)
        if name not in schema.columns() and title not in left and name not in left
    ]


class Copied:
    """A copy of what is no file, so that it can be read twice; it lasts as long as this object."""

    def __init__(self, path: str) -> None:
        self.file = tempfile.NamedTemporaryFile(prefix="cubetree-")
        if path == INPUT:
            shutil.copyfileobj(sys.stdin.buffer, self.file)
        else:
            with open(path, "rb") as stream:
                shutil.copyfileobj(stream, self.file)
        self.file.flush()
        self.path = self.file.name
