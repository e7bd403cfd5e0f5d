"""Tests of the rows of a csv file as the program reads them."""
from __future__ import annotations

import csv
import io
import random
from pathlib import Path
from typing import List, Tuple

import pytest

from cubetree import Fault
from cubetree.csvfile import opening
from cubetree.csvfile.reader import csv_pieces, pieces, plain_lines, plain_pieces
from cubetree.csvfile.tables import Table
from cubetree.schema import Schema
from cubetree.values import Kind

SCHEMA = Schema(["attr part text", "attr year number", "measure qty", "view part"])
Places = List[Tuple[int, bytes]]


def read(path: Path, most: int = 10, delimiter: str = ",") -> "tuple[Places, str]":
    """The rows of a file with the lines in which they end, and the fault at the end."""
    found: Places = []
    try:
        table = Table(str(path), delimiter)
        for piece in pieces(table, SCHEMA, most):
            assert len(piece.rows) == len(piece.lines) <= most
            found += zip(piece.lines, piece.rows)
        assert table.row == len(found)
    except Fault as fault:
        return found, str(fault)
    return found, ""


def by_csv(path: Path, delimiter: str = ",") -> "tuple[Places, str]":
    """The same by `csv` alone."""
    found: Places = []
    try:
        for piece in csv_pieces(Table(str(path), delimiter), SCHEMA, 1):
            found += zip(piece.lines, piece.rows)
    except Fault as fault:
        return found, str(fault)
    return found, ""


def test_plain_file(tmp_path: Path) -> None:
    """All rows of a file without quotes go through as they stand."""
    path = tmp_path / "f"
    path.write_bytes(b"part,year,qty\na,1,1\n\n\xc3\xa9 ,2,3\n,3,-4")
    table = Table(str(path))
    found = [(list(piece.rows), list(piece.lines)) for piece in plain_pieces(table, 2)]
    assert found == [([b"a,1,1", b"\xc3\xa9 ,2,3"], [2, 4]), ([b",3,-4"], [5])]
    assert (table.row, table.line) == (3, 5)
    assert not list(csv_pieces(table, SCHEMA, 2))


@pytest.mark.parametrize(
    "text, delimiter, wanted",
    [
        (b"a,1,2\nb,3,4\n", ",", [b"a,1,2", b"b,3,4"]),
        (b"a,1,2\r\n\r\nb,3,4\r\n", ",", [b"a,1,2", b"", b"b,3,4"]),
        (b"a;1;2\nb;3;4", ";", [b"a,1,2", b"b,3,4"]),
        (b"a\t1\t2\n", "\t", [b"a,1,2"]),
        (b"a,b;1;2\n", ";", None),
        (b'"a",1,2\n', ",", None),
        (b"a,1,2\rb,3,4\n", ",", None),
        (b"a,1\n", ",", None),
        (b"a,1,2,3\n", ",", None),
        (b" \n", ",", None),
    ],
)
def test_plain_lines(text: bytes, delimiter: str, wanted: "list[bytes] | None") -> None:
    """Lines that may go through, with commas, and those that `csv` has to read."""
    assert plain_lines(text, delimiter, 3) == wanted


def test_where_cells_are_changed(tmp_path: Path) -> None:
    """Rows do not go through as they stand where a cell is converted, or where columns are in
    another order."""
    path = tmp_path / "f"
    path.write_text("part,year,qty\na,1970-01-02,1\n")
    table = Table(str(path))
    table.convert({"year": Kind("day", order="YMD")})
    assert not table.is_plain()
    path.write_text("part, year, qty\na, 1, 2\n")
    assert not Table(str(path)).is_plain()
    assert read(path)[0] == [(2, b"a,1,2")]
    path.write_text("qty,part,year\n5,a,1\n")
    assert read(path)[0] == [(2, b"a,1,5")]
    path.write_text("part,year,qty,more\na,1,5,x\n")
    assert read(path)[0] == [(2, b"a,1,5")]


def test_drawn(tmp_path: Path, monkeypatch: pytest.MonkeyPatch) -> None:
    """Drawn files, in pieces of any size: rows, lines and faults are those of `csv`."""
    draw, path = random.Random(70), tmp_path / "f"
    plain = 0
    for _ in range(1_500):
        delimiter = draw.choice([",", ",", ";", "\t"])
        quoted, texts = ['"q"', '"a\nb"', '"a,b"', '""', "x,y", "\r"], ["", " ", "é", "\udce9"]
        odd = draw.choice([[], [], quoted, texts])
        cells = ["a", "bcd", "12", "-7", "0", *odd]
        end = draw.choice(["\n", "\n", "\r\n"])
        lines = [delimiter.join(["part", "year", "qty"])]
        for _ in range(draw.randrange(40)):
            width = 3 if draw.random() < 0.99 else draw.choice([1, 2, 4])
            lines.append(delimiter.join(draw.choice(cells) for _ in range(width)))
            if draw.random() < 0.05:
                lines.append("")
        text = end.join(lines) + draw.choice(["", end])
        path.write_bytes(text.encode("utf-8", "surrogateescape"))
        monkeypatch.setattr(opening, "PIECE", draw.choice([16, 64, 1 << 18]))
        found, wanted = read(path, draw.choice([1, 7, 100]), delimiter), by_csv(path, delimiter)
        assert found == wanted, text
        plain += not odd
    assert plain > 500


@pytest.mark.parametrize("size", [8, 1 << 18])
def test_bytes_that_are_not_utf_8(
    tmp_path: Path, monkeypatch: pytest.MonkeyPatch, size: int
) -> None:
    """Their lines are counted also where the rows go through as they stand."""
    monkeypatch.setattr(opening, "PIECE", size)
    path = tmp_path / "f"
    path.write_bytes(b"part,year,qty\na,1,1\n\xe9,2,3\n\xe8,3,-4\n")
    table = Table(str(path))
    rows = [row for piece in pieces(table, SCHEMA) for row in piece.rows]
    assert rows == [b"a,1,1", b"\xe9,2,3", b"\xe8,3,-4"]
    assert (table.odd_line, table.odd_lines) == (3, 2)


def test_a_quote_in_mid_file(tmp_path: Path, monkeypatch: pytest.MonkeyPatch) -> None:
    """From the first quote on `csv` reads, and counts on."""
    monkeypatch.setattr(opening, "PIECE", 64)
    path, rows = tmp_path / "f", [["a", "1", str(qty)] for qty in range(50)]
    rows[30][0] = 'q"q\nx'
    told = io.StringIO()
    csv.writer(told, lineterminator="\n").writerows([["part", "year", "qty"], *rows])
    path.write_text(told.getvalue())
    found, fault = read(path)
    assert [line for line, _ in found] == [*range(2, 32), *range(33, 53)] and not fault
    assert found[30] == (33, b'"q""q\nx",1,30')
