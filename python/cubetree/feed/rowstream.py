"""Rows in a stream of bytes, as the program reads them in a block, and what is wrong with one."""
from __future__ import annotations

import re
from typing import Iterator, Optional, Sequence

from ..codec import has_end
from ..errors import Fault
from ..schema import Schema

FIELD = re.compile(rb'(?:"([^"]*(?:""[^"]*)*)"(?!")([^,\r\n]*)|[^",\r\n][^,\r\n]*|)')
UNPARTED = re.sub(rb"\((?=\[)", rb"(?:", FIELD.pattern)
RECORD = re.compile(b"(?:" + UNPARTED + b",)*" + UNPARTED)
END = re.compile(rb"\r\n|\n|\r")
NUMBER = re.compile(rb"([+-]?)0*([0-9]{1,39})")
LONGEST_ROW, LONGEST_LINE, LONGEST_TEXT = 1 << 16, 1 << 17, 255
GREATEST_VALUE, GREATEST_NUMBER = (1 << 63) - 1, (1 << 127) - 1


class Rows:
    """Cuts bytes into rows, without the ends of their lines, and keeps the front of one that is
    not whole yet."""

    def __init__(self, front: bytes = b"") -> None:
        self.front = front

    def take(self, piece: bytes) -> list[bytes]:
        """The rows that are whole with this piece; empty lines are none."""
        text = self.front + piece
        if b'"' in text or b"\r" in text:
            rows = list(self.cut(text))
        else:
            *lines, self.front = text.split(b"\n")
            rows = list(filter(None, lines))
        while len(self.front) > LONGEST_ROW and b"\n" in self.front:
            rows += self.pass_line()
        if len(self.front) > LONGEST_LINE:
            raise Fault(f"a line has more than {LONGEST_LINE:,} bytes")
        return rows

    def cut(self, text: bytes) -> Iterator[bytes]:
        """The rows of a text that has quotes or carriage returns."""
        place = 0
        while True:
            record = RECORD.match(text, place)
            end = END.match(text, record.end()) if record else None
            if not record or not end:
                self.front = text[place:]
                return
            if record[0]:
                yield record[0]
            place = end.end()

    def rest(self) -> list[bytes]:
        """The rows at the end of a stream, the last of which need not have the end of its line."""
        rows: list[bytes] = []
        while self.front and not RECORD.fullmatch(self.front):
            rows += self.pass_line()
        front, self.front = self.front, b""
        return rows + [front] if front else rows

    def pass_line(self) -> list[bytes]:
        """The first line alone, which has a quote that is not closed and must not take in all
        that follows, and the rows after it."""
        line, _, behind = self.front.partition(b"\n")
        return [line, *self.cut(behind)]


def fields_of(row: bytes) -> Iterator[bytes]:
    """The fields of a whole row, without their quotes."""
    place = 0
    while place <= len(row):
        field = FIELD.match(row, place)
        assert field, "a field may be empty"
        yield field[0] if field[1] is None else field[1].replace(b'""', b'"') + field[2]
        place = field.end() + 1


def is_number(field: bytes, least: int, greatest: int) -> bool:
    """Whether a field is a whole number within these bounds."""
    number = NUMBER.fullmatch(field)
    return bool(number) and least <= int(number[1] + number[2]) <= greatest if number else False


def row_fault(row: bytes, schema: Schema) -> Optional[str]:
    """Why a row is refused whatever else its batch has, by the words of the reply; `whole` and
    `end` are those of rows that cannot be sent."""
    if len(row) > LONGEST_ROW or b'"' in row and not RECORD.fullmatch(row):
        return "whole"
    if row == b"end" or has_end(b"\n" + row + b"\n"):
        return "end"
    fields = list(fields_of(row))
    if len(fields) != len(schema.columns()):
        return "fields"
    for place, (field, name) in enumerate(zip(fields, schema.columns()), 1):
        if place > len(schema.attributes):
            if not is_number(field, -GREATEST_NUMBER, GREATEST_NUMBER):
                return f"number {place}"
        elif name in schema.numbers:
            if not is_number(field, 0, GREATEST_VALUE):
                return f"number {place}"
        elif len(field) > LONGEST_TEXT:
            return f"long {place}"
    return None


def faults_of(rows: Sequence[bytes], schema: Schema) -> dict[int, str]:
    """The rows that are refused whatever else their batch has, by their places, with the reason
    of each."""
    faults = ((place, row_fault(row, schema)) for place, row in enumerate(rows))
    return {place: fault for place, fault in faults if fault}


def may_be_unsendable(rows: Sequence[bytes]) -> bool:
    """Whether some of these rows have to be looked at before they are sent."""
    text = b"\n".join([b"", *rows, b""])
    return b'"' in text or b"\nend\n" in text or max(map(len, rows), default=0) > LONGEST_ROW
