"""Rows as they go to the program and come from it: lines of csv, and tuples of str and int."""
from __future__ import annotations

import csv
import operator
import re
from datetime import date
from decimal import Decimal
from typing import (
    Any,
    Callable,
    Iterable,
    Iterator,
    Mapping,
    Optional,
    Sequence,
    SupportsIndex,
    Union,
)

from .errors import Fault, Refused
from .questions import Question
from .schema import Schema
from .values import Kind, Value

GivenRow = Sequence[Union[str, SupportsIndex, Decimal, float, date]]
OF_MEASURE = re.compile(r" *(?:sum|min|max) *\( *([a-z0-9_]+) *\) *", re.IGNORECASE)
MOST_ROWS, MOST_BYTES = 262_144, (1 << 26) - 64  # of a block
MARK = "\ufeff".encode()
END = re.compile(rb"^end\r?$", re.MULTILINE)


class Echo:
    """Hands back what is written to it."""

    def write(self, line: str) -> str:
        """The line itself."""
        return line


def line_writer() -> Callable[[Iterable[object]], str]:
    """What writes a row as a line of csv and hands it back, with an end of two bytes, for each
    of which it so quotes a field."""
    written: Callable[[Iterable[object]], str] = csv.writer(Echo(), lineterminator="\r\n").writerow
    return written


def encoded(rows: Iterable[GivenRow], kinds: Sequence[Optional[Kind]] = ()) -> Iterator[bytes]:
    """The bytes of each row, with its line feed. Columns with a kind may have amounts and dates; in
    others what is neither a str nor an int is a TypeError."""
    written = line_writer()
    for number, given in enumerate(rows, 1):
        row = with_kinds(given, kinds, number) if any(kinds) else given
        fields = list(map(cell_of, row))
        # A row without fields would be none, and `end` alone would end the block: as one empty
        # field the program refuses them by their number.
        text = written(fields)[:-2] if len(fields) > 1 else '""'
        yield text.encode("utf-8", "surrogateescape") + b"\n"


def cell_of(value: Any) -> str | int:
    """A text as it is, and a whole number of any type; anything else is a TypeError."""
    return value if isinstance(value, str) else int(operator.index(value))


def with_kinds(row: GivenRow, kinds: Sequence[Optional[Kind]], number: int) -> GivenRow:
    """A row whose amounts and dates are numbers of the program."""
    made = list(row)
    for place, (value, kind) in enumerate(zip(row, kinds)):
        if kind:
            try:
                made[place] = kind.given(value)
            except ValueError as error:
                raise Fault(f"row {number}, field {place + 1} is {error}: {value!r}") from error
    return made


def has_end(row: bytes) -> bool:
    """Whether a line within a row would end the block."""
    return b"\nend\n" in row or b"\nend\r\n" in row


def block(command: bytes, rows: Sequence[bytes]) -> bytes:
    """A command with the rows of its block, each of which has its line feed."""
    # A byte order mark at the front of a block would be dropped, but for an empty line before it,
    # which is no row.
    mark = b"\n" if rows and rows[0].startswith(MARK) else b""
    return command + b"\n" + mark + b"".join(rows) + b"end\n"


def sendable(given: Iterable[GivenRow], kinds: Sequence[Optional[Kind]] = ()) -> list[bytes]:
    """The bytes of rows, each with its line feed; a refusal if a text has a line that would end
    the block."""
    rows = list(encoded(given, kinds))
    for number, row in enumerate(rows, 1):
        if has_end(row):
            raise Refused(f"refused row {number} end")
    return rows


def block_of(command: bytes, given: Iterable[GivenRow]) -> bytes:
    """A command with rows of str and int."""
    return block(command, sendable(given))


def rows_of_file(path: str) -> bytes:
    """The rows of a file, as they stand in a block."""
    with open(path, "rb") as file:
        rows = file.read()
    if END.search(rows):
        raise Fault(f"{path} has a line that is `end`, which would end the block")
    return rows if rows.endswith(b"\n") or not rows else rows + b"\n"


class Answer(list[tuple[Value, ...]]):
    """The rows of an answer as tuples, the names of their columns, and whether each has numbers.

    A value is a str or an int; in a column of amounts a Decimal, of days a date, and of months a
    text as 2025-03. The kinds of columns are those of `Kind`, None for a column without one. Of a
    query that SQLite has answered, `keys` has the places of the columns that it groups by.
    """

    keys: Optional[frozenset[int]] = None

    def __init__(
        self,
        columns: Sequence[str],
        numeric: Sequence[bool],
        records: Iterable[Sequence[str]],
        kinds: Sequence[Optional[Kind]] = (),
    ) -> None:
        self.columns, self.kinds = tuple(columns), tuple(kinds or [None] * len(columns))
        dates = [kind is not None and kind.name in ("day", "month") for kind in self.kinds]
        self.numeric = tuple(each and not is_date for each, is_date in zip(numeric, dates))
        reads = [reader_of(each, kind) for each, kind in zip(numeric, self.kinds)]
        super().__init__(
            tuple(read(cell) for read, cell in zip(reads, record)) for record in records
        )


def reader_of(is_number: bool, kind: Optional[Kind]) -> Callable[[str], Value]:
    """What makes a value of a cell."""
    if not is_number:
        return str
    if kind is None:
        return int
    value = kind.value
    return lambda cell: value(int(cell)) if cell else ""


def kind_of_value(column: str, kinds: Mapping[str, Kind]) -> Optional[Kind]:
    """The kind of a count, a sum, a least or a greatest value; a count has none."""
    return None if column == "count" else kind_of_column(column, kinds)


def kind_of_column(column: str, kinds: Mapping[str, Kind]) -> Optional[Kind]:
    """The kind of a column of an answer: that of an attribute, or of the measure of a sum."""
    measure = OF_MEASURE.fullmatch(column)
    return kinds.get(measure[1].lower() if measure else column)


def answer_of(
    question: Question,
    schema: Schema,
    records: Iterable[Sequence[str]],
    kinds: Mapping[str, Kind] = {},
) -> Answer:
    """The answer to a slice: its groups, and then its columns."""
    numeric = [name in schema.numbers for name in question.groups] + [True] * len(question.columns)
    columns = question.groups + question.columns
    own = [kinds.get(group) for group in question.groups]
    own += [kind_of_value(column, kinds) for column in question.columns]
    return Answer(columns, numeric, records, own)
