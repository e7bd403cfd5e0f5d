"""A csv file: the names of its columns, and its rows as a schema has them."""
from __future__ import annotations

import csv
import io
import re
import unicodedata
from collections import Counter
from functools import lru_cache
from itertools import islice
from operator import itemgetter
from typing import Callable, Collection, Iterable, Iterator, Mapping, Optional, Sequence

from ..codec import MARK
from ..errors import Fault
from ..schema import Schema
from ..ui import counted
from ..values import Kind
from .opening import FRONT, LONGEST_LINE, Lines, open_rows

LONGEST_NAME = 32
MARKS = (",", "\t", ";", "|")
SPACE = " "  # as a delimiter: any spaces and tabs
SPACES = re.compile(r'("(?:[^"]|"")*")|[ \t]+')
WIDE_SPACES = re.compile(r"\S {2,}\S")
NO_FIT = (0.0, False)


class Table:
    """A csv file: the names of its columns, and its rows, each as wide as the header.

    The first rows show the delimiter. What they leave unclear is a Fault, which names the word of
    `cube load` that makes it clear.
    """

    def __init__(
        self,
        path: str,
        delimiter: Optional[str] = None,
        has_header: bool = True,
        names: Optional[Sequence[str]] = None,
        *,
        skip: int = 0,
        row_names: bool = False,
        fill: bool = False,
    ) -> None:
        self.source = open_rows(path)
        front = Front(self.source.front, skip)
        self.is_delimiter_given = delimiter is not None
        self.delimiter = delimiter or front.delimiter()
        front.expect_no_comments(self.delimiter)
        if has_header and not names and not row_names:
            front.expect_header(self.delimiter)
        self.text = Lines(self.source.stream)
        is_padded = front.is_padded(self.delimiter)
        csv.field_size_limit(LONGEST_LINE)
        self.reader = csv.reader(
            lines_after(self.text, self.delimiter, skip),
            delimiter=self.delimiter,
            strict=True,
            skipinitialspace=is_padded,
        )
        self.row, self.lines, self.end = 0, skip, 0
        self.fill, self.has_header = fill, has_header
        first = next(self.records(), []) if has_header else front.first(self.delimiter)
        self.end = int(self.reader.line_num)
        self.titles = self.titles_of(first, names, row_names)
        self.names = names_of(self.titles)
        self.remarks = self.remarked(is_padded)
        self.other_delimiter = front.other(self.delimiter) if len(self.titles) == 1 else ""
        self.forms: list[tuple[int, Callable[[str], str], str]] = []
        self.na: frozenset[str] = frozenset()
        self.missing: Counter[str] = Counter()

    def titles_of(
        self, first: list[str], names: Optional[Sequence[str]], row_names: bool
    ) -> list[str]:
        """The titles of the columns, if the first record is this."""
        if not first:
            raise Fault("there is no header line" if self.has_header else "there are no rows")
        self.width_of = "--names has" if names else "the header has"
        if names:
            if not self.has_header and len(names) != len(first):
                wrong = f"row 1 has {counted(len(first), 'field')}, and --names has {len(names)}"
                raise Fault(wrong)
            return list(names)
        if not self.has_header:
            self.width_of = "the first row has"
            return [f"column_{place}" for place in range(1, len(first) + 1)]
        return ["row", *first] if row_names else first

    def remarked(self, is_padded: bool) -> list[str]:
        """What is to be said of the header and the fields."""
        again = [
            f"`{title}` is {name}"
            for place, (title, name) in enumerate(zip(self.titles, self.names), 1)
            if name != plain_name(title, place)
        ]
        more = f" and {len(again) - 5} more" if len(again) > 5 else ""
        said = [f"the header repeats names: {', '.join(again[:5])}{more}"] if again else []
        if is_padded:
            said.append("a space after each delimiter is left out")
        return said

    # ---- conversions

    def convert(self, kinds: Mapping[str, Kind], na: Collection[str] = ()) -> None:
        """From now on the cells of these columns are as the program keeps them. Those that are
        equal to one of `na` become 0 in columns of numbers, and empty in columns of texts."""
        self.na, self.forms = frozenset(na), []
        for place, name in enumerate(self.names):
            kind = kinds.get(name)
            if kind and (na or kind.name not in ("text", "whole")):
                self.forms.append((place, conversion(kind), "0" if kind.is_number() else ""))

    def converted(self, row: list[str]) -> list[str]:
        """A row as the program keeps it."""
        for place, kept, nothing in self.forms:
            cell = row[place]
            if cell in self.na:
                row[place] = nothing
                self.missing[self.names[place]] += 1
                continue
            try:
                row[place] = kept(cell)
            except ValueError as error:
                why = f"{self.names[place]} is {error}: {cell[:60]!r}"
                raise Fault(f"{self.place()}: {why}") from error
        return row

    def is_plain(self) -> bool:
        """Whether a row without quotes may go through as it stands."""
        is_padded = self.reader.dialect.skipinitialspace
        return len(self.names) > 1 and self.delimiter != SPACE and not self.forms and not is_padded

    def named(self, title: str) -> str:
        """The name of a column, which may stand as in the header."""
        name = dict(zip(self.titles, self.names)).get(title) or names_of([title])[0]
        if name not in self.names:
            raise Fault(f"the header has no column for `{title}`; {self.columns()}")
        return name

    def columns(self) -> str:
        """The columns in words, for a fault."""
        other = f": try {self.other_delimiter}" if self.other_delimiter else ""
        return f"its columns are {', '.join(self.names)}{other}"

    # ---- rows

    def records(self) -> Iterator[list[str]]:
        """The records after those that were read; empty lines are none."""
        try:
            yield from filter(None, self.reader)
        except csv.Error as error:
            raise self.no_csv(str(error)) from error

    def no_csv(self, said: str) -> Fault:
        """The fault of what `csv` can't read, which says why."""
        before = self.lines + self.end
        if "unexpected end" in said:
            if not self.source.is_file:
                return Fault(f"a quote that opens after line {before} is not closed")
            return Fault(f"the quote that opens in line {self.quote_line(before)} is not closed")
        if "field limit" in said:
            why = f"the row after line {before} has a field of more than 64 MiB"
            return Fault(f"{why}: perhaps a quote is not closed")
        return Fault(f"line {self.line}, after row {self.row}, is no csv: {said}")

    def quote_line(self, before: int) -> int:
        """The line in which the quote opens that is not closed; the file is read again from its
        row on, which begins after a line."""
        lines = lines_after(Lines(open_rows(self.source.name).stream), self.delimiter, before)
        reader, last = csv.reader(lines, delimiter=self.delimiter), [""]
        for row in reader:
            last = row or last
        lines_of_quote = last[-1].count("\n") + (not last[-1].endswith("\n"))
        return before + int(reader.line_num) - lines_of_quote + 1

    def rows(self) -> Iterator[list[str]]:
        """The rows after the header, which have as many fields."""
        width, reader = len(self.names), self.reader
        for row in self.records():
            self.row += 1
            if len(row) != width:
                row = self.filled(row)
            if self.forms:
                row = self.converted(row)
            self.end = reader.line_num
            yield row

    def filled(self, row: list[str]) -> list[str]:
        """A row of another width, filled up if that is wanted."""
        width = len(self.names)
        if self.fill and len(row) < width:
            return row + [""] * (width - len(row))
        hint = f"a field with {shown_mark(self.delimiter)} in it needs quotes"
        if len(row) < width:
            hint = "--fill takes the missing ones as empty"
        elif self.other_delimiter:
            hint = f"try {self.other_delimiter}"
        has = f"has {counted(len(row), 'field')}, and {self.width_of} {width}"
        raise Fault(f"{self.place()} {has}: {hint}")

    # ---- places

    def go_on(self, row: int, lines: int) -> None:
        """Counts on from rows, and from lines after the header, that were read elsewhere."""
        self.row, self.lines = row, lines

    @property
    def line(self) -> int:
        """The line in which the last row ends."""
        return self.lines + int(self.reader.line_num)

    @property
    def odd_line(self) -> Optional[int]:
        """The first line with bytes that are not UTF-8, as far as the file was read."""
        return self.text.odd_line

    @property
    def odd_lines(self) -> int:
        """How many lines have bytes that are not UTF-8, as far as the file was read."""
        return self.text.odd_lines

    def place(self) -> str:
        """Which row was read last."""
        return f"row {self.row} (line {self.line})"

    def part(self) -> float:
        """The part of the file that was read."""
        return self.source.part()


def lines_after(text: Iterable[str], delimiter: str, skip: int) -> Iterator[str]:
    """The lines after those that are skipped, as `csv` has to read them."""
    lines = iter(text)
    for _ in islice(lines, skip):
        pass
    return map(squeezed, lines) if delimiter == SPACE else lines


def conversion(kind: Kind) -> Callable[[str], str]:
    """What the program keeps of a cell, by the cell."""
    if kind.name in ("text", "whole"):
        return str
    return lru_cache(1 << 16)(kind.kept)


def squeezed(line: str) -> str:
    """A line whose fields have spaces between them, with a single space for each of these."""
    return SPACES.sub(lambda found: found[1] or SPACE, line.strip()) + "\n"


def shown_mark(mark: str) -> str:
    """A delimiter as --delimiter has it."""
    return {"\t": "tab", SPACE: "space"}.get(mark, f"'{mark}'")


def word_for(mark: str) -> str:
    """The word for a delimiter."""
    return f"--delimiter {shown_mark(mark)}"


# ---- the first rows


class Front:
    """The first rows of a file, which show its delimiter, and whether its header is one."""

    def __init__(self, front: bytes, skip: int) -> None:
        text = front.removeprefix(MARK).decode("utf-8", "surrogateescape")
        lines = list(io.StringIO(text, newline=""))
        self.is_cut = len(front) >= FRONT and len(lines) > 1
        self.skip = skip
        self.lines = lines[skip : len(lines) - self.is_cut]
        comments = next((n for n, line in enumerate(self.lines) if line[0] != "#"), 0)
        self.comments, self.body = self.lines[:comments], self.lines[comments:]

    def records(self, mark: str, lines: Sequence[str]) -> dict[int, list[str]]:
        """The records of these lines by a delimiter, each by the number of its first line."""
        given = map(squeezed, lines) if mark == SPACE else iter(lines)
        reader, found, line = csv.reader(given, delimiter=mark, skipinitialspace=True), {}, 1
        try:
            for row in reader:
                if row:
                    found[line] = row
                line = reader.line_num + 1
        except csv.Error:
            pass  # the reading itself says what is wrong
        if self.is_cut and len(found) > 1:
            found.popitem()
        return found

    def first(self, mark: str) -> list[str]:
        """The first record by a delimiter."""
        return next(iter(self.records(mark, self.lines).values()), [])

    # ---- the delimiter

    def fit(self, mark: str) -> tuple[float, bool]:
        """The share of the rows that have the same number of fields, more than one, by a delimiter,
        and whether the header is one of them."""
        rows = list(self.records(mark, self.body).values())
        width, share = usual_width(rows)
        return (share, len(rows[0]) == width) if width > 1 else NO_FIT

    def delimiter(self) -> str:
        """The delimiter by which most rows have the same number of fields; a comma if none does."""
        fits = {mark: self.fit(mark) for mark in MARKS}
        likely = [mark for mark in MARKS if fits[mark] == max(fits.values())]
        if fits[likely[0]] == NO_FIT:
            self.expect_no_spaces()
            return MARKS[0]
        if len(likely) > 1:
            marks, words = map(shown_mark, likely), map(word_for, likely)
            raise Fault(f"{' and '.join(marks)} may both be the delimiter: {' or '.join(words)}")
        return likely[0]

    def other(self, mark: str) -> str:
        """The word of another delimiter by which most rows have the same number of fields."""
        fits = {other: self.fit(other) for other in MARKS if other != mark}
        best = max(fits, key=lambda other: fits[other])
        return word_for(best) if fits[best][0] > 0.5 else ""

    def is_padded(self, mark: str) -> bool:
        """Whether a space follows each delimiter."""
        rows = list(csv.reader(self.body, delimiter=mark)) if mark != SPACE else []
        cells = [cell for row in rows for cell in row[1:] if cell]
        return len(rows) > 1 and bool(cells) and all(cell[0] == SPACE for cell in cells)

    def expect_no_spaces(self) -> None:
        """A fault if spaces separate the fields, or fill columns of fixed widths."""
        lines = [line for line in self.body if line.strip()]
        words = [line.split() for line in lines]
        width, share = usual_width(words)
        if len(lines) > 1 and width > 1 and share >= 0.9:
            one = f"{word_for(',')} if it has only one column"
            raise Fault(f"each row has {width} words and no delimiter: {word_for(SPACE)}, or {one}")
        if sum(bool(WIDE_SPACES.search(line)) for line in lines) > len(lines) / 2:
            way = "in2csv -f fixed -s WIDTHS FILE makes csv of it (apt install csvkit)"
            raise Fault(f"its columns have fixed widths: {way}")

    # ---- the header

    def expect_no_comments(self, mark: str) -> None:
        """A fault if comments stand before the header, which may begin with # itself."""
        width, _ = usual_width(list(self.records(mark, self.body).values()))
        lines = len(self.comments)
        if lines and len(next(iter(self.records(mark, self.comments[-1:]).values()), [])) == width:
            lines -= 1
        if lines:
            first = f"line {self.skip + 1} is a comment"
            raise Fault(f"{first}: --skip-lines {self.skip + lines} skips it")

    def expect_header(self, mark: str) -> None:
        """A fault if the first row has too few fields to be the header of the others."""
        records = self.records(mark, self.body if len(self.comments) != 1 else self.lines)
        header, *rows = list(records.values()) or [[]]
        width, share = usual_width(rows)
        if len(header) >= width or share <= 0.5:
            return
        line = self.skip + next(iter(records))
        has = f"line {line} has {counted(len(header), 'field')}, and"
        if len(header) + 1 == width and all(len(row) == width for row in rows):
            raise self.one_less(mark, f"{has} all rows {width}", rows)
        first = self.skip + next(line for line, row in records.items() if len(row) == width)
        way = f"--skip-lines {first - 1} if line {first} is the header"
        raise Fault(f"{has} most rows {width}: {way}")

    def one_less(self, mark: str, has: str, rows: list[list[str]]) -> Fault:
        """The fault of a header that has one field less than all rows."""
        if self.other(mark):
            return Fault(f"{has}: try {self.other(mark)}")
        if not any(row[-1] for row in rows):
            end = "\\t" if mark == "\t" else mark
            return Fault(f"{has}, the last of them empty: sed 's/{end}\\r*$//' FILE removes it")
        skip = self.skip + 1
        other = f"--skip-lines {skip} if line {skip + 1} is the header"
        return Fault(f"{has}: --row-names if the first column has no name, {other}")


def usual_width(rows: Sequence[Sequence[str]]) -> tuple[int, float]:
    """The most frequent number of fields of these rows, and its share of them."""
    widths = Counter(map(len, rows))
    width = max(widths, key=lambda each: (widths[each], -each), default=0)
    return width, widths[width] / len(rows) if rows else 0.0


# ---- names


def plain_name(title: str, place: int) -> str:
    """The name of a column by its title, as a schema may have it."""
    plain = unicodedata.normalize("NFKD", title).encode("ascii", "ignore").decode().lower()
    plain = re.sub(r"[^a-z0-9]+", "_", plain).strip("_")
    return (plain if plain[:1].isalpha() else f"column_{plain or place}")[:LONGEST_NAME]


def names_of(header: Sequence[str]) -> list[str]:
    """The names of columns, as a schema may have them, each once."""
    names: list[str] = []
    for place, title in enumerate(header, 1):
        name = first = plain_name(title, place)
        number = 1
        while name in names:
            number += 1
            name = f"{first[: LONGEST_NAME - 6]}_{number}"
        names.append(name)
    return names


def picker(table: Table, schema: Schema) -> Callable[[list[str]], Sequence[str]]:
    """What makes the fields of a row, in the order of the schema, of a record of the file."""
    names = table.names + ["one"]
    for name in schema.columns():
        is_one = name == "one" and name in schema.attributes and name not in table.names
        if name not in names or is_one:
            raise Fault(f"the header has no column for `{name}`; {table.columns()}")
    places = [names.index(name) for name in schema.columns()]
    if len(table.names) in places:
        return lambda row: [(row + ["1"])[place] for place in places]
    if len(places) == 1:
        return lambda row: [row[places[0]]]
    return itemgetter(*places)
