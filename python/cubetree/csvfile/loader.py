"""Loads csv files into a folder: what their columns mean, and which of their rows are new."""
from __future__ import annotations

import os
import shlex
import sys
from dataclasses import dataclass, field
from typing import Iterator, Mapping, Optional, Sequence

from ..batches import Record
from ..codec import MOST_ROWS
from ..columns import Columns, in_words, is_possible, kept_columns
from ..design.proposals import Asked, Proposal, Told, proposal, questions_in
from ..errors import Changed, Doubtful, Fault
from ..locks import Writer
from ..progress import ProgressFile
from ..questions import ranges_of_texts
from ..schema import Schema
from ..ui import Progress, counted
from ..values import TEXT, WHOLE_NUMBER, Kind
from .intake import Load, batches, fit_one_batch
from .reader import ROWS, Copied, new_columns, pieces, source_of, use_titles
from .resume import Piece, Rows, Start, Words, expect_no_rows, expect_rows, start_of
from .tables import Table, picker

BATCH = 100_000  # rows, unless all rows go into one batch
OPEN = (Kind("day"), Kind("decimal"))  # the kinds that a file completes


@dataclass
class Reading:
    """How files are read: the words that say where fields and names are."""

    delimiter: Optional[str] = None
    has_header: bool = True
    names: Optional[list[str]] = None
    skip: int = 0
    row_names: bool = False
    fill: bool = False

    def table(self, path: str) -> Table:
        """The table of a file."""
        return Table(
            path,
            self.delimiter,
            self.has_header,
            self.names,
            skip=self.skip,
            row_names=self.row_names,
            fill=self.fill,
        )


@dataclass
class Meanings:
    """What the words of a call say of columns, by the names or titles of these. A day without an
    order and a decimal without places are found in the file."""

    kinds: dict[str, Kind] = field(default_factory=dict)
    sums: list[str] = field(default_factory=list)
    texts: list[str] = field(default_factory=list)
    na: list[str] = field(default_factory=list)

    def are_open(self) -> bool:
        """Whether something is left open that the file has to show."""
        return any(kind in OPEN for kind in self.kinds.values())

    def told(self, table: Table) -> Told:
        """The meanings by the names of the columns of a table."""
        kinds = {table.named(title): kind for title, kind in self.kinds.items()}
        sums = {table.named(title) for title in self.sums}
        texts = {table.named(title) for title in self.texts}
        dates = {name for name, kind in kinds.items() if kind.name == "day"}
        for name in sorted(dates & sums | set(kinds) & texts | sums & texts):
            raise Fault(f"{name} is named as two kinds of columns")
        return Told(kinds, sums, texts, tuple(self.na))


@dataclass
class Options:
    """What a load is to do beside that."""

    reading: Reading
    meanings: Meanings
    schema: Optional[str] = None
    questions: Optional[str] = None
    batch: Optional[int] = None
    number: Optional[int] = None
    from_row: Optional[int] = None
    goes_on: bool = False
    is_sure: bool = False


# ---- the first file


def proposed(table: Table, options: Options) -> Proposal:
    """The proposal for a file, with views for the questions of a file if one is named."""
    told = options.meanings.told(table)
    if not options.questions:
        return proposal(table, told)
    asked = Asked(table, questions_in(options.questions), told)
    for text, _ in asked.asked:
        for said in ranges_of_texts(text, asked.numbers):
            print(f"cube load: {said}", file=sys.stderr)
    return asked.proposal()


def schema_in(path: str) -> list[str]:
    """The lines of a schema in a file, as a block."""
    with open(path, encoding="utf-8") as file:
        lines = file.read().splitlines()
    return ["schema", *(line for line in lines if line not in ("schema", "end")), "end"]


def beginning_of(table: Table, options: Options) -> tuple[list[str], Columns]:
    """The schema that the first load of a folder declares, and what it keeps of the columns;
    Doubtful if the file is perhaps not what its user means."""
    if options.schema:
        lines = schema_in(options.schema)
        kinds, na = told_kinds(table, options), tuple(options.meanings.na)
    else:
        found = proposed(table, options)
        print("\n".join(found.lines), file=sys.stderr)
        if found.doubts and not options.is_sure:
            raise Doubtful([f"{doubt.text}: {doubt.word}" for doubt in found.doubts])
        lines, kinds, na = found.lines, found.kinds, found.na
    schema = Schema(lines)
    picker(table, schema)
    return lines, columns_of(schema, table, kinds, na)


def told_kinds(table: Table, options: Options) -> dict[str, Kind]:
    """The kinds that the words of the call say; what they leave open is looked for in the file."""
    told = options.meanings.told(table)
    if not options.meanings.are_open():
        return dict(told.kinds)
    found = proposal(table, told).kinds
    return {name: found[name] for name in told.kinds if name in found}


def columns_of(
    schema: Schema, table: Table, kinds: Mapping[str, Kind], na: Sequence[str]
) -> Columns:
    """What a folder with this schema keeps of the columns of its first file."""
    own = {name: kind_of(name, schema, kinds) for name in schema.columns()}
    for name, kind in own.items():
        if not is_possible(kind, name, schema):
            what = "a measure" if name in schema.measures else "an attribute"
            raise Fault(f"{name} is {what} in the schema, and can't have {in_words(kind)}")
    titles = dict(zip(table.names, table.titles))
    left = [title for name, title in titles.items() if name not in own]
    kept = {name: title for name, title in titles.items() if name in own}
    return Columns(own, kept, left, list(na))


def kind_of(name: str, schema: Schema, kinds: Mapping[str, Kind]) -> Kind:
    """The kind of a column of the schema."""
    is_number = name in schema.numbers or name in schema.measures
    return kinds.get(name, WHOLE_NUMBER if is_number else TEXT)


# ---- later files


def known_columns(load: Load, table: Table, options: Options, kept: Optional[Columns]) -> Columns:
    """What the folder keeps of its columns, with which the words of the call have to agree. A
    folder of older tools keeps from now on what they say."""
    if kept is None:
        kinds, na = told_kinds(table, options), options.meanings.na
        found = Columns(kinds, na=list(na))
        if not load.facts:
            found = columns_of(load.schema, table, kinds, na)
        if found.kinds or found.na:
            found.write(load.folder)
        return found
    use_titles(table, kept)
    kept.expect(options.meanings.told(table).kinds)
    more = [text for text in options.meanings.na if text not in kept.na]
    if more:
        kept.na += more
        kept.write(load.folder)
    return kept


# ---- loads


def load_files(
    folder: str, paths: Sequence[str], options: Options, waits: bool, progress: Progress
) -> None:
    """Loads files into a folder, one after the other, and says how many rows of each."""
    load = Load(Writer("cube load", folder, waits))
    number, progress.file = options.number, ProgressFile(folder, "cube load")
    try:
        for path in paths:
            done = load_file(load, path, number, options, progress)
            progress.clear()
            print(f"cube load: {done.said(path if len(paths) > 1 else '')}", file=sys.stderr)
            number = done.next if options.number else None
        if done.loaded:
            print(f"cube load: {done.undo(folder)}", file=sys.stderr)
        load.loading.run.end()
    except Doubtful:
        raise
    except Fault as fault:
        kind = Changed if isinstance(fault, Changed) else Fault
        name = f"{path}: " if len(paths) > 1 else ""
        raise kind(name + load.ended_by(fault)) from fault
    finally:
        progress.file.end()
        load.close()


@dataclass
class Done:
    """What became of a file: its rows that were loaded, and those that were there already; the
    facts of the folder after it; the number of the next batch, if numbers were asked for; and the
    rows of the last batch."""

    loaded: int
    already: int
    facts: int
    next: Optional[int]
    last: int

    def said(self, name: str) -> str:
        """What became of the file, in words."""
        verb = "was" if self.already == 1 else "were"
        already = f", {self.already:,} {verb} there already" if self.already else ""
        due = f"; the next number is {self.next}" if self.next else ""
        front = f"{name}: " if name else ""
        keeps = f"the folder keeps {counted(self.facts, 'fact')}"
        return f"{front}{counted(self.loaded, 'row')} loaded{already}; {keeps}{due}"

    def undo(self, folder: str) -> str:
        """What `cube undo` takes back, in words."""
        place = "" if folder == "." else f" --folder {shlex.quote(folder)}"
        rows = "them" if self.last == self.loaded else f"the last {self.last:,} of them"
        return f"to take {rows} back: cube undo{place}"


def load_file(
    load: Load, path: str, number: Optional[int], options: Options, progress: Progress
) -> Done:
    """Loads the rows of a file that the folder does not have."""
    table, columns = opened(load, path, options)
    for title in new_columns(table, load.schema, columns):
        print(f"cube load: {path}: the column `{title}` is new, and is left out", file=sys.stderr)
    table.convert(columns.kinds, columns.na)
    record, before = load.record(), load.facts
    source = record.name_of(source_of(path))
    row = row_after_facts(record, source, before) if options.goes_on else options.from_row
    start = start_of(Words(source, number, row), record, 0 if options.goes_on else before)
    most = min(options.batch or BATCH, ROWS)
    rows = Rows(shown(pieces(table, load.schema, most), table, options, progress))
    already = expect_rows(rows, start, source)
    expect_no_rows(rows, start)
    source = noted_source(record, start, source)
    for batch in batches(rows, options.batch or usual_batch(path, table, rows)):
        load.send(batch, record, source, batch.first == start.first)
        progress.batches += 1
    load.take_reply()
    say_missing(table)
    last = start.expected[-1].number if start.expected else 0
    due = load.number if load.facts > before or not last else last + 1
    return Done(load.facts - before, already, load.facts, due if number else None, load.last)


def usual_batch(path: str, table: Table, rows: Rows) -> int:
    """The most rows of a batch, if the user names no number: a file that fits one batch is one. The
    rows of a pipe are not waited for."""
    is_one = os.path.isfile(path) and fit_one_batch(rows, table.source.size)
    return MOST_ROWS if is_one else BATCH


def noted_source(record: Record, start: Start, source: str) -> str:
    """The name by which new rows of a source are noted: that of the rows before them."""
    if start.settles:
        record.settle()
    if not start.expected or not start.expected[0].first or start.expected[0].source == source:
        return source
    record.note_same(source, start.expected[0].source)
    return start.expected[0].source


def row_after_facts(record: Record, source: str, facts: int) -> Optional[int]:
    """The row with which --go-on begins; None if the record knows it."""
    sources = {load.source for load in record.loads()}
    if source in sources:
        return None
    if sources:
        raise Changed(
            "the folder has facts of other files too, so their number says nothing of this one:"
            " give --from-row"
        )
    if facts:
        print(
            (
                f"cube load: goes on with row {facts + 1:,}: it is not known whether the"
                f" {counted(facts, 'fact')} of the folder are the rows before it"
            ),
            file=sys.stderr,
        )
    return facts + 1


def opened(load: Load, path: str, options: Options) -> tuple[Table, Columns]:
    """The table of a file, and what its columns mean; a first file declares the schema."""
    schema = load.loading.schema
    kept = kept_columns(load.folder, schema) if schema else None
    looks = schema is None and not options.schema or kept is None and options.meanings.are_open()
    copied = Copied(path) if looks and not os.path.isfile(path) else None
    place = copied.path if copied else path
    table = options.reading.table(place)
    if schema is None:
        lines, columns = beginning_of(table, options)
        columns.write(load.folder)
        load.declare(lines)
    else:
        columns = known_columns(load, table, options, kept)
        if options.schema and Schema(schema_in(options.schema)).says() != schema.says():
            raise Fault(f"the folder has another schema than {options.schema}: give a new folder")
    return (options.reading.table(place) if looks else table), columns


def shown(
    found: Iterator[Piece], table: Table, options: Options, progress: Progress
) -> Iterator[Piece]:
    """Pieces of a table, as the progress of the load is shown. One with bytes that are not UTF-8
    is a fault, unless the user is sure."""
    for piece in found:
        if progress.file:
            progress.file.tell(table.row, table.part() or None, progress.batches)
        if progress.is_due():
            part, spent = table.part(), progress.spent()
            left = f", {part:.0%}, {spent / part - spent:,.0f} s left" if part else ""
            progress.show(f"{table.row:,} rows, {table.row / spent:,.0f} a second{left}")
        if table.odd_line and not options.is_sure:
            raise Fault(
                f"line {table.odd_line} has bytes that are not UTF-8: make the file UTF-8, by iconv"
                " -f cp1252 -t utf-8, or give --yes to load them as they are"
            )
        yield piece


def say_missing(table: Table) -> None:
    """Says how many cells stood for nothing."""
    for name, count in sorted(table.missing.items()):
        what = "counts as 0" if count == 1 else "count as 0"
        print(
            f"cube load: {counted(count, 'cell')} of {name} without a value {what}", file=sys.stderr
        )
