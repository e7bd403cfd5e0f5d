"""The schema that is proposed for a csv file, from its header, its cells and the questions that
will be asked; and what is doubtful about it."""
from __future__ import annotations

import math
import re
import shlex
from dataclasses import dataclass, field
from functools import partial
from typing import Callable, Collection, Iterable, Iterator, Mapping, Optional, Sequence

from ..csvfile.sniff import LONGEST_TEXT, MOST_VALUES, NUMERAL, ROW_NUMBERS, Cells, Column
from ..csvfile.tables import Table
from ..dates import bounds_of
from ..errors import Fault
from ..format.forest import NARROW, PAGE, WIDE, leaf_room
from ..questions import Condition, Question, question_of
from ..ui import counted, shown
from ..values import TEXT, WHOLE_NUMBER, Kind
from .replicas import MOST_OF_A_VIEW, smallest_views
from .sample import Sample
from .views import Needs, View, needs_of, picked

CONDITION = re.compile(r"[+-]?[0-9]+(\.\.[+-]?[0-9]+)?", re.ASCII)
MOST_ATTRIBUTES, MOST_MEASURES, MOST_VIEWS = 16, 4, 32
MOST_TEXTS, GREATEST_MAX, GREATEST_NARROW = 1_000_000, 16_777_215, 4_294_967_293
PIECE = 10_000  # rows that are seen together


@dataclass(frozen=True)
class Told:
    """What the words of a load say of columns, by their names: kinds, columns that are summed or
    stay texts, and texts of missing values. A day without an order and a decimal without places are
    completed from the file."""

    kinds: Mapping[str, Kind] = field(default_factory=dict)
    sums: Collection[str] = ()
    texts: Collection[str] = ()
    na: tuple[str, ...] = ()

    def kind(self, name: str) -> Optional[Kind]:
        """The kind that a column is said to have."""
        return TEXT if name in self.texts else self.kinds.get(name)

    def names(self, name: str) -> bool:
        """Whether something is said of a column."""
        return name in self.kinds or name in self.sums or name in self.texts


@dataclass(frozen=True)
class Doubt:
    """What may be wrong with a file or its proposal, and the option of `cube load` that settles
    it."""

    text: str
    word: str


@dataclass
class Proposal:
    """The lines of a schema; the kinds of its columns and the texts of missing values, both as
    `Table.convert` takes them; the columns that are left out; and what is doubtful."""

    lines: list[str]
    kinds: dict[str, Kind]
    na: tuple[str, ...]
    left: list[str]
    doubts: list[Doubt]


# ---- columns


def columns_of(table: Table, told: Told) -> list[Column]:
    """The columns of a file, of which nothing is seen yet."""
    return [
        Column(name, title, table.delimiter, told.kind(name), name in told.sums, told.na)
        for name, title in zip(table.names, table.titles)
    ]


def see_rows(columns: list[Column], table: Table, rows: Iterable[list[str]]) -> None:
    """Sees the rows of a file to its end, and settles what the columns are."""
    piece: list[list[str]] = []
    lines: list[int] = []
    for row in rows:
        piece.append(row)
        lines.append(table.line)
        if len(piece) == PIECE:
            see_piece(columns, piece, table.row, lines)
            piece, lines = [], []
    see_piece(columns, piece, table.row, lines)
    if not table.row:
        raise Fault("there are no rows after the header, so there is nothing to propose from")
    for column in columns:
        column.judge()


def see_piece(columns: list[Column], piece: list[list[str]], last: int, lines: list[int]) -> None:
    """Sees some rows, the last of which has this number."""
    for column, texts in zip(columns, zip(*piece)):
        column.see(Cells(texts, last - len(piece) + 1, lines))


def declaration(column: Column, kind: Kind) -> str:
    """The line of a schema that declares it as an attribute."""
    if kind.is_number():
        return f"attr {column.name} number"
    most = f" max {GREATEST_MAX}" if len(column.values) > MOST_TEXTS else ""
    return f"attr {column.name} text{most}"


@dataclass
class Chosen:
    """The columns of a schema, each with its kind; without a measure, `one` is 1 in each row."""

    attributes: dict[str, Kind]
    measures: dict[str, Kind]
    has_one: bool

    def kinds(self) -> dict[str, Kind]:
        """The kinds of all its columns."""
        return {**self.attributes, **self.measures}

    def lines(self, columns: Mapping[str, Column], is_guess: bool) -> list[str]:
        """The lines that declare them, with a comment for each."""
        lines = ["schema"]
        for name, kind in self.attributes.items():
            lines += [columns[name].comment(kind, is_guess), declaration(columns[name], kind)]
        for name, kind in self.measures.items():
            lines += [columns[name].comment(kind, is_guess), f"measure {name}"]
        return lines + (["# one: each row counts as 1", "measure one"] if self.has_one else [])


# ---- doubts


def header_doubts(table: Table, columns: list[Column]) -> list[Doubt]:
    """The doubt whether the first line is a header: it has numbers over numbers or dates over
    dates, or its texts stand below it too."""
    if not table.has_header:
        return []
    data = [column.title for column in columns if is_data(column)]
    numbered = [[str(first + place) for place in range(len(data))] for first in (0, 1)]
    if len(data) > 2 and data in numbered:
        data = []
    texts = [column for column in columns if not column.number_kind() and column.values]
    same = [column.title for column in texts if column.title in column.values]
    if len(same) * 2 > len(texts):
        data += same
    if not data:
        return []
    titles = ", ".join(map(repr, data[:3])) + (", .." if len(data) > 3 else "")
    return [Doubt(f"the first line may be no header, as it has {titles}", "--no-header")]


def is_data(column: Column) -> bool:
    """Whether the title of a column is one of the numbers or dates that stand below it. Years are
    titles too, unless only years stand below them."""
    title, numbers = column.title, column.numbers
    if any(form.fits(title) for form in column.orders()):
        return True
    if not column.number_kind() or not title or not NUMERAL.fullmatch(title):
        return False
    is_year = len(title) == 4 and title.isdigit() and 1700 <= int(title) <= 2100
    return not is_year or 1700 <= numbers.least and numbers.greatest <= 2100


def file_doubts(table: Table) -> list[Doubt]:
    """What is doubtful about a file that was read to its end, whatever its columns are."""
    doubts = []
    if len(table.names) == 1 and (table.other_delimiter or not table.is_delimiter_given):
        word = table.other_delimiter or "--delimiter ',' if it has only one"
        doubts.append(Doubt("the file has one column", word))
    if table.odd_line:
        has = "line has" if table.odd_lines == 1 else "lines have"
        text = f"{table.odd_lines:,} {has} bytes that are not UTF-8, first line {table.odd_line:,}"
        doubts.append(Doubt(text, "iconv -f CP1252 -t UTF-8 FILE makes it UTF-8"))
    return doubts


def absence_doubts(columns: Iterable[Column], na: Collection[str]) -> list[Doubt]:
    """The missing values in columns of numbers, which no word of the load has allowed."""
    found: dict[str, list[Column]] = {}
    for column in columns:
        for text in sorted(set(column.absent) - set(na)):
            found.setdefault(text, []).append(column)
    doubts = []
    for text, there in found.items():
        cells = ", ".join(f"{column.name} ({column.absent[text]:,})" for column in there[:5])
        more = f" and {counted(len(there) - 5, 'more column')}" if len(there) > 5 else ""
        what = f"cells with {text!r}" if text else "empty cells"
        first = min(column.first_absent[text] for column in there)
        said = f"{what} would count as 0 in {cells}{more}, first in {first}"
        doubts.append(Doubt(said, f"--na {shlex.quote(text)}"))
    return doubts


def left_doubts(left: Iterable[str], told: Told) -> list[Doubt]:
    """The columns that are left out though a word of the load names them."""
    named = [name for name in left if told.names(name)]
    summed = [name for name in named if name in told.sums or name in told.kinds]
    most = f"{MOST_MEASURES} measures" if summed else f"{MOST_ATTRIBUTES} attributes"
    text = f"{', '.join(named)} would be left out, as a schema has at most {most}"
    return [Doubt(text, "name fewer columns")] if named else []


# ---- a proposal for a file


def reason_to_leave(column: Column, told: Told) -> str:
    """Why a column that could be an attribute is no use in a schema; empty if it is of use."""
    if column.role == "empty":
        return column.why
    if told.names(column.name):
        return ""
    keeps = f"(a guess: --text {column.name} keeps it)"
    if column.why == ROW_NUMBERS:
        return f"{column.why} {keeps}"
    if column.role == "identifier" and len(column.values) > MOST_VALUES:
        return f"more than {MOST_VALUES:,} different values, nearly one for every row {keeps}"
    if column.attribute_kind() == TEXT and column.longest > LONGEST_TEXT:
        return f"texts of up to {column.longest:,} bytes, and at most {LONGEST_TEXT} are possible"
    return ""


def first_of(columns: list[Column], most: int, told: Told) -> list[str]:
    """The names of these columns, as many as there may be: first those that a word of the load
    names, and last the identifiers."""
    ranked = sorted(columns, key=lambda each: each.role == "identifier")
    ranked.sort(key=lambda each: not told.names(each.name))
    taken = {column.name for column in ranked[:most]}
    return [column.name for column in columns if column.name in taken]


def chosen_of(columns: Mapping[str, Column], told: Told, reasons: Mapping[str, str]) -> Chosen:
    """The columns of a schema, of those without a reason to leave them out."""
    used = [column for name, column in columns.items() if not reasons[name]]
    measures = [column for column in used if column.role == "measure"]
    attributes = [column for column in used if column.role != "measure"]
    summed = first_of(measures, MOST_MEASURES, told)
    grouped = first_of(attributes, MOST_ATTRIBUTES, told)
    return Chosen(
        {name: columns[name].attribute_kind() for name in grouped},
        {name: columns[name].number_kind() or WHOLE_NUMBER for name in summed},
        not measures,
    )


def left_lines(
    columns: Mapping[str, Column], chosen: Chosen, reasons: Mapping[str, str]
) -> list[str]:
    """Comments on the columns that are left out."""
    lines = [f"# {name}: left out: {why}" for name, why in reasons.items() if why]
    rest = [column for name, column in columns.items() if not reasons[name]]
    rest = [column for column in rest if column.name not in chosen.kinds()]
    for is_measure, most, word in [(True, MOST_MEASURES, "sum"), (False, MOST_ATTRIBUTES, "text")]:
        names = [column.name for column in rest if (column.role == "measure") == is_measure]
        if names:
            what = "measures" if is_measure else "attributes"
            said = f"# left out, as a schema has at most {most} {what}: {', '.join(names)}"
            lines.append(f"{said}; --{word} NAMES chooses others")
    return lines


def view_names(columns: Mapping[str, Column], attributes: Iterable[str]) -> list[str]:
    """The views: one of up to 8 attributes, one of each single attribute that is no identifier,
    and one of none."""
    names = list(attributes)
    own = [name for name in names if columns[name].role != "identifier"]
    wide = [*own, *(name for name in names if name not in own)][:MOST_OF_A_VIEW]
    first = ",".join(name for name in names if name in wide)
    return list(dict.fromkeys([first, *own, ""]))


def proposal(table: Table, told: Told = Told()) -> Proposal:
    """The schema for a file by itself, which is read to its end."""
    columns = {column.name: column for column in columns_of(table, told)}
    see_rows(list(columns.values()), table, table.rows())
    reasons = {name: reason_to_leave(column, told) for name, column in columns.items()}
    chosen = chosen_of(columns, told, reasons)
    if not chosen.attributes:
        raise Fault("there is no column to group by: --text NAME makes one an attribute")
    lines = chosen.lines(columns, True) + left_lines(columns, chosen, reasons)
    views = [f"view {view}".rstrip() for view in view_names(columns, chosen.attributes)]
    return finished(table, told, columns, chosen, [*lines, *views, "end"])


def finished(
    table: Table, told: Told, columns: Mapping[str, Column], chosen: Chosen, lines: list[str]
) -> Proposal:
    """A proposal of these lines, with all that is doubtful about it."""
    kinds = chosen.kinds()
    absent = [column for name, column in columns.items() if kinds.get(name, TEXT) != TEXT]
    absent = [column for column in absent if column.absent]
    na = dict.fromkeys([*told.na, *(text for column in absent for text in sorted(column.absent))])
    left = [name for name in columns if name not in kinds]
    doubts = [*file_doubts(table), *header_doubts(table, list(columns.values()))]
    doubts += left_doubts(left, told)
    dates = [column.date_doubt() for column in columns.values()]
    doubts += [Doubt(*doubt) for doubt in dates if any(doubt)]
    doubts += absence_doubts(absent, told.na)
    remarks = [f"# {remark}" for remark in table.remarks]
    return Proposal([lines[0], *remarks, *lines[1:]], kinds, tuple(na), left, doubts)


# ---- with the questions that will be asked


def questions_in(path: str) -> list[tuple[str, Question]]:
    """The questions of a file, one a line, each after its text; empty lines and those that begin
    with # are none."""
    with open(path, encoding="utf-8", errors="surrogateescape", newline="\n") as file:
        texts = [line.rstrip("\r\n").strip(" ").removeprefix("slice ") for line in file]
    try:
        asked = [(text, question_of(text)) for text in texts if text and not text.startswith("#")]
    except Fault as fault:
        raise Fault(f"{path}: {shown(str(fault))}") from fault
    if not asked:
        raise Fault(f"{path}: there is no question")
    return asked


def with_dates(question: Question, kinds: Mapping[str, Kind]) -> Question:
    """A question whose dates are numbers, as the program has them."""
    conditions = [
        Condition(name, name in kinds and bounds_of(value, kinds[name]) or value)
        for name, value in question.conditions
    ]
    return question._replace(conditions=conditions)


class Asked:
    """The columns of a file that some questions name, and its rows as far as they have to be known
    for the views."""

    def __init__(
        self, table: Table, asked: list[tuple[str, Question]], told: Told = Told()
    ) -> None:
        self.table, self.told, names = table, told, table.names
        questions = [question for _, question in asked]
        bound = [name for question in questions for name in question.attributes()]
        summed = [name for question in questions for name in question.measures()]
        self.grouped = named(names, bound, MOST_ATTRIBUTES)
        self.summed = named([*names, "one"], summed, MOST_MEASURES)
        for name in filter(self.grouped.__contains__, self.summed):
            raise Fault(
                f"the questions sum {name}, and group by it or bind it too: a column is a measure"
                " or an attribute"
            )
        self.columns = {column.name: column for column in columns_of(table, told)}
        self.sample = Sample(self.grouped)
        see_rows(list(self.columns.values()), table, self.sampled(names, table.rows()))
        self.chosen = self.choose()
        kinds = self.chosen.attributes
        self.numbers = {name for name in self.grouped if kinds[name].is_number()}
        self.asked = [(text, with_dates(question, kinds)) for text, question in asked]
        questions = [question for _, question in self.asked]
        self.sizes = {name: self.size(name, kinds[name]) for name in self.grouped}
        kept = [partial(self.columns[name].kept, kind=kinds[name]) for name in self.grouped]
        self.sample.convert(kept)
        for question in questions:
            self.expect_kinds(question)
        self.needs = [needs_of(question, self.numbers) for question in questions]
        self.about = "" if self.sample.distance == 1 else "some "

    def sampled(self, names: Sequence[str], rows: Iterable[list[str]]) -> Iterator[list[str]]:
        """The rows, of which a sample is kept."""
        places = [names.index(name) for name in self.grouped]
        for row in rows:
            self.sample.see(tuple(row[place] for place in places))
            yield row

    def choose(self) -> Chosen:
        """The columns of the schema: those of the questions, and others if they name none."""
        columns = self.columns.values()
        measures = {}
        for name in self.summed:
            kind = self.columns[name].number_kind() if name in self.columns else None
            if kind:
                measures[name] = kind
            elif name in self.columns:
                why = "not all of its values are whole numbers or decimals"
                raise Fault(f"the questions sum {name}, and {why}")
        if not self.summed:
            free = [each for each in columns if each.name not in self.grouped]
            found = [each for each in free if each.role == "measure"][:1]
            measures = {each.name: each.number_kind() or WHOLE_NUMBER for each in found}
        others = [each.name for each in columns if each.role not in ("measure", "empty")]
        grouped = self.grouped or [name for name in others if name not in measures][:1]
        if not grouped:
            raise Fault("there is no column to group by: --text NAME makes one an attribute")
        attributes = {name: self.columns[name].attribute_kind() for name in grouped}
        has_one = "one" in self.summed and "one" not in self.columns or not measures
        return Chosen(attributes, measures, has_one)

    def expect_kinds(self, question: Question) -> None:
        """A fault if a condition is none that its column can have."""
        for name, value in question.conditions:
            if name in self.numbers and not CONDITION.fullmatch(value):
                raise Fault(
                    f"{name} has whole numbers, and {shown(value)} is neither one nor a range"
                )

    def size(self, name: str, kind: Kind) -> int:
        """How many different values an attribute may have."""
        column = self.columns[name]
        return column.different(kind) + (kind.is_number() and bool(column.absent))

    def points(self, attributes: Iterable[str]) -> int:
        """How many points a view of these attributes has, as estimated."""
        names = sorted(attributes)
        sizes = [self.sizes[name] for name in names]
        is_known = max(sizes, default=0) <= MOST_TEXTS
        most = math.prod(sizes) if is_known else self.sample.seen
        return min(self.sample.different(names), most)

    def part(self, view: View, question: Question) -> int:
        """How many of them a question asks for."""
        tests = [
            (self.grouped.index(name), self.test_of(name, value))
            for name, value in question.conditions
        ]
        passing = self.sample.different(
            view, lambda row: all(test(row[place]) for place, test in tests)
        )
        return min(passing, self.points(view))

    def test_of(self, name: str, value: str) -> Callable[[str], bool]:
        """Whether a value meets a condition."""
        if name not in self.numbers:
            return value.__eq__
        low, _, high = value.partition("..")
        ends = int(low), int(high or low)
        return lambda number: ends[0] <= int(number) <= ends[1]

    # ---- the lines

    def proposal(self) -> Proposal:
        """The schema, with a comment for each column, question and view."""
        kinds = self.chosen.kinds()
        lines = self.chosen.lines(self.columns, False)
        left = [name for name in self.columns if name not in kinds]
        lines += [f"# left out, as no question has them: {', '.join(left)}"] if left else []
        measures = len(self.chosen.measures) + self.chosen.has_one
        lines += [*self.view_lines(measures), "end"]
        return finished(self.table, self.told, self.columns, self.chosen, lines)

    def view_lines(self, measures: int) -> list[str]:
        """The lines of the views, after a comment for each question."""
        fitting = [needs for needs in self.needs if len(needs.attributes) <= MOST_OF_A_VIEW]
        views = smallest_views(fitting, self.grouped, self.points) or [()]
        if len(views) > MOST_VIEWS:
            many = f"the questions ask for {len(views)} views, and {MOST_VIEWS} are possible"
            raise Fault(f"{many}: ask fewer at once")
        points = [self.points(view) for view in views]
        lines = [
            f"# {shown(text)}: {self.answered(number, views, points)}"
            for number, (text, _) in enumerate(self.asked)
        ]
        greatest = [self.columns[name].numbers.greatest for name in self.numbers]
        width = WIDE if max(greatest, default=0) > GREATEST_NARROW else NARROW
        for number, (view, count) in enumerate(zip(views, points), 1):
            size = PAGE * -(-count // leaf_room(len(view), measures, width))
            said = f"{self.about}{counted(count, 'point')}, {size:,} bytes"
            lines.append(f"# view {number}: {said} on each of the two sides")
            lines.append(f"view {','.join(view)}".rstrip())
        return lines

    def answered(self, number: int, views: list[View], points: list[int]) -> str:
        """Which view answers a question, and what it reads of it."""
        needs, question = self.needs[number], self.asked[number][1]
        place = picked(views, points, needs)
        if place is None:
            many = f"it has {len(needs.attributes)} attributes and a view at most {MOST_OF_A_VIEW}"
            return f"refused, as {many}"
        count = counted(self.part(views[place], question), "point")
        part = f"view {place + 1}, {self.about}{count} of it"
        if needs.is_run(views[place]):
            return f"{part} in one part"
        return f"{part}, not in one part: {why_not(needs)}"


def why_not(needs: Needs) -> str:
    """Why no order of attributes makes what a question asks for one part."""
    if len(needs.ranges) > 1:
        return "it has two ranges"
    return "another question needs these attributes in another order"


def named(names: Sequence[str], wanted: Sequence[str], most: int) -> list[str]:
    """Those of these names that are wanted, in their order; a fault if another one is, or too many
    are."""
    for name in wanted:
        if name not in names:
            raise Fault(
                f"a question names {shown(name)}, and the header has no such column; its columns"
                f" are {', '.join(names)}"
            )
    found = [name for name in names if name in wanted]
    if len(found) > most:
        many = f"a schema has at most {most} of these"
        raise Fault(f"the questions name {', '.join(found)}: {many}")
    return found
