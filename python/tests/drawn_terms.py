"""Drawn pieces of queries in SQL: literals, names, terms, tests and aggregates.

A template has slots in braces. Each is filled with a drawn piece of its kind: `{text}` with a term
of texts, `{whole}` with one of whole numbers, `{number}`, `{day}` and `{month}` with a column of
dates, `{test}` with a test, `{'}` with a literal of the last column that was named.
"""
from __future__ import annotations

import datetime
import random
import re
from decimal import Decimal
from typing import Any, Callable, Dict, List, NamedTuple, Optional, Sequence, Tuple, TypeVar

from tests.drawn_facts import Shape

Any_ = TypeVar("Any_")
SLOT = re.compile(r"\{(\w+)\}")
ATOM = re.compile(r"[\w.\"`\[\]\ue000\ue001]+|\w+\([^()]*\)|'[^']*'")
MARK = re.compile("\ue000([0-9]+)\ue001")
WITHOUT_COLUMN = ("test", "measure", "linear", "sum", "whole_sum", "filter", "few", "keys")
COLUMNS = {"number": "number of a day", "day": "day", "month": "month"}

TERMS: Dict[str, Sequence[str]] = {
    "text": (
        "UPPER({text})",
        "LOWER({text})",
        "{text} || '-' || {text}",
        "{text} || {whole}",
        "SUBSTR({text}, 1, 2)",
        "REPLACE({text}, 't', '''')",
        "TRIM({text}, 'b')",
        "COALESCE(NULLIF({text}, ''), 'none')",
        "CASE WHEN {test} THEN {text} ELSE 'other' END",
        "CASE {text} WHEN 'bolt' THEN 'first' WHEN '' THEN 'empty' END",
        "IIF({test}, 'yes', 'no')",
        "CAST({whole} AS TEXT)",
        "printf('%05d', {whole})",
        "typeof({whole})",
        "HEX({text})",
        "strftime('%Y-%m', {day})",
        "strftime('%m', {day})",
        "date({day}, 'start of month')",
        "date({day}, '+1 day')",
        "strftime('%Y-%m', {number})",
        "strftime('%Y', {number})",
        "strftime('%w', {number})",
        "date({number})",
        "date({number}, 'start of year')",
        "SUBSTR({month}, 1, 4)",
        "{month} || '-01'",
    ),
    "whole": (
        "{whole} + 1",
        "{whole} * 2",
        "{whole} % 10",
        "{whole} / 10 * 10",
        "-{whole}",
        "ABS({whole} - 1997)",
        "{whole} - {whole}",
        "{whole} & 3",
        "{whole} << 1",
        "~{whole}",
        "MAX({whole}, 1997)",
        "MIN({whole}, {whole})",
        "COALESCE({whole}, 0)",
        "NULLIF({whole}, 1997)",
        "LENGTH({text})",
        "INSTR({text}, 't')",
        "UNICODE({text})",
        "CASE WHEN {test} THEN 1 ELSE 0 END",
        "CASE WHEN {whole} < 1997 THEN {whole} ELSE 9 END",
        "({test})",
        "{number} / 10000",
        "{number} % 100",
        "CAST(SUBSTR({month}, 1, 4) AS INTEGER)",
        "CAST(strftime('%Y', {day}) AS INTEGER)",
    ),
    "amount": (
        "{amount} * 2",
        "{amount} + 1",
        "-{amount}",
        "{amount} / 2",
        "ABS({amount})",
        "{whole} * 0.5",
        "CAST({whole} AS REAL)",
    ),
    "real": ("{whole} * 1.0 / 3", "{amount} / NULLIF({whole}, 0)", "{whole} / 7.0"),
}
TESTS = (
    "{test} AND {test}",
    "{test} OR {test}",
    "{test} OR NOT {test}",
    "NOT ({test} AND {test})",
    "NOT {test}",
    "{whole} > 2",
    "{whole} IN (1, 2, 3, 1996, 1998)",
    "{whole} BETWEEN -5 AND 1997",
    "{text} LIKE '%t%'",
    "{text} NOT LIKE 'b%'",
    "{text} LIKE '!%%' ESCAPE '!'",
    "{text} GLOB '[a-z]*'",
    "{text} <> ''",
    "{text} < {text}",
    "{whole} IS NOT NULL",
    "CASE WHEN {test} THEN {test} ELSE 1 END",
    "date({number}) < '2025-03-15'",
    "strftime('%Y', {number}) = '2025'",
    "strftime('%m', {day}) IN ('03', '12')",
    "{day} >= date('2025-01-01', '+1 day')",
    "{month} LIKE '2025-%'",
    "{amount} > 2.125",
)
# Of the rows of a source; `{measure}` is a measure of facts, or a column of numbers.
AGGREGATES: Dict[str, Sequence[str]] = {
    "whole": (
        "COUNT(*)",
        "COUNT(*)",
        "COUNT({measure})",
        "COUNT({text})",
        "COUNT(DISTINCT {text})",
        "COUNT(DISTINCT {whole})",
        "COUNT(NULLIF({text}, ''))",
        "SUM({whole_measure})",
        "SUM({whole_measure})",
        "MIN({whole_measure})",
        "MAX({whole_measure})",
        "SUM({whole_linear})",
        "SUM({whole})",
        "SUM(DISTINCT {whole})",
        "MIN({whole})",
        "MAX({whole})",
        "MAX({number})",
        "COUNT(DISTINCT {number})",
        "COUNT(DISTINCT {day})",
        "COUNT(DISTINCT {month})",
    ),
    "amount": (
        "SUM({amount_measure})",
        "SUM({amount_measure})",
        "MIN({amount_measure})",
        "MAX({amount_measure})",
        "SUM({amount_linear})",
        "TOTAL({measure})",
        "TOTAL({whole})",
    ),
    "real": ("AVG({measure})", "AVG({measure})", "AVG({whole})", "AVG(DISTINCT {whole})"),
    "text": (
        "MIN({text})",
        "MAX({text})",
        "MIN({day})",
        "MAX({month})",
        "date(MAX({number}))",
        "strftime('%Y-%m', MIN({day}))",
    ),
}
LINEAR: Sequence[str] = (
    "{m} * 2 + 1",
    "-{m}",
    "({m} + 1) * 2",
    "3 * {m} - {m}",
    "{m} * {whole}",
    "{m} + {whole}",
    "CASE WHEN {test} THEN {m} ELSE 0 END",
    "CASE WHEN {test} THEN {m} ELSE -{m} END",
    "CASE WHEN {test} THEN {m} END",
    "CASE {text} WHEN 'N' THEN {m} WHEN 'S' THEN 2 * {m} ELSE 1 END",
    "IIF({test}, {m}, 0)",
)


class Column(NamedTuple):
    """A column that may be named: its name, its kind, the name of its table, whether that has to
    stand before it, values that it has, and whether it is one of the warehouse itself."""

    name: str
    kind: str
    table: str
    is_qualified: bool = False
    values: Sequence[Any] = ()
    is_own: bool = True


class Source(NamedTuple):
    """What a SELECT reads: what stands after FROM, the columns that may be named anywhere, and the
    measures, which only stand in aggregates where this is `facts`."""

    text: str
    columns: Sequence[Column]
    measures: Sequence[Column] = ()
    is_facts: bool = False

    def numbers(self) -> List[Column]:
        """What an aggregate may be taken of as a measure."""
        numeric = [each for each in self.columns if each.kind in ("whole", "amount")]
        return [*self.measures] or numeric


class Term(NamedTuple):
    """A piece of a query, the kind of its values, and whether it is a bare column or an aggregate
    of a measure, which keeps the type of Python."""

    text: str
    kind: str
    is_bare: bool = False


class Terms:
    """Draws literals, names, terms, tests and aggregates."""

    def __init__(self, shape: Shape, draw: random.Random) -> None:
        self.shape, self.draw = shape, draw
        self.parameters: List[Any] = []
        self.has_marks, self.number = True, 0

    # ---- choices

    def chance(self, part: float) -> bool:
        """Whether something happens that happens in this part of all cases."""
        return self.draw.random() < part

    def pick(self, items: Sequence[Any_]) -> Any_:
        """One of some items."""
        return self.draw.choice(items)

    def some(self, items: Sequence[Any_], least: int, most: int) -> List[Any_]:
        """Some of these items, in any order."""
        most = min(most, len(items))
        return self.draw.sample(list(items), self.draw.randint(min(least, most), most))

    def alias(self, letter: str) -> str:
        """A name that is new."""
        self.number += 1
        return f"{letter}{self.number}"

    # ---- literals and names

    def literal(self, value: Any) -> str:
        """A value as a literal or as a question mark, which stands in the text as its number."""
        if self.has_marks and self.chance(0.15):
            self.parameters.append(self.of_another_type(value))
            return f"\ue000{len(self.parameters) - 1}\ue001"
        if isinstance(value, str):
            return "'" + value.replace("'", "''") + "'"
        return "NULL" if value is None else str(value)

    def of_another_type(self, value: Any) -> Any:
        """The same value as a parameter."""
        if isinstance(value, str) and re.fullmatch(r"\d{4}-\d\d-\d\d", value):
            return self.pick([value, datetime.date.fromisoformat(value)])
        return Decimal(str(value)) if isinstance(value, float) and self.chance(0.5) else value

    def named(self, column: Column) -> str:
        """A column as it may be named."""
        name = column.name
        if self.chance(0.08):
            name = self.pick([f'"{name}"', f"`{name}`", f"[{name}]", name.upper()])
        if column.is_qualified or column.table and self.chance(0.15):
            return f"{column.table}.{name}"
        return name

    def value_of(self, column: Column) -> Any:
        """A value that a column has, or nearly has."""
        if column.values and self.chance(0.93):
            return self.pick(column.values)
        if column.kind == "amount":
            return self.draw.randrange(-40, 200) / 4
        return "none" if column.kind in ("text", "day", "month") else self.draw.randrange(-9, 90)

    # ---- terms

    def columns_of(self, source: Source, kind: str) -> List[Column]:
        """The columns of a kind."""
        return [each for each in source.columns if each.kind == kind]

    def can_fill(self, template: str, source: Source) -> bool:
        """Whether a source has the columns that a template needs."""
        return all(self.has(slot, source) for slot in SLOT.findall(template))

    def has(self, slot: str, source: Source) -> bool:
        """Whether a source has what a slot needs."""
        if slot.endswith(("measure", "linear", "m")) and slot != "number":
            return bool(self.measures_for(slot, source))
        if slot == "test":
            return bool(source.columns)
        return bool(self.columns_of(source, COLUMNS.get(slot, slot)))

    def measures_for(self, slot: str, source: Source) -> List[Column]:
        """The measures that may stand in a slot."""
        kind = slot.partition("_")[0]
        is_any = kind in ("measure", "linear", "m")
        return [each for each in source.numbers() if is_any or each.kind == kind]

    def fill(self, template: str, source: Source, depth: int) -> str:
        """A template with drawn pieces in its slots."""
        return SLOT.sub(lambda slot: self.piece(slot[1], source, depth - 1), template)

    def piece(self, slot: str, source: Source, depth: int) -> str:
        """A drawn piece for a slot."""
        if slot == "test":
            return f"({self.test(source, depth)})"
        if slot in COLUMNS:
            return self.named(self.pick(self.columns_of(source, COLUMNS[slot])))
        if slot.endswith("linear"):
            measure = self.pick(self.measures_for(slot, source))
            possible = [each for each in LINEAR if self.can_fill(each, source)]
            template = self.pick(possible).replace("{m}", self.named(measure))
            return self.fill(template, source, depth)
        if slot.endswith("measure"):
            return self.named(self.pick(self.measures_for(slot, source)))
        return in_brackets(self.term(slot, source, depth).text)

    def term(self, kind: str, source: Source, depth: int) -> Term:
        """A term of a kind, for which the source has a column."""
        columns = self.columns_of(source, kind)
        possible = [each for each in TERMS.get(kind, ()) if self.can_fill(each, source)]
        if columns and (depth <= 0 or not possible or self.chance(0.6)):
            column = self.pick(columns)
            return Term(self.named(column), kind, column.is_own)
        return Term(self.fill(self.pick(possible), source, min(depth, 2)), kind)

    def any_term(self, source: Source, depth: int) -> Term:
        """A term of some kind: mostly a column."""
        column = self.pick(source.columns)
        if self.chance(0.65) or depth <= 0:
            return Term(self.named(column), column.kind, column.is_own)
        kinds = [
            kind
            for kind, templates in TERMS.items()
            if any(self.can_fill(each, source) for each in templates)
        ]
        kind = self.pick(kinds)
        possible = [each for each in TERMS[kind] if self.can_fill(each, source)]
        return Term(self.fill(self.pick(possible), source, depth), kind)

    # ---- tests

    def test(self, source: Source, depth: int) -> str:
        """A test of a row: mostly of one column."""
        if depth > 0 and self.chance(0.2):
            found = self.subquery_test(source, depth)
            if found:
                return found
        possible = [each for each in TESTS if self.can_fill(each, source)]
        if depth <= 0 or not possible or self.chance(0.55):
            return self.test_of(self.pick(source.columns))
        return self.fill(self.pick(possible), source, depth)

    def subquery_test(self, source: Source, depth: int) -> Optional[str]:
        """A test with a subquery; None where there is none."""
        return None

    def test_of(self, column: Column) -> str:
        """A test of a column by its values."""
        name, way = self.named(column), self.draw.randrange(10)
        value = self.literal(self.value_of(column))
        if way < 3:
            return f"{name} {self.pick(['=', '=', '==', '<>', '!=', 'IS', 'IS NOT'])} {value}"
        if way < 5:
            return f"{name} {self.pick(['<', '<=', '>', '>='])} {value}"
        if way < 7:
            values = [self.literal(self.value_of(column)) for _ in range(self.draw.randint(1, 4))]
            return f"{name} {self.pick(['IN', 'IN', 'NOT IN'])} ({', '.join([value, *values])})"
        if way < 9:
            pair: List[Any] = sorted([self.value_of(column), self.value_of(column)])
            low, high = map(self.literal, pair)
            return f"{name} {self.pick(['', '', 'NOT '])}BETWEEN {low} AND {high}"
        return f"{name} {self.pick(['IS NOT NULL', 'NOTNULL', 'NOT NULL', '> ' + value])}"

    # ---- aggregates

    def aggregate(self, source: Source, depth: int, kinds: Sequence[str] = ()) -> Term:
        """An aggregate of the rows of a source, of one of these kinds."""
        possible = [
            (kind, each)
            for kind in kinds or ("whole", "whole", "amount", "real", "text")
            for each in AGGREGATES[kind]
            if self.can_fill(each, source)
        ]
        kind, template = self.pick(possible)
        is_bare = bool(re.fullmatch(r"(SUM|MIN|MAX)\(\{amount_measure\}\)", template))
        text = self.fill(template, source, depth)
        if source.columns and not template.startswith(("date", "strf")) and self.chance(0.1):
            return Term(f"{text} FILTER (WHERE {self.test(source, 0)})", kind)
        return Term(text, kind, is_bare and source.is_facts)

    def of_aggregates(self, source: Source, depth: int) -> Term:
        """A term of aggregates."""
        whole = self.aggregate(source, depth, ["whole"]).text
        other = self.aggregate(source, depth, ["whole"]).text
        ways: List[Tuple[str, str]] = [
            (f"{whole} * 1.0 / COUNT(*)", "real"),
            (f"{whole} + {other}", "whole"),
            (f"{whole} - 2 * {other}", "whole"),
            (f"COALESCE({whole}, 0)", "whole"),
            (f"{whole} > 40", "whole"),
            (f"{whole} % 7", "whole"),
            (f"CASE WHEN {whole} > 20 THEN 'many' ELSE 'few' END", "text"),
            (f"CASE WHEN {whole} > {other} THEN {whole} END", "whole"),
            (f"CAST({whole} AS TEXT) || '!'", "text"),
            (f"NULLIF({whole}, {other})", "whole"),
            (f"MAX({whole}, {other})", "whole"),
            (f"typeof({whole})", "text"),
        ]
        if self.can_fill("{measure}", source):
            mean = self.fill("AVG({measure})", source, depth)
            ways += [(f"ROUND({mean}, 2)", "real"), (f"CAST({mean} AS INTEGER)", "whole")]
        return Term(*self.pick(ways))

    def aggregate_test(self, source: Source, depth: int) -> str:
        """A test of aggregates."""
        whole = self.aggregate(source, depth, ["whole"]).text
        bound = self.literal(self.draw.randrange(-20, 60))
        ways = [
            f"COUNT(*) > {self.literal(self.draw.randrange(4))}",
            f"{whole} <> {bound}",
            f"{whole} > {bound}",
            f"NOT {whole} < {bound}",
            f"{whole} BETWEEN -1000 AND 3000",
            f"{whole} IS NOT NULL",
            f"COUNT(*) > 1 AND {whole} >= {bound}",
            f"COUNT(*) IN (1, 2, 3) OR {whole} > {bound}",
        ]
        return self.pick(ways)


def in_brackets(text: str) -> str:
    """A term as it stands within another one."""
    return text if ATOM.fullmatch(text) else f"({text})"


def with_parameters(
    text: str, parameters: Sequence[Any], written: Callable[[str], str]
) -> Tuple[str, List[Any]]:
    """The text with question marks, and their parameters in order."""
    order = [int(found[1]) for found in MARK.finditer(text)]
    return written(MARK.sub("?", text)), [parameters[number] for number in order]
