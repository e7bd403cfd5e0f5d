"""Writes a query as SQLite takes it."""
from __future__ import annotations

from functools import singledispatch
from typing import Optional

from ..errors import Inexact
from .expressions import AND, JOINED, LEVELS, OR, PRODUCT, SUM
from .stored import MOST_WHOLE
from .syntax import (
    Call,
    Case,
    Cast,
    Chain,
    In,
    Inner,
    Literal,
    Made,
    Name,
    Node,
    Prefix,
    Query,
    Select,
    Source,
    Star,
    Term,
    Test,
    Window,
)

EXACT = "exact"  # the function through which whole numbers go that SQLite may have rounded


def quoted(name: str) -> str:
    """A name in quotes."""
    return '"' + name.replace('"', '""') + '"'


@singledispatch
def written(node: Node) -> str:
    """An expression as a text."""
    raise TypeError(type(node).__name__)


@written.register
def _(node: Literal) -> str:
    if node.kind == "whole" and int(node.text[:40]) >= MOST_WHOLE:
        raise Inexact(f"{node.text[:40]} has more than the 63 bits of a whole number of SQLite")
    return written_text(node.text) if node.kind == "text" else node.text


def written_text(text: str) -> str:
    """A literal of a text. What is not UTF-8, or has a null character, stands in hexadecimal
    digits."""
    try:
        if "\0" not in text and text.encode():
            return text
    except UnicodeEncodeError:
        pass
    content = text[1:-1].replace("''", "'").encode("utf-8", "surrogateescape")
    return f"CAST(X'{content.hex()}' AS TEXT)"


@written.register
def _(node: Name) -> str:
    return f"{quoted(node.table)}.{quoted(node.name)}" if node.table else quoted(node.name)


@written.register
def _(node: Star) -> str:
    return f"{quoted(node.table)}.*" if node.table else "*"


@written.register
def _(node: Prefix) -> str:
    text = f"({node.sign} {written(node.item)})"
    is_plain = node.sign != "-" or isinstance(node.item, Literal)
    return text if is_plain else f"{EXACT}{text}"


@written.register
def _(node: Chain) -> str:
    if node.level in (OR, AND, JOINED):
        return balanced(list(map(written, node.items)), f" {LEVELS[node.level][0]} ")
    if node.level not in (SUM, PRODUCT):
        parts = [written(node.items[0])]
        for sign, item in zip(node.signs, node.items[1:]):
            parts += [sign, written(item)]
        return f"({' '.join(parts)})"
    text = written(node.items[0])
    for sign, item in zip(node.signs, node.items[1:]):
        text = f"({text} {sign} {written(item)})"
        if sign in "+-*" and not (isinstance(item, Literal) and item.kind == "real"):
            text = EXACT + text
    return text


def balanced(parts: list[str], sign: str) -> str:
    """Parts with an associative sign between them, of which many do not nest deeply."""
    while len(parts) > 1:
        pairs = [f"({one}{sign}{other})" for one, other in zip(parts[::2], parts[1::2])]
        parts = pairs + parts[2 * len(pairs) :]
    return parts[0]


@written.register
def _(node: Test) -> str:
    first, *others = map(written, node.items)
    if node.word in ("ISNULL", "NOTNULL"):
        return f"({first} {node.word})"
    between = " AND " if node.word == "BETWEEN" else " ESCAPE "
    return f"({first} {'NOT ' if node.is_not else ''}{node.word} {between.join(others)})"


@written.register
def _(node: In) -> str:
    among = node.among
    inside = written_query(among) if isinstance(among, Query) else ", ".join(map(written, among))
    return f"({written(node.item)} {'NOT ' if node.is_not else ''}IN ({inside}))"


@written.register
def _(node: Case) -> str:
    parts = ["CASE", written(node.base) if node.base else ""]
    parts += [f"WHEN {written(test)} THEN {written(value)}" for test, value in node.whens]
    parts += [f"ELSE {written(node.otherwise)}"] if node.otherwise else []
    return f"({' '.join(parts)} END)"


@written.register
def _(node: Cast) -> str:
    if node.word == "COLLATE":
        return f"({written(node.item)} COLLATE {quoted(node.name)})"
    return f"CAST({written(node.item)} AS {node.name})"


@written.register
def _(node: Window) -> str:
    parts = []
    if node.partitions:
        parts.append(f"PARTITION BY {', '.join(map(written, node.partitions))}")
    parts += ordered(node.order)
    return " ".join([*parts, node.frame])


@written.register
def _(node: Call) -> str:
    inside = ", ".join(map(written, node.items))
    text = f"{quoted(node.name)}({'DISTINCT ' if node.is_distinct else ''}{inside})"
    text += filtered(node.where)
    return text + (f" OVER ({written(node.over)})" if node.over else "")


def filtered(where: Optional[Node]) -> str:
    """The test of a function, if it has one."""
    return f" FILTER (WHERE {written(where)})" if where else ""


@written.register
def _(node: Inner) -> str:
    return f"{'EXISTS ' if node.is_exists else ''}({written_query(node.query)})"


@written.register
def _(node: Made) -> str:
    return "".join(each if isinstance(each, str) else written(each) for each in node.pieces)


# ---- queries


def written_query(query: Query) -> str:
    """A query as a text."""
    named = [
        f"{quoted(name)}{in_brackets(columns)} AS ({written_query(inner)})"
        for name, columns, inner in query.named
    ]
    parts = [f"WITH {', '.join(named)}"] if named else []
    for union, select in zip(["", *query.unions], query.selects):
        parts += [union, written_select(select)]
    parts += ordered(query.order)
    if query.limit:
        parts.append(f"LIMIT {written(query.limit)}")
    if query.offset:
        parts.append(f"OFFSET {written(query.offset)}")
    return " ".join(filter(None, parts))


def in_brackets(names: list[str]) -> str:
    """Names in brackets, if there are some."""
    return f" ({', '.join(map(quoted, names))})" if names else ""


def ordered(order: list[Term]) -> list[str]:
    """ORDER BY with its terms, if there are some."""
    terms = [f"{written(term.item)} {term.ways}" for term in order]
    return [f"ORDER BY {', '.join(terms)}"] if terms else []


def written_select(select: Select) -> str:
    """One SELECT as a text."""
    items = [
        written(each.item) + (f" AS {quoted(each.alias)}" if each.alias is not None else "")
        for each in select.items
    ]
    parts = [f"SELECT {'DISTINCT ' if select.is_distinct else ''}{', '.join(items)}"]
    if select.sources:
        parts.append(f"FROM {' '.join(map(written_source, select.sources))}")
    if select.where:
        parts.append(f"WHERE {written(select.where)}")
    if select.groups:
        parts.append(f"GROUP BY {', '.join(map(written, select.groups))}")
    if select.having:
        parts.append(f"HAVING {written(select.having)}")
    return " ".join(parts)


def written_source(source: Source) -> str:
    """A table or a query of FROM, with what joins it."""
    rows = f"({written_query(source.query)})" if source.query else quoted(source.table or "")
    text = f"{source.joined} {rows}" + (f" AS {quoted(source.alias)}" if source.alias else "")
    text += f" ON {written(source.on)}" if source.on else ""
    return text + (f" USING{in_brackets(source.using)}" if source.using else "")
