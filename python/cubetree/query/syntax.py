"""The parts of a query, as they are parsed. Places count characters of its text."""
from __future__ import annotations

from dataclasses import dataclass, field
from typing import Any, Callable, Iterator, Optional, Union


class Node:
    """A part of a query, which begins and ends at these places. Parts are equal if their texts are,
    but for spaces and brackets."""

    begin, end = 0, 0

    def parts(self) -> list[Node]:
        """The expressions directly within it, but for those of queries within it."""
        found: list[Node] = []
        for name in self.__dataclass_fields__:  # type: ignore[attr-defined]
            gather(getattr(self, name), found)
        return found

    def replace(self, change: Callable[[Node], Node]) -> Node:
        """Puts what `change` makes of each such expression in its place."""
        for name in self.__dataclass_fields__:  # type: ignore[attr-defined]
            value = getattr(self, name)
            if not isinstance(value, str):
                setattr(self, name, replaced(value, change))
        return self

    def at(self, other: Node) -> Node:
        """This part at the place of another one."""
        self.begin, self.end = other.begin, other.end
        return self


@dataclass
class Literal(Node):
    """A number, a text, or a word such as NULL; `text` is as SQLite takes it."""

    text: str
    kind: str


@dataclass
class Name(Node):
    """A column, perhaps of a named table."""

    table: Optional[str]
    name: str


@dataclass
class Star(Node):
    """All columns, perhaps of a named table."""

    table: Optional[str]


@dataclass
class Prefix(Node):
    """A sign or NOT before an expression."""

    sign: str
    item: Node


@dataclass
class Chain(Node):
    """Expressions of one level with signs between them. They are taken from the left."""

    level: int
    items: list[Node]
    signs: list[str]


@dataclass
class Test(Node):
    """A test by a word: BETWEEN, LIKE or GLOB with its ESCAPE, ISNULL or NOTNULL."""

    word: str
    items: list[Node]
    is_not: bool = False


@dataclass
class In(Node):
    """Whether a value is among others, or in the rows of a query."""

    item: Node
    among: Union[list[Node], Query]
    is_not: bool


@dataclass
class Case(Node):
    """CASE with its conditions and values."""

    base: Optional[Node]
    whens: list[tuple[Node, Node]]
    otherwise: Optional[Node]


@dataclass
class Cast(Node):
    """An expression as another type, or with the order of texts after COLLATE."""

    item: Node
    word: str
    name: str


@dataclass
class Window(Node):
    """What a function looks over: OVER (PARTITION BY .. ORDER BY .. frame)."""

    partitions: list[Node]
    order: list[Term]
    frame: str


@dataclass
class Call(Node):
    """A function; the arguments of COUNT(*) are one Star."""

    name: str
    items: list[Node]
    is_distinct: bool = False
    where: Optional[Node] = None
    over: Optional[Window] = None


@dataclass
class Inner(Node):
    """A query within an expression, perhaps after EXISTS."""

    query: Query
    is_exists: bool


@dataclass
class Made(Node):
    """What the front puts in place of a part: texts, and expressions between them."""

    pieces: list[Union[str, Node]]


@dataclass
class Term:
    """An expression of ORDER BY, with its ASC, DESC and NULLS."""

    item: Node
    ways: str


@dataclass
class Item:
    """An expression of SELECT, the name that it is given, and the column of the program's answer
    that it is, if it is one."""

    item: Node
    alias: Optional[str]
    column: Optional[str] = None


@dataclass
class Source:
    """A table or a query of FROM: the words that join it to what stands before it, its name, and
    what it is joined by."""

    joined: str
    table: Optional[str]
    query: Optional[Query]
    alias: Optional[str]
    on: Optional[Node]
    using: list[str]
    place: int


@dataclass
class Select:
    """One SELECT."""

    place: int
    is_distinct: bool = False
    items: list[Item] = field(default_factory=list)
    sources: list[Source] = field(default_factory=list)
    where: Optional[Node] = None
    groups: list[Node] = field(default_factory=list)
    having: Optional[Node] = None


@dataclass
class Query:
    """One or more SELECTs with UNION and the like between them, and queries with names before
    them."""

    named: list[tuple[str, list[str], Query]]
    selects: list[Select]
    unions: list[str]
    order: list[Term]
    limit: Optional[Node]
    offset: Optional[Node]
    outputs: list[Any] = field(
        default_factory=list, compare=False
    )  # its columns, once they are known


def gather(value: Any, found: list[Node]) -> None:
    """Adds the expressions in a field of a part."""
    if isinstance(value, Node):
        found.append(value)
    elif isinstance(value, Term):
        found.append(value.item)
    elif isinstance(value, (list, tuple)):
        for each in value:
            gather(each, found)


def replaced(value: Any, change: Callable[[Node], Node]) -> Any:
    """A field of a part whose expressions are changed."""
    if isinstance(value, Node):
        return change(value)
    if isinstance(value, Term):
        return Term(change(value.item), value.ways)
    if isinstance(value, (list, tuple)):
        return type(value)(replaced(each, change) for each in value)
    return value


def walk(node: Node) -> Iterator[Node]:
    """An expression and all that is within it, but for queries."""
    left = [node]
    while left:
        found = left.pop()
        yield found
        left.extend(reversed(found.parts()))


def queries_in(node: Node) -> Iterator[Query]:
    """The queries within an expression, but for those within them."""
    for each in walk(node):
        if isinstance(each, Inner):
            yield each.query
        elif isinstance(each, In) and isinstance(each.among, Query):
            yield each.among
