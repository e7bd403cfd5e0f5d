"""A query in SQL: its text on one line, the names of its columns, and its parameters.

The program judges the rest.
"""
from __future__ import annotations

import operator
import re
from datetime import date, datetime
from decimal import Decimal
from math import isfinite
from typing import Mapping, NamedTuple, Sequence, SupportsIndex, Union

from .codec import Answer, kind_of_column
from .errors import Fault, Refused
from .schema import Schema
from .values import Kind

END_OF_WORD = r"(?![A-Za-z0-9_])"
NAME = r"[A-Za-z][A-Za-z0-9_]*" + END_OF_WORD
ITEM = re.compile(NAME + r"(?: *\( *(?:\*|" + NAME + r") *\))?")
FRONT = re.compile(
    f" *select{END_OF_WORD} *({ITEM.pattern}(?: *, *{ITEM.pattern})*) *from{END_OF_WORD}",
    re.IGNORECASE,
)
COUNTED = ", COUNT(*)"
WHITE = " \t\n\v\f\r"
PIECE = re.compile(
    r"""(?P<quoted>'[^']*(?:''[^']*)*'(?!')|"[^"]*")"""
    r"""|(?P<comment>--[^\n\r]*|/\*.*?\*/)"""
    r"""|(?P<open>['"]|/\*)"""
    r"""|(?P<touched>(?<=[A-Za-z0-9_'?])\?|\?(?=[0-9'?]))"""
    r"""|(?P<mark>\?)|(?P<end>;)|(?P<plain>[^'"?;/-]+|[/-])""",
    re.DOTALL,
)
FAULTS = {
    "open": "{0} begins here and is not closed",
    "touched": "put spaces around this `?`: it touches a letter, digit, quote or other `?`",
    "end": "text follows this `;`: execute one statement at a time",
}
Parameter = Union[str, SupportsIndex, float, Decimal, date, None]


class Item(NamedTuple):
    """What is asked for in a column, as it is written: an attribute, or a function; and the
    place after it."""

    text: str
    is_attribute: bool
    end: int


class Query:
    """A query as it is sent."""

    def __init__(self, text: str) -> None:
        # Between tokens all white space is as a space, and no place moves.
        self.text = re.sub(r"('[^']*'?)|[\t\n\v\f\r]", lambda found: found[1] or " ", text)
        self.items = items_of(self.text)
        # Where a row is one text, it may be what ends a reply: there the facts are counted as well,
        # and not handed on.
        self.added = (
            self.items[0].end if len(self.items) == 1 and self.items[0].is_attribute else None
        )

    def sent(self) -> str:
        """The text for the program."""
        return (
            self.text
            if self.added is None
            else self.text[: self.added] + COUNTED + self.text[self.added :]
        )

    def refused(self, reply: str) -> Refused:
        """A refusal, with the byte as it counts in the text."""
        refused = Refused(reply)
        if refused.byte is None or self.added is None or refused.byte <= self.added:
            return refused
        return Refused(f"{reply.rpartition(' ')[0]} {refused.byte - len(COUNTED)}")

    def answer(
        self, schema: Schema, records: list[list[str]], kinds: Mapping[str, Kind] = {}
    ) -> Answer:
        """The rows of a reply."""
        if not self.items:
            raise Fault(f"the columns have no names: {self.text}")
        numeric = [not item.is_attribute or item.text in schema.numbers for item in self.items]
        names, own = [item.text for item in self.items], [
            record[: len(self.items)] for record in records
        ]
        return Answer(names, numeric, own, [kind_of_column(name, kinds) for name in names])


def items_of(text: str) -> list[Item]:
    """What stands between SELECT and FROM; nothing where that is no list of items."""
    front = FRONT.match(text)
    items = ITEM.finditer(text, front.start(1), front.end(1)) if front else ()
    return [Item(item[0], not item[0].endswith(")"), item.end()) for item in items]


def is_query(text: str) -> bool:
    """Whether a question is in SQL."""
    return re.match("(?:select|with)" + END_OF_WORD, text, re.IGNORECASE) is not None


class Statement(NamedTuple):
    """A statement with its parameters as literals, as errors show it and as it is sent.

    What is sent has spaces in place of comments and semicolons. So both have each byte of the
    query at the same place.
    """

    shown: str
    sent: str


def statement_of(text: str, parameters: Sequence[Parameter]) -> Statement:
    """The one statement of a text, with a parameter for each question mark.

    A text that is not one statement is refused. It is a fault if the parameters do not fit.
    """
    check_characters(text, "the query")
    pieces = list(PIECE.finditer(text))
    check_pieces(text, pieces)
    literals = [literal(value, number) for number, value in enumerate(parameters, 1)]
    marks = sum(piece.lastgroup == "mark" for piece in pieces)
    if marks != len(literals):
        counts = f"{marks} in the query, {len(literals)} passed"
        raise Fault(f"pass one parameter for each `?`: {counts}")
    left = iter(literals)
    shown: list[str] = []
    for piece in pieces:
        part = next(left) if piece.lastgroup == "mark" else piece[0]
        # A sign and a negative number would begin a comment.
        is_comment = (
            part[:1] == "-" and piece.lastgroup == "mark" and "".join(shown[-1:])[-1:] == "-"
        )
        shown.append(" " + part if is_comment else part)
    sent = [
        " " * length(part) if piece.lastgroup in ("comment", "end") else part
        for piece, part in zip(pieces, shown)
    ]
    return Statement("".join(shown), "".join(sent).rstrip(WHITE))


def check_pieces(text: str, pieces: list[re.Match[str]]) -> None:
    """Refuses a text with an open quote or comment, or with more than one statement."""
    end = None
    for piece in pieces:
        kind = piece.lastgroup or ""
        if kind in ("open", "touched"):
            raise refused_at(text, piece)
        if end and kind != "comment" and piece[0].strip(WHITE + ";"):
            raise refused_at(text, end)
        end = end or (piece if kind == "end" else None)


def refused_at(text: str, piece: re.Match[str]) -> Refused:
    """The refusal that the program would reply for this piece, with its meaning."""
    named = "a comment" if piece[0] == "/*" else "a quote"
    meaning = FAULTS[piece.lastgroup or ""].format(named)
    return Refused(f"refused sql syntax {length(text[: piece.start()]) + 1}", meaning)


def check_characters(text: str, name: str) -> None:
    """A fault if a text has half of a surrogate pair, for which there are no bytes."""
    try:
        length(text)
    except UnicodeEncodeError as error:
        half = f"U+{ord(text[error.start]):X} at character {error.start + 1}"
        raise Fault(f"{name} has half of a surrogate pair: {half}") from error


def length(text: str) -> int:
    """The number of bytes of a text."""
    return len(text.encode("utf-8", "surrogateescape"))


def literal(value: Parameter, number: int) -> str:
    """A parameter as a literal. Faults name it by its number, which counts from 1."""
    if isinstance(value, (str, date)) and not isinstance(value, datetime):
        text = value if isinstance(value, str) else value.isoformat()
        check_characters(text, f"parameter {number}")
        return "'" + text.replace("'", "''") + "'"
    if value is None:
        return "NULL"
    if isinstance(value, (float, Decimal)) and isfinite(value):
        return repr(float(value)) if isinstance(value, float) else format(value, "f")
    try:
        return str(operator.index(value))  # type: ignore[arg-type]
    except TypeError as error:
        hint = "pass a str, a number, a date or None"
        raise Fault(f"parameter {number} is of the type {type_name(value)}: {hint}") from error
    except ValueError as error:  # Python writes no int of more than 4,300 digits.
        hint = "pass an int of a magnitude below 2^127"
        raise Fault(f"parameter {number} is out of range: {hint}") from error


def type_name(value: object) -> str:
    """The name of the type of a value, with its module if that is not Python's own."""
    kind = type(value)
    return kind.__name__ if kind.__module__ == "builtins" else f"{kind.__module__}.{kind.__name__}"
