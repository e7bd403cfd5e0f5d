"""The text of a slice, taken apart: its columns, the attributes that it groups by, and its
conditions."""
from __future__ import annotations

import re
from typing import Container, NamedTuple

from .errors import Fault

PARTS = re.compile(
    r"(?P<columns>[^ ]+)(?: by (?P<groups>[^ ]+))?(?: where (?P<conditions>.+))?", re.DOTALL
)
COLUMN = re.compile(r"count|(?:sum|min|max)\((?P<measure>[^()]+)\)")
CONDITION = re.compile(
    r'(?P<name>[^= ]+)=(?:"(?P<quoted>(?:[^"]|"")*)"|(?P<plain>[A-Za-z0-9_.+-]+))(?: and (?!$)|$)',
    re.DOTALL,
)

OF_DATE = re.compile(r"(?:month|year)\([^()]+\)")
LONGEST_SLICE = 65_000  # bytes


def is_line(text: str) -> bool:
    """Whether a question can be sent."""
    return "\n" not in text and len(text.encode("utf-8", "surrogateescape")) <= LONGEST_SLICE


def sent(text: str) -> bytes:
    """The bytes of a slice or a query, as they are sent."""
    line = text.encode("utf-8", "surrogateescape")
    if b"\n" in line or len(line) > LONGEST_SLICE:
        raise Fault(f"a slice is one line of at most {LONGEST_SLICE:,} bytes, and so is a query")
    return line


class Condition(NamedTuple):
    """What an attribute has to be: a text, a number, or a range of numbers."""

    name: str
    value: str

    def is_range(self, numbers: Container[str]) -> bool:
        """Whether it is a range, where these attributes are of numbers."""
        return self.name in numbers and ".." in self.value


class Question(NamedTuple):
    """What a slice asks for."""

    columns: list[str]
    groups: list[str]
    conditions: list[Condition]

    def attributes(self) -> list[str]:
        """The attributes that are grouped by or have a condition, each once."""
        return list(
            dict.fromkeys([*self.groups, *(condition.name for condition in self.conditions)])
        )

    def measures(self) -> list[str]:
        """The measures of its columns, each once."""
        return list(dict.fromkeys(column[4:-1] for column in self.columns if column != "count"))


def question_of(text: str) -> Question:
    """What the text of a slice asks for, without the word before it; a fault where it has not
    the form of one."""
    parts = PARTS.fullmatch(text)
    if not parts:
        raise Fault(f"this is no slice: {text}")
    columns, groups = parts["columns"].split(","), (
        parts["groups"].split(",") if parts["groups"] else []
    )
    if not all(map(COLUMN.fullmatch, columns)) or "" in groups:
        raise Fault(f"this is no slice: {text}")
    conditions = conditions_of(parts["conditions"] or "", text)
    if len(set(groups)) < len(groups) or len({condition.name for condition in conditions}) < len(
        conditions
    ):
        raise Fault(f"this is no slice, since it names an attribute twice: {text}")
    return Question(columns, groups, conditions)


def conditions_of(conditions: str, text: str) -> list[Condition]:
    """The conditions of a slice, each of which begins where the one before has ended."""
    found, place = [], 0
    while place < len(conditions):
        condition = CONDITION.match(conditions, place)
        if not condition:
            raise Fault(f"this is no slice: {text}")
        value = (
            condition["plain"]
            if condition["quoted"] is None
            else condition["quoted"].replace('""', '"')
        )
        found.append(Condition(condition["name"], value))
        place = condition.end()
    return found


def ranges_of_texts(text: str, numbers: Container[str]) -> list[str]:
    """What to say of each condition of a slice that looks like a range and is one value, its
    attribute not being one of these numbers."""
    parts = PARTS.fullmatch(text)
    found = CONDITION.finditer(parts["conditions"] or "") if parts else ()
    return [
        f"{each['name']} is a text: {each['plain']} is one value, no range (ranges need an"
        " attribute of numbers, in a new folder)"
        for each in found
        if ".." in (each["plain"] or "")
        and each["name"] not in numbers
        and not OF_DATE.fullmatch(each["name"])
    ]
