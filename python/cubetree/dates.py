"""Dates in questions: what stands for a day or a month becomes the number that the program keeps.

A condition on a column of days may name a day, a month or a year: `day=2025-03-14`, `day=2025-03`
and `day=2025`, or a range of them, as `day=2025-03..2025-06`. On a column of months it may name a
month or a year. In a query, texts such as '2025-03-14' are days.
"""
from __future__ import annotations

import calendar
import re
from dataclasses import dataclass, field
from typing import Mapping, Optional

from .errors import Refused
from .questions import CONDITION
from .values import Kind

WHERE = " where "
DATE = re.compile(r"(\d{4})(?:-(\d{2})(?:-(\d{2}))?)?", re.ASCII)
TOKEN = re.compile(r"'((?:[^']|'')*)'|[A-Za-z][A-Za-z0-9_]*")


@dataclass
class Sent:
    """A question as it is sent, and the parts of its text that were replaced: where each begins
    there, where it ends, and how long it is in what is sent, all in bytes. `before` is how the text
    itself was made of another one."""

    text: str
    parts: list[tuple[int, int, int]] = field(default_factory=list)
    before: Optional[Sent] = None

    def refused(self, refused: Refused) -> Refused:
        """A refusal, with the byte as it counts in the text that was given."""
        found = self.refused_here(refused)
        return self.before.refused(found) if self.before else found

    def refused_here(self, refused: Refused) -> Refused:
        """A refusal, with the byte as it counts in the text whose parts were replaced."""
        if refused.byte is None or not self.parts:
            return refused
        byte = refused.byte - 1
        for begin, end, length in self.parts:
            if byte < begin:
                break
            byte = begin if byte < begin + length else byte + (end - begin) - length
        return Refused(f"{refused.reply.rpartition(' ')[0]} {byte + 1}")


def replaced(text: str, parts: list[tuple[int, int, str]]) -> Sent:
    """A text with other texts in some places."""
    made, place, found = "", 0, Sent(text)
    for begin, end, new in parts:
        made += text[place:begin] + new
        bounds = (
            len(text[:begin].encode("utf-8", "surrogateescape")),
            len(text[:end].encode("utf-8", "surrogateescape")),
        )
        found.parts.append((*bounds, len(new)))
        place = end
    found.text = made + text[place:]
    return found


def slice_with_dates(text: str, kinds: Mapping[str, Kind]) -> Sent:
    """A slice whose dates are numbers."""
    parts = []
    where = text.find(WHERE)
    place = where + len(WHERE) if where >= 0 else len(text)
    while found := CONDITION.match(text, place):
        kind, value = kinds.get(found["name"]), found["plain"]
        new = bounds_of(value, kind) if kind and value else None
        if new:
            parts.append((found.start("plain"), found.end("plain"), new))
        place = found.end()
    return replaced(text, parts)


def bounds_of(value: str, kind: Kind) -> Optional[str]:
    """The number or the range that a date or a range of dates stands for; None if it is none."""
    low, dots, high = value.partition("..")
    first, last = ends_of(low, kind), ends_of(high or low, kind)
    if not first or not last or dots and not high:
        return None
    return str(first[0]) if first[0] == last[1] else f"{first[0]}..{last[1]}"


def ends_of(value: str, kind: Kind) -> Optional[tuple[int, int]]:
    """The least and the greatest number of a day, a month or a year; None if it is none."""
    found = DATE.fullmatch(value)
    if kind.name not in ("day", "month"):
        return None
    if not found:
        return (int(value), int(value)) if value.isdecimal() else None
    year, month, day = (int(part) if part else 0 for part in found.groups())
    if month > 12 or found[2] and not month or kind.name == "month" and day:
        return None
    if kind.name == "month":
        return year * 100 + (month or 1), year * 100 + (month or 12)
    last = calendar.monthrange(year, month or 12)[1] if year else 31
    if day > last or found[3] and not day:
        return None
    front = year * 10_000
    return front + (month or 1) * 100 + (day or 1), front + (month or 12) * 100 + (day or last)


def query_with_dates(text: str, kinds: Mapping[str, Kind]) -> Sent:
    """A query whose dates in quotes are numbers, where they are compared with such a column."""
    kind: Optional[Kind] = None
    parts = []
    for token in TOKEN.finditer(text):
        if token[1] is None:
            kind = kinds.get(
                token[0], None if token[0].upper() not in ("AND", "IN", "BETWEEN") else kind
            )
            continue
        ends = ends_of(token[1], kind) if kind and not token[1].isdecimal() else None
        if ends and ends[0] == ends[1]:
            parts.append((token.start(), token.end(), str(ends[0])))
    return replaced(text, parts)
