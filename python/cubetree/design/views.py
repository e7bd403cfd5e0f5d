"""Which view answers a question, and whether the points that it needs are one part of it."""
from __future__ import annotations

from typing import Container, NamedTuple, Optional, Sequence

from ..questions import Question
from ..schema import Schema

View = tuple[str, ...]


class Choice(NamedTuple):
    """The view that answers a slice, how many of its last attributes have an equality, and
    whether the points that it needs are one part of it."""

    view: View
    suffix: int
    run: bool


class Needs(NamedTuple):
    """What a question needs of a view: all its attributes, those with an equality, and those
    with a range."""

    attributes: frozenset[str]
    equal: frozenset[str]
    ranges: frozenset[str]

    def covers(self, view: View) -> bool:
        """Whether a view has all attributes that are grouped by or bound."""
        return self.attributes.issubset(view)

    def suffix(self, view: View) -> int:
        """How many of the last attributes of a view, one after another, have an equality."""
        return next(
            (place for place, name in enumerate(reversed(view)) if name not in self.equal),
            len(view),
        )

    def is_run(self, view: View) -> bool:
        """Whether all conditions are equalities of that suffix, or a range on the attribute just
        before it."""
        bound = self.suffix(view)
        before = view[len(view) - bound - 1 : len(view) - bound]
        return self.equal.issubset(view[len(view) - bound :]) and self.ranges.issubset(before)


def needs_of(question: Question, numbers: Container[str]) -> Needs:
    """What a question needs, where these attributes are of numbers."""
    ranges = frozenset(
        condition.name for condition in question.conditions if condition.is_range(numbers)
    )
    bound = frozenset(condition.name for condition in question.conditions)
    return Needs(bound.union(question.groups), bound - ranges, ranges)


def picked(views: Sequence[View], points: Sequence[int], needs: Needs) -> Optional[int]:
    """The place of the view that answers: of those that cover the question the one with the
    fewest points, of these the one with the greatest suffix, and of these the first; None where
    none covers it."""
    covering = [
        (points[place], -needs.suffix(view), place)
        for place, view in enumerate(views)
        if needs.covers(view)
    ]
    return min(covering)[2] if covering else None


def views_of(schema: Schema) -> list[View]:
    """The views of a schema, each with its attributes."""
    return [tuple(view.split(",")) if view else () for view in schema.views]
