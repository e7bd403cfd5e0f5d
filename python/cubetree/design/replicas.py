"""The smallest set of views that answers each of some questions by one run: the fewest views,
and of these the fewest points.

A question with the equalities E and a range on r is one run of a view whose last attributes are E,
in any order, with r just before them. The others stand in front, so a view may serve several
questions. The program takes the covering view with the fewest points, whatever its order, then the
greatest suffix, then the first declared: that view has to be a right one for each question. Where a
smaller view would be taken instead, it gets the attributes of the right one as well; a view counts
as smaller than one that has its attributes and more, also where both have as many points as yet.

For up to MOST_EXACT different questions all ways to share them out among views are tried. Of more
questions each has a view first. Then two views become one for as long as that goes, those first
that add the fewest points.
"""
from __future__ import annotations

from functools import lru_cache
from itertools import combinations
from typing import Callable, NamedTuple, Optional, Sequence

from .views import Needs, View

MOST_EXACT, MOST_OF_A_VIEW = 12, 8
Points = Callable[[frozenset[str]], int]


class Part(NamedTuple):
    """Questions that one view serves, and its attributes."""

    questions: tuple[Needs, ...]
    attributes: frozenset[str]

    def view(self, names: Sequence[str]) -> View:
        """Its attributes in an order that serves all its questions, and otherwise in that of
        these names."""
        behind: list[str] = []
        for needs in sorted(self.questions, key=lambda each: len(each.equal)):
            for last in (needs.equal, needs.ranges):
                behind += [name for name in reversed(names) if name in last and name not in behind]
        front = [name for name in names if name in self.attributes and name not in behind]
        return (*front, *reversed(behind))


Parts = list[Part]


def may_share(one: Needs, other: Needs) -> bool:
    """Whether some order of attributes ends as both questions need it."""
    few, many = sorted((one, other), key=lambda each: len(each.equal))
    if few.equal == many.equal:
        return few.ranges == many.ranges or not few.ranges or not many.ranges
    return few.equal | few.ranges <= many.equal


def joined(one: Part, other: Part) -> Optional[Part]:
    """The part of all questions of both; None where no view serves them all."""
    attributes = one.attributes | other.attributes
    fits = len(attributes) <= MOST_OF_A_VIEW and all(
        may_share(a, b) for a in one.questions for b in other.questions
    )
    return Part(one.questions + other.questions, attributes) if fits else None


def declared(parts: Parts, ties: list[tuple[set[int], set[int]]]) -> Optional[Parts]:
    """The parts in an order in which, of each pair, one of the first places stands before all of
    the second; None where there is none."""
    left, order = list(range(len(parts))), []
    while left:
        free = [place for place in left if not any(place in wrong for _, wrong in ties)]
        if not free:
            return None
        left.remove(free[0])
        order.append(parts[free[0]])
        ties = [(right, wrong) for right, wrong in ties if free[0] not in right]
    return order


class Search:
    """The search for the views of these questions, by how many points a view of some attributes
    has; these grow with the attributes."""

    def __init__(self, questions: Sequence[Needs], names: Sequence[str], points: Points) -> None:
        self.questions, self.names, self.points = questions, names, lru_cache(None)(points)
        self.is_exact = len(questions) <= MOST_EXACT
        self.best: Optional[Parts] = None

    def smallest(self) -> list[View]:
        """The views, in the order in which they are to be declared."""
        if not self.is_exact:
            return self.merged()
        for most in range(1, len(self.questions) + 1):
            self.share_out([], most)
            if self.best is not None:
                return self.views(self.best)
        return self.views(self.apart())

    def apart(self) -> Parts:
        """A part for each question."""
        return [Part((needs,), needs.attributes) for needs in self.questions]

    def views(self, parts: Parts) -> list[View]:
        """The views of some parts."""
        return [part.view(self.names) for part in parts]

    def size(self, parts: Parts) -> int:
        """How many points the views of some parts have together."""
        return sum(self.points(part.attributes) for part in parts)

    # ---- all ways

    def share_out(self, parts: Parts, most: int) -> None:
        """Looks at all ways to put the questions after those of these parts into them, and into
        more parts up to a number."""
        if self.best is not None and self.size(parts) >= self.size(self.best):
            return
        place = sum(len(part.questions) for part in parts)
        if place == len(self.questions):
            found = self.settled(parts)
            if found and (self.best is None or self.size(found) < self.size(self.best)):
                self.best = found
            return
        fresh = self.apart()[place]
        for number, part in enumerate(parts):
            wider = joined(part, fresh)
            if wider:
                self.share_out([*parts[:number], wider, *parts[number + 1 :]], most)
        if len(parts) < most:
            self.share_out([*parts, fresh], most)

    # ---- what the program takes

    def settled(self, parts: Parts) -> Optional[Parts]:
        """The least parts of the same questions whose views are taken as they should be, in the
        order of declaration; None where there are none."""
        ties, views = [], self.views(parts)
        for needs in self.questions:
            keys = self.keys(needs, parts, views)
            right = [place for place in keys if needs.is_run(views[place])]
            wrong = [place for place in keys if place not in right]
            before = {
                place: [
                    each
                    for each in wrong
                    if keys[each] < keys[place] or parts[each].attributes < parts[place].attributes
                ]
                for place in right
            }
            if all(before.values()):
                tried = right if self.is_exact else sorted(right, key=keys.__getitem__)[:1]
                found = [
                    way
                    for way in (self.widened(parts, place, before[place]) for place in tried)
                    if way
                ]
                return min(found, key=self.size) if found else None
            best = [place for place in keys if keys[place] == min(keys.values())]
            ties.append(
                (
                    {place for place in best if place in right},
                    {place for place in best if place in wrong},
                )
            )
        return declared(parts, ties)

    def keys(self, needs: Needs, parts: Parts, views: Sequence[View]) -> dict[int, tuple[int, int]]:
        """By what the program chooses among the views that cover a question, by their places."""
        covering = [
            place for place, part in enumerate(parts) if needs.attributes <= part.attributes
        ]
        return {
            place: (self.points(parts[place].attributes), -needs.suffix(views[place]))
            for place in covering
        }

    def widened(self, parts: Parts, right: int, before: Sequence[int]) -> Optional[Parts]:
        """The same where the views that would be taken before the right one get its attributes
        too."""
        wide = [
            part.attributes | parts[right].attributes if place in before else part.attributes
            for place, part in enumerate(parts)
        ]
        if max(map(len, wide)) > MOST_OF_A_VIEW:
            return None
        return self.settled(
            [Part(part.questions, attributes) for part, attributes in zip(parts, wide)]
        )

    # ---- many questions

    def merged(self) -> list[View]:
        """The views of parts that were joined for as long as that goes."""
        parts = self.apart()
        while True:
            fewer = self.with_two_joined(parts)
            if fewer is None:
                return self.views(self.settled(parts) or parts)
            parts = fewer

    def with_two_joined(self, parts: Parts) -> Optional[Parts]:
        """The parts with two of them joined, those that add the fewest points."""
        ways = [(joined(one, other), one, other) for one, other in combinations(parts, 2)]
        fewer = [
            [part, *(each for each in parts if each not in (one, other))]
            for part, one, other in ways
            if part
        ]
        return next((way for way in sorted(fewer, key=self.size) if self.settled(way)), None)


def different(questions: Sequence[Needs]) -> list[Needs]:
    """What views have to be looked for: each question once. One that no view can answer by one
    run has to be covered, and no more: it has two ranges, or one before it has the same
    attributes and equalities and its range elsewhere. One that has only to be covered goes where
    another has its attributes.
    """
    kept: dict[tuple[frozenset[str], frozenset[str], bool], Needs] = {}
    covered = []
    for needs in questions:
        is_one = (
            len(needs.ranges) < 2
            and kept.setdefault((needs.attributes, needs.equal, bool(needs.ranges)), needs) == needs
        )
        if not is_one or not needs.equal | needs.ranges:
            covered.append(needs.attributes)
    bound = [needs for needs in kept.values() if needs.equal | needs.ranges]
    greatest = [
        each
        for each in dict.fromkeys(covered)
        if not any(each <= needs.attributes for needs in bound)
        and not any(each < other for other in covered)
    ]
    return bound + [Needs(each, frozenset(), frozenset()) for each in greatest]


def smallest_views(questions: Sequence[Needs], names: Sequence[str], points: Points) -> list[View]:
    """The views, in the order in which they are to be declared, of questions that have no more
    attributes than a view; points grow with the attributes."""
    return Search(different(questions), names, points).smallest()
