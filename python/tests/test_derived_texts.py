"""Derived questions as they go to the program, without it."""
from __future__ import annotations

import random
from fractions import Fraction
from typing import List

import pytest

from cubetree.derived import attributes_in, derived, rounded
from tests.deriving import KINDS


@pytest.mark.parametrize(
    "text, sent",
    [
        ("avg(qty)", "sum(qty),count"),
        ("avg(qty),count,avg(fee) by a", "sum(qty),count,sum(fee),count by a"),
        ("sum(fee)/count,max(a)/min(b)", "sum(fee),count,max(a),min(b)"),
        ("count/count by month(day)", "count,count by day"),
        ("count by year(day),a where b=1", "count by day,a where b=1"),
        ("count by day,month(day),a,year(day)", "count by day,a"),
        ("count by month(day),day", "count by day"),
        ("count by month(day),year(month)", "count by day,month"),
        ("count where month(day)=2025-03", "count where day=2025-03"),
        (
            "count where a=1 and year(day)=2024..2025 and b=2",
            "count where a=1 and day=2024..2025 and b=2",
        ),
        (
            'count where a="x and year(day)=1" and b="""" and year(month)=2025',
            'count where a="x and year(day)=1" and b="""" and month=2025',
        ),
        ('count where a=" where month(day)=2025-03"', 'count where a=" where month(day)=2025-03"'),
        # What is no such column or group goes to the program, which refuses it by its byte.
        ("avg(qty)/count", "avg(qty)/count"),
        ("avg()", "avg()"),
        ("avg", "avg"),
        ("Avg(qty)", "Avg(qty)"),
        ("count/", "count/"),
        ("count/count/count", "count/count/count"),
        ("count by month(day", "count by month(day"),
        ("count by day(day)", "count by day(day)"),
        ("count where xmonth(day)=2025-03", "count where xmonth(day)=2025-03"),
        ("", ""),
    ],
)
def test_sent(text: str, sent: str) -> None:
    """The program is asked for what the columns and groups are worked out of."""
    assert derived(text, KINDS).sent.text == sent


@pytest.mark.parametrize(
    "text, is_plain",
    [
        ("count,sum(qty) by day,a where year(day)=2025", True),
        ("avg(qty)", False),
        ("count/count", False),
        ("count by a,month(day)", False),
    ],
)
def test_plain(text: str, is_plain: bool) -> None:
    """A condition alone leaves the rows as the program has them."""
    assert derived(text, KINDS).is_plain() == is_plain


@pytest.mark.parametrize(
    "text, names",
    [
        ("avg(fee) by depot,month(day)", ["depot", "day"]),
        ("count/sum(fee) by day,month(day),depot", ["day", "depot"]),
        ("count by year(day) where month(day)=2025-03 and depot=x", ["day", "depot"]),
        ('avg(fee) by a where b="by month(c)"', ["a", "b"]),
        ("avg(fee),count", []),
        ("avg(fee)/count by depot", []),
    ],
)
def test_attributes(text: str, names: List[str]) -> None:
    """They are those that a view needs."""
    assert attributes_in(text) == names


def test_rounded() -> None:
    """As Python rounds fractions: the nearest number, and the even one of two."""
    for above, below, wanted in [(5, 2, 2), (7, 2, 4), (-5, 2, -2), (-7, 2, -4), (7, -2, -4)]:
        assert rounded(above, below) == wanted
    draw = random.Random(3)
    for _ in range(2000):
        above, below = draw.randrange(-99, 100), draw.choice([-8, -3, -2, -1, 1, 2, 4, 7])
        assert rounded(above, below) == round(Fraction(above, below))
    assert rounded(2**127 - 1, 2) == 2**126
    assert rounded(2**127 - 3, 2) == 2**126 - 2
