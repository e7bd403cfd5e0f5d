"""Drawn queries in SQL, each answered as sqlite3 answers it over the raw facts.

fuzz/queries draws more of them. What is refused is in test_sql_refused.py.
"""
from __future__ import annotations

import random
from pathlib import Path
from typing import Callable

import pytest

from tests.drawn_answers import difference, plain_values
from tests.drawn_facts import Pair, converted_pair, plain_pair
from tests.drawn_sql import drawn_query

COUNT = 1200  # queries of each test, which take about five seconds
LIMIT = 0.2  # Of the answers, at most this part is empty.


@pytest.mark.parametrize("made", [plain_pair, converted_pair])
def test_drawn(made: Callable[[Path, int], Pair], tmp_path: Path) -> None:
    """Drawn queries, over whole numbers and over amounts and dates."""
    pair, draw, empty, uncovered = made(tmp_path, 2026), random.Random(2026), 0, 0
    for _ in range(COUNT):
        query = drawn_query(pair.shape, draw)
        found = difference(pair, query)
        assert not found, f"{query.text}\n  {query.parameters}\n  {found}"
        row = pair.base.execute(query.text, plain_values(query.parameters)).fetchone()
        empty += row is None
        uncovered += not query.is_covered
    pair.close()
    assert empty < COUNT * LIMIT and uncovered > COUNT / 100
