"""Some rows of a file, and how many different ones the whole file has by them."""
from __future__ import annotations

import math
import random
from operator import itemgetter
from typing import Callable, Optional, Sequence

MOST = 100_000  # rows that are kept at least, of a file that has as many
Row = tuple[str, ...]


class Sample:
    """Rows that are drawn, with as many fields as it has names: all rows of a file with few, and
    about one of `distance` of a longer one."""

    def __init__(self, names: Sequence[str]) -> None:
        self.names, self.distance, self.seen, self.draw = list(names), 1, 0, random.Random(0)
        self.rows: list[Row] = []

    def see(self, row: Row) -> None:
        """Takes the next row, or skips it."""
        self.seen += 1
        if self.distance == 1 or self.draw.random() * self.distance < 1:
            self.rows.append(row)
            if len(self.rows) > 2 * MOST:
                self.rows, self.distance = self.draw.sample(self.rows, MOST), 2 * self.distance

    def convert(self, forms: Sequence[Callable[[str], str]]) -> None:
        """Converts the fields of all rows that are kept, each by the form of its name."""
        self.rows = [tuple(form(cell) for form, cell in zip(forms, row)) for row in self.rows]

    def different(
        self, names: Sequence[str], passes: Optional[Callable[[Row], bool]] = None
    ) -> int:
        """How many rows of the file differ in these fields, of those that pass. It is exact if all
        rows are kept; otherwise all different rows are taken to be equally frequent."""
        places = [self.names.index(name) for name in names]
        kept = self.rows if passes is None else list(filter(passes, self.rows))
        found = len(set(map(itemgetter(*places), kept))) if places else min(len(kept), 1)
        if self.distance == 1:
            return found
        return round(grown(found, len(kept), len(kept) * self.seen / len(self.rows)))


def grown(found: int, kept: int, whole: float) -> float:
    """The estimated number of different values in `whole` rows, if `found` were seen in `kept`
    sampled rows and all values are equally frequent: it inverts E[found] = D(1 - e^(-kept/D))."""
    if found == kept:
        return whole
    low, high = float(found), float(found)
    while high * -math.expm1(-kept / high) < found:
        high *= 2
    for _ in range(60):
        middle = (low + high) / 2
        is_above = middle * -math.expm1(-kept / middle) > found
        low, high = (low, middle) if is_above else (middle, high)
    return high * -math.expm1(-whole / high)
