"""Drawn window functions, over groups and over rows."""
from __future__ import annotations

from typing import List, Sequence, Tuple

from tests.drawn_terms import Source, Term, Terms


class Windows(Terms):
    """Draws window functions whose values are determined."""

    def window_of_groups(self, source: Source, keys: Sequence[Term]) -> Term:
        """A window function over groups, in which the keys are a total order."""
        value = self.aggregate(source, 0, ["whole"]).text
        every = ", ".join(self.turned(key.text) for key in keys)
        first, last = keys[0].text, keys[-1].text
        ways: List[Tuple[str, str]] = [
            (f"SUM({value}) OVER (ORDER BY {every})", "whole"),
            (f"SUM({value}) OVER (ORDER BY {first})", "whole"),
            (f"SUM({value}) OVER (PARTITION BY {first} ORDER BY {last})", "whole"),
            (f"MAX({value}) OVER (PARTITION BY {first})", "whole"),
            (f"RANK() OVER (ORDER BY {value} DESC)", "whole"),
            (f"DENSE_RANK() OVER (PARTITION BY {first} ORDER BY {value})", "whole"),
            (f"ROW_NUMBER() OVER (ORDER BY {every})", "whole"),
            (f"ROW_NUMBER() OVER (ORDER BY {value}, {every})", "whole"),
            (f"LAG({value}) OVER (ORDER BY {every})", "whole"),
            (f"LEAD({value}, 1, 0) OVER (ORDER BY {every})", "whole"),
            (f"FIRST_VALUE({value}) OVER (ORDER BY {every})", "whole"),
            (f"NTILE(3) OVER (ORDER BY {every})", "whole"),
            ("COUNT(*) OVER ()", "whole"),
            (f"COUNT(*) OVER (PARTITION BY {value} > 20)", "whole"),
            (
                f"SUM({value}) OVER (ORDER BY {every} ROWS BETWEEN 1 PRECEDING AND CURRENT ROW)",
                "whole",
            ),
            (f"{value} * 100.0 / SUM({value}) OVER ()", "real"),
            (f"{value} - AVG({value}) OVER ()", "real"),
        ]
        return Term(*self.pick(ways))

    def window_of_rows(self, source: Source) -> Term:
        """A window function over rows, in which those of the same order get the same value."""
        order = self.turned(self.named(self.pick(source.columns)))
        part = self.named(self.pick(source.columns))
        ways: List[Tuple[str, str]] = [
            (f"RANK() OVER (ORDER BY {order})", "whole"),
            (f"DENSE_RANK() OVER (PARTITION BY {part} ORDER BY {order})", "whole"),
            (f"COUNT(*) OVER (PARTITION BY {part})", "whole"),
            (f"COUNT(*) OVER (ORDER BY {order})", "whole"),
        ]
        if self.columns_of(source, "whole"):
            value = self.named(self.pick(self.columns_of(source, "whole")))
            ways += [
                (f"SUM({value}) OVER (ORDER BY {order})", "whole"),
                (f"SUM({value}) OVER (PARTITION BY {part} ORDER BY {order})", "whole"),
                (f"MAX({value}) OVER (PARTITION BY {part})", "whole"),
                (f"{value} - MIN({value}) OVER ()", "whole"),
            ]
        return Term(*self.pick(ways))

    def turned(self, term: str) -> str:
        """A term as an order in a window. A number alone would be a constant there."""
        return term + self.pick(["", "", " DESC"])
