"""What the tests of derived questions have in common."""
from __future__ import annotations

from decimal import Decimal
from pathlib import Path
from typing import List

from cubetree import Answer
from cubetree.values import Kind
from tests.helpers import load

KINDS = {"day": Kind("day", order="YMD"), "month": Kind("month"), "fee": Kind("decimal", places=2)}


def loaded(folder: Path, schema: str, content: "str | bytes", *words: str) -> str:
    """A new folder with the rows of a csv file."""
    (folder / "w").mkdir()
    (folder / "schema").write_text(schema)
    text = content if isinstance(content, bytes) else content.encode()
    (folder / "file").write_bytes(text)
    names = ["--folder", str(folder / "w"), "--schema", str(folder / "schema")]
    load(*names, *words, str(folder / "file"))
    return str(folder / "w")


def cells(answer: Answer) -> List[str]:
    """The rows of an answer as lines of csv without quotes."""
    return [
        ",".join(format(cell, "f") if isinstance(cell, Decimal) else str(cell) for cell in row)
        for row in answer
    ]
