"""Rows of csv as a folder keeps them: amounts and dates become the whole numbers of the program."""
from __future__ import annotations

from typing import Optional, Sequence

from .codec import line_writer
from .columns import Columns
from .feed.rowstream import fields_of
from .schema import Schema
from .values import Kind


class Conversion:
    """What becomes of the cells of a row of the folder's columns."""

    def __init__(self, schema: Schema, columns: Optional[Columns]) -> None:
        kinds = columns.kinds if columns else {}
        na = columns.na if columns else []
        self.width = len(schema.columns())
        self.na = {text.encode("utf-8", "surrogateescape") for text in na}
        self.kinds: list[tuple[int, str, Kind]] = [
            (place, name, kinds[name])
            for place, name in enumerate(schema.columns())
            if name in kinds and (self.na or kinds[name].name not in ("text", "whole"))
        ]

    def kept(self, rows: Sequence[bytes]) -> tuple[list[bytes], dict[int, str]]:
        """The rows as the program takes them, and for each row that can't be converted, by its
        place, why; such a row stays as it is."""
        if not self.kinds:
            return list(rows), {}
        written, kept = line_writer(), list(rows)
        faults: dict[int, str] = {}
        for place, row in enumerate(rows):
            fields = list(fields_of(row))
            if len(fields) != self.width:
                continue
            try:
                texts = self.cells(fields)
            except ValueError as error:
                faults[place] = str(error)
                continue
            kept[place] = written(texts)[:-2].encode("utf-8", "surrogateescape")
        return kept, faults

    def cells(self, fields: Sequence[bytes]) -> list[str]:
        """The cells of a row as the program takes them; a ValueError names what can't be."""
        texts = [field.decode("utf-8", "surrogateescape") for field in fields]
        for place, name, kind in self.kinds:
            if fields[place] in self.na:
                texts[place] = "0" if kind.is_number() else ""
                continue
            try:
                texts[place] = kind.kept(texts[place])
            except ValueError as error:
                raise ValueError(f"{name} is {error}") from error
        return texts
