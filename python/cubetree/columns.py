"""What the columns of files mean in a folder: the file `.columns`, which its first load writes.

It has one object of JSON. `columns` has for each attribute and measure its kind, as `values` writes
it, and the title that its column had in the header of the first file. `left` has the titles of the
columns that were left out, and `na` the cells that stand for nothing: they count as 0 in a column
of numbers, and as the empty text in one of texts. So a later load reads `12` as 1200 cents where
the first one read `12.50` as 1250, and answers show amounts and dates.
"""
from __future__ import annotations

import json
import os
from dataclasses import dataclass, field
from typing import Any, Mapping, Optional

from .batches import sync_folder
from .errors import Fault
from .schema import Schema
from .values import TEXT, WHOLE_NUMBER, Kind, kind_in

NAME, FORM = ".columns", 1


@dataclass
class Columns:
    """The kinds of the columns of a folder by their names, their titles in the first file, the
    titles of columns that were left out, and the cells that stand for nothing."""

    kinds: dict[str, Kind] = field(default_factory=dict)
    titles: dict[str, str] = field(default_factory=dict)
    left: list[str] = field(default_factory=list)
    na: list[str] = field(default_factory=list)

    def converted(self) -> dict[str, Kind]:
        """The kinds whose cells are shown in another way than the program keeps them."""
        return {name: kind for name, kind in self.kinds.items() if kind not in (TEXT, WHOLE_NUMBER)}

    def expect(self, told: Mapping[str, Kind]) -> None:
        """A fault if the words of a call say another kind of a column than the folder has."""
        for name, kind in told.items():
            kept = self.kinds.get(name, kind)
            is_open = kind in (Kind("day"), Kind("decimal")) and kind.name == kept.name
            if kept != kind and not is_open:
                raise Fault(f"{name} has {in_words(kept)} in this folder, and not {in_words(kind)}")

    def write(self, folder: str) -> None:
        """Writes the file, and syncs it."""
        columns = {
            name: {"kind": str(kind), "title": self.titles.get(name, name)}
            for name, kind in self.kinds.items()
        }
        content = {"form": FORM, "columns": columns, "left": self.left, "na": self.na}
        path = os.path.join(folder, NAME)
        with open(path + ".new", "w", encoding="utf-8") as file:
            json.dump(content, file, indent=1)
            file.write("\n")
            file.flush()
            os.fsync(file.fileno())
        os.rename(path + ".new", path)
        sync_folder(folder)


def in_words(kind: Kind) -> str:
    """A kind as a message says it."""
    words = {"text": "texts", "whole": "whole numbers", "month": "months"}
    if kind.name == "decimal":
        return f"amounts of {kind.places} decimals" if kind.places else "amounts"
    return words.get(kind.name) or f"days in the order {kind.order}".removesuffix(" in the order ")


def kept_columns(folder: str, schema: Schema) -> Optional[Columns]:
    """What the folder keeps of its columns; None if no load has written it."""
    path = os.path.join(folder, NAME)
    try:
        with open(path, encoding="utf-8") as file:
            content = json.load(file)
        columns = columns_in(content)
    except FileNotFoundError:
        return None
    except (ValueError, KeyError, TypeError, AttributeError) as error:
        raise Fault(
            f"{path} is damaged ({error}): the kinds of the columns are not known"
        ) from error
    for name, kind in columns.kinds.items():
        if not is_possible(kind, name, schema):
            raise Fault(f"{path} is of another schema: it says that {name} has {in_words(kind)}")
    return columns


def columns_in(content: dict[str, Any]) -> Columns:
    """What the content of the file says; a ValueError, KeyError or TypeError if it is another."""
    if content["form"] != FORM:
        raise ValueError(f"form {content['form']}")
    kinds = {str(name): kind_in(each["kind"]) for name, each in content["columns"].items()}
    titles = {str(name): str(each["title"]) for name, each in content["columns"].items()}
    return Columns(kinds, titles, list(map(str, content["left"])), list(map(str, content["na"])))


def is_possible(kind: Kind, name: str, schema: Schema) -> bool:
    """Whether a column of the schema can have this kind."""
    if name in schema.measures:
        return kind.name in ("whole", "decimal")
    if name in schema.numbers:
        return kind.name in ("whole", "day", "month")
    return name in schema.attributes and kind == TEXT
