"""The state of a folder as its files show it. No lock is taken, so it may be a moment old."""
from __future__ import annotations

import os
from typing import Any, Dict, List, Optional

from ..columns import Columns, kept_columns
from ..errors import FILES, Fault, told
from ..format.files import GATES, Body, live_body
from ..format.forest import PAGE, leaf_room
from ..schema import Schema, kept_schema
from ..ui import shown
from ..values import TEXT, WHOLE_NUMBER
from .writers import work_in

State = Dict[str, Any]
GONE, EMPTY, DAMAGED, READY = "gone", "empty", "damaged", "ready"


def state_of(folder: str) -> State:
    """The state of a folder; its `phase` says whether there is a warehouse to ask."""
    state: State = {"folder": shown(os.path.realpath(folder)), "work": work_of(folder)}
    if not os.path.isdir(folder):
        return {**state, "phase": GONE}
    if not os.path.exists(os.path.join(folder, FILES[0])):
        return {**state, "phase": EMPTY}
    try:
        return {**state, **contents(folder)}
    except (Fault, OSError, ValueError) as fault:
        return {**state, "phase": DAMAGED, "fault": shown(told_of(fault))}


def told_of(fault: Exception) -> str:
    """A fault in words."""
    if isinstance(fault, (Fault, OSError)):
        return told(fault)
    return f"the files of the warehouse cannot be read: {fault}"


def contents(folder: str) -> State:
    """What a folder has that has a warehouse."""
    if not has_gates(folder):
        return {"phase": EMPTY}
    body = live_body(folder)
    schema = kept_schema(folder)
    if len(schema.views) != len(body.points) or not schema.views:
        raise ValueError("the schema and the root do not agree")
    columns = kept_columns(folder, schema) or Columns()
    sizes = {name: size_of(os.path.join(folder, name)) for name in FILES}
    return {
        "phase": READY,
        "facts": body.facts,
        "number": body.last,
        "format": body.format,
        "generation": body.generation,
        "attributes": [column(name, schema, columns) for name in schema.attributes],
        "measures": [column(name, schema, columns) for name in schema.measures],
        "views": views_of(schema, body),
        "sizes": sizes,
        "changed": os.path.getmtime(os.path.join(folder, FILES[0])),
    }


def has_gates(folder: str) -> bool:
    """Whether the gates of the root say something, be it that they are damaged."""
    with open(os.path.join(folder, FILES[0]), "rb") as file:
        return file.read()[GATES : GATES + 2].strip(b"\0") != b""


def column(name: str, schema: Schema, columns: Columns) -> Dict[str, str]:
    """A column: its name, its title in the first file, and what it has."""
    has_numbers = name in schema.numbers or name in schema.measures
    kind = columns.kinds.get(name, WHOLE_NUMBER if has_numbers else TEXT)
    return {"name": name, "title": shown(columns.titles.get(name, name)), "kind": kind.name}


def views_of(schema: Schema, body: Body) -> List[Dict[str, object]]:
    """Each view with its points, and the bytes of its leaves."""
    attributes = [view.split(",") if view else [] for view in schema.views]
    measures, width = len(schema.measures), body.width()
    return [
        {
            "attributes": view,
            "points": points,
            "bytes": PAGE * -(-points // leaf_room(len(view), measures, width)),
        }
        for view, points in zip(attributes, body.points)
    ]


def work_of(folder: str) -> Optional[Dict[str, object]]:
    """What a writer in the folder does; None if there is none."""
    work = work_in(folder)
    if work is None:
        return None
    far = work.progress
    return {
        "batch": work.is_batch,
        "tool": shown(far.tool) if far else "another run",
        "rows": far.rows if far else None,
        "part": far.part if far else None,
        "batches": far.batches if far else None,
    }


def size_of(path: str) -> int:
    """The bytes of a file, 0 if it is not there."""
    try:
        return os.path.getsize(path)
    except OSError:
        return 0
