"""What the page asks of the warehouse, and the answers as it gets them.

Numbers go as texts, since they may have 39 digits. Texts go as they are shown, without characters
that cannot be seen; only the values to choose from go as they are too.
"""
from __future__ import annotations

import os
import re
import shlex
import time
from typing import Any, Callable, Dict, List, Optional

from ..cli.answering import Asked, refusal
from ..codec import Answer
from ..errors import FILES, Fault, Refused
from ..format.files import live_body
from ..format.forest import Forest
from ..output import cell_of, csv_lines
from ..questions import sent
from ..sorting import sort_by
from ..ui import shown
from ..warehouse import Warehouse
from .waiting import PATIENCE, Asker

MOST_ROWS = 20_000  # of an answer that the page gets; csv has all
MOST_PAGES = 100_000  # of a folder in which those of an answer are counted
MOST_VALUES = 500  # of an attribute, to choose from
PATIENCE_OF_FILES = 60.0  # seconds that csv waits for another run
PRINTABLE = re.compile(rb"[ -~]")


class Explorer:
    """A warehouse, and the thread that asks it."""

    def __init__(self, folder: str) -> None:
        self.folder = folder
        self.warehouse = Warehouse(folder, tool="")  # Without a name it says nothing of waiting.
        self.asker = Asker()

    def asked(
        self, what: str, text: str, made: Callable[[str], Any], patience: float = PATIENCE
    ) -> Any:
        """What is made of a question by the thread that asks; a refusal is a fault in words."""
        sent(text)  # A question that is too long goes no further.

        def work() -> Any:
            """The work of the thread."""
            if not os.path.isdir(self.folder):
                raise Fault("the folder is gone")
            if not os.path.exists(os.path.join(self.folder, FILES[0])):
                raise Fault("no schema is declared in the folder yet")
            try:
                return made(text)
            except Refused as refused:
                raise Fault(self.refusal(text, refused)) from refused

        return self.asker.ask(f"{what} {text}", work, patience)

    def refusal(self, text: str, refused: Refused) -> str:
        """A refusal in words."""
        warehouse = self.warehouse
        asked = Asked(
            lambda _: [],
            lambda: warehouse.schema,
            lambda: [],
            warehouse.pause,
            lambda: warehouse.kinds,
        )
        return refusal("cube explore", asked, text, refused)

    # ---- what the page gets

    def answer(self, text: str) -> Dict[str, Any]:
        """The rows of an answer, the view that gave it, and how long that took."""
        found: Dict[str, Any] = self.asked("answer", text, self.made_answer)
        return found

    def made_answer(self, text: str) -> Dict[str, Any]:
        """The answer, by the thread that asks."""
        self.warehouse.status()  # It waits for its turn, which is no time of the answer.
        began = time.monotonic()
        answer = self.warehouse.slice(text)
        spent = time.monotonic() - began
        choice = self.warehouse.explain(text)
        groups = len(answer.columns) - len(text.partition(" ")[0].split(","))
        count = len(answer)
        if count > MOST_ROWS:
            sort_by(answer, groups, True)
        return {
            "columns": list(answer.columns),
            "kinds": kinds_of(answer),
            "groups": groups,
            "count": count,
            "rows": [[shown(cell_of(cell)) for cell in row] for row in answer[:MOST_ROWS]],
            "view": list(choice.view),
            "run": choice.run,
            "milliseconds": round(1000 * spent, 1),
            "command": command_of(self.folder, text),
        }

    def pages(self, text: str) -> Dict[str, int]:
        """How many pages a question reads, and of how many; nothing in a large folder, where the
        search for them would keep writers waiting."""
        found: Dict[str, int] = self.asked("pages", text, self.made_pages)
        return found

    def made_pages(self, text: str) -> Dict[str, int]:
        """The pages, by the thread that asks."""
        schema, body = self.warehouse.schema, live_body(self.folder)
        if schema and Forest(schema).pages(body.points, body.width()) > MOST_PAGES:
            return {}
        seen = self.warehouse.visits(text)
        return {"pages": seen.pages, "of": seen.of}

    def csv(self, text: str) -> bytes:
        """The rows of an answer as csv."""
        answer = self.asked("csv", text, self.warehouse.slice, PATIENCE_OF_FILES)
        lines = "".join(line + "\n" for line in csv_lines(answer))
        return lines.encode("utf-8", "surrogateescape")

    def values(self, name: str) -> Dict[str, Any]:
        """The values that an attribute has: as they are, as they are shown, and how many facts
        have them; the most frequent ones first."""
        if not re.fullmatch("[a-z0-9_]+", name):
            raise Fault(f"no attribute has the name {shown(name)}")
        answer = self.asked("values", f"count by {name}", self.warehouse.slice)
        sort_by(answer, 1, True)
        found = [(cell_of(value), cell_of(count)) for value, count in answer[:MOST_VALUES]]
        return {
            "values": [
                {"value": value, "shown": shown(value), "count": count} for value, count in found
            ]
        }


def kinds_of(answer: Answer) -> List[str]:
    """What the columns of an answer have."""
    return [
        (
            kind.name
            if kind and kind.name in ("day", "month")
            else "year" if name.startswith("year(") else "number" if numeric else "text"
        )
        for name, numeric, kind in zip(answer.columns, answer.numeric, answer.kinds)
    ]


def command_of(folder: str, text: str) -> Optional[str]:
    """The command that asks the same, as a shell takes it; None if no shell can, because of a
    null byte."""
    if "\0" in text:
        return None
    return f"cube ask --folder {quoted(os.path.realpath(folder))} {quoted(text)}"


def quoted(text: str) -> str:
    """A text as a word for a shell. One that cannot be printed as it is has escapes."""
    if text.isprintable():
        return shlex.quote(text)
    bytes_of = text.encode("utf-8", "surrogateescape")
    return "$'" + "".join(map(escaped, bytes_of)) + "'"


def escaped(byte: int) -> str:
    """A byte within $'..'."""
    if byte in b"\\'":
        return "\\" + chr(byte)
    # Three octal digits are the escape that a digit after it does not make longer.
    return chr(byte) if PRINTABLE.match(bytes([byte])) else f"\\{byte:03o}"
