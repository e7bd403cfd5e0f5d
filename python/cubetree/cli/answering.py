"""What a tool that asks does with its questions: it takes them from its words or from standard
input, prints the answers, and tells refusals in words."""
from __future__ import annotations

import os
import re
import select
import stat
import sys
from typing import Callable, Iterator, Optional

from ..derived import attributes_in
from ..design.replicas import MOST_OF_A_VIEW
from ..errors import Fault, Refused, Stopped
from ..questions import ranges_of_texts
from ..schema import Schema
from ..sql import is_query
from ..ui import shown
from ..values import Kind

MEANINGS = {
    "syntax": "something else is due here: a slice is COLUMNS by NAMES where NAME=VALUE and ..",
    "measure": "no measure has this name; there are",
    "attribute": "no attribute has this name; there are",
    "repeated": "this one is grouped by already, or has a condition already",
    "value": (
        "no such value can be: a text is quoted where it has more than letters, digits and _.-+,"
        " and a number or a range a..b is not"
    ),
    "notcovered": (
        "no view has all attributes that are grouped by or have a condition; the views are of"
    ),
    "no": "no schema is declared in the folder",
    "unknown": "the program does not know the command: it is older than this tool",
    "level name": (
        "a level has a name as in a schema, which no attribute, measure or other level has"
    ),
    "level attribute": "no attribute has this name; there are",
    "level many": "there are at most 16 attributes and levels together",
    "fields": "a row of a level has a value and its parent",
    "number": "the value is no whole number, or is out of range",
    "long": "a text has at most 255 bytes",
    "block": "a level has at most 67,108,864 bytes",
    "rows": "a level has at most 262,144 rows",
    "sql table": "there is one table, facts",
    "sql name": "no attribute or measure that can stand here has this name; there are",
    "sql group": "an attribute that is asked for stands in GROUP BY, and stands there once",
    "sql value": (
        "no such value can be: a text stands in '..', a number does not, and texts have no order"
    ),
}

# An unquoted value to the place of a refusal, and what can stand there: the rest of a text that has
# to be quoted, and what makes a number odd.
VALUE = re.compile(r"(?P<name>[^ =]+)=(?P<front>[A-Za-z0-9_.+-]*)$")
PLAIN = re.compile(r"[^\"=,()<>]+?(?= and |$)")
ODD_NUMBER = re.compile(r"\"|[^ ]*[^ 0-9.]")


class Asked:
    """What is asked: it answers a question by lines, and has a schema, and levels that stand
    beside its attributes."""

    def __init__(
        self,
        answered: Callable[[str], list[str]],
        schema: Callable[[], Optional[Schema]],
        levels: Callable[[], list[str]],
        pause: Callable[[], None],
        kinds: Callable[[], dict[str, Kind]] = dict,
    ) -> None:
        self.answered, self.schema, self.levels, self.pause = answered, schema, levels, pause
        self.kinds = kinds


def refusal(tool: str, asked: Asked, text: str, refused: Refused) -> str:
    """A refusal in words, below it the slice with a mark at the byte."""
    schema, levels = asked.schema(), asked.levels()
    said = meaning(schema, levels, refused)
    if refused.reply == "refused notcovered" and schema and not is_query(text):
        return said + view_hint(attributes_in(text), schema)
    if not refused.byte:
        return said
    line = text.encode("utf-8", "surrogateescape")
    front, rest = (
        part.decode("utf-8", "surrogateescape")
        for part in (line[: refused.byte - 1], line[refused.byte - 1 :])
    )
    value, word = VALUE.search(front), refused.reply.split()[1]
    if value and schema and value["name"] in schema.numbers and word in ("syntax", "value"):
        said = value_hint(refused, value["name"], asked.kinds()) if ODD_NUMBER.match(rest) else said
    elif word == "syntax" and not is_query(text):
        said += syntax_hint(front, rest)
    elif refused.reply.startswith("refused sql name") and re.split(r"\W", rest)[0] in levels:
        said += "; SQL has no levels"
    elif schema and word in ("measure", "attribute"):
        said += other_kind(schema, re.split(r"\W", rest)[0]) or (
            "; a level needs --level NAME ATTR FILE"
            if word == "attribute" and tool == "cube ask" and not levels
            else ""
        )
    return "\n".join([said, f"  {shown(text)}", f"  {' ' * len(shown(front))}^"])


def value_hint(refused: Refused, name: str, kinds: dict[str, Kind]) -> str:
    """What a condition on a number may have."""
    kind = kinds.get(name)
    if kind and kind.name == "day":
        forms = "has days: 2025-03-14, 2025-03, or 2025-03-14..2025-04-13"
    elif kind and kind.name == "month":
        forms = "has months: 2025-03, 2025, or 2025-03..2025-06"
    else:
        forms = "is a number: 202503, or 202503..202506"
    return f"{refused.reply}: {name} {forms}"


def other_kind(schema: Schema, name: str) -> str:
    """That a name is one of the other kind, where it is."""
    if name in schema.measures:
        return f"; {name} is a measure"
    return f"; {name} is an attribute" if name in schema.attributes else ""


def view_hint(names: list[str], schema: Schema) -> str:
    """Which view a question of these attributes needs, by name where all of them are known as
    attributes; nothing where they are too many for a view."""
    if len(names) > MOST_OF_A_VIEW:
        return ""
    is_known = names and set(names) <= set(schema.attributes)
    return "; load into a new folder with a view " + (
        f"of {','.join(names)}" if is_known else "that has them all"
    )


def syntax_hint(front: str, rest: str) -> str:
    """What helps where a slice has an error of form between these two parts."""
    value, more = VALUE.search(front), PLAIN.match(rest)
    if value and more:
        return '; quote a value as {}="{}"'.format(
            value["name"], shown(value["front"] + more[0]).strip("'")
        )
    if re.fullmatch("([^ ]*,)?", front):
        return "; columns are count, sum, min, max in small letters"
    return "; a range is 202503..202506" if rest[:1] in ("<", ">") else ""


def meaning(schema: Optional[Schema], levels: list[str], refused: Refused) -> str:
    """A refusal, with what it says, and the names that there are."""
    if refused.meaning:
        return str(refused)
    words = refused.reply.split()[1:]
    word = (
        " ".join(words[:2])
        if words[0] in ("sql", "level")
        else words[2] if words[0] == "row" else words[0]
    )
    lists = {
        "measure": "measures",
        "attribute": "attributes",
        "level attribute": "own",
        "notcovered": "views",
        "sql name": "columns",
    }
    found = listed(schema, levels, lists[word]) if word in lists else []
    names = ("; " if word == "notcovered" else ", ").join(name or "none" for name in found)
    means = (
        "an earlier row has this value"
        if refused.row and word == "repeated"
        else MEANINGS.get(word, "")
    )
    means = means.replace("there are", "there is") if len(found) == 1 else means
    return f"{refused.reply}: {means} {names}".rstrip(" :")


def listed(schema: Optional[Schema], levels: list[str], what: str) -> list[str]:
    """The names of some things in the schema, and those of levels beside attributes."""
    if schema is None:
        return []
    lists = {
        "attributes": schema.attributes + levels,
        "own": schema.attributes,
        "measures": schema.measures,
        "views": schema.views,
    }
    return lists.get(what, schema.columns())


def is_taken_at_once(text: str) -> bool:
    """Whether standard output takes a text without waiting for whoever reads it."""
    if stat.S_ISREG(os.fstat(1).st_mode):
        return True
    return len(text.encode("utf-8", "replace")) <= select.PIPE_BUF and bool(
        select.select([], [1], [], 0)[1]
    )


def answer_all(tool: str, asked: Asked, texts: Iterator[Optional[str]]) -> int:
    """Prints the answers to all slices, and gives the status."""
    status, first = 0, True
    for text in texts:
        if text is None:
            asked.pause()
            continue
        try:
            lines = asked.answered(text)
        except Stopped:
            raise
        except Fault as fault:
            print(
                (
                    f"{tool}:"
                    f" {refusal(tool, asked, text, fault) if isinstance(fault, Refused) else fault}"
                ),
                file=sys.stderr,
            )
            status = 1
            continue
        schema = asked.schema() if ".." in text else None
        for said in ranges_of_texts(text, schema.numbers) if schema else ():
            print(f"{tool}: {said}", file=sys.stderr)
        printed = "".join(["" if first else "\n"] + [line + "\n" for line in lines])
        if not is_taken_at_once(printed):
            asked.pause()
        print(printed, end="", flush=True)
        first = False
    return status
