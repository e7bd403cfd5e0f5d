"""The questions of a call: its argument, lines of standard input, or what is typed."""
from __future__ import annotations

import io
import os
import re
import select
import sys
from contextlib import suppress
from typing import Callable, Iterator, Optional

from ..schema import Schema
from ..values import Kind

MOST_KEPT = 1_000  # lines of the history
ENDS = ("quit", "exit", "\\q")
HELPS = ("help", "?", "\\d")
WORDS = ("count", "by", "where", "and", "help", "quit", "SELECT", "FROM", "facts", "GROUP")
FORMS = """
A question:  sum(qty),count by part where year=1997..1998 and kind=a
Columns:     count, sum(m), min(m), max(m), avg(m), and ratios such as sum(m)/count
In SQL:      SELECT part, AVG(qty) AS mean FROM facts GROUP BY part ORDER BY mean DESC
Dates:       by month(day) or year(day), where day=2025-03 or day=2025-03-01..2025-03-14
`quit` ends; the tab key completes names."""
Kinds = Callable[[], "dict[str, Kind]"]
Schemas = Callable[[], Optional[Schema]]


def questions(words: list[str], schema: Schemas, kinds: Kinds) -> Iterator[Optional[str]]:
    """The questions, without the word of a command before them, and None before a wait for the next
    one."""
    if words:
        lines: Iterator[Optional[str]] = iter([" ".join(words)])
    elif sys.stdin and sys.stdin.isatty():
        lines = typed(schema, kinds)
    else:
        lines = piped()
    for line in lines:
        text = line and re.sub("^(slice|sql|rollup) ", "", line.rstrip("\r\n").strip(" "))
        if text != "":
            yield text


def piped() -> Iterator[Optional[str]]:
    """The lines of standard input, and None where none is there yet."""
    is_open, front = sys.stdin is not None, b""
    while is_open:
        if not select.select([0], [], [], 0)[0]:
            yield None
        piece = os.read(0, 1 << 16)
        is_open = piece != b""
        *lines, front = (front + piece + (b"" if is_open else b"\n")).split(b"\n")
        for line in lines:
            yield line.decode("utf-8", "surrogateescape")


def typed(schema: Schemas, kinds: Kinds) -> Iterator[Optional[str]]:
    """What is typed at a terminal, and None before each line. Lines are kept for the next time, and
    the tab key completes names. Answers that go into a file have no prompts between them."""
    import readline

    if isinstance(sys.stdin, io.TextIOWrapper):
        sys.stdin.reconfigure(errors="surrogateescape")
    prompt, kept = "cube> " if sys.stdout.isatty() else "", history_file()
    with suppress(OSError):
        readline.read_history_file(kept)
    words = words_of(schema(), kinds())
    readline.set_completer_delims(" ,=/")
    readline.set_completer(lambda front, at: completed(words, front, at))
    readline.parse_and_bind("tab: complete")
    try:
        while True:
            yield None
            line = input(prompt)
            if line.strip() in ENDS:
                return
            if line.strip() in HELPS:
                print("\n".join(described(schema(), kinds())))
            else:
                yield line
    except EOFError:
        print(end="\n" if prompt else "")
    finally:
        with suppress(OSError):
            os.makedirs(os.path.dirname(kept), mode=0o700, exist_ok=True)
            readline.set_history_length(MOST_KEPT)
            readline.write_history_file(kept)


def history_file() -> str:
    """Where the typed lines are kept: below XDG_STATE_HOME, as other programs do."""
    state = os.environ.get("XDG_STATE_HOME") or os.path.expanduser("~/.local/state")
    return os.path.join(state, "cubetree", "history")


def completed(words: list[str], front: str, at: int) -> Optional[str]:
    """The word at this place among those that begin like a text."""
    found = [word for word in words if word.startswith(front)]
    return found[at] if at < len(found) else None


def words_of(schema: Optional[Schema], kinds: dict[str, Kind]) -> list[str]:
    """What can be completed: names, functions of them, and the words of questions."""
    if schema is None:
        return sorted(WORDS)
    dates = [name for name, kind in kinds.items() if kind.name in ("day", "month")]
    values = [
        f"{word}({name})" for name in schema.measures for word in ("sum", "avg", "min", "max")
    ]
    parts = [f"{word}({name})" for name in dates for word in ("month", "year")]
    return sorted({*schema.attributes, *values, *parts, *WORDS})


def described(schema: Optional[Schema], kinds: dict[str, Kind]) -> list[str]:
    """The names of the folder, and the forms of a question."""
    if schema is None:
        return ["no schema is declared in the folder", *FORMS.splitlines()]
    numbers = schema.numbers

    def named(name: str) -> str:
        """A name, with what it has if that is no text."""
        kind = kinds.get(name)
        what = f"{kind.name}s" if kind else "numbers" if name in numbers else ""
        return f"{name} ({what})" if what else name

    return [
        f"Group by:    {', '.join(map(named, schema.attributes))}",
        f"Measures:    {', '.join(schema.measures)}",
        f"Views:       {'; '.join(view or 'of no attribute' for view in schema.views)}",
        *FORMS.splitlines(),
    ]
