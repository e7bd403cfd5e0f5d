"""Levels, which give each value of an attribute a parent. No level stands in a file: each run gets
those that it needs."""
import re
from typing import Iterable, Mapping, NamedTuple, Union

from .codec import GivenRow, block_of, rows_of_file
from .errors import Refused

Pairs = Union[Mapping[str, str], Mapping[int, str], Iterable[GivenRow]]
WORD = re.compile(r"[^ \r\n]{1,255}")
PROBE = b"rollup x\n"  # is refused by each program, and as unknown by one that knows no levels


class Level(NamedTuple):
    """A level by its name, and the command that tells it."""

    name: str
    command: bytes


def level_of(name: str, attribute: str, pairs: Pairs) -> Level:
    """A level of an attribute, by pairs of a value and its parent."""
    rows: Iterable[GivenRow] = pairs.items() if isinstance(pairs, Mapping) else pairs
    return Level(name, block_of(first_line(name, attribute), rows))


def level_in_file(name: str, attribute: str, path: str) -> Level:
    """A level whose pairs are the rows of a csv file without a header."""
    return Level(name, first_line(name, attribute) + b"\n" + rows_of_file(path) + b"end\n")


def first_line(name: str, attribute: str) -> bytes:
    """The line before the pairs; a refusal where it would be no line of a level, so that the
    pairs would be commands."""
    for word, what in ((name, "name"), (attribute, "attribute")):
        if not WORD.fullmatch(word):
            raise Refused(f"refused level {what}")
    return f"level {name} {attribute}".encode("utf-8", "surrogateescape")
