"""Replies of parts to a slice, folded by the program `cubefold` to the reply of the whole.

Long replies are cut at the same keys, and what lies between two of these is folded by a run of its
own, beside the others: the rows with keys in a range are the reply over the facts with keys in that
range, and the rows of one range stand before those of the next.

A reply is cut only if its last line has the number of its rows. `cubefold` would not see that rows
are missing otherwise, since each range gets a last line of its own.

If a reply is out of order, a cut may put rows into the wrong range. The folded ranges show it: the
keys of each are in order, since `cubefold` sorts them, but a range does not begin after the end of
the one before. Then one run folds all replies, whatever their order. So no row needs to be compared
before the cut. It is tested, and not proved, that Python compares keys as `cubefold` does.
"""
from __future__ import annotations

import csv
import io
import os
import re
import subprocess
from concurrent.futures import ThreadPoolExecutor
from typing import NamedTuple, Sequence, Union

from ..codec import Answer, answer_of, line_writer
from ..derived import derived, derived_answer
from ..errors import Ended, Fault, Refused
from ..process import program
from ..questions import question_of, sent
from ..schema import Schema

LONG = 1 << 19  # bytes of replies for which a further run is worth its start
Key = tuple[Union[bytes, int], ...]
OVERFLOW = 13  # the status of sums that pass the type
LAST = re.compile(rb"(?:\A|\n)(rows (\d+)|refused [^\n]*)\n\Z")


class Reply(NamedTuple):
    """The reply to a slice: its rows as they were printed, and its last line."""

    rows: bytes
    last: str


def reply_of(printed: bytes) -> Reply:
    """A reply, which has a last line."""
    last = LAST.search(printed[-70_000:])
    if not last:
        raise Fault("a reply has no last line")
    return Reply(
        printed[: len(printed) - len(last[1]) - 1], last[1].decode("utf-8", "surrogateescape")
    )


def folded(lines: Sequence[str], text: str, replies: Sequence[bytes]) -> Reply:
    """The reply over all parts to the slice of this text, by the schema of these lines. What
    `cubefold` refuses ends it."""
    front = b"".join([*(line.encode() + b"\n" for line in lines), b"end\n", sent(text), b"\n"])
    schema = Schema(lines)
    try:
        ranges = ranges_of(schema, text, [reply_of(each) for each in replies])
    except ValueError:  # A row has no such key, which `cubefold` refuses.
        ranges = []
    if len(ranges) < 2:
        return one_fold(front, replies)
    with ThreadPoolExecutor(len(ranges)) as pool:
        made = list(pool.map(lambda each: one_fold(front, each), ranges))
    if not Keys(schema, text).ascend([each.rows for each in made]):
        return one_fold(front, replies)
    return Reply(
        b"".join(each.rows for each in made),
        f"rows {sum(int(each.last.split()[1]) for each in made)}",
    )


def one_fold(front: bytes, replies: Sequence[bytes]) -> Reply:
    """Folds replies by one run of the program, which gets the schema and the slice first."""
    run = subprocess.run(
        [program("cubefold")],
        input=b"".join([front, *replies]),
        stdout=subprocess.PIPE,
        stderr=subprocess.PIPE,
    )
    if run.returncode:
        raise Ended(run.returncode, run.stderr.decode("utf-8", "replace").strip())
    reply = reply_of(run.stdout)
    if reply.last.startswith("refused "):
        raise Refused(reply.last)
    return reply


# ---- ranges of keys


class Keys:
    """The keys of the rows of a slice, in which no field is quoted."""

    def __init__(self, schema: Schema, text: str) -> None:
        self.are_numbers = [name in schema.numbers for name in question_of(text).groups]

    def at(self, rows: bytes, place: int) -> Key:
        """The key of the row that begins at a place."""
        fields = rows[place : rows.index(b"\n", place)].split(b",")
        return tuple(
            int(field) if is_number else field for field, is_number in zip(fields, self.are_numbers)
        )

    def first_from(self, rows: bytes, key: Key) -> int:
        """Where the first row begins whose key is not below this one, after the last row where
        there is none."""
        low, high = 0, len(rows)
        while low < high:
            begins = rows.rfind(b"\n", 0, (low + high) // 2) + 1
            if self.at(rows, begins) < key:
                low = rows.index(b"\n", begins) + 1
            else:
                high = begins
        return low

    def ascend(self, ranges: Sequence[bytes]) -> bool:
        """Whether each range with rows begins with a greater key than the ones before it have."""
        first_keys = [self.at(rows, 0) for rows in ranges if rows]
        last_keys = [self.at(rows, rows.rfind(b"\n", 0, -1) + 1) for rows in ranges if rows]
        return all(last < first for last, first in zip(last_keys, first_keys[1:]))


def is_whole(reply: Reply) -> bool:
    """Whether the last line has the number of the rows, in which no field is quoted."""
    count = reply.rows.count(b"\n")
    return b'"' not in reply.rows and reply.last == f"rows {count}"


def ranges_of(schema: Schema, text: str, replies: Sequence[Reply]) -> list[list[bytes]]:
    """The replies for each range of keys, if they are whole, and long enough for several runs."""
    count = min(os.cpu_count() or 1, sum(len(reply.rows) for reply in replies) // LONG)
    if count < 2 or not all(map(is_whole, replies)):
        return []
    keys, longest = Keys(schema, text), max((reply.rows for reply in replies), key=len)
    bounds = sorted(
        {
            keys.at(longest, longest.rfind(b"\n", 0, len(longest) * number // count) + 1)
            for number in range(1, count)
        }
    )
    ends: list[list[int]] = [
        [0, *(keys.first_from(reply.rows, bound) for bound in bounds), len(reply.rows)]
        for reply in replies
    ]
    parted = [
        [reply.rows[begin:end] for begin, end in zip(places, places[1:])]
        for reply, places in zip(replies, ends)
    ]
    return [[rows + b"rows %d\n" % rows.count(b"\n") for rows in each] for each in zip(*parted)]


def answer_in(schema: Schema, text: str, reply: Reply) -> Answer:
    """The rows of a reply, as an answer to the question of this text."""
    rows = io.StringIO(reply.rows.decode("utf-8", "surrogateescape"), newline="")
    records = csv.reader(rows, strict=True)
    question = derived(text, {})
    if question.is_plain():
        return answer_of(question_of(text), schema, records)
    return derived_answer(question, schema, records, {})


def csv_of(text: str, reply: Reply) -> list[str]:
    """The rows as csv after a header line, as they were printed, since the program quotes what
    csv does."""
    question = question_of(text)
    header = line_writer()(question.groups + question.columns)[:-2]
    return [header, *([reply.rows[:-1].decode("utf-8", "surrogateescape")] if reply.rows else [])]
