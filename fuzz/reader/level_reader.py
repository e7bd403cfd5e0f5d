"""Reads a script of the commands `level` and `rollup`, and works out the reply to each command.

It is written from docs/SCRIPT.md alone, for fuzz/level-texts; plain_facts.py works out the rows of
a roll-up. It is independent of python/cubetree on purpose, its format/ included, and shares no code
with it.
"""
import collections
import re

from .plain_facts import lifted, rows_of
from .sql_reader import LONGEST_TEXT, Refused, Schema, is_small, whole

LEVEL = re.compile(rb"level ([^ ]+) ([^ ]+)", re.DOTALL)
NAME = re.compile(rb"[a-z][a-z0-9_]{0,31}")
RUN = re.compile(rb"[a-z0-9_]*")
QUOTED = re.compile(rb'"((?:[^"]|"")*+)"')
PLAIN = re.compile(rb"[A-Za-z0-9_.+-]+")
NUMBER = re.compile(rb"[+-]?[0-9]+")
QUOTED_FIELD = re.compile(rb'"((?:[^"]|"")*+)(?:"([^,\r\n]*))?')
PLAIN_FIELD = re.compile(rb"[^,\r\n]*")
MARK = b"\xef\xbb\xbf"  # the byte order mark
GREATEST = 2**63 - 1
LONGEST_LINE, LONGEST_BLOCK, MOST_ROWS, MOST_NAMES = 65_536, 67_108_864, 262_144, 16


def coordinate(text):
    """The number of a text, or None if a number attribute may not have it."""
    is_number = NUMBER.fullmatch(text) and is_small(text) and 0 <= whole(text) <= GREATEST
    return whole(text) if is_number else None


# ---- the text of a slice or a roll-up


class SliceReader:
    """Reads the text from left to right. Each rule of the grammar is a method."""

    def __init__(self, schema, text):
        self.schema, self.text, self.at = schema, text, 0
        self.names = list(schema.attributes)
        self.groups, self.conditions = [], {}

    def skips(self, fixed):
        """Takes this fixed text if it comes next."""
        is_next = self.text.startswith(fixed, self.at)
        self.at += len(fixed) * is_next
        return is_next

    def expect(self, holds, rule, at):
        if not holds:
            raise Refused(rule, at + 1)

    def listed(self, between, rule):
        """One or more, with this text between."""
        found = [rule()]
        while self.skips(between):
            found.append(rule())
        return found

    def run(self):
        found = RUN.match(self.text, self.at)
        self.at = found.end()
        return found[0]

    def name(self, rule, names):
        """A name, which has to be one of these, and its place."""
        start, name = self.at, self.run()
        self.expect(name, "syntax", start)
        self.expect(name in names, rule, start)
        return name, start

    def slice(self):
        columns = self.listed(b",", self.column)
        if self.skips(b" by "):
            self.listed(b",", self.group)
        if self.skips(b" where "):
            self.listed(b" and ", self.condition)
        self.expect(self.at == len(self.text), "syntax", self.at)
        return columns, self.groups, list(self.conditions.items())

    def column(self):
        start, word = self.at, self.run()
        if word == b"count" and not self.skips(b"("):
            return "count"
        self.expect(word in (b"sum", b"min", b"max") and self.skips(b"("), "syntax", start)
        measure, _ = self.name("measure", self.schema.measures)
        self.expect(self.skips(b")"), "syntax", self.at)
        return f"{word.decode()}({measure.decode()})"

    def attribute(self, others):
        """The place of an attribute, which must not be among these yet."""
        name, start = self.name("attribute", self.names)
        place = self.names.index(name)
        self.expect(place not in others, "repeated", start)
        return place

    def group(self):
        self.groups.append(self.attribute(self.groups))

    def condition(self):
        place = self.attribute(self.conditions)
        self.expect(self.skips(b"="), "syntax", self.at)
        is_quoted, start = self.text.startswith(b'"', self.at), self.at
        found = (QUOTED if is_quoted else PLAIN).match(self.text, self.at)
        self.expect(found, "syntax", len(self.text) if is_quoted else start)
        self.at = found.end()
        text = found[1].replace(b'""', b'"') if is_quoted else found[0]
        value = self.value(place, text, is_quoted)
        self.expect(value is not None, "value", start)
        self.conditions[place] = value

    def value(self, place, text, is_quoted):
        """The value or the bounds of a condition, or None if the attribute may not have them."""
        if self.schema.attributes[self.names[place]]:
            return text if len(text) <= LONGEST_TEXT else None
        if is_quoted:
            return None
        bounds = [coordinate(bound) for bound in text.split(b"..", 1)]
        return None if None in bounds else bounds[0] if len(bounds) == 1 else tuple(bounds)


# ---- the rows of a block


def records(block):
    """The rows, as lists of fields."""
    block, at = block.removeprefix(MARK), 0
    while at < len(block):
        if block[at : at + 1] in (b"\r", b"\n"):
            at += 1
            continue
        fields, is_over = [], False
        while not is_over:
            field, at = field_at(block, at)
            fields.append(field)
            is_over = block[at : at + 1] != b","
            at += not is_over
        yield fields


def field_at(block, at):
    """The field that begins here, and the place after it."""
    quoted = QUOTED_FIELD.match(block, at)
    if quoted:
        return quoted[1].replace(b'""', b'"') + (quoted[2] or b""), quoted.end()
    found = PLAIN_FIELD.match(block, at)
    return found[0], found.end()


def row_fault(row, value):
    """The first fault of a row of a level, except that its value is repeated. `value` is None if
    the attribute may not have it."""
    if len(row) != 2:
        return "fields"
    if value is None:
        return "number 1"
    long = [f"long {place}" for place, field in enumerate(row, 1) if len(field) > LONGEST_TEXT]
    return long[0] if long else None


# ---- the script


class Session:
    """A warehouse with these facts, and the levels that a script declares. The schema may be
    None."""

    def __init__(self, schema, views=(), facts=()):
        self.schema, self.views, self.facts = schema, views, facts
        self.levels = {}  # the attribute and the parents of each level

    def replies(self, script):
        """The commands of a script that ends with a line feed, each with its reply."""
        lines = collections.deque(script.split(b"\n")[:-1])
        while lines:
            line = lines.popleft()
            command = line.removesuffix(b"\r")
            found = LEVEL.fullmatch(command)
            if len(line) > LONGEST_LINE:
                yield line, b"refused long line\n"
            elif found:
                block, text = self.block(lines)
                is_open = block is None
                reply = b"refused open block\n" if is_open else self.level(*found.groups(), block)
                yield line + b"\n" + text, reply
            elif command.startswith(b"rollup "):
                yield line, self.rollup(command.removeprefix(b"rollup "))
            elif command:
                yield line, b"refused unknown\n"

    def block(self, lines):
        """The block that begins here, or None if the script ends in it, and all lines of it."""
        taken = []
        while lines:
            taken.append(lines.popleft() + b"\n")
            if taken[-1] in (b"end\n", b"end\r\n"):
                return b"".join(taken[:-1]), b"".join(taken)
        return None, b"".join(taken)

    def level(self, name, attribute, block):
        if self.schema is None:
            return b"refused no schema\n"
        attributes, measures = self.schema
        if not NAME.fullmatch(name) or name in {*attributes, *measures, *self.levels}:
            return b"refused level name\n"
        if attribute not in attributes:
            return b"refused level attribute\n"
        if len(attributes) + len(self.levels) == MOST_NAMES:
            return b"refused level many\n"
        if len(block) > LONGEST_BLOCK:
            return b"refused block\n"
        rows = list(records(block))
        if len(rows) > MOST_ROWS:
            return b"refused rows\n"
        parents = {}
        for number, row in enumerate(rows, 1):
            value = row[0] if attributes[attribute] else coordinate(row[0])
            fault = row_fault(row, value) or ("repeated" if value in parents else None)
            if fault:
                return f"refused row {number} {fault}\n".encode()
            parents[value] = row[1]
        self.levels[name] = attribute, parents
        return b"leveled %d\n" % len(rows)

    def rollup(self, text):
        if self.schema is None:
            return b"refused no schema\n"
        attributes, measures = self.schema
        names = [*attributes, *self.levels]
        schema = Schema({**attributes, **{name: True for name in self.levels}}, measures)
        try:
            slice = SliceReader(schema, text).slice()
        except Refused as refused:
            return f"refused {refused.rule} {refused.byte}\n".encode()
        named = {names[place] for place in (*slice[1], *(place for place, _ in slice[2]))}
        below = {self.levels[name][0] if name in self.levels else name for name in named}
        if not any(below <= {*view} for view in self.views):
            return b"refused notcovered\n"
        levels = [(names.index(attribute), parents) for attribute, parents in self.levels.values()]
        facts = lifted(self.facts, len(attributes), levels)
        return rows_of([measure.decode() for measure in measures], facts, slice)
