"""Draws warehouses for fuzz/sql-rows and fuzz/level-rows: a schema and facts in batches, as a
script for `cubetree` and as a table in sqlite3.

It is independent of python/cubetree on purpose, its format/ included, and shares no code with it.
"""
import collections
import random
import sqlite3
import subprocess
import tempfile

from .plain_facts import field
from .programs import program

PROGRAM = program("cubetree")
TEXTS = ("", "a", "b", "bolt", "nut", "it's", "Bolt", "a,b", 'say "x"', " ", "ab", "-5", "z" * 255)
NUMBERS = (0, 1, 2, 3, 1997, 1998, 1999, 2**32 - 2, 2**32 - 1, 2**63 - 2, 2**63 - 1)


class Warehouse:
    """A schema, the script for the program, the lines that it should print, and the same facts in a
    database. Subclasses draw the questions."""

    command = b""  # the front of a question
    texts = TEXTS  # the values of text attributes
    covered = 0.8  # how often a view of all attributes follows the others

    def __init__(self, draw):
        self.draw = draw
        names = draw.sample(("part", "year", "colour", "shop", "n"), draw.randint(1, 4))
        self.attributes = {name: draw.random() < 0.5 for name in names}
        self.measures = ["qty", "cost"][: draw.randint(1, 2)]
        self.views = self.drawn_views()
        self.script, self.want = [], []
        self.base = sqlite3.connect(":memory:")
        columns, lines = [], []
        for name, is_text in self.attributes.items():
            columns.append(f"{name} {'TEXT' if is_text else 'INTEGER'}")
            lines.append(f"attr {name} {'text' if is_text else 'number'}")
        columns += [f"{name} INTEGER" for name in self.measures]
        lines += [f"measure {name}" for name in self.measures]
        lines += [("view " + ",".join(view)).rstrip() for view in self.views]
        self.base.execute(f"CREATE TABLE facts ({', '.join(columns)})")
        self.count = 0
        self.say([b"schema", *map(str.encode, lines), b"end"], [b"declared"])

    def drawn_views(self):
        whole, views = list(self.attributes), []
        for _ in range(self.draw.randint(0, 3)):
            views.append(tuple(self.draw.sample(whole, self.draw.randint(0, len(whole)))))
        if not views or self.draw.random() < self.covered:
            views.append(tuple(self.draw.sample(whole, len(whole))))
        return list(dict.fromkeys(views))

    def say(self, lines, want):
        self.script += lines
        self.want += want

    def value(self, name):
        return self.draw.choice(self.texts if self.attributes[name] else NUMBERS)

    def number(self):
        return self.draw.choice((self.draw.randint(-9, 9), self.draw.randint(-(2**40), 2**40)))

    # ---- batches

    def drawn_facts(self):
        return [
            [*map(self.value, self.attributes), *(self.number() for _ in self.measures)]
            for _ in range(self.draw.randint(0, 20))
        ]

    def accept(self, facts):
        """The reply to the command that accepts these facts."""
        places = ", ".join("?" * (len(self.attributes) + len(self.measures)))
        self.base.executemany(f"INSERT INTO facts VALUES ({places})", facts)
        self.count += len(facts)
        return [b"committed %d" % self.count]

    def load(self):
        facts = self.drawn_facts()
        self.say([b"load", *map(line, facts), b"end"], self.accept(facts))

    # ---- questions

    def ask(self):
        raise NotImplementedError

    def is_covered(self, named):
        return any(named <= {*view} for view in self.views)

    def rows(self, asked, rest, order, values=()):
        """The rows of a query in this order, by sqlite3. `rest` is its text from FROM on. Without
        groups, and so without an order, sqlite3 has a row also if no fact matches."""
        if not order and self.base.execute("SELECT COUNT(*) " + rest, values).fetchone() == (0,):
            return [b"rows 0"]
        by = " ORDER BY " + ", ".join(order) if order else ""
        found = self.base.execute(f"{asked} {rest}{by}", values).fetchall()
        return [line(row) or b'""' for row in found] + [b"rows %d" % len(found)]


def plain(value):
    """A value as bytes or a number."""
    return value.encode() if isinstance(value, str) else value


def line(values):
    return b",".join(field(plain(value)) for value in values)


def drawn(kind, draw):
    """A warehouse of this kind, with the loads and questions of a run."""
    warehouse = kind(draw)
    for _ in range(draw.randint(1, 3)):
        warehouse.load()
        for _ in range(draw.randint(3, 8)):
            warehouse.ask()
    return warehouse


def try_runs(kind, seed, runs):
    """Whether the program printed in all runs what it should."""
    draw, seen, wrong = random.Random(seed), collections.Counter(), 0
    for run in range(runs):
        warehouse = drawn(kind, draw)
        script = b"\n".join([*warehouse.script, b""])
        due = b"\n".join([*warehouse.want, b""])
        with tempfile.TemporaryDirectory() as folder:
            told = subprocess.run(
                [PROGRAM], input=script, stdout=subprocess.PIPE, cwd=folder, check=True, timeout=300
            ).stdout
        seen["asked"] += sum(each.startswith(kind.command) for each in warehouse.script)
        seen["not covered"] += due.count(b"refused notcovered\n")
        seen["lines"] += due.count(b"\n")
        if told != due:
            wrong += 1
            print(f"run {run} of the seed {seed}:\n{script.decode()}")
            print(f"  printed:\n{told.decode(errors='replace')}\n  due:\n{due.decode()}")
    print(
        f"{runs} runs, {seen['asked']} lines of `{kind.command.decode().strip()}`,"
        f" {seen['not covered']} of them covered by no view, {seen['lines']} lines of replies;"
        f" {wrong} runs differ"
    )
    return wrong == 0
