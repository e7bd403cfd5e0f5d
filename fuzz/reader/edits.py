"""Makes texts that are one edit away from a right one, for fuzz/sql-texts and fuzz/level-texts, and
compares the replies of `cubetree` with those that are due.

It is independent of python/cubetree on purpose, its format/ included, and shares no code with it.
"""
import collections
import random
import subprocess
import tempfile

from .programs import program
from .sql_reader import Schema

PROGRAM = program("cubetree")
BYTES = b" '\"=<>,()*+-_;.09azAZ\t\0\r\xff"


# ---- one edit of a list of tokens; a writer draws other tokens


def dropped(draw, tokens, writer):
    del tokens[draw.randrange(len(tokens))]


def doubled(draw, tokens, writer):
    at = draw.randrange(len(tokens))
    tokens.insert(at, tokens[at])


def exchanged(draw, tokens, writer):
    at, other = (draw.randrange(len(tokens)) for _ in range(2))
    tokens[at], tokens[other] = tokens[other], tokens[at]


def replaced(draw, tokens, writer):
    tokens[draw.randrange(len(tokens))] = writer.other()


def put_in(draw, tokens, writer):
    tokens.insert(draw.randrange(len(tokens) + 1), writer.other())


EDITS = (dropped, doubled, exchanged, replaced, put_in)


def changed_bytes(draw, text, likely=BYTES):
    """The text with a byte changed, dropped or put in, or with one of its ends cut off."""
    at = draw.randrange(len(text))
    new = bytes([draw.choice(likely) if draw.random() < 0.8 else draw.randrange(256)])
    front, rest = text[:at], text[at:]
    return draw.choice((front + new + rest[1:], front + rest[1:], front + new + rest, front, rest))


def joined(parts, between):
    """The tokens of all parts, with these ones between two parts."""
    return [token for part in parts for token in between + part][len(between) :]


def long_number(number):
    """The digits of a number. Python refuses to write very long ones."""
    digits = b"1" + b"0" * 5000 if number == 10**5000 else str(abs(number)).encode()
    return b"-" + digits if number < 0 else digits


# ---- schemas


def drawn_schema(draw, names, measures):
    """A schema of these names, and its views. One view may have all attributes."""
    attributes = {name: draw.random() < 0.5 for name in draw.sample(names, len(names))}
    whole, views = list(attributes), []
    for _ in range(draw.randint(0, 2)):
        views.append(tuple(draw.sample(whole, draw.randint(0, len(whole)))))
    if not views or draw.random() < 0.7:
        views.append(tuple(whole))
    return Schema(attributes, measures), list(dict.fromkeys(views))


def declaring(schema, views):
    lines = [
        b"attr %s %s" % (name, b"text" if is_text else b"number")
        for name, is_text in schema.attributes.items()
    ]
    lines += [b"measure " + name for name in schema.measures]
    lines += [b"view " + b",".join(view) if view else b"view" for view in views]
    return b"\n".join([b"schema", *lines, b"end\n"])


# ---- the comparison


def printed_by(script):
    with tempfile.TemporaryDirectory() as folder:
        return subprocess.run(
            [PROGRAM], input=script, stdout=subprocess.PIPE, cwd=folder, check=True, timeout=300
        ).stdout


def kind_of(reply):
    """The words of a reply's last line without the numbers."""
    words = reply.rstrip(b"\n").rsplit(b"\n", 1)[-1].split()
    return b" ".join(word for word in words if not word.isdigit()).decode(errors="replace")


class Seen:
    """How many replies of each kind were due, and how many runs gave others."""

    def __init__(self):
        self.replies, self.wrong = collections.Counter(), 0

    def look(self, about, script, due):
        """Runs a script, and compares the replies to its commands with those that are due. `about`
        is the content of the warehouse."""
        left = printed_by(script)
        for command, reply in due:
            if not left.startswith(reply):
                told = left[: len(reply) + 50]
                self.say_wrong(f"{about}\n  {command!r:.2000}\n  replied {told!r}, due {reply!r}")
                return
            self.replies[kind_of(reply)] += 1
            left = left[len(reply) :]
        if left:
            self.say_wrong(f"{about}\n  after all replies there is {left[:200]!r}")

    def say_wrong(self, text):
        self.wrong += 1
        print(text)

    def end(self):
        print(", ".join(f"{count} {reply}" for reply, count in sorted(self.replies.items())))
        return 1 if self.wrong else 0


def try_texts(seed, count, a_run, drawn_run):
    """Compares the replies to drawn texts. `drawn_run` draws the texts of one run, `a_run` or less:
    it gives the content of the warehouse, a script, and its commands with the replies due."""
    draw, seen = random.Random(seed), Seen()
    for first in range(0, count, a_run):
        seen.look(*drawn_run(draw, min(a_run, count - first)))
    return seen
