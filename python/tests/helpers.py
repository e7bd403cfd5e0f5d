"""What the tests of the tools have in common."""
import csv
import io
import os
import re
import shutil
import subprocess
import tempfile
import time
import unittest
from pathlib import Path
from typing import Any, Callable

KILLS = 20  # of each test that kills at random; the option --kills says another number
SCHEMA = "attr part text\nattr year number\nmeasure qty\nview part,year\nview year\nview\n"

TOP = Path(__file__).resolve().parents[2]
OF_CHECKOUT = TOP / "bin" / "cube"
CUBE = str(OF_CHECKOUT) if OF_CHECKOUT.exists() else "/usr/bin/cube"
PACKAGES = str(TOP / "python") if OF_CHECKOUT.exists() else "/usr/lib/python3/dist-packages"
FILES = str(TOP / "python" / "tests" / "files")
TAKES_BACK = re.compile(r"cube load: to take .* back: cube undo.*\n")
# What a load of one batch into the folder `w` says at its end.
UNDO = "cube load: to take them back: cube undo --folder w\n"


def run(*words, status=0, given=b"", **more):
    """What a command prints, and what it says on standard error."""
    if "stdin" not in more:
        more["input"] = given
    done = subprocess.run(words, capture_output=True, **more)
    if status is not None and done.returncode != status:
        raise AssertionError(
            f"{words} ended with {done.returncode} and not {status}: {done.stderr.decode()}"
        )
    return done.stdout.decode("utf-8", "surrogateescape"), done.stderr.decode("utf-8", "replace")


def load(*words, **more):
    """What a load prints, without its last line, which says what `cube undo` takes back."""
    printed, said = run(CUBE, "load", *words, **more)
    return printed, TAKES_BACK.sub("", said)


def ask(*words, **more):
    return run(CUBE, "ask", *words, **more)


def until(is_so: Callable[[], bool]) -> None:
    """Waits until something is so."""
    end = time.monotonic() + 60
    while not is_so():
        if time.monotonic() > end:
            raise AssertionError("this was waited for in vain")
        time.sleep(0.02)


def wait_too_long(*_: Any) -> None:
    """Ends a test whose tools wait for each other."""
    raise AssertionError("the test took too long")


class Room(unittest.TestCase):
    """A test in a room of its own, with an empty folder `w` for a warehouse."""

    def setUp(self) -> None:
        self.room = tempfile.mkdtemp()
        self.addCleanup(shutil.rmtree, self.room)
        self.addCleanup(os.chdir, os.getcwd())
        os.chdir(self.room)
        os.mkdir("w")


def live_format(folder: str) -> int:
    """The format of the pages of a warehouse, as its live body has it."""
    with open(os.path.join(folder, "root"), "rb") as file:
        root = file.read()
    bodies = [
        root[1024 * slot : 1024 * slot + 1024]
        for slot in range(2)
        if root[2048 + slot : 2049 + slot] == b"\x01"
    ]
    return max(bodies, key=lambda body: body[16:24])[9]


class Case(Room):
    """A test of the tools."""

    def put(self, name, content):
        with open(name, "wb") as file:
            file.write(content if isinstance(content, bytes) else content.encode())
        return name

    def rows(self, slice):
        """The rows of an answer, without their header."""
        return list(csv.reader(io.StringIO(ask("--in", "w", "--csv", slice)[0], newline="")))[1:]
