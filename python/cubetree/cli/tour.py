"""`cube tour`: runs the commands of the tour, and shows each one whose output differs from it."""
from __future__ import annotations

import argparse
import difflib
import os
import re
import shutil
import subprocess
import sys
import tempfile
from typing import Iterator

from ..errors import Fault
from ..process import TOP, program
from ..status import Status
from .command import Command, Parser

SHARED = "/usr/share/doc/cubetree"
DESCRIPTION = """Runs the commands of the tour, and shows each one whose output differs from the
tour. It prints nothing if all is well."""
EPILOG = """
The commands are the lines of docs/TOUR.md that begin with $ in its blocks of console. They run in
an empty folder, with examples/files.csv as files.csv. The program is that of $CUBETREE, the one
that this repository has built, or `cubetree` on the PATH. In the package the tour and the file are
in /usr/share/doc/cubetree."""


def add_arguments(_: Parser) -> None:
    """The tour has no arguments."""


def check(_: Parser, __: argparse.Namespace) -> None:
    """No arguments can be wrong together."""


def steps(tour: str) -> Iterator[tuple[str, str]]:
    """Each command of the tour, with what it prints."""
    for block in re.findall(r"^```console\n(.*?)^```$", tour, re.M | re.S):
        for step in re.split(r"^\$ ", block, flags=re.M)[1:]:
            command, _, printed = step.partition("\n")
            yield command, printed


def wrong_steps(tour: str, room: str) -> Iterator[str]:
    """The steps of the tour that print something else in the folder, as lines of a difference."""
    here = os.path.dirname(os.path.abspath(sys.argv[0]))
    path = os.pathsep.join([os.path.join(room, "bin"), here, os.environ["PATH"]])
    package = os.path.dirname(os.path.dirname(os.path.dirname(os.path.abspath(__file__))))
    environment = dict(os.environ, PATH=path, PYTHONPATH=package)
    for command, wanted in steps(tour):
        run = subprocess.run(
            ["sh", "-c", command],
            cwd=os.path.join(room, "tour"),
            env=environment,
            stdout=subprocess.PIPE,
            stderr=subprocess.STDOUT,
        )
        printed = run.stdout.decode("utf-8", "replace")
        if printed != wanted:
            lines = wanted.splitlines(), printed.splitlines()
            yield from difflib.unified_diff(*lines, f"$ {command}", "", lineterm="")


def run(_: argparse.Namespace) -> int:
    """Runs the tour, and gives the exit status."""
    top = TOP if os.path.isdir(os.path.join(TOP, "docs")) else SHARED
    path = os.path.join(top, "docs", "TOUR.md")
    if not os.path.exists(path):
        raise Fault(f"there is no {path}: this installation has no documents")
    with open(path, encoding="utf-8") as file:
        tour = file.read()
    with tempfile.TemporaryDirectory() as room:
        os.mkdir(os.path.join(room, "bin"))
        os.mkdir(os.path.join(room, "tour"))
        os.symlink(program(), os.path.join(room, "bin", "cubetree"))
        shutil.copy(os.path.join(top, "examples", "files.csv"), os.path.join(room, "tour"))
        wrong = list(wrong_steps(tour, room))
    print("".join(line + "\n" for line in wrong), end="")
    return Status.FAILED if wrong else Status.DONE


COMMAND = Command(
    usage=("",),
    description=DESCRIPTION,
    epilog=EPILOG,
    statuses=(Status.DONE, Status.FAILED, Status.WORDS),
    add_arguments=add_arguments,
    check=check,
    run=run,
)
