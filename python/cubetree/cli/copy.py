"""`cube copy`: copies the warehouse of a folder into a new folder, also while it is loaded."""
from __future__ import annotations

import argparse

from ..copies import copy
from ..status import Status
from ..ui import counted
from .command import Command, Parser, add_no_wait

DESCRIPTION = """Copies the warehouse of a folder into a new folder, also while it is loaded.

The copy is of one moment between two batches, and writers wait until it is made. It appears whole
or not at all: a stop leaves a folder whose name begins with `.copy-`, which you may remove."""
EPILOG = """
The copy has the files of the warehouse as they stand, and what cube keeps beside them of batches
and columns. So a load into the copy goes on where the folder was. Rows in the spool of a feed are
not in the copy."""


def add_arguments(parser: Parser) -> None:
    """Adds the arguments of the command."""
    parser.add_argument("folder", metavar="FOLDER", help="the folder of the warehouse")
    parser.add_argument("new", metavar="NEW", help="the new folder, which may be there if empty")
    add_no_wait(parser)


def check(_: Parser, __: argparse.Namespace) -> None:
    """No arguments can be wrong together."""


def run(options: argparse.Namespace) -> int:
    """Makes the copy, and gives the exit status."""
    facts = copy(options.folder, options.new, not options.no_wait)
    print(f"{options.new} keeps {counted(facts, 'fact')}")
    return Status.DONE


COMMAND = Command(
    usage=("[OPTION..] FOLDER NEW",),
    description=DESCRIPTION,
    epilog=EPILOG,
    statuses=(Status.DONE, Status.FAILED, Status.WORDS, Status.BUSY),
    add_arguments=add_arguments,
    check=check,
    run=run,
)
