"""`cube undo`: takes back the last batch of a folder, or its upgrade to format 2."""
from __future__ import annotations

import argparse
import sys

from ..errors import Fault
from ..status import Status
from ..ui import counted
from ..undo import Undo
from .command import Command, Parser, add_folder, add_no_wait, folder_of

DESCRIPTION = """Takes back the last batch of a folder, or its upgrade to format 2.

Only the last batch can be taken back, whoever sent it, and only until the next one begins, also one
that is abandoned later. If `cube load` has loaded a file in several batches, the rows of the last
one go, and the same load brings them again. The number of a batch that was taken back is due
again."""
EPILOG = """
First the program reads each page that would be there. Then cube changes one byte, which is synced.
A stop at any moment leaves the folder with the batch or without it. Nothing is erased: the bytes of
the batch stay in the files until the next load writes over them.

A batch stays if the spool of a feed has rows, since the feed might send the batch again, and if the
folder is one of several shards."""


def add_arguments(parser: Parser) -> None:
    """Adds the arguments of the command."""
    add_folder(parser, is_positional=True)
    parser.add_argument("--yes", action="store_true", help="do it without a question")
    parser.add_argument(
        "--dry-run", action="store_true", help="print what would be taken back, and change nothing"
    )
    add_no_wait(parser)


def agreed() -> bool:
    """Whether the user wants it."""
    if not sys.stdin.isatty():
        raise Fault("no terminal to ask at: give --yes")
    print("Take it back? [y/N] ", end="", flush=True)
    return sys.stdin.readline().strip().lower() in ("y", "yes")


def run(options: argparse.Namespace) -> int:
    """Takes the last change back, and gives the exit status."""
    with Undo(options.folder, not options.no_wait) as undo:
        after = counted(undo.change.before.facts, "fact")
        print(f"undo takes back {undo.words()}")
        now = counted(undo.facts, "fact")
        print(f"the folder keeps {now} now, and {after} after it", flush=True)
        if options.dry_run:
            return Status.DONE
        if not options.yes and not agreed():
            print("cube undo: nothing was changed", file=sys.stderr)
            return Status.FAILED
        undo.write()
        number = undo.change.number()
    due = f"; batch {number} is due again" if number else ""
    print(f"done: the folder keeps {after}{due}")
    return Status.DONE


COMMAND = Command(
    usage=("[OPTION..] [FOLDER]",),
    description=DESCRIPTION,
    epilog=EPILOG,
    statuses=(Status.DONE, Status.FAILED, Status.WORDS, Status.ENDED, Status.BUSY),
    add_arguments=add_arguments,
    check=folder_of,
    run=run,
)
