"""`cube refresh`: takes a batch in by short steps, and answers questions between them."""
from __future__ import annotations

import argparse
import os
import sys

from ..errors import Fault, told
from ..locks import Writer
from ..refresh import Refresh, take_in
from ..status import Status
from ..ui import Progress, say_bytes
from .command import Command, Parser, add_folder, add_no_wait, folder_of

DESCRIPTION = """Takes a batch into a warehouse by short steps, answers questions between them, and
shows how far it is. Other commands wait until the batch is in."""
EPILOG = """
Each line of standard input is a question, or `status`. A question waits for the step that is under
way. Its answer is printed as the program replies, from the facts that were accepted before the
batch. Each pause answers at least one question that has come, and as many as it has time for. A
question also waits for `begin`, which reads and sorts all rows, and for `finish`, which syncs them.
Lines that come before the end of `finish` are answered after it, from all facts; later ones are not
read. Standard input may be empty (< /dev/null).

If standard error is a terminal, a line there shows how far the refresh is: the moves asked for and
the most that there may be, the moves a second, and the questions answered. The number of moves is
not known before the end, since rows with equal attributes are joined in one point. The most is what
it would be if no rows were joined, in pages of format 2, by the numbers of points in the file
`root`. The last line has the number of moves.

If the batch is refused, or the run ends before `finish`, the folder keeps the facts that it
had."""


def add_arguments(parser: Parser) -> None:
    """Adds the arguments of the command."""
    parser.add_argument(
        "rows",
        metavar="ROWS",
        help=(
            "a file with the rows of the batch, as in a block of `load`: no header, at most 262,144"
        ),
    )
    add_folder(parser)
    parser.add_argument(
        "--step",
        metavar="MS",
        type=float,
        default=20,
        help=(
            "the milliseconds that a step should take, by default 20: the number of its moves "
            "follows from the step before"
        ),
    )
    parser.add_argument(
        "--pause",
        metavar="MS",
        type=float,
        default=20,
        help="the milliseconds between two steps, by default 20",
    )
    add_no_wait(parser)


def check(parser: Parser, options: argparse.Namespace) -> None:
    """Ends where the arguments do not go together."""
    folder_of(parser, options)
    if not options.step > 0 or not options.pause >= 0:
        parser.error("--step is above 0, and --pause is not below 0")


def run(options: argparse.Namespace) -> int:
    """Takes the batch in, and gives the exit status."""
    progress, refresh = Progress(), None
    say_bytes("surrogateescape")
    try:
        turns = Writer("cube refresh", options.folder, not options.no_wait)
        refresh = Refresh(turns, options.step / 1000)
        take_in(options, refresh, progress)
    except (Fault, OSError) as fault:
        progress.clear()
        if isinstance(fault, BrokenPipeError):
            os.dup2(os.open(os.devnull, os.O_WRONLY), 1)
        left = f"; {refresh.left_behind()}" if refresh else ""
        print(f"cube refresh: {told(fault)}{left}", file=sys.stderr)
        return fault.exit_status if isinstance(fault, Fault) else Status.FAILED
    except KeyboardInterrupt:
        progress.clear()
        left = refresh.left_behind() if refresh else "nothing was done"
        print(f"cube refresh: stopped; {left}", file=sys.stderr)
        return Status.FAILED
    finally:
        if refresh:
            refresh.progress.end()
    return Status.DONE


COMMAND = Command(
    usage=("[OPTION..] ROWS < QUESTIONS",),
    description=DESCRIPTION,
    epilog=EPILOG,
    statuses=(Status.DONE, Status.FAILED, Status.WORDS, Status.ENDED, Status.BUSY),
    add_arguments=add_arguments,
    check=check,
    run=run,
)
