"""`cube feed`: feeds a warehouse with rows that come one by one, for as long as they come."""
from __future__ import annotations

import argparse
import signal
import sys
from typing import Optional

from ..errors import Busy, Fault, Full, told
from ..feed.gathering import Feed
from ..feed.sources import say
from ..feed.spool import INPUT
from ..status import Status
from ..ui import counted
from .command import Command, Parser, add_folder, add_no_wait, folder_of, whole

DESCRIPTION = """Feeds a warehouse with rows that come one by one, for as long as they come.

A row has a field for each attribute and measure of the folder's schema, in the schema's order, and
there is no header. Amounts and dates stand as in the csv files that were loaded into this folder. A
row has at most 65,536 bytes."""
EPILOG = """
The spool keeps each row that was read. A batch is synced there, with its number, before it is sent,
and is removed once the program has acknowledged it. So after a kill of the feed, of the program or
of the machine, run the same command again: each row of the spool counts once. For a file the spool
keeps the place up to which it was read, so no row is lost. Rows from a pipe that were read but are
not in the spool yet may be lost; if the machine stops, also those that were not synced yet. A row
that a stop has cut in two is refused, unless its rest waits in the pipe. Name the same sources with
the same paths each time.

A feed follows a rotated file until the next rotation, and finds it again by its inode in its
folder. If a file was rotated twice while no feed ran, feed the older one by itself. A file that
becomes shorter is read from its beginning. The last row of a file counts once its line has ended.

A feed ends at the end of standard input, if that is its only source, and by SIGTERM or SIGINT: it
sends what it has read, and then ends. A second signal ends it at once, and the rows stay in the
spool. It is in the folder only while it sends: other commands have their turn in between.

A feed refuses rows that the folder has no room for, and takes in those around them: rows with a new
text in an attribute that has as many as its `max`, and rows that would bring the mass of a measure
above 2^127 - 1. If the folder has 2^40 facts, the most that it may have, the feed ends, and its
rows stay in the spool."""


def add_arguments(parser: Parser) -> None:
    """Adds the arguments of the command."""
    parser.add_argument(
        "sources",
        nargs="*",
        metavar="SOURCE",
        help=(
            "a named pipe, or a file that grows and may be rotated; by default, or for `-`, it is "
            "standard input"
        ),
    )
    add_folder(parser)
    add_limits(parser)
    parser.add_argument(
        "--spool",
        metavar="PATH",
        help="a folder for the rows that are not acknowledged yet; by default `.feed` in FOLDER",
    )
    parser.add_argument(
        "--refused",
        metavar="FILE",
        help=(
            "append refused rows to this file, as csv with the reason first; by default "
            "`refused.csv` in the spool"
        ),
    )
    parser.add_argument(
        "--report",
        metavar="SECONDS",
        type=float,
        default=60,
        help=(
            "print at this interval how far it is, if standard error is no terminal; by default "
            "60, and 0 for never"
        ),
    )
    add_no_wait(parser)


def add_limits(parser: Parser) -> None:
    """Adds what ends a batch."""
    parser.add_argument(
        "--rows",
        metavar="N",
        type=whole(1, 200_000),
        default=100_000,
        help="send a batch once N rows have come, 1 to 200000; by default 100000",
    )
    parser.add_argument(
        "--bytes",
        metavar="N",
        type=whole(1, 60_000_000),
        default=16_000_000,
        help="send a batch once N bytes have come, 1 to 60000000; by default 16000000",
    )
    parser.add_argument(
        "--every",
        metavar="SECONDS",
        type=float,
        default=10,
        help=(
            "send a batch this long after its first row; by default 10. Rows that come in one "
            "piece, of at most 64 KiB, stay together"
        ),
    )


def check(parser: Parser, options: argparse.Namespace) -> None:
    """Ends where the arguments do not go together."""
    folder_of(parser, options)
    if not options.every >= 0 or not options.report >= 0:
        parser.error("--every and --report are not below 0")
    if len(set(options.sources)) < len(options.sources):
        parser.error("a source is named once")


def run(options: argparse.Namespace) -> int:
    """Feeds until the end, and gives the exit status."""
    feed: Optional[Feed] = None
    try:
        paths = options.sources or [INPUT]
        if INPUT in paths and sys.stdin is None:
            raise Fault("standard input is closed")
        feed = Feed(options)
        signal.signal(signal.SIGTERM, feed.stop)
        signal.signal(signal.SIGINT, feed.stop)
        feed.run(paths)
    except KeyboardInterrupt:
        say("ended before it began")
        return Status.FAILED
    except (Fault, OSError) as fault:
        return ended_by(fault, feed)
    feed.progress.clear()
    sender = feed.sender
    aside = f"; {sender.put_aside:,} refused: {sender.refused}" if sender.put_aside else ""
    keeps = f"the folder keeps {counted(sender.facts, 'fact')}"
    say(f"{counted(sender.sent, 'row')} sent{aside}; {keeps}")
    return Status.FAILED if sender.put_aside else Status.DONE


def ended_by(fault: Fault | OSError, feed: Optional[Feed]) -> Status:
    """Prints what has ended a feed, and where its rows are; the exit status."""
    if feed:
        feed.progress.clear()
        feed.sender.drop()
    spooled, again = "", ""
    if feed and not isinstance(fault, Busy):
        spooled = f"; what was read stands in the spool {feed.spool.folder}"
        again = "" if isinstance(fault, Full) else "; run the same command again to continue"
    say(told(fault) + spooled + again)
    return fault.exit_status if isinstance(fault, Fault) else Status.FAILED


COMMAND = Command(
    usage=("[OPTION..] [SOURCE..]",),
    description=DESCRIPTION,
    epilog=EPILOG,
    statuses=(
        Status.DONE,
        Status.FAILED,
        Status.WORDS,
        Status.ENDED,
        Status.BUSY,
        Status.CHANGED,
        Status.FULL,
    ),
    add_arguments=add_arguments,
    check=check,
    run=run,
)
