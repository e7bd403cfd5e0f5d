"""`cube export`: writes views as tables of an SQLite file, or as csv."""
from __future__ import annotations

import argparse
import sys

from ..export import export, export_csv
from ..output import csv_lines
from ..status import Status
from ..ui import counted, say_bytes
from ..warehouse import Warehouse
from .command import Command, Parser, add_no_wait

DESCRIPTION = """Writes views of the warehouse in a folder as tables of an SQLite file, or as csv.

  cube export sales sales.db
  cube export sales sales.db part,year total
  cube export sales files --csv
  cube export sales - --csv part,year

The view of part and year is the table by_part_year, with the columns part, year and count, and
sum_qty, min_qty and max_qty for each measure qty. The view of no attribute is `total`. By default
all views are written. They are of one moment between two batches, and writers wait meanwhile.

FILE is replaced at once when the new one is whole, and who reads it sees the old file or the new
one."""
EPILOG = """
Whole numbers are integers, amounts are floating-point numbers, and days and months are texts such
as 2025-03-14 and 2025-03. A number that SQLite would round is a text with all its digits; cube
names the columns that have such texts. The table _about has the folder, its facts, the time and the
version of cube.

With --csv, OUT is a new folder with a file for each view, named as its table, or - for one view on
standard output.

A stop leaves the old file, and a hidden folder beside it, which the next export to this name
removes.

Python needs no file for a view:

  view = cubetree.open("sales").view("part,year")
  frame = pandas.DataFrame(view, columns=view.columns)"""


def add_arguments(parser: Parser) -> None:
    """Adds the arguments of the command."""
    parser.add_argument("folder", metavar="FOLDER", help="the folder of the warehouse")
    parser.add_argument("out", metavar="FILE", help="the SQLite file, new or to be replaced")
    parser.add_argument(
        "views",
        nargs="*",
        metavar="VIEW",
        help="a view to write: its attributes as part,year, or the name of its table",
    )
    parser.add_argument("--csv", action="store_true", help="write csv files into a new folder")
    add_no_wait(parser)


def check(parser: Parser, options: argparse.Namespace) -> None:
    """Ends where the arguments do not go together."""
    if options.out == "-" and (not options.csv or len(options.views) != 1):
        parser.error("- takes the rows of one view: name it, and give --csv")


def run(options: argparse.Namespace) -> int:
    """Writes the views, and gives the exit status."""
    say_bytes("surrogateescape")
    with Warehouse(options.folder, wait=not options.no_wait, tool="cube export") as warehouse:
        if options.out == "-":
            answer = warehouse.view(options.views[0])
            print(*csv_lines(answer), sep="\n")
            return Status.DONE
        write = export_csv if options.csv else export
        written = write(warehouse, options.out, options.views)
    counts = counted(written.tables, "table"), counted(written.rows, "row")
    print(f"{options.out}: {', '.join(counts)}, of {counted(written.facts, 'fact')}")
    if written.loose:
        columns = ", ".join(written.loose)
        text = f"cube export: texts stand for numbers that SQLite would round: {columns}"
        print(text, file=sys.stderr)
    return Status.DONE


COMMAND = Command(
    usage=("[OPTION..] FOLDER FILE [VIEW..]", "--csv [OPTION..] FOLDER OUT [VIEW..]"),
    description=DESCRIPTION,
    epilog=EPILOG,
    statuses=(Status.DONE, Status.FAILED, Status.WORDS, Status.ENDED, Status.BUSY),
    add_arguments=add_arguments,
    check=check,
    run=run,
)
