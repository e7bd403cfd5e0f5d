"""`cube load`: loads csv files into a folder."""
from __future__ import annotations

import argparse
import os
import sys

from ..codec import MOST_ROWS, block
from ..csvfile.intake import batches
from ..csvfile.loader import (
    BATCH,
    Meanings,
    Options,
    Reading,
    beginning_of,
    load_files,
    proposed,
    shown,
)
from ..csvfile.reader import pieces
from ..csvfile.resume import Rows
from ..errors import Busy, Fault, told
from ..schema import Schema
from ..session import MOST_OF_A_SCRIPT
from ..status import Status
from ..ui import Progress
from ..values import MOST_PLACES, ORDERS, Kind
from .command import Command, Parser, add_folder, add_no_wait, columns, delimiter, folder_of, whole

DESCRIPTION = """Loads csv files into the warehouse in a folder. Each row counts once.

A first load declares a schema. Without --schema it proposes one: decimals and whole numbers that
are no keys are measures; dates and all other columns are attributes. There is a view of the first 8
attributes, one of each attribute whose values repeat, and one of none. If something in the file is
doubtful, nothing is loaded, and a line names the option that decides it.

If a load is interrupted, run the same command again: it goes on after the rows that are there."""
EPILOG = """
A file may be packed by gzip, bzip2, xz or zstd, and `-` is standard input. A column is found by its
name in the header, in small letters and with `_` for all but letters and digits (`Unit price` is
unit_price). Columns that the schema does not name are left out. A measure `one` that no column has
for its name is 1 in each row.

A question is answered if one view has all attributes that it names. So edit the views of a proposal
for your questions, and load with --schema. With --ask the columns are those that the questions
name, and the views are the fewest with which each question reads one part of a view, of these the
ones with the fewest points. The same attributes may stand there in several orders. A question with
two ranges gets some view that answers it. For up to 12 different questions all ways are tried; for
more, views are joined two by two. Comments say which view each question reads, and how many points
and bytes each view has: exactly for a file of up to 200,000 rows, and estimated from a sample of a
longer one.

The folder keeps what its columns are: amounts, dates, cells without a value, and their titles. Each
later load reads them in the same way, and `cube ask` shows them so. Options that say something else
are refused.

The folder also keeps which rows of which file its batches have. If a file has grown, a load takes
the new rows. If a file has other rows than it had, or begins with the rows of another one (all of
those, or the first 64), the load ends with status 6, changes nothing, and says what to type. With
--number you keep the numbers yourself: N is 1 for the first file of a folder, and each load prints
the number of the next one. A number that is due takes the file as new rows; under a number that
counts already the rows have to be the same."""


def decimals(text: str) -> dict[str, Kind]:
    """Columns of decimals, each perhaps with its places."""
    found = {}
    for each in columns(text):
        name, sign, places = each.rpartition("=") if "=" in each else (each, "", "")
        if sign and not (places.isdecimal() and 1 <= int(places) <= MOST_PLACES):
            raise argparse.ArgumentTypeError(f"{each}: a decimal has 1 to {MOST_PLACES} places")
        found[name] = Kind("decimal", places=int(places or 0))
    return found


def cents(text: str) -> dict[str, Kind]:
    """Columns of decimals of two places."""
    return {name: Kind("decimal", places=2) for name in columns(text)}


def dates(text: str) -> dict[str, Kind]:
    """Columns of dates, each perhaps with the order of its parts."""
    found = {}
    for each in columns(text):
        name, sign, order = each.rpartition("=") if "=" in each else (each, "", "")
        if sign and order not in (*ORDERS, "YM"):
            orders = ", ".join(ORDERS)
            raise argparse.ArgumentTypeError(f"{each}: an order is one of {orders} and YM")
        found[name] = Kind("month") if order == "YM" else Kind("day", order=order)
    return found


def add_arguments(parser: Parser) -> None:
    """Adds the arguments of the command."""
    parser.add_argument("files", nargs="+", metavar="FILE", help="csv files, or `-`")
    add_folder(parser)
    what = parser.add_mutually_exclusive_group()
    what.add_argument(
        "--propose", action="store_true", help="print the schema that a first load would declare"
    )
    what.add_argument(
        "--script",
        action="store_true",
        help="print the schema and all rows as a script for the program, and load nothing",
    )
    parser.add_argument("--yes", action="store_true", help="load whatever looks doubtful")
    add_schema_arguments(parser.add_argument_group("schema"))
    add_file_arguments(parser.add_argument_group("form of the file"))
    add_batch_arguments(parser.add_argument_group("batches"))
    add_no_wait(parser)


def add_schema_arguments(group: argparse._ArgumentGroup) -> None:
    """Adds what says which schema a first load declares, and what its columns are."""
    group.add_argument(
        "--schema",
        metavar="FILE",
        help=(
            "declare this schema instead of a proposal: lines as in a block of `schema`; lines "
            "that begin with # are comments"
        ),
    )
    group.add_argument(
        "--ask",
        metavar="FILE",
        help="propose views for the questions in this file, one a line",
    )
    group.add_argument(
        "--sum",
        metavar="NAMES",
        type=columns,
        default=[],
        help="propose these columns as measures; NAMES have commas between them",
    )
    group.add_argument(
        "--text",
        metavar="NAMES",
        type=columns,
        default=[],
        help="propose these columns as texts",
    )
    add_kind_arguments(group)


def add_kind_arguments(group: argparse._ArgumentGroup) -> None:
    """Adds what says which values columns have."""
    group.add_argument(
        "--decimals",
        metavar="NAMES",
        type=decimals,
        default={},
        help="read decimals: with `price=3`, 1.5 is kept as 1500. NAME alone finds the places",
    )
    group.add_argument(
        "--cents", metavar="NAMES", type=cents, default={}, help="like --decimals with NAME=2"
    )
    group.add_argument(
        "--dates",
        metavar="NAMES",
        type=dates,
        default={},
        help=(
            "read dates: 2025-03-14 is kept as 20250314, and 2025-03 as 202503. The parts are in "
            "the order YMD; `day=DMY` and `day=MDY` say another order"
        ),
    )
    group.add_argument(
        "--na",
        metavar="TEXT",
        action="append",
        default=[],
        help=(
            "take cells with this text as no value: 0 in numbers, and the empty text in texts. "
            "You may give it several times; --na '' is for empty cells"
        ),
    )


def add_file_arguments(group: argparse._ArgumentGroup) -> None:
    """Adds what says how a file is read."""
    group.add_argument(
        "--delimiter",
        metavar="C",
        type=delimiter,
        help="the character between fields, `tab` or `space`; by default cube finds it",
    )
    group.add_argument(
        "--no-header",
        action="store_true",
        help="the file has no header; its columns are column_1, column_2 and so on",
    )
    group.add_argument(
        "--names",
        metavar="NAMES",
        type=columns,
        help="give the columns these names instead of those of the header",
    )
    group.add_argument(
        "--skip-lines",
        metavar="N",
        type=whole(0),
        default=0,
        help="pass over the first N lines",
    )
    group.add_argument(
        "--row-names",
        action="store_true",
        help="the header has no name for the first column, as R writes it",
    )
    group.add_argument(
        "--fill", action="store_true", help="take missing fields at the end of a row as empty"
    )


def add_batch_arguments(group: argparse._ArgumentGroup) -> None:
    """Adds what says how rows are cut into batches."""
    group.add_argument(
        "--batch",
        metavar="ROWS",
        type=whole(1, MOST_ROWS),
        help=(
            f"the most rows of a batch, 1 to {MOST_ROWS}; by default a file that fits one batch "
            f"is one, and other files have batches of {BATCH}"
        ),
    )
    group.add_argument(
        "--number",
        metavar="N",
        type=whole(1, (1 << 64) - 1),
        help="the number of the first batch of the file; see below",
    )
    group.add_argument(
        "--from-row",
        metavar="N",
        type=whole(1),
        help="begin with row N; rows count from 1 after the header",
    )
    group.add_argument(
        "--go-on",
        action="store_true",
        help="begin after as many rows as the folder has facts, in a folder of older tools",
    )


def check(parser: Parser, options: argparse.Namespace) -> None:
    """Ends where the arguments do not go together."""
    # Scripts of older packages name no folder where they want a script.
    is_former = os.path.basename(sys.argv[0]) == "cubetree-load-csv"
    options.script |= is_former and options.folder is None and not options.propose
    loads = not options.script and not options.propose
    folder_of(parser, options)
    if len(options.files) > 1 and not loads:
        parser.error("--propose and --script are for one file")
    if options.schema and (options.sum or options.text or options.ask):
        parser.error("--sum, --text and --ask go with a proposal, and not with --schema")
    if options.go_on and (options.from_row is not None or options.number is not None):
        parser.error("--go-on goes without --from-row and --number")
    if (options.from_row is not None or options.go_on) and len(options.files) > 1:
        parser.error("--from-row and --go-on are for one file")
    if (options.no_wait or options.go_on) and not loads:
        parser.error("--no-wait and --go-on are for a load")
    kinds = {**options.decimals, **options.cents, **options.dates}
    if len(kinds) < len(options.decimals) + len(options.cents) + len(options.dates):
        parser.error("a column has one kind: --decimals, --cents or --dates")


def load_options(options: argparse.Namespace) -> Options:
    """What the arguments ask of a load."""
    reading = Reading(
        options.delimiter,
        not options.no_header,
        options.names,
        options.skip_lines,
        options.row_names,
        options.fill,
    )
    kinds = {**options.decimals, **options.cents, **options.dates}
    return Options(
        reading,
        Meanings(kinds, options.sum, options.text, options.na),
        options.schema,
        options.ask,
        options.batch,
        options.number,
        options.from_row,
        options.go_on,
        options.yes,
    )


def write_script(path: str, options: Options, progress: Progress) -> None:
    """Writes the schema and all rows as a script."""
    table = options.reading.table(path)
    lines, columns = beginning_of(table, options)
    if not options.schema or options.meanings.are_open():
        table = options.reading.table(path)
    table.convert(columns.kinds, columns.na)
    out, first, number = sys.stdout.buffer, options.from_row or 1, options.number
    if first == 1:
        schema = (line for line in lines if not line.startswith("#"))
        out.write(b"".join(line.encode() + b"\n" for line in schema))
    rows, sent = Rows(shown(pieces(table, Schema(lines)), table, options, progress)), 1 << 16
    rows.skip(first)
    for batch in batches(rows, options.batch or BATCH):
        command = block(b"load %d" % number if number else b"load", batch.sendable())
        sent += len(command)
        if sent > MOST_OF_A_SCRIPT:
            more = f", with --number {number}" if number else ""
            raise Fault(
                f"a script has at most 2^30 bytes: this one ends before row {batch.first}; load "
                f"into a folder, or use --from-row for another script{more}"
            )
        out.write(command)
        number = number and number + 1


def carry_out(options: argparse.Namespace, progress: Progress) -> None:
    """Does what the arguments ask for."""
    asked = load_options(options)
    if options.propose:
        print("\n".join(proposed(asked.reading.table(options.files[0]), asked).lines))
    elif options.script:
        write_script(options.files[0], asked, progress)
    else:
        load_files(options.folder, options.files, asked, not options.no_wait, progress)


def run(options: argparse.Namespace) -> int:
    """Runs the command, and gives its exit status."""
    progress = Progress()
    try:
        carry_out(options, progress)
        return Status.DONE
    except KeyboardInterrupt:
        progress.clear()
        print("cube load: stopped; the same command goes on", file=sys.stderr)
        return Status.FAILED
    except (Fault, OSError) as fault:
        has_name = isinstance(fault, OSError) and fault.filename or isinstance(fault, Busy)
        place = "" if has_name or len(options.files) > 1 else f"{options.files[0]}: "
        if isinstance(fault, BrokenPipeError) and options.propose:
            raise
        print(f"cube load: {place}{told(fault)}", file=sys.stderr)
        if isinstance(fault, BrokenPipeError):
            os.dup2(os.open(os.devnull, os.O_WRONLY), 1)
        return fault.exit_status if isinstance(fault, Fault) else Status.FAILED
    finally:
        progress.clear()


COMMAND = Command(
    usage=("[OPTION..] FILE..", "[OPTION..] --propose FILE", "[OPTION..] --script FILE"),
    description=DESCRIPTION,
    epilog=EPILOG,
    statuses=(
        Status.DONE,
        Status.FAILED,
        Status.WORDS,
        Status.ENDED,
        Status.BUSY,
        Status.CHANGED,
        Status.DOUBTFUL,
    ),
    add_arguments=add_arguments,
    check=check,
    run=run,
)
