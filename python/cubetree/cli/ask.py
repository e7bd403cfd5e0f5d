"""`cube ask`: asks questions of the warehouse in a folder, and prints the answers."""
from __future__ import annotations

import argparse
from typing import Callable

from ..codec import Answer
from ..csvfile.tables import names_of
from ..errors import Fault, Refused
from ..format.visits import Visits
from ..output import FORMS
from ..plots import chart_lines, chart_of, draw
from ..sorting import UNSORTED, Order, arranged, places_of_numbers
from ..sql import is_query
from ..status import Status
from ..ui import say_bytes, shown
from ..values import Kind
from ..warehouse import Warehouse
from .answering import Asked, answer_all, meaning
from .command import (
    Command,
    Parser,
    add_folder,
    add_forms,
    add_no_wait,
    add_order,
    check_order,
    columns,
    folder_of,
)
from .terminal import questions

DESCRIPTION = """Asks questions of the warehouse in a folder, and prints the answers as tables.

A question has columns, perhaps `by` and names, and perhaps `where` and conditions:

  cube ask 'sum(qty),count by part where year=1997..1998'
  cube ask 'avg(fee),sum(fee)/sum(parcels) by month(day) where day=2025'

The columns are `count`, sum(m), min(m), max(m) and avg(m) of a measure m, and ratios of two of
these. Means and ratios have four more decimals than what they are worked out of. A column of dates
can be grouped by month(day) and year(day).

Without a question, cube reads one from each line of standard input. At a terminal the tab key
completes names, and `help` prints the forms of a question."""
EPILOG = """
The columns have the names that you ask for. The names of a question may be attributes, or levels
that --level gives for this call. Each value of an attribute that a level has no row for gets the
empty text as its parent.

A question that begins with SELECT or WITH, in upper or lower case, is a query in SQL, in the
language of SQLite:

  cube ask "SELECT part, AVG(qty) AS mean FROM facts GROUP BY part ORDER BY mean DESC LIMIT 3"

Its tables are `facts` and one for each view: the view part,year is the table by_part_year with the
columns part, year, count, sum_qty, min_qty and max_qty. Single facts are not kept, so a query of
`facts` has functions of groups, GROUP BY or DISTINCT. Dates are texts such as 2025-03-14, and
strftime, YEAR, MONTH and DAY take parts of them. A number that SQLite would round is refused.
Levels do not work in SQL.

If a question is refused, cube prints the reason and the place on standard error, and goes on with
the next one. An answer shows one moment between two batches. While cube waits for input it holds no
lock."""


def add_arguments(parser: Parser) -> None:
    """Adds the arguments of the command."""
    parser.add_argument("question", nargs="*", metavar="QUESTION", help="the question, in quotes")
    add_folder(parser)
    add_forms(parser)
    add_order(parser)
    parser.add_argument(
        "--cents",
        metavar="NAMES",
        type=columns,
        default=[],
        help=(
            "print values of these measures as amounts: 1250 as 12.50. A folder that was loaded "
            "from csv files knows its amounts and dates by itself"
        ),
    )
    parser.add_argument(
        "--raw", action="store_true", help="print whole numbers instead of amounts and dates"
    )
    parser.add_argument(
        "--level",
        nargs=3,
        metavar=("NAME", "ATTR", "FILE"),
        action="append",
        default=[],
        help=(
            "give each value of the attribute ATTR a parent, so that questions may name the level "
            "NAME. FILE is csv without a header; a row has a value and its parent"
        ),
    )
    parser.add_argument(
        "--explain",
        action="store_true",
        help=(
            "print which view answers the question, whether the points that it needs lie together "
            "there, and how many pages it reads"
        ),
    )
    parser.add_argument(
        "--plot", action="store_true", help="print a chart instead of a table: bars or lines"
    )
    parser.add_argument(
        "--picture",
        metavar="FILE",
        help="draw the chart into a file, .png or .svg, by gnuplot",
    )
    add_no_wait(parser)


def check(parser: Parser, options: argparse.Namespace) -> None:
    """Ends where the arguments do not go together."""
    folder_of(parser, options)
    check_order(parser, options)
    try:
        options.cents = [names_of([name])[0] for name in options.cents]
    except Fault as fault:
        parser.error(str(fault))
    if options.explain and options.order != UNSORTED:
        parser.error("--explain prints no rows to sort or to cut: leave out --sort and --top")
    if options.explain and options.level:
        parser.error("--explain is for questions without levels")
    if options.picture and not options.question:
        parser.error("--picture is for one question")
    if (options.plot or options.picture) and (options.form != "table" or options.explain):
        parser.error("--plot and --picture go without --csv, --json, --markdown and --explain")
    if options.raw and options.cents:
        parser.error("--raw prints whole numbers, and --cents amounts: give one of them")


def plan(seen: Visits) -> list[str]:
    """What a question reads, in lines."""
    lies = "what it needs is one part of the view"
    stands = "what it needs may stand anywhere in the view"
    return [
        f"view   {','.join(seen.choice.view) or 'of no attribute'}",
        f"run    {f'yes: {lies}' if seen.choice.run else f'no: {stands}'}",
        f"pages  {seen.pages:,} of {seen.of:,}",
    ]


def plan_row(seen: Visits) -> Answer:
    """What a question reads, as an answer of one row."""
    view, run = ",".join(seen.choice.view), "yes" if seen.choice.run else "no"
    row = (view, str(seen.choice.suffix), run, str(seen.pages), str(seen.of))
    names = ("view", "suffix", "run", "pages", "of")
    return Answer(names, (False, True, False, True, True), [row])


def lines_of(
    warehouse: Warehouse, options: argparse.Namespace, order: Order
) -> Callable[[str], list[str]]:
    """What makes the lines of the answer to a question."""
    written = FORMS[options.form]
    if options.explain and options.form == "table":
        return lambda text: plan(visits_of(warehouse, text))
    if options.explain:
        return lambda text: written(plan_row(visits_of(warehouse, text)))
    rows = warehouse.rollup if warehouse.levels else warehouse.slice

    def rows_of(text: str) -> list[str]:
        """The rows of an answer, or their chart."""
        answer = arranged(warehouse.sql(text) if is_query(text) else rows(text), text, order)
        if not options.plot and not options.picture:
            return written(answer)
        chart = chart_of(answer, places_of_numbers(answer, text), order != UNSORTED)
        if options.picture:
            draw(chart, options.picture, text)
        return chart_lines(chart) if options.plot else []

    return rows_of


def visits_of(warehouse: Warehouse, text: str) -> Visits:
    """What a question reads."""
    if is_query(text):
        raise Fault("--explain is for questions, and not for queries in SQL")
    return warehouse.visits(text)


def expect_measures(warehouse: Warehouse, names: list[str]) -> None:
    """A fault if one of these is no measure."""
    measures = warehouse.schema.measures if warehouse.schema else ()
    for name in names:
        if name not in measures:
            there = ", ".join(measures) or "none"
            raise Fault(f"--cents: no measure has the name {shown(name)}; there are {there}")


def take_levels(warehouse: Warehouse, levels: list[list[str]]) -> None:
    """Gives the warehouse the levels of the arguments; a fault where one is refused."""
    for name, attribute, path in levels:
        try:
            warehouse.level_file(name, attribute, path)
        except Refused as refused:
            what = meaning(warehouse.schema, warehouse.levels, refused)
            raise Fault(f"level {shown(name)} {shown(attribute)} {path}: {what}") from refused


def run(options: argparse.Namespace) -> int:
    """Answers the questions, and gives the exit status."""
    # In csv all bytes stay as they are; elsewhere those that are not UTF-8 are shown as escapes.
    say_bytes("surrogateescape" if options.form == "csv" else "backslashreplace")
    kinds = {name: Kind("decimal", places=2) for name in options.cents}
    with Warehouse(
        options.folder, wait=not options.no_wait, tool="cube ask", kinds=kinds, raw=options.raw
    ) as warehouse:
        take_levels(warehouse, options.level)
        warehouse.status()
        expect_measures(warehouse, options.cents)
        asked = Asked(
            lines_of(warehouse, options, options.order),
            lambda: warehouse.schema,
            lambda: warehouse.levels,
            warehouse.pause,
            lambda: warehouse.kinds,
        )
        return answer_all(
            "cube ask",
            asked,
            questions(options.question, lambda: warehouse.schema, lambda: warehouse.kinds),
        )


COMMAND = Command(
    usage=("[OPTION..] QUESTION..", "[OPTION..]"),
    description=DESCRIPTION,
    epilog=EPILOG,
    statuses=(Status.DONE, Status.FAILED, Status.WORDS, Status.ENDED, Status.BUSY),
    add_arguments=add_arguments,
    check=check,
    run=run,
)
