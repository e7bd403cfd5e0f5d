"""`cube shards`: spreads a warehouse over folders, and asks them as one."""
from __future__ import annotations

import argparse
import os
import sys
from typing import ContextManager, Sequence

from ..codec import MOST_ROWS
from ..csvfile.reader import pieces
from ..csvfile.tables import Table
from ..derived import derived
from ..errors import Ended, Fault, Refused
from ..output import FORMS
from ..process import program
from ..questions import sent
from ..schema import Schema, declared_lines
from ..shards import cluster, worker
from ..shards.cluster import Bar, Engine
from ..shards.folds import OVERFLOW, Reply, answer_in, csv_of, folded
from ..shards.loads import Load as Loads
from ..shards.places import Cutter, ShardFault, folders_in, shards_in
from ..shards.worker import State
from ..sorting import UNSORTED, arranged
from ..sql import is_query
from ..status import Status
from ..ui import counted, say_bytes
from .answering import Asked, answer_all
from .command import (
    Command,
    Parser,
    add_forms,
    add_no_wait,
    add_order,
    check_order,
    delimiter,
    whole,
)
from .terminal import questions

DESCRIPTION = """Spreads a warehouse over folders on one machine or on many, and asks them as one.

`init` declares the schema of a file in each shard. `load` loads a csv file with a header line, each
row into one shard. `ask` prints the answer of all shards together, to a question or to each line of
standard input. `status` shows the facts of each shard, and the number of its next batch.

WHERE is --shards FILE or --local FOLDER."""
EPILOG = """
The engine is Dask distributed: apt install python3-distributed. On each machine it needs this
package and `dask worker --nthreads 1 --worker-port PORT ADDRESS`, where the port stays the same
when the worker is started again. A shard is a warehouse like any other: you may ask it by itself,
but nothing else may load numbered batches into it.

A row goes to a shard by a sum of its bytes, so the same file is cut in the same way each time. A
batch whose worker dies is repeated by the engine, and counts once by its number. To resume an
interrupted load, repeat the command with the --number it printed. If a batch that counts already
has other rows, because the file, its order, --batch or the number of shards has changed, the load
ends with status 6. A row that is refused ends the load, with all batches before it kept in each
shard; once it is taken out of the file, the same command goes on.

Each shard answers a question over its own facts, and `cubefold` makes one answer of these; every
shard has to answer. Each answer is of one moment between two batches of its shard, and these
moments are not the same. The replies cannot be joined if the sums of the shards together pass
2^127 - 1. Queries in SQL are for one folder."""


# ---- the shards


def reached(options: argparse.Namespace) -> ContextManager[Engine]:
    """The engine over the shards that the words name."""
    if options.shards:
        scheduler, shards = shards_in(options.shards)
        return cluster.cluster_at(scheduler, shards, not options.no_wait, options.patience)
    folders = folders_in(options.local)
    if options.command == "init":
        count = options.count or len(folders) or os.cpu_count() or 1
        folders = [
            os.path.abspath(os.path.join(options.local, str(number)))
            for number in range(1, max(count, len(folders)) + 1)
        ]
    if not folders:
        raise ShardFault(
            Status.SHARD, f"{options.local} has no shards: `cube shards init` makes them"
        )
    return cluster.local_cluster(folders, not options.no_wait, options.patience)


def same_schema(engine: Engine, states: Sequence[State]) -> Schema:
    """The schema that all shards have."""
    first = Schema(states[0].lines)
    for shard, state in zip(engine.shards, states):
        if Schema(state.lines).says() != first.says():
            raise shard.fault(Status.SHARD, f"it has another schema than {engine.shards[0].name()}")
    return first


def looked_at(engine: Engine) -> list[State]:
    """What each shard keeps, under one schema."""
    states = engine.each(worker.look, engine.waits)
    same_schema(engine, states)
    return states


# ---- commands


def init(engine: Engine, options: argparse.Namespace) -> int:
    """Makes each folder a shard."""
    with open(options.words[0], encoding="utf-8") as file:
        lines = declared_lines(file.read().splitlines())
    try:
        states = engine.each(worker.begin, lines, engine.waits)
    except Refused as refused:
        raise Fault(
            f"the schema was refused: {refused}"
            + (f": {lines[refused.line - 1]}" if refused.line else "")
        ) from refused
    print(
        (
            f"cube shards: {counted(len(states), 'shard')}, which keep"
            f" {counted(sum(state.facts for state in states), 'fact')}"
        ),
        file=sys.stderr,
    )
    return 0


def load(engine: Engine, options: argparse.Namespace) -> int:
    """Loads a file."""
    states = looked_at(engine)
    numbers = options.number * len(states) if len(options.number) == 1 else options.number
    if not numbers and any(state.facts for state in states):
        raise Fault(
            "the shards have facts already: --number tells the first batches of this file, as the"
            " load of it said when it began, or `status`"
        )
    if numbers and len(numbers) != len(states):
        raise Fault(
            f"--number has {counted(len(numbers), 'number')}, and there are"
            f" {counted(len(states), 'shard')}"
        )
    numbers = numbers or [1] * len(states)
    print(
        f"cube shards: --number {listed(numbers)} goes on where this load is cut off",
        file=sys.stderr,
    )
    table, schema = Table(options.words[0], options.delimiter), Schema(states[0].lines)
    rows = (piece.rows for piece in pieces(table, schema))
    bar = Bar(engine, table.source.size)
    doing = Loads(engine, schema, states, bar.show)
    engine.each(worker.mark, os.path.abspath(options.words[0]))
    try:
        for batch in Cutter(numbers, options.batch).batches(rows):
            doing.send(batch)
        doing.finish()
        engine.each(worker.mark, None)
    finally:
        bar.clear()
    already = f", {doing.already:,} were there already" if doing.already else ""
    print(
        (
            f"cube shards: {counted(doing.loaded, 'row')} loaded{already}; the shards keep"
            f" {counted(sum(doing.facts), 'fact')}; the next numbers are {listed(doing.next)}"
        ),
        file=sys.stderr,
    )
    return 0


def listed(numbers: Sequence[int]) -> str:
    """Numbers of batches, as the words have them."""
    return ",".join(map(str, numbers))


def ask(engine: Engine, options: argparse.Namespace) -> int:
    """Prints answers."""
    program("cubefold")
    states = looked_at(engine)
    lines = states[0].lines
    schema = Schema(lines)
    say_loading(engine, states)

    def answered(text: str) -> list[str]:
        """The lines of an answer."""
        question = derived(text, {})
        try:
            reply = asked(engine, lines, question.sent.text)
        except Refused as refused:
            raise question.sent.refused(refused) from refused
        if options.form == "csv" and options.order == UNSORTED and question.is_plain():
            return csv_of(text, reply)
        answer = arranged(answer_in(schema, text, reply), text, options.order)
        return FORMS[options.form](answer)

    asks = Asked(answered, lambda: schema, list, lambda: None)
    return answer_all("cube shards", asks, questions(options.words, lambda: schema, dict))


def say_loading(engine: Engine, states: Sequence[State]) -> None:
    """Says that a load has begun and not ended, so that shards may lack rows of it."""
    for source in sorted({state.loading for state in states if state.loading}):
        print(
            (
                f"cube shards: the load of {source} has begun and not ended: the answers may have"
                " some of its rows and not others"
            ),
            file=sys.stderr,
        )


def asked(engine: Engine, lines: list[str], text: str) -> Reply:
    """The reply of all shards together."""
    if is_query(text):
        raise Fault("a query in SQL is for one folder; shards answer slices")
    sent(text)
    replies = engine.each(worker.answer, engine.waits, text)
    # A reply that is missing as a whole would not be noticed by the fold.
    if len(replies) != len(engine.shards):
        raise ShardFault(
            Status.FOLD,
            (
                f"{counted(len(replies), 'reply', 'replies')} of"
                f" {counted(len(engine.shards), 'shard')}"
            ),
        )
    try:
        return folded(lines, text, replies)
    except Ended as ended:
        why = (
            "the numbers of a column add up to more than 2^127 - 1 over all shards"
            if ended.status == OVERFLOW
            else f"the replies cannot be folded: {ended.said}"
        )
        raise ShardFault(Status.FOLD, why) from ended


def status(engine: Engine, options: argparse.Namespace) -> int:
    """Tells what each shard keeps."""
    states = looked_at(engine)
    for shard, state in zip(engine.shards, states):
        print(f"{shard.name()}: {counted(state.facts, 'fact')}, the next batch is {state.due}")
    print(
        f"{counted(len(states), 'shard')}: {counted(sum(state.facts for state in states), 'fact')},"
        f" the next batches are {listed([state.due for state in states])}"
    )
    return 0


# ---- arguments


def numbers(text: str) -> list[int]:
    """The numbers of batches in an argument."""
    return [whole(1, (1 << 64) - 1)(number) for number in text.split(",")]


def add_arguments(parser: Parser) -> None:
    """Adds the arguments of the command."""
    parser.add_argument("command", choices=COMMANDS, metavar="ACTION", help="what to do")
    parser.add_argument(
        "words",
        nargs="*",
        metavar="FILE or QUESTION",
        help="init: a schema; load: a csv file; ask: a question",
    )
    add_place(parser)
    add_load_arguments(parser)
    add_forms(parser)
    add_order(parser)
    parser.add_argument(
        "--patience",
        metavar="SECONDS",
        type=float,
        default=60,
        help="wait this long for a scheduler, and for a worker that is not there; by default 60",
    )
    add_no_wait(parser)


def add_place(parser: Parser) -> None:
    """Adds where the shards are."""
    place = parser.add_mutually_exclusive_group(required=True)
    place.add_argument(
        "--shards",
        metavar="FILE",
        help=(
            "a line `scheduler ADDRESS` of the file names a Dask scheduler that runs, and each "
            "line `ADDRESS FOLDER` a shard: the address of a worker of that scheduler, such as "
            "tcp://10.0.0.2:40001, and a folder there. Lines that begin with # are comments"
        ),
    )
    place.add_argument(
        "--local",
        metavar="FOLDER",
        help=(
            "the shards are 1, 2 .. in this folder, and workers of this machine are started for "
            "the command, one for each"
        ),
    )
    parser.add_argument(
        "--count",
        metavar="N",
        type=whole(1),
        help="init with --local: make N shards; by default as many as there are processors",
    )


def add_load_arguments(parser: Parser) -> None:
    """Adds what says how a file is loaded."""
    parser.add_argument(
        "--number",
        metavar="N,..",
        type=numbers,
        default=[],
        help=(
            "load: the number of the first batch, one for all shards or one for each; 1 for the"
            " first file, and for later files the number that the load before printed, or `status`."
            " It is needed if a shard has facts"
        ),
    )
    parser.add_argument(
        "--batch",
        metavar="ROWS",
        type=whole(1, MOST_ROWS),
        default=100_000,
        help=f"load: the most rows of a batch, 1 to {MOST_ROWS}; by default 100000",
    )
    parser.add_argument(
        "--delimiter",
        metavar="C",
        type=delimiter,
        default=",",
        help="load: the character between fields, `tab` for a tab; by default a comma",
    )


def check(parser: Parser, options: argparse.Namespace) -> None:
    """Ends where the arguments do not go together."""
    files = {"init": 1, "load": 1, "status": 0}.get(options.command, len(options.words))
    if len(options.words) != files:
        parser.error("init and load name one file, and status none")
    if options.count is not None and (options.command != "init" or options.shards):
        parser.error("--count goes with init and --local")
    check_order(parser, options)
    if options.command != "ask" and options.order != UNSORTED:
        parser.error("--sort and --top go with ask")
    if not options.patience >= 0:
        parser.error("--patience is not below 0")


def run(options: argparse.Namespace) -> int:
    """Carries the action out, and gives the exit status."""
    say_bytes("surrogateescape" if options.form == "csv" else "backslashreplace")
    try:
        with reached(options) as engine:
            return COMMANDS[options.command](engine, options)
    except KeyboardInterrupt:
        print(
            (
                "cube shards: stopped; the batches that were acknowledged are kept, and `status`"
                " shows how many facts there are"
            ),
            file=sys.stderr,
        )
        return Status.FAILED


COMMANDS = {"init": init, "load": load, "ask": ask, "status": status}
COMMAND = Command(
    usage=(
        "init WHERE [OPTION..] SCHEMA",
        "load WHERE [OPTION..] FILE",
        "ask WHERE [OPTION..] [QUESTION..]",
        "status WHERE [OPTION..]",
    ),
    description=DESCRIPTION,
    epilog=EPILOG,
    statuses=(
        Status.DONE,
        Status.FAILED,
        Status.WORDS,
        Status.ENDED,
        Status.BUSY,
        Status.CHANGED,
        Status.ENGINE,
        Status.WORKER,
        Status.SHARD,
        Status.FOLD,
    ),
    add_arguments=add_arguments,
    check=check,
    run=run,
)
