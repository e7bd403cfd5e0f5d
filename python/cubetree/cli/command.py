"""What the commands of `cube` have in common: their parsers, common options and helps."""
from __future__ import annotations

import argparse
import re
import textwrap
from typing import Callable, Iterable, NamedTuple, Sequence

from ..errors import Fault
from ..process import program
from ..sorting import UNSORTED, keys_of, most_of
from ..status import MEANINGS, Status
from ..version import __version__

Parser = argparse.ArgumentParser


class Command(NamedTuple):
    """A command: how it is called, its help, its arguments, and what carries it out."""

    usage: Sequence[str]
    description: str
    epilog: str
    statuses: Sequence[Status]
    add_arguments: Callable[[Parser], None]
    check: Callable[[Parser, argparse.Namespace], None]
    run: Callable[[argparse.Namespace], int]


class HelpFormatter(argparse.HelpFormatter):
    """Help with paragraphs, which are filled to the width of the terminal."""

    def __init__(self, prog: str) -> None:
        super().__init__(prog, max_help_position=24)

    def _fill_text(self, text: str, width: int, indent: str) -> str:
        """Fills each paragraph by itself, and each line of one that is indented."""
        filled: list[str] = []
        for paragraph in textwrap.dedent(text).strip().split("\n\n"):
            if paragraph.startswith(" "):
                filled.append("\n".join(hung(line, width) for line in paragraph.split("\n")))
            else:
                filled.append(super()._fill_text(paragraph, width, indent))
        return "\n\n".join(filled)


def hung(line: str, width: int) -> str:
    """A line that is filled; what does not fit stands below its second column, or its words."""
    if len(line) <= width:
        return line
    column = re.match(r" +\S+ {2,}", line)
    below = " " * (len(column[0]) if column else len(line) - len(line.lstrip()) + 2)
    return textwrap.fill(line, width, subsequent_indent=below, drop_whitespace=True)


def statuses_in_words(statuses: Iterable[Status]) -> str:
    """The exit statuses of a command, as the end of its help."""
    lines = (f"  {status.value:2}  {MEANINGS[status]}" for status in statuses)
    return "Exit status:\n\n" + "\n".join(lines)


def parser_of(name: str, command: Command) -> Parser:
    """The parser of a command."""
    prog = f"cube {name}"
    usage = f"\n{' ' * 7}".join(f"{prog} {form}" for form in command.usage)
    parser = Parser(
        prog=prog,
        usage=usage,
        description=command.description,
        epilog=(
            f"{textwrap.dedent(command.epilog).strip()}\n\n{statuses_in_words(command.statuses)}"
        ),
        formatter_class=HelpFormatter,
        allow_abbrev=False,
    )
    command.add_arguments(parser)
    return parser


def add_folder(parser: Parser, *, is_positional: bool = False) -> None:
    """Adds the folder of the warehouse: an option, and an argument of its own if that is asked for.
    Older scripts say --in and --into."""
    if is_positional:
        parser.add_argument(
            "place", nargs="?", metavar="FOLDER", help="the folder of the warehouse"
        )
    parser.add_argument(
        "--folder", metavar="FOLDER", help="the folder of the warehouse; by default the current one"
    )
    for former in ("--in", "--into"):
        parser.add_argument(former, dest="folder", help=argparse.SUPPRESS)


def folder_of(parser: Parser, options: argparse.Namespace) -> None:
    """Puts the folder of the arguments into `options.folder`."""
    place = getattr(options, "place", None)
    if place is not None and options.folder is not None:
        parser.error("FOLDER and --folder name the folder: give one of them")
    options.folder = place if place is not None else options.folder
    if options.folder is None:
        options.folder = "."


def add_no_wait(parser: Parser) -> None:
    """Adds --no-wait."""
    parser.add_argument(
        "--no-wait",
        action="store_true",
        help="end with status 4 instead of waiting for another run in the folder",
    )


def add_forms(parser: Parser) -> None:
    """Adds the forms of an answer."""
    forms = parser.add_mutually_exclusive_group()
    for form, words in (
        ("csv", "print the rows as csv, with a header line"),
        ("json", "print a JSON object for each row, one a line; numbers have all their digits"),
        ("markdown", "print a table in Markdown"),
    ):
        forms.add_argument(
            f"--{form}", dest="form", action="store_const", const=form, default="table", help=words
        )


def add_order(parser: Parser) -> None:
    """Adds the order of the rows of an answer."""
    parser.add_argument(
        "--sort",
        metavar="COLUMNS",
        help=(
            "sort the rows by these columns, each by its name in the header, with commas between"
            " them and `desc` after a name for its greatest values first: --sort 'sum(qty)"
            " desc,part'"
        ),
    )
    parser.add_argument(
        "--top",
        metavar="N",
        help=(
            "print only the first N rows. Without --sort, if the question has one count, sum, min "
            "or max, these are the rows with the N greatest"
        ),
    )


def check_order(parser: Parser, options: argparse.Namespace) -> None:
    """Puts the order of the arguments into `options.order`; it ends where they are wrong."""
    options.order = UNSORTED
    try:
        if options.sort is not None:
            options.order = options.order._replace(keys=keys_of(options.sort))
        if options.top is not None:
            options.order = options.order._replace(most=most_of(options.top))
    except Fault as fault:
        parser.error(str(fault))


def columns(text: str) -> list[str]:
    """The names in an argument, which have commas between them."""
    return text.split(",")


def delimiter(text: str) -> str:
    """The character between fields."""
    mark = {"tab": "\t", "space": " "}.get(text, text)
    if len(mark) != 1 or mark in '"\r\n':
        raise argparse.ArgumentTypeError("one character, which is no quote and no end of a line")
    return mark


def whole(least: int, most: int | None = None) -> Callable[[str], int]:
    """What makes a whole number of an argument, from `least` to `most`."""

    def number(text: str) -> int:
        """The number."""
        if not text.isdecimal() or int(text) < least or most is not None and int(text) > most:
            upper = f" to {most}" if most is not None else " or more"
            raise argparse.ArgumentTypeError(f"{text} is not {least}{upper}")
        return int(text)

    return number


def version(*others: str) -> str:
    """The version of the package, and the program that it runs, with others beside it."""
    try:
        beside = "".join(f" and {program(name)}" for name in others)
        return f"cube {__version__}; the program is {program()}{beside}"
    except Fault as fault:
        return f"cube {__version__}; {fault}"
