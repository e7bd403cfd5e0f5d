"""The entry of `cube`: which command it is, and what its end means."""
from __future__ import annotations

import argparse
import importlib
import os
import sys

from ..errors import Fault, told
from ..status import Status
from .command import Command, HelpFormatter, parser_of, version

COMMANDS = {
    "load": "load csv files into a folder, each row once",
    "ask": "ask for sums, counts, means and extremes by group",
    "explore": "look at a folder in a browser",
    "feed": "take rows as they come, for months",
    "refresh": "take a batch in by short steps, and answer questions meanwhile",
    "audit": "read all pages of a folder, and say whether they are sound",
    "undo": "take the last batch back",
    "copy": "copy a folder, also while it is loaded",
    "export": "write views as tables of an SQLite file, or as csv",
    "shards": "spread facts over folders and machines, and ask them as one",
    "tour": "run the commands of the tour, and show where the output differs",
}
# Names of the commands in older packages, which stay as links to `cube`.
FORMER = {
    "load-csv": "load",
    "refresh-slowly": "refresh",
    "run-tour": "tour",
    **{name: name for name in ("ask", "feed", "audit", "undo", "shards")},
}
DESCRIPTION = """Keeps sums, counts, least and greatest values of facts by group, in a folder on
disk.

`cube COMMAND -h` is the help of a command."""


def command_of(name: str) -> Command:
    """The command of a name."""
    found: Command = importlib.import_module(f"cubetree.cli.{name}").COMMAND
    return found


def top_parser() -> argparse.ArgumentParser:
    """The parser of the words up to the command."""
    width = max(map(len, COMMANDS)) + 2
    listed = "\n".join(f"  {name:<{width}}{summary}" for name, summary in COMMANDS.items())
    parser = argparse.ArgumentParser(
        prog="cube",
        usage="cube COMMAND [OPTION..]",
        description=DESCRIPTION,
        epilog=f"Commands:\n\n{listed}",
        formatter_class=HelpFormatter,
        allow_abbrev=False,
    )
    parser.add_argument("--version", action="store_true", help="print the version and the program")
    parser.add_argument("command", nargs="?", help=argparse.SUPPRESS)
    parser.add_argument("words", nargs=argparse.REMAINDER, help=argparse.SUPPRESS)
    return parser


def parse(name: str, words: list[str]) -> tuple[Command, argparse.Namespace]:
    """The command of a name with its options; it ends here if the words are wrong."""
    command = command_of(name)
    parser = parser_of(name, command)
    parser.add_argument("--version", action="version", version=version(), help=argparse.SUPPRESS)
    options = parser.parse_intermixed_args(words)
    command.check(parser, options)
    return command, options


def run(name: str, words: list[str]) -> int:
    """Carries a command out, and gives its exit status."""
    command, options = parse(name, words)
    try:
        status = command.run(options)
        flush()
        return status
    except BrokenPipeError:
        raise
    except KeyboardInterrupt:
        print(f"cube {name}: stopped", file=sys.stderr)
        return Status.FAILED
    except (Fault, OSError) as fault:
        print(f"cube {name}: {told(fault)}", file=sys.stderr)
        drop_output()
        return status_of(fault)


def flush() -> None:
    """Writes what was printed, unless standard output is closed."""
    if sys.stdout is not None:
        sys.stdout.flush()


def drop_output() -> None:
    """Lets go of output that cannot be written, so that Python does not try it again at its end."""
    try:
        flush()
    except OSError:
        os.dup2(os.open(os.devnull, os.O_WRONLY), 1)


def status_of(fault: Fault | OSError) -> Status:
    """The exit status for a fault."""
    return fault.exit_status if isinstance(fault, Fault) else Status.FAILED


def carry_out() -> int:
    """Runs the command of the command line, and gives its exit status."""
    called, words = os.path.basename(sys.argv[0]), sys.argv[1:]
    former = FORMER.get(called.removeprefix("cubetree-"))
    if former and called.startswith("cubetree-"):
        return run(former, words)
    parser = top_parser()
    options = parser.parse_args(words)
    if options.version:
        print(version("cubefold"))
        return Status.DONE
    if options.command is None:
        parser.print_help(sys.stderr)
        return Status.WORDS
    if options.command not in COMMANDS:
        parser.error(f"no command `{options.command}`; there are {', '.join(COMMANDS)}")
    return run(options.command, options.words)


def main() -> int:
    """Runs a command; it ends quietly if whoever read its output has gone."""
    try:
        try:
            return carry_out()
        finally:
            flush()
    except OSError as error:
        if not isinstance(error, BrokenPipeError):
            print(f"cube: {error}", file=sys.stderr)
        drop_output()
        return Status.FAILED
