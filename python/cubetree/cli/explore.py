"""`cube explore`: shows the warehouse in a folder in a browser."""
from __future__ import annotations

import argparse
import errno
import os
import threading
import webbrowser

from ..errors import Fault
from ..explore.asking import Explorer
from ..explore.server import HOST, Server, charts_there
from ..status import Status
from ..ui import shown
from .command import Command, Parser, add_folder, folder_of, whole

DESCRIPTION = """Shows the warehouse in a folder in a browser: charts, tables, and the state of the
folder.

It prints an address, and opens it. You choose columns, groups and filters; the page shows which
view answers, and the command that asks the same. While rows are loaded, the page follows. Ctrl-C
ends it."""
EPILOG = """
The page is served to this machine alone, and to whoever has the address, which has a secret word.
Nothing comes from the network. It writes nothing to the folder but the empty files of its locks,
and waits for its turn as `cube ask` does.

Charts are drawn by Chart.js, the Debian package libjs-chart.js. Without it there are tables."""


def add_arguments(parser: Parser) -> None:
    """Adds the arguments of the command."""
    add_folder(parser, is_positional=True)
    parser.add_argument(
        "--port",
        metavar="N",
        type=whole(0, 65_535),
        default=0,
        help="serve the page at this port; by default at one that is free",
    )
    parser.add_argument(
        "--no-browser", action="store_true", help="print the address, and open no browser"
    )


def check(parser: Parser, options: argparse.Namespace) -> None:
    """Puts the folder into `options.folder`."""
    folder_of(parser, options)


def served(options: argparse.Namespace) -> Server:
    """The server, which has its port."""
    explorer = Explorer(options.folder)
    try:
        return Server(explorer, options.port, charts_there())
    except OSError as error:
        if error.errno == errno.EADDRINUSE:
            raise Fault(f"the port {options.port} is in use: give another one") from error
        raise Fault(
            f"the port {options.port} of {HOST}: {os.strerror(error.errno or 0)}"
        ) from error


def run(options: argparse.Namespace) -> int:
    """Serves the page until Ctrl-C, and gives the exit status."""
    with served(options) as server:
        print(
            f"{shown(options.folder)}: {server.address(server.word)}  (Ctrl-C ends it)", flush=True
        )
        if not options.no_browser:
            # A browser for terminals goes on until it is left.
            address = server.address(server.once)
            threading.Thread(target=webbrowser.open, args=(address,), daemon=True).start()
        try:
            server.serve_forever()
        except KeyboardInterrupt:
            pass
    return Status.DONE


COMMAND = Command(
    usage=("[OPTION..] [FOLDER]",),
    description=DESCRIPTION,
    epilog=EPILOG,
    statuses=(Status.DONE, Status.FAILED, Status.WORDS),
    add_arguments=add_arguments,
    check=check,
    run=run,
)
