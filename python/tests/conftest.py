"""Options of the tests: how often a feed and the workers of shards are killed."""
import os
import signal
import sys

import pytest

from cubetree import Fault
from cubetree.process import program
from tests import helpers

# Tools run under the Python that runs the tests.
os.environ["PATH"] = os.path.dirname(sys.executable) + os.pathsep + os.environ["PATH"]
# A shell that runs the tests in the background ignores it, and so would what they run.
signal.signal(signal.SIGINT, signal.default_int_handler)


def pytest_addoption(parser: pytest.Parser) -> None:
    """Adds --kills."""
    parser.addoption(
        "--kills",
        type=int,
        default=helpers.KILLS,
        help="kills of each test that kills at random (default: %(default)s)",
    )


def pytest_configure(config: pytest.Config) -> None:
    """Takes the number of kills, and ends where there is no program to test."""
    helpers.KILLS = config.getoption("--kills")
    try:
        program()
    except Fault as fault:
        raise pytest.UsageError(str(fault)) from fault
