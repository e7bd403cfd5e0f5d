"""Tests of what is done for one shard, without an engine."""
from __future__ import annotations

import hashlib
import os
from pathlib import Path

import pytest

from cubetree.shards import worker as parts
from cubetree.shards.worker import CHANGED, UNKNOWN, State, Taken, Trouble

LINES = ["attr part text", "measure qty", "view part"]
ROWS = b"a,1\nb,2\n"


@pytest.fixture(name="shard")
def shard_of(tmp_path: Path) -> str:
    """A folder that is the first of two shards."""
    folder = str(tmp_path / "s")
    begun = parts.begin(folder, 1, 2, LINES, True)
    assert isinstance(begun, State) and (begun.facts, begun.due) == (0, 1)
    return folder


def loading(shard: str) -> str:
    """The source of the load that has begun and not ended."""
    state = parts.look(shard, 1, 2, True)
    assert isinstance(state, State)
    return state.loading


def test_load_under_way(shard: str) -> None:
    """A load is noted when it begins, until it has ended."""
    assert loading(shard) == ""
    parts.mark(shard, 1, 2, "/x/a file")
    assert loading(shard) == "/x/a file"
    parts.mark(shard, 1, 2, "/x/other")
    assert loading(shard) == "/x/other"
    parts.mark(shard, 1, 2, None)
    assert loading(shard) == ""


def test_torn_mark(shard: str) -> None:
    """What a stop leaves of a line does not count, and the next line stands by itself."""
    with open(os.path.join(shard, ".shard"), "ab") as file:
        file.write(b"load")
    assert loading(shard) == ""
    parts.mark(shard, 1, 2, "/x/file")
    assert loading(shard) == "/x/file"


def test_batches(shard: str) -> None:
    """A batch counts once, and other rows under its number are refused."""
    assert parts.take_in(shard, 1, 2, True, 2, ROWS, 2) == Taken(False, True, 0)
    assert parts.take_in(shard, 1, 2, True, 1, ROWS, 2) == Taken(False, False, 2)
    assert parts.take_in(shard, 1, 2, True, 1, ROWS, 2) == Taken(True, False, 2)
    changed = parts.take_in(shard, 1, 2, True, 1, b"a,1\nb,3\n", 2)
    assert changed == Trouble(CHANGED, "batch 1 was loaded with other rows")


def test_shard_of_older_tools(shard: str) -> None:
    """Sums of batches that stand in `.shard` count still."""
    parts.take_in(shard, 1, 2, True, 1, ROWS, 2)
    os.remove(os.path.join(shard, ".batches"))
    assert parts.take_in(shard, 1, 2, True, 1, ROWS, 2) == Trouble(
        CHANGED, "batch 1 was loaded with other rows"
    )
    found = hashlib.blake2b(ROWS, digest_size=16).hexdigest()
    with open(os.path.join(shard, ".shard"), "ab") as file:
        file.write(b"1 %s\n" % found.encode())
    assert parts.take_in(shard, 1, 2, True, 1, ROWS, 2) == Taken(True, False, 2)


def test_no_shard(shard: str, tmp_path: Path) -> None:
    """A folder that is another shard, or none."""
    named = parts.mark(shard, 2, 2, None)
    assert named == Trouble(UNKNOWN, "the folder is shard 1 of 2, and is named as shard 2 of 2")
    (tmp_path / "plain").mkdir()
    plain = parts.look(str(tmp_path / "plain"), 1, 2, True)
    assert plain == Trouble(UNKNOWN, "the folder is no shard: `shards init` makes it one")
