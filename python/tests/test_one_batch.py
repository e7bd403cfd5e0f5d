"""Tests of what is one batch: a file that fits, and what the end of a load says."""
from __future__ import annotations

import os
from pathlib import Path
from typing import Iterator, List
from unittest import mock

import pytest

from cubetree.csvfile import intake, loader
from cubetree.csvfile.intake import fit_one_batch
from cubetree.csvfile.resume import Piece, Rows
from cubetree.ui import Progress
from tests.helpers import SCHEMA


def pieces(*counts: int) -> Iterator[Piece]:
    """Pieces with these numbers of rows of three bytes, which have four with their ends."""
    first = 2
    for count in counts:
        yield Piece([b"abc"] * count, range(first, first + count))
        first += count


def left(rows: Rows) -> int:
    """How many rows can still be taken."""
    return sum(len(piece.rows) for piece in rows.take(1 << 30))


@pytest.mark.parametrize(
    "counts, fits", [([], True), ([3], True), ([2, 2], True), ([2, 2, 1], False), ([5], False)]
)
def test_rows(counts: List[int], fits: bool) -> None:
    """At most four rows fit; none of them is taken, however often it is asked."""
    rows = Rows(pieces(*counts))
    with mock.patch.object(intake, "MOST_ROWS", 4):
        assert [fit_one_batch(rows, 0) for _ in range(3)] == [fits] * 3
    assert left(rows) == sum(counts)


def test_rows_after_others() -> None:
    """Rows that were taken before do not count."""
    rows = Rows(pieces(5, 2, 2))
    rows.skip(4)
    with mock.patch.object(intake, "MOST_ROWS", 6):
        assert fit_one_batch(rows, 0)
        assert fit_one_batch(rows, 0)
    assert left(rows) == 6


def test_bytes() -> None:
    """Sixteen bytes fit, which are four rows with their ends."""
    with mock.patch.object(intake, "MOST_BYTES", 16):
        assert fit_one_batch(Rows(pieces(2, 2)), 0)
        assert not fit_one_batch(Rows(pieces(2, 2, 1)), 0)


def test_size_of_the_file() -> None:
    """If the rows at the front say that there are far more, no other rows are read."""
    found = pieces(2, 2, 2)
    rows = Rows(found)
    with mock.patch.object(intake, "MOST_ROWS", 100):
        assert not fit_one_batch(rows, 4 * 201)  # bytes of 201 such rows
        assert len(next(found).rows) == 2
        assert fit_one_batch(Rows(pieces(2, 2, 2)), 4 * 200)


def loaded(*words: str, batch: int = 2) -> List[int]:
    """The rows of each batch of a load into `w`, where files without --batch have this many."""
    Path("schema").write_text(SCHEMA)
    options = loader.Options(loader.Reading(), loader.Meanings(), "schema")
    with mock.patch.object(loader, "BATCH", batch):
        loader.load_files("w", list(words), options, True, Progress())
    return [int(line.split()[3]) for line in Path("w/.batches").read_text().splitlines()]


@pytest.fixture(autouse=True)
def room(tmp_path: Path, monkeypatch: pytest.MonkeyPatch) -> None:
    """A room with an empty folder for a warehouse and a file of five rows."""
    monkeypatch.chdir(tmp_path)
    os.mkdir("w")
    Path("file").write_text("part,year,qty\n" + "a,1999,1\n" * 5)


def test_file(capsys: pytest.CaptureFixture[str]) -> None:
    """A file that fits one batch is one, and can be taken back whole."""
    assert loaded("file") == [5]
    said = capsys.readouterr().err.splitlines()
    assert said[-1] == "cube load: to take them back: cube undo --folder w"


def test_file_that_does_not_fit(capsys: pytest.CaptureFixture[str]) -> None:
    """A longer one has batches of the usual size."""
    with mock.patch.object(intake, "MOST_ROWS", 4):
        assert loaded("file") == [2, 2, 1]
    said = capsys.readouterr().err.splitlines()
    assert said[-1] == "cube load: to take the last 1 of them back: cube undo --folder w"


def test_pipe() -> None:
    """The rows of a pipe are not waited for."""
    os.mkfifo("pipe")
    if os.fork() == 0:
        with open("pipe", "w") as pipe:
            pipe.write(Path("file").read_text())
        os._exit(0)
    assert loaded("pipe") == [2, 2, 1]
    os.wait()


def test_nothing_to_take_back(capsys: pytest.CaptureFixture[str]) -> None:
    """A load of no rows says nothing of it."""
    loaded("file")
    capsys.readouterr()
    loaded("file")
    assert "take" not in capsys.readouterr().err
