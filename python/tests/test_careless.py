"""What careless users and poor machines do: each case has a message that says what to do, and
changes nothing."""
from __future__ import annotations

import contextlib
import os
import shutil
import signal
import subprocess
import sys
import tempfile
from pathlib import Path
from typing import List

import pytest

from tests.helpers import CUBE, PACKAGES, ask, load, run, until

SCHEMA = "attr part text\nattr year number\nmeasure qty\nview part,year\nview\n"
NOBODY = 65534


@pytest.fixture
def room(tmp_path: Path, monkeypatch: pytest.MonkeyPatch) -> Path:
    """An empty folder `w`, a schema and a file of two rows."""
    monkeypatch.chdir(tmp_path)
    os.mkdir("w")
    Path("schema").write_text(SCHEMA)
    Path("file").write_text("part,year,qty\na,1999,1\nb,1999,2\n")
    return tmp_path


def count() -> str:
    """How many facts the folder has."""
    return ask("--in", "w", "--csv", "count")[0].split("\n")[1]


def test_other_rows_under_a_number(room: Path) -> None:
    """The three ways in which rows were lost without a word."""
    load("--schema", "schema", "--into", "w", "--batch", "1", "--number", "1", "file")
    # The file has grown, and the batches are larger.
    Path("file").write_text(Path("file").read_text() + "c,1999,3\nd,1999,4\n")
    said = load("--into", "w", "--batch", "3", "--number", "1", "file")[1]
    assert (
        said
        == "cube load: 2 rows loaded, 2 were there already; the folder keeps 4 facts; the next"
        " number is 4\n"
    )
    assert ask("--in", "w", "--csv", "sum(qty)")[0] == "sum(qty)\n10\n"
    # The next file has the number of the last one.
    Path("next").write_text("part,year,qty\ne,2000,5\n")
    said = load("--into", "w", "--number", "1", "next", status=6)[1]
    assert (
        f"next: rows 1 to 1 are not those of batch 1 (from {room}/file): --number 4 loads all its"
        " rows as new ones; the folder keeps 4 facts\n"
        in said
    )
    assert (
        "next: batch 9 was refused: the folder has no batch 4 yet"
        in load("--into", "w", "--number", "9", "next", status=1)[1]
    )
    load("--into", "w", "--number", "4", "next")
    # The same file under the next number.
    said = load("--into", "w", "--number", "5", "next", status=6)[1]
    assert f"its first 1 row came already in batch 4, from {room}/next" in said
    assert count() == "5"


def test_several_files(room: Path) -> None:
    """Files are loaded one after the other; a faulty one is named, and those before it are kept."""
    Path("more").write_text("part,year,qty\nc,2000,5\n")
    Path("bad").write_text("part,year,qty\nd,2000,x\n")
    said = load("--schema", "schema", "--into", "w", "file", "more", "bad", status=1)[1]
    assert said.splitlines() == [
        "cube load: file: 2 rows loaded; the folder keeps 2 facts",
        "cube load: more: 1 row loaded; the folder keeps 3 facts",
        (
            "cube load: bad: row 1 (line 2) was refused: qty is no whole number, or is out of"
            " range: 'x'; the folder keeps 3 facts"
        ),
    ]
    Path("bad").write_text("part,year,qty\nd,2000,7\n")
    said = load("--into", "w", "--number", "1", "file", "more", "bad")[1]
    assert (
        said.splitlines()[-1]
        == "cube load: bad: 1 row loaded; the folder keeps 4 facts; the next number is 4"
    )
    assert "are for one file" in load("--script", "file", "more", status=2)[1]


def test_standard_input(room: Path) -> None:
    """Standard input may be the first file, whose schema is proposed, and rows there count once."""
    rows = b"part,year,qty\na,1999,12.50\n"
    load("--into", "w", "-", given=rows)
    said = load("--into", "w", "-", given=rows, status=6)[1]
    assert (
        "-: its first 1 row came already in batch 1, from -: --number 1 goes on after the rows that"
        " are there"
        in said
    )
    load("--into", "w", "--number", "1", "-", given=rows + b"b,2000,3\n")
    assert ask("--in", "w", "--csv", "sum(qty)")[0] == "sum(qty)\n15.50\n"


@pytest.mark.parametrize(
    "row, said",
    [
        (
            "a,-3,1",
            (
                "year is no whole number, or is out of range: '-3'; a number to group by is not"
                " below 0: in a new folder, --text year reads it"
            ),
        ),
        ("a,1999,1.5", "'1.5'; in a new folder, --decimals qty=1 reads it"),
        ("a,1999,NA", "'NA'; --na NA takes such cells as 0"),
        ("a,1999,", "''; --na '' takes such cells as 0"),
        ("a,,1", "year is no whole number, or is out of range: ''; --na '' takes such cells as 0"),
    ],
)
def test_cells(room: Path, row: str, said: str) -> None:
    Path("file").write_text(f"part,year,qty\n{row}\n")
    assert said in load("--schema", "schema", "--into", "w", "file", status=1)[1]
    assert count() == "count" or count() == ""


def test_no_value(room: Path) -> None:
    """Cells without a value count as 0, which is said, and the folder remembers them."""
    Path("file").write_text("part,year,qty\nNA,1999,NA\nb,NA,2\n")
    said = load("--schema", "schema", "--na", "NA", "--into", "w", "file")[1]
    assert "cube load: 1 cell of qty without a value counts as 0\n" in said
    assert (
        ask("--in", "w", "--csv", "sum(qty) by part,year")[0]
        == "part,year,sum(qty)\n,1999,0\nb,0,2\n"
    )
    Path("more").write_text("part,year,qty\nc,1999,NA\n")
    load("--into", "w", "more")
    assert count() == "3"


def test_doubtful_file(room: Path) -> None:
    """A first file that is doubtful is not loaded, until a word decides or --yes is given."""
    Path("file").write_text(
        "day,fee\n"
        + "".join(f"2025-01-{day:02},{day}.5\n" for day in range(1, 32))
        + "2025-02-30,1\n"
    )
    said = load("--into", "w", "file", status=7)[1]
    assert "2025-02-30" in said and "--text day" in said
    assert "nothing was loaded; --yes loads it as proposed" in said
    assert not os.path.exists("w/root") or count() == ""
    load("--into", "w", "--text", "day", "file")
    assert count() == "32"


# ---- poor machines


def test_full_disk(room: Path) -> None:
    """A full disk is called so, and the same command goes on when there is room."""
    if (
        os.getuid()
        or subprocess.run(
            ["mount", "-t", "tmpfs", "-o", "size=600k", "tmpfs", "w"], capture_output=True
        ).returncode
    ):
        pytest.skip("no small disk can be made")
    try:
        Path("file").write_text(
            "part,year,qty\n" + "".join(f"p{number},1999,1\n" for number in range(20_000))
        )
        said = load("--schema", "schema", "--into", "w", "--batch", "1000", "file", status=1)[1]
        assert "disk fault (no space is left on the device); " in said
        assert "the same command goes on" in said
        shutil.copytree("w", "v", ignore=shutil.ignore_patterns(".turns"))
    finally:
        subprocess.run(["umount", "w"], check=True)
    os.rmdir("w")
    os.rename("v", "w")
    assert "the folder keeps 20,000 facts" in load("--into", "w", "file")[1]
    assert count() == "20000"


def as_nobody(words: List[str]) -> "subprocess.CompletedProcess[str]":
    """What a command prints that another user runs."""
    if os.getuid():
        pytest.skip("only root can be another user")
    return subprocess.run(words, capture_output=True, text=True, user=NOBODY, group=NOBODY)


def test_no_permission(room: Path) -> None:
    """Somebody who may only read is told so."""
    load("--schema", "schema", "--into", "w", "file")
    with tempfile.TemporaryDirectory() as folder:  # pytest's own folders are closed to others
        os.chmod(folder, 0o755)
        shutil.copytree("w", os.path.join(folder, "w"))
        shutil.copy("file", folder)
        words = ["--in", os.path.join(folder, "w"), "count"]
        done = as_nobody([sys.executable, CUBE, "ask", *words])
        assert (done.returncode, done.stdout) == (3, "")
        assert "no permission to write" in done.stderr
        words = ["--into", os.path.join(folder, "w"), os.path.join(folder, "file")]
        done = as_nobody([sys.executable, CUBE, "load", *words])
        assert done.returncode == 3 and "no permission to write" in done.stderr


def test_folder_that_goes_away(room: Path) -> None:
    """A folder that is removed during a load is named."""
    os.mkfifo("pipe")
    load_run = subprocess.Popen(
        [
            CUBE,
            "load",
            "--schema",
            "schema",
            "--into",
            "w",
            "--batch",
            "1",
            "pipe",
        ],
        stderr=subprocess.PIPE,
    )
    with contextlib.suppress(BrokenPipeError), open("pipe", "w") as pipe:
        pipe.write("part,year,qty\n" + "a,1,1\n" * 20_000)
        pipe.flush()
        until(lambda: os.path.exists("w/side0"))
        shutil.rmtree("w")
        pipe.write("b,1,1\n" * 20_000)
    said = load_run.communicate(timeout=60)[1].decode()
    assert load_run.returncode == 1
    assert "w" in said and ("is gone" in said or "No such file" in said), said


def test_interrupt(room: Path) -> None:
    """Ctrl-C ends a load with what to type next, and the next load goes on."""
    Path("file").write_text(
        "part,year,qty\n" + "".join(f"p{number},1999,1\n" for number in range(30_000))
    )
    words = ["--schema", "schema", "--into", "w", "--batch", "50", "file"]
    begun = subprocess.Popen(
        [CUBE, "load", *words],
        stderr=subprocess.PIPE,
        start_new_session=True,
        # A shell that runs the tests in the background has the signal ignored.
    )
    until(lambda: os.path.exists("w/.batches"))
    os.killpg(begun.pid, signal.SIGINT)
    said = begun.communicate(timeout=60)[1].decode()
    assert begun.returncode == 1 and "cube load: stopped; the same command goes on\n" in said
    load(*words)
    assert count() == "30000"


def test_documents_left_out(room: Path) -> None:
    """A tour whose document is not installed says so."""
    if os.path.isdir("/usr/share/doc/cubetree/docs"):
        pytest.skip("the documents are installed")
    shutil.copytree(os.path.join(PACKAGES, "cubetree"), "lib/cubetree")
    words = [sys.executable, "-c", "from cubetree.cli.main import main; main()", "tour"]
    said = run(*words, status=0, env={**os.environ, "PYTHONPATH": "lib"})[1]
    assert "this installation has no documents" in said
