"""Tests of export: files that are there, faults, stops, and loads meanwhile."""
from __future__ import annotations

import fcntl
import os
import re
import resource
import signal
import sqlite3
import stat
import subprocess
import sys
import time
from contextlib import closing
from pathlib import Path
from typing import Any, Callable, List

import pytest

import cubetree
from cubetree import Fault
from cubetree.export import export, export_csv
from cubetree.rooms import room_for, taken
from tests.exporting import (  # noqa: F401
    BY_YEAR,
    EXPORT,
    SCHEMA,
    TOTAL,
    loaded,
    made,
    room_of,
    rows,
    tables,
)
from tests.helpers import PACKAGES, run, until

# ---- what is there already


def test_replace() -> None:
    """A file of SQLite is replaced by another one, with its permissions; who reads the old one
    goes on with it."""
    with closing(sqlite3.connect("w.db")) as database:
        database.execute("CREATE TABLE by_year (old)")
        database.execute("INSERT INTO by_year VALUES (1), (2)")
        database.commit()
        os.chmod("w.db", 0o640)
        reader = database.execute("SELECT * FROM by_year")
        assert reader.fetchone() == (1,)
        run(*EXPORT, "w", "w.db")
        assert reader.fetchall() == [(2,)]
    assert rows("w.db", "SELECT * FROM by_year ORDER BY year") == BY_YEAR
    assert stat.S_IMODE(os.stat("w.db").st_mode) == 0o640


def test_links_and_empty_files() -> None:
    """A link stays one, and an empty file is replaced."""
    os.mkdir("d")
    Path("d/w.db").touch()
    os.symlink("d/w.db", "link")
    run(*EXPORT, "w", "link")
    assert os.path.islink("link") and os.listdir("d") == ["w.db"]
    assert rows("d/w.db", "SELECT * FROM total") == TOTAL
    os.symlink("new.db", "hanging")
    run(*EXPORT, "w", "hanging")
    assert rows("new.db", "SELECT * FROM total") == TOTAL


@pytest.mark.parametrize("content", [b"part,year\n", b"SQLite format 3", b"SQLite format 4\0" * 9])
def test_other_files(content: bytes) -> None:
    """What is no file of SQLite is refused, and stays."""
    Path("f").write_bytes(content)
    said = run(*EXPORT, "w", "f", status=1)[1]
    assert said == "cube export: f is no SQLite file, and stays: remove it, or name another file\n"
    assert Path("f").read_bytes() == content and sorted(os.listdir()) == ["f", "w"]


@pytest.mark.parametrize("end", ["-wal", "-journal"])
def test_writers_of_the_file(end: str) -> None:
    """A log beside the file would be carried out on the new one: it is refused."""
    run(*EXPORT, "w", "w.db")
    before = Path("w.db").read_bytes()
    Path(f"w.db{end}").touch()
    said = run(*EXPORT, "w", "w.db", status=1)[1]
    assert (
        said
        == f"cube export: {os.path.abspath('w.db')}{end} is there: something else writes w.db\n"
    )
    assert Path("w.db").read_bytes() == before


def test_writer_that_begins_meanwhile(monkeypatch: pytest.MonkeyPatch) -> None:
    """A log that is there at the end is refused as well, and so is another file."""
    for name, content in (("w.db-wal", ""), ("w.db", "mine")):

        def sync(path: str, name: str = name, content: str = content) -> None:
            """What another program does meanwhile."""
            Path(name).write_text(content)

        monkeypatch.setattr("cubetree.export.sync", sync)
        with cubetree.open("w") as warehouse, pytest.raises(Fault):
            export(warehouse, "w.db")
        assert sorted(os.listdir()) == ["w", name] and Path(name).read_text() == content
        os.remove(name)


@pytest.mark.parametrize(
    "words, said",
    [
        (["w", "w"], "w is no file"),
        (["w", "/dev/null"], "/dev/null is no file"),
        (["w", "nope/w.db"], "no such folder: {}/nope"),
        (["w", "nope/out", "--csv"], "no such folder: {}/nope"),
        (["nope", "w.db"], "no such folder: nope"),
        (["empty", "w.db"], "no schema is declared in the folder"),
        (["empty", "out", "--csv"], "no schema is declared in the folder"),
        (["empty", "-", "--csv", "total"], "no schema is declared in the folder"),
        (["w", "w.db", "part"], "no view has the name part; there are part,year; year; total"),
        (["w", "out", "--csv", "facts"], "no view has the name facts; there are part,year; year; "),
        (["w", "-", "--csv", "year,part"], "no view has the name year,part; there are part,year; "),
        (["w", "w.db", "x\ny"], "no view has the name x\\ny; there are part,year; year; total"),
        (["w", "w.db", "year", "year"], "the view year is named twice"),
        (["w", "w.db", "total", "by_part_year", "part,year"], "the view part,year is named twice"),
        (["w", "n" * 250], "{}/." + "n" * 250 + ".cube-export: File name too long"),
    ],
)
def test_faults(words: List[str], said: str) -> None:
    """What is wrong is named, and nothing is written."""
    os.mkdir("empty")
    told = run(*EXPORT, *words, status=1)[1]
    assert told.startswith("cube export: " + said.format(os.getcwd())) and told.count("\n") == 1
    assert sorted(os.listdir()) == ["empty", "w"]


def test_old_file_after_a_fault() -> None:
    """It stays as it is."""
    run(*EXPORT, "w", "w.db")
    before = Path("w.db").read_bytes()
    run(*EXPORT, "w", "w.db", "nope", status=1)
    assert Path("w.db").read_bytes() == before and sorted(os.listdir()) == ["w", "w.db"]


def test_damage() -> None:
    """A damaged folder ends it with the status 3, and the old file stays."""
    with cubetree.open("w") as warehouse:
        warehouse.load([(f"part {n}", n, n) for n in range(4000)])
    run(*EXPORT, "w", "w.db")
    before = Path("w.db").read_bytes()
    for path in Path("w").glob("side?"):
        path.write_bytes(b"\xff" * path.stat().st_size)
    said = run(*EXPORT, "w", "w.db", status=3)[1]
    assert said.startswith("cube export: the program ended with the status 6: cubetree: damaged ")
    assert Path("w.db").read_bytes() == before and sorted(os.listdir()) == ["w", "w.db"]
    run(*EXPORT, "w", "out", "--csv", status=3)
    assert sorted(os.listdir()) == ["w", "w.db"]


def test_turns() -> None:
    """It waits for another run in the folder, or not with --no-wait."""
    held = os.open("w", os.O_RDONLY)
    fcntl.flock(held, fcntl.LOCK_EX)
    for words in (["w.db"], ["out", "--csv"], ["-", "--csv", "total"]):
        said = run(*EXPORT, "--no-wait", "w", *words, status=4)[1]
        assert said == "cube export: another run is in w\n"
    waits = subprocess.Popen([*EXPORT, "w", "w.db"], stdout=subprocess.PIPE)
    time.sleep(0.5)
    assert waits.poll() is None and not os.path.exists("w.db")
    os.close(held)
    assert waits.communicate()[0] == b"w.db: 3 tables, 6 rows, of 4 facts\n"


@pytest.mark.parametrize("words", [["w.db"], ["out", "--csv"]])
def test_full_disk(words: List[str]) -> None:
    """Where no room is left, nothing is left behind."""

    def limit() -> None:
        """Files of the tool have at most 4 KiB, which is a page of SQLite."""
        signal.signal(signal.SIGXFSZ, signal.SIG_IGN)
        resource.setrlimit(resource.RLIMIT_FSIZE, (4096, 4096))

    made("v", SCHEMA, [(f"part {n}", n, n) for n in range(400)])
    said = run(*EXPORT, "v", *words, status=1, preexec_fn=limit)[1]
    assert re.fullmatch(r"cube export: (w\.db: .*(full|I/O).*|.*File too large)\n", said)
    assert sorted(os.listdir()) == ["v", "w"]


# ---- stops


PAUSED = """
import sys, time
sys.path.insert(0, sys.argv[1])
import cubetree
from cubetree import export
own = getattr(export, sys.argv[2])
def paused(*words):
    done = own(*words)
    print("paused", flush=True)
    time.sleep(60)
    return done
setattr(export, sys.argv[2], paused)
with cubetree.open("w") as warehouse:
    getattr(export, sys.argv[3])(warehouse, sys.argv[4])
"""


def paused(at: str, function: str, path: str) -> "subprocess.Popen[bytes]":
    """An export that stands still behind the first call of a function."""
    words = [sys.executable, "-c", PAUSED, PACKAGES, at, function, path]
    process = subprocess.Popen(words, stdout=subprocess.PIPE)
    assert process.stdout and process.stdout.readline() == b"paused\n"
    return process


def stop(process: "subprocess.Popen[bytes]", number: int = signal.SIGKILL) -> None:
    """Ends it."""
    process.send_signal(number)
    process.communicate()


@pytest.mark.parametrize("at", ["write_table", "write_file", "sync"])
def test_kill(at: str) -> None:
    """The old file stays whole, and the next export removes the rest."""
    run(*EXPORT, "w", "w.db", "total")
    before = Path("w.db").read_bytes()
    process = paused(at, "export", "w.db")
    assert Path("w.db").read_bytes() == before
    stop(process)
    assert Path("w.db").read_bytes() == before
    assert sorted(os.listdir()) == [".w.db.cube-export", "w", "w.db"]
    with cubetree.open("w") as warehouse:
        warehouse.load([("bolt", 1998, 1)])
    assert run(*EXPORT, "w", "w.db")[0] == "w.db: 3 tables, 6 rows, of 5 facts\n"
    assert sorted(os.listdir()) == ["w", "w.db"] and rows("w.db", "SELECT count FROM total") == [
        (5,)
    ]


@pytest.mark.parametrize("at", ["write_csv", "sync"])
def test_kill_of_csv(at: str) -> None:
    """No folder is there, and the next export removes the rest."""
    stop(paused(at, "export_csv", "out"))
    assert sorted(os.listdir()) == [".out.cube-export", "w"]
    run(*EXPORT, "w", "out", "--csv")
    assert sorted(os.listdir()) == ["out", "w"] and len(os.listdir("out")) == 3


def test_interrupt() -> None:
    """Ctrl-C leaves nothing behind."""
    process = paused("write_table", "export", "w.db")
    stop(process, signal.SIGINT)
    until(lambda: os.listdir() == ["w"])


def test_two_exports() -> None:
    """Of two to one name at a time the second one is refused, and the first one goes on."""
    process = paused("write_table", "export", "w.db")
    said = run(*EXPORT, "w", "w.db", status=1)[1]
    room = os.path.abspath(".w.db.cube-export")
    assert said == f"cube export: another export has the folder {room}\n"
    run(*EXPORT, "w", "other.db")
    assert os.listdir(room) == ["w.db"]
    stop(process)
    run(*EXPORT, "w", "w.db")


def test_room_that_was_taken_away(monkeypatch: pytest.MonkeyPatch) -> None:
    """Who waited for the lock of a room that is gone makes a new one."""
    own: Callable[..., Any] = fcntl.flock
    gone: List[str] = []

    def flock(descriptor: int, how: int) -> None:
        """The room is replaced by another one before the lock is there."""
        own(descriptor, how)
        if not gone:
            gone.append("room")
            os.rename(".x.cube-export", "old")
            os.mkdir(".x.cube-export")

    monkeypatch.setattr(fcntl, "flock", flock)
    with room_for(os.path.abspath("x")) as path:
        Path(path).write_text("new")
        with pytest.raises(Fault, match="another export has the folder .*/.x.cube-export$"):
            taken(os.path.abspath(".x.cube-export"))
        assert os.listdir("old") == [] and os.listdir(".x.cube-export") == ["x"]
    assert sorted(os.listdir()) == ["old", "w"]


def test_room_that_is_a_link() -> None:
    """A link in its name leads to no folder that would be emptied."""
    os.mkdir("mine")
    Path("mine/file").write_text("mine")
    os.symlink("mine", ".w.db.cube-export")
    said = run(*EXPORT, "w", "w.db", status=1)[1]
    assert said.startswith(f"cube export: {os.getcwd()}/.w.db.cube-export: ")
    assert os.listdir("mine") == ["file"] and os.path.islink(".w.db.cube-export")


def test_synced_before_its_name(monkeypatch: pytest.MonkeyPatch) -> None:
    """What is written is on the device before it gets its name, and the name after."""
    done: List[str] = []
    names = {os.fsync: "sync", os.replace: "name", os.rename: "name"}
    for call, word in names.items():

        def noted(*words: Any, call: Any = call, word: str = word) -> Any:
            """Notes a call, with what it is made for."""
            path = os.readlink(f"/proc/self/fd/{words[0]}") if word == "sync" else words[1]
            done.append(f"{word} {os.path.relpath(path)}")
            return call(*words)

        monkeypatch.setattr(os, call.__name__, noted)
    with cubetree.open("w") as warehouse:
        export(warehouse, "w.db")
        assert done == ["sync .w.db.cube-export/w.db", "name w.db", "sync ."]
        done.clear()
        export_csv(warehouse, "out", ["total", "year"])
    inner = ".out.cube-export/out"
    files = [f"sync {inner}/total.csv", f"sync {inner}/by_year.csv"]
    assert done == [*files, f"sync {inner}", "name out", "sync ."]


# ---- beside loads


def test_one_moment() -> None:
    """While batches are loaded, all tables of an export are of the same facts."""
    batches = 150
    feeding = (
        "import sys, time\nsys.path.insert(0, sys.argv[1])\nimport cubetree\n"
        + "with cubetree.open('w') as warehouse:\n"
        f"    for n in range({batches}):\n"
        "        warehouse.load([(f'p{n % 7}', 1990 + n % 5, 1)] * 3)\n"
        "        time.sleep(0.02)\n"
    )
    load = subprocess.Popen([sys.executable, "-c", feeding, PACKAGES])
    seen = set()
    while load.poll() is None:
        run(*EXPORT, "w", "w.db")
        run(*EXPORT, "w", f"out{len(seen)}", "--csv", status=None)
        seen.add(facts_in("w.db"))
    run(*EXPORT, "w", "w.db")
    assert load.returncode == 0 and facts_in("w.db") == 4 + 3 * batches
    assert len(seen) > 3 and {(facts - 4) % 3 for facts in seen} == {0}
    for folder in [name for name in os.listdir() if name.startswith("out")]:
        counts = {counted_in(path) for path in Path(folder).iterdir()}
        assert len(counts) == 1 and len(os.listdir(folder)) == 3


def facts_in(path: str) -> int:
    """How many facts each table of a file counts, which is one number."""
    names = ("by_part_year", "by_year", "total")
    counts = {rows(path, f"SELECT SUM(count), SUM(sum_qty) FROM {name}")[0] for name in names}
    ((facts, total),) = counts
    assert [(facts,)] == rows(path, "SELECT facts FROM _about") and total == 8 + facts - 4
    return int(facts)


def counted_in(path: Path) -> int:
    """How many facts a file of csv counts."""
    head, *lines = [line.split(",") for line in path.read_text().splitlines()]
    return sum(int(line[head.index("count")]) for line in lines)
