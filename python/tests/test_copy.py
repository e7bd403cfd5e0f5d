"""Tests of copy."""
from __future__ import annotations

import errno
import os
import random
import resource
import shutil
import signal
import stat
import subprocess
import sys
import tempfile
import time
from contextlib import contextmanager
from pathlib import Path
from typing import Dict, Iterator, List, Tuple

import pytest

import cubetree
from cubetree import Fault, copies
from cubetree import locks as turns
from cubetree.copies import copy
from cubetree.format.files import live_body
from cubetree.process import program
from tests.helpers import CUBE, ask, load, run, until

COPY = CUBE, "copy"
SCHEMA = "attr part text\nattr year number\nmeasure qty\nview part,year\nview year\nview\n"
COUNTED = ("root", "names", "side0", "side1")
KEPT = (*COUNTED, ".batches", ".columns")
NOBODY = 65534


@pytest.fixture(name="room", autouse=True)
def room_of(tmp_path: Path, monkeypatch: pytest.MonkeyPatch) -> Path:
    """A folder `w` with two batches of the file `f`, in the current folder."""
    monkeypatch.chdir(tmp_path)
    Path("schema").write_text(SCHEMA)
    Path("f").write_text("part,year,qty\n" + "".join(f"p{n},199{n},{n}\n" for n in range(5)))
    (tmp_path / "w").mkdir()
    load("--folder", "w", "--schema", "schema", "--batch", "3", "f")
    return tmp_path


def files(folder: str) -> Dict[str, bytes]:
    """The files of a folder."""
    return {
        path.name: path.read_bytes() for path in sorted(Path(folder).iterdir()) if path.is_file()
    }


def rows(folder: str, text: str = "count,sum(qty)") -> List[Tuple[object, ...]]:
    """The rows of an answer."""
    with cubetree.open(folder) as warehouse:
        return list(warehouse.slice(text))


def is_sound(folder: str) -> bool:
    """Whether the program finds a folder sound."""
    return run(program(), given=b"audit\n", cwd=folder)[0] == "audit yes\n"


# ---- what a copy has


def test_copy() -> None:
    """It has the files as they stand, and is a warehouse of its own."""
    os.mkdir("w/.feed")
    Path("w/.feed/gathered").write_text("rows")
    Path("w/notes").write_text("mine")
    assert run(*COPY, "w", "new") == ("new keeps 5 facts\n", "")
    assert files("new") == {
        name: content for name, content in files("w").items() if name != "notes"
    }
    assert set(files("new")) == set(KEPT)
    assert set(os.listdir("new")) == set(KEPT)
    assert rows("new", "sum(qty) by part") == [(f"p{n}", n) for n in range(5)]
    assert is_sound("new")
    assert os.stat("new/side0").st_ino != os.stat("w/side0").st_ino
    before = files("w")
    run(program(), given=b"load\nx,1,1\nend\n", cwd="new")
    assert (files("w"), rows("w"), rows("new")) == (before, [(5, 10)], [(6, 11)])
    assert sorted(os.listdir()) == ["f", "new", "schema", "w"]


def test_loads_go_on() -> None:
    """A load into the copy knows what the folder took."""
    copy("w", "new")
    said = load("--folder", "new", "f")[1]
    assert said == "cube load: 0 rows loaded, 5 were there already; the folder keeps 5 facts\n"
    with open("f", "a") as file:
        file.write("p9,1999,9\n")
    said = load("--folder", "new", "f")[1]
    assert said == "cube load: 1 row loaded, 5 were there already; the folder keeps 6 facts\n"
    assert (rows("w"), rows("new")) == ([(5, 10)], [(6, 19)])


def test_kinds_go_on() -> None:
    """The copy knows which columns have amounts and dates."""
    Path("fees").write_text("day,fee\n2025-03-14,12.50\n2025-04-01,0.05\n")
    os.mkdir("v")
    load("--folder", "v", "--cents", "fee", "--dates", "day", "--yes", "fees")
    assert run(*COPY, "v", "new")[0] == "new keeps 2 facts\n"
    printed = ask("--folder", "new", "--csv", "sum(fee) by month(day)")[0]
    assert printed == "month(day),sum(fee)\n2025-03,12.50\n2025-04,0.05\n"


def test_undo_in_the_copy() -> None:
    """The last batch can be taken back in the copy, and is loaded again there."""
    copy("w", "new")
    said = run(CUBE, "undo", "--yes", "new")[0]
    assert said.endswith("done: the folder keeps 3 facts; batch 2 is due again\n")
    assert (rows("w"), rows("new")) == ([(5, 10)], [(3, 3)])
    assert is_sound("new")
    assert "2 rows loaded, 3 were there already" in load("--folder", "new", "f")[1]
    copy("new", "second")
    assert rows("second") == [(5, 10)]


def test_copy_of_what_was_taken_back() -> None:
    """A copy behind undo has the batches before."""
    run(CUBE, "undo", "--yes", "w")
    assert copy("w", "new") == 3
    assert is_sound("new") and rows("new") == [(3, 3)]


def test_shard_and_upgrade() -> None:
    """The file of a shard is copied, and the format of the pages stays."""
    Path("w/.shard").write_text("x\n")
    run(program(), given=b"upgrade\n", cwd="w")
    assert copy("w", "new") == 5
    assert files("new") == files("w") and is_sound("new")


@pytest.mark.parametrize("count", [0, 1])
def test_few_facts(count: int) -> None:
    """A folder that has a schema and no facts can be copied too."""
    os.mkdir("few")
    rows_sent = "a,1,1\n" * count
    run(program(), given=f"schema\n{SCHEMA}end\nload\n{rows_sent}end\n".encode(), cwd="few")
    words = "1 fact" if count else "0 facts"
    assert run(*COPY, "few", "new")[0] == f"new keeps {words}\n"
    assert run(program(), given=b"status\naudit\n", cwd="new")[0] == f"facts {count}\naudit yes\n"


@pytest.mark.parametrize("mode", [0o700, 0o750, 0o755, 0o2770])
def test_permissions(mode: int) -> None:
    """Those of the folder and of its files are kept, whatever an empty folder had."""
    os.chmod("w", mode)
    os.chmod("w/names", 0o600)
    os.mkdir("there", 0o711)
    for new in ("new", "there"):
        copy("w", new)
        assert stat.S_IMODE(os.stat(new).st_mode) == mode
        assert stat.S_IMODE(os.stat(f"{new}/names").st_mode) == 0o600
        assert os.stat(f"{new}/side1").st_mtime_ns == os.stat("w/side1").st_mtime_ns


def test_synced(monkeypatch: pytest.MonkeyPatch) -> None:
    """All bytes are on the device before the copy has its name, and the name after it."""
    told: List[str] = []
    place, real = os.path.realpath("."), os.rename

    def renamed(old: str, new: str) -> None:
        """Renames a folder, and notes it."""
        told.append("renamed")
        real(old, new)

    monkeypatch.setattr(os, "fsync", lambda file: told.append(os.readlink(f"/proc/self/fd/{file}")))
    monkeypatch.setattr(os, "rename", renamed)
    copy("w", "new")
    room = os.path.dirname(told[0])
    assert os.path.dirname(room) == place and os.path.basename(room).startswith(".copy-")
    assert set(told[:6]) == {os.path.join(room, name) for name in KEPT}
    assert told[6:] == [room, "renamed", place]


# ---- where it goes


@pytest.mark.parametrize(
    "new", ["new", "new/", "./new", "there", "there/", "w/inside", "link", "gone"]
)
def test_places(new: str) -> None:
    """NEW may be there if it is empty; a link stands for what it names."""
    os.mkdir("there")
    os.mkdir("far")
    os.symlink("far", "link")
    os.symlink("nowhere", "gone")
    assert run(*COPY, "w", new) == (f"{new} keeps 5 facts\n", "")
    assert rows(new) == [(5, 10)] and rows("w") == [(5, 10)]
    assert os.path.islink("link") and os.path.islink("gone")
    places = [*Path(".").iterdir(), *Path("w").iterdir()]
    assert not [path for path in places if path.name.startswith(".copy-")]


@pytest.mark.parametrize(
    "new, said",
    [
        ("full", "full is there, and is no empty folder"),
        ("file", "file is there, and is no empty folder"),
        ("w", "w is there, and is no empty folder"),
        ("to_file", "file is there, and is no empty folder"),
        ("nowhere/new", "no such folder: {here}/nowhere"),
        ("file/new", "no such folder: {here}/file"),
        ("loop", "loop"),
    ],
)
def test_places_that_cannot_be(new: str, said: str) -> None:
    """The fault names the place, and nothing changes."""
    os.mkdir("full")
    Path("full/.hidden").touch()
    Path("file").write_text("mine")
    os.symlink("file", "to_file")
    os.symlink("loop", "loop")
    before = sorted(os.listdir())
    printed, found = run(*COPY, "w", new, status=1)
    assert printed == "" and found.startswith("cube copy: ") and found.count("\n") == 1
    assert said.format(here=os.path.realpath(".")) in found
    assert sorted(os.listdir()) == before and os.listdir("full") == [".hidden"]
    assert Path("file").read_text() == "mine"


def test_current_folder() -> None:
    """The current folder cannot be replaced, and the fault says so."""
    os.mkdir("here")
    said = run(*COPY, "../w", ".", cwd="here", status=1)[1]
    assert said == "cube copy: . cannot be made: Device or resource busy\n"
    assert os.listdir("here") == [] and sorted(os.listdir()) == ["f", "here", "schema", "w"]


def test_nothing_to_copy() -> None:
    """A folder without a warehouse, or without a schema, is named."""
    os.mkdir("empty")
    os.mkdir("torn")
    for name in COUNTED:
        Path("torn", name).write_bytes(b"")
    for folder, said in [
        ("empty", "empty has no warehouse: there is nothing to copy"),
        ("torn", "no schema is declared in torn"),
        ("nowhere", "no such folder: nowhere"),
        ("f", "no such folder: f"),
    ]:
        assert run(*COPY, folder, "new", status=1) == ("", f"cube copy: {said}\n")
    assert sorted(os.listdir()) == ["empty", "f", "schema", "torn", "w"]


def test_words() -> None:
    """Wrong words are named."""
    assert "the following arguments are required: NEW" in run(*COPY, "w", status=2)[1]
    assert "unrecognized arguments: third" in run(*COPY, "w", "new", "third", status=2)[1]
    assert "unrecognized arguments: --never" in run(*COPY, "--never", "w", "new", status=2)[1]
    assert not os.path.exists("new")


# ---- beside others


def test_no_wait() -> None:
    """It waits for a batch that is under way, or ends with status 4; between batches it goes on."""
    writer = turns.Writer("cube load", "w")
    writer.enter()
    writer.begin_batch()
    said = run(*COPY, "--no-wait", "w", "new", status=4, timeout=60)
    assert said == ("", "cube copy: another run is in w\n")
    assert sorted(os.listdir()) == ["f", "schema", "w"]
    waits = subprocess.Popen([*COPY, "w", "new"], stdout=subprocess.PIPE, stderr=subprocess.PIPE)
    assert waits.stderr and waits.stderr.readline() == b"cube copy: waits for another run in w\n"
    assert not os.path.exists("new")
    writer.end_batch()
    assert waits.communicate(timeout=60) == (b"new keeps 5 facts\n", b"")
    assert run(*COPY, "--no-wait", "w", "second")[0] == "second keeps 5 facts\n"
    writer.leave()
    with flocked("w"):
        assert run(*COPY, "--no-wait", "w", "third", status=4, timeout=60)[1] == said[1]


@contextmanager
def flocked(folder: str) -> Iterator[None]:
    """Holds a folder as `flock FOLDER cubetree` does."""
    holder = subprocess.Popen(["flock", folder, "cat"], stdin=subprocess.PIPE)
    until(lambda: subprocess.run(["flock", "-n", folder, "true"]).returncode != 0)
    try:
        yield
    finally:
        holder.communicate()


def test_writers_wait(monkeypatch: pytest.MonkeyPatch) -> None:
    """No batch comes in while files are copied."""
    tried: List[bool] = []
    real = copies.copy_file

    def copied(path: str, new: str) -> None:
        """Copies a file after a try to write."""
        writer = turns.Writer("cube load", "w", waits=False)
        writer.enter()
        try:
            writer.begin_batch()
        except cubetree.Busy:
            tried.append(True)
        writer.leave()
        real(path, new)

    monkeypatch.setattr(copies, "copy_file", copied)
    assert copy("w", "new") == 5
    assert tried == [True] * 6
    writer = turns.Writer("cube load", "w", waits=False)
    writer.enter()
    writer.begin_batch()
    writer.leave()


def test_held_batch() -> None:
    """A copy beside a batch that is held open waits for it, and has it whole."""
    Path("slow").write_text(
        "#!/bin/sh\nwhile IFS= read -r line; do\n"
        'if [ "$line" = end ] && [ "$before" != "load 18446744073709551615" ]; then touch ../mid\n'
        "until [ -e ../go ]; do sleep 0.02; done; fi\n"
        'printf "%s\\n" "$line"; before=$line\ndone | "$PROGRAM"\n'
    )
    os.chmod("slow", 0o755)
    with open("f", "a") as file:
        file.write("p5,1995,100\np6,1996,200\n")
    slow = dict(os.environ, CUBETREE=os.path.abspath("slow"), PROGRAM=program())
    words = [CUBE, "load", "--folder", "w", "f"]
    begun = subprocess.Popen(words, env=slow, stderr=subprocess.PIPE)
    until(lambda: os.path.exists("mid"))
    assert (
        run(*COPY, "--no-wait", "w", "new", status=4, timeout=60)[1]
        == "cube copy: another run is in w\n"
    )
    waits = subprocess.Popen([*COPY, "w", "new"], stdout=subprocess.PIPE)
    time.sleep(0.3)
    assert waits.poll() is None and not os.path.exists("new")
    Path("go").touch()
    assert waits.communicate(timeout=60)[0] == b"new keeps 7 facts\n"
    assert begun.wait(60) == 0
    assert is_sound("new") and rows("new") == [(7, 310)]


def line_of(qty: int) -> str:
    """A drawn row."""
    return f"p{qty % 7},{1990 + qty % 5},{qty}\n"


def has_facts(folder: str, count: int) -> bool:
    """Whether a folder has a schema, and so many facts or more."""
    try:
        return live_body(folder).facts >= count
    except (Fault, FileNotFoundError):
        return False


def test_copies_beside_a_load() -> None:
    """Each copy is sound, and has a front of the file up to the end of a batch."""
    draw = random.Random(7)
    batches = [[draw.randrange(-99, 100) for _ in range(30)] for _ in range(60)]
    os.mkfifo("pipe")
    os.mkdir("v")
    words = [CUBE, "load", "--folder", "v", "--schema", "schema", "--batch", "30", "pipe"]
    begun = subprocess.Popen(words, stderr=subprocess.PIPE)
    counts = []
    with open("pipe", "w") as pipe:
        pipe.write("part,year,qty\n")
        for number, batch in enumerate(batches, 1):
            pipe.write("".join(map(line_of, batch)))
            pipe.flush()
            if number % 6:
                continue
            until(lambda: has_facts("v", 30 * number - 60))
            counts.append(copy("v", f"new{number}"))
            sent = sum(sum(each) for each in batches[: counts[-1] // 30])
            assert rows(f"new{number}") == [(counts[-1], sent)]
            assert is_sound(f"new{number}")
    assert begun.wait(60) == 0
    assert len(set(counts)) == 10 and not any(count % 30 for count in counts)
    assert copy("v", "last") == 1800
    # A load of the same rows goes on in a copy.
    Path("all").write_text(
        "part,year,qty\n" + "".join(line_of(n) for each in batches for n in each)
    )
    said = load("--folder", "new30", "--number", "1", "--batch", "30", "all")[1]
    assert "the folder keeps 1,800 facts" in said
    assert rows("new30", "sum(qty) by part,year") == rows("last", "sum(qty) by part,year")


# ---- stops and faults


def stopped_at(place: int) -> None:
    """Copies in a process of its own, which is killed before its file or rename of this place."""
    child = os.fork()
    if not child:
        left = [place]

        real, real_rename = copies.copy_file, os.rename

        def before() -> None:
            """Ends the process at the place."""
            if not left[0]:
                os.kill(os.getpid(), signal.SIGKILL)
            left[0] -= 1

        def copied(path: str, new: str) -> None:
            """Copies a file unless the place has come."""
            before()
            real(path, new)

        def renamed(old: str, new: str) -> None:
            """Renames a folder unless the place has come."""
            before()
            real_rename(old, new)

        copies.copy_file = copied
        os.rename = renamed  # type: ignore[assignment]
        try:
            copy("w", "new")
        finally:
            os._exit(0)
    assert os.waitstatus_to_exitcode(os.waitpid(child, 0)[1]) == -signal.SIGKILL


def test_kills() -> None:
    """A stop at any place leaves NEW absent, and a folder that may be removed."""
    before = files("w")
    for place in range(7):
        stopped_at(place)
        assert not os.path.exists("new") and files("w") == before
        left = [name for name in os.listdir() if name not in ("f", "schema", "w")]
        assert len(left) == 1 and left[0].startswith(".copy-")
        assert set(os.listdir(left[0])) == set(KEPT[:place])
        shutil.rmtree(left[0])
    stopped_at(3)
    assert run(*COPY, "w", "new")[0] == "new keeps 5 facts\n"
    assert is_sound("new")


@pytest.mark.parametrize(
    "fault", [OSError(errno.ENOSPC, "No space left on device"), KeyboardInterrupt()]
)
def test_faults(monkeypatch: pytest.MonkeyPatch, fault: BaseException) -> None:
    """Whatever goes wrong in the middle leaves nothing behind."""
    real = copies.copy_file
    for place in range(6):
        left = [place]

        def copied(path: str, new: str) -> None:
            """Copies the first files, and part of the next one."""
            if not left[0]:
                Path(new).write_bytes(b"part")
                raise fault
            left[0] -= 1
            real(path, new)

        monkeypatch.setattr(copies, "copy_file", copied)
        with pytest.raises(type(fault)):
            copy("w", "new")
        assert sorted(os.listdir()) == ["f", "schema", "w"]
        writer = turns.Writer("cube load", "w", waits=False)
        writer.enter()
        writer.begin_batch()
        writer.leave()


def test_interrupt() -> None:
    """Control-C while it waits says that it stopped."""
    with flocked("w"):
        begun = subprocess.Popen(
            [*COPY, "w", "new"],
            stderr=subprocess.PIPE,
            # A shell that runs the tests in the background has the signal ignored.
        )
        assert begun.stderr and begun.stderr.readline().endswith(b"waits for another run in w\n")
        begun.send_signal(signal.SIGINT)
        said = begun.communicate(timeout=60)[1]
    assert (begun.returncode, said) == (1, b"cube copy: stopped\n")
    assert sorted(os.listdir()) == ["f", "schema", "w"]


def test_limit_of_files() -> None:
    """A file that cannot grow is a fault that names it, and nothing is left."""
    done = subprocess.run(
        [*COPY, "w", "new"],
        capture_output=True,
        text=True,
        preexec_fn=lambda: resource.setrlimit(resource.RLIMIT_FSIZE, (8192, 8192)),
    )
    assert done.returncode == 1 and done.stdout == ""
    assert done.stderr.startswith("cube copy: ") and done.stderr.endswith(": File too large\n")
    assert sorted(os.listdir()) == ["f", "schema", "w"]


def test_full_disk() -> None:
    """A full disk is a fault that says so, and nothing is left there."""
    os.mkdir("small")
    mount = ["mount", "-t", "tmpfs", "-o", "size=16k", "tmpfs", "small"]
    if os.getuid() or subprocess.run(mount, capture_output=True).returncode:
        pytest.skip("no small disk can be made")
    try:
        said = run(*COPY, "w", "small/new", status=1)[1]
        assert said.startswith("cube copy: ") and said.endswith(": No space left on device\n")
        assert os.listdir("small") == []
    finally:
        subprocess.run(["umount", "small"], check=True)


def test_no_permission() -> None:
    """A folder that takes no copy is named."""
    if os.getuid():
        pytest.skip("only root can be another user")
    run(*COPY, "w", "new")
    with tempfile.TemporaryDirectory() as folder:  # pytest's own folders are closed to others
        os.chmod(folder, 0o755)
        copy("w", f"{folder}/w")
        ask("--folder", f"{folder}/w", "count")
        words = [sys.executable, CUBE, "copy", f"{folder}/w", f"{folder}/new"]
        done = subprocess.run(words, capture_output=True, text=True, user=NOBODY, group=NOBODY)
        assert (done.returncode, done.stdout) == (1, "")
        assert done.stderr.startswith(f"cube copy: {folder}/")
        assert done.stderr.endswith(": Permission denied\n")
        assert os.listdir(folder) == ["w"]


def test_folder_that_fills_up(monkeypatch: pytest.MonkeyPatch) -> None:
    """A folder that another run has made meanwhile is not replaced."""
    real = copies.copy_file

    def copied(path: str, new: str) -> None:
        """Copies a file, while another run makes NEW."""
        os.makedirs("new", exist_ok=True)
        Path("new/other").touch()
        real(path, new)

    monkeypatch.setattr(copies, "copy_file", copied)
    with pytest.raises(Fault, match="new cannot be made: Directory not empty"):
        copy("w", "new")
    assert os.listdir("new") == ["other"] and sorted(os.listdir()) == ["f", "new", "schema", "w"]
