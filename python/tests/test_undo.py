"""Tests of undo."""
from __future__ import annotations

import os
import pty
import random
import shutil
import subprocess
from pathlib import Path
from typing import List, Tuple

import pytest

import cubetree
from cubetree import Fault
from cubetree import locks as turns
from cubetree.batches import Noted, Record
from cubetree.feed.spool import Place, entry_of
from cubetree.format.files import BODY, GATES, live_body, raised_bodies
from cubetree.format.forest import PAGE, Forest
from cubetree.process import program
from cubetree.schema import kept_schema
from cubetree.undo import Undo, shut_gate
from tests.helpers import CUBE, load, run

UNDO = CUBE, "undo"
VIEWS = "view part,year\nview year\nview part\nview\n"
SCHEMA = f"attr part text\nattr year number\nmeasure qty\n{VIEWS}"
UNDONE = (
    "nothing can be taken back: since the last batch another one has begun, or the last batch was"
    " taken back already"
)


@pytest.fixture(name="folder")
def folder_of(tmp_path: Path, monkeypatch: pytest.MonkeyPatch) -> Path:
    """A folder `w` with a schema, in the current folder."""
    monkeypatch.chdir(tmp_path)
    (tmp_path / "w").mkdir()
    script(f"schema\n{SCHEMA}end\n")
    return tmp_path / "w"


def script(text: str, folder: str = "w") -> str:
    """What the program replies to a script."""
    return run(program(), given=text.encode(), cwd=folder)[0]


def undo(*words: str, status: int = 0) -> Tuple[str, str]:
    """What undo prints, and what it says on standard error."""
    return run(*UNDO, *words, "w", status=status)


def files(folder: str = "w") -> "dict[str, bytes]":
    """The files of a warehouse."""
    names = ("root", "names", "side0", "side1")
    return {name: Path(folder, name).read_bytes() for name in names if Path(folder, name).exists()}


def test_last_batch(folder: Path) -> None:
    """It takes back a numbered batch, whose number is due again, and no second one."""
    Path("f").write_text("part,year,qty\na,1,5\nb,2,7\n")
    Path("g").write_text("part,year,qty\nc,1,1\nd,1,1\ne,1,1\n")
    load("--into", "w", "f")
    load("--into", "w", "g")
    source = os.path.realpath("g")
    says = (
        f"undo takes back batch 2, of 3 rows: rows 1 to 3 of {source}\n"
        "the folder keeps 5 facts now, and 2 facts after it\n"
    )
    now = files()
    assert undo("--dry-run") == (says, "")
    assert undo(status=1) == (says, "cube undo: no terminal to ask at: give --yes\n")
    assert files() == now
    told = undo("--yes")[0]
    assert told == says + "done: the folder keeps 2 facts; batch 2 is due again\n"
    replies = script("status\naudit\nslice sum(qty) by part\n")
    assert replies == "facts 2\naudit yes\na,5\nb,7\nrows 2\n"
    after = files()
    assert [name for name in now if now[name] != after[name]] == ["root"]
    both = enumerate(zip(now["root"], after["root"]))
    assert [place for place, (old, new) in both if old != new] == [GATES]
    assert undo("--yes", status=1)[1] == f"cube undo: {UNDONE}\n"
    assert files() == after
    # What the tools know of batch 2 is gone: other rows are new ones.
    Path("g").write_text("part,year,qty\nx,1,9\n")
    assert "1 row loaded; the folder keeps 3 facts" in load("--into", "w", "g")[1]
    assert "2 were there already" in load("--into", "w", "f")[1]
    assert script("audit\nslice sum(qty)\n") == "audit yes\n21\nrows 1\n"


def test_batches_of_a_file(folder: Path) -> None:
    """The last batch of a file is loaded again by the same load."""
    Path("f").write_text("part,year,qty\n" + "".join(f"p{n},1,{n}\n" for n in range(10)))
    load("--into", "w", "--batch", "4", "f")
    assert "batch 3, of 2 rows: rows 9 to 10 of " in undo("--yes")[0]
    said = load("--into", "w", "f")[1]
    assert "2 rows loaded, 8 were there already; the folder keeps 10 facts" in said
    assert script("slice sum(qty)\n") == "45\nrows 1\n"


def test_batch_that_was_not_sent(folder: Path) -> None:
    """A batch that a killed load has noted after the last one is forgotten with it."""
    Path("f").write_text("part,year,qty\na,1,5\n")
    load("--into", "w", "f")
    Record("w", 2, 1).note(Noted(2, 1, 1, "0" * 32, 2, os.path.realpath("f")))
    undo("--yes")
    assert "1 row loaded; the folder keeps 1 fact" in load("--into", "w", "f")[1]


def test_batches_without_a_number(folder: Path) -> None:
    """It takes back what no tool knows."""
    script("load 1\na,1,1\nend\nload\nb,1,2\nend\n")
    assert undo("--yes")[0].startswith("undo takes back the last batch, of 1 row\n")
    assert script("status\nload 2\nc,1,4\nend\n") == "facts 1\ncommitted 2\n"
    assert undo("--yes")[0].startswith("undo takes back batch 2, of 1 row\n")
    assert script("load 3\nd,1,1\nend\nslice sum(qty)\n") == "refused gap 2\n1\nrows 1\n"


def test_upgrade(folder: Path) -> None:
    """It takes back an upgrade."""
    script("load\na,1,1\nend\nupgrade\n")
    assert live_body("w").format == 2
    assert undo("--yes")[0].startswith("undo takes back the upgrade to format 2\n")
    assert live_body("w").format == 1
    assert script("audit\nslice sum(qty) by part\n") == "audit yes\na,1\nrows 1\n"


def test_nothing_to_take_back(folder: Path) -> None:
    """Nothing is there, or another batch has begun."""
    assert (
        undo("--yes", status=1)[1]
        == "cube undo: nothing can be taken back: no batch was accepted\n"
    )
    script("load\na,1,1\nend\nload\nb,1,2\nend\nbegin\nc,1,4\nend\nabandon\n")
    before = files()
    assert undo("--yes", status=1)[1] == f"cube undo: {UNDONE}\n"
    assert files() == before
    os.mkdir("e")
    assert run(*UNDO, "e", status=1)[1] == "cube undo: no schema is declared in e\n"
    assert run(*UNDO, "nowhere", status=1)[1] == "cube undo: no such folder: nowhere\n"


def test_who_would_send_it_again(folder: Path) -> None:
    """A feed with rows, and a shard."""
    feed = CUBE, "feed"
    run(*feed, "--into", "w", given=b"a,1,1\n")
    assert "done: the folder keeps 0 facts" in undo("--yes")[0]
    run(*feed, "--into", "w", given=b"b,1,1\n")
    spool = Path("w/.feed")
    gathered = (spool / "gathered").read_bytes()
    for name in ("sealed", "sending.1"):
        (spool / name).write_bytes(gathered)
        assert "a feed has rows in " in undo("--yes", status=1)[1]
        (spool / name).unlink()
    with open("w/.feed/gathered", "ab") as file:
        file.truncate(len(gathered.rstrip(b"\0")))
        file.write(entry_of(Place("-", 0), [b"c,1,1"]))
    assert "a feed has rows in " in undo("--yes", status=1)[1]
    (spool / "gathered").unlink()
    Path("w/.shard").write_text("x\n")
    assert "w is a shard: the other shards would keep the batch" in undo("--yes", status=1)[1]
    assert script("status\n") == "facts 1\n"


def test_busy(folder: Path) -> None:
    """It waits for other writers, and readers wait while it writes."""
    script("load\na,1,1\nend\n")
    writer = turns.Writer("cube load", "w")
    writer.enter()
    assert undo("--yes", "--no-wait", status=4)[1] == "cube undo: another run is in w\n"
    writer.leave()
    reader = turns.Reader("cube ask", "w")
    reader.enter()
    assert undo("--yes", "--no-wait", status=4)[1] == "cube undo: another run is in w\n"
    reader.leave()
    assert undo("--yes")[0].endswith("done: the folder keeps 0 facts\n")


@pytest.mark.parametrize("answer, status", [("y", 0), ("yes", 0), ("n", 1), ("", 1)])
def test_question(folder: Path, answer: str, status: int) -> None:
    """At a terminal it asks."""
    script("load\na,1,1\nend\n")
    try:
        mine, its = pty.openpty()
    except OSError:
        pytest.skip("no terminal can be made")
    done = subprocess.Popen([*UNDO, "w"], stdin=its, stdout=subprocess.PIPE, stderr=subprocess.PIPE)
    os.write(mine, answer.encode() + b"\n")
    told, said = done.communicate(timeout=60)
    os.close(mine)
    os.close(its)
    assert b"Take it back? [y/N] " in told
    assert done.returncode == status
    assert said == (b"cube undo: nothing was changed\n" if status else b"")
    assert script("status\n") == f"facts {status}\n"


def test_damaged_generation_before(folder: Path) -> None:
    """What would be there is read before anything is changed."""
    script("load\na,1,1\nb,1,1\nend\nload\nc,1,2\nend\n")
    side = Path(f"w/side{1 - live_body('w').slot}")
    good = side.read_bytes()
    for place in (0, 8, 40, len(good) - PAGE + 3):
        side.write_bytes(good[:place] + bytes([good[place] ^ 1]) + good[place + 1 :])
        before = files()
        said = undo("--yes", status=1)[1]
        assert "nothing can be taken back: the batch before it is damaged" in said
        assert files() == before
    side.write_bytes(good[:-1])
    assert "the batch before it is damaged" in undo("--yes", status=1)[1]
    side.write_bytes(good)
    root = Path("w/root").read_bytes()
    Path("w/side" + str(live_body("w").slot)).write_bytes(b"")
    assert undo("--yes", status=3)[1].startswith("cube undo: ")
    assert Path("w/root").read_bytes() == root


def test_each_byte_that_a_stop_may_leave(folder: Path) -> None:
    """Within the write the gate may be any byte: a 1 has the batch, each other one does not."""
    script("load\na,1,1\nb,3,1\nend\nload\nc,1,2\nend\n")
    slot = live_body("w").slot
    for value in range(256):
        with open("w/root", "r+b") as root:
            root.seek(GATES + slot)
            root.write(bytes([value]))
        assert script("status\naudit\n") == f"facts {3 if value == 1 else 2}\naudit yes\n"


def test_synced(folder: Path, monkeypatch: pytest.MonkeyPatch) -> None:
    """What is written is synced."""
    synced: List[str] = []
    path_of = "/proc/self/fd/{}".format
    monkeypatch.setattr(os, "fsync", lambda file: synced.append(os.readlink(path_of(file))))
    script("load\na,1,1\nend\n")
    shut_gate("w/root", live_body("w").slot)
    assert synced == [os.path.realpath("w/root")]
    assert script("status\n") == "facts 0\n"


def test_run_without_locks(folder: Path) -> None:
    """What was looked at has to be there still when it is taken back."""
    script("load\na,1,1\nend\n")
    with Undo("w", True) as undoing:
        script("load\nb,1,1\nend\n")
        with pytest.raises(Fault, match="another run has changed the folder meanwhile"):
            undoing.write()
    assert script("status\n") == "facts 2\n"


def test_gate_that_is_shut(folder: Path) -> None:
    """0 is never written to a gate that is not 1."""
    script("load\na,1,1\nend\nload\nb,1,2\nend\n")
    slot = live_body("w").slot
    for value in (0, 2, 255):
        with open("w/root", "r+b") as root:
            root.seek(GATES + slot)
            root.write(bytes([value]))
        with pytest.raises(Fault, match="another run has changed the folder meanwhile"):
            shut_gate("w/root", slot)
        assert Path("w/root").read_bytes()[GATES + slot] == value


def test_drawn(folder: Path) -> None:
    """Drawn batches, upgrades and undos: the facts are those of a list, and names and pages those
    of a folder that never had what was taken back."""
    draw = random.Random(69)
    kept: List[List[str]] = []
    undone = True
    for _ in range(60):
        way = draw.choice(["load", "load", "load", "undo", "undo", "upgrade"])
        if way == "load":
            count = draw.choice([1, 3, 300])
            rows = [
                f"{draw.choice('abcdefg')},{draw.randrange(400)},{draw.randrange(9)}"
                for _ in range(count)
            ]
            script("load\n" + "".join(row + "\n" for row in rows) + "end\n")
            kept, undone = [*kept, rows], False
        elif way == "undo" and not undone:
            told = undo("--yes")[0]
            if "upgrade" not in told:
                kept.pop()
            undone = True
        elif way == "upgrade" and live_body("w").format == 1:
            script("upgrade\n")
            undone = False
        compare(kept)


def compare(kept: "list[list[str]]") -> None:
    """Compares a folder with one that has these batches and nothing else."""
    facts = sum(map(len, kept))
    assert script("status\naudit\n") == f"facts {facts}\naudit yes\n"
    body = live_body("w")
    shutil.rmtree("fresh", ignore_errors=True)
    os.mkdir("fresh")
    loads = "".join("load\n" + "".join(row + "\n" for row in rows) + "end\n" for rows in kept)
    script(f"schema\n{SCHEMA}end\n{loads}" + "upgrade\n" * (body.format == 2), "fresh")
    fresh = live_body("fresh")
    assert body._replace(slot=0, generation=0) == fresh._replace(slot=0, generation=0)
    mine, its = files(), files("fresh")
    assert mine["names"][: body.names] == its["names"][: fresh.names]
    size = PAGE * Forest(kept_schema("w")).pages(body.points, body.width())
    sides = mine.get(f"side{body.slot}", b"")[:size], its.get(f"side{fresh.slot}", b"")[:size]
    assert len(sides[0]) == size and sides[0] == sides[1]


def test_root_has_both(folder: Path) -> None:
    """The bodies are read as docs/FORMATS.md has them."""
    script("load 1\na,1,1\nend\nload 2\nb,2,1\nc,2,1\nend\n")
    bodies = sorted(raised_bodies("w"), key=lambda body: body.generation)
    found = [(body.generation, body.facts, body.last, body.slot) for body in bodies]
    assert found == [(1, 1, 1, 1), (2, 3, 2, 0)]
    assert Path("w/root").stat().st_size == 2 * BODY + 2
    assert cubetree.open("w").status().facts == 3


def test_words(folder: Path) -> None:
    """Wrong words are named."""
    assert "unrecognized arguments: --never" in undo("--never", status=2)[1]
    assert "no schema is declared in ." in run(*UNDO, status=1)[1]
    assert "FOLDER and --folder name the folder" in run(*UNDO, "w", "--folder", "w", status=2)[1]
    assert "Takes back the last batch of a folder" in run(*UNDO, "--help")[0]
    assert run(*UNDO, "--version")[0].startswith("cube 0.")
